/*
 * The C interface of Midvokt: four calls. midvokt_plan plans how a quantum-circuit simulator
 * cuts one wide register into small independent ones. midvokt_store plans and also writes the
 * plan as a file, to be kept; midvokt_load reads such a file back, so that a circuit that is
 * used often is not planned each time. midvokt_optimize makes a list of pending operations,
 * those that a simulator has queued and not yet planned, shorter. C99 and C++11. To link:
 *
 *     cc -I include program.c target/staticlib/libmidvokt.a -lm
 *     c++ -I include program.cpp target/staticlib/libmidvokt.a -lm
 *
 * The library itself needs memcpy, memmove and memset alone; -lm is for the sine and the cosine
 * of a program's angles. midvokt_buffers.h, beside this header, has the buffers as one struct,
 * makes records of Paulis such as "Y0*Z1", and says a refusal in words.
 *
 *
 * A first program
 *
 * It plans a rotation about X0 X2 by 0, whose cosine is 1:
 *
 *     #include <stdio.h>
 *     #include "midvokt.h"
 *
 *     #define LENT(words) words, sizeof(words) / sizeof(words)[0]
 *
 *     static const uint64_t record[MIDVOKT_RECORD_WORDS] = {
 *         MIDVOKT_KIND_ROTATION, 3, 5, 0, 0, 0, 0, UINT64_C(0x3ff0000000000000)};
 *     static uint64_t steps[MIDVOKT_STEPS_WORDS(1)], merges[MIDVOKT_MERGES_WORDS(1)];
 *     static uint64_t sizes[MIDVOKT_SIZES_WORDS(1)], rotations[MIDVOKT_ROTATIONS_WORDS(1)];
 *     static uint64_t promotions[MIDVOKT_PROMOTIONS_WORDS(1)];
 *     static uint64_t measurements[MIDVOKT_MEASUREMENTS_WORDS(1)];
 *     static uint64_t groups[MIDVOKT_GROUPS_WORDS(1)], result[MIDVOKT_RESULT_WORDS];
 *
 *     int main(void)
 *     {
 *         uint64_t number = midvokt_plan(
 *             3, MIDVOKT_LEAST_MAX_K, 0, MIDVOKT_LARGEST_CEILING, LENT(record), LENT(steps),
 *             LENT(merges), LENT(sizes), LENT(rotations), LENT(promotions), LENT(measurements),
 *             LENT(groups), LENT(result));
 *         printf("number %d, component %d has members", (int)number,
 *                (int)rotations[MIDVOKT_ROW_COMPONENT]);
 *         printf(" %d and %d\n", (int)groups[1], (int)groups[2]);
 *         return 0;
 *     }
 *
 * It prints:
 *
 *     number 0, component 0 has members 0 and 2
 *
 * The second argument is max_k, the greatest number of active coordinates. Below
 * MIDVOKT_LEAST_MAX_K, which is 8, nothing is planned: there is a plan then, and it has no rows.
 * So give 8 for fewer coordinates too (see midvokt_plan).
 *
 *
 * What is proved and what is trusted
 *
 * The library is proved, for every input, to give the plan, the file, what the file holds or
 * the optimized list, or the first refusal of its definition, and to write every word and byte
 * of the lent buffers. What stands on this side of the calls is not proved and is trusted to the
 * caller:
 *
 *   - each pointer is not null, also where its length is 0, and each pointer to words is
 *     aligned for uint64_t; the bytes of a file need no alignment;
 *   - each pointer has as many words, that of a file as many bytes, behind it as its length
 *     says;
 *   - the outputs, the result and a file that is written overlap neither each other nor what
 *     is read, which is the records, the file that is loaded, or operations and prefixes;
 *   - MIDVOKT_STACK_BYTES bytes of stack are left.
 *
 * A file's length is in bytes, all others are in words of 64 bits. No call keeps memory or
 * state between calls, allocates anything or opens a file: what is called a file here are
 * bytes in memory, and the caller keeps them. All may run in several threads at once, each
 * call with buffers of its own.
 *
 *
 * Coordinates, positions, components
 *
 * A coordinate is one qubit of the register, by a number that it keeps for good. initial_k
 * coordinates are active at the start, numbered from 0; each promotion makes the next number.
 * A position counts the active coordinates in their order, from 0: a promotion appends its
 * coordinate behind the last position; a measurement takes the coordinate at its pivot away,
 * and those behind it move down by one position. Masks and pivots of records speak of
 * positions: bit p of a mask is the coordinate that is at position p before the record.
 *
 * A component is a set of coordinates that the simulator keeps in one small register, in an
 * order of its own: its member j is bit j of that register and of the local masks. Coordinate
 * c begins alone in component c. A record joins the components that it touches: members of
 * the others, by ascending number and each in its own order, are appended to those of the
 * largest (on a tie, the one of the smallest number), which keeps its number; the others'
 * numbers are not used again. Where a measurement takes a member away, those behind it move
 * down. A record that touches none, since no mask bit lies below its width, concerns the
 * component of position 0. A rotation where no coordinate is active is a global phase and
 * concerns none.
 *
 *
 * Paulis and angles
 *
 * A record's Pauli is P = i^phase X^x Z^z, X in front of Z at each position: a bit in x alone
 * is X, in z alone Z. A bit in both is XZ = -iY, so each Y needs 1 more in the phase. For
 * three active coordinates, position 0 first:
 *
 *     X0        x = 1, z = 0, phase 0        Y0        x = 1, z = 1, phase 1
 *     -Z0 Z1    x = 0, z = 3, phase 2        Y0 Y1     x = 3, z = 3, phase 2
 *     X0 Y2     x = 5, z = 4, phase 1        -Y1       x = 2, z = 2, phase 3
 *
 * Y0 with phase 0 would be -iY0, which is not Hermitian; it is planned as it stands, and no
 * refusal tells. P is Hermitian where phase and the number of bits in both masks are both
 * even or both odd.
 *
 * A rotation is exp(-i angle P): a gate that turns by theta, exp(-i theta/2 P), has the angle
 * theta/2. The words sine and cosine are sin(angle) and cos(angle) of that same angle; the
 * library carries them and computes none. It adds their squares, each of the three operations
 * rounded to a double, and refuses a sum that is less than 1 - 2^-50 or more than 1 + 2^-50; it
 * does not compare them with the angle. Of 1,000,000,512 random finite angles none was refused
 * with the sine and the cosine that Rust computes, and no sum was more than 2^-52 from 1.
 */
#ifndef MIDVOKT_H
#define MIDVOKT_H

#include <stddef.h>
#include <stdint.h>

#ifdef __cplusplus
extern "C" {
#endif

/* The project's version. */
#define MIDVOKT_VERSION "0.8.3"

/* Bytes of stack that each call needs, whatever its arguments. At its worst a call was measured
 * to use 14,088 of them on x86-64: 10,872 of its own, and 3,216 where the system looks up
 * memcpy only as the first call reaches it. midvokt_optimize alone used 4,536 at most, with such
 * look-ups. It calls nothing back and does not recurse. */
#define MIDVOKT_STACK_BYTES 16384

/* The largest ceiling, that of a controller that holds registers of up to 61 coordinates. With
 * it everything is planned that can be. */
#define MIDVOKT_LARGEST_CEILING 62

/* The least max_k with which records are read: below it nothing is planned. */
#define MIDVOKT_LEAST_MAX_K 8

/* ---- Records: eight words each ------------------------------------------------------ */

/* Words of a record, and the most records of a program. */
#define MIDVOKT_RECORD_WORDS 8
#define MIDVOKT_MOST_RECORDS 1024

/* The kind, word 0 of a record. */
enum midvokt_kind {
    MIDVOKT_KIND_ROTATION = 0,            /* exp(-i angle P) */
    MIDVOKT_KIND_PROMOTION = 1,           /* a new coordinate; only the kind is read */
    MIDVOKT_KIND_RECORD_MEASUREMENT = 2,  /* classical, passed over; only the kind is read */
    MIDVOKT_KIND_RECORD_DETECTOR = 3,     /* classical, passed over; only the kind is read */
    MIDVOKT_KIND_ACTIVE_MEASUREMENT = 4,  /* of P, or with flag 1 an expectation of it */
    MIDVOKT_KIND_DORMANT_BRANCH = 5       /* on a coordinate that is not active, passed over */
};

/* The words of a record. A measurement's last word is unread; with flag 1 its width, masks,
 * phase and pivot are unread too. Mask bits at or above the width count for nothing. */
enum midvokt_record_word {
    MIDVOKT_RECORD_KIND = 0,
    MIDVOKT_RECORD_WIDTH = 1,       /* the number of active coordinates; above 62 refused */
    MIDVOKT_RECORD_X = 2,           /* mask by position */
    MIDVOKT_RECORD_Z = 3,           /* mask by position */
    MIDVOKT_RECORD_PHASE = 4,       /* exponent of i, 0 to 3; each Y needs 1 */
    MIDVOKT_RECORD_ANGLE = 5,       /* of a rotation exp(-i angle P), bits of a double */
    MIDVOKT_RECORD_SINE = 6,        /* sin(angle), bits of a double */
    MIDVOKT_RECORD_COSINE = 7,      /* cos(angle), bits of a double */
    MIDVOKT_RECORD_PIVOT = 5,       /* of a measurement, the position that leaves */
    MIDVOKT_RECORD_EXPECTATION = 6  /* of a measurement, a flag: 0 or 1 */
};

/* ---- Buffers: how many words are enough for n records -------------------------------- */

#define MIDVOKT_STEPS_WORDS(n) ((size_t)2 * (n))
#define MIDVOKT_MERGES_WORDS(n) ((size_t)(n) + 512)
#define MIDVOKT_SIZES_WORDS(n) ((size_t)512 + 0 * (n))
#define MIDVOKT_ROTATIONS_WORDS(n) ((size_t)21 * (n))
#define MIDVOKT_PROMOTIONS_WORDS(n) ((size_t)(n))
#define MIDVOKT_MEASUREMENTS_WORDS(n) ((size_t)19 * (n))
#define MIDVOKT_GROUPS_WORDS(n) ((size_t)1024 + 0 * (n))
#define MIDVOKT_RESULT_WORDS 14

/* ---- Outputs. Words behind the used ones are zero; after a refusal all are ----------- */

/* Steps: two words for each record. */
enum midvokt_step_word {
    MIDVOKT_STEP_KIND = 0,
    MIDVOKT_STEP_PAYLOAD = 1, /* the row's number among the rows of its kind, else 0 */
    MIDVOKT_STEP_WORDS = 2
};

/* The kind of a step. */
enum midvokt_step_kind {
    MIDVOKT_STEP_NONE = 0,                 /* nothing to plan */
    MIDVOKT_STEP_IGNORED_GLOBAL_PHASE = 1, /* a rotation with no coordinate active */
    MIDVOKT_STEP_ROTATION = 2,
    MIDVOKT_STEP_PROMOTION = 3,
    MIDVOKT_STEP_MEASUREMENT = 4
};

/* Merges: the sources of all rows, one row's after the other's. A row's part begins at its
 * merge offset and has merge count words: first the component that the others join, then
 * all others that the record touches, each once, by strictly ascending number, and nothing
 * else. A record touches the components of the positions that are set in its x or z, or, if
 * none is, that of position 0. The first is the one with the most members, of equals the
 * one with the smallest number. Where nothing joins it is the component alone, 1 word. */

/* Sizes: the most members that each component ever has, by its number. */

/* The first eleven words of a rotation row and of a measurement row. Local bit j belongs to
 * the component's member j. A complex number is two words, real part first. */
enum midvokt_row_word {
    MIDVOKT_ROW_COMPONENT = 0,
    MIDVOKT_ROW_MERGE_OFFSET = 1,
    MIDVOKT_ROW_MERGE_COUNT = 2,
    MIDVOKT_ROW_WIDTH = 3,      /* the component's size, before a removal */
    MIDVOKT_ROW_X = 4,          /* local mask */
    MIDVOKT_ROW_Z = 5,          /* local mask */
    MIDVOKT_ROW_EVEN_PHASE = 6, /* complex, words 6 and 7: i^phase */
    MIDVOKT_ROW_ODD_PHASE = 8,  /* complex, words 8 and 9: both parts negated */
    MIDVOKT_ROW_OVERLAP = 10    /* flag: the masks share an odd number of bits */
};

/* Rotation rows: 21 words. */
enum midvokt_rotation_word {
    MIDVOKT_ROTATION_DIAGONAL = 11,    /* flag: x is 0 */
    MIDVOKT_ROTATION_UNIFORM = 12,     /* flag: x is not 0, z is 0 */
    MIDVOKT_ROTATION_FLIP = 13,        /* flag: x and z not 0, overlap odd, phase 1 or 3 */
    MIDVOKT_ROTATION_PAIR_BIT = 14,    /* the number of x's highest bit; 0 where diagonal */
    MIDVOKT_ROTATION_PAIR_COUNT = 15,  /* half the dimension; 0 where diagonal */
    MIDVOKT_ROTATION_ANGLE = 16,       /* bits of a double, as the record has them */
    MIDVOKT_ROTATION_COSINE = 17,      /* the same */
    MIDVOKT_ROTATION_SINE = 18,        /* the same */
    MIDVOKT_ROTATION_COEFFICIENT = 19, /* complex, 19 and 20: -i sine times the even phase */
    MIDVOKT_ROTATION_WORDS = 21
};

/* Promotion rows: one word, the new component. */

/* Measurement rows: 19 words. */
enum midvokt_measurement_word {
    MIDVOKT_MEASUREMENT_PIVOT = 11,           /* local position of the member that leaves */
    MIDVOKT_MEASUREMENT_DIAGONAL = 12,        /* flag: x is 0 */
    MIDVOKT_MEASUREMENT_PHASE_BIT = 13,       /* 1 where diagonal with phase exponent 2 */
    MIDVOKT_MEASUREMENT_Z_WITHOUT_PIVOT = 14, /* z with that bit 0 where diagonal, else 0 */
    MIDVOKT_MEASUREMENT_OUT_DIMENSION = 15,   /* half the component's dimension */
    MIDVOKT_MEASUREMENT_COEFFICIENT = 16,     /* complex, 16 and 17: the even phase, conjugated,
                                                 times the root of one half, diagonal or not */
    MIDVOKT_MEASUREMENT_DEACTIVATED = 18,     /* flag: no member is left */
    MIDVOKT_MEASUREMENT_WORDS = 19
};

/* How a row is applied to its component's register, once its sources are joined. a[b] is the
 * amplitude at basis index b, and odd(w) tells whether w has an odd number of ones.
 *
 *   P            takes index b to b ^ x, times the even phase, or the odd one if odd(b & z)
 *   rotation     a'[b ^ x] = cosine a[b ^ x] + c a[b] for every b, c being the coefficient,
 *                negated if odd(b & z)
 *   measurement  of the outcome +1 (s = 0) or -1 (s = 1): new indices b have one bit less,
 *                and d is b with a bit of 0 put in at the pivot.
 *     diagonal   a'[b] = a[d] or, if phase bit ^ odd(d & z without pivot) ^ s is 1, a[d with
 *                a bit of 1 at the pivot]
 *     else       a'[b] = r a[d] + c a[d ^ x], r being the root of one half and c the
 *                coefficient, negated if odd(d & z) ^ s is 1
 *                The squares of the new amplitudes add up to the outcome's probability. */

/* Groups: for each component that lives at the end, that is, still has members, a member count
 * and its members, which are coordinates, in order. Groups come by ascending component number,
 * each once: the first is the live component with the smallest number, and so on. A count of 0,
 * or the end of the buffer, ends them. */

/* The result. After a refusal words 1 to 13 are 0. A shorter result gets its first words, and
 * words behind the fourteenth are zero. A component of n members has the dimension 2 to the
 * power of n. The works estimate what simulating costs: dense for one register of all active
 * coordinates, component for the components with their joins. The split pays where rotations,
 * promotions and measurements with flag 0 are 4 or more together, dense work is at least 1.8
 * times component work and at least 8,192 more, and allocated is at most 1.25 times the dense
 * peak. */
enum midvokt_result_word {
    MIDVOKT_RESULT_INDEX = 0,              /* the refused record; 0 for a plan */
    MIDVOKT_RESULT_SELECTED = 1,           /* flag: the split pays */
    MIDVOKT_RESULT_INITIAL_COMPONENTS = 2,
    MIDVOKT_RESULT_COMPONENT_COUNT = 3,    /* all components ever made */
    MIDVOKT_RESULT_DENSE_WORK = 4,         /* bits of a double */
    MIDVOKT_RESULT_COMPONENT_WORK = 5,     /* bits of a double */
    MIDVOKT_RESULT_DENSE_PEAK = 6,         /* 2 to the power of max_k */
    MIDVOKT_RESULT_PEAK = 7,               /* the greatest sum of live dimensions */
    MIDVOKT_RESULT_ALLOCATED = 8,          /* the sum of greatest dimensions, at most 2^64 - 1 */
    MIDVOKT_RESULT_WHOLE_MARK = 9,         /* which of the four below there are */
    MIDVOKT_RESULT_WHOLE_DENSE = 10,       /* the dense work as a whole number */
    MIDVOKT_RESULT_WHOLE_COMPONENT = 11,   /* the component work as a whole number */
    MIDVOKT_RESULT_QUOTIENT = 12,          /* of dense by component: how many times cheaper */
    MIDVOKT_RESULT_REMAINDER = 13          /* of that division, less than component */
};

/* The mark: which of the words behind it a plan has. Those that it has not are 0.
 *
 * Both works are given as whole numbers where the number of active coordinates, at the start
 * and after each record, never passes 38. They are below 2^53, and the floats in words 4 and 5
 * are exactly these numbers: nothing is rounded.
 *
 * dense == quotient * component + remainder. The quotient is 0 where the components cost more.
 * The component work is 0 where the plan has no rows: then there is no quotient, and dense
 * counts the rotations that are a global phase.
 *
 * A plan whose records are left unread (see midvokt_plan) has the mark 1 and both works 0,
 * whatever initial_k is. After a refusal the mark is 0: look at the returned number first. */
enum midvokt_whole_mark {
    MIDVOKT_WHOLE_TOO_WIDE = 0,         /* more than 38 are active at some point: no numbers */
    MIDVOKT_WHOLE_WITHOUT_QUOTIENT = 1, /* both works; component is 0 */
    MIDVOKT_WHOLE_WITH_QUOTIENT = 2     /* both works, quotient and remainder */
};

/* ---- Stored plans: the words of a file ----------------------------------------------- */

/* A file is a run of words of 64 bits, each as eight bytes, the lowest first. First come seven
 * sections, in this order, from word 0 on, each right behind the one before it: the first six
 * outputs, used words only, and the scalar fields. Behind them a trailer of sixteen words ends
 * the file. The groups, the whole works and the ceiling are not stored.
 *
 *   steps         two words for each record
 *   merges        the sources of all rows
 *   sizes         one word for each component
 *   rotations     21 words for each row
 *   promotions    one word for each row
 *   measurements  19 words for each row
 *   scalars       eight words
 *
 * One plan has one file. A plan whose records are left unread (see midvokt_plan) has neither
 * steps nor sizes: its file is the scalars and the trailer. */

/* The section of the scalar fields: words 1 to 8 of midvokt_plan's result. */
enum midvokt_scalar_word {
    MIDVOKT_SCALAR_SELECTED = 0,
    MIDVOKT_SCALAR_INITIAL_COMPONENTS = 1,
    MIDVOKT_SCALAR_COMPONENT_COUNT = 2,
    MIDVOKT_SCALAR_DENSE_WORK = 3,     /* bits of a double */
    MIDVOKT_SCALAR_COMPONENT_WORK = 4, /* bits of a double */
    MIDVOKT_SCALAR_DENSE_PEAK = 5,
    MIDVOKT_SCALAR_PEAK = 6,
    MIDVOKT_SCALAR_ALLOCATED = 7,
    MIDVOKT_SCALAR_WORDS = 8
};

/* The trailer: where each section starts and how many words it has, then the file's length
 * and its version. */
enum midvokt_trailer_word {
    MIDVOKT_TRAILER_STEPS_START = 0,
    MIDVOKT_TRAILER_STEPS_COUNT = 1,
    MIDVOKT_TRAILER_MERGES_START = 2,
    MIDVOKT_TRAILER_MERGES_COUNT = 3,
    MIDVOKT_TRAILER_SIZES_START = 4,
    MIDVOKT_TRAILER_SIZES_COUNT = 5,
    MIDVOKT_TRAILER_ROTATIONS_START = 6,
    MIDVOKT_TRAILER_ROTATIONS_COUNT = 7,
    MIDVOKT_TRAILER_PROMOTIONS_START = 8,
    MIDVOKT_TRAILER_PROMOTIONS_COUNT = 9,
    MIDVOKT_TRAILER_MEASUREMENTS_START = 10,
    MIDVOKT_TRAILER_MEASUREMENTS_COUNT = 11,
    MIDVOKT_TRAILER_SCALARS_START = 12,
    MIDVOKT_TRAILER_SCALARS_COUNT = 13,
    MIDVOKT_TRAILER_BYTES = 14,   /* the file's length in bytes */
    MIDVOKT_TRAILER_VERSION = 15, /* MIDVOKT_FILE_VERSION */
    MIDVOKT_TRAILER_WORDS = 16
};

/* The version of the file's form. */
#define MIDVOKT_FILE_VERSION 1

/* How many bytes are enough for the file of a plan of n records: eight for each of
 *
 *   2n        words of steps, two for each record,
 *   n + 511   words of merges: one for each row's own component, and one for each component
 *             that joins another, which all of 512 at most can do but one,
 *   512       words of sizes, one for each component,
 *   21n       words of rows: a record has one row at most, of 21, 19 or 1 words,
 *   8 and 16  words of scalars and trailer. */
#define MIDVOKT_FILE_BYTES(n)                                                              \
    ((size_t)8 * (MIDVOKT_STEPS_WORDS(n) + MIDVOKT_MERGES_WORDS(n) - 1 +                   \
                  MIDVOKT_SIZES_WORDS(n) + MIDVOKT_ROTATIONS_WORDS(n) +                    \
                  MIDVOKT_SCALAR_WORDS + MIDVOKT_TRAILER_WORDS))

/* The result of midvokt_store. After a refusal word 1 is 0. A shorter result gets its first
 * words, and words behind the second are zero. */
enum midvokt_store_result_word {
    MIDVOKT_STORE_RESULT_INDEX = 0, /* the refused record; 0 for a stored plan */
    MIDVOKT_STORE_RESULT_BYTES = 1  /* the file's length in bytes */
};
#define MIDVOKT_STORE_RESULT_WORDS 2

/* The result of midvokt_load: word 0 is always 0, words 1 to 8 are the scalar fields, as
 * MIDVOKT_RESULT_SELECTED to MIDVOKT_RESULT_ALLOCATED name them, and words 9 to 14 are the
 * counts of the other six sections, in words. After a refusal all are 0. A shorter result gets
 * its first words, and words behind the fifteenth are zero. */
enum midvokt_load_result_word {
    MIDVOKT_LOAD_RESULT_STEPS = 9,
    MIDVOKT_LOAD_RESULT_MERGES = 10,
    MIDVOKT_LOAD_RESULT_SIZES = 11,
    MIDVOKT_LOAD_RESULT_ROTATIONS = 12,
    MIDVOKT_LOAD_RESULT_PROMOTIONS = 13,
    MIDVOKT_LOAD_RESULT_MEASUREMENTS = 14
};
#define MIDVOKT_LOAD_RESULT_WORDS 15

/* ---- Pending operations: 32 words each ----------------------------------------------- */

/* Words of an operation, the most operations of a list, and the most preserved prefixes. */
#define MIDVOKT_OPERATION_WORDS 32
#define MIDVOKT_MOST_OPERATIONS 1024
#define MIDVOKT_MOST_PREFIXES 1024

/* The largest width: a list's strings have 1 to so many qubits. */
#define MIDVOKT_MOST_QUBITS 64

/* The angles that are given lie from -2^20 to this, both included; a NaN does not. Angles that
 * were fused may lie beyond. */
#define MIDVOKT_MOST_ANGLE 1048576

/* The largest condition, record and expectation value: 2^31 - 1. */
#define MIDVOKT_MOST_NUMBER 2147483647

/* The kind, word 0 of an operation. */
enum midvokt_operation_kind {
    MIDVOKT_OPERATION_ROTATION = 0,         /* exp(-i angle P), P a Pauli string with its sign */
    MIDVOKT_OPERATION_MEASUREMENT = 1,      /* of a Pauli string with its sign */
    MIDVOKT_OPERATION_CLASSICAL_RECORD = 2  /* a bit is written to a record; no qubit is touched */
};

/* The words of an operation, by its kind. Words behind the last field are zero. Strings and
 * their phases are those of records (see above), but for masks of up to 64 bits: no bit may
 * stand at or above the list's width. A rotation's string has to be Hermitian; that of a
 * measurement is not judged. */
enum midvokt_operation_word {
    MIDVOKT_OPERATION_KIND = 0,
    /* a rotation */
    MIDVOKT_TURN_ANGLE = 1,             /* bits of a double */
    MIDVOKT_TURN_X = 2,                 /* mask by qubit */
    MIDVOKT_TURN_Z = 3,                 /* mask by qubit */
    MIDVOKT_TURN_PHASE = 4,             /* exponent of i, 0 to 3; each Y needs 1 */
    MIDVOKT_TURN_SIGN = 5,              /* ten words, 5 to 14 */
    /* a measurement */
    MIDVOKT_MEASURED_X = 1,             /* mask by qubit */
    MIDVOKT_MEASURED_Z = 2,             /* mask by qubit */
    MIDVOKT_MEASURED_PHASE = 3,         /* exponent of i, 0 to 3; each Y needs 1 */
    MIDVOKT_MEASURED_SIGN = 4,          /* ten words, 4 to 13 */
    MIDVOKT_MEASURED_RECORD = 14,       /* an Option, 14 and 15: where the outcome goes */
    MIDVOKT_MEASURED_CONDITION = 16,    /* an Option, 16 and 17: its symbol in later signs */
    MIDVOKT_MEASURED_EXPECTATION = 18,  /* an Option, 18 and 19: the expectation value that is
                                           taken in place of an outcome */
    /* a classical record */
    MIDVOKT_WRITTEN_OUTCOME = 1,        /* a sign, ten words, 1 to 10: the bit that is written */
    MIDVOKT_WRITTEN_RECORD = 11,        /* an Option, 11 and 12: where it goes */
    MIDVOKT_WRITTEN_CONDITION = 13      /* an Option, 13 and 14: its symbol in later signs */
};

/* A sign: an exclusive or of a constant and of symbols, which stand for bits that are not known
 * yet. A string has a minus where its sign is 1. */
enum midvokt_sign_word {
    MIDVOKT_SIGN_CONSTANT = 0,   /* 0 or 1 */
    MIDVOKT_SIGN_COUNT = 1,      /* how many of the conditions are used, 0 to 8 */
    MIDVOKT_SIGN_CONDITIONS = 2, /* eight words: the used ones are symbols, 1 to 2^31 - 1 and
                                    strictly ascending, the others 0 */
    MIDVOKT_SIGN_WORDS = 10
};

/* An Option: 0, 0 for nothing, and 1, value for a value, 0 to 2^31 - 1. */
enum midvokt_option_word {
    MIDVOKT_OPTION_FLAG = 0,
    MIDVOKT_OPTION_VALUE = 1
};

/* How many words the optimized list and the map of n operations need; both may be longer. */
#define MIDVOKT_OPTIMIZED_WORDS(n) ((size_t)32 * (n))
#define MIDVOKT_MAP_WORDS(n) ((size_t)(n) + 1)

/* A preserved prefix p, 0 to n, is the boundary that has the first p of n operations before it.
 * The map has a word for each boundary of the list, word p for the one of p. It is how many of
 * the optimized operations stand before it, for 0, for n and for each preserved prefix; for all
 * others it is this. Where a measurement has an expectation value all words are p itself. */
#define MIDVOKT_NO_BOUNDARY UINT64_MAX

/* The result of midvokt_optimize. After a refusal words 1 to 5 are 0. A shorter result gets its
 * first words, and words behind the sixth are zero. Output is input less fused less cancelled:
 * two that fuse become one, and two that cancel are counted in both. */
enum midvokt_optimize_result_word {
    MIDVOKT_OPTIMIZE_RESULT_INDEX = 0,     /* the refused operation; 0 for an optimized list */
    MIDVOKT_OPTIMIZE_RESULT_INPUT = 1,     /* operations that were given */
    MIDVOKT_OPTIMIZE_RESULT_OUTPUT = 2,    /* operations that are left */
    MIDVOKT_OPTIMIZE_RESULT_FUSED = 3,     /* pairs of rotations that became one, or none */
    MIDVOKT_OPTIMIZE_RESULT_CANCELLED = 4, /* of these, the pairs that became none */
    MIDVOKT_OPTIMIZE_RESULT_SWAPS = 5      /* pairs of a measurement and a rotation that it moved
                                              in front of: a rotation counts once for each
                                              measurement that passed it */
};
#define MIDVOKT_OPTIMIZE_RESULT_WORDS 6

/* ---- The number that each call returns ----------------------------------------------- */

enum midvokt_number {
    MIDVOKT_PLANNED = 0,                     /* there is a plan, and what was asked is done */
    MIDVOKT_OPTIMIZED = 0,                   /* the list is optimized */
    /* the head and the buffers; the index is 0 */
    MIDVOKT_REFUSED_MAX_K = 1,               /* max_k is the ceiling or more */
    MIDVOKT_REFUSED_RECORD_WORDS = 2,        /* no multiple of 8, or more than 8,192 */
    MIDVOKT_REFUSED_BUFFERS = 3,             /* a buffer is too short */
    MIDVOKT_REFUSED_INITIAL_K = 4,           /* initial_k is more than 512 */
    /* all records are checked for these before the first is planned */
    MIDVOKT_REFUSED_KIND = 5,                /* the kind is more than 5 */
    MIDVOKT_REFUSED_WIDTH = 6,               /* the width is more than 62 */
    MIDVOKT_REFUSED_PHASE = 7,               /* the phase exponent is more than 3 */
    MIDVOKT_REFUSED_FLOATS = 8,              /* angle not finite, sine or cosine not in -1 to 1 */
    MIDVOKT_REFUSED_FLAG = 9,                /* the expectation flag is more than 1 */
    MIDVOKT_REFUSED_PROMOTION = 10,          /* it would make the 513th coordinate */
    /* then the first record decides at which planning stops */
    MIDVOKT_REFUSED_ROTATION_WIDTH = 11,     /* not the number of active coordinates */
    MIDVOKT_REFUSED_MEASUREMENT_WIDTH = 12,  /* not the number of active coordinates */
    MIDVOKT_REFUSED_NOTHING_ACTIVE = 13,     /* a measurement with no active coordinate */
    MIDVOKT_REFUSED_COMPONENT_SIZE = 14,     /* a join makes a component of as many
                                                members as the ceiling, or more */
    MIDVOKT_REFUSED_PIVOT = 15,              /* the pivot is not an active position */
    MIDVOKT_REFUSED_PIVOT_COMPONENT = 16,    /* its coordinate is in another component */
    MIDVOKT_REFUSED_PIVOT_X = 17,            /* local x is not 0, no x bit at the pivot */
    MIDVOKT_REFUSED_PIVOT_Z = 18,            /* local x is 0, z is not, no z bit at the pivot */
    MIDVOKT_REFUSED_EIGENVALUES = 19,        /* local x is 0, z is not, exponent 1 or 3 */
    MIDVOKT_REFUSED_IDENTITY = 20,           /* local x and z are both 0 */
    /* files; the index is 0 */
    MIDVOKT_REFUSED_FILE = 21,               /* load: under 128 bytes, no multiple of 8, or a
                                                wrong length or version word */
    MIDVOKT_REFUSED_SECTIONS = 22,           /* load: a section does not start where the one
                                                before it stops, the first not at word 0, or the
                                                last does not stop at the trailer */
    MIDVOKT_REFUSED_LENGTHS = 23,            /* store: the file's buffer is too short. load: steps
                                                odd, sizes other than component_count, rotations
                                                no multiple of 21, measurements none of 19,
                                                scalars other than 8, or an output shorter than
                                                its section */
    /* the head, before all others; the index is 0 */
    MIDVOKT_REFUSED_CEILING = 24,            /* the ceiling is not 1 to 62 */
    /* a rotation, right after 8 for the same record */
    MIDVOKT_REFUSED_SQUARES = 25,            /* sine * sine + cosine * cosine is not
                                                1 - 2^-50 to 1 + 2^-50 */
    /* pending operations, in this order; 26 before all else, with the index 0 */
    MIDVOKT_REFUSED_FORM = 26,               /* a width that is not 1 to 64; operation words that
                                                are no multiple of 32 or more than 32,768; more
                                                than 1,024 prefixes; an output that is too short
                                                for the list or the map; or an operation that is
                                                not as the words above say */
    /* where no measurement has an expectation value */
    MIDVOKT_REFUSED_PREFIX = 27,             /* a prefix is more than there are operations; the
                                                index is 0 */
    MIDVOKT_REFUSED_GENERATOR = 28           /* a rotation's phase less the number of its Y is
                                                odd, so that its string is not Hermitian; the
                                                index is the first such operation's */
};

/*
 * Plans the records. Returns MIDVOKT_PLANNED, or the number of the first refusal.
 *
 *   initial_k   the coordinates that are active at the start, 0 to 512; component_count
 *               components are made: initial_k and one for each promotion, 512 at most.
 *               Where more than 62 are active, rotations and measurements are refused
 *   max_k       the width of the one wide register that the split is compared with: the dense
 *               peak is 2 to the power of max_k, and the components may allocate 1.25 times
 *               as much to be selected. Give the greatest number of active coordinates; it is
 *               not held to the records. Below MIDVOKT_LEAST_MAX_K nothing is planned (see
 *               below): give that to have the rows of a small circuit. The ceiling or more is
 *               refused: where as many coordinates are active give one less than the ceiling.
 *               So under a ceiling of 8 or less no record is ever read
 *   nexpvals    the number of expectation values that the program has; a program that has any
 *               is not split, and none of its records is read. While this is 0, measurements
 *               with the expectation flag are passed over
 *   ceiling     what the controller holds: registers of fewer coordinates than this, 1 to
 *               MIDVOKT_LARGEST_CEILING. A record whose join would make a component of so many
 *               members is refused; the active coordinates of a record may be more, up to 62.
 *               A plan that is given at one ceiling is given at every larger one, word for word
 *   records     the records, one behind the other, eight words each; records_len counts words
 *   steps, merges, sizes, rotations, promotions, measurements, groups
 *               the outputs; at least as many words as the macros above say. Every word of
 *               them is written
 *   result      the refused record, the plan's scalar fields and its whole works; of any
 *               length
 *
 * Where max_k is below 8 or nexpvals is not 0 (and the ceiling is 1 to 62 and max_k below it)
 * records and buffer lengths are not looked at, and there is a plan: not selected, the dense
 * peak 2 to the power of max_k, initial_k copied into the result whatever it is, the mark 1
 * (both works are 0), and all else zero, all outputs too. To tell such a plan from one whose
 * records were read, look at max_k and nexpvals.
 */
uint64_t midvokt_plan(uint64_t initial_k, uint64_t max_k, uint64_t nexpvals, uint64_t ceiling,
                      const uint64_t *records, size_t records_len,
                      uint64_t *steps, size_t steps_len,
                      uint64_t *merges, size_t merges_len,
                      uint64_t *sizes, size_t sizes_len,
                      uint64_t *rotations, size_t rotations_len,
                      uint64_t *promotions, size_t promotions_len,
                      uint64_t *measurements, size_t measurements_len,
                      uint64_t *groups, size_t groups_len,
                      uint64_t *result, size_t result_len);

/*
 * Plans the records into the seven outputs, as midvokt_plan does, and writes the plan's file.
 * Returns MIDVOKT_PLANNED; or the number of the first refusal of planning, with its index; or
 * else MIDVOKT_REFUSED_LENGTHS where the file's buffer is too short.
 *
 *   initial_k, max_k, nexpvals, ceiling, records and the seven outputs
 *               as midvokt_plan takes and fills them
 *   file        where the file goes; MIDVOKT_FILE_BYTES(n) bytes are enough for n records,
 *               and fewer may be. The bytes behind the file are zero
 *   result      the refused record and the file's length in bytes; of any length
 *
 * The file is the first so many bytes of the buffer: a trailer stands at the end of a file,
 * so that the bytes behind must not be kept with it. The file does not hold the ceiling: a
 * plan has the same file at each ceiling that it is given at, and its sizes tell which
 * controllers hold it, those whose ceiling is above every one of them. After any refusal all
 * seven outputs and all bytes of the buffer are zero.
 */
uint64_t midvokt_store(uint64_t initial_k, uint64_t max_k, uint64_t nexpvals, uint64_t ceiling,
                       const uint64_t *records, size_t records_len,
                       uint64_t *steps, size_t steps_len,
                       uint64_t *merges, size_t merges_len,
                       uint64_t *sizes, size_t sizes_len,
                       uint64_t *rotations, size_t rotations_len,
                       uint64_t *promotions, size_t promotions_len,
                       uint64_t *measurements, size_t measurements_len,
                       uint64_t *groups, size_t groups_len,
                       uint8_t *file, size_t file_len,
                       uint64_t *result, size_t result_len);

/*
 * Reads a file back into six outputs. Returns MIDVOKT_PLANNED, or MIDVOKT_REFUSED_FILE, or else
 * MIDVOKT_REFUSED_SECTIONS, or else MIDVOKT_REFUSED_LENGTHS.
 *
 *   file        all bytes of the file and no other
 *   steps, merges, sizes, rotations, promotions, measurements
 *               the outputs; each at least as long as its section. A caller that knows how many
 *               records the plan had takes the macros above; another reads the counts in the
 *               file's trailer, or takes for each as many words as the file has. Words behind
 *               the used ones are zero; after a refusal all are
 *   result      the scalar fields and the six counts; of any length
 *
 * What midvokt_store wrote is read back word for word: the scalar fields and every row. But
 * nothing else is judged than the trailer and component_count. Any bytes that are right in
 * these are read, and every other word comes back as it stands in the file: a flag of 7, a NaN,
 * a step that names a row that is not there, a row that names a component that is not there. A
 * file that was changed, or that comes from elsewhere, may hold such words; a program that
 * applies its rows must check every number in them that it uses as a place or as a size.
 */
uint64_t midvokt_load(const uint8_t *file, size_t file_len,
                      uint64_t *steps, size_t steps_len,
                      uint64_t *merges, size_t merges_len,
                      uint64_t *sizes, size_t sizes_len,
                      uint64_t *rotations, size_t rotations_len,
                      uint64_t *promotions, size_t promotions_len,
                      uint64_t *measurements, size_t measurements_len,
                      uint64_t *result, size_t result_len);

/*
 * Optimizes a list of pending operations. Returns MIDVOKT_OPTIMIZED, or the number of the first
 * refusal.
 *
 *   width       how many qubits the strings have, 1 to MIDVOKT_MOST_QUBITS
 *   operations  the operations, one behind the other, 32 words each; operations_len counts words
 *   prefixes    the boundaries across which nothing goes, in any order, repeats allowed, at most
 *               MIDVOKT_MOST_PREFIXES
 *   optimized   the operations that are left, in order; at least as many words as are given
 *   map         where each boundary is now; at least one word more than there are operations
 *   result      the refused operation, and the five counts; of any length
 *
 * Words behind the used ones are zero; after any refusal list, map and counts are.
 *
 * Two strings commute where the bits that x of one shares with z of the other, both ways taken
 * together, are even in number; phases and signs do not matter. The boundaries cut the list into
 * segments, from the start over each preserved prefix to the end, and in each, once:
 *
 *   fusing      Each rotation, from the first operation on, goes behind the operations that
 *               follow it, over classical records and over rotations and measurements that
 *               commute with it. Where it comes to a rotation about the same string, with the same
 *               conditions in its sign, the two become one, at the place of the later one. Its
 *               angle is the later one's plus the earlier one's, or less it where the signs of
 *               the two are opposite, one rounded sum; its phase is the number of its Y modulo 4,
 *               and what the phase said of its sign is now in the sign's constant. Where the
 *               angle is 0, or -0, the two cancel, and none is left. A rotation that meets none
 *               stays where it was, word for word, also with an angle of 0.
 *   moving      Then each measurement, from the first on, moves in front of rotations that stand
 *               right before it and commute with it: of all of them where something was fused in
 *               this segment, and else up to the nearest about its own string, if there is one.
 *               Each rotation that it passes is a swap: where two measurements pass one rotation
 *               there are two.
 *
 * So operations that are left keep their order, but for a measurement and a rotation that
 * commute; nothing goes across a preserved prefix; and between two that were fused stood only
 * classical records and operations that commute with the earlier one. It is not repeated until
 * nothing changes: optimizing the optimized list may change it again.
 *
 * Where a measurement has an expectation value the list comes back as it is, with the map 0, 1 to
 * n and no fused, cancelled or moved ones; prefixes and phases are not judged then.
 *
 * The function keeps no array of its own: it works in the list and the map that it is lent.
 */
uint64_t midvokt_optimize(uint64_t width, const uint64_t *operations, size_t operations_len,
                          const uint64_t *prefixes, size_t prefixes_len, uint64_t *optimized,
                          size_t optimized_len, uint64_t *map, size_t map_len, uint64_t *result,
                          size_t result_len);

#ifdef __cplusplus
}
#endif

#endif
