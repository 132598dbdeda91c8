/*
 * Buffers, records from Paulis, and refusals in words, over the calls of midvokt.h. All functions
 * here are static inline, so that nothing more is linked than midvokt.h names, -lm with it, and
 * that several files of a program may include this. C99 and C++11.
 *
 * A first program:
 *
 *     #include <stdio.h>
 *     #include "midvokt_buffers.h"
 *
 *     MIDVOKT_STATIC_BUFFERS(plan, 2);
 *
 *     int main(void)
 *     {
 *         uint64_t records[2][MIDVOKT_RECORD_WORDS], number;
 *         midvokt_rotation(records[0], 3, "Y0*Z1", 0.25);
 *         midvokt_measurement(records[1], 3, "XX_", 0);
 *         number = midvokt_plan_records(midvokt_head_of(3, 3), records[0], 2, &plan);
 *         printf("%s; the split pays: %d\n", midvokt_sentence(number),
 *                (int)plan.result[MIDVOKT_RESULT_SELECTED]);
 *         return 0;
 *     }
 *
 * It prints:
 *
 *     nothing is refused; the split pays: 0
 *
 * What a program uses of this:
 *
 *   buffers   MIDVOKT_STATIC_BUFFERS; midvokt_buffers_alloc and midvokt_buffers_free
 *   calls     midvokt_head_of; midvokt_plan_records, midvokt_store_records, midvokt_load_file
 *   records   midvokt_rotation, midvokt_measurement, midvokt_expectation, midvokt_record_alone;
 *             midvokt_read_pauli
 *   words     midvokt_double_of, midvokt_word_of; midvokt_sentence
 *
 * These functions take every argument, null pointers too, and say what they do then. Trusted to
 * the caller is that a pointer that is not null has behind it what is said, that a text ends with
 * a zero byte, and what midvokt.h says of overlaps and of the stack. The other functions here are
 * parts of these.
 */
#ifndef MIDVOKT_BUFFERS_H
#define MIDVOKT_BUFFERS_H

#include <math.h>
#include <stddef.h>
#include <stdint.h>
#include <stdlib.h>
#include <string.h>

#include "midvokt.h"

/* Whether something was made: a record, or buffers. */
enum midvokt_making { MIDVOKT_MADE = 0, MIDVOKT_NOT_MADE = -1 };

/* ---- Buffers -------------------------------------------------------------------------- */

/* Words that are enough for the result of each of the three calls. */
#define MIDVOKT_GREATER(a, b) ((a) > (b) ? (a) : (b))
#define MIDVOKT_ANY_RESULT_WORDS                                                           \
    MIDVOKT_GREATER(MIDVOKT_RESULT_WORDS,                                                  \
                    MIDVOKT_GREATER(MIDVOKT_STORE_RESULT_WORDS, MIDVOKT_LOAD_RESULT_WORDS))

/* The seven outputs of a plan with their lengths in words, in the order of the calls, and the
 * result of the last call. How the result's words are named differs by the call:
 *
 *   midvokt_plan_records   MIDVOKT_RESULT_INDEX, the refused record, to
 *                          MIDVOKT_RESULT_REMAINDER
 *   midvokt_store_records  MIDVOKT_STORE_RESULT_INDEX, the refused record, and
 *                          MIDVOKT_STORE_RESULT_BYTES. The plan's fields are not there
 *   midvokt_load_file      word 0 is 0; MIDVOKT_RESULT_SELECTED to MIDVOKT_RESULT_ALLOCATED are
 *                          the plan's fields; MIDVOKT_LOAD_RESULT_STEPS, which is the number of
 *                          MIDVOKT_RESULT_WHOLE_MARK, to MIDVOKT_LOAD_RESULT_MEASUREMENTS are
 *                          the counts of words. There are no whole works
 *
 * Words behind these are 0. A copy of the struct has the same outputs, and a result of its own. */
typedef struct midvokt_buffers {
    uint64_t *steps;
    size_t steps_len;
    uint64_t *merges;
    size_t merges_len;
    uint64_t *sizes;
    size_t sizes_len;
    uint64_t *rotations;
    size_t rotations_len;
    uint64_t *promotions;
    size_t promotions_len;
    uint64_t *measurements;
    size_t measurements_len;
    uint64_t *groups;
    size_t groups_len;
    uint64_t result[MIDVOKT_ANY_RESULT_WORDS];
    uint64_t *memory; /* what midvokt_buffers_free gives back; null where that is nothing */
} midvokt_buffers;

/* Where each output begins in one block of words, each right behind the one before it, and how
 * many words the block has, for n records. */
#define MIDVOKT_MERGES_START(n) MIDVOKT_STEPS_WORDS(n)
#define MIDVOKT_SIZES_START(n) (MIDVOKT_MERGES_START(n) + MIDVOKT_MERGES_WORDS(n))
#define MIDVOKT_ROTATIONS_START(n) (MIDVOKT_SIZES_START(n) + MIDVOKT_SIZES_WORDS(n))
#define MIDVOKT_PROMOTIONS_START(n) (MIDVOKT_ROTATIONS_START(n) + MIDVOKT_ROTATIONS_WORDS(n))
#define MIDVOKT_MEASUREMENTS_START(n)                                                      \
    (MIDVOKT_PROMOTIONS_START(n) + MIDVOKT_PROMOTIONS_WORDS(n))
#define MIDVOKT_GROUPS_START(n) (MIDVOKT_MEASUREMENTS_START(n) + MIDVOKT_MEASUREMENTS_WORDS(n))
#define MIDVOKT_BUFFERS_WORDS(n) (MIDVOKT_GROUPS_START(n) + MIDVOKT_GROUPS_WORDS(n))

/* The struct over such a block, as an initializer. */
#define MIDVOKT_BUFFERS_OVER(words, n)                                                     \
    {                                                                                      \
        (words), MIDVOKT_STEPS_WORDS(n),                                                   \
        (words) + MIDVOKT_MERGES_START(n), MIDVOKT_MERGES_WORDS(n),                        \
        (words) + MIDVOKT_SIZES_START(n), MIDVOKT_SIZES_WORDS(n),                          \
        (words) + MIDVOKT_ROTATIONS_START(n), MIDVOKT_ROTATIONS_WORDS(n),                  \
        (words) + MIDVOKT_PROMOTIONS_START(n), MIDVOKT_PROMOTIONS_WORDS(n),                \
        (words) + MIDVOKT_MEASUREMENTS_START(n), MIDVOKT_MEASUREMENTS_WORDS(n),            \
        (words) + MIDVOKT_GROUPS_START(n), MIDVOKT_GROUPS_WORDS(n),                        \
        {0}, NULL                                                                          \
    }

/* Defines static buffers that are enough for n records, n being a constant, and the struct
 * `name` over them. At the top of a file or in a function; a semicolon follows. */
#define MIDVOKT_STATIC_BUFFERS(name, n)                                                    \
    static uint64_t name##_words[MIDVOKT_BUFFERS_WORDS(n)];                                \
    static midvokt_buffers name = MIDVOKT_BUFFERS_OVER(name##_words, n)

/* Gets buffers that are enough for n records, one block of zeros, from calloc. What the struct
 * held before is not looked at. Returns MIDVOKT_MADE; or MIDVOKT_NOT_MADE where there is not so
 * much memory, or no size_t counts its bytes, or the struct is null. Then the lengths are 0, and
 * planning that reads records is refused with MIDVOKT_REFUSED_BUFFERS. A caller that asks again
 * with the same struct gives back first what it got. */
static inline int midvokt_buffers_alloc(midvokt_buffers *buffers, size_t n)
{
    const size_t fixed = MIDVOKT_BUFFERS_WORDS(0);
    const size_t for_each = MIDVOKT_BUFFERS_WORDS(1) - fixed;
    const size_t most = (SIZE_MAX / sizeof(uint64_t) - fixed) / for_each;
    uint64_t *words = NULL;
    if (buffers == NULL)
        return MIDVOKT_NOT_MADE;
    memset(buffers, 0, sizeof *buffers);
    if (n <= most)
        words = (uint64_t *)calloc(MIDVOKT_BUFFERS_WORDS(n), sizeof(uint64_t));
    if (words != NULL) {
        const midvokt_buffers made = MIDVOKT_BUFFERS_OVER(words, n);
        *buffers = made;
        buffers->memory = words;
    }
    return words == NULL ? MIDVOKT_NOT_MADE : MIDVOKT_MADE;
}

/* Gives back what midvokt_buffers_alloc got, once for all copies of the struct; the lengths are
 * 0 then. Static buffers stay as they are, and so does null. */
static inline void midvokt_buffers_free(midvokt_buffers *buffers)
{
    if (buffers == NULL || buffers->memory == NULL)
        return;
    free(buffers->memory);
    memset(buffers, 0, sizeof *buffers);
}

/* ---- Calls ---------------------------------------------------------------------------- */

/* What a program says besides its records: the first four words of midvokt_plan. */
typedef struct midvokt_head {
    uint64_t initial_k;
    uint64_t max_k;
    uint64_t nexpvals;
    uint64_t ceiling;
} midvokt_head;

/* The head of a program that starts with initial_k active coordinates, and of which `widest` is
 * the greatest number of active coordinates. max_k is that number, but at least
 * MIDVOKT_LEAST_MAX_K, so that the records are read; nexpvals is 0; the ceiling is the largest.
 * From a widest of 62 on that is refused with MIDVOKT_REFUSED_MAX_K: give 61 there. For a program
 * with expectation values, or a controller with a smaller ceiling, the fields are changed. */
static inline midvokt_head midvokt_head_of(uint64_t initial_k, uint64_t widest)
{
    midvokt_head head;
    head.initial_k = initial_k;
    head.max_k = MIDVOKT_GREATER(widest, (uint64_t)MIDVOKT_LEAST_MAX_K);
    head.nexpvals = 0;
    head.ceiling = MIDVOKT_LARGEST_CEILING;
    return head;
}

/* What a call is given of records, or of a file: a pointer that is not null. */
static inline const void *midvokt_given(const void *data)
{
    static const uint64_t nothing[1] = {0};
    return data == NULL ? nothing : data;
}

/* How many words so many records have. Where they are more than MIDVOKT_MOST_RECORDS, or more
 * than 0 and at null, it is a number that is refused with MIDVOKT_REFUSED_RECORD_WORDS by planning
 * that reads records. */
static inline size_t midvokt_words_of(const uint64_t *records, size_t count)
{
    if (records == NULL)
        return count == 0 ? 0 : 1;
    if (count > MIDVOKT_MOST_RECORDS)
        return (size_t)MIDVOKT_RECORD_WORDS * (MIDVOKT_MOST_RECORDS + 1);
    return MIDVOKT_RECORD_WORDS * count;
}

/* The two arguments that a call takes of an output. One at null has the length 0. */
#define MIDVOKT_LENT(buffers, output)                                                      \
    (buffers)->output == NULL ? (buffers)->result : (buffers)->output,                     \
        (buffers)->output == NULL ? 0 : (buffers)->output##_len

/* midvokt_plan of so many records, which stand one behind the other, with these buffers: returns
 * its number. Of an array uint64_t records[N][MIDVOKT_RECORD_WORDS] give records[0]. Records at
 * null, with a count that is not 0, are refused with MIDVOKT_REFUSED_RECORD_WORDS by planning that
 * reads records; buffers at null always with MIDVOKT_REFUSED_BUFFERS. */
static inline uint64_t midvokt_plan_records(midvokt_head head, const uint64_t *records,
                                            size_t count, midvokt_buffers *buffers)
{
    if (buffers == NULL)
        return MIDVOKT_REFUSED_BUFFERS;
    return midvokt_plan(head.initial_k, head.max_k, head.nexpvals, head.ceiling,
                        (const uint64_t *)midvokt_given(records), midvokt_words_of(records, count),
                        MIDVOKT_LENT(buffers, steps), MIDVOKT_LENT(buffers, merges),
                        MIDVOKT_LENT(buffers, sizes), MIDVOKT_LENT(buffers, rotations),
                        MIDVOKT_LENT(buffers, promotions), MIDVOKT_LENT(buffers, measurements),
                        MIDVOKT_LENT(buffers, groups), buffers->result,
                        MIDVOKT_ANY_RESULT_WORDS);
}

/* midvokt_store of the same, into so many bytes for the file: returns its number. The outputs are
 * those of the plan, and the result is that of midvokt_store: no field of the plan is in it, and
 * MIDVOKT_RESULT_SELECTED is the length there. `length`, which may be null, gets the file's length
 * in bytes, and 0 after a refusal. A file at null has no bytes. */
static inline uint64_t midvokt_store_records(midvokt_head head, const uint64_t *records,
                                             size_t count, midvokt_buffers *buffers,
                                             uint8_t *file, size_t file_len, size_t *length)
{
    uint8_t nothing = 0;
    uint64_t number = MIDVOKT_REFUSED_BUFFERS;
    if (buffers != NULL)
        number = midvokt_store(
            head.initial_k, head.max_k, head.nexpvals, head.ceiling,
            (const uint64_t *)midvokt_given(records), midvokt_words_of(records, count),
            MIDVOKT_LENT(buffers, steps), MIDVOKT_LENT(buffers, merges),
            MIDVOKT_LENT(buffers, sizes), MIDVOKT_LENT(buffers, rotations),
            MIDVOKT_LENT(buffers, promotions), MIDVOKT_LENT(buffers, measurements),
            MIDVOKT_LENT(buffers, groups), file == NULL ? &nothing : file,
            file == NULL ? 0 : file_len, buffers->result, MIDVOKT_ANY_RESULT_WORDS);
    if (length != NULL)
        *length = buffers == NULL ? 0 : (size_t)buffers->result[MIDVOKT_STORE_RESULT_BYTES];
    return number;
}

/* midvokt_load of all bytes of a file: returns its number. Buffers that are enough for as many
 * records as the plan had are enough; those for MIDVOKT_MOST_RECORDS are enough for every plan. A
 * file has no groups, so that they are all 0 then, after a refusal too. A file at null has no
 * bytes; buffers at null are refused with MIDVOKT_REFUSED_LENGTHS. */
static inline uint64_t midvokt_load_file(const uint8_t *file, size_t file_len,
                                         midvokt_buffers *buffers)
{
    if (buffers == NULL)
        return MIDVOKT_REFUSED_LENGTHS;
    if (buffers->groups != NULL)
        memset(buffers->groups, 0, buffers->groups_len * sizeof(uint64_t));
    return midvokt_load((const uint8_t *)midvokt_given(file), file == NULL ? 0 : file_len,
                        MIDVOKT_LENT(buffers, steps), MIDVOKT_LENT(buffers, merges),
                        MIDVOKT_LENT(buffers, sizes), MIDVOKT_LENT(buffers, rotations),
                        MIDVOKT_LENT(buffers, promotions), MIDVOKT_LENT(buffers, measurements),
                        buffers->result, MIDVOKT_ANY_RESULT_WORDS);
}

#undef MIDVOKT_LENT

/* The double whose bits a word of a record, of a row or of a result has. */
static inline double midvokt_double_of(uint64_t word)
{
    double number;
    memcpy(&number, &word, sizeof number);
    return number;
}

/* The word that has a double's bits. */
static inline uint64_t midvokt_word_of(double number)
{
    uint64_t word;
    memcpy(&word, &number, sizeof word);
    return word;
}

/* ---- Paulis --------------------------------------------------------------------------- */

/* A Pauli as a record has it: masks by position, and the exponent of i, 0 to 3, in which each Y
 * has 1. */
typedef struct midvokt_pauli {
    uint64_t x;
    uint64_t z;
    uint64_t phase;
} midvokt_pauli;

/* A mask has so many bits. */
#define MIDVOKT_MASK_BITS 64

/* Puts a letter at a position where none acts yet. Not made where it is no letter of a Pauli, or
 * acts where a mask has no bit. */
static inline int midvokt_act(midvokt_pauli *pauli, char letter, uint64_t position)
{
    if (letter == 'I' || letter == '_')
        return MIDVOKT_MADE;
    if ((letter != 'X' && letter != 'Y' && letter != 'Z') || position >= MIDVOKT_MASK_BITS)
        return MIDVOKT_NOT_MADE;
    if (letter != 'Z')
        pauli->x |= (uint64_t)1 << position;
    if (letter != 'X')
        pauli->z |= (uint64_t)1 << position;
    if (letter == 'Y')
        pauli->phase = (pauli->phase + 1) % 4;
    return MIDVOKT_MADE;
}

/* Reads the sign; what is behind it. */
static inline const char *midvokt_read_sign(midvokt_pauli *pauli, const char *text)
{
    if (*text == '-')
        pauli->phase = 2;
    if (*text == '+' || *text == '-')
        text++;
    if (*text == 'i')
        pauli->phase++;
    return *text == 'i' ? text + 1 : text;
}

/* Reads a letter for each position. */
static inline int midvokt_read_letters(midvokt_pauli *pauli, uint64_t width, const char *letters)
{
    uint64_t position = 0;
    for (; letters[position] != 0; position++)
        if (midvokt_act(pauli, letters[position], position) != MIDVOKT_MADE)
            return MIDVOKT_NOT_MADE;
    return position == width ? MIDVOKT_MADE : MIDVOKT_NOT_MADE;
}

/* What a digit stands for, or the base where it is none of that base. */
static inline uint64_t midvokt_digit(char digit, uint64_t base)
{
    uint64_t value = base;
    if (digit >= '0' && digit <= '9')
        value = (uint64_t)(digit - '0');
    if (digit >= 'a' && digit <= 'f')
        value = (uint64_t)(digit - 'a') + 10;
    if (digit >= 'A' && digit <= 'F')
        value = (uint64_t)(digit - 'A') + 10;
    return value < base ? value : base;
}

/* Reads a position: what is behind it; null where there is none, or one of 2^64 or more. */
static inline const char *midvokt_read_position(const char *text, uint64_t *position)
{
    uint64_t base = 10, digit;
    const char *digits;
    if (text[0] == '0' && (text[1] == 'x' || text[1] == 'b')) {
        base = text[1] == 'x' ? 16 : 2;
        text += 2;
    }
    *position = 0;
    for (digits = text; (digit = midvokt_digit(*text, base)) < base; text++) {
        if (*position > (UINT64_MAX - digit) / base)
            return NULL;
        *position = *position * base + digit;
    }
    return text == digits ? NULL : text;
}

/* Whether one of the factors of a product up to a place, all of them read before, stands at a
 * position. */
static inline int midvokt_is_before(const char *product, const char *place, uint64_t position)
{
    uint64_t other = 0;
    while (product < place) {
        product = midvokt_read_position(product + 1, &other) + 1;
        if (other == position)
            return 1;
    }
    return 0;
}

/* Reads a factor of a product: what is behind it; null where it is none. */
static inline const char *midvokt_read_factor(midvokt_pauli *pauli, uint64_t width,
                                              const char *product, const char *factor)
{
    uint64_t position;
    const char *end;
    if (*factor == 0 || *factor == '_')
        return NULL;
    end = midvokt_read_position(factor + 1, &position);
    if (end == NULL || position >= width || midvokt_is_before(product, factor, position) ||
        midvokt_act(pauli, *factor, position) != MIDVOKT_MADE)
        return NULL;
    return end;
}

/* Reads factors with * between. */
static inline int midvokt_read_product(midvokt_pauli *pauli, uint64_t width, const char *product)
{
    const char *end = midvokt_read_factor(pauli, width, product, product);
    while (end != NULL && *end == '*')
        end = midvokt_read_factor(pauli, width, product, end + 1);
    return end != NULL && *end == 0 ? MIDVOKT_MADE : MIDVOKT_NOT_MADE;
}

/* Reads a Pauli over so many positions, as a circuit file of ./show has it. First comes a sign,
 * or none: +, -, i, +i or -i. Then come, in capitals and without blanks, either
 *
 *   "XIZ"     a letter for each position, position 0 first: X, Y, Z, and I or _ where nothing
 *             acts; of no position, nothing
 *   "Y0*Z1"   or letters X, Y, Z or I, each with its position behind it, in any order, and *
 *             between them. Each position stands once and is below the width. It is decimal, or
 *             has 0x or 0b in front
 *
 * Each Y counts 1 in the phase, - counts 2 and i 1. A letter that acts at position 64 or above has
 * no bit in a mask. Returns MIDVOKT_MADE, or MIDVOKT_NOT_MADE where the text is no such Pauli or a
 * pointer is null; then masks and phase are 0. It also reads the string of a pending operation,
 * whose positions are qubits. */
static inline int midvokt_read_pauli(midvokt_pauli *pauli, uint64_t width, const char *text)
{
    static const midvokt_pauli identity = {0, 0, 0};
    int made = MIDVOKT_NOT_MADE;
    if (pauli == NULL)
        return MIDVOKT_NOT_MADE;
    *pauli = identity;
    if (text != NULL) {
        const char *body = midvokt_read_sign(pauli, text);
        made = strpbrk(body, "0123456789*") != NULL ? midvokt_read_product(pauli, width, body)
                                                    : midvokt_read_letters(pauli, width, body);
    }
    if (made != MIDVOKT_MADE)
        *pauli = identity;
    return made;
}

/* ---- Records -------------------------------------------------------------------------- */

/* The kind of a record that could not be made, with 0 in all other words. Planning that reads the
 * records refuses it with MIDVOKT_REFUSED_KIND, so that a program that does not look at what a
 * builder returns gets no plan of another circuit. */
#define MIDVOKT_NO_KIND UINT64_MAX

/* Writes a record's kind, and 0 into all other words. */
static inline int midvokt_write_kind(uint64_t *record, uint64_t kind)
{
    memset(record, 0, MIDVOKT_RECORD_WORDS * sizeof *record);
    record[MIDVOKT_RECORD_KIND] = kind;
    return kind == MIDVOKT_NO_KIND ? MIDVOKT_NOT_MADE : MIDVOKT_MADE;
}

/* Writes the words that rotations and measurements have in common. */
static inline int midvokt_write_pauli(uint64_t *record, uint64_t kind, uint64_t width,
                                      const char *text)
{
    midvokt_pauli pauli;
    if (midvokt_read_pauli(&pauli, width, text) != MIDVOKT_MADE)
        return midvokt_write_kind(record, MIDVOKT_NO_KIND);
    midvokt_write_kind(record, kind);
    record[MIDVOKT_RECORD_WIDTH] = width;
    record[MIDVOKT_RECORD_X] = pauli.x;
    record[MIDVOKT_RECORD_Z] = pauli.z;
    record[MIDVOKT_RECORD_PHASE] = pauli.phase;
    return MIDVOKT_MADE;
}

/* Each builder writes the eight words of one record. It returns MIDVOKT_MADE; or
 * MIDVOKT_NOT_MADE where the Pauli cannot be read over `width` positions (see
 * midvokt_read_pauli), and the record gets MIDVOKT_NO_KIND. A record at null is not made, and not
 * written. `width` is the number of active coordinates. Nothing else is judged. The call judges
 * the angle and the pivot; whether the Pauli is Hermitian it asks only where a measurement has
 * no local x bit (MIDVOKT_REFUSED_EIGENVALUES), so that no sign i or -i should be given here. */

/* The rotation exp(-i angle P), with the sine and the cosine of the angle. A gate that turns by
 * theta has the angle theta/2. */
static inline int midvokt_rotation(uint64_t *record, uint64_t width, const char *pauli,
                                   double angle)
{
    if (record == NULL ||
        midvokt_write_pauli(record, MIDVOKT_KIND_ROTATION, width, pauli) != MIDVOKT_MADE)
        return MIDVOKT_NOT_MADE;
    record[MIDVOKT_RECORD_ANGLE] = midvokt_word_of(angle);
    record[MIDVOKT_RECORD_SINE] = midvokt_word_of(sin(angle));
    record[MIDVOKT_RECORD_COSINE] = midvokt_word_of(cos(angle));
    return MIDVOKT_MADE;
}

/* The measurement of P that takes the coordinate at the pivot away. */
static inline int midvokt_measurement(uint64_t *record, uint64_t width, const char *pauli,
                                      uint64_t pivot)
{
    if (record == NULL ||
        midvokt_write_pauli(record, MIDVOKT_KIND_ACTIVE_MEASUREMENT, width, pauli) != MIDVOKT_MADE)
        return MIDVOKT_NOT_MADE;
    record[MIDVOKT_RECORD_PIVOT] = pivot;
    return MIDVOKT_MADE;
}

/* An expectation, of which planning reads no Pauli. While the head's nexpvals is 0 it is passed
 * over; where nexpvals counts it, no record is read (see midvokt_plan). */
static inline int midvokt_expectation(uint64_t *record)
{
    if (record == NULL)
        return MIDVOKT_NOT_MADE;
    midvokt_write_kind(record, MIDVOKT_KIND_ACTIVE_MEASUREMENT);
    record[MIDVOKT_RECORD_EXPECTATION] = 1;
    return MIDVOKT_MADE;
}

/* A record of which only the kind is read: a promotion, a classical record, a detector or a
 * dormant branch. Any other kind is not made. */
static inline int midvokt_record_alone(uint64_t *record, uint64_t kind)
{
    int is_alone = kind == MIDVOKT_KIND_PROMOTION || kind == MIDVOKT_KIND_RECORD_MEASUREMENT ||
                   kind == MIDVOKT_KIND_RECORD_DETECTOR || kind == MIDVOKT_KIND_DORMANT_BRANCH;
    if (record == NULL)
        return MIDVOKT_NOT_MADE;
    return midvokt_write_kind(record, is_alone ? kind : MIDVOKT_NO_KIND);
}

/* ---- Refusals in words ---------------------------------------------------------------- */

/* A sentence in plain words on a number that a call returned, as the Rust crate has it. */
static inline const char *midvokt_sentence(uint64_t number)
{
    static const char *const sentences[] = {
        "nothing is refused",
        "max_k is the ceiling or more",
        "the record words are no multiple of 8, or more than 8,192",
        "one of the seven buffers is too short for this many records",
        "initial_k is more than 512",
        "the kind is none of 0 to 5",
        "the width is more than 62",
        "the phase exponent is more than 3",
        "the angle is not finite, or the sine or cosine is not in -1 to 1",
        "the expectation flag is neither 0 nor 1",
        "the promotion would make the 513th coordinate",
        "the rotation's width is not the number of active coordinates",
        "the measurement's width is not the number of active coordinates",
        "there is no active coordinate to measure",
        "the join makes a component of as many members as the ceiling, or more",
        "the pivot is not an active position",
        "the pivot's coordinate is not in the measured component",
        "the measured x mask is not 0 and has no bit at the pivot",
        "the measured x mask is 0 and the z mask, not 0, has no bit at the pivot",
        "the measured x mask is 0, the z mask is not, and the phase exponent is 1 or 3",
        "the measured masks are both 0",
        "the file's length, or the length or version word in it, is wrong",
        "the file's sections do not follow each other up to its trailer",
        "a section has a count that no plan has, or a buffer is too short",
        "the ceiling is not 1 to 62",
        "the squares of sine and cosine do not sum to 1",
        ("the list, its width, its prefixes or an operation is not of the form, or an output is "
         "too short"),
        "a preserved prefix is more than the list has operations",
        "the rotation's string is not Hermitian",
    };
    if (number < sizeof sentences / sizeof sentences[0])
        return sentences[number];
    return "the number has no name in this version";
}

#endif
