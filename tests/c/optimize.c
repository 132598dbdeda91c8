/*
 * Optimizes lists of pending operations through the C interface. A list in which rotations are
 * fused and cancelled and measurements move is printed by the header's names, before and after,
 * without and with preserved prefixes; then a list with an expectation value, shorter and longer
 * results, outputs of just the needed length and longer ones, each refusal, with one for each part
 * of the form, and two measurements that pass one rotation. `check` compares what is printed with
 * optimize.expected. C99 and C++11.
 */
#include <inttypes.h>
#include <stdio.h>
#include <string.h>

#include "midvokt.h"

#define WORDS MIDVOKT_OPERATION_WORDS
#define LENGTH(words) (sizeof(words) / sizeof(words)[0])

static const double most_angle = MIDVOKT_MOST_ANGLE;

static uint64_t list[MIDVOKT_OPTIMIZED_WORDS(MIDVOKT_MOST_OPERATIONS + 1)];
static size_t used;
static uint64_t prefixes[MIDVOKT_MOST_PREFIXES + 1];
static uint64_t optimized[MIDVOKT_OPTIMIZED_WORDS(MIDVOKT_MOST_OPERATIONS) + 40];
static uint64_t map[MIDVOKT_MAP_WORDS(MIDVOKT_MOST_OPERATIONS) + 3];
static uint64_t result[MIDVOKT_OPTIMIZE_RESULT_WORDS + 2];

static int is_right = 1;

/* Prints whether something holds, and remembers it if not. */
static void tell(const char *what, int holds)
{
    printf("%s: %s\n", what, holds ? "yes" : "NO");
    is_right &= holds;
}

/* Adds an operation of a kind. */
static uint64_t *add(uint64_t kind)
{
    uint64_t *operation = list + used++ * WORDS;
    memset(operation, 0, WORDS * sizeof *operation);
    operation[MIDVOKT_OPERATION_KIND] = kind;
    return operation;
}

/* Adds a rotation without a sign. */
static uint64_t *turn(double angle, uint64_t x, uint64_t z, uint64_t phase)
{
    uint64_t *operation = add(MIDVOKT_OPERATION_ROTATION);
    memcpy(operation + MIDVOKT_TURN_ANGLE, &angle, sizeof angle);
    operation[MIDVOKT_TURN_X] = x;
    operation[MIDVOKT_TURN_Z] = z;
    operation[MIDVOKT_TURN_PHASE] = phase;
    return operation;
}

/* Adds a measurement that writes a record, and has a symbol of the same number. */
static uint64_t *measure(uint64_t x, uint64_t z, uint64_t phase, uint64_t record)
{
    uint64_t *operation = add(MIDVOKT_OPERATION_MEASUREMENT);
    operation[MIDVOKT_MEASURED_X] = x;
    operation[MIDVOKT_MEASURED_Z] = z;
    operation[MIDVOKT_MEASURED_PHASE] = phase;
    operation[MIDVOKT_MEASURED_RECORD + MIDVOKT_OPTION_FLAG] = 1;
    operation[MIDVOKT_MEASURED_RECORD + MIDVOKT_OPTION_VALUE] = record;
    operation[MIDVOKT_MEASURED_CONDITION + MIDVOKT_OPTION_FLAG] = 1;
    operation[MIDVOKT_MEASURED_CONDITION + MIDVOKT_OPTION_VALUE] = record;
    return operation;
}

/* Adds a classical record of two symbols. */
static uint64_t *write_record(uint64_t one, uint64_t other, uint64_t record)
{
    uint64_t *operation = add(MIDVOKT_OPERATION_CLASSICAL_RECORD);
    uint64_t *outcome = operation + MIDVOKT_WRITTEN_OUTCOME;
    outcome[MIDVOKT_SIGN_COUNT] = 2;
    outcome[MIDVOKT_SIGN_CONDITIONS] = one;
    outcome[MIDVOKT_SIGN_CONDITIONS + 1] = other;
    operation[MIDVOKT_WRITTEN_RECORD + MIDVOKT_OPTION_FLAG] = 1;
    operation[MIDVOKT_WRITTEN_RECORD + MIDVOKT_OPTION_VALUE] = record;
    return operation;
}

/* Has a sign depend on one symbol. */
static void depend(uint64_t *sign, uint64_t symbol)
{
    sign[MIDVOKT_SIGN_COUNT] = 1;
    sign[MIDVOKT_SIGN_CONDITIONS] = symbol;
}

/* Prints a sign. */
static void print_sign(const uint64_t *sign)
{
    uint64_t condition;
    printf(" sign %" PRIu64, sign[MIDVOKT_SIGN_CONSTANT]);
    for (condition = 0; condition < sign[MIDVOKT_SIGN_COUNT]; condition++)
        printf("^s%" PRIu64, sign[MIDVOKT_SIGN_CONDITIONS + condition]);
}

/* Prints an Option, if there is something in it. */
static void print_option(const char *name, const uint64_t *option)
{
    if (option[MIDVOKT_OPTION_FLAG] == 1)
        printf(" %s %" PRIu64, name, option[MIDVOKT_OPTION_VALUE]);
}

/* Prints an operation. */
static void print_operation(const uint64_t *operation)
{
    double angle;
    switch (operation[MIDVOKT_OPERATION_KIND]) {
    case MIDVOKT_OPERATION_ROTATION:
        memcpy(&angle, operation + MIDVOKT_TURN_ANGLE, sizeof angle);
        printf("  rotation by %g about x %" PRIu64 " z %" PRIu64 " phase %" PRIu64, angle,
               operation[MIDVOKT_TURN_X], operation[MIDVOKT_TURN_Z],
               operation[MIDVOKT_TURN_PHASE]);
        print_sign(operation + MIDVOKT_TURN_SIGN);
        break;
    case MIDVOKT_OPERATION_MEASUREMENT:
        printf("  measurement of x %" PRIu64 " z %" PRIu64 " phase %" PRIu64,
               operation[MIDVOKT_MEASURED_X], operation[MIDVOKT_MEASURED_Z],
               operation[MIDVOKT_MEASURED_PHASE]);
        print_sign(operation + MIDVOKT_MEASURED_SIGN);
        print_option("record", operation + MIDVOKT_MEASURED_RECORD);
        print_option("symbol", operation + MIDVOKT_MEASURED_CONDITION);
        print_option("expectation", operation + MIDVOKT_MEASURED_EXPECTATION);
        break;
    default:
        printf("  classical record of");
        print_sign(operation + MIDVOKT_WRITTEN_OUTCOME);
        print_option("record", operation + MIDVOKT_WRITTEN_RECORD);
        print_option("symbol", operation + MIDVOKT_WRITTEN_CONDITION);
    }
    printf("\n");
}

/* Fills all that a call writes with noise. */
static void make_noise(void)
{
    memset(optimized, 0x5a, sizeof optimized);
    memset(map, 0x5a, sizeof map);
    memset(result, 0x5a, sizeof result);
}

/* Whether so many words are all zero. */
static int is_zero(const uint64_t *words, size_t count)
{
    while (count > 0 && *words == 0) {
        words++;
        count--;
    }
    return count == 0;
}

/* The call, with so many words of list, prefixes and outputs. */
static uint64_t call(uint64_t width, size_t words, size_t prefixes_len, size_t optimized_len,
                     size_t map_len)
{
    make_noise();
    return midvokt_optimize(width, list, words, prefixes, prefixes_len, optimized, optimized_len,
                            map, map_len, result, LENGTH(result));
}

/* The call on the list, with outputs that are longer than needed. */
static uint64_t optimize(uint64_t width, size_t prefixes_len)
{
    return call(width, used * WORDS, prefixes_len, LENGTH(optimized), LENGTH(map));
}

/* Optimizes the list with so many prefixes, and prints all that comes of it. */
static void show(const char *name, size_t prefixes_len)
{
    uint64_t number = optimize(3, prefixes_len);
    size_t place, left = (size_t)result[MIDVOKT_OPTIMIZE_RESULT_OUTPUT];
    printf("%s: number %" PRIu64 ", index %" PRIu64 "\n", name, number,
           result[MIDVOKT_OPTIMIZE_RESULT_INDEX]);
    for (place = 0; place < left; place++)
        print_operation(optimized + place * WORDS);
    printf("  input %" PRIu64 ", output %" PRIu64 ", fused %" PRIu64 ", cancelled %" PRIu64
           ", swaps %" PRIu64 "\n",
           result[MIDVOKT_OPTIMIZE_RESULT_INPUT], result[MIDVOKT_OPTIMIZE_RESULT_OUTPUT],
           result[MIDVOKT_OPTIMIZE_RESULT_FUSED], result[MIDVOKT_OPTIMIZE_RESULT_CANCELLED],
           result[MIDVOKT_OPTIMIZE_RESULT_SWAPS]);
    printf("  map");
    for (place = 0; place < MIDVOKT_MAP_WORDS(used); place++)
        if (map[place] == MIDVOKT_NO_BOUNDARY)
            printf(" -");
        else
            printf(" %" PRIu64, map[place]);
    printf("\n");
    tell("  zeros behind list, map and result",
         is_zero(optimized + left * WORDS, LENGTH(optimized) - left * WORDS) &&
             is_zero(map + MIDVOKT_MAP_WORDS(used), LENGTH(map) - MIDVOKT_MAP_WORDS(used)) &&
             is_zero(result + MIDVOKT_OPTIMIZE_RESULT_WORDS,
                     LENGTH(result) - MIDVOKT_OPTIMIZE_RESULT_WORDS));
}

/* Whether the outputs of just the needed length get the words that longer ones get. */
static int just_enough(size_t prefixes_len)
{
    static uint64_t whole[LENGTH(optimized)], boundaries[LENGTH(map)];
    uint64_t noise[LENGTH(result)];
    size_t words = used * WORDS;
    int holds = optimize(3, prefixes_len) == MIDVOKT_OPTIMIZED;
    memcpy(whole, optimized, sizeof whole);
    memcpy(boundaries, map, sizeof boundaries);
    memset(noise, 0x5a, sizeof noise);
    holds &= call(3, words, prefixes_len, words, MIDVOKT_MAP_WORDS(used)) == MIDVOKT_OPTIMIZED;
    return holds && memcmp(optimized, whole, words * 8) == 0 &&
           memcmp(map, boundaries, MIDVOKT_MAP_WORDS(used) * 8) == 0 &&
           memcmp(optimized + words, noise, sizeof noise) == 0 &&
           map[MIDVOKT_MAP_WORDS(used)] == noise[0];
}

/* Whether a result shorter than a whole one gets its first words and nothing behind them. */
static int first_words_are_same(void)
{
    uint64_t whole[LENGTH(result)], noise[LENGTH(result)];
    size_t words;
    memset(noise, 0x5a, sizeof noise);
    optimize(3, 0);
    memcpy(whole, result, sizeof whole);
    for (words = 0; words < MIDVOKT_OPTIMIZE_RESULT_WORDS; words++) {
        make_noise();
        if (midvokt_optimize(3, list, used * WORDS, prefixes, 0, optimized, LENGTH(optimized), map,
                             LENGTH(map), result, words) != MIDVOKT_OPTIMIZED ||
            memcmp(result, whole, words * 8) != 0 ||
            memcmp(result + words, noise, sizeof result - words * 8) != 0)
            return 0;
    }
    return 1;
}

/* Prints a refusal; all that the call writes behind the index has to be zero, and the rest as it
 * was. */
static void refuse(const char *name, uint64_t width, size_t words, size_t prefixes_len,
                   size_t optimized_len, size_t map_len)
{
    uint64_t number = call(width, words, prefixes_len, optimized_len, map_len);
    int is_clean = number != 0 && is_zero(optimized, optimized_len) && is_zero(map, map_len) &&
                   is_zero(result + 1, LENGTH(result) - 1) && optimized[optimized_len] != 0 &&
                   map[map_len] != 0;
    printf("%s: number %" PRIu64 ", index %" PRIu64 "%s\n", name, number, result[0],
           is_clean ? "" : " WITH SOMETHING LEFT");
    is_right &= is_clean;
}

/* Prints what becomes of the list where a word of an operation is another; puts it back. */
static void change(const char *name, size_t place, size_t at, uint64_t word)
{
    uint64_t before = list[place * WORDS + at];
    list[place * WORDS + at] = word;
    refuse(name, 3, used * WORDS, 0, used * WORDS, MIDVOKT_MAP_WORDS(used));
    list[place * WORDS + at] = before;
}

/* The bits of a double. */
static uint64_t bits(double number)
{
    uint64_t word;
    memcpy(&word, &number, sizeof word);
    return word;
}

/* A list of which most is fused, cancelled or moved. */
static void make_list(void)
{
    used = 0;
    turn(0.5, 1, 0, 0);
    write_record(4, 9, 2);
    turn(0.25, 1, 0, 2)[MIDVOKT_TURN_SIGN] = 1;
    turn(0.5, 0, 2, 0);
    turn(-0.5, 0, 2, 0);
    depend(turn(0.125, 0, 4, 0) + MIDVOKT_TURN_SIGN, 9);
    measure(0, 4, 0, 7);
    turn(0.5, 1, 1, 1);
    turn(0.5, 1, 1, 3);
}

/* Each part of the form, in the list's own operations: a rotation at 0, a classical record at 1 and
 * a measurement at 6. */
static void refuse_forms(void)
{
    size_t sign = MIDVOKT_TURN_SIGN, conditions = MIDVOKT_TURN_SIGN + MIDVOKT_SIGN_CONDITIONS;
    change("kind 3", 0, MIDVOKT_OPERATION_KIND, 3);
    change("kind 2^32", 0, MIDVOKT_OPERATION_KIND, UINT64_C(1) << 32);
    change("angle over 2^20", 0, MIDVOKT_TURN_ANGLE, bits(most_angle) + 1);
    change("angle under -2^20", 0, MIDVOKT_TURN_ANGLE, bits(-most_angle) + 1);
    change("angle NaN", 0, MIDVOKT_TURN_ANGLE, UINT64_C(0x7ff8000000000000));
    change("x at the width", 0, MIDVOKT_TURN_X, 8);
    change("z at the width", 6, MIDVOKT_MEASURED_Z, 12);
    change("phase 4", 0, MIDVOKT_TURN_PHASE, 4);
    change("constant 2", 0, sign + MIDVOKT_SIGN_CONSTANT, 2);
    change("count 9", 0, sign + MIDVOKT_SIGN_COUNT, 9);
    change("a used condition 0", 0, sign + MIDVOKT_SIGN_COUNT, 1);
    change("an unused condition", 0, conditions, 1);
    change("conditions the same", 1, MIDVOKT_WRITTEN_OUTCOME + MIDVOKT_SIGN_CONDITIONS, 9);
    change("a condition of 2^31", 1, MIDVOKT_WRITTEN_OUTCOME + MIDVOKT_SIGN_CONDITIONS + 1,
           (uint64_t)MIDVOKT_MOST_NUMBER + 1);
    change("flag 2", 6, MIDVOKT_MEASURED_RECORD + MIDVOKT_OPTION_FLAG, 2);
    change("a value of nothing", 6, MIDVOKT_MEASURED_EXPECTATION + MIDVOKT_OPTION_VALUE, 1);
    change("a record of 2^31", 1, MIDVOKT_WRITTEN_RECORD + MIDVOKT_OPTION_VALUE,
           (uint64_t)MIDVOKT_MOST_NUMBER + 1);
    change("a word behind a rotation", 0, 15, 1);
    change("a word behind a measurement", 6, 20, 1);
    change("the last word of a record", 1, WORDS - 1, 1);
}

/* The rest of 26: width, lengths and limits. */
static void refuse_lengths(void)
{
    size_t words = used * WORDS, boundaries = MIDVOKT_MAP_WORDS(used), place;
    refuse("width 0", 0, words, 0, words, boundaries);
    refuse("width 65", MIDVOKT_MOST_QUBITS + 1, words, 0, words, boundaries);
    refuse("a word less", 3, words - 1, 0, words, boundaries);
    refuse("a list one word shorter", 3, words, 0, words - 1, boundaries);
    refuse("a map one word shorter", 3, words, 0, words, boundaries - 1);
    refuse("1,025 prefixes", 3, words, MIDVOKT_MOST_PREFIXES + 1, words, boundaries);
    while (used < MIDVOKT_MOST_OPERATIONS + 1)
        turn(0.5, 1, 0, 0);
    refuse("1,025 operations", 3, used * WORDS, 0, LENGTH(optimized) - 1, LENGTH(map) - 1);
    used--;
    for (place = 0; place < MIDVOKT_MOST_PREFIXES; place++)
        prefixes[place] = place;
    tell("1,024 operations and 1,024 prefixes",
         optimize(MIDVOKT_MOST_QUBITS, MIDVOKT_MOST_PREFIXES) == MIDVOKT_OPTIMIZED &&
             result[MIDVOKT_OPTIMIZE_RESULT_FUSED] == 0);
    tell("1,024 operations", optimize(3, 0) == MIDVOKT_OPTIMIZED &&
                                 result[MIDVOKT_OPTIMIZE_RESULT_FUSED] == 1017);
}

/* 26 comes before the shortcut for expectation values, then 27, then 28. */
static void refuse_in_order(void)
{
    size_t words = used * WORDS, boundaries = MIDVOKT_MAP_WORDS(used);
    uint64_t *expectation = list + 6 * WORDS + MIDVOKT_MEASURED_EXPECTATION;
    prefixes[0] = used + 1;
    refuse("a prefix beyond the list", 3, words, 1, words, boundaries);
    list[4 * WORDS + MIDVOKT_TURN_PHASE] = 1;
    list[7 * WORDS + MIDVOKT_TURN_PHASE] = 2;
    refuse("that, and phases that are odd", 3, words, 1, words, boundaries);
    refuse("phases that are odd", 3, words, 0, words, boundaries);
    expectation[MIDVOKT_OPTION_FLAG] = 1;
    tell("with an expectation value none of these is judged",
         optimize(3, 1) == MIDVOKT_OPTIMIZED && memcmp(optimized, list, words * 8) == 0);
    show("an expectation value", 1);
    refuse("but the form is", 2, words, 1, words, boundaries);
}

int main(void)
{
    size_t place;
    make_list();
    printf("given:\n");
    for (place = 0; place < used; place++)
        print_operation(list + place * WORDS);
    show("optimized", 0);
    prefixes[0] = 7;
    prefixes[1] = 4;
    prefixes[2] = 7;
    show("with the prefixes 7, 4 and 7", 3);
    tell("outputs of just the needed length", just_enough(0) && just_enough(3));
    tell("shorter and longer results", first_words_are_same());
    refuse_forms();
    refuse_in_order();
    make_list();
    refuse_lengths();
    used = 0;
    show("no operations", 0);
    turn(0.5, 1, 0, 0);
    turn(0.25, 1, 0, 0);
    measure(0, 2, 0, 1);
    measure(0, 4, 0, 2);
    show("two measurements pass one rotation", 0);
    return is_right ? 0 : 1;
}
