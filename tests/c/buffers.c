/*
 * Tries all of midvokt_buffers.h: Paulis and records against words written by hand, what is none,
 * the sizes of buffers, static and from the heap, the calls over them against those of midvokt.h,
 * a plan stored and loaded again, null pointers, and the sentences. `check` compares what is
 * printed with buffers.expected. C99 and C++11.
 */
#include <inttypes.h>
#include <stdio.h>
#include <stdlib.h>
#include <string.h>

#include "midvokt_buffers.h"

#define RECORDS 5
#define LENGTH(words) (sizeof(words) / sizeof(words)[0])
#define LENT(words) words, LENGTH(words)

static int is_right = 1;

/* Prints whether something holds, and remembers it if not. */
static void tell(const char *what, int holds)
{
    printf("%s: %s\n", what, holds ? "yes" : "NO");
    is_right &= holds;
}

/* ---- Paulis --------------------------------------------------------------------------- */

/* A Pauli over so many positions, and its masks and phase. */
struct read {
    const char *text;
    uint64_t width, x, z, phase;
};

static const struct read good[] = {
    {"Y0", 3, 1, 1, 1},
    {"-Y1", 3, 2, 2, 3},
    {"Y0*Y1", 3, 3, 3, 2},
    {"X0*Y2", 3, 5, 4, 1},
    {"-Z0*Z1", 3, 0, 3, 2},
    {"Z2*X0", 3, 1, 4, 0},
    {"XIZ", 3, 1, 4, 0},
    {"X_Z", 3, 1, 4, 0},
    {"+XIZ", 3, 1, 4, 0},
    {"-YYY", 3, 7, 7, 1},
    {"YYYY", 4, 15, 15, 0},
    {"iZ", 1, 0, 1, 1},
    {"+iZ", 1, 0, 1, 1},
    {"-iZ", 1, 0, 1, 3},
    {"iY", 1, 1, 1, 2},
    {"-iY0", 1, 1, 1, 0},
    {"I0", 1, 0, 0, 0},
    {"-I", 1, 0, 0, 2},
    {"", 0, 0, 0, 0},
    {"-i", 0, 0, 0, 3},
    {"X00", 1, 1, 0, 0},
    {"X0x2*Z0b11", 4, 4, 8, 0},
    {"X0xa", 62, UINT64_C(1) << 10, 0, 0},
    {"X0xA*Z61", 62, UINT64_C(1) << 10, UINT64_C(1) << 61, 0},
    {"Y63", 64, UINT64_C(1) << 63, UINT64_C(1) << 63, 1},
    {"X0*I64*I65", 66, 1, 0, 0},
    {"X0*I18446744073709551614", UINT64_MAX, 1, 0, 0},
    {"________________________________________________________________I_", 66, 0, 0, 0},
};

/* What is no Pauli over so many positions. */
static const struct read bad[] = {
    {"", 1, 0, 0, 0},
    {"-", 1, 0, 0, 0},
    {"i", 1, 0, 0, 0},
    {"Q", 1, 0, 0, 0},
    {"x", 1, 0, 0, 0},
    {"XX", 3, 0, 0, 0},
    {"XXXX", 3, 0, 0, 0},
    {"X", 0, 0, 0, 0},
    {"X0*", 3, 0, 0, 0},
    {"*X0", 3, 0, 0, 0},
    {"X0**Z1", 3, 0, 0, 0},
    {"*", 3, 0, 0, 0},
    {"0", 3, 0, 0, 0},
    {"X0*X0", 3, 0, 0, 0},
    {"X0*Z1*I00", 3, 0, 0, 0},
    {"I64*I65*I64", 66, 0, 0, 0},
    {"X3", 3, 0, 0, 0},
    {"X9", 3, 0, 0, 0},
    {"I0", 0, 0, 0, 0},
    {"X18446744073709551615", 3, 0, 0, 0},
    {"X18446744073709551616", 3, 0, 0, 0},
    {"I18446744073709551616", UINT64_MAX, 0, 0, 0},
    {"I0x10000000000000000", UINT64_MAX, 0, 0, 0},
    {"I18446744073709551615", UINT64_MAX, 0, 0, 0},
    {"X64", 65, 0, 0, 0},
    {"________________________________________________________________X", 65, 0, 0, 0},
    {"X0*Z", 3, 0, 0, 0},
    {"X0*_1", 3, 0, 0, 0},
    {"X0Z1", 3, 0, 0, 0},
    {"X0x", 3, 0, 0, 0},
    {"X0b", 3, 0, 0, 0},
    {"X0b2", 3, 0, 0, 0},
    {"X00x1", 3, 0, 0, 0},
    {"Xa", 62, 0, 0, 0},
    {"X-0", 3, 0, 0, 0},
    {"X+0", 3, 0, 0, 0},
    {"X1.0", 3, 0, 0, 0},
    {"X0 ", 3, 0, 0, 0},
    {" X0", 3, 0, 0, 0},
    {"X 0", 3, 0, 0, 0},
    {"X0 *Z1", 3, 0, 0, 0},
    {"XIZ ", 3, 0, 0, 0},
    {"XIZ\n", 3, 0, 0, 0},
    {"XI-", 3, 0, 0, 0},
    {"--X", 1, 0, 0, 0},
    {"+-X", 1, 0, 0, 0},
    {"i-X", 1, 0, 0, 0},
    {"iiX", 1, 0, 0, 0},
    {"\303\227X", 3, 0, 0, 0},
    {"X\377", 2, 0, 0, 0},
    {"X0\377", 2, 0, 0, 0},
    {"X\262", 2, 0, 0, 0},
};

/* Reads a text that nothing stands behind, into a Pauli that was noise. */
static int read_alone(midvokt_pauli *pauli, const struct read *wanted)
{
    size_t bytes = strlen(wanted->text) + 1;
    char *text = (char *)malloc(bytes);
    int made;
    if (text == NULL)
        return MIDVOKT_NOT_MADE - 1;
    memset(pauli, 0x5a, sizeof *pauli);
    memcpy(text, wanted->text, bytes);
    made = midvokt_read_pauli(pauli, wanted->width, text);
    free(text);
    return made;
}

/* Tells of each Pauli whether it is read so, or as none. */
static void try_paulis(const struct read *wanted, size_t count, int made)
{
    midvokt_pauli pauli;
    for (; count > 0; count--, wanted++) {
        int as_wanted = read_alone(&pauli, wanted) == made && pauli.x == wanted->x &&
                        pauli.z == wanted->z && pauli.phase == wanted->phase;
        if (!as_wanted)
            printf("'%s' over %" PRIu64 ": x %" PRIu64 ", z %" PRIu64 ", phase %" PRIu64 "\n",
                   wanted->text, wanted->width, pauli.x, pauli.z, pauli.phase);
        is_right &= as_wanted;
    }
}

/* ---- Records -------------------------------------------------------------------------- */

/* Whether a record has these words. */
static int has_words(const uint64_t *record, const uint64_t *words)
{
    return memcmp(record, words, MIDVOKT_RECORD_WORDS * sizeof *record) == 0;
}

/* Whether a record is one that could not be made. */
static int is_none(const uint64_t *record)
{
    static const uint64_t none[MIDVOKT_RECORD_WORDS] = {UINT64_MAX, 0, 0, 0, 0, 0, 0, 0};
    return has_words(record, none);
}

/* A rotation and a measurement against words written by hand. */
static void try_records(uint64_t *record)
{
    static const uint64_t measured[MIDVOKT_RECORD_WORDS] = {4, 3, 0, 6, 2, 2, 0, 0};
    static const uint64_t expected[MIDVOKT_RECORD_WORDS] = {4, 0, 0, 0, 0, 0, 1, 0};
    static const uint64_t turned[MIDVOKT_RECORD_WORDS] = {
        0, 3, 1, 3, 1, UINT64_C(0x8000000000000000), UINT64_C(0x8000000000000000),
        UINT64_C(0x3ff0000000000000)};
    tell("a rotation has its words",
         midvokt_rotation(record, 3, "Y0*Z1", -0.0) == MIDVOKT_MADE && has_words(record, turned));
    midvokt_rotation(record, 3, "Y0*Z1", 0.25);
    tell("and the angle with its sine and cosine",
         midvokt_double_of(record[5]) == 0.25 && midvokt_double_of(record[6]) == sin(0.25) &&
             midvokt_double_of(record[7]) == cos(0.25));
    tell("a measurement has its words",
         midvokt_measurement(record, 3, "-_ZZ", 2) == MIDVOKT_MADE && has_words(record, measured));
    tell("an expectation has its words",
         midvokt_expectation(record) == MIDVOKT_MADE && has_words(record, expected));
}

/* Records of which only the kind is read, and kinds of which that is not so. */
static void try_alone(uint64_t *record)
{
    uint64_t kind, words[MIDVOKT_RECORD_WORDS] = {0, 0, 0, 0, 0, 0, 0, 0};
    int holds = 1;
    for (kind = 1; kind <= 5; kind += kind == 3 ? 2 : 1) {
        words[0] = kind;
        holds &= midvokt_record_alone(record, kind) == MIDVOKT_MADE && has_words(record, words);
    }
    tell("kinds 1, 2, 3 and 5 stand alone", holds);
    holds = midvokt_record_alone(record, 0) == MIDVOKT_NOT_MADE && is_none(record);
    holds &= midvokt_record_alone(record, 4) == MIDVOKT_NOT_MADE && is_none(record);
    holds &= midvokt_record_alone(record, 6) == MIDVOKT_NOT_MADE && is_none(record);
    holds &= midvokt_record_alone(record, UINT64_MAX) == MIDVOKT_NOT_MADE && is_none(record);
    tell("and 0, 4, 6 and the greatest do not", holds);
}

/* Records that cannot be made, and null pointers. */
static void try_unmade(uint64_t *record)
{
    static const midvokt_pauli identity = {0, 0, 0};
    midvokt_pauli pauli;
    memset(record, 0x5a, MIDVOKT_RECORD_WORDS * sizeof *record);
    tell("a rotation about no Pauli",
         midvokt_rotation(record, 3, "X0*X0", 0.25) == MIDVOKT_NOT_MADE && is_none(record));
    memset(record, 0x5a, MIDVOKT_RECORD_WORDS * sizeof *record);
    tell("a measurement of no Pauli",
         midvokt_measurement(record, 3, "XX", 0) == MIDVOKT_NOT_MADE && is_none(record));
    memset(record, 0x5a, MIDVOKT_RECORD_WORDS * sizeof *record);
    tell("a text at null",
         midvokt_rotation(record, 0, NULL, 0.25) == MIDVOKT_NOT_MADE && is_none(record) &&
             midvokt_measurement(record, 0, NULL, 0) == MIDVOKT_NOT_MADE && is_none(record));
    memset(&pauli, 0x5a, sizeof pauli);
    tell("a Pauli or its text at null",
         midvokt_read_pauli(NULL, 1, "X") == MIDVOKT_NOT_MADE &&
             midvokt_read_pauli(&pauli, 0, NULL) == MIDVOKT_NOT_MADE &&
             memcmp(&pauli, &identity, sizeof pauli) == 0);
    tell("a record at null", midvokt_rotation(NULL, 1, "X", 0.25) == MIDVOKT_NOT_MADE &&
                                 midvokt_measurement(NULL, 1, "X", 0) == MIDVOKT_NOT_MADE &&
                                 midvokt_expectation(NULL) == MIDVOKT_NOT_MADE &&
                                 midvokt_record_alone(NULL, 1) == MIDVOKT_NOT_MADE);
}

/* ---- Buffers and calls ---------------------------------------------------------------- */

MIDVOKT_STATIC_BUFFERS(none, 0);
MIDVOKT_STATIC_BUFFERS(lent, RECORDS);

static uint8_t file[MIDVOKT_FILE_BYTES(RECORDS)];

/* A classical record, a rotation, a promotion, a measurement and a rotation. */
static uint64_t records[RECORDS][MIDVOKT_RECORD_WORDS];

/* Makes the records. */
static int make_records(void)
{
    return midvokt_record_alone(records[0], MIDVOKT_KIND_RECORD_MEASUREMENT) == MIDVOKT_MADE &&
           midvokt_rotation(records[1], 3, "X0*X2", 0.25) == MIDVOKT_MADE &&
           midvokt_record_alone(records[2], MIDVOKT_KIND_PROMOTION) == MIDVOKT_MADE &&
           midvokt_measurement(records[3], 4, "_ZZ_", 2) == MIDVOKT_MADE &&
           midvokt_rotation(records[4], 3, "-Z2", 0.5) == MIDVOKT_MADE;
}

/* Whether buffers have the lengths that the header of the calls names for n records. */
static int has_lengths(const midvokt_buffers *buffers, size_t n)
{
    return buffers->steps_len == MIDVOKT_STEPS_WORDS(n) &&
           buffers->merges_len == MIDVOKT_MERGES_WORDS(n) &&
           buffers->sizes_len == MIDVOKT_SIZES_WORDS(n) &&
           buffers->rotations_len == MIDVOKT_ROTATIONS_WORDS(n) &&
           buffers->promotions_len == MIDVOKT_PROMOTIONS_WORDS(n) &&
           buffers->measurements_len == MIDVOKT_MEASUREMENTS_WORDS(n) &&
           buffers->groups_len == MIDVOKT_GROUPS_WORDS(n);
}

/* Whether each output stands right behind the one before it, and the last ends the block. */
static int is_one_block(const midvokt_buffers *buffers, const uint64_t *block, size_t words)
{
    return buffers->steps == block && buffers->merges == buffers->steps + buffers->steps_len &&
           buffers->sizes == buffers->merges + buffers->merges_len &&
           buffers->rotations == buffers->sizes + buffers->sizes_len &&
           buffers->promotions == buffers->rotations + buffers->rotations_len &&
           buffers->measurements == buffers->promotions + buffers->promotions_len &&
           buffers->groups == buffers->measurements + buffers->measurements_len &&
           buffers->groups + buffers->groups_len == block + words;
}

/* Whether so many words are all this one. */
static int are_all(const uint64_t *words, size_t count, uint64_t word)
{
    while (count > 0 && words[count - 1] == word)
        count--;
    return count == 0;
}

/* Whether the struct has no buffers. */
static int is_empty(const midvokt_buffers *buffers)
{
    return buffers->steps == NULL && buffers->groups == NULL && buffers->memory == NULL &&
           buffers->steps_len == 0 && buffers->merges_len == 0 && buffers->sizes_len == 0 &&
           buffers->rotations_len == 0 && buffers->promotions_len == 0 &&
           buffers->measurements_len == 0 && buffers->groups_len == 0 &&
           are_all(LENT(buffers->result), 0);
}

/* Gets buffers for n records, uses every word, and gives them back twice. */
static int are_got(size_t n)
{
    midvokt_buffers got;
    size_t words = MIDVOKT_BUFFERS_WORDS(n);
    int holds;
    memset(&got, 0x5a, sizeof got);
    holds = midvokt_buffers_alloc(&got, n) == MIDVOKT_MADE;
    holds = holds && has_lengths(&got, n) && is_one_block(&got, got.memory, words) &&
            are_all(got.memory, words, 0) && are_all(LENT(got.result), 0);
    if (holds)
        memset(got.memory, 0x5a, words * sizeof(uint64_t));
    midvokt_buffers_free(&got);
    holds = holds && is_empty(&got);
    midvokt_buffers_free(&got);
    return holds && is_empty(&got);
}

/* Whether buffers for n records are told as too many, and planning with them is refused. */
static int is_too_many(size_t n)
{
    midvokt_buffers got;
    int holds;
    memset(&got, 0x5a, sizeof got);
    holds = midvokt_buffers_alloc(&got, n) == MIDVOKT_NOT_MADE && is_empty(&got);
    holds = holds && midvokt_plan_records(midvokt_head_of(3, 4), records[0], RECORDS, &got) ==
                         MIDVOKT_REFUSED_BUFFERS;
    midvokt_buffers_free(&got);
    return holds;
}

/* The sizes of buffers, and their making and giving back. */
static void try_buffers(void)
{
    const size_t words = SIZE_MAX / sizeof(uint64_t), fixed = MIDVOKT_BUFFERS_WORDS(0);
    const size_t most = (words - fixed) / (MIDVOKT_BUFFERS_WORDS(1) - fixed);
    MIDVOKT_STATIC_BUFFERS(inside, 1 + 1);
    printf("words for 0, 1, 2 and 1,024 records: %lu, %lu, %lu, %lu\n",
           (unsigned long)MIDVOKT_BUFFERS_WORDS(0), (unsigned long)MIDVOKT_BUFFERS_WORDS(1),
           (unsigned long)MIDVOKT_BUFFERS_WORDS(2), (unsigned long)MIDVOKT_BUFFERS_WORDS(1024));
    tell("static buffers for none", has_lengths(&none, 0) &&
                                        is_one_block(&none, none_words, LENGTH(none_words)));
    tell("static buffers for five", has_lengths(&lent, RECORDS) &&
                                        is_one_block(&lent, lent_words, LENGTH(lent_words)));
    tell("static buffers in a function",
         has_lengths(&inside, 2) && is_one_block(&inside, inside_words, LENGTH(inside_words)));
    midvokt_buffers_free(&lent);
    midvokt_buffers_free(NULL);
    tell("static buffers are not given back", has_lengths(&lent, RECORDS));
    tell("from the heap, for none", are_got(0));
    tell("from the heap, for one", are_got(1));
    tell("from the heap, for 1,024", are_got(MIDVOKT_MOST_RECORDS));
    tell("too many for the memory", is_too_many(most));
    tell("too many to be counted", is_too_many(most + 1) && is_too_many(SIZE_MAX));
    tell("too many by a whole turn of size_t", is_too_many(SIZE_MAX / 4 + 1));
    tell("at null", midvokt_buffers_alloc(NULL, 1) == MIDVOKT_NOT_MADE);
}

/* The head: at least 8, and the widest above that. */
static void try_head(void)
{
    const midvokt_head low = midvokt_head_of(3, 0), just = midvokt_head_of(8, 8);
    const midvokt_head high = midvokt_head_of(4, 9);
    tell("max_k is at least 8", low.initial_k == 3 && low.max_k == 8 && just.max_k == 8);
    tell("and the widest above", high.initial_k == 4 && high.max_k == 9);
    tell("no expectation values, the largest ceiling",
         low.nexpvals == 0 && high.nexpvals == 0 && low.ceiling == MIDVOKT_LARGEST_CEILING);
}

/* Fills buffers and result with noise. */
static void make_noise(midvokt_buffers *buffers)
{
    memset(buffers->steps, 0x5a, MIDVOKT_BUFFERS_WORDS(RECORDS) * sizeof(uint64_t));
    memset(buffers->result, 0x5a, sizeof buffers->result);
}

/* Plans through midvokt.h alone, and gives the block and the result. */
static uint64_t plan_plainly(midvokt_head head, uint64_t *block, uint64_t *result)
{
    midvokt_buffers plain = MIDVOKT_BUFFERS_OVER(block, RECORDS);
    uint64_t number = midvokt_plan(
        head.initial_k, head.max_k, head.nexpvals, head.ceiling, records[0],
        RECORDS * MIDVOKT_RECORD_WORDS, plain.steps, plain.steps_len, plain.merges,
        plain.merges_len, plain.sizes, plain.sizes_len, plain.rotations, plain.rotations_len,
        plain.promotions, plain.promotions_len, plain.measurements, plain.measurements_len,
        plain.groups, plain.groups_len, result, MIDVOKT_ANY_RESULT_WORDS);
    return number;
}

/* Whether a call of the wrapper gives number, words and result of the plain one, with heads in
 * which each field is another. */
static int is_as_plain(midvokt_head head, uint64_t number)
{
    static uint64_t block[MIDVOKT_BUFFERS_WORDS(RECORDS)];
    uint64_t result[MIDVOKT_ANY_RESULT_WORDS];
    make_noise(&lent);
    memset(block, 0x5a, sizeof block);
    return plan_plainly(head, block, result) == number &&
           midvokt_plan_records(head, records[0], RECORDS, &lent) == number &&
           memcmp(block, lent.steps, sizeof block) == 0 &&
           memcmp(result, lent.result, sizeof result) == 0;
}

/* Planning. */
static void try_planning(void)
{
    midvokt_head head = midvokt_head_of(3, 4);
    tell("a plan is that of midvokt_plan", is_as_plain(head, MIDVOKT_PLANNED));
    printf("  %" PRIu64 " components, %" PRIu64 " sources of the first row\n",
           lent.result[MIDVOKT_RESULT_COMPONENT_COUNT],
           lent.rotations[MIDVOKT_ROW_MERGE_COUNT]);
    head.nexpvals = 1;
    tell("with expectation values", is_as_plain(head, MIDVOKT_PLANNED));
    head.ceiling = 8;
    tell("max_k at the ceiling", is_as_plain(head, MIDVOKT_REFUSED_MAX_K));
    head = midvokt_head_of(2, 4);
    tell("another width", is_as_plain(head, MIDVOKT_REFUSED_ROTATION_WIDTH) &&
                              lent.result[MIDVOKT_RESULT_INDEX] == 1);
    midvokt_measurement(records[3], 4, "ZZ", 2);
    tell("a record that was not made is refused",
         is_as_plain(midvokt_head_of(3, 4), MIDVOKT_REFUSED_KIND) &&
             lent.result[MIDVOKT_RESULT_INDEX] == 3);
    tell("the records are made", make_records());
}

/* Records that are too many, or none, and buffers that are too short, or none. */
static void try_odd_planning(void)
{
    const midvokt_head head = midvokt_head_of(3, 4);
    static uint64_t many[(MIDVOKT_MOST_RECORDS + 1) * MIDVOKT_RECORD_WORDS];
    midvokt_buffers part;
    tell("no records", midvokt_plan_records(head, records[0], 0, &none) == MIDVOKT_PLANNED &&
                           midvokt_plan_records(head, NULL, 0, &none) == MIDVOKT_PLANNED &&
                           none.result[MIDVOKT_RESULT_COMPONENT_COUNT] == 3);
    tell("records at null",
         midvokt_plan_records(head, NULL, 1, &lent) == MIDVOKT_REFUSED_RECORD_WORDS &&
             midvokt_plan_records(head, NULL, 8, &lent) == MIDVOKT_REFUSED_RECORD_WORDS &&
             midvokt_plan_records(head, NULL, SIZE_MAX, &lent) == MIDVOKT_REFUSED_RECORD_WORDS);
    tell("1,025 records, and counts whose words no size_t counts",
         midvokt_plan_records(head, many, 1025, &lent) == MIDVOKT_REFUSED_RECORD_WORDS &&
             midvokt_plan_records(head, many, SIZE_MAX / 8 + 2, &lent) ==
                 MIDVOKT_REFUSED_RECORD_WORDS &&
             midvokt_plan_records(head, many, SIZE_MAX, &lent) == MIDVOKT_REFUSED_RECORD_WORDS);
    tell("1,024 records and buffers for five",
         midvokt_plan_records(head, many, 1024, &lent) == MIDVOKT_REFUSED_BUFFERS);
    tell("buffers for none",
         midvokt_plan_records(head, records[0], RECORDS, &none) == MIDVOKT_REFUSED_BUFFERS);
    tell("buffers at null",
         midvokt_plan_records(head, records[0], RECORDS, NULL) == MIDVOKT_REFUSED_BUFFERS);
    part = lent;
    part.promotions = NULL;
    tell("one output at null",
         midvokt_plan_records(head, records[0], RECORDS, &part) == MIDVOKT_REFUSED_BUFFERS);
}

/* Stores the plan, loads it into other buffers, and compares. Gives the file's length. */
static size_t try_round_trip(void)
{
    midvokt_buffers loaded;
    size_t length = 1, stored = MIDVOKT_GROUPS_START(RECORDS) * sizeof(uint64_t);
    uint64_t number = midvokt_store_records(midvokt_head_of(3, 4), records[0], RECORDS, &lent,
                                            LENT(file), &length);
    printf("stored: number %" PRIu64 ", index %" PRIu64 ", %lu bytes\n", number,
           lent.result[MIDVOKT_STORE_RESULT_INDEX], (unsigned long)length);
    tell("  the length is in the result", lent.result[MIDVOKT_STORE_RESULT_BYTES] == length);
    if (midvokt_buffers_alloc(&loaded, RECORDS) != MIDVOKT_MADE)
        return 0;
    make_noise(&loaded);
    number = midvokt_load_file(file, length, &loaded);
    midvokt_plan_records(midvokt_head_of(3, 4), records[0], RECORDS, &lent);
    printf("loaded: number %" PRIu64 ", %" PRIu64 " words of merges\n", number,
           loaded.result[MIDVOKT_LOAD_RESULT_MERGES]);
    tell("  rows as planned", memcmp(loaded.steps, lent.steps, stored) == 0);
    tell("  fields as planned", memcmp(loaded.result, lent.result,
                                       (MIDVOKT_RESULT_ALLOCATED + 1) * sizeof(uint64_t)) == 0);
    tell("  no groups", are_all(loaded.groups, loaded.groups_len, 0));
    midvokt_buffers_free(&loaded);
    return length;
}

/* Storing and loading that is refused, and null pointers. */
static void try_odd_files(size_t length)
{
    const midvokt_head head = midvokt_head_of(3, 4);
    size_t told = 1;
    tell("a file of just its length, its length not asked for",
         midvokt_store_records(head, records[0], RECORDS, &lent, file, length, NULL) ==
             MIDVOKT_PLANNED);
    tell("a byte less", midvokt_store_records(head, records[0], RECORDS, &lent, file, length - 1,
                                              &told) == MIDVOKT_REFUSED_LENGTHS && told == 0);
    told = 1;
    tell("a file at null", midvokt_store_records(head, records[0], RECORDS, &lent, NULL, length,
                                                 &told) == MIDVOKT_REFUSED_LENGTHS && told == 0);
    told = 1;
    tell("storing with buffers at null",
         midvokt_store_records(head, records[0], RECORDS, NULL, LENT(file), &told) ==
             MIDVOKT_REFUSED_BUFFERS && told == 0);
    midvokt_store_records(head, records[0], RECORDS, &lent, LENT(file), NULL);
    make_noise(&lent);
    tell("loading a byte less",
         midvokt_load_file(file, length - 1, &lent) == MIDVOKT_REFUSED_FILE &&
             are_all(lent.steps, MIDVOKT_BUFFERS_WORDS(RECORDS), 0));
    tell("loading into buffers for none",
         midvokt_load_file(file, length, &none) == MIDVOKT_REFUSED_LENGTHS);
    tell("loading null", midvokt_load_file(NULL, length, &lent) == MIDVOKT_REFUSED_FILE &&
                             midvokt_load_file(NULL, 0, &lent) == MIDVOKT_REFUSED_FILE);
    tell("loading into null", midvokt_load_file(file, length, NULL) == MIDVOKT_REFUSED_LENGTHS);
}

/* ---- Words ---------------------------------------------------------------------------- */

/* Doubles as words and back. */
static void try_doubles(void)
{
    const uint64_t nan = UINT64_C(0x7ff4000000000001);
    tell("doubles as words and back",
         midvokt_word_of(1.0) == UINT64_C(0x3ff0000000000000) &&
             midvokt_double_of(UINT64_C(0xbfe0000000000000)) == -0.5 &&
             midvokt_double_of(nan) != midvokt_double_of(nan));
}

/* Every sentence. */
static void print_sentences(void)
{
    uint64_t number;
    printf("number 0: %s\n", midvokt_sentence(0));
    for (number = 1; number <= 29; number++)
        printf("sentence %" PRIu64 ": %s\n", number, midvokt_sentence(number));
    printf("the greatest number: %s\n", midvokt_sentence(UINT64_MAX));
}

int main(void)
{
    uint64_t record[MIDVOKT_RECORD_WORDS];
    size_t length;
    try_paulis(good, LENGTH(good), MIDVOKT_MADE);
    try_paulis(bad, LENGTH(bad), MIDVOKT_NOT_MADE);
    printf("%lu Paulis, and %lu that are none\n", (unsigned long)LENGTH(good),
           (unsigned long)LENGTH(bad));
    try_records(record);
    try_alone(record);
    try_unmade(record);
    tell("the records are made", make_records());
    try_head();
    try_buffers();
    try_planning();
    try_odd_planning();
    length = try_round_trip();
    if (length > 0)
        try_odd_files(length);
    try_doubles();
    print_sentences();
    return is_right ? 0 : 1;
}
