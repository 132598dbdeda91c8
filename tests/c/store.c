/*
 * Stores a plan through the C interface and loads it again. A circuit of every kind of row is
 * stored; the file's length and trailer are printed, and every word that is loaded is held to
 * what midvokt_plan gives; so are an unread plan and one without records. Then a buffer of just the
 * file's length at an odd address, shorter and longer results, each refusal of both calls, and
 * words that are read back unjudged. `check` compares what is printed with store.expected. C99 and
 * C++11.
 */
#include <inttypes.h>
#include <stdio.h>
#include <string.h>

#include "midvokt.h"

#define RECORDS 5

/* Cosine of the angle 0. */
#define ONE UINT64_C(0x3ff0000000000000)

/* A classical record, a rotation with x = 5, a promotion, a measurement with z = 6 and pivot 2,
 * and a rotation of the new coordinate. */
static const uint64_t records[RECORDS * MIDVOKT_RECORD_WORDS] = {
    MIDVOKT_KIND_RECORD_MEASUREMENT, 0, 0, 0, 0, 0, 0, 0,
    MIDVOKT_KIND_ROTATION, 3, 5, 0, 0, 0, 0, ONE,
    MIDVOKT_KIND_PROMOTION, 0, 0, 0, 0, 0, 0, 0,
    MIDVOKT_KIND_ACTIVE_MEASUREMENT, 4, 0, 6, 0, 2, 0, 0,
    MIDVOKT_KIND_ROTATION, 3, 0, 4, 2, 0, 0, ONE,
};

/* What is planned and stored: the seven outputs, the file and the result. */
static uint64_t steps[MIDVOKT_STEPS_WORDS(RECORDS)];
static uint64_t merges[MIDVOKT_MERGES_WORDS(RECORDS)];
static uint64_t sizes[MIDVOKT_SIZES_WORDS(RECORDS)];
static uint64_t rotations[MIDVOKT_ROTATIONS_WORDS(RECORDS)];
static uint64_t promotions[MIDVOKT_PROMOTIONS_WORDS(RECORDS)];
static uint64_t measurements[MIDVOKT_MEASUREMENTS_WORDS(RECORDS)];
static uint64_t groups[MIDVOKT_GROUPS_WORDS(RECORDS)];
static uint8_t file[MIDVOKT_FILE_BYTES(RECORDS)];
static uint64_t result[MIDVOKT_RESULT_WORDS + 3];

#define LENGTH(words) (sizeof(words) / sizeof(words)[0])
#define LENT(words) words, LENGTH(words)
#define SECTIONS 6

/* What is loaded: six outputs, each as long as a file can be. */
static uint64_t loaded[SECTIONS][MIDVOKT_FILE_BYTES(RECORDS) / 8];

/* The outputs that are stored, and how long they are. */
static uint64_t *const planned[] = {steps, merges, sizes, rotations, promotions, measurements};
static const size_t lengths[] = {LENGTH(steps),     LENGTH(merges),     LENGTH(sizes),
                                 LENGTH(rotations), LENGTH(promotions), LENGTH(measurements)};
static const char *const names[] = {"steps",      "merges",       "sizes",  "rotations",
                                    "promotions", "measurements", "scalars"};

static int is_right = 1;

/* Prints whether something holds, and remembers it if not. */
static void tell(const char *what, int holds)
{
    printf("%s: %s\n", what, holds ? "yes" : "NO");
    is_right &= holds;
}

/* Fills all that a call writes with noise. */
static void make_noise(void)
{
    size_t section;
    for (section = 0; section < SECTIONS; section++)
        memset(planned[section], 0x5a, lengths[section] * sizeof(uint64_t));
    memset(loaded, 0x5a, sizeof loaded);
    memset(groups, 0x5a, sizeof groups);
    memset(result, 0x5a, sizeof result);
}

/* What the controller holds. */
static uint64_t ceiling = MIDVOKT_LARGEST_CEILING;

/* Plans so many records from so many coordinates and stores the plan in so many bytes. */
static uint64_t store(uint64_t initial_k, uint64_t max_k, size_t count, uint8_t *bytes,
                      size_t bytes_len, size_t result_len)
{
    make_noise();
    memset(bytes, 0x5a, bytes_len);
    return midvokt_store(initial_k, max_k, 0, ceiling, records, count * MIDVOKT_RECORD_WORDS,
                         LENT(steps), LENT(merges), LENT(sizes), LENT(rotations),
                         LENT(promotions), LENT(measurements), LENT(groups), bytes, bytes_len,
                         result, result_len);
}

/* Loads so many bytes; one output, by its number, is as long as is said. */
static uint64_t load_into(const uint8_t *bytes, size_t bytes_len, size_t output, size_t words,
                          size_t result_len)
{
    size_t now[SECTIONS], section;
    for (section = 0; section < SECTIONS; section++)
        now[section] = section == output ? words : LENGTH(loaded[0]);
    make_noise();
    return midvokt_load(bytes, bytes_len, loaded[0], now[0], loaded[1], now[1], loaded[2], now[2],
                        loaded[3], now[3], loaded[4], now[4], loaded[5], now[5], result,
                        result_len);
}

/* Loads so many bytes, with a result of so many words. */
static uint64_t load(const uint8_t *bytes, size_t bytes_len, size_t result_len)
{
    return load_into(bytes, bytes_len, SECTIONS, 0, result_len);
}

/* The word of a file at a place, counted in words. */
static uint64_t word_at(const uint8_t *bytes, size_t place)
{
    uint64_t word = 0;
    size_t byte;
    for (byte = 8; byte-- > 0;)
        word = word << 8 | bytes[8 * place + byte];
    return word;
}

/* Puts a word into a file. */
static void put_word(uint8_t *bytes, size_t place, uint64_t word)
{
    size_t byte;
    for (byte = 0; byte < 8; byte++)
        bytes[8 * place + byte] = (uint8_t)(word >> 8 * byte);
}

/* Whether so many bytes are all zero. */
static int is_zero(const void *bytes, size_t count)
{
    const uint8_t *byte = (const uint8_t *)bytes;
    while (count > 0 && *byte == 0) {
        byte++;
        count--;
    }
    return count == 0;
}

/* Whether all outputs of planning are zero. */
static int are_zero(void)
{
    size_t section;
    for (section = 0; section < SECTIONS; section++)
        if (!is_zero(planned[section], lengths[section] * sizeof(uint64_t)))
            return 0;
    return is_zero(groups, sizeof groups);
}

/* The trailer's words. */
static void print_trailer(const uint8_t *bytes, size_t bytes_len)
{
    size_t trailer = bytes_len / 8 - MIDVOKT_TRAILER_WORDS;
    size_t section;
    for (section = 0; section <= SECTIONS; section++)
        printf("  %s: start %" PRIu64 ", count %" PRIu64 "\n", names[section],
               word_at(bytes, trailer + 2 * section), word_at(bytes, trailer + 2 * section + 1));
    printf("  length %" PRIu64 ", version %" PRIu64 "\n",
           word_at(bytes, trailer + MIDVOKT_TRAILER_BYTES),
           word_at(bytes, trailer + MIDVOKT_TRAILER_VERSION));
}

/* Whether what was loaded is word for word what midvokt_plan gives, zeros behind included. */
static int is_as_planned(uint64_t initial_k, uint64_t max_k, size_t count)
{
    uint64_t fields[MIDVOKT_RESULT_WORDS];
    size_t section;
    if (midvokt_plan(initial_k, max_k, 0, ceiling, records, count * MIDVOKT_RECORD_WORDS,
                     LENT(steps), LENT(merges), LENT(sizes), LENT(rotations), LENT(promotions),
                     LENT(measurements), LENT(groups), LENT(fields)) != MIDVOKT_PLANNED)
        return 0;
    for (section = 0; section < SECTIONS; section++) {
        size_t bytes = lengths[section] * sizeof(uint64_t);
        if (memcmp(planned[section], loaded[section], bytes) != 0 ||
            !is_zero(loaded[section] + lengths[section], sizeof loaded[0] - bytes))
            return 0;
    }
    return memcmp(result, fields, (MIDVOKT_RESULT_ALLOCATED + 1) * sizeof fields[0]) == 0;
}

/* Stores a plan, prints length and trailer, loads it and compares. Gives the length. */
static size_t try_plan(const char *name, uint64_t initial_k, uint64_t max_k, size_t count)
{
    uint64_t number = store(initial_k, max_k, count, LENT(file), MIDVOKT_STORE_RESULT_WORDS);
    size_t length = (size_t)result[MIDVOKT_STORE_RESULT_BYTES];
    printf("%s: number %" PRIu64 ", index %" PRIu64 ", %lu bytes\n", name, number,
           result[MIDVOKT_STORE_RESULT_INDEX], (unsigned long)length);
    if (number != MIDVOKT_PLANNED || length > sizeof file)
        return 0;
    print_trailer(file, length);
    tell("  zeros behind the file", is_zero(file + length, sizeof file - length));
    number = load(file, length, LENGTH(result));
    printf("  loaded: number %" PRIu64 ", counts", number);
    for (count = MIDVOKT_LOAD_RESULT_STEPS; count < MIDVOKT_LOAD_RESULT_WORDS; count++)
        printf(" %" PRIu64, result[count]);
    printf("\n");
    tell("  zeros behind the result", is_zero(result + MIDVOKT_LOAD_RESULT_WORDS,
                                              sizeof result - MIDVOKT_LOAD_RESULT_WORDS * 8));
    return length;
}

/* Whether a result shorter than a whole one gets its first words and nothing behind them. */
static int first_words_are_same(size_t length)
{
    uint64_t whole[LENGTH(result)], noise[LENGTH(result)];
    size_t words;
    memset(noise, 0x5a, sizeof noise);
    load(file, length, LENGTH(result));
    memcpy(whole, result, sizeof whole);
    for (words = 0; words < MIDVOKT_LOAD_RESULT_WORDS; words++)
        if (load(file, length, words) != MIDVOKT_PLANNED ||
            memcmp(result, whole, words * 8) != 0 ||
            memcmp(result + words, noise, sizeof result - words * 8) != 0)
            return 0;
    for (words = 0; words < MIDVOKT_STORE_RESULT_WORDS; words++)
        if (store(3, 8, RECORDS, LENT(file), words) != MIDVOKT_PLANNED ||
            memcmp(result + words, noise, sizeof result - words * 8) != 0)
            return 0;
    store(3, 8, RECORDS, LENT(file), LENGTH(result));
    return result[MIDVOKT_STORE_RESULT_BYTES] == length &&
           is_zero(result + MIDVOKT_STORE_RESULT_WORDS,
                   sizeof result - MIDVOKT_STORE_RESULT_WORDS * 8);
}

/* Whether a buffer of just the file's length is enough, also at an odd address, and one byte
 * less is not. */
static int just_enough(size_t length)
{
    static uint8_t odd[sizeof file + 1];
    uint64_t number = store(3, 8, RECORDS, odd + 1, length, MIDVOKT_STORE_RESULT_WORDS);
    int holds = number == MIDVOKT_PLANNED && memcmp(odd + 1, file, length) == 0;
    number = load(odd + 1, length, MIDVOKT_LOAD_RESULT_WORDS);
    holds &= number == MIDVOKT_PLANNED && is_as_planned(3, 8, RECORDS);
    number = store(3, 8, RECORDS, odd, length - 1, MIDVOKT_STORE_RESULT_WORDS);
    return holds && number == MIDVOKT_REFUSED_LENGTHS;
}

/* Whether the file is byte for byte the same under another ceiling. */
static int file_is_same_under(uint64_t other)
{
    static uint8_t again[sizeof file];
    uint64_t number = store(3, 8, RECORDS, LENT(file), LENGTH(result));
    ceiling = other;
    number += store(3, 8, RECORDS, LENT(again), LENGTH(result));
    ceiling = MIDVOKT_LARGEST_CEILING;
    return number == MIDVOKT_PLANNED && memcmp(again, file, sizeof file) == 0;
}

/* Prints a refusal of storing; all that the call writes has to be zero. */
static void refuse_store(const char *name, uint64_t initial_k, uint64_t max_k, size_t bytes_len)
{
    uint64_t number = store(initial_k, max_k, RECORDS, file, bytes_len, LENGTH(result));
    printf("%s: number %" PRIu64 ", index %" PRIu64 "\n", name, number, result[0]);
    tell("  all is zero", number != 0 && are_zero() && is_zero(file, bytes_len) &&
                              is_zero(result + 1, sizeof result - 8));
}

/* Prints a refusal of loading; all that the call writes has to be zero. One output, by its number,
 * is as long as is said. */
static void refuse_into(const char *name, const uint8_t *bytes, size_t bytes_len, size_t output,
                        size_t words)
{
    uint64_t number = load_into(bytes, bytes_len, output, words, LENGTH(result));
    printf("%s: number %" PRIu64 "\n", name, number);
    if (output < SECTIONS)
        memset(loaded[output] + words, 0, sizeof loaded[0] - words * sizeof(uint64_t));
    tell("  all is zero", number != 0 && is_zero(loaded, sizeof loaded) &&
                              is_zero(result, sizeof result));
}

/* The same with outputs that are long enough. */
static void refuse_load(const char *name, const uint8_t *bytes, size_t bytes_len)
{
    refuse_into(name, bytes, bytes_len, SECTIONS, 0);
}

/* Prints what becomes of the file where a word of its trailer is another; puts it back. */
static void change_trailer(const char *name, size_t length, size_t place, uint64_t word)
{
    size_t at = length / 8 - MIDVOKT_TRAILER_WORDS + place;
    uint64_t before = word_at(file, at);
    put_word(file, at, word);
    refuse_load(name, file, length);
    put_word(file, at, before);
}

/* Gives a section so many words more and another one behind it so many less, with all between
 * moved, so that they still touch. */
static void move(const char *name, size_t length, size_t from, size_t to, uint64_t by)
{
    uint8_t *trailer = file + length - 8 * MIDVOKT_TRAILER_WORDS;
    uint8_t before[8 * MIDVOKT_TRAILER_WORDS];
    size_t section;
    memcpy(before, trailer, sizeof before);
    put_word(trailer, 2 * from + 1, word_at(trailer, 2 * from + 1) + by);
    for (section = from + 1; section <= to; section++)
        put_word(trailer, 2 * section, word_at(trailer, 2 * section) + by);
    put_word(trailer, 2 * to + 1, word_at(trailer, 2 * to + 1) - by);
    refuse_load(name, file, length);
    memcpy(trailer, before, sizeof before);
}

/* The file with seven scalars: the word that component_count is read from then is the one behind
 * it, so that it is given that number first. */
static void seven_scalars(size_t length)
{
    size_t place = length / 8 - MIDVOKT_TRAILER_WORDS - MIDVOKT_SCALAR_WORDS +
                   MIDVOKT_SCALAR_COMPONENT_COUNT;
    uint64_t before = word_at(file, place + 1);
    put_word(file, place + 1, word_at(file, place));
    move("scalars seven", length, 4, 6, 1);
    put_word(file, place + 1, before);
}

/* The refusals of loading, in their order. */
static void refuse_loads(size_t length)
{
    refuse_load("load nothing", file, 0);
    refuse_load("load 120 bytes", file, 120);
    refuse_load("load one byte less", file, length - 1);
    refuse_load("load one word less", file, length - 8);
    change_trailer("length word one more", length, MIDVOKT_TRAILER_BYTES, length + 1);
    change_trailer("version 0", length, MIDVOKT_TRAILER_VERSION, 0);
    change_trailer("version 2", length, MIDVOKT_TRAILER_VERSION, 2);
    change_trailer("steps start at 1", length, MIDVOKT_TRAILER_STEPS_START, 1);
    change_trailer("sizes start elsewhere", length, MIDVOKT_TRAILER_SIZES_START, 0);
    change_trailer("scalars one more", length, MIDVOKT_TRAILER_SCALARS_COUNT, 9);
    change_trailer("scalars one less", length, MIDVOKT_TRAILER_SCALARS_COUNT, 7);
    move("merges that wrap", length, 1, 2, (uint64_t)0 - 6);
    move("odd steps", length, 0, 1, 1);
    move("sizes one less", length, 1, 2, 1);
    move("rotations seven less", length, 3, 4, (uint64_t)0 - 7);
    move("measurements one more", length, 4, 5, (uint64_t)0 - 1);
    seven_scalars(length);
    refuse_into("steps too short", file, length, 0, 9);
    refuse_into("merges too short", file, length, 1, 4);
    refuse_into("sizes too short", file, length, 2, 3);
    refuse_into("rotations too short", file, length, 3, 41);
    refuse_into("promotions too short", file, length, 4, 0);
    refuse_into("measurements too short", file, length, 5, 18);
    tell("just long enough", load_into(file, length, 3, 42, 0) == MIDVOKT_PLANNED);
}

/* Whether words that planning never writes come back as they stand. */
static int comes_back_unjudged(size_t length)
{
    size_t scalars = length / 8 - MIDVOKT_TRAILER_WORDS - MIDVOKT_SCALAR_WORDS;
    put_word(file, scalars + MIDVOKT_SCALAR_SELECTED, 7);
    put_word(file, scalars + MIDVOKT_SCALAR_DENSE_WORK, UINT64_C(0x7ff4000000000001));
    put_word(file, 0, 99);
    return load(file, length, LENGTH(result)) == MIDVOKT_PLANNED &&
           result[MIDVOKT_RESULT_SELECTED] == 7 && loaded[0][0] == 99 &&
           result[MIDVOKT_RESULT_DENSE_WORK] == UINT64_C(0x7ff4000000000001);
}

int main(void)
{
    size_t length;
    printf("file for %d records: %lu bytes are enough\n", RECORDS, (unsigned long)sizeof file);
    try_plan("unread", 3, 7, RECORDS);
    tell("  as planned", is_as_planned(3, 7, RECORDS));
    try_plan("512 coordinates", 512, 8, 0);
    tell("  as planned", is_as_planned(512, 8, 0));
    length = try_plan("five records", 3, 8, RECORDS);
    tell("  as planned", is_as_planned(3, 8, RECORDS));
    if (length == 0)
        return 1;
    tell("a file of just its length, at an odd address", just_enough(length));
    tell("shorter and longer results", first_words_are_same(length));
    refuse_loads(length);
    tell("the file is as it was", load(file, length, LENGTH(result)) == MIDVOKT_PLANNED &&
                                      is_as_planned(3, 8, RECORDS));
    tell("words come back unjudged", comes_back_unjudged(length));
    refuse_store("store with max_k 62", 3, 62, sizeof file);
    refuse_store("store with another width", 2, 8, sizeof file);
    refuse_store("store in one byte less", 3, 8, length - 1);
    refuse_store("store in nothing", 3, 8, 0);
    refuse_store("store with another width in nothing", 2, 8, 0);
    tell("the ceiling is not in the file", file_is_same_under(9));
    ceiling = 8;
    refuse_store("store with max_k at the ceiling", 3, 8, sizeof file);
    ceiling = 63;
    refuse_store("store with a ceiling of 63 in nothing", 3, 8, 0);
    return is_right ? 0 : 1;
}
