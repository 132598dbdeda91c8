/*
 * Plans a small circuit through the C interface and prints the plan: three coordinates, a
 * rotation with x = 5, then a measurement with z = 6 and pivot 2. Then the works as whole
 * numbers, of programs that differ in what is given of them; groups whose order by component
 * number is not that of their first members; a rotation of nine coordinates under several
 * ceilings; rotations whose sine and cosine are of one angle and of none; and the small circuit
 * with a max_k that is refused. `check` compares what is printed with plan.expected. C99 and C++11.
 */
#include <inttypes.h>
#include <stdio.h>
#include <string.h>

#include "midvokt.h"

#define RECORDS 2

/* The most records that are planned here. */
#define MOST_RECORDS 4

/* Cosine of the angle 0. */
#define ONE UINT64_C(0x3ff0000000000000)

static const uint64_t records[RECORDS * MIDVOKT_RECORD_WORDS] = {
    MIDVOKT_KIND_ROTATION, 3, 5, 0, 0, 0, 0, ONE,
    MIDVOKT_KIND_ACTIVE_MEASUREMENT, 3, 0, 6, 0, 2, 0, 0,
};

/* One record each: a promotion, a measurement of the last of 39 coordinates, and a rotation where
 * none is active. */
static const uint64_t promotion[MIDVOKT_RECORD_WORDS] = {
    MIDVOKT_KIND_PROMOTION, 0, 0, 0, 0, 0, 0, 0,
};
static const uint64_t measurement[MIDVOKT_RECORD_WORDS] = {
    MIDVOKT_KIND_ACTIVE_MEASUREMENT, 39, 0, UINT64_C(1) << 38, 0, 38, 0, 0,
};
static const uint64_t ignored[MIDVOKT_RECORD_WORDS] = {
    MIDVOKT_KIND_ROTATION, 0, 0, 0, 0, 0, 0, ONE,
};

/* A rotation that joins nine of ten coordinates. */
static const uint64_t nine[MIDVOKT_RECORD_WORDS] = {
    MIDVOKT_KIND_ROTATION, 10, 0x1ff, 0, 0, 0, 0, ONE,
};

/* Of six coordinates: 0 and 4 join, 0 and 1 are measured away, 3 and 5 join. Then components 0, 2
 * and 3 live. */
static const uint64_t four[4 * MIDVOKT_RECORD_WORDS] = {
    MIDVOKT_KIND_ROTATION, 6, 0x11, 0, 0, 0, 0, ONE,
    MIDVOKT_KIND_ACTIVE_MEASUREMENT, 6, 0, 1, 0, 0, 0, 0,
    MIDVOKT_KIND_ACTIVE_MEASUREMENT, 5, 0, 1, 0, 0, 0, 0,
    MIDVOKT_KIND_ROTATION, 4, 0xa, 0, 0, 0, 0, ONE,
};

/* What the controller holds. */
static uint64_t ceiling = MIDVOKT_LARGEST_CEILING;

/* Just long enough for the most records. */
static uint64_t steps[MIDVOKT_STEPS_WORDS(MOST_RECORDS)];
static uint64_t merges[MIDVOKT_MERGES_WORDS(MOST_RECORDS)];
static uint64_t sizes[MIDVOKT_SIZES_WORDS(MOST_RECORDS)];
static uint64_t rotations[MIDVOKT_ROTATIONS_WORDS(MOST_RECORDS)];
static uint64_t promotions[MIDVOKT_PROMOTIONS_WORDS(MOST_RECORDS)];
static uint64_t measurements[MIDVOKT_MEASUREMENTS_WORDS(MOST_RECORDS)];
static uint64_t groups[MIDVOKT_GROUPS_WORDS(MOST_RECORDS)];
static uint64_t result[MIDVOKT_RESULT_WORDS];

#define LENGTH(words) (sizeof(words) / sizeof(words)[0])
#define LENT(words) words, LENGTH(words)

/* Plans so many record words from so many coordinates, with a result of so many words. */
static uint64_t plan_into(uint64_t initial_k, uint64_t max_k, const uint64_t *words, size_t count,
                          size_t result_len)
{
    memset(result, 0x5a, sizeof result);
    return midvokt_plan(initial_k, max_k, 0, ceiling, words, count, LENT(steps), LENT(merges),
                        LENT(sizes), LENT(rotations), LENT(promotions), LENT(measurements),
                        LENT(groups), result, result_len);
}

/* Plans the circuit with this max_k. */
static uint64_t plan(uint64_t max_k)
{
    return plan_into(3, max_k, LENT(records), LENGTH(result));
}

/* The number whose bits a word has. */
static double value(uint64_t word)
{
    double number;
    memcpy(&number, &word, sizeof number);
    return number;
}

/* A name and a word. */
static void print_word(const char *name, uint64_t word)
{
    printf("  %s %" PRIu64 "\n", name, word);
}

/* A name and two words as a complex number. */
static void print_complex(const char *name, const uint64_t *words)
{
    printf("  %s (%.17g, %.17g)\n", name, value(words[0]), value(words[1]));
}

/* A name and some words. */
static void print_words(const char *name, const uint64_t *words, uint64_t count)
{
    uint64_t place;
    printf("%s", name);
    for (place = 0; place < count; place++)
        printf(" %" PRIu64, words[place]);
    printf("\n");
}

/* The words that both kinds of row begin with. */
static void print_row(const uint64_t *row)
{
    print_word("component", row[MIDVOKT_ROW_COMPONENT]);
    print_words("  sources", merges + row[MIDVOKT_ROW_MERGE_OFFSET], row[MIDVOKT_ROW_MERGE_COUNT]);
    print_word("width", row[MIDVOKT_ROW_WIDTH]);
    print_word("x", row[MIDVOKT_ROW_X]);
    print_word("z", row[MIDVOKT_ROW_Z]);
    print_complex("even phase", row + MIDVOKT_ROW_EVEN_PHASE);
    print_complex("odd phase", row + MIDVOKT_ROW_ODD_PHASE);
    print_word("overlap", row[MIDVOKT_ROW_OVERLAP]);
}

static void print_rotation(const uint64_t *row)
{
    print_row(row);
    print_word("diagonal", row[MIDVOKT_ROTATION_DIAGONAL]);
    print_word("uniform", row[MIDVOKT_ROTATION_UNIFORM]);
    print_word("flip", row[MIDVOKT_ROTATION_FLIP]);
    print_word("pair bit", row[MIDVOKT_ROTATION_PAIR_BIT]);
    print_word("pair count", row[MIDVOKT_ROTATION_PAIR_COUNT]);
    printf("  angle %.17g\n", value(row[MIDVOKT_ROTATION_ANGLE]));
    printf("  cosine %.17g\n", value(row[MIDVOKT_ROTATION_COSINE]));
    printf("  sine %.17g\n", value(row[MIDVOKT_ROTATION_SINE]));
    print_complex("coefficient", row + MIDVOKT_ROTATION_COEFFICIENT);
}

static void print_measurement(const uint64_t *row)
{
    print_row(row);
    print_word("pivot", row[MIDVOKT_MEASUREMENT_PIVOT]);
    print_word("diagonal", row[MIDVOKT_MEASUREMENT_DIAGONAL]);
    print_word("phase bit", row[MIDVOKT_MEASUREMENT_PHASE_BIT]);
    print_word("z without pivot", row[MIDVOKT_MEASUREMENT_Z_WITHOUT_PIVOT]);
    print_word("out dimension", row[MIDVOKT_MEASUREMENT_OUT_DIMENSION]);
    print_complex("coefficient", row + MIDVOKT_MEASUREMENT_COEFFICIENT);
    print_word("deactivated", row[MIDVOKT_MEASUREMENT_DEACTIVATED]);
}

/* What becomes of a record. */
static void print_step(uint64_t record)
{
    const uint64_t *step = steps + record * MIDVOKT_STEP_WORDS;
    uint64_t payload = step[MIDVOKT_STEP_PAYLOAD];
    switch (step[MIDVOKT_STEP_KIND]) {
    case MIDVOKT_STEP_ROTATION:
        printf("record %" PRIu64 ": rotation\n", record);
        print_rotation(rotations + payload * MIDVOKT_ROTATION_WORDS);
        break;
    case MIDVOKT_STEP_PROMOTION:
        printf("record %" PRIu64 ": promotion\n", record);
        print_word("component", promotions[payload]);
        break;
    case MIDVOKT_STEP_MEASUREMENT:
        printf("record %" PRIu64 ": measurement\n", record);
        print_measurement(measurements + payload * MIDVOKT_MEASUREMENT_WORDS);
        break;
    default:
        printf("record %" PRIu64 ": nothing\n", record);
        break;
    }
}

/* The components that live at the end, by their numbers. */
static void print_groups(void)
{
    size_t place = 0;
    while (place < LENGTH(groups) && groups[place] > 0) {
        print_words("group", groups + place + 1, groups[place]);
        place += 1 + (size_t)groups[place];
    }
}

/* The scalar fields. */
static void print_result(void)
{
    print_word("selected", result[MIDVOKT_RESULT_SELECTED]);
    print_word("initial components", result[MIDVOKT_RESULT_INITIAL_COMPONENTS]);
    print_word("component count", result[MIDVOKT_RESULT_COMPONENT_COUNT]);
    printf("  dense work %.17g\n", value(result[MIDVOKT_RESULT_DENSE_WORK]));
    printf("  component work %.17g\n", value(result[MIDVOKT_RESULT_COMPONENT_WORK]));
    print_word("dense peak", result[MIDVOKT_RESULT_DENSE_PEAK]);
    print_word("peak", result[MIDVOKT_RESULT_PEAK]);
    print_word("allocated", result[MIDVOKT_RESULT_ALLOCATED]);
}

/* Both works as whole numbers and their quotient, as far as the mark gives them. */
static void print_works(void)
{
    uint64_t dense = result[MIDVOKT_RESULT_WHOLE_DENSE];
    uint64_t component = result[MIDVOKT_RESULT_WHOLE_COMPONENT];
    switch (result[MIDVOKT_RESULT_WHOLE_MARK]) {
    case MIDVOKT_WHOLE_WITH_QUOTIENT:
        printf("  dense %" PRIu64 " = %" PRIu64 " times component %" PRIu64 ", remainder %" PRIu64 "\n",
               dense, result[MIDVOKT_RESULT_QUOTIENT], component, result[MIDVOKT_RESULT_REMAINDER]);
        break;
    case MIDVOKT_WHOLE_WITHOUT_QUOTIENT:
        printf("  dense %" PRIu64 ", component %" PRIu64 ": no quotient\n", dense, component);
        break;
    case MIDVOKT_WHOLE_TOO_WIDE:
        printf("  too wide for whole numbers\n");
        break;
    default:
        printf("  a mark that is none\n");
        break;
    }
    print_words("  words 9 to 13:", result + MIDVOKT_RESULT_WHOLE_MARK, 5);
}

/* Whether the floats are the whole works, and the quotient and its remainder are theirs. */
static int works_hold(void)
{
    uint64_t mark = result[MIDVOKT_RESULT_WHOLE_MARK];
    uint64_t dense = result[MIDVOKT_RESULT_WHOLE_DENSE];
    uint64_t component = result[MIDVOKT_RESULT_WHOLE_COMPONENT];
    uint64_t quotient = result[MIDVOKT_RESULT_QUOTIENT];
    uint64_t remainder = result[MIDVOKT_RESULT_REMAINDER];
    int floats = value(result[MIDVOKT_RESULT_DENSE_WORK]) == (double)dense &&
                 value(result[MIDVOKT_RESULT_COMPONENT_WORK]) == (double)component;
    if (mark == MIDVOKT_WHOLE_TOO_WIDE)
        return dense == 0 && component == 0 && quotient == 0 && remainder == 0;
    if (mark == MIDVOKT_WHOLE_WITHOUT_QUOTIENT)
        return floats && component == 0 && quotient == 0 && remainder == 0;
    return floats && remainder < component && dense == quotient * component + remainder;
}

/* Plans some records, prints the whole works and tells whether they hold. */
static int try_works(const char *name, uint64_t initial_k, uint64_t max_k, const uint64_t *words,
                     size_t count)
{
    uint64_t number = plan_into(initial_k, max_k, words, count, LENGTH(result));
    printf("%s: number %" PRIu64 "\n", name, number);
    print_works();
    return number == MIDVOKT_PLANNED && works_hold();
}

/* Whether a result of nine words gets the first nine, and nothing is written behind them. */
static int nine_are_the_same(void)
{
    uint64_t whole[MIDVOKT_RESULT_WORDS], untouched;
    plan(8);
    memcpy(whole, result, sizeof whole);
    plan_into(3, 8, LENT(records), 9);
    memset(&untouched, 0x5a, sizeof untouched);
    return memcmp(result, whole, 9 * sizeof whole[0]) == 0 &&
           result[MIDVOKT_RESULT_WHOLE_MARK] == untouched;
}

/* Whether all words of the result behind the first are 0. */
static int rest_is_zero(void)
{
    size_t place;
    for (place = 1; place < LENGTH(result); place++)
        if (result[place] != 0)
            return 0;
    return 1;
}

/* Plans the four and prints the groups; tells whether they are components 0, 2 and 3. */
static int try_groups(void)
{
    static const uint64_t wanted[] = {1, 4, 1, 2, 2, 3, 5, 0};
    uint64_t number = plan_into(6, 8, LENT(four), LENGTH(result));
    printf("groups by component number: number %" PRIu64 "\n", number);
    print_groups();
    return number == MIDVOKT_PLANNED && memcmp(groups, wanted, sizeof wanted) == 0;
}

/* Plans the nine under a ceiling, prints the number and the longest size, and tells whether the
 * number is the one that is wanted. */
static int try_ceiling(uint64_t held, uint64_t max_k, uint64_t wanted)
{
    uint64_t number;
    ceiling = held;
    number = plan_into(10, max_k, LENT(nine), LENGTH(result));
    ceiling = MIDVOKT_LARGEST_CEILING;
    printf("ceiling %" PRIu64 ", max_k %" PRIu64 ": number %" PRIu64 ", index %" PRIu64
           ", longest %" PRIu64 "\n",
           held, max_k, number, result[MIDVOKT_RESULT_INDEX], sizes[0]);
    return number == wanted && (number == MIDVOKT_PLANNED || rest_is_zero());
}

/* The nine under ceilings at their limits. */
static int try_ceilings(void)
{
    int right = try_ceiling(0, 8, MIDVOKT_REFUSED_CEILING);
    right &= try_ceiling(63, 63, MIDVOKT_REFUSED_CEILING);
    right &= try_ceiling(UINT64_MAX, 7, MIDVOKT_REFUSED_CEILING);
    right &= try_ceiling(9, 9, MIDVOKT_REFUSED_MAX_K);
    right &= try_ceiling(9, 8, MIDVOKT_REFUSED_COMPONENT_SIZE);
    right &= try_ceiling(10, 8, MIDVOKT_PLANNED);
    right &= try_ceiling(MIDVOKT_LARGEST_CEILING, 8, MIDVOKT_PLANNED);
    return right;
}

/* Plans a rotation of the first of three coordinates, behind one that passes, with this sine and
 * cosine; prints the number, and tells whether it is the one that is wanted. */
static int try_pair(double sine, double cosine, uint64_t wanted)
{
    uint64_t words[RECORDS * MIDVOKT_RECORD_WORDS] = {
        MIDVOKT_KIND_ROTATION, 3, 1, 0, 0, 0, 0, ONE,
        MIDVOKT_KIND_ROTATION, 3, 1, 0, 0, 0, 0, 0,
    };
    uint64_t number;
    memcpy(words + MIDVOKT_RECORD_WORDS + MIDVOKT_RECORD_SINE, &sine, sizeof sine);
    memcpy(words + MIDVOKT_RECORD_WORDS + MIDVOKT_RECORD_COSINE, &cosine, sizeof cosine);
    number = plan_into(3, 8, LENT(words), LENGTH(result));
    printf("sine %.17g, cosine %.17g: number %" PRIu64 ", index %" PRIu64 "\n", sine, cosine, number,
           result[MIDVOKT_RESULT_INDEX]);
    return number == wanted && (number == MIDVOKT_PLANNED || rest_is_zero());
}

/* Pairs of one angle, and pairs of none. */
static int try_pairs(void)
{
    int right = try_pair(0.0, 0.0, MIDVOKT_REFUSED_SQUARES);
    right &= try_pair(1.0, 1.0, MIDVOKT_REFUSED_SQUARES);
    right &= try_pair(1.0, 0.0, MIDVOKT_PLANNED);
    right &= try_pair(-1.0, -0.0, MIDVOKT_PLANNED);
    right &= try_pair(0.6, 0.8, MIDVOKT_PLANNED);
    right &= try_pair(0.6, 0.8000000000000006, MIDVOKT_PLANNED);
    right &= try_pair(0.6, 0.8000000000000007, MIDVOKT_REFUSED_SQUARES);
    right &= try_pair(0.6, 0.7999999999999994, MIDVOKT_REFUSED_SQUARES);
    right &= try_pair(2.0, 0.0, MIDVOKT_REFUSED_FLOATS);
    return right;
}

int main(void)
{
    uint64_t record;
    uint64_t number = plan(8);
    int right;
    printf("plan: number %" PRIu64 "\n", number);
    if (number != MIDVOKT_PLANNED)
        return 1;
    print_result();
    for (record = 0; record < RECORDS; record++)
        print_step(record);
    print_words("sizes", sizes, result[MIDVOKT_RESULT_COMPONENT_COUNT]);
    print_groups();
    right = try_works("the same, whole works", 3, 8, LENT(records));
    right &= try_works("12 and a promotion", 12, 13, LENT(promotion));
    right &= try_works("37 and a promotion", 37, 38, LENT(promotion));
    right &= try_works("38 and a promotion", 38, 39, LENT(promotion));
    right &= try_works("39 and a measurement", 39, 39, LENT(measurement));
    right &= try_works("a global phase", 0, 8, LENT(ignored));
    right &= try_works("unread", UINT64_MAX, 7, LENT(promotion));
    right &= nine_are_the_same();
    right &= try_groups();
    right &= try_ceilings();
    right &= try_pairs();
    number = plan(62);
    printf("max_k 62: number %" PRIu64 ", index %" PRIu64 "\n", number, result[MIDVOKT_RESULT_INDEX]);
    print_words("  words 9 to 13:", result + MIDVOKT_RESULT_WHOLE_MARK, 5);
    printf("words left in the first step: %" PRIu64 "\n", steps[MIDVOKT_STEP_KIND]);
    return right && rest_is_zero() && number == MIDVOKT_REFUSED_MAX_K ? 0 : 1;
}
