/*
 * Plans rotations about Y by the header's rule, a bit in both masks and 1 more in the phase, and
 * one whose phase is left at 0, which is another operator. Then it applies rows by the header's
 * rules to states for which the result is known: the rotation of 0 about Y, and measurements of
 * states most of which have one outcome for sure. `check` compares what is printed with
 * apply.expected. C99 and C++11.
 */
#include <inttypes.h>
#include <math.h>
#include <stdio.h>
#include <string.h>

#include "midvokt.h"

#define MOST 4

/* The square root of one half. */
#define ROOT 0.70710678118654757

/* A complex number. */
struct number {
    double re, im;
};

/* The number that two words of a row are. */
static struct number at(const uint64_t *words)
{
    struct number found;
    memcpy(&found.re, words, sizeof found.re);
    memcpy(&found.im, words + 1, sizeof found.im);
    return found;
}

/* Whether a word has an odd number of ones. */
static uint64_t odd(uint64_t word)
{
    uint64_t ones = 0;
    for (; word; word >>= 1)
        ones ^= word & 1;
    return ones;
}

/* f a + c b, the latter negated where that is asked for. */
static struct number mixed(double f, struct number a, struct number c, struct number b, uint64_t is_negated)
{
    double sign = is_negated ? -1 : 1;
    struct number sum;
    sum.re = f * a.re + sign * (c.re * b.re - c.im * b.im);
    sum.im = f * a.im + sign * (c.re * b.im + c.im * b.re);
    return sum;
}

/* Plans one record of a register whose coordinates begin alone, and gives its row. */
static const uint64_t *planned(uint64_t width, const uint64_t *record)
{
    static uint64_t steps[2], merges[513], sizes[512], rotations[21], promotions[1], measurements[19];
    static uint64_t groups[1024], result[MIDVOKT_RESULT_WORDS];
    uint64_t number = midvokt_plan(width, 8, 0, MIDVOKT_LARGEST_CEILING, record, 8, steps, 2, merges, 513, sizes, 512,
                                   rotations, 21, promotions, 1, measurements, 19, groups, 1024, result,
                                   MIDVOKT_RESULT_WORDS);
    if (number != MIDVOKT_PLANNED)
        printf("refused %" PRIu64 "\n", number);
    return steps[MIDVOKT_STEP_KIND] == MIDVOKT_STEP_ROTATION ? rotations : measurements;
}

/* Rotates a state by a row. */
static void rotate(const uint64_t *row, const struct number *a, struct number *after)
{
    uint64_t b, x = row[MIDVOKT_ROW_X], z = row[MIDVOKT_ROW_Z];
    double cosine;
    memcpy(&cosine, row + MIDVOKT_ROTATION_COSINE, sizeof cosine);
    for (b = 0; b >> row[MIDVOKT_ROW_WIDTH] == 0; b++)
        after[b ^ x] = mixed(cosine, a[b ^ x], at(row + MIDVOKT_ROTATION_COEFFICIENT), a[b], odd(b & z));
}

/* The probability of the outcome +1 (s is 0) or -1 (s is 1). */
static double probability(const uint64_t *row, const struct number *a, uint64_t s)
{
    uint64_t b, x = row[MIDVOKT_ROW_X], pivot = row[MIDVOKT_MEASUREMENT_PIVOT];
    double sum = 0;
    for (b = 0; b < row[MIDVOKT_MEASUREMENT_OUT_DIMENSION]; b++) {
        uint64_t low = b & ((UINT64_C(1) << pivot) - 1), d = low | (b - low) << 1;
        uint64_t bit = row[MIDVOKT_MEASUREMENT_PHASE_BIT] ^ odd(d & row[MIDVOKT_MEASUREMENT_Z_WITHOUT_PIVOT]) ^ s;
        struct number left = a[d | bit << pivot];
        if (!row[MIDVOKT_MEASUREMENT_DIAGONAL])
            left = mixed(ROOT, a[d], at(row + MIDVOKT_MEASUREMENT_COEFFICIENT), a[d ^ x], odd(d & row[MIDVOKT_ROW_Z]) ^ s);
        sum += left.re * left.re + left.im * left.im;
    }
    return sum;
}

/* Prints the probabilities of both outcomes of a measurement of X^x Z^z i^phase. */
static void measure(const char *name, uint64_t width, uint64_t x, uint64_t z, uint64_t phase, const struct number *a)
{
    uint64_t record[8] = {MIDVOKT_KIND_ACTIVE_MEASUREMENT, 0, 0, 0, 0, 0, 0, 0};
    const uint64_t *row;
    record[MIDVOKT_RECORD_WIDTH] = width;
    record[MIDVOKT_RECORD_X] = x;
    record[MIDVOKT_RECORD_Z] = z;
    record[MIDVOKT_RECORD_PHASE] = phase;
    row = planned(width, record);
    printf("%s: +1 with %.3f, -1 with %.3f\n", name, probability(row, a, 0), probability(row, a, 1));
}

/* Writes a rotation of a register by theta, which is an angle of half of it. */
static void write_turn(uint64_t *record, uint64_t width, uint64_t x, uint64_t z, uint64_t phase, double theta)
{
    double angle = theta / 2, sine = sin(angle), cosine = cos(angle);
    record[MIDVOKT_RECORD_KIND] = MIDVOKT_KIND_ROTATION;
    record[MIDVOKT_RECORD_WIDTH] = width;
    record[MIDVOKT_RECORD_X] = x;
    record[MIDVOKT_RECORD_Z] = z;
    record[MIDVOKT_RECORD_PHASE] = phase;
    memcpy(record + MIDVOKT_RECORD_ANGLE, &angle, sizeof angle);
    memcpy(record + MIDVOKT_RECORD_SINE, &sine, sizeof sine);
    memcpy(record + MIDVOKT_RECORD_COSINE, &cosine, sizeof cosine);
}

/* Prints what applying a rotation of three coordinates takes. */
static void turn_about(const char *name, uint64_t x, uint64_t z, uint64_t phase)
{
    uint64_t record[8];
    const uint64_t *row;
    struct number even, coefficient;
    write_turn(record, 3, x, z, phase, 0.5);
    row = planned(3, record);
    even = at(row + MIDVOKT_ROW_EVEN_PHASE);
    coefficient = at(row + MIDVOKT_ROTATION_COEFFICIENT);
    printf("%s: local x %" PRIu64 ", z %" PRIu64 ", even phase (%g, %g), real pairs %" PRIu64 ", coefficient (%.3f, %.3f)\n", name,
           row[MIDVOKT_ROW_X], row[MIDVOKT_ROW_Z], even.re, even.im, row[MIDVOKT_ROTATION_FLIP], coefficient.re, coefficient.im);
}

int main(void)
{
    static const struct number zero[MOST] = {{1, 0}, {0, 0}, {0, 0}, {0, 0}};
    static const struct number one[MOST] = {{0, 0}, {1, 0}, {0, 0}, {0, 0}};
    static const struct number plus_y[MOST] = {{ROOT, 0}, {0, ROOT}, {0, 0}, {0, 0}};
    static const struct number pair[MOST] = {{ROOT, 0}, {0, 0}, {0, 0}, {ROOT, 0}};
    struct number after[MOST];
    uint64_t turn[8];
    turn_about("Y0", 1, 1, 1);
    turn_about("Y0 Y1", 3, 3, 2);
    turn_about("X0 Y2", 5, 4, 1);
    turn_about("-Y1", 2, 2, 3);
    turn_about("-iY0", 1, 1, 0);
    write_turn(turn, 1, 1, 1, 1, 0.6);
    rotate(planned(1, turn), zero, after);
    printf("0 turned about Y by 0.6: (%.6f, %.6f), (%.6f, %.6f)\n", after[0].re, after[0].im, after[1].re, after[1].im);
    printf("cosine and sine of 0.3: %.6f, %.6f\n", cos(0.3), sin(0.3));
    measure("Y of its eigenstate", 1, 1, 1, 1, plus_y);
    measure("-Y of that", 1, 1, 1, 3, plus_y);
    measure("Z of 1", 1, 0, 1, 0, one);
    measure("-Z of 1", 1, 0, 1, 2, one);
    measure("X of 0", 1, 1, 0, 0, zero);
    measure("Z Z of a pair", 2, 0, 3, 0, pair);
    measure("X X of a pair", 2, 3, 0, 0, pair);
    measure("Y Y of a pair", 2, 3, 3, 2, pair);
    return 0;
}
