/*
 * Measures the stack that each call needs: it runs on a stack of its own that was painted before,
 * and what is no longer painted was used. The programs reach every kind of record, the widest
 * joins, the most records, and refusals early and late; each is stored, planned, and its file
 * loaded. Lists of pending operations that fuse, move or are refused are optimized. The first call comes before anything else has called memcpy or memset, so that it pays
 * for having them looked up; nothing in here calls them, and `check` has them looked up as late as
 * can be. With the word `bytes` behind it, it prints how many bytes each call took, and with `bytes
 * plan` the first call is that of midvokt_plan, with `bytes optimize` that of midvokt_optimize; else
 * whether all stay below what the header states.
 * `check` compares that with stack.expected. C99 and C++11, on systems with ucontext.
 */
#define _XOPEN_SOURCE 700
#include <inttypes.h>
#include <stdio.h>
#include <ucontext.h>

#include "midvokt.h"

#define RECORDS MIDVOKT_MOST_RECORDS
#define PAINT 0xa5

/* Cosine of the angle 0. */
#define ONE UINT64_C(0x3ff0000000000000)

static unsigned char painted[256 * 1024];
static ucontext_t outside, inside;

static uint64_t records[RECORDS * MIDVOKT_RECORD_WORDS];
static size_t used;
static uint64_t steps[MIDVOKT_STEPS_WORDS(RECORDS)];
static uint64_t merges[MIDVOKT_MERGES_WORDS(RECORDS)];
static uint64_t sizes[MIDVOKT_SIZES_WORDS(RECORDS)];
static uint64_t rotations[MIDVOKT_ROTATIONS_WORDS(RECORDS)];
static uint64_t promotions[MIDVOKT_PROMOTIONS_WORDS(RECORDS)];
static uint64_t measurements[MIDVOKT_MEASUREMENTS_WORDS(RECORDS)];
static uint64_t groups[MIDVOKT_GROUPS_WORDS(RECORDS)];
static uint64_t result[MIDVOKT_RESULT_WORDS];
static uint8_t file[MIDVOKT_FILE_BYTES(RECORDS)];
static size_t file_len;
static uint64_t initial_k, max_k, number;
static uint64_t operations[MIDVOKT_OPTIMIZED_WORDS(MIDVOKT_MOST_OPERATIONS)];
static uint64_t prefixes[MIDVOKT_MOST_PREFIXES];
static uint64_t optimized[MIDVOKT_OPTIMIZED_WORDS(MIDVOKT_MOST_OPERATIONS)];
static uint64_t map[MIDVOKT_MAP_WORDS(MIDVOKT_MOST_OPERATIONS)];

#define LENGTH(words) (sizeof(words) / sizeof(words)[0])
#define LENT(words) words, LENGTH(words)

/* The calls, on the painted stack. */
static void plan(void)
{
    number = midvokt_plan(initial_k, max_k, 0, MIDVOKT_LARGEST_CEILING, records,
                          used * MIDVOKT_RECORD_WORDS, LENT(steps), LENT(merges), LENT(sizes),
                          LENT(rotations), LENT(promotions), LENT(measurements), LENT(groups),
                          LENT(result));
}

static void store(void)
{
    number = midvokt_store(initial_k, max_k, 0, MIDVOKT_LARGEST_CEILING, records,
                           used * MIDVOKT_RECORD_WORDS, LENT(steps), LENT(merges), LENT(sizes),
                           LENT(rotations), LENT(promotions), LENT(measurements), LENT(groups),
                           LENT(file), LENT(result));
    file_len = (size_t)result[MIDVOKT_STORE_RESULT_BYTES];
}

static void load(void)
{
    number = midvokt_load(file, file_len, LENT(steps), LENT(merges), LENT(sizes), LENT(rotations),
                          LENT(promotions), LENT(measurements), LENT(result));
}

static void optimize(void)
{
    number = midvokt_optimize(2, operations, used * MIDVOKT_OPERATION_WORDS, LENT(prefixes),
                              LENT(optimized), LENT(map), LENT(result));
}

/* The bytes of the painted stack that a call changes. */
static size_t bytes_of(void (*call)(void))
{
    size_t place;
    for (place = 0; place < sizeof painted; place++)
        painted[place] = PAINT;
    getcontext(&inside);
    inside.uc_stack.ss_sp = painted;
    inside.uc_stack.ss_size = sizeof painted;
    inside.uc_link = &outside;
    makecontext(&inside, call, 0);
    swapcontext(&outside, &inside);
    place = 0;
    while (place < sizeof painted && painted[place] == PAINT)
        place++;
    return sizeof painted - place;
}

/* Adds a record. */
static void add(uint64_t kind, uint64_t width, uint64_t x, uint64_t z, uint64_t sixth)
{
    uint64_t *record = records + used++ * MIDVOKT_RECORD_WORDS;
    record[MIDVOKT_RECORD_KIND] = kind;
    record[MIDVOKT_RECORD_WIDTH] = width;
    record[MIDVOKT_RECORD_X] = x;
    record[MIDVOKT_RECORD_Z] = z;
    record[MIDVOKT_RECORD_PHASE] = 0;
    record[5] = sixth;
    record[6] = 0;
    record[7] = kind == MIDVOKT_KIND_ROTATION ? ONE : 0;
}

/* Adds so many records of which only the kind is read. */
static void add_alone(uint64_t kind, size_t count)
{
    while (count-- > 0)
        add(kind, 0, 0, 0, 0);
}

/* Masks of so many low bits. */
static uint64_t low(uint64_t width)
{
    return (UINT64_C(1) << width) - 1;
}

/* Begins a program. */
static void begin(uint64_t at_start)
{
    used = 0;
    initial_k = at_start;
    max_k = 61;
}

/* Promotes to 61, joins them all, turns them, and measures them away, to the most records. */
static void up_and_down(void)
{
    uint64_t width = 61;
    begin(0);
    add_alone(MIDVOKT_KIND_PROMOTION, 61);
    while (used + 61 < RECORDS)
        add(MIDVOKT_KIND_ROTATION, 61, low(61), used % 2 ? low(61) : 0, 0);
    for (; width > 0; width--)
        add(MIDVOKT_KIND_ACTIVE_MEASUREMENT, width, width % 2 ? low(width) : 0,
            width % 2 ? 0 : low(width), width - 1);
}

/* Joins pairs, then pairs of pairs, and so on. */
static void joins_of_pairs(void)
{
    uint64_t apart, from;
    begin(61);
    for (apart = 1; apart < 61; apart *= 2)
        for (from = 0; from + apart < 61; from += 2 * apart)
            add(MIDVOKT_KIND_ROTATION, 61, UINT64_C(1) << from, UINT64_C(1) << (from + apart), 0);
}

/* 512 coordinates, and all kinds that are passed over. */
static void promotions_and_others(void)
{
    begin(0);
    add_alone(MIDVOKT_KIND_PROMOTION, 512);
    add_alone(MIDVOKT_KIND_RECORD_MEASUREMENT, 200);
    add_alone(MIDVOKT_KIND_RECORD_DETECTOR, 200);
    add_alone(MIDVOKT_KIND_DORMANT_BRANCH, 112);
}

/* Refused by its last record: a join of 62. */
static void refused_late(void)
{
    begin(62);
    add_alone(MIDVOKT_KIND_RECORD_DETECTOR, RECORDS - 1);
    add(MIDVOKT_KIND_ROTATION, 62, low(62), 0, 0);
}

/* Refused by its last record: nothing is measured. */
static void refused_pivot(void)
{
    begin(3);
    add(MIDVOKT_KIND_ROTATION, 3, 7, 0, 0);
    add(MIDVOKT_KIND_ACTIVE_MEASUREMENT, 3, 0, 0, 0);
}

/* Refused by its head. */
static void refused_early(void)
{
    begin(0);
    max_k = 62;
}

/* Adds a pending operation of which x and z, or what else stands there, are given. */
static void queue(uint64_t kind, uint64_t first, uint64_t second, uint64_t third)
{
    uint64_t *operation = operations + used++ * MIDVOKT_OPERATION_WORDS;
    size_t word;
    for (word = 1; word < MIDVOKT_OPERATION_WORDS; word++)
        operation[word] = 0;
    operation[MIDVOKT_OPERATION_KIND] = kind;
    operation[1] = first;
    operation[2] = second;
    operation[3] = third;
}

/* A list of one chain of rotations. */
static void chain(void)
{
    used = 0;
    while (used < MIDVOKT_MOST_OPERATIONS)
        queue(MIDVOKT_OPERATION_ROTATION, ONE, 1, 0);
}

/* A list of rotations that cancel, commute or do not, and of measurements that move. */
static void mixture(void)
{
    used = 0;
    while (used + 8 <= MIDVOKT_MOST_OPERATIONS) {
        queue(MIDVOKT_OPERATION_ROTATION, ONE, 1, 0);
        queue(MIDVOKT_OPERATION_CLASSICAL_RECORD, 0, 0, 0);
        queue(MIDVOKT_OPERATION_ROTATION, ONE, 0, 2);
        queue(MIDVOKT_OPERATION_ROTATION, ONE ^ UINT64_C(1) << 63, 1, 0);
        queue(MIDVOKT_OPERATION_MEASUREMENT, 0, 2, 0);
        queue(MIDVOKT_OPERATION_ROTATION, ONE, 3, 0);
        queue(MIDVOKT_OPERATION_ROTATION, ONE, 3, 0);
        queue(MIDVOKT_OPERATION_MEASUREMENT, 3, 0, 0);
    }
}

/* The mixture, of which the last operation is a rotation that is not Hermitian. */
static void odd_at_the_end(void)
{
    mixture();
    used--;
    queue(MIDVOKT_OPERATION_ROTATION, ONE, 1, 1);
}

/* The mixture, of which the last operation is of no kind. */
static void no_kind_at_the_end(void)
{
    mixture();
    used--;
    queue(3, 0, 0, 0);
}

/* A call by its name. */
struct named {
    const char *name;
    void (*call)(void);
};

/* Makes a call of a program and gives its bytes; none where it returns another number. */
static size_t measured(const struct named *named, size_t program, uint64_t wanted, int is_told)
{
    size_t bytes = bytes_of(named->call);
    if (number != wanted) {
        printf("program %d, %s: number %" PRIu64 "\n", (int)program, named->name, number);
        return 0;
    }
    if (is_told)
        printf("program %d, %s: %lu bytes\n", (int)program, named->name, (unsigned long)bytes);
    return bytes;
}

/* The most bytes that optimizing one of the lists took; none where one returns another number. */
static size_t most_of_lists(int is_told)
{
    static void (*const lists[])(void) = {chain, mixture, odd_at_the_end, no_kind_at_the_end};
    static const uint64_t numbers[] = {MIDVOKT_OPTIMIZED, MIDVOKT_OPTIMIZED,
                                       MIDVOKT_REFUSED_GENERATOR, MIDVOKT_REFUSED_FORM};
    static const struct named call = {"optimize", optimize};
    size_t list, most = 0;
    for (list = 0; list < LENGTH(lists); list++) {
        size_t bytes;
        lists[list]();
        bytes = measured(&call, list, numbers[list], is_told);
        if (bytes == 0)
            return 0;
        most = bytes > most ? bytes : most;
    }
    return most;
}

/* The most bytes that a call of one of the programs took; none where one returns another number. */
static size_t most_of_programs(int is_told, int is_plan_first)
{
    static void (*const programs[])(void) = {up_and_down,  joins_of_pairs, promotions_and_others,
                                             refused_late, refused_pivot,  refused_early};
    static const uint64_t numbers[] = {MIDVOKT_PLANNED,
                                       MIDVOKT_PLANNED,
                                       MIDVOKT_PLANNED,
                                       MIDVOKT_REFUSED_COMPONENT_SIZE,
                                       MIDVOKT_REFUSED_IDENTITY,
                                       MIDVOKT_REFUSED_MAX_K};
    static const struct named calls[] = {{"plan", plan}, {"store", store}, {"plan", plan},
                                         {"load", load}};
    size_t program, call, most = 0;
    for (program = 0; program < LENGTH(programs); program++) {
        programs[program]();
        for (call = is_plan_first ? 0 : 1; call < LENGTH(calls); call++) {
            uint64_t wanted = numbers[program];
            size_t bytes;
            if (wanted != MIDVOKT_PLANNED && calls[call].call == load)
                wanted = MIDVOKT_REFUSED_FILE;
            bytes = measured(calls + call, program, wanted, is_told);
            if (bytes == 0)
                return 0;
            most = bytes > most ? bytes : most;
        }
    }
    return most;
}

int main(int count, char **words)
{
    int is_told = count > 1 && words[1][0] == 'b';
    int first = count > 2 ? words[2][0] : 's';
    size_t lists = first == 'o' ? most_of_lists(is_told) : 0;
    size_t most = most_of_programs(is_told, first == 'p');
    if (first != 'o')
        lists = most_of_lists(is_told);
    if (lists == 0 || most == 0)
        return 1;
    most = lists > most ? lists : most;
    if (is_told)
        return 0;
    printf("stack: %s\n", most <= MIDVOKT_STACK_BYTES ? "below what the header states"
                                                      : "more than the header states");
    printf("half of it: %s\n", most > MIDVOKT_STACK_BYTES / 2 ? "not enough" : "enough");
    return 0;
}
