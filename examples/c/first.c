/*
 * Plans three records and prints the verdict, the component of the first one's row and what it is
 * made of, and why another pivot is refused. In the project's folder:
 *
 *     cc -I include examples/c/first.c target/staticlib/libmidvokt.a -lm -o first && ./first
 */
#include <inttypes.h>
#include <stdio.h>

#include "midvokt_buffers.h"

MIDVOKT_STATIC_BUFFERS(plan, 3);

/* Prints the component of a rotation or a measurement, and the components that it is made of. */
static void print_row(const uint64_t *row)
{
    const uint64_t *sources = plan.merges + row[MIDVOKT_ROW_MERGE_OFFSET];
    uint64_t place;
    printf("component %" PRIu64 ", made of", row[MIDVOKT_ROW_COMPONENT]);
    for (place = 0; place < row[MIDVOKT_ROW_MERGE_COUNT]; place++)
        printf(" %" PRIu64, sources[place]);
    printf("\n");
}

int main(void)
{
    const midvokt_head head = midvokt_head_of(3, 4);
    uint64_t records[3][MIDVOKT_RECORD_WORDS], number;
    if (midvokt_rotation(records[0], 3, "Y0*Z2", 0.25) != MIDVOKT_MADE ||
        midvokt_record_alone(records[1], MIDVOKT_KIND_PROMOTION) != MIDVOKT_MADE ||
        midvokt_measurement(records[2], 4, "-Z_X_", 2) != MIDVOKT_MADE)
        return 1;
    number = midvokt_plan_records(head, records[0], 3, &plan);
    printf("number %" PRIu64 ": %s\n", number, midvokt_sentence(number));
    printf("the split pays: %s\n", plan.result[MIDVOKT_RESULT_SELECTED] ? "yes" : "no");
    print_row(plan.rotations + MIDVOKT_ROTATION_WORDS * plan.steps[MIDVOKT_STEP_PAYLOAD]);

    records[2][MIDVOKT_RECORD_PIVOT] = 3;
    number = midvokt_plan_records(head, records[0], 3, &plan);
    printf("number %" PRIu64 " at record %" PRIu64 ": %s\n", number,
           plan.result[MIDVOKT_RESULT_INDEX], midvokt_sentence(number));
    return 0;
}
