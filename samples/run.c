/* The frame run from C: prints what the program `turns` prints of a frame on standard input.
 *
 *     (cd crates/boundary && rt lib)
 *     cc -std=c99 -Iinclude samples/run.c crates/boundary/out/libboundary.a -o run
 *     ./run < samples/lift.frame
 */
#include <stdio.h>

#include "engkarupi.h"

static uint8_t frame[ENGKARUPI_MAX_FILE + 1];
static struct engkarupi_run_memory memory;

/* the 16-bit number at a place of the frame */
static unsigned number_at(size_t place) {
    return 256u * frame[place] + frame[place + 1];
}

/* where a joint of version 2 starts: each before it has two bytes and its endpoints */
static size_t entry_of(size_t joint) {
    size_t place = 11 + number_at(5) + 4 * (size_t)number_at(7);
    while (joint-- > 0) {
        place += 2 + 2 * (size_t)frame[place + 1];
    }
    return place;
}

/* a constraint's endpoints: where they stand in the frame, and how many; a manifold has four bytes, a joint of version 1 five */
static size_t ends_of(size_t constraint, unsigned *count) {
    size_t bodies = number_at(5), manifolds = number_at(7);
    *count = 2;
    if (constraint < manifolds || frame[0] == 1) {
        size_t joints_before = constraint > manifolds ? constraint - manifolds : 0;
        return 11 + bodies + 4 * constraint + joints_before;
    }
    size_t entry = entry_of(constraint - manifolds);
    *count = frame[entry + 1];
    return entry + 2;
}

int main(void) {
    size_t size = fread(frame, 1, sizeof frame, stdin);
    struct engkarupi_run_tables tables = engkarupi_run_tables_in(&memory);
    size_t report[ENGKARUPI_REPORT_NUMBERS];
    /* more bytes than any frame has are refused unread, as `turns` does */
    uint8_t refusal = size > ENGKARUPI_MAX_FILE ? 3 : engkarupi_run_on(frame, size, &tables, report);
    if (refusal != 0) {
        printf("refused %u\n", refusal);
        return 0;
    }
    printf("islands %zu turns %zu takes %zu degree %zu\n", report[ENGKARUPI_REPORT_ISLANDS],
           report[ENGKARUPI_REPORT_TURNS], report[ENGKARUPI_REPORT_TAKES], report[ENGKARUPI_REPORT_DEGREE]);
    for (const uint16_t *turn = memory.turns; turn < memory.turns + 3 * report[ENGKARUPI_REPORT_TURNS]; turn += 3) {
        unsigned count;
        size_t ends = ends_of(turn[2], &count);
        printf("%u %u %u", turn[0], turn[1], turn[2]);
        for (; count > 0; count--, ends += 2) {
            printf(" %u", number_at(ends));
        }
        printf("\n");
    }
    return 0;
}
