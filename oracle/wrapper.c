/* The header's wrapper over the run, as a function that Rust can call. */
#include "engkarupi.h"

_Static_assert(sizeof(struct engkarupi_run_tables) == 28 * (sizeof(void *) + sizeof(size_t)), "a pointer and a length for each table");

uint8_t oracle_run_on(
    const uint8_t *frame, size_t frame_len, const struct engkarupi_run_tables *tables, size_t report[ENGKARUPI_REPORT_NUMBERS]);

uint8_t oracle_run_on(
    const uint8_t *frame, size_t frame_len, const struct engkarupi_run_tables *tables, size_t report[ENGKARUPI_REPORT_NUMBERS])
{
    return engkarupi_run_on(frame, frame_len, tables, report);
}
