/* A berth on paper from C: a day of half hours from 2024-05-01, without losses, with every slot lost, and what is refused. */
#include <inttypes.h>
#include <stdio.h>
#include <string.h>

#include "expect.h"
#include "sawmauve.h"

#define SLOTS 48
#define DAYS 1
#define HEAD 2024, 5, 1, DAYS, 30, 40000, 500
#define LENGTH (6 * SLOTS + 14 + 32)

static uint32_t values[SLOTS], versions[SLOTS], readings[DAYS + 1], read_versions[DAYS + 1], agreed[SLOTS], agreed_versions[SLOTS];
static uint16_t counts[DAYS], widths[DAYS + 1];
static uint8_t statuses[SLOTS], holidays[DAYS], out[LENGTH];
static int64_t report[SAWMAUVE_REPORT];
static uint64_t figures[SAWMAUVE_FIGURES];

static uint32_t simulate(uint32_t seed, uint32_t loss, size_t room, size_t places)
{
    return sawmauve_simulate(
        HEAD, seed, loss, values, SLOTS, versions, SLOTS, statuses, SLOTS, holidays, DAYS, readings, DAYS + 1, read_versions, DAYS + 1,
        agreed, SLOTS, agreed_versions, SLOTS, counts, DAYS, widths, DAYS + 1, out, room, report, places);
}

int main(void)
{
    /* A refusal changes nothing; the lowest number is given. */
    EXPECT(simulate(0, 1001, LENGTH, SAWMAUVE_REPORT) == 20);
    EXPECT(simulate(1, 1001, LENGTH, SAWMAUVE_REPORT) == 21);
    EXPECT(simulate(0, 0, LENGTH - 1, SAWMAUVE_REPORT) == 7);
    EXPECT(simulate(0, 0, LENGTH - 1, 1) == 2);
    EXPECT(read_versions[0] == 0 && out[LENGTH - 1] == 0 && out[4] == 0);

    /* Without losses the dial agrees, and nothing is missing. */
    EXPECT(simulate(1, 0, LENGTH, SAWMAUVE_REPORT) == SAWMAUVE_DONE);
    EXPECT(report[SAWMAUVE_STATE] == 0 && report[SAWMAUVE_DIFFERENCE] == 0);
    EXPECT(counts[0] == SLOTS && readings[0] == 0);
    EXPECT(sawmauve_read(out, LENGTH, figures, SAWMAUVE_FIGURES) == SAWMAUVE_DONE);
    EXPECT(figures[SAWMAUVE_SUM] == readings[DAYS] && figures[SAWMAUVE_SPANS] == 1);

    /* With every slot lost the span is open, and the whole total is missing: the lists are opened again. */
    EXPECT(simulate(1, 1000, LENGTH, SAWMAUVE_REPORT) == SAWMAUVE_DONE);
    EXPECT(report[SAWMAUVE_STATE] == 2 && report[SAWMAUVE_DIFFERENCE] == -(int64_t)readings[DAYS]);
    EXPECT(counts[0] == 0);
    printf("state %" PRId64 ", difference %" PRId64 " Wh\n", report[SAWMAUVE_STATE], report[SAWMAUVE_DIFFERENCE]);
    return 0;
}
