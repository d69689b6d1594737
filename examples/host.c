/* The case 'Whole' from C: a day of half hours from 2024-05-01, every slot but 10 delivered as 100. Then slot 10 is agreed. */
#include <inttypes.h>
#include <stdio.h>
#include <string.h>

#include "expect.h"
#include "sawmauve.h"

#define SLOTS 48
#define DAYS 1
#define HEAD 2024, 5, 1, DAYS, 30, 40000, 0
#define LENGTH (6 * SLOTS + 32)

static uint32_t values[SLOTS], versions[SLOTS], readings[DAYS + 1], read_versions[DAYS + 1], agreed[SLOTS], agreed_versions[SLOTS];
static uint16_t counts[DAYS], widths[DAYS + 1];
static uint8_t statuses[SLOTS], holidays[DAYS], out[LENGTH + 1];
static uint64_t figures[SAWMAUVE_FIGURES], fields[SAWMAUVE_FIELDS];

static uint32_t deliver(uint32_t slot, uint32_t version, uint32_t value)
{
    return sawmauve_deliver(HEAD, values, SLOTS, versions, SLOTS, statuses, SLOTS, counts, DAYS, slot, version, value, 0);
}

static uint32_t agree(uint32_t slot, uint32_t version, uint32_t value)
{
    return sawmauve_agree(HEAD, agreed, SLOTS, agreed_versions, SLOTS, slot, version, value);
}

static uint64_t publish(size_t room)
{
    return sawmauve_publish(
        HEAD, values, SLOTS, versions, SLOTS, statuses, SLOTS, holidays, DAYS, readings, DAYS + 1, read_versions, DAYS + 1, agreed, SLOTS,
        agreed_versions, SLOTS, counts, DAYS, widths, DAYS + 1, out, room);
}

static uint32_t explain(uint32_t slot, size_t room)
{
    return sawmauve_explain(
        HEAD, values, SLOTS, versions, SLOTS, statuses, SLOTS, holidays, DAYS, readings, DAYS + 1, read_versions, DAYS + 1, agreed, SLOTS,
        agreed_versions, SLOTS, counts, DAYS, widths, DAYS + 1, slot, fields, room);
}

int main(void)
{
    static const uint8_t trailer[32] = {
        0xB7, 0x22, 1, 0, 0x1E, 3, 0, 0, 0x2F, 0, 0, 0, 1, 0, 0, 0, 0, 0, 0, 0, 0xC0, 0x12,
    };

    /* The limit of single phase, in the table of the two kinds; a kind that is no place; a table that falls. */
    static const uint32_t kinds[] = {40000, 70000}, falling[] = {70000, 40000};
    EXPECT(sawmauve_limit(kinds, 2, 1) == 40000);
    EXPECT(sawmauve_limit(kinds, 2, 3) == SAWMAUVE_READINGS + 1);
    EXPECT(sawmauve_limit(falling, 2, 3) == SAWMAUVE_READINGS + 13);

    /* Opening clears what the lists held. */
    memset(values, 0xFF, sizeof values);
    memset(read_versions, 0xFF, sizeof read_versions);
    memset(statuses, 0xFF, sizeof statuses);
    memset(agreed, 0xFF, sizeof agreed);
    memset(counts, 0xFF, sizeof counts);
    memset(widths, 0xFF, sizeof widths);
    EXPECT(
        sawmauve_open(
            HEAD, values, SLOTS, versions, SLOTS, statuses, SLOTS, holidays, DAYS, readings, DAYS + 1, read_versions, DAYS + 1, agreed,
            SLOTS, agreed_versions, SLOTS, counts, DAYS, widths, DAYS + 1)
        == SAWMAUVE_DONE);
    for (uint32_t slot = 0; slot < SLOTS; slot++)
        if (slot != 10)
            EXPECT(deliver(slot, 2, 100) == SAWMAUVE_STORED);

    /* Every other code of a filling call, of which none changes the book. */
    EXPECT(deliver(0, 1, 7) == SAWMAUVE_LATE);
    EXPECT(deliver(0, 2, 100) == SAWMAUVE_REPEAT);
    EXPECT(deliver(0, 2, 7) == 10);
    EXPECT(sawmauve_holiday(HEAD, holidays, DAYS, DAYS) == 3);
    EXPECT(sawmauve_register(HEAD, readings, DAYS + 1, read_versions, DAYS + 1, widths, DAYS + 1, 0, 1, 100000000, 0) == 6);
    EXPECT(sawmauve_register(HEAD, readings, DAYS + 1, read_versions, DAYS + 1, widths, DAYS + 1, 0, 1, 99999999, 10000) == 17);

    /* The day's count, for a screen; with another one nothing is published. */
    EXPECT(counts[0] == SLOTS - 1);
    counts[0] = SLOTS;
    EXPECT(deliver(10, 1, 100) == 11);
    EXPECT(publish(sizeof out) == 11);
    counts[0] = SLOTS - 1;

    /* A buffer that is a byte short is refused; in a longer one the byte after the file stays. */
    EXPECT(publish(LENGTH - 1) == 7);
    out[LENGTH] = 0xA5;
    EXPECT(publish(sizeof out) == LENGTH);
    EXPECT(out[LENGTH] == 0xA5);
    EXPECT(memcmp(out + LENGTH - sizeof trailer, trailer, sizeof trailer) == 0);

    EXPECT(sawmauve_read(out, LENGTH, figures, SAWMAUVE_FIGURES - 1) == 2);
    EXPECT(sawmauve_read(out, LENGTH + 1, figures, SAWMAUVE_FIGURES) == 8);
    EXPECT(sawmauve_tables(out, LENGTH + 1) == 0);
    EXPECT(sawmauve_read(out, LENGTH, figures, SAWMAUVE_FIGURES) == SAWMAUVE_DONE);
    EXPECT(sawmauve_tables(out, LENGTH) == 6 * SLOTS);
    EXPECT(figures[SAWMAUVE_SPANS] == 0);

    char line[200];
    snprintf(
        line, sizeof line, "%" PRIu64 " %" PRIu64 " %" PRIu64 " %" PRIu64 " %" PRIu64 " %" PRIu64 " %" PRIu64,
        figures[SAWMAUVE_FIRST], figures[SAWMAUVE_DAYS], figures[SAWMAUVE_INTERVAL], figures[SAWMAUVE_ACTUAL],
        figures[SAWMAUVE_SUBSTITUTED], figures[SAWMAUVE_NONE], figures[SAWMAUVE_SUM]);
    puts(line);
    EXPECT(strcmp(line, "8887 1 30 47 1 0 4800") == 0);
    EXPECT(figures[SAWMAUVE_LAYOUT] == 3);

    /* Slot 10 is a gap that the line fills from 100 to 100, the first of one; it lies in no span. */
    EXPECT(explain(10, SAWMAUVE_FIELDS - 1) == 2);
    EXPECT(explain(SLOTS, SAWMAUVE_FIELDS) == 3);
    EXPECT(fields[2] == 0);
    EXPECT(explain(10, SAWMAUVE_FIELDS) == SAWMAUVE_DONE);
    EXPECT(fields[0] == 1 && fields[1] == 2 && fields[2] == 100 && fields[3] == 'S' && fields[4] == 2);
    EXPECT(fields[5] == 100 && fields[6] == 100 && fields[7] == 1 && fields[8] == 1 && fields[18] == 0);
    EXPECT(fields[31] == 100 && fields[32] == 'S' && fields[33] == 2);

    /* Slot 10 is settled with the skipper; a good slot keeps what was delivered. */
    EXPECT(agree(10, 1, 100000000) == 12);
    EXPECT(agree(10, 2, 600) == SAWMAUVE_STORED);
    EXPECT(agree(10, 1, 700) == SAWMAUVE_LATE);
    EXPECT(agree(10, 2, 600) == SAWMAUVE_REPEAT);
    EXPECT(agree(10, 2, 700) == 10);
    EXPECT(agree(11, 1, 700) == SAWMAUVE_STORED);
    EXPECT(publish(sizeof out) == LENGTH);
    EXPECT(sawmauve_read(out, LENGTH, figures, SAWMAUVE_FIGURES) == SAWMAUVE_DONE);
    EXPECT(figures[SAWMAUVE_LAYOUT] == 3 && figures[SAWMAUVE_SUBSTITUTED] == 1 && figures[SAWMAUVE_SUM] == 5300);
    EXPECT(out[64] == 'F' && out[65] == 5);
    EXPECT(explain(10, SAWMAUVE_FIELDS) == SAWMAUVE_DONE);
    EXPECT(fields[1] == 5 && fields[31] == 600 && fields[32] == 'F' && fields[33] == 5);
    return 0;
}
