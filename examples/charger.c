/* A charger's host: its meter sends the dial as four bytes in packed decimal at the start and at the end of a day. The dials are
 * filed as register reads of that day's book, and the published file is checked. */
#include <inttypes.h>
#include <string.h>

#include "expect.h"
#include "sawmauve.h"

#define SLOTS 48
#define DAYS 1
#define HEAD 2024, 5, 1, DAYS, 30, 40000, 0
#define LENGTH (6 * SLOTS + 14 + 32)

static uint32_t values[SLOTS], versions[SLOTS], readings[DAYS + 1], read_versions[DAYS + 1], agreed[SLOTS], agreed_versions[SLOTS];
static uint16_t counts[DAYS], widths[DAYS + 1];
static uint8_t statuses[SLOTS], holidays[DAYS], file[LENGTH];
static uint64_t figures[SAWMAUVE_FIGURES];

/* Files a dial as the register read of version 1 at a boundary: 0 or the refusal, of the dial or of the read. */
static uint32_t take(uint32_t boundary, const uint8_t *dial, size_t dial_len)
{
    uint32_t reading = sawmauve_unpack(dial, dial_len);
    if (reading >= SAWMAUVE_READINGS)
        return reading - SAWMAUVE_READINGS;
    return sawmauve_register(HEAD, readings, DAYS + 1, read_versions, DAYS + 1, widths, DAYS + 1, boundary, 1, reading, 0);
}

int main(void)
{
    /* 99,997,690 and, past the dial's end, 2,490: an advance of 4,800. */
    static const uint8_t morning[SAWMAUVE_PACKED] = {0x90, 0x76, 0x99, 0x99};
    static const uint8_t evening[SAWMAUVE_PACKED] = {0x90, 0x24, 0x00, 0x00};
    /* Half bytes of 10, the lower one of the first byte and the upper one of the last. */
    static const uint8_t first_bad[SAWMAUVE_PACKED] = {0x9A, 0x24, 0x00, 0x00};
    static const uint8_t last_bad[SAWMAUVE_PACKED] = {0x90, 0x24, 0x00, 0xA0};
    static const uint8_t kept[SAWMAUVE_PACKED] = {1, 2, 3, 4};
    uint8_t dial[SAWMAUVE_PACKED] = {1, 2, 3, 4};

    EXPECT(
        sawmauve_open(
            HEAD, values, SLOTS, versions, SLOTS, statuses, SLOTS, holidays, DAYS, readings, DAYS + 1, read_versions, DAYS + 1, agreed,
            SLOTS, agreed_versions, SLOTS, counts, DAYS, widths, DAYS + 1)
        == SAWMAUVE_DONE);
    for (uint32_t slot = 0; slot < SLOTS; slot++)
        EXPECT(
            sawmauve_deliver(HEAD, values, SLOTS, versions, SLOTS, statuses, SLOTS, counts, DAYS, slot, 1, 100, 0)
            == SAWMAUVE_STORED);

    /* A dial of another length, or with a half byte above 9, is turned away and files nothing. */
    EXPECT(take(0, morning, SAWMAUVE_PACKED - 1) == 2);
    EXPECT(take(0, first_bad, SAWMAUVE_PACKED) == 16);
    EXPECT(take(0, last_bad, SAWMAUVE_PACKED) == 16);
    EXPECT(read_versions[0] == 0);
    EXPECT(take(0, morning, SAWMAUVE_PACKED) == SAWMAUVE_STORED);
    EXPECT(take(1, evening, SAWMAUVE_PACKED) == SAWMAUVE_STORED);
    EXPECT(readings[0] == 99997690 && readings[1] == 2490);

    /* A reading of nine digits has no form, and 2 goes before 6: a refusal changes no byte. */
    EXPECT(sawmauve_pack(100000000, dial, SAWMAUVE_PACKED) == 6);
    EXPECT(sawmauve_pack(100000000, dial, SAWMAUVE_PACKED - 1) == 2);
    EXPECT(memcmp(dial, kept, sizeof dial) == 0);
    EXPECT(sawmauve_pack(readings[0], dial, SAWMAUVE_PACKED) == SAWMAUVE_DONE);
    EXPECT(memcmp(dial, morning, sizeof dial) == 0);

    EXPECT(
        sawmauve_publish(
            HEAD, values, SLOTS, versions, SLOTS, statuses, SLOTS, holidays, DAYS, readings, DAYS + 1, read_versions, DAYS + 1, agreed,
            SLOTS, agreed_versions, SLOTS, counts, DAYS, widths, DAYS + 1, file, LENGTH)
        == LENGTH);
    EXPECT(sawmauve_read(file, LENGTH, figures, SAWMAUVE_FIGURES) == SAWMAUVE_DONE);

    char line[200];
    snprintf(
        line, sizeof line, "%" PRIu32 " %" PRIu32 " %" PRIu64 " %" PRIu64 " %" PRIu64, readings[0], readings[1],
        figures[SAWMAUVE_SPANS], figures[SAWMAUVE_ACTUAL], figures[SAWMAUVE_SUM]);
    puts(line);
    EXPECT(strcmp(line, "99997690 2490 1 48 4800") == 0);

    /* A file that was changed on the way is refused. */
    file[0]++;
    EXPECT(sawmauve_read(file, LENGTH, figures, SAWMAUVE_FIGURES) == 9);
    return 0;
}
