/* What an office does with a file, from C: totals stays in it and exports it as NEM12. The book is of two days of half hours from
 * 2024-05-01, every slot but 10 delivered as 100. */
#include <inttypes.h>
#include <string.h>

#include "expect.h"
#include "sawmauve.h"

#define SLOTS 96
#define DAYS 2
#define HEAD 2024, 5, 1, DAYS, 30, 40000, 0
#define LENGTH (6 * SLOTS + 32)

static uint32_t values[SLOTS], versions[SLOTS], readings[DAYS + 1], read_versions[DAYS + 1], agreed[SLOTS], agreed_versions[SLOTS];
static uint16_t counts[DAYS], widths[DAYS + 1];
static uint8_t statuses[SLOTS], holidays[DAYS], file[LENGTH], out[4096];

/* A text as its bytes and their number, without the ending zero. */
#define TEXT(text) (const uint8_t *)text, strlen(text)

static uint64_t nem12(const char *identifier, const char *created, uint32_t method_19, size_t room)
{
    return sawmauve_nem12(
        file, LENGTH, TEXT(identifier), TEXT("FROM"), TEXT("TO"), TEXT("E1"), TEXT("1"), TEXT("E1"), TEXT("N1"), TEXT("SN1"),
        TEXT("20240701"), TEXT("79"), TEXT(created), 14, 15, 7, 65, method_19, out, room);
}

int main(void)
{
    EXPECT(
        sawmauve_open(
            HEAD, values, SLOTS, versions, SLOTS, statuses, SLOTS, holidays, DAYS, readings, DAYS + 1, read_versions, DAYS + 1,
            agreed, SLOTS, agreed_versions, SLOTS, counts, DAYS, widths, DAYS + 1)
        == SAWMAUVE_DONE);
    for (uint32_t slot = 0; slot < SLOTS; slot++)
        if (slot != 10)
            EXPECT(
                sawmauve_deliver(HEAD, values, SLOTS, versions, SLOTS, statuses, SLOTS, counts, DAYS, slot, 1, 100, 0) == SAWMAUVE_STORED);
    EXPECT(
        sawmauve_publish(
            HEAD, values, SLOTS, versions, SLOTS, statuses, SLOTS, holidays, DAYS, readings, DAYS + 1, read_versions, DAYS + 1,
            agreed, SLOTS, agreed_versions, SLOTS, counts, DAYS, widths, DAYS + 1, file, LENGTH)
        == LENGTH);

    /* A stay of the second day, and one of both. */
    static const uint32_t pairs[] = {1, 2, 0, 2}, backwards[] = {1, 1}, too_long[] = {0, 3};
    uint64_t totals[2] = {7, 7};
    EXPECT(sawmauve_stays(file, LENGTH, pairs, 3, totals, 2) == 18);
    EXPECT(sawmauve_stays(file, LENGTH, pairs, 4, totals, 1) == 18);
    EXPECT(sawmauve_stays(file, LENGTH, backwards, 2, totals, 1) == 19);
    EXPECT(sawmauve_stays(file, LENGTH, too_long, 2, totals, 1) == 19);
    EXPECT(sawmauve_stays(file, LENGTH - 1, pairs, 4, totals, 2) == 8);
    EXPECT(totals[0] == 7 && totals[1] == 7);
    EXPECT(sawmauve_stays(file, LENGTH, pairs, 4, totals, 2) == SAWMAUVE_DONE);
    EXPECT(totals[0] == 4800 && totals[1] == 9600);

    /* An identifier with an I, a creation time of 12 digits, a method code of 100 and an output that is a byte short are refused. */
    EXPECT(nem12("612345678I", "20240602093000", 66, sizeof out) == 14);
    EXPECT(nem12("6123456789", "202406020930", 66, sizeof out) == 15);
    EXPECT(nem12("6123456789", "20240602093000", 100, sizeof out) == 15);
    EXPECT(out[0] == 0);
    uint64_t length = nem12("6123456789", "20240602093000", 66, sizeof out);
    EXPECT(100 < length && length < sizeof out && out[length] == 0);
    EXPECT(nem12("6123456789", "20240602093000", 66, length - 1) == 7);
    EXPECT(nem12("6123456789", "20240602093000", 66, length) == length);

    /* Slot 11 of the first day was filled by the line, code 14; the second day is as it was delivered. */
    const char *text = (const char *)out;
    static const char start[] = "100,NEM12,202406020930,FROM,TO\r\n200,6123456789,E1,1,E1,N1,SN1,kWh,30,20240701\r\n300,20240501,0.100,";
    EXPECT(memcmp(text, start, sizeof start - 1) == 0);
    EXPECT(strstr(text, "400,11,11,S14,79,") != NULL);
    EXPECT(strstr(text, "300,20240502,0.100,") != NULL);

    printf("office: %" PRIu64 " and %" PRIu64 " Wh, an export of %" PRIu64 " bytes\n", totals[0], totals[1], length);
    return 0;
}
