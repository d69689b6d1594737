/* Lists of length 0, given as NULL: each call answers as it does for any list of that length, and reads and writes nothing. */
#include "expect.h"
#include "sawmauve.h"

#define HEAD 2024, 5, 1, 1, 30, 40000, 0
#define SLOTS 48
#define NO_LISTS NULL, 0, NULL, 0, NULL, 0, NULL, 0, NULL, 0, NULL, 0, NULL, 0, NULL, 0, NULL, 0, NULL, 0
#define LISTS                                                                                                                    \
    values, SLOTS, versions, SLOTS, statuses, SLOTS, holidays, 1, readings, 2, read_versions, 2, agreed, SLOTS, agreed_versions, SLOTS, \
        counts, 1, widths, 2

static uint32_t values[SLOTS], versions[SLOTS], readings[2], read_versions[2], agreed[SLOTS], agreed_versions[SLOTS];
static uint16_t counts[1], widths[2];
static uint8_t statuses[SLOTS], holidays[1], file[6 * SLOTS + 32], out[4096];

/* No head has empty lists, so a book of them is refused. */
static int books(void)
{
    EXPECT(sawmauve_open(HEAD, NO_LISTS) == 2);
    EXPECT(sawmauve_deliver(HEAD, NULL, 0, NULL, 0, NULL, 0, NULL, 0, 0, 1, 100, 0) == 2);
    EXPECT(sawmauve_agree(HEAD, NULL, 0, NULL, 0, 0, 1, 100) == 2);
    EXPECT(sawmauve_holiday(HEAD, NULL, 0, 0) == 2);
    EXPECT(sawmauve_register(HEAD, NULL, 0, NULL, 0, NULL, 0, 0, 1, 100, 0) == 2);
    EXPECT(sawmauve_publish(HEAD, NO_LISTS, NULL, 0) == 2);
    EXPECT(sawmauve_explain(HEAD, NO_LISTS, 0, NULL, 0) == 2);
    EXPECT(sawmauve_simulate(HEAD, 1, 0, NO_LISTS, NULL, 0, NULL, 0) == 2);
    EXPECT(sawmauve_open(HEAD, LISTS) == SAWMAUVE_DONE);
    EXPECT(sawmauve_publish(HEAD, LISTS, NULL, 0) == 7);
    EXPECT(sawmauve_publish(HEAD, LISTS, file, sizeof file) == sizeof file);
    return 0;
}

static int files(void)
{
    EXPECT(sawmauve_check(NULL, 0) == 8);
    EXPECT(sawmauve_read(NULL, 0, NULL, 0) == 2);
    EXPECT(sawmauve_tables(NULL, 0) == 0);
    EXPECT(sawmauve_line(NULL, 0, NULL, 0) == 8);
    EXPECT(sawmauve_line(file, sizeof file, NULL, 0) == 7);
    EXPECT(sawmauve_stays(NULL, 0, NULL, 0, NULL, 0) == 8);
    EXPECT(sawmauve_stays(file, sizeof file, NULL, 0, NULL, 0) == SAWMAUVE_DONE);
    EXPECT(sawmauve_to_strips(30, NULL, 0, NULL, 0) == 22);
    EXPECT(sawmauve_from_strips(30, NULL, 0, NULL, 0) == 22);
    return 0;
}

/* The texts of an export may be empty, but for the identifier and the creation time. */
static int exports(void)
{
    const uint8_t *identifier = (const uint8_t *)"6123456789", *created = (const uint8_t *)"20240602093000";
#define NO_TEXTS NULL, 0, NULL, 0, NULL, 0, NULL, 0, NULL, 0, NULL, 0, NULL, 0, NULL, 0, NULL, 0
#define CODES 14, 15, 7, 65, 66
    EXPECT(sawmauve_nem12(NULL, 0, NULL, 0, NO_TEXTS, NULL, 0, CODES, NULL, 0) == 8);
    EXPECT(sawmauve_nem12(file, sizeof file, NULL, 0, NO_TEXTS, created, 14, CODES, NULL, 0) == 14);
    EXPECT(sawmauve_nem12(file, sizeof file, identifier, 10, NO_TEXTS, NULL, 0, CODES, NULL, 0) == 15);
    EXPECT(sawmauve_nem12(file, sizeof file, identifier, 10, NO_TEXTS, created, 14, CODES, NULL, 0) == 7);
    EXPECT(sawmauve_nem12(file, sizeof file, identifier, 10, NO_TEXTS, created, 14, CODES, out, sizeof out) > SAWMAUVE_SHORTEST);
    /* Lists that are only read may overlap: here every text but the creation time is the identifier. */
#define SAME identifier, 10
    EXPECT(
        sawmauve_nem12(
            file, sizeof file, SAME, SAME, SAME, SAME, SAME, SAME, SAME, SAME, SAME, SAME, created, 14, CODES, out, sizeof out)
        > SAWMAUVE_SHORTEST);
    return 0;
}

static int rest(void)
{
    uint64_t figures[SAWMAUVE_LOG_FIGURES];
    uint32_t fields[SAWMAUVE_CALL_FIELDS];
    EXPECT(sawmauve_limit(NULL, 0, 1) == SAWMAUVE_READINGS + 13);
    EXPECT(sawmauve_pack(0, NULL, 0) == 2);
    EXPECT(sawmauve_unpack(NULL, 0) == SAWMAUVE_READINGS + 2);
    EXPECT(sawmauve_log(NULL, 0, NULL, 0) == 2);
    EXPECT(sawmauve_log(NULL, 0, figures, SAWMAUVE_LOG_FIGURES) == SAWMAUVE_NO_OPENING);
    EXPECT(sawmauve_log_line(NULL, 0) == 0);
    EXPECT(sawmauve_play(NULL, 0, NO_LISTS, NULL, 0) == SAWMAUVE_NO_OPENING);
    EXPECT(sawmauve_call(NULL, 0, NULL, 0) == 2);
    EXPECT(sawmauve_call(NULL, 0, fields, SAWMAUVE_CALL_FIELDS) == SAWMAUVE_NO_CALL);
    return 0;
}

int main(void)
{
    if (books() || files() || exports() || rest())
        return 1;
    puts("empty: every call takes NULL with length 0");
    return 0;
}
