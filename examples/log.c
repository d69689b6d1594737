/* A whole log from C: reads it from a file, looks what it is, plays it, publishes, and reads the published file back. */
#include <inttypes.h>
#include <stdio.h>
#include <string.h>

#include "expect.h"
#include "sawmauve.h"

#define MOST (1 << 20)

/* The longest book has 400 days of 288 slots. */
#define DAYS 400
#define SLOTS (288 * DAYS)

static uint8_t bytes[MOST], out[MOST], answers[MOST];
static uint32_t values[SLOTS], versions[SLOTS], readings[DAYS + 1], read_versions[DAYS + 1], agreed[SLOTS], agreed_versions[SLOTS];
static uint16_t counts[DAYS], widths[DAYS + 1];
static uint8_t statuses[SLOTS], holidays[DAYS];
static uint64_t figures[SAWMAUVE_LOG_FIGURES];
static uint64_t read_back[SAWMAUVE_FIGURES];
static uint32_t fields[SAWMAUVE_CALL_FIELDS];

static size_t get(const char *path)
{
    FILE *file = fopen(path, "rb");
    EXPECT(file != NULL);
    size_t n = fread(bytes, 1, MOST, file);
    fclose(file);
    return n;
}

int main(int argc, char **argv)
{
    size_t n = get(argc < 2 ? "examples/marina.log" : argv[1]);

    EXPECT(sawmauve_log(bytes, n, figures, SAWMAUVE_LOG_FIGURES) == 0);
    EXPECT(sawmauve_log_line(bytes, n) == 0);
    uint32_t head[7];
    for (int i = 0; i < 7; i++)
        head[i] = (uint32_t)figures[i];
    size_t days = head[3], slots = 1440 / head[4] * days, lines = (size_t)figures[7];

#define LISTS                                                                                                     \
    values, slots, versions, slots, statuses, slots, holidays, days, readings, days + 1, read_versions, days + 1, \
        agreed, slots, agreed_versions, slots, counts, days, widths, days + 1

    /* A byte of answers is missing: nothing is changed. */
    EXPECT(sawmauve_play(bytes, n, LISTS, answers, lines - 1) == 2);
    EXPECT(answers[0] == 0);

    EXPECT(sawmauve_play(bytes, n, LISTS, answers, lines) == 0);
    size_t openings = 0, refused = 0;
    for (size_t i = 0; i < lines; i++) {
        openings += answers[i] == SAWMAUVE_OPENING;
        refused += 0 < answers[i] && answers[i] < 100;
    }
    EXPECT(openings == 1);

    uint64_t length = sawmauve_publish(
        head[0], head[1], head[2], head[3], head[4], head[5], head[6], LISTS, out, MOST);
    EXPECT(100 < length);
    EXPECT(sawmauve_read(out, length, read_back, SAWMAUVE_FIGURES) == 0);
    EXPECT(read_back[1] == days);

    /* One line's call as numbers, and a line that is none. */
    const char *line = "delivery 7 1 250 0";
    EXPECT(sawmauve_call((const uint8_t *)line, strlen(line), fields, SAWMAUVE_CALL_FIELDS) == SAWMAUVE_DELIVERY);
    EXPECT(fields[0] == 7 && fields[1] == 1 && fields[2] == 250 && fields[3] == 0 && fields[4] == 0);
    EXPECT(sawmauve_call((const uint8_t *)"deliver", 7, fields, SAWMAUVE_CALL_FIELDS) == SAWMAUVE_NOT_A_CALL);
    EXPECT(fields[0] == 7);

    /* A second opening is no call: the log ends there, with the line's number. */
    EXPECT(n + 40 < MOST);
    const char *second = "\nopen 2024-05-01 1 30 1 500\n";
    memcpy(bytes + n, second, strlen(second));
    EXPECT(sawmauve_log(bytes, n + strlen(second), figures, SAWMAUVE_LOG_FIGURES) == SAWMAUVE_NOT_A_CALL);
    EXPECT(lines < sawmauve_log_line(bytes, n + strlen(second)));

    printf("log: %zu lines, %zu refused, a file of %" PRIu64 " bytes\n", lines, refused, length);
    return 0;
}
