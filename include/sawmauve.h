/* The berth meter book for C. Link libsawmauve.a, for x86-64 Linux; of the C library it uses memset alone.
 *
 * A book holds one meter channel in lists that the caller lends. The head, seven numbers, is given to every call of a book:
 *
 *   year, month, day   the first day, 2000-01-01 to 2099-12-31
 *   days               D, 1 to 400; the last day not after 2099-12-31
 *   interval           L in minutes: 5, 15 or 30
 *   limit              demand limit in W, 1 to 1,000,000; not a kind: see sawmauve_limit
 *   tolerance          in Wh, 0 to 1,000,000
 *
 * A day has n = 1440 / L slots (288, 96 or 48) and the book N = n * D, at most 115,200. All are counted from 0: slot i lies in
 * day i / n, at position i % n of it. Boundary d is the start of day d; boundaries run from 0 to D, the end of the last day.
 *
 *   list              long    what a cell holds
 *   values            N       the value that came for a slot, in Wh, any 32 bits
 *   versions          N       its version; 0 where nothing came, and then the cell's value and status are 0
 *   statuses          N       1 time change + 2 power outage + 4 partial interval: 0 to 7
 *   holidays          D       1 for a holiday, else 0
 *   readings          D + 1   the dial at a boundary, in Wh: 0 to 99,999,999
 *   read_versions     D + 1   the reading's version; 0 where there is none
 *   agreed            N       a value agreed with the skipper, in Wh: 0 to 99,999,999
 *   agreed_versions   N       its version; 0 where there is none
 *   counts            D       how many slots of a day have come, n where all have; may be read at any time between two calls
 *   widths            D + 1   the dial stood from the reading to the reading plus this: 0 to 9,999
 *
 * Lists. A list is a pointer and its number of elements.
 *   - An empty list may be NULL with length 0, in every call; nothing is read or written there (examples/empty.c).
 *   - A list that a call may write (not const) must overlap no other list of that call. Lists that it only reads may overlap each
 *     other. The proofs rest on this, and on no other thread writing the lists meanwhile.
 *   - The library keeps nothing between calls and allocates nothing. Calls on separate lists may run at the same time.
 *   - Every call takes any numbers and any contents of its lists, and ends.
 *
 * What stays unchanged. A refused call changes nothing. A list that is const never changes. What is written to `out` stands in its
 * first bytes; the bytes after them stay as they were.
 *
 * The file. Numbers are unsigned, low byte first: N slot records, M span records, a trailer. docs/FILE.md has the rest.
 *   slot, 6 bytes       value in Wh (4), quality 'A', 'S', 'F' or 'N' (1), method 0, 1, 2, 3, 5, 18 or 19 (1)
 *   span, 14 bytes      first boundary (2), last boundary (2), lowest advance (4), highest advance (4), state 0 to 3 (1), 0 (1)
 *   trailer, 32 bytes   first day from 2000-01-01 (2), D (2), L (1), layout 3 (1), M (2), counts of A, of S and F, of N slots (4
 *                       each), sum of all values (8), bytes of the span table (4)
 *   states              0 agrees, 1 scaled, 2 open, 3 disagrees
 * Layouts 1 and 2, which are read and no longer written, have spans of 10 bytes, with one advance.
 *
 * Refusals, the same numbers in every call. The lowest that applies is given, with these exceptions: 12 and 17, like 1 to 6, go before
 * 10 and 11; 11 goes before 10 and, in publishing, before 7; 13 goes before 1; sawmauve_nem12 has an order of its own.
 *    1  head outside its bounds
 *    2  a lent list of the wrong length
 *    3  slot >= N, day >= D or boundary > D
 *    4  version 0
 *    5  status over 7
 *    6  reading over 99,999,999
 *    7  output buffer shorter than what is to be written
 *    8  reader: length, distance or a trailer's head field or layout wrong
 *    9  reader: anything else in the file broken
 *   10  conflict: equal version, other content
 *   11  a cell or count that no calls could leave
 *   12  agreed value over 99,999,999
 *   13  a table that is not 1 to 24 demand limits, the first at least 1, each above the one before, none over 1,000,000
 *   14  identifier that is not ten characters of A to Z without I and O, 0 to 9
 *   15  header text with a comma or a byte outside 0x20 to 0x7E, creation time that is not 14 digits, or method code over 99
 *   16  a half byte above 9
 *   17  width over 9,999
 *   18  more than 64 pairs, a pair list of odd length, or another number of totals than of pairs
 *   19  a pair whose first day is not below its second, or whose second exceeds D
 *   20  a seed of 0
 *   21  a loss rate over 1000
 *   22  a table or its strips of another length than 6 N for 1 to 400 days, or an output of another length
 */
#ifndef SAWMAUVE_H
#define SAWMAUVE_H

#include <stddef.h>
#include <stdint.h>

#define SAWMAUVE_VERSION "0.3.0"

#ifdef __cplusplus
extern "C" {
#endif

/* Codes of accepted calls; any other code is a refusal's number. */
#define SAWMAUVE_DONE 0   /* opened, the file is accepted, or the output is written */
#define SAWMAUVE_STORED 0 /* the call is stored */
#define SAWMAUVE_LATE 100 /* a lower version than the cell's: nothing changes */
#define SAWMAUVE_REPEAT 101 /* an equal version with equal content: nothing changes */

/* sawmauve_publish answers the length of the file, 6 N + 14 M + 32, or a refusal, which is below the first of these. The longest file
 * has 400 days of 5 minutes and 400 spans. */
#define SAWMAUVE_SHORTEST 32
#define SAWMAUVE_LONGEST 696832

/* Where sawmauve_unpack, sawmauve_limit, sawmauve_slot or sawmauve_date gives this or more, it is this plus a refusal's number. */
#define SAWMAUVE_READINGS 100000000
#define SAWMAUVE_PACKED 4 /* the bytes of a reading in packed decimal */

/* Places of the figures that sawmauve_read gives. */
#define SAWMAUVE_FIRST 0       /* number of the first day, 0 for 2000-01-01 */
#define SAWMAUVE_DAYS 1        /* D */
#define SAWMAUVE_INTERVAL 2    /* L */
#define SAWMAUVE_SPANS 3       /* M */
#define SAWMAUVE_ACTUAL 4      /* count of A slots */
#define SAWMAUVE_SUBSTITUTED 5 /* count of S and F slots */
#define SAWMAUVE_NONE 6        /* count of N slots */
#define SAWMAUVE_SUM 7         /* sum of all slot values, in Wh */
#define SAWMAUVE_LAYOUT 8      /* 3 in every file published now; 1, or 2 where a slot is F, in older ones */
#define SAWMAUVE_FIGURES 9     /* how many there are */

/* The head: its bounds stand above. A host that gave a kind, 1 or 2, where the limit stands now gives 40,000 or 70,000, or what
 * sawmauve_limit answers; a head that still has 1 or 2 there is good, with a limit of 1 or 2 W. */
#define SAWMAUVE_HEAD \
    uint32_t year, uint32_t month, uint32_t day, uint32_t days, uint32_t interval, uint32_t limit, uint32_t tolerance

/* The demand limit in W at a place of a table, counted from 1; or 100,000,000 plus 13 for the table, plus 1 for a kind that is no place. */
uint32_t sawmauve_limit(const uint32_t *table, size_t table_len, uint32_t kind);

/* Opens a book: sets all cells and counts to 0, whatever they held. 0, or 1 or 2. */
uint32_t sawmauve_open(
    SAWMAUVE_HEAD,
    uint32_t *values, size_t values_len,
    uint32_t *versions, size_t versions_len,
    uint8_t *statuses, size_t statuses_len,
    uint8_t *holidays, size_t holidays_len,
    uint32_t *readings, size_t readings_len,
    uint32_t *read_versions, size_t read_versions_len,
    uint32_t *agreed, size_t agreed_len,
    uint32_t *agreed_versions, size_t agreed_versions_len,
    uint16_t *counts, size_t counts_len,
    uint16_t *widths, size_t widths_len);

/* A delivery for a slot; the first that is stored raises its day's count. Status bits: 0 time change, 1 power outage, 2 partial interval.
 * 0, 100 or 101, or 1 to 5, 10, 11. */
uint32_t sawmauve_deliver(
    SAWMAUVE_HEAD,
    uint32_t *values, size_t values_len,
    uint32_t *versions, size_t versions_len,
    uint8_t *statuses, size_t statuses_len,
    uint16_t *counts, size_t counts_len,
    uint32_t slot, uint32_t version, uint32_t value, uint32_t status);

/* A value agreed with the skipper for a slot, up to 99,999,999 Wh, by the version rule of a delivery. It is published where the
 * slot has a cause. 0, 100 or 101, or 1 to 4, 10, 11, 12. */
uint32_t sawmauve_agree(
    SAWMAUVE_HEAD,
    uint32_t *agreed, size_t agreed_len,
    uint32_t *agreed_versions, size_t agreed_versions_len,
    uint32_t slot, uint32_t version, uint32_t value);

/* A holiday: a day of the book, counted from 0. 0 or 101, or 1, 2, 3, 11. */
uint32_t sawmauve_holiday(
    SAWMAUVE_HEAD,
    uint8_t *holidays, size_t holidays_len,
    uint32_t holiday);

/* A register read at a boundary, 0 to D: the dial stood anywhere from the reading to the reading plus the width, 0 to 9,999.
 * 0, 100 or 101, or 1 to 4, 6, 10, 11, 17. */
uint32_t sawmauve_register(
    SAWMAUVE_HEAD,
    uint32_t *readings, size_t readings_len,
    uint32_t *read_versions, size_t read_versions_len,
    uint16_t *widths, size_t widths_len,
    uint32_t boundary, uint32_t version, uint32_t reading, uint32_t width);

/* Writes the file into the first bytes of out: its length, 6 N + 14 M + 32, or 1, 2, 7, 11. */
uint64_t sawmauve_publish(
    SAWMAUVE_HEAD,
    const uint32_t *values, size_t values_len,
    const uint32_t *versions, size_t versions_len,
    const uint8_t *statuses, size_t statuses_len,
    const uint8_t *holidays, size_t holidays_len,
    const uint32_t *readings, size_t readings_len,
    const uint32_t *read_versions, size_t read_versions_len,
    const uint32_t *agreed, size_t agreed_len,
    const uint32_t *agreed_versions, size_t agreed_versions_len,
    const uint16_t *counts, size_t counts_len,
    const uint16_t *widths, size_t widths_len,
    uint8_t *out, size_t out_len);

/* Explains a slot: 0 and its fields; or 1, 2, 3 or 11, the lowest that applies and 2 also where fields_len is not 34, and the fields stay
 * as they were. Places of the fields, each 0 where it does not apply:
 *    0      cause: 0 none, 1 gap, 2 time change, 3 partial, 4 demand
 *    1      rule that applied: 0 delivered, 1 outage zero, 2 linear, 3 same day, 4 none, 5 agreed
 *    2..4   outcome before scaling: value, quality letter as ASCII, method
 *    5..8   where the rule is linear: the values before and after the run, the slot's place in it from 1, the run's slots
 *    9      where the rule is same day: the number of references;
 *   10..13  their days, counted from 0 in the book, nearest first; 14..17 their values
 *   18      1 where the slot lies in a span; 19, 20 its boundaries, 21, 22 its lowest and highest advance, 23 the advance that it is held
 *           to, 24 the sum of its A and F slots, 25 its state
 *   26      1 where the slot is scaled; 27 what is shared out, 28 the sum of the shapes of the span's S slots, 29 that of those before the
 *           slot, 30 that up to and with the slot; where all these shapes are 0 each counts as 1
 *   31..33  outcome, as published: value, quality letter, method */
#define SAWMAUVE_FIELDS 34
uint32_t sawmauve_explain(
    SAWMAUVE_HEAD,
    const uint32_t *values, size_t values_len,
    const uint32_t *versions, size_t versions_len,
    const uint8_t *statuses, size_t statuses_len,
    const uint8_t *holidays, size_t holidays_len,
    const uint32_t *readings, size_t readings_len,
    const uint32_t *read_versions, size_t read_versions_len,
    const uint32_t *agreed, size_t agreed_len,
    const uint32_t *agreed_versions, size_t agreed_versions_len,
    const uint16_t *counts, size_t counts_len,
    const uint16_t *widths, size_t widths_len,
    uint32_t slot,
    uint64_t *fields, size_t fields_len);

/* Checks a file: 0, or 8 or 9. */
uint32_t sawmauve_check(const uint8_t *bytes, size_t bytes_len);

/* Reads a file: 0 and the figures; or 8 or 9, or 2 where figures_len is not 9, and the figures stay as they were. */
uint32_t sawmauve_read(
    const uint8_t *bytes, size_t bytes_len,
    uint64_t *figures, size_t figures_len);

/* How many of the file's first bytes are its two tables; 0 for a refused file. */
uint64_t sawmauve_tables(const uint8_t *bytes, size_t bytes_len);

/* A reading in packed decimal: four bytes, two digits a byte, lowest byte first, higher digit in the upper half. 0, or 2 where
 * bytes_len is not 4, or 6, and the bytes stay as they were. */
uint32_t sawmauve_pack(uint32_t reading, uint8_t *bytes, size_t bytes_len);

/* The reading of four such bytes; or 100,000,000 plus 2 where bytes_len is not 4, or plus 16. */
uint32_t sawmauve_unpack(const uint8_t *bytes, size_t bytes_len);

/* Lays a slot table out for storage: each value becomes its difference from the same position a day earlier, then all first
 * bytes, all second bytes and so on. table is 6 N long, with N = 1440 / interval * days; out is as long. 0, or
 * 1 for another interval than 5, 15 or 30, or 22. */
uint32_t sawmauve_to_strips(
    uint32_t interval,
    const uint8_t *table, size_t table_len,
    uint8_t *out, size_t out_len);

/* The slot table that sawmauve_to_strips was given. 0, or 1 or 22. */
uint32_t sawmauve_from_strips(
    uint32_t interval,
    const uint8_t *strips, size_t strips_len,
    uint8_t *out, size_t out_len);

/* Totals up to 64 stays in a file: a pair is a first day and the day after the last, counted from 0 in the book, and its total the
 * sum of the slots of its days, in Wh. 0 and the totals; or 8, 9, 18 or 19, and the totals stay as they were. */
uint32_t sawmauve_stays(
    const uint8_t *file, size_t file_len,
    const uint32_t *pairs, size_t pairs_len,
    uint64_t *totals, size_t totals_len);

/* Exports a file as NEM12 into the first bytes of out: its length, which is above every refusal's number, or 8, 9, 14, 15 or 7, looked
 * for in this order; bytes after it, and all bytes where it is refused, stay as they were. Texts are bytes without an ending zero: the
 * meter identifier, the other fields of the records 100 and 200 in their order, the reason code of substituted and agreed slots, and the
 * creation time of 14 digits. method_2 to method_19 are the codes, up to 99, of the methods 2, 3, 5, 18 and 19. */
uint64_t sawmauve_nem12(
    const uint8_t *file, size_t file_len,
    const uint8_t *identifier, size_t identifier_len,
    const uint8_t *from, size_t from_len,
    const uint8_t *to, size_t to_len,
    const uint8_t *configuration, size_t configuration_len,
    const uint8_t *register_id, size_t register_id_len,
    const uint8_t *suffix, size_t suffix_len,
    const uint8_t *stream, size_t stream_len,
    const uint8_t *serial, size_t serial_len,
    const uint8_t *next_read, size_t next_read_len,
    const uint8_t *reason, size_t reason_len,
    const uint8_t *created, size_t created_len,
    uint32_t method_2, uint32_t method_3, uint32_t method_5, uint32_t method_18, uint32_t method_19,
    uint8_t *out, size_t out_len);

/* Places of the report that sawmauve_simulate gives. */
#define SAWMAUVE_STATE 0      /* the span's state: 0 agrees, 1 scaled, 2 open, 3 disagrees */
#define SAWMAUVE_DIFFERENCE 1 /* the published total minus the true total, in Wh */
#define SAWMAUVE_REPORT 2     /* how many there are */

/* Simulates a berth from a seed with `loss` of 1000 slots lost: opens the lists as sawmauve_open does, sends each slot, reads the dial
 * at both ends, and writes the file, 6 N + 14 + 32 bytes, into the first bytes of out. 0 and the report; or 1, 2 (also where report_len is
 * not 2), 7, 20, 21, and no list, byte or report is changed. */
uint32_t sawmauve_simulate(
    SAWMAUVE_HEAD,
    uint32_t seed, uint32_t loss,
    uint32_t *values, size_t values_len,
    uint32_t *versions, size_t versions_len,
    uint8_t *statuses, size_t statuses_len,
    uint8_t *holidays, size_t holidays_len,
    uint32_t *readings, size_t readings_len,
    uint32_t *read_versions, size_t read_versions_len,
    uint32_t *agreed, size_t agreed_len,
    uint32_t *agreed_versions, size_t agreed_versions_len,
    uint16_t *counts, size_t counts_len,
    uint16_t *widths, size_t widths_len,
    uint8_t *out, size_t out_len,
    int64_t *report, size_t report_len);

#define SAWMAUVE_OPENING 102    /* answers of a log: its opening */
#define SAWMAUVE_NO_CALL 103    /* answers of a log: a line without a call: empty, a comment, limits */
#define SAWMAUVE_NO_OPENING 104 /* not a log: it has no opening */
#define SAWMAUVE_NOT_A_CALL 105 /* not a log: a line of it is not a call */
#define SAWMAUVE_LIMITS 106     /* sawmauve_call: a table of limits */
#define SAWMAUVE_DELIVERY 110   /* sawmauve_call: slot, version, value, status */
#define SAWMAUVE_AGREED 111     /* sawmauve_call: slot, version, value */
#define SAWMAUVE_HOLIDAY 112    /* sawmauve_call: day */
#define SAWMAUVE_REGISTER 113   /* sawmauve_call: boundary, version, reading, width */

/* What the bytes of a text log are, without playing it: 0 and the figures (year,
 * month, day, days, interval, limit, tolerance, number of lines, number of filling calls); or 104, 105, or 13 or 1 where its table or
 * its opening is refused; the first line that is wrong decides. 2 where figures_len is not 9, before these. */
#define SAWMAUVE_LOG_FIGURES 9
uint32_t sawmauve_log(const uint8_t *log, size_t log_len, uint64_t *figures, size_t figures_len);

/* The number, from 1, of the line for which sawmauve_log answers 105, 13 or 1; 0 for a log, and where only the opening is missing. */
uint64_t sawmauve_log_line(const uint8_t *log, size_t log_len);

/* Plays a whole log: opens the lists and makes its calls. 0, and answers has a byte for each line: 0, 100, 101 or the refusal of a
 * filling call, 102 for the opening, 103 for a line without a call. Or what sawmauve_log answers; then 2 for a list of another length
 * than the log's head asks (those of sawmauve_open), or answers that are not a byte for each line. */
uint32_t sawmauve_play(
    const uint8_t *log, size_t log_len,
    uint32_t *values, size_t values_len,
    uint32_t *versions, size_t versions_len,
    uint8_t *statuses, size_t statuses_len,
    uint8_t *holidays, size_t holidays_len,
    uint32_t *readings, size_t readings_len,
    uint32_t *read_versions, size_t read_versions_len,
    uint32_t *agreed, size_t agreed_len,
    uint32_t *agreed_versions, size_t agreed_versions_len,
    uint16_t *counts, size_t counts_len,
    uint16_t *widths, size_t widths_len,
    uint8_t *answers, size_t answers_len);

/* One line of a log, without its LF, as numbers: 110 to 113 and the call's numbers in the first fields, in the order of the log, zeros
 * after them (a register read without a width has width 0); 102 and year, month, day, days, interval, kind, tolerance; 103 (passed
 * over) or 106 and zeros. 105 where it is no line of a log, or 2 where fields_len is not 7, and the fields stay as they were. */
#define SAWMAUVE_CALL_FIELDS 7
uint32_t sawmauve_call(const uint8_t *line, size_t line_len, uint32_t *fields, size_t fields_len);

/* The slot of a book that a date and a minute of the day name; or 100,000,000 plus 1 for a bad head, or plus 3 for a date that is
 * invalid or outside the book, or a minute of 1,440 or more. */
uint32_t sawmauve_slot(SAWMAUVE_HEAD, uint32_t at_year, uint32_t at_month, uint32_t at_day, uint32_t minute);

/* The date of a day number (0 is 2000-01-01) as year * 10,000 + month * 100 + day; or 100,000,000 plus 3 for one over 36,524. */
uint32_t sawmauve_date(uint32_t day);

/* The line of a file, 'first day, D, L, counts of A, of S and F, of N, sum' as `sawmauve show` writes it, without a line end, into the
 * first bytes of out: its length, which is above every refusal's number; or 8, 9, then 7. 160 bytes are enough for every line. */
uint64_t sawmauve_line(const uint8_t *file, size_t file_len, uint8_t *out, size_t out_len);

#ifdef __cplusplus
}
#endif

#endif
