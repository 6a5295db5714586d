/* edges.c - the corners of the C edge, by exact answers: edges WORKED, the path of examples/worked.sheet
 *
 * Each call is lent a trace between bytes of a known value; the answer, the lines, and every byte that is not of a line are looked at.
 * The last line is `edges: N passed, M failed`. Ends with 0 only if all passed, and with 2 where the worked sheet cannot be read. */
#include "nodbrize.h"
#include <stdio.h>
#include <string.h>

enum { KNOWN = 0xA5, ZONE = 64, WORKED = 96 };

static int passed, failed;

static void check(int good, const char *what)
{
    if (good) {
        passed++;
    } else {
        failed++;
        printf("edges: failed: %s\n", what);
    }
}

static void put(uint8_t *bytes, int n, uint64_t value)
{
    for (int i = 0; i < n; i++) bytes[i] = (uint8_t)(value >> 8 * i);
}

/* ---- sheets */

struct record {
    uint32_t next;
    uint8_t operation, clause;
    uint32_t x, y;
    int64_t t;
};

enum { OUT = 1, INTO = 4, CLEAR = 5, HOLD = 6, PASSIVATE = 7, ACCUM = 13, CURRENT = 65536 };

struct counts {
    uint32_t heads, processes, plain;
};

/* A sheet in which main starts at the record and every other process at 0; answers its length. */
static size_t pack_all(uint8_t *sheet, struct counts n, uint32_t start, const struct record *records, uint32_t count)
{
    const uint32_t header[5] = {n.heads, n.processes, n.plain, count, start};
    uint8_t *at = sheet + 16 + 4 * n.processes;
    memset(sheet, 0, 16 + 4 * n.processes + 24 * count);
    for (int i = 0; i < 5; i++) put(sheet + 4 * i, 4, header[i]);
    for (uint32_t i = 0; i < count; i++, at += 24) {
        put(at, 4, records[i].next);
        at[4] = records[i].operation;
        at[5] = records[i].clause;
        put(at + 8, 4, records[i].x);
        put(at + 12, 4, records[i].y);
        put(at + 16, 8, (uint64_t)records[i].t);
    }
    return (size_t)(at - sheet);
}

/* The same without heads and plain links. */
static size_t pack(uint8_t *sheet, uint32_t processes, uint32_t start, const struct record *records, uint32_t count)
{
    return pack_all(sheet, (struct counts){0, processes, 0}, start, records, count);
}

/* ---- calls */

struct line {
    uint64_t time;
    uint32_t process, record;
};

/* Lends the sheet and a trace of so many bytes, at the place `shift`; the answer must be lines and code, and the trace must begin with
 * these lines and be as it was lent behind them. */
static void call(const char *what, const uint8_t *sheet, size_t sheet_len, size_t trace_len, size_t shift, const struct line *lines,
                 size_t count, int code)
{
    static uint8_t lent[ZONE + NODBRIZE_TRACE_MAX + 1 + ZONE], want[sizeof lent], copy[NODBRIZE_SHEET_MAX + 1];
    memset(lent, KNOWN, sizeof lent);
    memset(want, KNOWN, sizeof want);
    uint8_t *trace = lent + ZONE / 2 + shift;
    for (size_t i = 0; i < count; i++) {
        uint8_t *line = want + ZONE / 2 + shift + NODBRIZE_LINE_BYTES * i;
        put(line, 8, lines[i].time);
        put(line + 8, 4, lines[i].process);
        put(line + 12, 4, lines[i].record);
    }
    if (sheet_len) memcpy(copy, sheet, sheet_len);
    uint64_t answer = nodbrize_run(sheet, sheet_len, trace, trace_len);
    check(answer == count * 256 + (uint64_t)code && nodbrize_lines(answer) == count && nodbrize_code(answer) == code &&
              memcmp(lent, want, sizeof lent) == 0 && (sheet_len == 0 || memcmp(copy, sheet, sheet_len) == 0),
          what);
}

/* ---- checks */

static void names(void)
{
    char version[32];
    check(NODBRIZE_FINISHED == 0, "FINISHED is 0");
    check(NODBRIZE_TRACE_TOO_LONG == 1, "TRACE_TOO_LONG is 1");
    check(NODBRIZE_WRONG_OPERAND == 3, "WRONG_OPERAND is 3");
    check(NODBRIZE_NOBODY_LEFT == 4, "NOBODY_LEFT is 4");
    check(NODBRIZE_TIME_TOO_LATE == 5, "TIME_TOO_LATE is 5");
    check(NODBRIZE_RATE_TOO_HIGH == 7, "RATE_TOO_HIGH is 7");
    check(NODBRIZE_SHEET_REFUSED == 8, "SHEET_REFUSED is 8");
    check(NODBRIZE_QUEUE_FULL == 10, "QUEUE_FULL is 10");
    check(NODBRIZE_FULL == 200, "FULL is 200");
    check(NODBRIZE_LINE_BYTES == 16, "a line has 16 bytes");
    check(NODBRIZE_TRACE_MAX == 65536, "the longest trace has 65,536 bytes");
    check(NODBRIZE_SHEET_MAX == 16 + 4 * 1024 + 24 * 2000, "the longest sheet has 52,112 bytes");
    snprintf(version, sizeof version, "%d.%d.%d", NODBRIZE_VERSION_MAJOR, NODBRIZE_VERSION_MINOR, NODBRIZE_VERSION_PATCH);
    check(strcmp(version, NODBRIZE_VERSION) == 0, "the version is its three numbers");
    check(nodbrize_lines(4096 * 256 + 200) == 4096 && nodbrize_code(4096 * 256 + 200) == 200, "an answer's two parts");
}

static void worked_sheet(const uint8_t *worked)
{
    static const struct line lines[4] = {{0, 2, 1}, {0, 2, 2}, {5, 3, 3}, {5, 3, 0}};
    static uint8_t shifted[WORKED + 8];
    call("a trace of 0 bytes", worked, WORKED, 0, 0, NULL, 0, NODBRIZE_FULL);
    call("a trace of 15 bytes", worked, WORKED, 15, 0, NULL, 0, NODBRIZE_FULL);
    call("a trace of 16 bytes", worked, WORKED, 16, 0, lines, 1, NODBRIZE_FULL);
    call("a trace of 17 bytes", worked, WORKED, 17, 0, lines, 1, NODBRIZE_FULL);
    call("a trace of 63 bytes", worked, WORKED, 63, 0, lines, 3, NODBRIZE_FULL);
    call("a trace of 64 bytes: finished, not full", worked, WORKED, 64, 0, lines, 4, NODBRIZE_FINISHED);
    call("the longest trace", worked, WORKED, NODBRIZE_TRACE_MAX, 0, lines, 4, NODBRIZE_FINISHED);
    call("a trace one byte too long", worked, WORKED, NODBRIZE_TRACE_MAX + 1, 0, NULL, 0, NODBRIZE_TRACE_TOO_LONG);
    call("a sheet of 95 bytes", worked, WORKED - 1, 64, 0, NULL, 0, NODBRIZE_SHEET_REFUSED);
    call("a sheet of 95 bytes, a trace too long", worked, WORKED - 1, NODBRIZE_TRACE_MAX + 1, 0, NULL, 0, NODBRIZE_SHEET_REFUSED);
    for (size_t i = 1; i < 8; i++) {
        memcpy(shifted + i, worked, WORKED);
        call("a sheet and a trace at an odd place", shifted + i, WORKED, 64, i, lines, 4, NODBRIZE_FINISHED);
    }
}

static void null_pointers(const uint8_t *worked)
{
    static const struct record one = {0, PASSIVATE, 0, 0, 0, 0};
    uint8_t sheet[16 + 4 + 24];
    size_t length = pack(sheet, 1, 0, &one, 1);
    call("a null sheet", NULL, 0, 64, 0, NULL, 0, NODBRIZE_SHEET_REFUSED);
    call("a null sheet, a trace too long", NULL, 0, NODBRIZE_TRACE_MAX + 1, 0, NULL, 0, NODBRIZE_SHEET_REFUSED);
    check(nodbrize_run(worked, WORKED, NULL, 0) == NODBRIZE_FULL, "a null trace");
    check(nodbrize_run(worked, WORKED - 1, NULL, 0) == NODBRIZE_SHEET_REFUSED, "a null trace, a sheet of 95 bytes");
    check(nodbrize_run(sheet, length, NULL, 0) == NODBRIZE_FINISHED, "a null trace, main at its end");
    check(nodbrize_run(NULL, 0, NULL, 0) == NODBRIZE_SHEET_REFUSED, "two null pointers");
}

/* Main alone, with one or two records. */
static void steps(void)
{
    static const int64_t last = 1099511627775, rate = 1000000;
    static const struct line first[2] = {{0, 1, 1}, {1099511627775, 1, 2}};
    const struct {
        const char *what;
        struct record records[2];
        size_t lines;
        int code;
    } cases[] = {
        {"out of none is refused", {{0, OUT, 0, 0, 0, 0}}, 0, NODBRIZE_WRONG_OPERAND},
        {"clear of a process is refused", {{0, CLEAR, 0, 1, 0, 0}}, 0, NODBRIZE_WRONG_OPERAND},
        {"out of current", {{0, OUT, 0, CURRENT, 0, 0}}, 1, NODBRIZE_FINISHED},
        {"passivate of the last is refused", {{0, PASSIVATE, 0, 0, 0, 0}}, 0, NODBRIZE_NOBODY_LEFT},
        {"hold past the last time is refused", {{0, HOLD, 0, 0, 0, last + 1}}, 0, NODBRIZE_TIME_TOO_LATE},
        {"hold to the last time", {{0, HOLD, 0, 0, 0, last}}, 1, NODBRIZE_FINISHED},
        {"hold to the last time, then one more", {{2, HOLD, 0, 0, 0, last}, {0, HOLD, 0, 0, 0, 1}}, 1, NODBRIZE_TIME_TOO_LATE},
        {"hold to the last time, then none", {{2, HOLD, 0, 0, 0, last}, {0, HOLD, 0, 0, 0, 0}}, 2, NODBRIZE_FINISHED},
        {"a rate too high is refused", {{0, ACCUM, 0, 1, 0, rate + 1}}, 0, NODBRIZE_RATE_TOO_HIGH},
        {"a rate too low is refused", {{0, ACCUM, 0, 64, 0, -rate - 1}}, 0, NODBRIZE_RATE_TOO_HIGH},
        {"the highest rate", {{0, ACCUM, 0, 64, 0, rate}}, 1, NODBRIZE_FINISHED},
        {"a line, then passivate of the last", {{2, HOLD, 0, 0, 0, last}, {0, PASSIVATE, 0, 0, 0, 0}}, 1, NODBRIZE_NOBODY_LEFT},
        {"an operand above the last linkage is no sheet", {{0, OUT, 0, 2, 0, 0}}, 0, NODBRIZE_SHEET_REFUSED},
        {"an unused field that is not 0 is no sheet", {{0, PASSIVATE, 0, 0, 0, 1}}, 0, NODBRIZE_SHEET_REFUSED},
        {"operation 14 is no sheet", {{0, 14, 0, 0, 0, 0}}, 0, NODBRIZE_SHEET_REFUSED},
    };
    uint8_t sheet[16 + 4 + 2 * 24];
    for (size_t i = 0; i < sizeof cases / sizeof cases[0]; i++) {
        size_t length = pack(sheet, 1, 1, cases[i].records, cases[i].records[1].operation ? 2 : 1);
        call(cases[i].what, sheet, length, 64, 0, first, cases[i].lines, cases[i].code);
    }
}

/* Main puts links into a queue: 512 are the most. */
static void full_queue(void)
{
    enum { MOST = 512, LINE = NODBRIZE_LINE_BYTES };
    static uint8_t sheet[16 + 4 + 24 * (MOST + 1)];
    static struct record records[MOST + 1];
    static struct line lines[MOST + 1];
    const struct counts n = {1, 1, MOST + 1};
    for (uint32_t i = 0; i <= MOST; i++) {
        records[i] = (struct record){i == MOST ? 0 : i + 2, INTO, 0, 3 + i, 1, 0};
        lines[i] = (struct line){0, 2, i + 1};
    }
    size_t length = pack_all(sheet, n, 1, records, MOST + 1);
    call("a 513th member is refused", sheet, length, NODBRIZE_TRACE_MAX, 0, lines, MOST, NODBRIZE_QUEUE_FULL);
    call("a 513th member, with room for its line", sheet, length, LINE * (MOST + 1), 0, lines, MOST, NODBRIZE_QUEUE_FULL);
    call("a 513th member, without room for its line", sheet, length, LINE * (MOST + 1) - 1, 0, lines, MOST, NODBRIZE_FULL);
    records[MOST].x = 3;
    length = pack_all(sheet, n, 1, records, MOST + 1);
    call("512 members, one of them moved", sheet, length, NODBRIZE_TRACE_MAX, 0, lines, MOST + 1, NODBRIZE_FINISHED);
    records[MOST - 1].next = 0;
    length = pack_all(sheet, n, 1, records, MOST + 1);
    call("512 members", sheet, length, NODBRIZE_TRACE_MAX, 0, lines, MOST, NODBRIZE_FINISHED);
}

/* The longest sheet, and the longest run that a trace holds. */
static void longest(void)
{
    static uint8_t sheet[NODBRIZE_SHEET_MAX + 1];
    static struct record records[2000];
    static struct line lines[NODBRIZE_TRACE_MAX / NODBRIZE_LINE_BYTES];
    const size_t count = sizeof lines / sizeof lines[0];
    for (uint32_t i = 0; i < 2000; i++) records[i] = (struct record){i == 1999 ? 1 : i + 2, HOLD, 0, 0, 0, 1};
    for (uint32_t i = 0; i < count; i++) lines[i] = (struct line){i, 1, i % 2000 + 1};
    size_t length = pack(sheet, 1024, 1, records, 2000);
    check(length == NODBRIZE_SHEET_MAX, "the longest sheet's length");
    for (size_t n = 0; n <= 48; n++)
        call("the longest sheet, a trace of 0 to 48 bytes", sheet, length, n, 0, lines, n / NODBRIZE_LINE_BYTES, NODBRIZE_FULL);
    for (size_t n = NODBRIZE_TRACE_MAX - 48; n <= NODBRIZE_TRACE_MAX; n++)
        call("the longest sheet, a trace of 65,488 to 65,536 bytes", sheet, length, n, 0, lines, n / NODBRIZE_LINE_BYTES, NODBRIZE_FULL);
    call("a sheet one byte too long", sheet, length + 1, 64, 0, NULL, 0, NODBRIZE_SHEET_REFUSED);
}

int main(int argc, char **argv)
{
    uint8_t worked[WORKED + 1];
    FILE *file = argc == 2 ? fopen(argv[1], "rb") : NULL;
    if (!file || fread(worked, 1, sizeof worked, file) != WORKED) {
        fprintf(stderr, "usage: edges WORKED, the path of examples/worked.sheet\n");
        return 2;
    }
    fclose(file);
    names();
    worked_sheet(worked);
    null_pointers(worked);
    steps();
    full_queue();
    longest();
    printf("edges: %d passed, %d failed\n", passed, failed);
    return failed == 0 ? 0 : 1;
}
