/* host.c - prints the run of a sheet by way of the C edge: host SHEET
 *
 *   (cd crates/host && rt lib)
 *   cc -O2 -Iinclude examples/host.c crates/host/out/libhost.a -o host
 *
 * Standard output has a line for each accepted step (time, process, record) and a last line that tells the end. Where
 * that is not `finished`, standard error tells it in words, and the exit status tells it to a script. */
#define _POSIX_C_SOURCE 200809L /* SIGPIPE */
#include "nodbrize.h"
#include <errno.h>
#include <inttypes.h>
#include <signal.h>
#include <stdio.h>
#include <string.h>

/* The exit status, as that of ./run. */
enum { FINISHED = 0, WRONG_USE = 2, NOT_FINISHED = 3, REFUSED = 4, SHEET_REFUSED = 5, OUTPUT_LOST = 6 };

/* A line of the trace, taken apart. */
struct line { uint64_t time, process, record; };

static uint64_t word(const uint8_t *bytes, int n)
{
    uint64_t value = 0;
    while (n-- > 0) value = value << 8 | bytes[n];
    return value;
}

static struct line line_at(const uint8_t *trace, size_t i)
{
    const uint8_t *bytes = trace + NODBRIZE_LINE_BYTES * i;
    struct line line = { word(bytes, 8), word(bytes + 8, 4), word(bytes + 12, 4) };
    return line;
}

/* Tells the system's reason and answers the exit status. */
static int failed(const char *what, int status)
{
    fprintf(stderr, "host: %s: %s\n", what, strerror(errno));
    return status;
}

static const char *refusal(int code)
{
    switch (code) {
    case NODBRIZE_WRONG_OPERAND: return "an operand is of the wrong kind, or none where that will not do";
    case NODBRIZE_NOBODY_LEFT: return "nobody would be left to go on";
    case NODBRIZE_TIME_TOO_LATE: return "a time would be above 1,099,511,627,775";
    case NODBRIZE_RATE_TOO_HIGH: return "an accumulator's rate would pass 1,000,000";
    case NODBRIZE_QUEUE_FULL: return "a queue would have 513 members";
    default: return "a reason that this program does not know";
    }
}

/* Prints the lines and the end; answers 0, or -1 as soon as something cannot be printed. */
static int print(const uint8_t *trace, size_t lines, int code)
{
    for (size_t i = 0; i < lines; i++) {
        struct line l = line_at(trace, i);
        if (printf("%" PRIu64 " %" PRIu64 " %" PRIu64 "\n", l.time, l.process, l.record) < 0) return -1;
    }
    int printed;
    if (code == NODBRIZE_FINISHED) printed = printf("finished %zu\n", lines);
    else if (code == NODBRIZE_FULL) printed = printf("full after %zu\n", lines);
    else if (code == NODBRIZE_SHEET_REFUSED) printed = printf("sheet refused %d\n", code);
    else printed = printf("refused %d after %zu\n", code, lines);
    return printed < 0 || ferror(stdout) || fflush(stdout) != 0 || fclose(stdout) != 0 ? -1 : 0;
}

/* Tells an end that is not `finished` in words. Of a refused step the edge tells the reason and the lines before it,
 * not its record. */
static int tell(const char *path, const uint8_t *trace, size_t lines, int code)
{
    if (code == NODBRIZE_FINISHED) return FINISHED;
    if (code == NODBRIZE_FULL) {
        fprintf(stderr, "host: %s: not finished: the trace is full after %zu steps\n", path, lines);
        return NOT_FINISHED;
    }
    if (code == NODBRIZE_SHEET_REFUSED) {
        fprintf(stderr, "host: %s: not a sheet: check lengths, limits, operands and unused fields\n", path);
        return SHEET_REFUSED;
    }
    fprintf(stderr, "host: %s: step %zu was refused: %s\n", path, lines + 1, refusal(code));
    if (lines > 0) {
        struct line l = line_at(trace, lines - 1);
        fprintf(stderr, "host: the step before it: time %" PRIu64 ", process %" PRIu64 ", record %" PRIu64 "\n", l.time,
                l.process, l.record);
    }
    return REFUSED;
}

int main(int argc, char **argv)
{
    /* one byte more than the longest sheet, so that a longer file is refused and not cut */
    static uint8_t sheet[NODBRIZE_SHEET_MAX + 1], trace[NODBRIZE_TRACE_MAX];
    if (argc != 2) {
        fprintf(stderr, "usage: host SHEET\n");
        return WRONG_USE;
    }
    signal(SIGPIPE, SIG_IGN); /* a closed pipe is then an error of printf */
    FILE *file = fopen(argv[1], "rb");
    if (!file) return failed(argv[1], WRONG_USE);
    size_t length = fread(sheet, 1, sizeof sheet, file);
    if (ferror(file)) return failed(argv[1], WRONG_USE);
    fclose(file);

    uint64_t answer = nodbrize_run(sheet, length, trace, sizeof trace);
    size_t lines = nodbrize_lines(answer);
    int code = nodbrize_code(answer);
    if (print(trace, lines, code) != 0) return failed("output lost", OUTPUT_LOST);
    return tell(argv[1], trace, lines, code);
}
