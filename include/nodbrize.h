/* nodbrize.h - runs of model sheets for a C host.
 *
 * Link with libhost.a (`rt lib` in crates/host writes it to crates/host/out). docs/HOST.md says more. */
#ifndef NODBRIZE_H
#define NODBRIZE_H

#include <stddef.h>
#include <stdint.h>

#ifdef __cplusplus
extern "C" {
#endif

/* The version of this interface (the function, the codes, a sheet's layout and a line's), not of the engine behind it. */
#define NODBRIZE_VERSION "0.2.0"
#define NODBRIZE_VERSION_MAJOR 0
#define NODBRIZE_VERSION_MINOR 2
#define NODBRIZE_VERSION_PATCH 0

#define NODBRIZE_LINE_BYTES 16   /* one line of the trace */
#define NODBRIZE_TRACE_MAX 65536 /* the longest trace: 4,096 lines */
#define NODBRIZE_SHEET_MAX 52112 /* the longest sheet: 16 + 4 * 1,024 processes + 24 * 2,000 records */

/* The codes: how a call ended. The engine's refusals 2 and 6 do not come from this function. */
enum nodbrize_codes {
    NODBRIZE_FINISHED = 0,       /* main reached its end */
    NODBRIZE_TRACE_TOO_LONG = 1, /* more than NODBRIZE_TRACE_MAX bytes of trace; nothing was run */
    NODBRIZE_WRONG_OPERAND = 3,  /* the next step was refused: an operand of the wrong kind, or none where it will not do */
    NODBRIZE_NOBODY_LEFT = 4,    /* the next step was refused: nobody would be left to go on */
    NODBRIZE_TIME_TOO_LATE = 5,  /* the next step was refused: a time above 1,099,511,627,775 */
    NODBRIZE_RATE_TOO_HIGH = 7,  /* the next step was refused: an accumulator's rate would pass 1,000,000 */
    NODBRIZE_SHEET_REFUSED = 8,  /* the sheet breaks its layout or limits; nothing was run */
    NODBRIZE_QUEUE_FULL = 10,    /* the next step was refused: a queue would have 513 members */
    NODBRIZE_FULL = 200          /* not finished: fewer than NODBRIZE_LINE_BYTES bytes of trace are left */
};

/* Runs a sheet from fresh and answers lines * 256 + code.
 *
 * lines is the number of accepted steps. Each has a line of 16 bytes in the trace, little-endian: the time (64 bits), the process
 * (32 bits) and the record (32 bits; 0 is a process's end) before the step. Bytes after the last line are not touched. A refused step
 * changes nothing, and the lines before it stay. Where the sheet is refused and the trace too long, the code is that of the sheet.
 *
 * The caller lends sheet_len readable bytes and trace_len writable bytes that do not overlap. A length may be 0, and its pointer may
 * then be NULL. No alignment is asked for. The function keeps nothing, reads and writes nothing else, ends for every input, and may
 * be called by several threads at a time. It uses about 60,000 bytes of stack. */
uint64_t nodbrize_run(const uint8_t *sheet, size_t sheet_len, uint8_t *trace, size_t trace_len);

/* The two parts of an answer. */
static inline size_t nodbrize_lines(uint64_t answer)
{
    return (size_t)(answer / 256);
}

static inline int nodbrize_code(uint64_t answer)
{
    return (int)(answer % 256);
}

#ifdef __cplusplus
}
#endif
#endif
