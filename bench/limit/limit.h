/* limit.h - the engine that the proved one is measured against: plain C, tuned by hand, proved of nothing.
 *
 * It keeps the same tables. What makes it fast: records are checked and decoded in one pass into a handler for their operation and the
 * kinds of their operands; dispatch is by the handler's address; a step that cannot change the current process keeps it and its time in
 * registers; a line is three stores; nothing that a fresh run guarantees is looked at again. Little-endian machines only. */
#ifndef LIMIT_H
#define LIMIT_H

#include <stddef.h>
#include <stdint.h>
#include <stdlib.h>
#include <string.h>

#define LIMIT ((int64_t)((1ULL << 40) - 1))
#define HMAX 64
#define PMAX 1024
#define LMAX 3008
#define NMAX (HMAX + PMAX + LMAX)
#define RMAX 2000
#define CUR 65536u
#define KEEP(v) __asm__("" : "+r"(v))          /* one register for v: keeps a copy out of the walk */
#define likely(c) __builtin_expect(!!(c), 1)
#define unlikely(c) __builtin_expect(!!(c), 0)

typedef struct { const void *go; uint32_t next; uint8_t h, clause, xc, yc; uint32_t x, y; int64_t t; } rec_t;   /* 32 bytes */
typedef struct { int64_t a, b, c; } acc_t;

typedef struct limit_run {
    uint32_t H, P, L, R, N;
    uint32_t axis[2 * (PMAX + 2)];
    uint64_t times[PMAX + 1];
    uint32_t pos[PMAX + 1];
    acc_t acc[64];
    uint8_t marks[PMAX + 1];
    uint32_t links[2 * (NMAX + 1)];
    rec_t rec[RMAX + 1];
} limit_run;

/* operand classes: 0 none, 1 head, 2 process, 3 plain link, 4 current, 5 first of a head: in 9, 10 and 11 its first process */
enum {
    H_FINISH, H_REF3,
    H_OUT_K, H_OUT_CUR, H_OUT_FIRST,
    H_FOLLOW, H_PRECEDE,
    H_INTO_KH, H_INTO_CH, H_INTO_FH, H_INTO_GEN,
    H_CLEAR, H_HOLD, H_HOLD0, H_PASSIVATE,
    H_WAIT_H, H_WAIT_N, H_WAIT_F,
    H_CANCEL_K, H_CANCEL_F, H_NOP,
    H_ACT0_K, H_ACT0_F, H_ACT1_K, H_ACT2_K, H_ACT2_F, H_ACT_GEN,
    H_REACT_GEN, H_REACT2_CUR,
    H_EMPTY, H_ACC, H_BAD
};

/* the handlers' addresses, filled by go_on with no run */
extern const void *address[H_BAD + 1];

/* 0, or refusal 8 */
int decode(limit_run *g, const uint8_t *sheet, size_t n);

/* the fresh model, the sheet's starts, zeros */
void fresh(limit_run *g);

/* one call of a run: lines * 256 + code */
uint64_t go_on(limit_run *restrict g, uint8_t *restrict trace, size_t m);

/* a fresh run, as nodbrize_run */
uint64_t limit_run_sheet(const uint8_t *sheet, size_t n, uint8_t *trace, size_t m);

#endif
