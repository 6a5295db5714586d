/* bench.c - times the proved engine against the limit engine, in one process and by turns.
 *
 *   bench SHEET..
 *
 * For each sheet a trace of 65,536 bytes is filled from fresh again and again. A round is a batch of one engine and a batch of the
 * other, the order changing from round to round; printed are the medians: nanoseconds for a step, millions of steps a second of the
 * proved engine, and the ratio of the two with its quartiles. Answers and all trace bytes must agree. With OTHER defined, the function of
 * that name, an earlier engine's, takes the limit engine's place. */
#define _GNU_SOURCE
#include "limit/limit.h"
#include "nodbrize.h"
#include <stdio.h>
#include <time.h>

enum { ROUNDS = 15, TRACE = 65536 };

typedef uint64_t engine(const uint8_t *, size_t, uint8_t *, size_t);

#ifndef OTHER
#define OTHER limit_run_sheet
#endif
engine OTHER;

static double now(void)
{
    struct timespec t;
    clock_gettime(CLOCK_THREAD_CPUTIME_ID, &t);
    return t.tv_sec * 1e9 + t.tv_nsec;
}

/* nanoseconds for one call, over a batch of k */
static double batch(engine *f, const uint8_t *sheet, size_t n, uint8_t *trace, int k)
{
    double start = now();
    for (int i = 0; i < k; i++) f(sheet, n, trace, TRACE);
    return (now() - start) / k;
}

/* calls for about 15 milliseconds */
static int calls(engine *f, const uint8_t *sheet, size_t n, uint8_t *trace)
{
    batch(f, sheet, n, trace, 3);
    double one = batch(f, sheet, n, trace, 3);
    return one > 15e6 ? 1 : (int)(15e6 / one) + 1;
}

static int rising(const void *a, const void *b)
{
    double x = *(const double *)a, y = *(const double *)b;
    return (x > y) - (x < y);
}

static size_t slurp(const char *name, uint8_t *bytes, size_t most)
{
    FILE *file = fopen(name, "rb");
    if (!file) {
        perror(name);
        exit(2);
    }
    size_t n = fread(bytes, 1, most, file);
    fclose(file);
    return n;
}

static int one_sheet(const char *name)
{
    static uint8_t sheet[60000], trace[TRACE] __attribute__((aligned(4096))), other[TRACE];
    size_t n = slurp(name, sheet, sizeof sheet);
    memset(trace, 0xA5, TRACE);
    memset(other, 0xA5, TRACE);
    uint64_t a = nodbrize_run(sheet, n, trace, TRACE), b = OTHER(sheet, n, other, TRACE);
    int agree = a == b && !memcmp(trace, other, TRACE);

    int k = calls(nodbrize_run, sheet, n, trace), j = calls(OTHER, sheet, n, trace);
    double ours[ROUNDS], others[ROUNDS], ratio[ROUNDS];
    for (int r = 0; r < ROUNDS; r++) {
        if (r % 2) others[r] = batch(OTHER, sheet, n, trace, j);
        ours[r] = batch(nodbrize_run, sheet, n, trace, k);
        if (r % 2 == 0) others[r] = batch(OTHER, sheet, n, trace, j);
        ratio[r] = ours[r] / others[r];
    }
    qsort(ours, ROUNDS, sizeof *ours, rising);
    qsort(others, ROUNDS, sizeof *others, rising);
    qsort(ratio, ROUNDS, sizeof *ratio, rising);

    double steps = a / 256 ? (double)(a / 256) : 1, mine = ours[ROUNDS / 2];
    const char *base = strrchr(name, '/');
    printf("%-16s %6.0f steps  %8.2f ns  other %8.2f ns  %7.1f M/s  ratio %6.3f (%.3f to %.3f)%s\n", base ? base + 1 : name, steps,
           mine / steps, others[ROUNDS / 2] / steps, steps * 1e3 / mine, ratio[ROUNDS / 2], ratio[ROUNDS / 4],
           ratio[ROUNDS - 1 - ROUNDS / 4], agree ? "" : "  ANSWERS DIFFER");
    return agree;
}

int main(int argc, char **argv)
{
    int agree = 1;
    for (int i = 1; i < argc; i++) agree &= one_sheet(argv[i]);
    return agree ? 0 : 1;
}
