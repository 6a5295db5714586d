/* tables.h - the procedures on the links and on the axis. S and Q are the links' successors and predecessors; A is the axis, W = P + 2 its
 * half, D = P + 1 its head, T the times. Processes are places 1 .. P. */
#ifndef TABLES_H
#define TABLES_H

#include "limit.h"

static inline void s_out(uint32_t *S, uint32_t *Q, size_t x)
{
    size_t s = S[x];
    if (s) {
        size_t p = Q[x];
        Q[s] = p; S[p] = s;
        S[x] = Q[x] = 0;
    }
}

/* y != 0 */
static inline void s_precede(uint32_t *S, uint32_t *Q, size_t x, size_t y)
{
    s_out(S, Q, x);
    if (S[y]) {
        size_t p = Q[y];
        S[x] = y; Q[x] = p; S[p] = x; Q[y] = x;
    }
}

static inline void s_follow(uint32_t *S, uint32_t *Q, size_t x, size_t y)
{
    s_out(S, Q, x);
    size_t s = S[y];
    if (s) { Q[x] = y; S[x] = s; Q[s] = x; S[y] = x; }
}

/* the first process of head h, or 0: mostly its first member, else a walk along the ring; H heads, P processes */
static inline size_t s_process(const uint32_t *S, size_t H, size_t P, size_t h)
{
    size_t x = S[h];
    while (unlikely(x - H - 1 >= P)) {           /* a plain link, or the head */
        if (x == h) return 0;
        x = S[x];
        KEEP(x);
    }
    return x;
}

#define AS(p) A[p]
#define AP(p) A[W + (p)]
#define LIVE(p) (AS(p) != 0)
#define FIRST AS(D)
#define ALONE (AS(D) == AP(D))

static inline void a_unlink(uint32_t *A, size_t W, size_t p)
{
    size_t s = AS(p), b = AP(p);
    AP(s) = b; AS(b) = s; AS(p) = AP(p) = 0;
}

static inline void a_after(uint32_t *A, size_t W, size_t p, size_t y)
{
    size_t s = AS(y);
    AP(p) = y; AS(p) = s; AP(s) = p; AS(y) = p;
}

static inline void a_before(uint32_t *A, size_t W, size_t p, size_t y)
{
    size_t b = AP(y);
    AS(p) = y; AP(p) = b; AS(b) = p; AP(y) = p;
}

static inline void a_rank(uint32_t *A, size_t W, size_t D, uint64_t *T, size_t p, uint64_t u, int prior)
{
    const uint32_t *const B = A + W;
    size_t b = B[D];
    uint64_t v = prior ? u : u + 1;             /* first notice earlier than v */
    while (b != D && T[b] >= v) { b = B[b]; KEEP(b); }
    T[p] = u;
    a_after(A, W, p, b);
}

static inline void a_front(uint32_t *A, size_t W, size_t D, uint64_t *T, size_t p, uint64_t now)
{
    T[p] = now;
    a_after(A, W, p, D);
}

#define NEXT1(p) AS(p)

static inline void a_requeue(uint32_t *A, size_t W, size_t D, uint64_t *T, size_t p, size_t s, uint64_t u)
{
    uint32_t *const B = A + W;                  /* predecessors */
    B[s] = D; A[D] = s;
    size_t b = B[D];
    while (T[b] > u) { b = B[b]; KEEP(b); }      /* stops at s at the latest */
    T[p] = u;
    a_after(A, W, p, b);
}

#endif
