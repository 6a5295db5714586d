/* run.c - the turns, a label for each handler. */
#include "limit.h"
#include "tables.h"

__attribute__((optimize("no-gcse", "no-crossjumping")))
uint64_t go_on(limit_run *restrict g, uint8_t *restrict trace, size_t m)
{
    static const void *const go[] = {
        [H_FINISH] = &&finish, [H_REF3] = &&ref3,
        [H_OUT_K] = &&out_k, [H_OUT_CUR] = &&out_cur, [H_OUT_FIRST] = &&out_first,
        [H_FOLLOW] = &&follow, [H_PRECEDE] = &&precede,
        [H_INTO_KH] = &&into_kh, [H_INTO_CH] = &&into_ch, [H_INTO_FH] = &&into_fh, [H_INTO_GEN] = &&into_gen,
        [H_CLEAR] = &&clear, [H_HOLD] = &&hold, [H_HOLD0] = &&hold0, [H_PASSIVATE] = &&passivate,
        [H_WAIT_H] = &&wait_h, [H_WAIT_N] = &&wait_n, [H_WAIT_F] = &&wait_f,
        [H_CANCEL_K] = &&cancel_k, [H_CANCEL_F] = &&cancel_f, [H_NOP] = &&nop,
        [H_ACT0_K] = &&act0_k, [H_ACT0_F] = &&act0_f, [H_ACT1_K] = &&act1_k,
        [H_ACT2_K] = &&act2_k, [H_ACT2_F] = &&act2_f, [H_ACT_GEN] = &&act_gen,
        [H_REACT_GEN] = &&react_gen, [H_REACT2_CUR] = &&react2_cur,
        [H_EMPTY] = &&empty, [H_ACC] = &&accum, [H_BAD] = &&ref3,
    };
    if (unlikely(!g)) { memcpy(address, go, sizeof go); return 0; }
    if (unlikely(m > 65536)) return 1;
    const size_t H = g->H, P = g->P, W = P + 2, D = P + 1;
    uint32_t *const Q = g->links + g->N + 1;
#define S g->links
#define A g->axis
#define T g->times
#define pos g->pos
    uint8_t *w = trace, *const end = trace + (m & ~(size_t)15);
    size_t p = FIRST, r, code, x, y, s;
    uint64_t now = T[p];
    const rec_t *q;

#define LINE do { uint32_t hp = H + p, r4 = r; \
        memcpy(w, &now, 8); memcpy(w + 8, &hp, 4); memcpy(w + 12, &r4, 4); w += 16; } while (0)
#define GO do { if (unlikely(w == end)) goto full; q = &g->rec[r]; goto *q->go; } while (0)
/* the current process and the time stay; its position is kept in r only */
#define STAY(nx) do { LINE; r = (nx); GO; } while (0)
/* the first notice is now that of f, with its time at */
#define TO(f, at, nx) do { LINE; pos[p] = (nx); p = (f); now = (at); r = pos[p]; GO; } while (0)
#define SWITCH(nx) TO(FIRST, T[p], nx)
#define REF(n) do { code = (n); goto done; } while (0)
#define FIRSTOF(h) (S[h] == (h) ? 0 : S[h])
#define PROCESSOF(h) s_process(S, H, P, h)

    r = pos[p];
    GO;

full:
    if (r == 0 && p == 1) REF(0);
    REF(200);
ref3:
    REF(3);

finish:
    if (p == 1) REF(0);
    if (ALONE) REF(4);
    g->marks[p] = 1;
    s = NEXT1(p);
    a_unlink(A, W, p);
    T[p] = 0;
    TO(s, T[s], 0);

out_k:
    s_out(S, Q, q->x);
    STAY(q->next);
out_cur:
    s_out(S, Q, H + p);
    STAY(q->next);
out_first:
    x = FIRSTOF(q->x);
    if (!x) REF(3);
    s_out(S, Q, x);
    STAY(q->next);

follow:
precede:
    x = q->xc == 4 ? H + p : q->xc == 5 ? FIRSTOF(q->x) : q->x;
    if (!x) REF(3);
    y = q->yc == 4 ? H + p : q->yc == 5 ? FIRSTOF(q->y) : q->y;
    if (!y) s_out(S, Q, x);
    else if (q->h == H_FOLLOW) s_follow(S, Q, x, y);
    else s_precede(S, Q, x, y);
    STAY(q->next);

into_kh:
    s_precede(S, Q, q->x, q->y);
    STAY(q->next);
into_ch:
    s_precede(S, Q, H + p, q->y);
    STAY(q->next);
into_fh:
    x = FIRSTOF(q->x);
    if (!x) REF(3);
    s_precede(S, Q, x, q->y);
    STAY(q->next);
into_gen:                                        /* y none, or first of a head */
    x = q->xc == 4 ? H + p : q->xc == 5 ? FIRSTOF(q->x) : q->x;
    if (!x) REF(3);
    if (q->yc == 5 && FIRSTOF(q->y)) REF(3);
    s_out(S, Q, x);
    STAY(q->next);

clear:
    {
        size_t h = q->x, i = S[h];
        while (i != h) { size_t j = S[i]; S[i] = Q[i] = 0; i = j; }
        S[h] = Q[h] = h;
    }
    STAY(q->next);

hold:
    {
        int64_t t = q->t;
        if (unlikely(t > LIMIT - (int64_t)now)) REF(5);
        uint64_t u = now + (uint64_t)t, v;
        s = NEXT1(p);
        if (s == D || (v = T[s]) > u) {          /* stays in front */
            T[p] = u;
            LINE;
            now = u;
            r = q->next;
            GO;
        }
        a_requeue(A, W, D, T, p, s, u);
        TO(s, v, q->next);
    }
hold0:
    s = NEXT1(p);
    if (s == D || T[s] > now) STAY(q->next);
    a_requeue(A, W, D, T, p, s, now);
    TO(s, now, q->next);

passivate:
    if (unlikely(ALONE)) REF(4);
    s = NEXT1(p);
    a_unlink(A, W, p);
    T[p] = 0;
    TO(s, T[s], q->next);

wait_h:
    if (unlikely(ALONE)) REF(4);
    s_precede(S, Q, H + p, q->y);
    s = NEXT1(p);
    a_unlink(A, W, p);
    T[p] = 0;
    TO(s, T[s], q->next);
wait_f:
    if (FIRSTOF(q->y)) REF(3);
wait_n:
    if (unlikely(ALONE)) REF(4);
    s_out(S, Q, H + p);
    s = NEXT1(p);
    a_unlink(A, W, p);
    T[p] = 0;
    TO(s, T[s], q->next);

cancel_f:
    x = PROCESSOF(q->x);
    if (!x) STAY(q->next);
    goto cancel;
cancel_k:
    x = q->x;
cancel:
    x -= H;
    if (LIVE(x)) {
        if (unlikely(ALONE)) REF(4);
        a_unlink(A, W, x);
        T[x] = 0;
    }
    SWITCH(q->next);

nop:
    STAY(q->next);

act0_f:
    x = PROCESSOF(q->x);
    if (!x) STAY(q->next);
    goto act0;
act0_k:
    x = q->x;
act0:
    x -= H;
    if (LIVE(x) || g->marks[x]) STAY(q->next);
    a_front(A, W, D, T, x, now);
    TO(x, now, q->next);

act1_k:
    {
        x = q->x - H;
        if (LIVE(x) || g->marks[x]) STAY(q->next);
        int64_t u = q->t;
        if (u < (int64_t)now) u = (int64_t)now;
        if (unlikely(u > LIMIT)) REF(5);
        a_rank(A, W, D, T, x, (uint64_t)u, 0);
    }
    STAY(q->next);

act2_f:
    x = PROCESSOF(q->x);
    if (!x) STAY(q->next);
    goto act2;
act2_k:
    x = q->x;
act2:
    {
        x -= H;
        if (LIVE(x) || g->marks[x]) STAY(q->next);
        int64_t t = q->t;
        if (t < 0) t = 0;
        if (unlikely(t > LIMIT - (int64_t)now)) REF(5);
        a_rank(A, W, D, T, x, now + (uint64_t)t, 0);
    }
    STAY(q->next);

react2_cur:                                      /* = hold(t) */
    {
        int64_t t = q->t;
        if (t < 0) t = 0;
        if (unlikely(t > LIMIT - (int64_t)now)) REF(5);
        uint64_t u = now + (uint64_t)t;
        s = NEXT1(p);
        if (s == D || T[s] > u) T[p] = u; else a_requeue(A, W, D, T, p, s, u);
    }
    SWITCH(q->next);

act_gen:
react_gen:
    {
        size_t c = q->clause;
        x = q->xc == 4 ? H + p : q->xc == 5 ? PROCESSOF(q->x) : q->x;
        y = 0;
        if (c >= 5) {
            y = q->yc == 4 ? H + p : q->yc == 5 ? PROCESSOF(q->y) : q->y;
            y -= y ? H : 0;
        }
        if (!x) STAY(q->next);
        x -= H;
        if (g->marks[x]) STAY(q->next);
        int live = LIVE(x);
        if (live && (q->h == H_ACT_GEN || (c >= 5 && x == y))) STAY(q->next);
        if (c >= 5) {
            if (!y || !LIVE(y)) {                /* nothing scheduled */
                if (live) {
                    if (ALONE) REF(4);
                    a_unlink(A, W, x);
                    T[x] = 0;
                }
            } else {
                if (live) a_unlink(A, W, x);
                T[x] = T[y];
                if (c == 5) a_before(A, W, x, y); else a_after(A, W, x, y);
            }
            SWITCH(q->next);
        }
        int64_t n = (int64_t)now, u = n;
        if (c == 1 || c == 3) { if (q->t > n) u = q->t; }
        else if (c && q->t > 0) {
            if (q->t > LIMIT - n) REF(5);
            u = n + q->t;
        }
        if (u > LIMIT) REF(5);
        if (live) a_unlink(A, W, x);
        if (c == 0 || (c >= 3 && u == n)) a_front(A, W, D, T, x, now);
        else a_rank(A, W, D, T, x, (uint64_t)u, c >= 3);
    }
    SWITCH(q->next);

empty:
    STAY(S[q->x] == q->x ? q->y : q->next);

accum:
    {
        acc_t *k = &g->acc[q->x - 1];
        int64_t c = k->c;
        if (unlikely((uint64_t)q->t + (uint64_t)c + 1000000u > 2000000u)) REF(7);
        k->a += c * ((int64_t)now - k->b);
        k->b = (int64_t)now;
        k->c = c + q->t;
    }
    STAY(q->next);

done:
    pos[p] = r;
    return (uint64_t)((w - trace) >> 4) << 8 | code;
}
#undef S
#undef A
#undef T
#undef pos

static limit_run one;

uint64_t limit_run_sheet(const uint8_t *sheet, size_t n, uint8_t *trace, size_t m)
{
    if (decode(&one, sheet, n)) return 8;
    if (m > 65536) return 1;
    fresh(&one);
    return go_on(&one, trace, m);
}
