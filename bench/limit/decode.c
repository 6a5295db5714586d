/* decode.c - a sheet checked and decoded into handlers, and the fresh run. */
#include "limit.h"

static uint8_t handler[16][8][6][6];      /* op, clause, class of x, class of y */
const void *address[H_BAD + 1];

__attribute__((constructor)) static void build(void)
{
    go_on(NULL, NULL, 0);          /* fills address */
    for (int op = 0; op < 16; op++) for (int c = 0; c < 8; c++)
        for (int xc = 0; xc < 6; xc++) for (int yc = 0; yc < 6; yc++) {
            int h = H_BAD, xlink = xc >= 2, xk = xc == 2 || xc == 3;
            switch (op) {
            case 1: h = !xlink ? H_REF3 : xk ? H_OUT_K : xc == 4 ? H_OUT_CUR : H_OUT_FIRST; break;
            case 2: h = !xlink ? H_REF3 : H_FOLLOW; break;
            case 3: h = !xlink ? H_REF3 : H_PRECEDE; break;
            case 4:
                if (!xlink || (yc >= 2 && yc <= 4)) h = H_REF3;
                else if (yc == 1) h = xk ? H_INTO_KH : xc == 4 ? H_INTO_CH : H_INTO_FH;
                else h = H_INTO_GEN;
                break;
            case 5: h = xc == 1 ? H_CLEAR : H_REF3; break;
            case 6: h = H_HOLD; break;              /* or H_HOLD0 by t */
            case 7: h = H_PASSIVATE; break;
            case 8: h = yc == 1 ? H_WAIT_H : yc == 0 ? H_WAIT_N : yc == 5 ? H_WAIT_F : H_REF3; break;
            case 9: h = xc == 0 ? H_NOP : xc == 2 ? H_CANCEL_K : xc == 4 ? H_PASSIVATE : xc == 5 ? H_CANCEL_F : H_REF3; break;
            case 10: case 11:
                if (xc == 1 || xc == 3 || (c >= 5 && (yc == 1 || yc == 3))) h = H_REF3;
                else if (op == 10) {
                    if (c < 5 && (xc == 0 || xc == 4)) h = H_NOP;
                    else if (c == 0) h = xc == 2 ? H_ACT0_K : H_ACT0_F;
                    else if (c == 1) h = xc == 2 ? H_ACT1_K : H_ACT_GEN;
                    else if (c == 2) h = xc == 2 ? H_ACT2_K : H_ACT2_F;
                    else h = H_ACT_GEN;
                } else
                    h = c == 2 && xc == 4 ? H_REACT2_CUR : H_REACT_GEN;
                break;
            case 12: h = xc == 1 ? H_EMPTY : H_REF3; break;
            case 13: h = H_ACC; break;
            }
            handler[op][c][xc][yc] = h;
        }
}

static inline uint32_t ld32(const uint8_t *p) { uint32_t v; memcpy(&v, p, 4); return v; }
static inline uint64_t ld64(const uint8_t *p) { uint64_t v; memcpy(&v, p, 8); return v; }

/* 0, or 8 */
int decode(limit_run *g, const uint8_t *s, size_t n)
{
    if (n < 16) return 8;
    uint32_t H = ld32(s), P = ld32(s + 4), L = ld32(s + 8), R = ld32(s + 12);
    if (H > HMAX || P < 1 || P > PMAX || L > LMAX || R > RMAX) return 8;
    if (n != 16 + 4 * (size_t)P + 24 * (size_t)R) return 8;
    uint32_t N = H + P + L;
    g->H = H; g->P = P; g->L = L; g->R = R; g->N = N;
    /* starts */
    uint32_t top = 0;
    g->pos[0] = 0;
    memcpy(g->pos + 1, s + 16, 4 * (size_t)P);
    for (uint32_t p = 1; p <= P; p++) top = g->pos[p] > top ? g->pos[p] : top;
    if (top > R) return 8;
    /* records */
    const uint8_t *q = s + 16 + 4 * (size_t)P;
    g->rec[0] = (rec_t){ .h = H_FINISH, .go = address[H_FINISH] };
    const uint32_t HP = H + P;
/* class of an operand, or refusal 8 */
#define CLASS(k, v) do { if (likely((v) <= N)) k = (v) <= H ? (v) != 0 : 2 + ((v) > HP); \
        else { (v) -= CUR; if (unlikely((v) > H)) return 8; k = 4 + ((v) != 0); } } while (0)
    for (uint32_t i = 1; i <= R; i++, q += 24) {
        uint64_t w0 = ld64(q), w1 = ld64(q + 8);
        int64_t t = (int64_t)ld64(q + 16);
        uint32_t next = (uint32_t)w0, oc = (uint32_t)(w0 >> 32), x = (uint32_t)w1, y = (uint32_t)(w1 >> 32);
        uint32_t xc = 0, yc = 0, c = oc >> 8, h;
        if (unlikely(next > R)) return 8;
        switch (oc & 255) {
        case 1: case 5: case 9:
            if (unlikely(c | y || t)) return 8;
            CLASS(xc, x);
            h = handler[oc][0][xc][0];
            break;
        case 2: case 3: case 4:
            if (unlikely(c || t)) return 8;
            CLASS(xc, x);
            CLASS(yc, y);
            h = handler[oc][0][xc][yc];
            break;
        case 6:
            if (unlikely(c || w1)) return 8;
            h = H_HOLD + (t <= 0);
            break;
        case 7:
            if (unlikely(c || w1 || t)) return 8;
            h = H_PASSIVATE;
            break;
        case 8:
            if (unlikely(c | x || t)) return 8;
            CLASS(yc, y);
            h = handler[8][0][0][yc];
            break;
        case 10: case 11:
            if (unlikely(c > 6)) return 8;      /* the two zero bytes too */
            CLASS(xc, x);
            if (c >= 5) {
                if (unlikely(t)) return 8;
                CLASS(yc, y);
            } else if (unlikely(y || (c == 0 && t))) return 8;
            h = handler[oc & 255][c][xc][yc];
            break;
        case 12:
            if (unlikely(c || t || y > R)) return 8;
            CLASS(xc, x);
            h = handler[12][0][xc][0];
            break;
        case 13:
            if (unlikely(c | y || x - 1 > 63)) return 8;
            h = H_ACC;
            break;
        default:
            return 8;
        }
        rec_t *r = &g->rec[i];
        r->go = address[h];
        uint64_t v0 = next | (uint64_t)h << 32 | (uint64_t)c << 40 | (uint64_t)xc << 48 | (uint64_t)yc << 56;
        uint64_t v1 = x | (uint64_t)y << 32;
        memcpy(&r->next, &v0, 8); memcpy(&r->x, &v1, 8); r->t = t;
    }
    return 0;
}

void fresh(limit_run *g)
{
    uint32_t H = g->H, P = g->P, N = g->N;
    memset(g->links, 0, 8 * ((size_t)N + 1));
    for (uint32_t h = 1; h <= H; h++) g->links[h] = g->links[N + 1 + h] = h;
    memset(g->times, 0, 8 * ((size_t)P + 1));
    memset(g->marks, 0, (size_t)P + 1);
    memset(g->acc, 0, sizeof g->acc);
    memset(g->axis, 0, 8 * ((size_t)P + 2));
    g->axis[P + 1] = g->axis[P + 2 + P + 1] = 1;
    g->axis[1] = g->axis[P + 2 + 1] = P + 1;
}
