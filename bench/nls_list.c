// Said and Pearlman's coder of 1996 with its three lists, kept as arrays, over the same trees. It writes another order of the same
// answers: those of a plane are as many as in the other coders, but come as its lists have them, so a body is not theirs. It keeps no
// marks, it does not look for contradictions (refusal 12), and where a set is tested 0 in a plane that a cut leaves unfinished, the
// precisions of its members do not show it. The lists are static: one call at a time.
#include "nls.h"
#include "nls_bits.h"
#include <string.h>

#define MAX_I (1u << 2 * NLS_MAX_N)

// Coefficients not found yet, those found, and the sets: 2i is DESC(i), 2i + 1 is GRAND(i).
static uint32_t lip[MAX_I], lsp[MAX_I], lis[MAX_I / 2];

INLINE void start(uint32_t D) {
    for (uint32_t i = 0; i < D; i++) lip[i] = i;
    for (uint32_t i = D / 4; i < D; i++) lis[i - D / 4] = 2 * i;
}

// ---- encoder
#define ROOM(s) do { if (UNLIKELY((s).left < 1)) goto out; (s).left--; } while (0)

// Writes the bit of coefficient j and, after a 1, its sign; the bit is left in `one`.
#define CODE(j, one) do { \
        int32_t c_ = coef[j]; \
        one = mag(c_) >> b & 1; \
        if (UNLIKELY(s.left < 1 + one)) { \
            if (s.left) { put(&s, 1, 1); s.left = 0; } \
            goto out; \
        } \
        s.left -= 1 + one; \
        put(&s, one ? 2 | (c_ < 0) : 0, 1 + one); \
    } while (0)

nls_result nls_list_encode(const int32_t *coef, unsigned N, unsigned L, uint32_t budget, uint32_t *desc, uint32_t *grand,
                           uint8_t *marks, uint8_t *body) {
    (void)marks;
    uint32_t I = 1u << 2 * N, D = 1u << 2 * (N - L), one;
    uint32_t nlip = D, nlsp = 0, nlis = D - D / 4;
    nls_result r = {0};
    uint32_t all = nls_summaries(coef, N, L, desc, grand);
    r.planes = all ? 32 - (unsigned)__builtin_clz(all) : 0;
    sink s = {0, 0, budget, body};
    start(D);
    for (unsigned b = r.planes; b-- > 0;) {
        uint32_t before = nlsp, kept = 0;
        for (uint32_t q = 0; q < nlip; q++) {
            uint32_t i = lip[q];
            CODE(i, one);
            if (one) lsp[nlsp++] = i;
            else lip[kept++] = i;
        }
        nlip = kept;
        kept = 0;
        for (uint32_t q = 0; q < nlis; q++) {
            uint32_t t = lis[q], i = t / 2, d = (t & 1 ? grand[i] : desc[i]) >> b & 1;
            ROOM(s);
            put(&s, d, 1);
            if (!d) { lis[kept++] = t; continue; }
            if (t & 1) {
                for (uint32_t j = 4 * i; j < 4 * i + 4; j++) lis[nlis++] = 2 * j;
                continue;
            }
            for (uint32_t j = 4 * i; j < 4 * i + 4; j++) {
                CODE(j, one);
                if (one) lsp[nlsp++] = j;
                else lip[nlip++] = j;
            }
            if (i < I / 16) lis[nlis++] = t + 1;
        }
        nlis = kept;
        for (uint32_t q = 0; q < before; q++) {
            ROOM(s);
            put(&s, mag(coef[lsp[q]]) >> b & 1, 1);
        }
        r.finished++;
    }
out:
    r.bits = (uint32_t)(s.p - body) * 8 + s.n;
    flush(&s);
    return r;
}

// ---- decoder
#define MORE(s) do { if (UNLIKELY(USED(s) >= (s).bits)) goto out; } while (0)

// Reads the bit of coefficient j and, after a 1, its sign; the bit is left in `one`.
#define READ(j, one) do { \
        MORE(s); \
        refill(&s); \
        one = take(&s, 1); \
        if (one) { \
            MORE(s); \
            v[j] = 1u << b | take(&s, 1) << 31; \
        } \
        prec[j] = (uint8_t)b; \
    } while (0)

nls_result nls_list_decode(const uint8_t *body, uint32_t bits, unsigned N, unsigned L, unsigned P, int32_t *values,
                           uint8_t *prec, uint8_t *marks) {
    (void)marks;
    uint32_t I = 1u << 2 * N, D = 1u << 2 * (N - L), one;
    uint32_t nlip = D, nlsp = 0, nlis = D - D / 4;
    nls_result r = {.planes = P};
    uint32_t *v = (uint32_t *)values; // magnitude, with the sign in the top bit, until the end
    source s = {0, 0, 0, bits, bits / 8 + (bits % 8 != 0), body};
    memset(values, 0, I * sizeof *values);
    memset(prec, (int)P, I);
    start(D);
    for (unsigned b = P; b-- > 0;) {
        uint32_t before = nlsp, kept = 0;
        for (uint32_t q = 0; q < nlip; q++) {
            uint32_t i = lip[q];
            READ(i, one);
            if (one) lsp[nlsp++] = i;
            else lip[kept++] = i;
        }
        nlip = kept;
        kept = 0;
        for (uint32_t q = 0; q < nlis; q++) {
            uint32_t t = lis[q], i = t / 2;
            MORE(s);
            refill(&s);
            if (!take(&s, 1)) { lis[kept++] = t; continue; }
            if (t & 1) {
                for (uint32_t j = 4 * i; j < 4 * i + 4; j++) lis[nlis++] = 2 * j;
                continue;
            }
            for (uint32_t j = 4 * i; j < 4 * i + 4; j++) {
                READ(j, one);
                if (one) lsp[nlsp++] = j;
                else lip[nlip++] = j;
            }
            if (i < I / 16) lis[nlis++] = t + 1;
        }
        nlis = kept;
        for (uint32_t q = 0; q < before; q++) {
            MORE(s);
            refill(&s);
            v[lsp[q]] |= take(&s, 1) << b;
            prec[lsp[q]] = (uint8_t)b;
        }
        memset(prec, (int)b, I);
        r.finished++;
    }
    if (USED(s) < bits) {
        r = (nls_result){.no = 13, .place = USED(s)};
        memset(values, 0, I * sizeof *values);
        memset(prec, 0, I);
        return r;
    }
out:
    r.bits = USED(s);
    r.worst = (1u << (P - r.finished)) - 1;
    for (uint32_t i = 0; i < I; i++) {
        uint32_t m = v[i] & 0x7fffffff, neg = 0u - (v[i] >> 31);
        if (m && prec[i]) m += 1u << (prec[i] - 1);
        values[i] = (int32_t)((m ^ neg) - neg);
    }
    return r;
}
