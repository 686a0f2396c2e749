// The proved library as a coder of the benchmark, through its C interface. It is lent tables of the largest size.
#include "../include/txp.h"
#include "nls.h"

#define I TXP_ENTRIES(NLS_MAX_N)

nls_result txp_bench_encode(const int32_t *c, unsigned n, unsigned l, uint32_t budget, uint32_t *d, uint32_t *g,
                            uint8_t *m, uint8_t *b) {
    txp_answer a;
    uint32_t no = txp_encode_body(n, l, c, TXP_ENTRIES(n), d, I / 4, g, I / 16, m, I, b, TXP_MOST_BODY(NLS_MAX_N), 0, budget, &a);
    return (nls_result){.no = no, .place = a.place, .bits = a.bits, .planes = a.planes};
}

static nls_result decoded(uint32_t no, unsigned p, const txp_answer *a) {
    return (nls_result){.no = no, .place = a->place, .bits = a->bits, .planes = p, .finished = a->finished, .worst = a->error};
}

// By the midpoint, as the codes in C.
nls_result txp_bench_decode(const uint8_t *b, uint32_t bits, unsigned n, unsigned l, unsigned p, int32_t *v, uint8_t *q,
                            uint8_t *m) {
    txp_answer a;
    uint32_t no = txp_decode_body_midpoint(n, l, p, b, (bits + 7) / 8, bits, v, I, q, I, m, I, &a);
    return decoded(no, p, &a);
}

// By the default rule: known bits stand for themselves.
nls_result txp_bench_lower(const uint8_t *b, uint32_t bits, unsigned n, unsigned l, unsigned p, int32_t *v, uint8_t *q,
                           uint8_t *m) {
    txp_answer a;
    uint32_t no = txp_decode_body(n, l, p, b, (bits + 7) / 8, bits, v, I, q, I, m, I, &a);
    return decoded(no, p, &a);
}
