// Coders that take turns in one process, on a stream of 2^N x 2^N coefficients, L levels, whole or cut by a budget: plain C, C written
// for speed, a coder with lists, and the proved library by both rules; and the three in C once more, compiled at -O3 (turns.sh).
//   turns time N L 12|20 BITS RUNS   the least time of each coder's encode and of its decode, in ns for each coded bit
//   turns count N L 12|20 BITS       each coder that is not compiled at -O3 encodes and decodes once: what callgrind counts
// BITS is the budget, of fewer bits than the stream has, or `whole` for none.
// Before any time is taken, each coder runs once, on tables that hold something else. Each value is then as near to its coefficient as its
// precision says, so those of a whole stream are the coefficients. The answers, bodies, summaries, marks, precisions and values are those
// of plain C, which comes first; the values of `lower` are what its rule makes of them. Of the coder with lists, which writes another
// order and keeps no marks, the answers and the summaries are. Where something is not so, that is printed, and the program exits with 1.
#include "../include/txp.h"
#include "clock.h"
#include "gen.h"
#include "nls.h"
#include <stdio.h>
#include <stdlib.h>
#include <string.h>

#define I TXP_ENTRIES(NLS_MAX_N)

nls_encoder nls_plain_encode_o3, nls_fast_encode_o3, nls_list_encode_o3;
nls_decoder nls_plain_decode_o3, nls_fast_decode_o3, nls_list_decode_o3;

static const struct {
    const char *name;
    nls_encoder *encode; // NULL: it decodes the body of the coder before it
    nls_decoder *decode;
    int lists;
} coders[] = {
    {"plain", nls_plain_encode, nls_plain_decode, 0},
    {"fast", nls_fast_encode, nls_fast_decode, 0},
    {"list", nls_list_encode, nls_list_decode, 1},
    {"txp", txp_bench_encode, txp_bench_decode, 0},
    {"lower", NULL, txp_bench_lower, 0},
    {"plain-O3", nls_plain_encode_o3, nls_plain_decode_o3, 0},
    {"fast-O3", nls_fast_encode_o3, nls_fast_decode_o3, 0},
    {"list-O3", nls_list_encode_o3, nls_list_decode_o3, 1},
};
enum { COUNTED = 5, CODERS = sizeof coders / sizeof *coders };

static _Alignas(64) int32_t coef[I];

// What encode and decode leave, and what those of plain C left.
static struct encoded {
    _Alignas(64) uint32_t desc[I / 4];
    uint32_t grand[I / 16];
    uint8_t marks[I], body[TXP_MOST_BODY(NLS_MAX_N)];
    nls_result answer;
} encoded, first_encoded;
static struct decoded {
    _Alignas(64) int32_t values[I];
    uint8_t prec[I], marks[I];
    nls_result answer;
} decoded, first_decoded;

// Whether the last answers are not those of plain C.
static int differ(void) {
    const nls_result *e = &encoded.answer, *e1 = &first_encoded.answer, *d = &decoded.answer, *d1 = &first_decoded.answer;
    return e->no || e->planes != e1->planes || e->bits != e1->bits || d->no || d->bits != d1->bits || d->finished != d1->finished
        || d->worst != d1->worst;
}

// What is wrong with coder k after it ran for the first time, or NULL.
static const char *wrong(unsigned k, unsigned n, unsigned planes, uint32_t budget) {
    const struct encoded *e = &encoded, *e1 = &first_encoded;
    const struct decoded *d = &decoded, *d1 = &first_decoded;
    uint32_t bits = e->answer.bits, left = planes - d->answer.finished, other = 0;
    if (differ() || e->answer.planes != planes || (budget < UINT32_MAX && bits != budget) || d->answer.bits != bits || left > planes
        || d->answer.worst != (1u << left) - 1 || (budget == UINT32_MAX && left > 0))
        return "answer";
    if (memcmp(e->desc, e1->desc, sizeof e->desc) || memcmp(e->grand, e1->grand, sizeof e->grand)) return "summaries";
    for (uint32_t i = 0; i < TXP_ENTRIES(n); i++) {
        if (d->prec[i] > left || abs(d->values[i] - coef[i]) >> d->prec[i]) return "distance of a value";
        other |= d->values[i] != (coders[k].encode ? d1->values[i] : nls_lower(d1->values[i], d->prec[i]));
    }
    if (coders[k].lists) return NULL;
    if (other) return "values";
    if (memcmp(d->prec, d1->prec, sizeof d->prec)) return "precisions";
    if (memcmp(e->marks, e1->marks, sizeof e->marks) || memcmp(d->marks, d1->marks, sizeof d->marks)) return "marks";
    if (memcmp(e->body, e1->body, sizeof e->body)) return "body";
    return NULL;
}

// Runs coder k once; the times, in ns, are left in `took`.
static void once(unsigned k, unsigned n, unsigned l, uint32_t budget, double *took) {
    struct encoded *e = &encoded;
    struct decoded *d = &decoded;
    double t = now();
    if (coders[k].encode) e->answer = coders[k].encode(coef, n, l, budget, e->desc, e->grand, e->marks, e->body);
    double u = now();
    d->answer = coders[k].decode(e->body, e->answer.bits, n, l, e->answer.planes, d->values, d->prec, d->marks);
    double v = now();
    took[0] = u - t;
    took[1] = v - u;
}

// The first so many coders in turn: once for the check, and then `runs` times.
static int turns(unsigned many, unsigned n, unsigned l, unsigned planes, uint32_t budget, unsigned runs) {
    double least[CODERS][2], took[2];
    gen_planes(coef, n, l, planes);
    for (unsigned k = 0; k < many; k++) {
        if (coders[k].encode) memset(&encoded, 1, sizeof encoded);
        memset(&decoded, 1, sizeof decoded);
        once(k, n, l, budget, took);
        if (k == 0) first_encoded = encoded, first_decoded = decoded;
        const char *what = wrong(k, n, planes, budget);
        if (what) return fprintf(stderr, "%s, N = %u, L = %u, P = %u, budget %u: wrong %s\n", coders[k].name, n, l, planes, budget, what), 1;
        least[k][0] = least[k][1] = 1e30;
    }
    uint32_t bits = first_encoded.answer.bits;
    for (unsigned r = 0; r < runs; r++)
        for (unsigned k = 0; k < many; k++) {
            once(k, n, l, budget, took);
            if (differ()) return fprintf(stderr, "%s, N = %u, L = %u, P = %u: wrong in a later run\n", coders[k].name, n, l, planes), 1;
            for (unsigned call = 0; call < 2; call++)
                if (took[call] < least[k][call]) least[k][call] = took[call];
        }
    if (runs == 0) return printf("%u\n", bits), 0;
    for (unsigned k = 0; k < many; k++) {
        if (coders[k].encode) printf("%s encode %u %.4f\n", coders[k].name, bits, least[k][0] / bits);
        printf("%s decode %u %.4f\n", coders[k].name, bits, least[k][1] / bits);
    }
    return 0;
}

int main(int argc, char **argv) {
    if (argc == 6 || argc == 7) {
        unsigned n = (unsigned)atoi(argv[2]), l = (unsigned)atoi(argv[3]), planes = (unsigned)atoi(argv[4]);
        uint32_t budget = strcmp(argv[5], "whole") ? (uint32_t)strtoul(argv[5], NULL, 10) : UINT32_MAX;
        unsigned runs = argc == 7 ? (unsigned)atoi(argv[6]) : 0;
        if (n > 1 && n <= NLS_MAX_N && l > 0 && l < n && (planes == 12 || planes == 20) && budget > 0) {
            if (argc == 6 && !strcmp(argv[1], "count")) return turns(COUNTED, n, l, planes, budget, 0);
            if (argc == 7 && !strcmp(argv[1], "time") && runs > 0) return turns(CODERS, n, l, planes, budget, runs);
        }
    }
    return fprintf(stderr, "usage: turns time N L 12|20 BITS|whole RUNS, or turns count N L 12|20 BITS|whole\n"), 2;
}
