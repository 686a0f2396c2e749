// Whole streams of 2^N x 2^N coefficients, L levels, through plain C, C written for speed, and the proved library; what
// encoding them costs before the first bits, and decoding them where they are cut; the planes of such an array and the
// change between its two orders, in plain C and in the proved library; a dial that the library turns over a stream; and the
// transform of 2^N x 2^N samples, there and back, in the three codes.
//   bench count N L 12|20    each coder encodes and decodes once, the library by both rules: what callgrind counts (bench.sh)
//   bench open N L 12|20 M   each coder encodes once with a budget of M thousandths of the stream: the same
//   bench cut N L 12|20 M    each coder decodes once what M thousandths of the stream's bits allow, or M bits (300b), the library
//                            by both rules: the same
//   bench planes N L 12|20   the planes once, by each code: the same
//   bench order N            both changes of order once, by each code: the same
//   bench figures N L        the figures of each plane by itself, and of all at once: the same
//   bench dial N L 2|5|12|20 the dial up to the last bit and down again, by a call for each bit and by one for all: the same;
//                            2 and 5 are streams whose longest steps are long
//   bench transform N L      samples to coefficients and back once, by each code: the same
//   bench edges N L          the transform at the ends of the range of samples, and what it refuses, by each code; nothing is counted
//   bench time N L REPS      the best time of each coder, in ns for each coded bit, of encode with no bits, in us, of the
//                            dial's steps, their mean and the worst, in us, and of the transform, in ns for each sample
#define _GNU_SOURCE
#include "../include/txp.h"
#include "clock.h"
#include "gen.h"
#include "nls.h"
#include <stdio.h>
#include <stdlib.h>
#include <string.h>

#define I TXP_ENTRIES(NLS_MAX_N)

static uint32_t desc[I / 4], grand[I / 16];
static uint8_t marks[I], prec[I], body[TXP_MOST_BODY(NLS_MAX_N)];
static int32_t samples[I], coef[I], values[I], work[I];

__attribute__((noinline)) nls_result txp_bench_transform(unsigned n, unsigned l, const int32_t *s, size_t s_len, int32_t *c,
                                                         size_t c_len, int32_t *w, size_t w_len) {
    txp_answer a;
    uint32_t no = txp_transform(n, l, s, s_len, c, c_len, w, w_len, &a);
    return (nls_result){.no = no, .place = a.place};
}

__attribute__((noinline)) nls_result txp_bench_restore(unsigned n, unsigned l, const int32_t *c, size_t c_len, int32_t *s,
                                                       size_t s_len, int32_t *w, size_t w_len) {
    txp_answer a;
    uint32_t no = txp_restore(n, l, c, c_len, s, s_len, w, w_len, &a);
    return (nls_result){.no = no, .place = a.place};
}

static const struct {
    const char *name;
    nls_encoder *encode;
    nls_decoder *decode;
    nls_transform *transform, *restore;
} coders[] = {
    {"plain", nls_plain_encode, nls_plain_decode, nls_plain_transform, nls_plain_restore},
    {"fast", nls_fast_encode, nls_fast_decode, nls_fast_transform, nls_fast_restore},
    {"txp", txp_bench_encode, txp_bench_decode, txp_bench_transform, txp_bench_restore},
};

__attribute__((noinline)) unsigned txp_bench_planes(const int32_t *c, unsigned n) {
    txp_answer a;
    txp_planes(c, TXP_ENTRIES(n), &a);
    return a.planes;
}

__attribute__((noinline)) void txp_bench_linear(const int32_t *from, unsigned n, int32_t *to) {
    txp_answer a;
    txp_to_linear(n, from, TXP_ENTRIES(n), to, I, &a);
}

__attribute__((noinline)) void txp_bench_raster(const int32_t *from, unsigned n, int32_t *to) {
    txp_answer a;
    txp_to_raster(n, from, TXP_ENTRIES(n), to, I, &a);
}

// There and back, by plain C and by the library; the library's linear array is that of plain C.
static int order(unsigned n) {
    static int32_t raster[I], first[I], back[I];
    size_t all = TXP_ENTRIES(n), bytes = all * sizeof *raster;
    for (uint32_t p = 0; p < all; p++) raster[p] = (int32_t)(p * 2654435761u);
    nls_plain_linear(raster, n, first);
    nls_plain_raster(first, n, back);
    txp_bench_linear(raster, n, coef);
    txp_bench_raster(coef, n, values);
    if (memcmp(back, raster, bytes) || memcmp(coef, first, bytes) || memcmp(values, raster, bytes))
        return printf("order, N = %u: wrong\n", n), 1;
    return 0;
}

__attribute__((noinline)) uint32_t txp_bench_one(unsigned n, unsigned l, unsigned plane, txp_answer *a) {
    return txp_figures(n, l, coef, TXP_ENTRIES(n), plane, desc, I / 4, grand, I / 16, a);
}

__attribute__((noinline)) uint32_t txp_bench_all(unsigned n, unsigned l, uint32_t *out, txp_answer *a) {
    return txp_figures_all(n, l, coef, TXP_ENTRIES(n), desc, I / 4, grand, I / 16, out, TXP_ALL_FIGURES, a);
}

// The dial: its record, beside the tables above, and the bits of its stream.
static txp_record record;
static uint32_t usable;

__attribute__((noinline)) uint32_t txp_bench_forward(txp_answer *a) {
    return txp_forward(&record, body, (usable + 7) / 8, usable, values, I, prec, I, marks, I, a);
}

__attribute__((noinline)) uint32_t txp_bench_back(txp_answer *a) {
    return txp_back(&record, body, (usable + 7) / 8, usable, values, I, prec, I, marks, I, a);
}

__attribute__((noinline)) uint32_t txp_bench_up(txp_answer *a) {
    return txp_turn(&record, body, (usable + 7) / 8, usable, usable, values, I, prec, I, marks, I, a);
}

__attribute__((noinline)) uint32_t txp_bench_down(txp_answer *a) {
    return txp_turn(&record, body, (usable + 7) / 8, usable, 0, values, I, prec, I, marks, I, a);
}

// The figures of all planes at once, and of each by itself.
static int figures(unsigned n, unsigned l) {
    uint32_t all[TXP_ALL_FIGURES];
    txp_answer one, every;
    gen_planes(coef, n, l, 20);
    uint32_t wrong = txp_bench_all(n, l, all, &every);
    for (unsigned b = 0; b < TXP_MOST_PLANES; b++) {
        const uint32_t *f = all + 4 * b;
        wrong |= txp_bench_one(n, l, b, &one) || f[0] != one.parts || f[1] != one.splits || f[2] != one.bits || f[3] != one.found;
    }
    if (wrong) return printf("figures: wrong\n"), 1;
    return 0;
}

// The best times of one coder; every answer is checked, and every body is that of plain C, which comes first.
static int run(unsigned k, unsigned n, unsigned l, unsigned planes, unsigned reps, uint32_t *bits, double *enc, double *dec) {
    static uint8_t first[sizeof body];
    size_t bytes = TXP_ENTRIES(n) * sizeof *coef;
    memset(values, 1, bytes);
    memset(body, 1, sizeof body);
    *enc = *dec = 1e30;
    for (unsigned r = 0; r < reps; r++) {
        double t = now();
        nls_result e = coders[k].encode(coef, n, l, UINT32_MAX, desc, grand, marks, body);
        double u = now();
        nls_result d = coders[k].decode(body, e.bits, n, l, e.planes, values, prec, marks);
        double v = now();
        if (u - t < *enc) *enc = u - t;
        if (v - u < *dec) *dec = v - u;
        if (k == 0 && r == 0) *bits = e.bits, memcpy(first, body, sizeof body);
        if (e.no || d.no || e.planes != planes || memcmp(values, coef, bytes) || e.bits != *bits || memcmp(first, body, (*bits + 7) / 8))
            return printf("%s, N = %u, L = %u, P = %u: wrong\n", coders[k].name, n, l, planes), 1;
    }
    return 0;
}

// The best time of the library's default decoding, of the whole stream that was encoded last.
static int lower(unsigned n, unsigned l, unsigned planes, unsigned reps, uint32_t bits, double *dec) {
    *dec = 1e30;
    for (unsigned r = 0; r < reps; r++) {
        memset(values, 1, TXP_ENTRIES(n) * sizeof *values);
        double t = now();
        nls_result d = txp_bench_lower(body, bits, n, l, planes, values, prec, marks);
        double u = now();
        if (u - t < *dec) *dec = u - t;
        if (d.no || d.bits != bits || memcmp(values, coef, TXP_ENTRIES(n) * sizeof *coef))
            return printf("lower, N = %u, L = %u, P = %u: wrong\n", n, l, planes), 1;
    }
    return 0;
}

static int count(unsigned n, unsigned l, unsigned planes) {
    uint32_t bits;
    double enc, dec;
    gen_planes(coef, n, l, planes);
    for (unsigned k = 0; k < 3; k++)
        if (run(k, n, l, planes, 1, &bits, &enc, &dec)) return 1;
    if (lower(n, l, planes, 1, bits, &dec)) return 1;
    return printf("%u\n", bits), 0;
}

// Each coder encodes with a budget; the answer, the body and every table are those of plain C, which comes first.
static int opening(unsigned n, unsigned l, unsigned planes, unsigned thousandths) {
    static uint8_t first[sizeof body], first_marks[I];
    static uint32_t first_desc[I / 4], first_grand[I / 16];
    uint32_t all = TXP_ENTRIES(n), whole = 0;
    gen_planes(coef, n, l, planes);
    for (unsigned b = 0; b < planes; b++) {
        txp_answer f;
        txp_figures(n, l, coef, all, b, desc, I / 4, grand, I / 16, &f);
        whole += f.bits;
    }
    uint32_t budget = (uint32_t)((uint64_t)whole * thousandths / 1000);
    for (unsigned k = 0; k < 3; k++) {
        memset(body, 1, sizeof body);
        memset(marks, 1, all);
        memset(desc, 1, all);
        memset(grand, 1, all / 4);
        nls_result e = coders[k].encode(coef, n, l, budget, desc, grand, marks, body);
        if (k == 0) {
            memcpy(first, body, sizeof body);
            memcpy(first_marks, marks, all);
            memcpy(first_desc, desc, all);
            memcpy(first_grand, grand, all / 4);
        }
        if (e.no || e.planes != planes || e.bits != budget || memcmp(first, body, sizeof body) || memcmp(first_marks, marks, all)
            || memcmp(first_desc, desc, all) || memcmp(first_grand, grand, all / 4))
            return printf("%s, N = %u, L = %u, P = %u, budget %u: wrong\n", coders[k].name, n, l, planes, budget), 1;
    }
    return printf("%u\n", budget), 0;
}

// Each coder decodes a cut stream: a part of it in thousandths, or in bits where a b follows. The answer and the three tables
// are those of plain C, which comes first; by the default rule the values are without their bits below the precision.
static int cut(unsigned n, unsigned l, unsigned planes, const char *part) {
    static int32_t first[I];
    static uint8_t first_prec[I], first_marks[I];
    uint32_t all = TXP_ENTRIES(n), most = (uint32_t)atoi(part);
    gen_planes(coef, n, l, planes);
    nls_result e = nls_plain_encode(coef, n, l, UINT32_MAX, desc, grand, marks, body), f = {0};
    uint32_t bits = strchr(part, 'b') ? most : (uint32_t)((uint64_t)e.bits * most / 1000);
    if (e.no || e.planes != planes || bits > e.bits) return printf("cut, N = %u, L = %u, P = %u: wrong\n", n, l, planes), 1;
    for (unsigned k = 0; k < 3; k++) {
        memset(values, 1, all * sizeof *values);
        memset(prec, 1, all);
        memset(marks, 1, all);
        nls_result d = coders[k].decode(body, bits, n, l, planes, values, prec, marks);
        if (k == 0) {
            f = d;
            memcpy(first, values, all * sizeof *values);
            memcpy(first_prec, prec, all);
            memcpy(first_marks, marks, all);
        }
        if (d.no || d.bits != bits || d.finished != f.finished || d.worst != f.worst || memcmp(first, values, all * sizeof *values)
            || memcmp(first_prec, prec, all) || memcmp(first_marks, marks, all))
            return printf("%s, N = %u, L = %u, P = %u, %u bits: wrong\n", coders[k].name, n, l, planes, bits), 1;
    }
    nls_result d = txp_bench_lower(body, bits, n, l, planes, values, prec, marks);
    int wrong = d.no || d.bits != bits || d.finished != f.finished || d.worst != f.worst || memcmp(first_prec, prec, all) || memcmp(first_marks, marks, all);
    for (uint32_t i = 0; i < all; i++) wrong |= values[i] != nls_lower(first[i], prec[i]);
    if (wrong) return printf("lower, N = %u, L = %u, P = %u, %u bits: wrong\n", n, l, planes, bits), 1;
    return printf("%u\n", bits), 0;
}

static int tops(unsigned n, unsigned l, unsigned planes) {
    gen_planes(coef, n, l, planes);
    if (nls_plain_planes(coef, n) != planes || txp_bench_planes(coef, n) != planes)
        return printf("planes, N = %u, L = %u, P = %u: wrong\n", n, l, planes), 1;
    return 0;
}

// The stream of the dial, which starts at its first bit; ends: the bits up to the end of each plane.
static int start(unsigned n, unsigned l, unsigned planes, uint32_t *ends) {
    txp_answer a;
    gen_planes(coef, n, l, planes);
    nls_result e = txp_bench_encode(coef, n, l, UINT32_MAX, desc, grand, marks, body);
    uint32_t wrong = e.no || e.planes != planes;
    usable = 0;
    for (unsigned b = planes; b-- > 0;) {
        wrong |= txp_figures(n, l, coef, TXP_ENTRIES(n), b, desc, I / 4, grand, I / 16, &a);
        *ends++ = usable += a.bits;
    }
    wrong |= usable != e.bits || txp_start(&record, n, l, planes, values, I, prec, I, marks, I, &a);
    return wrong != 0;
}

// Whether an answer is not that of the dial after so many bits.
static int astray(uint32_t no, const txp_answer *a, uint32_t bits, const uint32_t *ends) {
    unsigned f = 0;
    while (f < record.planes && ends[f] <= bits) f++;
    uint32_t ending = f == record.planes ? TXP_WHOLE : bits == usable ? TXP_BUDGET : TXP_GOES_ON;
    return no || a->bits != bits || record.used != bits || a->finished != f || a->error != (1u << (record.planes - f)) - 1
        || a->ending != ending;
}

// Whether the tables are not those that decoding so many bits leaves.
static int differ(uint32_t bits) {
    static int32_t v[I];
    static uint8_t q[I], m[I];
    txp_answer a;
    size_t all = TXP_ENTRIES(record.n);
    return txp_decode_body_midpoint(record.n, record.l, record.planes, body, (bits + 7) / 8, bits, v, I, q, I, m, I, &a)
        || memcmp(v, values, all * sizeof *v) || memcmp(q, prec, all) || memcmp(m, marks, all);
}

// Up and down by a call for each bit, then by one for all, and the stream decoded once. Every answer is checked, and at either
// end the tables are those of decoding.
static int dial(unsigned n, unsigned l, unsigned planes) {
    uint32_t ends[TXP_MOST_PLANES];
    txp_answer a;
    int wrong = start(n, l, planes, ends) || differ(0);
    for (uint32_t k = 0; k < usable && !wrong; k++) wrong = astray(txp_bench_forward(&a), &a, k + 1, ends);
    wrong = wrong || differ(usable);
    for (uint32_t k = usable; k-- > 0 && !wrong;) wrong = astray(txp_bench_back(&a), &a, k, ends);
    wrong = wrong || differ(0) || astray(txp_bench_up(&a), &a, usable, ends) || differ(usable)
        || astray(txp_bench_down(&a), &a, 0, ends) || differ(0);
    nls_result d = txp_bench_decode(body, usable, n, l, planes, values, prec, marks);
    if (wrong || d.no || d.bits != usable || memcmp(values, coef, TXP_ENTRIES(n) * sizeof *coef))
        return printf("dial, N = %u, L = %u, P = %u: wrong\n", n, l, planes), 1;
    return printf("%u\n", usable), 0;
}

// The times of the dial's steps. Their mean is that of the best pass over the stream; the worst is the largest of the best
// times of each step, which have the look at the clock in them.
static int paces(unsigned n, unsigned l, unsigned planes, unsigned reps) {
    uint32_t ends[TXP_MOST_PLANES];
    txp_answer a;
    double pass[2] = {1e30, 1e30}, worst[2] = {0, 0};
    int wrong = start(n, l, planes, ends);
    float *best = malloc(2 * (size_t)usable * sizeof *best);
    if (wrong || !best) return printf("dial, N = %u, L = %u, P = %u: wrong, or no memory\n", n, l, planes), 1;
    for (unsigned r = 0; r < reps; r++) {
        double t = now();
        for (uint32_t k = 0; k < usable; k++) wrong |= txp_bench_forward(&a) != 0;
        double u = now();
        for (uint32_t k = 0; k < usable; k++) wrong |= txp_bench_back(&a) != 0;
        double v = now();
        if (u - t < pass[0]) pass[0] = u - t;
        if (v - u < pass[1]) pass[1] = v - u;
        for (uint32_t k = 0; k < 2 * usable; k++) {
            t = now();
            uint32_t no = k < usable ? txp_bench_forward(&a) : txp_bench_back(&a);
            u = now();
            wrong |= astray(no, &a, k < usable ? k + 1 : 2 * usable - k - 1, ends);
            if (r == 0 || u - t < best[k]) best[k] = (float)(u - t);
        }
    }
    for (uint32_t k = 0; k < 2 * usable; k++)
        if (best[k] > worst[k >= usable]) worst[k >= usable] = best[k];
    free(best);
    if (wrong || differ(0)) return printf("dial, N = %u, L = %u, P = %u: wrong\n", n, l, planes), 1;
    printf("P = %u  dial   forward %6.3f us, at worst %7.2f us  back %6.3f us, at worst %7.2f us\n", planes, pass[0] / usable / 1000,
           worst[0] / 1000, pass[1] / usable / 1000, worst[1] / 1000);
    return 0;
}

static int is_zero(const int32_t *table, size_t all) {
    int32_t some = 0;
    for (size_t i = 0; i < all; i++) some |= table[i];
    return !some;
}

// The best times of one code of the transform, there and back. The coefficients are those of plain C, which comes first, the samples
// come back, and the work table, which held something else, ends as zeros.
static int there(unsigned k, unsigned n, unsigned l, unsigned reps, double *ahead, double *back) {
    static int32_t first[I];
    size_t all = TXP_ENTRIES(n), bytes = all * sizeof *coef;
    memset(coef, 1, bytes);
    memset(values, 1, bytes);
    *ahead = *back = 1e30;
    for (unsigned r = 0; r < reps; r++) {
        memset(work, 1, bytes);
        double t = now();
        nls_result c = coders[k].transform(n, l, samples, all, coef, I, work, I);
        double u = now();
        int wrong = c.no || !is_zero(work, all);
        memset(work, 1, bytes);
        double v = now();
        nls_result s = coders[k].restore(n, l, coef, all, values, I, work, I);
        double w = now();
        if (u - t < *ahead) *ahead = u - t;
        if (w - v < *back) *back = w - v;
        if (k == 0 && r == 0) memcpy(first, coef, bytes);
        if (wrong || s.no || !is_zero(work, all) || memcmp(coef, first, bytes) || memcmp(values, samples, bytes))
            return printf("%s, transform, N = %u, L = %u: wrong\n", coders[k].name, n, l), 1;
    }
    return 0;
}

// Each code takes the samples there and back once.
static int transforms(unsigned n, unsigned l) {
    double ahead, back;
    for (unsigned k = 0; k < 3; k++)
        if (there(k, n, l, 1, &ahead, &back)) return 1;
    return 0;
}

// Each code refuses what it takes from `from`, there or back, with this number and this place, and leaves in the output and in the
// work table what plain C does, which comes first.
static int refusals(unsigned n, unsigned l, int back, const int32_t *from, uint32_t no, uint32_t place) {
    static int32_t first[I], first_work[I];
    size_t all = TXP_ENTRIES(n), bytes = all * sizeof *from;
    for (unsigned k = 0; k < 3; k++) {
        memset(values, 1, bytes);
        memset(work, 1, bytes);
        nls_result r = (back ? coders[k].restore : coders[k].transform)(n, l, from, all, values, I, work, I);
        if (k == 0) memcpy(first, values, bytes), memcpy(first_work, work, bytes);
        if (r.no != no || r.place != place || memcmp(first, values, bytes) || memcmp(first_work, work, bytes))
            return printf("%s, refusal %u, N = %u, L = %u: wrong\n", coders[k].name, no, n, l), 1;
    }
    return 0;
}

// Samples at the ends of their range; then a coarsest coefficient that takes its samples out of the range, a coefficient over the
// limit, and two numbers that are no samples.
static int edges(unsigned n, unsigned l) {
    uint32_t all = TXP_ENTRIES(n);
    gen_ends(samples, n);
    if (transforms(n, l)) return 1;
    coef[1] += 65536;
    if (refusals(n, l, 1, coef, 18, 0)) return 1;
    coef[all - 1] = -NLS_LIMIT - 1;
    if (refusals(n, l, 1, coef, 4, all - 1)) return 1;
    samples[all / 2] = 32768;
    samples[all - 1] = -32769;
    return refusals(n, l, 0, samples, 17, all / 2);
}

static int times(unsigned n, unsigned l, unsigned reps) {
    uint32_t bits;
    double enc, dec;
    for (unsigned planes = 12; planes <= 20; planes += 8) {
        gen_planes(coef, n, l, planes);
        for (unsigned k = 0; k < 3; k++) {
            if (run(k, n, l, planes, reps, &bits, &enc, &dec)) return 1;
            double none = 1e30;
            for (unsigned r = 0; r < reps; r++) {
                double t = now();
                coders[k].encode(coef, n, l, 0, desc, grand, marks, body);
                double u = now();
                if (u - t < none) none = u - t;
            }
            printf("P = %u  %-6s encode %6.2f ns/bit  decode %6.2f ns/bit  no bit %6.2f us\n", planes, coders[k].name, enc / bits, dec / bits, none / 1000);
        }
        txp_bench_encode(coef, n, l, UINT32_MAX, desc, grand, marks, body);
        if (lower(n, l, planes, reps, bits, &dec)) return 1;
        printf("P = %u  lower                      decode %6.2f ns/bit\n", planes, dec / bits);
        if (paces(n, l, planes, reps)) return 1;
    }
    if (paces(n, l, 2, reps) || paces(n, l, 5, reps)) return 1; // those with long steps
    gen_samples(samples, n);
    for (unsigned k = 0; k < 3; k++) {
        if (there(k, n, l, reps, &enc, &dec)) return 1;
        printf("transform %-6s forward %6.2f ns/sample  back %6.2f ns/sample\n", coders[k].name, enc / (double)TXP_ENTRIES(n),
               dec / (double)TXP_ENTRIES(n));
    }
    return 0;
}

int main(int argc, char **argv) {
    unsigned n = argc > 2 ? (unsigned)atoi(argv[2]) : 0, l = argc > 3 ? (unsigned)atoi(argv[3]) : 1;
    unsigned last = argc > 4 ? (unsigned)atoi(argv[4]) : 0;
    if (n > 1 && n <= NLS_MAX_N && l > 0 && l < n) {
        if (argc == 5 && !strcmp(argv[1], "count") && (last == 12 || last == 20)) return count(n, l, last);
        if (argc == 6 && !strcmp(argv[1], "open") && (last == 12 || last == 20)) return opening(n, l, last, (unsigned)atoi(argv[5]));
        if (argc == 6 && !strcmp(argv[1], "cut") && (last == 12 || last == 20)) return cut(n, l, last, argv[5]);
        if (argc == 5 && !strcmp(argv[1], "planes") && (last == 12 || last == 20)) return tops(n, l, last);
        if (argc == 3 && !strcmp(argv[1], "order")) return order(n);
        if (argc == 4 && !strcmp(argv[1], "figures")) return figures(n, l);
        if (argc == 5 && !strcmp(argv[1], "dial") && (last == 2 || last == 5 || last == 12 || last == 20)) return dial(n, l, last);
        if (argc == 4 && !strcmp(argv[1], "transform")) return gen_samples(samples, n), transforms(n, l);
        if (argc == 4 && !strcmp(argv[1], "edges")) return edges(n, l);
        if (argc == 5 && !strcmp(argv[1], "time") && last > 0) return times(n, l, last);
    }
    return fprintf(stderr, "usage: bench count N L 12|20, bench open N L 12|20 THOUSANDTHS, bench cut N L 12|20 THOUSANDTHS or BITSb, bench planes N L 12|20, bench order N, bench figures N L, bench dial N L 2|5|12|20, bench transform N L, bench edges N L, or bench time N L REPS\n"), 2;
}
