// The S transform, in two forms: by rows and columns as the request has it, and by blocks of 2 by 2, written for speed.
// Samples are in raster order, coefficients in linear. Every check of the library's calls is made, in its order.
#include "nls.h"
#include <string.h>

// ---- pairs; >> is a floor here, as gcc has it

static inline int32_t low(int32_t a, int32_t b) { return (a + b) >> 1; }
static inline int32_t high(int32_t a, int32_t b) { return a - b; }
static inline int32_t first(int32_t low, int32_t high) { return low + ((high + 1) >> 1); }
static inline int32_t second(int32_t a, int32_t high) { return a - high; }

// ---- checks

static inline int is_sample(int32_t v) { return v >= -32768 && v <= 32767; }
static inline int is_coefficient(int32_t v) { return v >= -NLS_LIMIT && v <= NLS_LIMIT; }

// Refusals 1, 2 and 3.
static uint32_t sizes(unsigned N, unsigned L, size_t from_len) {
    if (N < 2 || N > NLS_MAX_N) return 1;
    if (L < 1 || L >= N) return 2;
    return from_len != (size_t)1 << 2 * N ? 3 : 0;
}

// ---- by rows and columns, to and fro between two squares whose rows lie `side` apart; `size` is the side of what a level changes

static void rows_apart(const int32_t *from, int32_t *to, size_t side, size_t size) {
    size_t half = size / 2;
    for (size_t row = 0; row < size; row++, from += side, to += side)
        for (size_t k = 0; k < half; k++) {
            int32_t a = from[2 * k], b = from[2 * k + 1];
            to[k] = low(a, b);
            to[half + k] = high(a, b);
        }
}

// All columns of a pair of rows together, so that memory is walked row by row.
static void columns_apart(const int32_t *from, int32_t *to, size_t side, size_t size) {
    size_t half = size / 2;
    for (size_t k = 0; k < half; k++)
        for (size_t col = 0; col < size; col++) {
            int32_t a = from[2 * k * side + col], b = from[(2 * k + 1) * side + col];
            to[k * side + col] = low(a, b);
            to[(half + k) * side + col] = high(a, b);
        }
}

static void columns_joined(const int32_t *from, int32_t *to, size_t side, size_t size) {
    size_t half = size / 2;
    for (size_t k = 0; k < half; k++)
        for (size_t col = 0; col < size; col++) {
            int32_t h = from[(half + k) * side + col], a = first(from[k * side + col], h);
            to[2 * k * side + col] = a;
            to[(2 * k + 1) * side + col] = second(a, h);
        }
}

static void rows_joined(const int32_t *from, int32_t *to, size_t side, size_t size) {
    size_t half = size / 2;
    for (size_t row = 0; row < size; row++, from += side, to += side)
        for (size_t k = 0; k < half; k++) {
            int32_t h = from[half + k], a = first(from[k], h);
            to[2 * k] = a;
            to[2 * k + 1] = second(a, h);
        }
}

nls_result nls_plain_transform(unsigned N, unsigned L, const int32_t *samples, size_t samples_len, int32_t *coefs,
                               size_t coefs_len, int32_t *work, size_t work_len) {
    nls_result r = {.no = sizes(N, L, samples_len)};
    if (r.no) return r;
    uint32_t side = 1u << N, I = side * side;
    if (coefs_len < I || work_len < I) return r.no = 5, r;
    for (uint32_t i = 0; i < I; i++)
        if (!is_sample(samples[i])) return r.no = 17, r.place = i, r;
    const int32_t *from = samples;
    for (uint32_t size = side; size > side >> L; size /= 2) {
        rows_apart(from, coefs, side, size);
        columns_apart(coefs, work, side, size);
        from = work;
    }
    nls_plain_linear(work, N, coefs);
    memset(work, 0, I * sizeof *work);
    return r;
}

nls_result nls_plain_restore(unsigned N, unsigned L, const int32_t *coefs, size_t coefs_len, int32_t *samples,
                             size_t samples_len, int32_t *work, size_t work_len) {
    nls_result r = {.no = sizes(N, L, coefs_len)};
    if (r.no) return r;
    uint32_t side = 1u << N, I = side * side;
    for (uint32_t i = 0; i < I; i++)
        if (!is_coefficient(coefs[i])) return r.no = 4, r.place = i, r;
    if (samples_len < I || work_len < I) return r.no = 5, r;
    nls_plain_raster(coefs, N, samples);
    for (uint32_t size = 2 * (side >> L); size <= side; size *= 2) {
        columns_joined(samples, work, side, size);
        rows_joined(work, samples, side, size);
    }
    memset(work, 0, I * sizeof *work);
    for (uint32_t i = 0; i < I; i++)
        if (!is_sample(samples[i])) {
            memset(samples, 0, I * sizeof *samples);
            return r.no = 18, r;
        }
    return r;
}

// ---- by blocks of 2 by 2
// A level mixes the four entries of a block alone. In linear order block k is the entries 4k to 4k+3, and its four numbers go to
// k, M+k, 2M+k and 3M+k, M a quarter of what the level changes. The finest level takes its blocks out of the raster, and on the
// way back puts them there: so the order is changed by the way, one place found for four samples.

typedef struct { int32_t a, b, c, d; } block; // upper left, upper right, lower left, lower right

static inline block block_apart(block x) {
    int32_t l = low(x.a, x.b), m = low(x.c, x.d), h = high(x.a, x.b), g = high(x.c, x.d);
    return (block){low(l, m), low(h, g), high(l, m), high(h, g)};
}

static inline block block_joined(block x) {
    int32_t l = first(x.a, x.c), m = second(l, x.c), h = first(x.b, x.d), g = second(h, x.d);
    int32_t a = first(l, h), c = first(m, g);
    return (block){a, second(a, h), c, second(c, g)};
}

// A spread number has bits in even places alone. The next one: the places in between hand the carry on.
static inline uint32_t next(uint32_t spread) { return (spread - 0x55555555u) & 0x55555555u; }

// The first entry that is not from least to most, or I. Sixteen are looked at together, which gcc does four at a time.
static uint32_t outside(const int32_t *from, uint32_t I, int32_t least, int32_t most) {
    for (uint32_t i = 0; i < I; i += 16) {
        const int32_t *at = from + i;
        int some = 0;
        for (size_t j = 0; j < 16; j++) some |= (at[j] < least) | (at[j] > most);
        if (some) {
            while (from[i] >= least && from[i] <= most) i++;
            return i;
        }
    }
    return I;
}

nls_result nls_fast_transform(unsigned N, unsigned L, const int32_t *samples, size_t samples_len, int32_t *coefs,
                              size_t coefs_len, int32_t *work, size_t work_len) {
    nls_result r = {.no = sizes(N, L, samples_len)};
    if (r.no) return r;
    size_t side = (size_t)1 << N, I = side * side, M = I / 4;
    if (coefs_len < I || work_len < I) return r.no = 5, r;
    uint32_t wrong = outside(samples, (uint32_t)I, -32768, 32767), down = 0;
    if (wrong < I) return r.no = 17, r.place = wrong, r;
    for (const int32_t *row = samples; row < samples + I; row += 2 * side, down = next(down)) {
        int32_t *a = work + 2 * down, *b = coefs + M + 2 * down, *c = b + M, *d = c + M;
        uint32_t k = 0;
        for (size_t col = 0; col < side; col += 2, k = next(k)) {
            block x = block_apart((block){row[col], row[col + 1], row[side + col], row[side + col + 1]});
            a[k] = x.a, b[k] = x.b, c[k] = x.c, d[k] = x.d;
        }
    }
    for (unsigned level = 1; level < L; level++) {
        M /= 4;
        int32_t *b = coefs + M, *c = b + M, *d = c + M;
        for (size_t k = 0; k < M; k++) {
            block x = block_apart((block){work[4 * k], work[4 * k + 1], work[4 * k + 2], work[4 * k + 3]});
            work[k] = x.a, b[k] = x.b, c[k] = x.c, d[k] = x.d;
        }
    }
    memcpy(coefs, work, M * sizeof *work);
    memset(work, 0, I * sizeof *work);
    return r;
}

nls_result nls_fast_restore(unsigned N, unsigned L, const int32_t *coefs, size_t coefs_len, int32_t *samples,
                            size_t samples_len, int32_t *work, size_t work_len) {
    nls_result r = {.no = sizes(N, L, coefs_len)};
    if (r.no) return r;
    size_t side = (size_t)1 << N, I = side * side, M = I >> 2 * L;
    uint32_t wrong = outside(coefs, (uint32_t)I, -NLS_LIMIT, NLS_LIMIT), down = 0, over = 0;
    if (wrong < I) return r.no = 4, r.place = wrong, r;
    if (samples_len < I || work_len < I) return r.no = 5, r;
    memcpy(work, coefs, M * sizeof *work);
    for (; M < I / 4; M *= 4) {
        const int32_t *b = coefs + M, *c = b + M, *d = c + M;
        for (size_t k = M; k-- > 0;) {
            block x = block_joined((block){work[k], b[k], c[k], d[k]});
            work[4 * k] = x.a, work[4 * k + 1] = x.b, work[4 * k + 2] = x.c, work[4 * k + 3] = x.d;
        }
    }
    for (int32_t *row = samples; row < samples + I; row += 2 * side, down = next(down)) {
        const int32_t *a = work + 2 * down, *b = coefs + M + 2 * down, *c = b + M, *d = c + M;
        uint32_t k = 0;
        for (size_t col = 0; col < side; col += 2, k = next(k)) {
            block x = block_joined((block){a[k], b[k], c[k], d[k]});
            row[col] = x.a, row[col + 1] = x.b, row[side + col] = x.c, row[side + col + 1] = x.d;
            over |= (uint32_t)(x.a + 32768) | (uint32_t)(x.b + 32768) | (uint32_t)(x.c + 32768) | (uint32_t)(x.d + 32768);
        }
    }
    memset(work, 0, I * sizeof *work);
    if (over > 65535) memset(samples, 0, I * sizeof *samples), r.no = 18;
    return r;
}
