// Test data: a small generator, Laplacian-like coefficients, coefficients of one magnitude or two, and samples.
#ifndef GEN_H
#define GEN_H
#include <stdint.h>
#include <stdlib.h>
static uint64_t gen_state = 0x9e3779b97f4a7c15u;
static inline uint32_t gen_u32(void) { // xorshift64*
    gen_state ^= gen_state >> 12, gen_state ^= gen_state << 25, gen_state ^= gen_state >> 27;
    return (uint32_t)(gen_state * 0x2545f4914f6cdd1du >> 32);
}
// No libm, so that the data is the same everywhere (compile with -ffp-contract=off) and a static link needs nothing.
static inline double gen_ln(double x) {
    int k = 0;
    while (x < 1) x *= 2, k--;
    while (x >= 2) x /= 2, k++;
    double t = (x - 1) / (x + 1), p = t, sum = 0;
    for (int n = 1; n < 40; n += 2, p *= t * t) sum += p / n;
    return 2 * sum + k * 0.69314718055994531;
}
static inline double gen_unit(void) { return (gen_u32() + 0.5) / 4294967296.0; }
// Laplacian-like, wider in coarser bands by `ratio` a level; magnitudes cut at `most`.
static inline void gen_laplace(int32_t *c, unsigned N, unsigned L, double finest, double ratio, int32_t most) {
    uint32_t I = 1u << 2 * N, D = 1u << 2 * (N - L);
    for (uint32_t i = 0; i < I; i++) {
        unsigned level = 0; // 0 finest
        for (uint32_t e = I / 4; e > i && e >= D; e /= 4) level++;
        double scale = finest;
        while (level-- > 0) scale *= ratio;
        double x = -scale * gen_ln(gen_unit());
        int32_t m = x > most ? most : (int32_t)x;
        c[i] = gen_u32() & 1 ? -m : m;
    }
}
// Magnitudes of `most`, but for one in `part` on average, which are 1 (0: none).
static inline void gen_level(int32_t *c, unsigned N, int32_t most, uint32_t part) {
    for (uint32_t i = 0; i < 1u << 2 * N; i++) {
        int32_t m = part && gen_u32() % part == 0 ? 1 : most;
        c[i] = gen_u32() & 1 ? -m : m;
    }
}
// An array of 2, 5, 12 or 20 planes, always the same. 12 and 20 have the same spread of the finest band, growth a level and cut for
// every N and L. With 2 every coefficient is found in the first plane, and with 5 three of four are, and the others in the last: there a
// step forward or back passes over most places.
static inline void gen_planes(int32_t *c, unsigned N, unsigned L, unsigned planes) {
    gen_state = 0x9e3779b97f4a7c15u;
    gen_laplace(c, N, L, 4, 3, 4095);
    if (planes == 20) gen_laplace(c, N, L, 500, 3.5, 1048575);
    if (planes == 2) gen_level(c, N, 3, 0);
    if (planes == 5) gen_level(c, N, 31, 4);
}
// A wave of parabolas, from -16,384 to 16,384, that comes round after 512 steps.
static inline int32_t gen_wave(uint32_t t) {
    int32_t x = (int32_t)(t % 256), y = x * (256 - x);
    return t % 512 < 256 ? y : -y;
}
// Samples in raster order: two waves that cross, and some noise. They go up to 32,255 and down to -32,256.
static inline void gen_samples(int32_t *s, unsigned N) {
    for (uint32_t p = 0; p < 1u << 2 * N; p++) {
        uint32_t row = p >> N, col = p % (1u << N);
        s[p] = gen_wave(2 * row + 7 * col) + gen_wave(5 * row + 3 * col) / 16 * 15 + (int32_t)(gen_u32() % 1024) - 512;
    }
}
// Samples that are each one end of their range.
static inline void gen_ends(int32_t *s, unsigned N) {
    for (uint32_t p = 0; p < 1u << 2 * N; p++) s[p] = gen_u32() & 1 ? -32768 : 32767;
}
#endif
