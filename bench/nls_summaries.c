// The summaries, and the planes.
#include "nls.h"

static inline uint32_t mag(int32_t v) { return v < 0 ? 0u - (uint32_t)v : (uint32_t)v; }

uint32_t nls_summaries(const int32_t *coef, unsigned N, unsigned L, uint32_t *desc, uint32_t *grand) {
    uint32_t I = 1u << 2 * N, D = 1u << 2 * (N - L), all = 0;
    for (uint32_t i = I / 4; i-- > I / 16;)
        desc[i] = mag(coef[4 * i]) | mag(coef[4 * i + 1]) | mag(coef[4 * i + 2]) | mag(coef[4 * i + 3]);
    // Entries below D/4 hold 0; for L = 1, D/4 = I/16.
    for (uint32_t i = I / 16; i-- > D / 4;) {
        uint32_t g = desc[4 * i] | desc[4 * i + 1] | desc[4 * i + 2] | desc[4 * i + 3];
        grand[i] = g;
        desc[i] = g | mag(coef[4 * i]) | mag(coef[4 * i + 1]) | mag(coef[4 * i + 2]) | mag(coef[4 * i + 3]);
    }
    for (uint32_t i = 0; i < D / 4; i++) desc[i] = 0;
    for (uint32_t i = 0; i < D / 4 && i < I / 16; i++) grand[i] = 0;
    for (uint32_t i = 0; i < D; i++) all |= mag(coef[i]);
    for (uint32_t i = D / 4; i < D; i++) all |= desc[i];
    return all;
}

unsigned nls_plain_planes(const int32_t *coef, unsigned N) {
    uint32_t all = 0;
    unsigned planes = 0;
    for (uint32_t i = 0; i < 1u << 2 * N; i++) all |= mag(coef[i]);
    while (all >> planes) planes++;
    return planes;
}
