// The two orders of places: row and column bits interleaved, the row's above the column's. A byte is spread by a table.
#include "nls.h"

#define BIT(x, k) (((x) >> (k) & 1) << 2 * (k))
#define BYTE(x) BIT(x, 0) | BIT(x, 1) | BIT(x, 2) | BIT(x, 3) | BIT(x, 4) | BIT(x, 5) | BIT(x, 6) | BIT(x, 7)
#define FOUR(x) BYTE(x), BYTE((x) + 1), BYTE((x) + 2), BYTE((x) + 3)
#define ROW(x) FOUR(x), FOUR((x) + 4), FOUR((x) + 8), FOUR((x) + 12)
#define ROWS(x) ROW(x), ROW((x) + 16), ROW((x) + 32), ROW((x) + 48)

static const uint16_t spreads[256] = {ROWS(0), ROWS(64), ROWS(128), ROWS(192)};

static inline uint32_t spread(uint32_t x) { return spreads[x % 256] + ((uint32_t)spreads[x / 256] << 16); }

void nls_plain_linear(const int32_t *raster, unsigned N, int32_t *linear) {
    uint32_t side = 1u << N;
    for (uint32_t row = 0; row < side; row++) {
        uint32_t first = 2 * spread(row);
        for (uint32_t col = 0; col < side; col++) linear[first + spread(col)] = raster[(row << N) + col];
    }
}

void nls_plain_raster(const int32_t *linear, unsigned N, int32_t *raster) {
    uint32_t side = 1u << N;
    for (uint32_t row = 0; row < side; row++) {
        uint32_t first = 2 * spread(row);
        for (uint32_t col = 0; col < side; col++) raster[(row << N) + col] = linear[first + spread(col)];
    }
}
