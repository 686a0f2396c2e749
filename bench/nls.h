// The coders of the benchmark, in C11: the body of a texture stream. Arrays are in linear order; the caller lends every table.
#ifndef NLS_H
#define NLS_H
#include <stddef.h>
#include <stdint.h>
#include <stdlib.h>

enum { NLS_LIMIT = 16777215, NLS_MAX_N = 10 };
enum { NONE, MIP, MNP, MSP, MCP, MD, MG, MN2 }; // MNk is k + 5

typedef struct {
    uint32_t no, place;  // refusal (0: none) and its place or bit
    uint32_t bits;       // bits written or used
    uint32_t planes;     // P
    uint32_t finished;   // planes finished
    uint32_t worst;      // worst error, 2^k - 1 (decoder)
} nls_result;

// A coder is a pair of these. body has room for min(budget, worst body) bits; no byte past the bits written is touched.
typedef nls_result nls_encoder(const int32_t *coef, unsigned N, unsigned L, uint32_t budget, uint32_t *desc,
                               uint32_t *grand, uint8_t *marks, uint8_t *body);
typedef nls_result nls_decoder(const uint8_t *body, uint32_t bits, unsigned N, unsigned L, unsigned P, int32_t *values,
                               uint8_t *prec, uint8_t *marks);
nls_encoder nls_plain_encode, nls_fast_encode, nls_list_encode, txp_bench_encode;
nls_decoder nls_plain_decode, nls_fast_decode, nls_list_decode, txp_bench_decode, txp_bench_lower;

// The value by the rule of txp_bench_lower where that of the others gives `value`: without its bits below the precision.
static inline int32_t nls_lower(int32_t value, unsigned precision) {
    int32_t size = abs(value) >> precision << precision;
    return value < 0 ? -size : size;
}

// OR of magnitudes over DESC and GRAND; returns the OR of all magnitudes.
uint32_t nls_summaries(const int32_t *coef, unsigned N, unsigned L, uint32_t *desc, uint32_t *grand);

// The planes of an array of 4^N coefficients.
unsigned nls_plain_planes(const int32_t *coef, unsigned N);

// An array of 4^N entries in the other order.
typedef void nls_order(const int32_t *from, unsigned N, int32_t *to);
nls_order nls_plain_linear, nls_plain_raster;

// The S transform of 4^N samples into as many coefficients, L levels, and back. Each array has its length beside it.
typedef nls_result nls_transform(unsigned N, unsigned L, const int32_t *from, size_t from_len, int32_t *to, size_t to_len,
                                 int32_t *work, size_t work_len);
nls_transform nls_plain_transform, nls_plain_restore, nls_fast_transform, nls_fast_restore;
#endif
