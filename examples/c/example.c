/* Encodes a small picture, decodes it whole, cut and stored small, and shows what a damaged file is answered. README.md has the
 * commands. */
#include <stdio.h>
#include <stdlib.h>

#include "txp.h"

enum { N = 3, L = 2, SIDE = 8, ALL = SIDE * SIDE };

/* Prints a refusal and ends the program. */
static void stop(const char *call, const txp_answer *answer)
{
    printf("%s: refusal %u at place %u: %s\n", call, (unsigned)answer->refusal, (unsigned)answer->place,
           txp_refusal_text(answer->refusal));
    exit(1);
}

/* The first row of a picture, each value as the float that an audio engine takes. `raster` is room for all of it. */
static void print_row(uint32_t n, const int32_t *linear, int32_t *raster)
{
    const size_t all = TXP_ENTRIES(n);
    txp_answer answer;
    if (txp_to_raster(n, linear, all, raster, all, &answer) != TXP_DONE) {
        stop("txp_to_raster", &answer);
    }
    for (int col = 0; col < 1 << n; col++) {
        float value;
        if (txp_float(raster[col], &value, &answer) != TXP_DONE) {
            stop("txp_float", &answer);
        }
        printf(" %g", (double)value);
    }
    printf("\n");
}

/* How many of the coefficients are known down to the plane in progress: their precision is below `last`, the last finished plane. */
static size_t known(const uint8_t *precisions, size_t all, uint32_t last)
{
    size_t count = 0;
    for (size_t i = 0; i < all; i++) {
        count += precisions[i] < last;
    }
    return count;
}

/* Decodes the first bytes of a file, and prints why its bits ended and how near the values are; of a file that is not whole, whose
 * values are those of a rule, the row by both: as txp_decode has it, known bits as they are, and by the midpoint. The header says how
 * much is to be lent. */
static void show(const uint8_t *file, size_t bytes)
{
    txp_answer answer;
    printf("%3zu bytes: ", bytes);
    if (txp_header(file, bytes, &answer) != TXP_DONE) {
        printf("refusal %u at place %u\n", (unsigned)answer.refusal, (unsigned)answer.place);
        return;
    }
    const uint32_t n = answer.n;
    const size_t all = TXP_ENTRIES(n);
    int32_t *values = malloc(2 * all * sizeof *values);
    uint8_t *tables = malloc(2 * all);
    if (values == NULL || tables == NULL) {
        printf("no memory\n");
    } else if (txp_decode(file, bytes, values, all, tables, all, tables + all, all, &answer) != TXP_DONE) {
        printf("refusal %u at place %u\n", (unsigned)answer.refusal, (unsigned)answer.place);
    } else {
        printf("%s, %u of %u bits, %u of %u planes", txp_ending_text(answer.ending), (unsigned)answer.bits,
               (unsigned)answer.declared, (unsigned)answer.finished, (unsigned)answer.planes);
        if (answer.finished < answer.planes) {
            printf(" and of the next %zu of %zu", known(tables, all, answer.planes - answer.finished), all);
        }
        printf(", worst error %u; row 0:", (unsigned)answer.error);
        print_row(n, values, values + all);
        if (answer.ending != TXP_WHOLE) {
            if (txp_decode_midpoint(file, bytes, values, all, tables, all, tables + all, all, &answer) != TXP_DONE) {
                stop("txp_decode_midpoint", &answer);
            }
            printf("           by the midpoint:");
            print_row(n, values, values + all);
        }
    }
    free(values);
    free(tables);
}

int main(void)
{
    int32_t raster[ALL], linear[ALL];
    uint32_t desc[TXP_DESC(N)], grand[TXP_GRAND(N)];
    uint8_t marks[ALL], file[TXP_MOST_FILE(N)];
    txp_answer answer;

    /* A ramp along the rows and down the columns, the larger the nearer to the first corner. */
    for (int row = 0; row < SIDE; row++) {
        for (int col = 0; col < SIDE; col++) {
            int32_t size = 1000 / (1 + row * row + col * col);
            raster[row * SIDE + col] = (row + col) % 3 == 2 ? -size : size;
        }
    }
    if (txp_to_linear(N, raster, ALL, linear, ALL, &answer) != TXP_DONE) {
        stop("txp_to_linear", &answer);
    }
    if (txp_encode(N, L, linear, ALL, desc, TXP_DESC(N), grand, TXP_GRAND(N), marks, ALL, file, sizeof file, TXP_NO_BUDGET,
                   &answer) != TXP_DONE) {
        stop("txp_encode", &answer);
    }
    const size_t bytes = answer.bytes;
    printf("file: %zu bytes, %u bits, P = %u\n", bytes, (unsigned)answer.bits, (unsigned)answer.planes);

    for (size_t cut = TXP_HEADER_SIZE; cut < bytes; cut += 16) {
        show(file, cut);
    }
    show(file, bytes);

    /* The same picture stored small on purpose, in a body of 256 bits, and that file cut. */
    uint8_t small[TXP_HEADER_SIZE + 256 / 8];
    if (txp_encode(N, L, linear, ALL, desc, TXP_DESC(N), grand, TXP_GRAND(N), marks, ALL, small, sizeof small, 256, &answer)
        != TXP_DONE) {
        stop("txp_encode", &answer);
    }
    show(small, sizeof small);
    show(small, sizeof small - 16);

    file[TXP_HEADER_SIZE + 2] = 0; /* a damaged body, */
    show(file, bytes);
    file[4] = 2; /* another version, */
    show(file, bytes);
    show(file, 11); /* and a file that is shorter than its header */
    return 0;
}
