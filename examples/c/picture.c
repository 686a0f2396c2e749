/* Takes a picture of samples to a TXP file and back, whole and cut, and shows what is refused. README.md has the commands. */
#include <stdio.h>
#include <stdlib.h>

#include "txp.h"

enum { N = 4, L = 3, SIDE = 16, ALL = SIDE * SIDE };

/* Ends the program unless all is as it has to be. */
static void expect(int fine, const char *what, const txp_answer *answer)
{
    if (!fine) {
        printf("%s: refusal %u at place %u: %s\n", what, (unsigned)answer->refusal, (unsigned)answer->place,
               txp_refusal_text(answer->refusal));
        exit(1);
    }
}

/* A tone that fades from row to row, a wave of parabolas. A loud one is cut off at the ends of the 16-bit range. */
static void play(int32_t loudness, int32_t *samples)
{
    for (int32_t row = 0; row < SIDE; row++) {
        for (int32_t col = 0; col < SIDE; col++) {
            const int32_t t = (2 * row + 5 * col) % 64, x = t % 32;
            const int32_t wave = x * (32 - x) * (t < 32 ? 1 : -1) * (SIDE - row) * loudness / 16;
            samples[row * SIDE + col] = wave > 32767 ? 32767 : wave < -32768 ? -32768 : wave;
        }
    }
}

/* Writes the file of a picture of samples, and gives back its length. */
static size_t store(const int32_t *samples, uint8_t file[TXP_MOST_FILE(N)])
{
    int32_t coefs[ALL], work[ALL];
    uint32_t desc[TXP_DESC(N)], grand[TXP_GRAND(N)];
    uint8_t marks[ALL];
    txp_answer answer;
    expect(txp_transform(N, L, samples, ALL, coefs, ALL, work, ALL, &answer) == TXP_DONE, "txp_transform", &answer);
    expect(txp_encode(N, L, coefs, ALL, desc, TXP_DESC(N), grand, TXP_GRAND(N), marks, ALL, file, TXP_MOST_FILE(N), TXP_NO_BUDGET,
                      &answer) == TXP_DONE, "txp_encode", &answer);
    printf("file: %u bytes, P = %u\n", (unsigned)answer.bytes, (unsigned)answer.planes);
    return answer.bytes;
}

/* The calls that decode a file. They differ in the rule that makes the values of a cut one: known bits as they are, and the midpoint. */
typedef uint32_t decoding(const uint8_t *file, size_t file_len, int32_t *values, size_t values_len, uint8_t *precisions,
                          size_t precisions_len, uint8_t *marks, size_t marks_len, txp_answer *answer);
static const struct {
    const char *name;
    decoding *decode;
} rules[] = {{"lower", txp_decode}, {"midpoint", txp_decode_midpoint}};

/* Makes samples of the first bytes of a file by rule `r`, prints how far they are from those that were stored, and gives this back;
 * -1 where there are none. */
static int32_t load(int r, const uint8_t *file, size_t bytes, const int32_t *stored)
{
    int32_t values[ALL], samples[ALL], work[ALL], most = 0;
    uint8_t precisions[ALL], marks[ALL];
    txp_answer answer;
    expect(rules[r].decode(file, bytes, values, ALL, precisions, ALL, marks, ALL, &answer) == TXP_DONE, rules[r].name, &answer);
    printf("%4zu bytes, %2u of %u planes, %8s: ", bytes, (unsigned)answer.finished, (unsigned)answer.planes, rules[r].name);
    if (txp_restore(N, L, values, ALL, samples, ALL, work, ALL, &answer) != TXP_DONE) {
        printf("refusal %u: %s\n", (unsigned)answer.refusal, txp_refusal_text(answer.refusal));
        return -1;
    }
    for (int p = 0; p < ALL; p++) {
        const int32_t difference = abs(samples[p] - stored[p]);
        most = difference > most ? difference : most;
    }
    printf("off by at most %d; row 0:", (int)most);
    for (int col = 0; col < 8; col++) {
        printf(" %d", (int)samples[col]);
    }
    printf("\n");
    return most;
}

int main(int argc, char **argv)
{
    int32_t samples[ALL], coefs[ALL], work[ALL];
    uint8_t file[TXP_MOST_FILE(N)];
    txp_answer answer = {0};

    /* The whole file gives every sample back, and a part of it something near. It is kept where a name is given. */
    play(64, samples);
    size_t bytes = store(samples, file);
    for (size_t cut = 3 * TXP_HEADER_SIZE; cut < bytes; cut *= 3) {
        for (int r = 0; r < 2; r++) {
            load(r, file, cut, samples);
        }
    }
    for (int r = 0; r < 2; r++) {
        expect(load(r, file, bytes, samples) == 0, "other samples than those stored", &answer);
    }
    if (argc == 2) {
        FILE *to = fopen(argv[1], "wb");
        expect(to != NULL && fwrite(file, 1, bytes, to) == bytes && fclose(to) == 0, "the file was not written", &answer);
    }

    /* So loud that samples stand at the ends of their range: what is only near may lie outside. */
    play(1024, samples);
    bytes = store(samples, file);
    for (int r = 0; r < 2; r++) {
        load(r, file, bytes / 2, samples);
    }
    expect(load(0, file, bytes, samples) == 0, "other samples than those stored", &answer);

    samples[3 * SIDE + 5] = 32768; /* no sample of 16 bits */
    expect(txp_transform(N, L, samples, ALL, coefs, ALL, work, ALL, &answer) == TXP_REFUSED_SAMPLE, "txp_transform", &answer);
    printf("refusal %u at place %u: %s\n", (unsigned)answer.refusal, (unsigned)answer.place, txp_refusal_text(answer.refusal));
    return 0;
}
