/* Turns a dial over a TXP file, up to its last bit and down again, and prints what stands at each position. README.md has the
 * commands. */
#include <stdio.h>
#include <stdlib.h>
#include <string.h>

#include "txp.h"

enum { MOST_POSITIONS = 24 };

static uint8_t file[TXP_MOST_FILE(TXP_MOST_N)];

/* A body and where the dial stands in it: the record, and three tables of `all` entries each, which lie one behind the other. */
typedef struct dial {
    const uint8_t *body;
    size_t body_len, all;
    uint32_t declared, usable;
    txp_record record;
    int32_t *values;
    uint8_t *precisions, *marks;
} dial;

/* What stood at a position on the way up. */
typedef struct position {
    txp_record record;
    void *tables;
} position;

/* Ends the program unless all is as it has to be. */
static void expect(int fine, const char *what, const txp_answer *answer)
{
    if (!fine) {
        printf("%s: refusal %u at place %u: %s\n", what, (unsigned)answer->refusal, (unsigned)answer->place,
               txp_refusal_text(answer->refusal));
        exit(1);
    }
}

/* Prints where the dial stands, why the bits end there or that they go on, how many coefficients are known down to the plane in progress,
 * and the first values of row 0. */
static void show(const char *way, const dial *at, const txp_answer *answer)
{
    const uint32_t left = at->record.planes - answer->finished;
    size_t known = 0;
    expect(answer->bits == at->record.used && answer->error == ((uint32_t)1 << left) - 1, "another answer than the record's", answer);
    for (size_t i = 0; i < at->all; i++) {
        known += at->precisions[i] < left;
    }
    printf("%-4s %3u of %u bits, %s, %u of %u planes", way, (unsigned)answer->bits, (unsigned)at->usable,
           txp_ending_text(answer->ending), (unsigned)answer->finished, (unsigned)at->record.planes);
    if (left > 0) {
        printf(" and of the next %zu of %zu", known, at->all);
    }
    printf(", worst error %u; row 0:", (unsigned)answer->error);
    for (uint32_t col = 0; col < 8 && col < 1u << at->record.n; col++) {
        txp_answer place;
        expect(txp_linear_place(at->record.n, col, &place) == TXP_DONE, "txp_linear_place", &place);
        printf(" %d", (int)at->values[place.value]);
    }
    printf("\n");
}

int main(int argc, char **argv)
{
    txp_answer answer, no;
    FILE *from = argc == 2 ? fopen(argv[1], "rb") : NULL;
    if (from == NULL) {
        printf("usage: dial FILE\n");
        return 1;
    }
    const size_t bytes = fread(file, 1, sizeof file, from);
    fclose(from);

    /* The header says how much is to be lent. */
    expect(txp_header(file, bytes, &answer) == TXP_DONE, "txp_header", &answer);
    dial d = {.body = file + TXP_HEADER_SIZE, .body_len = bytes - TXP_HEADER_SIZE, .all = TXP_ENTRIES(answer.n)};
    const size_t size = d.all * (sizeof *d.values + 2);
    d.declared = answer.declared;
    d.usable = answer.declared < 8 * d.body_len ? answer.declared : (uint32_t)(8 * d.body_len);
    d.values = malloc(size);
    expect(d.values != NULL, "no memory", &answer);
    d.precisions = (uint8_t *)(d.values + d.all);
    d.marks = d.precisions + d.all;
    expect(txp_start(&d.record, answer.n, answer.l, answer.planes, d.values, d.all, d.precisions, d.all, d.marks, d.all,
                     &answer) == TXP_DONE, "txp_start", &answer);

    /* Up in uneven steps, each by one call; what stands at each position is kept. Then one bit more than there is. */
    position seen[MOST_POSITIONS];
    size_t count = 0;
    for (uint32_t to = 0; count == 0 || d.record.used < d.usable; to = 3 * to + 10 < d.usable ? 3 * to + 10 : d.usable) {
        expect(txp_turn(&d.record, d.body, d.body_len, d.declared, to, d.values, d.all, d.precisions, d.all, d.marks, d.all,
                        &answer) == TXP_DONE, "txp_turn", &answer);
        show("up", &d, &answer);
        seen[count] = (position){d.record, malloc(size)};
        expect(seen[count].tables != NULL, "no memory", &answer);
        memcpy(seen[count++].tables, d.values, size);
    }
    expect(txp_forward(&d.record, d.body, d.body_len, d.declared, d.values, d.all, d.precisions, d.all, d.marks, d.all,
                       &no) == TXP_REFUSED_SPENT, "txp_forward", &no);
    printf("up   refusal %u: %s\n", (unsigned)no.refusal, txp_refusal_text(no.refusal));

    /* Down bit by bit: at each position all is as it was on the way up. Then one bit more. */
    while (count-- > 0) {
        while (d.record.used > seen[count].record.used) {
            expect(txp_back(&d.record, d.body, d.body_len, d.declared, d.values, d.all, d.precisions, d.all, d.marks, d.all,
                            &answer) == TXP_DONE, "txp_back", &answer);
        }
        show("down", &d, &answer);
        expect(memcmp(&d.record, &seen[count].record, sizeof d.record) == 0, "another record than on the way up", &answer);
        expect(memcmp(d.values, seen[count].tables, size) == 0, "other tables than on the way up", &answer);
        free(seen[count].tables);
    }
    expect(txp_back(&d.record, d.body, d.body_len, d.declared, d.values, d.all, d.precisions, d.all, d.marks, d.all,
                    &no) == TXP_REFUSED_FIRST, "txp_back", &no);
    printf("down refusal %u: %s\n", (unsigned)no.refusal, txp_refusal_text(no.refusal));
    free(d.values);
    return 0;
}
