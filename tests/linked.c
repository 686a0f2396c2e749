/* Holds the linked library to the second coder's cases: tests/linked.sh builds and runs it. It reads the cases on standard input, in
 * the format of tests/VECTORS.md, and prints what the program `second` prints for them. Each call is made on lent buffers that hold
 * a known pattern, with entries before and behind them that are not lent; the answer and every entry are compared. */
#include <stdbool.h>
#include <stdio.h>
#include <stdlib.h>
#include <string.h>

#include "txp.h"

enum { PAST = 64 };                                    /* entries behind a lent buffer that are compared, and before it */
enum { LENT = 1048576 + 64 };                          /* the most that is lent: a little more than N = 10 needs */
enum { NUMBERS = 4, ANSWER = 17, MOST = LENT + PAST }; /* the most that a list has */
enum { DESC, GRAND, MARKS, BYTES, VALUES, TABLES };
static const size_t width[TABLES] = {4, 4, 1, 1, 4};

_Static_assert(sizeof(txp_answer) == 16 * sizeof(uint32_t), "the answer is lent as 16 numbers");
_Static_assert(sizeof(txp_record) == 8 * sizeof(uint32_t), "the record is lent as 8 numbers");

/* ---- the cases */

/* Numbers of 32 bits; one below 0 is the 32 bits of its complement. */
typedef struct {
    uint32_t items[MOST];
    size_t count;
} list;

/* The lists of a case, in the order in which they stand in a line. */
static struct {
    list numbers, answer, lent, ints, file, after[TABLES];
} now;

/* A decimal number below 2^32; NULL where there is none. */
static const char *decimal(const char *at, uint32_t *x)
{
    uint64_t value = 0;
    const char *from = at;
    for (; at != NULL && *at >= '0' && *at <= '9'; at++) {
        value = value * 10 + (uint64_t)(*at - '0');
        if (value > UINT32_MAX) {
            return NULL;
        }
    }
    *x = (uint32_t)value;
    return at == from ? NULL : at;
}

/* A length and the items: NUMBER, or ~BACK for the number BACK places before, and *COUNT behind it for COUNT of them. At the end of
 * the line the list is empty. The place behind it, NULL where it is none. */
static const char *read(const char *at, list *l, size_t most)
{
    uint32_t count = 0, x, times;
    l->count = 0;
    if (at == NULL || *at == '\0') {
        return at;
    }
    at = *at == ' ' ? decimal(at + 1, &count) : NULL;
    if (at == NULL || count > most) {
        return NULL;
    }
    while (l->count < count) {
        if (*at != ' ') {
            return NULL;
        }
        bool negative = at[1] == '-', again = at[1] == '~';
        at = decimal(at + 1 + (negative || again), &x);
        if (at == NULL || (negative && (x == 0 || x > UINT32_C(1) << 31)) || (again && (x == 0 || x > l->count))) {
            return NULL;
        }
        times = 1;
        if (*at == '*') {
            at = decimal(at + 1, &times);
        }
        if (at == NULL || times == 0 || times > count - l->count) {
            return NULL;
        }
        for (; times > 0; times--, l->count++) {
            l->items[l->count] = again ? l->items[l->count - x] : negative ? UINT32_MAX - x + 1 : x;
        }
    }
    return at;
}

static const char *read_case(const char *line)
{
    const char *at = read(line + 1, &now.numbers, NUMBERS);
    at = read(at, &now.answer, ANSWER);
    at = read(at, &now.lent, TABLES);
    at = read(at, &now.ints, MOST);
    at = read(at, &now.file, MOST);
    for (int k = 0; k < TABLES; k++) {
        at = read(at, &now.after[k], MOST);
    }
    return at;
}

/* A list's number, 0 past its end. */
static uint32_t number(const list *l, size_t i)
{
    return i < l->count ? l->items[i] : 0;
}

/* ---- lent buffers */

typedef struct {
    uint8_t *whole, *lent; /* lent begins PAST entries behind whole */
    size_t width, count;   /* bytes of an entry; entries that are lent */
} buffer;

/* What an entry holds before a call; i counts from the first that is lent, and wraps for those before it. */
static uint32_t before(size_t i)
{
    return UINT32_C(0xa00000a0) + (uint32_t)(i % 65536) * 256 + (uint32_t)(i % 93);
}

static void put(uint8_t *to, size_t bytes, uint32_t x)
{
    if (bytes == 1) {
        *to = (uint8_t)x;
    } else {
        memcpy(to, &x, 4);
    }
}

static buffer lend(size_t bytes, size_t count)
{
    buffer b = {malloc((count + 2 * PAST) * bytes), NULL, bytes, count};
    if (b.whole == NULL) {
        fprintf(stderr, "linked: no memory\n");
        exit(2);
    }
    b.lent = b.whole + PAST * bytes;
    for (size_t i = 0; i < count + 2 * PAST; i++) {
        put(b.whole + i * bytes, bytes, before(i - PAST));
    }
    return b;
}

/* An input, in a buffer of its own length. */
static buffer input(size_t bytes, const list *l)
{
    buffer b = lend(bytes, l->count);
    for (size_t i = 0; i < l->count; i++) {
        put(b.lent + i * bytes, bytes, l->items[i]);
    }
    return b;
}

/* Whether a buffer begins with a list's numbers, and holds what it held before everywhere else. */
static bool holds(buffer b, const list *l)
{
    uint8_t x[4];
    for (size_t i = 0; i < b.count + 2 * PAST; i++) {
        bool own = i >= PAST && i - PAST < l->count;
        put(x, b.width, own ? l->items[i - PAST] : before(i - PAST));
        if (memcmp(b.whole + i * b.width, x, b.width) != 0) {
            return false;
        }
    }
    return true;
}

/* ---- the calls */

typedef struct {
    buffer coefs, file, table[TABLES];
    struct {
        txp_answer first, answer, last;
    } answered;
} lent_case;

/* Whether the figures of all planes at once are those of each plane by itself, and nothing past them is touched. */
static bool all_figures_agree(const uint32_t *n, const int32_t *coefs, size_t coefs_len)
{
    static uint32_t desc[TXP_DESC(TXP_MOST_N)], grand[TXP_GRAND(TXP_MOST_N)];
    uint32_t all[TXP_ALL_FIGURES + 1];
    memset(all, 0xa5, sizeof all);
    const uint32_t past = all[TXP_ALL_FIGURES];
    txp_answer one, every;
    uint32_t result = txp_figures_all(n[0], n[1], coefs, coefs_len, desc, TXP_DESC(TXP_MOST_N), grand, TXP_GRAND(TXP_MOST_N), all,
                                      TXP_ALL_FIGURES, &every);
    for (uint32_t b = 0; b < TXP_MOST_PLANES; b++) {
        uint32_t *held = all + 4 * b;
        if (txp_figures(n[0], n[1], coefs, coefs_len, b, desc, TXP_DESC(TXP_MOST_N), grand, TXP_GRAND(TXP_MOST_N), &one) != result) {
            return false;
        }
        if (result == TXP_DONE
            && (held[0] != one.parts || held[1] != one.splits || held[2] != one.bits || held[3] != one.found)) {
            return false;
        }
        if (result != TXP_DONE && (held[0] != past || held[1] != past || held[2] != past || held[3] != past)) {
            return false;
        }
    }
    return all[TXP_ALL_FIGURES] == past
        && txp_figures_all(n[0], n[1], coefs, coefs_len, desc, TXP_DESC(TXP_MOST_N), grand, TXP_GRAND(TXP_MOST_N), all,
                           TXP_ALL_FIGURES - 1, &every) == (result == TXP_DONE ? TXP_REFUSED_LENT : result);
}

/* What a step is lent: the record, with numbers before and behind it that are not, the body and the tables. */
typedef struct {
    struct {
        uint32_t before[4];
        txp_record record;
        uint32_t behind[4];
    } held;
    const uint8_t *body;
    size_t body_len;
    uint32_t declared;
    buffer values, precisions, marks;
} stepped;

static uint32_t step(char letter, stepped *s, uint32_t to, txp_answer *answer)
{
    int32_t *values = (int32_t *)s->values.lent;
    uint8_t *precisions = s->precisions.lent, *marks = s->marks.lent;
    size_t values_len = s->values.count, precisions_len = s->precisions.count, marks_len = s->marks.count;
    txp_record *record = &s->held.record;
    switch (letter) {
    case 'f':
        return txp_forward(record, s->body, s->body_len, s->declared, values, values_len, precisions, precisions_len, marks,
                           marks_len, answer);
    case 'b':
        return txp_back(record, s->body, s->body_len, s->declared, values, values_len, precisions, precisions_len, marks, marks_len,
                        answer);
    default:
        return txp_turn(record, s->body, s->body_len, s->declared, to, values, values_len, precisions, precisions_len, marks,
                        marks_len, answer);
    }
}

/* A start, and then each command: 2^32 - 1 is a step forward, 2^32 - 2 one back, any other number a turn to it. */
static uint32_t dial(const uint32_t *n, stepped *s, txp_answer *answer)
{
    uint32_t result = txp_start(&s->held.record, n[0], n[1], n[2], (int32_t *)s->values.lent, s->values.count, s->precisions.lent,
                                s->precisions.count, s->marks.lent, s->marks.count, answer);
    for (size_t i = 0; i < now.ints.count; i++) {
        uint32_t to = now.ints.items[i];
        result = step(to == UINT32_MAX ? 'f' : to == UINT32_MAX - 1 ? 'b' : 't', s, to, answer);
    }
    return result;
}

/* Gives the record, from one of its numbers on, and the first entries of each table what the case has for them: the record, and then
 * all that is lent of values, precisions and marks. */
static void give(stepped *s, size_t from, size_t entries)
{
    uint32_t record[8];
    memcpy(record, &s->held.record, sizeof record);
    for (size_t i = from; i < 8 && i < now.ints.count; i++) {
        record[i] = now.ints.items[i];
    }
    memcpy(&s->held.record, record, sizeof record);
    const buffer tables[] = {s->values, s->precisions, s->marks};
    size_t at = 8;
    for (size_t k = 0; k < 3; k++) {
        for (size_t i = 0; i < tables[k].count && at < now.ints.count; i++, at++) {
            if (i < entries) {
                put(tables[k].lent + i * tables[k].width, tables[k].width, now.ints.items[at]);
            }
        }
    }
}

/* A step on a record and tables that are given. Where `own` is not 0 no prefix leaves such tables: what the step may have changed
 * is given again, and all that is asked of the answer is that it is one that a step on a record in range can have. */
static uint32_t given(char letter, const uint32_t *n, stepped *s, txp_answer *answer)
{
    uint32_t own = n[2];
    give(s, 0, SIZE_MAX);
    uint32_t result = step(letter, s, n[1], answer);
    if (own == 0) {
        return result;
    }
    if (result == TXP_DONE || letter == 't') {
        give(s, 3, own);
    }
    if ((result != TXP_DONE && (result < TXP_REFUSED_CONTRADICTION || result > TXP_REFUSED_SPENT)) || answer->refusal != result) {
        return ~(uint32_t)1;
    }
    memset(answer, 0, sizeof *answer);
    return TXP_DONE;
}

/* The calls of the stepped decoder. The record is in the table of DESC before and after. */
static uint32_t steps(char letter, const uint32_t *n, lent_case *c, txp_answer *answer)
{
    stepped s = {.body = c->file.lent, .body_len = c->file.count, .declared = n[letter == 'Y' ? 3 : 0],
                 .values = c->table[VALUES], .precisions = c->table[BYTES], .marks = c->table[MARKS]};
    memset(&s.held, 0x5a, sizeof s.held);
    const uint32_t past = s.held.before[0];
    const buffer desc = c->table[DESC];
    size_t bytes = desc.count < 8 ? 4 * desc.count : 32;
    memcpy(&s.held.record, desc.lent, bytes);
    uint32_t result = letter == 'Y' ? dial(n, &s, answer) : given(letter, n, &s, answer);
    memcpy(desc.lent, &s.held.record, bytes);
    for (size_t i = 0; i < 4; i++) {
        if (s.held.before[i] != past || s.held.behind[i] != past) {
            return ~(uint32_t)1;
        }
    }
    return result;
}

/* The result of the call, UINT32_MAX for a letter that is not known. */
static uint32_t call(char letter, lent_case *c)
{
    uint32_t n[NUMBERS];
    for (int k = 0; k < NUMBERS; k++) {
        n[k] = number(&now.numbers, (size_t)k);
    }
    const int32_t *coefs = (int32_t *)c->coefs.lent;
    const uint8_t *file = c->file.lent;
    size_t coefs_len = c->coefs.count, file_len = c->file.count;
    const buffer *t = c->table;
    uint32_t *desc = (uint32_t *)t[DESC].lent, *grand = (uint32_t *)t[GRAND].lent;
    uint8_t *marks = t[MARKS].lent, *bytes = t[BYTES].lent;
    int32_t *values = (int32_t *)t[VALUES].lent, *work = (int32_t *)t[DESC].lent;
    int32_t x = coefs_len > 0 ? coefs[0] : 0;
    txp_answer *answer = &c->answered.answer;
    switch (letter) {
    case 'E':
        return txp_encode(n[0], n[1], coefs, coefs_len, desc, t[DESC].count, grand, t[GRAND].count, marks, t[MARKS].count, bytes,
                          t[BYTES].count, n[2], answer);
    case 'B':
        return txp_encode_body(n[0], n[1], coefs, coefs_len, desc, t[DESC].count, grand, t[GRAND].count, marks, t[MARKS].count,
                               bytes, t[BYTES].count, n[2], n[3], answer);
    case 'D':
    case 'd':
        return (letter == 'D' ? txp_decode : txp_decode_midpoint)(file, file_len, values, t[VALUES].count, bytes, t[BYTES].count,
                                                                  marks, t[MARKS].count, answer);
    case 'C':
    case 'c':
        return (letter == 'C' ? txp_decode_body : txp_decode_body_midpoint)(n[0], n[1], n[2], file, file_len, n[3], values,
                                                                            t[VALUES].count, bytes, t[BYTES].count, marks,
                                                                            t[MARKS].count, answer);
    case 'Y':
    case 'f':
    case 'b':
    case 't':
        return steps(letter, n, c, answer);
    case 'x':
        return txp_transform(n[0], n[1], coefs, coefs_len, values, t[VALUES].count, work, t[DESC].count, answer);
    case 'r':
        return txp_restore(n[0], n[1], coefs, coefs_len, values, t[VALUES].count, work, t[DESC].count, answer);
    case 'S':
        return txp_summaries(n[0], n[1], coefs, coefs_len, desc, t[DESC].count, grand, t[GRAND].count, answer);
    case 'G':
        if (!all_figures_agree(n, coefs, coefs_len)) {
            return ~(uint32_t)0;
        }
        return txp_figures(n[0], n[1], coefs, coefs_len, n[2], desc, t[DESC].count, grand, t[GRAND].count, answer);
    case 'O':
        return txp_to_linear(n[0], coefs, coefs_len, values, t[VALUES].count, answer);
    case 'Q':
        return txp_to_raster(n[0], coefs, coefs_len, values, t[VALUES].count, answer);
    case 'J': {
        int32_t y = t[VALUES].count > 0 ? values[0] : 0;
        uint32_t result = txp_join(n[0], n[1], &y, answer);
        if (t[VALUES].count > 0) {
            values[0] = y;
        }
        return result;
    }
    case 'F': {
        float f = 0.5f;
        uint32_t result = txp_float(x, &f, answer);
        if (t[DESC].count > 0) {
            memcpy(desc, &f, 4);
        }
        return result;
    }
    case 'U':
        return txp_put_bit(bytes, t[BYTES].count, n[0], n[1], answer);
    case 'W':
        return txp_worst_body(n[0], n[1], n[2], answer);
    case 'I':
        return txp_linear_place(n[0], n[1], answer);
    case 'R':
        return txp_raster_place(n[0], n[1], answer);
    case 'P':
        return txp_planes(coefs, coefs_len, answer);
    case 'N':
        return txp_is_negative(x, answer);
    case 'M':
        return txp_magnitude(x, answer);
    case 'T':
        return txp_part(x, answer);
    case 'X':
        return txp_bit(n[0], n[1], answer);
    case 'V':
        return txp_read_bit(file, file_len, n[0], n[1], answer);
    case 'K':
        return txp_side_fits(n[0], answer);
    case 'H':
        return txp_header(file, file_len, answer);
    case 'L':
        return txp_levels_fit(n[0], n[1], answer);
    case 'A':
        return txp_all(n[0], answer);
    case 'Z':
        return txp_coarsest(n[0], n[1], answer);
    default:
        return UINT32_MAX;
    }
}

typedef enum { AGREES, DIFFERS, MALFORMED } verdict;

static verdict judge(const char *line)
{
    const char *end = line[0] == '\0' ? NULL : read_case(line);
    if (end == NULL || *end != '\0') {
        return MALFORMED;
    }
    lent_case c = {.coefs = input(4, &now.ints), .file = input(1, &now.file)};
    for (size_t k = 0; k < TABLES; k++) {
        size_t count = number(&now.lent, k);
        c.table[k] = lend(width[k], count < LENT ? count : LENT);
    }
    memset(&c.answered, 0x5a, sizeof c.answered);
    txp_answer guard = c.answered.first, want;
    uint32_t result = call(line[0], &c), fields[ANSWER];
    for (size_t k = 0; k < ANSWER; k++) {
        fields[k] = number(&now.answer, k);
    }
    memcpy(&want, fields + 1, sizeof want);
    bool good = result == fields[0] && memcmp(&c.answered.answer, &want, sizeof want) == 0
        && memcmp(&c.answered.first, &guard, sizeof guard) == 0 && memcmp(&c.answered.last, &guard, sizeof guard) == 0
        && holds(c.coefs, &now.ints) && holds(c.file, &now.file);
    for (int k = 0; k < TABLES; k++) {
        good = holds(c.table[k], &now.after[k]) && good;
        free(c.table[k].whole);
    }
    free(c.coefs.whole), free(c.file.whole);
    /* the header's macro for a body's bytes holds the worst one */
    if (line[0] == 'W' && result == TXP_DONE) {
        good = good && (c.answered.answer.bits + 7) / 8 <= TXP_MOST_BODY(now.numbers.items[0]);
    }
    return result == UINT32_MAX ? MALFORMED : good ? AGREES : DIFFERS;
}

/* ---- all lines */

static char *all_of(FILE *from)
{
    size_t size = 1 << 20, used = 0;
    char *all = malloc(size + 1);
    for (size_t got; all != NULL && (got = fread(all + used, 1, size - used, from)) > 0;) {
        used += got;
        if (used == size) {
            size *= 2;
            all = realloc(all, size + 1);
        }
    }
    if (all == NULL) {
        fprintf(stderr, "linked: no memory\n");
        exit(2);
    }
    all[used] = '\0';
    return all;
}

int main(void)
{
    char *all = all_of(stdin), *end;
    unsigned long lines = 0, malformed = 0, cases[256] = {0}, agree[256] = {0};
    for (char *line = all; (end = strchr(line, '\n')) != NULL; line = end + 1) {
        *end = '\0';
        lines++;
        if (line[0] == '#') {
            continue;
        }
        verdict v = judge(line);
        if (v == MALFORMED) {
            malformed++;
        } else {
            cases[(unsigned char)line[0]]++;
            agree[(unsigned char)line[0]] += v == AGREES;
        }
        if (v != AGREES) {
            printf("%s line %lu\n", v == DIFFERS ? "differs" : "malformed", lines);
        }
    }
    free(all);
    for (int letter = 'A'; letter <= 'z'; letter++) {
        if (cases[letter] > 0) {
            printf("%c %lu agree %lu\n", letter, cases[letter], agree[letter]);
        }
    }
    printf("malformed %lu\n", malformed);
    return 0;
}
