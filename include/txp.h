/* TXP: a square of wavelet coefficients as a texture stream that may be cut after any bit.
 *
 * Every call
 * - gives back the number of the refusal, 0 (TXP_DONE) where it was done;
 * - fills *answer: the refusal and its place, and the numbers that the call speaks of. All other fields are 0, and after a refusal
 *   all but the first two are;
 * - keeps nothing between calls, takes no memory, and works on what the caller lends.
 *
 * What a caller must lend.
 * - A buffer is a pointer and, in the next parameter, the number of its entries (not of its bytes). A longer one than is needed is
 *   taken, and a shorter one is refused; entries past those that a call owns are never touched.
 * - No pointer may be NULL, not even one whose length is 0: there the address of any object of that type will do, and nothing is
 *   read or written through it. Every pointer is aligned for its type.
 * - No buffer that a call writes to, and no answer, may overlap another buffer of the same call.
 * - Calls on different buffers may run at the same time.
 *
 * Arrays are square, of side 2^N, and hold I = 4^N coefficients in linear order: row and column bits interleaved, the row bit
 * above. Samples are in raster order, row after row. txp_to_linear and txp_to_raster change the order. L is the number of levels.
 *
 * Which rule makes the values of a cut stream. Of a coefficient with known bits m, not 0, at precision k, txp_decode and
 * txp_decode_body give m itself, with its sign: no value is larger in magnitude than the true one. txp_decode_midpoint and
 * txp_decode_body_midpoint give m + 2^(k-1), and m where k is 0: with k over 0 it is wrong by at most 2^(k-1). So do the steps, and
 * txpshow. Where m is 0 the value is 0. A whole stream has the same values by both, the coefficients themselves.
 *
 * The functions are those of crates/ctxp, where their contracts stand. tests/header.py compares this file with that source.
 */
#ifndef TXP_H
#define TXP_H

#include <stddef.h>
#include <stdint.h>

#ifdef __cplusplus
extern "C" {
#endif

/* The version of this library's interface, and that of the files that it writes and reads. A change of the first number may break
 * a caller, a change of the second only adds. */
#define TXP_VERSION_MAJOR 4
#define TXP_VERSION_MINOR 0
#define TXP_FILE_VERSION 1

/* Limits. */
#define TXP_LEAST_N 2           /* N is 2 to 10 */
#define TXP_MOST_N 10
#define TXP_LIMIT 16777215      /* the largest magnitude of a coefficient */
#define TXP_LEAST_SAMPLE (-32768) /* a sample is -32,768 to 32,767 */
#define TXP_MOST_SAMPLE 32767
#define TXP_MOST_PLANES 24      /* P is 0 to 24 */
#define TXP_HEADER_SIZE 12      /* bytes of a file before its body */
#define TXP_NO_BUDGET 4294967295 /* a budget that cuts nothing: more bits than any body has */

/* What to lend for an array of side 2^N, N from 2 to 10: numbers of entries. */
#define TXP_ENTRIES(n) ((size_t)1 << (2 * (n)))      /* I: coefficients, values, precisions, marks, samples, work */
#define TXP_DESC(n) ((size_t)1 << (2 * (n) - 2))     /* I/4 */
#define TXP_GRAND(n) ((size_t)1 << (2 * (n) - 4))    /* I/16 */
#define TXP_ALL_FIGURES (4 * TXP_MOST_PLANES)        /* the numbers of txp_figures_all */

/* Bytes that hold any body of this N, and any file; a body of P planes may need less: txp_worst_body. */
#define TXP_MOST_BODY(n) ((((size_t)25 << (2 * (n))) + TXP_DESC(n) + TXP_GRAND(n) + 7) / 8)
#define TXP_MOST_FILE(n) (TXP_HEADER_SIZE + TXP_MOST_BODY(n))

/* The numbers for no. */
enum txp_refusal {
    TXP_DONE = 0,
    TXP_REFUSED_SIDE = 1,                /* N out of range */
    TXP_REFUSED_LEVELS = 2,              /* L out of range: it is 1 to N-1 */
    TXP_REFUSED_LENGTH = 3,              /* the input's length is not I, or a single place is not below I */
    TXP_REFUSED_COEFFICIENT = 4,         /* a coefficient over the limit; place: the first such */
    TXP_REFUSED_LENT = 5,                /* a lent table or array is too short */
    TXP_REFUSED_OUTPUT = 6,              /* the output is too short for the budget and for the worst body */
    TXP_REFUSED_LETTERS = 7,             /* under 12 bytes, or wrong letters */
    TXP_REFUSED_VERSION = 8,             /* version not 1 */
    TXP_REFUSED_PLANES = 9,              /* P over 24, or a plane that is not below 24 */
    TXP_REFUSED_SURPLUS = 10,            /* more body bytes than the declared bits need */
    TXP_REFUSED_PADDING = 11,            /* all body bytes present, padding not 0 */
    TXP_REFUSED_CONTRADICTION = 12,      /* no array fits the bits; place: the first bit at which none does */
    TXP_REFUSED_BEYOND = 13,             /* usable bits left after the last plane; place: the first of them */
    TXP_REFUSED_FIRST = 14,              /* a step back before the first bit */
    TXP_REFUSED_SPENT = 15,              /* a step forward with no usable bit left */
    TXP_REFUSED_RECORD = 16,             /* a record out of range, or with more bits used than are usable */
    TXP_REFUSED_SAMPLE = 17,             /* a sample out of range; place: the first such raster place */
    TXP_REFUSED_RESTORED = 18            /* a restored sample out of range */
};

/* A short text for a refusal's number, to be shown; "unknown refusal" for a number that is none. */
static inline const char *txp_refusal_text(uint32_t refusal)
{
    static const char *const texts[] = {
        "done",
        "the side is out of range",
        "the number of levels is out of range",
        "the input's length does not fit, or the place lies outside",
        "a coefficient is over the limit",
        "a lent buffer is too short",
        "the output is too short",
        "not a TXP file",
        "a version that is not known",
        "too many planes",
        "more bytes than the file declares",
        "the padding is not 0",
        "the bits contradict each other",
        "bits are left after the last plane",
        "no bit before this one",
        "no usable bit is left",
        "the record is out of range",
        "a sample is out of range",
        "a restored sample is out of range",
    };
    return refusal < sizeof texts / sizeof texts[0] ? texts[refusal] : "unknown refusal";
}

/* Why the bits of a body ended, or that they go on. The declared bits are those that the file's header names, or the caller of a call on
 * a body; its usable bits are the first of these, as many as are there. */
enum txp_ending {
    TXP_GOES_ON = 0, /* usable bits are left, and so are planes; and in every answer that does not speak of an end */
    TXP_WHOLE = 1,   /* the last plane ended, or P is 0: nothing is missing, whatever is declared or present */
    TXP_BUDGET = 2,  /* all declared bits were used, and planes are left: it was stored small on purpose */
    TXP_CUT = 3      /* planes are left, and bits that are declared are not there: a download that stopped */
};

/* A word for it, to be shown: "whole", "budget" and "cut" as txpshow has them; "bits go on"; "unknown ending" for a number that is
 * none. */
static inline const char *txp_ending_text(uint32_t ending)
{
    static const char *const texts[] = {"bits go on", "whole", "budget", "cut"};
    return ending < sizeof texts / sizeof texts[0] ? texts[ending] : "unknown ending";
}

/* What a call answers. */
typedef struct txp_answer {
    uint32_t refusal;  /* the number for no, which is the call's result too */
    uint32_t place;    /* the place reported with it */
    uint32_t n;        /* N of a file */
    uint32_t l;        /* L of a file */
    uint32_t planes;   /* P */
    uint32_t declared; /* the declared bits of a file */
    uint32_t bits;     /* bits: written, used, of a plane, of the worst body; 1 where one was read */
    uint32_t bytes;    /* the bytes of a file that was written */
    uint32_t finished; /* planes finished */
    uint32_t error;    /* the worst error of a value */
    uint32_t parts;    /* parts that stand after a plane */
    uint32_t splits;   /* sets split in a plane */
    uint32_t found;    /* coefficients found in a plane */
    uint32_t negative; /* 1 for a coefficient below 0 */
    uint32_t value;    /* the number of a call that answers one number */
    uint32_t ending;   /* why the bits ended: enum txp_ending */
} txp_answer;

/* ---- the file */

/* Writes the file of a linear array, with at most `budget` bits in its body.
 * coefs: I coefficients. desc: TXP_DESC(n) or more; grand: TXP_GRAND(n); marks: TXP_ENTRIES(n).
 * out: 12 bytes and those for the smaller of the budget and the worst body of the array's own P; TXP_MOST_FILE(n) always will do.
 * Refusals 1, 2, 3, 4 (place: the first coefficient over the limit), 5, 6; nothing that is lent is touched.
 * Done: desc and grand hold the summaries, marks where the scan stopped, out the file. Answer: planes, bits, bytes. */
uint32_t txp_encode(uint32_t n, uint32_t l, const int32_t *coefs, size_t coefs_len, uint32_t *desc, size_t desc_len,
                    uint32_t *grand, size_t grand_len, uint8_t *marks, size_t marks_len, uint8_t *out, size_t out_len,
                    uint32_t budget, txp_answer *answer);

/* Reads a file, whole or cut: a file that is short of its declared bytes is a cut one. Values by the default rule: known bits stand
 * for themselves.
 * values, precisions, marks: TXP_ENTRIES(n) or more each, for the N that txp_header answers; TXP_ENTRIES(TXP_MOST_N) always will do.
 * Refusals 7, 8, 1, 2, 9, 10, 11, 5: nothing that is lent is touched.
 * Refusals 12, 13 (place: a bit of the body): the first I entries of the three are 0.
 * Done: values hold what is known of the coefficients, marks where the scan stopped, and precisions how near each value is:
 * every array whose stream begins with these bits differs from values[i] by less than 2^precisions[i], and none has a smaller
 * magnitude there. The precision is the number of the plane in progress if in it the coefficient's own bit was read (with its sign,
 * where one follows) or a set that holds it was tested 0; else that of the last finished plane, or P if none is. A whole stream has
 * precisions 0.
 * Answer: n, l, planes, declared, bits (used), finished, error, ending (TXP_WHOLE, TXP_BUDGET or TXP_CUT). */
uint32_t txp_decode(const uint8_t *file, size_t file_len, int32_t *values, size_t values_len, uint8_t *precisions,
                    size_t precisions_len, uint8_t *marks, size_t marks_len, txp_answer *answer);

/* The same, values by the midpoint: between the least and the largest that the known bits leave open. Every array whose stream begins
 * with these bits differs from values[i] by less than 2^precisions[i], and by at most half of that where values[i] is not 0 and
 * precisions[i] not 0. */
uint32_t txp_decode_midpoint(const uint8_t *file, size_t file_len, int32_t *values, size_t values_len, uint8_t *precisions,
                             size_t precisions_len, uint8_t *marks, size_t marks_len, txp_answer *answer);

/* What the header of a file says, so that a host knows N before it lends tables. It reads the first 12 bytes alone: they are enough
 * to call it. Refusals 7, 8, 1, 2, 9. Answer: n, l, planes, declared. */
uint32_t txp_header(const uint8_t *file, size_t file_len, txp_answer *answer);

/* ---- the body */

/* The most bits that a body of this N, L and P can have. Refusals 1, 2, 9. Answer: bits. */
uint32_t txp_worst_body(uint32_t n, uint32_t l, uint32_t p, txp_answer *answer);

/* Writes the body of a linear array from byte `offset` of out on, at most `budget` bits of it.
 * coefs, desc, grand, marks: as for txp_encode. out: `offset` bytes, which stay as they are, and those for the smaller of the
 * budget and the worst body of the array's own P. Refusals 1, 2, 3, 4, 5, 6; nothing that is lent is touched.
 * Done: the tables as for txp_encode; out the body from `offset` on. Answer: planes, bits. */
uint32_t txp_encode_body(uint32_t n, uint32_t l, const int32_t *coefs, size_t coefs_len, uint32_t *desc, size_t desc_len,
                         uint32_t *grand, size_t grand_len, uint8_t *marks, size_t marks_len, uint8_t *out, size_t out_len,
                         size_t offset, uint32_t budget, txp_answer *answer);

/* Reads the first `declared` bits of a body of P planes, or all that it has. Values by the default rule, as for txp_decode.
 * values, precisions, marks: TXP_ENTRIES(n) or more each. Refusals 1, 2, 9, 5: nothing that is lent is touched.
 * Refusals 12, 13: the first I entries of the three are 0. Done: as for txp_decode. Answer: bits (used), finished, error, ending. */
uint32_t txp_decode_body(uint32_t n, uint32_t l, uint32_t p, const uint8_t *body, size_t body_len, uint32_t declared,
                         int32_t *values, size_t values_len, uint8_t *precisions, size_t precisions_len, uint8_t *marks,
                         size_t marks_len, txp_answer *answer);

/* The same, values by the midpoint, as for txp_decode_midpoint. */
uint32_t txp_decode_body_midpoint(uint32_t n, uint32_t l, uint32_t p, const uint8_t *body, size_t body_len, uint32_t declared,
                                  int32_t *values, size_t values_len, uint8_t *precisions, size_t precisions_len, uint8_t *marks,
                                  size_t marks_len, txp_answer *answer);

/* ---- steps: the body read bit by bit, forward and back
 *
 * A caller keeps a record and the three tables of txp_decode_body_midpoint, and moves them through a body. They stand at a number of
 * bits, and hold what txp_decode_body_midpoint leaves in the tables for as many usable bits: values by the midpoint. A step changes a
 * few entries and reads no prefix again.
 * This holds while the caller changes neither body, record nor tables between the calls. With anything else in them every call still
 * ends without a fault, refuses a record that is out of range, and touches no entry past the first I of a table. */

/* Where the scan rests: at the next bit's question. After the last plane, and from the start where P is 0, plane is 0, pass 2,
 * place I and pending 0. */
typedef struct txp_record {
    uint32_t n;       /* N */
    uint32_t l;       /* L */
    uint32_t planes;  /* P */
    uint32_t plane;   /* the plane in progress */
    uint32_t pass;    /* 0 in the pixel pass, 1 in the set pass, 2 in the refinement pass */
    uint32_t place;   /* the linear place of the question */
    uint32_t used;    /* bits used */
    uint32_t pending; /* 1 where the coefficient's bit was read, a 1, and its sign was not */
} txp_record;

/* Before the first bit of a body of P planes. dial: any, it is not read. values, precisions, marks: TXP_ENTRIES(n) or more each.
 * Refusals 1, 2, 9, 5: nothing that is lent is touched. Done: record and tables for 0 bits. Answer: bits (0), finished (0), error,
 * ending: TXP_WHOLE where P is 0, else TXP_GOES_ON, since no body is lent; txp_turn to 0 bits answers for the body at hand. */
uint32_t txp_start(txp_record *dial, uint32_t n, uint32_t l, uint32_t p, int32_t *values, size_t values_len,
                   uint8_t *precisions, size_t precisions_len, uint8_t *marks, size_t marks_len, txp_answer *answer);

/* One bit forward. The usable bits of the body are its first `declared`, or all that it has.
 * Refusals 16, 5, 15, and 12 or 13 (place: the bit, as for txp_decode_body): nothing that is lent is touched, so record and tables
 * stay at the last good position. Done: record and tables for one bit more. Answer: bits (used), finished, error, ending: for the position
 * that was reached, so TXP_GOES_ON where usable bits and planes are left. */
uint32_t txp_forward(txp_record *dial, const uint8_t *body, size_t body_len, uint32_t declared, int32_t *values,
                     size_t values_len, uint8_t *precisions, size_t precisions_len, uint8_t *marks, size_t marks_len,
                     txp_answer *answer);

/* One bit back, with the body at hand. Refusals 16, 5, 14: nothing that is lent is touched.
 * Done: record and tables for one bit fewer. Answer: as for txp_forward. */
uint32_t txp_back(txp_record *dial, const uint8_t *body, size_t body_len, uint32_t declared, int32_t *values, size_t values_len,
                  uint8_t *precisions, size_t precisions_len, uint8_t *marks, size_t marks_len, txp_answer *answer);

/* To `to` bits used, by single steps forward or back. Refusals 16, 5: nothing that is lent is touched.
 * Refusals 15, 12, 13 of a step forward end the turn: record and tables stay at the position that was reached.
 * Done: record and tables for `to` bits; where as many were used before, as they were. Answer: as for txp_forward. */
uint32_t txp_turn(txp_record *dial, const uint8_t *body, size_t body_len, uint32_t declared, uint32_t to, int32_t *values,
                  size_t values_len, uint8_t *precisions, size_t precisions_len, uint8_t *marks, size_t marks_len,
                  txp_answer *answer);

/* ---- the transform: samples to coefficients and back
 *
 * The reversible integer S transform: L levels, rows then columns at each. Samples are -32,768 to 32,767, in raster order;
 * coefficients are in linear order, as txp_encode takes them. Restoring what txp_transform gave, with its N and L, returns the
 * samples exactly, and so do the values of its whole file. Those of a cut one may restore out of range (18). */

/* The coefficients of a square of samples. samples: I samples. coefs, work: TXP_ENTRIES(n) or more each.
 * Refusals 1, 2, 3, 5, 17 (place: the first raster place out of range): nothing that is lent is touched.
 * Done: coefs hold the coefficients, and the first I entries of work are 0. No magnitude is over 131,070, so that txp_encode never
 * refuses them by 4, and P is at most 17. Answer: nothing. */
uint32_t txp_transform(uint32_t n, uint32_t l, const int32_t *samples, size_t samples_len, int32_t *coefs, size_t coefs_len,
                       int32_t *work, size_t work_len, txp_answer *answer);

/* The samples that these coefficients are of. coefs: I coefficients. samples, work: TXP_ENTRIES(n) or more each.
 * Refusals 1, 2, 3, 4 (place: the first coefficient over the limit), 5: nothing that is lent is touched.
 * Refusal 18 (place: 0): the first I entries of samples and of work are 0.
 * Done: samples hold the samples, and the first I entries of work are 0. Answer: nothing. */
uint32_t txp_restore(uint32_t n, uint32_t l, const int32_t *coefs, size_t coefs_len, int32_t *samples, size_t samples_len,
                     int32_t *work, size_t work_len, txp_answer *answer);

/* ---- summaries and figures */

/* Fills DESC and GRAND. coefs: I coefficients in linear order. desc: TXP_DESC(n) or more; grand: TXP_GRAND(n).
 * Refusals 1, 2, 3, 4, 5; nothing that is lent is touched. Done: the bitwise ORs of the magnitudes over the descendants of each
 * place, and over those without the children. Answer: nothing. */
uint32_t txp_summaries(uint32_t n, uint32_t l, const int32_t *coefs, size_t coefs_len, uint32_t *desc, size_t desc_len,
                       uint32_t *grand, size_t grand_len, txp_answer *answer);

/* The figures of one plane, 0 to 23, from the values alone. values, desc, grand: as for txp_summaries.
 * Refusals 1, 2, 3, 4, 5, 9; nothing that is lent is touched. Done: desc and grand as after txp_summaries.
 * Answer: parts, splits, bits, found. */
uint32_t txp_figures(uint32_t n, uint32_t l, const int32_t *values, size_t values_len, uint32_t plane, uint32_t *desc,
                     size_t desc_len, uint32_t *grand, size_t grand_len, txp_answer *answer);

/* The figures of all planes at once. values, desc, grand: as for txp_summaries. out: TXP_ALL_FIGURES or more.
 * Refusals 1, 2, 3, 4, 5; nothing that is lent is touched. Done: desc and grand as after txp_summaries; out, for plane 0, 1, .. 23,
 * four numbers each: parts, splits, bits, found. Answer: nothing. */
uint32_t txp_figures_all(uint32_t n, uint32_t l, const int32_t *values, size_t values_len, uint32_t *desc, size_t desc_len,
                         uint32_t *grand, size_t grand_len, uint32_t *out, size_t out_len, txp_answer *answer);

/* ---- places */

/* A whole raster array in linear order. from: I coefficients; to: TXP_ENTRIES(n) or more. Refusals 1, 3, 5; nothing that is lent
 * is touched. Done: the first I entries of to. Answer: nothing. */
uint32_t txp_to_linear(uint32_t n, const int32_t *from, size_t from_len, int32_t *to, size_t to_len, txp_answer *answer);

/* A whole linear array in raster order. As txp_to_linear. */
uint32_t txp_to_raster(uint32_t n, const int32_t *from, size_t from_len, int32_t *to, size_t to_len, txp_answer *answer);

/* From a raster place to its linear place. Refusals 1, 3. Answer: value. */
uint32_t txp_linear_place(uint32_t n, uint32_t place, txp_answer *answer);

/* From a linear place to its raster place. Refusals 1, 3. Answer: value. */
uint32_t txp_raster_place(uint32_t n, uint32_t place, txp_answer *answer);

/* ---- coefficients */

/* P, the planes of an array of any length and any numbers: the least P with every magnitude below 2^P. It is 0 for zeros
 * and for no number at all, and 32 where one is -2^31. No refusal. Answer: planes. */
uint32_t txp_planes(const int32_t *coefs, size_t coefs_len, txp_answer *answer);

/* Whether x is below 0. No refusal. Answer: value, 1 or 0. */
uint32_t txp_is_negative(int32_t x, txp_answer *answer);

/* The magnitude of any number. No refusal. Answer: value. */
uint32_t txp_magnitude(int32_t x, txp_answer *answer);

/* Sign and magnitude of a coefficient. Refusal 4 at place 0. Answer: negative, value (the magnitude). */
uint32_t txp_part(int32_t x, txp_answer *answer);

/* The coefficient with this sign and magnitude; any `negative` but 0 says that it is below 0. to: one number.
 * Refusal 4 at place 0: *to is not touched. Done: *to is the coefficient. Answer: nothing. */
uint32_t txp_join(uint32_t negative, uint32_t magnitude, int32_t *to, txp_answer *answer);

/* A coefficient as a float, which is exactly that whole number; 0 gives plus zero. to: one float.
 * Refusal 4 at place 0: *to is not touched. Done: *to is the float. Answer: nothing. */
uint32_t txp_float(int32_t x, float *to, txp_answer *answer);

/* ---- bits: in a body, the highest bit of each byte comes first */

/* Bit b of x, 0 for a b of 32 or more. No refusal. Answer: value, 1 or 0. */
uint32_t txp_bit(uint32_t x, uint32_t b, txp_answer *answer);

/* The bit with number `at` of a body of `declared` bits. No refusal.
 * Answer: bits is 1 and value the bit; where there are no more, both are 0, and ending is TXP_BUDGET where `at` is not below
 * `declared`, else TXP_CUT. */
uint32_t txp_read_bit(const uint8_t *body, size_t body_len, size_t at, size_t declared, txp_answer *answer);

/* Puts a bit at number `at` and clears what lies below it in its byte; past the end it does nothing. Any x but 0 is a 1.
 * No refusal. Answer: nothing. */
uint32_t txp_put_bit(uint8_t *body, size_t body_len, size_t at, uint32_t x, txp_answer *answer);

/* ---- sizes */

/* Whether N is in range. No refusal. Answer: value, 1 or 0. */
uint32_t txp_side_fits(uint32_t n, txp_answer *answer);

/* Whether N and L are in range; 0 for every L where N is not. No refusal. Answer: value, 1 or 0. */
uint32_t txp_levels_fit(uint32_t n, uint32_t l, txp_answer *answer);

/* I, the number of coefficients; 0 for an N out of range. No refusal. Answer: value. */
uint32_t txp_all(uint32_t n, txp_answer *answer);

/* D, the size of the coarsest band; 0 for sizes out of range. No refusal. Answer: value. */
uint32_t txp_coarsest(uint32_t n, uint32_t l, txp_answer *answer);

#ifdef __cplusplus
}
#endif

#endif
