/* Design sheets from C: work out envelopes and links, close and quote clocks, list a sheet, walk patterns.
 *
 * The library (libexport.a, made by `rt lib` in crates/export, or libtxoribeltza.a where it was installed; x86-64
 * Linux) keeps no memory of its own: it has no state, allocates nothing, and calls nothing but memcpy and memset.
 * Every function returns, for any bytes and any numbers; what it answers and what it writes is proved. Any number of
 * threads may call it at once.
 *
 * What nothing can check on C's side, and must hold at each call:
 *   - a pointer is not NULL, also where its length is 0, and points to as many elements as its length says,
 *     which stay valid until the function returns;
 *   - a pointer to int64_t is aligned as an int64_t is;
 *   - memory that is not `const` is initialised, overlaps no other memory of the same call, and is touched by
 *     no other thread meanwhile;
 *   - no array is longer than PTRDIFF_MAX bytes.
 *
 * A refusal writes to no lent memory.
 */
#ifndef TXORIBELTZA_H
#define TXORIBELTZA_H

#include <stddef.h>
#include <stdint.h>

#ifdef __cplusplus
extern "C" {
#endif

/* ---- Reply numbers: a reply's `number`. Behind each, its `place`. */

enum {
    /* Done. Place 0; after txori_close the place of the byte that was turned. */
    TXORI_OK = 0,

    /* 1 to 10 are faults of the sheet; the first one from left to right is given. A place counts bytes from 0. */

    /* Fewer bytes remain than the field has. Place: the field's first byte. */
    TXORI_MISSING = 1,
    /* The sheet is too long (place 32,768); or a count, a length, k, K, l or n is beyond its limit, n also above l
       (place: the field). */
    TXORI_BEYOND = 2,
    /* A bit or a state that is not 0 or 1, or an unknown tag. Place: the field. */
    TXORI_UNKNOWN = 3,
    /* A period without a 1. Place: its first bit. */
    TXORI_NO_ONE = 4,
    /* A word, an earlier clock or a link's end that isn't there. Place: the field. */
    TXORI_ABSENT = 5,
    /* A node at depth 13. Place: its tag. */
    TXORI_TOO_DEEP = 6,
    /* A declared envelope that, made normal, has K - k < n - 1. Place: its tag. */
    TXORI_EMPTY = 7,
    /* Not of an envelope with l = n. Place: its tag. */
    TXORI_FULL_RATE = 8,
    /* Not or on gives l, k or K beyond the limits. Place: its tag. */
    TXORI_OUTGROWN = 9,
    /* Bytes after the last link. Place: the first of them. */
    TXORI_TRAILING = 10,

    /* Lent memory for a result is too short. Place 0. */
    TXORI_SHORT_RESULT = 11,

    /* 12 to 15 are faults of a pattern's envelope and of the pattern, in this order. */

    /* Four numbers that are no taken, normal envelope; at l = n = 1, k below 0 is none. Place 0. */
    TXORI_NO_ENVELOPE = 12,
    /* A pattern longer than TXORI_PATTERN_MOST. Place 0. */
    TXORI_LONG_PATTERN = 13,
    /* A pattern's byte that is not 0 or 1. Place: the first such byte. */
    TXORI_NOT_A_BIT = 14,
    /* The pattern lies outside the envelope. Place: the first forbidden step. */
    TXORI_OUTSIDE = 15,

    /* There is no such clock. Place 0. */
    TXORI_NO_CLOCK = 16,
    /* The clock is already closed. Place 0. */
    TXORI_ALREADY_CLOSED = 17,

    /* No refusal: txori_next was given the last pattern. Place 0. */
    TXORI_LAST = 255
};

/* ---- Limits, and how results are laid out */

enum {
    /* A sheet's most bytes, clocks and links, and a pattern's most bytes. */
    TXORI_SHEET_MOST = 32768,
    TXORI_CLOCKS_MOST = 128,
    TXORI_LINKS_MOST = 256,
    TXORI_PATTERN_MOST = 4096,
    /* A listing's most bytes: a buffer of so many is never too short for txori_list. */
    TXORI_LISTING_MOST = 18463,
    /* A call's most bytes of stack, whatever it is given, besides what memcpy and memset take. */
    TXORI_STACK_MOST = 8000,

    /* Numbers per clock: k, K, l, n, the envelope of its rhythm. k is from -1,000,000,000 to 1,000,000,000, K from 0 to
       1,000,000,000, l from 1 to 1,000,000 and n from 1 to l; l and n have no common factor, K - k >= n - 1, and k is
       not below 0 at l = n = 1. */
    TXORI_PER_CLOCK = 4,
    /* Numbers per link: verdict, size, state. A size counts words between instants: a memory that cannot pass a word
       through within one instant needs one word more. */
    TXORI_PER_LINK = 3,

    /* A link's verdict. */
    TXORI_ACCEPTED = 0,
    TXORI_RATES = 1,
    TXORI_EARLY = 2,

    /* A link's state. */
    TXORI_OPEN = 0,
    TXORI_CLOSED = 1
};

/* ---- Replies */

typedef struct TxoriReply {
    uint64_t number;
    uint64_t place;
} TxoriReply;

typedef struct TxoriWorkOut {
    uint64_t number;
    uint64_t place;
    /* How many clocks and links there are. On a refusal these two and the rooms are 0. */
    uint64_t clocks;
    uint64_t links;
    /* Open room and whole room. */
    uint64_t opened;
    uint64_t whole;
} TxoriWorkOut;

typedef struct TxoriWritten {
    uint64_t number;
    uint64_t place;
    /* How many bytes were written, from the buffer's start on; 0 on a refusal. */
    uint64_t length;
} TxoriWritten;

/* ---- Sheets */

/* Works a sheet out: TXORI_PER_CLOCK numbers per clock go to `clocks`, TXORI_PER_LINK per link to `links`; elements
   past those stay as found. The size of a link that isn't accepted is 0.
   Refusals: 1 to 10; then 11 where either array is too short. `clocks_length` and `links_length` count numbers. */
TxoriWorkOut txori_work_out(const uint8_t *sheet, size_t sheet_length,
                            int64_t *clocks, size_t clocks_length,
                            int64_t *links, size_t links_length);

/* Closes a clock: its state byte turns from 0 to 1, and the reply's place is that byte's.
   Refusals: 1 to 10, 16, 17. */
TxoriReply txori_close(uint8_t *sheet, size_t sheet_length, size_t clock);

/* Copies a clock's expression, which is never empty, to the start of `out`; bytes past it stay as found.
   Refusals: 1 to 10, 16; then 11 where `out` is too short for it. */
TxoriWritten txori_quote(const uint8_t *sheet, size_t sheet_length, size_t clock,
                         uint8_t *out, size_t out_length);

/* Writes the listing of a sheet to the start of `text`, without a byte 0 at its end: a line for each clock and each
   link, and the rooms. Bytes past the text stay as found. A refused sheet has no listing: number and place are its
   refusal's, however short `text` is, the length is 0 and nothing is written.
   Refusals: 1 to 10; then 11 where `text` is too short for the listing. */
TxoriWritten txori_list(const uint8_t *sheet, size_t sheet_length, uint8_t *text, size_t text_length);

/* ---- Patterns: bytes 0 and 1 in the envelope k, K, l, n, which keeps to the limits said of TXORI_PER_CLOCK */

/* TXORI_OK where the pattern lies inside the envelope. Refusals: 12 to 15. */
TxoriReply txori_check(int64_t k, int64_t K, uint64_t l, uint64_t n, const uint8_t *pattern, size_t pattern_length);

/* Fills `pattern`, whatever it held, with the first pattern of its length. Refusals: 12, 13. */
TxoriReply txori_first(int64_t k, int64_t K, uint64_t l, uint64_t n, uint8_t *pattern, size_t pattern_length);

/* Turns a pattern into the next one in binary order; or answers TXORI_LAST and writes nothing. Refusals: 12 to 15. */
TxoriReply txori_next(int64_t k, int64_t K, uint64_t l, uint64_t n, uint8_t *pattern, size_t pattern_length);

#ifdef __cplusplus
}
#endif

#endif
