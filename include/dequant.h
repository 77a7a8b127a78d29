/* The dequantisation matrices of JPEG XL. Link with target/staticlib/libcapi.a (made by scripts/built.sh,
   for x86-64 processors with SSE 4.1).

   Each call returns a reply number and writes the reply's values, in the order named at its number below, to `reply`,
   which has exactly 3 places; those that a reply does not use become 0. Where `reply_length` is another number the call
   returns DEQUANT_LENT and changes nothing. A slice is a pointer (not null, also where the length is 0) and its length
   in elements; slices that a call writes must overlap no other slice of that call. Nothing is allocated or kept. */
#ifndef DEQUANT_H
#define DEQUANT_H

#include <stddef.h>
#include <stdint.h>

#ifdef __cplusplus
extern "C" {
#endif

#define DEQUANT_ROW 128       /* numbers in the row of one kind */
#define DEQUANT_ROWS 2176     /* numbers in the rows of a description: 17 kinds */
#define DEQUANT_ARENA 394752  /* places of an arena of weights, and of the samples */
#define DEQUANT_STATE 18      /* bytes of a short arena's state */

enum dequant_reply {
    DEQUANT_DONE = 0,    /* finished; its values: see each call */
    DEQUANT_LENT = 1,    /* a wrong length, kind > 16, channel > 2, a stretch that leaves its arena or a spoilt state; nothing changed */
    DEQUANT_SHORT = 2,   /* kind, bit, lacks: the field there runs past the last bit, so many of its bits are not there; rows of earlier kinds are written */
    DEQUANT_MODE = 3,    /* kind, bit: mode not allowed for the kind; rows as SHORT */
    DEQUANT_FLOAT = 4,   /* kind, bit: a number with exponent 31; rows as SHORT */
    DEQUANT_RAW = 5,     /* kind, next bit: decode the raw samples from there, then resume at the next kind */
    DEQUANT_ROW_BAD = 6, /* kind: a row that no reading writes, or 0 with slot 126 set while some mode is not 0; nothing changed */
    DEQUANT_BAND = 7,    /* kind, channel, band: a band after the first <= 0 or infinite; outputs all zero */
    DEQUANT_WEIGHT = 8,  /* kind, channel, place: a weight >= 100,000,000 or <= 0 or NaN; outputs all zero */
    DEQUANT_ROOM = 9,    /* length needed; nothing changed */
    DEQUANT_TEXT = 10,   /* longest beginning shared with any record; nothing changed */
    DEQUANT_NONE = 11,   /* no JPEG values */
    DEQUANT_DENOM = 12,  /* kind: the lowest that is raw with a denominator of zero or below, whatever its samples; nothing changed */
    DEQUANT_FULL = 13,   /* a short arena's free places are fewer than the kind needs; nothing changed */
    DEQUANT_HELD = 17,   /* the short arena holds that kind already; nothing changed */
    DEQUANT_GONE = 18    /* the short arena does not hold that kind; nothing changed */
};

/* With no order named a lookup shows the transposed part. */
enum dequant_order { DEQUANT_UNNAMED = 0, DEQUANT_STRAIGHT = 1, DEQUANT_TRANSPOSED = 2 };

/* Reads a header from a bit: at kind 0 from the flag, at kinds 1 to 16 from that kind's mode. DONE: the next bit. */
uint32_t dequant_read_header(const uint8_t *header, size_t header_length, uint64_t bit, size_t kind,
                             uint16_t *rows, size_t rows_length, uint64_t *reply, size_t reply_length);

/* Expands one kind from its own row of 128 and, where it is raw, its 3 x width x height samples. LENT, ROW_BAD and DENOM leave both
   outputs as they were, BAND and WEIGHT all zero; each refusal comes before those behind it in this order. */
uint32_t dequant_expand_kind(size_t kind, const uint16_t *row, size_t row_length,
                             const int32_t *samples, size_t samples_length,
                             float *straight, size_t straight_length, float *transposed, size_t transposed_length,
                             uint64_t *reply, size_t reply_length);

/* Expands all kinds into two arenas; samples are an arena too, or none if no row is raw. LENT, then ROW_BAD and then DENOM for all
   rows; then kind by kind BAND and WEIGHT. They leave the arenas as for one kind. */
uint32_t dequant_expand(const uint16_t *rows, size_t rows_length, const int32_t *samples, size_t samples_length,
                        float *straight, size_t straight_length, float *transposed, size_t transposed_length,
                        uint64_t *reply, size_t reply_length);

/* Says where a matrix stands. DONE: the arena (0 straight, 1 transposed), first place, length. LENT: bad arguments, an order above 2 among them. */
uint32_t dequant_lookup(const float *straight, size_t straight_length, const float *transposed, size_t transposed_length,
                        size_t kind, size_t channel, uint32_t order, uint64_t *reply, size_t reply_length);

/* Says where the JPEG values of a channel stand. DONE: their first place in the samples, and 64. */
uint32_t dequant_jpeg_quant_values(const uint16_t *rows, size_t rows_length, const int32_t *samples, size_t samples_length,
                                   size_t channel, uint64_t *reply, size_t reply_length);

/* Writes a description's text record. DONE: its length; bytes past it stay. */
uint32_t dequant_write_record(const uint16_t *rows, size_t rows_length, const int32_t *samples, size_t samples_length,
                              uint8_t *text, size_t text_length, uint64_t *reply, size_t reply_length);

/* Reads a text record; samples of kinds that are not raw stay. */
uint32_t dequant_read_record(const uint8_t *text, size_t text_length, uint16_t *rows, size_t rows_length,
                             int32_t *samples, size_t samples_length, uint64_t *reply, size_t reply_length);

/* Says the total of a stretch of an arena, straight or transposed: of `count` places from `first` on, the 32 bits of each weight times its
   place in the arena plus 1, summed up modulo 2^64; a NaN counts with the bits 7fc00000. DONE: the total. LENT: an arena of another length,
   or a stretch that leaves it. The totals of neighbouring stretches add up to that of the whole, modulo 2^64, in any grouping and order.
   Arenas with different totals differ; arenas with the same total may differ too. */
uint32_t dequant_total(const float *arena, size_t arena_length, size_t first, size_t count, uint64_t *reply, size_t reply_length);

/* Replaces the weights of one kind, all 3 x width x height of them. DONE: the arena's new total, if `total` was the old one. LENT: a wrong
   length, or kind > 16; the arena is as it was. */
uint32_t dequant_replace_kind(float *arena, size_t arena_length, uint64_t total, size_t kind, const float *weights, size_t weights_length,
                              uint64_t *reply, size_t reply_length);

/* A short arena: a slice of at most DEQUANT_ARENA weights, of any length, that holds the weights of some kinds in the order added, and beside
   it a state of DEQUANT_STATE bytes: how many kinds are held, those kinds in the order added, and 0 behind them. A state of 18 zeros holds
   nothing. Hand both to the next call as the last one left them: then each held kind has the very weights that it was added with. LENT for
   each call: a longer arena, another number of bytes, more than 17 kinds, one above 16 or twice, a byte behind them that is not 0, kinds
   that need more places than the arena has, or kind > 16.

   Adds a kind's 3 x width x height weights behind those held. DONE: their first place, and how many they are. LENT also for another number of
   weights; then HELD, which replaces nothing; then FULL. */
uint32_t dequant_short_add(float *arena, size_t arena_length, uint8_t *state, size_t state_length, size_t kind,
                           const float *weights, size_t weights_length, uint64_t *reply, size_t reply_length);

/* Says where a kind's weights stand in a short arena. DONE: their first place, and how many they are; GONE. */
uint32_t dequant_short_lookup(const float *arena, size_t arena_length, const uint8_t *state, size_t state_length, size_t kind,
                              uint64_t *reply, size_t reply_length);

/* Drops a kind: those added after it move down, and the places that come free at the end of what was in use become 0. DONE; GONE. */
uint32_t dequant_short_drop(float *arena, size_t arena_length, uint8_t *state, size_t state_length, size_t kind,
                            uint64_t *reply, size_t reply_length);

#ifdef __cplusplus
}
#endif

#endif
