/* Calls each function once from C and checks what it answers and leaves. Prints the calls that fail; status 1 if any. */
#include "dequant.h"
#include <stdio.h>
#include <string.h>

static uint16_t rows[DEQUANT_ROWS], rows2[DEQUANT_ROWS];
static int32_t samples[DEQUANT_ARENA], samples2[DEQUANT_ARENA];
static float straight[DEQUANT_ARENA], transposed[DEQUANT_ARENA];
static uint8_t text[100000];
static uint64_t reply[3];
static int failed;

static void check(int ok, const char *what) {
    if (!ok) {
        printf("failed: %s\n", what);
        failed = 1;
    }
}

static int says(uint64_t a, uint64_t b, uint64_t c) { return reply[0] == a && reply[1] == b && reply[2] == c; }

static void reading(void) {
    static const uint8_t zeros[7];
    check(dequant_read_header(zeros, 6, 0, 0, rows, DEQUANT_ROWS, reply, 3) == DEQUANT_SHORT && says(15, 46, 1), "six zero bytes");
    check(dequant_read_header(zeros, 0, 0, 0, rows, DEQUANT_ROWS, reply, 3) == DEQUANT_SHORT && says(0, 0, 1), "no bytes");
    check(dequant_read_header(zeros, 1, 7, 16, rows, DEQUANT_ROWS, reply, 3) == DEQUANT_SHORT && says(16, 7, 2), "a mode at the last bit");
    check(dequant_read_header(zeros, 1, UINT64_MAX, 5, rows, DEQUANT_ROWS, reply, 3) == DEQUANT_SHORT && says(5, UINT64_MAX, 3), "a start bit of 2^64 - 1");
    check(dequant_read_header(zeros, 7, 0, 0, rows, DEQUANT_ROWS, reply, 3) == DEQUANT_DONE && says(52, 0, 0), "seven zero bytes");
    reply[0] = 5;
    check(dequant_read_header(zeros, 6, 0, 0, rows, DEQUANT_ROWS, reply, 2) == DEQUANT_LENT && says(5, 0, 0), "a reply of two places");
    rows[0] = 7; /* kind 0 raw, with the denominator of JPEG values */
    rows[3] = 0x1004;
    for (int i = 0; i < 192; i++)
        samples[i] = i + 1;
}

static void expanding(void) {
    check(dequant_expand(rows, DEQUANT_ROWS, samples, DEQUANT_ARENA, straight, DEQUANT_ARENA, transposed, DEQUANT_ARENA, reply, 3) == DEQUANT_DONE, "expand");
    check(straight[15] == 257.0f / 32768.0f, "denominator 1004, sample 16");
    check(dequant_lookup(straight, DEQUANT_ARENA, transposed, DEQUANT_ARENA, 6, 1, DEQUANT_TRANSPOSED, reply, 3) == 0 && says(1, 4736, 128), "lookup");
    check(transposed[4736 + 9] == straight[4736 + 17], "kind 6, place 17 straight is 9 transposed");
    check(dequant_lookup(straight, DEQUANT_ARENA, transposed, DEQUANT_ARENA, 6, 1, DEQUANT_UNNAMED, reply, 3) == 0 && says(1, 4736, 128), "no order named");
    check(dequant_lookup(straight, DEQUANT_ARENA, transposed, DEQUANT_ARENA, 6, 1, DEQUANT_STRAIGHT, reply, 3) == 0 && says(0, 4736, 128), "the straight order");
    check(dequant_lookup(straight, DEQUANT_ARENA, transposed, DEQUANT_ARENA, 6, 0, DEQUANT_UNNAMED, reply, 2) == DEQUANT_LENT && says(0, 4736, 128), "a reply of two places, looking up");
    check(dequant_lookup(straight, DEQUANT_ARENA, transposed, DEQUANT_ARENA, 3, 0, 3, reply, 3) == DEQUANT_LENT && says(0, 0, 0), "an unknown order");
    check(dequant_lookup(straight, DEQUANT_ARENA, transposed, DEQUANT_ARENA, 3, 0, UINT32_MAX, reply, 3) == DEQUANT_LENT, "order 2^32 - 1");
    check(dequant_jpeg_quant_values(rows, DEQUANT_ROWS, samples, DEQUANT_ARENA, 2, reply, 3) == DEQUANT_DONE && says(128, 64, 0), "JPEG values");
    samples[70] = 0;
    check(dequant_expand_kind(0, rows, DEQUANT_ROW, samples, 192, straight, 192, transposed, 192, reply, 3) == DEQUANT_WEIGHT && says(0, 1, 6), "a zero sample");
    check(straight[0] == 0.0f && straight[191] == 0.0f && straight[192] != 0.0f, "outputs all zero");
    float before = straight[DEQUANT_ARENA - 1];
    rows[16 * DEQUANT_ROW] = 7; /* raw, with the denominator minus zero: refused before kind 0's zero sample is met */
    rows[16 * DEQUANT_ROW + 3] = 0x8000;
    check(dequant_expand(rows, DEQUANT_ROWS, samples, DEQUANT_ARENA, straight, DEQUANT_ARENA, transposed, DEQUANT_ARENA, reply, 3) == DEQUANT_DENOM && says(16, 0, 0), "denominator minus zero");
    check(straight[DEQUANT_ARENA - 1] == before && before != 0.0f, "arenas unchanged");
    reply[0] = 5;
    check(dequant_expand(rows, DEQUANT_ROWS, samples, DEQUANT_ARENA, straight, DEQUANT_ARENA, transposed, DEQUANT_ARENA, reply, 2) == DEQUANT_LENT && says(5, 0, 0), "a reply of two places, expanding");
    rows[16 * DEQUANT_ROW] = rows[16 * DEQUANT_ROW + 3] = 0;
}

static void records(void) {
    check(dequant_write_record(rows, DEQUANT_ROWS, samples, DEQUANT_ARENA, text, 10, reply, 3) == DEQUANT_ROOM, "a short buffer");
    uint64_t length = reply[0];
    check(dequant_write_record(rows, DEQUANT_ROWS, samples, DEQUANT_ARENA, text, sizeof text, reply, 3) == DEQUANT_DONE && says(length, 0, 0), "a record");
    check(dequant_read_record(text, length - 1, rows2, DEQUANT_ROWS, samples2, DEQUANT_ARENA, reply, 3) == DEQUANT_TEXT && says(length - 1, 0, 0), "a record cut short");
    check(dequant_read_record(text, length, rows2, DEQUANT_ROWS, samples2, DEQUANT_ARENA, reply, 3) == DEQUANT_DONE, "a record read");
    check(!memcmp(rows, rows2, sizeof rows) && !memcmp(samples, samples2, 192 * sizeof *samples), "a record reads back");
}

static void totals(void) {
    uint64_t whole, first;
    for (int i = 0; i < DEQUANT_ARENA; i++)
        straight[i] = transposed[i] = (float)(i + 1);
    check(dequant_total(straight, DEQUANT_ARENA, 0, DEQUANT_ARENA, reply, 3) == DEQUANT_DONE, "an arena's total");
    whole = reply[0];
    check(dequant_total(straight, DEQUANT_ARENA, 0, 100, reply, 3) == DEQUANT_DONE, "a stretch");
    first = reply[0];
    check(dequant_total(straight, DEQUANT_ARENA, 100, DEQUANT_ARENA - 100, reply, 3) == DEQUANT_DONE && says(whole - first, 0, 0), "the stretch beside it");
    check(dequant_total(straight, DEQUANT_ARENA, 1, 1, reply, 3) == DEQUANT_DONE && says(2 * 0x40000000ull, 0, 0), "2.0 at place 1");
    check(dequant_total(straight, DEQUANT_ARENA, 1, SIZE_MAX, reply, 3) == DEQUANT_LENT && says(0, 0, 0), "a stretch of 2^64 - 1");
    reply[0] = 5;
    check(dequant_total(straight, DEQUANT_ARENA, 0, 5, reply, 4) == DEQUANT_LENT && says(5, 0, 0), "a reply of four places, counting");
    for (int i = 0; i < 384; i++)
        transposed[i] = -1.0f;
    check(dequant_replace_kind(straight, DEQUANT_ARENA, whole, 6, transposed, 384, reply, 3) == DEQUANT_DONE && straight[4608] == -1.0f && straight[4991] == -1.0f, "kind 6 replaced");
    check(straight[4607] == 4608.0f && straight[4992] == 4993.0f, "its neighbours stay");
    whole = reply[0];
    check(dequant_total(straight, DEQUANT_ARENA, 0, DEQUANT_ARENA, reply, 3) == DEQUANT_DONE && says(whole, 0, 0), "its total is a fresh count's");
    check(dequant_replace_kind(straight, DEQUANT_ARENA, whole, 0, transposed, 191, reply, 3) == DEQUANT_LENT && straight[0] == 1.0f, "191 weights for 192");
    reply[0] = 5;
    check(dequant_replace_kind(straight, DEQUANT_ARENA, 1, 0, transposed, 192, reply, 0) == DEQUANT_LENT && reply[0] == 5 && straight[0] == 1.0f, "a reply of no place, replacing");
}

static void short_arena(void) {
    uint8_t state[DEQUANT_STATE + 1] = {0};
    float room[1000];
    for (int i = 0; i < 1000; i++)
        room[i] = 5.0f;
    for (int i = 0; i < 384; i++)
        transposed[i] = 1.0f + (float)i;
    check(dequant_short_add(room, 1000, state, DEQUANT_STATE, 6, transposed, 384, reply, 3) == DEQUANT_DONE && says(0, 384, 0) && state[0] == 1 && state[1] == 6, "kind 6 added");
    check(dequant_short_add(room, 1000, state, DEQUANT_STATE, 0, transposed + 1, 192, reply, 3) == DEQUANT_DONE && says(384, 192, 0), "kind 0 added");
    check(dequant_short_add(room, 1000, state, DEQUANT_STATE, 0, transposed, 192, reply, 3) == DEQUANT_HELD && says(0, 0, 0) && room[384] == 2.0f, "kind 0 again");
    check(dequant_short_add(room, 1000, state, DEQUANT_STATE, 4, transposed, 768, reply, 3) == DEQUANT_FULL && says(0, 0, 0), "kind 4 in 424 places");
    check(dequant_short_lookup(room, 1000, state, DEQUANT_STATE, 0, reply, 3) == DEQUANT_DONE && says(384, 192, 0), "kind 0 looked up");
    check(dequant_short_drop(room, 1000, state, DEQUANT_STATE, 6, reply, 3) == DEQUANT_DONE && says(0, 0, 0) && state[0] == 1 && state[1] == 0 && state[2] == 0, "kind 6 dropped");
    check(room[0] == 2.0f && room[191] == 193.0f && room[192] == 0.0f && room[575] == 0.0f && room[576] == 5.0f, "kind 0 moved down");
    check(dequant_short_lookup(room, 1000, state, DEQUANT_STATE, 6, reply, 3) == DEQUANT_GONE && dequant_short_drop(room, 1000, state, DEQUANT_STATE, 6, reply, 3) == DEQUANT_GONE, "kind 6 is gone");
    check(dequant_short_lookup(room, 1000, state, DEQUANT_STATE + 1, 0, reply, 3) == DEQUANT_LENT && dequant_short_lookup(room, 191, state, DEQUANT_STATE, 0, reply, 3) == DEQUANT_LENT, "a state of 19 bytes, and an arena that is too short for it");
    reply[0] = 5;
    check(dequant_short_drop(room, 1000, state, DEQUANT_STATE, 0, reply, 2) == DEQUANT_LENT && reply[0] == 5 && state[0] == 1 && room[0] == 2.0f, "a reply of two places, dropping");
    check(dequant_short_add(room, 0, state, DEQUANT_STATE, 1, transposed, 192, reply, 3) == DEQUANT_LENT, "an arena of no places that is said to hold a kind");
    state[0] = 0;
    check(dequant_short_add(room, 0, state, DEQUANT_STATE, 1, transposed, 192, reply, 3) == DEQUANT_FULL, "an arena of no places");
}

int main(void) {
    reading();
    expanding();
    records();
    totals();
    short_arena();
    return failed;
}
