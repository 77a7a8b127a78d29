/* matrices HEADER: reads a header from a file, expands it, and shows the first numbers of kind 6 in both orders.
   Raw samples are not decoded here: at a raw kind the program says so and stops. */
#include "dequant.h"
#include <stdio.h>

static uint8_t header[65536];
static uint16_t rows[DEQUANT_ROWS];
static float arenas[2][DEQUANT_ARENA];
static uint64_t reply[3];

static void show(const char *name, enum dequant_order order) {
    dequant_lookup(arenas[0], DEQUANT_ARENA, arenas[1], DEQUANT_ARENA, 6, 0, order, reply, 3);
    const float *part = arenas[reply[0]] + reply[1];
    printf("%s: %llu weights:", name, (unsigned long long)reply[2]);
    for (int i = 0; i < 3; i++)
        printf(" %.12f", part[i]);
    printf("\n");
}

int main(int argc, char **argv) {
    FILE *file = argc == 2 ? fopen(argv[1], "rb") : NULL;
    if (!file) {
        fprintf(stderr, "usage: matrices HEADER\n");
        return 2;
    }
    size_t length = fread(header, 1, sizeof header, file);
    fclose(file);
    uint32_t said = dequant_read_header(header, length, 0, 0, rows, DEQUANT_ROWS, reply, 3);
    if (said == DEQUANT_RAW) {
        size_t kind = reply[0];
        printf("RAW kind %zu bit %llu denominator %04x\n", kind, (unsigned long long)reply[1], rows[kind * DEQUANT_ROW + 3]);
        return 0;
    }
    if (said != DEQUANT_DONE) {
        printf("refused: reply %u kind %llu bit %llu", said, (unsigned long long)reply[0], (unsigned long long)reply[1]);
        if (said == DEQUANT_SHORT)
            printf(" lacks %llu", (unsigned long long)reply[2]);
        printf("\n");
        return 1;
    }
    printf("DONE next bit %llu, default %u\n", (unsigned long long)reply[0], rows[126]);
    static const int32_t none[1];
    said = dequant_expand(rows, DEQUANT_ROWS, none, 0, arenas[0], DEQUANT_ARENA, arenas[1], DEQUANT_ARENA, reply, 3);
    if (said != DEQUANT_DONE) {
        printf("not expanded: reply %u\n", said);
        return 1;
    }
    show("straight", DEQUANT_STRAIGHT);
    show("transposed", DEQUANT_TRANSPOSED);
    return 0;
}
