/* A C host: the worked square of foam cut along its diagonal. host/check-header builds and runs it, and compares what it prints with
 * examples/worked.txt. */
#include "bench.h"

#include <stdio.h>
#include <string.h>

/* Rooms of twice the mesh, and a short log. */
enum { P = 8, T = 2, E = 4, B = 8, LOG = 16 };

static uint8_t image[BENCH_IMAGE_BYTES(4, 2, 2, 4)];
static uint8_t result[BENCH_RESULT_BYTES(P, T, E, B)];
static uint8_t entries[LOG * BENCH_LOG_ENTRY_BYTES];
static size_t filled;

static void put(uint32_t word) {
    memcpy(image + 4 * filled++, &word, 4);
}
static void put_f32(float number) {
    uint32_t bits;
    memcpy(&bits, &number, 4);
    put(bits);
}
static uint32_t word(const uint8_t *bytes, size_t at) {
    uint32_t value;
    memcpy(&value, bytes + 4 * at, 4);
    return value;
}

/* The image: four counts, then the columns of each list. */
static void square(void) {
    static const float x[4] = {0, 4, 4, 0}, y[4] = {0, 0, 4, 4};
    static const uint32_t counts[4] = {4, 2, 2, 4};
    static const uint32_t corners[6] = {0, 0, 1, 2, 2, 3};
    static const uint32_t ends[8] = {0, 1, 2, 3, 1, 0, 0, 0};
    static const uint32_t outline[8] = {0, 1, 2, 3, 1, 2, 3, 0};
    const float diagonal = 5.656854f;
    int i, again;
    for (i = 0; i < 4; i++) put(counts[i]);
    for (again = 0; again < 2; again++) { /* position, rest position */
        for (i = 0; i < 4; i++) put_f32(x[i]);
        for (i = 0; i < 4; i++) put_f32(y[i]);
    }
    for (i = 0; i < 8; i++) put_f32(1);                    /* mass, inverse mass */
    for (i = 0; i < 8; i++) put_f32(0);                    /* velocity x, velocity y */
    for (i = 0; i < 4; i++) put((uint32_t)i);              /* root */
    for (i = 0; i < 4; i++) put(0);                        /* damaged */
    for (i = 0; i < 6; i++) put(corners[i]);               /* a, b, c */
    for (i = 0; i < 4; i++) put_f32(i < 2 ? 8.0f : 0.0f);  /* rest volume, stress */
    for (i = 0; i < 8; i++) put(ends[i]);                  /* a, b, structural, torn */
    for (i = 0; i < 8; i++) put_f32(i < 4 ? diagonal : 0); /* rest and initial rest length, impulse, stress */
    for (i = 0; i < 8; i++) put(outline[i]);               /* a, b */
}

static void print_entries(uint32_t kind, const char *name, uint32_t n) {
    uint32_t k;
    for (k = 0; k < n; k++) {
        const uint8_t *entry = entries + k * BENCH_LOG_ENTRY_BYTES;
        if (word(entry, 0) == kind) printf("%s %u %u\n", name, (unsigned)word(entry, 1), (unsigned)word(entry, 2));
    }
}

int main(void) {
    const float blade_ends[4] = {-1, -1, 5, 5}, tenth = 0.1f;
    const uint32_t places[4] = {P, T, E, B};
    uint8_t blade[16], rooms[16], pieces[4];
    uint32_t fraction, refusal, n;
    square();
    memcpy(blade, blade_ends, 16);
    memcpy(rooms, places, 16);
    memcpy(&fraction, &tenth, 4);
    refusal = bench_cut(image, sizeof image, blade, 16, BENCH_EDITION_ROUNDED, fraction, rooms, 16, result, sizeof result, entries, sizeof entries);
    if (refusal != BENCH_ACCEPTED) {
        printf("refused %u\n", (unsigned)refusal);
        return 1;
    }
    n = word(result, 1);
    printf("tear 1\n");
    print_entries(BENCH_LOG_SPLIT, "split", n);
    print_entries(BENCH_LOG_REMOVED, "edge", n);
    printf("particles %u\n", (unsigned)word(result, 2));
    /* The result's image stands behind two words and goes on as it is. */
    refusal = bench_pieces(result + 8, BENCH_IMAGE_BYTES(word(result, 2), word(result, 3), word(result, 4), word(result, 5)), pieces, 4);
    if (refusal != BENCH_ACCEPTED) return 1;
    printf("pieces %u\n", (unsigned)word(pieces, 0));
    return 0;
}
