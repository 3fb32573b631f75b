/* A C host of the library: makes a request, calls, prints the answer.
   usage: host                     a few worked cases
          host root X              the square root
          host normalize X Y       a vector made unit, and 1 where it had a length of at least 2^-23
          host outline X Y X Y ..  the outline builder on a list of points */
#include "netxurbil_test_calls.h"
#include <inttypes.h>
#include <stdio.h>
#include <stdlib.h>
#include <string.h>

enum { POLY = 36, MOST_POINTS = 16 };

static void put(uint8_t *at, uint32_t word) {
    for (int i = 0; i < 4; i++) at[i] = (uint8_t)(word >> (24 - 8 * i));
}

static uint32_t get(const uint8_t *at) {
    return (uint32_t)at[0] << 24 | (uint32_t)at[1] << 16 | (uint32_t)at[2] << 8 | at[3];
}

static uint32_t bits_of(float x) {
    uint32_t bits;
    memcpy(&bits, &x, sizeof bits);
    return bits;
}

static float float_of(uint32_t bits) {
    float x;
    memcpy(&x, &bits, sizeof x);
    return x;
}

static void print_float(uint32_t bits) { printf("%.9g (%08" PRIx32 ")", float_of(bits), bits); }

/* Prints an operation with its operands and the refusal of its answer; 0 words are a malformed request. */
static int answered(const char *name, const float *operands, int count, const uint8_t *out, uint32_t words) {
    printf("%s", name);
    for (int i = 0; i < count; i++) printf(" %.9g", operands[i]);
    if (words == 0) {
        printf(" : malformed\n");
        return 0;
    }
    printf(" : refusal %" PRIu32, get(out));
    return 1;
}

/* Entries 15 and 16: floats in, floats out; the last word of 16 is no float. */
static void show(const char *name, uint32_t entry, const float *operands, int count) {
    uint8_t input[12], out[20];
    put(input, entry);
    for (int i = 0; i < count; i++) put(input + 4 * (i + 1), bits_of(operands[i]));
    uint32_t words = calls(input, (size_t)(4 * (count + 1)), out, sizeof out);
    if (!answered(name, operands, count, out, words)) return;
    const uint32_t floats = entry == 16 ? words - 1 : words;
    for (uint32_t i = 1; i < floats; i++) printf(" | "), print_float(get(out + 4 * i));
    if (floats < words) printf(" | %" PRIu32, get(out + 4 * floats));
    printf("\n");
}

/* Entry 1: an outline of zeros, a list of points; prints the corners that were built, each with the normal of its
   edge, and the centroid. */
static void outline(const float *coordinates, int count) {
    uint8_t input[4 * (2 + POLY + 2 * MOST_POINTS)] = {0}, out[4 * (1 + POLY)];
    put(input, 1);
    put(input + 4 * (1 + POLY), (uint32_t)count / 2);
    for (int i = 0; i < count; i++) put(input + 4 * (2 + POLY + i), bits_of(coordinates[i]));
    uint32_t words = calls(input, (size_t)(4 * (2 + POLY + count)), out, sizeof out);
    if (!answered("outline", coordinates, count, out, words)) return;
    printf("\n");
    if (get(out) != NETXURBIL_ACCEPTED) return;
    const uint8_t *shape = out + 4;
    for (uint32_t i = 0; i < get(shape + 4 * 3); i++) {
        const uint8_t *corner = shape + 4 * (4 + 2 * i), *normal = corner + 4 * 16;
        printf("  corner ("), print_float(get(corner)), printf(", "), print_float(get(corner + 4));
        printf(") normal ("), print_float(get(normal)), printf(", "), print_float(get(normal + 4)), printf(")\n");
    }
    printf("  centroid ("), print_float(get(shape + 4)), printf(", "), print_float(get(shape + 8)), printf(")\n");
}

/* The float that a word of the command line says; a word that is no number ends the program with status 2. */
static float number(const char *word) {
    char *end;
    float x = strtof(word, &end);
    if (end == word || *end) {
        fprintf(stderr, "host: \"%s\" is no number\n", word);
        exit(2);
    }
    return x;
}

int main(int argc, char **argv) {
    float given[2 * MOST_POINTS] = {0};
    int count = argc - 2;
    for (int i = 0; i < count && i < 2 * MOST_POINTS; i++) given[i] = number(argv[i + 2]);
    if (argc == 3 && strcmp(argv[1], "root") == 0) return show("root", 15, given, 1), 0;
    if (argc == 4 && strcmp(argv[1], "normalize") == 0) return show("normalize", 16, given, 2), 0;
    if (argc >= 2 && strcmp(argv[1], "outline") == 0 && count % 2 == 0 && count <= 2 * MOST_POINTS)
        return outline(given, count), 0;
    if (argc != 1) {
        fprintf(stderr, "usage: host | host root X | host normalize X Y | host outline X Y X Y ..\n");
        return 2;
    }
    const float numbers[][2] = {{2, 0}, {0.75f, 0}, {1e-45f, 0}, {3, 4}, {-1, 1}, {1e-8f, 0}};
    for (int i = 0; i < 3; i++) show("root", 15, numbers[i], 1);
    for (int i = 3; i < 6; i++) show("normalize", 16, numbers[i], 2);
    const float square[] = {0, 0, 1, 0, 1, 1, 0, 1, 0.5f, 0}, line[] = {0, 0, 1, 0, 2, 0}, two[] = {0, 0, 1, 0};
    const float wide[] = {0, 0, 2e6f, 0, 0, 1}, welded[] = {0, 0, 0.0024f, 0, 0, 1};
    const float flat[] = {0, 0, 1, 0, 0.5f, 1e-7f};
    outline(square, 10);
    outline(two, 4);
    outline(wide, 6);
    outline(welded, 6);
    outline(line, 6);
    outline(flat, 6);
    return 0;
}
