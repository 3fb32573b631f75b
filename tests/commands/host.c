/* Hosts in C and C++ build from this one file: the header's constants and three calls, and NULL with length 0, which
   netxurbil_test may be given for a slice. Prints the version; status 1 where a number is another than it should be. */
#include "netxurbil.h"
#include <stdio.h>
#include <string.h>

static int wrong = 0;

static void hold(const char *what, uint32_t wanted, uint32_t given) {
    if (wanted == given) return;
    fprintf(stderr, "%s: %u, not %u\n", what, (unsigned)given, (unsigned)wanted);
    wrong = 1;
}

static uint8_t *put(uint8_t *at, const uint8_t *bytes, size_t n) {
    memcpy(at, bytes, n);
    return at + n;
}

/* two outlines of eight points, in one place: the longest input, and an answer of two points */
static const uint8_t one[] = {0x3f, 0x80, 0, 0}, minus_one[] = {0xbf, 0x80, 0, 0}, two[] = {0x40, 0, 0, 0};
static const uint8_t minus_two[] = {0xc0, 0, 0, 0}, zero[] = {0, 0, 0, 0};

static uint8_t *robot(uint8_t *at, uint8_t id) {
    static const uint8_t *const points[][2] = {
        {two, minus_one}, {two, one}, {one, two}, {minus_one, two},
        {minus_two, one}, {minus_two, minus_one}, {minus_one, minus_two}, {one, minus_two}};
    const uint8_t outline[] = {2, id, 8}, placement[] = {4, id};
    at = put(at, outline, sizeof outline);
    for (int i = 0; i < 8; i++) at = put(put(at, points[i][0], 4), points[i][1], 4);
    at = put(at, placement, sizeof placement);
    return put(put(put(put(at, zero, 4), zero, 4), zero, 4), one, 4);
}

static struct netxurbil_span span(int32_t lowest, int32_t highest) {
    struct netxurbil_span both;
    both.lowest = lowest, both.highest = highest;
    return both;
}

/* a circle beside another, with two choices of its x; then of a radius beyond its limit */
static void measured_circles(void) {
    struct netxurbil_measured_circle a, b;
    a.x = a.y = b.y = span(0, 0), b.x = span(96, 97);
    a.radius = span(32, 32), b.radius = span(64, 64);
    struct netxurbil_circles_answer said = netxurbil_measured_circles(a, b);
    hold("the refusal of measured circles", NETXURBIL_ACCEPTED, said.refusal);
    hold("their verdict", NETXURBIL_EITHER, said.verdict);
    hold("their touching pair", 96, (uint32_t)said.touching.b.x);
    hold("their pair apart", 97, (uint32_t)said.apart.b.x);
    hold("its last number", 64, (uint32_t)said.apart.b.radius);
    b.radius.highest = 1025;
    said = netxurbil_measured_circles(a, b);
    hold("a radius of 1,025", NETXURBIL_MEASURE_OUT_OF_LIMITS, said.refusal);
    hold("its verdict", NETXURBIL_NO_VERDICT, said.verdict);
}

/* a box under another, with two choices of its y; then with a lowest above its highest */
static void measured_boxes(void) {
    struct netxurbil_measured_box a, b;
    a.x = a.y = b.x = span(0, 0), b.y = span(-97, -96);
    a.hx = span(9, 9), a.hy = span(32, 32), b.hx = span(7, 7), b.hy = span(64, 64);
    struct netxurbil_boxes_answer said = netxurbil_measured_boxes(a, b);
    hold("the refusal of measured boxes", NETXURBIL_ACCEPTED, said.refusal);
    hold("their verdict", NETXURBIL_EITHER, said.verdict);
    hold("their touching pair", (uint32_t)-96, (uint32_t)said.touching.b.y);
    hold("their pair apart", (uint32_t)-97, (uint32_t)said.apart.b.y);
    hold("its last number", 64, (uint32_t)said.apart.b.hy);
    b.hy = span(20, 20);
    hold("a lower one", NETXURBIL_SURELY_APART, netxurbil_measured_boxes(a, b).verdict);
    b.hy = span(65, 65);
    hold("a higher one", NETXURBIL_SURELY_TOUCHING, netxurbil_measured_boxes(a, b).verdict);
    a.x = span(1, 0);
    said = netxurbil_measured_boxes(a, b);
    hold("a lowest above its highest", NETXURBIL_MEASURE_OUT_OF_LIMITS, said.refusal);
    hold("its verdict", NETXURBIL_NO_VERDICT, said.verdict);
}

int main(void) {
    uint8_t frames[NETXURBIL_INPUT], out[NETXURBIL_OUTPUT];
    size_t n = (size_t)(robot(robot(frames, 0), 1) - frames);
    hold("the longest input", NETXURBIL_INPUT, (uint32_t)n);
    hold("a test of it", NETXURBIL_OUTPUT, netxurbil_test(frames, n, out, sizeof out));
    hold("its points", 2, out[3]);
    hold("its kind", NETXURBIL_FACE_OF_FIRST, out[4]);
    hold("its first old state", NETXURBIL_NULL_STATE, out[5]);
    hold("its second new state", NETXURBIL_ADD_STATE, out[8]);
    hold("its second age", 0, memcmp(out + sizeof out - sizeof zero, zero, sizeof zero) != 0);
    hold("an output a byte short", NETXURBIL_REFUSED + NETXURBIL_CONTACT_OUT_OF_RANGE,
         netxurbil_test(frames, n, out, sizeof out - 1));
    hold("no input", NETXURBIL_REFUSED + NETXURBIL_MALFORMED_FRAME, netxurbil_test(NULL, 0, out, sizeof out));
    hold("no output", NETXURBIL_REFUSED + NETXURBIL_CONTACT_OUT_OF_RANGE, netxurbil_test(frames, n, NULL, 0));
    hold("neither", NETXURBIL_REFUSED + NETXURBIL_CONTACT_OUT_OF_RANGE, netxurbil_test(NULL, 0, NULL, 0));
    measured_circles();
    measured_boxes();
    printf("%s\n", NETXURBIL_VERSION);
    return wrong;
}
