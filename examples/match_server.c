/* A match server's side of the contact engine: sends two robots as frames, asks for their touch, prints it with its
   numbers decoded.
       ./install
       export PKG_CONFIG_PATH=$PWD/target/netxurbil/lib/pkgconfig
       flags="$(pkg-config --cflags --libs netxurbil) -Wl,-rpath,$PWD/target/netxurbil/lib"
       cc examples/match_server.c $flags -o target/match_server */
#include "netxurbil.h"
#include <inttypes.h>
#include <stdio.h>
#include <string.h>

/* More room than an answer needs; where an answer has the normal and its points, and the bytes of a point. */
enum { MOST_POINTS = 8, ROOM = 2 * NETXURBIL_OUTPUT, NORMAL = 13, POINTS = 21, POINT = 16 };

/* A robot as its team drew it, and where it is. */
struct robot {
    int count;
    float points[MOST_POINTS][2], x, y, sine, cosine;
};

static uint8_t *put(uint8_t *at, float number) {
    uint32_t bits;
    memcpy(&bits, &number, sizeof bits);
    for (int shift = 24; shift >= 0; shift -= 8) *at++ = (uint8_t)(bits >> shift);
    return at;
}

static uint32_t word(const uint8_t *at) {
    return (uint32_t)at[0] << 24 | (uint32_t)at[1] << 16 | (uint32_t)at[2] << 8 | at[3];
}

static float number(const uint8_t *at) {
    uint32_t bits = word(at);
    float x;
    memcpy(&x, &bits, sizeof x);
    return x;
}

/* Frames 02 and 04 of a robot of at most eight points; where they end. */
static uint8_t *frames_of(uint8_t *at, uint8_t id, const struct robot *robot) {
    *at++ = 2, *at++ = id, *at++ = (uint8_t)robot->count;
    for (int i = 0; i < robot->count; i++) at = put(put(at, robot->points[i][0]), robot->points[i][1]);
    *at++ = 4, *at++ = id;
    return put(put(put(put(at, robot->x), robot->y), robot->sine), robot->cosine);
}

static int can_be_sent(const struct robot *robot) { return robot->count >= 0 && robot->count <= MOST_POINTS; }

static void show(const char *what, const struct robot *a, const struct robot *b, size_t room) {
    static const char *const kinds[] = {"no face", "a face of robot 0", "a face of robot 1"};
    uint8_t frames[NETXURBIL_INPUT], out[ROOM];
    printf("%s: ", what);
    if (!can_be_sent(a) || !can_be_sent(b)) {
        printf("not sent\n");
        return;
    }
    size_t length = (size_t)(frames_of(frames_of(frames, 0, a), 1, b) - frames);
    uint32_t said = netxurbil_test(frames, length, out, room < sizeof out ? room : sizeof out);
    if (said >= NETXURBIL_REFUSED) {
        printf("refused, number %" PRIu32 "\n", said - NETXURBIL_REFUSED);
        return;
    }
    int points = out[3];
    printf("%" PRIu32 " bytes, %d point%s", said, points, points == 1 ? "" : "s");
    if (points > 0) {
        printf(" on %s, normal (%.9g, %.9g)", kinds[out[4]], number(out + NORMAL), number(out + NORMAL + 4));
        for (int i = 0; i < points; i++) {
            const uint8_t *point = out + POINTS + POINT * i;
            printf("; at (%.9g, %.9g) separation %.9g", number(point), number(point + 4), number(point + 8));
            printf(" age %" PRIu32, word(point + 12));
        }
    }
    printf("\n");
}

int main(void) {
    const struct robot pusher = {4, {{-1, -1}, {1, -1}, {1, 1}, {-1, 1}}, 0, 0, 0, 1};
    struct robot wedge = {3, {{0, 0}, {2, -1}, {2, 1}}, 2, 0, 0, 1};
    show("a metre apart", &pusher, &wedge, NETXURBIL_OUTPUT);
    wedge.x = 0.9921875f;
    show("the wedge's tip in the side", &pusher, &wedge, NETXURBIL_OUTPUT);
    wedge.sine = 0.6f, wedge.cosine = 0.8f;
    show("turned", &pusher, &wedge, ROOM);
    struct robot other = pusher;
    other.x = 1.5f;
    show("two boxes that overlap", &pusher, &other, NETXURBIL_OUTPUT);
    show("an output that is too short", &pusher, &other, NETXURBIL_OUTPUT - 1);
    other.cosine = 1.5f;
    show("a cosine above 1", &pusher, &other, NETXURBIL_OUTPUT);
    wedge.count = 2;
    show("a drawing of two points", &pusher, &wedge, NETXURBIL_OUTPUT);
    wedge.count = 9;
    show("a drawing of nine points", &pusher, &wedge, NETXURBIL_OUTPUT);
    return 0;
}
