/* The contact engine for a C or C++ match server: a call that tests two robots, and two calls that say whether bodies
   measured with a tolerance touch. ./install makes the library, for Linux on x86-64; it needs nothing but the C
   library. */
#ifndef NETXURBIL_H
#define NETXURBIL_H
#include <stddef.h>
#include <stdint.h>

#ifdef __cplusplus
extern "C" {
#endif

/* Why a call, or a frame of the touch record, was turned down. */
enum netxurbil_refusal {
    NETXURBIL_ACCEPTED = 0,
    NETXURBIL_WRONG_NUMBER_OF_POINTS = 1, /* an outline without 3 to 8 points */
    NETXURBIL_SHAPE_OUT_OF_RANGE = 2,     /* a shape's number is none, beyond its limit, or a negative radius */
    NETXURBIL_TOO_FEW_AFTER_WELDING = 3,  /* fewer than three points stay after welding */
    NETXURBIL_WALK_NOT_CLOSED = 4,        /* the walk is not back after eight corners, or with fewer than three */
    NETXURBIL_EDGE_OR_AREA_TOO_SMALL = 5, /* an edge or the area is too small */
    NETXURBIL_PLACEMENT_OUT_OF_RANGE = 6, /* a placement, or a box's sine or cosine, is out of range */
    NETXURBIL_COUNT_OUT_OF_RANGE = 7,     /* a record's count is out of range; no frame gives it */
    NETXURBIL_WALL_TOO_SHORT = 8,         /* wall against circle: the wall's squared length is not above 0 */
    NETXURBIL_CONTACT_OUT_OF_RANGE = 9,   /* an output under 53 bytes; of clips and world points, a number's range */
    NETXURBIL_MALFORMED_FRAME = 10,       /* what was sent is no frame, or not the frames that are asked for */
    NETXURBIL_UNKNOWN_ID = 11,            /* an id above 7 */
    NETXURBIL_NO_SHAPE = 12,              /* no shape under the id */
    NETXURBIL_PAIR_NOT_LISTED = 13,       /* a pair of shapes that is not tested */
    NETXURBIL_UNKNOWN_TURN = 14,          /* a turn number above 4,095; no call returns it */
    NETXURBIL_CHAIN_TOO_FEW = 15,         /* a chain of no point or of one; no call returns it */
    NETXURBIL_CHAIN_TOO_NEAR = 16,        /* neighbouring points of a chain too near; no call returns it */
    NETXURBIL_MEASURE_OUT_OF_LIMITS = 17  /* a measured number; netxurbil_test never returns it */
};

#define NETXURBIL_VERSION "1.7"

/* The longest input: two outlines of eight points, and two placements. */
#define NETXURBIL_INPUT 170
/* The room that an output needs: the longest answer, a test with two points. */
#define NETXURBIL_OUTPUT 53
/* What is added to a refusal's number when netxurbil_test returns it. */
#define NETXURBIL_REFUSED 256

/* An answer's fifth byte: whose face the points are on. */
enum netxurbil_kind {
    NETXURBIL_NO_FACE = 0, /* no point; or, in lines of the touch record, circles */
    NETXURBIL_FACE_OF_FIRST = 1,
    NETXURBIL_FACE_OF_SECOND = 2
};

/* An answer's sixth to ninth byte: what became of two old points, and what two new ones are. */
enum netxurbil_state {
    NETXURBIL_NULL_STATE = 0,    /* no point */
    NETXURBIL_ADD_STATE = 1,     /* a new point, which the last test had not */
    NETXURBIL_PERSIST_STATE = 2, /* a point of both tests */
    NETXURBIL_REMOVE_STATE = 3   /* an old point, which this test has not */
};

/* Tests two outlines. `frames` holds four frames of the touch record, joined, as bytes (not as hexadecimal text):

       02 00 count points    the outline of robot 0: its number of points, then x and y of each
       04 00 x y sine cosine where it is
       02 01 count points    the outline of robot 1
       04 01 x y sine cosine where it is

   A number is the four bytes of an f32, highest first. The bytes of the answer to `05 00 01` by a program that has read
   just these frames go to the front of `out`; the rest of it keeps its bytes:

       05 00 01, the number of points (0 to 2), the kind (0 where there is no point, 1 for a face of robot 0, 2 for one of
       robot 1), the states of two old points (0) and of two new ones (1 where there is a point), the number of touches
       (4 bytes: 1 where there are points, one or two, else 0); with points: the normal's x and y, from robot 0 to robot
       1, then of each point x, y, separation, below 0 where they overlap, and age (4 bytes: 0, since each point is new)

   Returns the number of bytes written: 13, 37 or 53 with 0, 1 or 2 points; or 256 plus a refusal, and then `out` is
   untouched: 9 for an output under 53 bytes, tried first; 10 where `frames` is anything but these four; else 1 to 6.
   No other number is returned. The bytes are those of the last line that the program touches prints when it is sent these
   four frames and 050001, each as a line of hexadecimal; a refusal from 1 to 6 is the first `ff` line that it prints
   (both are proved: docs/CLAIMS.md, R4n and R4p).

   The caller owes two slices, of n and of m bytes, that may be read and written and do not overlap; one of length 0 may
   be NULL. Nothing outside them is read or written, whatever bytes they hold; nothing is kept between calls, so threads
   may call at once. */
uint32_t netxurbil_test(const uint8_t *frames, size_t n, uint8_t *out, size_t m);

/* Bodies measured with a tolerance. Each number is given as the lowest and the highest that it may be, in whole
   1/256 m: a coordinate from -1,024 to 1,024, a radius or half-width from 0 to 1,024. A box is unturned. */
struct netxurbil_span {
    int32_t lowest, highest;
};

struct netxurbil_measured_circle {
    struct netxurbil_span x, y, radius;
};

struct netxurbil_measured_box {
    struct netxurbil_span x, y, hx, hy;
};

/* A choice of whole numbers inside such ranges. */
struct netxurbil_whole_circle {
    int32_t x, y, radius;
};

struct netxurbil_whole_box {
    int32_t x, y, hx, hy;
};

struct netxurbil_circle_pair {
    struct netxurbil_whole_circle a, b;
};

struct netxurbil_box_pair {
    struct netxurbil_whole_box a, b;
};

enum netxurbil_verdict {
    NETXURBIL_NO_VERDICT = 0,      /* refused */
    NETXURBIL_SURELY_TOUCHING = 1, /* any two bodies inside the ranges touch */
    NETXURBIL_SURELY_APART = 2,    /* no two bodies inside the ranges touch */
    NETXURBIL_EITHER = 3           /* some touch and some do not: the answer has two of each */
};

struct netxurbil_circles_answer {
    uint32_t refusal, verdict;
    struct netxurbil_circle_pair touching, apart;
};

struct netxurbil_boxes_answer {
    uint32_t refusal, verdict;
    struct netxurbil_box_pair touching, apart;
};

/* Whether two measured bodies touch. Touching means that the exact bodies, their edges included, share a point, be it
   a single one; there is no skin. The verdict holds of every two bodies inside the ranges, those of whole numbers and
   those of any fractions. Where it is NETXURBIL_EITHER, `touching` holds two bodies inside the ranges that touch and
   `apart` two that do not; else both are zeros. Swapping a and b gives the same verdict.

   `refusal` is 0; or 17, plainly, with no verdict, where a lowest is above its highest or a number is beyond its
   limits, of a or of b; never another. All this is proved (docs/CLAIMS.md).

   All is passed by value: no memory is lent and nothing is kept between calls, so threads may call at once. Both take
   constant time and use no floats. */
struct netxurbil_circles_answer netxurbil_measured_circles(struct netxurbil_measured_circle a,
                                                           struct netxurbil_measured_circle b);
struct netxurbil_boxes_answer netxurbil_measured_boxes(struct netxurbil_measured_box a,
                                                       struct netxurbil_measured_box b);

#ifdef __cplusplus
}
#endif
#endif
