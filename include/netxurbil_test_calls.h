/* The C entry points for tests (crates/test_calls). A slice of bytes is a pointer and a length; refusals are those of
   netxurbil.h. */
#ifndef NETXURBIL_TEST_CALLS_H
#define NETXURBIL_TEST_CALLS_H
#include "netxurbil.h"

#ifdef __cplusplus
extern "C" {
#endif

/* Runs the entry that the request's first word names. All words are four bytes, highest first; a float is its bits.
   Returns the number of words written to the front of out: the refusal (0 for accepted), then the complete record
   after the call. Returns 0 and writes nothing where the request is malformed or out is too short. Never reads or
   writes outside the two slices.

   POLY is 36 words: radius, centroid x y, count, 8 vertices, 8 normals. EDGE is 10 words: radius, flag (1 for
   one-sided, 0 for two-sided), v0, v1, v2, v3. CIRCLE is 3: radius, centre. XF, a placement, is 4: position, sine,
   cosine. MAN is 16: kind (0 circles, 1 face A, 2 face B), count, local normal, local point, then twice: local point,
   normal impulse, tangent impulse, id. CLIPV is 3: point, id. WMAN is 8: normal, two points, two separations. An id
   is one word, its bytes index A, index B, type A, type B, highest first. A state is 0 for null, 1 for add, 2 for
   persist, 3 for remove. Points are x then y. A count may be any word; a kind, flag or state that is none of these
   makes the request malformed. A refused call answers the record that it was given.

      1, POLY, n, n points                     the outline builder: refusal, POLY
      2, POLY, hx, hy                          a box: refusal, POLY
      3, POLY, hx, hy, cx, cy, sine, cosine    a box about a centre, turned: refusal, POLY
      4, POLY                                  is it convex: refusal, 0 or 1
      5, EDGE, v0, v1, v2, v3                  a one-sided wall: refusal, EDGE
      6, EDGE, v1, v2                          a two-sided wall: refusal, EDGE
      7, MAN, CIRCLE, XF, CIRCLE, XF           circle A against circle B: refusal, MAN
      8, MAN, POLY, XF, CIRCLE, XF             outline against circle: refusal, MAN
      9, MAN, POLY, XF, POLY, XF               outline A against outline B: refusal, MAN
     10, MAN, EDGE, XF, CIRCLE, XF             wall against circle: refusal, MAN
     11, MAN, EDGE, XF, POLY, XF               wall against outline: refusal, MAN
     12, 2 CLIPV, 2 CLIPV, normal, offset,     a segment clipped to a line, over the first two CLIPV: refusal, count,
         index                                 2 CLIPV; an index counts by its remainder by 256
     13, WMAN, MAN, XF, radius, XF, radius     world points of a manifold between A and B, over the WMAN: refusal,
                                               WMAN; no points leave it as it was
     14, 4 states, MAN, MAN                    states of the old and the new manifold's points: refusal, 4 states
     15, x                                     the square root of x: refusal, root
     16, x, y                                  the vector (x, y) made unit: refusal, length, x, y, then 1 where
                                               the length is at least 2^-23, else 0; one below it is given as 0
                                               and changes nothing
     17, turn number                           its heading, in 4,096ths of a turn: refusal, sine, cosine; 14, 0, 0
                                               above 4,095
     18, x                                     the square root of x and the step that gives it: refusal, step (0
                                               special operands, 1 exact results, 2 rounding), root */
uint32_t calls(const uint8_t *input, size_t input_length, uint8_t *out, size_t out_length);

/* The same of measured bodies, which have numbers of their own. SPAN is 2 words: lowest, highest, in whole 1/256 m and
   two's complement.

     20, 3 SPAN, 3 SPAN                        measured circles A and B, x, y, radius of each: refusal, verdict (0
                                               none, 1 surely touching, 2 surely apart, 3 either), then x, y, radius
                                               of A and of B, touching, and again, apart; zeros but for an either
     21, 4 SPAN, 4 SPAN                        measured boxes A and B, x, y, hx, hy of each: the same with these */
uint32_t measured_calls(const uint8_t *input, size_t input_length, uint8_t *out, size_t out_length);

/* The records of the outline builder, as the code has them. */
struct netxurbil_vec2 {
    float x, y;
};

struct netxurbil_polygon {
    float radius;
    struct netxurbil_vec2 centroid, vertices[8], normals[8];
    size_t count;
};

struct netxurbil_polygon_answer {
    uint8_t refusal;
    struct netxurbil_polygon shape;
};

/* The outline builder on a lent slice of points, by the name that it has in the code (crate shapes_c). Answers as entry
   1: the refusal, and the outline after the call; of a refused call the outline that it was given. Reads the slice
   alone. */
struct netxurbil_polygon_answer b2_polygon_shape_set(struct netxurbil_polygon old,
                                                     const struct netxurbil_vec2 *vertices, size_t vertices_length);

#ifdef __cplusplus
}
#endif
#endif
