// Box2D 2.4.1 behind the request numbers of `calls`, on words: box2d_answer writes the refusal and the record after
// the call. Shapes, roots and vectors here, contacts in box2d_contacts.cpp.
// The library's asserts become refusals: this file defines __assert_fail and comes before the C library in the search
// order. The four-argument box takes the sine and cosine that turn.c was given. Built as a shared library by
// build_box2d.
#include "box2d_words.hpp"
#include <cmath>

jmp_buf back;
const char *assertion;
static bool asserting = false;
static unsigned assertion_line;

extern "C" void __assert_fail(const char *text, const char *, unsigned line, const char *) noexcept {
    if (!asserting) __builtin_trap();
    assertion = text;
    assertion_line = line;
    longjmp(back, 1);
}

// Document 01's number for an assert of b2PolygonShape::Set. Both "degenerate" asserts read `false`: the first in the
// file is the one after welding, so the lower line is 3 and the higher one 4.
static unsigned lower_false = ~0u;
uint32_t set_refusal() {
    if (std::strstr(assertion, "count")) return 1;
    if (std::strncmp(assertion, "m <", 3) == 0) return 4; // the walk that does not come back
    if (std::strcmp(assertion, "false") == 0) return assertion_line <= lower_false ? 3 : 4;
    return 5;
}

// From here to the end asserts are refusals. The first time it learns the line of the assert after welding: three
// points at one place.
void refusals_begin() {
    static bool learnt = false;
    asserting = true;
    if (learnt) return;
    learnt = true;
    b2Vec2 same[3] = {b2Vec2(0, 0), b2Vec2(0, 0), b2Vec2(0, 0)};
    b2PolygonShape p;
    if (setjmp(back) == 0) p.Set(same, 3);
    lower_false = assertion_line;
}

void refusals_end() { asserting = false; }

extern "C" size_t box2d_answer(const uint32_t *request, uint32_t *out) {
    refusals_begin();
    Reader in{request};
    Writer to{out + 1};
    out[0] = 0;
    switch (in.word()) {
    case 1: {
        b2PolygonShape old = in.polygon();
        static b2PolygonShape p;
        p = old;
        int32 n = (int32)in.word();
        static b2Vec2 points[64];
        for (int32 i = 0; i < n && i < 64; i++) points[i] = in.vec();
        if (setjmp(back) == 0) {
            p.Set(points, n);
        } else {
            out[0] = set_refusal();
            Reader again{request + 1};
            p = again.polygon();
        }
        to.polygon(p);
        break;
    }
    case 2: {
        b2PolygonShape p = in.polygon();
        float hx = in.number();
        p.SetAsBox(hx, in.number());
        to.polygon(p);
        break;
    }
    case 3: {
        b2PolygonShape p = in.polygon();
        float hx = in.number(), hy = in.number();
        b2Vec2 center = in.vec();
        p.SetAsBox(hx, hy, center, 0.5f);
        to.polygon(p);
        break;
    }
    case 4: {
        b2PolygonShape p = in.polygon();
        to.word(p.Validate());
        break;
    }
    case 5: {
        b2EdgeShape e = in.edge();
        b2Vec2 v0 = in.vec(), v1 = in.vec(), v2 = in.vec();
        e.SetOneSided(v0, v1, v2, in.vec());
        to.edge(e);
        break;
    }
    case 6: {
        b2EdgeShape e = in.edge();
        b2Vec2 v1 = in.vec();
        e.SetTwoSided(v1, in.vec());
        to.edge(e);
        break;
    }
    case 15: to.number(std::sqrt(in.number())); break;
    case 16: {
        // request 07: behind what Box2D answers a 1 where it was at least 2^-23 long
        b2Vec2 v = in.vec();
        const bool long_enough = v.Length() >= b2_epsilon;
        to.number(v.Normalize());
        to.vec(v);
        to.word(long_enough);
        break;
    }
    case 18: {
        // request 04: special are zeros, infinities, NaNs and all below 0, exact the others whose root is a float, and
        // the rest are rounded; two floats multiply exactly as doubles
        const float x = in.number(), root = std::sqrt(x);
        const bool special = std::isnan(x) || std::isinf(x) || x <= 0;
        to.word(special ? 0 : double(root) * double(root) == double(x) ? 1 : 2);
        to.number(root);
        break;
    }
    default:
        if (!contact_answer(in, to, out)) return 0;
    }
    refusals_end();
    return (size_t)(to.at - out);
}

// For the benchmark: one outline, built over and over in place or tested.
extern "C" float box2d_set(const float *points, int n) {
    static b2PolygonShape p;
    p.Set(reinterpret_cast<const b2Vec2 *>(points), n);
    return p.m_centroid.x + p.m_normals[0].x + p.m_vertices[2].y;
}
extern "C" float box2d_box(float hx, float hy) {
    static b2PolygonShape p;
    p.SetAsBox(hx, hy);
    return p.m_centroid.x + p.m_normals[0].x + p.m_vertices[2].y;
}
extern "C" bool box2d_validate(const b2Vec2 *corners, int n) {
    static b2PolygonShape p;
    std::memcpy(p.m_vertices, corners, n * sizeof *corners);
    p.m_count = n;
    return p.Validate();
}
