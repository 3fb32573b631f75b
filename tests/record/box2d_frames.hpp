// The state of the second program over Box2D 2.4.1 and what each kind of frame makes of it, a member of Program each.
// Asserts of the library are refusals 1, 3, 4, 5 and 8; the others are tested here.
#pragma once
#include "box2d_bytes.hpp"
#include "box2d_corner.hpp"
#include "box2d_headings.hpp"
#include "box2d_kept.hpp"
#include "box2d_words.hpp"
#include <vector>

namespace {

const float SIZE = 1048576.0f;
// a chain's points, the ones before and after left aside, and its pieces; bytes of a frame
enum { IDS = 8, POINTS = 8, PIECES = POINTS - 1, LONGEST_FRAME = 67, LONGEST_CHAIN = 83 };
// bytes of a test's line: what each has, the normal where there are points, a point: x, y, separation, age
enum { HEAD = 13, NORMAL = 8, POINT = 16, LONGEST_TEST = HEAD + NORMAL + b2_maxManifoldPoints * POINT };
enum Kind : uint8_t { NOTHING = 0, CIRCLE = 1, OUTLINE = 2, WALL = 3, CHAIN = 7 };

struct Body {
    Kind kind = NOTHING;
    b2Transform place;
    b2CircleShape circle;
    b2PolygonShape outline;
    std::vector<b2EdgeShape> walls; // one, or the pieces of a chain
    float radius() const { return kind == CIRCLE ? circle.m_radius : b2_polygonRadius; }
    size_t pieces() const { return kind == WALL || kind == CHAIN ? walls.size() : 1; }
};

bool within(float x, float limit) { return x >= -limit && x <= limit; }
bool within(b2Vec2 v) { return within(v.x, SIZE) && within(v.y, SIZE); }

// A call of the library that may assert: whether it did not.
template <class Call> bool completes(Call call) {
    if (setjmp(back) != 0) return false;
    call();
    return true;
}

struct Program {
    Body bodies[IDS];
    std::vector<Contact> pairs[IDS][IDS]; // none before the first accepted test
    uint32_t step = 0;
    uint8_t answer[PIECES][LONGEST_TEST];
    size_t length[PIECES];

    // Each kind of frame leaves the lines of its answer in `answer`, their bytes in `length`, and returns how many.
    size_t refused(uint32_t number) {
        answer[0][0] = 0xff;
        answer[0][1] = (uint8_t)number;
        length[0] = 2;
        return 1;
    }

    size_t accepted() {
        answer[0][0] = 0;
        length[0] = 1;
        return 1;
    }

    size_t made(uint32_t id, Kind kind) {
        bodies[id].kind = kind;
        bodies[id].place.SetIdentity();
        for (int other = 0; other < IDS; other++) {
            pairs[id][other].clear();
            pairs[other][id].clear();
        }
        return accepted();
    }

    // 01 id x y radius
    size_t circle(const uint8_t *frame) {
        uint32_t id = frame[1];
        Bytes in{frame + 2};
        b2Vec2 p = in.vec();
        float radius = in.number();
        if (!within(p) || !(radius >= 0.0f && radius <= SIZE)) return refused(2);
        bodies[id].circle.m_p = p;
        bodies[id].circle.m_radius = radius;
        return made(id, CIRCLE);
    }

    // 02 id count points
    size_t outline(const uint8_t *frame) {
        uint32_t id = frame[1];
        int count = frame[2];
        Bytes in{frame + 3};
        static b2Vec2 points[POINTS];
        static b2PolygonShape built;
        bool in_range = true;
        for (int i = 0; i < count; i++) {
            points[i] = in.vec();
            in_range = in_range && within(points[i]);
        }
        if (count >= 3 && !in_range) return refused(2);
        if (!completes([&] { built.Set(points, count); })) return refused(set_refusal());
        bodies[id].outline = built;
        return made(id, OUTLINE);
    }

    // 03 id 00 v1 v2, and 03 id 01 v0 v1 v2 v3
    size_t wall(const uint8_t *frame) {
        uint32_t id = frame[1];
        bool one_sided = frame[2] == 1;
        Bytes in{frame + 3};
        b2Vec2 v[4];
        for (int i = 0; i < (one_sided ? 4 : 2); i++) {
            v[i] = in.vec();
            if (!within(v[i])) return refused(2);
        }
        std::vector<b2EdgeShape> wall(1);
        if (one_sided) wall[0].SetOneSided(v[0], v[1], v[2], v[3]);
        else wall[0].SetTwoSided(v[0], v[1]);
        bodies[id].walls = wall;
        return made(id, WALL);
    }

    // 07 id count, the point before, the points, the point after: 15, 2, 16
    size_t chain(const uint8_t *frame) {
        uint32_t id = frame[1];
        const int count = frame[2];
        Bytes in{frame + 3};
        if (count < 2) return refused(15);
        b2Vec2 v[POINTS + 2];
        for (int i = 0; i < count + 2; i++) {
            v[i] = in.vec();
            if (!within(v[i])) return refused(2);
        }
        for (int i = 1; i < count; i++)
            if (!(b2DistanceSquared(v[i], v[i + 1]) > 0.005f * 0.005f)) return refused(16);
        std::vector<b2EdgeShape> walls((size_t)count - 1);
        for (int i = 0; i < count - 1; i++) walls[(size_t)i].SetOneSided(v[i], v[i + 1], v[i + 2], v[i + 3]);
        bodies[id].walls = walls;
        return made(id, CHAIN);
    }

    // 04 id x y sine cosine
    size_t place(const uint8_t *frame) {
        uint32_t id = frame[1];
        Bytes in{frame + 2};
        if (bodies[id].kind == NOTHING) return refused(12);
        b2Transform to;
        to.p = in.vec();
        to.q.s = in.number();
        to.q.c = in.number();
        if (!within(to.p) || !within(to.q.s, 1.0f) || !within(to.q.c, 1.0f)) return refused(6);
        bodies[id].place = to;
        return accepted();
    }

    // 06 id x y turn number
    size_t head(const uint8_t *frame) {
        Body &body = bodies[frame[1]];
        Bytes in{frame + 2};
        b2Vec2 p = in.vec();
        uint32_t number = in.half();
        if (body.kind == NOTHING) return refused(12);
        if (number >= TURN) return refused(14);
        if (!within(p)) return refused(6);
        body.place.p = p;
        body.place.q = heading(number);
        return accepted();
    }

    // The contact of a piece of a with b: whether it is not refused with 8.
    bool contact(b2Manifold &m, const Body &a, size_t piece, const Body &b) {
        m = b2Manifold();
        if (a.kind == CIRCLE) {
            b2CollideCircles(&m, &a.circle, a.place, &b.circle, b.place);
        } else if (a.kind == OUTLINE && b.kind == CIRCLE) {
            b2CollidePolygonAndCircle(&m, &a.outline, a.place, &b.circle, b.place);
            face_normal(m, a.outline, a.place, b2MulT(a.place, b2Mul(b.place, b.circle.m_p)));
        } else if (a.kind == OUTLINE) {
            b2CollidePolygons(&m, &a.outline, a.place, &b.outline, b.place);
        } else if (b.kind == CIRCLE) {
            return completes([&] { b2CollideEdgeAndCircle(&m, &a.walls[piece], a.place, &b.circle, b.place); });
        } else {
            b2CollideEdgeAndPolygon(&m, &a.walls[piece], a.place, &b.outline, b.place);
        }
        return true;
    }

    // 05 a b: a line for each piece of a. What the pair keeps changes when no piece is refused.
    size_t test(const uint8_t *frame) {
        uint32_t ida = frame[1], idb = frame[2];
        Body &a = bodies[ida], &b = bodies[idb];
        if (a.kind == NOTHING || b.kind == NOTHING) return refused(12);
        bool listed = a.kind == CIRCLE ? b.kind == CIRCLE : b.kind == CIRCLE || b.kind == OUTLINE;
        if (ida == idb || !listed) return refused(13);
        if (a.kind == OUTLINE && !within(a.outline.m_centroid)) return refused(2);
        if (b.kind == OUTLINE && !within(b.outline.m_centroid)) return refused(2);
        static b2Manifold found[PIECES];
        for (size_t i = 0; i < a.pieces(); i++)
            if (!contact(found[i], a, i, b)) return refused(8);
        std::vector<Contact> &pair = pairs[ida][idb];
        pair.resize(a.pieces());
        for (size_t i = 0; i < a.pieces(); i++) {
            Line to{answer[i]};
            to.byte(5), to.byte(ida), to.byte(idb);
            put(to, pair[i], found[i], a, b);
            length[i] = (size_t)(to.at - answer[i]);
        }
        return a.pieces();
    }

    // The rest of a piece's line. A touch begins where a piece that had no point gets one.
    void put(Line &to, Contact &kept, const b2Manifold &m, const Body &a, const Body &b) {
        b2PointState states[4];
        b2GetPointStates(states, states + 2, &kept.last, &m);
        if (kept.last.pointCount == 0 && m.pointCount > 0 && kept.touches < UINT32_MAX) kept.touches++;
        kept.renew(m, states + 2);
        to.byte((uint32_t)m.pointCount), to.byte(m.pointCount == 0 ? 0 : (uint32_t)m.type);
        for (auto state : states) to.byte((uint32_t)state);
        to.word(kept.touches);
        if (m.pointCount > 0) {
            b2WorldManifold world;
            world.Initialize(&m, a.place, a.radius(), b.place, b.radius());
            to.vec(world.normal);
            for (int i = 0; i < m.pointCount; i++)
                to.vec(world.points[i]), to.number(world.separations[i]), to.word(kept.ages[i]);
        }
    }

    size_t frame(const uint8_t *bytes, size_t count);

    size_t next_step();

    // One line without its line feed, not an empty one.
    size_t line(const uint8_t *text, size_t digits) {
        uint8_t bytes[LONGEST_CHAIN];
        if (digits > 2 * LONGEST_CHAIN || digits % 2 == 1) return refused(10);
        for (size_t i = 0; i < digits; i++) {
            uint8_t c = text[i], digit;
            if (c >= '0' && c <= '9') digit = (uint8_t)(c - '0');
            else if (c >= 'a' && c <= 'f') digit = (uint8_t)(c - 'a' + 10);
            else return refused(10);
            bytes[i / 2] = (uint8_t)(i % 2 == 0 ? digit << 4 : bytes[i / 2] | digit);
        }
        return frame(bytes, digits / 2);
    }
};

} // namespace
