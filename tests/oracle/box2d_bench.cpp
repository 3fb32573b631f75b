// For the benchmark: objects of Box2D in memory of their own, and the addresses of its contact calls. Numbers are in
// the order of crate bench_calls.
#include <box2d/box2d.h>
#include <cstdint>
#include <cstring>

// Kinds: 0 circle, 1 wall (mark: whether it is one-sided), 2 outline (mark: its count), 3 placement. Never freed.
extern "C" const void *box2d_new(uint32_t kind, const float *numbers, uint32_t mark) {
    const b2Vec2 *at = reinterpret_cast<const b2Vec2 *>(numbers);
    switch (kind) {
    case 0: {
        auto *c = new b2CircleShape;
        c->m_p = at[0];
        c->m_radius = numbers[2];
        return c;
    }
    case 1: {
        auto *e = new b2EdgeShape;
        e->m_vertex0 = at[0];
        e->m_vertex1 = at[1];
        e->m_vertex2 = at[2];
        e->m_vertex3 = at[3];
        e->m_radius = numbers[8];
        e->m_oneSided = mark != 0;
        return e;
    }
    case 2: {
        auto *p = new b2PolygonShape;
        std::memcpy(p->m_vertices, at, sizeof p->m_vertices);
        std::memcpy(p->m_normals, at + 8, sizeof p->m_normals);
        p->m_centroid = at[16];
        p->m_radius = numbers[34];
        p->m_count = (int32)mark;
        return p;
    }
    default: {
        auto *t = new b2Transform;
        t->p = at[0];
        t->q.s = numbers[2];
        t->q.c = numbers[3];
        return t;
    }
    }
}

// The contact call of a request number, which takes five addresses.
extern "C" void *box2d_contact_call(uint32_t entry) {
    switch (entry) {
    case 7: return reinterpret_cast<void *>(&b2CollideCircles);
    case 8: return reinterpret_cast<void *>(&b2CollidePolygonAndCircle);
    case 9: return reinterpret_cast<void *>(&b2CollidePolygons);
    case 10: return reinterpret_cast<void *>(&b2CollideEdgeAndCircle);
    case 11: return reinterpret_cast<void *>(&b2CollideEdgeAndPolygon);
    default: return nullptr;
    }
}

extern "C" int32_t box2d_clip(b2ClipVertex *out, const b2ClipVertex *in, const b2Vec2 *normal, float offset,
                              int32_t index) {
    return b2ClipSegmentToLine(out, in, *normal, offset, index);
}

extern "C" void box2d_point_states(b2PointState *states, const b2Manifold *m1, const b2Manifold *m2) {
    b2GetPointStates(states, states + 2, m1, m2);
}

// A placement is its position, sine and cosine.
extern "C" void box2d_world_points(b2WorldManifold *world, const b2Manifold *m, const b2Transform *at_a, float radius_a,
                                   const b2Transform *at_b, float radius_b) {
    world->Initialize(m, *at_a, radius_a, *at_b, radius_b);
}
