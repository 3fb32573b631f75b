// Records of Box2D as the words of a request and of an answer, and what the two parts of the shim share.
#pragma once
#include <box2d/box2d.h>
#include <csetjmp>
#include <cstdint>
#include <cstring>

extern jmp_buf back;          // where an assert of the library goes
extern const char *assertion; // its text

// Between these two an assert of the library comes back instead of ending the program. The number of the last one, of
// the outline builder.
void refusals_begin();
void refusals_end();
uint32_t set_refusal();

struct Reader {
    const uint32_t *at;
    uint32_t word() { return *at++; }
    float number() {
        float x;
        std::memcpy(&x, at++, 4);
        return x;
    }
    b2Vec2 vec() {
        float x = number();
        return b2Vec2(x, number());
    }
    b2PolygonShape polygon() {
        b2PolygonShape p;
        p.m_radius = number();
        p.m_centroid = vec();
        p.m_count = (int32)word();
        for (auto &v : p.m_vertices) v = vec();
        for (auto &v : p.m_normals) v = vec();
        return p;
    }
    b2CircleShape circle() {
        b2CircleShape c;
        c.m_radius = number();
        c.m_p = vec();
        return c;
    }
    b2Transform transform() {
        b2Transform t;
        t.p = vec();
        t.q.s = number();
        t.q.c = number();
        return t;
    }
    b2ContactID id() {
        uint32_t w = word();
        b2ContactID id;
        id.cf.indexA = (uint8)(w >> 24);
        id.cf.indexB = (uint8)(w >> 16);
        id.cf.typeA = (uint8)(w >> 8);
        id.cf.typeB = (uint8)w;
        return id;
    }
    b2Manifold manifold() {
        b2Manifold m;
        m.type = (b2Manifold::Type)word();
        m.pointCount = (int32)word();
        m.localNormal = vec();
        m.localPoint = vec();
        for (auto &p : m.points) {
            p.localPoint = vec();
            p.normalImpulse = number();
            p.tangentImpulse = number();
            p.id = id();
        }
        return m;
    }
    b2ClipVertex clip_vertex() {
        b2ClipVertex v;
        v.v = vec();
        v.id = id();
        return v;
    }
    b2EdgeShape edge() {
        b2EdgeShape e;
        e.m_radius = number();
        e.m_oneSided = word() != 0;
        e.m_vertex0 = vec();
        e.m_vertex1 = vec();
        e.m_vertex2 = vec();
        e.m_vertex3 = vec();
        return e;
    }
};

struct Writer {
    uint32_t *at;
    void word(uint32_t w) { *at++ = w; }
    void number(float x) {
        uint32_t w;
        std::memcpy(&w, &x, 4);
        word(w);
    }
    void vec(b2Vec2 v) {
        number(v.x);
        number(v.y);
    }
    void polygon(const b2PolygonShape &p) {
        number(p.m_radius);
        vec(p.m_centroid);
        word((uint32_t)p.m_count);
        for (auto &v : p.m_vertices) vec(v);
        for (auto &v : p.m_normals) vec(v);
    }
    void edge(const b2EdgeShape &e) {
        number(e.m_radius);
        word(e.m_oneSided);
        vec(e.m_vertex0);
        vec(e.m_vertex1);
        vec(e.m_vertex2);
        vec(e.m_vertex3);
    }
    void id(b2ContactID id) {
        word((uint32_t)id.cf.indexA << 24 | id.cf.indexB << 16 | id.cf.typeA << 8 | id.cf.typeB);
    }
    void manifold(const b2Manifold &m) {
        word((uint32_t)m.type);
        word((uint32_t)m.pointCount);
        vec(m.localNormal);
        vec(m.localPoint);
        for (auto &p : m.points) {
            vec(p.localPoint);
            number(p.normalImpulse);
            number(p.tangentImpulse);
            id(p.id);
        }
    }
    void clip_vertex(const b2ClipVertex &v) {
        vec(v.v);
        id(v.id);
    }
};

// Entries 7 to 14; false for another number. out[0] takes the refusal.
bool contact_answer(Reader in, Writer &to, uint32_t *out);
