// Document 02's request 07 for the second program over Box2D 2.4.1: no zero normal of outline against circle.
#pragma once
#include <box2d/box2d.h>
#include <cstddef>

// How often the normal of the face was put in, for the harness: at its first corner, at its second, and turned.
extern "C" {
size_t box2d_face_normals[3] = {0, 0, 0};
}

namespace {

// The manifold's point on the outline is a corner, or the middle of a face, which has the face's normal already. Where
// there is no length from it to the circle's centre, the normal is that of the face with the greatest separation.
void face_normal(b2Manifold &m, const b2PolygonShape &outline, const b2Transform &a, const b2Vec2 &centre) {
    if (m.pointCount == 0) return;
    b2Vec2 from_corner = centre - m.localPoint;
    if (from_corner.Normalize() > 0) return;
    int chosen = 0;
    float greatest = -b2_maxFloat;
    for (int i = 0; i < outline.m_count; i++) {
        const float separation = b2Dot(outline.m_normals[i], centre - outline.m_vertices[i]);
        if (separation <= greatest) continue;
        greatest = separation;
        chosen = i;
    }
    const b2Vec2 normal = outline.m_normals[chosen];
    if (m.localNormal == normal) return;
    m.localNormal = normal;
    box2d_face_normals[m.localPoint == outline.m_vertices[chosen] ? 0 : 1]++;
    if (a.q.s != 0 && a.q.c != 0) box2d_face_normals[2]++;
}

} // namespace
