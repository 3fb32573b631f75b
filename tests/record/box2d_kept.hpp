// What the second program over Box2D 2.4.1 keeps of an ordered pair, for a piece of its first body: the contact at the
// last accepted test, without points where there was none, how old these are, and the touches so far.
#pragma once
#include <box2d/box2d.h>
#include <cstdint>

namespace {

struct Contact {
    b2Manifold last = b2Manifold();
    uint32_t ages[b2_maxManifoldPoints] = {};
    uint32_t touches = 0;

    // How old a new point is: 0 if it is added; if it persists, one more than the first old point with its id.
    uint32_t age(b2PointState state, b2ContactID id) const {
        if (state != b2_persistState) return 0;
        int match = 0;
        while (last.points[match].id.key != id.key) match++;
        return ages[match] < UINT32_MAX ? ages[match] + 1 : UINT32_MAX;
    }

    // Takes the contact of an accepted test, whose points have these states, in the place of the last.
    void renew(const b2Manifold &m, const b2PointState *states) {
        const uint32_t both[] = {age(states[0], m.points[0].id), age(states[1], m.points[1].id)};
        for (int i = 0; i < b2_maxManifoldPoints; i++) ages[i] = both[i];
        last = m;
    }
};

} // namespace
