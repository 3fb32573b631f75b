// Entries 7 to 14 of box2d_answer: the five contact calls, clips, world points, point states.
#include "box2d_words.hpp"

namespace {

// A contact call on the manifold that stands first in the request. The one assert that document 01 names is refusal
// 8; another is 255, which no answer is.
template <class A, class B>
using Call = void (*)(b2Manifold *, const A *, const b2Transform &, const B *, const b2Transform &);

template <class A, class B>
void collide(Call<A, B> call, const b2Manifold &old, const A &a, const b2Transform &xf_a, const B &b,
             const b2Transform &xf_b, Writer &to, uint32_t *out) {
    static b2Manifold m;
    m = old;
    if (setjmp(back) == 0) {
        call(&m, &a, xf_a, &b, xf_b);
    } else {
        out[0] = std::strncmp(assertion, "den > 0", 7) == 0 ? 8 : 255;
        m = old;
    }
    to.manifold(m);
}

} // namespace

bool contact_answer(Reader in, Writer &to, uint32_t *out) {
    switch (in.at[-1]) {
    case 7: {
        b2Manifold old = in.manifold();
        b2CircleShape a = in.circle();
        b2Transform xf_a = in.transform();
        b2CircleShape b = in.circle();
        collide(b2CollideCircles, old, a, xf_a, b, in.transform(), to, out);
        break;
    }
    case 8: {
        b2Manifold old = in.manifold();
        b2PolygonShape a = in.polygon();
        b2Transform xf_a = in.transform();
        b2CircleShape b = in.circle();
        collide(b2CollidePolygonAndCircle, old, a, xf_a, b, in.transform(), to, out);
        break;
    }
    case 9: {
        b2Manifold old = in.manifold();
        b2PolygonShape a = in.polygon();
        b2Transform xf_a = in.transform();
        b2PolygonShape b = in.polygon();
        collide(b2CollidePolygons, old, a, xf_a, b, in.transform(), to, out);
        break;
    }
    case 10: {
        b2Manifold old = in.manifold();
        b2EdgeShape a = in.edge();
        b2Transform xf_a = in.transform();
        b2CircleShape b = in.circle();
        collide(b2CollideEdgeAndCircle, old, a, xf_a, b, in.transform(), to, out);
        break;
    }
    case 11: {
        b2Manifold old = in.manifold();
        b2EdgeShape a = in.edge();
        b2Transform xf_a = in.transform();
        b2PolygonShape b = in.polygon();
        collide(b2CollideEdgeAndPolygon, old, a, xf_a, b, in.transform(), to, out);
        break;
    }
    case 12: {
        b2ClipVertex output[2], input[2];
        for (auto &v : output) v = in.clip_vertex();
        for (auto &v : input) v = in.clip_vertex();
        b2Vec2 normal = in.vec();
        float offset = in.number();
        to.word((uint32_t)b2ClipSegmentToLine(output, input, normal, offset, (int32)in.word()));
        for (auto &v : output) to.clip_vertex(v);
        break;
    }
    case 13: {
        b2WorldManifold w;
        w.normal = in.vec();
        for (auto &p : w.points) p = in.vec();
        for (auto &s : w.separations) s = in.number();
        b2Manifold m = in.manifold();
        b2Transform xf_a = in.transform();
        float radius_a = in.number();
        b2Transform xf_b = in.transform();
        w.Initialize(&m, xf_a, radius_a, xf_b, in.number());
        to.vec(w.normal);
        for (auto &p : w.points) to.vec(p);
        for (auto &s : w.separations) to.number(s);
        break;
    }
    case 14: {
        b2PointState states[4];
        for (auto &s : states) s = (b2PointState)in.word();
        b2Manifold m1 = in.manifold();
        b2Manifold m2 = in.manifold();
        b2GetPointStates(states, states + 2, &m1, &m2);
        for (auto &s : states) to.word((uint32_t)s);
        break;
    }
    default: return false;
    }
    return true;
}
