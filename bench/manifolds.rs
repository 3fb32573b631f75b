//! Manifolds as records of ours, of Box2D and of the Rust, and their bits.
use box2d_rs::b2_collision::*;
use box2d_rs::b2_math::B2vec2;

/// A manifold of ours, and its refusal.
#[repr(C)]
#[derive(Clone, Copy, Default)]
pub struct Manifold {
    pub points: [Point; 2],
    pub local_normal: [f32; 2],
    pub local_point: [f32; 2],
    pub count: usize,
    pub kind: u32,
    pub refusal: u32,
}

/// A manifold of Box2D.
#[repr(C)]
#[derive(Clone, Copy, Default)]
pub struct Box2dManifold {
    pub points: [Point; 2],
    pub local_normal: [f32; 2],
    pub local_point: [f32; 2],
    pub kind: u32,
    pub count: u32,
}

#[repr(C)]
#[derive(Clone, Copy, Default)]
pub struct Point {
    pub local_point: [f32; 2],
    pub impulses: [f32; 2],
    pub id: [u8; 4],
}

/// A manifold with something in each field, so that one that is lost shows.
pub fn old() -> Manifold {
    let id = |i: u8| [i, i + 1, i + 2, i + 3];
    let point = |x: f32, i: u8| Point { local_point: [x, 2.0 * x], impulses: [3.0 * x, 4.0 * x], id: id(i) };
    let points = [point(1.0, 1), point(-1.0, 9)];
    Manifold { points, local_normal: [7.0, 8.0], local_point: [9.0, 10.0], count: 2, kind: 2, refusal: 0 }
}
pub fn old_box2d() -> Box2dManifold {
    let o = old();
    Box2dManifold { points: o.points, local_normal: o.local_normal, local_point: o.local_point, kind: 2, count: 2 }
}
pub fn old_rust() -> B2manifold {
    let o = old();
    let mut m = B2manifold::default();
    let vec = |v: [f32; 2]| B2vec2::new(v[0], v[1]);
    for (p, q) in m.points.iter_mut().zip(&o.points) {
        p.local_point = vec(q.local_point);
        [p.normal_impulse, p.tangent_impulse] = q.impulses;
        let [index_a, index_b, type_a, type_b] = q.id;
        p.id.cf = B2contactFeature { index_a, index_b, type_a, type_b };
    }
    (m.local_normal, m.local_point) = (vec(o.local_normal), vec(o.local_point));
    (m.manifold_type, m.point_count) = (B2manifoldType::EFaceB, 2);
    m
}

/// A manifold of the Rust as Box2D's.
pub fn in_box2d(m: &B2manifold) -> Box2dManifold {
    let point = |p: B2manifoldPoint| {
        let f = p.id.cf;
        let id = [f.index_a, f.index_b, f.type_a, f.type_b];
        Point { local_point: [p.local_point.x, p.local_point.y], impulses: [p.normal_impulse, p.tangent_impulse], id }
    };
    let pair = |v: B2vec2| [v.x, v.y];
    let (points, kind, count) = (m.points.map(point), m.manifold_type as u32, m.point_count as u32);
    Box2dManifold { points, local_normal: pair(m.local_normal), local_point: pair(m.local_point), kind, count }
}

/// The bits of a manifold.
pub type Bits = ([[u32; 5]; 2], [u32; 4], u32, usize);
pub fn bits(points: [Point; 2], n: [f32; 2], p: [f32; 2], kind: u32, count: usize) -> Bits {
    let point = |p: Point| {
        let [x, y] = p.local_point.map(f32::to_bits);
        let [normal, tangent] = p.impulses.map(f32::to_bits);
        [x, y, normal, tangent, u32::from_ne_bytes(p.id)]
    };
    (points.map(point), [n[0], n[1], p[0], p[1]].map(f32::to_bits), kind, count)
}
pub fn bits_rust(m: &B2manifold) -> Bits {
    let b = in_box2d(m);
    bits(b.points, b.local_normal, b.local_point, b.kind, b.count as usize)
}
