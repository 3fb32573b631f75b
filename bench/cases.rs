//! Cases of the contact calls: pairs of placed shapes, drawn until one is of the kind that a row names. No sine or
//! cosine is taken: the shim over Box2D has its own for the whole process.
use box2d_rs::b2_collision::{B2manifold, B2manifoldType};
use box2d_rs::b2_math::{B2Rot, B2Transform, B2vec2};
use box2d_rs::shapes::b2_circle_shape::B2circleShape;
use box2d_rs::shapes::b2_edge_shape::B2edgeShape;
use box2d_rs::shapes::b2_polygon_shape::B2polygonShape;

pub struct Random(pub u64);

impl Random {
    /// From 0, below 1.
    pub fn unit(&mut self) -> f32 {
        self.0 = self.0.wrapping_mul(6364136223846793005).wrapping_add(1442695040888963407);
        (self.0 >> 40) as f32 / 16777216.0
    }
    pub fn between(&mut self, low: f32, high: f32) -> f32 {
        low + (high - low) * self.unit()
    }
    pub fn below(&mut self, n: usize) -> usize {
        (self.unit() * n as f32) as usize % n
    }
    pub fn turn(&mut self) -> B2Rot {
        turned(4.0 * self.unit())
    }
    pub fn direction(&mut self) -> B2vec2 {
        let q = self.turn();
        B2vec2::new(q.c, q.s)
    }
}

/// A turn by about u quarters, of unit length but for rounding.
fn turned(u: f32) -> B2Rot {
    let quarter = u.floor();
    let t = u - quarter;
    let (s, c) = ((2.0 * t / (1.0 + t * t)).min(1.0), (1.0 - t * t) / (1.0 + t * t));
    match quarter as i32 & 3 {
        0 => B2Rot { s, c },
        1 => B2Rot { s: c, c: -s },
        2 => B2Rot { s: -s, c: -c },
        _ => B2Rot { s: -c, c: s },
    }
}

fn rotate(q: B2Rot, v: B2vec2) -> B2vec2 {
    B2vec2::new(q.c * v.x - q.s * v.y, q.s * v.x + q.c * v.y)
}

fn shift(v: B2vec2, by: f32, d: B2vec2) -> B2vec2 {
    B2vec2::new(v.x + by * d.x, v.y + by * d.y)
}

/// The place p of a frame, with a turn of its own.
fn placed(frame: B2Transform, p: B2vec2, q: B2Rot) -> B2Transform {
    B2Transform { p: shift(rotate(frame.q, p), 1.0, frame.p), q }
}

/// About the origin, turned anyhow.
fn frame(r: &mut Random) -> B2Transform {
    B2Transform { p: B2vec2::new(0.0, 0.0), q: r.turn() }
}

fn circle(radius: f32) -> B2circleShape {
    let mut c = B2circleShape::default();
    c.base.m_radius = radius;
    c.m_p = B2vec2::new(0.0, 0.0);
    c
}

/// An outline of n corners about a unit circle, built by the Rust from points out of order.
fn outline(r: &mut Random, n: usize) -> B2polygonShape {
    loop {
        let first = 4.0 * r.unit();
        let at = |r: &mut Random, k: usize| turned(first + (4 * k) as f32 / n as f32 + r.between(-1.2, 1.2) / n as f32);
        let mut points: Vec<B2vec2> = (0..n).map(|k| at(r, k)).map(|q| B2vec2::new(q.c, q.s)).collect();
        (1..n).rev().for_each(|i| points.swap(i, r.below(i + 1)));
        let mut p = B2polygonShape::default();
        p.set(&points);
        if p.m_count == n {
            return p;
        }
    }
}

/// A wall about 4 long along the first axis; circles and outlines below it are in front of it.
fn wall(r: &mut Random, one_sided: bool) -> B2edgeShape {
    let mut near = |x: f32, y: f32, by: f32| B2vec2::new(x + r.between(-by, by), y + r.between(-by, by));
    let mut e = B2edgeShape::default();
    e.m_one_sided = one_sided;
    e.m_vertex0 = near(-4.0, 0.0, 0.3);
    e.m_vertex1 = near(-2.0, 0.0, 0.05);
    e.m_vertex2 = near(2.0, 0.0, 0.05);
    e.m_vertex3 = near(4.0, 0.0, 0.3);
    e
}

#[derive(Clone)]
pub struct Case<A, B> {
    pub a: A,
    pub at_a: B2Transform,
    pub b: B,
    pub at_b: B2Transform,
}

pub fn circles(r: &mut Random, distance: f32) -> Case<B2circleShape, B2circleShape> {
    let at_a = frame(r);
    let at_b = B2Transform { p: shift(at_a.p, distance, r.direction()), q: r.turn() };
    Case { a: circle(0.75), at_a, b: circle(0.5), at_b }
}

pub fn outline_circle(r: &mut Random, n: usize, distance: f32) -> Case<B2polygonShape, B2circleShape> {
    let at_a = frame(r);
    let at_b = B2Transform { p: shift(at_a.p, distance, r.direction()), q: r.turn() };
    Case { a: outline(r, n), at_a, b: circle(0.5), at_b }
}

pub fn outlines(r: &mut Random, n: usize, distance: f32) -> Case<B2polygonShape, B2polygonShape> {
    let at_a = frame(r);
    let at_b = B2Transform { p: shift(at_a.p, distance, r.direction()), q: r.turn() };
    Case { a: outline(r, n), at_a, b: outline(r, n), at_b }
}

/// A circle of radius 0.5 about a place in front of the wall, or on either side where the wall has two.
pub fn wall_circle(r: &mut Random, one_sided: bool, x: (f32, f32), y: (f32, f32)) -> Case<B2edgeShape, B2circleShape> {
    let mut a = wall(r, one_sided);
    // the neighbours turn back, so that the ends of a one-sided wall are met
    a.m_vertex0 = B2vec2::new(-2.1, r.between(1.0, 2.0));
    a.m_vertex3 = B2vec2::new(2.1, r.between(1.0, 2.0));
    let side = if !one_sided && r.unit() < 0.5 { 1.0 } else { -1.0 };
    let at_a = frame(r);
    let p = B2vec2::new(r.between(x.0, x.1), side * r.between(y.0, y.1));
    Case { a, at_a, b: circle(0.5), at_b: placed(at_a, p, r.turn()) }
}

/// An outline with its middle at a height above the wall's line.
pub fn wall_outline(
    r: &mut Random, n: usize, one_sided: bool, height: (f32, f32),
) -> Case<B2edgeShape, B2polygonShape> {
    let side = if !one_sided && r.unit() < 0.5 { 1.0 } else { -1.0 };
    let at_a = frame(r);
    let p = B2vec2::new(r.between(-1.5, 1.5), side * r.between(height.0, height.1));
    Case { a: wall(r, one_sided), at_a, b: outline(r, n), at_b: placed(at_a, p, r.turn()) }
}

/// A face of the outline along the wall, at most 0.01 off or in.
pub fn resting(r: &mut Random, n: usize, one_sided: bool) -> Case<B2edgeShape, B2polygonShape> {
    let (a, at_a, b) = (wall(r, one_sided), frame(r), outline(r, n));
    let e = B2vec2::new(a.m_vertex2.x - a.m_vertex1.x, a.m_vertex2.y - a.m_vertex1.y);
    let length = (e.x * e.x + e.y * e.y).sqrt();
    let (t, normal) = (B2vec2::new(e.x / length, e.y / length), B2vec2::new(e.y / length, -e.x / length));
    let f = r.below(n);
    let m = b.m_normals[f];
    // the turn that carries the outline's normal against the wall's
    let c = (-(normal.x * m.x + normal.y * m.y)).clamp(-1.0, 1.0);
    let s = (normal.x * m.y - normal.y * m.x).clamp(-1.0, 1.0);
    let q = B2Rot { s, c };
    let on_wall = shift(shift(shift(a.m_vertex1, 0.5, e), r.between(-1.2, 1.2), t), r.between(-0.01, 0.01), normal);
    let p = shift(on_wall, -1.0, rotate(q, b.m_vertices[f]));
    let (s, c) = (at_a.q.s * q.c + at_a.q.c * q.s, at_a.q.c * q.c - at_a.q.s * q.s);
    Case { a, at_a, b, at_b: placed(at_a, p, B2Rot { s: s.clamp(-1.0, 1.0), c: c.clamp(-1.0, 1.0) }) }
}

/// An end of a wall 0.1 deep in a face of the outline.
pub fn poking(r: &mut Random, n: usize, one_sided: bool) -> Case<B2edgeShape, B2polygonShape> {
    let (at_a, b, f) = (frame(r), outline(r, n), r.below(n));
    let (v, w, m) = (b.m_vertices[f], b.m_vertices[(f + 1) % n], b.m_normals[f]);
    let t = r.between(0.2, 0.8);
    let tip = shift(B2vec2::new(v.x + t * (w.x - v.x), v.y + t * (w.y - v.y)), -0.1, m);
    let base = B2vec2::new(tip.x + m.x + r.between(-0.3, 0.3), tip.y + m.y + r.between(-0.3, 0.3));
    let front = (base.y - tip.y) * (b.m_centroid.x - tip.x) - (base.x - tip.x) * (b.m_centroid.y - tip.y) >= 0.0;
    let from_tip = if one_sided { front } else { r.unit() < 0.5 };
    let mut a = B2edgeShape::default();
    a.m_one_sided = one_sided;
    (a.m_vertex1, a.m_vertex2) = if from_tip { (tip, base) } else { (base, tip) };
    let e = B2vec2::new(a.m_vertex2.x - a.m_vertex1.x, a.m_vertex2.y - a.m_vertex1.y);
    a.m_vertex0 = B2vec2::new(a.m_vertex1.x - 0.2 * e.x - e.y, a.m_vertex1.y - 0.2 * e.y + e.x);
    a.m_vertex3 = B2vec2::new(a.m_vertex2.x + 0.2 * e.x - e.y, a.m_vertex2.y + 0.2 * e.y + e.x);
    Case { a, at_a, b, at_b: at_a }
}

/// What a row's cases answer.
pub fn touching(m: &B2manifold) -> bool {
    m.point_count > 0
}
pub fn apart(m: &B2manifold) -> bool {
    m.point_count == 0
}
pub fn at_end(m: &B2manifold, end: u8) -> bool {
    m.point_count == 1 && matches!(m.manifold_type, B2manifoldType::ECircles) && m.points[0].id.cf.index_a == end
}
pub fn on_face_a(m: &B2manifold) -> bool {
    m.point_count > 0 && matches!(m.manifold_type, B2manifoldType::EFaceA)
}
pub fn on_face_b(m: &B2manifold) -> bool {
    m.point_count > 0 && matches!(m.manifold_type, B2manifoldType::EFaceB)
}
