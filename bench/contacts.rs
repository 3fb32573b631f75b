//! The contact calls beside both references.
use crate::cases::{self, Case, Random};
use crate::manifolds::*;
use crate::race::{pass, pass_of_ours, race, UNLEARNT};
use box2d_rs::b2_collision::*;
use box2d_rs::b2_math::{B2Transform, B2vec2};
use box2d_rs::shapes::b2_circle_shape::B2circleShape;
use box2d_rs::shapes::b2_edge_shape::B2edgeShape;
use box2d_rs::shapes::b2_polygon_shape::B2polygonShape;
use std::hint::black_box;

extern "C" {
    fn pass_circles(
        old: Manifold, a: *const f32, a_len: usize, b: *const f32, b_len: usize, order: *const u32, order_len: usize,
    ) -> Manifold;
    fn pass_polygon_and_circle(
        old: Manifold, a: *const f32, a_len: usize, count: usize, b: *const f32, b_len: usize,
        order: *const u32, order_len: usize,
    ) -> Manifold;
    fn pass_polygons(
        old: Manifold, a: *const f32, a_len: usize, count_a: usize, b: *const f32, b_len: usize, count_b: usize,
        order: *const u32, order_len: usize,
    ) -> Manifold;
    fn pass_edge_and_circle(
        old: Manifold, a: *const f32, a_len: usize, one_sided: bool, b: *const f32, b_len: usize,
        order: *const u32, order_len: usize,
    ) -> Manifold;
    fn pass_edge_and_polygon(
        old: Manifold, a: *const f32, a_len: usize, one_sided: bool, b: *const f32, b_len: usize, count: usize,
        order: *const u32, order_len: usize,
    ) -> Manifold;
    fn box2d_new(kind: u32, numbers: *const f32, mark: u32) -> *const u8;
    fn box2d_contact_call(entry: u32) -> Box2dCall;
}

type Box2dCall = unsafe extern "C" fn(*mut Box2dManifold, *const u8, *const u8, *const u8, *const u8);

/// A shape as numbers, in the order of our entries, and its count or flag.
trait Shape {
    const KIND: u32;
    fn numbers(&self) -> Vec<f32>;
    fn mark(&self) -> usize;
}

fn flat(vs: &[B2vec2]) -> Vec<f32> {
    vs.iter().flat_map(|v| [v.x, v.y]).collect()
}

impl Shape for B2circleShape {
    const KIND: u32 = 0;
    fn numbers(&self) -> Vec<f32> {
        [flat(&[self.m_p]), vec![self.base.m_radius]].concat()
    }
    fn mark(&self) -> usize {
        0
    }
}
impl Shape for B2edgeShape {
    const KIND: u32 = 1;
    fn numbers(&self) -> Vec<f32> {
        let vs = [self.m_vertex0, self.m_vertex1, self.m_vertex2, self.m_vertex3];
        [flat(&vs), vec![self.base.m_radius]].concat()
    }
    fn mark(&self) -> usize {
        self.m_one_sided as usize
    }
}
impl Shape for B2polygonShape {
    const KIND: u32 = 2;
    fn numbers(&self) -> Vec<f32> {
        let last = [flat(&[self.m_centroid]), vec![self.base.m_radius]].concat();
        [flat(&self.m_vertices), flat(&self.m_normals), last].concat()
    }
    fn mark(&self) -> usize {
        self.m_count
    }
}

fn placement(t: &B2Transform) -> [f32; 4] {
    [t.p.x, t.p.y, t.q.s, t.q.c]
}

/// The numbers of all cases' shapes of one side with their placements, and the count or flag that all have.
struct Side {
    numbers: Vec<f32>,
    mark: usize,
}

impl Side {
    fn at(&self) -> *const f32 {
        self.numbers.as_ptr()
    }
    fn len(&self) -> usize {
        self.numbers.len()
    }
}

fn side<'a, S: Shape + 'a>(all: impl Iterator<Item = (&'a S, &'a B2Transform)>) -> Side {
    let mut side = Side { numbers: vec![], mark: 0 };
    for (shape, at) in all {
        side.numbers.extend(shape.numbers());
        side.numbers.extend(placement(at));
        side.mark = shape.mark();
    }
    side
}

fn box2d_shape<S: Shape>(shape: &S) -> *const u8 {
    unsafe { box2d_new(S::KIND, shape.numbers().as_ptr(), shape.mark() as u32) }
}

struct Row<'a, A, B> {
    name: &'a str,
    draw: Draw<'a, A, B>,
    kind: Kind<'a>,
}

/// One row: cases of the kind it names, the same bits of every contestant on each, then the times.
fn row<A: Shape, B: Shape>(
    row: Row<A, B>,
    rounds: usize,
    entry: u32,
    ours: impl Fn(&Side, &Side, &[u32]) -> Manifold,
    rust: impl Fn(&mut B2manifold, &Case<A, B>),
) {
    if !crate::wanted(row.name) {
        return;
    }
    let mut r = Random(1);
    let mut draw = || loop {
        let case = (row.draw)(&mut r);
        let mut m = B2manifold::default();
        rust(&mut m, &case);
        if (row.kind)(&m) {
            return case;
        }
    };
    let cases: Vec<Case<A, B>> = (0..UNLEARNT).map(|_| draw()).collect();
    let a = side(cases.iter().map(|c| (&c.a, &c.at_a)));
    let b = side(cases.iter().map(|c| (&c.b, &c.at_b)));
    let call = unsafe { box2d_contact_call(entry) };
    let there = |t: &B2Transform| unsafe { box2d_new(3, placement(t).as_ptr(), 0) };
    let in_box2d = |c: &Case<A, B>| [box2d_shape(&c.a), there(&c.at_a), box2d_shape(&c.b), there(&c.at_b)];
    let objects: Vec<[*const u8; 4]> = cases.iter().map(in_box2d).collect();
    let box2d = |m: &mut Box2dManifold, [a, at_a, b, at_b]: [*const u8; 4]| unsafe { call(m, a, at_a, b, at_b) };
    for (k, (case, object)) in cases.iter().zip(&objects).enumerate() {
        let m = ours(&a, &b, &[k as u32]);
        let (mut theirs, mut other) = (old_rust(), old_box2d());
        rust(&mut theirs, case);
        box2d(&mut other, *object);
        assert_eq!(m.refusal, 0, "{}", row.name);
        let mine = bits(m.points, m.local_normal, m.local_point, m.kind, m.count);
        assert_eq!(mine, bits_rust(&theirs), "{}: the Rust", row.name);
        let other = bits(other.points, other.local_normal, other.local_point, other.kind, other.count as usize);
        assert_eq!(mine, other, "{}: Box2D", row.name);
    }
    let (mut theirs, mut other) = (old_rust(), old_box2d());
    race(row.name, rounds, [
        &mut |order| pass_of_ours(order, |order| ours(&a, &b, order)),
        &mut |order| pass(order, |k| { rust(&mut theirs, &cases[k]); black_box(&theirs); }),
        &mut |order| pass(order, |k| { box2d(&mut other, objects[k]); black_box(&other); }),
    ]);
}

/// Whether a manifold is of a row's kind.
type Kind<'a> = &'a dyn Fn(&B2manifold) -> bool;
type Draw<'a, A, B> = &'a dyn Fn(&mut Random) -> Case<A, B>;

fn circles(name: &str, rounds: usize, draw: Draw<B2circleShape, B2circleShape>, kind: Kind) {
    let ours = |a: &Side, b: &Side, o: &[u32]| unsafe {
        pass_circles(old(), a.at(), a.len(), b.at(), b.len(), o.as_ptr(), o.len())
    };
    row(Row { name, draw, kind }, rounds, 7, ours, |m, c| b2_collide_circles(m, &c.a, &c.at_a, &c.b, &c.at_b));
}

fn outline_circle(name: &str, rounds: usize, draw: Draw<B2polygonShape, B2circleShape>, kind: Kind) {
    let ours = |a: &Side, b: &Side, o: &[u32]| unsafe {
        pass_polygon_and_circle(old(), a.at(), a.len(), a.mark, b.at(), b.len(), o.as_ptr(), o.len())
    };
    row(Row { name, draw, kind }, rounds, 8, ours, |m, c| {
        b2_collide_polygon_and_circle(m, &c.a, &c.at_a, &c.b, &c.at_b)
    });
}

fn outlines(name: &str, rounds: usize, draw: Draw<B2polygonShape, B2polygonShape>, kind: Kind) {
    let ours = |a: &Side, b: &Side, o: &[u32]| unsafe {
        pass_polygons(old(), a.at(), a.len(), a.mark, b.at(), b.len(), b.mark, o.as_ptr(), o.len())
    };
    row(Row { name, draw, kind }, rounds, 9, ours, |m, c| b2_collide_polygons(m, &c.a, &c.at_a, &c.b, &c.at_b));
}

fn wall_circle(name: &str, rounds: usize, draw: Draw<B2edgeShape, B2circleShape>, kind: Kind) {
    let ours = |a: &Side, b: &Side, o: &[u32]| unsafe {
        pass_edge_and_circle(old(), a.at(), a.len(), a.mark != 0, b.at(), b.len(), o.as_ptr(), o.len())
    };
    row(Row { name, draw, kind }, rounds, 10, ours, |m, c| {
        b2_collide_edge_and_circle(m, &c.a, &c.at_a, &c.b, &c.at_b)
    });
}

fn wall_outline(name: &str, rounds: usize, draw: Draw<B2edgeShape, B2polygonShape>, kind: Kind) {
    let ours = |a: &Side, b: &Side, o: &[u32]| unsafe {
        pass_edge_and_polygon(old(), a.at(), a.len(), a.mark != 0, b.at(), b.len(), b.mark, o.as_ptr(), o.len())
    };
    row(Row { name, draw, kind }, rounds, 11, ours, |m, c| {
        b2_collide_edge_and_polygon(m, &c.a, &c.at_a, &c.b, &c.at_b)
    });
}

/// Every row, of those whose name has the word that was asked for.
pub fn run(rounds: usize) {
    let touching: Kind = &cases::touching;
    let apart: Kind = &cases::apart;
    for (what, distance, kind) in [("touching", 1.1, touching), ("apart", 2.0, apart)] {
        circles(&format!("circles {what}"), rounds, &|r| cases::circles(r, distance), kind);
    }
    for n in [4, 8] {
        for (what, distance, kind) in [("touching", 1.1, touching), ("apart", 2.5, apart)] {
            let name = format!("outline {n}, circle, {what}");
            outline_circle(&name, rounds, &|r| cases::outline_circle(r, n, distance), kind);
        }
    }
    for n in [4, 8] {
        for (what, distance, kind) in [("overlapping", 1.2, touching), ("apart", 3.0, apart)] {
            let name = format!("outlines {n} and {n}, {what}");
            outlines(&name, rounds, &|r| cases::outlines(r, n, distance), kind);
        }
    }
    for (sides, one) in [("two sides", false), ("one side", true)] {
        let regions: [(&str, (f32, f32), (f32, f32), Kind); 4] = [
            ("end 1", (-2.35, -2.1), (0.0, 0.3), &|m| cases::at_end(m, 0)),
            ("end 2", (2.1, 2.35), (0.0, 0.3), &|m| cases::at_end(m, 1)),
            ("middle", (-1.7, 1.7), (0.1, 0.45), &cases::on_face_a),
            ("apart", (-1.7, 1.7), (0.7, 2.0), apart),
        ];
        for (region, x, y, kind) in regions {
            let name = format!("wall of {sides}, circle, {region}");
            wall_circle(&name, rounds, &|r| cases::wall_circle(r, one, x, y), kind);
        }
    }
    for n in [4, 8] {
        for (sides, one) in [("two sides", false), ("one side", true)] {
            let add = |what: &str, draw: Draw<B2edgeShape, B2polygonShape>, kind: Kind| {
                wall_outline(&format!("wall of {sides}, outline {n}, {what}"), rounds, draw, kind);
            };
            add("across", &|r| cases::wall_outline(r, n, one, (0.3, 0.9)), touching);
            add("apart", &|r| cases::wall_outline(r, n, one, (1.3, 3.0)), apart);
            add("resting", &|r| cases::resting(r, n, one), &cases::on_face_a);
            add("end in face", &|r| cases::poking(r, n, one), &cases::on_face_b);
        }
    }
}
