//! World points beside both references, of manifolds that the Rust's contact calls answer.
use crate::cases::{self, Random};
use crate::manifolds::{self, Box2dManifold};
use crate::race::{pass, pass_of_ours, race, UNLEARNT};
use box2d_rs::b2_collision::*;
use box2d_rs::b2_math::{B2Transform, B2vec2};
use std::hint::black_box;

/// A world manifold: its normal, its points and its separations. Ours has a refusal after it.
type Numbers = [f32; 8];

#[repr(C)]
#[derive(Clone, Copy)]
struct World {
    numbers: Numbers,
    refusal: u32,
}

extern "C" {
    fn pass_world_points(
        old: World, numbers: *const f32, numbers_len: usize, kind: u32, count: usize,
        order: *const u32, order_len: usize,
    ) -> World;
    fn box2d_world_points(
        world: *mut Numbers, m: *const Box2dManifold, at_a: *const [f32; 4], radius_a: f32,
        at_b: *const [f32; 4], radius_b: f32,
    );
}

struct Asked {
    m: B2manifold,
    at: [B2Transform; 2],
    radii: [f32; 2],
}

/// With something in each field, so that one that is lost shows.
const OLD: Numbers = [1.0, 2.0, 3.0, 4.0, 5.0, 6.0, 7.0, 8.0];

fn in_rust(w: Numbers) -> B2worldManifold {
    let [nx, ny, x0, y0, x1, y1, s0, s1] = w;
    let points = [B2vec2::new(x0, y0), B2vec2::new(x1, y1)];
    B2worldManifold { normal: B2vec2::new(nx, ny), points, separations: [s0, s1] }
}
fn of_rust(w: &B2worldManifold) -> Numbers {
    let ([p, q], [s0, s1]) = (w.points, w.separations);
    [w.normal.x, w.normal.y, p.x, p.y, q.x, q.y, s0, s1]
}

fn circles(r: &mut Random) -> Asked {
    let distance = r.between(0.3, 1.2);
    let c = cases::circles(r, distance);
    let mut m = B2manifold::default();
    b2_collide_circles(&mut m, &c.a, &c.at_a, &c.b, &c.at_b);
    Asked { m, at: [c.at_a, c.at_b], radii: [c.a.base.m_radius, c.b.base.m_radius] }
}
fn outlines(r: &mut Random) -> Asked {
    let c = cases::outlines(r, 4, 1.2);
    let mut m = B2manifold::default();
    b2_collide_polygons(&mut m, &c.a, &c.at_a, &c.b, &c.at_b);
    Asked { m, at: [c.at_a, c.at_b], radii: [c.a.base.m_radius, c.b.base.m_radius] }
}

fn placement(t: &B2Transform) -> [f32; 4] {
    [t.p.x, t.p.y, t.q.s, t.q.c]
}

/// A manifold's points, then each side's placement and radius, in the order of our entry.
fn numbers(a: &Asked) -> Vec<f32> {
    let vs = [a.m.local_normal, a.m.local_point, a.m.points[0].local_point, a.m.points[1].local_point];
    let side = |i: usize| [placement(&a.at[i]).to_vec(), vec![a.radii[i]]].concat();
    [vs.iter().flat_map(|v| [v.x, v.y]).collect(), side(0), side(1)].concat()
}

/// One row: cases with a manifold of the kind and the count, the same bits of every contestant on each, then the times.
fn row(name: &str, rounds: usize, draw: &dyn Fn(&mut Random) -> Asked, kind: u32, count: usize) {
    if !crate::wanted(name) {
        return;
    }
    let mut r = Random(1);
    let mut draw = || loop {
        let a = draw(&mut r);
        if (a.m.manifold_type as u32, a.m.point_count) == (kind, count) {
            return a;
        }
    };
    let cases: Vec<Asked> = (0..UNLEARNT).map(|_| draw()).collect();
    let all: Vec<f32> = cases.iter().flat_map(numbers).collect();
    let in_box2d: Vec<(Box2dManifold, [[f32; 4]; 2])> =
        cases.iter().map(|a| (manifolds::in_box2d(&a.m), [placement(&a.at[0]), placement(&a.at[1])])).collect();
    let ours = |o: &[u32]| unsafe {
        let old = World { numbers: OLD, refusal: 0 };
        pass_world_points(old, all.as_ptr(), all.len(), kind, count, o.as_ptr(), o.len())
    };
    let rust = |w: &mut B2worldManifold, a: &Asked| w.initialize(&a.m, a.at[0], a.radii[0], a.at[1], a.radii[1]);
    let box2d = |w: &mut Numbers, k: usize| unsafe {
        let (m, [at_a, at_b]) = &in_box2d[k];
        let [radius_a, radius_b] = cases[k].radii;
        box2d_world_points(w, m, at_a, radius_a, at_b, radius_b)
    };
    let bits = |w: Numbers| w.map(f32::to_bits);
    for (k, a) in cases.iter().enumerate() {
        let mine = ours(&[k as u32]);
        let (mut theirs, mut other) = (in_rust(OLD), OLD);
        rust(&mut theirs, a);
        box2d(&mut other, k);
        assert_eq!(mine.refusal, 0, "{name}");
        assert_eq!(bits(mine.numbers), bits(of_rust(&theirs)), "{name}: the Rust");
        assert_eq!(bits(mine.numbers), bits(other), "{name}: Box2D");
    }
    let (mut theirs, mut other) = (in_rust(OLD), OLD);
    race(name, rounds, [
        &mut |order| pass_of_ours(order, ours),
        &mut |order| pass(order, |k| { rust(&mut theirs, &cases[k]); black_box(&theirs); }),
        &mut |order| pass(order, |k| { box2d(&mut other, k); black_box(&other); }),
    ]);
}

pub fn run(rounds: usize) {
    row("world points, circles", rounds, &circles, 0, 1);
    row("world points, face A, one", rounds, &outlines, 1, 1);
    row("world points, face A, two", rounds, &outlines, 1, 2);
    row("world points, face B, two", rounds, &outlines, 2, 2);
}
