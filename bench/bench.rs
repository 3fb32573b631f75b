//! Nanoseconds per call of ours, the Rust's, Box2D's and the hardware's, measured side by side in one run. usage: bench [ROUNDS [WORD]]
//! Each figure is the best of ROUNDS passes over the same operands; the passes of the contestants alternate. WORD: only
//! the rows whose name has it.
mod cases;
mod contacts;
mod manifolds;
mod points;
mod race;
mod world;

use box2d_rs::b2_math::{b2_sqrt, B2vec2};
use box2d_rs::shapes::b2_polygon_shape::B2polygonShape;
use std::hint::black_box;
use std::time::Instant;

extern "C" {
    fn direct_root(x: f32) -> f32;
    fn direct_normalize(v: *mut f32, len: usize) -> f32;
    fn direct_outline(points: *const f32, points_len: usize, out: *mut f32, out_len: usize) -> u32;
    fn direct_box(hx: f32, hy: f32, out: *mut f32, out_len: usize) -> u32;
    fn direct_validate(shape: *const f32, shape_len: usize, count: usize) -> u32;
    fn box2d_set(points: *const f32, n: i32) -> f32;
    fn box2d_box(hx: f32, hy: f32) -> f32;
    fn box2d_validate(corners: *const f32, n: i32) -> bool;
}

const OPERANDS: usize = 4096;

fn normalize_ours(v: &mut B2vec2) -> f32 {
    unsafe { direct_normalize(&mut v.x, 2) }
}

#[inline(never)]
fn normalize_rust(v: &mut B2vec2) -> f32 {
    v.normalize()
}

/// The same formula written out, for the compiler to inline.
fn normalize_inline(v: &mut B2vec2) -> f32 {
    let length = (v.x * v.x + v.y * v.y).sqrt();
    if length < f32::EPSILON {
        return 0.0;
    }
    let inverse = 1.0 / length;
    v.x *= inverse;
    v.y *= inverse;
    length
}

#[inline(never)]
fn root_rust(x: f32) -> f32 {
    b2_sqrt(x)
}

/// The corners of an octagon about a unit circle, out of order.
const OCTAGON: [(f32, f32); 8] =
    [(1.0, 0.0), (-0.7071, -0.7071), (0.0, 1.0), (0.7071, -0.7071), (-1.0, 0.0), (0.7071, 0.7071), (0.0, -1.0), (-0.7071, 0.7071)];

/// n points, 4 or 8, all of them corners, the same for every contestant; the list at place i is a little different from the others.
fn points(n: usize, i: usize) -> Vec<B2vec2> {
    let wobble = |k: usize| ((i * 7 + k * 13) % 17) as f32 / 1024.0;
    let all = OCTAGON.iter().step_by(if n == 4 { 2 } else { 1 });
    all.enumerate().map(|(k, (x, y))| B2vec2::new(x + wobble(k), y + wobble(k + 3))).collect()
}

/// The same lists, built by the Rust: each has n corners, or the benchmark would not measure what it says.
fn built(n: usize) -> Vec<B2polygonShape> {
    let build = |i| {
        let mut p = B2polygonShape::default();
        p.set(&points(n, i));
        assert_eq!(p.m_count, n);
        p
    };
    (0..256).map(build).collect()
}

fn outlines(n: usize, rounds: usize) {
    let lists: Vec<Vec<B2vec2>> = (0..256).map(|i| points(n, i)).collect();
    built(n);
    let shape = std::cell::RefCell::new(B2polygonShape::default());
    let out = std::cell::RefCell::new([0.0f32; 34]);
    compare(&format!("outline of {n} points"), rounds, &|| (), &[
        ("ours", &|i| {
            let list = &lists[i % 256];
            let mut out = out.borrow_mut();
            unsafe { direct_outline(&list[0].x, 2 * n, out.as_mut_ptr(), 34) };
            out[32] + out[16] + out[5]
        }),
        ("Rust", &|i| {
            let mut p = shape.borrow_mut();
            p.set(&lists[i % 256]);
            p.m_centroid.x + p.m_normals[0].x + p.m_vertices[2].y
        }),
        ("Box2D", &|i| unsafe { box2d_set(&lists[i % 256][0].x, n as i32) }),
    ]);
}

fn boxes(rounds: usize) {
    let shape = std::cell::RefCell::new(B2polygonShape::default());
    let out = std::cell::RefCell::new([0.0f32; 34]);
    let half = |i: usize| (1 + i % 256) as f32 / 256.0;
    compare("box", rounds, &|| (), &[
        ("ours", &|i| {
            let mut out = out.borrow_mut();
            unsafe { direct_box(half(i), half(i + 1), out.as_mut_ptr(), 34) };
            out[32] + out[16] + out[5]
        }),
        ("Rust", &|i| {
            let mut p = shape.borrow_mut();
            p.set_as_box(half(i), half(i + 1));
            p.m_centroid.x + p.m_normals[0].x + p.m_vertices[2].y
        }),
        ("Box2D", &|i| unsafe { box2d_box(half(i), half(i + 1)) }),
    ]);
}

/// The convexity test of built outlines. Each contestant is given the corners; ours reads, and tests the range of, the normals too.
fn validates(n: usize, rounds: usize) {
    let shapes = built(n);
    let flat: Vec<[f32; 34]> = shapes
        .iter()
        .map(|p| {
            let mut f = [0.0f32; 34];
            for (k, v) in p.m_vertices.iter().chain(&p.m_normals).chain([&p.m_centroid]).enumerate() {
                f[2 * k] = v.x;
                f[2 * k + 1] = v.y;
            }
            f
        })
        .collect();
    compare(&format!("validate {n} corners"), rounds, &|| (), &[
        ("ours", &|i| unsafe { direct_validate(flat[i % 256].as_ptr(), 34, shapes[i % 256].m_count) } as f32),
        ("Rust", &|i| shapes[i % 256].clone().validate() as u32 as f32),
        ("Box2D", &|i| unsafe { box2d_validate(flat[i % 256].as_ptr(), shapes[i % 256].m_count as i32) } as u32 as f32),
    ]);
}

/// Whether the row has the word that was asked for.
fn wanted(name: &str) -> bool {
    std::env::args().nth(2).is_none_or(|word| name.contains(&word))
}

/// ns per call of one pass
fn pass(call: &dyn Fn(usize) -> f32, calls: usize) -> f64 {
    let start = Instant::now();
    let mut sum = 0.0f32;
    for i in 0..calls {
        sum += call(i);
    }
    black_box(sum);
    start.elapsed().as_nanos() as f64 / calls as f64
}

fn compare(name: &str, rounds: usize, before: &dyn Fn(), contestants: &[(&str, &dyn Fn(usize) -> f32)]) {
    if !wanted(name) {
        return;
    }
    // every contestant gives the same bits, or the times could not be compared
    for i in 0..256 {
        let answers: Vec<u32> = contestants.iter().map(|(_, call)| { before(); call(i).to_bits() }).collect();
        assert!(answers.iter().all(|a| *a == answers[0]), "{name}: {answers:08x?} at {i}");
    }
    let mut best = vec![f64::INFINITY; contestants.len()];
    for _ in 0..rounds {
        for (least, (_, call)) in best.iter_mut().zip(contestants) {
            before();
            *least = least.min(pass(*call, 16 * OPERANDS));
        }
    }
    let reference = best[1..].iter().cloned().fold(f64::INFINITY, f64::min);
    let columns: Vec<String> = contestants.iter().zip(&best).map(|((who, _), ns)| format!("{who} {ns:6.2} ns")).collect();
    println!("{name:<28} {}   ratio {:.2}", columns.join("   "), best[0] / reference);
}

fn main() {
    let rounds = std::env::args().nth(1).map_or(40, |w| w.parse().expect("a number"));
    let mut state = 1u64;
    let mut any = || {
        state = state.wrapping_mul(6364136223846793005).wrapping_add(1442695040888963407);
        (state >> 40) as f32 / 65536.0
    };
    let grid: Vec<f32> = (0..OPERANDS).map(|_| (any() * 8.0).floor() / 256.0 + 1.0 / 256.0).collect();
    let mixed: Vec<f32> = (0..OPERANDS)
        .map(|_| f32::from_bits(0x2000_0000 + (any().to_bits().wrapping_mul(2654435761) & 0x3f7f_ffff)))
        .collect();
    let at = |list: &Vec<f32>, i: usize| list[i % OPERANDS];
    // vectors are made unit in place: each operand stands in memory of its own, and is new at each pass
    let vectors: Vec<B2vec2> = (0..16 * OPERANDS).map(|i| B2vec2::new(at(&grid, i), at(&grid, i + 1) - 2.0)).collect();
    let work = std::cell::RefCell::new(vectors.clone());
    let in_place = |call: &dyn Fn(&mut B2vec2) -> f32, i: usize| call(&mut work.borrow_mut()[i]);

    // throughput: independent calls
    compare("root, grid numbers", rounds, &|| (), &[
        ("ours", &|i| unsafe { direct_root(at(&grid, i)) }),
        ("Rust", &|i| root_rust(at(&grid, i))),
        ("hardware", &|i| at(&grid, i).sqrt()),
    ]);
    compare("root, mixed exponents", rounds, &|| (), &[
        ("ours", &|i| unsafe { direct_root(at(&mixed, i)) }),
        ("Rust", &|i| root_rust(at(&mixed, i))),
        ("hardware", &|i| at(&mixed, i).sqrt()),
    ]);
    // latency: each operand waits for the last root
    let last = std::cell::Cell::new(2.0f32);
    let chained = |root: &dyn Fn(f32) -> f32, i: usize| {
        let r = root(at(&grid, i) + last.get() * 1e-30);
        last.set(r);
        r
    };
    compare("root, each after the last", rounds, &|| last.set(2.0), &[
        ("ours", &|i| chained(&|x| unsafe { direct_root(x) }, i)),
        ("Rust", &|i| chained(&root_rust, i)),
        ("hardware", &|i| chained(&|x| x.sqrt(), i)),
    ]);
    compare("normalise, grid numbers", rounds, &|| work.borrow_mut().copy_from_slice(&vectors), &[
        ("ours", &|i| in_place(&normalize_ours, i)),
        ("Rust", &|i| in_place(&normalize_rust, i)),
        ("hardware", &|i| in_place(&normalize_inline, i)),
    ]);
    outlines(4, rounds);
    outlines(8, rounds);
    boxes(rounds);
    validates(4, rounds);
    validates(8, rounds);
    race::heading();
    contacts::run(5 * rounds);
    points::clips(5 * rounds);
    points::states(5 * rounds);
    world::run(5 * rounds);
}
