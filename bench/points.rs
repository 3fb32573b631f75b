//! Clips and point states beside both references.
use crate::cases::Random;
use crate::manifolds::*;
use crate::race::{pass, pass_of_ours, race, UNLEARNT};
use box2d_rs::b2_collision::*;
use box2d_rs::b2_math::B2vec2;
use std::hint::black_box;

#[repr(C)]
#[derive(Clone, Copy, Default, PartialEq, Debug)]
struct ClipVertex {
    v: [f32; 2],
    id: [u8; 4],
}

#[repr(C)]
#[derive(Clone, Copy, Default)]
struct Clip {
    ends: [ClipVertex; 2],
    count: usize,
    refusal: u32,
}

#[repr(C)]
#[derive(Clone, Copy)]
struct States {
    states: [u8; 4],
    refusal: u8,
}

extern "C" {
    fn pass_clip(old: Clip, segments: *const f32, segments_len: usize, order: *const u32, order_len: usize) -> Clip;
    fn pass_point_states(ids: *const u8, ids_len: usize, order: *const u32, order_len: usize) -> States;
    fn box2d_clip(out: *mut ClipVertex, ends: *const ClipVertex, normal: *const f32, offset: f32, index: i32) -> i32;
    fn box2d_point_states(states: *mut u32, m1: *const Box2dManifold, m2: *const Box2dManifold);
}

/// The ids of case k: both ends of an edge on a face, and the vertex that the line is at.
fn clip_ids(k: usize) -> ([[u8; 4]; 2], usize) {
    ([[1, (k % 8) as u8, 1, 0], [1, ((k + 1) % 8) as u8, 1, 0]], k % 8)
}

pub fn clips(rounds: usize) {
    if !crate::wanted("clip") {
        return;
    }
    let mut r = Random(3);
    struct Segment {
        ends: [ClipVertex; 2],
        rust: [B2clipVertex; 2],
        normal: B2vec2,
        offset: f32,
        index: usize,
    }
    let as_rust = |e: ClipVertex| {
        let [index_a, index_b, type_a, type_b] = e.id;
        let cf = B2contactFeature { index_a, index_b, type_a, type_b };
        B2clipVertex { v: B2vec2::new(e.v[0], e.v[1]), id: B2contactId { cf } }
    };
    let from_rust = |e: B2clipVertex| {
        let f = e.id.cf;
        ClipVertex { v: [e.v.x, e.v.y], id: [f.index_a, f.index_b, f.type_a, f.type_b] }
    };
    let mut draw = |k: usize| {
        let (ids, index) = clip_ids(k);
        let ends = ids.map(|id| ClipVertex { v: [r.between(-1.0, 1.0), r.between(-1.0, 1.0)], id });
        Segment { ends, rust: ends.map(as_rust), normal: r.direction(), offset: r.between(-0.5, 0.5), index }
    };
    let cases: Vec<Segment> = (0..UNLEARNT).map(&mut draw).collect();
    let seven = |s: &Segment| {
        let ([a, b], n) = (s.ends, s.normal);
        [a.v[0], a.v[1], b.v[0], b.v[1], n.x, n.y, s.offset]
    };
    let numbers: Vec<f32> = cases.iter().flat_map(seven).collect();
    let old = [ClipVertex { v: [3.0, 4.0], id: [1, 2, 3, 4] }, ClipVertex { v: [5.0, 6.0], id: [5, 6, 7, 8] }];
    let given = Clip { ends: old, count: 0, refusal: 0 };
    let ours = |o: &[u32]| unsafe { pass_clip(given, numbers.as_ptr(), numbers.len(), o.as_ptr(), o.len()) };
    let rust = |out: &mut [B2clipVertex; 2], s: &Segment| {
        b2_clip_segment_to_line(out, s.rust, s.normal, s.offset, s.index)
    };
    let box2d = |out: &mut [ClipVertex; 2], s: &Segment| unsafe {
        box2d_clip(out.as_mut_ptr(), s.ends.as_ptr(), &s.normal.x, s.offset, s.index as i32)
    };
    let mut counts = [0; 3];
    for (k, s) in cases.iter().enumerate() {
        let mine = ours(&[k as u32]);
        let (mut theirs, mut other) = (old.map(as_rust), old);
        assert_eq!(mine.refusal, 0);
        assert_eq!(mine.count, rust(&mut theirs, s));
        assert_eq!(mine.count, box2d(&mut other, s) as usize);
        assert_eq!(mine.ends, theirs.map(from_rust));
        assert_eq!(mine.ends, other);
        counts[mine.count] += 1;
    }
    assert!(counts[0] > 100 && counts[2] > 100, "{counts:?}");
    let (mut theirs, mut other) = (old.map(as_rust), old);
    race("clip", rounds, [
        &mut |order| pass_of_ours(order, ours),
        &mut |order| pass(order, |k| { black_box(rust(&mut theirs, &cases[k])); black_box(&theirs); }),
        &mut |order| pass(order, |k| { black_box(box2d(&mut other, &cases[k])); black_box(&other); }),
    ]);
}

pub fn states(rounds: usize) {
    if !crate::wanted("point states") {
        return;
    }
    let mut r = Random(5);
    // of each manifold its ids' bytes, and its count
    type Marks = [([u8; 8], usize); 2];
    let mut draw = |_| [(); 2].map(|_| ([0, r.below(3) as u8, 1, 0, 0, 4 + r.below(3) as u8, 1, 0], r.below(3)));
    let cases: Vec<Marks> = (0..UNLEARNT).map(&mut draw).collect();
    let nine = |(ids, count): &([u8; 8], usize)| ids.iter().cloned().chain([*count as u8]).collect::<Vec<u8>>();
    let bytes: Vec<u8> = cases.iter().flatten().flat_map(nine).collect();
    let as_box2d = |(ids, count): ([u8; 8], usize)| {
        let mut m = old_box2d();
        m.points.iter_mut().zip(ids.chunks(4)).for_each(|(p, id)| p.id.copy_from_slice(id));
        m.count = count as u32;
        m
    };
    let as_rust = |(ids, count): ([u8; 8], usize)| {
        let mut m = old_rust();
        for (p, b) in m.points.iter_mut().zip(ids.chunks(4)) {
            p.id.cf = B2contactFeature { index_a: b[0], index_b: b[1], type_a: b[2], type_b: b[3] };
        }
        m.point_count = count;
        m
    };
    let in_rust: Vec<[B2manifold; 2]> = cases.iter().map(|p| p.map(as_rust)).collect();
    let in_box2d: Vec<[Box2dManifold; 2]> = cases.iter().map(|p| p.map(as_box2d)).collect();
    let ours = |o: &[u32]| unsafe { pass_point_states(bytes.as_ptr(), bytes.len(), o.as_ptr(), o.len()) };
    let null = || [B2pointState::B2NullState; 2];
    for (k, (rust, box2d)) in in_rust.iter().zip(&in_box2d).enumerate() {
        let mine = ours(&[k as u32]);
        let (mut old, mut new, mut other) = (null(), null(), [0; 4]);
        b2_get_point_states(&mut old, &mut new, &rust[0], &rust[1]);
        unsafe { box2d_point_states(other.as_mut_ptr(), &box2d[0], &box2d[1]) };
        assert_eq!(mine.refusal, 0);
        assert_eq!(mine.states, [old[0] as u8, old[1] as u8, new[0] as u8, new[1] as u8]);
        assert_eq!(mine.states, other.map(|s| s as u8));
    }
    let (mut old, mut new, mut other) = (null(), null(), [0; 4]);
    race("point states", rounds, [
        &mut |order| pass_of_ours(order, ours),
        &mut |order| pass(order, |k| {
            b2_get_point_states(&mut old, &mut new, &in_rust[k][0], &in_rust[k][1]);
            black_box((&old, &new));
        }),
        &mut |order| pass(order, |k| {
            unsafe { box2d_point_states(other.as_mut_ptr(), &in_box2d[k][0], &in_box2d[k][1]) };
            black_box(&other);
        }),
    ]);
}
