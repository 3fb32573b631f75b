//! The calls that hand a record back, on records that C can name. No float is taken apart on the way, so that a NaN's
//! payload is seen; the entries on words make all NaNs one. They are passes of crate bench_calls over one case, and its
//! boxes and walls. Each takes a request of an entry and answers in its words.
use crate::contacts::parts;
use crate::lent_slice::{numbers, point, polygon, polygon_words, Polygon, PolygonAnswer, Vec2};
use crate::ranges::{EDGE, POLYGON};

#[repr(C)]
#[derive(Clone, Copy)]
struct Point {
    numbers: [f32; 4],
    id: [u8; 4],
}

#[repr(C)]
struct Manifold {
    points: [Point; 2],
    normal_and_point: [f32; 4],
    count: usize,
    kind: u32,
    refusal: u32,
}

#[repr(C)]
#[derive(Clone, Copy)]
struct ClipVertex {
    v: [f32; 2],
    id: [u8; 4],
}

#[repr(C)]
struct Clip {
    ends: [ClipVertex; 2],
    count: usize,
    refusal: u32,
}

#[repr(C)]
struct World {
    numbers: [f32; 8],
    refusal: u32,
}

#[repr(C)]
struct Wall {
    numbers: [f32; 9],
    one_sided: bool,
    refusal: u8,
}

type Numbers = *const f32;
type Order = *const u32;

#[rustfmt::skip]
extern "C" {
    fn pass_circles(old: Manifold, a: Numbers, a_len: usize, b: Numbers, b_len: usize, order: Order, n: usize)
        -> Manifold;
    fn pass_polygon_and_circle(old: Manifold, a: Numbers, a_len: usize, count: usize, b: Numbers, b_len: usize,
        order: Order, n: usize) -> Manifold;
    fn pass_polygons(old: Manifold, a: Numbers, a_len: usize, count_a: usize, b: Numbers, b_len: usize, count_b: usize,
        order: Order, n: usize) -> Manifold;
    fn pass_edge_and_circle(old: Manifold, a: Numbers, a_len: usize, one_sided: bool, b: Numbers, b_len: usize,
        order: Order, n: usize) -> Manifold;
    fn pass_edge_and_polygon(old: Manifold, a: Numbers, a_len: usize, one_sided: bool, b: Numbers, b_len: usize,
        count: usize, order: Order, n: usize) -> Manifold;
    fn pass_clip(old: Clip, segments: Numbers, segments_len: usize, order: Order, n: usize) -> Clip;
    fn pass_world_points(old: World, numbers: Numbers, numbers_len: usize, kind: u32, count: usize, order: Order,
        n: usize) -> World;
    fn over_box(old: Polygon, hx: f32, hy: f32) -> PolygonAnswer;
    fn over_box_angle(old: Polygon, hx: f32, hy: f32, centre: Vec2, sine: f32, cosine: f32) -> PolygonAnswer;
    fn over_one_sided(old: Wall, v0: Vec2, v1: Vec2, v2: Vec2, v3: Vec2) -> Wall;
    fn over_two_sided(old: Wall, v1: Vec2, v2: Vec2) -> Wall;
}

/// The one case of a pass.
const ORDER: [u32; 1] = [0];

fn bits(list: &[f32]) -> Vec<u32> {
    list.iter().map(|x| x.to_bits()).collect()
}

fn array<const N: usize>(words: &[u32]) -> [f32; N] {
    std::array::from_fn(|i| f32::from_bits(words[i]))
}

fn old_manifold(words: &[u32]) -> Manifold {
    let point = |words: &[u32]| Point { numbers: array(words), id: words[4].to_be_bytes() };
    let points = [point(&words[6..]), point(&words[11..])];
    Manifold { points, normal_and_point: array(&words[2..]), count: words[1] as usize, kind: words[0], refusal: 0 }
}

fn manifold_words(m: Manifold) -> Vec<u32> {
    let mut words = vec![m.refusal, m.kind, m.count as u32];
    words.extend(bits(&m.normal_and_point));
    for point in m.points {
        words.extend(bits(&point.numbers));
        words.push(u32::from_be_bytes(point.id));
    }
    words
}

/// A shape and its placement in the order of a pass: points before the radius.
fn side(shape: &[u32], place: &[u32]) -> Vec<f32> {
    let words = match shape.len() {
        POLYGON => [&shape[4..], &shape[1..3], &shape[..1], place].concat(),
        EDGE => [&shape[2..], &shape[..1], place].concat(),
        _ => [&shape[1..], &shape[..1], place].concat(),
    };
    numbers(&words)
}

/// Entries 7 to 11.
pub fn contact(request: &[u32]) -> Vec<u32> {
    let old = old_manifold(&request[1..]);
    let [a_words, xf_a, b_words, xf_b] = parts(request);
    let (a, b) = (side(a_words, xf_a), side(b_words, xf_b));
    let ((a, n), (b, m)) = ((a.as_ptr(), a.len()), (b.as_ptr(), b.len()));
    let order = ORDER.as_ptr();
    let (one_sided, count) = (a_words[1] == 1, |shape: &[u32]| shape[3] as usize);
    manifold_words(unsafe {
        match request[0] {
            7 => pass_circles(old, a, n, b, m, order, 1),
            8 => pass_polygon_and_circle(old, a, n, count(a_words), b, m, order, 1),
            9 => pass_polygons(old, a, n, count(a_words), b, m, count(b_words), order, 1),
            10 => pass_edge_and_circle(old, a, n, one_sided, b, m, order, 1),
            _ => pass_edge_and_polygon(old, a, n, one_sided, b, m, count(b_words), order, 1),
        }
    })
}

/// Entry 12. A pass gives the ends and the index of its own: `clip_request` makes a request so.
pub fn clip(request: &[u32]) -> Vec<u32> {
    let end = |words: &[u32]| ClipVertex { v: array(words), id: words[2].to_be_bytes() };
    let old = Clip { ends: [end(&request[1..]), end(&request[4..])], count: 0, refusal: 0 };
    let segment = numbers(&[&request[7..9], &request[10..12], &request[13..16]].concat());
    let made = unsafe { pass_clip(old, segment.as_ptr(), segment.len(), ORDER.as_ptr(), 1) };
    let mut words = vec![made.refusal, made.count as u32];
    for end in made.ends {
        words.extend(bits(&end.v));
        words.push(u32::from_be_bytes(end.id));
    }
    words
}

/// A clip with the ids and the index of the first case of a pass.
pub fn clip_request(mut request: Vec<u32>) -> Vec<u32> {
    (request[9], request[12], request[16]) = (0x0100_0100, 0x0101_0100, 0);
    request
}

/// Entry 13.
pub fn world_points(request: &[u32]) -> Vec<u32> {
    let (m, rest) = request[9..].split_at(16);
    let old = World { numbers: array(&request[1..]), refusal: 0 };
    let all = numbers(&[&m[2..8], &m[11..13], rest].concat());
    let count = m[1] as usize;
    let made = unsafe { pass_world_points(old, all.as_ptr(), all.len(), m[0], count, ORDER.as_ptr(), 1) };
    [vec![made.refusal], bits(&made.numbers)].concat()
}

/// Entries 2 and 3.
pub fn a_box(request: &[u32]) -> Vec<u32> {
    let (old, given) = (polygon(&request[1..]), numbers(&request[1 + POLYGON..]));
    polygon_words(unsafe {
        if request[0] == 2 {
            over_box(old, given[0], given[1])
        } else {
            over_box_angle(old, given[0], given[1], point(&request[3 + POLYGON..]), given[4], given[5])
        }
    })
}

/// Entries 5 and 6.
pub fn wall(request: &[u32]) -> Vec<u32> {
    let (w, ends) = (&request[1..1 + EDGE], &request[1 + EDGE..]);
    let v = |i: usize| point(&ends[2 * i..]);
    let old = Wall { numbers: array(&[&w[..1], &w[2..]].concat()), one_sided: w[1] == 1, refusal: 0 };
    let made = unsafe {
        if request[0] == 5 {
            over_one_sided(old, v(0), v(1), v(2), v(3))
        } else {
            over_two_sided(old, v(0), v(1))
        }
    };
    let numbers = bits(&made.numbers);
    [&[made.refusal as u32, numbers[0], made.one_sided as u32], &numbers[1..]].concat()
}
