//! Request 07: whether a circle is at a corner of an outline, and how far from it, by the input alone: plain floats in
//! the order of the Rust and of Box2D. Where there is no length of 2^-23 from the corner to the circle's centre the
//! normal is that of the chosen face, and nothing else of a reference's answer changes.
use crate::contacts::{self, parts};
use crate::generators::bits;

type Point = [f32; 2];

/// What a call of outline against circle went by that ended at a corner, within the radius.
#[derive(Debug, PartialEq)]
pub struct Corner {
    /// The chosen face, and whether the corner is the one where it ends.
    pub face: usize,
    pub second: bool,
    /// From the corner to the circle's centre, and its length.
    pub offset: Point,
    pub length: f32,
}

impl Corner {
    /// Whether normalising finds no length, so that the call leaves the comparison.
    fn leaves(&self) -> bool {
        !(self.length >= f32::EPSILON)
    }
}

fn point(words: &[u32], i: usize) -> Point {
    [2 * i, 2 * i + 1].map(|place| f32::from_bits(words[place]))
}

fn sub(p: Point, q: Point) -> Point {
    [p[0] - q[0], p[1] - q[1]]
}

fn dot(p: Point, q: Point) -> f32 {
    p[0] * q[0] + p[1] * q[1]
}

/// A placement: its position, and its sine and cosine.
fn placement(words: &[u32]) -> (Point, Point) {
    (point(words, 0), point(words, 1))
}

fn carried((to, [s, c]): (Point, Point), [x, y]: Point) -> Point {
    [(c * x - s * y) + to[0], (s * x + c * y) + to[1]]
}

fn carried_back((to, [s, c]): (Point, Point), p: Point) -> Point {
    let [x, y] = sub(p, to);
    [c * x + s * y, -s * x + c * y]
}

/// The corner at which a call on these parts of a request ends, where it is accepted.
pub fn of_parts([outline, xf_a, circle, xf_b]: [&[u32]; 4]) -> Option<Corner> {
    let centre = carried_back(placement(xf_a), carried(placement(xf_b), point(&circle[1..], 0)));
    let radius = f32::from_bits(outline[0]) + f32::from_bits(circle[0]);
    let count = outline[3] as usize;
    let corner = |i: usize| point(&outline[4..], i % count);
    let out_by: Vec<f32> = (0..count).map(|i| dot(point(&outline[20..], i), sub(centre, corner(i)))).collect();
    // the first of the greatest
    let face = (1..count).fold(0, |best, i| if out_by[i] > out_by[best] { i } else { best });
    if out_by[face] > radius || out_by[face] < f32::EPSILON {
        return None;
    }
    let from = [face, face + 1].map(|i| sub(centre, corner(i)));
    let along = [[face, face + 1], [face + 1, face]].map(|[i, j]| sub(corner(j), corner(i)));
    let second = (0..2).position(|end| dot(from[end], along[end]) <= 0.0)?;
    let square = dot(from[second], from[second]);
    let corner = Corner { face, second: second == 1, offset: from[second], length: square.sqrt() };
    (square <= radius * radius).then_some(corner)
}

/// The same of a request; where the Rust is at hand, its own functions have to say so.
pub fn of(request: &[u32]) -> Option<Corner> {
    let corner = of_parts(parts(request));
    #[cfg(papers)]
    assert_eq!(corner, crate::rust_corner::of(request), "{request:08x?}");
    corner
}

pub fn leaves(request: &[u32]) -> bool {
    of(request).map_or(false, |corner| corner.leaves())
}

/// A reference's record with the normal of the chosen face, where the request asks for it. False where the reference's
/// normal is not the vector without a length.
pub fn mend(request: &[u32], record: &mut [u32]) -> bool {
    let Some(corner) = of(request).filter(Corner::leaves) else { return true };
    let (normal, face) = (&mut record[2..4], &parts(request)[0][20 + 2 * corner.face..]);
    let kept = normal == bits(&corner.offset);
    normal.copy_from_slice(&face[..2]);
    kept
}

/// What a request of entry 8 is beside its points: whether it leaves the comparison, and how; or hardly not.
pub fn kinds(request: &[u32], answer: &[u32]) -> Vec<&'static str> {
    let mut list = contacts::kinds(request, answer);
    let Some(corner) = of(request) else { return list };
    let [sine, cosine] = point(parts(request)[1], 1);
    let kinds = [
        ("normal of the face", corner.leaves()),
        ("first corner", corner.leaves() && !corner.second),
        ("second corner", corner.leaves() && corner.second),
        ("zero difference", corner.leaves() && corner.offset == [0.0, 0.0]),
        ("short difference", corner.leaves() && corner.offset != [0.0, 0.0]),
        ("normal of the face, turned", corner.leaves() && sine != 0.0 && cosine != 0.0),
        ("near miss", !corner.leaves() && corner.length < 4.0 * f32::EPSILON),
        ("length of just 2^-23", corner.length == f32::EPSILON),
    ];
    list.extend(kinds.iter().filter(|(_, met)| *met).map(|(kind, _)| *kind));
    list
}

/// What a run has to meet of it.
pub const WANTED: [&str; 11] = [
    "0 points",
    "1 point",
    "face A",
    "normal of the face",
    "first corner",
    "second corner",
    "zero difference",
    "short difference",
    "normal of the face, turned",
    "near miss",
    "length of just 2^-23",
];
