//! Requests of entries 7 to 11, the contact calls: pairs of shapes that overlap or nearly touch, and the refusals by
//! count and range.
use crate::bodies::{self, place, spoil_transform, Shape};
use crate::corners;
use crate::generators::words;
use crate::ranges::{self, first, within, EDGE, POLYGON, SIZE};
use crate::support::Random;
use crate::thresholds;

pub const MANIFOLD: usize = 16;
const CIRCLE: usize = 3;
pub const TRANSFORM: usize = 4;

/// The two shapes of an entry.
fn pair(entry: u32) -> (Shape, Shape) {
    match entry {
        7 => (Shape::Circle, Shape::Circle),
        8 => (Shape::Outline, Shape::Circle),
        9 => (Shape::Outline, Shape::Outline),
        10 => (Shape::Wall, Shape::Circle),
        _ => (Shape::Wall, Shape::Outline),
    }
}

fn length(shape: Shape) -> usize {
    match shape {
        Shape::Circle => CIRCLE,
        Shape::Outline => POLYGON,
        Shape::Wall => EDGE,
    }
}

/// A manifold full of random bits, but for its kind.
pub fn old_manifold(random: &mut Random) -> Vec<u32> {
    let mut record = words(random, MANIFOLD);
    record[0] = random.below(3) as u32;
    record
}

fn request(entry: u32, random: &mut Random) -> Vec<u32> {
    let (a, b) = pair(entry);
    let mut words = vec![entry];
    words.extend(old_manifold(random));
    let mut parts = match entry {
        8 if random.once_in(8) => corners::outline_and_circle(random),
        9 if random.once_in(16) => thresholds::outlines(random),
        10 if random.once_in(8) => bodies::tiny_wall_and_circle(random),
        11 if random.once_in(8) => thresholds::wall_and_outline(random),
        _ => place(random, a, b),
    };
    if random.once_in(3) {
        bodies::spoil_shape(random, a, &mut parts[0]);
        spoil_transform(random, &mut parts[1]);
        bodies::spoil_shape(random, b, &mut parts[2]);
        spoil_transform(random, &mut parts[3]);
    }
    words.extend(parts.concat());
    words
}

pub fn circles(random: &mut Random) -> Vec<u32> {
    request(7, random)
}
pub fn outline_and_circle(random: &mut Random) -> Vec<u32> {
    request(8, random)
}
/// The same, each about a corner.
pub fn at_corner(random: &mut Random) -> Vec<u32> {
    let (old, parts) = (old_manifold(random), corners::outline_and_circle(random));
    [vec![8], old, parts.concat()].concat()
}
pub fn outlines(random: &mut Random) -> Vec<u32> {
    request(9, random)
}
pub fn wall_and_circle(random: &mut Random) -> Vec<u32> {
    request(10, random)
}
pub fn wall_and_outline(random: &mut Random) -> Vec<u32> {
    request(11, random)
}
/// Any of the five.
pub fn any(random: &mut Random) -> Vec<u32> {
    let entry = 7 + random.below(5) as u32;
    request(entry, random)
}

/// A request's shapes and placements: A, its placement, B, its placement.
pub fn parts(request: &[u32]) -> [&[u32]; 4] {
    let (a, b) = pair(request[0]);
    let (a_words, rest) = request[1 + MANIFOLD..].split_at(length(a));
    let (xf_a, rest) = rest.split_at(TRANSFORM);
    let (b_words, xf_b) = rest.split_at(length(b));
    [a_words, xf_a, b_words, xf_b]
}

fn count_fits(shape: Shape, record: &[u32]) -> bool {
    shape != Shape::Outline || (3..=8).contains(&record[3])
}

/// A circle's numbers; an outline's; a wall's, the ghost points of a one-sided one among them.
fn in_range(shape: Shape, record: &[u32]) -> bool {
    match shape {
        Shape::Circle => ranges::radius(record[0]) && within(&record[1..], SIZE),
        Shape::Outline => ranges::polygon(record),
        Shape::Wall => {
            ranges::radius(record[0]) && within(&record[4..8], SIZE) && (record[1] == 0 || within(&record[2..], SIZE))
        }
    }
}

/// 7, 2, 6 of either body; 8 is the references'.
pub fn refusal(request: &[u32]) -> u32 {
    let (a, b) = pair(request[0]);
    let [a_words, xf_a, b_words, xf_b] = parts(request);
    first(&[
        (7, count_fits(a, a_words) && count_fits(b, b_words)),
        (2, in_range(a, a_words) && in_range(b, b_words)),
        (6, ranges::transform(xf_a) && ranges::transform(xf_b)),
    ])
}

pub fn kinds(_: &[u32], answer: &[u32]) -> Vec<&'static str> {
    let points = ["0 points", "1 point", "2 points"][answer[2] as usize];
    let kind = ["circles", "face A", "face B"][answer[1] as usize];
    if answer[2] == 0 {
        vec![points]
    } else {
        vec![points, kind]
    }
}
