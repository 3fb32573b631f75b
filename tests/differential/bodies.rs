//! Shapes for contact calls, and placements under which two of them overlap or nearly touch: a place on the one is
//! put on a place on the other, or a little off it. Numbers of every size, grid numbers among them, and turns of
//! every kind.
use crate::compare;
use crate::generators::{bits, grid, number, points, spoil, turn, unit, word};
use crate::ranges::{NORMAL, POLYGON, SIZE, TURN};
use crate::shapes::spoil_outline;
use crate::support::Random;

#[derive(Clone, Copy, PartialEq)]
pub enum Shape {
    Circle,
    Outline,
    Wall,
}

const SKIN: f32 = 0.01;

/// A size for both bodies of a pair; 0 stands for the grid.
fn scale(random: &mut Random) -> f32 {
    random.of(&[0.0, 0.0, 1.0, 1.0, 4.0, 100.0, 131072.0, 0.01, 1e-19, 1e-38])
}

fn coordinate(random: &mut Random, scale: f32) -> f32 {
    if scale == 0.0 {
        grid(random, 1024)
    } else {
        unit(random) * scale
    }
}

pub fn radius(random: &mut Random, scale: f32) -> f32 {
    match random.below(6) {
        0 => 0.0,
        1 => coordinate(random, scale).abs(),
        2 => number(random).abs(),
        _ => SKIN,
    }
}

fn circle(random: &mut Random, scale: f32) -> Vec<u32> {
    let radius = if random.once_in(8) { radius(random, scale) } else { coordinate(random, scale).abs() };
    let centre = if random.once_in(3) { [0.0, -0.0] } else { [coordinate(random, scale), coordinate(random, scale)] };
    bits(&[radius, centre[0], centre[1]])
}

fn rectangle(random: &mut Random, scale: f32) -> Vec<u32> {
    let (x, y) = (coordinate(random, scale), coordinate(random, scale));
    let mut record = bits(&[SKIN, 0.0, 0.0]);
    record.push(4);
    record.extend(bits(&[-x, -y, x, -y, x, y, -x, y, 0.0, 0.0, 0.0, 0.0, 0.0, 0.0, 0.0, 0.0]));
    record.extend(bits(&[0.0, -1.0, 1.0, 0.0, 0.0, 1.0, -1.0, 0.0, 0.0, 0.0, 0.0, 0.0, 0.0, 0.0, 0.0, 0.0]));
    record
}

/// An outline that a reference builds of these points, or a rectangle.
pub fn built(random: &mut Random, scale: f32, list: &[f32]) -> Vec<u32> {
    let mut request = vec![1, SKIN.to_bits()];
    request.extend([0; POLYGON - 1]);
    request.push(list.len() as u32 / 2);
    request.extend(bits(list));
    compare::accepted(&request).unwrap_or_else(|| rectangle(random, scale))
}

/// Rectangles, built outlines, slivers, and corners and normals that belong to no outline. Past the count, any bits.
fn outline(random: &mut Random, scale: f32) -> Vec<u32> {
    let n = 3 + random.below(6) as usize;
    let mut record = match random.below(8) {
        0 | 1 => rectangle(random, scale),
        2 => {
            let flat: Vec<f32> =
                (0..2 * n).map(|i| coordinate(random, scale) * if i % 2 == 0 { 1.0 } else { 1e-3 }).collect();
            built(random, scale, &flat)
        }
        3 => {
            let list = points(random, n);
            built(random, scale, &list)
        }
        4 => {
            let mut record = bits(&[SKIN, coordinate(random, scale), coordinate(random, scale)]);
            record.push(n as u32);
            record.extend((0..16).map(|_| coordinate(random, scale).to_bits()));
            record.extend((0..16).map(|_| turn(random, NORMAL)));
            record
        }
        _ => {
            let list: Vec<f32> = (0..2 * n).map(|_| coordinate(random, scale)).collect();
            built(random, scale, &list)
        }
    };
    record[0] = radius(random, scale).to_bits();
    let kept = 2 * record[3] as usize;
    (4 + kept..20).chain(20 + kept..36).for_each(|i| record[i] = word(random));
    record
}

/// Ghost points are anywhere, or on the wall's line, or on its ends; of a two-sided wall any bits.
fn wall(random: &mut Random, scale: f32) -> Vec<u32> {
    let flag = random.below(2) as u32;
    let mut ends: Vec<f32> = (0..8).map(|_| coordinate(random, scale)).collect();
    match random.below(6) {
        0 => ends[3] = ends[5],
        1 => ends[2] = ends[4],
        2 => (0..2).for_each(|i| ends[4 + i] = ends[2 + i]),
        3 => (0..2).for_each(|i| {
            ends[i] = ends[2 + i] + ends[2 + i] - ends[4 + i];
            ends[6 + i] = ends[4 + i] + ends[4 + i] - ends[2 + i];
        }),
        _ => {}
    }
    let mut record = vec![radius(random, scale).to_bits(), flag];
    record.extend(bits(&ends));
    if flag == 0 && random.once_in(2) {
        [2, 3, 8, 9].iter().for_each(|i| record[*i] = word(random));
    }
    record
}

fn body(random: &mut Random, shape: Shape, scale: f32) -> Vec<u32> {
    match shape {
        Shape::Circle => circle(random, scale),
        Shape::Outline => outline(random, scale),
        Shape::Wall => wall(random, scale),
    }
}

/// Sine and cosine: none, quarter turns, any angle, hardly any, and not of unit length.
pub fn rotation(random: &mut Random) -> [f32; 2] {
    let angle = unit(random) as f64 * 4.0;
    match random.below(8) {
        0 | 1 => [0.0, 1.0],
        2 | 3 => random.of(&[[1.0, 0.0], [-1.0, 0.0], [0.0, -1.0], [-0.0, 1.0]]),
        4 | 5 => [angle.sin() as f32, angle.cos() as f32],
        6 => [unit(random) * random.of(&[1e-3, 1e-7, 1e-30, 1e-40]), 1.0],
        _ => [f32::from_bits(turn(random, TURN)), f32::from_bits(turn(random, TURN))],
    }
}

fn position(random: &mut Random, scale: f32) -> [f32; 2] {
    match random.below(6) {
        0 => [0.0, 0.0],
        1 => [number(random), number(random)],
        2 => [unit(random) * SIZE, unit(random) * SIZE],
        _ => [coordinate(random, scale), coordinate(random, scale)],
    }
}

fn at(record: &[u32], i: usize) -> [f64; 2] {
    [f32::from_bits(record[i]) as f64, f32::from_bits(record[i + 1]) as f64]
}

/// A place on a body and a direction away from it there: a circle's centre, a place on a face or a corner.
fn feature(random: &mut Random, shape: Shape, record: &[u32]) -> ([f64; 2], [f64; 2]) {
    let (inside, beside) = (unit(random) as f64 * 0.5 + 0.5, unit(random) as f64 * 0.6 + 0.5);
    let t = random.of(&[0.0, 1.0, 0.5, inside, beside]);
    let between = |p: [f64; 2], q: [f64; 2]| [p[0] + t * (q[0] - p[0]), p[1] + t * (q[1] - p[1])];
    let angle = unit(random) as f64 * 4.0;
    match shape {
        Shape::Circle => (at(record, 1), random.of(&[[1.0, 0.0], [0.0, -1.0], [angle.cos(), angle.sin()]])),
        Shape::Outline => {
            let (n, i) = (record[3] as usize, random.below(record[3] as u64) as usize);
            (between(at(record, 4 + 2 * i), at(record, 4 + 2 * ((i + 1) % n))), at(record, 20 + 2 * i))
        }
        Shape::Wall => {
            let (p, q) = (at(record, 4), at(record, 6));
            let length = (q[0] - p[0]).hypot(q[1] - p[1]).max(1e-300) * random.of(&[1.0, 1.0, -1.0]);
            (between(p, q), [(q[1] - p[1]) / length, (p[0] - q[0]) / length])
        }
    }
}

/// Two bodies, each with its placement: shape A, placement of A, shape B, placement of B.
pub fn place(random: &mut Random, a: Shape, b: Shape) -> [Vec<u32>; 4] {
    let scale = scale(random);
    let (body_a, body_b) = (body(random, a, scale), body(random, b, scale));
    let (turn_a, turn_b) = (rotation(random), rotation(random));
    let origin = position(random, scale);
    let ((on_a, away), (on_b, _)) = (feature(random, a, &body_a), feature(random, b, &body_b));
    let turned = |turn: [f32; 2], p: [f64; 2]| {
        let (s, c) = (turn[0] as f64, turn[1] as f64);
        [c * p[0] - s * p[1], s * p[0] + c * p[1]]
    };
    let skins = f32::from_bits(body_a[0]) as f64 + f32::from_bits(body_b[0]) as f64;
    let size = if scale == 0.0 { 4.0 } else { scale as f64 };
    let gap = match random.below(8) {
        0 => 0.0,
        1 => skins,
        2 => skins * (1.0 + unit(random) as f64 * 1e-6),
        3 => skins * unit(random) as f64,
        4 => size * unit(random) as f64 * 1e-3,
        5 => grid(random, 64) as f64,
        _ => -size * (unit(random) as f64).abs(),
    };
    let (from, off, on_b) = (turned(turn_a, on_a), turned(turn_a, away), turned(turn_b, on_b));
    let put = |i: usize| ((origin[i] as f64 + from[i] + gap * off[i] - on_b[i]) as f32).clamp(-SIZE, SIZE);
    let transform = |p: [f32; 2], turn: [f32; 2]| bits(&[p[0], p[1], turn[0], turn[1]]);
    let other = if random.once_in(20) { position(random, scale) } else { [put(0), put(1)] };
    [body_a, transform(origin, turn_a), body_b, transform(other, turn_b)]
}

/// A wall so short that its squared length is 0 or has no finite reciprocal, and a circle over its middle or anywhere.
pub fn tiny_wall_and_circle(random: &mut Random) -> [Vec<u32>; 4] {
    // at steps of 2^-76 a side of two steps has the square 0, and one of three has not
    let power = if random.once_in(2) { 76 } else { 60 + random.below(18) as u32 };
    let step = f32::from_bits((127 - power) << 23);
    let mut tiny = |most: u64| (random.below(2 * most + 1) as f32 - most as f32) * step;
    let (v1, side, from) = ([tiny(1), tiny(1)], [tiny(2), tiny(2)], [tiny(3), tiny(3)]);
    let mut wall = vec![radius(random, 1.0).to_bits(), random.below(2) as u32];
    wall.extend(bits(&[
        number(random),
        number(random),
        v1[0],
        v1[1],
        v1[0] + side[0],
        v1[1] + side[1],
        number(random),
        number(random),
    ]));
    let (far, radius) = (random.of(&[0.0, 0.0, 0.0, 1000.0, -3.0]), radius(random, 1.0));
    let transform = bits(&[0.0, 0.0, 0.0, 1.0]);
    [wall, transform.clone(), bits(&[radius, v1[0] + from[0], v1[1] + from[1] + far]), transform]
}

/// Some of a shape's numbers put out of range, its radius made negative, an outline's count put to anything.
pub fn spoil_shape(random: &mut Random, shape: Shape, record: &mut [u32]) {
    match shape {
        Shape::Outline => spoil_outline(random, record),
        Shape::Circle => spoil(random, record, SIZE),
        Shape::Wall => {
            spoil(random, &mut record[..1], SIZE);
            spoil(random, &mut record[2..], SIZE);
        }
    }
    if random.once_in(60) {
        record[0] |= 1 << 31;
    }
}

pub fn spoil_transform(random: &mut Random, record: &mut [u32]) {
    let (position, turn) = record.split_at_mut(2);
    spoil(random, position, SIZE);
    spoil(random, turn, TURN);
}
