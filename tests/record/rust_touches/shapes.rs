//! Frames 01, 02, 03 and 07: a new shape under an id.
use super::{points, words, Answer, Program};
use crate::ranges::{self, within, SIZE};
use box2d_rs::b2_math::{b2_distance_vec2_squared, B2vec2};
use box2d_rs::shapes::b2_circle_shape::B2circleShape;
use box2d_rs::shapes::b2_edge_shape::B2edgeShape;
use box2d_rs::shapes::b2_polygon_shape::B2polygonShape;
use std::panic::{catch_unwind, AssertUnwindSafe};

pub enum Shape {
    Circle(B2circleShape),
    Outline(B2polygonShape),
    Wall(B2edgeShape),
    /// Its pieces, each a one-sided wall.
    Chain(Vec<Shape>),
}

impl Shape {
    pub fn radius(&self) -> f32 {
        match self {
            Shape::Circle(circle) => circle.base.m_radius,
            Shape::Outline(outline) => outline.base.m_radius,
            Shape::Wall(wall) => wall.base.m_radius,
            Shape::Chain(pieces) => pieces[0].radius(),
        }
    }

    /// What a test of it as the first body goes through, a line each: the pieces of a chain, or itself.
    pub fn pieces(&self) -> &[Shape] {
        match self {
            Shape::Chain(pieces) => pieces,
            one => std::slice::from_ref(one),
        }
    }
}

/// 01 id x y radius: 2.
pub fn circle(program: &mut Program, frame: &[u8]) -> Answer {
    let numbers = words(&frame[2..]);
    if !within(&numbers[..2], SIZE) || !ranges::radius(numbers[2]) {
        return Err(2);
    }
    let mut circle = B2circleShape::default();
    circle.m_p = points(&numbers)[0];
    circle.base.m_radius = f32::from_bits(numbers[2]);
    program.made(frame[1], Shape::Circle(circle))
}

/// How many points stay: those at a squared distance of at least the limit from each that stayed before.
fn welded(points: &[B2vec2]) -> usize {
    let limit = (0.5f32 * 0.005) * (0.5 * 0.005);
    let mut kept: Vec<B2vec2> = Vec::new();
    for p in points {
        if !kept.iter().any(|q| b2_distance_vec2_squared(*p, *q) < limit) {
            kept.push(*p);
        }
    }
    kept.len()
}

/// 02 id count points: 1, 2, then 3, 4 and 5, the Rust's panics. Of these the shape tells which: it has its corners
/// before edges and area are tested.
pub fn outline(program: &mut Program, frame: &[u8]) -> Answer {
    let numbers = words(&frame[3..]);
    let points = points(&numbers);
    if !(3..=8).contains(&points.len()) {
        return Err(1);
    }
    if !within(&numbers, SIZE) {
        return Err(2);
    }
    let mut outline = B2polygonShape::default();
    match catch_unwind(AssertUnwindSafe(|| outline.set(&points))) {
        Ok(()) => program.made(frame[1], Shape::Outline(outline)),
        Err(_) if outline.m_count > 0 => Err(5),
        Err(_) if welded(&points) < 3 => Err(3),
        Err(_) => Err(4),
    }
}

/// 03 id 00 v1 v2, two-sided, and 03 id 01 v0 v1 v2 v3, one-sided: 2.
pub fn wall(program: &mut Program, frame: &[u8]) -> Answer {
    let numbers = words(&frame[3..]);
    if !within(&numbers, SIZE) {
        return Err(2);
    }
    let ends = points(&numbers);
    if frame[2] == 1 {
        return program.made(frame[1], one_sided(&ends));
    }
    let mut wall = B2edgeShape::default();
    wall.set_two_sided(ends[0], ends[1]);
    program.made(frame[1], Shape::Wall(wall))
}

/// A wall from the second of four points to the third; the others are its ghost points.
fn one_sided(four: &[B2vec2]) -> Shape {
    let mut wall = B2edgeShape::default();
    wall.set_one_sided(four[0], four[1], four[2], four[3]);
    Shape::Wall(wall)
}

/// 07 id count, the point before, the points, the point after: 15, 2, 16.
pub fn chain(program: &mut Program, frame: &[u8]) -> Answer {
    let numbers = words(&frame[3..]);
    let points = points(&numbers);
    if frame[2] < 2 {
        return Err(15);
    }
    if !within(&numbers, SIZE) {
        return Err(2);
    }
    let apart = |two: &[B2vec2]| b2_distance_vec2_squared(two[0], two[1]) > 0.005f32 * 0.005;
    if !points[1..points.len() - 1].windows(2).all(apart) {
        return Err(16);
    }
    program.made(frame[1], Shape::Chain(points.windows(4).map(one_sided).collect()))
}
