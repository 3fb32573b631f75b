//! Circles of random heats on corners of outlines, where normalising has no length: request 07.
use crate::answers::IDS;
use crate::generators::{fan, step, unit};
use crate::heats::Heat;
use crate::robots::{angle, pairs, point, turn_number, Body, Kind};
use crate::support::Random;

/// The length that a normal has at least before it is made unit.
const LEAST: f32 = f32::EPSILON;

type Point = [f32; 2];

fn dot(p: Point, q: Point) -> f32 {
    p[0] * q[0] + p[1] * q[1]
}

fn sub(p: Point, q: Point) -> Point {
    [p[0] - q[0], p[1] - q[1]]
}

/// An outline and a circle's centre on one of its corners, or a last digit off it.
fn on_corner(random: &mut Random) -> (Vec<Point>, Point) {
    let near = random.of(&[0.0, 0.25, 1.0, 4.0]);
    let points = pairs(&fan(random, near));
    let any = random.of(&points);
    let corner = random.of(&[points[0], any]);
    (points, last_digits_off(random, corner))
}

fn last_digits_off(random: &mut Random, [x, y]: Point) -> Point {
    let off = random.of(&[[0, 0], [0, 0], [1, 0], [0, -1], [-1, 1]]);
    [step(x, off[0]), step(y, off[1])]
}

/// A triangle with a corner near the origin, and a circle's centre that is out of a face by as much as it takes and not
/// as far from the corner: the face that begins there, to which a last digit's rounding leads, or the one that ends.
fn on_triangle(random: &mut Random, second: bool) -> Option<(Vec<Point>, Point)> {
    for _ in 0..2000 {
        let (turn, wide) = (unit(random) * 4.0, 1.5 + unit(random));
        let (near, size) = if second { (unit(random), random.of(&[4.0, 64.0, 131072.0])) } else { (0.0, 1.0) };
        let far = [turn, turn + wide].map(|angle| [angle.cos() * size, angle.sin() * size]);
        let corner = [near * 0.25, near * unit(random)];
        let (from, other) = if second { (far[1], far[1]) } else { (corner, far[0]) };
        let along = if second { sub(corner, from) } else { sub(far[0], from) };
        let inverse = 1.0 / dot(along, along).sqrt();
        let normal = [along[1] * inverse, -along[0] * inverse];
        let beside = normal.map(|x| step(x * LEAST, random.below(7) as i32 - 3));
        let centre = if second { last_digits_off(random, corner) } else { beside };
        let off = sub(centre, corner);
        let short = dot(off, off).sqrt() < LEAST && dot(off, sub(other, corner)) <= 0.0;
        if short && dot(normal, sub(centre, from)) >= LEAST {
            return Some((vec![corner, far[0], far[1]], centre));
        }
    }
    None
}

impl Heat<'_> {
    /// A circle on a corner is tested, before and after both are placed alike, by turn number or by sine and cosine.
    pub fn corner(&mut self) {
        let (a, b) = (self.id(), self.id());
        let b = if a == b { (b + 1) % IDS } else { b };
        let found = match self.random.below(3) {
            0 => None,
            end => on_triangle(self.random, end == 2),
        };
        let (points, centre) = found.unwrap_or_else(|| on_corner(self.random));
        let body = |kind: Kind, points: Vec<Point>| Body {
            kind,
            points,
            radius: 0.5,
            at: [0.0, 0.0],
            turn: [0.0, 1.0],
            number: None,
        };
        self.draw(a, body(Kind::Outline, points));
        self.draw(b, body(Kind::Circle, vec![centre]));
        self.frame(&[5, a as u8, b as u8]);
        for _ in 0..self.random.below(4) {
            let at = if self.random.once_in(2) { [0.0, 0.0] } else { point(self.random, 1.0) };
            let (turn, number) = (angle(self.random), turn_number(self.random));
            let by_number = self.random.once_in(2);
            for id in [a, b] {
                if let Some(body) = &mut self.bodies[id] {
                    body.at = at;
                    if by_number {
                        body.head_to(number);
                    } else {
                        body.turn_to(turn);
                    }
                }
                self.place(id);
            }
            self.frame(&[5, a as u8, b as u8]);
            self.may_end_step();
        }
        (self.bodies[a], self.bodies[b]) = (None, None);
    }
}
