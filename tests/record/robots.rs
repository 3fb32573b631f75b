//! Circles, outlines, walls and chains of random heats, where they are, and their frames.
use crate::chains::chain;
use crate::generators::{grid, points, unit};
use crate::support::Random;

const SKIN: f64 = 0.01;
/// A turn's parts, by which it is numbered.
pub const TURN: u16 = 4096;

#[derive(Clone, Copy, PartialEq)]
pub enum Kind {
    Circle,
    Outline,
    Wall,
    Chain,
}

/// A shape by its points (a circle's centre, an outline's list, a wall's ends, four if it is one-sided, a chain's with
/// the ones before and after), and where it is: `turn` is sine and cosine, those of `number` where it is turned by a
/// turn number, to about a last bit.
#[derive(Clone)]
pub struct Body {
    pub kind: Kind,
    pub points: Vec<[f32; 2]>,
    pub radius: f32,
    pub at: [f32; 2],
    pub turn: [f32; 2],
    pub number: Option<u16>,
}

impl Body {
    /// The circle's reach or the skin.
    pub fn reach(&self) -> f64 {
        if self.kind == Kind::Circle {
            self.radius as f64
        } else {
            SKIN
        }
    }

    /// The points that carry the shape: ghost points do not.
    pub fn corners(&self) -> &[[f32; 2]] {
        let ghosts = self.kind == Kind::Chain || self.kind == Kind::Wall && self.points.len() == 4;
        if ghosts {
            &self.points[1..self.points.len() - 1]
        } else {
            &self.points
        }
    }

    /// Turns it by sine and cosine, or by a turn number.
    pub fn turn_to(&mut self, turn: [f32; 2]) {
        (self.turn, self.number) = (turn, None);
    }

    pub fn head_to(&mut self, number: u16) {
        let (s, c) = (number as f64 * std::f64::consts::TAU / TURN as f64).sin_cos();
        (self.turn, self.number) = ([s as f32, c as f32], Some(number));
    }

    pub fn turned(&self, p: [f64; 2]) -> [f64; 2] {
        let (s, c) = (self.turn[0] as f64, self.turn[1] as f64);
        [c * p[0] - s * p[1], s * p[0] + c * p[1]]
    }
}

pub fn hex(bytes: &[u8]) -> Vec<u8> {
    bytes.iter().flat_map(|b| format!("{b:02x}").into_bytes()).collect()
}

pub fn floats(head: &[u8], list: &[f32]) -> Vec<u8> {
    head.iter().copied().chain(list.iter().flat_map(|x| x.to_bits().to_be_bytes())).collect()
}

pub fn shape_frame(id: u8, body: &Body) -> Vec<u8> {
    let list: Vec<f32> = body.points.iter().flatten().copied().collect();
    match body.kind {
        Kind::Circle => floats(&[1, id], &[list[0], list[1], body.radius]),
        Kind::Outline => floats(&[2, id, body.points.len() as u8], &list),
        Kind::Wall => floats(&[3, id, (body.points.len() == 4) as u8], &list),
        Kind::Chain => floats(&[7, id, body.points.len() as u8 - 2], &list),
    }
}

pub fn place_frame(id: u8, body: &Body) -> Vec<u8> {
    match body.number {
        Some(number) => heading_frame(id, body.at, number),
        None => floats(&[4, id], &[body.at[0], body.at[1], body.turn[0], body.turn[1]]),
    }
}

pub fn heading_frame(id: u8, at: [f32; 2], number: u16) -> Vec<u8> {
    [floats(&[6, id], &at), number.to_be_bytes().to_vec()].concat()
}

fn number(random: &mut Random, scale: f32) -> f32 {
    if scale == 0.0 {
        grid(random, 512)
    } else {
        unit(random) * scale
    }
}

pub fn point(random: &mut Random, scale: f32) -> [f32; 2] {
    [number(random, scale), number(random, scale)]
}

pub fn pairs(list: &[f32]) -> Vec<[f32; 2]> {
    list.chunks(2).map(|p| [p[0], p[1]]).collect()
}

/// A box, a robot with a bent front, a ring of corners, any points, or points that are hard to build of.
pub fn outline(random: &mut Random, scale: f32) -> Vec<[f32; 2]> {
    let n = 3 + random.below(6) as usize;
    let [x, y] = point(random, scale);
    match random.below(8) {
        0 | 1 => vec![[-x, -y], [x, -y], [x, y], [-x, y]],
        2 => {
            let nose = y * random.of(&[1.01, 1.05, 1.5, 0.99]);
            vec![[-x, -y], [x, -y], [x, y], [x * 0.1, nose], [-x, y]]
        }
        3 | 4 => {
            let size = if scale == 0.0 { 2.0 } else { scale };
            let ring = |i: usize| (i as f64 * std::f64::consts::TAU / n as f64).sin_cos();
            (0..n).map(|i| [ring(i).1 as f32 * size * 0.5, ring(i).0 as f32 * size * 0.5]).collect()
        }
        5 => pairs(&points(random, n)),
        _ => (0..n).map(|_| point(random, scale)).collect(),
    }
}

fn wall(random: &mut Random, scale: f32) -> Vec<[f32; 2]> {
    let (mut v1, mut v2) = (point(random, scale), point(random, scale));
    match random.below(8) {
        0 | 1 => v2[1] = v1[1],
        2 => v2[0] = v1[0],
        3 if random.once_in(4) => v1 = v2,
        _ => {}
    }
    let beyond = |p: [f32; 2], q: [f32; 2]| [p[0] + (p[0] - q[0]), p[1] + (p[1] - q[1])];
    match random.below(4) {
        0 => vec![beyond(v1, v2), v1, v2, beyond(v2, v1)],
        1 => vec![point(random, scale), v1, v2, point(random, scale)],
        _ => vec![v1, v2],
    }
}

pub fn body(random: &mut Random, scale: f32) -> Body {
    let often = [(Kind::Circle, 2), (Kind::Outline, 6), (Kind::Wall, 4), (Kind::Chain, 2)];
    let kind = random.of(&often.map(|(kind, weight)| vec![kind; weight]).concat());
    body_of(random, scale, kind)
}

pub fn body_of(random: &mut Random, scale: f32, kind: Kind) -> Body {
    let points = match kind {
        Kind::Circle if random.once_in(3) => vec![point(random, scale)],
        Kind::Circle => vec![[0.0, -0.0]],
        Kind::Outline => outline(random, scale),
        Kind::Wall => wall(random, scale),
        Kind::Chain => chain(random, scale),
    };
    let radius = if random.once_in(8) { 0.0 } else { number(random, scale).abs() };
    Body { kind, points, radius, at: [0.0, 0.0], turn: [0.0, 1.0], number: None }
}

pub fn angle(random: &mut Random) -> [f32; 2] {
    let (s, c) = (unit(random) as f64 * 4.0).sin_cos();
    match random.below(6) {
        0 | 1 => [0.0, 1.0],
        2 => random.of(&[[1.0, 0.0], [-1.0, 0.0], [0.0, -1.0], [-0.0, 1.0]]),
        3 => [unit(random), unit(random)],
        _ => [s as f32, c as f32],
    }
}

/// A turn number: any, an exact quarter turn, or beside one.
pub fn turn_number(random: &mut Random) -> u16 {
    let quarter = random.below(4) as u16 * (TURN / 4);
    match random.below(6) {
        0 => quarter,
        1 => (quarter + random.of(&[1, TURN - 1])) % TURN,
        _ => random.below(TURN as u64) as u16,
    }
}

/// A place on a body in its own coordinates and a direction away from it.
pub fn feature(random: &mut Random, body: &Body) -> ([f64; 2], [f64; 2]) {
    let any = unit(random) as f64 * 3.2;
    if body.kind == Kind::Circle {
        let p = body.points[0];
        return ([p[0] as f64, p[1] as f64], random.of(&[[1.0, 0.0], [0.0, -1.0], [any.cos(), any.sin()]]));
    }
    let corners = body.corners();
    // a chain has no face from its last point to its first
    let faces = corners.len() - (body.kind == Kind::Chain) as usize;
    let i = random.below(faces as u64) as usize;
    let (p, q) = (corners[i], corners[(i + 1) % corners.len()]);
    let beside = unit(random) as f64 * 0.6 + 0.5;
    let t = random.of(&[0.0, 0.5, beside]);
    let (dx, dy) = ((q[0] - p[0]) as f64, (q[1] - p[1]) as f64);
    let length = dx.hypot(dy).max(1e-300) * random.of(&[1.0, 1.0, 1.0, -1.0]);
    ([p[0] as f64 + t * dx, p[1] as f64 + t * dy], [dy / length, -dx / length])
}
