//! Chains of random heats: their points, and robots that slide along them, over their joints and back.
use crate::generators::unit;
use crate::heats::Heat;
use crate::ranges::SIZE;
use crate::robots::{body_of, point, Body, Kind};
use crate::support::Random;
use std::f64::consts::{PI, TAU};

/// The most points of a chain, without the ones before and after.
pub const POINTS: usize = 8;

/// The point before, two to eight points and the point after: a row of walls that meet at angles, an arena that ends
/// where it begins, or any points. The points before and after go on as the row does, or are any.
pub fn chain(random: &mut Random, scale: f32) -> Vec<[f32; 2]> {
    let count = 2 + random.below(POINTS as u64 - 1) as usize;
    let size = if scale == 0.0 { 2.0 } else { scale as f64 };
    let mut points = match random.below(6) {
        0 => (0..count + 2).map(|_| point(random, scale)).collect(),
        1 if count > 3 => arena(random, count - 1, size),
        _ => row(random, count + 2, size),
    };
    if scale == 0.0 {
        points.iter_mut().flatten().for_each(|x| *x = (*x * 256.0).round() / 256.0);
    }
    if random.once_in(2) {
        points.reverse();
    }
    for end in [0, count + 1] {
        if random.once_in(6) {
            points[end] = point(random, scale);
        }
    }
    points
}

/// Points on a ring, as many as its walls, then the first again, and the ones before and after on it too.
fn arena(random: &mut Random, walls: usize, size: f64) -> Vec<[f32; 2]> {
    let start = random.below(4) as f64 * PI / 4.0;
    let corner = |i: usize| {
        let (s, c) = (start + (i % walls) as f64 * TAU / walls as f64).sin_cos();
        [(c * size) as f32, (s * size) as f32]
    };
    (walls - 1..2 * walls + 2).map(corner).collect()
}

/// Points of a path that turns at each of them, or goes straight on.
fn row(random: &mut Random, points: usize, size: f64) -> Vec<[f32; 2]> {
    let [mut x, mut y] = [0, 1].map(|_| unit(random) as f64 * size * 0.5);
    let mut heading = random.below(8) as f64 * PI / 4.0;
    let any = unit(random) as f64 * 1.5;
    let (eighth, quarter) = (PI / 4.0, PI / 2.0);
    let turns = random.of(&[[0.0, 0.0, 0.01], [0.0, eighth, -eighth], [quarter, -quarter, 0.0], [any, -any, 0.1]]);
    let mut path = Vec::new();
    for _ in 0..points {
        path.push([x as f32, y as f32]);
        let length = size * random.of(&[0.25, 0.5, 0.5, 1.0]);
        (x, y) = (x + length * heading.cos(), y + length * heading.sin());
        heading += random.of(&turns);
    }
    path
}

impl Heat<'_> {
    /// An id, but one, under which a shape of these kinds stands, or is drawn.
    fn one_of(&mut self, kinds: &[Kind], but: Option<usize>) -> usize {
        let ids: Vec<usize> = (0..20).map(|_| self.id()).filter(|id| Some(*id) != but).collect();
        let fits = |id: &&usize| self.bodies[**id].as_ref().map_or(false, |body| kinds.contains(&body.kind));
        if let Some(id) = ids.iter().take(8).find(fits) {
            return *id;
        }
        let kind = self.random.of(kinds);
        let body = body_of(self.random, self.scale, kind);
        self.draw(ids[0], body);
        ids[0]
    }

    /// A robot or a ball slides along a chain: from a piece over the next joint, or more of them, and back.
    pub fn slide(&mut self) {
        if self.scale != 0.0 && self.scale < 1.0 {
            return self.scene(); // too small for a chain
        }
        let a = self.one_of(&[Kind::Chain], None);
        let b = self.one_of(&[Kind::Circle, Kind::Outline, Kind::Outline], Some(a));
        let Some(pieces) = self.bodies[a].as_ref().map(|chain| chain.corners().len() - 1) else { return };
        if self.random.once_in(4) {
            self.turn(a);
            self.place(a);
        }
        let joint = self.random.below(pieces as u64 + 1) as f64;
        let ways = [0, 1].map(|_| self.random.of(&[0.3, 0.6, 1.2, 2.5]));
        let (from, to) = ((joint - ways[0]).max(-0.1), (joint + ways[1]).min(pieces as f64 + 0.1));
        let (steps, gap) = (2 + self.random.below(5), self.random.of(&[0.0, 0.004, -0.004, -0.02]));
        for step in (0..=steps).chain((0..steps).rev()) {
            self.put_along(a, b, from + (to - from) * step as f64 / steps as f64, gap);
            self.frame(&[5, a as u8, b as u8]);
        }
    }

    /// Puts b beside the chain a, at a place that is counted in pieces, by its farthest corner or off by a gap.
    fn put_along(&mut self, a: usize, b: usize, along: f64, gap: f64) {
        let (Some(chain), Some(mut body)) = (self.bodies[a].clone(), self.bodies[b].clone()) else { return };
        let corners = chain.corners();
        let piece = (along.max(0.0) as usize).min(corners.len() - 2);
        let [p, q] = [0, 1].map(|i| corners[piece + i].map(|x| x as f64));
        let (dx, dy, t) = (q[0] - p[0], q[1] - p[1], along - piece as f64);
        let length = dx.hypot(dy).max(1e-300);
        let (on, away) = (chain.turned([p[0] + t * dx, p[1] + t * dy]), chain.turned([dy / length, -dx / length]));
        let off = depth(&body, away) + chain.reach() + body.reach() + gap;
        (0..2).for_each(|i| body.at[i] = ((chain.at[i] as f64 + on[i] + off * away[i]) as f32).clamp(-SIZE, SIZE));
        self.bodies[b] = Some(body);
        self.place(b);
    }
}

/// How far a body reaches against a direction from where it is placed, its skin or radius aside.
fn depth(body: &Body, away: [f64; 2]) -> f64 {
    let against = |p: &[f32; 2]| {
        let p = body.turned(p.map(|x| x as f64));
        -(p[0] * away[0] + p[1] * away[1])
    };
    body.corners().iter().map(against).fold(f64::NEG_INFINITY, f64::max)
}
