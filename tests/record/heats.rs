//! Random heats: lines of frames in which circles, outlines, walls and chains meet, rest, roll, slide and part, with
//! new shapes under old ids, frames that are refused, damaged lines, and steps. Bodies of one heat share a size, now
//! and then an extreme one.
use crate::answers::IDS;
use crate::generators::{grid, unit};
use crate::ranges::SIZE;
use crate::robots::{angle, body, feature, hex, outline, place_frame, point, shape_frame, turn_number, Body, Kind, TURN};
use crate::support::Random;

const SLOP: f32 = 0.005;

/// A heat as it is written: what stands under each id, and the lines so far.
pub struct Heat<'a> {
    pub random: &'a mut Random,
    /// The size of everything; 0 stands for the grid.
    pub scale: f32,
    pub bodies: [Option<Body>; IDS],
    pub text: Vec<u8>,
    pub lines: usize,
}

impl Heat<'_> {
    pub fn line(&mut self, characters: &[u8]) {
        self.text.extend(characters);
        self.text.push(b'\n');
        self.lines += 1;
    }

    pub fn frame(&mut self, bytes: &[u8]) {
        self.line(&hex(bytes));
    }

    pub fn id(&mut self) -> usize {
        self.random.below(IDS as u64) as usize
    }

    /// A new shape under an id. What the program makes of it is not asked: where it is refused, an old shape stays.
    pub fn new_shape(&mut self) {
        // one id stays empty for a while
        let id = if self.random.once_in(40) { self.id() } else { self.random.below(IDS as u64 - 1) as usize };
        let body = body(self.random, self.scale);
        self.draw(id, body);
        if self.random.once_in(2) {
            self.turn(id);
            self.place(id);
        }
    }

    pub fn draw(&mut self, id: usize, body: Body) {
        self.frame(&shape_frame(id as u8, &body));
        self.bodies[id] = Some(body);
    }

    pub fn place(&mut self, id: usize) {
        if let Some(body) = &self.bodies[id] {
            let frame = place_frame(id as u8, body);
            self.frame(&frame);
        }
    }

    /// By sine and cosine, or by a turn number.
    pub fn turn(&mut self, id: usize) {
        let turn = angle(self.random);
        let number = turn_number(self.random);
        let by_number = self.random.once_in(2);
        if let Some(body) = &mut self.bodies[id] {
            if by_number {
                body.head_to(number);
            } else {
                body.turn_to(turn);
            }
        }
    }

    /// Moves a body by a little, or turns it by a little.
    fn nudge(&mut self, id: usize) {
        let size = if self.scale == 0.0 { 1.0 } else { self.scale };
        let step = size * self.random.of(&[1e-7, 1e-3, 0.01, 0.05]);
        let (dx, dy) = (unit(self.random) * step, unit(self.random) * step);
        let steps = [grid(self.random, 3), grid(self.random, 3)];
        let [on_grid, roll] = [self.scale == 0.0, self.random.once_in(3)];
        let parts = self.random.of(&[1, 2, 30, TURN / 4, TURN - 1]);
        if let Some(body) = &mut self.bodies[id] {
            if let (true, Some(number)) = (roll, body.number) {
                body.head_to((number + parts) % TURN);
            } else if roll && !on_grid {
                let (s, c) = ((body.turn[0] as f64).atan2(body.turn[1] as f64) + dx as f64 / size as f64).sin_cos();
                body.turn_to([s as f32, c as f32]);
            } else {
                let moved = if on_grid { steps } else { [dx, dy] };
                (0..2).for_each(|i| body.at[i] = (body.at[i] + moved[i]).clamp(-SIZE, SIZE));
            }
        }
        self.place(id);
    }

    /// Puts b on a: a place on the one at a place on the other, or off it by a gap.
    pub fn meet(&mut self, a: usize, b: usize) {
        let (Some(body_a), Some(mut body_b)) = (self.bodies[a].clone(), self.bodies[b].clone()) else { return };
        let random = &mut *self.random;
        let ((on_a, away), (on_b, _)) = (feature(random, &body_a), feature(random, &body_b));
        let reach = body_a.reach() + body_b.reach();
        let size = if self.scale == 0.0 { 4.0 } else { self.scale as f64 };
        let gap = match random.below(7) {
            0 => 0.0,
            1 => reach,
            2 => reach * (1.0 + unit(random) as f64 * 1e-6),
            3 => reach * unit(random) as f64,
            4 => SLOP as f64 * unit(random) as f64,
            _ => -size * (unit(random) as f64).abs() * 0.2,
        };
        let (from, off, on_b) = (body_a.turned(on_a), body_a.turned(away), body_b.turned(on_b));
        for i in 0..2 {
            let x = body_a.at[i] as f64 + from[i] + gap * off[i] - on_b[i];
            let x = if self.scale == 0.0 && random.below(4) > 0 { (x * 256.0).round() / 256.0 } else { x };
            body_b.at[i] = (x as f32).clamp(-SIZE, SIZE);
        }
        self.bodies[b] = Some(body_b);
        self.place(b);
    }

    fn put(&mut self, id: usize, at: [f32; 2]) {
        if let Some(body) = &mut self.bodies[id] {
            body.at = at;
        }
        self.place(id);
    }

    /// Two bodies, mostly in an order that is tested.
    pub fn pair(&mut self) -> Option<(usize, usize)> {
        for _ in 0..40 {
            let (a, b) = (self.id(), self.id());
            if let (Some(body_a), Some(body_b)) = (&self.bodies[a], &self.bodies[b]) {
                let listed = match (body_a.kind, body_b.kind) {
                    (Kind::Circle, Kind::Circle) => true,
                    (Kind::Outline | Kind::Wall | Kind::Chain, Kind::Circle | Kind::Outline) => true,
                    _ => false,
                };
                if a != b && (listed || self.random.once_in(20)) {
                    return Some((a, b));
                }
            }
        }
        None
    }

    /// A pair meets, and is tested over some steps in which it rests, slides, rolls or parts.
    pub fn scene(&mut self) {
        let Some((a, b)) = self.pair() else { return self.new_shape() };
        self.meet(a, b);
        for _ in 0..1 + self.random.below(6) {
            self.frame(&[5, a as u8, b as u8]);
            if self.random.once_in(3) {
                self.frame(&[5, b as u8, a as u8]);
            }
            self.may_end_step();
            match self.random.below(8) {
                0 | 1 => {}
                2 => self.meet(a, b),
                3 => {
                    let far = point(self.random, if self.scale == 0.0 { 4.0 } else { self.scale });
                    self.put(b, far);
                }
                4 => self.nudge(a),
                _ => self.nudge(b),
            }
        }
    }

    /// A pair meets and parts again and again, so that its touches add up, now and then to more than a byte holds.
    fn bounces(&mut self) {
        let Some((a, b)) = self.pair() else { return self.new_shape() };
        self.meet(a, b);
        let Some(near) = self.bodies[b].as_ref().map(|body| body.at) else { return };
        let size = if self.scale == 0.0 { 4.0 } else { self.scale };
        let far = [(near[0] + 8.0 * size).clamp(-SIZE, SIZE), near[1]];
        let often = if self.random.once_in(20) { 300 } else { self.random.of(&[2, 2, 2, 30]) };
        for _ in 0..often {
            for at in [near, far] {
                self.put(b, at);
                self.frame(&[5, a as u8, b as u8]);
            }
        }
    }
}

/// What a heat does next: how often, whether a calm heat does it too, and what.
const ACTIONS: [(usize, bool, fn(&mut Heat)); 12] = [
    (2, true, |heat| heat.new_shape()),
    (6, false, |heat| heat.refused()),
    (4, false, |heat| heat.damaged()),
    (2, false, |heat| heat.long_line()),
    (1, false, |heat| heat.tiny_wall()),
    (17, true, |heat| heat.scene()),
    (1, true, |heat| heat.bounces()),
    (1, true, |heat| heat.rest()),
    (1, true, |heat| heat.lean()),
    (2, true, |heat| heat.corner()),
    (3, true, |heat| heat.slide()),
    (2, true, |heat| heat.end_step()),
];

/// A heat of about this many lines.
pub fn heat(random: &mut Random, length: usize) -> Vec<u8> {
    let scale = random.of(&[0.0, 0.0, 0.0, 1.0, 1.0, 1.0, 4.0, 100.0, 131072.0, 0.02, 1e-19]);
    let calm = random.once_in(4);
    let actions: Vec<fn(&mut Heat)> =
        ACTIONS.iter().filter(|row| !calm || row.1).flat_map(|row| vec![row.2; row.0]).collect();
    let mut heat = Heat { random, scale, bodies: Default::default(), text: Vec::new(), lines: 0 };
    heat.may_end_step();
    for _ in 0..heat.random.below(6) {
        heat.new_shape();
    }
    while heat.lines < length {
        heat.random.of(&actions)(&mut heat);
    }
    let mut text = heat.text;
    match random.below(10) {
        0 => drop(text.pop()),
        1 => text.extend(hex(&[5, 0, 1])),
        2 => text.extend(b"0"),
        3 => text.extend(b"\r"),
        4 => text.extend(b"\n"),
        5 => text.extend(b"\n050001"),
        _ => {}
    }
    text
}

/// The four frames of the export: two outlines that meet, overlap or are apart, or that are refused.
pub fn export_frames(random: &mut Random) -> [Vec<u8>; 4] {
    let scale = random.of(&[0.0, 0.0, 1.0, 1.0, 4.0, 100.0, 131072.0]);
    let mut heat = Heat { random, scale, bodies: Default::default(), text: Vec::new(), lines: 0 };
    for id in 0..2 {
        let points = outline(heat.random, scale);
        let at = if heat.random.once_in(2) { [0.0, 0.0] } else { point(heat.random, scale) };
        let turn = angle(heat.random);
        heat.bodies[id] = Some(Body { kind: Kind::Outline, points, radius: 0.0, at, turn, number: None });
    }
    if heat.random.below(5) > 0 {
        heat.meet(0, 1);
    }
    let bodies = heat.bodies;
    let frames = |id: u8| bodies[id as usize].as_ref().map(|b| [shape_frame(id, b), place_frame(id, b)]);
    let ([Some([a, b]), Some([c, d])],) = ([frames(0), frames(1)],) else { unreachable!() };
    [a, b, c, d]
}
