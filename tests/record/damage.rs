//! What is wrong in random heats: frames that are refused, and damaged lines.
use crate::answers::IDS;
use crate::chains::POINTS;
use crate::heats::Heat;
use crate::kinds::{any, unknown_id, weighted};
use crate::robots::{body_of, floats, hex, point, shape_frame, Body, Kind};
use crate::steps::almost_empty;
use crate::support::Random;

impl Heat<'_> {
    /// A wall so short that its squared length is 0 or has no finite reciprocal, and a circle over its middle.
    pub fn tiny_wall(&mut self) {
        let refused = self.random.once_in(3);
        let power = if refused { 76 } else { self.random.of(&[76, 76, 75, 70, 64]) };
        let step = f32::from_bits((127 - power) << 23);
        let mut tiny = |most: u64| (self.random.below(2 * most + 1) as f32 - most as f32) * step;
        let (mut v1, mut side, mut from) = ([tiny(1), tiny(1)], [tiny(2), tiny(2)], [tiny(3), tiny(3)]);
        let (mut far, mut radius) = (self.random.of(&[0.0, 0.0, 1000.0]), self.random.of(&[0.0, 1.0]));
        if refused {
            // refusal 8: the products of 2 and 2 round to 0, and those of 2 and 3 do not
            let [x, y] = [0, 1].map(|_| self.random.of(&[step, -step]));
            (v1, side, from) = ([0.0, 0.0], [2.0 * x, 2.0 * y], [3.0 * x, -y]);
            (far, radius) = (0.0, 1.0);
        }
        self.frame(&floats(&[3, 0, 0], &[v1[0], v1[1], v1[0] + side[0], v1[1] + side[1]]));
        self.frame(&floats(&[1, 1], &[v1[0] + from[0], v1[1] + from[1] + far, radius]));
        self.frame(&[5, 0, 1]);
        // contacts before and after a test that may be refused: half a metre off the circle is at a wall's end
        let (there, off) = ([0.0, 0.0], [0.0, 0.5]);
        let mut walk: Vec<[f32; 2]> = vec![off, off, there, off];
        if !refused || self.random.once_in(3) {
            let any = |random: &mut Random| {
                let mut tiny = || (random.below(9) as f32 - 4.0) * step;
                let beside = [tiny(), tiny()];
                random.of(&[beside, there, off])
            };
            walk = (0..self.random.below(6)).map(|_| any(self.random)).collect();
        }
        for at in walk {
            self.frame(&floats(&[4, 1], &[at[0], at[1], 0.0, 1.0]));
            self.frame(&[5, 0, 1]);
        }
        self.bodies[0] = None;
        self.bodies[1] = None;
    }

    /// A frame that is well formed and, mostly, refused.
    pub fn refused(&mut self) {
        let id = self.id() as u8;
        if self.random.once_in(8) {
            let (kind, id) = (any(self.random), unknown_id(self.random));
            let frame = self.random.of(&[kind.any, kind.refused])(self.random, id);
            return self.frame(&frame);
        }
        let kind = weighted(self.random);
        let frame = (kind.refused)(self.random, id);
        self.frame(&frame);
        if kind.makes_shape {
            // a refused shape leaves the old one, its contacts and its counts
            for _ in 0..3 {
                let other = self.id() as u8;
                self.frame(&[5, id, other]);
                self.frame(&[5, other, id]);
            }
            self.bodies[id as usize] = None;
        }
    }

    /// A line at the longest, or about it: 134 digits are an outline of eight points, 166 a chain of them.
    pub fn long_line(&mut self) {
        let (id, kind) = (self.id(), self.random.of(&[Kind::Outline, Kind::Chain, Kind::Chain]));
        let count = if kind == Kind::Chain { POINTS + 2 } else { POINTS };
        let points = (0..count).map(|_| point(self.random, 1.0)).collect();
        let body = Body { points, ..body_of(self.random, 1.0, kind) };
        let mut line = hex(&shape_frame(id as u8, &body));
        match self.random.below(5) {
            0 => drop(line.pop()),
            1 => {}
            _ => line.extend(vec![b'0'; self.random.of(&[1, 1, 2, 2, 16, 32, 1000])]),
        }
        self.line(&line);
        self.may_end_step();
        self.bodies[id] = None;
    }

    /// A line that is no frame, or hardly one: damaged digits, wrong lengths, unknown kinds, other bytes, one character.
    pub fn damaged(&mut self) {
        let id = if self.random.once_in(4) { 8 } else { self.id() as u8 };
        let random = &mut *self.random;
        let kind = weighted(random);
        let mut line = hex(&(kind.any)(random, id));
        let place = random.below(line.len() as u64) as usize;
        let odd = random.of(b"/:@`gGAFxz \t\r\0\x0b\x7f\x80\xc3\xff");
        match random.below(17) {
            0 => line[place] = odd,
            1 => line.insert(place, odd),
            2 => line.make_ascii_uppercase(),
            3 => line.push(b'\r'),
            4 => drop(line.remove(place)),
            5 => line.truncate(place),
            14 | 15 => line.truncate(line.len() - 2),
            7 => line = almost_empty(random),
            8 => line[0..2].copy_from_slice(random.of(&[b"00", b"0b", b"0f", b"10", b"7f", b"ee", b"ff"])),
            9 if kind.third => line[4..6].copy_from_slice(random.of(&[b"02", b"09", b"10", b"ff"])),
            6 | 9 | 10 | 13 => line.extend(b"00"),
            11 => {
                line = vec![b'0'; random.of(&[133, 134, 135, 136, 150, 165, 166, 167, 168, 300])];
                line[1] = random.of(b"1234567");
            }
            12 => line = (0..random.below(200)).map(|_| random.next() as u8).filter(|c| *c != b'\n').collect(),
            _ => line = vec![random.next() as u8 | 1; if random.once_in(8) { 100_000 } else { 5000 }],
        }
        self.line(&line);
        self.may_end_step();
        if kind.makes_shape && (id as usize) < IDS {
            self.bodies[id as usize] = None;
        }
    }
}
