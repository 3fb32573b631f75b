//! Contacts of random heats that rest, so that their points grow old, and points that share an id.
use crate::answers::IDS;
use crate::heats::Heat;
use crate::robots::floats;

impl Heat<'_> {
    /// A pair meets and is tested again and again, now and then more often than a byte counts; what comes between the
    /// tests is no reason for another age: steps, placements where it is, frames that are refused.
    pub fn rest(&mut self) {
        let Some((a, b)) = self.pair() else { return self.new_shape() };
        self.meet(a, b);
        let often = if self.random.once_in(6) { 300 } else { self.random.of(&[2, 3, 5, 12]) };
        for _ in 0..often {
            self.frame(&[5, a as u8, b as u8]);
            match self.random.below(24) {
                0 => self.place(a),
                1 | 2 => self.place(b),
                3 => self.frame(&[5, b as u8, b as u8]),
                4 => self.end_step(),
                _ => {}
            }
        }
    }

    /// A wall that leans with one end on the first face of a box and reaches over its edge, tilted so that there is one
    /// point or that there are two, which have one id.
    pub fn lean(&mut self) {
        let (a, b) = (self.id(), self.id());
        let b = if a == b { (b + 1) % IDS } else { b };
        let down = self.random.once_in(2);
        let ends = if down { [0.0, 0.0, 0.0, -3.0] } else { [0.0, 3.0, 0.0, 0.0] };
        self.frame(&floats(&[2, b as u8, 4], &[-1.0, -1.0, 1.0, -1.0, 1.0, 1.0, -1.0, 1.0]));
        self.frame(&floats(&[3, a as u8, 0], &ends));
        for _ in 0..2 + self.random.below(5) {
            let (s, c) = self.random.of(&[0.02f64, 0.02, 0.06, 0.0]).sin_cos();
            let (y, s) = if down { (-0.5, s) } else { (0.5, -s) };
            self.frame(&floats(&[4, a as u8], &[1.0, y, s as f32, c as f32]));
            self.frame(&[5, a as u8, b as u8]);
        }
        (self.bodies[a], self.bodies[b]) = (None, None);
    }
}
