//! Frames 04 and 06: a body is placed, by sine and cosine or by a turn number.
use super::{accepted, points, words, Answer, Program};
use crate::ranges;
use box2d_rs::b2_math::{B2Rot, B2Transform};
use std::f64::consts::TAU;
use std::sync::OnceLock;

/// A turn has so many parts, a quarter of it so many.
const TURN: u16 = 4096;
const QUARTER: u16 = 1024;

/// The placement of a position and a rotation, where it is one: 6.
fn placed(program: &mut Program, id: u8, position: &[u32], q: B2Rot) -> Answer {
    let body = program.bodies[id as usize].as_mut().ok_or(12)?;
    let numbers = [position[0], position[1], q.s.to_bits(), q.c.to_bits()];
    if !ranges::transform(&numbers) {
        return Err(6);
    }
    body.place = B2Transform { p: points(position)[0], q };
    accepted()
}

/// 04 id x y sine cosine: 12, 6.
pub fn place(program: &mut Program, frame: &[u8]) -> Answer {
    let numbers = words(&frame[2..]);
    let q = B2Rot { s: f32::from_bits(numbers[2]), c: f32::from_bits(numbers[3]) };
    placed(program, frame[1], &numbers[..2], q)
}

/// The quarter wave: the f32 nearest to the sine of k parts of a turn, k from 0 to a quarter. By the platform's sine of
/// an f64, which is far nearer to the true one than that is to the middle of two f32.
fn quarter_wave(k: u16) -> f32 {
    static TABLE: OnceLock<Vec<f32>> = OnceLock::new();
    let sine = |k: u16| (k as f64 * TAU / TURN as f64).sin() as f32;
    TABLE.get_or_init(|| (0..=QUARTER).map(sine).collect())[k as usize]
}

/// Sine and cosine of a turn number, by quarters. 0 - x is +0 where x is +0.
fn heading(number: u16) -> B2Rot {
    let k = number % QUARTER;
    let (t, mirror) = (quarter_wave(k), quarter_wave(QUARTER - k));
    let (s, c) = match number / QUARTER {
        0 => (t, mirror),
        1 => (mirror, 0.0 - t),
        2 => (0.0 - t, 0.0 - mirror),
        _ => (0.0 - mirror, t),
    };
    B2Rot { s, c }
}

/// 06 id x y turn number: 12, 14, 6.
pub fn head(program: &mut Program, frame: &[u8]) -> Answer {
    let number = u16::from_be_bytes([frame[10], frame[11]]);
    program.bodies[frame[1] as usize].as_ref().ok_or(12)?;
    if number >= TURN {
        return Err(14);
    }
    placed(program, frame[1], &words(&frame[2..10]), heading(number))
}
