//! Generators of numbers and points that find something: grid numbers, subnormals, sizes up to 2^20, slivers, nearly
//! collinear points, quarter and arbitrary turns, and numbers spoiled to be out of range.
use crate::ranges::{SIZE, TURN};
use crate::support::Random;

/// A float of one of the kinds that matter: any bits, specials, subnormals, tiny, grid numbers, ordinary sizes,
/// neighbours of powers of two, squares.
pub fn float(random: &mut Random) -> f32 {
    const SPECIAL: [u32; 14] = [
        0x0000_0000,
        0x8000_0000,
        0x7f80_0000,
        0xff80_0000,
        0x7fc0_0000,
        0xffc0_0001,
        0x0000_0001,
        0x807f_ffff,
        0x0080_0000,
        0x7f7f_ffff,
        0xff7f_ffff,
        0x3f80_0000,
        0x3400_0000,
        0x33ff_ffff,
    ];
    let any = random.next() as u32;
    let sign = any & 0x8000_0000;
    match random.below(9) {
        0 => f32::from_bits(any),
        1 => f32::from_bits(random.of(&SPECIAL)),
        2 => f32::from_bits(sign | (any & 0x007f_ffff)),
        3 => f32::from_bits(sign | ((0x3380_0000 + (any & 0x00ff_ffff)) & 0x7fff_ffff)),
        4 => grid(random, 1024),
        5 => f32::from_bits(sign | (0x3700_0000 + (any & 0x0fff_ffff))),
        6 => f32::from_bits(sign | ((any & 0x7f80_0000) + random.below(3) as u32).wrapping_sub(1) & 0x7fff_ffff),
        7 => {
            let root = f32::from_bits(0x2000_0000 + (any & 0x3f7f_ffff));
            root * root
        }
        _ => f32::from_bits(sign | (0x1f00_0000 + (any & 0x00ff_ffff))),
    }
}

/// Any word, for what a call only overwrites or keeps.
pub fn word(random: &mut Random) -> u32 {
    if random.once_in(3) {
        random.next() as u32
    } else {
        float(random).to_bits()
    }
}

pub fn words(random: &mut Random, n: usize) -> Vec<u32> {
    (0..n).map(|_| word(random)).collect()
}

pub fn bits(list: &[f32]) -> Vec<u32> {
    list.iter().map(|x| x.to_bits()).collect()
}

/// A whole multiple of 1/256, of either zero.
pub fn grid(random: &mut Random, steps: u64) -> f32 {
    let x = (random.below(2 * steps + 1) as f32 - steps as f32) / 256.0;
    if x == 0.0 && random.once_in(2) {
        -0.0
    } else {
        x
    }
}

/// The float so many steps after or before it, across 0 too.
pub fn step(x: f32, steps: i32) -> f32 {
    let turned = |key: i32| if key < 0 { i32::MIN.wrapping_sub(key) } else { key };
    f32::from_bits(turned(turned(x.to_bits() as i32) + steps) as u32)
}

/// From -1 to 1.
pub fn unit(random: &mut Random) -> f32 {
    random.below(1 << 24) as f32 / (1 << 23) as f32 - 1.0
}

/// A shape number in range.
pub fn number(random: &mut Random) -> f32 {
    match random.below(5) {
        0 => grid(random, 1024),
        1 => random.of(&[SIZE, -SIZE, 1048575.9375, 0.0, -0.0]),
        2 => f32::from_bits(random.next() as u32 & 0x807f_ffff),
        _ => loop {
            let x = float(random);
            if x.abs() <= SIZE {
                break x;
            }
        },
    }
}

/// A sine or cosine, or a coordinate of a normal, within the limit.
pub fn turn(random: &mut Random, limit: f32) -> u32 {
    let x = match random.below(4) {
        0 => random.of(&[0.0, 1.0, -1.0, -0.0]),
        1 => random.of(&[limit, -limit, 0.99999994, 1e-40]),
        _ => unit(random),
    };
    x.to_bits()
}

/// Points of one of the kinds that matter: grid lists wide and narrow, slivers, nearly collinear and huge ones,
/// subnormals, pairs at the weld limit, ordinary ones.
pub fn points(random: &mut Random, n: usize) -> Vec<f32> {
    let kind = random.below(11);
    let scale = random.of(&[1.0f32, 4.0, 1000.0, SIZE]);
    let (dx, dy) = (unit(random), unit(random));
    let mut list: Vec<f32> = Vec::new();
    for i in 0..n {
        let t = unit(random);
        let (x, y) = match kind {
            0 => (grid(random, 1024), grid(random, 1024)),
            1 => (grid(random, 2), grid(random, 2)),
            2 => (grid(random, 8), grid(random, 1)),
            3 => (t * scale, unit(random) * scale),
            4 => (t * dx * scale, t * dy * scale),
            5 => (t * dx * scale + unit(random) * scale * 1e-7, t * dy * scale + unit(random) * scale * 1e-7),
            6 => (t * scale, unit(random) * scale * 1e-6),
            7 => (t * 0.004, unit(random) * 0.004),
            8 => (f32::from_bits(random.next() as u32 & 0x807f_ffff), t),
            9 => round(i as f32 * 0.785 + t * 1e-3, scale),
            _ => (number(random), number(random)),
        };
        list.extend([x, y]);
    }
    if n > 1 && random.once_in(3) {
        // one point again, or just beside it
        let (from, to) = (random.below(n as u64) as usize, random.below(n as u64) as usize);
        list[2 * to] = list[2 * from] + random.of(&[0.0, 0.0024, 0.0025, 0.0026, 1e-7]);
        list[2 * to + 1] = list[2 * from + 1];
    }
    list
}

/// A point near the origin or on it, and a few that are far from it and to one side: a corner of their outline, and by
/// rounding it is out of a face now and then.
pub fn fan(random: &mut Random, near: f32) -> Vec<f32> {
    let size = random.of(&[4.0, 64.0, 1000.0, 131072.0]);
    let middle = unit(random) as f64 * 4.0;
    let mut list = vec![unit(random) * near, unit(random) * near];
    for _ in 0..2 + random.below(4) {
        let (s, c) = (middle + unit(random) as f64).sin_cos();
        let far = size * (0.6 + 0.4 * unit(random));
        list.extend([c as f32 * far, s as f32 * far]);
    }
    list
}

/// Somewhere on a curve; not by sine and cosine, which a test sets to its own.
fn round(angle: f32, scale: f32) -> (f32, f32) {
    let (x, y) = (scale * (1.0 - angle * angle / 2.0), scale * (angle - angle * angle * angle / 6.0));
    (x.clamp(-SIZE, SIZE), y.clamp(-SIZE, SIZE))
}

/// In one case of ten, a number (now and then more) put just beyond the limit, far beyond it, or to no number.
pub fn spoil(random: &mut Random, words: &mut [u32], limit: f32) {
    while random.once_in(10) && !words.is_empty() {
        let beyond = f32::from_bits(limit.to_bits() + 1);
        let any = float(random);
        let any = if any.abs() <= limit { -1e30 } else { any };
        let bad = random.of(&[beyond, -beyond, limit + 1.0, f32::NAN, f32::INFINITY, f32::NEG_INFINITY, any]);
        words[random.below(words.len() as u64) as usize] = bad.to_bits();
    }
}

/// Sine and cosine for a turned box.
pub fn box_turn(random: &mut Random) -> [u32; 2] {
    let mut turns = [turn(random, TURN), turn(random, TURN)];
    spoil(random, &mut turns, TURN);
    turns
}
