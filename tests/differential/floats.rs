//! Requests of entries 15, 16 and 18: the root of a float, a vector made unit, and the root with its step.
use crate::generators::{float, unit};
use crate::support::Random;

pub const KINDS: [&str; 7] = ["NaN", "infinity", "-0", "+0", "subnormal", "below 0", "normal"];

pub fn kind(word: u32) -> &'static str {
    let x = f32::from_bits(word);
    if x.is_nan() {
        KINDS[0]
    } else if x.is_infinite() {
        KINDS[1]
    } else if x == 0.0 {
        if x.is_sign_negative() {
            KINDS[2]
        } else {
            KINDS[3]
        }
    } else if x.is_subnormal() {
        KINDS[4]
    } else if x < 0.0 {
        KINDS[5]
    } else {
        KINDS[6]
    }
}

pub fn root(random: &mut Random) -> Vec<u32> {
    vec![15, float(random).to_bits()]
}

pub fn normalize(random: &mut Random) -> Vec<u32> {
    let (x, y) = (float(random), float(random));
    let [x, y] = if random.once_in(8) { short(random) } else { [x, if random.once_in(4) { x } else { y }] };
    vec![16, x.to_bits(), y.to_bits()]
}

/// A vector whose length is about 2^-23, often just it.
fn short(random: &mut Random) -> [f32; 2] {
    let least = f32::EPSILON;
    let along = f32::from_bits(least.to_bits() + 2 - random.below(5) as u32);
    let (s, c) = (unit(random) as f64 * 4.0).sin_cos();
    match random.below(4) {
        0 => [along, random.of(&[0.0, -0.0, 1e-12, -1e-30])],
        1 => [random.of(&[0.0, -0.0, 1e-12, -1e-30]), -along],
        _ => [c as f32 * least, s as f32 * along],
    }
}

pub fn normalize_kinds(request: &[u32], answer: &[u32]) -> Vec<&'static str> {
    let (length, had) = (f32::from_bits(answer[1]), answer[4] == 1);
    // without a length the answer's is 0
    let square: f32 = request[1..].iter().map(|word| f32::from_bits(*word) * f32::from_bits(*word)).sum();
    let kinds = [
        ("kept as it was", length == 0.0),
        ("made unit", length != 0.0),
        ("had a length", had),
        ("had none", !had),
        ("length of just 2^-23", length == f32::EPSILON),
        ("length just below it", length == 0.0 && square.sqrt() > 0.99 * f32::EPSILON),
        ("length that is no number", length.is_nan()),
        ("length of infinity", length.is_infinite()),
    ];
    let met = kinds.iter().filter(|(_, met)| *met).map(|(kind, _)| *kind);
    met.chain([kind(request[1])]).collect()
}

/// What a run has to meet of it.
pub const NORMALIZE_WANTED: [&str; 15] = [
    "NaN",
    "infinity",
    "-0",
    "+0",
    "subnormal",
    "below 0",
    "normal",
    "kept as it was",
    "made unit",
    "had a length",
    "had none",
    "length of just 2^-23",
    "length just below it",
    "length that is no number",
    "length of infinity",
];

/// A square of few digits in one of four, so that many roots are exact.
pub fn root_step(random: &mut Random) -> Vec<u32> {
    let x = float(random);
    let few = f32::from_bits(x.to_bits() & 0xffff_f000);
    vec![18, if random.once_in(4) { few * few } else { x }.to_bits()]
}
