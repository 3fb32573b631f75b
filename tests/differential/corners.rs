//! Pairs of entry 8 at request 07's rule: circles on a corner of an outline, exactly or a few last digits off it. To be
//! out of a face there takes an outline whose numbers are rounded, or normals that belong to no outline.
use crate::bodies::{built, radius, rotation};
use crate::generators::{bits, fan, step, turn, unit, word};
use crate::ranges::NORMAL;
use crate::short_corner;
use crate::support::Random;

const SKIN: f32 = 0.01;
/// The rule's length, and steps of an outline whose corners are as near to each other.
const RULE: f32 = f32::EPSILON;
const TINY: f32 = RULE / 8.0;

/// Mostly one that ends at a corner, with a length below or just above the rule's; or at the first of a face, below it.
pub fn outline_and_circle(random: &mut Random) -> [Vec<u32>; 4] {
    let (first, mut parts) = (random.once_in(3), on_corner(random));
    for _ in 0..30 {
        let corner = short_corner::of_parts([&parts[0], &parts[1], &parts[2], &parts[3]]);
        let fits = |length: f32, second: bool| if first { !second && length < RULE } else { length < 4.0 * RULE };
        if corner.map_or(false, |corner| fits(corner.length, corner.second)) {
            break;
        }
        parts = on_corner(random);
    }
    parts
}

fn on_corner(random: &mut Random) -> [Vec<u32>; 4] {
    let (outline, size) = match random.below(4) {
        0 => {
            let near = random.of(&[0.0, 0.25, 1.0, 4.0]);
            (built_fan(random, near), 0.5)
        }
        1 => (stretched(random), 0.5),
        2 => {
            let scale = random.of(&[0.25, 1.0, 4.0, 100.0]);
            (with_any_normals(random, |random| unit(random) * scale), 8.0 * scale)
        }
        _ => (with_any_normals(random, |random| steps(random, 8)), 0.5),
    };
    let corners: Vec<[f32; 2]> = outline[4..20].chunks(2).map(|p| [p[0], p[1]].map(f32::from_bits)).collect();
    let inner = |p: &[f32; 2]| p.iter().all(|x| x.abs() <= 4.0);
    let n = outline[3] as usize;
    let near = corners[..n].iter().find(|p| inner(p) && random.once_in(2)).copied();
    let mut near = near.unwrap_or(random.of(&corners[..n]));
    // off it by last digits, by less than the rule's length or a little more, or by just that
    match random.below(4) {
        0 => {}
        1 => near = near.map(|x| step(x, random.of(&[0, 0, 1, -1, 2, -3]))),
        2 => near[random.below(2) as usize] += random.of(&[RULE, -RULE]),
        _ => near = near.map(|x| x + steps(random, 8)),
    }
    let position = if random.once_in(2) { [0.0, 0.0] } else { [unit(random), unit(random)] };
    let [s, c] = if random.once_in(2) { [0.0, 1.0] } else { rotation(random) };
    let world = [(c * near[0] - s * near[1]) + position[0], (s * near[0] + c * near[1]) + position[1]];
    let xf_a = bits(&[position[0], position[1], s, c]);
    let [other_s, other_c] = rotation(random);
    let (centre, xf_b) = match random.below(3) {
        0 => (near, xf_a.clone()),
        1 => (world, bits(&[0.0, 0.0, 0.0, 1.0])),
        _ => ([0.0, -0.0], bits(&[world[0], world[1], other_s, other_c])),
    };
    [outline, xf_a, bits(&[size, centre[0], centre[1]]), xf_b]
}

/// So many tiny steps, of either sign.
fn steps(random: &mut Random, most: u64) -> f32 {
    (random.below(2 * most + 1) as f32 - most as f32) * TINY
}

/// An outline that a reference builds, with a corner near the origin.
fn built_fan(random: &mut Random, near: f32) -> Vec<u32> {
    let list = fan(random, near);
    built(random, 1.0, &list)
}

/// The same with normals longer than they are, and a corner on the origin.
fn stretched(random: &mut Random) -> Vec<u32> {
    let (mut record, by) = (built_fan(random, 0.0), random.of(&[1.25, 1.5, 2.0]));
    record[20..].iter_mut().for_each(|word| *word = (f32::from_bits(*word) * by).to_bits());
    record
}

/// An outline with corners of a size and normals that belong to none. Past its count, any bits.
fn with_any_normals(random: &mut Random, number: impl Fn(&mut Random) -> f32) -> Vec<u32> {
    let n = 3 + random.below(6);
    let mut record = bits(&[radius(random, SKIN), unit(random), unit(random)]);
    record.push(n as u32);
    record.extend((0..16).map(|i| if i < 2 * n { number(random).to_bits() } else { word(random) }));
    record.extend((0..16).map(|i| if i < 2 * n { turn(random, NORMAL) } else { word(random) }));
    record
}
