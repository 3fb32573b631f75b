//! Requests of entries 12 to 14, clips, world points and point states, and the refusals by count and range.
use crate::bodies::spoil_transform;
use crate::compare;
use crate::contacts::{self, old_manifold, MANIFOLD};
use crate::generators::{bits, float, number, spoil, turn, unit, word, words};
use crate::ranges::{self, first, within, CONTACT, LOCAL_NORMAL};
use crate::support::Random;

/// A number of a clip or a manifold, within 2^30.
fn contact_number(random: &mut Random) -> f32 {
    match random.below(4) {
        0 => random.of(&[CONTACT, -CONTACT, 0.0, -0.0, 1.0]),
        1 => loop {
            let x = float(random);
            if x.abs() <= CONTACT {
                break x;
            }
        },
        2 => unit(random) * random.of(&[1.0, 1e-30, 1e6]),
        _ => number(random),
    }
}

/// The line often goes through an end, or between the two.
pub fn clip(random: &mut Random) -> Vec<u32> {
    let mut request = vec![12];
    request.extend(words(random, 6));
    let size = random.of(&[1.0, 1.0, 4.0, 1e-20, 1e-38, 1e9]);
    let near = |random: &mut Random| if random.once_in(4) { contact_number(random) } else { unit(random) * size };
    let (v0, v1) = ([near(random), near(random)], [near(random), near(random)]);
    let normal = match random.below(4) {
        0 => random.of(&[[1.0, 0.0], [0.0, -1.0], [0.0, 0.0]]),
        1 => [contact_number(random), contact_number(random)],
        _ => [unit(random), unit(random)],
    };
    let dot = |v: [f32; 2]| normal[0] * v[0] + normal[1] * v[1];
    let offset = match random.below(6) {
        0 => dot(v0),
        1 => dot(v1),
        2 | 3 => dot(v0) + (dot(v1) - dot(v0)) * unit(random).abs(),
        4 => contact_number(random),
        _ => dot(v0) + unit(random) * 1e-30,
    };
    let mut input = bits(&[v0[0], v0[1]]);
    input.push(random.next() as u32);
    input.extend(bits(&v1));
    input.push(random.next() as u32);
    input.extend(bits(&[normal[0], normal[1], if offset.abs() <= CONTACT { offset } else { 0.0 }]));
    if random.once_in(3) {
        spoil(random, &mut input[..2], CONTACT);
        spoil(random, &mut input[3..5], CONTACT);
        spoil(random, &mut input[6..], CONTACT);
    }
    request.extend(input);
    request.push(if random.once_in(2) { random.below(8) as u32 } else { word(random) });
    request
}

pub fn clip_refusal(request: &[u32]) -> u32 {
    let given = &request[7..];
    first(&[(9, within(&given[..2], CONTACT) && within(&given[3..5], CONTACT) && within(&given[6..9], CONTACT))])
}

pub fn clip_kinds(request: &[u32], answer: &[u32]) -> Vec<&'static str> {
    let kept = ["0 ends", "1 end", "2 ends"][answer[1] as usize];
    let second = [answer[5], answer[6], answer[7]];
    // a cut carries the given index and the types vertex and face
    let id = second[2] & 0xffff == 1 && second[2] >> 24 == request[16] & 255;
    if id && answer[1] == 2 && second != request[10..13] {
        vec![kept, "cut"]
    } else {
        vec![kept]
    }
}

/// A manifold in range, of any kind and count.
fn manifold(random: &mut Random) -> Vec<u32> {
    let mut record = old_manifold(random);
    record[1] = random.below(3) as u32;
    record[2] = (unit(random) * random.of(&[1.0, 8.0])).to_bits();
    record[3] = turn(random, LOCAL_NORMAL);
    for i in [4, 5, 6, 7, 11, 12] {
        record[i] = contact_number(random).to_bits();
    }
    if random.once_in(8) {
        // both circles at one place, under the same placement
        let (x, y) = (record[4], record[5]);
        record[6..8].copy_from_slice(&[x, y]);
    }
    record
}

fn spoil_manifold(random: &mut Random, record: &mut [u32]) {
    spoil(random, &mut record[2..4], LOCAL_NORMAL);
    spoil(random, &mut record[4..6], CONTACT);
    spoil(random, &mut record[6..8], CONTACT);
    spoil(random, &mut record[11..13], CONTACT);
    if random.once_in(10) {
        record[1] = [3, 255, 256, 1 << 31, random.next() as u32][random.below(5) as usize];
    }
}

/// The manifold of a contact with the placements and radii that it was found under, or any.
pub fn world_points(random: &mut Random) -> Vec<u32> {
    let contact = contacts::any(random);
    let [a, xf_a, b, xf_b] = contacts::parts(&contact);
    let found = if contacts::refusal(&contact) == 0 { compare::accepted(&contact) } else { None };
    let mut manifold =
        if random.once_in(2) { manifold(random) } else { found.unwrap_or_else(|| old_manifold(random)) };
    let (mut xf_a, mut xf_b, mut radii) = (xf_a.to_vec(), xf_b.to_vec(), [a[0], b[0]]);
    if random.once_in(8) {
        xf_b = xf_a.clone();
    }
    if random.once_in(3) {
        spoil_manifold(random, &mut manifold);
        spoil_transform(random, &mut xf_a);
        spoil_transform(random, &mut xf_b);
        spoil(random, &mut radii, ranges::SIZE);
        if random.once_in(30) {
            radii[0] |= 1 << 31;
        }
    }
    let mut request = vec![13];
    request.extend(words(random, 8));
    request.extend(manifold);
    request.extend(xf_a);
    request.push(radii[0]);
    request.extend(xf_b);
    request.push(radii[1]);
    request
}

/// 7, then zero points, then 9, 6.
pub fn world_refusal(request: &[u32]) -> u32 {
    let (m, rest) = request[9..].split_at(MANIFOLD);
    let points = (0..m[1].min(2) as usize).all(|i| within(&m[6 + 5 * i..8 + 5 * i], CONTACT));
    let numbers = within(&m[2..4], LOCAL_NORMAL) && within(&m[4..6], CONTACT) && points;
    let none = m[1] == 0;
    first(&[
        (7, m[1] <= 2),
        (9, none || numbers && ranges::radius(rest[4]) && ranges::radius(rest[9])),
        (6, none || ranges::transform(&rest[..4]) && ranges::transform(&rest[5..9])),
    ])
}

pub fn world_kinds(request: &[u32], answer: &[u32]) -> Vec<&'static str> {
    let (kind, count) = (request[9] as usize, request[10] as usize);
    let points = ["0 points", "1 point", "2 points"][count];
    match (count, kind) {
        (0, _) => vec![points],
        (_, 0) if answer[1..3] == [0x3f80_0000, 0] => vec![points, "circles", "circles along x"],
        _ => vec![points, ["circles", "face A", "face B"][kind]],
    }
}

/// Ids of few values, so that some stay.
pub fn point_states(random: &mut Random) -> Vec<u32> {
    let mut request = vec![14];
    request.extend((0..4).map(|_| random.below(4) as u32));
    for _ in 0..2 {
        let mut record = old_manifold(random);
        record[1] = random.below(3) as u32;
        for i in [10, 15] {
            record[i] = random.of(&[0, 1, 1 << 8, 1 << 16, 1 << 24, 0x0102_0001]);
        }
        if random.once_in(20) {
            record[1] = [3, 255, 256, 1 << 31][random.below(4) as usize];
        }
        request.extend(record);
    }
    request
}

pub fn states_refusal(request: &[u32]) -> u32 {
    first(&[(7, request[6] <= 2 && request[22] <= 2)])
}

pub fn states_kinds(_: &[u32], answer: &[u32]) -> Vec<&'static str> {
    answer[1..].iter().map(|state| ["null", "add", "persist", "remove"][*state as usize]).collect()
}
