//! Requests of entries 1 to 6, outlines, boxes, validate and walls, and the refusals by range or count. Old records
//! are full of random bits.
use crate::compare;
use crate::generators::{bits, box_turn, number, points, spoil, turn, word, words};
use crate::ranges::{self, first, within, EDGE, NORMAL, POLYGON, SIZE, TURN};
use crate::support::Random;

/// The entry's number, an old record with a word at `plain` below `limit`, and what the call is given.
fn request(entry: u32, mut old: Vec<u32>, given: &[u32]) -> Vec<u32> {
    old.insert(0, entry);
    old.extend(given);
    old
}

fn old_wall(random: &mut Random) -> Vec<u32> {
    let mut record = words(random, EDGE);
    record[1] = random.below(2) as u32;
    record
}

/// Shape numbers for a call, some out of range.
fn sizes(random: &mut Random, n: usize) -> Vec<u32> {
    let mut list: Vec<u32> = (0..n).map(|_| number(random).to_bits()).collect();
    spoil(random, &mut list, SIZE);
    list
}

fn outline_of(random: &mut Random, n: usize) -> Vec<u32> {
    let mut list = bits(&points(random, n));
    spoil(random, &mut list, SIZE);
    list.insert(0, n as u32);
    request(1, words(random, POLYGON), &list)
}

/// Mostly 3 to 8 points.
pub fn set(random: &mut Random) -> Vec<u32> {
    let n = if random.once_in(20) { random.below(12) } else { 3 + random.below(6) };
    outline_of(random, n as usize)
}

/// 0 to 12 points, every number as often.
pub fn set_any_count(random: &mut Random) -> Vec<u32> {
    let n = random.below(13) as usize;
    outline_of(random, n)
}

/// A wrong number of points is the references' to refuse.
pub fn set_refusal(request: &[u32]) -> u32 {
    first(&[(2, !(3..=8).contains(&request[37]) || within(&request[38..], SIZE))])
}

pub fn set_as_box(random: &mut Random) -> Vec<u32> {
    let given = sizes(random, 2);
    request(2, words(random, POLYGON), &given)
}

pub fn set_as_box_angle(random: &mut Random) -> Vec<u32> {
    let mut given = sizes(random, 4);
    given.extend(box_turn(random));
    request(3, words(random, POLYGON), &given)
}

pub fn box_refusal(request: &[u32]) -> u32 {
    let (sizes, turns) = request[37..].split_at((request.len() - 37).min(4));
    first(&[(2, within(sizes, SIZE)), (6, within(turns, TURN))])
}

/// An outline: mostly one that a reference builds, which mostly is convex; past the count, any bits. None of its
/// numbers is out of range, but the centroid of a built one may be.
pub fn outline(random: &mut Random) -> Vec<u32> {
    let built = if random.below(3) > 0 { build(random) } else { None };
    let mut record = built.unwrap_or_else(|| {
        let radius = number(random).abs();
        let mut record = bits(&[radius, number(random), number(random)]);
        record.push(random.below(9) as u32);
        record.extend(bits(&points(random, 8)));
        record.extend((0..16).map(|_| turn(random, NORMAL)));
        record
    });
    let kept = 2 * record[3] as usize;
    (4 + kept..20).chain(20 + kept..36).for_each(|i| record[i] = word(random));
    record
}

/// An outline that a reference builds.
pub fn build(random: &mut Random) -> Option<Vec<u32>> {
    let mut old = vec![0u32; POLYGON];
    old[0] = 0x3c23_d70a; // the skin
    let n = 3 + random.below(6) as usize;
    let mut given = vec![n as u32];
    given.extend(bits(&points(random, n)));
    compare::accepted(&request(1, old, &given))
}

/// Some of an outline's numbers put out of range, its radius made negative, its count put to anything.
pub fn spoil_outline(random: &mut Random, record: &mut [u32]) {
    let kept = 2 * record[3].min(8) as usize;
    spoil(random, &mut record[..3], SIZE);
    spoil(random, &mut record[4..4 + kept], SIZE);
    spoil(random, &mut record[20..20 + kept], NORMAL);
    if random.once_in(60) {
        record[0] |= 1 << 31;
    }
    if random.once_in(30) {
        record[3] = [9, 255, 1 << 31, random.next() as u32][random.below(4) as usize];
    }
}

pub fn validate(random: &mut Random) -> Vec<u32> {
    let mut record = outline(random);
    spoil_outline(random, &mut record);
    request(4, record, &[])
}

pub fn validate_refusal(request: &[u32]) -> u32 {
    first(&[(7, request[4] <= 8), (2, ranges::polygon(&request[1..]))])
}

pub fn set_one_sided(random: &mut Random) -> Vec<u32> {
    let given = sizes(random, 8);
    request(5, old_wall(random), &given)
}

pub fn set_two_sided(random: &mut Random) -> Vec<u32> {
    let given = sizes(random, 4);
    request(6, old_wall(random), &given)
}

pub fn wall_refusal(request: &[u32]) -> u32 {
    first(&[(2, within(&request[11..], SIZE))])
}
