//! What a call keeps, it keeps bit for bit, a NaN's payload too: of that the contracts cannot speak, since the logic
//! has one NaN. Records full of NaNs with random payloads, quiet and signalling, go through every call that hands a
//! record back. Which fields are kept is asked of the entries on words, with two old records of plain numbers; all
//! other fields must be theirs.
use crate::row::Row;
use crate::support::{calls, Random, Tally};
use crate::{contacts, lent_slice, manifolds, records};

/// A call on records and the entry that it is.
struct Call {
    entry: u32,
    generate: fn(&mut Random) -> Vec<u32>,
    ours: fn(&[u32]) -> Vec<u32>,
}

const fn call(entry: u32, generate: fn(&mut Random) -> Vec<u32>, ours: fn(&[u32]) -> Vec<u32>) -> Call {
    Call { entry, generate, ours }
}

const CALLS: [Call; 12] = [
    call(1, crate::shapes::set, lent_slice::answer),
    call(2, crate::shapes::set_as_box, records::a_box),
    call(3, crate::shapes::set_as_box_angle, records::a_box),
    call(5, crate::shapes::set_one_sided, records::wall),
    call(6, crate::shapes::set_two_sided, records::wall),
    call(7, contacts::circles, records::contact),
    call(8, contacts::outline_and_circle, records::contact),
    call(9, contacts::outlines, records::contact),
    call(10, contacts::wall_and_circle, records::contact),
    call(11, contacts::wall_and_outline, records::contact),
    call(12, |random| records::clip_request(manifolds::clip(random)), records::clip),
    call(13, manifolds::world_points, records::world_points),
];

/// A NaN of any sign and payload.
fn nan(random: &mut Random) -> u32 {
    let payload = 1 + random.below((1 << 23) - 1) as u32;
    0x7f80_0000 | payload | (random.below(2) as u32) << 31
}

/// A clip's record has its count first, and is handed in without it.
fn shift(entry: u32) -> usize {
    (entry == 12) as usize
}

/// The request with other floats in the record that it hands in.
fn with_old(request: &[u32], row: &Row, mut new: impl FnMut() -> u32) -> Vec<u32> {
    let mut changed = request.to_vec();
    for place in (shift(row.entry)..row.record).filter(|place| !row.plain.contains(place)) {
        changed[1 + place - shift(row.entry)] = new();
    }
    changed
}

pub fn run(table: &[Row], cases: u64, seed: u64) -> bool {
    let mut tally = Tally::new("kept bits, NaNs with any payload");
    let mut random = Random::new(seed);
    let mut wanted = Vec::new();
    for call in &CALLS {
        let row = table.iter().find(|row| row.entry == call.entry).expect("a row of the entry");
        for said in ["accepted", "refused"] {
            wanted.push(format!("{} {said}", row.name));
        }
        for _ in 0..cases {
            let request = (call.generate)(&mut random);
            // two old records of numbers that no call answers by itself
            let mut number = || 0x4000_0000 + (random.next() as u32 >> 8);
            let (one, two) = (with_old(&request, row, &mut number), with_old(&request, row, &mut number));
            let given = with_old(&request, row, || nan(&mut random));
            let (of_one, of_two, ours) = (calls(&one), calls(&two), (call.ours)(&given));
            let old = |request: &[u32], place: usize| request[1 + place - shift(row.entry)];
            let mut kept = 0;
            let mut right = ours.len() == 1 + row.record && ours[0] == of_one[0] && ours[0] == of_two[0];
            for place in 0..if right { row.record } else { 0 } {
                let is_float = !row.plain.contains(&place) && place >= shift(row.entry);
                let keeps =
                    is_float && of_one[1 + place] == old(&one, place) && of_two[1 + place] == old(&two, place);
                kept += keeps as u32;
                right &= ours[1 + place] == if keeps { old(&given, place) } else { of_one[1 + place] };
            }
            tally.case(right, || format!("{}: {given:08x?} gives {ours:08x?}; {of_one:08x?}", row.name));
            if kept > 0 {
                tally.met(&format!("{} {}", row.name, if of_one[0] == 0 { "accepted" } else { "refused" }));
            }
        }
    }
    tally.report(&wanted)
}
