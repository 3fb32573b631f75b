//! Requests that are no request, under every entry's number and others, and outputs that are too short: 0 words, and
//! nothing written.
use crate::measured_run;
use crate::row::Row;
use crate::support::{calls_bytes, measured_calls_bytes, to_bytes, to_words, Random, Tally};
use crate::table::{HEADING, TABLE};

const SPOILS: [&str; 10] = [
    "whole",
    "too short an output",
    "a word too many",
    "a word too few",
    "a byte too many",
    "a byte too few",
    "cut short",
    "unknown number",
    "a word that its type cannot hold",
    "n that does not fit the length",
];

/// An export: its rows, and how a request of them can be spoiled.
struct Door {
    name: &'static str,
    call: fn(&[u8], &mut [u8]) -> u32,
    rows: Vec<&'static Row>,
    spoils: &'static [&'static str],
}

/// `calls`: every row, the one that no reference has among them.
fn calls_door() -> Door {
    let rows = TABLE.iter().chain([&HEADING]).collect();
    Door { name: "malformed requests and short outputs", call: calls_bytes, rows, spoils: &SPOILS }
}

/// `measured_calls`: no word that its type cannot hold, and no n.
fn measured_door() -> Door {
    let rows = measured_run::ROWS.iter().collect();
    Door { name: "malformed requests of measured bodies", call: measured_calls_bytes, rows, spoils: &SPOILS[..8] }
}

impl Door {
    /// The first row of a number.
    fn row_of(&self, entry: u32) -> Option<&'static Row> {
        self.rows.iter().find(|row| row.entry == entry).copied()
    }

    /// The numbers of a byte that are no row's, gaps among them, and the largest.
    fn unknown(&self) -> Vec<u32> {
        (0..256).chain([u32::MAX]).filter(|number| self.row_of(*number).is_none()).collect()
    }

    /// The words of the answer to these bytes, where they are a request.
    fn answer_words(&self, bytes: &[u8]) -> Option<usize> {
        let words = to_words(bytes);
        let row = self.row_of(*words.first()?)?;
        let points = if row.entry == 1 { 2 * u64::from(*words.get(37)?) } else { 0 };
        let fits = bytes.len() as u64 == 4 * (row.length as u64 + points);
        let held = row.closed.iter().all(|(place, largest)| words.get(*place).map_or(false, |w| w <= largest));
        (fits && held).then_some(1 + row.record)
    }
}

/// A word above `largest`, often one that a byte or a flag's lowest bit would take for another.
fn above(random: &mut Random, largest: u32) -> u32 {
    let word =
        [largest + 1, 255, 256, 257, 1 << 24, 1 << 31, u32::MAX, random.next() as u32][random.below(8) as usize];
    if word > largest {
        word
    } else {
        largest + 1
    }
}

/// A request of the row, spoiled in the way named; `None` where it cannot be spoiled so.
fn spoiled(door: &Door, row: &Row, spoil: usize, random: &mut Random) -> Option<Vec<u8>> {
    let mut words = (row.generate)(random);
    match spoil {
        2 => words.push(random.next() as u32),
        3 => drop(words.pop()),
        7 => {
            let entry = words[0];
            let none = random.of(&door.unknown());
            let others = [0, 19, none, entry << 24, entry | 1 << 8, entry | 1 << 31, random.next() as u32 | 32];
            words[0] = random.of(&others);
        }
        8 => {
            let (place, largest) = row.closed.get(random.below(row.closed.len().max(1) as u64) as usize)?;
            words[*place] = above(random, *largest);
        }
        9 if row.entry == 1 => {
            let n = words[37];
            // the last three times eight is a number of bytes that wraps round to the right one
            let other = [n + 1, n.wrapping_sub(1), 2 * n + 1, n + (1 << 29), n + (1 << 30), n + (1 << 31)];
            words[37] = random.of(&other);
        }
        9 => return None,
        _ => {}
    }
    let mut bytes = to_bytes(&words);
    match spoil {
        4 => (0..1 + random.below(3)).for_each(|_| bytes.push(random.next() as u8)),
        5 => bytes.truncate(bytes.len() - 1 - random.below(3) as usize),
        6 => bytes.truncate(random.below(bytes.len() as u64) as usize),
        _ => {}
    }
    Some(bytes)
}

fn one(door: &Door, tally: &mut Tally, input: &[u8], room: usize, random: &mut Random) -> bool {
    let mut out: Vec<u8> = (0..room).map(|_| random.next() as u8).collect();
    let before = out.clone();
    let count = (door.call)(input, &mut out) as usize;
    let words = door.answer_words(input).filter(|words| room >= 4 * words).unwrap_or(0);
    let right = count == words && out[4 * words..] == before[4 * words..];
    tally.case(right, || {
        format!("{input:02x?} with room for {room} bytes: {count} words, not {words}, or more written than they")
    });
    words > 0
}

/// A request of each row cut or lengthened to every number of words up to eight more; with an output of every number of
/// bytes up to eight more; and under every unknown number. A request of each row of the other door.
fn each_in_turn(door: &Door, other: &Door, tally: &mut Tally, random: &mut Random) {
    for row in &door.rows {
        let whole = (row.generate)(random);
        for length in 0..=(whole.len() + 8).max(20) {
            let mut words = whole.clone();
            words.resize_with(length, || random.next() as u32);
            let answered = one(door, tally, &to_bytes(&words), 256, random);
            if length != whole.len() && !answered {
                tally.met("every other length turned down");
            }
        }
        let need = 4 * (1 + row.record);
        for room in 0..=need + 8 {
            let answered = one(door, tally, &to_bytes(&whole), room, random);
            tally.met(if answered { "every output with room answered" } else { "every shorter output turned down" });
        }
        for number in door.unknown() {
            let mut words = whole.clone();
            words[0] = number;
            one(door, tally, &to_bytes(&words), 256, random);
            tally.met("every unknown number turned down");
        }
    }
    for row in &other.rows {
        if !one(door, tally, &to_bytes(&(row.generate)(random)), 256, random) {
            tally.met("every row of the other door turned down");
        }
    }
}

/// Both doors, by themselves.
pub fn run(cases: u64, seed: u64) -> Vec<bool> {
    let (door, other) = (calls_door(), measured_door());
    vec![run_door(&door, &other, cases, seed), run_door(&other, &door, cases, seed)]
}

/// Each length, output and number in turn, every row and every spoil, then any bytes at all.
fn run_door(door: &Door, other: &Door, cases: u64, seed: u64) -> bool {
    let mut random = Random::new(seed);
    let mut tally = Tally::new(door.name);
    let in_turn = [
        "every other length turned down",
        "every output with room answered",
        "every shorter output turned down",
        "every unknown number turned down",
        "every row of the other door turned down",
    ];
    let mut wanted: Vec<String> = in_turn.map(|what| what.to_string()).to_vec();
    each_in_turn(door, other, &mut tally, &mut random);
    for spoil in 0..door.spoils.len() {
        for row in &door.rows {
            let ours = door.row_of(row.entry).is_some();
            for _ in 0..1 + cases / (2 * (door.spoils.len() * door.rows.len()) as u64) {
                let input = match spoiled(door, row, spoil, &mut random) {
                    Some(input) => input,
                    None => break,
                };
                let need = 4 * (1 + row.record);
                let room = match spoil {
                    0 => need + random.below(9) as usize,
                    1 => [0, 1, 4, need - 4, need - 1][random.below(5) as usize],
                    _ => 256,
                };
                let answered = one(door, &mut tally, &input, room, &mut random);
                tally.met(&format!("{} {}", SPOILS[spoil], if answered { "answered" } else { "turned down" }));
                if spoil == 0 && ours != answered || spoil > 0 && answered {
                    tally.case(false, || {
                        format!("entry {}, {}: this harness spoils wrongly", row.entry, SPOILS[spoil])
                    });
                }
            }
        }
        wanted.push(format!("{} {}", SPOILS[spoil], if spoil == 0 { "answered" } else { "turned down" }));
    }
    while tally.cases < cases {
        let mut input: Vec<u8> = (0..random.below(180)).map(|_| random.next() as u8).collect();
        let entry = (random.below(24) as u32).to_be_bytes();
        input.iter_mut().zip(entry).for_each(|(byte, given)| *byte = given);
        let room = random.below(200) as usize;
        one(door, &mut tally, &input, room, &mut random);
        tally.met("any bytes");
    }
    tally.report(&wanted)
}

/// Malformed requests in whole words, for tests/stored.
pub fn stored(cases: u64, random: &mut Random) -> Vec<Vec<u32>> {
    let door = calls_door();
    let mut list = Vec::new();
    while list.len() < cases as usize {
        let row = door.rows[list.len() % door.rows.len()];
        let spoil = random.of(&[2, 3, 7, 8, 9]);
        if let Some(input) = spoiled(&door, row, spoil, random).filter(|input| input.len() >= 4) {
            assert!(door.answer_words(&input).is_none());
            list.push(to_words(&input));
        }
    }
    list
}
