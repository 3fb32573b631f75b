//! Entries 20 and 21 beside the second program: refusal, verdict and pairs, the bodies swapped, and the export. Of some
//! circles the pairs, or any choice inside, are asked of entry 7 and of the references too: floats are exact there.
use crate::compare::{self, REFERENCES};
use crate::measured::{limits, touch_each_other, Measured, EITHER, OUT_OF_LIMITS, TOUCHING};
use crate::measured_export;
use crate::measured_ranges::{each_in_turn, good, spoil};
use crate::row::Row;
use crate::support::{calls, measured_calls, Random, Tally};
use crate::table::{CIRCLES, HEADING};

pub const ROWS: [Row; 2] = [
    Row {
        name: "measured circles",
        entry: 20,
        stored: "measured",
        generate: |random| drawn(random, 3).request(20),
        reachable: &[0, OUT_OF_LIMITS],
        length: 1 + 12,
        record: 1 + 12,
        ours: measured_calls,
        ..HEADING
    },
    Row {
        name: "measured boxes",
        entry: 21,
        stored: "measured",
        generate: |random| drawn(random, 4).request(21),
        reachable: &[0, OUT_OF_LIMITS],
        length: 1 + 16,
        record: 1 + 16,
        ours: measured_calls,
        ..HEADING
    },
];

fn drawn(random: &mut Random, numbers: usize) -> Measured {
    let mut measured = good(random, numbers);
    if random.once_in(8) {
        spoil(random, &mut measured);
    }
    measured
}

const VERDICTS: [&str; 4] = ["none", "surely touching", "surely apart", "either"];
/// Choices that are all tried, and how they are counted.
const MOST: u64 = 2000;
const TRIED: [&str; 3] = ["every choice tried", "every choice by halves tried", "every choice by thirds tried"];
const NOT_TRIED: &str = "by the extremes alone";
/// How often circles are asked of entry 7.
const CONTACTS: u64 = 16;

/// The refusal and the verdict, and how it was found; `None` where the second program is of two minds.
pub fn expected(measured: &Measured) -> Option<(u32, u32, Vec<&'static str>)> {
    if measured.refusal() > 0 {
        return Some((measured.refusal(), 0, Vec::new()));
    }
    let verdict = measured.by_extremes();
    let mut ways = Vec::new();
    for parts in 1..=3 {
        if (1..=MOST).contains(&measured.choices(parts)) {
            ways.push(TRIED[parts as usize - 1]);
            if measured.by_trying(parts) != verdict {
                return None;
            }
        }
    }
    if ways.is_empty() {
        ways.push(NOT_TRIED);
    }
    Some((0, verdict, ways))
}

/// Two circles as a request of entry 7: each unturned at the origin, or with its centre there and placed.
fn contact(pair: &[i64], random: &mut Random) -> Vec<u32> {
    let mut words = [vec![7], vec![0; 16]].concat();
    for circle in pair.chunks(3) {
        let [x, y, radius] = [0, 1, 2].map(|i| (circle[i] as f32 / 256.0).to_bits());
        let one = 1f32.to_bits();
        words.extend(if random.once_in(2) { [radius, x, y, 0, 0, 0, one] } else { [radius, 0, 0, x, y, 0, one] });
    }
    words
}

/// Whether entry 7 and the references all report a point where circles touch, and none where they do not.
fn reported(pair: &[i64], random: &mut Random, tally: &mut Tally) -> bool {
    let (request, points) = (contact(pair, random), touch_each_other(pair) as u32);
    let ours = calls(&request);
    let right = ours[0] == 0 && ours[2] == points;
    tally.met(&by_entry_7(points));
    if REFERENCES == 0 {
        return right;
    }
    let (answer, agree, _) = compare::expected(&CIRCLES, &request);
    right && agree && answer.refusals == [0] && answer.record[1] == points
}

fn by_entry_7(points: u32) -> String {
    let others = ["alone", "and one reference", "and both references"][REFERENCES];
    format!("{} by entry 7 {others}", ["no point", "a point"][points as usize])
}

/// The two pairs of an either; else any choice inside.
fn to_report(measured: &Measured, ours: &[u32], random: &mut Random) -> Vec<Vec<i64>> {
    let signed = |words: &[u32]| words.iter().map(|word| i64::from(*word as i32)).collect::<Vec<i64>>();
    if ours[1] == EITHER {
        return ours[2..].chunks(6).map(signed).collect();
    }
    let spans = measured.a.iter().chain(&measured.b);
    vec![spans.map(|[low, high]| low + random.below((high - low + 1) as u64) as i64).collect()]
}

/// What is wrong with our answer.
fn faults(row: &Row, measured: &Measured, tally: &mut Tally, random: &mut Random) -> Vec<&'static str> {
    let request = measured.request(row.entry);
    let ours = measured_calls(&request);
    if ours.len() != 1 + row.record {
        return vec!["the number of words"];
    }
    let Some((refusal, verdict, ways)) = expected(measured) else { return vec!["the second program"] };
    let swapped = measured_calls(&measured.swapped().request(row.entry));
    let mut list = vec![
        ("the refusal", ours[0] == refusal),
        ("the verdict", ours[1] == verdict),
        ("the pairs", measured.pairs_are_right(verdict, &ours[2..])),
        ("the bodies swapped", swapped.get(..2) == Some(&ours[..2])),
        ("the export", measured_export::answer(&request) == ours),
    ];
    ways.iter().for_each(|way| tally.met(way));
    if refusal > 0 {
        tally.met("refusal 17");
        refused_kinds(measured).iter().for_each(|kind| tally.met(kind));
    } else {
        tally.met("accepted");
        tally.met(VERDICTS[verdict as usize]);
        for (which, edge) in ["nearest", "farthest"].iter().zip(measured.edges()) {
            edge.map(|edge| tally.met(&format!("{which} {edge}")));
        }
        if measured.choices(1) == 1 {
            tally.met("without tolerance");
        }
        if row.entry == 20 && tally.cases % CONTACTS == 0 && list.iter().all(|(_, right)| *right) {
            for pair in to_report(measured, &ours, random) {
                let of_verdict = verdict == EITHER || touch_each_other(&pair) == (verdict == TOUCHING);
                list.push(("a contact", of_verdict && reported(&pair, random, tally)));
            }
        }
    }
    list.iter().filter(|(_, right)| !right).map(|(what, _)| *what).collect()
}

/// Whose numbers are out of the limits, and how far.
fn refused_kinds(measured: &Measured) -> Vec<&'static str> {
    let out = |body: &Vec<[i64; 2]>| Measured { a: body.clone(), b: body.clone() }.refusal() > 0;
    let spans = || measured.a.iter().chain(&measured.b).enumerate();
    let beyond = |i: usize, n: i64| {
        let limits = limits(i % measured.a.len());
        (limits.start() - n).max(n - limits.end())
    };
    let some = |test: fn(i64) -> bool| spans().any(|(i, span)| span.iter().any(|n| test(beyond(i, *n))));
    let kinds = [
        ("17 by A alone", out(&measured.a) && !out(&measured.b)),
        ("17 by B alone", !out(&measured.a) && out(&measured.b)),
        ("17 by both", out(&measured.a) && out(&measured.b)),
        ("beyond by one", some(|by| by == 1)),
        ("far beyond", some(|by| by > 1 << 16)),
        ("lowest one above highest", spans().any(|(_, [low, high])| *low == high + 1)),
    ];
    kinds.iter().filter(|(_, met)| *met).map(|(kind, _)| *kind).collect()
}

pub fn run(row: &Row, cases: u64, seed: u64) -> bool {
    let mut random = Random::new(seed);
    let mut tally = Tally::new(row.name);
    let numbers = (row.length - 1) / 4;
    let mut in_turn = each_in_turn(&good(&mut random, numbers));
    while tally.cases < cases {
        if random.once_in(1500) {
            in_turn.extend(each_in_turn(&good(&mut random, numbers)));
        }
        let measured = in_turn.pop().unwrap_or_else(|| drawn(&mut random, numbers));
        let wrong = faults(row, &measured, &mut tally, &mut random);
        tally.case(wrong.is_empty(), || format!("{measured:?}: {wrong:?}; {:?}", expected(&measured)));
    }
    let mut wanted: Vec<String> = WANTED.iter().map(|what| what.to_string()).collect();
    if row.entry == 20 {
        if REFERENCES == 0 {
            println!("not at hand: what to ask for the contacts of the row '{}', but for entry 7", row.name);
        }
        wanted.extend([by_entry_7(0), by_entry_7(1)]);
    } else {
        wanted.extend(["nearest", "farthest"].map(|which| format!("{which} meet along a side")));
    }
    tally.report(&wanted)
}

/// What a run has to meet.
const WANTED: [&str; 20] = [
    "accepted",
    "refusal 17",
    "surely touching",
    "surely apart",
    "either",
    "17 by A alone",
    "17 by B alone",
    "17 by both",
    "beyond by one",
    "far beyond",
    "lowest one above highest",
    "without tolerance",
    "nearest meet in one point",
    "nearest just miss",
    "farthest meet in one point",
    "farthest just miss",
    TRIED[0],
    TRIED[1],
    TRIED[2],
    NOT_TRIED,
];
