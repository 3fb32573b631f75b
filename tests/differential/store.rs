//! Answers to be stored, the references' or a second program's, and answers to be compared with another build's, ours.
use crate::compare;
use crate::malformed;
use crate::measured::{Measured, EITHER};
use crate::measured_run;
use crate::row::Row;
use crate::short_corner;
use crate::support::{one_nan, Random};
use crate::table::{AT_CORNERS, TABLE};

fn hex(words: &[u32]) -> String {
    words.iter().map(|w| format!("{w:08x}")).collect::<Vec<_>>().join(" ")
}

/// A request and its answer, on which both references have to agree.
fn line(row: &Row, request: &[u32]) -> String {
    let (answer, agree, _) = compare::expected(row, request);
    assert!(agree && answer.refusals.len() == 1, "both references are needed, and have to agree");
    format!("{} : {:08x} {}", hex(request), answer.refusals[0], hex(&one_nan(&answer.record, row.plain)))
}

/// A request of entry 20 or 21 and the answer by the second program; the pairs of an either, which are free, are `..`.
fn measured_line(request: &[u32]) -> String {
    let (refusal, verdict, _) = measured_run::expected(&Measured::of(request)).expect("a program of one mind");
    let pairs = if verdict == EITHER { "..".to_string() } else { hex(&vec![0; request.len() - 1]) };
    format!("{} : {refusal:08x} {verdict:08x} {pairs}", hex(request))
}

/// Two of twenty with a word too many or too few, which are malformed.
fn store_measured(cases: u64, random: &mut Random) {
    println!("# by the second program; ..: any two bodies inside that touch, any two that do not; empty: malformed");
    for i in 0..cases {
        let mut request = (measured_run::ROWS[i as usize % 2].generate)(random);
        if i % 20 < 18 {
            println!("{}", measured_line(&request));
            continue;
        }
        request.resize(if random.once_in(2) { request.len() + 1 } else { request.len() - 1 }, 0);
        println!("{} :", hex(&request));
    }
}

pub fn store(file: &str, cases: u64, seed: u64) {
    let mut random = Random::new(seed);
    println!("# request : answer, by 'differential store {file} {cases} {seed}'");
    if file == "malformed" {
        println!("# an empty answer: nothing is written");
        malformed::stored(cases, &mut random).iter().for_each(|request| println!("{} :", hex(request)));
        return;
    }
    if file == "measured" {
        return store_measured(cases, &mut random);
    }
    println!("# the Rust and Box2D 2.4.1 agree on it, but for refusals 2, 6, 7 and 9, which are document 01's alone");
    let rows: Vec<&Row> = TABLE.iter().chain([&AT_CORNERS]).filter(|row| row.stored == file).collect();
    if file == AT_CORNERS.stored {
        println!("# and for the normal of the chosen face in the place of a vector without length, document 02's");
    }
    for i in 0..cases {
        let row = rows[i as usize % rows.len()];
        println!("{}", line(row, &(row.generate)(&mut random)));
    }
}

/// A stored file with the answers that the references give now.
pub fn anew(path: &str) {
    let text = std::fs::read_to_string(path).unwrap_or_else(|error| panic!("{path}: {error}"));
    for old in text.lines() {
        let request = old.split(" : ").next().unwrap_or_default().split(' ');
        let words: Vec<u32> = request.map_while(|word| u32::from_str_radix(word, 16).ok()).collect();
        let rows = TABLE.iter().chain(&measured_run::ROWS);
        let row = rows.filter(|_| !old.ends_with(':')).find(|row| words.first() == Some(&row.entry));
        let new = match row {
            None => old.to_string(),
            Some(row) if row.stored == "measured" => measured_line(&words),
            Some(row) => line(row, &words),
        };
        println!("{new}");
    }
}

/// Our answers, each behind its entry and a 1 where the request leaves the comparison with the references.
pub fn answers(cases: u64, seed: u64, asked: impl Fn(&Row) -> bool) {
    for row in TABLE.iter().filter(|row| asked(row)) {
        let mut random = Random::new(seed);
        for _ in 0..cases {
            let request = (row.generate)(&mut random);
            let accepted = (row.refusal)(&request) == 0;
            let leaves = row.entry == AT_CORNERS.entry && accepted && short_corner::leaves(&request);
            println!("{} {} {}", row.entry, leaves as u32, hex(&(row.ours)(&request)));
        }
    }
}
