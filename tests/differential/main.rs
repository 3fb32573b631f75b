//! The differential runs: every row of the table, ours against the unmodified Rust and Box2D 2.4.1, every field,
//! refusals included; measured bodies, ours against a second program; malformed requests; and kept NaNs. Built with
//! `--cfg papers` where the Rust is at hand and `--cfg box2d` where Box2D is.
//! usage: differential CASES SEED [ENTRY..]     compares, for each row until CASES were asked of the references; with
//!                                              entries, their rows alone
//!        differential store FILE CASES SEED    prints answers for tests/stored/FILE.txt, which the references share
//!        differential anew PATH                prints a stored file with their answers as they are now
//!        differential answers CASES SEED [ENTRY..]  prints our answers (tests/differential/before)
#![allow(unknown_lints, unexpected_cfgs)]
mod bodies;
#[cfg(box2d)]
mod box2d_oracle;
mod compare;
mod contacts;
mod corners;
mod floats;
#[path = "../shared/generators.rs"]
mod generators;
mod kept;
mod lent_slice;
mod malformed;
mod manifolds;
mod measured;
mod measured_export;
mod measured_ranges;
mod measured_run;
#[path = "../shared/ranges.rs"]
mod ranges;
mod records;
mod row;
#[cfg(papers)]
mod rust_contacts;
#[cfg(papers)]
mod rust_corner;
#[cfg(papers)]
mod rust_oracle;
mod shapes;
mod short_corner;
mod store;
#[cfg(papers)]
#[path = "../shared/steps.rs"]
mod steps;
#[path = "../shared/support.rs"]
mod support;
mod table;
mod thresholds;
use row::Row;
use table::TABLE;

fn main() {
    std::panic::set_hook(Box::new(|panic| {
        // the Rust's asserts are answers; what goes wrong in the harness is shown
        if panic.location().map_or(true, |place| place.file().starts_with("tests/")) {
            eprintln!("{panic}");
        }
    }));
    let words: Vec<String> = std::env::args().skip(1).collect();
    let number = |i: usize| words[i].parse::<u64>().unwrap_or_else(|_| panic!("{:?} is no number", words[i]));
    match (words.first().map(|w| w.as_str()), words.len()) {
        (Some("store"), 4) => return store::store(&words[1], number(2), number(3)),
        (Some("anew"), 2) => return store::anew(&words[1]),
        _ => assert!(words.len() >= 2, "usage: differential CASES SEED [ENTRY..]"),
    }
    let first = (words[0] == "answers") as usize;
    let (cases, seed) = (number(first), number(first + 1));
    let entries: Vec<u64> = (first + 2..words.len()).map(number).collect();
    let asked = |row: &Row| entries.is_empty() || entries.contains(&(row.entry as u64));
    if first == 1 {
        return store::answers(cases, seed, asked);
    }
    println!("seed {seed}");
    let mut results = Vec::new();
    if entries.is_empty() {
        results = malformed::run(cases, seed);
        results.push(kept::run(TABLE, (cases / 100).max(1000), seed));
    }
    for (i, row) in TABLE.iter().enumerate().filter(|(_, row)| asked(row)) {
        if compare::REFERENCES > 0 {
            results.push(compare::run(row, cases, seed + 1 + i as u64));
        } else {
            println!("not at hand: what to compare in the row '{}'", row.name);
        }
    }
    for (i, row) in measured_run::ROWS.iter().enumerate().filter(|(_, row)| asked(row)) {
        results.push(measured_run::run(row, cases, seed + 1 + (TABLE.len() + i) as u64));
    }
    let failed = results.iter().filter(|passed| !**passed).count();
    println!("{} passed, {failed} failed", results.len() - failed);
    std::process::exit((failed > 0) as i32);
}
