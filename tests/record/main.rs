//! The touch record: our program and our export beside second programs over the unmodified Rust and over Box2D 2.4.1,
//! bytes against bytes. Built with `--cfg papers` where the Rust is at hand and `--cfg box2d` where Box2D is.
//! usage: record heats PROGRAM HEATS LENGTH SEED   compares PROGRAM on HEATS heats of about LENGTH lines, fed in pieces
//!                                                 and holds the touches to the rulebook, chains to single walls,
//!                                                 steps to the empty lines, ages to the points that go on, normals
//!                                                 of outline and circle to a length of 1
//!        record export CASES SEED                 compares the export
//!        record limits CASES SEED                 searches for what docs/LIMITS.md says does not happen
//!        record store FOLDER HEATS LENGTH SEED    writes heats and their answers for tests/stored, which both share
//!        record touches                           the second programs on standard input
//!        record exports                           their export on lines ROOM FRAMES: what it returns and writes
//!        record heat LENGTH SEED                  prints a heat
#![allow(unknown_lints, unexpected_cfgs)]
mod ages;
mod answers;
mod as_walls;
mod census;
mod chain_census;
mod chains;
mod corners;
mod damage;
mod export;
mod fixed;
#[allow(dead_code)]
#[path = "../shared/generators.rs"]
mod generators;
mod heats;
mod kinds;
mod limits;
mod pieces;
#[allow(dead_code)]
#[path = "../shared/ranges.rs"]
mod ranges;
mod rests;
mod robots;
mod rulebook;
#[cfg(papers)]
mod rust_touches;
mod second;
mod steps;
#[allow(dead_code)]
#[path = "../shared/support.rs"]
mod support;
mod unit_normals;
use fixed::fixed;
use heats::heat;
use std::io::{Read, Write};
use support::{Random, Tally};

/// Our program on heats, each in a process of its own: the fixed ones, then random ones, a tenth of them ten times as
/// long and a few of them 300 times.
fn compare_heats(program: &str, heats: u64, length: usize, seed: u64) -> bool {
    let (mut tally, mut touches) = (Tally::new("heats"), Tally::new("touches by the rulebook"));
    let (mut walls, mut steps) = (Tally::new("chains beside walls"), Tally::new("steps"));
    let (mut ages, mut normals) = (Tally::new("ages"), Tally::new("normals of outline and circle"));
    let all_fixed = fixed();
    for i in 0..all_fixed.len() as u64 + heats {
        let mut random = Random::new(seed.wrapping_mul(1 << 32).wrapping_add(i));
        let fixed = all_fixed.get(i as usize);
        let longer = [1, 10, 300][(i % 10 == 0) as usize + (i % 2500 == 100) as usize];
        let lines = 1 + random.below(2 * (length * longer) as u64) as usize;
        let input = fixed.map_or_else(|| heat(&mut random, lines), |(_, text)| text.clone());
        let (wanted, agree) = second::touches(&input);
        let face_normals = second::face_normals();
        let (ours, ended, pieces) = pieces::run(program, &input, &mut random);
        let name = || fixed.map_or_else(|| format!("'record heat {lines}' from seed {seed}, heat {i}"), |f| f.0.into());
        let answered = answers::answered(&input, &wanted);
        let whole = answers::whole(&answered, &wanted);
        tally.case(agree && whole && ended && ours == wanted, || {
            let first = answers::difference(&input, &wanted, &ours);
            let references = if agree { "" } else { "the references do not agree; " };
            let lines = if whole { "" } else { "too many lines, too few, or of another length; " };
            format!("{}: {references}{lines}{}{first}", name(), if ended { "" } else { "the program ended badly; " })
        });
        census::pieces(pieces, input.len(), &mut tally);
        if whole {
            census::add(&input, &answered, &mut tally);
            rulebook::follow(&answered, name, fixed.is_none(), &mut touches);
            if fixed.is_none() {
                census::face_normals(&face_normals, &mut tally);
                steps::census(&input, &answered, &mut steps);
            }
        }
        let printed = answers::answered(&input, &ours);
        ages::follow(&printed, name, fixed.is_none(), &mut ages);
        unit_normals::follow(&printed, name, &mut normals);
        steps::follow(program, (&input, &ours), &mut random, name, &mut steps);
        as_walls::compare(program, (&input, &ours), &mut random, name, &mut walls);
    }
    let ruled = touches.report(&rulebook::WANTED.map(String::from));
    let equal = walls.report(&as_walls::wanted());
    let stepped = steps.report(&steps::wanted());
    let aged = ages.report(&ages::WANTED.map(String::from));
    let unit = normals.report(&unit_normals::WANTED.map(String::from));
    tally.report(&census::wanted()) && ruled && equal && stepped && aged && unit
}

/// The fixed heats and random ones, the last of them a hundred times as long, each with its answers.
fn store(folder: &str, heats: usize, length: usize, seed: u64) {
    let (mut random, all_fixed) = (Random::new(seed), fixed());
    for i in 0..heats {
        let lines = if i + 1 < heats { length } else { 100 * length };
        let input = all_fixed.get(i).map_or_else(|| short_heat(&mut random, lines), |(_, text)| text.clone());
        let (output, agree) = second::touches(&input);
        assert!(cfg!(papers) && cfg!(box2d) && agree, "both references are needed, and have to agree");
        for (end, text) in [("in", input), ("out", output)] {
            std::fs::write(format!("{folder}/{i:02}.{end}"), text).expect("a folder that can be written to");
        }
    }
}

/// The export on an output of that many bytes: what it returns, and the bytes that it writes to the front.
fn exported(line: &str) {
    let (room, digits) = line.split_once(' ').expect("a number and digits");
    let old = vec![7; room.parse().expect("a number")];
    let (number, out, agree) = second::export(&export::bytes_of(digits), &old);
    assert!(agree, "the second programs differ on these frames");
    let written = if number < 256 { number as usize } else { 0 };
    assert!(out[written..] == old[written..], "the rest of the output is not as it was");
    println!("{number} {}", out[..written].iter().map(|b| format!("{b:02x}")).collect::<String>());
}

/// A heat without a line of thousands of characters.
fn short_heat(random: &mut Random, length: usize) -> Vec<u8> {
    loop {
        let text = heat(random, length);
        if text.split(|c| *c == b'\n').all(|line| line.len() < 2000) || length > 1000 {
            return text;
        }
    }
}

fn main() {
    std::panic::set_hook(Box::new(|panic| {
        // the Rust's asserts are answers; what goes wrong in the harness is shown
        if panic.location().map_or(true, |place| place.file().starts_with("tests/")) {
            eprintln!("{panic}");
        }
    }));
    let words: Vec<String> = std::env::args().skip(1).collect();
    let number = |i: usize| words[i].parse::<u64>().unwrap_or_else(|_| panic!("{:?} is no number", words[i]));
    let passed = match (words.first().map(|w| w.as_str()), words.len()) {
        (Some("heats"), 5) => {
            println!("seed {}", number(4));
            compare_heats(&words[1], number(2), number(3) as usize, number(4))
        }
        (Some("export"), 3) => {
            println!("seed {}", number(2));
            export::compare(number(1), number(2))
        }
        (Some("limits"), 3) => {
            println!("seed {}", number(2));
            limits::search(number(1), number(2))
        }
        (Some("store"), 5) => return store(&words[1], number(2) as usize, number(3) as usize, number(4)),
        (Some("touches"), 1) => {
            let mut input = Vec::new();
            std::io::stdin().read_to_end(&mut input).expect("standard input");
            let (answers, agree) = second::touches(&input);
            assert!(agree, "the second programs differ on this input");
            return std::io::stdout().write_all(&answers).expect("standard output");
        }
        (Some("exports"), 1) => {
            return std::io::stdin().lines().for_each(|line| exported(&line.expect("standard input")));
        }
        (Some("heat"), 3) => {
            let text = heat(&mut Random::new(number(2)), number(1) as usize);
            return std::io::stdout().write_all(&text).expect("standard output");
        }
        _ => panic!("usage: record heats PROGRAM HEATS LENGTH SEED | export CASES SEED | limits CASES SEED | .."),
    };
    println!("{} passed, {} failed", passed as u32, !passed as u32);
    std::process::exit(!passed as i32);
}
