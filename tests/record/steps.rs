//! Steps: how random heats end them, by empty lines, and what the program prints of them, read from its input and its
//! output alone. "No body, contact or count changes at an empty line": it is run again without the empty lines, or with
//! one after each line, and prints the same for all others.
use crate::answers::{answered, byte, lines, Answered};
use crate::heats::Heat;
use crate::pieces;
use crate::support::{Random, Tally};
use std::collections::BTreeMap;

/// The first byte of a step's line.
pub const STEP: usize = 0x0a;
/// A line that is no longer is not overlong.
const LONGEST: usize = 166;
/// Where the states are in a test's line, and two of them.
const STATES: std::ops::Range<usize> = 5..9;
const PERSIST: usize = 2;
const REMOVE: usize = 3;
/// Lines of one character, which are not empty.
const ALMOST_EMPTY: [(&str, u8); 5] =
    [("CR", b'\r'), ("a blank", b' '), ("a tab", b'\t'), ("a digit", b'0'), ("NUL", 0)];

impl Heat<'_> {
    /// The end of a step, or of several at once, now and then after a line that only looks empty. Empty lines are not
    /// among the lines that a heat is to have.
    pub fn end_step(&mut self) {
        if self.random.once_in(12) {
            let line = almost_empty(self.random);
            self.line(&line);
        }
        let few = 2 + self.random.below(4) as usize;
        let often = if self.random.once_in(150) { 300 } else { self.random.of(&[1, 1, 1, 1, few]) };
        self.text.extend(vec![b'\n'; often]);
    }

    /// The same, now and then.
    pub fn may_end_step(&mut self) {
        if self.random.once_in(4) {
            self.end_step();
        }
    }
}

/// A line that only looks empty.
pub fn almost_empty(random: &mut Random) -> Vec<u8> {
    vec![random.of(&ALMOST_EMPTY).1]
}

fn empty_lines(input: &[u8]) -> usize {
    (0..input.len()).filter(|i| input[*i] == b'\n' && (*i == 0 || input[i - 1] == b'\n')).count()
}

/// An output's lines that tell of steps, and the others.
fn parted(output: &[u8]) -> (Vec<&[u8]>, Vec<&[u8]>) {
    lines(output).into_iter().partition(|line| line.starts_with(b"0a"))
}

/// Whether the empty lines of a heat are numbered from 1 on, each in its place, and no other line is.
fn numbered(input: &[u8], output: &[u8]) -> bool {
    let wanted: Vec<String> = (1..=empty_lines(input)).map(|number| format!("0a{number:08x}")).collect();
    parted(output).0.iter().copied().eq(wanted.iter().map(|line| line.as_bytes()))
        && answered(input, output).iter().all(|answer| answer.frame.is_empty() == (answer.first() == STEP))
}

/// The heat without its empty lines, or with one after each other line; the last line has its line feed as before.
fn restepped(input: &[u8], each: bool) -> Vec<u8> {
    let end: &[u8] = if each { b"\n\n" } else { b"\n" };
    let mut text: Vec<u8> =
        lines(input).iter().filter(|line| !line.is_empty()).flat_map(|line| [line, end].concat()).collect();
    if input.last() != Some(&b'\n') {
        text.pop();
    }
    text
}

/// A case for each heat, and one for some of them sent again; `output` is what the program printed.
pub fn follow(
    program: &str,
    (input, output): (&[u8], &[u8]),
    random: &mut Random,
    name: impl Fn() -> String,
    tally: &mut Tally,
) {
    tally.case(numbered(input, output), || {
        let printed = parted(output).0.len();
        format!("{}: {} empty lines, and {printed} steps, or not numbered from 1 on", name(), empty_lines(input))
    });
    if empty_lines(input) > u16::MAX as usize {
        tally.met("more than 65535 steps");
    }
    if random.once_in(3) {
        let each = random.once_in(2);
        let other = restepped(input, each);
        let (printed, ended, _) = pieces::run(program, &other, random);
        let same = parted(&printed).1 == parted(output).1;
        let how = if each { "an empty line after each" } else { "no empty line" };
        tally.case(ended && same && numbered(&other, &printed), || format!("{}: other answers with {how}", name()));
        tally.met(how);
    }
}

/// Counts what a random heat has of steps.
pub fn census(input: &[u8], heat: &[Answered], tally: &mut Tally) {
    let (mut steps, mut tests) = (0, BTreeMap::new());
    for (i, answer) in heat.iter().enumerate() {
        if let ([c], Some(10)) = (answer.frame, answer.refusal()) {
            ALMOST_EMPTY.iter().filter(|row| row.1 == *c).for_each(|row| tally.met(&format!("{} alone", row.0)));
        }
        if answer.first() == 5 {
            let before = tests.insert(answer.frame, steps);
            let over = before.map_or(false, |before| before < steps);
            let states: Vec<usize> = answer.lines.iter().flat_map(|line| STATES.map(|at| byte(line, at))).collect();
            let kept = [("persist over a step", PERSIST), ("remove over a step", REMOVE)];
            kept.iter().filter(|row| over && states.contains(&row.1)).for_each(|row| tally.met(row.0));
        }
        if !answer.frame.is_empty() {
            continue;
        }
        steps += 1;
        tally.met("a step");
        let last = i.checked_sub(1).map(|i| &heat[i]);
        let met: [(&str, bool); 6] = [
            ("a step before any frame", last.is_none() && heat.len() > 1),
            ("steps in a row", last.map_or(false, |line| line.frame.is_empty())),
            ("a step after a malformed line", last.map_or(false, |line| line.refusal() == Some(10))),
            ("a step after an overlong line", last.map_or(false, |line| line.frame.len() > LONGEST)),
            ("a step at the end", i + 1 == heat.len()),
            ("a step before a last line without line feed", i + 2 == heat.len() && input.last() != Some(&b'\n')),
        ];
        met.iter().filter(|(_, met)| *met).for_each(|(name, _)| tally.met(name));
    }
    if steps > u8::MAX as usize {
        tally.met("more than 255 steps");
    }
}

/// What a run has to meet.
pub fn wanted() -> Vec<String> {
    let mut list: Vec<String> = ALMOST_EMPTY.iter().map(|row| format!("{} alone", row.0)).collect();
    let others = [
        "a step",
        "a step before any frame",
        "steps in a row",
        "a step after a malformed line",
        "a step after an overlong line",
        "a step at the end",
        "a step before a last line without line feed",
        "more than 255 steps",
        "more than 65535 steps",
        "persist over a step",
        "remove over a step",
        "no empty line",
        "an empty line after each",
    ];
    list.extend(others.map(String::from));
    list
}
