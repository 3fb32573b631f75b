//! What the heats of a run had in them, counted from inputs and the right outputs. Their steps: see steps.rs.
use crate::answers::{byte, float, Answered, IDS};
use crate::chain_census;
use crate::kinds::{kind, KINDS};
use crate::ranges::SIZE;
use crate::second;
use crate::steps::STEP;
use crate::support::Tally;

/// A quarter turn in parts of a turn.
const QUARTER: usize = 1024;

const FACE_NORMALS: [&str; 3] = ["first corner", "second corner", "turned"];
const STATES: [&str; 4] = ["null", "add", "persist", "remove"];

/// What stands under an id: the shape's name, and how it is turned.
#[derive(Clone, Copy, Default)]
pub struct Stands {
    pub name: &'static str,
    pub turn: &'static str,
}

pub fn add(input: &[u8], heat: &[Answered], tally: &mut Tally) {
    let mut bodies = [Stands::default(); IDS];
    let mut chains = chain_census::Chains::default();
    for answer in heat {
        damage(answer.frame, tally);
        let both = [1, 2].map(|i| bodies.get(byte(answer.frame, i)).copied().unwrap_or_default());
        chains.add(answer, both, tally);
        frame(answer, &mut bodies, tally);
    }
    if let Some(c) = input.last() {
        tally.met(if *c == b'\n' { "line feed at the end" } else { "no line feed at the end" });
    }
}

/// Counts a frame by its kind and its answer.
fn frame(answer: &Answered, bodies: &mut [Stands; IDS], tally: &mut Tally) {
    let line = answer.frame;
    match (answer.refusal(), answer.first(), kind(byte(line, 0))) {
        (Some(refusal), _, Some(row)) if refusal != 10 => {
            tally.met(&format!("{} refusal {refusal}", row.name));
            if row.name == "heading" {
                refused_heading(line, refusal, tally);
            }
        }
        (Some(refusal), _, _) => tally.met(&format!("refusal {refusal}")),
        (None, 0, Some(row)) => {
            tally.met(&format!("{} accepted", row.name));
            let body = &mut bodies[byte(line, 1)];
            if row.makes_shape {
                tally.met(&format!("shape under id {}", byte(line, 1)));
                let one_sided = row.name == "wall" && byte(line, 2) == 1;
                *body = Stands { name: if one_sided { "one-sided wall" } else { row.name }, turn: "unturned" };
                if ["outline", "chain"].contains(&row.name) {
                    tally.met(&format!("{} of {} points", row.name, byte(line, 2)));
                }
            } else if row.name == "heading" {
                body.turn = heading(number(line), tally);
            } else {
                body.turn = turn(line);
            }
        }
        (None, STEP, _) => {}
        _ => answer.lines.iter().for_each(|piece| tested(line, piece, bodies, tally)),
    }
}

/// How a placement turns, by its sine and cosine.
fn turn(line: &[u8]) -> &'static str {
    match (float(line, 10), float(line, 14)) {
        (s, c) if s == 0.0 && c == 1.0 => "unturned",
        (s, c) if s == 0.0 || c == 0.0 => "quarter-turned",
        _ => "turned",
    }
}

/// The turn number of a heading.
fn number(line: &[u8]) -> usize {
    byte(line, 10) << 8 | byte(line, 11)
}

/// How a turn number turns; counts its quarter, and quarter turns and their neighbours.
fn heading(number: usize, tally: &mut Tally) -> &'static str {
    tally.met(&format!("heading in quarter {}", number / QUARTER));
    match number % QUARTER {
        0 => tally.met(&format!("heading at quarter turn {}", number / QUARTER)),
        1 => tally.met(&format!("heading after quarter turn {}", number / QUARTER)),
        1023 => tally.met(&format!("heading before quarter turn {}", (number / QUARTER + 1) % 4)),
        _ => {}
    }
    match (number, number % QUARTER) {
        (0, _) => "unturned",
        (_, 0) => "quarter-turned",
        _ => "turned",
    }
}

/// Counts a heading that earns several refusals by the one that comes first.
fn refused_heading(line: &[u8], refusal: usize, tally: &mut Tally) {
    let above = number(line) >= 4 * QUARTER;
    let beyond = [2, 6].iter().any(|at| !(float(line, *at).abs() <= SIZE));
    if refusal == 12 && above {
        tally.met("heading 12 before 14");
    }
    if refusal == 14 && beyond {
        tally.met("heading 14 before 6");
    }
}

/// Counts an input by the pieces in which it came.
pub fn pieces(pieces: usize, length: usize, tally: &mut Tally) {
    match pieces {
        1 => tally.met("in one piece"),
        n if n > 20 && n == length => tally.met("in single characters"),
        2.. => tally.met("in several pieces"),
        _ => {}
    }
}

/// Counts what each second program did at corners: see second.rs.
pub fn face_normals(programs: &[(&str, [usize; 3])], tally: &mut Tally) {
    for (program, counts) in programs {
        for (what, count) in FACE_NORMALS.iter().zip(counts) {
            (0..*count).for_each(|_| tally.met(&format!("normal of the face, {what}, {program}")));
        }
    }
}

/// Counts a line of a test by its ids, its pair, its points, their face, the turns and its states. Its touches: see
/// rulebook.rs.
fn tested(line: &[u8], answer: &[u8], bodies: &[Stands; IDS], tally: &mut Tally) {
    let both = [1, 2].map(|i| bodies[byte(line, i)]);
    let pair = both.map(|body| body.name).join("-");
    tally.met(&format!("{pair} {}", ["apart", "1 point", "2 points"][byte(answer, 3)]));
    (1..3).for_each(|i| tally.met(&format!("{} id {}", ["first", "second"][i - 1], byte(line, i))));
    if byte(answer, 3) > 0 {
        tally.met(&format!("{pair} kind {}", byte(answer, 4)));
        (0..2).for_each(|i| tally.met(&format!("{} touching, {}", ["first", "second"][i], both[i].turn)));
    }
    (5..9).for_each(|i| tally.met(STATES[byte(answer, i)]));
    let before = (5..7).map(|i| byte(answer, i)).any(|state| state > 0);
    if before && byte(answer, 3) == 0 {
        tally.met("parted");
    }
}

/// Counts a line by what is odd about it.
fn damage(line: &[u8], tally: &mut Tally) {
    let has = |test: fn(&u8) -> bool| line.iter().any(test);
    let heading = |length: fn(usize) -> bool| line.starts_with(b"06") && length(line.len());
    let digits = |count: usize| line.len() == count && line.iter().all(|c| c.is_ascii_hexdigit());
    let odd: [(&str, bool); 12] = [
        ("heading of 11 bytes", heading(|length| length == 22)),
        ("heading of 13 bytes", heading(|length| length == 26)),
        ("heading of odd digits", heading(|length| length % 2 == 1)),
        ("CR", has(|c| *c == b'\r')),
        ("NUL", has(|c| *c == 0)),
        ("byte from 80 on", has(|c| *c >= 0x80)),
        ("upper case", has(|c| c.is_ascii_uppercase())),
        ("134 digits", digits(134)),
        ("135 digits", digits(135)),
        ("136 digits, and no chain", digits(136) && !line.starts_with(b"07")),
        ("5000 characters", line.len() >= 5000),
        ("100000 characters", line.len() >= 100_000),
    ];
    odd.iter().filter(|(_, met)| *met).for_each(|(name, _)| tally.met(name));
}

/// What a run has to meet.
pub fn wanted() -> Vec<String> {
    // the most points of a pair, and the kinds of its contacts
    let pairs: [(&str, usize, &[u8]); 9] = [
        ("circle-circle", 1, &[0]),
        ("outline-circle", 1, &[1]),
        ("outline-outline", 2, &[1, 2]),
        ("wall-circle", 1, &[0, 1]),
        ("wall-outline", 2, &[1, 2]),
        ("one-sided wall-circle", 1, &[0, 1]),
        ("one-sided wall-outline", 2, &[1, 2]),
        ("chain-circle", 1, &[0, 1]),
        ("chain-outline", 2, &[1, 2]),
    ];
    let mut list: Vec<String> = Vec::new();
    for (pair, most, kinds) in pairs {
        let counts = ["apart", "1 point", "2 points"];
        list.extend(counts[..=most].iter().map(|count| format!("{pair} {count}")));
        list.extend(kinds.iter().map(|kind| format!("{pair} kind {kind}")));
    }
    for role in ["first", "second"] {
        list.extend(["unturned", "quarter-turned", "turned"].map(|turn| format!("{role} touching, {turn}")));
        list.extend((0..8).map(|id| format!("{role} id {id}")));
    }
    list.extend((0..8).map(|id| format!("shape under id {id}")));
    list.extend((3..9).map(|count| format!("outline of {count} points")));
    list.extend((2..9).map(|count| format!("chain of {count} points")));
    list.extend(chain_census::wanted());
    for row in &KINDS {
        list.extend(row.refusals.iter().map(|refusal| format!("{} refusal {refusal}", row.name)));
    }
    // tests are counted by their pairs
    list.extend(KINDS.iter().filter(|row| row.name != "test").map(|row| format!("{} accepted", row.name)));
    for place in ["in quarter", "at quarter turn", "after quarter turn", "before quarter turn"] {
        list.extend((0..4).map(|quarter| format!("heading {place} {quarter}")));
    }
    let others = [
        "in one piece",
        "in several pieces",
        "in single characters",
        "refusal 10",
        "null",
        "add",
        "persist",
        "remove",
        "parted",
        "heading 12 before 14",
        "heading 14 before 6",
        "heading of 11 bytes",
        "heading of 13 bytes",
        "heading of odd digits",
        "CR",
        "NUL",
        "byte from 80 on",
        "upper case",
        "134 digits",
        "135 digits",
        "136 digits, and no chain",
        "5000 characters",
        "100000 characters",
        "line feed at the end",
        "no line feed at the end",
    ];
    list.extend(others.iter().map(|what| what.to_string()));
    for (program, _) in second::face_normals() {
        list.extend(FACE_NORMALS.map(|what| format!("normal of the face, {what}, {program}")));
    }
    list
}
