//! What the heats of a run had of chains, counted from inputs and the right outputs: frames 07 by their numbers, their
//! damage and their refusals, tests by the pieces that touch.
use crate::answers::{byte, float, word, Answered, IDS, PIECES};
use crate::census::Stands;
use crate::ranges::SIZE;
use crate::support::Tally;

/// The squared distance that neighbours have to be above.
const LIMIT: f32 = 0.005 * 0.005;
/// A frame's bytes before its points, and those of a point.
const HEAD: usize = 3;
const POINT: usize = 8;
/// So many steps of an f32 are near the limit.
const NEAR: i64 = 4;

/// The pieces of each pair that had points at its last test.
#[derive(Default)]
pub struct Chains {
    touching: [[[bool; PIECES]; IDS]; IDS],
}

impl Chains {
    /// Counts a line of a heat; `both` is what stood under its first two ids.
    pub fn add(&mut self, answer: &Answered, both: [Stands; 2], tally: &mut Tally) {
        let names = both.map(|body| body.name);
        match (byte(answer.frame, 0), answer.first()) {
            (7, _) => drawn(answer, names[0], tally),
            (1..=3, 0) if names[0] == "chain" => tally.met("another in a chain's place"),
            (5, 0xff) if names.contains(&"chain") => refused(answer, names, tally),
            (5, 5) if names[0] == "chain" => self.tested(answer, both[0].turn, tally),
            _ => {}
        }
        if answer.makes_shape() {
            let id = byte(answer.frame, 1);
            (0..IDS).for_each(|other| {
                self.touching[id][other] = Default::default();
                self.touching[other][id] = Default::default();
            });
        }
    }

    /// Counts a test by the pieces that touch, and touched before.
    fn tested(&mut self, answer: &Answered, turn: &str, tally: &mut Tally) {
        let before = &mut self.touching[byte(answer.frame, 1)][byte(answer.frame, 2)];
        let mut now = [false; PIECES];
        (0..answer.lines.len()).for_each(|i| now[i] = byte(answer.lines[i], 3) > 0);
        for i in (0..PIECES).filter(|i| now[*i]) {
            tally.met(&format!("piece {i} touching"));
            tally.met(&format!("chain touching, {turn}"));
            if i > 0 && !before[i] && before[i - 1] {
                tally.met("on to the next piece");
            }
            if i + 1 < PIECES && !before[i] && before[i + 1] {
                tally.met("back to the piece before");
            }
        }
        match now.iter().filter(|points| **points).count() {
            0 => tally.met("no piece touching"),
            1 => {}
            _ => tally.met("several pieces touching"),
        }
        if answer.lines.iter().any(|line| word(line, 9) != word(answer.lines[0], 9)) {
            tally.met("pieces of different counts");
        }
        *before = now;
    }
}

/// Counts a refused test of a chain.
fn refused(answer: &Answered, names: [&str; 2], tally: &mut Tally) {
    let itself = byte(answer.frame, 1) == byte(answer.frame, 2);
    match answer.refusal() {
        Some(13) if itself => tally.met("chain against itself"),
        Some(13) => tally.met(&format!("{}-{} 13", names[0], names[1])),
        Some(2) if names[0] == "chain" => tally.met("test of a chain refused"),
        _ => {}
    }
}

/// Counts a line that begins as a frame 07, over what stood under its id.
fn drawn(answer: &Answered, old: &str, tally: &mut Tally) {
    let (line, count) = (answer.frame, byte(answer.frame, 2));
    let fits = line.len() == 2 * (HEAD + POINT * (count + 2));
    let digits = line.iter().all(|c| b"0123456789abcdef".contains(c));
    let odd: [(&str, bool); 8] = [
        ("chain of 165 digits", digits && line.len() == 165),
        ("chain of 166 digits", answer.first() == 0 && line.len() == 166),
        ("chain of 167 digits", digits && line.len() == 167),
        ("chain of 168 digits", digits && line.len() == 168),
        ("chain of nine points", digits && fits && count == 9),
        ("chain of a wrong length", digits && !fits && line.len() % 2 == 0 && (2..9).contains(&count)),
        ("chain of odd digits", digits && line.len() % 2 == 1),
        ("chain with another character", fits && !digits),
    ];
    odd.iter().filter(|(_, met)| *met).for_each(|(name, _)| tally.met(name));
    if !fits || count > 8 || answer.refusal() == Some(10) {
        return;
    }
    let points: Vec<[f32; 2]> =
        (0..count + 2).map(|i| [0, 4].map(|half| float(line, HEAD + POINT * i + half))).collect();
    let beyond = |p: &[f32; 2]| p.iter().any(|x| !(x.abs() <= SIZE));
    let squared = |i: usize| {
        let [dx, dy] = [0, 1].map(|k| points[i][k] - points[i + 1][k]);
        dx * dx + dy * dy
    };
    let near = |i: usize| squared(i) <= LIMIT;
    let neighbours = 1..count.max(1);
    let steps = |i: usize| squared(i).to_bits() as i64 - LIMIT.to_bits() as i64;
    let least = neighbours.clone().map(steps).min().unwrap_or(i64::MAX);
    let said: Vec<(&str, bool)> = match answer.refusal() {
        Some(11) => vec![("chain 11 before 15", count < 2)],
        Some(15) => vec![
            ("chain of no point", count == 0),
            ("chain of one point", count == 1),
            ("chain 15 before 2", points.iter().any(beyond)),
        ],
        Some(2) => vec![
            ("chain 2 by the point before alone", points.iter().skip(1).all(|p| !beyond(p))),
            ("chain 2 by the point after alone", points.iter().take(count + 1).all(|p| !beyond(p))),
            ("chain 2 before 16", neighbours.clone().any(near)),
        ],
        Some(16) => vec![
            ("chain 16 of the first two", near(1)),
            ("chain 16 of the last two", near(count - 1)),
            ("chain 16 near the limit", (-NEAR..=0).contains(&least)),
        ],
        _ => vec![
            ("chain near the limit", (1..=NEAR).contains(&least)),
            ("chain with a near point before", near(0)),
            ("chain with a near point after", near(count)),
            ("chain in a chain's place", old == "chain"),
            ("chain in another's place", old != "chain" && !old.is_empty()),
        ],
    };
    said.iter().filter(|(_, met)| *met).for_each(|(name, _)| tally.met(name));
    if answer.first() == 0 {
        tally.met(&format!("chain under id {}", byte(line, 1)));
    }
}

/// What a run has to meet.
pub fn wanted() -> Vec<String> {
    let mut list: Vec<String> = (0..PIECES).map(|i| format!("piece {i} touching")).collect();
    list.extend((0..IDS).map(|id| format!("chain under id {id}")));
    list.extend(["unturned", "quarter-turned", "turned"].map(|turn| format!("chain touching, {turn}")));
    list.extend(["circle", "outline", "wall", "one-sided wall", "chain"].map(|name| format!("{name}-chain 13")));
    let others = [
        "chain-wall 13",
        "chain against itself",
        "test of a chain refused",
        "on to the next piece",
        "back to the piece before",
        "no piece touching",
        "several pieces touching",
        "pieces of different counts",
        "another in a chain's place",
        "chain in a chain's place",
        "chain in another's place",
        "chain of 165 digits",
        "chain of 166 digits",
        "chain of 167 digits",
        "chain of 168 digits",
        "chain of nine points",
        "chain of a wrong length",
        "chain of odd digits",
        "chain with another character",
        "chain 11 before 15",
        "chain of no point",
        "chain of one point",
        "chain 15 before 2",
        "chain 2 by the point before alone",
        "chain 2 by the point after alone",
        "chain 2 before 16",
        "chain 16 of the first two",
        "chain 16 of the last two",
        "chain 16 near the limit",
        "chain near the limit",
        "chain with a near point before",
        "chain with a near point after",
    ];
    list.extend(others.map(String::from));
    list
}
