//! The touches of a heat by the rulebook, read from its lines and their answers alone: a pair's count rises by one at a
//! test that finds points where its last test found none, or where there was no last test, and at no other; each piece
//! of a chain has a count of its own. A refused test is no last test, and a new shape under either id leaves none.
//! Counts what a run had of it.
use crate::answers::{byte, word, Answered, IDS, PIECES};
use crate::support::Tally;

const ADD: usize = 1;
const REMOVE: usize = 3;

/// What the printed lines have said of an ordered pair, by a piece of its first body.
#[derive(Clone, Copy, Default)]
struct Pair {
    /// The points of its last accepted test, if there was one since a new shape.
    last: Option<usize>,
    count: u32,
    refused_since: bool,
    touched_before: bool,
    /// Which of the two was made anew when the pair had points.
    renewed: Option<&'static str>,
}

impl Pair {
    /// The points that it had; none where there was no last test.
    fn points(&self) -> usize {
        self.last.unwrap_or(0)
    }

    fn forget(&mut self, which: &'static str) {
        let renewed = if self.points() > 0 { Some(which) } else { self.renewed };
        *self = Pair { renewed, ..Pair::default() };
    }

    fn tested(&mut self, line: &[u8]) {
        let points = byte(line, 3);
        let touched_before = self.touched_before || points > 0;
        *self = Pair { last: Some(points), count: count(line), touched_before, ..Pair::default() };
    }
}

fn count(answer: &[u8]) -> u32 {
    word(answer, 9)
}

/// A case for each line of an accepted test of a heat; what a random one has of the rule is counted.
pub fn follow(heat: &[Answered], name: impl Fn() -> String, random: bool, tally: &mut Tally) {
    let mut pairs = [[[Pair::default(); PIECES]; IDS]; IDS];
    for (i, answer) in heat.iter().enumerate() {
        let (a, b) = (byte(answer.frame, 1), byte(answer.frame, 2));
        match (answer.refusal(), byte(answer.frame, 0)) {
            _ if answer.makes_shape() => (0..IDS).for_each(|other| {
                pairs[a][other].iter_mut().for_each(|pair| pair.forget("first"));
                pairs[other][a].iter_mut().for_each(|pair| pair.forget("second"));
            }),
            (Some(2 | 8), 5) => pairs[a][b].iter_mut().for_each(|pair| pair.refused_since = true),
            (None, 5) => {
                let others = pairs[a][b].map(|pair| pair.points() > 0);
                for (piece, line) in answer.lines.iter().enumerate() {
                    let pair = &mut pairs[a][b][piece];
                    let wanted = pair.count.saturating_add((byte(line, 3) > 0 && pair.points() == 0) as u32);
                    tally.case(count(line) == wanted, || {
                        format!("{}: line {}: {} touches, not {wanted}", name(), i + 1, count(line))
                    });
                    if random {
                        met(pair, line, tally);
                        if count(line) > pair.count && others.contains(&true) {
                            tally.met("begun on a piece after another");
                        }
                    }
                    pair.tested(line);
                }
            }
            _ => {}
        }
    }
}

/// Counts a test by what the pair had before and has now.
fn met(pair: &Pair, answer: &[u8], tally: &mut Tally) {
    let (points, states) = (byte(answer, 3), [5, 6, 7, 8].map(|i| byte(answer, i)));
    match (pair.points(), points) {
        (_, 0) => {}
        (0, _) => {
            tally.met(["begun with 1 point", "begun with 2 points"][points - 1]);
            if pair.touched_before {
                tally.met("begun again");
            }
            if let Some(which) = pair.renewed {
                tally.met(&format!("begun after a new {which}"));
            }
        }
        (1, 2) if states[2..].contains(&ADD) => tally.met("a point added"),
        (1, 1) if states[0] == REMOVE && states[2] == ADD => tally.met("rolled to another point"),
        _ => {}
    }
    if pair.points() > 0 && points > 0 && pair.refused_since {
        tally.met("on after a refused test");
    }
    if count(answer) > 255 {
        tally.met("more than 255 touches");
    }
}

/// What the random heats of a run have to meet.
pub const WANTED: [&str; 10] = [
    "begun with 1 point",
    "begun with 2 points",
    "begun again",
    "begun after a new first",
    "begun after a new second",
    "a point added",
    "rolled to another point",
    "on after a refused test",
    "more than 255 touches",
    "begun on a piece after another",
];
