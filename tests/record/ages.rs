//! Ages of points, read from the program's input and output alone. A point in state add has age 0; one that persists is
//! one older than an old point that does, up to the largest, and where two of each persist, both ages go on; a point
//! that is there alone at n tests in a row has age n - 1; no age is above the tests before it since a new shape. Counts
//! what a run had of it.
use crate::answers::{age_at, byte, word, Answered, IDS, PIECES};
use crate::steps::STEP;
use crate::support::Tally;

const ADD: usize = 1;
const PERSIST: usize = 2;
const REMOVE: usize = 3;
/// Kinds of frame.
const CIRCLE: usize = 1;
const OUTLINE: usize = 2;

/// A test's line: its points, what became of the old ones, what the new ones are, and their ages.
#[derive(Clone, Copy, Default)]
struct Line {
    points: usize,
    old: [usize; 2],
    new: [usize; 2],
    ages: [u32; 2],
}

impl Line {
    fn of(line: &[u8]) -> Line {
        let (points, [old, new]) = (byte(line, 3).min(2), [5, 7].map(|at| [byte(line, at), byte(line, at + 1)]));
        let age = |i: usize| if i < points { word(line, age_at(i)) } else { 0 };
        Line { points, old, new, ages: [age(0), age(1)] }
    }

    /// The ages of its points, sorted.
    fn sorted(&self) -> Vec<u32> {
        let mut ages = self.ages[..self.points].to_vec();
        ages.sort();
        ages
    }
}

/// What the printed lines have said of an ordered pair, by a piece of its first body.
#[derive(Clone, Copy, Default)]
struct Pair {
    /// Its last accepted test since a new shape, and how many there were.
    last: Line,
    tests: u32,
    /// At how many of them, the last ones, the same point was there alone; 0 where that is not told.
    rested: u32,
    /// What came since the last one.
    refused: bool,
    stepped: bool,
    placed: bool,
    /// Whether it has no point any more, and had one older than 0.
    gone: bool,
    /// Which of the two was made anew when the pair had a point older than 0.
    renewed: Option<&'static str>,
}

impl Pair {
    /// Whether it has a point older than 0.
    fn had_age(&self) -> bool {
        self.last.ages.iter().any(|age| *age > 0)
    }

    fn forget(&mut self, which: &'static str) {
        let renewed = if self.had_age() { Some(which) } else { self.renewed };
        *self = Pair { renewed, ..Pair::default() };
    }

    /// One more than the ages of the old points that persist, up to the largest.
    fn older(&self, line: &Line) -> Vec<u32> {
        let persists = (0..self.last.points).filter(|i| line.old[*i] == PERSIST);
        persists.map(|i| self.last.ages[i].saturating_add(1)).collect()
    }

    /// How many tests in a row the one point of a line was there alone.
    fn rests(&self, line: &Line) -> u32 {
        match (line.points, line.new[0], self.last.points, self.rested) {
            (1, ADD, _, _) => 1,
            (1, PERSIST, 1, 1..) => self.rested.saturating_add(1),
            _ => 0,
        }
    }

    /// What is wrong with the ages of a line.
    fn wrong(&self, line: &Line) -> Option<&'static str> {
        let mut older = self.older(line);
        let right = |i: usize| match line.new[i] {
            ADD => line.ages[i] == 0,
            PERSIST => older.contains(&line.ages[i]),
            _ => false,
        };
        let (each, above) = ((0..line.points).all(right), (0..line.points).any(|i| line.ages[i] > self.tests));
        older.sort();
        let lost = line.new == [PERSIST; 2] && older.len() == 2 && older != line.sorted();
        let alone = match self.rests(line) {
            0 => line.ages[0],
            tests => tests - 1,
        };
        let list = [
            ("an age that is neither 0 for a new point nor one more than an old one's", !each),
            ("an age that does not go on", lost),
            ("another age than the tests before at which it was there", alone != line.ages[0]),
            ("an age above the number of tests before", above),
        ];
        list.iter().find(|(_, wrong)| *wrong).map(|(what, _)| *what)
    }

    fn tested(&mut self, line: Line) {
        let (tests, rested) = (self.tests.saturating_add(1), self.rests(&line));
        let gone = line.points == 0 && (self.gone || self.had_age());
        *self = Pair { last: line, tests, rested, gone, ..Pair::default() };
    }
}

type Pairs = [[[Pair; PIECES]; IDS]; IDS];

/// All pairs with a body, by its place in them.
fn pairs_with(pairs: &mut Pairs, id: usize, change: impl Fn(&mut Pair, &'static str)) {
    for other in 0..IDS {
        pairs[id][other].iter_mut().for_each(|pair| change(pair, "first"));
        pairs[other][id].iter_mut().for_each(|pair| change(pair, "second"));
    }
}

/// A case for each line of an accepted test of a heat; what a random one has of ages is counted.
pub fn follow(heat: &[Answered], name: impl Fn() -> String, random: bool, tally: &mut Tally) {
    let (mut pairs, mut kinds): (Pairs, _) = (Default::default(), [0; IDS]);
    for (i, answer) in heat.iter().enumerate() {
        let [kind, a, b] = [0, 1, 2].map(|i| byte(answer.frame, i));
        let (a, b) = (a % IDS, b % IDS);
        match (kind, answer.first()) {
            _ if answer.makes_shape() => {
                kinds[a] = kind;
                pairs_with(&mut pairs, a, Pair::forget);
            }
            (4 | 6, 0) => pairs_with(&mut pairs, a, |pair, _| pair.placed = true),
            (_, STEP) => pairs.iter_mut().flatten().flatten().for_each(|pair| pair.stepped = true),
            (5, 0xff) if matches!(answer.refusal(), Some(2 | 8)) => {
                pairs[a][b].iter_mut().for_each(|pair| pair.refused = true);
            }
            (5, 5) => {
                let lines: Vec<Line> = answer.lines.iter().take(PIECES).map(|line| Line::of(line)).collect();
                for (piece, line) in lines.iter().enumerate() {
                    let pair = &mut pairs[a][b][piece];
                    let wrong = pair.wrong(line);
                    tally.case(wrong.is_none(), || {
                        format!("{}: line {}, piece {piece}: {}", name(), i + 1, wrong.unwrap_or_default())
                    });
                    if random {
                        met(pair, line, [kinds[a], kinds[b]], tally);
                    } else if line.ages.iter().any(|age| *age > u16::MAX as u32) {
                        tally.met("an age above 65535");
                    }
                    pair.tested(*line);
                }
                let first = lines.iter().find(|line| line.points > 0).map(Line::sorted);
                if random && lines.iter().any(|line| line.points > 0 && Some(line.sorted()) != first) {
                    tally.met("pieces of different ages");
                }
            }
            _ => {}
        }
    }
}

/// Counts a test by what its pair was before and what the ages are now.
fn met(pair: &Pair, line: &Line, kinds: [usize; 2], tally: &mut Tally) {
    let ages = &line.ages[..line.points];
    let on = ages.iter().any(|age| *age > 1); // and so of a point that was not new before
    let fresh = line.points > 0 && ages.iter().all(|age| *age == 0);
    let persist = |states: [usize; 2]| states.iter().filter(|state| **state == PERSIST).count();
    let [before, now] = [line.old, line.new].map(persist);
    // a circle has one id against a circle or an outline: the same point is back
    let one_id = kinds[1] == CIRCLE && [CIRCLE, OUTLINE].contains(&kinds[0]);
    let [add_persist, second_alone] = [line.new == [ADD, PERSIST], line.old == [REMOVE, PERSIST]];
    let list: [(&str, bool); 15] = [
        ("an age of 0", ages.contains(&0)),
        ("an age above 1", on),
        ("an age above 255", ages.iter().any(|age| *age > u8::MAX as u32)),
        ("the first is older", line.points == 2 && ages[0] > ages[1]),
        ("the second is older", line.points == 2 && ages[0] < ages[1]),
        ("gone and back at 0", fresh && pair.gone && one_id),
        ("on over a refused test", on && pair.refused),
        ("on over a step", on && pair.stepped),
        ("on over a placement", on && pair.placed),
        ("at 0 after a new first", fresh && pair.renewed == Some("first")),
        ("at 0 after a new second", fresh && pair.renewed == Some("second")),
        ("one old point, two of its id", before == 1 && now == 2),
        ("two old points of one id", before == 2 && now == 1),
        ("the first's match is the second", second_alone && line.new[0] == PERSIST),
        ("the second's match is the first", add_persist && before == 1 && !second_alone),
    ];
    list.iter().filter(|(_, met)| *met).for_each(|(name, _)| tally.met(name));
}

/// What a run has to meet.
pub const WANTED: [&str; 17] = [
    "an age of 0",
    "an age above 1",
    "an age above 255",
    "an age above 65535",
    "the first is older",
    "the second is older",
    "gone and back at 0",
    "on over a refused test",
    "on over a step",
    "on over a placement",
    "at 0 after a new first",
    "at 0 after a new second",
    "one old point, two of its id",
    "two old points of one id",
    "the first's match is the second",
    "the second's match is the first",
    "pieces of different ages",
];
