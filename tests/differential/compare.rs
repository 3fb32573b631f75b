//! What the references at hand say of a request, and ours held to it. `papers` and `box2d` say which were built.
#[cfg(box2d)]
use crate::box2d_oracle;
use crate::row::Row;
#[cfg(papers)]
use crate::rust_oracle;
use crate::support::{one_nan, Random, Tally};

pub const REFERENCES: usize = cfg!(papers) as usize + cfg!(box2d) as usize;

/// The refusals that it may be, of which one is ours to give, and the words after it.
#[derive(Debug)]
pub struct Answer {
    pub refusals: Vec<u32>,
    pub record: Vec<u32>,
}

impl Answer {
    fn of(words: &[u32]) -> Answer {
        Answer { refusals: words[..1].to_vec(), record: words[1..].to_vec() }
    }

    fn agrees(&self, other: &Answer, plain: &[usize]) -> bool {
        self.refusals.iter().any(|r| other.refusals.contains(r))
            && one_nan(&self.record, plain) == one_nan(&other.record, plain)
    }
}

/// The record of an accepted request, by one reference.
pub fn accepted(request: &[u32]) -> Option<Vec<u32>> {
    #[cfg(papers)]
    return rust_oracle::answer(request);
    #[cfg(all(box2d, not(papers)))]
    return box2d_oracle::answer(request)
        .split_first()
        .filter(|(refusal, _)| **refusal == 0)
        .map(|(_, record)| record.to_vec());
    #[cfg(not(any(box2d, papers)))]
    return request.get(usize::MAX).map(|_| Vec::new());
}

/// What each reference at hand says.
fn references(row: &Row, request: &[u32]) -> Vec<Answer> {
    if request[0] == 3 {
        unsafe { set_turn(f32::from_bits(request[41]), f32::from_bits(request[42])) };
    }
    let mut answers = Vec::new();
    #[cfg(papers)]
    answers.push(match rust_oracle::answer(request) {
        Some(record) => Answer { refusals: vec![0], record },
        None => Answer { refusals: row.panics.to_vec(), record: (row.refused)(request) },
    });
    #[cfg(box2d)]
    answers.push(Answer::of(&box2d_oracle::answer(request)));
    let _ = (&mut answers, row);
    answers
}

extern "C" {
    // What sine and cosine give from now on, in this process: the Rust's and Box2D's (tests/differential/turn.c).
    fn set_turn(sine: f32, cosine: f32);
}

/// What a request is to be answered, whether the references agree on it, and whether they were asked.
pub fn expected(row: &Row, request: &[u32]) -> (Answer, bool, bool) {
    let refusal = (row.refusal)(request);
    if refusal > 0 {
        return (Answer { refusals: vec![refusal], record: (row.refused)(request) }, true, false);
    }
    let mut answers = references(row, request);
    let mended = answers.iter_mut().all(|a| (row.mend)(request, &mut a.record));
    let last = answers.pop().expect("a reference");
    let agree = mended && answers.iter().all(|a| a.agrees(&last, row.plain));
    (last, agree, true)
}

fn refusal_name(number: u32) -> String {
    if number == 0 {
        "accepted".to_string()
    } else {
        format!("refusal {number}")
    }
}

/// One row, until `cases` were asked of the references.
pub fn run(row: &Row, cases: u64, seed: u64) -> bool {
    let mut random = Random::new(seed);
    let mut tally = Tally::new(row.name);
    let mut asked = 0;
    // a generator that seldom is in range fails instead of running on
    while asked < cases && tally.cases < 6 * cases {
        let request = (row.generate)(&mut random);
        let (answer, agree, of_references) = expected(row, &request);
        asked += of_references as u64;
        let ours = (row.ours)(&request);
        let right = !ours.is_empty() && Answer::of(&ours).agrees(&answer, row.plain);
        tally.case(agree && right, || {
            let references = if agree {
                format!("the references {answer:08x?}")
            } else {
                "the references do not agree".to_string()
            };
            format!("{request:08x?} gives {ours:08x?}; {references}")
        });
        // where nothing else tells the number of a refusal, ours does
        let number =
            if answer.refusals.len() == 1 { answer.refusals[0] } else { ours.first().map_or(0, |refusal| *refusal) };
        tally.met(&refusal_name(number));
        if number == 0 {
            let mut words = vec![0];
            words.extend(&answer.record);
            (row.kinds)(&request, &words).iter().for_each(|kind| tally.met(kind));
        }
    }
    let mut wanted: Vec<String> = row.reachable.iter().map(|number| refusal_name(*number)).collect();
    wanted.extend(row.wanted.iter().map(|kind| kind.to_string()));
    if asked < cases {
        wanted.push("enough cases asked of the references".to_string());
    }
    tally.report(&wanted)
}
