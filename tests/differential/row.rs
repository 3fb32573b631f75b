//! What a comparison has to know of an entry.
use crate::support::Random;

pub struct Row {
    pub name: &'static str,
    /// The number of the request, by which both oracles go.
    pub entry: u32,
    /// The file of tests/stored that has answers of it.
    pub stored: &'static str,
    pub generate: fn(&mut Random) -> Vec<u32>,
    /// The refusal that document 01 adds to the references', by the harness's own test of counts and ranges.
    pub refusal: fn(&[u32]) -> u32,
    /// The refusals that an assert of a reference can stand for; of the Rust's panics nothing tells which.
    #[cfg_attr(not(papers), allow(dead_code))]
    pub panics: &'static [u32],
    /// What a run has to meet: 0 for accepted, and the refusals that can be reached.
    pub reachable: &'static [u32],
    /// What a refused call answers after the refusal.
    pub refused: fn(&[u32]) -> Vec<u32>,
    /// What document 02 changes of a reference's record; false where the reference had something else there.
    pub mend: fn(&[u32], &mut [u32]) -> bool,
    /// Words of a request, for entry 1 without its points, and of the record in the answer.
    pub length: usize,
    pub record: usize,
    /// Words of the record that are no floats.
    pub plain: &'static [usize],
    /// Words of the request that hold at most a number, or it is malformed.
    pub closed: &'static [(usize, u32)],
    /// What is counted of a request and its answer, and what of it must be met.
    pub kinds: fn(&[u32], &[u32]) -> Vec<&'static str>,
    pub wanted: &'static [&'static str],
    pub ours: fn(&[u32]) -> Vec<u32>,
}
