//! What the rows share: our C entries on words, words compared with one NaN, random numbers, and the count of a
//! comparison.
use std::collections::BTreeMap;

extern "C" {
    // A `&[u8]` of Rattle is a pointer and a length.
    #[link_name = "calls"]
    fn calls_raw(input: *const u8, input_len: usize, out: *mut u8, out_len: usize) -> u32;
    #[link_name = "measured_calls"]
    fn measured_calls_raw(input: *const u8, input_len: usize, out: *mut u8, out_len: usize) -> u32;
}

pub fn to_bytes(words: &[u32]) -> Vec<u8> {
    words.iter().flat_map(|w| w.to_be_bytes()).collect()
}

pub fn to_words(bytes: &[u8]) -> Vec<u32> {
    bytes.chunks_exact(4).map(|b| u32::from_be_bytes([b[0], b[1], b[2], b[3]])).collect()
}

/// The number of words that `calls` says it wrote; `out` is what it left.
pub fn calls_bytes(input: &[u8], out: &mut [u8]) -> u32 {
    unsafe { calls_raw(input.as_ptr(), input.len(), out.as_mut_ptr(), out.len()) }
}

/// The same of `measured_calls`.
pub fn measured_calls_bytes(input: &[u8], out: &mut [u8]) -> u32 {
    unsafe { measured_calls_raw(input.as_ptr(), input.len(), out.as_mut_ptr(), out.len()) }
}

/// A request in words and its answer in words; a malformed request has none.
pub fn calls(request: &[u32]) -> Vec<u32> {
    let mut out = [0u8; 256];
    let count = calls_bytes(&to_bytes(request), &mut out) as usize;
    to_words(&out[..4 * count])
}

/// The same of measured bodies.
pub fn measured_calls(request: &[u32]) -> Vec<u32> {
    let mut out = [0u8; 256];
    let count = measured_calls_bytes(&to_bytes(request), &mut out) as usize;
    to_words(&out[..4 * count])
}

/// Words for a comparison: every NaN is one value. Those at the places `plain` are no floats.
pub fn one_nan(words: &[u32], plain: &[usize]) -> Vec<u32> {
    let nan = |w: u32| if f32::from_bits(w).is_nan() { 0x7fc0_0000 } else { w };
    words.iter().enumerate().map(|(i, w)| if plain.contains(&i) { *w } else { nan(*w) }).collect()
}

/// xorshift64*, from a seed that is printed with every result.
pub struct Random(u64);

impl Random {
    pub fn new(seed: u64) -> Random {
        Random(seed.wrapping_mul(0x9e37_79b9_7f4a_7c15) | 1)
    }

    pub fn next(&mut self) -> u64 {
        self.0 ^= self.0 >> 12;
        self.0 ^= self.0 << 25;
        self.0 ^= self.0 >> 27;
        self.0.wrapping_mul(0x2545_f491_4f6c_dd1d)
    }

    pub fn below(&mut self, n: u64) -> u64 {
        (self.next() >> 11) % n
    }

    pub fn of<T: Copy>(&mut self, list: &[T]) -> T {
        list[self.below(list.len() as u64) as usize]
    }

    /// True once in n.
    pub fn once_in(&mut self, n: u64) -> bool {
        self.below(n) == 0
    }
}

/// Counts of one comparison, printed in one line of the form that the suites read.
pub struct Tally {
    name: String,
    pub cases: u64,
    differences: u64,
    notes: BTreeMap<String, u64>,
}

impl Tally {
    pub fn new(name: &str) -> Tally {
        Tally { name: name.to_string(), cases: 0, differences: 0, notes: BTreeMap::new() }
    }

    /// One case, right or not; the first wrong ones are printed with what they were given.
    pub fn case(&mut self, right: bool, what: impl Fn() -> String) {
        self.cases += 1;
        if !right {
            self.differences += 1;
            if self.differences <= 5 {
                println!("  {}: {}", self.name, what());
            }
        }
    }

    /// How often something was met that a good generator meets.
    pub fn met(&mut self, what: &str) {
        match self.notes.get_mut(what) {
            Some(n) => *n += 1,
            None => drop(self.notes.insert(what.to_string(), 1)),
        }
    }

    /// Prints the line and answers whether the comparison passed: no difference, and everything wanted was met.
    pub fn report(&self, wanted: &[String]) -> bool {
        let missing: Vec<&String> = wanted.iter().filter(|w| !self.notes.contains_key(*w)).collect();
        let notes: Vec<String> = self.notes.iter().map(|(w, n)| format!("{w} {n}")).collect();
        let passed = self.differences == 0 && missing.is_empty() && self.cases > 0;
        println!(
            "{}: {}: {} cases, {} differences; {}{}",
            if passed { "ok" } else { "FAILED" },
            self.name,
            self.cases,
            self.differences,
            notes.join(", "),
            if missing.is_empty() { String::new() } else { format!("; never met: {missing:?}") }
        );
        passed
    }
}
