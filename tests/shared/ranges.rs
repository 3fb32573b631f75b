//! Document 01's ranges on words of a request, and the refusals that they give: the harness's own, which no reference
//! has.

/// The limits of shape numbers, of sine and cosine, of stored normals, of numbers of clips and given manifolds, of
/// their local normal.
pub const SIZE: f32 = 1048576.0;
pub const TURN: f32 = 1.0;
pub const NORMAL: f32 = 2.0;
pub const CONTACT: f32 = 1073741824.0;
pub const LOCAL_NORMAL: f32 = 8.0;

pub const POLYGON: usize = 36;
pub const EDGE: usize = 10;

/// Finite and of at most this magnitude, all of them.
pub fn within(words: &[u32], limit: f32) -> bool {
    words.iter().all(|w| f32::from_bits(*w).abs() <= limit)
}

/// 0 to the limit; -0 is 0.
pub fn radius(word: u32) -> bool {
    f32::from_bits(word) >= 0.0 && within(&[word], SIZE)
}

/// A placement: position, sine and cosine.
pub fn transform(record: &[u32]) -> bool {
    within(&record[..2], SIZE) && within(&record[2..4], TURN)
}

/// An outline's numbers: radius, centroid, and the vertices and normals that a count of at most 8 takes in.
pub fn polygon(record: &[u32]) -> bool {
    let kept = 2 * record[3].min(8) as usize;
    radius(record[0])
        && within(&record[1..3], SIZE)
        && within(&record[4..4 + kept], SIZE)
        && within(&record[20..20 + kept], NORMAL)
}

/// The first number of a list whose test does not hold, 0 where all do.
pub fn first(tests: &[(u32, bool)]) -> u32 {
    tests.iter().find(|(_, holds)| !holds).map_or(0, |(number, _)| *number)
}
