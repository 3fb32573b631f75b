//! Request 04's three steps of the square root, by the papers' words.

/// 0 special: zeros, infinities, NaNs and all below 0; 1 exact: the others whose root is an f32; 2 rounded: the rest. A
/// product of two f32 is exact as an f64.
pub fn step(x: f32, root: f32) -> u32 {
    if x.is_nan() || x.is_infinite() || x <= 0.0 {
        0
    } else if root as f64 * root as f64 == x as f64 {
        1
    } else {
        2
    }
}
