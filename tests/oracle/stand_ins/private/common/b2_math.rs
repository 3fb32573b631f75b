use crate::b2_math::*;

const ABSENT: &str = "not among the papers";

pub fn solve33(_: B2Mat33, _: B2Vec3) -> B2Vec3 {
    panic!("{ABSENT}")
}
pub fn solve22(_: B2Mat33, _: B2vec2) -> B2vec2 {
    panic!("{ABSENT}")
}
pub fn get_inverse22(_: B2Mat33, _: &mut B2Mat33) {
    panic!("{ABSENT}")
}
pub fn get_sym_inverse33(_: B2Mat33, _: &mut B2Mat33) {
    panic!("{ABSENT}")
}
