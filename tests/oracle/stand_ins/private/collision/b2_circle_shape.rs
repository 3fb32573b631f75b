use crate::b2_collision::*;
use crate::b2_math::*;
use crate::b2_shape::*;
use crate::shapes::b2_circle_shape::*;

const ABSENT: &str = "not among the papers";

pub fn clone(_: &B2circleShape) -> Box<dyn B2shapeDynTrait> {
    panic!("{ABSENT}")
}
pub fn get_child_count(_: &B2circleShape) -> usize {
    panic!("{ABSENT}")
}
pub fn test_point(_: &B2circleShape, _: B2Transform, _: B2vec2) -> bool {
    panic!("{ABSENT}")
}
pub fn ray_cast(
    _: &B2circleShape,
    _: &mut B2rayCastOutput,
    _: &B2rayCastInput,
    _: B2Transform,
    _: usize,
) -> bool {
    panic!("{ABSENT}")
}
pub fn compute_aabb(_: &B2circleShape, _: &mut B2AABB, _: B2Transform, _: usize) {
    panic!("{ABSENT}")
}
pub fn compute_mass(_: &B2circleShape, _: &mut B2massData, _: f32) {
    panic!("{ABSENT}")
}
