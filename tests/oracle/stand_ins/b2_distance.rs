use crate::b2_math::B2Transform;
use crate::b2_shape::ShapePtr;

#[derive(Default)]
pub struct B2distanceProxy;

impl B2distanceProxy {
    pub fn set_shape(&mut self, _: ShapePtr, _: usize) {
        panic!("not among the papers")
    }
}

pub struct B2distanceInput {
    pub proxy_a: B2distanceProxy,
    pub proxy_b: B2distanceProxy,
    pub transform_a: B2Transform,
    pub transform_b: B2Transform,
    pub use_radii: bool,
}

#[derive(Default)]
pub struct B2simplexCache {
    pub metric: f32,
    pub count: u16,
    pub index_a: [u8; 3],
    pub index_b: [u8; 3],
}

#[derive(Default)]
pub struct B2distanceOutput {
    pub distance: f32,
}

pub fn b2_distance_fn(_: &mut B2distanceOutput, _: &mut B2simplexCache, _: &B2distanceInput) {
    panic!("not among the papers")
}
