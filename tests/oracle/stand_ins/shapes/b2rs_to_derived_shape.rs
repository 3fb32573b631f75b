use crate::shapes::b2_circle_shape::B2circleShape;
use crate::shapes::b2_edge_shape::B2edgeShape;
use crate::shapes::b2_polygon_shape::B2polygonShape;

pub trait ToDerivedShape {}
impl ToDerivedShape for B2circleShape {}
impl ToDerivedShape for B2edgeShape {}
impl ToDerivedShape for B2polygonShape {}
