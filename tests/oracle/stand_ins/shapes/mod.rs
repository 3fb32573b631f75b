pub mod b2_circle_shape;
pub mod b2_edge_shape;
pub mod b2_polygon_shape;
pub mod b2rs_to_derived_shape;
