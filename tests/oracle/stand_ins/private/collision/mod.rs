pub mod b2_circle_shape;
pub mod b2_collide_circle;
pub mod b2_collide_edge;
pub mod b2_collide_polygon;
pub mod b2_collision;
pub mod b2_edge_shape;
pub mod b2_polygon_shape;
