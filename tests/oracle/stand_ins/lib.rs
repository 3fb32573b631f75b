//! The module tree around the unmodified Rust sources. The modules named in the stand-ins' own files are not among the
//! papers; nothing that is compared reaches them, and each of their functions panics, so that a call would show.
#![allow(warnings)]
pub mod b2_collision;
pub mod b2_common;
pub mod b2_distance;
pub mod b2_math;
pub mod b2_settings;
pub mod b2_shape;
pub mod private;
pub mod shapes;
