//! Document 02's request 07 over the unmodified Rust: where normalising had no length, the normal is the chosen face's.
use box2d_rs::b2_collision::B2manifold;
use box2d_rs::b2_common::B2_EPSILON;
use box2d_rs::b2_math::*;
use box2d_rs::shapes::b2_circle_shape::B2circleShape;
use box2d_rs::shapes::b2_polygon_shape::B2polygonShape;
use std::sync::atomic::{AtomicUsize, Ordering::Relaxed};

/// How often it came to that: at the first corner of the face, at the second, and how many of these were turned.
pub static FACE_NORMALS: [AtomicUsize; 3] = [AtomicUsize::new(0), AtomicUsize::new(0), AtomicUsize::new(0)];

/// A manifold of outline against circle after the Rust's call. Made unit a vector has a length, and so have all normals
/// of a built outline: one without is what normalising left as it was. The chosen face is the first of those that the
/// circle's centre is most out of.
pub fn no_zero_normal(
    m: &mut B2manifold,
    outline: &B2polygonShape,
    xf_a: &B2Transform,
    circle: &B2circleShape,
    xf_b: &B2Transform,
) {
    if m.point_count == 0 || m.local_normal.length() >= B2_EPSILON {
        return;
    }
    let centre = b2_mul_t_transform_by_vec2(*xf_a, b2_mul_transform_by_vec2(*xf_b, circle.m_p));
    let out_by = |i: usize| b2_dot(outline.m_normals[i], centre - outline.m_vertices[i]);
    // of equals `max_by` takes the last
    let face = (0..outline.m_count).rev().max_by(|i, j| out_by(*i).total_cmp(&out_by(*j))).unwrap_or(0);
    m.local_normal = outline.m_normals[face];
    let second = m.local_point != outline.m_vertices[face];
    FACE_NORMALS[second as usize].fetch_add(1, Relaxed);
    FACE_NORMALS[2].fetch_add((xf_a.q.s != 0.0 && xf_a.q.c != 0.0) as usize, Relaxed);
}
