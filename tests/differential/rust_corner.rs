//! The corner at which the unmodified Rust's outline against circle ends, by its own functions and in its order.
use crate::contacts::MANIFOLD;
use crate::rust_oracle::Reader;
use crate::short_corner::Corner;
use box2d_rs::b2_common::{B2_EPSILON, B2_MAX_FLOAT};
use box2d_rs::b2_math::*;

pub fn of(request: &[u32]) -> Option<Corner> {
    let mut from = Reader(request[1 + MANIFOLD..].iter());
    let (outline, xf_a, circle, xf_b) = (from.polygon(), from.transform(), from.circle(), from.transform());
    let c = b2_mul_t_transform_by_vec2(xf_a, b2_mul_transform_by_vec2(xf_b, circle.m_p));
    let radius = outline.base.m_radius + circle.base.m_radius;
    let (mut face, mut separation) = (0, -B2_MAX_FLOAT);
    for i in 0..outline.m_count {
        let s = b2_dot(outline.m_normals[i], c - outline.m_vertices[i]);
        if s > radius {
            return None;
        }
        if s > separation {
            (face, separation) = (i, s);
        }
    }
    let next = if face + 1 < outline.m_count { face + 1 } else { 0 };
    let (v1, v2) = (outline.m_vertices[face], outline.m_vertices[next]);
    let (u1, u2) = (b2_dot(c - v1, v2 - v1), b2_dot(c - v2, v1 - v2));
    if separation < B2_EPSILON || u1 > 0.0 && u2 > 0.0 {
        return None;
    }
    let second = u1 > 0.0;
    let corner = if second { v2 } else { v1 };
    if b2_distance_vec2_squared(c, corner) > radius * radius {
        return None;
    }
    let offset = c - corner;
    Some(Corner { face, second, offset: [offset.x, offset.y], length: offset.length() })
}
