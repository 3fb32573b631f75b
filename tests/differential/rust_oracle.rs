//! The unmodified Rust behind the request numbers of `calls`, on words. A panic of the Rust is `None`. Contacts are
//! in rust_contacts.
use crate::rust_contacts;
use crate::steps::step;
use box2d_rs::b2_common::{B2_EPSILON, B2_POLYGON_RADIUS};
use box2d_rs::b2_math::{b2_sqrt, B2vec2};
use box2d_rs::private::collision::{b2_edge_shape, b2_polygon_shape};
use box2d_rs::shapes::b2_edge_shape::B2edgeShape;
use box2d_rs::shapes::b2_polygon_shape::B2polygonShape;
use std::panic::{catch_unwind, AssertUnwindSafe};

pub struct Reader<'a>(pub std::slice::Iter<'a, u32>);

impl Reader<'_> {
    pub fn word(&mut self) -> u32 {
        *self.0.next().expect("a longer request")
    }
    pub fn number(&mut self) -> f32 {
        f32::from_bits(self.word())
    }
    pub fn vec(&mut self) -> B2vec2 {
        let x = self.number();
        B2vec2::new(x, self.number())
    }
    pub fn polygon(&mut self) -> B2polygonShape {
        let mut p = B2polygonShape::default();
        assert_eq!(p.base.m_radius, B2_POLYGON_RADIUS);
        p.base.m_radius = self.number();
        p.m_centroid = self.vec();
        p.m_count = self.word() as usize;
        p.m_vertices.iter_mut().for_each(|v| *v = self.vec());
        p.m_normals.iter_mut().for_each(|v| *v = self.vec());
        p
    }
    pub fn edge(&mut self) -> B2edgeShape {
        let mut e = B2edgeShape::default();
        e.base.m_radius = self.number();
        e.m_one_sided = self.word() != 0;
        e.m_vertex0 = self.vec();
        e.m_vertex1 = self.vec();
        e.m_vertex2 = self.vec();
        e.m_vertex3 = self.vec();
        e
    }
}

pub fn vec_words(v: B2vec2) -> [u32; 2] {
    [v.x.to_bits(), v.y.to_bits()]
}

pub fn polygon_words(p: &B2polygonShape) -> Vec<u32> {
    let mut words = vec![p.base.m_radius.to_bits()];
    words.extend(vec_words(p.m_centroid));
    words.push(p.m_count as u32);
    p.m_vertices.iter().chain(&p.m_normals).for_each(|v| words.extend(vec_words(*v)));
    words
}

pub fn edge_words(e: &B2edgeShape) -> Vec<u32> {
    let mut words = vec![e.base.m_radius.to_bits(), e.m_one_sided as u32];
    [e.m_vertex0, e.m_vertex1, e.m_vertex2, e.m_vertex3].iter().for_each(|v| words.extend(vec_words(*v)));
    words
}

/// The record after the call, without a refusal; `None` where the Rust panics. Sine and cosine are those set for the
/// process.
pub fn answer(request: &[u32]) -> Option<Vec<u32>> {
    catch_unwind(AssertUnwindSafe(|| record(request))).ok()
}

fn record(request: &[u32]) -> Vec<u32> {
    let mut from = Reader(request.iter());
    match from.word() {
        1 => {
            let mut p = from.polygon();
            let n = from.word();
            let points: Vec<B2vec2> = (0..n).map(|_| from.vec()).collect();
            b2_polygon_shape::b2_polygon_shape_set(&mut p, &points);
            polygon_words(&p)
        }
        2 => {
            let mut p = from.polygon();
            let hx = from.number();
            b2_polygon_shape::b2_polygon_shape_set_as_box(&mut p, hx, from.number());
            polygon_words(&p)
        }
        3 => {
            let mut p = from.polygon();
            let (hx, hy, center) = (from.number(), from.number(), from.vec());
            b2_polygon_shape::b2_polygon_shape_set_as_box_angle(&mut p, hx, hy, center, std::hint::black_box(0.5));
            polygon_words(&p)
        }
        4 => vec![b2_polygon_shape::b2_polygon_shape_validate(from.polygon()) as u32],
        5 => {
            let mut e = from.edge();
            let (v0, v1, v2) = (from.vec(), from.vec(), from.vec());
            b2_edge_shape::b2_set_one_sided(&mut e, v0, v1, v2, from.vec());
            edge_words(&e)
        }
        6 => {
            let mut e = from.edge();
            let v1 = from.vec();
            b2_edge_shape::b2_set_two_sided(&mut e, v1, from.vec());
            edge_words(&e)
        }
        15 => vec![b2_sqrt(from.number()).to_bits()],
        16 => {
            // request 07: whether there was a length, behind what the Rust answers
            let mut v = from.vec();
            let had = v.length() >= B2_EPSILON;
            let mut words = vec![v.normalize().to_bits()];
            words.extend(vec_words(v));
            words.push(had as u32);
            words
        }
        18 => {
            let x = from.number();
            let root = b2_sqrt(x);
            vec![step(x, root), root.to_bits()]
        }
        entry => rust_contacts::record(entry, from),
    }
}
