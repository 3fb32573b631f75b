//! Entries 7 to 14 of the unmodified Rust: the five contact calls, clips, world points, point states.
use crate::rust_oracle::{vec_words, Reader};
use box2d_rs::b2_collision::*;
use box2d_rs::b2_math::{B2Rot, B2Transform};
use box2d_rs::shapes::b2_circle_shape::B2circleShape;

const KINDS: [B2manifoldType; 3] = [B2manifoldType::ECircles, B2manifoldType::EFaceA, B2manifoldType::EFaceB];
const STATES: [B2pointState; 4] =
    [B2pointState::B2NullState, B2pointState::B2AddState, B2pointState::B2PersistState, B2pointState::B2RemoveState];

impl Reader<'_> {
    pub fn circle(&mut self) -> B2circleShape {
        let mut c = B2circleShape::default();
        c.base.m_radius = self.number();
        c.m_p = self.vec();
        c
    }
    pub fn transform(&mut self) -> B2Transform {
        let p = self.vec();
        let s = self.number();
        B2Transform { p, q: B2Rot { s, c: self.number() } }
    }
    fn id(&mut self) -> B2contactId {
        let [index_a, index_b, type_a, type_b] = self.word().to_be_bytes();
        B2contactId { cf: B2contactFeature { index_a, index_b, type_a, type_b } }
    }
    fn manifold(&mut self) -> B2manifold {
        let mut m = B2manifold::default();
        m.manifold_type = KINDS[self.word() as usize];
        m.point_count = self.word() as usize;
        m.local_normal = self.vec();
        m.local_point = self.vec();
        for p in m.points.iter_mut() {
            p.local_point = self.vec();
            p.normal_impulse = self.number();
            p.tangent_impulse = self.number();
            p.id = self.id();
        }
        m
    }
    fn clip_vertices(&mut self) -> [B2clipVertex; 2] {
        let mut one = || B2clipVertex { v: self.vec(), id: self.id() };
        [one(), one()]
    }
}

fn id_word(id: B2contactId) -> u32 {
    u32::from_be_bytes([id.cf.index_a, id.cf.index_b, id.cf.type_a, id.cf.type_b])
}

fn manifold_words(m: &B2manifold) -> Vec<u32> {
    let mut words = vec![m.manifold_type as u32, m.point_count as u32];
    words.extend(vec_words(m.local_normal));
    words.extend(vec_words(m.local_point));
    for p in &m.points {
        words.extend(vec_words(p.local_point));
        words.extend([p.normal_impulse.to_bits(), p.tangent_impulse.to_bits(), id_word(p.id)]);
    }
    words
}

/// A contact call on a manifold.
fn collide(mut m: B2manifold, call: impl FnOnce(&mut B2manifold)) -> Vec<u32> {
    call(&mut m);
    manifold_words(&m)
}

pub fn record(entry: u32, mut from: Reader) -> Vec<u32> {
    match entry {
        7 => {
            let (m, a, xf_a, b, xf_b) =
                (from.manifold(), from.circle(), from.transform(), from.circle(), from.transform());
            collide(m, |m| b2_collide_circles(m, &a, &xf_a, &b, &xf_b))
        }
        8 => {
            let (m, a, xf_a, b, xf_b) =
                (from.manifold(), from.polygon(), from.transform(), from.circle(), from.transform());
            collide(m, |m| b2_collide_polygon_and_circle(m, &a, &xf_a, &b, &xf_b))
        }
        9 => {
            let (m, a, xf_a, b, xf_b) =
                (from.manifold(), from.polygon(), from.transform(), from.polygon(), from.transform());
            collide(m, |m| b2_collide_polygons(m, &a, &xf_a, &b, &xf_b))
        }
        10 => {
            let (m, a, xf_a, b, xf_b) =
                (from.manifold(), from.edge(), from.transform(), from.circle(), from.transform());
            collide(m, |m| b2_collide_edge_and_circle(m, &a, &xf_a, &b, &xf_b))
        }
        11 => {
            let (m, a, xf_a, b, xf_b) =
                (from.manifold(), from.edge(), from.transform(), from.polygon(), from.transform());
            collide(m, |m| b2_collide_edge_and_polygon(m, &a, &xf_a, &b, &xf_b))
        }
        12 => {
            let (mut output, input) = (from.clip_vertices(), from.clip_vertices());
            let (normal, offset) = (from.vec(), from.number());
            let count = b2_clip_segment_to_line(&mut output, input, normal, offset, from.word() as usize);
            let mut words = vec![count as u32];
            for v in &output {
                words.extend(vec_words(v.v));
                words.push(id_word(v.id));
            }
            words
        }
        13 => {
            let mut w = B2worldManifold::default();
            w.normal = from.vec();
            w.points.iter_mut().for_each(|p| *p = from.vec());
            w.separations.iter_mut().for_each(|s| *s = from.number());
            let (m, xf_a, radius_a) = (from.manifold(), from.transform(), from.number());
            let xf_b = from.transform();
            w.initialize(&m, xf_a, radius_a, xf_b, from.number());
            let mut words = vec_words(w.normal).to_vec();
            w.points.iter().for_each(|p| words.extend(vec_words(*p)));
            words.extend(w.separations.iter().map(|s| s.to_bits()));
            words
        }
        14 => {
            let mut state = || STATES[from.word() as usize];
            let (mut states1, mut states2) = ([state(), state()], [state(), state()]);
            let (m1, m2) = (from.manifold(), from.manifold());
            b2_get_point_states(&mut states1, &mut states2, &m1, &m2);
            states1.iter().chain(&states2).map(|s| *s as u32).collect()
        }
        entry => panic!("no entry {entry} of the Rust"),
    }
}
