//! Frame 05: the test of a pair.
use super::corner::no_zero_normal;
use super::shapes::Shape::{self, Circle, Outline, Wall};
use super::{Answer, Body, Contact, Line, Pair, Program};
use crate::ranges::{within, CONTACT, LOCAL_NORMAL, SIZE};
use box2d_rs::b2_collision::*;
use box2d_rs::b2_math::B2vec2;
use box2d_rs::shapes::b2_polygon_shape::B2polygonShape;
use std::panic::{catch_unwind, AssertUnwindSafe};

fn put(line: &mut Line, number: f32) {
    line.put(&number.to_bits().to_be_bytes());
}

fn put_point(line: &mut Line, p: B2vec2) {
    put(line, p.x);
    put(line, p.y);
}

/// The contact of a piece of a with b, a listed pair: 13 of others, 2 by a stored centroid, 8.
fn contact(piece: &Shape, a: &Body, b: &Body) -> Result<B2manifold, u8> {
    let mut m = B2manifold::default();
    let (xf_a, xf_b) = (&a.place, &b.place);
    let tested = |outlines: &[&B2polygonShape]| {
        let size = |p: &&B2polygonShape| within(&[p.m_centroid.x.to_bits(), p.m_centroid.y.to_bits()], SIZE);
        if outlines.iter().all(size) {
            Ok(())
        } else {
            Err(2)
        }
    };
    match (piece, &b.shape) {
        (Circle(a), Circle(b)) => b2_collide_circles(&mut m, a, xf_a, b, xf_b),
        (Outline(a), Circle(b)) => {
            tested(&[a])?;
            b2_collide_polygon_and_circle(&mut m, a, xf_a, b, xf_b);
            no_zero_normal(&mut m, a, xf_a, b, xf_b)
        }
        (Outline(a), Outline(b)) => {
            tested(&[a, b])?;
            b2_collide_polygons(&mut m, a, xf_a, b, xf_b)
        }
        (Wall(a), Circle(b)) => {
            let call = AssertUnwindSafe(|| b2_collide_edge_and_circle(&mut m, a, xf_a, b, xf_b));
            catch_unwind(call).map_err(|_| 8)?
        }
        (Wall(a), Outline(b)) => {
            tested(&[b])?;
            b2_collide_edge_and_polygon(&mut m, a, xf_a, b, xf_b)
        }
        _ => return Err(13),
    }
    Ok(m)
}

/// World points' own refusal. Nothing in the ranges of shapes and placements comes near these limits.
fn given(m: &B2manifold) -> Result<(), u8> {
    let bits = |p: &B2vec2| [p.x.to_bits(), p.y.to_bits()];
    let points = m.points[..m.point_count].iter().all(|p| within(&bits(&p.local_point), CONTACT));
    let plane = within(&bits(&m.local_point), CONTACT) && within(&bits(&m.local_normal), LOCAL_NORMAL);
    if points && (plane || m.point_count == 0) {
        Ok(())
    } else {
        Err(9)
    }
}

/// 05 a b: 12, 13, then the contacts' refusals, of which the first is the answer and leaves every piece as it was.
pub fn test(program: &mut Program, frame: &[u8]) -> Answer {
    let ids = [frame[1], frame[2]];
    let both = ids.map(|id| program.bodies[id as usize].as_ref().ok_or(12));
    let (a, b) = (both[0]?, both[1]?);
    if ids[0] == ids[1] {
        return Err(13);
    }
    let found = a.shape.pieces().iter().map(|piece| {
        let m = contact(piece, a, b)?;
        given(&m).map(|()| m)
    });
    let found = found.collect::<Result<Vec<B2manifold>, u8>>()?;
    let place = program.pairs.iter().position(|pair| pair.ids == ids).unwrap_or_else(|| {
        program.pairs.push(Pair { ids, contacts: vec![Contact::default(); found.len()] });
        program.pairs.len() - 1
    });
    let contacts = &mut program.pairs[place].contacts;
    Ok(found.iter().zip(contacts).map(|(m, kept)| line(frame, kept, m, a, b)).collect())
}

/// How long a point has been there: one more than the first old point with its id had; 0 where none has it.
fn age(id: B2contactId, kept: &Contact) -> u32 {
    let old = kept.last.and_then(|last| last.points[..last.point_count].iter().position(|point| point.id == id));
    old.map_or(0, |place| kept.ages[place].saturating_add(1))
}

/// The line of a piece and its new contact, which is kept. A touch begins at a test that finds points where the last
/// test found none, or where there was no last test; a refused test is none.
fn line(frame: &[u8], kept: &mut Contact, m: &B2manifold, a: &Body, b: &Body) -> Line {
    let mut world = B2worldManifold::default();
    world.initialize(m, a.place, a.shape.radius(), b.place, b.shape.radius());
    let (mut old, mut new) = ([B2pointState::B2NullState; 2], [B2pointState::B2NullState; 2]);
    b2_get_point_states(&mut old, &mut new, &kept.last.unwrap_or_default(), m);
    let begins = m.point_count > 0 && kept.last.map_or(true, |last| last.point_count == 0);
    let ages = m.points.map(|point| age(point.id, kept));
    *kept = Contact { last: Some(*m), ages, touches: kept.touches.saturating_add(begins as u32) };

    let kind = if m.point_count == 0 { 0 } else { m.manifold_type as u8 };
    let mut line = Line::of(frame);
    line.put(&[m.point_count as u8, kind]);
    line.put(&[old[0], old[1], new[0], new[1]].map(|state| state as u8));
    line.put(&kept.touches.to_be_bytes());
    if m.point_count > 0 {
        put_point(&mut line, world.normal);
    }
    for i in 0..m.point_count {
        put_point(&mut line, world.points[i]);
        put(&mut line, world.separations[i]);
        line.put(&kept.ages[i].to_be_bytes());
    }
    line
}
