//! The kinds of frame, a row each: how heats send it, what is wrong in the ones that are refused, and what a run has to
//! meet of it. A new kind of frame is a new row here, a function for what is wrong in it, and, where bodies are made or
//! moved by it, a place in the heats.
use crate::chains::{chain, POINTS};
use crate::generators::{float, unit};
use crate::ranges::SIZE;
use crate::robots::{angle, body_of, floats, heading_frame, place_frame, point, shape_frame, turn_number};
use crate::robots::{Kind as Shape, TURN};
use crate::support::Random;

pub struct Kind {
    pub kind: u8,
    pub name: &'static str,
    /// Whether it makes a shape under its id.
    pub makes_shape: bool,
    /// Whether its third byte is a count or a flag.
    pub third: bool,
    /// A well-formed frame for an id, of a random body.
    pub any: fn(&mut Random, u8) -> Vec<u8>,
    /// A well-formed frame that is, mostly, refused, and how often it is drawn.
    pub refused: fn(&mut Random, u8) -> Vec<u8>,
    pub weight: usize,
    /// The refusals that a run has to meet, but for 10.
    pub refusals: &'static [u8],
}

pub static KINDS: [Kind; 7] = [
    Kind {
        kind: 1,
        name: "circle",
        makes_shape: true,
        third: false,
        any: |random, id| shape_frame(id, &body_of(random, 1.0, Shape::Circle)),
        refused: circle,
        weight: 2,
        refusals: &[2, 11],
    },
    Kind {
        kind: 2,
        name: "outline",
        makes_shape: true,
        third: true,
        any: |random, id| shape_frame(id, &body_of(random, 1.0, Shape::Outline)),
        refused: outline,
        weight: 8,
        refusals: &[1, 2, 3, 4, 5, 11],
    },
    Kind {
        kind: 3,
        name: "wall",
        makes_shape: true,
        third: true,
        any: |random, id| shape_frame(id, &body_of(random, 1.0, Shape::Wall)),
        refused: wall,
        weight: 2,
        refusals: &[2, 11],
    },
    Kind {
        kind: 4,
        name: "place",
        makes_shape: false,
        third: false,
        any: |random, id| {
            let mut body = body_of(random, 1.0, Shape::Circle);
            (body.at, body.turn) = (point(random, 1.0), angle(random));
            place_frame(id, &body)
        },
        refused: place,
        weight: 2,
        refusals: &[6, 11, 12],
    },
    Kind {
        kind: 5,
        name: "test",
        makes_shape: false,
        third: false,
        any: |_, id| vec![5, id, 1],
        refused: test,
        weight: 2,
        refusals: &[2, 8, 11, 12, 13],
    },
    Kind {
        kind: 6,
        name: "heading",
        makes_shape: false,
        third: false,
        any: |random, id| heading_frame(id, point(random, 1.0), turn_number(random)),
        refused: heading,
        weight: 6,
        refusals: &[6, 11, 12, 14],
    },
    Kind {
        kind: 7,
        name: "chain",
        makes_shape: true,
        third: true,
        any: |random, id| shape_frame(id, &body_of(random, 1.0, Shape::Chain)),
        refused: refused_chain,
        weight: 12,
        refusals: &[2, 11, 15, 16],
    },
];

/// The row of a kind.
pub fn kind(number: usize) -> Option<&'static Kind> {
    KINDS.iter().find(|row| row.kind as usize == number)
}

/// Any row, and any by their weights.
pub fn any(random: &mut Random) -> &'static Kind {
    random.of(&KINDS.each_ref())
}

pub fn weighted(random: &mut Random) -> &'static Kind {
    let rows: Vec<&Kind> = KINDS.iter().flat_map(|row| vec![row; row.weight]).collect();
    random.of(&rows)
}

/// An id that none is.
pub fn unknown_id(random: &mut Random) -> u8 {
    random.of(&[8, 9, 0x10, 0x80, 0xff])
}

/// A number that no shape and no placement may have, or any.
fn bad(random: &mut Random) -> f32 {
    let (beyond, any) = (f32::from_bits(SIZE.to_bits() + 1), float(random));
    random.of(&[beyond, -beyond, f32::NAN, f32::INFINITY, -1e30, any])
}

/// A body of a kind with a bad number in one of its points.
fn spoiled(random: &mut Random, id: u8, kind: Shape) -> Vec<u8> {
    let mut body = body_of(random, 1.0, kind);
    let place = random.below(body.points.len() as u64) as usize;
    body.points[place][random.below(2) as usize] = bad(random);
    shape_frame(id, &body)
}

/// 2 for the centre or the radius.
fn circle(random: &mut Random, id: u8) -> Vec<u8> {
    let radius = [-1.0, -1e-40, -0.0, bad(random)];
    match random.below(2) {
        0 => floats(&[1, id], &[0.0, 0.0, random.of(&radius)]),
        _ => spoiled(random, id, Shape::Circle),
    }
}

/// 1 for too few points, 10 for nine; 2; 3 and 4 for points that are near, or on a line; 5 for a flat one.
fn outline(random: &mut Random, id: u8) -> Vec<u8> {
    let (bad, small) = (bad(random), random.of(&[0.0, 0.0024, 0.002, 1e-20]));
    match random.below(8) {
        0 => vec![2, id, 0],
        1 => floats(&[2, id, 1], &[bad, 1.0]),
        2 => floats(&[2, id, 2], &[0.0, 0.0, bad, 0.0]),
        3 => floats(&[2, id, 3], &[0.0, 0.0, small, 0.0, 0.0, random.of(&[small, 1.0])]),
        4 => {
            let (p, q) = (point(random, 0.0), point(random, 0.0));
            floats(&[2, id, 3], &[p[0], p[1], q[0], q[1], (p[0] + q[0]) / 2.0, (p[1] + q[1]) / 2.0])
        }
        5 => floats(&[2, id, 3], &[0.0, 0.0, 1.0, 0.0, 0.5, random.of(&[1e-7, 2e-7, 3e-7, -1e-7])]),
        6 => floats(&[2, id, 9], &(0..18).map(|i| (i * i) as f32).collect::<Vec<f32>>()),
        _ => spoiled(random, id, Shape::Outline),
    }
}

/// 2, of a ghost point too.
fn wall(random: &mut Random, id: u8) -> Vec<u8> {
    spoiled(random, id, Shape::Wall)
}

/// 6 for the place, the sine or the cosine; 12 where no shape is.
fn place(random: &mut Random, id: u8) -> Vec<u8> {
    let mut list = [0.0, 0.0, 0.0, 1.0];
    if random.once_in(2) {
        return floats(&[4, id], &[1.0, 1.0, 0.0, 1.0]);
    }
    let place = random.below(4) as usize;
    list[place] = if place < 2 { bad(random) } else { random.of(&[1.0000001, -1.0000001, f32::NAN, 2.0]) };
    floats(&[4, id], &list)
}

/// 14 for a number above 4,095, 6 for the place, both, or neither; 12 before them where no shape is.
fn heading(random: &mut Random, id: u8) -> Vec<u8> {
    let (mut at, good, any) = (point(random, 1.0), turn_number(random), random.next() as u16);
    let above = random.of(&[TURN, TURN + 1, 2 * TURN - 1, 1 << 15, u16::MAX, any | TURN, good.swap_bytes()]);
    let number = if random.once_in(2) { above } else { good };
    if random.once_in(2) {
        at[random.below(2) as usize] = bad(random);
    }
    heading_frame(id, at, number)
}

/// 13 for a body against itself; 11 of either id.
fn test(random: &mut Random, id: u8) -> Vec<u8> {
    let other = unknown_id(random);
    match random.below(2) {
        0 => vec![5, id, id],
        _ => vec![5, random.of(&[id, other]), random.of(&[id, other])],
    }
}

/// 15 for one point or none, 11 before it; 10 for nine; 2 for any of the points; 16 for neighbours at, below or above
/// the limit, and not for the points before and after. Two of them at once, too.
fn refused_chain(random: &mut Random, id: u8) -> Vec<u8> {
    let scale = random.of(&[0.0, 1.0]);
    let mut points = chain(random, scale);
    match random.below(6) {
        0 | 1 => points.truncate(2 + random.below(2) as usize),
        2 if random.once_in(2) => points.resize(POINTS + 3, [7.0, 7.0]),
        _ => {}
    }
    let (count, last) = (points.len() - 2, points.len() - 1);
    let id = if count < 2 && random.once_in(3) { unknown_id(random) } else { id };
    if count > 1 && random.below(3) > 0 {
        // about the origin, so that the squared distance is worked out of small numbers
        let (first, (s, c)) = (random.of(&[1, count - 1]), (unit(random) as f64 * 4.0).sin_cos());
        let length = random.of(&[0.0, 0.004, 0.005, 0.005, 0.005, 0.0050000004, 0.0051]);
        points[first] = [0.0, 0.0];
        points[first + 1] = random.of(&[[length as f32, 0.0], [(length * c) as f32, (length * s) as f32]]);
    }
    if random.once_in(4) {
        (points[0], points[last]) = (points[1], points[last - 1]);
    }
    if random.below(5) < 2 {
        let any = random.below(points.len() as u64) as usize;
        points[random.of(&[0, last, any])][random.below(2) as usize] = bad(random);
    }
    floats(&[7, id, count as u8], &points.concat())
}
