//! The table of entries: a row for each, with its generator and what a comparison has to know of it.
use crate::contacts::{self, MANIFOLD, TRANSFORM};
use crate::floats::{self, KINDS};
use crate::manifolds;
use crate::ranges::{EDGE, POLYGON};
use crate::row::Row;
use crate::shapes;
use crate::short_corner;
use crate::lent_slice;
use crate::support::calls;

fn none(_: &[u32]) -> u32 {
    0
}
fn nothing(_: &[u32]) -> Vec<u32> {
    Vec::new()
}
fn no_kinds(_: &[u32], _: &[u32]) -> Vec<&'static str> {
    Vec::new()
}
fn old_outline(request: &[u32]) -> Vec<u32> {
    request[1..1 + POLYGON].to_vec()
}
fn old_wall(request: &[u32]) -> Vec<u32> {
    request[1..1 + EDGE].to_vec()
}

const OUTLINE: Row = Row {
    name: "outline builder",
    entry: 1,
    stored: "shapes",
    generate: shapes::set,
    refusal: shapes::set_refusal,
    panics: &[1, 3, 4, 5],
    reachable: &[0, 1, 2, 3, 4, 5],
    refused: old_outline,
    mend: |_, _| true,
    length: 2 + POLYGON,
    record: POLYGON,
    plain: &[3],
    closed: &[],
    kinds: no_kinds,
    wanted: &[],
    ours: calls,
};
const BOX: Row = Row {
    name: "box",
    entry: 2,
    generate: shapes::set_as_box,
    refusal: shapes::box_refusal,
    panics: &[],
    reachable: &[0, 2],
    length: 3 + POLYGON,
    ..OUTLINE
};
const VALIDATE: Row = Row {
    name: "validate",
    entry: 4,
    generate: shapes::validate,
    refusal: shapes::validate_refusal,
    reachable: &[0, 2, 7],
    refused: |_| vec![0],
    length: 1 + POLYGON,
    record: 1,
    plain: &[0],
    kinds: |_, answer| vec![if answer[1] == 1 { "convex" } else { "not convex" }],
    wanted: &["convex", "not convex"],
    ..BOX
};
const WALL: Row = Row {
    name: "one-sided wall",
    entry: 5,
    generate: shapes::set_one_sided,
    refusal: shapes::wall_refusal,
    refused: old_wall,
    length: 9 + EDGE,
    record: EDGE,
    plain: &[1],
    closed: &[(2, 1)],
    ..BOX
};
fn old_manifold(request: &[u32]) -> Vec<u32> {
    request[1..1 + MANIFOLD].to_vec()
}

pub const CIRCLES: Row = Row {
    name: "circles",
    entry: 7,
    stored: "contacts",
    generate: contacts::circles,
    refusal: contacts::refusal,
    reachable: &[0, 2, 6],
    refused: old_manifold,
    length: 1 + MANIFOLD + 3 + TRANSFORM + 3 + TRANSFORM,
    record: MANIFOLD,
    plain: &[0, 1, 10, 15],
    closed: &[(1, 2)],
    kinds: contacts::kinds,
    wanted: &["0 points", "1 point", "circles"],
    ..BOX
};
const OUTLINE_AND_CIRCLE: Row = Row {
    name: "outline and circle",
    entry: 8,
    generate: contacts::outline_and_circle,
    reachable: &[0, 2, 6, 7],
    length: 1 + MANIFOLD + POLYGON + TRANSFORM + 3 + TRANSFORM,
    mend: short_corner::mend,
    kinds: short_corner::kinds,
    wanted: &short_corner::WANTED,
    ..CIRCLES
};
/// Requests about corners alone, to be stored.
pub const AT_CORNERS: Row = Row { stored: "corners", generate: contacts::at_corner, ..OUTLINE_AND_CIRCLE };
const ROOT: Row = Row {
    name: "root",
    entry: 15,
    stored: "floats",
    generate: floats::root,
    refusal: none,
    reachable: &[0],
    refused: nothing,
    length: 2,
    record: 1,
    plain: &[],
    kinds: |request, _| vec![floats::kind(request[1])],
    wanted: &KINDS,
    ..BOX
};

/// The steps of the root, by the papers' words.
const STEPS: [&str; 3] = ["special", "exact", "rounded"];
const ROOT_STEP: Row = Row {
    name: "step of the root",
    entry: 18,
    stored: "steps",
    generate: floats::root_step,
    record: 2,
    plain: &[0],
    kinds: |_, answer| vec![STEPS[answer[1] as usize]],
    wanted: &STEPS,
    ..ROOT
};

/// The heading of a turn number, which no reference has: tests/programs/sines compares it with an outside program; here
/// it is only asked for in requests that are none.
pub const HEADING: Row = Row {
    name: "heading",
    entry: 17,
    generate: |random| vec![17, random.below(1 << 13) as u32],
    reachable: &[0, 14],
    length: 2,
    record: 2,
    ..ROOT
};

pub const TABLE: &[Row] = &[
    OUTLINE,
    Row {
        name: "outline builder, lent slice",
        generate: shapes::set_any_count,
        ours: lent_slice::answer,
        ..OUTLINE
    },
    BOX,
    Row {
        name: "box with sine and cosine",
        entry: 3,
        generate: shapes::set_as_box_angle,
        reachable: &[0, 2, 6],
        length: 7 + POLYGON,
        ..BOX
    },
    VALIDATE,
    WALL,
    Row { name: "two-sided wall", entry: 6, generate: shapes::set_two_sided, length: 5 + EDGE, ..WALL },
    CIRCLES,
    OUTLINE_AND_CIRCLE,
    Row {
        name: "outlines",
        entry: 9,
        generate: contacts::outlines,
        reachable: &[0, 2, 6, 7],
        length: 1 + MANIFOLD + 2 * POLYGON + 2 * TRANSFORM,
        wanted: &["0 points", "1 point", "2 points", "face A", "face B"],
        ..CIRCLES
    },
    Row {
        name: "wall and circle",
        entry: 10,
        generate: contacts::wall_and_circle,
        panics: &[8],
        reachable: &[0, 2, 6, 8],
        length: 1 + MANIFOLD + EDGE + TRANSFORM + 3 + TRANSFORM,
        closed: &[(1, 2), (2 + MANIFOLD, 1)],
        wanted: &["0 points", "1 point", "circles", "face A"],
        ..CIRCLES
    },
    Row {
        name: "wall and outline",
        entry: 11,
        generate: contacts::wall_and_outline,
        reachable: &[0, 2, 6, 7],
        length: 1 + MANIFOLD + EDGE + TRANSFORM + POLYGON + TRANSFORM,
        closed: &[(1, 2), (2 + MANIFOLD, 1)],
        wanted: &["0 points", "1 point", "2 points", "face A", "face B"],
        ..CIRCLES
    },
    Row {
        name: "clip",
        entry: 12,
        generate: manifolds::clip,
        refusal: manifolds::clip_refusal,
        reachable: &[0, 9],
        refused: |request| [&[0], &request[1..7]].concat(),
        length: 17,
        record: 7,
        plain: &[0, 3, 6],
        closed: &[],
        kinds: manifolds::clip_kinds,
        wanted: &["0 ends", "1 end", "2 ends", "cut"],
        ..CIRCLES
    },
    Row {
        name: "world points",
        entry: 13,
        generate: manifolds::world_points,
        refusal: manifolds::world_refusal,
        reachable: &[0, 6, 7, 9],
        refused: |request| request[1..9].to_vec(),
        length: 1 + 8 + MANIFOLD + 2 * TRANSFORM + 2,
        record: 8,
        plain: &[],
        closed: &[(9, 2)],
        kinds: manifolds::world_kinds,
        wanted: &["0 points", "1 point", "2 points", "circles", "circles along x", "face A", "face B"],
        ..CIRCLES
    },
    Row {
        name: "point states",
        entry: 14,
        generate: manifolds::point_states,
        refusal: manifolds::states_refusal,
        reachable: &[0, 7],
        refused: |request| request[1..5].to_vec(),
        length: 5 + 2 * MANIFOLD,
        record: 4,
        plain: &[0, 1, 2, 3],
        closed: &[(1, 3), (2, 3), (3, 3), (4, 3), (5, 2), (21, 2)],
        kinds: manifolds::states_kinds,
        wanted: &["null", "add", "persist", "remove"],
        ..CIRCLES
    },
    ROOT,
    Row {
        name: "normalise",
        entry: 16,
        generate: floats::normalize,
        length: 3,
        record: 4,
        plain: &[3],
        kinds: floats::normalize_kinds,
        wanted: &floats::NORMALIZE_WANTED,
        ..ROOT
    },
    ROOT_STEP,
];
