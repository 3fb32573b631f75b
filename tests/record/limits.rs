//! A search for what docs/LIMITS.md says of bodies on the grid. Two outlines that share a point, with no corner flatter
//! than 1 in 16, are reported in both orders; no reported two are farther apart than 28.2 mm. A circle on such an
//! outline without needles is reported where it touches, and nowhere else, to 1/4096 m. Two circles are reported
//! exactly where they touch. Coordinates are whole numbers of 1/256 m here, so all but distances are exact.
use crate::second;
use crate::support::{Random, Tally};

const FLATTEST: i64 = 16;
const SHARPEST: i64 = 256;
/// The skin and 1/4096 m, in units of 1/256 m.
const SKIN: f64 = 2.56;
const SLACK: f64 = 1.0 / 16.0;
/// The square of 28.2 mm in units, a little more than 52.
const FARTHEST: f64 = 52.1;
const CASES_A_HEAT: usize = 100;

type Point = (i64, i64);

fn cross(o: Point, p: Point, q: Point) -> i64 {
    (p.0 - o.0) * (q.1 - o.1) - (p.1 - o.1) * (q.0 - o.0)
}

fn hull(points: &[Point]) -> Vec<Point> {
    let mut row = points.to_vec();
    row.sort();
    row.dedup();
    let half = |row: Vec<Point>| {
        let mut kept: Vec<Point> = Vec::new();
        for p in row {
            while kept.len() > 1 && cross(kept[kept.len() - 2], kept[kept.len() - 1], p) <= 0 {
                kept.pop();
            }
            kept.push(p);
        }
        kept.pop();
        kept
    };
    let back = row.iter().rev().copied().collect();
    [half(row), half(back)].concat()
}

/// Each face of a hull: a corner and the next.
fn faces(hull: &[Point]) -> impl Iterator<Item = (Point, Point)> + '_ {
    (0..hull.len()).map(|i| (hull[i], hull[(i + 1) % hull.len()]))
}

/// Whether a test holds at each corner, of the cross and the dot product of the faces before and after it.
fn each_corner(hull: &[Point], test: fn(i64, i64) -> bool) -> bool {
    (0..hull.len()).all(|i| {
        let [p, q, r] = [i, i + 1, i + 2].map(|k| hull[k % hull.len()]);
        test(cross(p, q, r), (q.0 - p.0) * (r.0 - q.0) + (q.1 - p.1) * (r.1 - q.1))
    })
}

/// No corner turns less than 1 in FLATTEST.
fn bent(hull: &[Point]) -> bool {
    each_corner(hull, |cross, dot| FLATTEST * cross >= dot)
}

/// No corner is sharper than 1 in SHARPEST.
fn blunt(hull: &[Point]) -> bool {
    each_corner(hull, |cross, dot| SHARPEST * cross >= -dot)
}

/// Whether a face of the one has all of the other strictly outside.
fn kept_off(one: &[Point], other: &[Point]) -> bool {
    faces(one).any(|(p, q)| other.iter().all(|c| cross(p, q, *c) < 0))
}

fn distance_squared(one: &[Point], other: &[Point]) -> f64 {
    let to_face = |c: Point, p: Point, q: Point| {
        let (dx, dy) = ((q.0 - p.0) as f64, (q.1 - p.1) as f64);
        let (cx, cy) = ((c.0 - p.0) as f64, (c.1 - p.1) as f64);
        let t = ((cx * dx + cy * dy) / (dx * dx + dy * dy)).clamp(0.0, 1.0);
        (cx - t * dx).powi(2) + (cy - t * dy).powi(2)
    };
    let corners = |from: &[Point], to: &[Point]| {
        let to = if to.len() < 3 { &[] } else { to };
        let all = from.iter().flat_map(|c| faces(to).map(move |(p, q)| to_face(*c, p, q)));
        all.fold(f64::INFINITY, f64::min)
    };
    corners(one, other).min(corners(other, one))
}

fn within(random: &mut Random, limit: i64) -> i64 {
    random.below(2 * limit as u64 + 1) as i64 - limit
}

/// A front bent at the origin by about 1 in 8 to 1 in 60, or any points.
fn outline(random: &mut Random, bent_front: bool) -> Vec<Point> {
    if !bent_front {
        let size = random.of(&[20, 100, 500]);
        return (0..3 + random.below(6)).map(|_| (within(random, size), within(random, size))).collect();
    }
    let slope = random.of(&[16, 28, 33, 36, 40, 60, 120]);
    let (left, right) = (20 + random.below(400) as i64, 20 + random.below(400) as i64);
    let depth = 20 + random.below(300) as i64;
    let rise = |along: i64, random: &mut Random| along / slope + random.below(3) as i64;
    vec![(-left, rise(left, random)), (0, 0), (right, rise(right, random)), (right, depth), (-left, depth)]
}

fn turned(points: &[Point], turn: u64, at: Point) -> Vec<Point> {
    let one = |(x, y): Point| match turn {
        0 => (x, y),
        1 => (-y, x),
        2 => (-x, -y),
        _ => (y, -x),
    };
    points.iter().map(|p| one(*p)).map(|(x, y)| (x + at.0, y + at.1)).collect()
}

fn frame(head: &[u8], numbers: &[f32]) -> String {
    let head: String = head.iter().map(|b| format!("{b:02x}")).collect();
    numbers.iter().fold(head, |text, x| text + &format!("{:08x}", x.to_bits())) + "\n"
}

/// A placement at some quarter turns: by a turn number, or by sine and cosine.
fn place(id: u8, at: Point, turn: u64, by_number: bool) -> String {
    if by_number {
        let at = frame(&[6, id], &[metres(at.0), metres(at.1)]);
        return at.replace('\n', &format!("{:04x}\n", 1024 * turn));
    }
    let (s, c) = [(0.0, 1.0), (1.0, 0.0), (0.0, -1.0), (-1.0, 0.0)][turn as usize];
    frame(&[4, id], &[metres(at.0), metres(at.1), s, c])
}

fn metres(units: i64) -> f32 {
    units as f32 / 256.0
}

/// A box whose upper corner, right or left, is the origin.
fn box_below(random: &mut Random) -> Vec<Point> {
    let (width, depth) = (10 + random.below(300) as i64, 10 + random.below(300) as i64);
    let width = if random.once_in(2) { width } else { -width };
    vec![(-width, -depth), (0, -depth), (0, 0), (-width, 0)]
}

/// Two outlines where they are, and their frames: a box beside the nose of a bent front, or a corner of the one put on
/// a corner of the other or near it.
fn pair(random: &mut Random) -> (Vec<Point>, Vec<Point>, String) {
    let (bent_front, boxed) = (random.below(4) > 0, random.once_in(2));
    let b = outline(random, bent_front);
    let (turn_b, off) = (if bent_front { 0 } else { random.below(4) }, random.of(&[6, 30, 300]));
    let (a, turn_a, at) = if bent_front && boxed {
        let beside = random.of(&[-1, 1]) * (5 + random.below(30) as i64);
        (box_below(random), 0, (beside, random.below(off) as i64))
    } else {
        let (a, turn_a) = (outline(random, boxed), random.below(4));
        let (on_a, on_b) = (random.of(&turned(&a, turn_a, (0, 0))), random.of(&turned(&b, turn_b, (0, 0))));
        let (dx, dy) = (within(random, off as i64), within(random, off as i64 / 3 + 1));
        (a, turn_a, (on_b.0 - on_a.0 + dx, on_b.1 - on_a.1 + dy))
    };
    let mut text = String::new();
    for (id, points, turn, at) in [(0, &a, turn_a, at), (1, &b, turn_b, (0, 0))] {
        let list: Vec<f32> = points.iter().flat_map(|p| [metres(p.0), metres(p.1)]).collect();
        text += &frame(&[2, id, points.len() as u8], &list);
        text += &place(id, at, turn, random.once_in(2));
    }
    text += "050001\n050100\n";
    (hull(&turned(&a, turn_a, at)), hull(&turned(&b, turn_b, (0, 0))), text)
}

/// Two circles at or near their limit, whether they touch, and their frames.
fn circles(random: &mut Random) -> (bool, String) {
    let (ra, rb) = (random.below(600) as i64, random.below(600) as i64);
    let x = within(random, ra + rb + 1);
    let y = (((ra + rb).pow(2) - x * x).max(0) as f64).sqrt() as i64 + within(random, 1);
    let touch = x * x + y * y <= (ra + rb).pow(2);
    let text = frame(&[1, 0], &[0.0, 0.0, metres(ra)]) + &frame(&[1, 1], &[metres(x), metres(y), metres(rb)]);
    (touch, text + "050001\n")
}

/// A circle that nearly touches an outline, or is in it: its frame, under the id 2, and the test of id 1 against it.
/// And how far it is from touching, below 0 where it does; the outline is body B, where it is.
fn circle_on(random: &mut Random, outline: &[Point]) -> (f64, String) {
    let (on, radius) = (random.of(outline), random.of(&[0, 1, 20, 200]));
    let centre = (on.0 + within(random, radius + 4), on.1 + within(random, radius + 4));
    let inside = faces(outline).all(|(p, q)| cross(p, q, centre) >= 0);
    let gap = if inside { -1.0 } else { distance_squared(&[centre], outline).sqrt() - SKIN - radius as f64 };
    let text = frame(&[1, 2], &[metres(centre.0), metres(centre.1), metres(radius)]);
    (gap, text + "050102\n")
}

fn points_of(line: &str) -> Option<u8> {
    if line.starts_with("05") {
        line.get(7..8)?.parse().ok()
    } else {
        None
    }
}

/// One case: A, B, their frames, how far a circle is from touching B, and whether two circles touch.
struct Case {
    a: Vec<Point>,
    b: Vec<Point>,
    gap: f64,
    touch: bool,
    frames: String,
}

fn case(random: &mut Random) -> Case {
    let (a, b, outlines) = pair(random);
    let (gap, on_outline) = circle_on(random, &b);
    let (touch, circles) = circles(random);
    Case { a, b, gap, touch, frames: outlines + &on_outline + &circles }
}

/// The answers to a case's frames: the first four make the outlines, then come the tests.
const ANSWERS: usize = 11;
const THERE: usize = 4;
const BACK: usize = 5;
const ON_OUTLINE: usize = 7;
const CIRCLES: usize = 10;

fn judge(case: &Case, answers: &[&str], agree: bool, tally: &mut Tally) {
    let (a, b) = (&case.a, &case.b);
    let circles = points_of(answers[CIRCLES]);
    tally.case(agree && circles == Some(case.touch as u8), || format!("circles: {answers:?}"));
    tally.met(if case.touch { "circles touch" } else { "circles apart" });
    let (Some(there), Some(back)) = (points_of(answers[THERE]), points_of(answers[BACK])) else {
        return tally.met("not built");
    };
    let share = !kept_off(a, b) && !kept_off(b, a);
    let safe = bent(a) && bent(b);
    let lost = share && (there == 0 || back == 0);
    let far = (there > 0 || back > 0) && !share && distance_squared(a, b) > FARTHEST;
    tally.case(agree && !far && !(lost && safe), || format!("{} {answers:?}", case.frames));
    let kind = if safe { "no flat corner" } else { "a flat corner" };
    tally.met(&format!("{kind}, {}", if share { "they share a point" } else { "apart" }));
    if lost {
        tally.met(if there + back == 0 { "a flat corner, lost in both orders" } else { "a flat corner, lost" });
    }
    if bent(b) && blunt(b) {
        let reported = points_of(answers[ON_OUTLINE]) == Some(1);
        let right = case.gap.abs() < SLACK || reported == (case.gap < 0.0);
        tally.case(agree && right, || format!("a circle at {}: {} {answers:?}", case.gap, case.frames));
        tally.met(if reported { "circle on an outline" } else { "circle off an outline" });
    }
}

pub fn search(cases: u64, seed: u64) -> bool {
    let mut random = Random::new(seed);
    let mut tally = Tally::new("limits");
    while tally.cases < cases {
        let all: Vec<Case> = (0..CASES_A_HEAT).map(|_| case(&mut random)).collect();
        let text: String = all.iter().map(|case| case.frames.as_str()).collect();
        let (output, agree) = second::touches(text.as_bytes());
        let output = String::from_utf8(output).expect("text");
        let lines: Vec<&str> = output.lines().collect();
        all.iter().zip(lines.chunks(ANSWERS)).for_each(|(case, answers)| judge(case, answers, agree, &mut tally));
    }
    let wanted = [
        "no flat corner, they share a point",
        "no flat corner, apart",
        "a flat corner, lost",
        "circle on an outline",
        "circle off an outline",
        "circles touch",
        "circles apart",
    ];
    tally.report(&wanted.map(|what| what.to_string()))
}
