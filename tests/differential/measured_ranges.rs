//! Bodies for entries 20 and 21: tiny and whole ranges, numbers without tolerance, numbers at the limits, bodies that
//! meet in one point or just miss each other, and numbers spoiled to be out of the limits.
use crate::measured::{limits, Measured, Span, LIMIT};
use crate::support::Random;

/// From `low` to `high`.
fn between(random: &mut Random, low: i64, high: i64) -> i64 {
    low + random.below((high - low + 1) as u64) as i64
}

/// Of two numbers, within the limits of a body's number.
fn span(place: usize, n: i64, m: i64) -> Span {
    let [n, m] = [n, m].map(|n| n.clamp(*limits(place).start(), *limits(place).end()));
    [n.min(m), n.max(m)]
}

fn bodies(numbers: usize, mut one: impl FnMut(usize) -> Span) -> Measured {
    Measured { a: (0..numbers).map(&mut one).collect(), b: (0..numbers).map(&mut one).collect() }
}

/// Two bodies of so many numbers, within the limits.
pub fn good(random: &mut Random, numbers: usize) -> Measured {
    match random.below(9) {
        0 | 1 => {
            // near each other, with few choices
            let reach = random.of(&[1, 3, 6]);
            bodies(numbers, |i| {
                let n = between(random, if i < 2 { -reach } else { 0 }, reach);
                span(i, n, n + random.of(&[0, 0, 1, 1, 2]))
            })
        }
        2..=4 => at_edge(random, numbers),
        5 => {
            let mut edge = |i: usize| {
                let (low, high) = (*limits(i).start(), *limits(i).end());
                random.of(&[low, high, low + 1, high - 1, 0, 1])
            };
            bodies(numbers, |i| span(i, edge(i), edge(i)))
        }
        6 => bodies(numbers, |i| {
            // the whole range, or anything
            let any = between(random, *limits(i).start(), *limits(i).end());
            if random.once_in(3) {
                span(i, -LIMIT, LIMIT)
            } else {
                span(i, any, any)
            }
        }),
        7 => {
            // a robot of some size, measured here and there
            let tolerance = random.of(&[0, 1, 5, 30]);
            bodies(numbers, |i| {
                let n = if i < 2 { between(random, -300, 300) } else { between(random, 0, 250) };
                span(i, n - between(random, 0, tolerance), n + between(random, 0, tolerance))
            })
        }
        _ => bodies(numbers, |i| {
            let n = between(random, *limits(i).start(), *limits(i).end());
            let wide = 1 << random.below(11);
            span(i, n, n + between(random, -wide, wide))
        }),
    }
}

/// Right triangles with whole sides, and lines.
const TRIANGLES: [[i64; 3]; 10] = [
    [3, 4, 5],
    [5, 12, 13],
    [8, 15, 17],
    [7, 24, 25],
    [20, 21, 29],
    [12, 35, 37],
    [119, 120, 169],
    [696, 697, 985],
    [1, 0, 1],
    [0, 0, 0],
];

/// Two numbers within the limits of which the second is so much more.
fn apart_by(random: &mut Random, way: i64) -> [i64; 2] {
    let n = between(random, (-LIMIT).max(-LIMIT - way), LIMIT.min(LIMIT - way));
    [n, n + way]
}

/// Two sizes within the limits of which this is the sum.
fn parts_of(random: &mut Random, sum: i64) -> [i64; 2] {
    let n = between(random, 0.max(sum - LIMIT), LIMIT.min(sum));
    [n, sum - n]
}

/// Bodies that meet in one point, or are a step from it; then ranges in which they are the nearest and largest, or the
/// farthest and smallest, or neither.
fn at_edge(random: &mut Random, numbers: usize) -> Measured {
    let most = random.of(&[4, 40, 400, 2 * LIMIT]);
    let mut off = || random.of(&[0, 0, 1, -1]);
    let (offs, turn) = ([off(), off()], random.below(8));
    let (mut ways, mut sums) = if numbers == 3 {
        let [x, y, r] = random.of(&TRIANGLES);
        let by = 1 + random.below((most / r.max(1)).max(1) as u64) as i64;
        ([by * x, by * y], vec![(by * r + offs[0]).clamp(0, 2 * LIMIT)])
    } else {
        let sums = vec![between(random, 0, most), between(random, 0, most)];
        // past a side, or past a corner
        let along = if random.once_in(3) { sums[1] + offs[1] } else { between(random, 0, sums[1]) };
        ([sums[0] + offs[0], along].map(|way| way.clamp(0, 2 * LIMIT)), sums)
    };
    (0..2).filter(|i| turn & (1 << i) > 0).for_each(|i| ways[i] = -ways[i]);
    if turn & 4 > 0 {
        ways.reverse();
        sums.reverse();
    }
    let reach = random.of(&[0, 1, 2, 30]);
    let kind = random.below(3);
    let mut found = Measured { a: Vec::new(), b: Vec::new() };
    for i in 0..numbers {
        let [n, m] = if i < 2 { apart_by(random, ways[i]) } else { parts_of(random, sums[i - 2]) };
        // outwards: what makes them farther or smaller
        let outwards = match i {
            0 | 1 if m < n => [1, -1],
            0 | 1 => [-1, 1],
            _ => [-1, -1],
        };
        for (body, number, sign) in [(&mut found.a, n, outwards[0]), (&mut found.b, m, outwards[1])] {
            let by = between(random, 0, reach);
            let inwards = kind == 1 || kind == 2 && random.once_in(2);
            body.push(span(i, number, number + if inwards { -sign * by } else { sign * by }));
        }
    }
    found
}

/// A number of a body, or of both, put out of the limits by one or by far, or a lowest above its highest.
pub fn spoil(random: &mut Random, measured: &mut Measured) {
    let which = random.below(3);
    let Measured { a, b } = measured;
    for (body, chosen) in [(a, which != 1), (b, which != 0)] {
        if !chosen {
            continue;
        }
        let place = random.below(body.len() as u64) as usize;
        let (low, high) = (*limits(place).start(), *limits(place).end());
        let [lowest, highest] = body[place];
        body[place] = match random.below(5) {
            0 => [low - 1, highest],
            1 => [lowest, high + 1],
            2 => {
                let n = between(random, low + 1, high);
                [n, n - 1]
            }
            3 => [highest, lowest],
            _ => {
                let any = i64::from(random.next() as i32);
                let far = random.of(&[i64::from(i32::MIN), i64::from(i32::MAX), any]);
                if random.once_in(2) {
                    [far, highest]
                } else {
                    [lowest, far]
                }
            }
        };
    }
}

/// The same bodies with each of their numbers in turn out of the limits, by one and by far, or just in them; and each
/// lowest in turn one above its highest.
pub fn each_in_turn(good: &Measured) -> Vec<Measured> {
    let numbers = good.a.len();
    let mut list = Vec::new();
    let mut with = |place: usize, new: Span| {
        let mut changed = good.clone();
        let body = if place < numbers { &mut changed.a } else { &mut changed.b };
        body[place % numbers] = new;
        list.push(changed);
    };
    for place in 0..2 * numbers {
        let (low, high) = (*limits(place % numbers).start(), *limits(place % numbers).end());
        let [lowest, highest] = if place < numbers { good.a[place] } else { good.b[place - numbers] };
        for n in [low - 1, low, high, high + 1, i64::from(i32::MIN), i64::from(i32::MAX)] {
            with(place, [n, highest]);
            with(place, [lowest, n]);
            with(place, [n, n]);
        }
        for n in [low, (low + high) / 2, high - 1] {
            with(place, [n + 1, n]);
        }
    }
    list
}
