//! Pairs of entries 9 and 11 at the thresholds of the contact rules, exactly or a few steps of a float beside them,
//! where random pairs hardly ever come: the tolerance between the outlines' separations, the wall's hysteresis, and
//! the tolerance against the walls beside it. A pair is laid out along the axes, so that the numbers that the rules
//! compare are a corner's or a normal's coordinates; what moves it then, quarter turns and one position for both, is
//! exact.
use crate::generators::{bits, number, step, unit, word};
use crate::support::Random;

const SKIN: f32 = 0.01;
const BETWEEN_OUTLINES: f32 = 0.1 * 0.005;
const RELATIVE: f32 = 0.98;
const ABSOLUTE: f32 = 0.001;
const SINE: f32 = 0.1;

type Point = [f32; 2];
/// A corner, and the normal of the face that begins there.
type Corner = (Point, Point);

fn beside(random: &mut Random, x: f32) -> f32 {
    step(x, random.of(&[0, 0, 0, 1, -1, 2, -2]))
}

/// From `least` to `most`, each size as often.
fn sized(random: &mut Random, least: f32, most: f32) -> f32 {
    let (least, most) = (least.to_bits(), most.to_bits());
    f32::from_bits(least + random.below((most - least) as u64 + 1) as u32)
}

/// So many quarter turns to the left.
fn turned(quarters: usize, [x, y]: Point) -> Point {
    [[x, y], [-y, x], [-x, -y], [y, -x]][quarters % 4]
}

/// The pair's world: where both bodies are, and the quarter turns of each.
struct World {
    position: Point,
    quarters: [usize; 2],
}

impl World {
    fn any(random: &mut Random) -> World {
        let position = if random.once_in(2) { [0.0, 0.0] } else { [number(random), number(random)] };
        World { position, quarters: [random.below(4) as usize, random.below(4) as usize] }
    }

    /// A point of the layout in a body's own frame.
    fn local(&self, body: usize, point: Point) -> Point {
        turned(4 - self.quarters[body], point)
    }

    fn placement(&self, body: usize) -> Vec<u32> {
        let [cosine, sine] = turned(self.quarters[body], [1.0, 0.0]);
        bits(&[self.position[0], self.position[1], sine, cosine])
    }

    /// The outline begins at any of its corners; past its count, any bits.
    fn outline(&self, random: &mut Random, body: usize, radius: f32, corners: &[Corner]) -> Vec<u32> {
        let (n, first) = (corners.len(), random.below(corners.len() as u64) as usize);
        let mean = |i: usize| corners.iter().map(|(corner, _)| corner[i]).sum::<f32>() / n as f32;
        let mut record = vec![radius.to_bits()];
        record.extend(bits(&self.local(body, [mean(0), mean(1)])));
        record.push(n as u32);
        record.extend((0..32).map(|_| word(random)));
        for i in 0..n {
            let (corner, normal) = corners[(first + i) % n];
            record[4 + 2 * i..6 + 2 * i].copy_from_slice(&bits(&self.local(body, corner)));
            record[20 + 2 * i..22 + 2 * i].copy_from_slice(&bits(&self.local(body, normal)));
        }
        record
    }

    fn wall(&self, radius: f32, one_sided: bool, points: [Point; 4]) -> Vec<u32> {
        let mut record = vec![radius.to_bits(), one_sided as u32];
        points.iter().for_each(|point| record.extend(bits(&self.local(0, *point))));
        record
    }
}

fn radii(random: &mut Random) -> [f32; 2] {
    random.of(&[[0.0, 0.0], [0.0, 0.0], [SKIN, SKIN], [SKIN, 0.0], [0.0, 0.5]])
}

/// A's right face is at 0. Of B's left face the first corner is the separation along B's normal from it, the second
/// that along A's.
pub fn outlines(random: &mut Random) -> [Vec<u32>; 4] {
    let (world, radii) = (World::any(random), radii(random));
    let total = radii[0] + radii[1];
    let (height, other) = (sized(random, 0.5, 64.0), sized(random, 0.5, 64.0));
    let (width_a, width_b) = (sized(random, 32.0, 64.0), sized(random, 32.0, 64.0));
    let mut of_a = match random.below(4) {
        0 => 0.0,
        1 => -sized(random, 1e-4, 0.25),
        _ => -sized(random, 1e-6, 2e-3),
    };
    if total > 0.0 && random.once_in(2) {
        of_a = -of_a;
    }
    let mut of_b = beside(random, of_a + BETWEEN_OUTLINES);
    if random.once_in(4) {
        // at the sum of the radii, one of them or both
        of_b = beside(random, total);
        of_a = random.of(&[of_a, of_b, step(of_b, -1)]);
    }
    let a = [
        ([-width_a, -height], [0.0, -1.0]),
        ([0.0, -height], [1.0, 0.0]),
        ([0.0, height], [0.0, 1.0]),
        ([-width_a, height], [-1.0, 0.0]),
    ];
    let b = [
        ([of_b, other], [-1.0, 0.0]),
        ([of_a, -other], [0.0, -1.0]),
        ([width_b, -other], [1.0, 0.0]),
        ([width_b, other], [0.0, 1.0]),
    ];
    let outline_a = world.outline(random, 0, radii[0], &a);
    [outline_a, world.placement(0), world.outline(random, 1, radii[1], &b), world.placement(1)]
}

pub fn wall_and_outline(random: &mut Random) -> [Vec<u32>; 4] {
    if random.once_in(2) {
        hysteresis(random)
    } else {
        gauss_map(random)
    }
}

/// The wall lies along x and faces down. Of the outline's upper face the first corner is the separation along the
/// outline's normal, the second that along the wall's.
fn hysteresis(random: &mut Random) -> [Vec<u32>; 4] {
    let (world, radii) = (World::any(random), radii(random));
    let radius = radii[0] + radii[1];
    let of_wall = match random.below(4) {
        0 => -sized(random, 0.002, 1.0),
        1 => radius - sized(random, 0.00102, 0.25),
        _ => radius - sized(random, 0.00102, 0.003),
    };
    let threshold = RELATIVE * (of_wall - radius) + ABSOLUTE;
    let mut of_outline = beside(random, threshold + radius);
    let mut of_wall = beside(random, of_wall);
    if random.once_in(6) {
        // at the sum of the radii, one of them or both
        let at = beside(random, radius);
        (of_outline, of_wall) = random.of(&[(at, of_wall), (-1.0, at), (at, at)]);
    }
    let (length, depth) = (random.of(&[4.0, 8.0, 64.0]), sized(random, 4.0, 64.0));
    let (left, right) = (sized(random, 0.5, 1.5), sized(random, 2.0, 64.0));
    let mut corners = vec![
        ([right, -of_outline], [0.0, 1.0]),
        ([left, -of_wall], [-1.0, 0.0]),
        ([left, -depth], [0.0, -1.0]),
        ([right, -depth], [1.0, 0.0]),
    ];
    if random.once_in(3) {
        // two upper faces of the same separation
        corners.insert(1, ([sized(random, left, right), -of_outline], [0.0, 1.0]));
    }
    let ghost = [sized(random, 0.5, 4.0), unit(random)];
    let points = [[-ghost[0], ghost[1]], [0.0, 0.0], [length, 0.0], [length + ghost[0], ghost[1]]];
    let wall = world.wall(radii[0], random.once_in(2), points);
    [wall, world.placement(0), world.outline(random, 1, radii[1], &corners), world.placement(1)]
}

fn unit_vector([x, y]: Point) -> Point {
    let inverse = 1.0 / (x * x + y * y).sqrt();
    [x * inverse, y * inverse]
}

/// The least x of a face's normal with this y whose sine against the neighbour's normal is over the tolerance.
fn over(neighbour: Point, y: f32) -> f32 {
    let sine = |x: f32| -x * neighbour[1] + y * neighbour[0];
    let (mut at_most, mut over) = (0.0f32.to_bits(), 1.0f32.to_bits());
    while over - at_most > 1 {
        let middle = at_most + (over - at_most) / 2;
        if sine(f32::from_bits(middle)) > SINE {
            over = middle;
        } else {
            at_most = middle;
        }
    }
    f32::from_bits(over)
}

/// A one-sided wall along x that faces down, the wall before it straight on or bent away, and an outline whose upper
/// face slants down over the wall's first end; or the mirror image, at the second end.
fn gauss_map(random: &mut Random) -> [Vec<u32>; 4] {
    let (world, radii) = (World::any(random), radii(random));
    let length = random.of(&[1.0, 4.0, 64.0]);
    let away = match random.below(4) {
        0 => sized(random, 1e-9, 0.02),
        1 => sized(random, 1e-3, 0.7),
        _ => 0.0,
    };
    let far = random.of(&[1.0, 2.0, 16.0]);
    let direction = unit_vector([far, -far * away]);
    let up = ((away as f64).atan() + (SINE as f64).asin()).cos() as f32;
    let across = step(over([direction[1], -direction[0]], up), random.of(&[0, 0, -1, -1, -1, -2, 1]));
    let (before, after) = (sized(random, 0.5, 1.5), sized(random, 0.5, 1.5));
    let (depth, inside) = (sized(random, 2.0, 4.0), sized(random, 1e-4, 0.02));
    let corner = |along: f32, down: f32| {
        [inside * across - along * up - down * across, inside * up + along * across - down * up]
    };
    let mut corners = vec![
        (corner(-before, 0.0), [across, up]),
        (corner(after, 0.0), [-up, across]),
        (corner(after, depth), [-across, -up]),
        (corner(-before, depth), [up, -across]),
    ];
    let other = [length + sized(random, 0.5, 4.0), unit(random)];
    let mut points = [[-far, far * away], [0.0, 0.0], [length, 0.0], other];
    if random.once_in(2) {
        let mirror = |[x, y]: Point| [-x, y];
        points = [mirror(points[3]), mirror(points[2]), mirror(points[1]), mirror(points[0])];
        corners = [3usize, 2, 1, 0].map(|i| (mirror(corners[i].0), mirror(corners[(i + 3) % 4].1))).to_vec();
    }
    let wall = world.wall(radii[0], true, points);
    [wall, world.placement(0), world.outline(random, 1, radii[1], &corners), world.placement(1)]
}
