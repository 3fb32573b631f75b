//! Normals of outline against circle, read from the program's input and output alone: where the outline is unturned or
//! turned by frame 06 the printed normal has length 1, nearly; it is never the zero vector.
use crate::answers::{byte, float, Answered, IDS, NORMAL_AT};
use crate::support::Tally;

/// How far from 1 the square of its length may be: four roundings and the table's own error are below it.
const NEARLY: f64 = 1.0 / (1 << 18) as f64;

/// What stands under an id: a shape by its kind of frame, and how it is turned, where that is told.
type Stands = (usize, Option<&'static str>);

/// A case for each printed line of such a test with a point.
pub fn follow(heat: &[Answered], name: impl Fn() -> String, tally: &mut Tally) {
    let mut bodies: [Stands; IDS] = [(0, None); IDS];
    for (i, answer) in heat.iter().enumerate() {
        let [kind, a, b] = [0, 1, 2].map(|i| byte(answer.frame, i));
        let (a, b) = (a % IDS, b % IDS);
        match (kind, answer.first()) {
            _ if answer.makes_shape() => bodies[a] = (kind, Some("unturned")),
            (4, 0) => bodies[a].1 = unturned(answer.frame),
            (6, 0) => bodies[a].1 = Some("by frame 06"),
            (5, 5) if byte(answer.lines[0], 3) > 0 => {
                if let ((2, Some(turn)), (1, _)) = (bodies[a], bodies[b]) {
                    let [x, y] = [0, 4].map(|at| float(answer.lines[0], NORMAL_AT + at) as f64);
                    let square = x * x + y * y;
                    tally.case((square - 1.0).abs() <= NEARLY, || {
                        format!("{}: line {}: a normal ({x:e}, {y:e})", name(), i + 1)
                    });
                    tally.met(turn);
                }
            }
            _ => {}
        }
    }
}

/// A placement by frame 04 that does not turn.
fn unturned(frame: &[u8]) -> Option<&'static str> {
    (float(frame, 10) == 0.0 && float(frame, 14) == 1.0).then_some("unturned")
}

/// What a run has to meet.
pub const WANTED: [&str; 2] = ["unturned", "by frame 06"];
