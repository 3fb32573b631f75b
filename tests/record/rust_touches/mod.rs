//! A second `touches` over the unmodified Rust, written from document 01's "The touch record", from document 02's
//! frames 06 and 07, its touches, its steps, its ages of points and its normals at corners, and from nothing of ours:
//! what the program prints for an input, and the export. The Rust's panics are refusals 3, 4, 5 and 8; 1, 2, 6, 9 and 10
//! to 16 are tested here. A kind of frame is a row of KINDS and a function in the file of its like.
pub mod corner;
mod placing;
mod shapes;
mod testing;
use box2d_rs::b2_collision::B2manifold;
use box2d_rs::b2_common::B2_MAX_MANIFOLD_POINTS;
use box2d_rs::b2_math::{B2Rot, B2Transform, B2vec2};
use shapes::Shape;

const IDS: usize = 8;
const LONGEST_FRAME: usize = 67;
const LONGEST_CHAIN: usize = 83;
/// The bytes of a test's line: those that each has, the normal where there are points, a point with its age.
const HEAD: usize = 13;
const NORMAL: usize = 8;
const POINT: usize = 16;
pub const LONGEST_TEST: usize = HEAD + NORMAL + B2_MAX_MANIFOLD_POINTS * POINT;

/// The lines, or the number of a refusal.
type Answer = Result<Vec<Line>, u8>;

/// The bytes of a line, so many of them.
pub struct Line {
    bytes: [u8; LONGEST_TEST],
    length: usize,
}

impl Line {
    fn of(bytes: &[u8]) -> Line {
        let mut line = Line { bytes: [0; LONGEST_TEST], length: 0 };
        line.put(bytes);
        line
    }

    fn put(&mut self, more: &[u8]) {
        self.bytes[self.length..self.length + more.len()].copy_from_slice(more);
        self.length += more.len();
    }

    fn bytes(&self) -> &[u8] {
        &self.bytes[..self.length]
    }
}

/// A kind of frame: its length by its third byte, where these are known; how many ids follow the kind; what it does.
struct Kind {
    kind: u8,
    length: fn(Option<u8>) -> Option<usize>,
    ids: usize,
    run: fn(&mut Program, &[u8]) -> Answer,
}

const KINDS: [Kind; 7] = [
    Kind { kind: 1, length: |_| Some(14), ids: 1, run: shapes::circle },
    Kind { kind: 2, length: |count| Some(3 + 8 * count? as usize), ids: 1, run: shapes::outline },
    Kind { kind: 3, length: |flag| [19, 35].get(flag? as usize).copied(), ids: 1, run: shapes::wall },
    Kind { kind: 4, length: |_| Some(18), ids: 1, run: placing::place },
    Kind { kind: 5, length: |_| Some(3), ids: 2, run: testing::test },
    Kind { kind: 6, length: |_| Some(12), ids: 1, run: placing::head },
    Kind { kind: 7, length: |count| Some(3 + 8 * (count? as usize + 2)), ids: 1, run: shapes::chain },
];

/// The longest frame of a kind: a line has 134 digits at most, 166 where it is a chain.
fn longest(kind: u8) -> usize {
    if kind == 7 {
        LONGEST_CHAIN
    } else {
        LONGEST_FRAME
    }
}

/// The kind of a frame and its length by it.
fn kind(frame: &[u8]) -> Option<(&'static Kind, usize)> {
    let kind = KINDS.iter().find(|row| Some(&row.kind) == frame.first())?;
    Some((kind, (kind.length)(frame.get(2).copied())?))
}

struct Body {
    shape: Shape,
    place: B2Transform,
}

/// What an ordered pair keeps of a piece of its first body: the contact at the last accepted test, if there was one,
/// the ages of its points, and the touches so far.
#[derive(Clone, Copy, Default)]
struct Contact {
    last: Option<B2manifold>,
    ages: [u32; B2_MAX_MANIFOLD_POINTS],
    touches: u32,
}

/// An ordered pair, from its first accepted test on: its ids, and a contact for each piece. A body that is no chain is
/// one piece.
struct Pair {
    ids: [u8; 2],
    contacts: Vec<Contact>,
}

#[derive(Default)]
pub struct Program {
    bodies: [Option<Body>; IDS],
    pairs: Vec<Pair>,
    /// The steps that have ended.
    steps: u32,
}

fn accepted() -> Answer {
    Ok(vec![Line::of(&[0])])
}

fn words(bytes: &[u8]) -> Vec<u32> {
    bytes.chunks_exact(4).map(|b| u32::from_be_bytes([b[0], b[1], b[2], b[3]])).collect()
}

fn points(words: &[u32]) -> Vec<B2vec2> {
    words.chunks_exact(2).map(|w| B2vec2::new(f32::from_bits(w[0]), f32::from_bits(w[1]))).collect()
}

impl Program {
    /// A new shape: at the origin, unturned, its pairs forgotten.
    fn made(&mut self, id: u8, shape: Shape) -> Answer {
        let place = B2Transform { p: B2vec2::new(0.0, 0.0), q: B2Rot { s: 0.0, c: 1.0 } };
        self.bodies[id as usize] = Some(Body { shape, place });
        self.pairs.retain(|pair| pair.ids[0] != id && pair.ids[1] != id);
        accepted()
    }

    /// One frame, in the order of the refusals: 10, 11, then its kind's own.
    pub fn frame(&mut self, frame: &[u8]) -> Answer {
        let (kind, length) = kind(frame).ok_or(10)?;
        if frame.len() > longest(kind.kind) || frame.len() != length {
            return Err(10);
        }
        if frame[1..1 + kind.ids].iter().any(|id| *id as usize >= IDS) {
            return Err(11);
        }
        (kind.run)(self, frame)
    }

    /// A step has ended: 0a and how many have.
    fn step_ended(&mut self) -> Answer {
        self.steps = self.steps.saturating_add(1);
        let mut line = Line::of(&[0x0a]);
        line.put(&self.steps.to_be_bytes());
        Ok(vec![line])
    }

    /// One line without its line feed. An empty one ends a step; 10 where it is no row of digits in pairs.
    pub fn line(&mut self, line: &[u8]) -> Answer {
        if line.is_empty() {
            return self.step_ended();
        }
        let digit = |c: u8| match c {
            b'0'..=b'9' => Ok(c - b'0'),
            b'a'..=b'f' => Ok(c - b'a' + 10),
            _ => Err(10),
        };
        if line.len() > 2 * LONGEST_CHAIN || line.len() % 2 == 1 {
            return Err(10);
        }
        let frame: Result<Vec<u8>, u8> = line.chunks(2).map(|two| Ok(digit(two[0])? << 4 | digit(two[1])?)).collect();
        self.frame(&frame?)
    }
}

/// What is printed for the whole of standard input.
pub fn touches(input: &[u8]) -> Vec<u8> {
    let mut program = Program::default();
    let mut output = Vec::new();
    let mut lines: Vec<&[u8]> = input.split(|c| *c == b'\n').collect();
    if lines.last().map_or(false, |rest| rest.is_empty()) {
        lines.pop(); // after the last line feed there is no line
    }
    for line in lines {
        for answer in program.line(line).unwrap_or_else(|refusal| vec![Line::of(&[0xff, refusal])]) {
            for byte in answer.bytes() {
                output.extend([byte >> 4, byte & 15].map(|d| b"0123456789abcdef"[d as usize]));
            }
            output.push(b'\n');
        }
    }
    output
}

/// The four frames, one after the other, and the test: its one line.
fn tested(frames: &[u8], room: usize) -> Answer {
    if room < LONGEST_TEST {
        return Err(9);
    }
    let mut rest = frames;
    let mut four = Vec::new();
    for (wanted, id) in [(2, 0), (4, 0), (2, 1), (4, 1)] {
        let (_, length) = kind(rest).filter(|(_, n)| *n <= LONGEST_FRAME && *n <= rest.len()).ok_or(10)?;
        if rest[..2] != [wanted, id] {
            return Err(10);
        }
        four.push(&rest[..length]);
        rest = &rest[length..];
    }
    if !rest.is_empty() {
        return Err(10);
    }
    let mut program = Program::default();
    for frame in four {
        program.frame(frame)?;
    }
    program.frame(&[5, 0, 1])
}

/// The export: the bytes at the front of the output and how many, or 256 and the refusal.
pub fn export(frames: &[u8], out: &mut [u8]) -> u32 {
    match tested(frames, out.len()) {
        Ok(lines) => {
            let line = lines[0].bytes();
            out[..line.len()].copy_from_slice(line);
            line.len() as u32
        }
        Err(refusal) => 256 + refusal as u32,
    }
}
