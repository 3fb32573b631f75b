//! The lines of heats and of outputs, and which lines of an output answer which line of the heat: a test of a chain has
//! a line for each piece, everything else has one.
use crate::kinds::kind;

pub const IDS: usize = 8;
/// The most pieces that a chain has.
pub const PIECES: usize = 7;
/// The bytes of a test's line: those that each has, the normal where there are points, a point. A point's last four are
/// its age. The longest has two points.
const HEAD: usize = 13;
const NORMAL: usize = 8;
const POINT: usize = 16;
const AGE: usize = 12;
/// Where the normal is in a test's line with points.
pub const NORMAL_AT: usize = HEAD;
pub const LONGEST_TEST: usize = test_bytes(2);

pub fn lines(text: &[u8]) -> Vec<&[u8]> {
    let mut lines: Vec<&[u8]> = text.split(|c| *c == b'\n').collect();
    if lines.last().map_or(false, |rest| rest.is_empty()) {
        lines.pop();
    }
    lines
}

pub fn byte(line: &[u8], i: usize) -> usize {
    let digits = line.get(2 * i..2 * i + 2).and_then(|two| std::str::from_utf8(two).ok());
    digits.and_then(|two| usize::from_str_radix(two, 16).ok()).unwrap_or(0)
}

pub fn word(line: &[u8], at: usize) -> u32 {
    (at..at + 4).fold(0, |bits, i| bits << 8 | byte(line, i) as u32)
}

pub fn float(line: &[u8], at: usize) -> f32 {
    f32::from_bits(word(line, at))
}

/// The bytes of a test's line with so many points.
pub const fn test_bytes(points: usize) -> usize {
    if points == 0 {
        HEAD
    } else {
        HEAD + NORMAL + POINT * points
    }
}

/// Where the age of a point is in a test's line.
pub const fn age_at(point: usize) -> usize {
    HEAD + NORMAL + POINT * point + AGE
}

/// A line of a heat and its answer.
pub struct Answered<'a> {
    pub frame: &'a [u8],
    pub lines: Vec<&'a [u8]>,
}

impl Answered<'_> {
    /// The answer's first byte: 00, 05, 0a or ff; 00 too where there is no line.
    pub fn first(&self) -> usize {
        self.lines.first().map_or(0, |line| byte(line, 0))
    }

    /// Whether it made a new shape under its id.
    pub fn makes_shape(&self) -> bool {
        self.first() == 0 && kind(byte(self.frame, 0)).map_or(false, |row| row.makes_shape)
    }

    /// The refusal's number, if it is one.
    pub fn refusal(&self) -> Option<usize> {
        self.lines.first().filter(|line| byte(line, 0) == 0xff).map(|line| byte(line, 1))
    }
}

/// Each line of a heat with its answer. The pieces of a chain are known from the frame that was accepted under its id.
pub fn answered<'a>(input: &'a [u8], output: &'a [u8]) -> Vec<Answered<'a>> {
    let (mut pieces, mut rest) = ([1; IDS], lines(output).into_iter().peekable());
    let one = |frame: &'a [u8]| {
        let tested = rest.peek().map_or(false, |line| byte(line, 0) == 5);
        let count = if tested { pieces[byte(frame, 1) % IDS] } else { 1 };
        let answer = Answered { frame, lines: rest.by_ref().take(count).collect() };
        if answer.makes_shape() {
            let count = byte(frame, 2).clamp(2, PIECES + 1) - 1;
            pieces[byte(frame, 1) % IDS] = if frame.starts_with(b"07") { count } else { 1 };
        }
        answer
    };
    lines(input).into_iter().map(one).collect()
}

/// Whether an output has just the lines that the heat asks for: those of a test begin as the test does and are as long
/// as their points ask, no others.
pub fn whole(heat: &[Answered], output: &[u8]) -> bool {
    let count: usize = heat.iter().map(|answer| answer.lines.len()).sum();
    let of_test = |frame: &[u8], line: &[u8]| line.starts_with(frame) && line.len() == 2 * test_bytes(byte(line, 3));
    let fits = |answer: &Answered, line: &[u8]| byte(line, 0) != 5 || of_test(answer.frame, line);
    count == lines(output).len()
        && heat.iter().all(|answer| !answer.lines.is_empty() && answer.lines.iter().all(|line| fits(answer, line)))
}

/// The first line in which two outputs differ, with its frame.
pub fn difference(input: &[u8], wanted: &[u8], got: &[u8]) -> String {
    let text = |line: Option<&&[u8]>| {
        line.map_or("no line".into(), |line| String::from_utf8_lossy(&line[..line.len().min(200)]).into_owned())
    };
    let mut got = lines(got).into_iter();
    for (i, answer) in answered(input, wanted).iter().enumerate() {
        for line in &answer.lines {
            let other = got.next();
            if other != Some(line) {
                let [frame, other, line] = [Some(&answer.frame), other.as_ref(), Some(line)].map(text);
                return format!("line {}: {frame:?} gives {other}, not {line}", i + 1);
            }
        }
    }
    got.next().map_or("lines are the same".into(), |line| format!("after the last answer comes {}", text(Some(&line))))
}
