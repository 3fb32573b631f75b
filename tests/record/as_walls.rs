//! Chains beside frame 03, by document 02: "each line equals that of frame 03 with the same four points under the same
//! id, where all other frames are the same". In a heat, a frame 07 that was accepted becomes the frame 03 of one of its
//! pieces. The program is run on both, and prints the same, but that a test of the chain has that piece's line alone.
use crate::answers::{answered, byte, lines, Answered, PIECES};
use crate::pieces;
use crate::support::{Random, Tally};

/// The digits of a frame before its points, and those of a point.
const HEAD: usize = 6;
const POINT: usize = 16;

/// The chain under an id from one line of a heat up to another, where the next shape under that id comes.
struct Chain {
    id: usize,
    from: usize,
    to: usize,
}

impl Chain {
    fn tested(&self, i: usize, answer: &Answered) -> bool {
        (self.from..self.to).contains(&i) && answer.first() == 5 && byte(answer.frame, 1) == self.id
    }
}

/// The chains of a heat, each with at least one accepted test.
fn chains(heat: &[Answered]) -> Vec<Chain> {
    let chain = |from: usize| {
        let id = byte(heat[from].frame, 1);
        let next = (from + 1..heat.len()).find(|i| heat[*i].makes_shape() && byte(heat[*i].frame, 1) == id);
        Chain { id, from, to: next.unwrap_or(heat.len()) }
    };
    let drawn = |answer: &Answered| {
        let (frame, count) = (answer.frame, byte(answer.frame, 2));
        let fits = (2..PIECES + 2).contains(&count) && frame.len() == HEAD + POINT * (count + 2);
        answer.makes_shape() && frame.starts_with(b"07") && fits
    };
    let drawn = (0..heat.len()).filter(|i| drawn(&heat[*i]));
    drawn.map(chain).filter(|chain| (chain.from..chain.to).any(|i| chain.tested(i, &heat[i]))).collect()
}

/// The heat with another line in the place of one.
fn replaced(input: &[u8], place: usize, line: &[u8]) -> Vec<u8> {
    let mut all = lines(input);
    all[place] = line;
    let mut text = all.join(&b'\n');
    if input.last() == Some(&b'\n') {
        text.push(b'\n');
    }
    text
}

/// A case for a heat that tests a chain: one such chain, one of its pieces. `output` is what the program printed.
pub fn compare(
    program: &str,
    (input, output): (&[u8], &[u8]),
    random: &mut Random,
    name: impl Fn() -> String,
    tally: &mut Tally,
) {
    let heat = answered(input, output);
    let all = chains(&heat);
    if all.is_empty() {
        return;
    }
    let chain = &all[random.below(all.len() as u64) as usize];
    let frame = heat[chain.from].frame;
    // the later of two: few chains have the last pieces
    let [one, two] = [0; 2].map(|_| random.below(byte(frame, 2) as u64 - 1) as usize);
    let piece = one.max(two);
    let points = &frame[HEAD + POINT * piece..HEAD + POINT * (piece + 4)];
    let wall = [b"03", &frame[2..4], b"01", points].concat();
    let other = replaced(input, chain.from, &wall);
    let (printed, ended, _) = pieces::run(program, &other, random);
    let beside = answered(&other, &printed);
    let wanted = |i: usize| match heat[i].lines.get(piece) {
        Some(line) if chain.tested(i, &heat[i]) => vec![*line],
        _ => heat[i].lines.clone(),
    };
    let differs = (0..heat.len()).find(|i| beside[*i].lines != wanted(*i));
    let whole = beside.iter().map(|answer| answer.lines.len()).sum::<usize>() == lines(&printed).len();
    tally.case(ended && whole && differs.is_none(), || {
        let text = |lines: &[&[u8]]| String::from_utf8_lossy(&lines.join(&b' ')).into_owned();
        let first = differs.map_or("it ended badly, or printed more".to_string(), |i| {
            format!("line {}: {}, and in a chain {}", i + 1, text(&beside[i].lines), text(&wanted(i)))
        });
        format!("{}: piece {piece} of line {}, as a wall: {first}", name(), chain.from + 1)
    });
    tally.met(&format!("piece {piece}"));
    for (i, answer) in heat.iter().enumerate() {
        if chain.tested(i, answer) {
            tally.met(["no point", "1 point", "2 points"][byte(wanted(i)[0], 3).min(2)]);
        } else if answer.first() == 5 {
            tally.met(if i < chain.to { "another's test" } else { "a test after it" });
        }
    }
}

/// What a run has to meet.
pub fn wanted() -> Vec<String> {
    let mut list: Vec<String> = (0..PIECES).map(|piece| format!("piece {piece}")).collect();
    list.extend(["no point", "1 point", "2 points", "another's test", "a test after it"].map(String::from));
    list
}
