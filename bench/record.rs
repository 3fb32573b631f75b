//! The touch record's speed: frames a second of our program, of the second program over the Rust and of the one over
//! Box2D 2.4.1, on one heat sent over and over, on placements of one body, by frame 04 and by frame 06, and on a box
//! along a chain; and ns a call of the export. usage: record OURS BOX2D HEAT [ROUNDS]
//! Programs are run as they are used, from a file to a file, and must print the same; then ROUNDS times to nowhere, in
//! turns. A figure is the least processor time of them, the system's for it included, and that of the empty lines,
//! which end steps and are no frames. `record touches` is the second program over the Rust.
#![allow(unknown_lints, unexpected_cfgs)]
#[allow(dead_code)]
#[path = "../tests/shared/ranges.rs"]
mod ranges;
#[path = "../tests/record/rust_touches/mod.rs"]
mod touches;
use std::fs::File;
use std::hint::black_box;
use std::io::{Read, Write};
use std::process::Command;
use std::time::Instant;
use touches::LONGEST_TEST;

extern "C" {
    fn netxurbil_test(frames: *const u8, frames_length: usize, out: *mut u8, out_length: usize) -> u32;
    fn box2d_export(frames: *const u8, frames_length: usize, out: *mut u8, out_length: usize) -> u32;
    fn getrusage(who: i32, usage: *mut [i64; 18]) -> i32;
}

/// About so many frames are sent.
const FRAMES: usize = 500_000;
const CALLS: usize = 20_000;

/// Seconds of processor time that programs which were run have taken so far.
fn spent() -> f64 {
    const CHILDREN: i32 = -1;
    let mut usage = [0; 18];
    assert!(unsafe { getrusage(CHILDREN, &mut usage) } == 0);
    (usage[0] + usage[2]) as f64 + (usage[1] + usage[3]) as f64 / 1e6
}

/// Seconds of one run of a program.
fn run(program: &[&str], input: &str, output: &str) -> f64 {
    let start = spent();
    let status = Command::new(program[0])
        .args(&program[1..])
        .stdin(File::open(input).expect("the input"))
        .stdout(File::create(output).expect("the output"))
        .status()
        .expect("a program");
    assert!(status.success(), "{program:?} ended badly");
    spent() - start
}

fn programs(ours: &str, box2d: &str, name: &str, once: &[u8], rounds: usize) {
    let frames = once.split(|c| *c == b'\n').filter(|line| !line.is_empty()).count();
    let steps = once.iter().filter(|c| **c == b'\n').count() - frames;
    let times = FRAMES.div_ceil(frames);
    let folder = std::env::temp_dir().join(format!("record-bench-{}", std::process::id()));
    std::fs::create_dir_all(&folder).expect("a folder");
    let file = |name: &str| folder.join(name).to_str().expect("a path").to_string();
    let (input, output) = (file("in"), ["ours", "rust", "box2d"].map(|name| file(name)));
    std::fs::write(&input, once.repeat(times)).expect("the input");
    let me = std::env::current_exe().expect("this program");
    let contestants: [(&str, Vec<&str>); 3] =
        [("ours", vec![ours]), ("Rust", vec![me.to_str().expect("a path"), "touches"]), ("Box2D", vec![box2d])];
    contestants.iter().zip(&output).for_each(|((_, program), output)| {
        run(program, &input, output);
    });
    let bytes = output.each_ref().map(|path| std::fs::read(path).expect("an output"));
    assert!(bytes[0] == bytes[1] && bytes[0] == bytes[2], "the programs do not print the same");
    let mut best = [f64::INFINITY; 3];
    for _ in 0..rounds {
        for (least, (_, program)) in best.iter_mut().zip(&contestants) {
            *least = least.min(run(program, &input, "/dev/null"));
        }
    }
    std::fs::remove_dir_all(&folder).expect("the folder");
    println!("{name}, {times} times: {} frames, {} steps", frames * times, steps * times);
    for ((name, _), seconds) in contestants.iter().zip(best) {
        let rate = (frames * times) as f64 / seconds;
        let ns = 1e9 / rate;
        println!(
            "{name:<6} {rate:>10.0} frames a second, {ns:7.1} ns a frame; ours is {:.2} times as fast",
            seconds / best[0]
        );
    }
}

fn number(frame: &mut Vec<u8>, x: f32) {
    frame.extend(x.to_bits().to_be_bytes());
}

/// A box, and a placement of it at each turn number, by the number or by its sine and cosine.
fn placements(by_number: bool) -> Vec<u8> {
    let mut frames = vec![vec![2, 0, 4]];
    [-1.0, -1.0, 1.0, -1.0, 1.0, 1.0, -1.0, 1.0].iter().for_each(|x| number(&mut frames[0], *x));
    for turn in 0..4096u16 {
        let mut frame = vec![if by_number { 6 } else { 4 }, 0];
        [turn as f32 / 1024.0, 0.25].iter().for_each(|x| number(&mut frame, *x));
        if by_number {
            frame.extend(turn.to_be_bytes());
        } else {
            let (s, c) = (turn as f64 * std::f64::consts::TAU / 4096.0).sin_cos();
            [s as f32, c as f32].iter().for_each(|x| number(&mut frame, *x));
        }
        frames.push(frame);
    }
    lines(&frames)
}

fn lines(frames: &[Vec<u8>]) -> Vec<u8> {
    let line = |frame: &Vec<u8>| frame.iter().map(|b| format!("{b:02x}")).collect::<String>() + "\n";
    frames.iter().map(line).collect::<String>().into_bytes()
}

/// A chain of seven pieces, and a box that slides along it, placed and tested in turn: a test has seven lines.
fn along_chain() -> Vec<u8> {
    let mut frames = vec![vec![7, 0, 8], vec![2, 1, 4]];
    (0..10).for_each(|i| [9.0 - 2.0 * i as f32, (i % 2) as f32 / 4.0].iter().for_each(|x| number(&mut frames[0], *x)));
    [-0.5, -0.5, 0.5, -0.5, 0.5, 0.5, -0.5, 0.5].iter().for_each(|x| number(&mut frames[1], *x));
    for step in 0..2048 {
        let mut frame = vec![4, 1];
        [7.0 - step as f32 / 128.0, 0.625, 0.0, 1.0].iter().for_each(|x| number(&mut frame, *x));
        frames.extend([frame, vec![5, 0, 1]]);
    }
    lines(&frames)
}

/// The four frames of two outlines with so many corners each, overlapping by a little; the last one moves with i.
fn frames(corners: usize, i: usize) -> Vec<u8> {
    let mut bytes = Vec::new();
    for (id, x) in [(0u8, 0.0), (1, 1.9 + (i % 16) as f32 / 1024.0)] {
        bytes.extend([2, id, corners as u8]);
        for k in 0..corners {
            let (s, c) = ((2 * k + 1) as f64 * std::f64::consts::PI / corners as f64).sin_cos();
            number(&mut bytes, c as f32);
            number(&mut bytes, s as f32);
        }
        bytes.extend([4, id]);
        [x, 0.0, 0.0, 1.0].iter().for_each(|x| number(&mut bytes, *x));
    }
    bytes
}

fn exports(corners: usize, rounds: usize) {
    let inputs: Vec<Vec<u8>> = (0..64).map(|i| frames(corners, i)).collect();
    let ours = |frames: &[u8], out: &mut [u8]| unsafe {
        netxurbil_test(frames.as_ptr(), frames.len(), out.as_mut_ptr(), out.len())
    };
    let box2d = |frames: &[u8], out: &mut [u8]| unsafe {
        box2d_export(frames.as_ptr(), frames.len(), out.as_mut_ptr(), out.len())
    };
    let contestants: [(&str, &dyn Fn(&[u8], &mut [u8]) -> u32); 3] =
        [("ours", &ours), ("Rust", &touches::export), ("Box2D", &box2d)];
    for input in &inputs {
        let answer = |call: &dyn Fn(&[u8], &mut [u8]) -> u32| {
            let mut out = [0; LONGEST_TEST];
            (call(input, &mut out), out)
        };
        let answers = contestants.map(|(_, call)| answer(call));
        assert!(answers[0] == answers[1] && answers[0] == answers[2], "the exports do not give the same");
    }
    let mut best = [f64::INFINITY; 3];
    for _ in 0..rounds {
        for (least, (_, call)) in best.iter_mut().zip(contestants) {
            let (start, mut out) = (Instant::now(), [0; LONGEST_TEST]);
            for i in 0..CALLS {
                black_box(call(&inputs[i % 64], &mut out));
            }
            *least = least.min(start.elapsed().as_nanos() as f64 / CALLS as f64);
        }
    }
    let columns: Vec<String> =
        contestants.iter().zip(best).map(|((name, _), ns)| format!("{name} {ns:6.0} ns")).collect();
    println!("export, two outlines of {corners} corners: {}", columns.join("   "));
}

fn main() {
    std::panic::set_hook(Box::new(|panic| eprintln!("{panic}")));
    let words: Vec<String> = std::env::args().skip(1).collect();
    if words.len() == 1 && words[0] == "touches" {
        std::panic::set_hook(Box::new(|_| {}));
        let mut input = Vec::new();
        std::io::stdin().read_to_end(&mut input).expect("standard input");
        return std::io::stdout().write_all(&touches::touches(&input)).expect("standard output");
    }
    assert!(words.len() >= 3, "usage: record OURS BOX2D HEAT [ROUNDS]");
    let rounds = words.get(3).map_or(10, |word| word.parse().expect("a number"));
    let heat = std::fs::read(&words[2]).expect("the heat");
    let inputs = [
        (words[2].as_str(), heat),
        ("a box placed at each turn number by frame 04", placements(false)),
        ("a box placed at each turn number by frame 06", placements(true)),
        ("a box placed along a chain and tested", along_chain()),
    ];
    inputs.iter().for_each(|(name, once)| programs(&words[0], &words[1], name, once, rounds));
    [3, 4, 8].iter().for_each(|corners| exports(*corners, 5 * rounds));
}
