//! A program fed through a pipe, in pieces that it cannot foresee: each is written when the last one has been read.
use crate::support::Random;
use std::io::{Read, Write};
use std::os::fd::AsRawFd;
use std::process::{Command, Stdio};

const FIONREAD: u64 = 0x541b;
const POLLERR: i16 = 8;

#[repr(C)]
struct Poll {
    descriptor: i32,
    asked: i16,
    met: i16,
}

extern "C" {
    fn ioctl(descriptor: i32, request: u64, count: *mut i32) -> i32;
    fn poll(list: *mut Poll, length: u64, milliseconds: i32) -> i32;
}

/// Waits until what was written to a pipe has been read; false where nobody will.
fn read_by_now(descriptor: i32) -> bool {
    loop {
        let (mut unread, mut pipe) = (0, Poll { descriptor, asked: 0, met: 0 });
        if unsafe { ioctl(descriptor, FIONREAD, &mut unread) } != 0 || unread == 0 {
            return true;
        }
        unsafe { poll(&mut pipe, 1, 0) };
        if pipe.met & POLLERR != 0 {
            return false;
        }
        std::thread::yield_now();
    }
}

/// The sizes of the pieces of an input: the whole, single characters, about a line, or any up to 64 KiB.
fn split(length: usize, random: &mut Random) -> Vec<usize> {
    let largest = match random.below(12) {
        0 if length < 4000 => 1,
        1 | 2 => 64,
        3 | 4 => 300,
        5 | 6 => 8192,
        7 => 65536,
        _ => return vec![length],
    };
    let largest = largest.max(length / 400);
    let mut sizes = Vec::new();
    let mut left = length;
    while left > 0 {
        let size = 1 + random.below(largest.min(left) as u64) as usize;
        sizes.push(size);
        left -= size;
    }
    sizes
}

/// What the program prints for the input; whether it took all of it, said nothing on standard error and ended with
/// status 0; and in how many pieces the input came.
pub fn run(program: &str, input: &[u8], random: &mut Random) -> (Vec<u8>, bool, usize) {
    let sizes = split(input.len(), random);
    let pieces = sizes.len();
    let mut child = Command::new(program)
        .stdin(Stdio::piped())
        .stdout(Stdio::piped())
        .stderr(Stdio::piped())
        .spawn()
        .unwrap_or_else(|error| panic!("{program}: {error}"));
    let mut pipe = child.stdin.take().expect("its standard input");
    let mut errors = child.stderr.take().expect("its standard error");
    let mut output = Vec::new();
    let taken = std::thread::scope(|scope| {
        let writer = scope.spawn(move || {
            let mut rest = input;
            for size in sizes {
                let (piece, after) = rest.split_at(size);
                if pipe.write_all(piece).is_err() {
                    return false;
                }
                rest = after;
                if !rest.is_empty() && !read_by_now(pipe.as_raw_fd()) {
                    return false;
                }
            }
            true
        });
        let silent = scope.spawn(move || matches!(errors.read_to_end(&mut Vec::new()), Ok(0)));
        let read = child.stdout.take().expect("its standard output").read_to_end(&mut output).is_ok();
        writer.join().unwrap_or(false) && silent.join().unwrap_or(false) && read
    });
    let status = child.wait().expect("its status");
    (output, taken && status.success(), pieces)
}
