//! Passes of ours and of both references over cases that come again and again in turn, which the processor learns, and
//! over many cases in no order, which it does not.
use crate::cases::Random;
use std::hint::black_box;
use std::time::Instant;

/// ns of one pass of a reference over an order of cases.
pub fn pass(order: &[u32], mut call: impl FnMut(usize)) -> f64 {
    let start = Instant::now();
    for k in order {
        call(*k as usize);
    }
    start.elapsed().as_nanos() as f64
}

/// ns of one pass of ours, which first builds its shapes: a pass over no case takes the time of that alone.
pub fn pass_of_ours<T>(order: &[u32], pass: impl Fn(&[u32]) -> T) -> f64 {
    let start = Instant::now();
    black_box(pass(black_box(order)));
    start.elapsed().as_nanos() as f64
}

const LEARNT: usize = 64;
pub const UNLEARNT: usize = 1024;
const CALLS: usize = 8192;

/// The heading of the rows.
pub fn heading() {
    println!("\n{:<42}  {:<35}  {}", "", "the same cases in turn", "cases in no order");
    let head = "  ours   Rust  Box2D ratio   more";
    println!("{:<42}  {head}  {head}", "ns per call");
}

/// The least of many passes of each contestant, which alternate, over cases in turn and over cases in no order. What
/// each takes over no case is taken off.
pub fn race(name: &str, rounds: usize, mut contestants: [&mut dyn FnMut(&[u32]) -> f64; 3]) {
    let mut r = Random(7);
    let in_turn: Vec<u32> = (0..CALLS).map(|i| (i % LEARNT) as u32).collect();
    let in_no_order: Vec<u32> = (0..2 * CALLS).map(|_| r.below(UNLEARNT) as u32).collect();
    print!("{name:<42}");
    for order in [&in_turn, &in_no_order] {
        let mut best = [[f64::INFINITY; 2]; 3];
        for _ in 0..rounds {
            for ([least, none], contestant) in best.iter_mut().zip(&mut contestants) {
                *none = none.min(contestant(&[]));
                *least = least.min(contestant(order));
            }
        }
        let [ours, rust, box2d] = best.map(|[least, none]| (least - none) / order.len() as f64);
        let faster = rust.min(box2d);
        print!("  {ours:6.1} {rust:6.1} {box2d:6.1} {:5.2} {:+6.1}", ours / faster, ours - faster);
    }
    println!();
}
