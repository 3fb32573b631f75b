//! Our root against the hardware's, and the step that gave it against the papers' words, over every STRIDE-th of all
//! 2^32 operands. usage: all_roots STRIDE
#[path = "../shared/steps.rs"]
mod steps;

extern "C" {
    fn direct_root(x: f32) -> f32;
    fn calls(input: *const u8, input_len: usize, out: *mut u8, out_len: usize) -> u32;
}

const STEPS: [&str; 3] = ["special", "exact", "rounded"];

fn bits(x: f32) -> u32 {
    if x.is_nan() {
        0x7fc0_0000
    } else {
        x.to_bits()
    }
}

/// Entry 18 of the test door: the step, and the root.
fn stepped(x: u32) -> (u32, u32) {
    let [a, b, c, d] = x.to_be_bytes();
    let (request, mut answer) = ([0, 0, 0, 18, a, b, c, d], [0u8; 12]);
    let words = unsafe { calls(request.as_ptr(), request.len(), answer.as_mut_ptr(), answer.len()) };
    assert_eq!((words, &answer[..4]), (3, &[0; 4][..]), "entry 18 answers three words, the first 0");
    let word = |i: usize| u32::from_be_bytes(answer[i..i + 4].try_into().expect("four bytes"));
    (word(4), word(8))
}

fn main() {
    let stride: u64 = std::env::args().nth(1).expect("a stride").parse().expect("a number");
    let (mut operands, mut differences, mut taken) = (0u64, 0u64, [0u64; 3]);
    for n in (0..1u64 << 32).step_by(stride as usize) {
        let x = f32::from_bits(n as u32);
        let root = x.sqrt();
        let (ours, theirs) = (bits(unsafe { direct_root(x) }), bits(root));
        let (step, root_of_step) = stepped(n as u32);
        let their_step = steps::step(x, root);
        operands += 1;
        taken[their_step as usize] += 1;
        if (ours, root_of_step, step) != (theirs, theirs, their_step) {
            differences += 1;
            if differences <= 5 {
                println!("  root of {n:08x}: {ours:08x}, by step {step} {root_of_step:08x}");
                println!("  the hardware's {theirs:08x}, by step {their_step}");
            }
        }
    }
    let counts: Vec<String> = (0..3).map(|k| format!("{} {}", taken[k], STEPS[k])).collect();
    let word = if differences == 0 { "ok" } else { "FAILED" };
    println!("{word} root against the hardware: {operands} operands, {}, {differences} differences", counts.join(", "));
    std::process::exit((differences > 0 || taken.contains(&0)) as i32);
}
