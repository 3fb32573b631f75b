//! What the second programs at hand say, and whether they agree.
#[cfg(papers)]
use crate::rust_touches;
#[cfg(box2d)]
use std::ffi::c_void;
#[cfg(papers)]
use std::sync::atomic::Ordering::Relaxed;

#[cfg(box2d)]
extern "C" {
    // tests/record/box2d_touches.cpp; the output is what `put` is handed, a piece at a time, with `out`
    fn box2d_touches(input: *const u8, length: usize, put: Put, out: *mut c_void);
    static mut box2d_face_normals: [usize; 3];
    fn box2d_export(frames: *const u8, length: usize, out: *mut u8, out_length: usize) -> u32;
}

#[cfg(box2d)]
type Put = unsafe extern "C" fn(*mut c_void, *const u8, usize);

#[cfg(box2d)]
unsafe extern "C" fn put(out: *mut c_void, text: *const u8, length: usize) {
    (*(out as *mut Vec<u8>)).extend(std::slice::from_raw_parts(text, length));
}

/// How often each program at hand put the normal of a face in, since it was last asked: at a first corner, at a second,
/// and turned.
pub fn face_normals() -> Vec<(&'static str, [usize; 3])> {
    let mut list = Vec::new();
    #[cfg(papers)]
    list.push(("over the Rust", [0, 1, 2].map(|i| rust_touches::corner::FACE_NORMALS[i].swap(0, Relaxed))));
    #[cfg(box2d)]
    list.push(("over Box2D", unsafe { std::mem::take(&mut *std::ptr::addr_of_mut!(box2d_face_normals)) }));
    list
}

/// The whole output for an input, and whether both programs give it.
pub fn touches(input: &[u8]) -> (Vec<u8>, bool) {
    let mut answers: Vec<Vec<u8>> = Vec::new();
    #[cfg(papers)]
    answers.push(rust_touches::touches(input));
    #[cfg(box2d)]
    {
        let mut out: Vec<u8> = Vec::new();
        unsafe { box2d_touches(input.as_ptr(), input.len(), put, &mut out as *mut Vec<u8> as *mut c_void) };
        answers.push(out);
    }
    let _ = input;
    let last = answers.pop().expect("a reference");
    let agree = answers.iter().all(|answer| *answer == last);
    (last, agree)
}

/// What the export returns and leaves in its output, and whether both programs say so.
pub fn export(frames: &[u8], old: &[u8]) -> (u32, Vec<u8>, bool) {
    let mut answers: Vec<(u32, Vec<u8>)> = Vec::new();
    #[cfg(papers)]
    {
        let mut out = old.to_vec();
        let number = rust_touches::export(frames, &mut out);
        answers.push((number, out));
    }
    #[cfg(box2d)]
    {
        let mut out = old.to_vec();
        let number = unsafe { box2d_export(frames.as_ptr(), frames.len(), out.as_mut_ptr(), out.len()) };
        answers.push((number, out));
    }
    let _ = (frames, old);
    let last = answers.pop().expect("a reference");
    let agree = answers.iter().all(|answer| *answer == last);
    (last.0, last.1, agree)
}
