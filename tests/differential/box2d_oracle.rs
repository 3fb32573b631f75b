//! Box2D 2.4.1 (tests/oracle/box2d.cpp) on words: the refusal and the record after the call.
extern "C" {
    fn box2d_answer(request: *const u32, out: *mut u32) -> usize;
}

pub fn answer(request: &[u32]) -> Vec<u32> {
    let mut out = [0u32; 64];
    let count = unsafe { box2d_answer(request.as_ptr(), out.as_mut_ptr()) };
    assert!(count > 0, "no entry {} of Box2D", request[0]);
    out[..count].to_vec()
}
