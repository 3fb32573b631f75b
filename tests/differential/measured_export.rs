//! The C export of measured bodies (include/netxurbil.h), by its structs, on the words of a request.

#[repr(C)]
#[derive(Clone, Copy)]
struct Span {
    lowest: i32,
    highest: i32,
}

#[repr(C)]
#[derive(Clone, Copy)]
struct MeasuredCircle {
    x: Span,
    y: Span,
    radius: Span,
}

#[repr(C)]
#[derive(Clone, Copy)]
struct MeasuredBox {
    x: Span,
    y: Span,
    hx: Span,
    hy: Span,
}

#[repr(C)]
#[derive(Clone, Copy)]
struct WholeCircle {
    x: i32,
    y: i32,
    radius: i32,
}

#[repr(C)]
#[derive(Clone, Copy)]
struct WholeBox {
    x: i32,
    y: i32,
    hx: i32,
    hy: i32,
}

#[repr(C)]
#[derive(Clone, Copy)]
struct Pair<Body> {
    a: Body,
    b: Body,
}

#[repr(C)]
#[derive(Clone, Copy)]
struct Answer<Body> {
    refusal: u32,
    verdict: u32,
    touching: Pair<Body>,
    apart: Pair<Body>,
}

extern "C" {
    fn netxurbil_measured_circles(a: MeasuredCircle, b: MeasuredCircle) -> Answer<WholeCircle>;
    fn netxurbil_measured_boxes(a: MeasuredBox, b: MeasuredBox) -> Answer<WholeBox>;
}

fn span(words: &[u32]) -> Span {
    Span { lowest: words[0] as i32, highest: words[1] as i32 }
}

fn circle(words: &[u32]) -> MeasuredCircle {
    MeasuredCircle { x: span(words), y: span(&words[2..]), radius: span(&words[4..]) }
}

fn a_box(words: &[u32]) -> MeasuredBox {
    MeasuredBox { x: span(words), y: span(&words[2..]), hx: span(&words[4..]), hy: span(&words[6..]) }
}

impl<Body: Copy> Answer<Body> {
    fn words(self, numbers: impl Fn(Body) -> Vec<i32>) -> Vec<u32> {
        let bodies = [self.touching.a, self.touching.b, self.apart.a, self.apart.b];
        let numbers = bodies.into_iter().flat_map(numbers).map(|n| n as u32);
        [self.refusal, self.verdict].into_iter().chain(numbers).collect()
    }
}

/// The words that the test door has to answer to the same request.
pub fn answer(request: &[u32]) -> Vec<u32> {
    let (a, b) = request[1..].split_at(request.len() / 2);
    if request.len() == 13 {
        let answer = unsafe { netxurbil_measured_circles(circle(a), circle(b)) };
        answer.words(|body| vec![body.x, body.y, body.radius])
    } else {
        let answer = unsafe { netxurbil_measured_boxes(a_box(a), a_box(b)) };
        answer.words(|body| vec![body.x, body.y, body.hx, body.hy])
    }
}
