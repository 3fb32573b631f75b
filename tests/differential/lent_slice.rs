//! The outline builder on a lent slice of points, by its own name and with its own records: the call that document 01
//! names, not the entry on words.

#[repr(C)]
#[derive(Clone, Copy)]
pub struct Vec2 {
    x: f32,
    y: f32,
}

#[repr(C)]
pub struct Polygon {
    radius: f32,
    centroid: Vec2,
    vertices: [Vec2; 8],
    normals: [Vec2; 8],
    count: usize,
}

#[repr(C)]
pub struct PolygonAnswer {
    refusal: u8,
    shape: Polygon,
}

extern "C" {
    // A `&[B2vec2]` of Rattle is a pointer and a number of points.
    fn b2_polygon_shape_set(old: Polygon, vertices: *const Vec2, count: usize) -> PolygonAnswer;
}

pub fn numbers(words: &[u32]) -> Vec<f32> {
    words.iter().map(|word| f32::from_bits(*word)).collect()
}

pub fn point(words: &[u32]) -> Vec2 {
    Vec2 { x: f32::from_bits(words[0]), y: f32::from_bits(words[1]) }
}

/// An outline of its 36 words.
pub fn polygon(words: &[u32]) -> Polygon {
    let eight = |at: usize| std::array::from_fn(|i| point(&words[at + 2 * i..]));
    let (radius, centroid, count) = (f32::from_bits(words[0]), point(&words[1..]), words[3] as usize);
    Polygon { radius, centroid, vertices: eight(4), normals: eight(20), count }
}

pub fn polygon_words(made: PolygonAnswer) -> Vec<u32> {
    let shape = made.shape;
    let mut words = vec![made.refusal as u32, shape.radius.to_bits()];
    words.extend([shape.centroid.x.to_bits(), shape.centroid.y.to_bits(), shape.count as u32]);
    words.extend(shape.vertices.iter().chain(&shape.normals).flat_map(|v| [v.x.to_bits(), v.y.to_bits()]));
    words
}

/// A request of entry 1, answered through the lent slice.
pub fn answer(request: &[u32]) -> Vec<u32> {
    let points: Vec<Vec2> = request[38..].chunks_exact(2).map(point).collect();
    polygon_words(unsafe { b2_polygon_shape_set(polygon(&request[1..]), points.as_ptr(), points.len()) })
}
