//! Request 08's second program, by the paper's words: whether two measured bodies touch. It takes the least and the
//! greatest that each difference and sum can be, and of few choices tries all, of whole numbers and of fractions.
use std::ops::RangeInclusive;

/// A lowest and a highest number.
pub type Span = [i64; 2];

pub const LIMIT: i64 = 1024;
/// The refusal.
pub const OUT_OF_LIMITS: u32 = 17;

/// The verdicts, by their numbers; 0 is none.
pub const TOUCHING: u32 = 1;
pub const APART: u32 = 2;
pub const EITHER: u32 = 3;

/// Two measured bodies: x, y and the radius of each, or x, y and two half-widths.
#[derive(Clone, Debug)]
pub struct Measured {
    pub a: Vec<Span>,
    pub b: Vec<Span>,
}

fn signed(word: u32) -> i64 {
    i64::from(word as i32)
}

impl Measured {
    /// Those of a request.
    pub fn of(request: &[u32]) -> Measured {
        let spans: Vec<Span> = request[1..].chunks(2).map(|two| [signed(two[0]), signed(two[1])]).collect();
        let (a, b) = spans.split_at(spans.len() / 2);
        Measured { a: a.to_vec(), b: b.to_vec() }
    }

    pub fn request(&self, entry: u32) -> Vec<u32> {
        let words = self.a.iter().chain(&self.b).flatten().map(|n| *n as i32 as u32);
        [entry].into_iter().chain(words).collect()
    }

    pub fn swapped(&self) -> Measured {
        Measured { a: self.b.clone(), b: self.a.clone() }
    }

    pub fn refusal(&self) -> u32 {
        if in_limits(&self.a) && in_limits(&self.b) {
            0
        } else {
            OUT_OF_LIMITS
        }
    }

    /// In how many ways the numbers can be chosen with so many parts of 1/256 m.
    pub fn choices(&self, parts: i64) -> u64 {
        let ways = |[low, high]: &Span| (parts * (high - low) + 1).max(0) as u64;
        self.a.iter().chain(&self.b).fold(1, |product: u64, span| product.saturating_mul(ways(span)))
    }

    /// The verdict, by trying every choice with so many parts of 1/256 m.
    pub fn by_trying(&self, parts: i64) -> u32 {
        let spans: Vec<Span> = self.a.iter().chain(&self.b).map(|span| span.map(|n| parts * n)).collect();
        let mut choice: Vec<i64> = spans.iter().map(|span| span[0]).collect();
        let (mut some_touch, mut some_apart) = (false, false);
        loop {
            let (a, b) = choice.split_at(self.a.len());
            if touch(a, b) {
                some_touch = true;
            } else {
                some_apart = true;
            }
            // the next: the first number that can be raised is, and those before it begin again
            let Some(place) = (0..spans.len()).find(|i| choice[*i] < spans[*i][1]) else { break };
            choice[place] += 1;
            (0..place).for_each(|i| choice[i] = spans[i][0]);
        }
        verdict(some_touch, some_apart)
    }

    /// The ways from A to B along both axes and the sums of the sizes: of the nearest and largest bodies, and of the
    /// farthest and smallest.
    fn extremes(&self) -> [Extreme; 2] {
        let Measured { a, b } = self;
        let sums = |end: usize| (2..a.len()).map(|i| a[i][end] + b[i][end]).collect();
        let to_left = [0, 1].map(|i| a[i][1] - b[i][0]);
        let to_right = [0, 1].map(|i| b[i][1] - a[i][0]);
        let least = [0, 1].map(|i| 0.max(-to_left[i]).max(-to_right[i]));
        let greatest = [0, 1].map(|i| to_left[i].max(to_right[i]));
        [Extreme { ways: least, sums: sums(1) }, Extreme { ways: greatest, sums: sums(0) }]
    }

    /// The verdict, by them.
    pub fn by_extremes(&self) -> u32 {
        let [nearest, farthest] = self.extremes();
        verdict(nearest.touch(), !farthest.touch())
    }

    /// How they are where they just touch or hardly not.
    pub fn edges(&self) -> [Option<&'static str>; 2] {
        self.extremes().map(|extreme| extreme.edge())
    }

    /// Whether two bodies of whole numbers, joined, lie inside the ranges.
    pub fn hold(&self, pair: &[i64]) -> bool {
        let spans = self.a.iter().chain(&self.b);
        pair.len() == self.a.len() + self.b.len()
            && spans.zip(pair).all(|([low, high], n)| (*low..=*high).contains(n))
    }

    /// Whether the words behind a verdict are what they have to be: two that touch and two that do not, or zeros.
    pub fn pairs_are_right(&self, verdict: u32, words: &[u32]) -> bool {
        let numbers: Vec<i64> = words.iter().map(|word| signed(*word)).collect();
        if numbers.len() != 2 * (self.a.len() + self.b.len()) {
            return false;
        }
        let (first, second) = numbers.split_at(numbers.len() / 2);
        match verdict {
            EITHER => self.hold(first) && self.hold(second) && touch_each_other(first) && !touch_each_other(second),
            _ => numbers.iter().all(|n| *n == 0),
        }
    }
}

struct Extreme {
    ways: [i64; 2],
    sums: Vec<i64>,
}

impl Extreme {
    fn touch(&self) -> bool {
        match (self.ways, &self.sums[..]) {
            ([x, y], [radii]) => x.pow(2) + y.pow(2) <= radii.pow(2),
            (ways, sums) => ways.iter().zip(sums).all(|(way, sum)| way <= sum),
        }
    }

    fn edge(&self) -> Option<&'static str> {
        let (over, most) = match (self.ways, &self.sums[..]) {
            ([x, y], [radii]) => (x.pow(2) + y.pow(2) - radii.pow(2), 2 * radii + 1),
            (ways, sums) => (ways.iter().zip(sums).map(|(way, sum)| way - sum).max()?, 1),
        };
        let alone = self.sums.len() == 1 || self.sums == self.ways;
        match over {
            0 if alone => Some("meet in one point"),
            0 => Some("meet along a side"),
            _ if 0 < over && over <= most => Some("just miss"),
            _ => None,
        }
    }
}

/// The limits of a body's number: coordinates first, then sizes.
pub fn limits(place: usize) -> RangeInclusive<i64> {
    if place < 2 {
        -LIMIT..=LIMIT
    } else {
        0..=LIMIT
    }
}

fn in_limits(body: &[Span]) -> bool {
    let good = |(i, [low, high]): (usize, &Span)| low <= high && limits(i).contains(low) && limits(i).contains(high);
    body.iter().enumerate().all(good)
}

/// Whether two exact bodies, with their edges, share a point; in any unit.
fn touch(a: &[i64], b: &[i64]) -> bool {
    let (dx, dy) = (a[0] - b[0], a[1] - b[1]);
    if a.len() == 3 {
        dx * dx + dy * dy <= (a[2] + b[2]) * (a[2] + b[2])
    } else {
        dx.abs() <= a[2] + b[2] && dy.abs() <= a[3] + b[3]
    }
}

pub fn touch_each_other(pair: &[i64]) -> bool {
    let (a, b) = pair.split_at(pair.len() / 2);
    touch(a, b)
}

fn verdict(some_touch: bool, some_apart: bool) -> u32 {
    match (some_touch, some_apart) {
        (true, true) => EITHER,
        (true, false) => TOUCHING,
        (false, true) => APART,
        (false, false) => 0,
    }
}
