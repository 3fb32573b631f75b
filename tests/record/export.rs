//! Our export beside the second programs': good and damaged frames, outputs from none to some bytes more than it needs.
//! Both slices end or begin at pages that cannot be read or written.
use crate::answers::{age_at, test_bytes, LONGEST_TEST};
use crate::heats::export_frames;
use crate::robots::{body_of, heading_frame, shape_frame, turn_number, Kind};
use crate::second;
use crate::support::{Random, Tally};

extern "C" {
    fn netxurbil_test(frames: *const u8, frames_length: usize, out: *mut u8, out_length: usize) -> u32;
    fn mmap(at: *mut u8, length: usize, rights: i32, flags: i32, file: i32, offset: i64) -> *mut u8;
    fn mprotect(at: *mut u8, length: usize, rights: i32) -> i32;
}

const PAGE: usize = 4096;
/// So many bytes more than it needs.
const MORE: u64 = 20;
/// The first that is no number of bytes: a refusal is added to it.
const REFUSED: u32 = 256;

/// A page between two that end the program when they are touched.
struct Guarded(*mut u8);

impl Guarded {
    fn new() -> Guarded {
        const READ_WRITE: i32 = 3;
        const PRIVATE_ANONYMOUS: i32 = 0x22;
        unsafe {
            let at = mmap(std::ptr::null_mut(), 3 * PAGE, 0, PRIVATE_ANONYMOUS, -1, 0);
            assert!(at as isize > 0 && mprotect(at.add(PAGE), PAGE, READ_WRITE) == 0);
            Guarded(at.add(PAGE))
        }
    }

    /// So many bytes of the page, at its end or at its beginning; the rest of the page is around them.
    fn place(&self, length: usize, at_end: bool) -> usize {
        if at_end {
            PAGE - length
        } else {
            0
        }
    }

    /// Whether the system lets nobody read or write on either side of the page.
    fn guarded(&self) -> bool {
        let maps = std::fs::read_to_string("/proc/self/maps").expect("the map of this program's memory");
        let closed = |at: usize| {
            maps.lines().any(|line| {
                let mut words = line.split([' ', '-']);
                let [from, to] = [0; 2].map(|_| words.next().and_then(|w| usize::from_str_radix(w, 16).ok()));
                from.map_or(false, |from| from <= at) && to.map_or(false, |to| at < to) && line.contains(" ---p ")
            })
        };
        closed(self.0 as usize - 1) && closed(self.0 as usize + PAGE)
    }

    fn page(&mut self) -> &mut [u8] {
        unsafe { std::slice::from_raw_parts_mut(self.0, PAGE) }
    }
}

const DAMAGES: [&str; 11] = [
    "whole",
    "cut short",
    "a byte too many",
    "an id changed",
    "a kind changed",
    "a count changed",
    "frames in another order",
    "a number changed",
    "any bytes",
    "a heading in a placement's place",
    "a chain in an outline's place",
];

/// Where the slices are: at the beginning or the end of their pages.
const AT: [&str; 4] = ["input after a guard", "input before a guard", "output after a guard", "output before a guard"];

/// The sizes of outputs by what is returned.
const EDGES: [&str; 4] =
    ["an output of just its bytes", "an output a byte short", "9, with room for the answer", "9 before 10"];

/// The bytes of an input and what is done to them.
fn input(random: &mut Random) -> (Vec<u8>, &'static str) {
    let mut frames = export_frames(random);
    let damage = if random.once_in(2) { 0 } else { random.below(DAMAGES.len() as u64) as usize };
    let which = random.below(4) as usize;
    match damage {
        3 => frames[which][1] = random.of(&[0, 1, 2, 7, 8, 255]),
        4 => frames[which][0] = random.of(&[0, 1, 2, 3, 4, 5, 6, 7, 255]),
        5 => frames[2 * (which / 2)][2] = random.of(&[0, 1, 2, 3, 7, 8, 9, 255]),
        6 => frames.swap(which, random.below(4) as usize),
        7 => {
            let head = 3 - which % 2;
            let frame = &mut frames[which];
            let place = head + 4 * random.below((frame.len() - head) as u64 / 4) as usize;
            let any = f32::from_bits(random.next() as u32);
            let bad = random.of(&[f32::NAN, f32::INFINITY, 1048576.0, 1048576.1, -1.5, 1.0, 0.0, any]);
            frame[place..place + 4].copy_from_slice(&bad.to_bits().to_be_bytes());
        }
        9 => {
            let placement = 2 * (which / 2) + 1;
            frames[placement] = heading_frame((which / 2) as u8, [0.0, 0.0], turn_number(random));
        }
        10 => {
            let chain = body_of(random, 1.0, Kind::Chain);
            frames[2 * (which / 2)] = shape_frame((which / 2) as u8, &chain);
        }
        _ => {}
    }
    // too few points or too many, with the length that fits: of either, so that a refusal comes before a malformed frame
    for outline in [0, 2] {
        if random.once_in(8) {
            let count = random.of(&[0, 1, 2, 9, 10]);
            frames[outline].resize(3 + 8 * count, 0);
            frames[outline][2] = count as u8;
        }
    }
    let mut bytes = frames.concat();
    match damage {
        1 => bytes.truncate(random.below(bytes.len() as u64) as usize),
        2 => bytes.extend((0..1 + random.below(20)).map(|_| random.next() as u8)),
        8 => bytes = (0..random.below(200)).map(|_| random.next() as u8).collect(),
        _ => {}
    }
    (bytes, DAMAGES[damage])
}

/// An outline whose centroid is beyond the range, placed, and a triangle.
const BAD_CENTROID: &str = "020004490a1fa5492cfc44c89c4a18c8c3bc7749282b0749529ceac81ff02fc8484e51\
    04000000000000000000000000003f80000002010300000000000000003f80000000000000000000003f800000\
    04010000000000000000000000003f800000";

pub fn bytes_of(hex: &str) -> Vec<u8> {
    (0..hex.len() / 2).map(|i| u8::from_str_radix(&hex[2 * i..2 * i + 2], 16).expect("digits")).collect()
}

/// What a fresh program says: points are one touch, and new, so each has the age 0; and so many bytes as they take.
fn fresh(line: &[u8], length: usize) -> bool {
    let points = line[3] as usize;
    let new = (0..points).all(|i| line[age_at(i)..age_at(i) + 4] == [0; 4]);
    length == test_bytes(points) && line[9..13] == [0, 0, 0, (points > 0) as u8] && new
}

/// Counts an output whose size is at the edge of what it has to be, or below it where another refusal comes, or none.
fn edges(bytes: &[u8], room: usize, tally: &mut Tally) {
    let (enough, _, _) = second::export(bytes, &[0; LONGEST_TEST]);
    let (two_points, short) = (enough as usize == LONGEST_TEST, room < LONGEST_TEST);
    let met = [
        two_points && room == LONGEST_TEST,
        two_points && room + 1 == LONGEST_TEST,
        short && enough < REFUSED && enough as usize <= room,
        short && enough == REFUSED + 10,
    ];
    EDGES.iter().zip(met).filter(|(_, met)| *met).for_each(|(name, _)| tally.met(name));
}

pub fn compare(cases: u64, seed: u64) -> bool {
    let mut random = Random::new(seed);
    let mut tally = Tally::new("export");
    let (mut frames_page, mut out_page) = (Guarded::new(), Guarded::new());
    for i in 0..cases {
        let (bytes, damage) = if i == 0 { (bytes_of(BAD_CENTROID), "bad centroid") } else { input(&mut random) };
        let any = random.below(LONGEST_TEST as u64 + MORE) as usize;
        let room = if random.below(3) > 0 { LONGEST_TEST + random.below(MORE) as usize } else { any };
        let frames_at = frames_page.place(bytes.len(), random.once_in(2));
        let out_at = out_page.place(room, random.once_in(2));
        frames_page.page()[frames_at..frames_at + bytes.len()].copy_from_slice(&bytes);
        // what is around the output changes from case to case
        let filler = random.next() as u8;
        out_page.page().fill(filler);
        let number = unsafe { netxurbil_test(frames_page.0.add(frames_at), bytes.len(), out_page.0.add(out_at), room) };
        let (wanted, left, agree) = second::export(&bytes, &vec![filler; room]);
        let page = out_page.page();
        let kept = page[..out_at].iter().chain(&page[out_at + room..]).all(|b| *b == filler);
        let ruled = wanted >= REFUSED || fresh(&left, wanted as usize);
        let right = agree && ruled && number == wanted && page[out_at..out_at + room] == left[..] && kept;
        let same = frames_page.page()[frames_at..frames_at + bytes.len()] == bytes[..];
        tally.case(right && same, || {
            let said = format!("{number}, not {wanted}, or another output");
            format!("{bytes:02x?} with room for {room}: {said}{}", if agree { "" } else { "; no agreement" })
        });
        tally.met(damage);
        tally.met(AT[(frames_at > 0) as usize]);
        tally.met(AT[2 + (out_at > 0) as usize]);
        if (test_bytes(1) as u32..REFUSED).contains(&wanted) {
            tally.met(&format!("kind {}", left[4]));
        }
        tally.met(&match wanted {
            REFUSED.. => format!("refusal {}", wanted - REFUSED),
            length => format!("{length} bytes"),
        });
        edges(&bytes, room, &mut tally);
    }
    if frames_page.guarded() && out_page.guarded() {
        tally.met("guard pages");
    }
    let others = ["guard pages", "kind 1", "kind 2"];
    let mut wanted: Vec<String> =
        DAMAGES.iter().chain(&AT).chain(&EDGES).chain(&others).map(|what| what.to_string()).collect();
    wanted.extend([1, 2, 3, 4, 5, 6, 9, 10].iter().map(|refusal| format!("refusal {refusal}")));
    wanted.extend((0..3).map(|points| format!("{} bytes", test_bytes(points))));
    tally.report(&wanted)
}
