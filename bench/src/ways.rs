//! The ways to do the local test, each compiled into loops over blocks.

#[cfg(before)]
use bench::archive::before;
use bench::archive::now as ours;
use bench::local::searched::{both, by_cells, by_frontiers, touched};
use bench::local::{joined, passes, ranked};
use bench::types::Local;

/// The 27 status bytes of a block as bits; set in place in every loop, so that it costs all ways the same.
#[inline(always)]
pub fn block_bits(bytes: &[u8]) -> u32 {
    let bytes: &[u8; 27] = bytes.try_into().expect("27 bytes");
    let row = |at: usize| u32::from(bytes[at] & 1) | u32::from(bytes[at + 1] & 1) << 1 | u32::from(bytes[at + 2] & 1) << 2;
    let plane = |at: usize| row(at) | row(at + 3) << 3 | row(at + 6) << 6;
    plane(0) | plane(9) << 9 | plane(18) << 18
}

/// A number that tells apart sequences of answers.
fn mix(sum: u64, answer: u64) -> u64 {
    sum.rotate_left(7) ^ answer
}

fn groups_and_counts(l: Local) -> u64 {
    u64::from(l.k) | u64::from(l.m) << 8 | u64::from(l.corners) << 16 | u64::from(l.edges) << 24 | u64::from(l.faces) << 32
}

fn face(l: Local) -> u64 {
    u64::from(l.face) << 40
}

fn packed(l: Local) -> u64 {
    groups_and_counts(l) | face(l)
}

/// What the faces of some blocks come to, that of each call that tells them being the same. It is all that the number of a call's loop lacks: a call finds
/// the face whether it is looked at or not, and one of an archive from before document 02's CR 8 has none to look at.
pub fn faces(bits: &[u32]) -> u64 {
    let due = over(bits, |b| face(joined::test(b)));
    assert_eq!([over(bits, |b| face(ours::local_test(b))), over(bits, |b| face(joined::call(b)))], [due; 2], "other faces");
    #[cfg(before_faces)]
    assert_eq!(over(bits, |b| face(before::local_test(b))), due, "other faces");
    due
}

#[inline(never)]
pub fn over_bytes(bytes: &[u8], answer: impl Fn(u32) -> u64) -> u64 {
    bytes.chunks_exact(27).fold(0, |sum, block| mix(sum, answer(block_bits(block))))
}

#[inline(never)]
pub fn over(numbers: &[u32], answer: impl Fn(u32) -> u64) -> u64 {
    numbers.iter().fold(0, |sum, &number| mix(sum, answer(number)))
}

/// Goes through blocks, and tells apart by a number what was answered.
pub type Loop<T> = fn(&[T]) -> u64;

/// A way and its loops: k, m and counts with the status bytes gathered, and the face too where no call is made for it; the same with the blocks
/// given as bits; and passes or not.
pub struct Way {
    pub name: &'static str,
    pub is_call: bool,
    pub gathered: Loop<u8>,
    pub given: Loop<u32>,
    pub passing: Loop<u8>,
}

/// A way by its test of block b, and by what tells whether b passes.
macro_rules! way {
    ($name:literal, $b:ident, $test:expr, $passes:expr) => {
        way!($name, $b, packed, $test, $passes, false)
    };
    ($name:literal, $b:ident, $packed:ident, $test:expr, $passes:expr, $is_call:literal) => {
        Way {
            name: $name,
            is_call: $is_call,
            gathered: |bytes| over_bytes(bytes, |$b| $packed($test)),
            given: |bits| over(bits, |$b| $packed($test)),
            passing: |bytes| over_bytes(bytes, |$b| u64::from($passes)),
        }
    };
}

/// A way that is a call for each block.
macro_rules! call {
    ($name:literal, $call:path) => {
        way!($name, b, groups_and_counts, $call(b), passes($call(b)), true)
    };
}

// Where some of them stand.
pub const OURS: usize = 0;
pub const CALLED: usize = 1;
pub const SAME: usize = 2;
/// The searches of touched cells, each with the search of both that goes the same way, and how that is told.
pub const SEARCHES: [(usize, usize, &str); 2] = [(4, 5, "by frontiers"), (6, 7, "cell by cell")];
pub const BEFORE: usize = 8;

pub const ALL: &[Way] = &[
    call!("ours, a call for each block", ours::local_test),
    call!("Rust, the same body as a call", joined::call),
    way!("Rust, the same body", b, joined::test(b), joined::passes(b)),
    way!("(b) Rust, rank table", b, ranked::test(b), ranked::passes(b)),
    way!("Rust, search of touched cells, by frontiers", b, touched(b, by_frontiers), passes(touched(b, by_frontiers))),
    way!("Rust, search of touched and of bare cells, by frontiers", b, both(b, by_frontiers), passes(both(b, by_frontiers))),
    way!("Rust, search of touched cells, cell by cell", b, touched(b, by_cells), passes(touched(b, by_cells))),
    way!("Rust, search of touched and of bare cells, cell by cell", b, both(b, by_cells), passes(both(b, by_cells))),
    #[cfg(before)]
    call!("before, a call for each block", before::local_test),
];
