//! A coarse start, document 02's CR 10: ours, and in Rust by the begin and the carve of an implementation.

use crate::contest::{Calls, Case, State};
use crate::types::{begun, pinned, Record, Sides, PINNED, UNMARKED};
use wattlerugby::begin_coarse;

/// The two further buffers.
#[derive(Clone, Debug, PartialEq, Eq)]
pub struct Blocks {
    pub dist: Vec<i32>,
    pub status: Vec<u8>,
}

impl Blocks {
    /// They hold nothing of use.
    pub fn blank(sides: Sides) -> Self {
        let blocks = sides.blocks().expect("fit sides");
        Blocks { dist: vec![77; blocks], status: vec![77; blocks] }
    }
}

/// Begins coarse, and answers the examinations of blocks.
pub type BeginCoarse = fn(&Calls, &Case, &mut State, &mut Blocks) -> u32;

/// By the archive.
pub fn ours(_: &Calls, case: &Case, state: &mut State, blocks: &mut Blocks) -> u32 {
    let (dist, status) = (&mut state.dist, &mut state.status);
    let begun = begin_coarse(case.sides, case.allowed, &case.values.wide, &case.marks, dist, status, &mut blocks.dist, &mut blocks.status);
    let begun = begun.expect("the grid is fit for a coarse start");
    state.record = begun.next;
    begun.examined
}

pub fn halved(sides: Sides) -> Sides {
    Sides { a: sides.a / 2, b: sides.b / 2, c: sides.c / 2 }
}

/// The block of each voxel, by index.
fn blocks_of(sides: Sides) -> impl Iterator<Item = usize> {
    let Sides { a, b, c } = sides;
    let places = (0..c).flat_map(move |z| (0..b).flat_map(move |y| (0..a).map(move |x| (x, y, z))));
    places.map(move |(x, y, z)| x / 2 + a / 2 * (y / 2 + b / 2 * (z / 2)))
}

/// Of the kept voxels outside those are pending that lie bare and are not pinned, and those that are hurried.
fn wait(sides: Sides, dist: &[i32], marks: &[u8], status: &mut [u8]) {
    let steps = [1, sides.a, sides.a * sides.b];
    for i in 0..status.len() {
        if status[i] == 0 || dist[i] < 0 || pinned(marks[i]) {
            continue;
        }
        // a kept voxel is off the border
        let bare = steps.iter().any(|step| status[i - step] == 0 || status[i + step] == 0);
        if bare || marks[i] != UNMARKED {
            status[i] = 3;
        }
    }
}

/// Kept is the smallest box that holds what is negative.
fn boxed(sides: Sides, dist: &[i32], status: &mut [u8]) {
    let place = |i: usize| [i % sides.a, i / sides.a % sides.b, i / (sides.a * sides.b)];
    let (mut low, mut high) = ([usize::MAX; 3], [0; 3]);
    for p in (0..dist.len()).filter(|&i| dist[i] < 0).map(place) {
        for axis in 0..3 {
            (low[axis], high[axis]) = (low[axis].min(p[axis]), high[axis].max(p[axis]));
        }
    }
    for (i, kept) in status.iter_mut().enumerate() {
        *kept = u8::from((0..3).all(|axis| (low[axis]..=high[axis]).contains(&place(i)[axis])));
    }
}

/// In Rust, on a grid that is fit for it: distances are those of `calls`'s begin, and the blocks are carved by its carve, as a grid of their own.
pub fn by_parts(calls: &Calls, case: &Case, state: &mut State, blocks: &mut Blocks) -> u32 {
    let (sides, half) = (case.sides, halved(case.sides));
    state.record = (calls.begin)(sides, case.allowed, &case.values, &case.marks, &mut state.dist, &mut state.status).expect("it is taken");
    let mut pins = vec![UNMARKED; blocks.dist.len()];
    blocks.dist.fill(i32::MAX);
    for ((block, &distance), &mark) in blocks_of(sides).zip(&state.dist).zip(&case.marks) {
        blocks.dist[block] = blocks.dist[block].min(distance);
        pins[block] |= mark & PINNED;
    }
    boxed(half, &blocks.dist, &mut blocks.status);
    wait(half, &blocks.dist, &pins, &mut blocks.status);
    let start: Record = begun(half, 0);
    let carved = (calls.carve)(start, &blocks.dist, &pins, &mut blocks.status, u32::MAX).expect("the blocks are fit");
    for (block, status) in blocks_of(sides).zip(&mut state.status) {
        *status = blocks.status[block];
    }
    wait(sides, &state.dist, &case.marks, &mut state.status);
    carved.examined
}
