//! Removal lists, document 02's CR 11: the list of a run of calls, and judges of it, ours and two in Rust.

use crate::contest::{Case, State};
use crate::local::joined;
use crate::neighbourhood::{gather, kept_bits};
use crate::types::Sides;
use std::cmp::Reverse;
use std::collections::BinaryHeap;
use wattlerugby::{open, Entry, Judged, Record, Refusal};

/// The 27 voxels around an inner one, itself among them.
fn around(sides: Sides, i: usize) -> impl Iterator<Item = usize> {
    let (row, layer) = (sides.a, sides.a * sides.b);
    let first = i - 1 - row - layer;
    (0..27).map(move |p| first + p % 3 + row * (p / 3 % 3) + layer * (p / 9))
}

/// What is kept around a kept voxel, which is off the border. Bit 1 of a status byte is not looked at.
fn block(sides: Sides, status: &[u8], i: usize) -> u32 {
    // SAFETY: a kept voxel is an inner one, and there is a status byte for each voxel.
    kept_bits(unsafe { gather(sides, status, i) })
}

fn stands(dist: &[i32], status: &[u8], i: usize) -> bool {
    status[i] & 1 != 0 && dist[i] >= 0
}

fn can_pass(sides: Sides, dist: &[i32], status: &[u8], i: usize) -> bool {
    stands(dist, status, i) && joined::passes(block(sides, status, i))
}

// ---- the list of carve and open in turn, to the end

/// A grid as begun leaves it, with no voxel marked; the list's state is that of the library's own calls at the end.
pub fn own(case: &Case, begun: &State) -> Vec<u8> {
    let (sides, dist, mut status, mut record) = (case.sides, &begun.dist, begun.status.clone(), begun.record);
    let mut pending: BinaryHeap<(i32, Reverse<usize>)> =
        (0..status.len()).filter(|&i| status[i] == 3).map(|i| (dist[i], Reverse(i))).collect();
    let mut made: Vec<u8> = Vec::new();
    let goes = |status: &mut [u8], pending: &mut BinaryHeap<(i32, Reverse<usize>)>, i: usize| {
        status[i] = 0;
        for j in around(sides, i).filter(|&j| dist[j] >= 0) {
            if status[j] == 1 {
                status[j] = 3;
                pending.push((dist[j], Reverse(j)));
            }
        }
    };
    loop {
        while let Some((_, Reverse(i))) = pending.pop() {
            status[i] = 1;
            if joined::passes(block(sides, &status, i)) {
                made.extend(Entry::Ordinary(i as u32).bytes());
                goes(&mut status, &mut pending, i);
            }
        }
        // open works on a copy, since it makes voxels pending itself
        let Ok(opened) = open(record, dist, &case.marks, &mut status.clone()) else { return made };
        record = opened.next;
        made.extend(Entry::Opening(opened.index as u32).bytes());
        goes(&mut status, &mut pending, opened.index);
    }
}

// ---- judges

pub type Judge = fn(Record, &[i32], &mut [u8], &[u8]) -> Result<Judged, Refusal>;

/// By the archive.
pub fn ours(given: Record, dist: &[i32], status: &mut [u8], list: &[u8]) -> Result<Judged, Refusal> {
    wattlerugby::judge(given, dist, status, list)
}

/// How it is found out whether some voxel passes, after these entries: the last of them at which none did, where one is known.
type SomePass = fn(Sides, &[i32], &[u8], &[u8], Option<usize>) -> bool;

/// By a look at every voxel.
fn by_a_look(sides: Sides, dist: &[i32], status: &[u8], _: &[u8], _: Option<usize>) -> bool {
    (0..status.len()).any(|i| can_pass(sides, dist, status, i))
}

/// By a look around what has gone since none passed.
fn by_what_went(sides: Sides, dist: &[i32], status: &[u8], gone: &[u8], since: Option<usize>) -> bool {
    let Some(since) = since else { return by_a_look(sides, dist, status, gone, None) };
    let voxels = gone[Entry::LENGTH * since..].chunks_exact(Entry::LENGTH).map(index);
    voxels.flat_map(|i| around(sides, i)).any(|j| can_pass(sides, dist, status, j))
}

fn index(entry: &[u8]) -> usize {
    u32::from_le_bytes([entry[2], entry[3], entry[4], entry[5]]) as usize
}

fn bare(sides: Sides, status: &[u8], i: usize) -> bool {
    [1, sides.a, sides.a * sides.b].iter().any(|step| (status[i - step] & status[i + step]) & 1 == 0)
}

/// The rule on a fit grid; the status bytes are worked in, and not put back.
fn judged(given: Record, dist: &[i32], status: &mut [u8], list: &[u8], some_pass: SomePass) -> Result<Judged, Refusal> {
    let (sides, mut counts, mut since) = (given.sides, Judged { removals: 0, openings: 0, euler: 1 }, None);
    for (r, bytes) in list.chunks(Entry::LENGTH).enumerate() {
        let entry = Entry::first(bytes)?;
        let i = entry.index() as usize;
        if i >= dist.len() {
            return Err(Refusal::INDEX);
        }
        if !stands(dist, status, i) {
            return Err(Refusal::BREAKS_RULES);
        }
        if entry.opens() {
            let before = &list[..Entry::LENGTH * r];
            let few = counts.openings < u32::from(given.allowed);
            if !few || !bare(sides, status, i) || some_pass(sides, dist, status, before, since) {
                return Err(Refusal::BREAKS_RULES);
            }
            let test = joined::test(block(sides, status, i));
            counts.openings += 1;
            counts.euler += test.k as i32 - test.m as i32;
            since = Some(r);
        } else if !joined::passes(block(sides, status, i)) {
            return Err(Refusal::BREAKS_RULES);
        }
        counts.removals += 1;
        status[i] &= !1;
    }
    match some_pass(sides, dist, status, list, since) {
        true => Err(Refusal::STILL_PASSES),
        false => Ok(counts),
    }
}

/// (a) In Rust, on a copy of the status bytes, with a look at every voxel for each opening.
pub fn plain(given: Record, dist: &[i32], status: &mut [u8], list: &[u8]) -> Result<Judged, Refusal> {
    judged(given, dist, &mut status.to_vec(), list, by_a_look)
}

/// (b) In Rust, with a look around what has gone since the last opening.
pub fn tuned(given: Record, dist: &[i32], status: &mut [u8], list: &[u8]) -> Result<Judged, Refusal> {
    judged(given, dist, &mut status.to_vec(), list, by_what_went)
}
