//! (b) The rules in tuned Rust: offsets in place of coordinates, scans without branches, sweeps for the distances, a BinaryHeap of packed words,
//! and the local test with a rank table.

use crate::local::{bare_face, ranked};
use crate::types::{
    any_stray_mark, begun, counts_fit, pinned, Carved, Local, Machine, Opened, Record, Refused, Sides, Taken, HURRIED, MISSING, NO_FACE,
    PINNED,
};
use std::collections::BinaryHeap;

pub struct Tuned;

/// Neither -1,000,000,000 to 1,000,000,000 nor missing.
fn stray(value: i32) -> bool {
    (value.wrapping_add(1_000_000_000) as u32 > 2_000_000_000) & (value != MISSING)
}

fn negative(value: i32) -> bool {
    (value < 0) & (value != MISSING)
}

/// The 26 voxels that touch one, as differences of index, in index order.
fn touching(sides: Sides) -> [isize; 26] {
    let (a, layer) = (sides.a as isize, (sides.a * sides.b) as isize);
    std::array::from_fn(|p| {
        let p = if p < 13 { p } else { p + 1 } as isize;
        p % 3 - 1 + (p / 3 % 3 - 1) * a + (p / 9 - 1) * layer
    })
}

/// Calls `row` with the index of each row's first voxel, and whether the row lies on the border.
fn rows(sides: Sides, mut row: impl FnMut(usize, bool)) {
    for z in 0..sides.c {
        for y in 0..sides.b {
            let outer = z == 0 || z == sides.c - 1 || y == 0 || y == sides.b - 1;
            row((z * sides.b + y) * sides.a, outer);
        }
    }
}

/// The label of a missing voxel before it is known whether its gap is enclosed.
const GAP: u8 = 4;

/// Labels 1 for the measured negative voxels and those of enclosed gaps, 0 for all others; the work list is `work`.
fn label_negative(sides: Sides, values: &[i32], label: &mut [u8], work: &mut Vec<u32>) {
    let mut any = 0;
    for (l, &v) in label.iter_mut().zip(values) {
        *l = if v == MISSING { GAP } else { u8::from(v < 0) };
        any |= *l;
    }
    if any & GAP == 0 {
        return;
    }
    // no negative voxel is on the border, and a gap that reaches it is open
    rows(sides, |at, outer| {
        let row = &mut label[at..at + sides.a];
        if outer {
            row.fill(0);
        } else {
            (row[0], row[sides.a - 1]) = (0, 0);
        }
    });
    let (a, layer) = (sides.a as isize, (sides.a * sides.b) as isize);
    let facing = [-layer, -a, -1, 1, a, layer];
    work.clear();
    for i in 0..label.len() {
        if label[i] == GAP && facing.iter().any(|&o| label[i.wrapping_add_signed(o)] == 0) {
            label[i] = 0;
            work.push(i as u32);
        }
    }
    while let Some(i) = work.pop() {
        for o in facing {
            let j = (i as usize).wrapping_add_signed(o);
            if label[j] == GAP {
                label[j] = 0;
                work.push(j as u32);
            }
        }
    }
    for l in label {
        *l = u8::from(*l != 0);
    }
}

/// Gives `new` to the voxels of label `old` linked to the seed, none of them on the border; the work list is `work`.
fn flood(label: &mut [u8], work: &mut Vec<u32>, near: &[isize; 26], seed: usize, old: u8, new: u8) -> usize {
    work.clear();
    work.push(seed as u32);
    label[seed] = new;
    let mut at = 0;
    while at < work.len() {
        let i = work[at] as usize;
        for &o in near {
            let j = i.wrapping_add_signed(o);
            if label[j] == old {
                label[j] = new;
                work.push(j as u32);
            }
        }
        at += 1;
    }
    work.len()
}

/// The least number of face steps to a label 3, in place of the labels: along x by rows, then whole rows against rows.
fn sweep(label: &mut [u8], sides: Sides) {
    let far = (sides.a + sides.b + sides.c) as u8;
    for l in label.iter_mut() {
        *l = if *l == 3 { 0 } else { far };
    }
    for row in label.chunks_exact_mut(sides.a) {
        for x in 1..row.len() {
            row[x] = row[x].min(row[x - 1] + 1);
        }
        for x in (1..row.len()).rev() {
            row[x - 1] = row[x - 1].min(row[x] + 1);
        }
    }
    for layer in label.chunks_exact_mut(sides.a * sides.b) {
        sweep_slabs(layer, sides.a);
    }
    sweep_slabs(label, sides.a * sides.b);
}

/// Both ways along slabs of `width` voxels.
fn sweep_slabs(d: &mut [u8], width: usize) {
    let lower = |from: &[u8], to: &mut [u8]| to.iter_mut().zip(from).for_each(|(t, f)| *t = (*t).min(*f + 1));
    for at in (width..d.len()).step_by(width) {
        let (before, after) = d.split_at_mut(at);
        lower(&before[at - width..], &mut after[..width]);
    }
    for at in (width..d.len()).step_by(width).rev() {
        let (before, after) = d.split_at_mut(at);
        lower(&after[..width], &mut before[at - width..]);
    }
}

fn fill_distances(values: &[i32], steps: &[u8], dist: &mut [i32]) {
    let m = values.iter().zip(steps).fold(1, |m, (&v, &d)| m.max(if d == 1 { v } else { 1 }));
    for ((out, &value), &d) in dist.iter_mut().zip(values).zip(steps) {
        let own = (d == 0) | (d == 1) & (value >= 0);
        let far = m + if d == 1 { 0 } else { i32::from(d) };
        // inside, what is missing is an enclosed gap
        let near = if value == MISSING { -1 } else { value };
        *out = if own { near } else { far };
    }
}

/// The box of the zeros, then the status in place of the steps.
fn fill_status(status: &mut [u8], marks: &[u8], sides: Sides) {
    let mut low = [usize::MAX; 3];
    let mut high = [0; 3];
    rows(sides, |at, _| {
        let row = &status[at..at + sides.a];
        let Some(first) = row.iter().position(|&d| d == 0) else { return };
        let last = row.iter().rposition(|&d| d == 0).unwrap_or(first);
        let (y, z) = (at / sides.a % sides.b, at / (sides.a * sides.b));
        low = [low[0].min(first), low[1].min(y), low[2].min(z)];
        high = [high[0].max(last), high[1].max(y), high[2].max(z)];
    });
    rows(sides, |at, _| {
        let row = &mut status[at..at + sides.a];
        let (y, z) = (at / sides.a % sides.b, at / (sides.a * sides.b));
        if y < low[1] || y > high[1] || z < low[2] || z > high[2] {
            row.fill(0);
            return;
        }
        let outer = y == low[1] || y == high[1] || z == low[2] || z == high[2];
        for (x, (s, mark)) in row.iter_mut().zip(&marks[at..at + sides.a]).enumerate() {
            let kept = (low[0] <= x) & (x <= high[0]);
            let bare = outer | (x == low[0]) | (x == high[0]);
            let pending = (*s != 0) & ((*mark == HURRIED) | bare & (mark & PINNED == 0));
            *s = u8::from(kept) * (1 + 2 * u8::from(pending));
        }
    });
}

/// 1, 2, 7, 29, 8; finish is lent no marks.
pub fn ready(given: &Record, dist: &[i32], marks: Option<&[u8]>, status: &[u8]) -> Result<(), Refused> {
    let Some(n) = given.sides.voxels() else { return Err(1) };
    if dist.len() != n || status.len() != n || marks.is_some_and(|marks| marks.len() != n) {
        return Err(2);
    }
    let odd = |(&w, &s): (&i32, &u8)| u8::from((s > 3) | (s == 2) | (w < 0) & (s != 1));
    let mut bad = dist.iter().zip(status).fold(0, |bad, voxel| bad | odd(voxel));
    let a = given.sides.a;
    rows(given.sides, |at, outer| {
        let row = &status[at..at + a];
        bad |= if outer { row.iter().fold(0, |any, &s| any | s) } else { row[0] | row[a - 1] };
    });
    if !counts_fit(given) || bad != 0 {
        return Err(7);
    }
    if marks.is_some_and(any_stray_mark) {
        return Err(29);
    }
    if given.finished {
        return Err(8);
    }
    Ok(())
}

pub fn any_pending(status: &[u8]) -> bool {
    status.iter().fold(0, |any, &s| any | s) & 2 != 0
}

/// The block around voxel i, which is not on the border, as 27 bits.
fn bits_around(sides: Sides, status: &[u8], i: usize) -> u32 {
    let (a, layer) = (sides.a, sides.a * sides.b);
    let first = i - 1 - a - layer;
    let around = &status[first..first + 2 * layer + 2 * a + 3];
    let row = |at: usize| u32::from(around[at] & 1) | u32::from(around[at + 1] & 1) << 1 | u32::from(around[at + 2] & 1) << 2;
    let plane = |at: usize| row(at) | row(at + a) << 3 | row(at + 2 * a) << 6;
    plane(0) | plane(layer) << 9 | plane(2 * layer) << 18
}

/// A word that orders by distance, then by smaller index.
fn word(dist: i32, i: usize) -> u64 {
    (dist as u64) << 18 | (0x3FFFF - i as u64)
}

/// The same with hurried voxels before all others: a distance here is not negative, so it has 31 bits.
fn marked_word(dist: i32, mark: u8, i: usize) -> u64 {
    word(dist, i) | u64::from(mark == HURRIED) << 50
}

fn remove(near: &[isize; 26], dist: &[i32], marks: &[u8], status: &mut [u8], i: usize, mut woken: impl FnMut(usize)) {
    status[i] = 0;
    for &o in near {
        let j = i.wrapping_add_signed(o);
        if status[j] == 1 && dist[j] >= 0 && !pinned(marks[j]) {
            status[j] = 3;
            woken(j);
        }
    }
}

/// The word of the voxel to open, or 0.
fn foremost(sides: Sides, dist: &[i32], marks: &[u8], status: &[u8]) -> u64 {
    let (a, layer) = (sides.a, sides.a * sides.b);
    let edge = 1 + a + layer;
    let n = status.len();
    let width = n - 2 * edge;
    let part = |from: usize| &status[from..from + width];
    let (here, d, marks) = (part(edge), &dist[edge..edge + width], &marks[edge..edge + width]);
    let (x0, x1, y0, y1, z0, z1) = (part(edge - 1), part(edge + 1), part(edge - a), part(edge + a), part(edge - layer), part(edge + layer));
    let mut best = 0;
    for i in 0..width {
        let bare = (x0[i] == 0) | (x1[i] == 0) | (y0[i] == 0) | (y1[i] == 0) | (z0[i] == 0) | (z1[i] == 0);
        let may = (here[i] != 0) & (d[i] >= 0) & (marks[i] & PINNED == 0) & bare;
        best = best.max(word(d[i], i + edge) * u64::from(may));
    }
    best
}

/// Carve on a grid that was checked.
pub fn carve_ready(given: Record, dist: &[i32], marks: &[u8], status: &mut [u8], limit: u32) -> Carved {
    let sides = given.sides;
    let near = touching(sides);
    let words: Vec<u64> = (0..status.len()).filter(|&i| status[i] == 3).map(|i| marked_word(dist[i], marks[i], i)).collect();
    let mut pending = BinaryHeap::from(words);
    let (mut examined, mut removed, mut last) = (0, 0, None);
    while examined < limit {
        let Some(w) = pending.pop() else { break };
        let i = (0x3FFFF - (w & 0x3FFFF)) as usize;
        status[i] = 1;
        examined += 1;
        if !pinned(marks[i]) && ranked::passes(bits_around(sides, status, i)) {
            removed += 1;
            last = Some(i);
            remove(&near, dist, marks, status, i, |j| pending.push(marked_word(dist[j], marks[j], j)));
        }
    }
    // around the last one removed nothing has gone since
    let face = last.map_or(NO_FACE, |i| bare_face(bits_around(sides, status, i)));
    let next = Record { removals: given.removals + u64::from(removed), examinations: given.examinations + u64::from(examined), ..given };
    Carved { examined, removed, pending: !pending.is_empty(), face: Some(face), next }
}

impl Machine for Tuned {
    const NAME: &'static str = "(b) tuned Rust";
    type Value = i32;

    fn begin(sides: Sides, allowed: u16, values: &[i32], marks: &[u8], dist: &mut [i32], status: &mut [u8]) -> Result<Record, Refused> {
        let Some(n) = sides.voxels() else { return Err(1) };
        if values.len() != n || marks.len() != n || dist.len() != n || status.len() != n {
            return Err(2);
        }
        if values.iter().fold(false, |any, &v| any | stray(v)) {
            return Err(28);
        }
        if any_stray_mark(marks) {
            return Err(29);
        }
        let any = |part: &[i32]| part.iter().fold(false, |any, &v| any | negative(v));
        let mut outer_negative = false;
        rows(sides, |at, outer| {
            let row = &values[at..at + sides.a];
            outer_negative |= if outer { any(row) } else { negative(row[0]) | negative(row[sides.a - 1]) };
        });
        if outer_negative {
            return Err(3);
        }
        if !any(values) {
            return Err(4);
        }
        let near = touching(sides);
        let mut work = Vec::with_capacity(n);
        label_negative(sides, values, status, &mut work);
        let (mut most, mut seed) = (0, 0);
        for i in 0..n {
            if status[i] == 1 {
                let size = flood(status, &mut work, &near, i, 1, 2);
                if size > most {
                    (most, seed) = (size, i);
                }
            }
        }
        flood(status, &mut work, &near, seed, 2, 3);
        sweep(status, sides);
        fill_distances(values, status, dist);
        fill_status(status, marks, sides);
        Ok(begun(sides, allowed))
    }

    fn carve(given: Record, dist: &[i32], marks: &[u8], status: &mut [u8], limit: u32) -> Result<Carved, Refused> {
        ready(&given, dist, Some(marks), status)?;
        Ok(carve_ready(given, dist, marks, status, limit))
    }

    fn take(given: Record, dist: &[i32], marks: &[u8], status: &mut [u8], index: usize) -> Result<Taken, Refused> {
        ready(&given, dist, Some(marks), status)?;
        if index >= status.len() {
            return Err(5);
        }
        if status[index] == 0 {
            return Err(10);
        }
        if dist[index] < 0 {
            return Err(11);
        }
        if pinned(marks[index]) {
            return Err(30);
        }
        let Local { k, m, face, .. } = ranked::test(bits_around(given.sides, status, index));
        if k != 1 || m != 1 {
            return Err(12);
        }
        remove(&touching(given.sides), dist, marks, status, index, |_| ());
        Ok(Taken { k, m, face: Some(face), next: Record { removals: given.removals + 1, ..given } })
    }

    fn open(given: Record, dist: &[i32], marks: &[u8], status: &mut [u8]) -> Result<Opened, Refused> {
        ready(&given, dist, Some(marks), status)?;
        if any_pending(status) {
            return Err(13);
        }
        if given.openings == u32::from(given.allowed) {
            return Err(14);
        }
        let best = foremost(given.sides, dist, marks, status);
        if best == 0 {
            return Err(15);
        }
        let index = (0x3FFFF - (best & 0x3FFFF)) as usize;
        let Local { k, m, face, .. } = ranked::test(bits_around(given.sides, status, index));
        remove(&touching(given.sides), dist, marks, status, index, |_| ());
        let next = Record { openings: given.openings + 1, removals: given.removals + 1, euler: given.euler + k as i32 - m as i32, ..given };
        Ok(Opened { index, k, m, face: Some(face), next })
    }

    fn finish(given: Record, dist: &mut [i32], status: &[u8]) -> Result<Record, Refused> {
        ready(&given, dist, None, status)?;
        if any_pending(status) {
            return Err(13);
        }
        for (w, &s) in dist.iter_mut().zip(status) {
            let closed = if *w == 0 { -1 } else { -*w };
            *w = if (s != 0) & (*w >= 0) { closed } else { *w };
        }
        Ok(Record { finished: true, ..given })
    }
}
