//! (a) The rules in idiomatic Rust: iterators, vectors, a breadth-first search, a BinaryHeap of tuples. The local test has the product's own body.

use crate::local::{bare_face, joined};
use crate::types::{
    any_stray_mark, begun, counts_fit, hurried, pinned, Carved, Local, Machine, Opened, Record, Refused, Sides, Taken, MISSING, NO_FACE,
};
use std::cmp::Reverse;
use std::collections::{BinaryHeap, VecDeque};

pub struct Plain;

/// Neither in the range nor missing.
fn stray(value: i32) -> bool {
    value != MISSING && !(-1_000_000_000..=1_000_000_000).contains(&value)
}

fn negative(value: i32) -> bool {
    value < 0 && value != MISSING
}

/// Where voxels lie, by coordinates.
trait Voxels {
    fn place(&self, i: usize) -> (usize, usize, usize);
    fn index(&self, x: usize, y: usize, z: usize) -> usize;
    fn border(&self, i: usize) -> bool;
    /// Visits the voxels of the grid that touch this one, and itself.
    fn touching(&self, i: usize, visit: impl FnMut(usize));
    /// The voxels of the grid that share a face with this one.
    fn facing(self, i: usize) -> impl Iterator<Item = usize>;
}

impl Voxels for Sides {
    fn place(&self, i: usize) -> (usize, usize, usize) {
        (i % self.a, i / self.a % self.b, i / (self.a * self.b))
    }

    fn index(&self, x: usize, y: usize, z: usize) -> usize {
        x + self.a * (y + self.b * z)
    }

    fn border(&self, i: usize) -> bool {
        let (x, y, z) = self.place(i);
        x == 0 || y == 0 || z == 0 || x == self.a - 1 || y == self.b - 1 || z == self.c - 1
    }

    fn touching(&self, i: usize, mut visit: impl FnMut(usize)) {
        let (x, y, z) = self.place(i);
        for z in z.saturating_sub(1)..(z + 2).min(self.c) {
            for y in y.saturating_sub(1)..(y + 2).min(self.b) {
                for x in x.saturating_sub(1)..(x + 2).min(self.a) {
                    visit(self.index(x, y, z));
                }
            }
        }
    }

    fn facing(self, i: usize) -> impl Iterator<Item = usize> {
        let (x, y, z) = self.place(i);
        let layer = self.a * self.b;
        [
            (x > 0).then(|| i - 1),
            (x + 1 < self.a).then(|| i + 1),
            (y > 0).then(|| i - self.a),
            (y + 1 < self.b).then(|| i + self.a),
            (z > 0).then(|| i - layer),
            (z + 1 < self.c).then(|| i + layer),
        ]
        .into_iter()
        .flatten()
    }
}

/// The values with the gaps behind the face filled: a group of missing voxels joined by faces, none on the border, whose other face neighbours are all
/// measured negative, has -1.
pub fn filled(sides: Sides, values: &[i32]) -> Vec<i32> {
    let mut filled = values.to_vec();
    let mut seen = vec![false; values.len()];
    for seed in 0..values.len() {
        if seen[seed] || values[seed] != MISSING {
            continue;
        }
        seen[seed] = true;
        let mut group = vec![seed];
        let mut enclosed = true;
        let mut at = 0;
        while at < group.len() {
            enclosed &= !sides.border(group[at]);
            for j in sides.facing(group[at]) {
                if values[j] != MISSING {
                    enclosed &= values[j] < 0;
                } else if !seen[j] {
                    seen[j] = true;
                    group.push(j);
                }
            }
            at += 1;
        }
        if enclosed {
            for i in group {
                filled[i] = -1;
            }
        }
    }
    filled
}

/// The largest group of measured negative voxels joined by touching; of equal ones the first.
fn inside(sides: Sides, values: &[i32]) -> Vec<bool> {
    let mut seen = vec![false; values.len()];
    let mut largest = Vec::new();
    for seed in 0..values.len() {
        if seen[seed] || !negative(values[seed]) {
            continue;
        }
        seen[seed] = true;
        let mut group = vec![seed];
        let mut at = 0;
        while at < group.len() {
            sides.touching(group[at], |j| {
                if !seen[j] && negative(values[j]) {
                    seen[j] = true;
                    group.push(j);
                }
            });
            at += 1;
        }
        if group.len() > largest.len() {
            largest = group;
        }
    }
    let mut inside = vec![false; values.len()];
    for i in largest {
        inside[i] = true;
    }
    inside
}

/// The least number of face steps to a voxel of the set, by a breadth-first search.
fn steps(sides: Sides, inside: &[bool]) -> Vec<u32> {
    let mut steps = vec![u32::MAX; inside.len()];
    let mut queue: VecDeque<usize> = (0..inside.len()).filter(|&i| inside[i]).collect();
    for &i in &queue {
        steps[i] = 0;
    }
    while let Some(i) = queue.pop_front() {
        for j in sides.facing(i) {
            if steps[j] == u32::MAX {
                steps[j] = steps[i] + 1;
                queue.push_back(j);
            }
        }
    }
    steps
}

fn fill_distances(values: &[i32], steps: &[u32], dist: &mut [i32]) {
    let beside = values.iter().zip(steps).filter(|&(&v, &d)| d == 1 && v >= 0).map(|(&v, _)| v).max();
    let m = beside.unwrap_or(1).max(1);
    for ((out, &value), &d) in dist.iter_mut().zip(values).zip(steps) {
        *out = match d {
            0 => value,
            1 if value >= 0 => value,
            1 => m,
            _ => m + d as i32,
        };
    }
}

fn fill_status(sides: Sides, inside: &[bool], marks: &[u8], status: &mut [u8]) {
    let (mut low, mut high) = ((usize::MAX, usize::MAX, usize::MAX), (0, 0, 0));
    for i in (0..inside.len()).filter(|&i| inside[i]) {
        let (x, y, z) = sides.place(i);
        low = (low.0.min(x), low.1.min(y), low.2.min(z));
        high = (high.0.max(x), high.1.max(y), high.2.max(z));
    }
    for i in 0..status.len() {
        let (x, y, z) = sides.place(i);
        let kept = (low.0..=high.0).contains(&x) && (low.1..=high.1).contains(&y) && (low.2..=high.2).contains(&z);
        let outer = x == low.0 || x == high.0 || y == low.1 || y == high.1 || z == low.2 || z == high.2;
        let waits = hurried(marks[i]) || outer && !pinned(marks[i]);
        status[i] = match (kept, waits && !inside[i]) {
            (false, _) => 0,
            (true, false) => 1,
            (true, true) => 3,
        };
    }
}

/// 1, 2, 7, 29, 8; finish is lent no marks.
pub fn ready(given: &Record, dist: &[i32], marks: Option<&[u8]>, status: &[u8]) -> Result<(), Refused> {
    let Some(n) = given.sides.voxels() else { return Err(1) };
    if dist.len() != n || status.len() != n || marks.is_some_and(|marks| marks.len() != n) {
        return Err(2);
    }
    let voxel_fit = |i: usize| match status[i] {
        0 => dist[i] >= 0,
        1 => !given.sides.border(i),
        3 => dist[i] >= 0 && !given.sides.border(i),
        _ => false,
    };
    if !counts_fit(given) || !(0..n).all(voxel_fit) {
        return Err(7);
    }
    if marks.is_some_and(any_stray_mark) {
        return Err(29);
    }
    if given.finished {
        return Err(8);
    }
    Ok(())
}

/// The block around a voxel that is not on the border: bit x + 3 y + 9 z.
fn block_around(sides: Sides, status: &[u8], i: usize) -> u32 {
    let (x, y, z) = sides.place(i);
    let mut block = 0;
    for dz in 0..3 {
        for dy in 0..3 {
            for dx in 0..3 {
                let j = sides.index(x + dx - 1, y + dy - 1, z + dz - 1);
                block |= u32::from(status[j] != 0) << (dx + 3 * dy + 9 * dz);
            }
        }
    }
    block
}

fn test_at(sides: Sides, status: &[u8], i: usize) -> Local {
    joined::test(block_around(sides, status, i))
}

/// The voxel is gone; what becomes pending by that is handed to `woken`.
fn remove(sides: Sides, dist: &[i32], marks: &[u8], status: &mut [u8], i: usize, mut woken: impl FnMut(usize)) {
    status[i] = 0;
    sides.touching(i, |j| {
        if status[j] == 1 && dist[j] >= 0 && !pinned(marks[j]) {
            status[j] = 3;
            woken(j);
        }
    });
}

/// Carve on a grid that was checked.
pub fn carve_ready(given: Record, dist: &[i32], marks: &[u8], status: &mut [u8], limit: u32) -> Carved {
    let key = |i: usize| (hurried(marks[i]), dist[i], Reverse(i));
    let mut pending: BinaryHeap<(bool, i32, Reverse<usize>)> = (0..status.len()).filter(|&i| status[i] == 3).map(key).collect();
    let (mut examined, mut removed, mut face) = (0, 0, NO_FACE);
    while examined < limit {
        let Some((_, _, Reverse(i))) = pending.pop() else { break };
        status[i] = 1;
        examined += 1;
        let block = block_around(given.sides, status, i);
        if !pinned(marks[i]) && joined::passes(block) {
            removed += 1;
            face = bare_face(block);
            remove(given.sides, dist, marks, status, i, |j| pending.push(key(j)));
        }
    }
    let next = Record { removals: given.removals + u64::from(removed), examinations: given.examinations + u64::from(examined), ..given };
    Carved { examined, removed, pending: !pending.is_empty(), face: Some(face), next }
}

impl Machine for Plain {
    const NAME: &'static str = "(a) idiomatic Rust";
    type Value = i32;

    fn begin(sides: Sides, allowed: u16, values: &[i32], marks: &[u8], dist: &mut [i32], status: &mut [u8]) -> Result<Record, Refused> {
        let Some(n) = sides.voxels() else { return Err(1) };
        if values.len() != n || marks.len() != n || dist.len() != n || status.len() != n {
            return Err(2);
        }
        if values.iter().any(|&v| stray(v)) {
            return Err(28);
        }
        if any_stray_mark(marks) {
            return Err(29);
        }
        if (0..n).any(|i| negative(values[i]) && sides.border(i)) {
            return Err(3);
        }
        if !values.iter().any(|&v| negative(v)) {
            return Err(4);
        }
        let values = filled(sides, values);
        let inside = inside(sides, &values);
        fill_distances(&values, &steps(sides, &inside), dist);
        fill_status(sides, &inside, marks, status);
        Ok(begun(sides, allowed))
    }

    fn carve(given: Record, dist: &[i32], marks: &[u8], status: &mut [u8], limit: u32) -> Result<Carved, Refused> {
        ready(&given, dist, Some(marks), status)?;
        Ok(carve_ready(given, dist, marks, status, limit))
    }

    fn take(given: Record, dist: &[i32], marks: &[u8], status: &mut [u8], index: usize) -> Result<Taken, Refused> {
        ready(&given, dist, Some(marks), status)?;
        if index >= status.len() {
            return Err(5);
        }
        if status[index] == 0 {
            return Err(10);
        }
        if dist[index] < 0 {
            return Err(11);
        }
        if pinned(marks[index]) {
            return Err(30);
        }
        let Local { k, m, face, .. } = test_at(given.sides, status, index);
        if (k, m) != (1, 1) {
            return Err(12);
        }
        remove(given.sides, dist, marks, status, index, |_| ());
        Ok(Taken { k, m, face: Some(face), next: Record { removals: given.removals + 1, ..given } })
    }

    fn open(given: Record, dist: &[i32], marks: &[u8], status: &mut [u8]) -> Result<Opened, Refused> {
        ready(&given, dist, Some(marks), status)?;
        if status.contains(&3) {
            return Err(13);
        }
        if given.openings == u32::from(given.allowed) {
            return Err(14);
        }
        let bare = |i: usize| given.sides.facing(i).any(|j| status[j] == 0);
        let may_open = |&i: &usize| status[i] == 1 && dist[i] >= 0 && !pinned(marks[i]) && bare(i);
        let Some(index) = (0..status.len()).filter(may_open).max_by_key(|&i| (dist[i], Reverse(i))) else {
            return Err(15);
        };
        let Local { k, m, face, .. } = test_at(given.sides, status, index);
        remove(given.sides, dist, marks, status, index, |_| ());
        let next = Record { openings: given.openings + 1, removals: given.removals + 1, euler: given.euler + k as i32 - m as i32, ..given };
        Ok(Opened { index, k, m, face: Some(face), next })
    }

    fn finish(given: Record, dist: &mut [i32], status: &[u8]) -> Result<Record, Refused> {
        ready(&given, dist, None, status)?;
        if status.contains(&3) {
            return Err(13);
        }
        for (w, _) in dist.iter_mut().zip(status).filter(|(w, &s)| s != 0 && **w >= 0) {
            *w = if *w == 0 { -1 } else { -*w };
        }
        Ok(Record { finished: true, ..given })
    }
}
