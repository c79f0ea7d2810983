//! Sides, voxels, values and begin (document 01, "Grid and worked distances"; document 02, CR 5 for the range of values, CR 6 for gaps, CR 7 and
//! CR 9 for marks).

use crate::marks::{hurried, is_mark, pinned};

/// The mark of a missing point.
pub const MISSING: i32 = -2_147_483_648;

const LEAST: i32 = -1_000_000_000;
const GREATEST: i32 = 1_000_000_000;

/// Whether a value is measured or the mark of a missing point: any other is number 28.
pub fn is_value(value: i32) -> bool {
    value == MISSING || (LEAST..=GREATEST).contains(&value)
}

/// Sides as given by a caller: any numbers.
#[derive(Clone, Copy, Debug, PartialEq, Eq)]
pub struct Sides {
    pub a: u64,
    pub b: u64,
    pub c: u64,
}

impl Sides {
    pub fn fit(&self) -> bool {
        [self.a, self.b, self.c].iter().all(|s| (3..=64).contains(s))
    }

    /// n; only meaningful where the sides are fit.
    pub fn n(&self) -> usize {
        (self.a * self.b * self.c) as usize
    }

    pub fn coordinates(&self, index: usize) -> [i64; 3] {
        let (a, b) = (self.a as usize, self.b as usize);
        [(index % a) as i64, (index / a % b) as i64, (index / (a * b)) as i64]
    }

    /// The index of a voxel, or nothing beyond the grid.
    pub fn index(&self, v: [i64; 3]) -> Option<usize> {
        let sides = [self.a as i64, self.b as i64, self.c as i64];
        if (0..3).any(|k| v[k] < 0 || v[k] >= sides[k]) {
            return None;
        }
        Some((v[0] + sides[0] * (v[1] + sides[1] * v[2])) as usize)
    }

    pub fn border(&self, index: usize) -> bool {
        let v = self.coordinates(index);
        let sides = [self.a as i64, self.b as i64, self.c as i64];
        (0..3).any(|k| v[k] == 0 || v[k] == sides[k] - 1)
    }

    /// The voxels of the grid that touch this one, itself left out.
    pub fn touching(&self, index: usize) -> Vec<usize> {
        let v = self.coordinates(index);
        let mut found = Vec::new();
        for dz in -1..=1 {
            for dy in -1..=1 {
                for dx in -1..=1 {
                    if (dx, dy, dz) != (0, 0, 0) {
                        found.extend(self.index([v[0] + dx, v[1] + dy, v[2] + dz]));
                    }
                }
            }
        }
        found
    }

    /// The six places that share a face; nothing where one lies beyond the grid.
    pub fn face_neighbours(&self, index: usize) -> [Option<usize>; 6] {
        let [x, y, z] = self.coordinates(index);
        [
            self.index([x - 1, y, z]),
            self.index([x + 1, y, z]),
            self.index([x, y - 1, z]),
            self.index([x, y + 1, z]),
            self.index([x, y, z - 1]),
            self.index([x, y, z + 1]),
        ]
    }
}

#[derive(Clone, Copy, Debug, PartialEq, Eq)]
pub struct Record {
    pub sides: Sides,
    pub t: u16,
    pub openings: u64,
    pub removals: u64,
    pub examinations: u64,
    pub euler: i64,
    /// As a caller gives it: any byte but 0 is finished.
    pub finished: u8,
}

impl Record {
    pub fn finished(&self) -> bool {
        self.finished != 0
    }
}

pub type Refused = u8;

pub fn negative(value: i32) -> bool {
    value < 0 && value != MISSING
}

/// What a filled gap counts as.
const FILLED: i32 = -1;

/// The groups of missing voxels joined by faces.
fn gaps(sides: &Sides, values: &[i32]) -> Vec<Vec<usize>> {
    let mut free: Vec<bool> = values.iter().map(|&v| v == MISSING).collect();
    let mut gaps = Vec::new();
    for seed in 0..values.len() {
        if !free[seed] {
            continue;
        }
        free[seed] = false;
        let mut gap = vec![seed];
        let mut work = vec![seed];
        while let Some(v) = work.pop() {
            for w in sides.face_neighbours(v).into_iter().flatten() {
                if free[w] {
                    free[w] = false;
                    gap.push(w);
                    work.push(w);
                }
            }
        }
        gaps.push(gap);
    }
    gaps
}

/// Whether no voxel of a gap is on the border, and every other face neighbour is measured negative. A missing face neighbour is of the gap itself.
fn closed(sides: &Sides, values: &[i32], gap: &[usize]) -> bool {
    let walled = |w: usize| values[w] == MISSING || negative(values[w]);
    gap.iter().all(|&v| !sides.border(v) && sides.face_neighbours(v).into_iter().flatten().all(walled))
}

/// The values that begin works on. Every gap is looked at in the values as given: what is filled makes no other gap closed.
fn with_gaps_filled(sides: &Sides, values: &[i32]) -> Vec<i32> {
    let mut filled = values.to_vec();
    for gap in gaps(sides, values) {
        if closed(sides, values, &gap) {
            gap.iter().for_each(|&v| filled[v] = FILLED);
        }
    }
    filled
}

/// Step 1: the largest group of measured negative voxels joined by touching; of equal groups the one with the smallest index.
fn inside(sides: &Sides, values: &[i32]) -> Vec<bool> {
    let n = sides.n();
    let mut group = vec![usize::MAX; n];
    let mut best: (usize, usize) = (0, usize::MAX);
    for seed in 0..n {
        if !negative(values[seed]) || group[seed] != usize::MAX {
            continue;
        }
        group[seed] = seed;
        let mut size = 0;
        let mut work = vec![seed];
        while let Some(v) = work.pop() {
            size += 1;
            for w in sides.touching(v) {
                if negative(values[w]) && group[w] == usize::MAX {
                    group[w] = seed;
                    work.push(w);
                }
            }
        }
        if size > best.0 {
            best = (size, seed);
        }
    }
    group.iter().map(|&g| g == best.1).collect()
}

/// The least |dx| + |dy| + |dz| to a voxel of the set: a breadth-first search over faces.
fn steps_to(sides: &Sides, set: &[bool]) -> Vec<i64> {
    let mut steps = vec![-1; set.len()];
    let mut layer: Vec<usize> = (0..set.len()).filter(|&i| set[i]).collect();
    for &i in &layer {
        steps[i] = 0;
    }
    let mut d = 0;
    while !layer.is_empty() {
        d += 1;
        let mut next = Vec::new();
        for &i in &layer {
            for j in sides.face_neighbours(i).into_iter().flatten() {
                if steps[j] < 0 {
                    steps[j] = d;
                    next.push(j);
                }
            }
        }
        layer = next;
    }
    steps
}

pub fn begin(sides: Sides, t: u16, values: &[i32], marks: &[u8], dist: &mut [i32], status: &mut [u8]) -> Result<Record, Refused> {
    if !sides.fit() {
        return Err(1);
    }
    let n = sides.n();
    if values.len() != n || marks.len() != n || dist.len() != n || status.len() != n {
        return Err(2);
    }
    if !values.iter().all(|&v| is_value(v)) {
        return Err(28);
    }
    if !marks.iter().all(|&mark| is_mark(mark)) {
        return Err(29);
    }
    if (0..n).any(|i| sides.border(i) && negative(values[i])) {
        return Err(3);
    }
    if !values.iter().any(|&v| negative(v)) {
        return Err(4);
    }
    let values = with_gaps_filled(&sides, values);
    let s = inside(&sides, &values);
    let d = steps_to(&sides, &s);
    let facing = |i: usize| sides.face_neighbours(i).into_iter().flatten().any(|j| s[j]);
    let m = (0..n).filter(|&i| !s[i] && values[i] >= 0 && facing(i)).map(|i| i64::from(values[i])).max().unwrap_or(1).max(1);
    for i in 0..n {
        dist[i] = if s[i] || (values[i] >= 0 && facing(i)) {
            values[i]
        } else if facing(i) {
            m as i32
        } else {
            (m + d[i]) as i32
        };
    }
    let members: Vec<[i64; 3]> = (0..n).filter(|&i| s[i]).map(|i| sides.coordinates(i)).collect();
    let low: Vec<i64> = (0..3).map(|k| members.iter().map(|v| v[k]).min().unwrap()).collect();
    let high: Vec<i64> = (0..3).map(|k| members.iter().map(|v| v[k]).max().unwrap()).collect();
    let kept: Vec<bool> = (0..n)
        .map(|i| {
            let v = sides.coordinates(i);
            (0..3).all(|k| low[k] <= v[k] && v[k] <= high[k])
        })
        .collect();
    for i in 0..n {
        let bare = sides.face_neighbours(i).into_iter().any(|j| !j.is_some_and(|j| kept[j]));
        status[i] = if !kept[i] {
            0
        } else if !s[i] && (hurried(marks[i]) || (bare && !pinned(marks[i]))) {
            3
        } else {
            1
        };
    }
    Ok(Record { sides, t, openings: 0, removals: 0, examinations: 0, euler: 1, finished: 0 })
}
