//! Bare faces, and what a carve examines and removes in its order (document 02, CR 8). Written from the papers, not from the reference.

use crate::marks::{hurried, pinned};
use reference::grid::{Record, Sides};
use reference::machine::test_at;

/// The steps across faces 0 to 5: low x, high x, low y, high y, low z, high z.
pub const ACROSS: [[i64; 3]; 6] = [[-1, 0, 0], [1, 0, 0], [0, -1, 0], [0, 1, 0], [0, 0, -1], [0, 0, 1]];

/// What is answered where no face is bare, or no voxel was removed.
pub const NO_FACE: usize = 6;

/// The place of a voxel in its neighbour's block, by the steps from it.
pub fn place([x, y, z]: [i64; 3]) -> usize {
    (x + 1 + 3 * (y + 1) + 9 * (z + 1)) as usize
}

/// The numbers of the faces across which no voxel is kept, rising.
pub fn bare_faces(kept: impl Fn([i64; 3]) -> bool) -> Vec<usize> {
    (0..6).filter(|&number| !kept(ACROSS[number])).collect()
}

/// Those of a block's middle.
pub fn of_block(bits: u32) -> Vec<usize> {
    bare_faces(|step| bits >> place(step) & 1 == 1)
}

/// Those of a voxel of a grid.
pub fn of_voxel(sides: &Sides, status: &[u8], i: usize) -> Vec<usize> {
    let [x, y, z] = sides.coordinates(i);
    bare_faces(|[dx, dy, dz]| sides.index([x + dx, y + dy, z + dz]).is_some_and(|j| status[j] != 0))
}

/// The face by which a voxel with these bare faces comes out.
pub fn lowest(faces: &[usize]) -> usize {
    faces.first().copied().unwrap_or(NO_FACE)
}

/// An examination of a carve: the voxel, its bare faces at that moment, and whether it was removed.
pub struct Examination {
    pub voxel: usize,
    pub faces: Vec<usize>,
    pub removed: bool,
}

/// The examinations of a carve on a fit record, one after the other.
pub fn examinations(record: &Record, dist: &[i32], marks: &[u8], status: &[u8], limit: u64) -> Vec<Examination> {
    let (sides, mut status, mut made) = (&record.sides, status.to_vec(), Vec::new());
    while (made.len() as u64) < limit {
        let pending = (0..status.len()).filter(|&i| status[i] == 3);
        let Some(voxel) = pending.max_by_key(|&i| (hurried(marks[i]), dist[i], std::cmp::Reverse(i))) else { break };
        status[voxel] = 1;
        let faces = of_voxel(sides, &status, voxel);
        let removed = !pinned(marks[voxel]) && test_at(record, &status, voxel).passes();
        if removed {
            status[voxel] = 0;
            let woken = |&j: &usize| status[j] != 0 && dist[j] >= 0 && !pinned(marks[j]);
            let woken: Vec<usize> = sides.touching(voxel).into_iter().filter(woken).collect();
            woken.into_iter().for_each(|j| status[j] = 3);
        }
        made.push(Examination { voxel, faces, removed });
    }
    made
}

/// The face that a carve with these examinations answers.
pub fn of_carve(made: &[Examination]) -> usize {
    made.iter().rev().find(|examination| examination.removed).map_or(NO_FACE, |last| lowest(&last.faces))
}

#[cfg(test)]
mod tests {
    use super::*;
    use crate::grids::{grid, walled};
    use crate::random::Random;
    use reference::grid::begin;
    use reference::local::local_test;
    use reference::machine::{carve, open, take};

    #[test]
    fn a_voxel_without_a_bare_face_has_no_bare_cell() {
        let mut r = Random::new(8);
        for _ in 0..20_000 {
            let bits = (0..27).fold(0, |bits, p| bits | u32::from(r.chance(85)) << p);
            let local = local_test(&std::array::from_fn(|p| bits >> p & 1 == 1));
            let faces = of_block(bits);
            assert_eq!((local.face as usize, local.m == 0, local.faces as usize), (lowest(&faces), faces.is_empty(), 6 - faces.len()));
        }
    }

    struct Carved {
        record: Record,
        dist: Vec<i32>,
        marks: Vec<u8>,
        status: Vec<u8>,
    }

    fn marks_of(r: &mut Random, n: usize) -> Vec<u8> {
        let marked = r.pick(&[0, 0, 10, 40]);
        (0..n).map(|_| if r.chance(marked) { r.below(4) as u8 } else { 0 }).collect()
    }

    fn begun(r: &mut Random) -> Option<Carved> {
        let g = if r.chance(50) { walled(r, 7) } else { grid(r, 7) };
        let [a, b, c] = g.sides.map(|side| side as u64);
        let sides = Sides { a, b, c };
        let (mut dist, marks, mut status) = (vec![0; sides.n()], marks_of(r, sides.n()), vec![0; sides.n()]);
        let record = begin(sides, 65535, &g.values, &marks, &mut dist, &mut status).ok()?;
        Some(Carved { record, dist, marks, status })
    }

    impl Carved {
        /// The face that a carve answers, and the one by its examinations, each made by itself.
        fn carve(&mut self, limit: u64) -> [usize; 3] {
            let Carved { record, dist, marks, status } = self;
            let made = examinations(record, dist, marks, status, limit);
            let (mut alone, mut again, mut left) = (NO_FACE, *record, status.clone());
            for _ in &made {
                let one = carve(&mut again, dist, marks, &mut left, 1).expect("a fit record");
                alone = if one.removed == 1 { one.face as usize } else { alone };
            }
            let carved = carve(record, dist, marks, status, limit).expect("a fit record");
            assert_eq!((&again, &left), (&*record, &*status));
            [carved.face as usize, alone, of_carve(&made)]
        }

        /// The face that a take or an open answers, and the one that its voxel had before; nothing where it is refused.
        fn remove(&mut self, index: Option<usize>) -> Option<[usize; 2]> {
            let Carved { record, dist, marks, status } = self;
            let before = status.clone();
            let (voxel, local) = match index {
                Some(index) => (index, take(record, dist, marks, status, index as u64).ok()?),
                None => open(record, dist, marks, status).map(|opened| (opened.index, opened.local)).ok()?,
            };
            Some([local.face as usize, lowest(&of_voxel(&record.sides, &before, voxel))])
        }
    }

    /// Over lists of calls from begin, with marks that change: take and open answer the lowest face across which no voxel is kept, and carve that of
    /// its last removal, whether its examinations are made in one call or one by one.
    #[test]
    fn what_document_02_asks_of_lists() {
        let mut met = [0; 7];
        for seed in 0..1500 {
            let mut r = Random::new(seed);
            let Some(mut carved) = begun(&mut r) else { continue };
            let n = carved.status.len();
            for _ in 0..r.between(1, 25) {
                let index = r.below(n as u64) as usize;
                let faces = match r.below(3) {
                    0 => carved.carve(r.pick(&[0, 1, 2, 7, 1000])).to_vec(),
                    1 => carved.remove(Some(index)).map_or(vec![], Vec::from),
                    _ => carved.remove(None).map_or(vec![], Vec::from),
                };
                assert!(faces.windows(2).all(|pair| pair[0] == pair[1]), "seed {seed}: {faces:?}");
                faces.first().iter().for_each(|&&face| met[face] += 1);
                if r.chance(20) {
                    carved.marks = marks_of(&mut r, n);
                }
            }
        }
        assert!(met.iter().all(|&count| count > 20), "{met:?}");
    }
}
