//! Blocks of two by two by two voxels (document 02, CR 10). Written from the papers, not from the reference.

use crate::marks::pinned;
use reference::grid::Sides;

/// The grid of blocks, where every side is even.
pub fn halved(sides: &Sides) -> Sides {
    Sides { a: sides.a / 2, b: sides.b / 2, c: sides.c / 2 }
}

/// The eight voxels of a block, x before y before z.
pub fn eight(sides: &Sides, block: usize) -> [usize; 8] {
    let (a, b) = (sides.a as usize, sides.b as usize);
    let (x, y, z) = (block % (a / 2), block / (a / 2) % (b / 2), block / (a / 2) / (b / 2));
    std::array::from_fn(|o| 2 * x + o % 2 + a * (2 * y + o / 2 % 2 + b * (2 * z + o / 4)))
}

/// Whether a block is pinned.
pub fn block_pinned(sides: &Sides, marks: &[u8], block: usize) -> bool {
    eight(sides, block).iter().any(|&i| pinned(marks[i]))
}

/// The box of a set of voxels, or of blocks: nothing where the set is empty.
pub fn in_box(sides: &Sides, set: &[usize]) -> Vec<bool> {
    let at = |i: usize| sides.coordinates(i);
    let least: Vec<Option<i64>> = (0..3).map(|k| set.iter().map(|&i| at(i)[k]).min()).collect();
    let most: Vec<Option<i64>> = (0..3).map(|k| set.iter().map(|&i| at(i)[k]).max()).collect();
    let within = |i: usize| (0..3).all(|k| least[k].is_some_and(|low| low <= at(i)[k]) && most[k].is_some_and(|high| at(i)[k] <= high));
    (0..sides.n()).map(within).collect()
}

#[cfg(test)]
mod tests {
    use super::*;
    use crate::grids::coarse;
    use crate::random::Random;
    use reference::coarse::{begin_coarse, Lent};
    use reference::grid::{begin, Record};
    use reference::machine::{carve, open, take, test_at};

    struct Begun {
        record: Record,
        dist: Vec<i32>,
        status: Vec<u8>,
        block_dist: Vec<i32>,
        block_status: Vec<u8>,
        examined: u64,
    }

    fn begun(sides: Sides, t: u16, values: &[i32], marks: &[u8]) -> Result<Begun, u8> {
        let (mut dist, mut status) = (vec![9; sides.n()], vec![9; sides.n()]);
        let (mut block_dist, mut block_status) = (vec![9; sides.n() / 8], vec![9; sides.n() / 8]);
        let voxels = Lent { dist: &mut dist, status: &mut status };
        let blocks = Lent { dist: &mut block_dist, status: &mut block_status };
        let answer = begin_coarse(sides, t, values, marks, voxels, blocks)?;
        Ok(Begun { record: answer.next, dist, status, block_dist, block_status, examined: answer.examined })
    }

    fn marks_of(r: &mut Random, n: usize) -> Vec<u8> {
        let marked = r.pick(&[0, 0, 1, 5, 30]);
        (0..n).map(|_| if r.chance(marked) { r.below(4) as u8 } else { 0 }).collect()
    }

    /// What a coarse start leaves, from the paper's sentences: distances are plain begin's; every block has the least of its eight; the body is whole
    /// blocks, all of a box but those that went; no block that is kept, outside and free passes, nor did one go that is pinned or negative.
    #[test]
    fn what_a_coarse_start_leaves() {
        let (mut starts, mut examined, mut removed, mut held) = (0, 0, 0, 0);
        for seed in 0..1200 {
            let mut r = Random::new(seed);
            let g = coarse(&mut r, 18);
            let [a, b, c] = g.sides.map(|side| side as u64);
            let sides = Sides { a, b, c };
            let marks = marks_of(&mut r, sides.n());
            let (mut dist, mut status) = (vec![0; sides.n()], vec![0; sides.n()]);
            let plain = begin(sides, 1, &g.values, &marks, &mut dist, &mut status);
            let Ok(s) = begun(sides, 1, &g.values, &marks) else { continue };
            assert_eq!((Ok(s.record), &s.dist), (plain, &dist), "seed {seed}");
            let (blocks, half) = (s.block_dist.len(), halved(&sides));
            let run = Record { sides: half, ..s.record };
            let negative: Vec<usize> = (0..blocks).filter(|&j| eight(&sides, j).iter().any(|&i| dist[i] < 0)).collect();
            let first = in_box(&half, &negative);
            for (j, &boxed) in first.iter().enumerate() {
                let all = eight(&sides, j);
                assert_eq!(Some(s.block_dist[j]), all.iter().map(|&i| dist[i]).min(), "seed {seed}");
                assert!(all.iter().all(|&i| (s.status[i] != 0) == (s.block_status[j] != 0)), "seed {seed}: whole blocks");
                let stays = negative.contains(&j) || block_pinned(&sides, &marks, j);
                let kept = s.block_status[j] == 1;
                assert!(s.block_status[j] <= 1 && (boxed || !kept) && (kept || !boxed || !stays), "seed {seed}");
                assert!(!kept || stays || !test_at(&run, &s.block_status, j).passes(), "seed {seed}: a block that passes");
                removed += usize::from(boxed && !kept);
                held += usize::from(boxed && block_pinned(&sides, &marks, j) && !negative.contains(&j));
            }
            starts += 1;
            examined += s.examined;
        }
        assert!(starts > 1000 && examined > 5000 && removed > 4000 && held > 1000, "{starts} {examined} {removed} {held}");
    }

    /// Over lists of calls from a coarse start: S is kept, what is pinned is kept, and whatever is kept outside S, passes and is not pinned is pending.
    #[test]
    fn what_document_02_promises_of_lists() {
        let (mut lists, mut calls) = (0, 0);
        for seed in 0..600 {
            let mut r = Random::new(seed);
            let g = coarse(&mut r, 10);
            let [a, b, c] = g.sides.map(|side| side as u64);
            let sides = Sides { a, b, c };
            let marks = marks_of(&mut r, sides.n());
            let Ok(Begun { mut record, dist, mut status, .. }) = begun(sides, g.allowed, &g.values, &marks) else { continue };
            let held: Vec<usize> = (0..sides.n()).filter(|&i| status[i] != 0 && pinned(marks[i])).collect();
            for _ in 0..r.between(1, 20) {
                let awake = |i: usize| status[i] == 3 || pinned(marks[i]) || !test_at(&record, &status, i).passes();
                assert!((0..sides.n()).all(|i| status[i] == 0 || dist[i] < 0 || awake(i)), "seed {seed}: a voxel that passes");
                assert!((0..sides.n()).all(|i| dist[i] >= 0 || status[i] == 1), "seed {seed}: S");
                assert!(held.iter().all(|&i| status[i] != 0), "seed {seed}: what is pinned");
                let _ = match r.below(3) {
                    0 => carve(&mut record, &dist, &marks, &mut status, r.pick(&[1, 2, 7, 1000])).err(),
                    1 => take(&mut record, &dist, &marks, &mut status, r.below(sides.n() as u64)).err(),
                    _ => open(&mut record, &dist, &marks, &mut status).err(),
                };
                calls += 1;
            }
            lists += 1;
        }
        assert!(lists > 400 && calls > 4000, "{lists} lists, {calls} calls");
    }
}
