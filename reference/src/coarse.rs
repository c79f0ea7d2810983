//! A coarse start (document 02, CR 10): begin on blocks of two by two by two voxels. Its kept blocks, split again, are the starting body.

use crate::grid::{begin, negative, Record, Refused, Sides};
use crate::machine::carve;
use crate::marks::{hurried, pinned};

/// Two lent buffers: of the voxels, or the further ones, of the blocks.
pub struct Lent<'a> {
    pub dist: &'a mut [i32],
    pub status: &'a mut [u8],
}

pub struct CoarseBegun {
    pub next: Record,
    /// Those of the coarse run; the record has none of them.
    pub examined: u64,
}

/// The grid of blocks.
fn halved(sides: &Sides) -> Sides {
    Sides { a: sides.a / 2, b: sides.b / 2, c: sides.c / 2 }
}

fn block_of(sides: &Sides, voxel: usize) -> usize {
    let [x, y, z] = sides.coordinates(voxel);
    halved(sides).index([x / 2, y / 2, z / 2]).expect("even sides")
}

/// The eight voxels of a block.
fn voxels_of(sides: &Sides, block: usize) -> Vec<usize> {
    let [x, y, z] = halved(sides).coordinates(block);
    let mut eight = Vec::new();
    for dz in 0..2 {
        for dy in 0..2 {
            for dx in 0..2 {
                eight.extend(sides.index([2 * x + dx, 2 * y + dy, 2 * z + dz]));
            }
        }
    }
    eight
}

/// An odd side, or one under 6.
fn unfit_side(side: u64) -> bool {
    side % 2 == 1 || side < 6
}

/// A coordinate below 2 or above that side less 3.
fn near_the_border(sides: &Sides, voxel: usize) -> bool {
    let (v, sides) = (sides.coordinates(voxel), [sides.a as i64, sides.b as i64, sides.c as i64]);
    (0..3).any(|k| v[k] < 2 || v[k] > sides[k] - 3)
}

/// 31. Every measured negative voxel counts, one that is not in S too.
fn unfit(sides: &Sides, values: &[i32]) -> bool {
    let near = |i: usize| negative(values[i]) && near_the_border(sides, i);
    [sides.a, sides.b, sides.c].into_iter().any(unfit_side) || (0..values.len()).any(near)
}

/// The smallest box that holds the inside.
fn smallest_box(sides: &Sides, inside: &[bool]) -> Vec<bool> {
    let members: Vec<[i64; 3]> = (0..inside.len()).filter(|&i| inside[i]).map(|i| sides.coordinates(i)).collect();
    let along = |k: usize| members.iter().map(move |v| v[k]);
    let ends: Vec<_> = (0..3).map(|k| along(k).min()..=along(k).max()).collect();
    (0..inside.len()).map(|i| sides.coordinates(i)).map(|v| (0..3).all(|k| ends[k].contains(&Some(v[k])))).collect()
}

/// A body's status at the start: pending is what is outside and hurried, or bare and not pinned.
fn start(sides: &Sides, marks: &[u8], inside: &[bool], kept: &[bool], status: &mut [u8]) {
    for i in 0..kept.len() {
        let bare = sides.face_neighbours(i).into_iter().any(|j| !j.is_some_and(|j| kept[j]));
        let pending = !inside[i] && (hurried(marks[i]) || (bare && !pinned(marks[i])));
        status[i] = match (kept[i], pending) {
            (false, _) => 0,
            (true, false) => 1,
            (true, true) => 3,
        };
    }
}

/// The coarse run: from step 4 on, carved to its end. How many examinations it made.
fn run(blocks: &Sides, marks: &[u8], lent: &mut Lent) -> Result<u64, Refused> {
    let inside: Vec<bool> = lent.dist.iter().map(|&d| d < 0).collect();
    start(blocks, marks, &inside, &smallest_box(blocks, &inside), lent.status);
    let mut record = Record { sides: *blocks, t: 0, openings: 0, removals: 0, examinations: 0, euler: 1, finished: 0 };
    carve(&mut record, lent.dist, marks, lent.status, u64::MAX).map(|carved| carved.examined)
}

/// 1, 2, 28, 29, 3, 4, 31: all but the further buffers' lengths and 31 as begin has them, which also works the distances out.
pub fn begin_coarse(sides: Sides, t: u16, values: &[i32], marks: &[u8], voxels: Lent, mut blocks: Lent) -> Result<CoarseBegun, Refused> {
    if sides.fit() && (blocks.dist.len() != sides.n() / 8 || blocks.status.len() != sides.n() / 8) {
        return Err(2);
    }
    let (mut dist, mut status) = (voxels.dist.to_vec(), voxels.status.to_vec());
    let next = begin(sides, t, values, marks, &mut dist, &mut status)?;
    if unfit(&sides, values) {
        return Err(31);
    }
    voxels.dist.copy_from_slice(&dist);
    let mut block_marks = vec![0; blocks.dist.len()];
    for (j, mark) in block_marks.iter_mut().enumerate() {
        let eight = voxels_of(&sides, j);
        blocks.dist[j] = eight.iter().map(|&i| dist[i]).min().expect("eight voxels");
        // hurries wait
        *mark = u8::from(eight.iter().any(|&i| pinned(marks[i])));
    }
    let examined = run(&halved(&sides), &block_marks, &mut blocks)?;
    let inside: Vec<bool> = dist.iter().map(|&d| d < 0).collect();
    let kept: Vec<bool> = (0..dist.len()).map(|i| blocks.status[block_of(&sides, i)] != 0).collect();
    start(&sides, marks, &inside, &kept, voxels.status);
    Ok(CoarseBegun { next, examined })
}
