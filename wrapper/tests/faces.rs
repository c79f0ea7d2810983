//! Which side a removed voxel came out by: each removal of carve, take and open on noise, against the voxels that were kept just before.

use std::collections::BTreeMap;
use wattlerugby::{local_test, Carved, Face, Grid, Refusal, Sides, GONE, NO_LIMIT, PINNED, UNMARKED};

const SIDES: Sides = Sides { a: 6, b: 7, c: 5 };
const N: usize = 210;

struct Seed(u32);

impl Seed {
    fn below(&mut self, bound: usize) -> usize {
        self.0 = self.0.wrapping_mul(1_664_525).wrapping_add(1_013_904_223);
        (self.0 >> 16) as usize % bound
    }
}

/// A grid full of noise, with openings enough, and one voxel in ten pinned.
fn noise(seed: &mut Seed) -> Grid {
    let inner = |i: usize| [(i % 6, 6), (i / 6 % 7, 7), (i / 42, 5)].iter().all(|&(p, side)| p > 0 && p + 1 < side);
    let values: Vec<i32> = (0..N).map(|i| if inner(i) && seed.below(5) < 2 { -9 } else { seed.below(20) as i32 }).collect();
    let marks: Vec<u8> = (0..N).map(|_| if seed.below(10) == 0 { PINNED } else { UNMARKED }).collect();
    Grid::begin_marked(SIDES, u16::MAX, &values, &marks).expect("some voxel is negative")
}

/// The first face across which no voxel is kept.
fn due(status: &[u8], i: usize) -> Option<Face> {
    let across = |face: Face| {
        let [x, y, z] = face.step().map(isize::from);
        (i as isize + x + 6 * (y + 7 * z)) as usize
    };
    Face::ALL.into_iter().find(|&face| status[across(face)] == GONE)
}

/// The voxel that was kept before and is gone now, where there is one.
fn removed(before: &[u8], after: &[u8]) -> Option<usize> {
    let mut gone = (0..N).filter(|&i| before[i] != GONE && after[i] == GONE);
    let first = gone.next();
    assert_eq!(gone.next(), None, "one examination removes one voxel at most");
    first
}

/// Takes and openings between single examinations, to the end of each grid: every face comes, from every call, but high z from open. A voxel with
/// no other bare face passes, so that with the same marks all along carve has removed it.
#[test]
fn the_lowest_bare_face() {
    let (mut seed, mut met) = (Seed(11), BTreeMap::new());
    for _ in 0..200 {
        let mut grid = noise(&mut seed);
        loop {
            let before = grid.status().to_vec();
            let index = seed.below(N);
            let (call, face, gone) = if let Ok(taken) = grid.take(index) {
                ("take", Some(taken.face), Some(index))
            } else if let Ok(opened) = grid.open() {
                ("open", Some(opened.face), Some(opened.index))
            } else {
                let carved = grid.carve(1).expect("a begun grid is carved");
                if carved.examined == 0 {
                    assert_eq!((grid.open(), carved.face), (Err(Refusal::NOTHING_TO_OPEN), None));
                    break;
                }
                ("carve", carved.face, removed(&before, grid.status()))
            };
            assert_eq!(removed(&before, grid.status()), gone);
            assert_eq!(face, gone.and_then(|i| due(&before, i)), "{call}");
            *met.entry((call, face)).or_insert(0) += 1;
        }
    }
    let (all, rare) = (met.len(), met.values().filter(|&&count| count < 10).count());
    assert!(all == 3 * 6 && rare == 0 && !met.contains_key(&("open", Some(Face::HighZ))), "{met:?}");
}

/// Carve with any limit answers the face of the last voxel that so many single examinations removed, and nothing exactly where these removed
/// none.
#[test]
fn the_last_removal_of_a_carve() {
    let (mut seed, mut none) = (Seed(4), 0);
    for round in 0..200 {
        let mut grid = noise(&mut seed);
        loop {
            let limit = if round % 4 == 0 { NO_LIMIT } else { seed.below(12) as u32 };
            let mut one_by_one = grid.clone();
            let Carved { examined, removed, pending, face, .. } = grid.carve(limit).expect("a begun grid is carved");
            let single: Vec<_> = (0..examined).map(|_| one_by_one.carve(1).expect("a begun grid is carved").face).collect();
            assert_eq!(one_by_one, grid);
            assert_eq!(face, single.iter().copied().flatten().last());
            assert_eq!((face.is_none(), single.iter().flatten().count()), (removed == 0, removed as usize));
            none += usize::from(face.is_none() && examined > 0);
            if !pending && grid.open().is_err() {
                break;
            }
        }
    }
    assert!(none > 50, "{none} carves examined voxels and removed none");
}

/// The six voxels across faces decide, in every choice of them, and no other voxel of the block does.
#[test]
fn the_local_tests_face() {
    let bit = |face: Face| {
        let [x, y, z] = face.step().map(i32::from);
        (x + 1) + 3 * (y + 1) + 9 * (z + 1)
    };
    let across: u32 = Face::ALL.into_iter().map(|face| 1 << bit(face)).sum();
    let mut seed = Seed(7);
    for choice in 0..64u32 {
        let kept = Face::ALL.into_iter().filter(|face| choice >> face.number() & 1 == 1).fold(0, |kept, face| kept | 1 << bit(face));
        let due = Face::ALL.into_iter().find(|face| choice >> face.number() & 1 == 0);
        for _ in 0..200 {
            let others = (seed.below(1 << 16) << 16 | seed.below(1 << 16)) as u32 & !across;
            let test = local_test(kept | others);
            assert_eq!((test.face, test.faces), (due, choice.count_ones()), "block {:08x}", kept | others);
        }
    }
}

/// Low x, high x and so on: two to an axis, in either direction, and no number but these six.
#[test]
fn numbers_axes_and_steps() {
    let told = Face::ALL.map(|face| format!("{face}, {} {} {} {:?}", face.number(), face.axis(), face.is_high(), face.step()));
    let due = [
        "low x, 0 0 false [-1, 0, 0]",
        "high x, 1 0 true [1, 0, 0]",
        "low y, 2 1 false [0, -1, 0]",
        "high y, 3 1 true [0, 1, 0]",
        "low z, 4 2 false [0, 0, -1]",
        "high z, 5 2 true [0, 0, 1]",
    ];
    assert_eq!(told, due);
    for number in (0..10).chain([u32::MAX]) {
        assert_eq!(Face::of(number), Face::ALL.get(number as usize).copied());
    }
}
