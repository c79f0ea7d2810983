//! Coarse starts (document 02, CR 10): block distances and pins, what is kept and pending, the order of checks, and number 31 by each clause.

use reference::coarse::{begin_coarse, CoarseBegun, Lent};
use reference::grid::{begin, Sides, MISSING};
use reference::machine::{carve, open};

struct Grid {
    sides: Sides,
    values: Vec<i32>,
    marks: Vec<u8>,
}

struct Begun {
    dist: Vec<i32>,
    status: Vec<u8>,
    block_dist: Vec<i32>,
    block_status: Vec<u8>,
    answer: CoarseBegun,
}

impl Grid {
    /// All 6 but for some voxels of -4.
    fn new(a: u64, b: u64, c: u64, inside: &[[i64; 3]]) -> Self {
        let sides = Sides { a, b, c };
        let mut grid = Grid { sides, values: vec![6; sides.n()], marks: vec![0; sides.n()] };
        inside.iter().for_each(|&v| grid.set(v, -4));
        grid
    }

    fn at(&self, v: [i64; 3]) -> usize {
        self.sides.index(v).expect("a voxel of the grid")
    }

    fn set(&mut self, v: [i64; 3], value: i32) {
        let i = self.at(v);
        self.values[i] = value;
    }

    fn mark(&mut self, v: [i64; 3], mark: u8) {
        let i = self.at(v);
        self.marks[i] = mark;
    }

    fn begun(&self) -> Begun {
        self.begun_with(9)
    }

    fn begun_with(&self, t: u16) -> Begun {
        let n = self.sides.n();
        let (mut dist, mut status, mut block_dist, mut block_status) = (vec![0; n], vec![0; n], vec![0; n / 8], vec![0; n / 8]);
        let voxels = Lent { dist: &mut dist, status: &mut status };
        let blocks = Lent { dist: &mut block_dist, status: &mut block_status };
        let answer = begin_coarse(self.sides, t, &self.values, &self.marks, voxels, blocks).expect("a grid that a coarse start takes");
        Begun { dist, status, block_dist, block_status, answer }
    }

    /// The number of a refusal, 0 where there is none. What is refused writes nothing.
    fn number(&self, further: [usize; 2]) -> u8 {
        let n = if self.sides.fit() { self.sides.n() } else { 0 };
        let (mut dist, mut status, mut block_dist, mut block_status) = (vec![9; n], vec![9; n], vec![9; further[0]], vec![9; further[1]]);
        let voxels = Lent { dist: &mut dist, status: &mut status };
        let blocks = Lent { dist: &mut block_dist, status: &mut block_status };
        let number = begin_coarse(self.sides, 9, &self.values, &self.marks, voxels, blocks).err().unwrap_or(0);
        let as_it_was = |bytes: &[u8], words: &[i32]| bytes.iter().all(|&b| b == 9) && words.iter().all(|&w| w == 9);
        assert!(number == 0 || as_it_was(&status, &dist) && as_it_was(&block_status, &block_dist));
        number
    }

    fn refused(&self) -> u8 {
        self.number([self.values.len() / 8; 2])
    }
}

/// The voxels kept at the end, carved and opened in turn until open refuses for want of a voxel.
fn ended(grid: &Grid, coarse: bool) -> Vec<usize> {
    let (mut dist, mut status) = (vec![0; grid.sides.n()], vec![0; grid.sides.n()]);
    let mut record = begin(grid.sides, 65535, &grid.values, &grid.marks, &mut dist, &mut status).expect("a grid that begin takes");
    if coarse {
        let begun = grid.begun_with(65535);
        (record, dist, status) = (begun.answer.next, begun.dist, begun.status);
    }
    loop {
        carve(&mut record, &dist, &grid.marks, &mut status, u64::MAX).expect("a fit record");
        if let Err(number) = open(&mut record, &dist, &grid.marks, &mut status).map(|_| ()) {
            assert_eq!(number, 15);
            return (0..status.len()).filter(|&i| status[i] != 0).collect();
        }
    }
}

/// The blocks of two voxels along x are 21 and 22 of 4 x 4 x 4.
#[test]
fn a_start_on_two_blocks() {
    let grid = Grid::new(8, 8, 8, &[[3, 3, 3], [4, 3, 3]]);
    let b = grid.begun();
    assert_eq!((b.answer.examined, b.answer.next.euler, b.answer.next.examinations), (0, 1, 0));
    let kept: Vec<usize> = (0..64).filter(|&j| b.block_status[j] != 0).collect();
    assert_eq!((kept, b.block_dist[21], b.block_dist[22]), (vec![21, 22], -4, -4));
    // M is 6, beside S, and what lies two steps away has 8
    assert_eq!((b.block_dist[20], b.block_dist[25], b.block_dist[26]), (8, 6, 6));
    let pending = (0..512).filter(|&i| b.status[i] == 3).count();
    assert_eq!((pending, b.status.iter().filter(|&&s| s == 1).count()), (14, 2));
}

/// Three paths from a corner of a box of 3 x 3 x 3 blocks: the other twenty blocks go.
fn paths() -> Grid {
    let along = (2..8).flat_map(|k| [[k, 2, 2], [2, k, 2], [2, 2, k]]).collect::<Vec<_>>();
    Grid::new(10, 10, 10, &along)
}

#[test]
fn blocks_are_carved_to_the_end() {
    let b = paths().begun();
    assert_eq!(b.block_status.iter().filter(|&&s| s == 1).count(), 7);
    assert!(b.block_status.iter().all(|&s| s <= 1) && b.answer.examined >= 20);
}

#[test]
fn any_of_its_eight_pins_a_block() {
    for mark in [1, 3] {
        for o in 0..8 {
            let mut grid = paths();
            grid.mark([6 + o % 2, 6 + o / 2 % 2, 6 + o / 4], mark);
            let b = grid.begun();
            assert_eq!(b.block_status[3 + 5 * (3 + 5 * 3)], 1, "voxel {o}");
        }
    }
    let mut grid = paths();
    grid.mark([6, 6, 6], 2);
    assert_eq!(grid.begun().block_status, paths().begun().block_status);
    assert_eq!(grid.begun().answer.examined, paths().begun().answer.examined);
}

#[test]
fn a_pin_beyond_the_box_of_blocks_holds_nothing() {
    let mut grid = paths();
    for i in 0..1000 {
        if grid.sides.coordinates(i).iter().any(|x| !(2..8).contains(x)) {
            grid.marks[i] = 1;
        }
    }
    let (one, other) = (grid.begun(), paths().begun());
    assert_eq!((one.block_status, one.status), (other.block_status, other.status));
}

/// Document 02 decides it: a pin outside the box of voxels holds its voxel where the block that has it is kept.
#[test]
fn a_pin_that_begin_does_not_see() {
    let mut grid = Grid::new(8, 8, 8, &[[3, 3, 3], [4, 3, 3]]);
    assert_eq!(ended(&grid, true), [219, 220]);
    grid.mark([2, 2, 2], 1);
    assert_eq!((ended(&grid, false), ended(&grid, true)), (vec![219, 220], vec![146, 219, 220]));
}

/// The eight voxels within a shell of 26 blocks are kept and not bare.
#[test]
fn hurries_wait_until_the_split() {
    let shell = |v: &[i64; 3]| !v.iter().all(|x| (4..6).contains(x));
    let all: Vec<[i64; 3]> = (0..216).map(|i| [2 + i % 6, 2 + i / 6 % 6, 2 + i / 36]).filter(shell).collect();
    let mut grid = Grid::new(10, 10, 10, &all);
    assert!(!grid.begun().status.contains(&3));
    for (mark, status) in [(1, 1), (2, 3), (3, 1)] {
        grid.mark([4, 5, 4], mark);
        let b = grid.begun();
        assert_eq!((b.status[grid.at([4, 5, 4])], b.answer.examined), (status, 0));
    }
}

#[test]
fn each_clause_of_31() {
    let inside = [[3, 3, 3], [4, 3, 3]];
    assert_eq!(Grid::new(8, 8, 8, &inside).refused(), 0);
    for (a, b, c) in [(7, 8, 8), (8, 7, 8), (8, 8, 7), (9, 8, 8), (63, 6, 6), (5, 6, 6)] {
        assert_eq!(Grid::new(a, b, c, &[[a as i64 / 2, b as i64 / 2, c as i64 / 2]]).refused(), 31, "{a} {b} {c}");
    }
    for (a, b, c) in [(4, 8, 8), (8, 4, 8), (8, 8, 4), (4, 4, 4)] {
        assert_eq!(Grid::new(a, b, c, &[[a as i64 / 2, b as i64 / 2, c as i64 / 2]]).refused(), 31, "{a} {b} {c}");
    }
    assert_eq!(Grid::new(6, 6, 6, &[[2, 2, 2], [3, 3, 3]]).refused(), 0);
    for k in 0..3 {
        for (x, number) in [(0, 3), (1, 31), (2, 0), (5, 0), (6, 31), (7, 3)] {
            for others in [&inside[..], &[]] {
                let mut v = [5, 5, 5];
                v[k] = x;
                assert_eq!(Grid::new(8, 8, 8, &[others, &[v]].concat()).refused(), number, "{v:?}");
                let mut missing = Grid::new(8, 8, 8, &inside);
                missing.set(v, MISSING);
                assert_eq!(missing.refused(), 0, "{v:?}");
            }
        }
    }
}

#[test]
fn the_order_of_checks() {
    let odd = |change: &dyn Fn(&mut Grid)| {
        let mut grid = Grid::new(7, 8, 8, &[[3, 3, 3]]);
        change(&mut grid);
        grid
    };
    assert_eq!(odd(&|_| ()).refused(), 31);
    assert_eq!(odd(&|g| g.values.fill(6)).refused(), 4);
    assert_eq!(odd(&|g| g.values[0] = -1).refused(), 3);
    assert_eq!(odd(&|g| (g.values[0], g.marks[7]) = (-1, 4)).refused(), 29);
    assert_eq!(odd(&|g| (g.values[0], g.marks[7]) = (i32::MAX, 4)).refused(), 28);
    for further in [[55, 56], [56, 55], [57, 56], [56, 57], [0, 56], [56, 0], [448, 448]] {
        assert_eq!(odd(&|g| g.values[0] = i32::MAX).number(further), 2);
    }
    assert_eq!(Grid { sides: Sides { a: 7, b: 65, c: 8 }, values: vec![], marks: vec![] }.number([3, 4]), 1);
}

/// 7 x 7 x 7 is 343: 42 places and not 43.
#[test]
fn n_divided_by_8_is_rounded_down() {
    let grid = Grid::new(7, 7, 7, &[[3, 3, 3]]);
    assert_eq!([[42, 42], [43, 42], [42, 43], [43, 43]].map(|further| grid.number(further)), [31, 2, 2, 2]);
}
