//! Lists of removals (document 02, CR 11): which are accepted and what they come to, each number by each clause, and that nothing is written.

use reference::grid::{begin, Record, Sides};
use reference::judge::judge;
use reference::machine::{carve, open};

struct Grid {
    record: Record,
    dist: Vec<i32>,
    status: Vec<u8>,
}

impl Grid {
    /// Begun with all 4 but for some voxels of -4.
    fn new(a: u64, b: u64, c: u64, t: u16, inside: &[usize]) -> Self {
        let sides = Sides { a, b, c };
        let (mut values, marks) = (vec![4; sides.n()], vec![0; sides.n()]);
        inside.iter().for_each(|&i| values[i] = -4);
        let (mut dist, mut status) = (vec![0; sides.n()], vec![0; sides.n()]);
        let record = begin(sides, t, &values, &marks, &mut dist, &mut status).expect("a grid that begin takes");
        Grid { record, dist, status }
    }

    /// 32 and 37 may go, in either order.
    fn pair() -> Self {
        Grid::new(6, 4, 3, 1, &[31, 38])
    }

    /// 37 is the middle of a ring.
    fn ring(t: u16) -> Self {
        Grid::new(5, 5, 3, t, &[31, 32, 33, 36, 38, 41, 42, 43])
    }

    /// Removals, openings and Euler number, or the number of a refusal. Neither buffer is changed by either.
    fn judged(&mut self, list: &[u8]) -> Result<(u64, u64, i64), u8> {
        let before = self.status.clone();
        let answer = judge(&self.record, &self.dist, &mut self.status, list).map(|j| (j.removals, j.openings, j.euler));
        assert_eq!(self.status, before);
        answer
    }
}

fn list(removals: &[(u8, u32)]) -> Vec<u8> {
    removals.iter().flat_map(|&(kind, index)| [&[0x56, kind][..], &index.to_le_bytes()].concat()).collect()
}

const GO: u8 = 0x52;
const OPEN: u8 = 0x4F;

#[test]
fn lists_in_either_order() {
    let mut pair = Grid::pair();
    assert_eq!(pair.judged(&list(&[(GO, 32), (GO, 37)])), Ok((2, 0, 1)));
    assert_eq!(pair.judged(&list(&[(GO, 37), (GO, 32)])), Ok((2, 0, 1)));
    assert_eq!(pair.judged(&list(&[(GO, 37)])), Err(33));
    assert_eq!(pair.judged(&[]), Err(33));
}

#[test]
fn openings_up_to_t() {
    assert_eq!(Grid::ring(1).judged(&list(&[(OPEN, 37)])), Ok((1, 1, 0)));
    assert_eq!(Grid::ring(0).judged(&list(&[(OPEN, 37)])), Err(32));
    assert_eq!(Grid::ring(1).judged(&list(&[(GO, 37)])), Err(32));
    assert_eq!(Grid::ring(0).judged(&[]), Ok((0, 0, 1)));
    let mut counted = Grid::ring(1);
    counted.record = Record { openings: 1, removals: 5, examinations: 7, euler: -3, ..counted.record };
    assert_eq!(counted.judged(&list(&[(OPEN, 37)])), Ok((1, 1, 0)));
    assert_eq!(Grid::pair().judged(&list(&[(OPEN, 32)])), Err(32), "it passes itself");
    assert_eq!(Grid::pair().judged(&list(&[(GO, 32), (GO, 37), (OPEN, 31)])), Err(32), "it is inside");
}

#[test]
fn an_opening_needs_a_face_neighbour_that_is_gone() {
    let block: Vec<usize> = (0..27).map(|p| 31 + p % 3 + 5 * (p / 3 % 3) + 25 * (p / 9)).filter(|&i| i != 62).collect();
    let mut shell = Grid::new(5, 5, 5, 2, &block);
    assert_eq!(shell.judged(&[]), Ok((0, 0, 1)));
    assert_eq!(shell.judged(&list(&[(OPEN, 62)])), Err(32));
    shell.dist[61] = 4;
    assert_eq!(shell.judged(&list(&[(GO, 61), (GO, 62)])), Ok((2, 0, 1)));
}

#[test]
fn the_first_fault_is_answered() {
    let mut pair = Grid::pair();
    let good = list(&[(GO, 32)]);
    let after = |more: &[u8]| [&good[..], more].concat();
    for (more, number) in [
        (list(&[(GO, 32), (0x50, 99)]), 32),
        (list(&[(0x50, 99), (GO, 32)]), 22),
        (list(&[(GO, 72), (GO, 32), (0, 0)]), 5),
        (list(&[(GO, 65_536 + 37)]), 5),
        ([list(&[(GO, 32)]), vec![0x56]].concat(), 32),
        ([list(&[(GO, 37)]), vec![0x56; 5]].concat(), 21),
        (vec![0; 5], 21),
        (vec![0; 6], 22),
    ] {
        assert_eq!(pair.judged(&after(&more)), Err(number), "{more:?}");
    }
    pair.record.finished = 2;
    assert_eq!(pair.judged(&[0]), Err(8));
    pair.record.removals = 73;
    assert_eq!(pair.judged(&[0]), Err(7));
    pair.dist.pop();
    assert_eq!(pair.judged(&[0]), Err(2));
    pair.record.sides.a = 65;
    assert_eq!(pair.judged(&[0]), Err(1));
}

/// Carved one by one and opened: the list of what went is accepted from the start, with the record's own counts.
#[test]
fn the_machines_own_list() {
    let inside = [31, 32, 33, 38, 43, 68, 93];
    let mut grid = Grid::new(5, 5, 5, 9, &inside);
    let (mut r, mut status, marks) = (grid.record, grid.status.clone(), vec![0; 125]);
    let mut removals = Vec::new();
    loop {
        let before = status.clone();
        let carved = carve(&mut r, &grid.dist, &marks, &mut status, 1).expect("a fit record");
        let kind = if carved.examined > 0 { GO } else { OPEN };
        if carved.examined == 0 && open(&mut r, &grid.dist, &marks, &mut status).is_err() {
            break;
        }
        removals.extend((0..125).filter(|&i| before[i] != 0 && status[i] == 0).map(|i| (kind, i as u32)));
    }
    assert!(removals.len() > 10);
    assert_eq!(grid.judged(&list(&removals)), Ok((r.removals, r.openings, r.euler)));
    assert_eq!(grid.judged(&list(&removals[..3])), Err(33));
}
