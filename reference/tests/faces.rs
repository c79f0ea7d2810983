//! Which side a voxel came out by (document 02, CR 8): the lowest numbered bare face from the local test, and from take, open and carve.

use reference::grid::{begin, Record, Sides};
use reference::local::local_test;
use reference::machine::{carve, open, take, Carving};

/// The places of a block across faces 0 to 5: low x, high x, low y, high y, low z, high z.
const ACROSS: [usize; 6] = [12, 14, 10, 16, 4, 22];

/// The face of a block in which these places are kept.
fn of_block(kept: impl Fn(usize) -> bool) -> u32 {
    local_test(&std::array::from_fn(kept)).face
}

// ---- the local test

#[test]
fn one_bare_face_and_none() {
    for (number, place) in ACROSS.into_iter().enumerate() {
        assert_eq!(of_block(|p| p != place), number as u32);
    }
    assert_eq!(of_block(|_| true), 6);
    assert_eq!(of_block(|p| ACROSS.contains(&p)), 6);
}

#[test]
fn the_lowest_number_of_several() {
    assert_eq!(of_block(|_| false), 0);
    for number in 0..=6 {
        assert_eq!(of_block(|p| ACROSS[..number].contains(&p)), number as u32, "all from {number} on are bare");
    }
    // high x before low y, low y before low z, though their places in the block are the other way round
    assert_eq!(of_block(|p| p != 14 && p != 10), 1);
    assert_eq!(of_block(|p| p != 10 && p != 4), 2);
    assert_eq!(of_block(|p| p != 22 && p != 16), 3);
}

/// A voxel at an edge or a corner touches edges and corners, and no face.
#[test]
fn what_shares_no_face_covers_none() {
    assert_eq!(of_block(|p| !ACROSS.contains(&p)), 0);
    for number in 0..6 {
        let kept = |p: usize| !ACROSS.contains(&p) || ACROSS[..number].contains(&p);
        assert_eq!(of_block(kept), number as u32);
    }
}

/// Document 01's worked tests: none, all, low z, a corner, low and high z, the four sides, all but high z, the corners, and all without a face.
#[test]
fn worked_local_tests() {
    let of_bits = |bits: u32| of_block(|p| bits >> p & 1 == 1);
    let worked = [0, 0x7ffdfff, 0x10, 0x1, 0x400010, 0x15400, 0x15410, 0x5140145, 0x7be8bef];
    assert_eq!(worked.map(of_bits), [0, 6, 0, 0, 0, 4, 5, 0, 0]);
}

// ---- one removal

/// A block of 3 x 3 x 3 in 5 x 5 x 5, all kept and none in S; its middle is the farthest.
const SOLID: Sides = Sides { a: 5, b: 5, c: 5 };
const MIDDLE: usize = 62;
/// The middle's neighbours across faces 0 to 5.
const BESIDE: [usize; 6] = [61, 63, 57, 67, 37, 87];

struct Grid {
    record: Record,
    dist: Vec<i32>,
    marks: Vec<u8>,
    status: Vec<u8>,
}

fn solid(gone: &[usize]) -> Grid {
    let record = Record { sides: SOLID, t: 9, openings: 0, removals: 0, examinations: 0, euler: 1, finished: 0 };
    let mut dist = vec![5; SOLID.n()];
    dist[MIDDLE] = 9;
    let status = (0..SOLID.n()).map(|i| u8::from(!SOLID.border(i) && !gone.contains(&i))).collect();
    Grid { record, dist, marks: vec![0; SOLID.n()], status }
}

/// A grid begun with voxels of -6 in a field of 6.
fn begun(sides: Sides, inside: &[usize]) -> Grid {
    let n = sides.n();
    let values: Vec<i32> = (0..n).map(|i| if inside.contains(&i) { -6 } else { 6 }).collect();
    let (mut dist, marks, mut status) = (vec![0; n], vec![0; n], vec![0; n]);
    let record = begin(sides, 9, &values, &marks, &mut dist, &mut status).expect("a grid that begin takes");
    Grid { record, dist, marks, status }
}

impl Grid {
    fn carve(&mut self, limit: u64) -> Carving {
        carve(&mut self.record, &self.dist, &self.marks, &mut self.status, limit).expect("a fit record")
    }

    /// Examinations, removals and the face.
    fn carved(&mut self, limit: u64) -> (u64, u64, u32) {
        let Carving { examined, removed, face, .. } = self.carve(limit);
        (examined, removed, face)
    }

    fn take(&mut self, index: usize) -> Result<u32, u8> {
        take(&mut self.record, &self.dist, &self.marks, &mut self.status, index as u64).map(|local| local.face)
    }

    /// The voxel, k - m, and the face.
    fn open(&mut self) -> (usize, i64, u32) {
        let opened = open(&mut self.record, &self.dist, &self.marks, &mut self.status).expect("something to open");
        (opened.index, i64::from(opened.local.k) - i64::from(opened.local.m), opened.local.face)
    }
}

#[test]
fn take_open_and_carve_by_each_face() {
    for (number, &beside) in BESIDE.iter().enumerate() {
        let face = number as u32;
        assert_eq!(solid(&[beside]).take(MIDDLE), Ok(face));
        assert_eq!(solid(&[beside]).open(), (MIDDLE, 0, face));
        let mut pending = solid(&[beside]);
        pending.status[MIDDLE] = 3;
        assert_eq!(pending.carved(1), (1, 1, face));
    }
}

/// Two bare faces that do not meet: it does not pass, and is opened by the lower.
#[test]
fn open_by_the_lower_of_two() {
    for (gone, face) in [([61, 63], 0), ([63, 67], 1), ([67, 57], 2), ([87, 67], 3), ([87, 37], 4)] {
        assert_eq!(solid(&gone).take(MIDDLE), Err(12));
        assert_eq!(solid(&gone).open(), (MIDDLE, -1, face));
    }
}

/// Pending, in S or pinned, a neighbour is kept.
#[test]
fn what_is_kept_covers_its_face() {
    let mut g = solid(&[87]);
    (g.status[61], g.dist[63], g.marks[57], g.marks[67]) = (3, -4, 1, 2);
    assert_eq!(g.take(MIDDLE), Ok(5));
}

// ---- document 01's cases

/// The ring's middle has low z and high z bare.
#[test]
fn case_c() {
    let mut g = begun(Sides { a: 5, b: 5, c: 3 }, &[31, 32, 33, 36, 38, 41, 42, 43]);
    assert_eq!(g.carved(1000), (1, 0, 6));
    assert_eq!(g.open(), (37, -1, 4));
    assert_eq!(g.carved(1000), (0, 0, 6));
}

const PAIR: (Sides, [usize; 2]) = (Sides { a: 4, b: 4, c: 3 }, [21, 26]);

/// 22 has 21 at its low x, and the border at its high x; 25 has the border at its low x.
#[test]
fn case_d() {
    let mut g = begun(PAIR.0, &PAIR.1);
    assert_eq!((g.carved(1), g.carved(1), g.carved(1)), ((1, 1, 1), (1, 1, 0), (0, 0, 6)));
    let mut g = begun(PAIR.0, &PAIR.1);
    assert_eq!((g.take(25), g.take(22), g.carved(9)), (Ok(0), Ok(1), (0, 0, 6)));
}

// ---- the last removal of a carve

#[test]
fn of_two_removals_the_last() {
    assert_eq!(begun(PAIR.0, &PAIR.1).carved(9), (2, 2, 0));
    let mut g = begun(PAIR.0, &PAIR.1);
    g.dist[25] += 1;
    assert_eq!(g.carved(9), (2, 2, 1));
}

#[test]
fn without_a_removal() {
    let mut g = begun(PAIR.0, &PAIR.1);
    assert_eq!(g.take(22), Ok(1));
    assert_eq!(g.carved(0), (0, 0, 6));
    // it is pending still, and pinned it stays
    g.marks[25] = 1;
    assert_eq!(g.carved(9), (1, 0, 6));
    assert_eq!(g.carved(9), (0, 0, 6));
}

/// 22 goes by high x; 25, examined after it, is pinned and would go by low x.
#[test]
fn an_examined_voxel_that_is_pinned_gives_none() {
    let mut g = begun(PAIR.0, &PAIR.1);
    g.marks[25] = 3;
    g.dist[22] += 1;
    g.marks[22] = 2;
    assert_eq!(g.carved(9), (2, 1, 1));
}

/// A ring around 44, and 40 beside it, so that the box has 46 and 52 too: both go by high x. The hole in the ring, at 44, is examined last and stays;
/// it is bare at low z.
#[test]
fn the_last_examination_may_remove_nothing() {
    let mut g = begun(Sides { a: 6, b: 5, c: 3 }, &[37, 38, 39, 40, 43, 45, 49, 50, 51]);
    g.dist[44] = 0;
    assert_eq!(g.carved(9), (3, 2, 1));
    assert_eq!((g.status[44], g.status[46], g.status[52]), (1, 0, 0));
    assert_eq!(g.open(), (44, -1, 4));
}

/// A row of three, the last of them in S: the first goes by low x, and then the second, which had low y for its lowest bare face before.
#[test]
fn the_face_is_that_of_the_moment() {
    let row = || {
        let mut g = begun(Sides { a: 5, b: 3, c: 3 }, &[23]);
        g.status[21] = 3;
        g.status[22] = 3;
        g
    };
    assert_eq!(row().carved(2), (2, 2, 0));
    assert_eq!(row().take(22), Err(12));
    let mut g = row();
    (g.marks[21], g.dist[23], g.status[23]) = (1, 9, 3);
    // from the other end, 21 being held: 23 by high x, then 22, whose high x is bare too by then
    assert_eq!(g.carved(9), (3, 2, 1));
}
