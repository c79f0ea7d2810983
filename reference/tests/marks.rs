//! Pins and hurries (document 02, CR 7 and CR 9): what is pending from begin, what is examined first, what stays, and the places of 2, 29 and 30.

use reference::grid::{begin, Record, Sides};
use reference::machine::{carve, finish, open, take};

const SIDES: Sides = Sides { a: 5, b: 5, c: 5 };
const N: usize = 125;

/// S goes along the edges of a box of 3 x 3 x 3: 62, its middle, is not in S, nor at the surface as 36 and 91 are.
const INSIDE: [usize; 7] = [31, 32, 33, 38, 43, 68, 93];
const DEEP: usize = 62;

fn values() -> [i32; N] {
    std::array::from_fn(|i| if INSIDE.contains(&i) { -4 } else { 4 })
}

fn marked(marks: &[(usize, u8)]) -> [u8; N] {
    let mut all = [0; N];
    marks.iter().for_each(|&(i, mark)| all[i] = mark);
    all
}

struct Begun {
    record: Record,
    dist: [i32; N],
    status: [u8; N],
}

fn begun(marks: &[(usize, u8)]) -> Begun {
    let (mut dist, mut status) = ([0; N], [0; N]);
    let record = begin(SIDES, 9, &values(), &marked(marks), &mut dist, &mut status).expect("a grid that begin takes");
    Begun { record, dist, status }
}

impl Begun {
    /// Examinations and removals.
    fn carve(&mut self, marks: &[(usize, u8)], limit: u64) -> (u64, u64) {
        let done = carve(&mut self.record, &self.dist, &marked(marks), &mut self.status, limit).expect("a fit record");
        (done.examined, done.removed)
    }

    fn take(&mut self, marks: &[(usize, u8)], index: usize) -> Result<(), u8> {
        take(&mut self.record, &self.dist, &marked(marks), &mut self.status, index as u64).map(|_| ())
    }

    fn open(&mut self, marks: &[(usize, u8)]) -> Result<usize, u8> {
        open(&mut self.record, &self.dist, &marked(marks), &mut self.status).map(|opened| opened.index)
    }

    fn finish(&mut self) -> Result<(), u8> {
        finish(&mut self.record, &mut self.dist, &self.status)
    }
}

#[test]
fn what_is_pending_from_begin() {
    for (mark, deep, surface) in [(0, 1, 3), (1, 1, 1), (2, 3, 3), (3, 1, 1)] {
        let all: Vec<(usize, u8)> = (0..N).map(|i| (i, mark)).collect();
        let b = begun(&all);
        assert_eq!((b.status[DEEP], b.status[36]), (deep, surface), "mark {mark}");
        assert!(INSIDE.iter().all(|&i| b.status[i] == 1) && b.status[124] == 0 && b.status[0] == 0, "mark {mark}");
        assert_eq!(begun(&[(124, mark), (31, mark), (0, mark)]).status, begun(&[]).status, "mark {mark}");
    }
}

#[test]
fn hurried_voxels_come_first_by_distance_and_index() {
    let mut b = begun(&[]);
    let marks = [(36, 2), (91, 2), (92, 2)];
    (b.dist[36], b.dist[91], b.dist[92], b.dist[81]) = (0, 3, 3, i32::MAX);
    for (gone, left) in [(91, 92), (92, 36), (36, 81)] {
        assert_eq!(b.carve(&marks, 1), (1, 1));
        assert_eq!((b.status[gone], b.status[left] != 0), (0, true), "{gone}");
    }
}

/// Each voxel in turn is both, and what remains is hurried, unmarked and pinned by turns.
#[test]
fn mark_3_means_mark_1_in_every_call() {
    for voxel in 0..N {
        let marks = |mark: u8| (0..N).map(|i| (i, if i == voxel { mark } else { [2, 0, 0, 1][i % 4] })).collect::<Vec<_>>();
        let (one, both) = (marks(1), marks(3));
        let (mut b, mut c) = (begun(&one), begun(&both));
        for limit in [1, 2, 0, 1, u64::MAX] {
            assert_eq!(b.status, c.status, "{voxel}");
            assert_eq!(b.carve(&one, limit), c.carve(&both, limit), "{voxel}");
        }
        assert_eq!([DEEP, 36, 91, voxel].map(|i| b.take(&one, i)), [DEEP, 36, 91, voxel].map(|i| c.take(&both, i)), "{voxel}");
        assert_eq!(b.open(&one), c.open(&both), "{voxel}");
        assert_eq!(b.finish(), c.finish(), "{voxel}");
        assert_eq!((b.record, b.dist, b.status), (c.record, c.dist, c.status), "{voxel}");
    }
}

#[test]
fn a_limited_carve_passes_by_what_is_both_from_begin() {
    for voxel in [36, DEEP] {
        let mut b = begun(&[(voxel, 3)]);
        assert_eq!(b.carve(&[(voxel, 3)], 1), (1, 1), "{voxel}");
    }
    let mut b = begun(&[(36, 3), (91, 2)]);
    assert_eq!((b.carve(&[(36, 3), (91, 2)], 1), b.status[91], b.status[36]), ((1, 1), 0, 1));
}

#[test]
fn nothing_is_pending_where_all_is_both() {
    let all: Vec<(usize, u8)> = (0..N).map(|i| (i, 3)).collect();
    let mut b = begun(&all);
    assert_eq!((b.carve(&all, u64::MAX), b.open(&all), b.take(&all, 36), b.finish()), ((0, 0), Err(15), Err(30), Ok(())));
    let mut b = begun(&all);
    assert_eq!(b.open(&[&all[..], &[(36, 0)]].concat()), Ok(36));
}

/// 91 is the farthest, 36 the next.
#[test]
fn what_is_both_later_is_examined_in_its_turn() {
    let mut b = begun(&[]);
    (b.dist[91], b.dist[36]) = (99, 98);
    let marks = [(36, 3), (91, 3)];
    for (examined, left) in [(91, 36), (36, 92)] {
        assert_eq!(b.carve(&marks, 1), (1, 0));
        assert_eq!((b.status[examined], b.status[left]), (1, 3));
    }
    assert_eq!(b.carve(&[(36, 3), (92, 2), (91, 3)], 1), (1, 1));
    assert_eq!((b.status[92], b.record.examinations), (0, 3));
}

/// What is both at begin is not pending, and no other mark makes it so.
#[test]
fn what_was_both_at_begin_stays_where_its_mark_changes() {
    let all: Vec<(usize, u8)> = (0..N).map(|i| (i, 3)).collect();
    for then in [0, 1, 2] {
        let marks: Vec<(usize, u8)> = (0..N).map(|i| (i, then)).collect();
        let mut b = begun(&all);
        let before = b.status;
        assert_eq!((b.carve(&marks, u64::MAX), b.status == before), ((0, 0), true), "{then}");
    }
}

/// Where what is both is pending from begin too, a carve with the same marks to its end has as many examinations more, and keeps the same voxels.
#[test]
fn a_carve_from_begin_to_its_end_keeps_the_same_voxels() {
    for turns in [&[3, 0][..], &[3], &[0, 2, 3], &[3, 1, 2, 0, 0], &[0, 0, 0, 0, 3]] {
        let marks: Vec<(usize, u8)> = (0..N).map(|i| (i, turns[i % turns.len()])).collect();
        let (mut b, mut c) = (begun(&marks), begun(&marks));
        let both: Vec<usize> = (0..N).filter(|&i| marks[i].1 == 3 && c.status[i] != 0 && c.dist[i] >= 0).collect();
        both.iter().for_each(|&i| c.status[i] = 3);
        let ((examined, removed), more) = (b.carve(&marks, u64::MAX), c.carve(&marks, u64::MAX));
        assert_eq!((more, c.status), ((examined + both.len() as u64, removed), b.status), "{turns:?}");
    }
}

#[test]
fn a_pinned_voxel_that_is_examined_counts_and_stays() {
    for mark in [1, 3] {
        let mut b = begun(&[]);
        let examined = b.carve(&[(36, mark)], u64::MAX).0;
        assert_eq!((b.status[36], b.record.examinations), (1, examined), "mark {mark}");
        // taken off, it is not woken
        assert_eq!(b.carve(&[], u64::MAX), (0, 0));
        assert_eq!(b.status[36], 1);
    }
}

#[test]
fn a_later_hurry_wakes_nothing() {
    let mut b = begun(&[(36, 1), (91, 1)]);
    b.carve(&[(36, 1), (91, 1)], u64::MAX);
    let before = b.status;
    assert_eq!(b.carve(&[(36, 2), (91, 3)], u64::MAX), (0, 0));
    assert_eq!(b.status, before);
}

#[test]
fn no_removal_makes_a_pinned_voxel_pending_or_not_pending() {
    let mut b = begun(&[(87, 1)]);
    assert_eq!(b.take(&[(87, 1)], 91), Ok(()));
    assert_eq!(b.status[87], 1);
    let mut b = begun(&[]);
    assert_eq!(b.take(&[(87, 1)], 91), Ok(()));
    assert_eq!(b.status[87], 3);
}

#[test]
fn open_passes_over_what_is_pinned_and_takes_no_notice_of_hurries() {
    let pins: Vec<(usize, u8)> = (0..N).map(|i| (i, 1)).collect();
    let all_but = |free: &[(usize, u8)]| [&pins[..], free].concat();
    let mut b = begun(&pins);
    assert_eq!(b.carve(&pins, u64::MAX), (0, 0));
    assert_eq!(b.open(&pins), Err(15));
    assert_eq!(b.open(&all_but(&[(DEEP, 0)])), Err(15));
    for (free, opened) in [(&[(36, 2), (91, 0), (92, 2)][..], 91), (&[(36, 2), (92, 0)], 92), (&[(36, 2), (91, 3), (92, 1)], 36)] {
        let mut b = begun(&pins);
        (b.dist[36], b.dist[91], b.dist[92]) = (7, 9, 9);
        assert_eq!(b.open(&all_but(free)), Ok(opened));
    }
}

#[test]
fn begin_checks_marks_after_28_and_before_3_and_4() {
    let number = |values: &[i32], marks: &[u8]| begin(SIDES, 0, values, marks, &mut [0; N], &mut [0; N]).err();
    let (good, border, none, out) = (values(), [-4; N], [4; N], [i32::MAX; N]);
    assert_eq!(number(&good, &[3; N]), None);
    for wrong in [4, 5, 127, 128, 255] {
        for values in [good, border, none] {
            assert_eq!(number(&values, &marked(&[(124, wrong)])), Some(29), "{wrong}");
        }
        assert_eq!(number(&out, &[wrong; N]), Some(28));
        for length in [0, N - 1, N + 1] {
            assert_eq!(number(&out, &vec![wrong; length]), Some(2));
        }
    }
    assert_eq!((number(&border, &[1; N]), number(&none, &[2; N])), (Some(3), Some(4)));
}

#[test]
fn the_calls_on_a_record_check_marks_after_7_and_before_8() {
    let of_carve = |b: &mut Begun, marks: &[u8]| carve(&mut b.record, &b.dist, marks, &mut b.status, 9).err();
    let mut b = begun(&[]);
    b.record.finished = 1;
    assert_eq!(of_carve(&mut b, &[4; N]), Some(29));
    assert_eq!(of_carve(&mut b, &[3; N]), Some(8));
    assert_eq!(of_carve(&mut b, &[]), Some(2));
    b.record.removals = 126;
    assert_eq!(of_carve(&mut b, &[4; N]), Some(7));
    assert_eq!(of_carve(&mut b, &[4; N - 1]), Some(2));
}

#[test]
fn take_tells_30_after_11_and_before_12() {
    let mut b = begun(&[]);
    for mark in [1, 3] {
        let all: Vec<(usize, u8)> = (0..N).map(|i| (i, mark)).collect();
        assert_eq!([0, 31, DEEP, 36, N].map(|i| b.take(&all, i)), [Err(10), Err(11), Err(30), Err(30), Err(5)], "mark {mark}");
    }
    assert_eq!(b.take(&[(DEEP, 2)], DEEP), Err(12));
    assert_eq!(b.take(&[(36, 2)], 36), Ok(()));
}

#[test]
fn finish_is_lent_no_marks() {
    let pins: Vec<(usize, u8)> = (0..N).map(|i| (i, 1)).collect();
    let mut b = begun(&pins);
    assert_eq!(b.finish(), Ok(()));
    assert!((0..N).all(|i| (b.dist[i] < 0) == (b.status[i] != 0)));
}
