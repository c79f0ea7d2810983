//! Gaps behind the face (document 02, CR 6): which groups of missing voxels count as measured with -1, and what that does to S.

use reference::file::{program_line, read, write};
use reference::grid::{begin, Sides, MISSING};
use reference::machine::{carve, finish, open, take};

/// The distance of a voxel of the wall, and the value outside.
const WALL: i32 = -4;
const OUTER: i32 = 9;

type Voxel = [i64; 3];

fn index(sides: Sides, v: Voxel) -> usize {
    sides.index(v).expect("a voxel of the grid")
}

/// A solid block up to the border, with some voxels changed.
fn block(sides: Sides, changes: &[(Voxel, i32)]) -> Vec<i32> {
    let mut values: Vec<i32> = (0..sides.n()).map(|i| if sides.border(i) { OUTER } else { WALL }).collect();
    changes.iter().for_each(|&(v, value)| values[index(sides, v)] = value);
    values
}

/// What begin leaves of the distances.
fn worked(sides: Sides, values: &[i32]) -> Vec<i32> {
    let (mut dist, mut status) = (vec![0; sides.n()], vec![0; sides.n()]);
    begin(sides, 0, values, &vec![0; sides.n()], &mut dist, &mut status).expect("a grid that begin takes");
    dist
}

const FIVE: Sides = Sides { a: 5, b: 5, c: 5 };
const SEVEN: Sides = Sides { a: 7, b: 7, c: 7 };
const STEPS: [Voxel; 6] = [[-1, 0, 0], [1, 0, 0], [0, -1, 0], [0, 1, 0], [0, 0, -1], [0, 0, 1]];

fn beside(v: Voxel, step: Voxel) -> Voxel {
    [v[0] + step[0], v[1] + step[1], v[2] + step[2]]
}

#[test]
fn one_voxel_in_a_wall_is_filled() {
    let dist = worked(FIVE, &block(FIVE, &[([2, 2, 2], MISSING)]));
    assert_eq!(dist[index(FIVE, [2, 2, 2])], -1);
    assert_eq!(dist.iter().filter(|&&d| d == WALL).count(), 26);
}

#[test]
fn a_face_neighbour_that_is_not_negative_leaves_it_open() {
    let middle = [2, 2, 2];
    for step in STEPS {
        for value in [0, 1, OUTER, 1_000_000_000] {
            let dist = worked(FIVE, &block(FIVE, &[(middle, MISSING), (beside(middle, step), value)]));
            // M: it shares a face with S, and is not measured.
            assert_eq!(dist[index(FIVE, middle)], value.max(OUTER), "{step:?} {value}");
        }
        for value in [-1, -32_768, -1_000_000_000] {
            let dist = worked(FIVE, &block(FIVE, &[(middle, MISSING), (beside(middle, step), value)]));
            assert_eq!(dist[index(FIVE, middle)], -1, "{step:?} {value}");
        }
    }
}

#[test]
fn diagonal_neighbours_do_not_matter() {
    let gap: [Voxel; 3] = [[2, 3, 3], [3, 3, 3], [4, 3, 3]];
    let mut values = block(SEVEN, &gap.map(|v| (v, MISSING)));
    for other in [0, OUTER, MISSING] {
        for v in [[1, 2, 3], [3, 2, 4], [5, 4, 4], [4, 2, 2], [2, 4, 2]] {
            values[index(SEVEN, v)] = other;
            let dist = worked(SEVEN, &values);
            assert!(gap.iter().all(|&v| dist[index(SEVEN, v)] == -1), "{v:?} {other}");
        }
    }
    // The same with a face neighbour of the last voxel.
    values[index(SEVEN, [4, 3, 2])] = 0;
    let dist = worked(SEVEN, &values);
    assert!(gap.iter().all(|&v| dist[index(SEVEN, v)] == OUTER));
}

#[test]
fn a_gap_that_reaches_the_border_is_not_filled() {
    for step in STEPS {
        let row: Vec<(Voxel, i32)> = (0..3).map(|k| ([3 + k * step[0], 3 + k * step[1], 3 + k * step[2]], MISSING)).collect();
        let at = |i: usize| index(SEVEN, row[i].0);
        let within = worked(SEVEN, &block(SEVEN, &row[..2]));
        assert_eq!([within[at(0)], within[at(1)]], [-1, -1]);
        let out = (beside(row[2].0, step), MISSING);
        let reaching = worked(SEVEN, &block(SEVEN, &[&row[..], &[out]].concat()));
        assert_eq!([reaching[at(0)], reaching[at(1)]], [OUTER, OUTER], "{step:?}");
    }
}

/// Then it has no neighbour that is not negative: the border alone keeps it open.
#[test]
fn a_gap_of_the_whole_border_is_not_filled() {
    let mut values = block(FIVE, &[]);
    (0..FIVE.n()).filter(|&i| FIVE.border(i)).for_each(|i| values[i] = MISSING);
    let dist = worked(FIVE, &values);
    assert!((0..FIVE.n()).all(|i| (dist[i] < 0) != FIVE.border(i)));
    values[index(FIVE, [2, 2, 2])] = MISSING;
    assert_eq!(worked(FIVE, &values)[index(FIVE, [2, 2, 2])], -1);
    values[index(FIVE, [1, 2, 2])] = MISSING;
    assert_eq!(worked(FIVE, &values)[index(FIVE, [2, 2, 2])], 1);
}

/// A group is joined by faces: what meets at an edge or at a corner alone is two gaps.
#[test]
fn gaps_that_meet_at_an_edge_or_a_corner_are_two() {
    let one = [3, 3, 3];
    for other in [[4, 4, 3], [2, 4, 3], [3, 2, 4], [4, 3, 2], [4, 4, 4], [2, 4, 4], [4, 2, 2]] {
        let both = [(one, MISSING), (other, MISSING)];
        let dist = worked(SEVEN, &block(SEVEN, &both));
        assert_eq!([dist[index(SEVEN, one)], dist[index(SEVEN, other)]], [-1, -1], "{other:?}");
        // A face neighbour of the other alone, on its far side.
        let far = [2 * other[0] - 3, other[1], other[2]];
        let far = if other[0] == 3 { [3, 2 * other[1] - 3, other[2]] } else { far };
        let dist = worked(SEVEN, &block(SEVEN, &[&both[..], &[(far, 0)]].concat()));
        assert_eq!([dist[index(SEVEN, one)], dist[index(SEVEN, other)]], [-1, OUTER], "{other:?}");
    }
}

/// A negative voxel in the middle of a hollow of missing ones touches nothing of the wall, until the hollow is filled.
#[test]
fn a_fill_joins_two_groups() {
    let hollow = |i: usize| SEVEN.coordinates(i).iter().all(|x| (2..=4).contains(x)) && SEVEN.coordinates(i) != [3, 3, 3];
    let mut values = block(SEVEN, &[]);
    (0..SEVEN.n()).filter(|&i| hollow(i)).for_each(|i| values[i] = MISSING);
    let dist = worked(SEVEN, &values);
    assert_eq!(dist[index(SEVEN, [3, 3, 3])], WALL);
    assert!((0..SEVEN.n()).all(|i| (dist[i] == -1) == hollow(i)));
    values[index(SEVEN, [1, 3, 3])] = 0;
    let dist = worked(SEVEN, &values);
    assert!(dist[index(SEVEN, [3, 3, 3])] > 0);
}

/// Six voxels about a gap, and a row of some length at higher indices.
fn two_groups(row: i64) -> (Sides, Vec<i32>) {
    let sides = Sides { a: 12, b: 7, c: 9 };
    let mut values = vec![OUTER; sides.n()];
    values[index(sides, [2, 2, 2])] = MISSING;
    STEPS.iter().for_each(|&step| values[index(sides, beside([2, 2, 2], step))] = WALL);
    (1..=row).for_each(|x| values[index(sides, [x, 5, 7])] = WALL);
    (sides, values)
}

#[test]
fn a_fill_counts_for_the_largest_group() {
    for (row, filled) in [(6, true), (7, true), (8, false), (10, false)] {
        let (sides, values) = two_groups(row);
        let dist = worked(sides, &values);
        assert_eq!(dist[index(sides, [2, 2, 2])] == -1, filled, "{row}");
        assert_eq!(dist[index(sides, [1, 5, 7])] < 0, !filled, "{row}");
    }
}

#[test]
fn a_fill_is_discarded_with_its_group() {
    let (sides, values) = two_groups(9);
    let dist = worked(sides, &values);
    // M + d, as every other voxel that is neither of S nor beside it.
    assert_eq!(dist[index(sides, [2, 2, 2])], OUTER + 3 + 5);
    assert_eq!(dist[index(sides, [2, 2, 3])], OUTER + 3 + 4);
}

/// Numbers 28, 3 and 4 look at the values as they are given.
#[test]
fn refusals_are_those_of_the_values_as_given() {
    let refused = |values: &[i32]| {
        let (mut dist, mut status) = (vec![77; FIVE.n()], vec![77; FIVE.n()]);
        let number = begin(FIVE, 0, values, &[0; 125], &mut dist, &mut status).err();
        assert!(number.is_none() || dist.iter().all(|&d| d == 77) && status.iter().all(|&s| s == 77));
        number
    };
    let gap = ([2, 2, 2], MISSING);
    assert_eq!(refused(&block(FIVE, &[gap])), None);
    assert_eq!(refused(&block(FIVE, &[gap, ([1, 2, 2], -1_000_000_001)])), Some(28));
    assert_eq!(refused(&block(FIVE, &[gap, ([0, 2, 2], -1)])), Some(3));
    let none: Vec<i32> = block(FIVE, &[gap]).iter().map(|&v| if v == MISSING { v } else { v.abs() }).collect();
    assert_eq!(refused(&none), Some(4));
    assert_eq!(refused(&vec![MISSING; FIVE.n()]), Some(4));
}

/// No call removes a filled voxel of S: take gives 11, and carving and opening to the end leave it kept with -1.
#[test]
fn a_filled_voxel_stays() {
    let middle = index(FIVE, [2, 2, 2]);
    let values = block(FIVE, &[([2, 2, 2], MISSING), ([1, 1, 1], 5), ([3, 1, 2], 3), ([3, 3, 3], MISSING)]);
    let (mut dist, mut status) = (vec![0; FIVE.n()], vec![0; FIVE.n()]);
    let mut r = begin(FIVE, 65_535, &values, &[0; 125], &mut dist, &mut status).expect("a grid that begin takes");
    assert_eq!(take(&mut r, &dist, &[0; 125], &mut status, middle as u64).err(), Some(11));
    loop {
        carve(&mut r, &dist, &[0; 125], &mut status, u64::MAX).expect("a fit record");
        if open(&mut r, &dist, &[0; 125], &mut status).is_err() {
            break;
        }
    }
    assert!(r.removals >= 2);
    finish(&mut r, &mut dist, &status).expect("nothing pending");
    assert_eq!((dist[middle], status[middle]), (-1, 1));
}

/// Read and write hand values on as they are; the program goes by the rule.
#[test]
fn files_keep_their_missing_points() {
    let values = block(FIVE, &[([2, 2, 2], MISSING), ([1, 1, 1], 5)]);
    let mut file = vec![0; 7 + 5 * (3 + 2 * 25)];
    assert_eq!(write(&FIVE, 0, &values, &mut file), Ok(file.len()));
    let mut lent = vec![77; FIVE.n()];
    assert_eq!(read(&file, &mut lent, 64), Ok((FIVE, 0)));
    assert_eq!(lent, values);
    // One voxel is removed beside the gap. Were that outside, it would be woken and examined too.
    assert_eq!(program_line(&file), "kept 26 removed 1 opened 0 examined 1 euler 1");
    // A patch of 0 to (1, 2, 2) leaves the gap open: it is examined twice, and follows that voxel.
    let open = [&file[..], &[0x56, 0x50, 61, 0, 0, 0, 0, 0]].concat();
    assert_eq!(program_line(&open), "kept 24 removed 3 opened 0 examined 4 euler 1");
}
