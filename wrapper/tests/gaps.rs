//! Gaps behind the face: missing points that begin counts as inside, those that it does not, and that no list of calls loses the former.

use wattlerugby::{begin, patch, read, read_layer, written, Grid, Refusal, Sides, GONE, KEPT, MISSING, NARROW, NO_LIMIT, UNMARKED, WIDE};

const SIDE: usize = 7;
const SIDES: Sides = Sides { a: SIDE, b: SIDE, c: SIDE };
const N: usize = SIDE * SIDE * SIDE;

fn at(x: usize, y: usize, z: usize) -> usize {
    x + SIDE * (y + SIDE * z)
}

fn place(i: usize) -> [usize; 3] {
    [i % SIDE, i / SIDE % SIDE, i / (SIDE * SIDE)]
}

/// The largest coordinate's distance from the grid's middle.
fn ring(i: usize) -> usize {
    place(i).iter().map(|p| p.abs_diff(3)).max().unwrap_or(0)
}

const MIDDLE: usize = 171;

/// A wall of 5 x 5 x 5 voxels, each measured as -40, in what was measured as 30.
fn wall() -> Vec<i32> {
    (0..N).map(|i| if ring(i) <= 2 { -40 } else { 30 }).collect()
}

fn with(values: &[i32], changes: &[(usize, i32)]) -> Vec<i32> {
    let mut values = values.to_vec();
    changes.iter().for_each(|&(i, value)| values[i] = value);
    values
}

/// The values with another in place of each missing one.
fn in_place_of_missing(values: &[i32], value: i32) -> Vec<i32> {
    values.iter().map(|&v| if v == MISSING { value } else { v }).collect()
}

fn begun(values: &[i32]) -> Grid {
    Grid::begin(SIDES, u16::MAX, values).expect("the grid is taken")
}

/// Begin counts every missing point as measured with -1: it answers as where that was measured.
fn counts_as_inside(values: &[i32]) {
    assert!(values.contains(&MISSING));
    assert_eq!(begun(values), begun(&in_place_of_missing(values, -1)));
}

/// Begin counts no missing point as inside. Beside the inside each has M, here 30, so it answers as where that was measured.
fn counts_as_outside(values: &[i32]) {
    assert!(values.contains(&MISSING));
    assert_eq!(begun(values), begun(&in_place_of_missing(values, 30)));
}

fn neighbours(i: usize) -> [usize; 6] {
    [i - 1, i + 1, i - SIDE, i + SIDE, i - SIDE * SIDE, i + SIDE * SIDE]
}

/// Carves and opens until nothing is left to open, with a take of each of these voxels at every turn, and finishes. All are refused as inside,
/// and kept.
fn none_is_lost(grid: &mut Grid, inside: &[usize]) {
    loop {
        grid.carve(NO_LIMIT).expect("a begun grid is carved");
        assert!(inside.iter().all(|&i| grid.take(i) == Err(Refusal::INSIDE)));
        match grid.open() {
            Ok(opened) => assert!(!inside.contains(&opened.index)),
            Err(ended) => {
                assert_eq!(ended, Refusal::NOTHING_TO_OPEN);
                grid.finish().expect("nothing is pending");
                return assert!(inside.iter().all(|&i| grid.status()[i] == KEPT && grid.distances()[i] == -1));
            }
        }
    }
}

#[test]
fn one_voxel() {
    assert_eq!(place(MIDDLE), [3, 3, 3]);
    let values = with(&wall(), &[(MIDDLE, MISSING)]);
    counts_as_inside(&values);
    let mut grid = begun(&values);
    assert_eq!((grid.distances()[MIDDLE], grid.status()[MIDDLE]), (-1, KEPT));
    assert_eq!(grid.take(MIDDLE), Err(Refusal::INSIDE));
    none_is_lost(&mut grid, &[MIDDLE]);
    // no surface there
    let crossings = [(MIDDLE, 0), (MIDDLE, 1), (MIDDLE, 2), (at(2, 3, 3), 0), (at(3, 2, 3), 1), (at(3, 3, 2), 2)];
    assert!(crossings.iter().all(|&(i, axis)| grid.crossing(i, axis) == Ok(None)));
}

/// One face neighbour that is not measured negative, whichever of the six: as before. A voxel that shares less than a face does not matter.
#[test]
fn one_face_neighbour_outside() {
    let gap = with(&wall(), &[(MIDDLE, MISSING)]);
    for beside in neighbours(MIDDLE) {
        for value in [0, 1, 30] {
            let values = with(&gap, &[(beside, value)]);
            counts_as_outside(&values);
            let mut grid = begun(&values);
            assert_eq!((grid.distances()[MIDDLE], grid.status()[MIDDLE]), (30, KEPT));
            assert_eq!(grid.take(MIDDLE), Err(Refusal::NOT_PASSED));
        }
        counts_as_inside(&with(&gap, &[(beside, -1)]));
        counts_as_inside(&with(&gap, &[(beside, MISSING)]));
    }
    for apart in (0..N).filter(|&i| ring(i) <= 1 && i != MIDDLE && !neighbours(MIDDLE).contains(&i)) {
        counts_as_inside(&with(&gap, &[(apart, 0)]));
    }
    // with a way out, what does not count as inside goes
    let open = with(&gap, &[(at(2, 3, 3), 0), (at(1, 3, 3), 0)]);
    counts_as_outside(&open);
    let mut grid = begun(&open);
    grid.carve(NO_LIMIT).expect("a begun grid is carved");
    assert_eq!(grid.status()[MIDDLE], GONE);
}

/// Missing points are looked at as a whole: all that are joined by faces count as inside, or none.
#[test]
fn a_gap_counts_as_a_whole() {
    let values: Vec<i32> = (0..N).map(|i| if ring(i) <= 1 { MISSING } else { wall()[i] }).collect();
    counts_as_inside(&values);
    let beyond: Vec<usize> = (0..N).filter(|&i| ring(i) == 2).collect();
    let shares_a_face = |i: usize| neighbours(i).iter().any(|&j| ring(j) <= 1);
    assert_eq!(beyond.iter().filter(|&&i| shares_a_face(i)).count(), 54);
    for i in beyond {
        match shares_a_face(i) {
            true => assert_eq!(begun(&with(&values, &[(i, 0)])).distances().iter().filter(|&&d| d == -1).count(), 0),
            false => counts_as_inside(&with(&values, &[(i, 0)])),
        }
    }
    // two gaps that touch in an edge alone are two: one of them may count
    let (first, second) = (at(2, 3, 3), at(3, 4, 3));
    let two = with(&wall(), &[(first, MISSING), (second, MISSING), (at(2, 2, 3), 0)]);
    let grid = begun(&two);
    assert_eq!((grid.distances()[first], grid.distances()[second]), (30, -1));
    assert_eq!(grid, begun(&with(&two, &[(first, 30), (second, -1)])));
}

/// Where all around the body is missing, each of its neighbours is measured negative: but it reaches the border.
#[test]
fn a_gap_that_reaches_the_border() {
    let values: Vec<i32> = wall().iter().map(|&v| if v < 0 { v } else { MISSING }).collect();
    let grid = begun(&values);
    assert!((0..N).all(|i| (grid.distances()[i] < 0) == (ring(i) <= 2)));
    assert_eq!((grid.distances()[at(0, 3, 3)], grid.distances()[0]), (1, 4), "M is 1, and the corner is three steps away");
    // a gap of its own is not joined to it
    let grid = begun(&with(&values, &[(MIDDLE, MISSING)]));
    assert_eq!((grid.distances()[MIDDLE], grid.distances()[0]), (-1, 4));
    assert_eq!(grid.status().iter().filter(|&&s| s != GONE).count(), 125);
}

/// A measured core that missing points part from the wall: what fills the gap joins them.
#[test]
fn two_groups_are_joined() {
    let values: Vec<i32> = (0..N).map(|i| if ring(i) == 1 { MISSING } else { wall()[i] }).collect();
    counts_as_inside(&values);
    let grid = begun(&values);
    assert_eq!(grid.distances().iter().filter(|&&d| d < 0).count(), 125);
    assert_eq!((grid.distances()[MIDDLE], grid.distances()[at(3, 3, 4)]), (-40, -1));
    // without the fill they are two, and the core is discarded
    let open = with(&values, &[(at(1, 3, 3), 0)]);
    let grid = begun(&open);
    assert_eq!(grid.distances().iter().filter(|&&d| d < 0).count(), 97);
    assert_eq!((grid.distances()[MIDDLE], grid.distances()[at(3, 3, 4)]), (32, 30), "M is 30, and the core is two steps away");
}

/// A body of 26 measured voxels and a gap is larger than one of 26 that comes first. The smaller one's gap is discarded with it.
#[test]
fn a_gap_counts_for_the_largest_group() {
    let sides = Sides { a: 9, b: 5, c: 5 };
    let index = |x: usize, y: usize, z: usize| x + 9 * (y + 5 * z);
    let inner = |p: usize| (1..4).contains(&p);
    let of_a_body = |[x, y, z]: [usize; 3]| inner(y) && inner(z) && (inner(x) || inner(x.wrapping_sub(4)));
    let mut values: Vec<i32> = (0..225).map(|i| if of_a_body([i % 9, i / 9 % 5, i / 45]) { -5 } else { 9 }).collect();
    values[index(3, 3, 3)] = 9;
    let first = |values: &[i32]| Grid::begin(sides, 0, values).expect("the grid is taken").distances()[index(1, 1, 1)] < 0;
    let (left, right) = (index(2, 2, 2), index(6, 2, 2));
    assert!(!first(&values), "26 voxels and 27");
    values[right] = 9;
    assert!(first(&values), "26 voxels each");
    values[right] = MISSING;
    assert!(!first(&values), "26 voxels, and 26 with a gap");
    values[left] = MISSING;
    assert!(!first(&values), "25 voxels and 26, with a gap each");
    let grid = Grid::begin(sides, 0, &values).expect("the grid is taken");
    // M is 9, the largest group begins at x = 5, and three steps lead there
    assert_eq!((grid.distances()[right], grid.distances()[left], grid.status()[left]), (-1, 12, GONE));
}

/// What begin counts is not written, neither into the lent values nor into files.
#[test]
fn values_stay_as_they_are() {
    let values = with(&wall(), &[(MIDDLE, MISSING), (at(3, 3, 4), MISSING), (at(1, 3, 3), MISSING)]);
    let lent = values.clone();
    let (mut dist, mut status) = (vec![0; N], vec![0; N]);
    assert!(begin(SIDES, 0, &lent, &[UNMARKED; N], &mut dist, &mut status).is_ok());
    assert_eq!((dist[MIDDLE], dist[at(3, 3, 4)], dist[at(1, 3, 3)]), (-1, -1, 30));
    assert!(lent == values);
    let file = written(SIDES, 0, &values).expect("fit sides");
    let mut again = vec![0; N];
    assert!(read(&file, &mut again).is_ok() && again == values);
    assert_eq!(written(SIDES, 0, &again).as_ref(), Ok(&file));
    let layer = read_layer(SIDES, &file, 7 + 3 * (3 + 2 * SIDE * SIDE)).expect("layer 3 is there");
    assert_eq!(layer.values().nth(3 + SIDE * 3), Some(MISSING));
}

// ---- files

/// A file with these of its layers wide, and the others narrow.
fn file(wide: &[usize], values: &[i32]) -> Vec<u8> {
    let mut file = vec![0x56, 0x48, SIDE as u8, SIDE as u8, SIDE as u8, 0xFF, 0xFF];
    for (z, layer) in values.chunks(SIDE * SIDE).enumerate() {
        let (second, width) = if wide.contains(&z) { (0x57, 4) } else { (0x4C, 2) };
        file.extend([0x56, second, z as u8]);
        // a missing point has a mark of its own in two bytes
        let bytes = |&v: &i32| match (v, width) {
            (MISSING, 2) => i16::MIN.to_le_bytes().to_vec(),
            _ => v.to_le_bytes()[..width].to_vec(),
        };
        file.extend(layer.iter().flat_map(bytes));
    }
    file
}

#[test]
fn from_a_file() {
    let gap = [(MIDDLE, MISSING), (at(3, 3, 4), MISSING)];
    let (values, filled) = (with(&wall(), &gap), with(&wall(), &gap.map(|(i, _)| (i, -1))));
    for wide in [&[][..], &[3], &[4], &[0, 1, 2, 5, 6], &[0, 1, 2, 3, 4, 5, 6]] {
        let file = file(wide, &values);
        let grid = Grid::from_file(&file).expect("the file is taken");
        assert_eq!(grid, begun(&filled), "wide layers {wide:?}");
        assert_eq!((grid.distances()[MIDDLE], grid.distances()[at(3, 3, 4)]), (-1, -1));
        let mut start = 7;
        for z in 0..SIDE {
            let layer = read_layer(SIDES, &file, start).expect("it is there");
            assert_eq!(layer.width, if wide.contains(&z) { WIDE } else { NARROW });
            start = layer.end();
        }
        // a patch beside it opens the gap, one in it mends it, and one makes it
        let patched = |patches: &[[u8; 8]]| Grid::from_file(&[&file[..], &patches.concat()].concat()).expect("the file is taken");
        let opened = patched(&[patch(at(2, 3, 3) as u32, 0)]);
        assert_eq!((opened.distances()[MIDDLE], opened.distances()[at(3, 3, 4)]), (30, 30));
        let mended = patched(&[patch(MIDDLE as u32, -40), patch(at(3, 3, 4) as u32, -40)]);
        assert_eq!(mended, begun(&wall()));
        assert_eq!(patched(&[patch(at(3, 4, 3) as u32, i16::MIN)]).distances()[at(3, 4, 3)], -1);
    }
}

/// -32,768 is the missing mark of two bytes, and of four a measured value, which is no gap.
#[test]
fn the_old_mark_in_a_wide_layer() {
    let values = with(&wall(), &[(MIDDLE, -32_768), (at(3, 3, 4), MISSING)]);
    let distances = |wide: &[usize]| {
        let grid = Grid::from_file(&file(wide, &values)).expect("the file is taken");
        [MIDDLE, at(3, 3, 4)].map(|i| grid.distances()[i])
    };
    assert_eq!(distances(&[]), [-1, -1]);
    assert_eq!(distances(&[4]), [-1, -1]);
    assert_eq!(distances(&[3]), [-32_768, -1]);
    assert_eq!(distances(&[3, 4]), [-32_768, -1]);
}

// ---- lists of calls

/// Numbers that are the same on every run.
struct Seed(u32);

impl Seed {
    fn below(&mut self, bound: usize) -> usize {
        self.0 = self.0.wrapping_mul(1_664_525).wrapping_add(1_013_904_223);
        (self.0 >> 16) as usize % bound
    }

    /// A wall full of noise, with many a missing point.
    fn wall(&mut self) -> Vec<i32> {
        let value = |i: usize| match (ring(i), self.below(100)) {
            (3, _) => 30,
            (_, 0..=74) => -1 - self.below(40) as i32,
            (_, 75..=89) => MISSING,
            _ => self.below(40) as i32,
        };
        (0..N).map(value).collect()
    }
}

#[test]
fn no_list_of_calls_loses_one() {
    let mut seed = Seed(1);
    let (mut inside, mut taken, mut opened) = (0, 0, 0);
    for _ in 0..400 {
        let values = seed.wall();
        let mut grid = begun(&values);
        let counted: Vec<usize> = (0..N).filter(|&i| values[i] == MISSING && grid.distances()[i] < 0).collect();
        for &i in &counted {
            assert_eq!(grid.distances()[i], -1);
            assert!(neighbours(i).iter().all(|&j| grid.distances()[j] < 0), "what closes a gap in is inside with it");
        }
        inside += counted.len();
        for _ in 0..100 {
            match seed.below(3) {
                0 => taken += usize::from(grid.take(seed.below(N)).is_ok()),
                1 => opened += usize::from(grid.open().is_ok()),
                _ => assert!(grid.carve(seed.below(6) as u32).is_ok()),
            }
            assert!(counted.iter().all(|&i| grid.status()[i] == KEPT));
        }
        none_is_lost(&mut grid, &counted);
    }
    assert!(inside > 100 && taken > 100 && opened > 100, "{inside} voxels of gaps, {taken} taken, {opened} opened");
}
