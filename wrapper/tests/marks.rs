//! Pins and hurries: what each mark does in each call, what happens where marks change, and that pins hold whatever the calls are.

use wattlerugby::{begin, carve, open, take, Grid, Record, Refusal, Sides};
use wattlerugby::{GONE, HURRIED, KEPT, MISSING, NO_LIMIT, PENDING, PINNED, PINNED_AND_HURRIED, UNMARKED};

/// Case D of document 01: 21 and 26 are inside and touch in an edge, 22 and 25 fill the box around them.
const D: Sides = Sides { a: 4, b: 4, c: 3 };

fn values_of_d() -> [i32; 48] {
    let mut values = [6; 48];
    (values[21], values[26]) = (-6, -6);
    values
}

/// Marks of n voxels, with these set.
fn marked<const N: usize>(marks: &[(usize, u8)]) -> [u8; N] {
    let mut all = [UNMARKED; N];
    marks.iter().for_each(|&(i, mark)| all[i] = mark);
    all
}

fn d(marks: &[(usize, u8)]) -> Grid {
    Grid::begin_marked(D, 1, &values_of_d(), &marked::<48>(marks)).expect("case D is taken")
}

/// The status of 22 and of 25, and the examinations and removals so far.
fn told(grid: &Grid) -> (u8, u8, u64, u64) {
    (grid.status()[22], grid.status()[25], grid.record().examinations, grid.record().removals)
}

/// A block of 3 x 3 x 3 voxels in 5 x 5 x 5, of which all are inside but the middle one, 62.
const HOLLOW: Sides = Sides { a: 5, b: 5, c: 5 };

fn hollow() -> Vec<i32> {
    let inner = |i: usize| [i % 5, i / 5 % 5, i / 25].iter().all(|p| (1..4).contains(p));
    (0..125).map(|i| if inner(i) && i != 62 { -4 } else { 4 }).collect()
}

// ---- each mark

#[test]
fn unmarked() {
    let mut grid = d(&[]);
    assert_eq!(grid, Grid::begin(D, 1, &values_of_d()).expect("case D is taken"));
    grid.carve(1).unwrap();
    assert_eq!(told(&grid), (GONE, PENDING, 1, 1));
}

#[test]
fn pinned() {
    let mut grid = d(&[(22, PINNED)]);
    assert_eq!(told(&grid), (KEPT, PENDING, 0, 0), "not pending from begin");
    assert_eq!(grid.take(22), Err(Refusal::PINNED_VOXEL));
    assert_eq!(grid.carve(NO_LIMIT).unwrap().examined, 1);
    assert_eq!(told(&grid), (KEPT, GONE, 1, 1), "not made pending by the removal beside it");
    assert_eq!(grid.open(), Err(Refusal::NOTHING_TO_OPEN));
    grid.finish().unwrap();
    assert_eq!(grid.distances()[22], -6, "it is part of the body");
}

#[test]
fn hurried() {
    let mut grid = d(&[(25, HURRIED)]);
    grid.carve(1).unwrap();
    assert_eq!(told(&grid), (PENDING, GONE, 1, 1), "before 22, which is as far and comes first");
    // deep inside it is pending from begin, examined, and stays, since it does not pass
    let begun = |mark| Grid::begin_marked(HOLLOW, 0, &hollow(), &marked::<125>(&[(62, mark)])).unwrap();
    assert_eq!([UNMARKED, PINNED, HURRIED, PINNED_AND_HURRIED].map(|mark| begun(mark).status()[62]), [KEPT, KEPT, PENDING, KEPT]);
    let mut grid = begun(HURRIED);
    let done = grid.carve(NO_LIMIT).unwrap();
    assert_eq!((done.examined, done.removed, grid.status()[62]), (1, 0, KEPT));
}

/// The pin alone counts: each answer is that of `pinned`.
#[test]
fn pinned_and_hurried() {
    let mut grid = d(&[(22, PINNED_AND_HURRIED)]);
    assert_eq!(told(&grid), (KEPT, PENDING, 0, 0), "not pending from begin");
    assert_eq!(grid.take(22), Err(Refusal::PINNED_VOXEL));
    assert_eq!(grid.carve(NO_LIMIT).unwrap().examined, 1);
    assert_eq!(told(&grid), (KEPT, GONE, 1, 1), "not made pending by the removal beside it");
    assert_eq!(grid.open(), Err(Refusal::NOTHING_TO_OPEN));
    grid.finish().unwrap();
    assert_eq!(grid.distances()[22], -6, "it is part of the body");
    // where nothing else is pending, open and finish do not refuse with 13
    let both = || d(&[(22, PINNED_AND_HURRIED), (25, PINNED_AND_HURRIED)]);
    assert_eq!(told(&both()), (KEPT, KEPT, 0, 0));
    assert_eq!((both().open(), both().finish()), (Err(Refusal::NOTHING_TO_OPEN), Ok(())));
}

/// Two holes in a plate, the second one farther: open takes it first, hurried or not, unless it is pinned.
#[test]
fn opening() {
    let sides = Sides { a: 7, b: 5, c: 3 };
    let at = |x: usize| x + 7 * (2 + 5);
    let mut values = [9; 105];
    for i in [-1, 0, 1].into_iter().flat_map(|y| (1..6).map(move |x| at(x).wrapping_add_signed(7 * y))) {
        values[i] = -1;
    }
    (values[at(2)], values[at(4)]) = (3, 4);
    let opened = |marks: &[(usize, u8)]| {
        let mut grid = Grid::begin_marked(sides, 9, &values, &marked::<105>(marks)).unwrap();
        let one = || {
            grid.carve(NO_LIMIT).unwrap();
            grid.open().ok().map(|opened| opened.index)
        };
        std::iter::from_fn(one).collect::<Vec<_>>()
    };
    assert_eq!(opened(&[]), [at(4), at(2)]);
    assert_eq!(opened(&[(at(2), HURRIED)]), [at(4), at(2)]);
    assert_eq!(opened(&[(at(4), PINNED)]), [at(2)]);
    assert_eq!(opened(&[(at(4), PINNED_AND_HURRIED)]), [at(2)]);
    assert_eq!(opened(&[(at(2), PINNED), (at(4), PINNED)]), []);
}

// ---- marks that change, and marks that do nothing

#[test]
fn marks_that_change() {
    // pinned when it is pending: it stays so until it is examined, counts and stays
    let mut grid = d(&[]);
    grid.pin(22).unwrap();
    assert_eq!(told(&grid), (PENDING, PENDING, 0, 0));
    assert_eq!(grid.open(), Err(Refusal::STILL_PENDING));
    grid.carve(1).unwrap();
    assert_eq!(told(&grid), (KEPT, PENDING, 1, 0));
    grid.carve(NO_LIMIT).unwrap();
    // the pin taken off, or a hurry in its place: neither wakes it, so carve has nothing to do, and open takes it, though it passes
    for mark in [UNMARKED, HURRIED] {
        let mut grid = grid.clone();
        grid.marks_mut()[22] = mark;
        assert_eq!(grid.carve(NO_LIMIT).unwrap().examined, 0);
        let opened = grid.open().unwrap();
        assert_eq!((opened.index, opened.k, opened.m), (22, 1, 1));
    }
    // a removal beside it wakes it
    let mut grid = d(&[(22, PINNED)]);
    grid.marks_mut()[22] = UNMARKED;
    grid.take(25).unwrap();
    assert_eq!(told(&grid), (PENDING, GONE, 0, 1));
    // hurried when it is pending: it comes first from then on
    let mut grid = d(&[]);
    grid.hurry(25).unwrap();
    grid.carve(1).unwrap();
    assert_eq!(told(&grid), (PENDING, GONE, 1, 1));
}

#[test]
fn both_marks_on_a_pending_voxel() {
    // in whichever order: it is not hurried, so 22 comes first; then it is examined, counts and stays
    for pin_first in [true, false] {
        let mut grid = d(&[]);
        if pin_first {
            grid.pin(25).unwrap();
            grid.hurry(25).unwrap();
        } else {
            grid.hurry(25).unwrap();
            grid.pin(25).unwrap();
        }
        assert_eq!((grid.marks()[25], told(&grid)), (PINNED_AND_HURRIED, (PENDING, PENDING, 0, 0)));
        assert_eq!((grid.take(25), grid.open()), (Err(Refusal::PINNED_VOXEL), Err(Refusal::STILL_PENDING)));
        grid.carve(1).unwrap();
        assert_eq!(told(&grid), (GONE, PENDING, 1, 1), "examined in its turn");
        let mut freed = grid.clone();
        grid.carve(1).unwrap();
        assert_eq!(told(&grid), (GONE, KEPT, 2, 1), "counted, and kept");
        // the hurry is not lost: the pin taken off, it counts again
        freed.marks_mut()[25] &= !PINNED;
        assert_eq!(freed.marks()[25], HURRIED);
        freed.carve(1).unwrap();
        assert_eq!(told(&freed), (GONE, GONE, 2, 2));
    }
    // of the farthest pending voxel: it is examined first for its distance, and stays
    let mut grid = d(&[]);
    grid.marks_mut()[22] = PINNED_AND_HURRIED;
    grid.carve(1).unwrap();
    assert_eq!(told(&grid), (KEPT, PENDING, 1, 0));
}

/// On inside, gone and border voxels, those outside the box among them.
#[test]
fn marks_without_effect() {
    let plain = d(&[]);
    let nowhere = |i: usize| plain.status()[i] == GONE || plain.distances()[i] < 0;
    let marks: [u8; 48] = std::array::from_fn(|i| if nowhere(i) { 1 + i as u8 % 3 } else { UNMARKED });
    assert_eq!(marks.iter().filter(|&&mark| mark == UNMARKED).count(), 2);
    let mut grid = Grid::begin_marked(D, 1, &values_of_d(), &marks).unwrap();
    let mut plain = plain;
    for _ in 0..2 {
        assert_eq!((grid.distances(), grid.status(), grid.record()), (plain.distances(), plain.status(), plain.record()));
        assert_eq!(grid.carve(1), plain.carve(1));
    }
    assert_eq!(grid.take(0), Err(Refusal::GONE_ALREADY), "it is pinned, and held where it never was");
    assert_eq!(grid.take(21), Err(Refusal::INSIDE));
}

#[test]
fn of_a_voxel_that_is_not_there() {
    let mut grid = d(&[]);
    assert_eq!((grid.pin(48), grid.hurry(usize::MAX)), (Err(Refusal::INDEX), Err(Refusal::INDEX)));
    grid.pin(47).unwrap();
    grid.hurry(47).unwrap();
    assert_eq!((grid.marks()[47], grid.marks().iter().filter(|&&mark| mark != UNMARKED).count()), (PINNED_AND_HURRIED, 1));
    // marks are no part of what is stored
    let (record, dist, status) = grid.into_parts();
    assert!(Grid::from_parts(record, dist, status).unwrap().marks().iter().all(|&mark| mark == UNMARKED));
}

// ---- numbers

/// What begin, carve, take and open refuse with where they are lent these marks.
fn numbers(values: &[i32], record: Record, marks: &[u8]) -> [u8; 4] {
    let grid = d(&[]);
    let (dist, status) = (grid.distances(), grid.status().to_vec());
    let (mut new_dist, mut after) = ([77; 48], status.clone());
    let number = |refused: Option<Refusal>| refused.map_or(0, |refused| refused.0);
    let others = [
        number(carve(record, dist, marks, &mut after, 0).err()),
        number(take(record, dist, marks, &mut after, 22).err()),
        number(open(record, dist, marks, &mut after).err()),
    ];
    assert_eq!(after, status, "a refused call writes nothing");
    let begun = number(begin(D, 1, values, marks, &mut new_dist, &mut after).err());
    assert!(begun == 0 || (after == status && new_dist == [77; 48]), "a refused call writes nothing");
    [begun, others[0], others[1], others[2]]
}

#[test]
fn each_number_in_its_place() {
    let record = d(&[]).record();
    let (fit, unfit, closed) = (record, Record { euler: 1_000, ..record }, Record { finished: true, ..record });
    let good = values_of_d();
    let pinned = marked::<48>(&[(22, PINNED)]);
    assert_eq!(numbers(&good, fit, &pinned), [0, 0, 30, 13]);
    for (place, bad) in (0..48).flat_map(|place| [(place, 4), (place, 7), (place, 128), (place, 255)]) {
        let mut marks = pinned;
        marks[place] = bad;
        assert_eq!(numbers(&good, fit, &marks), [29; 4]);
        assert_eq!(numbers(&good, closed, &marks), [29; 4], "29 before 8");
        assert_eq!(numbers(&good, unfit, &marks), [29, 7, 7, 7], "7 before 29");
        assert_eq!(numbers(&good, unfit, &marks[..47]), [2; 4], "2 before 7 and 29");
        assert_eq!(numbers(&[-1; 48], fit, &marks)[0], 29, "29 before 3");
        assert_eq!(numbers(&[1; 48], fit, &marks)[0], 29, "29 before 4");
        assert_eq!(numbers(&[i32::MAX; 48], fit, &marks)[0], 28, "28 before 29");
    }
    for length in [0, 1, 47, 49, 96] {
        assert_eq!(numbers(&[i32::MAX; 48], closed, &vec![UNMARKED; length]), [2; 4], "2 before 28 and 8");
    }
    // 5, 10 and 11 before 30, and 30 before 12: the middle of the block does not pass
    let mut grid = d(&[]);
    grid.marks_mut().fill(PINNED);
    assert_eq!([48, 0, 21, 22].map(|i| grid.take(i).map(|_| ())), [5, 10, 11, 30].map(|number| Err(Refusal(number))));
    let mut middle = Grid::begin(HOLLOW, 0, &hollow()).unwrap();
    assert_eq!(middle.take(62), Err(Refusal::NOT_PASSED));
    middle.pin(62).unwrap();
    assert_eq!(middle.take(62), Err(Refusal::PINNED_VOXEL));
}

// ---- lists of calls

/// Numbers that are the same on every run.
struct Seed(u32);

impl Seed {
    fn below(&mut self, bound: usize) -> usize {
        self.0 = self.0.wrapping_mul(1_664_525).wrapping_add(1_013_904_223);
        (self.0 >> 16) as usize % bound
    }
}

const SIDE: usize = 7;
const N: usize = SIDE * SIDE * SIDE;
const SIDES: Sides = Sides { a: SIDE, b: SIDE, c: SIDE };

fn place(i: usize) -> [usize; 3] {
    [i % SIDE, i / SIDE % SIDE, i / (SIDE * SIDE)]
}

/// A grid's values, full of noise.
fn noise_values(seed: &mut Seed) -> Vec<i32> {
    let border = |i: usize| place(i).iter().any(|&p| p == 0 || p + 1 == SIDE);
    let value = |i: usize| match (border(i), seed.below(100)) {
        (true, _) => 20,
        (_, 0..=39) => -1 - seed.below(20) as i32,
        (_, 40..=44) => MISSING,
        _ => seed.below(20) as i32,
    };
    (0..N).map(value).collect()
}

/// Marks on so many voxels in a hundred.
fn noise_marks(seed: &mut Seed, marks: usize) -> Vec<u8> {
    (0..N).map(|_| if seed.below(100) < marks { 1 + seed.below(3) as u8 } else { UNMARKED }).collect()
}

/// A grid full of noise, with many an opening allowed, and marks on so many voxels in a hundred.
fn noise(seed: &mut Seed, marks: usize) -> Grid {
    let (values, marks) = (noise_values(seed), noise_marks(seed, marks));
    Grid::begin_marked(SIDES, u16::MAX, &values, &marks).expect("some voxel is negative")
}

/// The 27 voxels around an inner one, itself among them, in the order of the local test's bits.
fn around(i: usize) -> impl Iterator<Item = usize> {
    let [x, y, z] = place(i);
    (0..27usize).map(move |bit| x + bit % 3 - 1 + SIDE * (y + bit / 3 % 3 - 1 + SIDE * (z + bit / 9 - 1)))
}

/// Whether the voxel passes the local test among those kept.
fn passes(status: &[u8], i: usize) -> bool {
    let kept = around(i).enumerate().filter(|&(_, j)| status[j] != GONE);
    let test = wattlerugby::local_test(kept.fold(0, |kept, (bit, _)| kept | 1 << bit));
    (test.k, test.m) == (1, 1)
}

/// The kept voxels outside, which alone can go.
fn outside(grid: &Grid) -> impl Iterator<Item = usize> + '_ {
    (0..N).filter(|&i| grid.status()[i] != GONE && grid.distances()[i] >= 0)
}

/// Some voxels are pinned in every call, and all other marks change from call to call: none of the former is lost, nor any of the inside.
#[test]
fn pins_hold_whatever_the_calls_are() {
    let mut seed = Seed(3);
    let (mut held, mut removed) = (0, 0);
    for _ in 0..200 {
        let mut grid = noise(&mut seed, 30);
        let pins: Vec<usize> = outside(&grid).filter(|&i| grid.marks()[i] & PINNED != 0).collect();
        let inside: Vec<usize> = (0..N).filter(|&i| grid.distances()[i] < 0).collect();
        for _ in 0..60 {
            for mark in grid.marks_mut() {
                *mark = seed.below(4) as u8;
            }
            pins.iter().for_each(|&i| grid.pin(i).expect("it is there"));
            match seed.below(4) {
                0 => assert!(grid.carve(seed.below(8) as u32).is_ok()),
                1 => assert!(grid.carve(NO_LIMIT).is_ok()),
                2 => drop(grid.take(seed.below(N))),
                _ => drop(grid.open()),
            }
            assert!(pins.iter().chain(&inside).all(|&i| grid.status()[i] != GONE));
        }
        held += pins.len();
        removed += grid.record().removals;
    }
    assert!(held > 1_000 && removed > 1_000, "{held} held, {removed} removed");
}

/// One examination at a time: of the pending voxels it is a hurried one if there is any, then the farthest, then the first. It goes if it
/// passes and is not pinned; what becomes pending is neither inside nor pinned. Marks are set anew after begin, so that pinned voxels are
/// pending too.
#[test]
fn hurried_ones_come_first() {
    let mut seed = Seed(5);
    let (mut hurried, mut others, mut stayed, mut both) = (0, 0, 0, 0);
    for _ in 0..60 {
        let mut grid = noise(&mut seed, 30);
        grid.marks_mut().copy_from_slice(&noise_marks(&mut seed, 30));
        loop {
            let before = grid.clone();
            let pending = (0..N).filter(|&i| before.status()[i] == PENDING);
            let order = |&i: &usize| (before.marks()[i] == HURRIED, before.distances()[i], std::cmp::Reverse(i));
            let Some(first) = pending.max_by_key(order) else { break };
            grid.carve(1).expect("a begun grid is carved");
            let goes = passes(before.status(), first) && before.marks()[first] & PINNED == 0;
            assert_eq!(grid.status()[first], if goes { GONE } else { KEPT });
            for i in (0..N).filter(|&i| i != first && grid.status()[i] != before.status()[i]) {
                assert!(goes && (before.status()[i], grid.status()[i]) == (KEPT, PENDING));
                assert!(grid.distances()[i] >= 0 && grid.marks()[i] & PINNED == 0);
            }
            hurried += usize::from(before.marks()[first] == HURRIED);
            others += usize::from(before.marks()[first] != HURRIED);
            stayed += usize::from(!goes && passes(before.status(), first));
            both += usize::from(before.marks()[first] == PINNED_AND_HURRIED);
        }
    }
    let met = format!("{hurried} hurried, {others} others, {stayed} held by a pin, {both} with both marks");
    assert!(hurried > 500 && others > 500 && stayed > 100 && both > 100, "{met}");
}

/// The marks with 1 for each 3.
fn pins_alone(marks: &[u8]) -> Vec<u8> {
    marks.iter().map(|&mark| if mark == PINNED_AND_HURRIED { PINNED } else { mark }).collect()
}

/// Whatever the calls are, and whatever the marks become: 3 is answered as 1 is, and leaves the same.
#[test]
fn three_is_one() {
    let mut seed = Seed(13);
    let (mut both, mut refused) = (0, [0; 31]);
    for _ in 0..100 {
        let (values, marks) = (noise_values(&mut seed), noise_marks(&mut seed, 40));
        let begun = |marks: &[u8]| Grid::begin_marked(SIDES, u16::MAX, &values, marks).expect("some voxel is negative");
        let (mut grid, mut other) = (begun(&marks), begun(&pins_alone(&marks)));
        both += outside(&grid).filter(|&i| marks[i] == PINNED_AND_HURRIED).count();
        for _ in 0..90 {
            assert_eq!((grid.status(), grid.distances(), grid.record()), (other.status(), other.distances(), other.record()));
            if seed.below(9) == 0 {
                let marks = noise_marks(&mut seed, 40);
                grid.marks_mut().copy_from_slice(&marks);
                other.marks_mut().copy_from_slice(&pins_alone(&marks));
            }
            let kept: Vec<usize> = outside(&grid).chain([0]).collect();
            let (limit, index) = (seed.below(8) as u32, kept[seed.below(kept.len())]);
            let number = match seed.below(5) {
                0 => same(grid.carve(limit), other.carve(limit)),
                1 => same(grid.carve(NO_LIMIT), other.carve(NO_LIMIT)),
                2 => same(grid.take(index), other.take(index)),
                _ => same(grid.open(), other.open()),
            };
            refused[usize::from(number)] += 1;
        }
        same(grid.finish(), other.finish());
        assert_eq!((grid.status(), grid.distances(), grid.record()), (other.status(), other.distances(), other.record()));
    }
    assert!(both > 500 && [0, 13, 15, 30].iter().all(|&number| refused[number] > 50), "{both} marks of 3, numbers {refused:?}");
}

/// The number of two answers, 0 where neither is a refusal: both are the same.
fn same<T: PartialEq + std::fmt::Debug>(one: Result<T, Refusal>, other: Result<T, Refusal>) -> u8 {
    assert_eq!(one, other);
    one.err().map_or(0, |refused| refused.0)
}

/// What a carve to the end left before version 0.10, where a mark of 3 also hurried, and how many voxels it examined.
fn as_in_0_9(begun: &Grid) -> (Vec<u8>, u64) {
    let (dist, marks) = (begun.distances(), begun.marks());
    let mut status = begun.status().to_vec();
    for i in (0..N).filter(|&i| marks[i] & HURRIED != 0 && dist[i] >= 0 && begun.status()[i] != GONE) {
        status[i] = PENDING;
    }
    for examined in 0.. {
        let order = |&i: &usize| (marks[i] & HURRIED, dist[i], std::cmp::Reverse(i));
        let Some(first) = (0..N).filter(|&i| status[i] == PENDING).max_by_key(order) else { return (status, examined) };
        status[first] = KEPT;
        if marks[first] & PINNED == 0 && passes(&status, first) {
            status[first] = GONE;
            for j in around(first).filter(|&j| dist[j] >= 0 && marks[j] & PINNED == 0) {
                status[j] = if status[j] == GONE { GONE } else { PENDING };
            }
        }
    }
    unreachable!("a carve ends")
}

/// A carve run straight from begin to its end keeps the voxels that it kept before version 0.10, and examines none that both marks are on.
#[test]
fn a_carve_keeps_what_it_kept_before() {
    let mut seed = Seed(17);
    let mut fewer = 0;
    for round in 0..60 {
        let mut grid = noise(&mut seed, 10 * (round % 5));
        let (kept, examined) = as_in_0_9(&grid);
        let both = outside(&grid).filter(|&i| grid.marks()[i] == PINNED_AND_HURRIED).count() as u64;
        let done = grid.carve(NO_LIMIT).expect("a begun grid is carved");
        assert_eq!((grid.status(), u64::from(done.examined) + both), (&kept[..], examined));
        fewer += usize::from(both > 0);
    }
    assert!(fewer > 30, "both marks stand in {fewer} of 60 grids");
}

/// With the marks that begin had, carved until nothing is pending: no kept voxel outside passes but pinned ones.
#[test]
fn none_but_pinned_ones_pass() {
    let mut seed = Seed(9);
    let mut pinned = 0;
    for _ in 0..60 {
        let mut grid = noise(&mut seed, 30);
        loop {
            grid.carve(NO_LIMIT).expect("a begun grid is carved");
            for i in outside(&grid).filter(|&i| passes(grid.status(), i)) {
                assert_ne!(grid.marks()[i] & PINNED, 0);
                pinned += 1;
            }
            if grid.open().is_err() {
                break;
            }
        }
    }
    assert!(pinned > 100, "{pinned} that would pass are pinned");
}
