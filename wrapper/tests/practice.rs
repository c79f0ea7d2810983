//! Practice grids: the rule voxel by voxel, what a refusal leaves, and what begin and the file make of them.

use wattlerugby::{practice, practice_values, read_values, written, Grid, Refusal, Sides};

/// The s of an index by itself: the seed and index + 1 steps.
fn value_at(sides: Sides, seed: u32, i: usize) -> i32 {
    let Sides { a, b, c } = sides;
    let border = [(i % a, a), (i / a % b, b), (i / (a * b), c)].iter().any(|&(at, side)| at == 0 || at == side - 1);
    let s = (u64::from(seed) + (i as u64 + 1) * 0x9E37_79B9) as u32;
    if border {
        1_000
    } else {
        ((s ^ (s >> 16)) % 2_001) as i32 - 1_000
    }
}

const SEEDS: [u32; 8] = [0, 1, 2, 65_535, 65_536, 0x7FFF_FFFF, 0x8000_0000, u32::MAX];

#[test]
fn every_voxel() {
    let all = [[3, 3, 3], [3, 4, 5], [5, 4, 3], [4, 3, 5], [9, 9, 9], [64, 3, 3], [3, 64, 3], [3, 3, 64], [17, 33, 5]];
    for [a, b, c] in all {
        let sides = Sides { a, b, c };
        for seed in SEEDS {
            let values = practice_values(sides, seed).unwrap();
            assert!((0..a * b * c).all(|i| values[i] == value_at(sides, seed, i)), "{sides:?} {seed}");
        }
    }
}

/// Every voxel of the largest grid, among them such as have the least and the greatest value.
#[test]
fn the_largest_grid() {
    let sides = Sides { a: 64, b: 64, c: 64 };
    for seed in [0, 20_261_117, u32::MAX] {
        let values = practice_values(sides, seed).unwrap();
        assert!((0..values.len()).all(|i| values[i] == value_at(sides, seed, i)), "{seed}");
        let within = |i: &usize| [i % 64, i / 64 % 64, i / 4096].iter().all(|at| (1..63).contains(at));
        let count = |value: i32| (0..values.len()).filter(within).filter(|&i| values[i] == value).count();
        // about 238,328 / 2,001 of each
        assert!([-1_000, -1, 0, 1, 1_000].iter().all(|&value| (60..200).contains(&count(value))), "{seed}");
    }
}

#[test]
fn both_checks_and_nothing_written() {
    let fit = Sides { a: 4, b: 5, c: 6 };
    let refused = |sides: Sides, lent: usize| {
        let mut values = vec![7; lent];
        let number = practice(sides, 3, &mut values).unwrap_err();
        assert!(values.iter().all(|&value| value == 7));
        number
    };
    for sides in
        [Sides { a: 2, ..fit }, Sides { b: 65, ..fit }, Sides { c: 0, ..fit }, Sides { a: usize::MAX, b: usize::MAX, c: usize::MAX }]
    {
        assert_eq!([refused(sides, 120), refused(sides, 0)], [Refusal::SIDE; 2], "{sides:?}");
        assert_eq!(practice_values(sides, 3), Err(Refusal::SIDE));
    }
    assert_eq!([refused(fit, 119), refused(fit, 121), refused(fit, 0)], [Refusal::LENGTH; 3]);
}

/// Begin takes them, or finds no negative voxel; never a negative border voxel, nor a value that is none.
#[test]
fn begin_takes_them() {
    let (mut taken, mut none) = (0, 0);
    for seed in (0..300).map(|round: u32| round.wrapping_mul(0x0123_4567)) {
        for side in [3, 4, 7] {
            let sides = Sides { a: side, b: 3, c: 3 };
            let values = practice_values(sides, seed).unwrap();
            match Grid::begin(sides, 0, &values) {
                Ok(_) => taken += 1,
                Err(refused) => {
                    assert_eq!(refused, Refusal::NO_NEGATIVE);
                    assert!(values.iter().all(|&value| value >= 0));
                    none += 1;
                }
            }
        }
    }
    assert!(taken > 300 && none > 100, "{taken} {none}");
}

/// The file of a practice grid is read as what was made, and what the buffer held does not matter.
#[test]
fn written_and_made_again() {
    let (sides, mut again) = (Sides { a: 7, b: 5, c: 9 }, vec![i32::MIN; 315]);
    for seed in SEEDS {
        let values = practice_values(sides, seed).unwrap();
        let file = written(sides, 2, &values).unwrap();
        assert_eq!(file.len(), 7 + 9 * (3 + 2 * 35), "narrow layers");
        assert_eq!(read_values(&file), Ok((sides, 2, values.clone())));
        practice(sides, seed, &mut again).unwrap();
        assert_eq!(again, values);
    }
}
