//! Practice grids (document 02, CR 12): values worked out by hand, both checks, and what stays as it was.

use reference::grid::Sides;
use reference::practice::practice;

fn made(sides: [u64; 3], seed: u32) -> Vec<i32> {
    let [a, b, c] = sides;
    let mut values = vec![7; (a * b * c) as usize];
    assert_eq!(practice(&Sides { a, b, c }, seed, &mut values), Ok(()));
    values
}

/// Voxel 13 is the fourteenth. From 0 its s is 14 times hex 9E3779B9, hex 8 A708A81E, of which 32 bits are left. A708 combined into it makes hex
/// A7080F16, or 2,802,323,222, which is 1,400,461 times 2,001 and 761.
#[test]
fn by_hand() {
    let values = made([3, 3, 3], 0);
    assert_eq!(values[13], 761 - 1_000);
    assert!((0..27).filter(|&i| i != 13).all(|i| values[i] == 1_000));
    // s is 0 there, and then 65,536: of the first u is 0, of the second 65,537, which is 32 times 2,001 and 1,505
    let from = 0_u32.wrapping_sub(0xA708_A81E);
    assert_eq!([made([3, 3, 3], from)[13], made([3, 3, 3], from + 65_536)[13]], [-1_000, 505]);
}

/// Of 4, 3, 3 voxels 17 and 18 are within: s takes a step from the one to the other, and so it does over the border to the next row.
#[test]
fn every_voxel_is_a_step() {
    for seed in [0, 1, 0x7FFF_FFFF, u32::MAX] {
        let step = seed.wrapping_add(0x9E37_79B9);
        assert_eq!(made([4, 3, 3], seed)[18], made([4, 3, 3], step)[17]);
        let two = step.wrapping_add(0x9E37_79B9);
        // 16 and 19 of 3, 4, 3 are in two rows, with two border voxels between them
        assert_eq!(made([3, 4, 3], seed)[19], made([3, 4, 3], two.wrapping_add(0x9E37_79B9))[16]);
    }
}

#[test]
fn both_checks() {
    let refused = |sides: [u64; 3], lent: usize| {
        let ([a, b, c], mut values) = (sides, vec![7; lent]);
        let number = practice(&Sides { a, b, c }, 5, &mut values).expect_err("it is refused");
        assert!(values.iter().all(|&value| value == 7));
        number
    };
    for sides in [[2, 3, 3], [3, 65, 3], [3, 3, 0], [u64::MAX, u64::MAX, u64::MAX]] {
        assert_eq!([refused(sides, 27), refused(sides, 18), refused(sides, 0)], [1, 1, 1]);
    }
    assert_eq!([refused([3, 3, 3], 26), refused([3, 3, 3], 28), refused([3, 3, 3], 0)], [2, 2, 2]);
}
