//! Patch records (document 02, CR 2): what they change, the three checks of each, and the program's limit.

use reference::file::{program_line, read, write};
use reference::grid::{Sides, MISSING};

/// The file of 4, 4, 3 with these values, T = 0, and then these bytes.
fn file(values: &[i32], rest: &[u8]) -> Vec<u8> {
    let mut file = vec![0; 112];
    assert_eq!(write(&Sides { a: 4, b: 4, c: 3 }, 0, values, &mut file), Ok(112));
    file.extend(rest);
    file
}

fn patch(index: u32, value: i16) -> Vec<u8> {
    [&[0x56, 0x50][..], &index.to_le_bytes(), &value.to_le_bytes()].concat()
}

/// Document 01's case D.
fn case_d() -> Vec<i32> {
    (0..48).map(|i| if i == 21 || i == 26 { -6 } else { 6 }).collect()
}

/// The number for case D with these bytes after it; no value is written.
fn refused(rest: &[u8]) -> u8 {
    let mut lent = vec![77; 48];
    let number = read(&file(&case_d(), rest), &mut lent, 64).expect_err("it is refused");
    assert_eq!(lent, [77; 48]);
    number
}

#[test]
fn the_later_patch_stands() {
    let patches = [patch(5, 1), patch(47, i16::MIN), patch(5, 32767), patch(0, -32767), patch(5, -2)].concat();
    let mut lent = vec![77; 48];
    assert_eq!(read(&file(&[6; 48], &patches), &mut lent, 64), Ok((Sides { a: 4, b: 4, c: 3 }, 0)));
    let mut wanted = [6; 48];
    (wanted[5], wanted[47], wanted[0]) = (-2, MISSING, -32767);
    assert_eq!(lent, wanted);
}

#[test]
fn each_patch_is_checked_before_the_next() {
    let (good, beyond, other) = (patch(3, 9), patch(48, 9), [0x56, 0x4C, 3, 0, 0, 0, 9, 0]);
    for left in 1..8 {
        assert_eq!([refused(&good[..left]), refused(&other[..left]), refused(&[&good[..], &beyond[..left]].concat())], [21; 3]);
    }
    assert_eq!([refused(&other), refused(&[0x57, 0x50, 48, 0, 0, 0, 9, 0]), refused(&[&good[..], &other].concat())], [22; 3]);
    assert_eq!([refused(&beyond), refused(&patch(65_536, 9)), refused(&patch(u32::MAX, 9))], [5; 3]);
    assert_eq!([refused(&[&beyond[..], &other].concat()), refused(&[&other[..], &beyond].concat())], [5, 22]);
}

#[test]
fn the_program_carves_the_patched_grid() {
    let line = |values: &[i32], patches: &[u8]| program_line(&file(values, patches));
    assert_eq!(line(&[6; 48], &[]), "refused 4");
    assert_eq!(line(&[6; 48], &[patch(21, -6), patch(26, -6)].concat()), "kept 2 removed 2 opened 0 examined 2 euler 1");
    assert_eq!(line(&case_d(), &patch(0, -1)), "refused 3");
    assert_eq!(line(&case_d(), &[patch(21, 0), patch(26, i16::MIN)].concat()), "refused 4");
}

/// 112 bytes and 8,178 patches are 65,536.
#[test]
fn the_program_takes_65_536_bytes() {
    let full = file(&case_d(), &patch(0, 6).repeat(8_178));
    assert_eq!(program_line(&full), "kept 2 removed 2 opened 0 examined 2 euler 1");
    let mut over = [full, vec![0]].concat();
    assert_eq!(program_line(&over), "refused 25");
    assert_eq!(read(&over, &mut [0; 48], 64), Err(21));
    over[0] = 0;
    assert_eq!(program_line(&over), "refused 25");
}
