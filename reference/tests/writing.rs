//! The writer of grid files (document 02, CR 1): what it writes is read again, its three checks, and what stays as it was.

use reference::file::{read, write};
use reference::grid::{Sides, MISSING};

/// Of a grid of 4, 4, 3: 7 + 3 (3 + 2 x 16).
const LENGTH: usize = 112;

#[test]
fn what_is_written_is_read_again() {
    let sides = Sides { a: 3, b: 5, c: 4 };
    let values: Vec<i32> = (0..60).map(|i| [MISSING, -32767, -257, -1, 0, 1, 258, 32767][i % 8]).collect();
    let mut lent = vec![0; 7 + 4 * (3 + 2 * 15)];
    assert_eq!(write(&sides, 0xFEDC, &values, &mut lent), Ok(lent.len()));
    let mut again = vec![77; 60];
    assert_eq!(read(&lent, &mut again, 64), Ok((sides, 0xFEDC)));
    assert_eq!(again, values);
}

/// The number of a call with these sides, values and bytes, which leaves every byte as it was.
fn refused(sides: [u64; 3], values: usize, lent: usize) -> u8 {
    let [a, b, c] = sides;
    let mut lent = vec![0xA5; lent];
    let number = write(&Sides { a, b, c }, 1, &vec![6; values], &mut lent).expect_err("it is refused");
    assert!(lent.iter().all(|&byte| byte == 0xA5));
    number
}

#[test]
fn the_first_check_that_fails_gives_the_number() {
    for sides in [[2, 4, 3], [4, 65, 3], [4, 4, 2], [0, 0, 0], [u64::MAX, u64::MAX, u64::MAX]] {
        assert_eq!([refused(sides, 48, LENGTH), refused(sides, 47, LENGTH), refused(sides, 47, 0)], [1, 1, 1]);
    }
    assert_eq!([refused([4, 4, 3], 47, LENGTH), refused([4, 4, 3], 49, 1000), refused([4, 4, 3], 0, 0)], [2, 2, 2]);
    assert_eq!([refused([4, 4, 3], 48, LENGTH - 1), refused([4, 4, 3], 48, 7), refused([4, 4, 3], 48, 0)], [26, 26, 26]);
}
