//! Practice grids (document 02, CR 12): the same values from a seed on every instrument.

use crate::grid::{Refused, Sides};

/// What is added to s for each index.
const STEP: u32 = 0x9E37_79B9;
const BORDER: i32 = 1_000;

/// The value that s stands for within the border.
fn value_of(s: u32) -> i32 {
    let u = s ^ (s >> 16);
    (u % 2_001) as i32 - 1_000
}

/// 1, 2; the lent values are written only where nothing is refused.
pub fn practice(sides: &Sides, seed: u32, values: &mut [i32]) -> Result<(), Refused> {
    if !sides.fit() {
        return Err(1);
    }
    if values.len() != sides.n() {
        return Err(2);
    }
    let mut s = seed;
    for (i, value) in values.iter_mut().enumerate() {
        // on the border too
        s = s.wrapping_add(STEP);
        *value = if sides.border(i) { BORDER } else { value_of(s) };
    }
    Ok(())
}
