//! Practice grids, document 02's CR 12: ours, and two in Rust.

use crate::types::{size, Refused, Sides};

const STEP: u32 = 0x9E37_79B9;
const BORDER: i32 = 1_000;

pub type Practice = fn(Sides, u32, &mut [i32]) -> Result<(), Refused>;

/// By the archive.
pub fn ours(sides: Sides, seed: u32, values: &mut [i32]) -> Result<(), Refused> {
    wattlerugby::practice(sides, seed, values).map_err(|refused| refused.0)
}

fn check(sides: Sides, values: &[i32]) -> Result<(), Refused> {
    if [sides.a, sides.b, sides.c].iter().any(|side| !(3..=64).contains(side)) {
        return Err(1);
    }
    if values.len() != size(sides) {
        return Err(2);
    }
    Ok(())
}

fn value_of(s: u32) -> i32 {
    ((s ^ (s >> 16)) % 2_001) as i32 - 1_000
}

/// Voxel by voxel, each of which is asked where it lies.
pub fn plain(sides: Sides, seed: u32, values: &mut [i32]) -> Result<(), Refused> {
    check(sides, values)?;
    let (Sides { a, b, c }, mut s) = (sides, seed);
    let mut values = values.iter_mut();
    for z in 0..c {
        for y in 0..b {
            for (x, value) in values.by_ref().take(a).enumerate() {
                s = s.wrapping_add(STEP);
                let border = x == 0 || y == 0 || z == 0 || x + 1 == a || y + 1 == b || z + 1 == c;
                *value = if border { BORDER } else { value_of(s) };
            }
        }
    }
    Ok(())
}

/// Row by row: what lies on the border is filled, and s is taken past it at once.
pub fn tuned(sides: Sides, seed: u32, values: &mut [i32]) -> Result<(), Refused> {
    check(sides, values)?;
    let Sides { a, b, c } = sides;
    for (row, values) in values.chunks_exact_mut(a).enumerate() {
        let (y, z) = (row % b, row / b);
        if y == 0 || z == 0 || y + 1 == b || z + 1 == c {
            values.fill(BORDER);
            continue;
        }
        let mut s = seed.wrapping_add(((a * row + 1) as u32).wrapping_mul(STEP));
        (values[0], values[a - 1]) = (BORDER, BORDER);
        for value in &mut values[1..a - 1] {
            s = s.wrapping_add(STEP);
            *value = value_of(s);
        }
    }
    Ok(())
}
