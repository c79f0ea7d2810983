//! The block around an inner voxel in Rust as carve reads it: two bits a voxel, from which the kept ones are taken.

use crate::types::Sides;

/// The neighbourhood of a voxel, without a look at the bounds, which the product's proof spares it.
///
/// # Safety
/// Voxel i is not on the border of the grid, and `status` has a byte for each voxel of the grid.
#[inline(always)]
pub unsafe fn gather(sides: Sides, status: &[u8], i: usize) -> u64 {
    let (a, l) = (sides.a, sides.a * sides.b);
    // SAFETY: the 27 voxels around an inner voxel are in the grid.
    let two = |at: usize| u64::from(unsafe { *status.get_unchecked(at) } & 3);
    let row = |at: usize| two(at) | two(at + 1) << 2 | two(at + 2) << 4;
    let layer = |at: usize| row(at) | row(at + a) << 6 | row(at + 2 * a) << 12;
    let at = i - (1 + a + l);
    layer(at) | layer(at + l) << 18 | layer(at + 2 * l) << 36
}

/// The kept voxels of a neighbourhood: every other bit, moved together.
#[inline(always)]
pub fn kept_bits(code: u64) -> u32 {
    let x1 = code & 0x0015555555555555;
    let x2 = (x1 | x1 >> 1) & 0x3333333333333333;
    let x4 = (x2 | x2 >> 2) & 0x0F0F0F0F0F0F0F0F;
    let x8 = (x4 | x4 >> 4) & 0x00FF00FF00FF00FF;
    let x16 = (x8 | x8 >> 8) & 0x0000FFFF0000FFFF;
    ((x16 | x16 >> 16) & 0x7FFFFFF) as u32
}
