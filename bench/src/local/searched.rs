//! By search, two ways: whole frontiers at a time, and cell by cell over a table of which cells border which. Neither is the faster at every
//! density, so both are timed.

use super::{held, local, touched_bits, CELLS};
use crate::types::Local;

/// The cells that contain some of these: along each axis in turn both ends are copied to the middle.
fn holding(cells: u32) -> u32 {
    let u = cells | (cells << 1 | cells >> 1) & 0o222222222;
    let v = u | (u << 3 | u >> 3) & 0o070070070;
    v | (v << 9 | v >> 9) & 0o000777000
}

/// From a cell to all that border on it, on to all that border on those, until its group is whole; then from a cell that is left.
#[inline(always)]
pub fn by_frontiers(mut cells: u32) -> u32 {
    let mut count = 0;
    while cells != 0 {
        count += 1;
        let mut found = cells & cells.wrapping_neg();
        while found != 0 {
            cells ^= found;
            found = (held(found) | holding(found)) & cells;
        }
    }
    count
}

const fn offset(place: usize) -> [i32; 3] {
    [(place % 3) as i32 - 1, (place / 3 % 3) as i32 - 1, (place / 9) as i32 - 1]
}

const fn holds(outer: [i32; 3], inner: [i32; 3]) -> bool {
    let mut k = 0;
    while k < 3 {
        if outer[k] != 0 && outer[k] != inner[k] {
            return false;
        }
        k += 1;
    }
    true
}

const fn joined() -> [u32; 27] {
    let mut near = [0; 27];
    let mut p = 0;
    while p < 27 {
        let mut q = 0;
        while q < 27 {
            if p != 13 && q != 13 && (holds(offset(p), offset(q)) || holds(offset(q), offset(p))) {
                near[p] |= 1 << q;
            }
            q += 1;
        }
        p += 1;
    }
    near
}

static NEAR: [u32; 27] = joined();

/// From each cell that was reached to those that border on it.
#[inline(always)]
pub fn by_cells(mut cells: u32) -> u32 {
    let mut count = 0;
    while cells != 0 {
        count += 1;
        let mut work = cells & cells.wrapping_neg();
        cells ^= work;
        while work != 0 {
            let next = NEAR[work.trailing_zeros() as usize] & cells;
            cells ^= next;
            work = (work & (work - 1)) | next;
        }
    }
    count
}

/// The touched cells alone are searched.
#[inline(always)]
pub fn touched(kept: u32, groups: impl Fn(u32) -> u32) -> Local {
    let t = touched_bits(kept);
    local(t, groups(t))
}

/// The touched cells are searched, and then the bare ones.
#[inline(always)]
pub fn both(kept: u32, groups: impl Fn(u32) -> u32) -> Local {
    let t = touched_bits(kept);
    Local { m: groups(!t & CELLS), ..local(t, groups(t)) }
}
