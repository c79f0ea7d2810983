//! The product's own body: the rank of the touched edges by joining corners.

use super::{corners_of, local, touched_bits, EDGES};
use crate::types::Local;

fn rank_of_3(ab: u32, ac: u32, bc: u32) -> u32 {
    ((ab | ac) & 1) + ((bc | ab & ac) & 1)
}

fn rank_of_4(ab: u32, ac: u32, bc: u32, ad: u32, bd: u32, cd: u32) -> u32 {
    ((ad | bd | cd) & 1) + rank_of_3(ab | ad & bd, ac | ad & cd, bc | bd & cd)
}

#[inline(always)]
fn rank(t: u32) -> u32 {
    let even = ((t >> 1 | t >> 3 | t >> 9) & 1)
        + ((t >> 7 | t >> 5 | t >> 17) & 1)
        + ((t >> 19 | t >> 23 | t >> 11) & 1)
        + ((t >> 25 | t >> 21 | t >> 15) & 1);
    even + rank_of_4(
        t >> 1 & t >> 3 | t >> 7 & t >> 5,
        t >> 1 & t >> 9 | t >> 19 & t >> 11,
        t >> 3 & t >> 9 | t >> 21 & t >> 15,
        t >> 5 & t >> 17 | t >> 23 & t >> 11,
        t >> 7 & t >> 17 | t >> 25 & t >> 15,
        t >> 19 & t >> 23 | t >> 25 & t >> 21,
    )
}

#[inline(always)]
fn groups(t: u32) -> u32 {
    corners_of(t) - rank(t)
}

#[inline(always)]
pub fn test(kept: u32) -> Local {
    let t = touched_bits(kept);
    local(t, groups(t))
}

/// The same as a call that the compiler can not see into from another crate, as it can not see into the archive's.
#[inline(never)]
pub extern "C" fn call(kept: u32) -> Local {
    test(kept)
}

/// As carve asks it: most that may not go fail by the Euler count alone, so it is asked first.
#[inline(always)]
pub fn passes(kept: u32) -> bool {
    let t = touched_bits(kept);
    if (t ^ EDGES).count_ones() != 13 {
        return false;
    }
    groups(t) == 1
}
