//! The rank from a table over the 12 edges.

use super::{corners_of, local, touched_bits, EDGES};
use crate::types::Local;

const fn find(root: &[usize; 8], mut c: usize) -> usize {
    while root[c] != c {
        c = root[c];
    }
    c
}

/// The corners at the ends of the edge at a place of the block.
const fn ends(place: usize) -> (usize, usize) {
    let (x, y, z) = (place % 3, place / 3 % 3, place / 9);
    if x == 1 {
        let c = y / 2 * 2 + z / 2 * 4;
        (c, c + 1)
    } else if y == 1 {
        let c = x / 2 + z / 2 * 4;
        (c, c + 2)
    } else {
        let c = x / 2 + y / 2 * 2;
        (c, c + 4)
    }
}

/// The edges of a touched set as 12 bits.
const fn edges(t: u32) -> u32 {
    ((t >> 1) & 0o2525) | ((t >> 18) & 0o252) | ((t >> 6) & 0o5000)
}

const fn table() -> [u8; 4096] {
    let mut ranks = [0u8; 4096];
    let mut e = 0;
    while e < 4096 {
        let mut root = [0, 1, 2, 3, 4, 5, 6, 7];
        let mut place = 0;
        while place < 27 {
            let bit = (1u32 << place) & EDGES;
            if bit != 0 && edges(bit) & e as u32 != 0 {
                let (p, q) = ends(place);
                let (p, q) = (find(&root, p), find(&root, q));
                if p != q {
                    root[p] = q;
                    ranks[e] += 1;
                }
            }
            place += 1;
        }
        e += 1;
    }
    ranks
}

static RANKS: [u8; 4096] = table();

#[inline(always)]
fn groups(t: u32) -> u32 {
    corners_of(t) - u32::from(RANKS[edges(t) as usize & 4095])
}

#[inline(always)]
pub fn test(kept: u32) -> Local {
    let t = touched_bits(kept);
    local(t, groups(t))
}

#[inline(always)]
pub fn passes(kept: u32) -> bool {
    let t = touched_bits(kept);
    ((t ^ EDGES).count_ones() == 13) & (groups(t) == 1)
}
