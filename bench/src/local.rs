//! The local test in Rust, of a block whose voxel (x, y, z) is bit x + 3 y + 9 z: by the product's own body, with a rank table, by search over
//! cells, and as one table of all blocks. What is not said to be a call is set in place where it is used, also in another crate.

pub mod joined;
pub mod ranked;
pub mod searched;
mod whole;

pub use whole::Whole;

use crate::types::Local;

const CELLS: u32 = 0o777757777;
const CORNERS: u32 = 0o505000505;
const EDGES: u32 = 0o252505252;
const FACES: u32 = 0o020252020;

/// These cells and all that they contain: along each axis in turn the middle is copied to both ends.
fn held(cells: u32) -> u32 {
    let x = cells & 0o222222222;
    let u = cells | x << 1 | x >> 1;
    let y = u & 0o070070070;
    let v = u | y << 3 | y >> 3;
    let z = v & 0o000777000;
    v | z << 9 | z >> 9
}

fn touched_bits(kept: u32) -> u32 {
    held(kept & CELLS)
}

fn corners_of(t: u32) -> u32 {
    (t & CORNERS).count_ones()
}

/// The lowest numbered bare face, or 6, of the touched cells; of the kept voxels it is the same. The touched faces are moved to their numbers, and
/// one more than they are has its lowest 1 where their lowest 0 was.
#[inline(always)]
pub fn bare_face(t: u32) -> u32 {
    let faces = t >> 12 & 1 | t >> 13 & 10 | t >> 8 & 4 | t & 16 | t >> 17 & 32;
    (faces + 1).trailing_zeros()
}

/// The answer, from the touched cells and how many groups they have; of the bare cells none but the first face is looked for.
fn local(t: u32, k: u32) -> Local {
    let (corners, edges, faces) = (corners_of(t), (t & EDGES).count_ones(), (t & FACES).count_ones());
    Local { k, m: k + 1 + edges - corners - faces, corners, edges, faces, face: bare_face(t) }
}

/// Whether the voxel may go, by the whole answer.
#[inline(always)]
pub fn passes(Local { k, m, .. }: Local) -> bool {
    (k == 1) & (m == 1)
}
