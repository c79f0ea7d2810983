//! A list of removals, judged (document 02, CR 11): no distances are compared, and neither marks, pending nor the record's counts are looked at.

use crate::grid::{Record, Refused};
use crate::machine::{ready, test_at};

/// The length of a removal record: a mark and an index.
const REMOVAL: usize = 6;
const ORDINARY_MARK: [u8; 2] = [0x56, 0x52];
const OPENING_MARK: [u8; 2] = [0x56, 0x4F];

pub struct Judged {
    /// Openings among them.
    pub removals: u64,
    pub openings: u64,
    pub euler: i64,
}

/// The voxel that a removal record names, and whether it is an opening.
fn removal(r: &Record, left: &[u8]) -> Result<(usize, bool), Refused> {
    if left.len() < REMOVAL {
        return Err(21);
    }
    let mark = [left[0], left[1]];
    if mark != ORDINARY_MARK && mark != OPENING_MARK {
        return Err(22);
    }
    let index = u32::from_le_bytes([left[2], left[3], left[4], left[5]]) as usize;
    if index >= r.sides.n() {
        return Err(5);
    }
    Ok((index, mark == OPENING_MARK))
}

/// Whether a voxel has a face neighbour that is not kept.
fn bare(r: &Record, status: &[u8], index: usize) -> bool {
    r.sides.face_neighbours(index).into_iter().any(|j| j.is_none_or(|j| status[j] == 0))
}

/// Whether a kept voxel outside S passes.
fn any_passes(r: &Record, dist: &[i32], status: &[u8]) -> bool {
    (0..status.len()).any(|i| status[i] != 0 && dist[i] >= 0 && test_at(r, status, i).passes())
}

/// The lent status is left as it is: what the list removes is gone from a copy.
pub fn judge(r: &Record, dist: &[i32], lent: &mut [u8], list: &[u8]) -> Result<Judged, Refused> {
    ready(r, dist, None, lent)?;
    let mut status = lent.to_vec();
    follow(r, dist, &mut status, list)
}

/// Removes what the list names, record by record.
fn follow(r: &Record, dist: &[i32], status: &mut [u8], list: &[u8]) -> Result<Judged, Refused> {
    let mut judged = Judged { removals: 0, openings: 0, euler: 1 };
    let mut at = 0;
    while at < list.len() {
        let (index, opening) = removal(r, &list[at..])?;
        if status[index] == 0 || dist[index] < 0 {
            return Err(32);
        }
        let local = test_at(r, status, index);
        if !opening && !local.passes() {
            return Err(32);
        }
        if opening {
            if !bare(r, status, index) || any_passes(r, dist, status) {
                return Err(32);
            }
            if judged.openings == u64::from(r.t) {
                return Err(32);
            }
            judged.openings += 1;
            judged.euler += i64::from(local.k) - i64::from(local.m);
        }
        status[index] = 0;
        judged.removals += 1;
        at += REMOVAL;
    }
    if any_passes(r, dist, status) {
        return Err(33);
    }
    Ok(judged)
}
