//! The carving machine and surface points (document 01, "The carving machine", "Surface points", numbers 5 to 15), with marks and with the face by
//! which a voxel came out (document 02, CR 7 to CR 9). `points`, every crossing in a row, is a call of this library and not of document 01.

use crate::grid::{Record, Refused};
use crate::local::{local_test, Local, NO_FACE};
use crate::marks::{hurried, is_mark, pinned};

pub struct Carving {
    pub examined: u64,
    pub removed: u64,
    pub pending: bool,
    /// Of the last removal, or `NO_FACE`.
    pub face: u32,
}

pub struct Opening {
    pub index: usize,
    pub local: Local,
}

/// 1, 2, 7, 29.
fn unfit(r: &Record, dist: &[i32], marks: Option<&[u8]>, status: &[u8]) -> Option<Refused> {
    if !r.sides.fit() {
        return Some(1);
    }
    let n = r.sides.n();
    if dist.len() != n || status.len() != n {
        return Some(2);
    }
    if marks.is_some_and(|marks| marks.len() != n) {
        return Some(2);
    }
    let n = n as u64;
    let counts = r.openings > u64::from(r.t) || r.removals > n || r.examinations > 27 * n || r.euler.unsigned_abs() > 8 * n;
    let voxel = |i: usize| !matches!(status[i], 0 | 1 | 3) || (r.sides.border(i) && status[i] != 0) || (dist[i] < 0 && status[i] != 1);
    if counts || (0..n as usize).any(voxel) {
        return Some(7);
    }
    if marks.is_some_and(|marks| !marks.iter().all(|&mark| is_mark(mark))) {
        return Some(29);
    }
    None
}

/// 1, 2, 7, 29, 8.
pub fn ready(r: &Record, dist: &[i32], marks: Option<&[u8]>, status: &[u8]) -> Result<(), Refused> {
    if let Some(number) = unfit(r, dist, marks, status) {
        return Err(number);
    }
    if r.finished() {
        return Err(8);
    }
    Ok(())
}

pub fn test_at(r: &Record, status: &[u8], index: usize) -> Local {
    let v = r.sides.coordinates(index);
    let mut block = [false; 27];
    for (p, kept) in block.iter_mut().enumerate() {
        let w = [v[0] + (p % 3) as i64 - 1, v[1] + (p / 3 % 3) as i64 - 1, v[2] + (p / 9) as i64 - 1];
        *kept = r.sides.index(w).is_some_and(|j| status[j] != 0);
    }
    local_test(&block)
}

/// The voxel is gone, and every kept voxel outside S that touches it becomes pending, pinned ones left as they are.
fn remove(r: &mut Record, dist: &[i32], marks: &[u8], status: &mut [u8], index: usize) {
    status[index] = 0;
    r.removals += 1;
    for j in r.sides.touching(index) {
        if status[j] != 0 && dist[j] >= 0 && !pinned(marks[j]) {
            status[j] = 3;
        }
    }
}

/// The greatest worked distance, the smallest index among equals.
fn foremost(dist: &[i32], candidates: impl Iterator<Item = usize>) -> Option<usize> {
    let mut best: Option<usize> = None;
    for i in candidates {
        if best.is_none_or(|b| dist[i] > dist[b]) {
            best = Some(i);
        }
    }
    best
}

fn any_pending(status: &[u8]) -> bool {
    status.contains(&3)
}

/// Pending voxels are kept in order, hurried ones first, then by distance and index, so that long runs end.
pub fn carve(r: &mut Record, dist: &[i32], marks: &[u8], status: &mut [u8], limit: u64) -> Result<Carving, Refused> {
    ready(r, dist, Some(marks), status)?;
    let key = |i: usize| (!hurried(marks[i]), std::cmp::Reverse(dist[i]), i);
    let mut pending: std::collections::BTreeSet<_> = (0..status.len()).filter(|&i| status[i] == 3).map(key).collect();
    let (mut examined, mut removed, mut face) = (0, 0, NO_FACE);
    while examined < limit {
        let Some((_, _, i)) = pending.pop_first() else { break };
        status[i] = 1;
        examined += 1;
        let local = test_at(r, status, i);
        if !pinned(marks[i]) && local.passes() {
            remove(r, dist, marks, status, i);
            removed += 1;
            face = local.face;
            pending.extend(r.sides.touching(i).into_iter().filter(|&j| status[j] == 3).map(key));
        }
    }
    r.examinations += examined;
    Ok(Carving { examined, removed, pending: any_pending(status), face })
}

pub fn take(r: &mut Record, dist: &[i32], marks: &[u8], status: &mut [u8], index: u64) -> Result<Local, Refused> {
    ready(r, dist, Some(marks), status)?;
    if index >= r.sides.n() as u64 {
        return Err(5);
    }
    let index = index as usize;
    if status[index] == 0 {
        return Err(10);
    }
    if dist[index] < 0 {
        return Err(11);
    }
    if pinned(marks[index]) {
        return Err(30);
    }
    let local = test_at(r, status, index);
    if !local.passes() {
        return Err(12);
    }
    remove(r, dist, marks, status, index);
    Ok(local)
}

pub fn open(r: &mut Record, dist: &[i32], marks: &[u8], status: &mut [u8]) -> Result<Opening, Refused> {
    ready(r, dist, Some(marks), status)?;
    if any_pending(status) {
        return Err(13);
    }
    if r.openings == u64::from(r.t) {
        return Err(14);
    }
    let bare = |i: usize| r.sides.face_neighbours(i).into_iter().any(|j| j.is_none_or(|j| status[j] == 0));
    let may_go = |i: usize| status[i] != 0 && dist[i] >= 0 && !pinned(marks[i]);
    let Some(index) = foremost(dist, (0..status.len()).filter(|&i| may_go(i) && bare(i))) else {
        return Err(15);
    };
    let local = test_at(r, status, index);
    remove(r, dist, marks, status, index);
    r.openings += 1;
    r.euler += i64::from(local.k) - i64::from(local.m);
    Ok(Opening { index, local })
}

pub fn finish(r: &mut Record, dist: &mut [i32], status: &[u8]) -> Result<(), Refused> {
    ready(r, dist, None, status)?;
    if any_pending(status) {
        return Err(13);
    }
    for i in 0..dist.len() {
        if status[i] != 0 && dist[i] >= 0 {
            dist[i] = if dist[i] == 0 { -1 } else { -dist[i] };
        }
    }
    r.finished = 1;
    Ok(())
}

pub fn crossing(r: &Record, dist: &[i32], status: &[u8], index: u64, axis: u64) -> Result<Option<[f64; 3]>, Refused> {
    if let Some(number) = unfit(r, dist, None, status) {
        return Err(number);
    }
    if !r.finished() {
        return Err(9);
    }
    if index >= r.sides.n() as u64 {
        return Err(5);
    }
    if axis > 2 {
        return Err(6);
    }
    point_at(r, dist, index as usize, axis as usize)
}

/// The point between a voxel and the next along an axis, if there is one; 6 where the next lies beyond the grid.
fn point_at(r: &Record, dist: &[i32], index: usize, axis: usize) -> Result<Option<[f64; 3]>, Refused> {
    let here = r.sides.coordinates(index);
    let mut there = here;
    there[axis] += 1;
    let Some(next) = r.sides.index(there) else { return Err(6) };
    let (h, t) = (i64::from(dist[index]), i64::from(dist[next]));
    if (h < 0) == (t < 0) {
        return Ok(None);
    }
    let (from, towards, p, q) = if h < 0 { (here, 1.0, -h, t) } else { (there, -1.0, -t, h) };
    let share = p as f64 / (p + q) as f64;
    let mut point = from.map(|v| v as f64);
    point[axis] = if towards > 0.0 { point[axis] + share } else { point[axis] - share };
    Ok(Some(point))
}

pub struct Points {
    pub count: u64,
    pub next: u64,
}

/// The points of all crossings from a position on, three doubles each, until there is no room for one more or the positions end. Position
/// 3 i + k stands for the line from voxel i along axis k.
pub fn points(r: &Record, dist: &[i32], status: &[u8], position: u64, out: &mut [f64]) -> Result<Points, Refused> {
    if let Some(number) = unfit(r, dist, None, status) {
        return Err(number);
    }
    if !r.finished() {
        return Err(9);
    }
    let end = 3 * r.sides.n() as u64;
    if position > end {
        return Err(5);
    }
    let (mut next, mut written) = (position, 0);
    while next < end && out.len() - written >= 3 {
        if let Ok(Some(point)) = point_at(r, dist, (next / 3) as usize, (next % 3) as usize) {
            out[written..written + 3].copy_from_slice(&point);
            written += 3;
        }
        next += 1;
    }
    Ok(Points { count: written as u64 / 3, next })
}
