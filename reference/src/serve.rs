//! Many scans at once (document 02, CR 14): one call serves one of up to 16 grids that lie end to end in the lent buffers.

use crate::grid::{Record, Refused};
use crate::machine::{carve, ready, Carving};
use std::ops::Range;

const MOST_GRIDS: usize = 16;
const MOST_EXAMINATIONS: u64 = 1_000;

pub struct Served {
    pub place: usize,
    pub carving: Carving,
}

/// The part of the lent buffers that each grid has.
fn parts(records: &[Record]) -> Vec<Range<usize>> {
    let mut end = 0;
    let part = |r: &Record| {
        let start = end;
        end += r.sides.n();
        start..end
    };
    records.iter().map(part).collect()
}

/// Longer than the number of grids, a place twice, or one past the last grid.
fn unfit_order(order: &[u8], grids: usize) -> bool {
    let twice = (0..order.len()).any(|i| order[..i].contains(&order[i]));
    order.len() > grids || twice || order.iter().any(|&place| usize::from(place) >= grids)
}

/// The lowest place never served of those that wait, and if all of these were served, the one served longest ago.
fn chosen(waiting: &[usize], order: &[u8]) -> Option<usize> {
    let served = |place: usize| order.iter().position(|&other| usize::from(other) == place);
    let never = waiting.iter().copied().find(|&place| served(place).is_none());
    never.or(waiting.iter().copied().min_by_key(|&place| served(place)))
}

/// 34, 1, 2, 7, 29, 8: each is looked for in all grids before the next.
fn checked(records: &[Record], order: &[u8], dist: &[i32], marks: &[u8], status: &[u8], limit: u64) -> Result<Vec<Range<usize>>, Refused> {
    let grids = records.len();
    if !(1..=MOST_EXAMINATIONS).contains(&limit) || !(1..=MOST_GRIDS).contains(&grids) {
        return Err(34);
    }
    if !records.iter().all(|r| r.sides.fit()) {
        return Err(1);
    }
    let parts = parts(records);
    let n = parts[grids - 1].end;
    if dist.len() != n || marks.len() != n || status.len() != n {
        return Err(2);
    }
    // the number that each grid has alone: if it has several, the one that comes first
    let alone = |place: usize| {
        let part = parts[place].clone();
        ready(&records[place], &dist[part.clone()], Some(&marks[part.clone()]), &status[part]).err()
    };
    let refused: Vec<Option<Refused>> = (0..grids).map(alone).collect();
    if refused.contains(&Some(7)) || unfit_order(order, grids) {
        return Err(7);
    }
    if refused.contains(&Some(29)) {
        return Err(29);
    }
    if refused.contains(&Some(8)) {
        return Err(8);
    }
    Ok(parts)
}

/// 35 after all checks. The record of the grid served is the one that carve leaves, and its place is the last of the order record.
pub fn serve(
    records: &mut [Record],
    order: &mut Vec<u8>,
    dist: &[i32],
    marks: &[u8],
    status: &mut [u8],
    limit: u64,
) -> Result<Served, Refused> {
    let parts = checked(records, order, dist, marks, status, limit)?;
    let waiting: Vec<usize> = (0..records.len()).filter(|&place| status[parts[place].clone()].contains(&3)).collect();
    let Some(place) = chosen(&waiting, order) else { return Err(35) };
    let part = parts[place].clone();
    let carving = carve(&mut records[place], &dist[part.clone()], &marks[part.clone()], &mut status[part], limit)?;
    order.retain(|&other| usize::from(other) != place);
    order.push(place as u8);
    Ok(Served { place, carving })
}
