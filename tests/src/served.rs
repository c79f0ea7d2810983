//! Many scans at once (document 02, CR 14): grids that lie end to end, which of them a call serves, and what it answers and leaves. Written from the
//! papers, not from the reference, but for what carve does to the grid alone.

use reference::grid::{Record, Refused, Sides};
use reference::machine::{carve, Carving};
use reference::replay::Replay;
use std::ops::Range;

/// Grids end to end, and the order record.
#[derive(Clone)]
pub struct Office {
    pub records: Vec<Record>,
    pub order: Vec<u8>,
    pub dist: Vec<i32>,
    pub marks: Vec<u8>,
    pub status: Vec<u8>,
}

/// A call of carve on a grid alone: its answer, the record and the status that it leaves.
pub struct Alone {
    pub answer: Result<Carving, Refused>,
    pub record: Record,
    pub status: Vec<u8>,
}

/// A record as a line has it.
fn shown(r: &Record) -> String {
    let (Sides { a, b, c }, finished) = (r.sides, u8::from(r.finished()));
    let counts = format!("openings {} removals {} examinations {} euler {}", r.openings, r.removals, r.examinations, r.euler);
    format!("rec {a} {b} {c} T {} {counts} finished {finished}", r.t)
}

impl Office {
    /// The first slots, their buffers as they are.
    pub fn of(state: &Replay, grids: usize) -> Self {
        let slots = || state.slots().iter().take(grids);
        Office {
            records: slots().map(|slot| slot.record).collect(),
            order: state.order.clone(),
            dist: slots().flat_map(|slot| slot.dist.iter().copied()).collect(),
            marks: slots().flat_map(|slot| slot.marks.iter().copied()).collect(),
            status: slots().flat_map(|slot| slot.status.iter().copied()).collect(),
        }
    }

    /// The stretch of a grid by the sides of those before it and its own, as far as a buffer of some length has it.
    fn part(&self, place: usize, len: usize) -> Range<usize> {
        let size = |r: &Record| u128::from(r.sides.a).saturating_mul(r.sides.b.into()).saturating_mul(r.sides.c.into());
        let end = |grids: usize| self.records[..grids].iter().map(size).fold(0u128, u128::saturating_add).min(len as u128) as usize;
        end(place)..end(place + 1)
    }

    pub fn dist_of(&self, place: usize) -> &[i32] {
        &self.dist[self.part(place, self.dist.len())]
    }

    pub fn marks_of(&self, place: usize) -> &[u8] {
        &self.marks[self.part(place, self.marks.len())]
    }

    pub fn status_of(&self, place: usize) -> &[u8] {
        &self.status[self.part(place, self.status.len())]
    }

    /// Something is pending there; nothing is past the last grid.
    pub fn waits(&self, place: usize) -> bool {
        place < self.records.len() && self.status_of(place).contains(&3)
    }

    /// All places as they are looked at: those never served from 0 up, and then the others, the one served longest ago first.
    pub fn queue(&self) -> Vec<usize> {
        let served: Vec<usize> = self.order.iter().map(|&place| usize::from(place)).collect();
        let never = (0..self.records.len()).filter(|place| !served.contains(place));
        never.chain(served.iter().copied()).collect()
    }

    /// The place that a call without a fault serves.
    pub fn place(&self) -> Option<usize> {
        self.queue().into_iter().find(|&place| self.waits(place))
    }

    /// The order record after a place was served.
    pub fn order_after(&self, place: usize) -> Vec<u8> {
        let others = self.order.iter().copied().filter(|&other| usize::from(other) != place);
        others.chain([place as u8]).collect()
    }

    pub fn alone(&self, place: usize, limit: u64) -> Alone {
        let (mut record, mut status) = (self.records[place], self.status_of(place).to_vec());
        let answer = carve(&mut record, self.dist_of(place), self.marks_of(place), &mut status, limit);
        Alone { answer, record, status }
    }

    /// What a call without a fault leaves, and its line.
    pub fn served(mut self, limit: u64) -> (Self, String) {
        let place = self.place().expect("something is pending");
        let Alone { answer, record, status } = self.alone(place, limit);
        let Carving { examined, removed, pending, face } =
            answer.unwrap_or_else(|number| panic!("carve has no fault, and answers {number}"));
        self.order = self.order_after(place);
        let part = self.part(place, self.status.len());
        self.status[part].copy_from_slice(&status);
        self.records[place] = record;
        let (pending, order, record) = (u8::from(pending), &self.order, shown(&record));
        let line = format!(
            "serve ok place {place} examined {examined} removed {removed} pending {pending} face {face} order {order:?} | {record}"
        );
        (self, line)
    }
}

#[cfg(test)]
mod tests {
    use super::*;
    use crate::grids::{coarse, grid, walled, Grid};
    use crate::random::Random;
    use reference::coarse::{begin_coarse, Lent};
    use reference::grid::begin;
    use reference::serve::serve;

    fn marks_of(r: &mut Random, n: usize) -> Vec<u8> {
        let marked = r.pick(&[0, 5, 30, 100]);
        (0..n).map(|_| if r.chance(marked) { r.below(4) as u8 } else { 0 }).collect()
    }

    /// A grid that begin, or a coarse start, has just left, with the marks it was given.
    fn begun(r: &mut Random) -> Option<Office> {
        let in_blocks = r.chance(30);
        let g = match in_blocks {
            true => coarse(r, 8),
            false if r.chance(50) => walled(r, 6),
            false => grid(r, 6),
        };
        let Grid { sides: [a, b, c], allowed, values } = g;
        let sides = Sides { a: a as u64, b: b as u64, c: c as u64 };
        let (n, marks) = (sides.n(), marks_of(r, sides.n()));
        let (mut dist, mut status) = (vec![0; n], vec![0; n]);
        let record = if in_blocks {
            let (mut far, mut kept) = (vec![0; n / 8], vec![0; n / 8]);
            let (voxels, blocks) = (Lent { dist: &mut dist, status: &mut status }, Lent { dist: &mut far, status: &mut kept });
            begin_coarse(sides, allowed, &values, &marks, voxels, blocks).ok()?.next
        } else {
            begin(sides, allowed, &values, &marks, &mut dist, &mut status).ok()?
        };
        Some(Office { records: vec![record], order: Vec::new(), dist, marks, status })
    }

    fn office(r: &mut Random, grids: usize) -> Office {
        let mut office = Office { records: vec![], order: vec![], dist: vec![], marks: vec![], status: vec![] };
        while office.records.len() < grids {
            let Some(one) = begun(r) else { continue };
            office.records.extend(one.records);
            office.dist.extend(one.dist);
            office.marks.extend(one.marks);
            office.status.extend(one.status);
        }
        office
    }

    fn call(office: &mut Office, limit: u64) -> Result<usize, Refused> {
        let Office { records, order, dist, marks, status } = office;
        serve(records, order, dist, marks, status, limit).map(|served| served.place)
    }

    /// What document 02 says of every list of such calls on freshly begun grids, marks of its own in each call: a grid with something pending is served
    /// within as many calls that are not refused as there are grids, and each grid's results are those of the same carve calls made on it alone. With
    /// fit limits and marks nothing is refused but with 35, where nothing waits.
    #[test]
    fn what_document_02_promises_of_lists() {
        let (mut calls, mut longest, mut ended) = (0, 0, 0);
        for seed in 0..400 {
            let mut r = Random::new(seed);
            let grids = r.pick(&[1, 2, 3, 4, 7, 15, 16]);
            let mut office = office(&mut r, grids);
            let mut waited = vec![0; grids];
            let fixed = r.chance(50);
            for _ in 0..r.pick(&[5, 60, 400]) {
                let limit = r.pick(&[1, 1, 2, 3, 10, 100, 1000]);
                if r.chance(10) {
                    let before = (office.order.clone(), office.status.clone(), office.records.clone());
                    assert_eq!(call(&mut office, r.pick(&[0, 1001, 1 << 32])), Err(34), "seed {seed}");
                    assert_eq!((&office.order, &office.status, &office.records), (&before.0, &before.1, &before.2), "seed {seed}");
                }
                let waiting: Vec<usize> = (0..grids).filter(|&place| office.waits(place)).collect();
                let (wanted, before) = (office.place(), office.clone());
                let served = call(&mut office, limit);
                assert_eq!(served.ok(), wanted, "seed {seed}");
                let Ok(place) = served else {
                    assert_eq!((served, waiting.len()), (Err(35), 0), "seed {seed}");
                    ended += 1;
                    break;
                };
                let (after, _) = before.served(limit);
                assert_eq!((&after.records, &after.order), (&office.records, &office.order), "seed {seed}");
                assert_eq!((&after.dist, &after.status), (&office.dist, &office.status), "seed {seed}");
                for other in waiting {
                    waited[other] = if other == place { 0 } else { waited[other] + 1 };
                    assert!(waited[other] < grids, "seed {seed}: place {other} waits");
                    longest = longest.max(waited[other]);
                }
                calls += 1;
                if !fixed {
                    let n = office.marks.len();
                    office.marks = marks_of(&mut r, n);
                }
            }
        }
        assert!(calls > 3000 && longest == 15 && ended > 100, "{calls} {longest} {ended}");
    }
}
