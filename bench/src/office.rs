//! Many scans at once, document 02's CR 14: grids end to end, and calls of serve on them, ours and two in Rust.

use crate::contest::{Case, State};
use crate::types::{size, Carved, Record, Refused};
use crate::{plain, tuned};
use wattlerugby::raw::{wattlerugby_serve, Grids, NO_FACE};
use wattlerugby::{Face, Order, MOST_EXAMINATIONS, MOST_GRIDS};

/// The most grids, as begun, with their order record.
#[derive(Clone, Debug, PartialEq, Eq)]
pub struct Office {
    pub records: Vec<Record>,
    pub order: Order,
    pub dist: Vec<i32>,
    pub marks: Vec<u8>,
    pub status: Vec<u8>,
}

/// The place that is served, and carve's answer.
pub type Served = (usize, Carved);

pub type Serve = fn(&mut Office, u32) -> Result<Served, Refused>;

impl Office {
    /// So many times the same grid.
    pub fn of(case: &Case, begun: &State, grids: usize) -> Self {
        Office {
            records: vec![begun.record; grids],
            order: Order::EMPTY,
            dist: begun.dist.repeat(grids),
            marks: case.marks.repeat(grids),
            status: begun.status.repeat(grids),
        }
    }

    /// The same with nothing pending anywhere.
    pub fn idle(mut self) -> Self {
        self.status.iter_mut().for_each(|s| *s &= 1);
        self
    }
}

/// By the archive.
pub fn ours(office: &mut Office, limit: u32) -> Result<Served, Refused> {
    let Office { records, order, dist, marks, status } = office;
    let service = wattlerugby::serve(records, order, dist, marks, status, limit).map_err(|refused| refused.0)?;
    let wattlerugby::Carved { examined, removed, pending, face, next } = service.carved;
    records[service.place] = next;
    let face = Some(face.map_or(NO_FACE, Face::number));
    Ok((service.place, Carved { examined, removed, pending, face, next }))
}

/// The bare call, as C makes it, on records that are at hand as C has them: its refusal.
#[inline(always)]
pub fn call(grids: &Grids, office: &mut Office, limit: u32) -> Refused {
    let Office { order, dist, marks, status, .. } = office;
    let (n, dist, marks, status) = (dist.len(), dist.as_ptr(), marks.as_ptr(), status.as_mut_ptr());
    // SAFETY: the pointers are those of live vectors, which are of one length.
    unsafe { wattlerugby_serve(*grids, *order, dist, n, marks, n, status, n, limit) }.refusal
}

type Ready = fn(&Record, &[i32], Option<&[u8]>, &[u8]) -> Result<(), Refused>;
type CarveReady = fn(Record, &[i32], &[u8], &mut [u8], u32) -> Carved;

/// The checks of a grid, whether something is pending in it, and carve on it once it is checked.
struct Parts {
    ready: Ready,
    waits: fn(&[u8]) -> bool,
    carve: CarveReady,
}

fn unfit(order: &Order, grids: usize) -> bool {
    let places = order.served();
    order.len > grids || (0..places.len()).any(|i| usize::from(places[i]) >= grids || places[..i].contains(&places[i]))
}

/// The rule over an implementation's parts.
fn served(office: &mut Office, limit: u32, parts: &Parts) -> Result<Served, Refused> {
    let Office { records, order, dist, marks, status } = office;
    let grids = records.len();
    if !(1..=MOST_EXAMINATIONS).contains(&limit) || !(1..=MOST_GRIDS).contains(&grids) {
        return Err(34);
    }
    if records.iter().any(|r| r.sides.voxels().is_none()) {
        return Err(1);
    }
    let mut starts = vec![0];
    records.iter().for_each(|r| starts.push(starts[starts.len() - 1] + size(r.sides)));
    let n = starts[grids];
    if dist.len() != n || marks.len() != n || status.len() != n {
        return Err(2);
    }
    let part = |place: usize| starts[place]..starts[place + 1];
    let ready = |place: usize| (parts.ready)(&records[place], &dist[part(place)], Some(&marks[part(place)]), &status[part(place)]).err();
    let refused: Vec<Option<Refused>> = (0..grids).map(ready).collect();
    for number in [7, 29, 8] {
        if refused.contains(&Some(number)) || number == 7 && unfit(order, grids) {
            return Err(number);
        }
    }
    let places = order.served();
    let never = (0..grids).filter(|place| !places.contains(&(*place as u8)));
    let mut queue = never.chain(places.iter().map(|&place| usize::from(place)));
    let place = queue.find(|&place| (parts.waits)(&status[part(place)])).ok_or(35)?;
    let carved = (parts.carve)(records[place], &dist[part(place)], &marks[part(place)], &mut status[part(place)], limit);
    records[place] = carved.next;
    let others = places.iter().copied().filter(|&other| usize::from(other) != place);
    *order = Order::of(&others.chain([place as u8]).collect::<Vec<u8>>());
    Ok((place, carved))
}

/// (a) In Rust, with the checks and the carve of plain loops.
pub fn plain(office: &mut Office, limit: u32) -> Result<Served, Refused> {
    served(office, limit, &Parts { ready: plain::ready, waits: |status| status.contains(&3), carve: plain::carve_ready })
}

/// (b) In Rust, with those of tuned ones.
pub fn tuned(office: &mut Office, limit: u32) -> Result<Served, Refused> {
    served(office, limit, &Parts { ready: tuned::ready, waits: tuned::any_pending, carve: tuned::carve_ready })
}
