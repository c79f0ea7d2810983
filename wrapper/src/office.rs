//! Many scans at once: grids end to end in one set of buffers, of which each call serves one.

use crate::{carve_answer, done, open, raw, take, Carved, Grid, Opened, Record, Refusal, Taken, MOST_GRIDS};
use std::ops::Range;

/// The order record of [`crate::serve`]: the places served so far, the one last served longest ago first. Begin with [`Order::EMPTY`], and hand each call
/// what the last one left.
///
/// It is plain data, as C has it. One that is longer than the number of grids, or names a place twice or one past the last grid, is refused with 7.
#[repr(C)]
#[derive(Clone, Copy, Debug, Default, PartialEq, Eq)]
pub struct Order {
    /// How many places were served so far.
    pub len: usize,
    /// These places, from the front; no byte past `len` is looked at.
    pub places: [u8; MOST_GRIDS],
}

impl Order {
    /// No grid was served yet.
    pub const EMPTY: Order = Order { len: 0, places: [0; MOST_GRIDS] };

    /// The record of these places. One of more than 16 is refused by every call, and keeps its length and its first 16.
    ///
    /// ```
    /// use wattlerugby::Order;
    ///
    /// assert_eq!(Order::of(&[2, 0]).served(), [2, 0]);
    /// assert_eq!(Order::of(&[]), Order::EMPTY);
    /// assert_eq!(Order::of(&[7; 17]).len, 17);
    /// ```
    pub fn of(places: &[u8]) -> Order {
        let mut order = Order { len: places.len(), ..Order::EMPTY };
        order.places.iter_mut().zip(places).for_each(|(place, served)| *place = *served);
        order
    }

    /// The places served so far.
    pub fn served(&self) -> &[u8] {
        &self.places[..self.len.min(MOST_GRIDS)]
    }
}

/// What [`crate::serve`] did: carve's answer for the grid at a place.
#[derive(Clone, Copy, Debug, PartialEq, Eq)]
pub struct Service {
    /// The grid that was served.
    pub place: usize,
    /// What carve answered for it, the record for its next call among it.
    pub carved: Carved,
}

/// Serves one of up to 16 grids that lie end to end in the buffers, with `limit` examinations at most: the lowest place never served that has something
/// pending, and if all of these were served, the one of them served longest ago. It is carved as by [`crate::carve`] alone, with its own part of the
/// marks; the others are not touched. `order` is what the call leaves, and after a refusal what it was.
///
/// The record that it answers is for that place: put it there. Over every list of such calls on the same freshly begun grids, from an empty order record
/// on, a grid with something pending is served within as many calls that are not refused as there are grids, and each grid's results are those of
/// the same carves on it alone, which is proved.
///
/// Checks: 34 (the limit is not 1 to 1,000, or the grids are not 1 to 16), and then, each on all grids before the next, 1, 2 (each buffer is as long as
/// the sum of their n), 7 (a grid, or the order record), 29, 8; last 35, where nothing is pending anywhere.
///
/// ```
/// use wattlerugby::{begin, serve, Order, Refusal, Sides, UNMARKED};
///
/// // the same grid twice: two voxels touch in an edge, and 22 and 25, which fill the box around them, may go
/// let mut values = [6; 48];
/// (values[21], values[26]) = (-6, -6);
/// let (mut dist, mut status, marks) = ([0; 96], [0; 96], [UNMARKED; 96]);
/// let mut records = [Default::default(); 2];
/// for place in 0..2 {
///     let part = 48 * place..48 * (place + 1);
///     let sides = Sides { a: 4, b: 4, c: 3 };
///     records[place] = begin(sides, 0, &values, &marks[part.clone()], &mut dist[part.clone()], &mut status[part])?;
/// }
///
/// let mut order = Order::EMPTY;
/// let mut places = Vec::new();
/// while let Ok(service) = serve(&records, &mut order, &dist, &marks, &mut status, 1) {
///     records[service.place] = service.carved.next;
///     places.push(service.place);
/// }
/// assert_eq!(places, [0, 1, 0, 1]);
/// assert_eq!(order.served(), [0, 1]);
/// assert_eq!(serve(&records, &mut order, &dist, &marks, &mut status, 1), Err(Refusal::NOTHING_PENDING));
/// assert_eq!(serve(&records, &mut order, &dist, &marks, &mut status, 1001), Err(Refusal::OFFICE));
/// # Ok::<(), Refusal>(())
/// ```
pub fn serve<R: Copy + Into<raw::Record>>(
    records: &[R],
    order: &mut Order,
    dist: &[i32],
    marks: &[u8],
    status: &mut [u8],
    limit: u32,
) -> Result<Service, Refusal> {
    let mut grids = raw::Grids { count: records.len(), records: [raw::Record::default(); MOST_GRIDS] };
    grids.records.iter_mut().zip(records).for_each(|(held, given)| *held = (*given).into());
    // SAFETY: each pointer and length is one live slice's, the mutable one overlaps nothing, and none is kept.
    let r = unsafe {
        raw::wattlerugby_serve(
            grids,
            *order,
            dist.as_ptr(),
            dist.len(),
            marks.as_ptr(),
            marks.len(),
            status.as_mut_ptr(),
            status.len(),
            limit,
        )
    };
    *order = r.order;
    let place = usize::from(r.place);
    done(r.refusal, r).map(|r| Service { place, carved: carve_answer(r.examined, r.removed, r.pending, r.face, r.next) })
}

/// Up to 16 grids in work that are carved by turns, at places from 0. It keeps their records and buffers end to end, their marks, and the order record.
///
/// Grids come and go between calls. A grid that is added has the last place, and was never served, so it comes before all that were. Where one is
/// taken out, those behind it move up by one place, and keep their turns.
///
/// ```
/// use wattlerugby::{practice_values, Grid, Office, Refusal, Sides};
///
/// let sides = Sides { a: 8, b: 8, c: 8 };
/// let mut office = Office::new();
/// for seed in 0..4 {
///     let grid = Grid::begin(sides, 1, &practice_values(sides, seed)?)?;
///     assert_eq!(office.add(grid), Ok(seed as usize));
/// }
///
/// let mut carved = Vec::new();
/// while let Ok(service) = office.serve(10) {
///     if !service.carved.pending {
///         carved.push(office.take_out(service.place)); // its display shows it, and its seat is free
///     }
/// }
/// assert_eq!((carved.len(), office.serve(10)), (4, Err(Refusal::OFFICE))); // nobody is left
/// for grid in &mut carved {
///     grid.carve_to_the_end()?; // it opens what may be opened, and finishes
/// }
/// # Ok::<(), Refusal>(())
/// ```
#[derive(Clone, Debug, Default, PartialEq, Eq)]
pub struct Office {
    records: Vec<Record>,
    order: Order,
    dist: Vec<i32>,
    marks: Vec<u8>,
    status: Vec<u8>,
}

impl Office {
    /// An office without grids.
    pub fn new() -> Office {
        Office::default()
    }

    /// Adds a grid behind the others and answers its place; with its marks, which it keeps. A finished grid, and a seventeenth, every call would refuse:
    /// such a grid is given back.
    ///
    /// ```
    /// use wattlerugby::{Grid, Office, Sides};
    ///
    /// let mut values = [5; 27];
    /// values[13] = -5;
    /// let grid = Grid::begin(Sides { a: 3, b: 3, c: 3 }, 0, &values)?;
    /// let mut office = Office::new();
    /// assert_eq!((office.add(grid.clone()), office.add(grid.clone())), (Ok(0), Ok(1)));
    ///
    /// let mut finished = grid;
    /// finished.finish()?;
    /// assert_eq!(office.add(finished.clone()), Err(finished));
    /// # Ok::<(), wattlerugby::Refusal>(())
    /// ```
    #[allow(clippy::result_large_err)] // what is given back is the grid itself
    pub fn add(&mut self, grid: Grid) -> Result<usize, Grid> {
        if self.grids() == MOST_GRIDS || grid.record().finished {
            return Err(grid);
        }
        self.marks.extend(grid.marks());
        let (record, dist, status) = grid.into_parts();
        self.records.push(record);
        self.dist.extend(dist);
        self.status.extend(status);
        Ok(self.grids() - 1)
    }

    /// Takes a grid out, with its marks. Those behind it move up by one place, and the order record with them.
    ///
    /// # Panics
    ///
    /// Where there is no such place, as [`Vec::remove`] does; so do the other methods that are given one.
    pub fn take_out(&mut self, place: usize) -> Grid {
        let part = self.part(place);
        let grid = Grid::of(
            self.records.remove(place),
            self.dist.drain(part.clone()).collect(),
            self.marks.drain(part.clone()).collect(),
            self.status.drain(part).collect(),
        );
        let moved_up = |other: u8| if usize::from(other) > place { other - 1 } else { other };
        let left = self.order.served().iter().filter(|other| usize::from(**other) != place);
        self.order = Order::of(&left.map(|other| moved_up(*other)).collect::<Vec<u8>>());
        grid
    }

    /// Serves the grid whose turn it is, with `limit` examinations at most, 1 to 1,000. See [`crate::serve`].
    pub fn serve(&mut self, limit: u32) -> Result<Service, Refusal> {
        let service = serve(&self.records, &mut self.order, &self.dist, &self.marks, &mut self.status, limit)?;
        self.records[service.place] = service.carved.next;
        Ok(service)
    }

    /// Opens the body at a place, out of turn. See [`crate::open`].
    pub fn open(&mut self, place: usize) -> Result<Opened, Refusal> {
        let part = self.part(place);
        let opened = open(self.records[place], &self.dist[part.clone()], &self.marks[part.clone()], &mut self.status[part])?;
        self.records[place] = opened.next;
        Ok(opened)
    }

    /// Removes one voxel of the grid at a place, out of turn, if it may go. See [`crate::take`].
    pub fn take(&mut self, place: usize, index: usize) -> Result<Taken, Refusal> {
        let part = self.part(place);
        let taken = take(self.records[place], &self.dist[part.clone()], &self.marks[part.clone()], &mut self.status[part], index)?;
        self.records[place] = taken.next;
        Ok(taken)
    }

    /// How many grids there are, at places from 0.
    pub fn grids(&self) -> usize {
        self.records.len()
    }

    /// The places served so far, the one last served longest ago first.
    pub fn order(&self) -> &[u8] {
        self.order.served()
    }

    /// The record of a grid.
    pub fn record(&self, place: usize) -> Record {
        self.records[place]
    }

    /// The worked distances of a grid.
    pub fn distances(&self, place: usize) -> &[i32] {
        &self.dist[self.part(place)]
    }

    /// The status bytes of a grid.
    pub fn status(&self, place: usize) -> &[u8] {
        &self.status[self.part(place)]
    }

    /// The marks of a grid.
    pub fn marks(&self, place: usize) -> &[u8] {
        &self.marks[self.part(place)]
    }

    /// The marks of a grid, to be set for the calls from now on. A byte over 3 at any place refuses them all with 29, until it is set right.
    pub fn marks_mut(&mut self, place: usize) -> &mut [u8] {
        let part = self.part(place);
        &mut self.marks[part]
    }

    /// Where a grid lies in the buffers.
    fn part(&self, place: usize) -> Range<usize> {
        // a grid that was begun, or whose parts were taken, has fit sides
        let n = |record: &Record| record.sides.voxels().unwrap_or(0);
        let start = self.records[..place].iter().map(n).sum();
        start..start + n(&self.records[place])
    }
}
