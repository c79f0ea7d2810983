//! A grid in work: a record with the two buffers that belong to it, and its marks.

use crate::{
    begin, begin_coarse, carve, crossing, finish, judge, open, read_values, take, Carved, Judged, Opened, Point, Points, Record, Refusal,
    Sides, Taken, HURRIED, NO_LIMIT, PINNED, UNMARKED,
};

/// A record with its worked distances and status bytes, and the marks that it lends to each call: none, unless you set them. After each call
/// the record is the one for the next.
///
/// It takes 6 bytes a voxel: 4 for the distance, one each for status and mark. The values that it begins from are not kept, and take 4 more
/// where you keep them. Crossings and the buffers only read, so threads may share a finished grid by `&Grid`.
///
/// ```
/// use wattlerugby::{Grid, Refusal, Sides, GONE};
///
/// // a ring: eight voxels around an empty one, in the middle layer of 5 x 5 x 3
/// let sides = Sides { a: 5, b: 5, c: 3 };
/// let mut values = [4; 75];
/// for i in [31, 32, 33, 36, 38, 41, 42, 43] {
///     values[i] = -4;
/// }
///
/// let mut closed = Grid::begin(sides, 0, &values)?;
/// closed.carve_to_the_end()?;
/// assert_eq!(closed.ended_by(), Some(Refusal::NO_OPENING_LEFT));
/// assert_ne!(closed.status()[37], GONE); // the hole is filled
///
/// let mut ring = Grid::begin(sides, 2, &values)?;
/// ring.carve_to_the_end()?;
/// assert_eq!(ring.ended_by(), Some(Refusal::NOTHING_TO_OPEN));
/// assert_eq!(ring.status()[37], GONE);
/// assert_eq!((ring.record().openings, ring.record().euler), (1, 0)); // one tunnel
/// # Ok::<(), Refusal>(())
/// ```
#[derive(Clone, Debug, PartialEq, Eq)]
pub struct Grid {
    record: Record,
    dist: Vec<i32>,
    marks: Vec<u8>,
    status: Vec<u8>,
    ended_by: Option<Refusal>,
}

/// What the coarse run of [`Grid::begin_coarse`] left: of each block of 2 x 2 x 2 voxels its distance, and whether it is kept. Block (x, y, z) has
/// the index x + a / 2 (y + b / 2 z) with sides a, b, c. No later call needs it.
#[derive(Clone, Debug, PartialEq, Eq)]
pub struct Blocks {
    /// Blocks examined, which the record's examinations do not count.
    pub examined: u32,
    /// The least worked distance of each block's eight voxels.
    pub dist: Vec<i32>,
    /// [`crate::GONE`] or [`crate::KEPT`].
    pub status: Vec<u8>,
}

impl Grid {
    /// Starts a grid from n measured values. See [`crate::begin`].
    pub fn begin(sides: Sides, allowed: u16, values: &[i32]) -> Result<Grid, Refusal> {
        Grid::start(sides, allowed, values, vec![UNMARKED; sides.voxels().unwrap_or(0)])
    }

    /// Starts a grid from n measured values with n marks of its own, so that hurried voxels are pending at once, and pinned ones are not. See
    /// [`crate::begin`].
    ///
    /// ```
    /// use wattlerugby::{Grid, Refusal, Sides, GONE, HURRIED, KEPT, NO_LIMIT, PENDING, PINNED, UNMARKED};
    ///
    /// let sides = Sides { a: 4, b: 4, c: 3 };
    /// let mut values = [6; 48];
    /// (values[21], values[26]) = (-6, -6); // two voxels that touch in an edge: 22 and 25 fill the box around them
    /// let mut marks = [UNMARKED; 48];
    /// marks[25] = HURRIED;
    /// let mut grid = Grid::begin_marked(sides, 0, &values, &marks)?;
    /// grid.carve(1)?;
    /// assert_eq!((grid.status()[22], grid.status()[25]), (PENDING, GONE)); // of equals 22 would have come first
    ///
    /// marks[22] = PINNED;
    /// let mut grid = Grid::begin_marked(sides, 0, &values, &marks)?;
    /// assert_eq!(grid.carve(NO_LIMIT)?.removed, 1);
    /// assert_eq!((grid.status()[22], grid.status()[25]), (KEPT, GONE));
    /// assert_eq!(grid.take(22), Err(Refusal::PINNED_VOXEL));
    /// # Ok::<(), Refusal>(())
    /// ```
    pub fn begin_marked(sides: Sides, allowed: u16, values: &[i32], marks: &[u8]) -> Result<Grid, Refusal> {
        Grid::start(sides, allowed, values, marks.to_vec())
    }

    /// Starts a grid from n measured values, with a run on blocks of 2 x 2 x 2 voxels first. See [`crate::begin_coarse`], and "A coarse start" on
    /// the crate's page.
    ///
    /// ```
    /// use wattlerugby::{Grid, Refusal, Sides};
    ///
    /// // three rods from one corner, one along each axis: most of the box around them is outside
    /// let sides = Sides { a: 14, b: 14, c: 14 };
    /// let place = |i: usize| [i % 14, i / 14 % 14, i / 196];
    /// let of_a_rod = |i: usize| place(i).iter().all(|p| (2..12).contains(p)) && place(i).iter().filter(|&&p| p == 2).count() > 1;
    /// let values: Vec<i32> = (0..2744).map(|i| if of_a_rod(i) { -5 } else { 5 }).collect();
    ///
    /// let mut plain = Grid::begin(sides, u16::MAX, &values)?;
    /// let (mut coarse, blocks) = Grid::begin_coarse(sides, u16::MAX, &values)?;
    /// plain.carve_to_the_end()?;
    /// coarse.carve_to_the_end()?;
    /// assert_eq!(plain.status(), coarse.status()); // both ended by 15, and nothing is pinned
    /// assert_eq!(plain.ended_by(), Some(Refusal::NOTHING_TO_OPEN));
    /// assert!(u64::from(blocks.examined) + coarse.record().examinations < plain.record().examinations);
    ///
    /// assert_eq!(Grid::begin_coarse(Sides { c: 13, ..sides }, 0, &values[..13 * 196]), Err(Refusal::COARSE)); // an odd side
    /// # Ok::<(), Refusal>(())
    /// ```
    pub fn begin_coarse(sides: Sides, allowed: u16, values: &[i32]) -> Result<(Grid, Blocks), Refusal> {
        Grid::start_coarse(sides, allowed, values, vec![UNMARKED; sides.voxels().unwrap_or(0)])
    }

    /// The same with n marks of its own. A pin holds the block that it lies in, also where the voxel lies outside the box around the inside; hurried
    /// voxels wait for the voxels' own turn. See [`crate::begin_coarse`].
    ///
    /// ```
    /// use wattlerugby::{Grid, Sides, GONE, KEPT, PINNED, UNMARKED};
    ///
    /// let sides = Sides { a: 8, b: 8, c: 8 };
    /// let (mut values, mut marks) = ([5; 512], [UNMARKED; 512]);
    /// (values[219], values[220]) = (-5, -5); // (3, 3, 3) and (4, 3, 3), and nothing else is in the box around them
    /// marks[146] = PINNED; // (2, 2, 2), in the block of (3, 3, 3)
    /// let plain = Grid::begin_marked(sides, 0, &values, &marks)?;
    /// let (coarse, blocks) = Grid::begin_coarse_marked(sides, 0, &values, &marks)?;
    /// assert_eq!((plain.status()[146], coarse.status()[146]), (GONE, KEPT));
    /// assert_eq!((blocks.dist.len(), blocks.status[21]), (64, KEPT));
    /// # Ok::<(), wattlerugby::Refusal>(())
    /// ```
    pub fn begin_coarse_marked(sides: Sides, allowed: u16, values: &[i32], marks: &[u8]) -> Result<(Grid, Blocks), Refusal> {
        Grid::start_coarse(sides, allowed, values, marks.to_vec())
    }

    /// A grid of parts that are known to be fit, which no call is asked about again.
    pub(crate) fn of(record: Record, dist: Vec<i32>, marks: Vec<u8>, status: Vec<u8>) -> Grid {
        Grid { record, dist, marks, status, ended_by: None }
    }

    fn start_coarse(sides: Sides, allowed: u16, values: &[i32], marks: Vec<u8>) -> Result<(Grid, Blocks), Refusal> {
        let (n, blocks) = (sides.voxels().unwrap_or(0), sides.blocks().unwrap_or(0));
        let (mut dist, mut status) = (vec![0; n], vec![0; n]);
        let (mut block_dist, mut block_status) = (vec![0; blocks], vec![0; blocks]);
        let begun = begin_coarse(sides, allowed, values, &marks, &mut dist, &mut status, &mut block_dist, &mut block_status)?;
        let grid = Grid::of(begun.next, dist, marks, status);
        Ok((grid, Blocks { examined: begun.examined, dist: block_dist, status: block_status }))
    }

    fn start(sides: Sides, allowed: u16, values: &[i32], marks: Vec<u8>) -> Result<Grid, Refusal> {
        let n = sides.voxels().unwrap_or(0);
        let (mut dist, mut status) = (vec![0; n], vec![0; n]);
        let record = begin(sides, allowed, values, &marks, &mut dist, &mut status)?;
        Ok(Grid::of(record, dist, marks, status))
    }

    /// Reads a grid file and begins. See [`crate::read`] for the file's numbers.
    ///
    /// ```
    /// use wattlerugby::{Grid, Refusal};
    ///
    /// assert_eq!(Grid::from_file(b"VH"), Err(Refusal::SHORT));
    /// ```
    pub fn from_file(file: &[u8]) -> Result<Grid, Refusal> {
        Ok(Grid::from_file_with_values(file)?.0)
    }

    /// Reads a grid file, begins, and gives the values too: by them missing points are told, and those among them that count as inside.
    ///
    /// ```
    /// use wattlerugby::{written, Grid, Sides, MISSING};
    ///
    /// // a block of 3 x 3 x 3 voxels; no shot reached its middle, nor a corner of the grid
    /// let inner = |i: usize| [i % 5, i / 5 % 5, i / 25].iter().all(|p| (1..4).contains(p));
    /// let mut values: Vec<i32> = (0..125).map(|i| if inner(i) { -7 } else { 7 }).collect();
    /// (values[0], values[62]) = (MISSING, MISSING);
    /// let file = written(Sides { a: 5, b: 5, c: 5 }, 0, &values)?;
    ///
    /// let (grid, values) = Grid::from_file_with_values(&file)?;
    /// let counts_as_inside = |&i: &usize| values[i] == MISSING && grid.distances()[i] < 0;
    /// assert_eq!((0..125).filter(counts_as_inside).collect::<Vec<_>>(), [62]);
    /// # Ok::<(), wattlerugby::Refusal>(())
    /// ```
    pub fn from_file_with_values(file: &[u8]) -> Result<(Grid, Vec<i32>), Refusal> {
        let (sides, allowed, values) = read_values(file)?;
        Ok((Grid::begin(sides, allowed, &values)?, values))
    }

    /// Resumes a grid from its parts, as [`Grid::into_parts`] gave them. Parts that every call would refuse are refused here: 1, 2, 7.
    ///
    /// Parts that are taken are fit. That they are what the calls left, and so what the proofs promise of a list of calls, is the
    /// caller's to see to. No voxel is marked: marks that were stored go back by [`Grid::marks_mut`].
    ///
    /// ```
    /// use wattlerugby::{Grid, Refusal, Sides};
    ///
    /// let mut values = [6; 48];
    /// (values[21], values[26]) = (-6, -6);
    /// let mut grid = Grid::begin(Sides { a: 4, b: 4, c: 3 }, 0, &values)?;
    /// grid.carve(1)?;
    ///
    /// let (record, dist, status) = grid.into_parts(); // store these, and later
    /// let mut grid = Grid::from_parts(record, dist, status)?;
    /// assert_eq!(grid.carve(1)?.removed, 1);
    /// assert_eq!(grid.record().removals, 2);
    ///
    /// let (record, dist, mut status) = grid.into_parts();
    /// status[0] = 9;
    /// assert_eq!(Grid::from_parts(record, dist, status), Err(Refusal::UNFIT));
    /// # Ok::<(), Refusal>(())
    /// ```
    pub fn from_parts(record: Record, dist: Vec<i32>, mut status: Vec<u8>) -> Result<Grid, Refusal> {
        // a carve of no examinations checks 1, 2, 7, then 8, and writes nothing
        let marks = vec![UNMARKED; dist.len()];
        match carve(record, &dist, &marks, &mut status, 0) {
            Ok(_) | Err(Refusal::FINISHED) => Ok(Grid::of(record, dist, marks, status)),
            Err(refused) => Err(refused),
        }
    }

    /// The record, the worked distances and the status bytes, to be stored or lent to the functions of this crate. Marks are no part of
    /// them: where there are any, store [`Grid::marks`] too.
    pub fn into_parts(self) -> (Record, Vec<i32>, Vec<u8>) {
        (self.record, self.dist, self.status)
    }

    /// The record for the next call.
    pub fn record(&self) -> Record {
        self.record
    }

    /// The worked distances, by index. Before [`Grid::finish`] the negative ones are the inside; after it, all that is kept.
    pub fn distances(&self) -> &[i32] {
        &self.dist
    }

    /// The status bytes, by index: [`crate::GONE`], [`crate::KEPT`] or [`crate::PENDING`].
    pub fn status(&self) -> &[u8] {
        &self.status
    }

    /// The marks that each call is lent, by index: [`crate::UNMARKED`], [`crate::PINNED`], [`crate::HURRIED`] or
    /// [`crate::PINNED_AND_HURRIED`], which counts as a pin alone.
    pub fn marks(&self) -> &[u8] {
        &self.marks
    }

    /// The marks, to be set for the calls from now on. With a byte over 3 these refuse with 29, until it is set right.
    ///
    /// ```
    /// use wattlerugby::{Grid, Refusal, Sides, NO_LIMIT, PINNED};
    ///
    /// let mut values = [5; 27];
    /// values[13] = -5;
    /// let mut grid = Grid::begin(Sides { a: 3, b: 3, c: 3 }, 0, &values)?;
    /// grid.marks_mut()[13] = 4;
    /// assert_eq!(grid.carve(NO_LIMIT), Err(Refusal::MARK_BYTE));
    /// grid.marks_mut().fill(PINNED);
    /// grid.carve(NO_LIMIT)?;
    /// # Ok::<(), Refusal>(())
    /// ```
    pub fn marks_mut(&mut self) -> &mut [u8] {
        &mut self.marks
    }

    /// Pins a voxel for the calls from now on, which do not remove it: see Marks on the crate's page. [`Grid::marks_mut`] takes a pin off.
    /// Refused with 5 where there is no such voxel.
    ///
    /// Where the voxel is hurried too, in whichever order, its mark byte holds both and the pin alone counts. The hurry is not lost: it counts
    /// from the call on for which the pin is taken off.
    ///
    /// ```
    /// use wattlerugby::{Grid, Sides, PENDING, PINNED, PINNED_AND_HURRIED};
    ///
    /// let mut values = [6; 48];
    /// (values[21], values[26]) = (-6, -6); // two voxels that touch in an edge: 22 and 25 fill the box around them, and are pending
    /// let mut grid = Grid::begin(Sides { a: 4, b: 4, c: 3 }, 0, &values)?;
    /// grid.hurry(25)?;
    /// grid.pin(25)?;
    /// assert_eq!(grid.marks()[25], PINNED_AND_HURRIED);
    /// let mut freed = grid.clone();
    /// grid.carve(1)?;
    /// assert_eq!(grid.status()[25], PENDING); // 22 came first, as it does where no voxel is hurried
    ///
    /// freed.marks_mut()[25] &= !PINNED;
    /// freed.carve(1)?;
    /// assert_eq!(freed.status()[22], PENDING); // 25 came first
    /// # Ok::<(), wattlerugby::Refusal>(())
    /// ```
    pub fn pin(&mut self, index: usize) -> Result<(), Refusal> {
        self.mark(index, PINNED)
    }

    /// Hurries a voxel for the calls from now on: where it is pending, carve examines it before all that are not hurried. It wakes nothing,
    /// so a voxel that is to be pending from the start is hurried by [`Grid::begin_marked`]. Of a voxel that is pinned the pin alone counts: see
    /// [`Grid::pin`]. Refused with 5 where there is no such voxel.
    pub fn hurry(&mut self, index: usize) -> Result<(), Refusal> {
        self.mark(index, HURRIED)
    }

    fn mark(&mut self, index: usize, mark: u8) -> Result<(), Refusal> {
        *self.marks.get_mut(index).ok_or(Refusal::INDEX)? |= mark;
        Ok(())
    }

    /// Examines pending voxels, `limit` of them at most. See [`crate::carve`].
    pub fn carve(&mut self, limit: u32) -> Result<Carved, Refusal> {
        let done = carve(self.record, &self.dist, &self.marks, &mut self.status, limit)?;
        self.record = done.next;
        Ok(done)
    }

    /// Removes one voxel, if it may go. See [`crate::take`].
    pub fn take(&mut self, index: usize) -> Result<Taken, Refusal> {
        let done = take(self.record, &self.dist, &self.marks, &mut self.status, index)?;
        self.record = done.next;
        Ok(done)
    }

    /// Opens the body at the farthest voxel. See [`crate::open`].
    pub fn open(&mut self) -> Result<Opened, Refusal> {
        let done = open(self.record, &self.dist, &self.marks, &mut self.status)?;
        self.record = done.next;
        Ok(done)
    }

    /// Judges a removal list from the voxels that are kept now, and leaves the grid as it is: begin, and judge before anything is carved. See
    /// [`crate::judge`], and "Removal lists" on the crate's page. The status bytes are worked in and put back, hence `&mut`.
    pub fn judge(&mut self, list: &[u8]) -> Result<Judged, Refusal> {
        judge(self.record, &self.dist, &mut self.status, list)
    }

    /// Makes what is kept the body. See [`crate::finish`].
    pub fn finish(&mut self) -> Result<(), Refusal> {
        self.record = finish(self.record, &mut self.dist, &self.status)?;
        Ok(())
    }

    /// A point of the finished body's surface. See [`crate::crossing`].
    pub fn crossing(&self, index: usize, axis: u32) -> Result<Option<Point>, Refusal> {
        crossing(self.record, &self.dist, &self.status, index, axis)
    }

    /// All points of the finished body's surface, in rising order of 3 index + axis. See [`crate::points`].
    ///
    /// ```
    /// use wattlerugby::{Grid, Refusal, Sides};
    ///
    /// let mut values = [5; 27];
    /// values[13] = -5;
    /// let mut grid = Grid::begin(Sides { a: 3, b: 3, c: 3 }, 0, &values)?;
    /// assert_eq!(grid.points().err(), Some(Refusal::NOT_FINISHED));
    /// grid.carve_to_the_end()?;
    /// let along_z: Vec<f64> = grid.points()?.filter(|p| (p.x, p.y) == (1.0, 1.0)).map(|p| p.z).collect();
    /// assert_eq!(along_z, [0.5, 1.5]);
    /// # Ok::<(), Refusal>(())
    /// ```
    pub fn points(&self) -> Result<Points<'_>, Refusal> {
        Points::of(self)
    }

    /// Carves to empty and opens in turn until open refuses, then finishes: the standard loop. [`Grid::ended_by`] has the number that
    /// ended it.
    pub fn carve_to_the_end(&mut self) -> Result<(), Refusal> {
        loop {
            self.carve(NO_LIMIT)?;
            if let Err(refused) = self.open() {
                self.finish()?;
                self.ended_by = Some(refused);
                return Ok(());
            }
        }
    }

    /// The number by which open ended [`Grid::carve_to_the_end`]; nothing where that was not called, or was refused.
    ///
    /// [`Refusal::NOTHING_TO_OPEN`]: all that could be removed was, with openings to spare; pinned voxels, and what they shut in, are still
    /// kept. [`Refusal::NO_OPENING_LEFT`]: as many openings as were allowed have been made, and what is still kept outside, if anything, is
    /// filled.
    pub fn ended_by(&self) -> Option<Refusal> {
        self.ended_by
    }
}
