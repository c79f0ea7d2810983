//! Carve a solid box down to a scanned body, and tell whether the body is closed.
//!
//! Each function here is one call of the proved library, with slices for its lent buffers. A refusal is an error that carries its number,
//! and has written nothing. Any input at all gets an answer. [`Grid`] keeps a record and its two buffers together, and marks where you set
//! any.
//!
//! ```
//! use wattlerugby::{Grid, Sides, NO_LIMIT};
//!
//! let sides = Sides { a: 3, b: 3, c: 3 };
//! let mut values = [5; 27];
//! values[13] = -5;
//! let mut grid = Grid::begin(sides, 0, &values)?;
//! grid.carve(NO_LIMIT)?;
//! grid.finish()?;
//! let point = grid.crossing(13, 0)?.expect("the surface lies between voxels 13 and 14");
//! assert_eq!((point.x, point.y, point.z), (1.5, 1.0, 1.0));
//! assert_eq!(grid.points()?.count(), 6);
//! # Ok::<(), wattlerugby::Refusal>(())
//! ```
//!
//! A grid file comes in by [`read`], or a layer at a time by [`read_layer`], and goes out by [`write()`]; [`read_values`] and [`written`] have
//! a vector for it. A [`patch`] behind its layers corrects a single voxel. Each grid has one written form, so two of them are the same exactly
//! where their files are:
//!
//! ```
//! use wattlerugby::{written, Grid, Sides};
//!
//! let mut values = [5; 27];
//! values[13] = -5;
//! let file = written(Sides { a: 3, b: 3, c: 3 }, 0, &values)?;
//! assert_eq!(Grid::from_file(&file), Grid::begin(Sides { a: 3, b: 3, c: 3 }, 0, &values));
//! # Ok::<(), wattlerugby::Refusal>(())
//! ```
//!
//! # Marks
//!
//! An operator may hold a voxel, or want it gone early. So [`begin`], [`carve`], [`take`] and [`open`] are lent a mark byte for each voxel:
//! [`UNMARKED`], [`PINNED`], [`HURRIED`], or both, where the pin alone counts. A [`Grid`] has its own, all [`UNMARKED`] unless you set them, and
//! lends them to each call.
//!
//! A pinned voxel is removed by no call, passed over by [`open`], and made pending by no removal. So a kept voxel that every call pins is kept
//! at the end. A pin brings nothing back: what is gone, or lies outside the box that begin keeps, is not held; and it holds that voxel alone, so
//! that after openings it may hang free, as a piece of its own. The inside is kept anyway.
//!
//! A hurried voxel is pending from [`begin`] on if it is kept and outside, and [`carve`] examines hurried pending voxels before all others. It
//! goes if it passes, as any other.
//!
//! Where a voxel is both, the pin comes first and alone: [`PINNED_AND_HURRIED`] means what [`PINNED`] means, in every call. Before version 0.10
//! such a voxel was hurried too: pending from [`begin`] on, and examined first, though it stayed.
//!
//! The marks that count are those of the call itself. A pending voxel that is pinned later stays pending until it is examined in its turn,
//! counts and stays; a hurry that is new, or a pin that is taken off, makes no voxel pending. On inside, gone and border voxels marks have no
//! effect.
//!
//! ```
//! use wattlerugby::{Grid, Refusal, Sides, GONE};
//!
//! // a ring: eight voxels around an empty one, in the middle layer of 5 x 5 x 3, with openings enough
//! let mut values = [4; 75];
//! for i in [31, 32, 33, 36, 38, 41, 42, 43] {
//!     values[i] = -4;
//! }
//! let mut ring = Grid::begin(Sides { a: 5, b: 5, c: 3 }, 2, &values)?;
//! ring.pin(37)?;
//! ring.carve_to_the_end()?;
//! assert_eq!(ring.ended_by(), Some(Refusal::NOTHING_TO_OPEN));
//! assert_ne!(ring.status()[37], GONE); // its hole is held
//! assert_eq!(ring.record().openings, 0);
//! # Ok::<(), Refusal>(())
//! ```
//!
//! # A coarse start
//!
//! Where much of the box around the inside is not inside, as around a stockpile, [`carve`] spends its time on voxels far from the body.
//! [`begin_coarse`] first carves blocks of 2 x 2 x 2 voxels to their end, without an opening, and hands out the kept blocks, split again, as the
//! body that the later calls carve. Record, buffers, calls and promises are those of [`begin`]; the blocks' examinations are answered beside the
//! record. Fewer examinations in all are not promised: where the inside fills its box there is little for blocks to save.
//!
//! The body need not be that of a plain start. Where [`open`] ends by 15 and nothing is pinned, it is, which is proved; with T limited the skin that
//! closes a hole may lie elsewhere, and a pin holds its whole block in the coarse run, also where its voxel lies outside the box around the inside.
//!
//! It needs even sides of 6 or more, and two voxels between the body and the grid's edge: otherwise it refuses with 31. It is lent a distance and a
//! status byte for each block besides; [`Grid::begin_coarse`] has them.
//!
//! # Removal lists
//!
//! Two firms that carve the same grid hand each other their removals as a list of [`Entry`]s in bytes, and [`judge`] tells whether a list keeps the
//! rules, without the program that made it. The order of distances is free, and marks are not lent. The body of an accepted list has what our own
//! calls promise, which is proved: the inside is kept, there is no hollow, the Euler number is right, and without an opening it is in one piece.
//!
//! ```
//! use wattlerugby::{Entry, Grid, Judged, Refusal, Sides};
//!
//! // a ring: eight voxels around an empty one, in the middle layer of 5 x 5 x 3, with one opening allowed
//! let mut values = [4; 75];
//! for i in [31, 32, 33, 36, 38, 41, 42, 43] {
//!     values[i] = -4;
//! }
//! let mut ring = Grid::begin(Sides { a: 5, b: 5, c: 3 }, 1, &values)?;
//! let opened = Entry::Opening(37).bytes();
//! assert_eq!(opened, [0x56, 0x4F, 37, 0, 0, 0]);
//! assert_eq!(ring.judge(&opened)?, Judged { removals: 1, openings: 1, euler: 0 });
//! assert_eq!(ring.judge(&[])?, Judged { removals: 0, openings: 0, euler: 1 }); // none passes, and nobody has to open
//! assert_eq!(ring.judge(&Entry::Ordinary(37).bytes()), Err(Refusal::BREAKS_RULES)); // the hole's skin does not pass
//! # Ok::<(), Refusal>(())
//! ```
//!
//! # Many scans at once
//!
//! An office server carves up to 16 grids by turns: each call of [`serve`] serves one, with a limit, so that none waits longer than the others need for
//! a turn each. An [`Office`] keeps the grids' buffers end to end, and lets grids come and go. What a grid comes to is what the same carves on it alone
//! come to, which is proved. Where nobody watches meanwhile, and each grid may take its time, threads with a [`Grid`] each are quicker: they use all
//! processors, and no call checks another's grid.
//!
//! # Practice grids
//!
//! A training course wants the same grids on every instrument, without a file: [`practice`] fills values from a seed, by rule alone.
//!
//! ```
//! use wattlerugby::{practice_values, Grid, Sides};
//!
//! let sides = Sides { a: 8, b: 8, c: 8 };
//! let values = practice_values(sides, 1)?;
//! assert!(values.iter().all(|value| (-1_000..=1_000).contains(value)));
//! let mut grid = Grid::begin(sides, 0, &values)?;
//! grid.carve_to_the_end()?;
//! assert_eq!(grid.record().euler, 1); // what a trainer reads off, as on every other instrument
//! # Ok::<(), wattlerugby::Refusal>(())
//! ```
//!
//! # The archive
//!
//! The library is the archive that `packaging/build` writes: build.rs looks for it in the folder that the variable `WATTLERUGBY_ARCHIVE`
//! names (as libwattlerugby.a or libcapi.a), otherwise in target/staticlib, or in lib/ of a release. `cargo doc` and `cargo check` need none;
//! where a program is to be built without it, the compiler names the archive that it does not find. The archive is for x86-64 Linux, and so is
//! this crate: for any other target it does not compile. An archive of another version, in which a call takes or answers something else, does
//! not link; [`archive_version`] tells which one is linked. Rounding must be to nearest, as it is where nobody changed it.
//!
//! What a result means is told in docs/RESULT.md, and the rules in docs/RULES.md.

#![warn(missing_docs)]

#[cfg(not(all(target_arch = "x86_64", target_os = "linux", target_pointer_width = "64")))]
compile_error!(
    "the proved library is an archive for x86-64 Linux with 64-bit pointers, and links into nothing else; \
     README.md says what can be done on other machines"
);

mod entry;
mod face;
mod grid;
mod office;
pub mod raw;
mod refusal;
mod surface;

pub use entry::Entry;
pub use face::Face;
pub use grid::{Blocks, Grid};
pub use office::{serve, Office, Order, Service};
pub use refusal::Refusal;
pub use surface::Points;

/// The version of this crate: major, minor and patch, so that versions compare by `<`.
pub const VERSION: (u32, u32, u32) =
    (number(env!("CARGO_PKG_VERSION_MAJOR")), number(env!("CARGO_PKG_VERSION_MINOR")), number(env!("CARGO_PKG_VERSION_PATCH")));

const fn number(digits: &str) -> u32 {
    match u32::from_str_radix(digits, 10) {
        Ok(number) => number,
        Err(_) => panic!("a part of a version is a number"),
    }
}

/// The version of the archive that is linked, as it answers itself, where [`VERSION`] is this crate's. The two may differ where every call has
/// the same form in both.
///
/// ```
/// use wattlerugby::{archive_version, VERSION};
///
/// assert_eq!(archive_version(), VERSION);
/// assert!(archive_version() >= (0, 7, 0)); // since then gaps behind the face count as inside
/// assert!(archive_version() >= (0, 10, 0)); // since then a voxel that is pinned and hurried is pinned alone
/// ```
pub fn archive_version() -> (u32, u32, u32) {
    // SAFETY: a number alone crosses.
    let number = unsafe { raw::wattlerugby_version_number() };
    (number / 1_000_000, number / 1_000 % 1_000, number % 1_000)
}

/// The value of a missing range point, which counts as outside, but as inside in a gap behind the face: see [`begin`]. Measured values are
/// [`LEAST_VALUE`] to [`GREATEST_VALUE`]; negative is inside the body. Any other value is refused with 28.
pub const MISSING: i32 = i32::MIN;
/// The least measured value.
pub const LEAST_VALUE: i32 = -1_000_000_000;
/// The greatest measured value.
pub const GREATEST_VALUE: i32 = 1_000_000_000;
/// The value of a missing range point where a value has two bytes: in narrow layers and in patches. As a value of four bytes -32,768 is
/// measured.
pub const NARROW_MISSING: i16 = i16::MIN;
/// The width of a layer whose values have two bytes each.
pub const NARROW: u8 = 2;
/// The width of a layer whose values have four bytes each.
pub const WIDE: u8 = 4;
/// A limit that no carve reaches.
pub const NO_LIMIT: u32 = u32::MAX;
/// The most grids that [`serve`] takes.
pub const MOST_GRIDS: usize = 16;
/// The greatest limit that [`serve`] takes.
pub const MOST_EXAMINATIONS: u32 = 1_000;
/// The bytes of the longest file that [`write()`] makes, that of 64 x 64 x 64 voxels with wide layers. A file with patches may be longer.
pub const LONGEST_FILE: usize = 1_048_775;
/// A status byte of a voxel that is not kept.
pub const GONE: u8 = 0;
/// A status byte of a voxel that is kept.
pub const KEPT: u8 = 1;
/// A status byte of a voxel that is kept and to be examined.
pub const PENDING: u8 = 3;
/// A mark byte of a voxel that is carved as ever.
pub const UNMARKED: u8 = 0;
/// A mark byte of a voxel that is held: no call removes it.
pub const PINNED: u8 = 1;
/// A mark byte of a voxel that is examined before all others, and from [`begin`] on.
pub const HURRIED: u8 = 2;
/// A mark byte of a voxel that is both, of which the pin alone counts: it means what [`PINNED`] means.
pub const PINNED_AND_HURRIED: u8 = 3;

/// The grid's sides, 3 to 64 voxels each, along x, y and z. Voxel (x, y, z) has index x + a (y + b z).
#[repr(C)]
#[derive(Clone, Copy, Debug, Default, PartialEq, Eq)]
pub struct Sides {
    /// Voxels along x.
    pub a: usize,
    /// Voxels along y.
    pub b: usize,
    /// Voxels along z.
    pub c: usize,
}

impl Sides {
    /// n, the number of voxels; nothing where a side is outside 3 to 64.
    ///
    /// ```
    /// # use wattlerugby::Sides;
    /// assert_eq!(Sides { a: 5, b: 5, c: 3 }.voxels(), Some(75));
    /// assert_eq!(Sides { a: 5, b: 5, c: 2 }.voxels(), None);
    /// ```
    pub fn voxels(&self) -> Option<usize> {
        let fit = [self.a, self.b, self.c].iter().all(|side| (3..=64).contains(side));
        fit.then(|| self.a * self.b * self.c)
    }

    /// n / 8 rounded down, the number of blocks of 2 x 2 x 2 voxels: so many elements each of the further buffers of [`begin_coarse`] has, whatever
    /// the sides. Nothing where a side is outside 3 to 64.
    ///
    /// ```
    /// # use wattlerugby::Sides;
    /// assert_eq!(Sides { a: 8, b: 8, c: 6 }.blocks(), Some(48));
    /// assert_eq!(Sides { a: 5, b: 5, c: 3 }.blocks(), Some(9));
    /// ```
    pub fn blocks(&self) -> Option<usize> {
        self.voxels().map(|n| n / 8)
    }
}

/// What [`begin`] and [`begin_coarse`] make, and every later call is given and answers anew.
///
/// A record is unfit, number 7, where openings > allowed, removals > n, examinations > 27 n or |euler| > 8 n; and with its buffers where a
/// status is not 0, 1 or 3, a border voxel's status is not 0, or a voxel of negative worked distance has a status other than 1.
///
/// It is plain data, and may be stored field by field with its buffers; [`Grid::from_parts`] resumes. [`raw::Record`] is the same as C has it.
#[derive(Clone, Copy, Debug, Default, PartialEq, Eq)]
pub struct Record {
    /// The grid's sides.
    pub sides: Sides,
    /// T, how many openings are allowed.
    pub allowed: u16,
    /// Openings made so far.
    pub openings: u32,
    /// Voxels removed so far, by carve, take and open.
    pub removals: u64,
    /// Voxels examined so far, by carve.
    pub examinations: u64,
    /// The Euler number of the kept voxels: 1 at first, and then pieces less tunnels.
    pub euler: i32,
    /// Whether finish was called.
    pub finished: bool,
}

/// A place in the grid, in voxels: the centre of voxel (x, y, z) is the point (x, y, z).
#[repr(C)]
#[derive(Clone, Copy, Debug, Default, PartialEq)]
pub struct Point {
    /// Along x.
    pub x: f64,
    /// Along y.
    pub y: f64,
    /// Along z.
    pub z: f64,
}

/// What [`begin_coarse`] did.
#[derive(Clone, Copy, Debug, PartialEq, Eq)]
pub struct CoarseBegun {
    /// Blocks examined by the coarse run, which the record's examinations do not count.
    pub examined: u32,
    /// The record for the next call.
    pub next: Record,
}

/// What [`carve`] did.
#[derive(Clone, Copy, Debug, PartialEq, Eq)]
pub struct Carved {
    /// Voxels examined by this call.
    pub examined: u32,
    /// Voxels removed by this call.
    pub removed: u32,
    /// Whether any voxel is still pending.
    pub pending: bool,
    /// Which side the last voxel that this call removed came out by; nothing exactly where it removed none.
    pub face: Option<Face>,
    /// The record for the next call.
    pub next: Record,
}

/// What [`take`] removed, with the local test's numbers, which are both 1.
#[derive(Clone, Copy, Debug, PartialEq, Eq)]
pub struct Taken {
    /// Groups of touched cells.
    pub k: u32,
    /// Groups of bare cells.
    pub m: u32,
    /// Which side the voxel came out by.
    pub face: Face,
    /// The record for the next call.
    pub next: Record,
}

/// Which voxel [`open`] removed, with the local test's numbers there: k - m was added to the Euler number.
#[derive(Clone, Copy, Debug, PartialEq, Eq)]
pub struct Opened {
    /// The voxel that was removed.
    pub index: usize,
    /// Groups of touched cells.
    pub k: u32,
    /// Groups of bare cells.
    pub m: u32,
    /// Which side the voxel came out by.
    pub face: Face,
    /// The record for the next call.
    pub next: Record,
}

/// What a list that [`judge`] accepts comes to.
#[derive(Clone, Copy, Debug, PartialEq, Eq)]
pub struct Judged {
    /// Voxels removed, openings among them: the list's entries.
    pub removals: u64,
    /// Openings among them.
    pub openings: u32,
    /// The Euler number of what the list leaves.
    pub euler: i32,
}

/// What [`points`] found.
#[derive(Clone, Copy, Debug, PartialEq, Eq)]
pub struct Filled {
    /// Points written, three doubles each, from the buffer's start on.
    pub count: usize,
    /// The position to go on from; 3 n where all were looked at.
    pub next: usize,
}

/// The local test: groups of touched cells and of bare ones, the touched corners, edges and faces, and the first face that is bare.
#[derive(Clone, Copy, Debug, PartialEq, Eq)]
pub struct LocalTest {
    /// Groups of touched cells.
    pub k: u32,
    /// Groups of bare cells.
    pub m: u32,
    /// Touched corners.
    pub corners: u32,
    /// Touched edges.
    pub edges: u32,
    /// Touched faces.
    pub faces: u32,
    /// The lowest numbered bare face; nothing exactly where all six are touched.
    pub face: Option<Face>,
}

/// A layer of a grid file: its z, and its values' bytes, low byte first, where they stand in the file.
#[derive(Clone, Copy, Debug, PartialEq, Eq)]
pub struct Layer<'a> {
    /// Which layer it is.
    pub z: u8,
    /// Bytes a value, [`NARROW`] or [`WIDE`].
    pub width: u8,
    /// Where in the file the values begin.
    pub from: usize,
    /// The values, `width` bytes each.
    pub bytes: &'a [u8],
}

impl<'a> Layer<'a> {
    /// The layer's values in index order, as [`read`] gives them: narrow ones are widened, [`NARROW_MISSING`] to [`MISSING`]. A wide layer may
    /// have values that [`read`] refuses with 28.
    ///
    /// ```
    /// use wattlerugby::{read_layer, written, Sides, MISSING, WIDE};
    ///
    /// let sides = Sides { a: 3, b: 3, c: 3 };
    /// let mut values = [40_000; 27];
    /// values[10] = MISSING;
    /// let file = written(sides, 0, &values)?;
    /// let first = read_layer(sides, &file, 7)?;
    /// let second = read_layer(sides, &file, first.end())?;
    /// assert_eq!((second.z, second.width), (1, WIDE));
    /// assert_eq!(second.values().collect::<Vec<_>>(), values[9..18]);
    /// # Ok::<(), wattlerugby::Refusal>(())
    /// ```
    pub fn values(&self) -> impl Iterator<Item = i32> + 'a {
        self.bytes.chunks_exact(usize::from(self.width.max(NARROW))).map(|bytes| match *bytes {
            [low, high] => widened(i16::from_le_bytes([low, high])),
            _ => bytes.iter().rev().fold(0, |value, &byte| value << 8 | i32::from(byte)),
        })
    }

    /// The byte of the file after the layer's last: where the next record begins, and patches behind the last layer.
    pub fn end(&self) -> usize {
        self.from + self.bytes.len()
    }
}

/// The value that two bytes of a narrow layer or of a patch stand for: the same number, or [`MISSING`] for [`NARROW_MISSING`].
pub fn widened(value: i16) -> i32 {
    match value {
        NARROW_MISSING => MISSING,
        _ => i32::from(value),
    }
}

fn done<T>(refusal: u8, answer: T) -> Result<T, Refusal> {
    if refusal == 0 {
        Ok(answer)
    } else {
        Err(Refusal(refusal))
    }
}

/// A face in an answer. No number over 6 is ever one, so that it is not taken for 6.
fn face(number: u32) -> Option<Face> {
    (number != raw::NO_FACE).then(|| Face::of(number).expect("a face in an answer is 0 to 6"))
}

/// The face of a voxel that was taken or opened. That neither call answers 6 is proved (`TakeHasFace`, `OpenHasFace`): a voxel that passes the
/// local test has a bare face, and open chooses among voxels that have one.
fn bare_face(number: u32) -> Face {
    face(number).expect("a voxel that is taken or opened has a bare face")
}

/// Starts a grid from n measured values and n marks, and fills both other buffers with worked distances and status bytes. Of the kept voxels
/// outside that are not pinned those are pending which lie bare or are hurried. Marks change nothing else.
///
/// No shot reaches the middle of a thick wall, so missing points are looked at first. A gap is a group of them joined by faces, with all that
/// are joined to it. Where none of it lies on the grid's border, and every other voxel that shares a face with it is measured negative, it is
/// a gap behind the face, and counts as measured with value -1. The inside is then the largest group of negative voxels that touch.
///
/// So a missing point that counts as inside has the worked distance -1, and as all of the inside it is never lost, whatever calls follow.
/// Before [`finish`] it is told by its value: of negative distance, and [`MISSING`].
///
/// Checks: 1, 2 (any of the four buffers), 28, 29, 3, 4.
///
/// ```
/// use wattlerugby::{Grid, Refusal, Sides, MISSING};
///
/// // a block of 3 x 3 x 3 voxels, and no shot reached its middle
/// let sides = Sides { a: 5, b: 5, c: 5 };
/// let inner = |i: usize| [i % 5, i / 5 % 5, i / 25].iter().all(|p| (1..4).contains(p));
/// let mut values: Vec<i32> = (0..125).map(|i| if inner(i) { -7 } else { 7 }).collect();
/// values[62] = MISSING;
/// let mut grid = Grid::begin(sides, 9, &values)?;
/// assert_eq!(grid.distances()[62], -1);
/// assert_eq!(grid.take(62), Err(Refusal::INSIDE));
///
/// values[61] = 0; // with an outside voxel beside it, it counts as outside
/// let grid = Grid::begin(sides, 9, &values)?;
/// assert_eq!(grid.distances()[62], 7);
/// # Ok::<(), wattlerugby::Refusal>(())
/// ```
pub fn begin(sides: Sides, allowed: u16, values: &[i32], marks: &[u8], dist: &mut [i32], status: &mut [u8]) -> Result<Record, Refusal> {
    // SAFETY: each pointer and length is one live slice's, the two mutable ones overlap nothing, and none is kept. So it is below.
    let r = unsafe {
        raw::wattlerugby_begin(
            sides,
            allowed,
            values.as_ptr(),
            values.len(),
            marks.as_ptr(),
            marks.len(),
            dist.as_mut_ptr(),
            dist.len(),
            status.as_mut_ptr(),
            status.len(),
        )
    };
    done(r.refusal, r.next.into())
}

/// Starts a grid as [`begin`] does, with a run on blocks of 2 x 2 x 2 voxels first, and fills all four other buffers. Gaps, the inside and `dist`
/// are [`begin`]'s. `block_dist` and `block_status` have [`Sides::blocks`] elements, and are left as the coarse run leaves them.
///
/// A block's distance is the least of its eight voxels', and it is pinned where one of them is; hurries wait. Kept at first is the smallest box of
/// blocks that holds the negative ones, and it is carved to its end without an opening. The voxels of the blocks that are left are the body to
/// start from; of them those that are neither inside nor pinned are pending which lie bare or are hurried.
///
/// Checks: 1, 2 (any of the six buffers), 28, 29, 3, 4, 31 (a side is odd or under 6, or a measured negative voxel, inside or not, has a coordinate
/// below 2 or above that side less 3).
///
/// ```
/// use wattlerugby::{begin_coarse, Refusal, Sides, GONE, KEPT, PENDING, UNMARKED};
///
/// let sides = Sides { a: 8, b: 8, c: 6 };
/// let mut values = [5; 384];
/// values[2 + 8 * (2 + 8 * 2)] = -5;
/// values[3 + 8 * (3 + 8 * 3)] = -5; // of the same block, and joined to the first by nothing: it is discarded
/// let (mut dist, mut status, mut block_dist, mut block_status) = ([0; 384], [0; 384], [0; 48], [0; 48]);
/// let mut begin = |values: &[i32]| {
///     begin_coarse(sides, 0, values, &[UNMARKED; 384], &mut dist, &mut status, &mut block_dist, &mut block_status)
/// };
/// let begun = begin(&values)?;
/// assert_eq!((begun.examined, begun.next.examinations, begun.next.euler), (0, 0, 1));
///
/// values[1 + 8 * (2 + 8 * 2)] = -5; // one voxel off the edge, and two are asked for
/// assert_eq!(begin(&values), Err(Refusal::COARSE));
/// assert_eq!((block_dist[21], block_status[21], block_status[22]), (-5, KEPT, GONE));
/// assert_eq!((status[2 + 8 * (2 + 8 * 2)], status[3 + 8 * (2 + 8 * 2)]), (KEPT, PENDING));
/// # Ok::<(), Refusal>(())
/// ```
#[allow(clippy::too_many_arguments)] // one of each that the call takes
pub fn begin_coarse(
    sides: Sides,
    allowed: u16,
    values: &[i32],
    marks: &[u8],
    dist: &mut [i32],
    status: &mut [u8],
    block_dist: &mut [i32],
    block_status: &mut [u8],
) -> Result<CoarseBegun, Refusal> {
    // SAFETY: as in `begin`, of four mutable slices.
    let r = unsafe {
        raw::wattlerugby_begin_coarse(
            sides,
            allowed,
            values.as_ptr(),
            values.len(),
            marks.as_ptr(),
            marks.len(),
            dist.as_mut_ptr(),
            dist.len(),
            status.as_mut_ptr(),
            status.len(),
            block_dist.as_mut_ptr(),
            block_dist.len(),
            block_status.as_mut_ptr(),
            block_status.len(),
        )
    };
    done(r.refusal, CoarseBegun { examined: r.examined, next: r.next.into() })
}

/// Examines pending voxels, `limit` of them at most: hurried ones before all others, and of either each time the one with the greatest worked
/// distance, of equals the one with the smallest index. Those that pass the local test and are not pinned are gone. Many small calls with the
/// same marks leave what one large call leaves. With a limit of 1 the answer's face is that of the one voxel that is gone, if any is.
///
/// Checks: 1, 2, 7, 29, 8.
///
/// ```
/// use wattlerugby::{begin, carve, Face, Sides, NO_LIMIT, PINNED, UNMARKED};
///
/// let mut values = [6; 48];
/// (values[21], values[26]) = (-6, -6); // two voxels that touch in an edge: 22 and 25 fill the box around them
/// let (mut dist, mut marks, mut status) = ([0; 48], [UNMARKED; 48], [0; 48]);
/// let record = begin(Sides { a: 4, b: 4, c: 3 }, 0, &values, &marks, &mut dist, &mut status)?;
/// let done = carve(record, &dist, &marks, &mut status.clone(), NO_LIMIT)?;
/// assert_eq!((done.examined, done.removed, done.pending), (2, 2, false));
/// assert_eq!(done.face, Some(Face::LowX)); // of 25, the last
///
/// marks[25] = PINNED; // it is pending already
/// let done = carve(record, &dist, &marks, &mut status, NO_LIMIT)?;
/// assert_eq!((done.examined, done.removed, done.pending), (2, 1, false));
/// assert_eq!(done.face, Some(Face::HighX)); // of 22: 25 was examined after it, and stayed
/// # Ok::<(), wattlerugby::Refusal>(())
/// ```
pub fn carve(given: impl Into<raw::Record>, dist: &[i32], marks: &[u8], status: &mut [u8], limit: u32) -> Result<Carved, Refusal> {
    // SAFETY: as in `begin`.
    let r = unsafe {
        raw::wattlerugby_carve(
            given.into(),
            dist.as_ptr(),
            dist.len(),
            marks.as_ptr(),
            marks.len(),
            status.as_mut_ptr(),
            status.len(),
            limit,
        )
    };
    done(r.refusal, r).map(|r| carve_answer(r.examined, r.removed, r.pending, r.face, r.next))
}

/// Carve's answer, by itself or of the grid that was served.
fn carve_answer(examined: u32, removed: u32, pending: bool, face_number: u32, next: raw::Record) -> Carved {
    Carved { examined, removed, pending, face: face(face_number), next: next.into() }
}

/// Removes the voxel of that index, pending or not, if it is kept, outside, not pinned, and passes the local test.
///
/// Checks: 1, 2, 7, 29, 8, 5, 10, 11, 30, 12.
pub fn take(given: impl Into<raw::Record>, dist: &[i32], marks: &[u8], status: &mut [u8], index: usize) -> Result<Taken, Refusal> {
    // SAFETY: as in `begin`.
    let r = unsafe {
        raw::wattlerugby_take(
            given.into(),
            dist.as_ptr(),
            dist.len(),
            marks.as_ptr(),
            marks.len(),
            status.as_mut_ptr(),
            status.len(),
            index,
        )
    };
    done(r.refusal, r).map(|r| Taken { k: r.k, m: r.m, face: bare_face(r.face), next: r.next.into() })
}

/// Removes the kept outside voxel with a face neighbour not kept that has the greatest worked distance, of equals the smallest index. Pinned
/// ones are passed over, and hurries have no say.
///
/// Checks: 1, 2, 7, 29, 8, 13, 14, 15.
pub fn open(given: impl Into<raw::Record>, dist: &[i32], marks: &[u8], status: &mut [u8]) -> Result<Opened, Refusal> {
    // SAFETY: as in `begin`.
    let r = unsafe {
        raw::wattlerugby_open(given.into(), dist.as_ptr(), dist.len(), marks.as_ptr(), marks.len(), status.as_mut_ptr(), status.len())
    };
    done(r.refusal, r).map(|r| Opened { index: r.index, k: r.k, m: r.m, face: bare_face(r.face), next: r.next.into() })
}

/// Judges a removal list, a row of [`Entry`]s in bytes, from the kept voxels of `status` on, with counts of 0 and the Euler number 1. Once the record
/// is found fit only its sides and T count. Both buffers end as they began, whatever the answer; `status` is worked in meanwhile.
///
/// A list is accepted exactly where each voxel is kept and outside at its turn; an ordinary one passes the local test then; an opening has a face
/// neighbour that is not kept, and comes when no kept voxel outside passes; there are at most T openings; and at the end no kept voxel outside passes.
///
/// Checks: 1, 2 (`dist` and `status`), 7, 8; of each entry in turn 21 (fewer than 6 bytes are left), 22, 5 (the index is n or more), 32 (a rule is
/// broken); at the end 33 (a voxel passes).
///
/// ```
/// use wattlerugby::{begin, judge, Entry, Judged, Refusal, Sides, UNMARKED};
///
/// let sides = Sides { a: 4, b: 4, c: 3 };
/// let mut values = [6; 48];
/// (values[21], values[26]) = (-6, -6); // two voxels that touch in an edge: 22 and 25 fill the box around them, and pass
/// let (mut dist, mut status) = ([0; 48], [0; 48]);
/// let record = begin(sides, 0, &values, &[UNMARKED; 48], &mut dist, &mut status)?;
/// let mut list = |entries: &[Entry]| judge(record, &dist, &mut status, &Entry::list(entries));
///
/// let both = Judged { removals: 2, openings: 0, euler: 1 };
/// assert_eq!(list(&[Entry::Ordinary(22), Entry::Ordinary(25)])?, both);
/// assert_eq!(list(&[Entry::Ordinary(25), Entry::Ordinary(22)])?, both); // the order is free
/// assert_eq!(list(&[Entry::Ordinary(22)]), Err(Refusal::STILL_PASSES)); // 25 does
/// assert_eq!(list(&[Entry::Ordinary(21)]), Err(Refusal::BREAKS_RULES)); // it is inside
/// # Ok::<(), Refusal>(())
/// ```
pub fn judge(given: impl Into<raw::Record>, dist: &[i32], status: &mut [u8], list: &[u8]) -> Result<Judged, Refusal> {
    // SAFETY: as in `begin`.
    let r = unsafe {
        raw::wattlerugby_judge(given.into(), dist.as_ptr(), dist.len(), status.as_mut_ptr(), status.len(), list.as_ptr(), list.len())
    };
    done(r.refusal, Judged { removals: r.removals, openings: r.openings, euler: r.euler })
}

/// Makes every kept voxel part of the body: a worked distance w of 0 or more becomes -w, or -1 where w is 0.
///
/// Checks: 1, 2, 7, 8, 13.
pub fn finish(given: impl Into<raw::Record>, dist: &mut [i32], status: &[u8]) -> Result<Record, Refusal> {
    // SAFETY: as in `begin`.
    let r = unsafe { raw::wattlerugby_finish(given.into(), dist.as_mut_ptr(), dist.len(), status.as_ptr(), status.len()) };
    done(r.refusal, r.next.into())
}

/// Where the surface of a finished body crosses the line from the voxel of that index to the next along an axis (0, 1, 2), if it does.
///
/// Checks: 1, 2, 7, 9, 5, 6.
pub fn crossing(given: impl Into<raw::Record>, dist: &[i32], status: &[u8], index: usize, axis: u32) -> Result<Option<Point>, Refusal> {
    // SAFETY: as in `begin`.
    let r = unsafe { raw::wattlerugby_crossing(given.into(), dist.as_ptr(), dist.len(), status.as_ptr(), status.len(), index, axis) };
    done(r.refusal, r.crosses.then_some(r.point))
}

/// The points of all crossings of a finished body from a position on, three doubles a point, until there is no room in `out` for one more
/// or the positions end. Position 3 i + k stands for [`crossing`] from voxel i along axis k, and each point is that call's; a position
/// without one gives none. The rest of `out` stays as it was. Answers how many, and the position to go on from: 3 n at the end.
///
/// The grid is checked once a call, so `out` should be large. [`Grid::points`] gives them all.
///
/// Checks: 1, 2 (`dist` and `status`), 7, 9, 5 (the position is over 3 n).
pub fn points(given: impl Into<raw::Record>, dist: &[i32], status: &[u8], position: usize, out: &mut [f64]) -> Result<Filled, Refusal> {
    // SAFETY: as in `begin`.
    let r = unsafe {
        raw::wattlerugby_points(
            given.into(),
            dist.as_ptr(),
            dist.len(),
            status.as_ptr(),
            status.len(),
            position,
            out.as_mut_ptr(),
            out.len(),
        )
    };
    done(r.refusal, Filled { count: r.count, next: r.next })
}

/// Sides and T of a grid file by its first 7 bytes, as [`read`] answers them; the rest of it is not looked at. [`Sides::voxels`] of them is how
/// many values [`read`] is to be lent.
///
/// Checks: 21 (fewer than 7 bytes), 22, 1.
///
/// ```
/// use wattlerugby::{read_header, Refusal, Sides};
///
/// let (sides, allowed) = read_header(&[0x56, 0x48, 5, 4, 3, 2, 1])?;
/// assert_eq!((sides.voxels(), allowed), (Some(60), 258));
/// assert_eq!(read_header(&[0x56, 0x48, 5, 4, 2, 0, 0]), Err(Refusal::SIDE));
/// # Ok::<(), Refusal>(())
/// ```
pub fn read_header(file: &[u8]) -> Result<(Sides, u16), Refusal> {
    let [first, second, a, b, c, low, high] = *file.first_chunk().ok_or(Refusal::SHORT)?;
    if [first, second] != [0x56, 0x48] {
        return Err(Refusal::MARK);
    }
    let sides = Sides { a: a.into(), b: b.into(), c: c.into() };
    sides.voxels().ok_or(Refusal::SIDE)?;
    Ok((sides, u16::from_le_bytes([low, high])))
}

/// Reads a whole grid file as [`read`] does, into a vector of its own: sides, T and the values, as [`Grid::begin`] and [`written`] take them.
///
/// ```
/// use wattlerugby::{patch, read_values, written, Refusal, Sides};
///
/// let sides = Sides { a: 3, b: 4, c: 5 };
/// let mut file = written(sides, 1, &[5; 60])?;
/// file.extend(patch(7, -5));
/// let (read, allowed, values) = read_values(&file)?;
/// assert_eq!((read, allowed, values[6], values[7]), (sides, 1, 5, -5));
///
/// file.pop();
/// assert_eq!(read_values(&file), Err(Refusal::SHORT));
/// # Ok::<(), Refusal>(())
/// ```
pub fn read_values(file: &[u8]) -> Result<(Sides, u16, Vec<i32>), Refusal> {
    let (sides, _) = read_header(file)?;
    let mut values = vec![0; sides.voxels().unwrap_or(0)];
    let (sides, allowed) = read(file, &mut values)?;
    Ok((sides, allowed, values))
}

/// Reads a whole grid file into n values, the layers with the patches applied in the order of the file, and answers sides and T.
/// [`read_header`] tells how many values to lend, and [`read_values`] has a vector of so many.
///
/// Layers come from the bottom up: z is 0 in the first record and one more in each that follows. In a file with another order the first record
/// that is not so is refused, with 24 where its z came before and with 27 where not. [`read_layer`] finds the records of such a file.
///
/// A layer record has two bytes a value, or four where it begins with hex 56 57; a file may have both. A value of two bytes is [`widened`], and
/// one of four that is neither in range nor [`MISSING`] is refused with 28, also where a patch follows to that voxel.
///
/// All bytes after the last layer are taken as patch records, which [`patch`] makes. There is no limit to their number, and the time is in
/// proportion to the file's length. Every check is made before the first value is written.
///
/// Checks: of the header 21 (fewer than 7 bytes), 22, 1, 2; of each layer record in turn 21, 22, 23, 24, 27, 28; of each patch record in turn
/// 21 (fewer than 8 bytes are left), 22, 5 (the index is n or more).
///
/// ```
/// use wattlerugby::{read, Refusal, Sides};
///
/// let file = |order: [u8; 3]| {
///     let layers = order.map(|z| [&[0x56, 0x4C, z], &[z, 0].repeat(9)[..]].concat());
///     [&[0x56, 0x48, 3, 3, 3, 2, 0], &layers.concat()[..]].concat()
/// };
/// let mut values = [0; 27];
/// assert_eq!(read(&file([0, 1, 2]), &mut values)?, (Sides { a: 3, b: 3, c: 3 }, 2));
/// assert_eq!((values[0], values[9], values[18]), (0, 1, 2));
///
/// assert_eq!(read(&file([0, 2, 1]), &mut values), Err(Refusal::LAYER_ORDER));
/// assert_eq!(read(&file([0, 1, 1]), &mut values), Err(Refusal::LAYER_TWICE));
/// # Ok::<(), Refusal>(())
/// ```
pub fn read(file: &[u8], values: &mut [i32]) -> Result<(Sides, u16), Refusal> {
    // SAFETY: as in `begin`.
    let r = unsafe { raw::wattlerugby_read(file.as_ptr(), file.len(), values.as_mut_ptr(), values.len()) };
    done(r.refusal, (r.sides, r.allowed))
}

/// The layer whose record begins at byte `start`, any number, as a part of the file. Neither patches nor the other layers are looked at, so it
/// is found whatever the file's order; nor are its values, so there is no 28.
///
/// Checks: 1, 21, 22, 23.
pub fn read_layer(sides: Sides, file: &[u8], start: usize) -> Result<Layer<'_>, Refusal> {
    // SAFETY: as in `begin`.
    let r = unsafe { raw::wattlerugby_read_layer(sides, file.as_ptr(), file.len(), start) };
    done(r.refusal, Layer { z: r.z, width: r.width, from: r.from, bytes: &file[r.from..r.to] })
}

/// The patch record that gives the voxel of that index a new value: append it to a grid file. Of two patches to a voxel the later stands. A
/// patch has two bytes for its value, which is [`widened`]: what they do not hold goes out by [`write()`] alone.
///
/// ```
/// use wattlerugby::{patch, read, written, Refusal, Sides};
///
/// let mut file = written(Sides { a: 3, b: 3, c: 3 }, 0, &[5; 27])?;
/// file.extend(patch(13, 40));
/// file.extend(patch(13, -5));
/// let mut values = [0; 27];
/// read(&file, &mut values)?;
/// assert_eq!((values[12], values[13], values[14]), (5, -5, 5));
///
/// file.extend(patch(27, -5)); // there is no such voxel
/// assert_eq!(read(&file, &mut values), Err(Refusal::INDEX));
/// # Ok::<(), Refusal>(())
/// ```
pub fn patch(index: u32, value: i16) -> [u8; 8] {
    let ([i, j, k, l], [low, high]) = (index.to_le_bytes(), value.to_le_bytes());
    [0x56, 0x50, i, j, k, l, low, high]
}

/// The width of the layers that [`write()`] makes of these values: [`NARROW`] where each measured one is -32,767 to 32,767, a grid of missing
/// points alone included, otherwise [`WIDE`].
///
/// ```
/// use wattlerugby::{written_width, MISSING, NARROW, WIDE};
///
/// assert_eq!(written_width(&[MISSING, -32_767, 32_767]), NARROW);
/// assert_eq!(written_width(&[MISSING, -32_768, 32_767]), WIDE);
/// ```
pub fn written_width(values: &[i32]) -> u8 {
    let narrow = |&value: &i32| value == MISSING || (-32_767..=32_767).contains(&value);
    match values.iter().all(narrow) {
        true => NARROW,
        false => WIDE,
    }
}

/// How many bytes header and layers of a grid with these sides have where all layers are of this width: that is the file that [`write()`] makes
/// of values whose [`written_width`] it is, and [`WIDE`] is room for either. Nothing where a side is outside 3 to 64, which [`write()`] refuses
/// with 1, or where the width is neither 2 nor 4.
///
/// ```
/// use wattlerugby::{written_length, Sides, LONGEST_FILE, NARROW, WIDE};
///
/// assert_eq!(written_length(Sides { a: 4, b: 4, c: 3 }, NARROW), Some(112));
/// assert_eq!(written_length(Sides { a: 4, b: 4, c: 3 }, WIDE), Some(208));
/// assert_eq!(written_length(Sides { a: 64, b: 64, c: 64 }, WIDE), Some(LONGEST_FILE));
/// assert_eq!(written_length(Sides { a: usize::MAX, b: 4, c: 3 }, NARROW), None);
/// assert_eq!(written_length(Sides { a: 4, b: 4, c: 3 }, 3), None);
/// ```
pub fn written_length(sides: Sides, width: u8) -> Option<usize> {
    let n = sides.voxels().filter(|_| [NARROW, WIDE].contains(&width))?;
    Some(7 + 3 * sides.c + usize::from(width) * n)
}

/// Writes n values with their sides and T as a grid file, layers in rising z and no patches, and answers its length. [`read`] takes these
/// bytes and gives the same sides, T and values. Nothing in them is left to choice: a grid has one written form.
///
/// The layers are all of [`written_width`], whatever the width was in a file that the values were read from. A missing point is written as the
/// mark of that width, also where [`begin`] counts it as inside, and a grid that [`begin`] would refuse with 3 or 4 is written like any other.
/// `file` may be longer than [`written_length`]; its bytes past that stay as they were.
///
/// Checks: 1, 2 (`values`), 28, 26.
///
/// ```
/// use wattlerugby::{write, Refusal, Sides};
///
/// let sides = Sides { a: 3, b: 3, c: 3 };
/// let mut file = [0xEE; 80];
/// assert_eq!(write(sides, 2, &[-6; 27], &mut file)?, 70);
/// assert_eq!(file[..12], [0x56, 0x48, 3, 3, 3, 2, 0, 0x56, 0x4C, 0, 0xFA, 0xFF]);
/// assert_eq!(file[70..], [0xEE; 10]);
/// assert_eq!(write(sides, 2, &[-6; 27], &mut file[..69]), Err(Refusal::ROOM));
///
/// let mut file = [0xEE; 124];
/// assert_eq!(write(sides, 2, &[-60_000; 27], &mut file)?, 124);
/// assert_eq!(file[7..14], [0x56, 0x57, 0, 0xA0, 0x15, 0xFF, 0xFF]);
/// assert_eq!(write(sides, 2, &[2_000_000_000; 27], &mut file), Err(Refusal::VALUE));
/// # Ok::<(), Refusal>(())
/// ```
pub fn write(sides: Sides, allowed: u16, values: &[i32], file: &mut [u8]) -> Result<usize, Refusal> {
    // SAFETY: as in `begin`.
    let r = unsafe { raw::wattlerugby_write(sides, allowed, values.as_ptr(), values.len(), file.as_mut_ptr(), file.len()) };
    done(r.refusal, r.length)
}

/// The file that [`write()`] writes, in a vector of its length.
///
/// Checks: 1, 2, 28.
///
/// ```
/// use wattlerugby::{read, written, Sides, MISSING};
///
/// let (sides, values) = (Sides { a: 3, b: 4, c: 5 }, [MISSING; 60]);
/// let file = written(sides, 1, &values)?;
/// let mut again = [0; 60];
/// assert_eq!(read(&file, &mut again)?, (sides, 1));
/// assert_eq!(again, values);
/// # Ok::<(), wattlerugby::Refusal>(())
/// ```
pub fn written(sides: Sides, allowed: u16, values: &[i32]) -> Result<Vec<u8>, Refusal> {
    let mut file = vec![0; written_length(sides, written_width(values)).unwrap_or(0)];
    write(sides, allowed, values, &mut file)?;
    Ok(file)
}

/// Fills n values with the practice grid of a seed, whatever they held: the same on every instrument. s, of 32 bits, starts as the seed, and for each
/// index in rising order hex 9E3779B9 is added to it, with wrapping. A border voxel gets 1,000; any other the remainder of s ^ (s >> 16) by 2,001,
/// less 1,000. So no value is missing, each is -1,000 to 1,000, and [`begin`] answers a record, or 4 where none is negative, which is proved.
///
/// Checks: 1, 2 (`values`).
///
/// ```
/// use wattlerugby::{practice, Refusal, Sides};
///
/// let (sides, mut values) = (Sides { a: 3, b: 3, c: 3 }, [7; 27]);
/// practice(sides, 0, &mut values)?;
/// assert_eq!((values[12], values[13], values[14]), (1_000, -239, 1_000)); // the centre alone is not on the border
/// assert_eq!(practice(sides, 0, &mut values[1..]), Err(Refusal::LENGTH));
/// assert_eq!(practice(Sides { a: 2, ..sides }, 0, &mut values), Err(Refusal::SIDE));
/// # Ok::<(), Refusal>(())
/// ```
pub fn practice(sides: Sides, seed: u32, values: &mut [i32]) -> Result<(), Refusal> {
    // SAFETY: as in `begin`.
    let r = unsafe { raw::wattlerugby_practice(sides, seed, values.as_mut_ptr(), values.len()) };
    done(r.refusal, ())
}

/// The values that [`practice`] fills, in a vector of as many as there are voxels, as [`Grid::begin`] and [`written`] take them.
///
/// Checks: 1.
///
/// ```
/// use wattlerugby::{practice_values, Refusal, Sides};
///
/// let values = practice_values(Sides { a: 4, b: 3, c: 3 }, u32::MAX)?;
/// assert_eq!((values.len(), values[16], values[19]), (36, 1_000, 1_000));
/// assert_eq!(practice_values(Sides { a: 4, b: 3, c: 65 }, 0), Err(Refusal::SIDE));
/// # Ok::<(), Refusal>(())
/// ```
pub fn practice_values(sides: Sides, seed: u32) -> Result<Vec<i32>, Refusal> {
    let mut values = vec![0; sides.voxels().unwrap_or(0)];
    practice(sides, seed, &mut values)?;
    Ok(values)
}

/// The test of a block: bit (dx + 1) + 3 (dy + 1) + 9 (dz + 1) of `kept` says whether the voxel at (dx, dy, dz) from the middle is kept.
/// The middle's own, bit 13, and bits from 27 on are not regarded. The middle voxel may go exactly when k and m are both 1. For every block
/// m = k + 1 - corners + edges - faces. A face is touched exactly where the voxel across it is kept, and the lowest numbered one that is bare
/// is the side that the middle voxel comes out by.
///
/// ```
/// use wattlerugby::{local_test, Face};
///
/// let below = local_test(1 << 4); // one face neighbour: the voxel is a bump
/// assert_eq!((below.k, below.m, below.face), (1, 1, Some(Face::LowX)));
/// let between = local_test(1 << 4 | 1 << 22); // two opposite ones: it is a bridge
/// assert_eq!((between.k, between.m), (2, 1));
///
/// // a tile on the floor, between four others: up is the only way out
/// let tile = local_test(1 << 4 | 1 << 10 | 1 << 12 | 1 << 14 | 1 << 16);
/// assert_eq!((tile.k, tile.m, tile.face), (1, 1, Some(Face::HighZ)));
/// assert_eq!(local_test(!0).face, None); // shut in
/// ```
pub fn local_test(kept: u32) -> LocalTest {
    // SAFETY: numbers alone cross.
    let r = unsafe { raw::wattlerugby_local_test(kept) };
    LocalTest { k: r.k, m: r.m, corners: r.corners, edges: r.edges, faces: r.faces, face: face(r.face) }
}
