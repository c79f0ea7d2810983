//! What crosses between the harness and an implementation of the rules: the wrapper's own types, so that the C interface is declared once, and
//! answers without a face where an archive has none.

use std::hint::black_box;
pub use wattlerugby::raw::{LocalAnswer as Local, NO_FACE};
use wattlerugby::{widened, NARROW_MISSING};
pub use wattlerugby::{Record, Sides, HURRIED, MISSING, PINNED, UNMARKED};

/// What carve answers. A face is told by its number, and not at all by an archive from before document 02's CR 8.
#[derive(Clone, Copy, Debug, PartialEq, Eq)]
pub struct Carved {
    pub examined: u32,
    pub removed: u32,
    pub pending: bool,
    pub face: Option<u32>,
    pub next: Record,
}

/// What take answers.
#[derive(Clone, Copy, Debug, PartialEq, Eq)]
pub struct Taken {
    pub k: u32,
    pub m: u32,
    pub face: Option<u32>,
    pub next: Record,
}

/// What open answers.
#[derive(Clone, Copy, Debug, PartialEq, Eq)]
pub struct Opened {
    pub index: usize,
    pub k: u32,
    pub m: u32,
    pub face: Option<u32>,
    pub next: Record,
}

/// n, also where a side is not fit.
pub fn size(sides: Sides) -> usize {
    sides.a * sides.b * sides.c
}

/// The record that begin answers.
pub fn begun(sides: Sides, allowed: u16) -> Record {
    Record { sides, allowed, euler: 1, ..Record::default() }
}

/// The counts of number 7.
pub fn counts_fit(record: &Record) -> bool {
    let n = size(record.sides) as u64;
    record.openings <= u32::from(record.allowed)
        && record.removals <= n
        && record.examinations <= 27 * n
        && u64::from(record.euler.unsigned_abs()) <= 8 * n
}

/// A refusal's number.
pub type Refused = u8;

/// A grid's values as the calls are lent them. An archive from before document 02's CR 5 has 16 bits a value in its interface: the copy for it is
/// made, and what it fills in is taken back, outside of all that is timed or counted.
#[derive(Clone, Debug, Default)]
pub struct Values {
    pub wide: Vec<i32>,
    /// None where one of them needs more than 16 bits.
    narrow: Vec<i16>,
}

/// The value in 16 bits, where it is measured in the narrow range or missing.
pub fn narrowed(value: i32) -> Option<i16> {
    match value {
        MISSING => Some(NARROW_MISSING),
        _ => i16::try_from(value).ok().filter(|&v| v != NARROW_MISSING),
    }
}

impl From<Vec<i32>> for Values {
    fn from(wide: Vec<i32>) -> Self {
        let narrow: Option<Vec<i16>> = wide.iter().map(|&v| narrowed(v)).collect();
        Values { wide, narrow: narrow.unwrap_or_default() }
    }
}

impl Values {
    pub fn set(&mut self, from: &Values) {
        self.wide.copy_from_slice(&from.wide);
        self.narrow.copy_from_slice(&from.narrow);
    }

    /// Reads both, so that no implementation finds its own colder than another does.
    pub fn warm(&self) {
        black_box(self.wide.iter().fold(0, |all, v| all ^ v));
        black_box(self.narrow.iter().fold(0, |all, v| all ^ v));
    }
}

/// By the values themselves, whichever of the two a call was lent.
impl PartialEq for Values {
    fn eq(&self, other: &Self) -> bool {
        self.wide == other.wide
    }
}

/// A value in the interface of an implementation.
pub trait Value: Copy {
    fn lent(values: &Values) -> &[Self];
    fn lent_to_fill(values: &mut Values) -> &mut [Self];
    /// Takes back what a call filled in, so that it can be compared.
    fn take_back(values: &mut Values);
}

impl Value for i32 {
    fn lent(values: &Values) -> &[i32] {
        &values.wide
    }

    fn lent_to_fill(values: &mut Values) -> &mut [i32] {
        &mut values.wide
    }

    fn take_back(_: &mut Values) {}
}

impl Value for i16 {
    fn lent(values: &Values) -> &[i16] {
        &values.narrow
    }

    fn lent_to_fill(values: &mut Values) -> &mut [i16] {
        &mut values.narrow
    }

    fn take_back(values: &mut Values) {
        values.wide.iter_mut().zip(&values.narrow).for_each(|(wide, &narrow)| *wide = widened(narrow));
    }
}

/// A mark of its own kind for each voxel; any other byte is number 29.
pub fn any_stray_mark(marks: &[u8]) -> bool {
    marks.iter().fold(0, |all, mark| all | mark) > PINNED | HURRIED
}

pub fn pinned(mark: u8) -> bool {
    mark & PINNED != 0
}

pub fn hurried(mark: u8) -> bool {
    mark == HURRIED
}

/// The five calls of the carving machine.
pub trait Machine {
    const NAME: &'static str;
    type Value: Value;
    fn begin(
        sides: Sides,
        allowed: u16,
        values: &[Self::Value],
        marks: &[u8],
        dist: &mut [i32],
        status: &mut [u8],
    ) -> Result<Record, Refused>;
    fn carve(given: Record, dist: &[i32], marks: &[u8], status: &mut [u8], limit: u32) -> Result<Carved, Refused>;
    fn take(given: Record, dist: &[i32], marks: &[u8], status: &mut [u8], index: usize) -> Result<Taken, Refused>;
    fn open(given: Record, dist: &[i32], marks: &[u8], status: &mut [u8]) -> Result<Opened, Refused>;
    fn finish(given: Record, dist: &mut [i32], status: &[u8]) -> Result<Record, Refused>;
}
