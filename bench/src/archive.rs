//! The product through its C interface as the wrapper declares it: the archive as it is now, and that of another commit where build.rs was
//! given one.

use crate::types::{Carved, Local, Machine, Opened, Record, Refused, Sides, Taken, Value, Values};
use wattlerugby::raw::{CarveAnswer, CrossingAnswer, OpenAnswer, PointsAnswer, ReadAnswer, ReadLayerAnswer, TakeAnswer, WriteAnswer};

fn answered<T>(refusal: u8, answer: T) -> Result<T, Refused> {
    match refusal {
        0 => Ok(answer),
        number => Err(number),
    }
}

/// An answer's face, where it has one.
trait Sided {
    fn face(&self) -> Option<u32> {
        None
    }
}

impl Sided for CarveAnswer {
    fn face(&self) -> Option<u32> {
        Some(self.face)
    }
}

impl Sided for TakeAnswer {
    fn face(&self) -> Option<u32> {
        Some(self.face)
    }
}

impl Sided for OpenAnswer {
    fn face(&self) -> Option<u32> {
        Some(self.face)
    }
}

pub type Points = fn(Record, &[i32], &[u8], usize, &mut [f64]) -> PointsAnswer;
pub type Write = fn(Sides, u16, &Values, &mut [u8]) -> WriteAnswer;

/// The calls of an archive beside the machine's. Older archives have not all of them.
#[derive(Clone, Copy)]
pub struct Others {
    pub crossing: fn(Record, &[i32], &[u8], usize, u32) -> CrossingAnswer,
    pub points: Option<Points>,
    pub read: fn(&[u8], &mut Values) -> ReadAnswer,
    /// After read, before what it filled in is compared.
    pub take_back: fn(&mut Values),
    pub write: Option<Write>,
}

/// An archive's calls by slices, from a module that declares them.
// SAFETY, of each call: the pointers and lengths are those of slices that are borrowed for the call.
macro_rules! archive {
    ($module:ident, $type:ident, $name:literal, $value:ty, $points:expr, $write:expr, $($raw:tt)+) => {
        pub mod $module {
            use super::*;
            use $($raw)+ as raw;

            pub struct $type;

            #[inline]
            pub fn local_test(kept: u32) -> Local {
                // SAFETY: numbers alone cross.
                unsafe { raw::wattlerugby_local_test(kept) }
            }

            fn crossing(given: Record, dist: &[i32], status: &[u8], index: usize, axis: u32) -> CrossingAnswer {
                unsafe { raw::wattlerugby_crossing(given.into(), dist.as_ptr(), dist.len(), status.as_ptr(), status.len(), index, axis) }
            }

            fn read(file: &[u8], values: &mut Values) -> ReadAnswer {
                let values = <$value>::lent_to_fill(values);
                unsafe { raw::wattlerugby_read(file.as_ptr(), file.len(), values.as_mut_ptr(), values.len()) }
            }

            pub const OTHERS: Others = Others { crossing, points: $points, read, take_back: <$value>::take_back, write: $write };

            impl Machine for $type {
                const NAME: &'static str = $name;
                type Value = $value;

                fn begin(
                    sides: Sides,
                    allowed: u16,
                    values: &[$value],
                    marks: &[u8],
                    dist: &mut [i32],
                    status: &mut [u8],
                ) -> Result<Record, Refused> {
                    let (v, m, d, s) = (values.as_ptr(), marks.as_ptr(), dist.as_mut_ptr(), status.as_mut_ptr());
                    let (vl, ml, dl, sl) = (values.len(), marks.len(), dist.len(), status.len());
                    let r = unsafe { raw::wattlerugby_begin(sides, allowed, v, vl, m, ml, d, dl, s, sl) };
                    answered(r.refusal, r.next.into())
                }

                fn carve(given: Record, dist: &[i32], marks: &[u8], status: &mut [u8], limit: u32) -> Result<Carved, Refused> {
                    let (d, m, s) = (dist.as_ptr(), marks.as_ptr(), status.as_mut_ptr());
                    let r = unsafe { raw::wattlerugby_carve(given.into(), d, dist.len(), m, marks.len(), s, status.len(), limit) };
                    let (face, next) = (r.face(), r.next.into());
                    answered(r.refusal, Carved { examined: r.examined, removed: r.removed, pending: r.pending, face, next })
                }

                fn take(given: Record, dist: &[i32], marks: &[u8], status: &mut [u8], index: usize) -> Result<Taken, Refused> {
                    let (d, m, s) = (dist.as_ptr(), marks.as_ptr(), status.as_mut_ptr());
                    let r = unsafe { raw::wattlerugby_take(given.into(), d, dist.len(), m, marks.len(), s, status.len(), index) };
                    answered(r.refusal, Taken { k: r.k, m: r.m, face: r.face(), next: r.next.into() })
                }

                fn open(given: Record, dist: &[i32], marks: &[u8], status: &mut [u8]) -> Result<Opened, Refused> {
                    let (d, m, s) = (dist.as_ptr(), marks.as_ptr(), status.as_mut_ptr());
                    let r = unsafe { raw::wattlerugby_open(given.into(), d, dist.len(), m, marks.len(), s, status.len()) };
                    answered(r.refusal, Opened { index: r.index, k: r.k, m: r.m, face: r.face(), next: r.next.into() })
                }

                fn finish(given: Record, dist: &mut [i32], status: &[u8]) -> Result<Record, Refused> {
                    let r = unsafe { raw::wattlerugby_finish(given.into(), dist.as_mut_ptr(), dist.len(), status.as_ptr(), status.len()) };
                    answered(r.refusal, r.next.into())
                }
            }
        }
    };
}

fn points_now(given: Record, dist: &[i32], status: &[u8], position: usize, out: &mut [f64]) -> PointsAnswer {
    let (d, s, o) = (dist.as_ptr(), status.as_ptr(), out.as_mut_ptr());
    // SAFETY: as in the macro.
    unsafe { wattlerugby::raw::wattlerugby_points(given.into(), d, dist.len(), s, status.len(), position, o, out.len()) }
}

fn write_now(sides: Sides, allowed: u16, values: &Values, file: &mut [u8]) -> WriteAnswer {
    let values = i32::lent(values);
    // SAFETY: as in the macro.
    unsafe { wattlerugby::raw::wattlerugby_write(sides, allowed, values.as_ptr(), values.len(), file.as_mut_ptr(), file.len()) }
}

/// Ours alone: the other archive's answer may be without the width.
pub fn read_layer(sides: Sides, file: &[u8], start: usize) -> ReadLayerAnswer {
    // SAFETY: as in the macro.
    unsafe { wattlerugby::raw::wattlerugby_read_layer(sides, file.as_ptr(), file.len(), start) }
}

archive!(now, Ours, "ours", i32, Some(points_now), Some(write_now), wattlerugby::raw);

/// The same calls under the names that build.rs gave those of the other archive.
#[cfg(before)]
#[allow(clashing_extern_declarations)]
mod prefixed {
    use crate::types::{Local, Sides};
    use wattlerugby::raw::{BeginAnswer, CrossingAnswer, FinishAnswer, ReadAnswer, Record};
    #[cfg(before_faces)]
    use wattlerugby::raw::{CarveAnswer, OpenAnswer, TakeAnswer};

    /// The answers of an archive from before document 02's CR 8, which have no face. The local test's is then 0.
    #[cfg(not(before_faces))]
    mod faceless {
        use super::super::Sided;
        use super::*;

        #[repr(C)]
        pub struct CarveAnswer {
            pub refusal: u8,
            pub examined: u32,
            pub removed: u32,
            pub pending: bool,
            pub next: Record,
        }

        #[repr(C)]
        pub struct TakeAnswer {
            pub refusal: u8,
            pub k: u32,
            pub m: u32,
            pub next: Record,
        }

        #[repr(C)]
        pub struct OpenAnswer {
            pub refusal: u8,
            pub index: usize,
            pub k: u32,
            pub m: u32,
            pub next: Record,
        }

        #[repr(C)]
        struct LocalAnswer {
            k: u32,
            m: u32,
            corners: u32,
            edges: u32,
            faces: u32,
        }

        impl Sided for CarveAnswer {}
        impl Sided for TakeAnswer {}
        impl Sided for OpenAnswer {}

        extern "C" {
            fn before_wattlerugby_local_test(kept: u32) -> LocalAnswer;
        }

        #[inline(always)]
        pub unsafe fn wattlerugby_local_test(kept: u32) -> Local {
            let LocalAnswer { k, m, corners, edges, faces } = before_wattlerugby_local_test(kept);
            Local { k, m, corners, edges, faces, face: 0 }
        }
    }

    #[cfg(not(before_faces))]
    pub use faceless::{wattlerugby_local_test, CarveAnswer, OpenAnswer, TakeAnswer};

    /// A value in its interface, as build.rs was told.
    #[cfg(before_16)]
    pub type Value = i16;
    #[cfg(not(before_16))]
    pub type Value = i32;

    /// The calls that are lent marks, since document 02's CR 7. Of an archive from before that begin alone is tried.
    #[cfg_attr(not(before_marks), allow(dead_code))]
    pub mod marked {
        use super::*;

        extern "C" {
            #[link_name = "before_wattlerugby_begin"]
            pub fn wattlerugby_begin(
                sides: Sides,
                allowed: u16,
                values: *const Value,
                vl: usize,
                marks: *const u8,
                ml: usize,
                dist: *mut i32,
                dl: usize,
                status: *mut u8,
                sl: usize,
            ) -> BeginAnswer;
            #[link_name = "before_wattlerugby_carve"]
            pub fn wattlerugby_carve(
                given: Record,
                dist: *const i32,
                dl: usize,
                marks: *const u8,
                ml: usize,
                status: *mut u8,
                sl: usize,
                limit: u32,
            ) -> CarveAnswer;
            #[link_name = "before_wattlerugby_take"]
            pub fn wattlerugby_take(
                given: Record,
                dist: *const i32,
                dl: usize,
                marks: *const u8,
                ml: usize,
                status: *mut u8,
                sl: usize,
                index: usize,
            ) -> TakeAnswer;
            #[link_name = "before_wattlerugby_open"]
            pub fn wattlerugby_open(
                given: Record,
                dist: *const i32,
                dl: usize,
                marks: *const u8,
                ml: usize,
                status: *mut u8,
                sl: usize,
            ) -> OpenAnswer;
        }
    }

    /// The same calls of an archive from before that. What they are lent for marks is left out: it is all 0, or they are not called.
    #[cfg(not(before_marks))]
    mod unmarked {
        use super::*;

        extern "C" {
            fn before_wattlerugby_begin(
                sides: Sides,
                allowed: u16,
                values: *const Value,
                vl: usize,
                dist: *mut i32,
                dl: usize,
                status: *mut u8,
                sl: usize,
            ) -> BeginAnswer;
            fn before_wattlerugby_carve(given: Record, dist: *const i32, dl: usize, status: *mut u8, sl: usize, limit: u32) -> CarveAnswer;
            fn before_wattlerugby_take(given: Record, dist: *const i32, dl: usize, status: *mut u8, sl: usize, index: usize) -> TakeAnswer;
            fn before_wattlerugby_open(given: Record, dist: *const i32, dl: usize, status: *mut u8, sl: usize) -> OpenAnswer;
        }

        type Marks = *const u8;
        type Status = *mut u8;

        #[inline(always)]
        #[allow(clippy::too_many_arguments)]
        pub unsafe fn wattlerugby_begin(
            sides: Sides,
            allowed: u16,
            values: *const Value,
            vl: usize,
            _: Marks,
            _: usize,
            dist: *mut i32,
            dl: usize,
            status: Status,
            sl: usize,
        ) -> BeginAnswer {
            before_wattlerugby_begin(sides, allowed, values, vl, dist, dl, status, sl)
        }

        #[inline(always)]
        #[allow(clippy::too_many_arguments)]
        pub unsafe fn wattlerugby_carve(
            given: Record,
            dist: *const i32,
            dl: usize,
            _: Marks,
            _: usize,
            status: Status,
            sl: usize,
            limit: u32,
        ) -> CarveAnswer {
            before_wattlerugby_carve(given, dist, dl, status, sl, limit)
        }

        #[inline(always)]
        #[allow(clippy::too_many_arguments)]
        pub unsafe fn wattlerugby_take(
            given: Record,
            dist: *const i32,
            dl: usize,
            _: Marks,
            _: usize,
            status: Status,
            sl: usize,
            index: usize,
        ) -> TakeAnswer {
            before_wattlerugby_take(given, dist, dl, status, sl, index)
        }

        #[inline(always)]
        pub unsafe fn wattlerugby_open(
            given: Record,
            dist: *const i32,
            dl: usize,
            _: Marks,
            _: usize,
            status: Status,
            sl: usize,
        ) -> OpenAnswer {
            before_wattlerugby_open(given, dist, dl, status, sl)
        }
    }

    #[cfg(before_marks)]
    pub use marked::*;
    #[cfg(not(before_marks))]
    pub use unmarked::*;

    extern "C" {
        #[link_name = "before_wattlerugby_finish"]
        pub fn wattlerugby_finish(given: Record, dist: *mut i32, dl: usize, status: *const u8, sl: usize) -> FinishAnswer;
        #[link_name = "before_wattlerugby_crossing"]
        pub fn wattlerugby_crossing(
            given: Record,
            dist: *const i32,
            dl: usize,
            status: *const u8,
            sl: usize,
            index: usize,
            axis: u32,
        ) -> CrossingAnswer;
        #[cfg(before_points)]
        #[link_name = "before_wattlerugby_points"]
        pub fn wattlerugby_points(
            given: Record,
            dist: *const i32,
            dl: usize,
            status: *const u8,
            sl: usize,
            position: usize,
            out: *mut f64,
            ol: usize,
        ) -> wattlerugby::raw::PointsAnswer;
        #[link_name = "before_wattlerugby_read"]
        pub fn wattlerugby_read(file: *const u8, file_len: usize, values: *mut Value, values_len: usize) -> ReadAnswer;
        #[cfg(before_write)]
        #[link_name = "before_wattlerugby_write"]
        pub fn wattlerugby_write(
            sides: Sides,
            allowed: u16,
            values: *const Value,
            vl: usize,
            file: *mut u8,
            fl: usize,
        ) -> wattlerugby::raw::WriteAnswer;
        #[cfg(before_faces)]
        #[link_name = "before_wattlerugby_local_test"]
        pub fn wattlerugby_local_test(kept: u32) -> Local;
    }
}

#[cfg(before_points)]
fn points_before(given: Record, dist: &[i32], status: &[u8], position: usize, out: &mut [f64]) -> PointsAnswer {
    let (d, s, o) = (dist.as_ptr(), status.as_ptr(), out.as_mut_ptr());
    // SAFETY: as in the macro.
    unsafe { prefixed::wattlerugby_points(given.into(), d, dist.len(), s, status.len(), position, o, out.len()) }
}

#[cfg(before_write)]
fn write_before(sides: Sides, allowed: u16, values: &Values, file: &mut [u8]) -> WriteAnswer {
    let values = prefixed::Value::lent(values);
    // SAFETY: as in the macro.
    unsafe { prefixed::wattlerugby_write(sides, allowed, values.as_ptr(), values.len(), file.as_mut_ptr(), file.len()) }
}

#[cfg(before_points)]
const POINTS_BEFORE: Option<Points> = Some(points_before);
#[cfg(all(before, not(before_points)))]
const POINTS_BEFORE: Option<Points> = None;
#[cfg(before_write)]
const WRITE_BEFORE: Option<Write> = Some(write_before);
#[cfg(all(before, not(before_write)))]
const WRITE_BEFORE: Option<Write> = None;

#[cfg(before)]
archive!(before, Before, "before", super::prefixed::Value, POINTS_BEFORE, WRITE_BEFORE, super::prefixed);

/// Whether the other archive's calls are lent marks, and whether they tell faces, as their symbols say.
pub const BEFORE_HAS_MARKS: bool = cfg!(before_marks);
pub const BEFORE_HAS_FACES: bool = cfg!(before_faces);

/// Stops where the other archive's values have other bits than build.rs was told, before a call is lent too little.
#[cfg(before)]
pub fn check_before() {
    let (bits, told) = (bits_before(), prefixed::Value::BITS);
    assert!(bits == told, "the other archive's values have {bits} bits, not {told}: see WATTLERUGBY_BEFORE_BITS");
}

/// Its read is lent room for the longer values, and leaves the last of it alone where its own are the shorter.
#[cfg(before)]
fn bits_before() -> u32 {
    let layers = (0..3).flat_map(|z| [&[0x56, 0x4C, z], &[0xFF; 18][..]].concat());
    let file: Vec<u8> = [0x56, 0x48, 3, 3, 3, 0, 0].into_iter().chain(layers).collect();
    let mut room = [0i32; 27];
    // SAFETY: 27 values of either kind have room.
    let read = unsafe { prefixed::wattlerugby_read(file.as_ptr(), file.len(), room.as_mut_ptr().cast(), room.len()) };
    assert!(read.refusal == 0 && room[0] == -1, "the other archive reads no file");
    if room[26] == -1 {
        32
    } else {
        16
    }
}
