//! include/wattlerugby.h in Rust. The tests compare every size and offset with the header's, and every field with what the library
//! answers. The header says what each field and each call is; every pointer and length is one buffer's, as the header demands.

#![allow(missing_docs)]

use crate::{Order, Point, Sides, MOST_GRIDS};

/// A record as C has it: `finished` is any byte, and any but 0 is finished.
#[repr(C)]
#[derive(Clone, Copy, Debug, Default, PartialEq, Eq)]
pub struct Record {
    pub sides: Sides,
    pub allowed: u16,
    pub openings: u32,
    pub removals: u64,
    pub examinations: u64,
    pub euler: i32,
    pub finished: u8,
}

impl From<crate::Record> for Record {
    fn from(r: crate::Record) -> Self {
        let crate::Record { sides, allowed, openings, removals, examinations, euler, finished } = r;
        Record { sides, allowed, openings, removals, examinations, euler, finished: u8::from(finished) }
    }
}

impl From<Record> for crate::Record {
    fn from(r: Record) -> Self {
        let Record { sides, allowed, openings, removals, examinations, euler, finished } = r;
        crate::Record { sides, allowed, openings, removals, examinations, euler, finished: finished != 0 }
    }
}

#[repr(C)]
pub struct BeginAnswer {
    pub refusal: u8,
    pub next: Record,
}

#[repr(C)]
pub struct BeginCoarseAnswer {
    pub refusal: u8,
    pub examined: u32,
    pub next: Record,
}

#[repr(C)]
pub struct CarveAnswer {
    pub refusal: u8,
    pub examined: u32,
    pub removed: u32,
    pub pending: bool,
    pub face: u32,
    pub next: Record,
}

#[repr(C)]
pub struct TakeAnswer {
    pub refusal: u8,
    pub k: u32,
    pub m: u32,
    pub face: u32,
    pub next: Record,
}

#[repr(C)]
pub struct OpenAnswer {
    pub refusal: u8,
    pub index: usize,
    pub k: u32,
    pub m: u32,
    pub face: u32,
    pub next: Record,
}

/// The records of up to 16 grids, from place 0 on; those from `count` on are not looked at.
#[repr(C)]
#[derive(Clone, Copy, Debug, PartialEq, Eq)]
pub struct Grids {
    pub count: usize,
    pub records: [Record; MOST_GRIDS],
}

#[repr(C)]
pub struct ServeAnswer {
    pub refusal: u8,
    pub place: u8,
    pub examined: u32,
    pub removed: u32,
    pub pending: bool,
    pub face: u32,
    pub next: Record,
    pub order: Order,
}

#[repr(C)]
pub struct JudgeAnswer {
    pub refusal: u8,
    pub removals: u64,
    pub openings: u32,
    pub euler: i32,
}

#[repr(C)]
pub struct FinishAnswer {
    pub refusal: u8,
    pub next: Record,
}

#[repr(C)]
pub struct CrossingAnswer {
    pub refusal: u8,
    pub crosses: bool,
    pub point: Point,
}

#[repr(C)]
pub struct PointsAnswer {
    pub refusal: u8,
    pub count: usize,
    pub next: usize,
}

#[repr(C)]
pub struct ReadAnswer {
    pub refusal: u8,
    pub sides: Sides,
    pub allowed: u16,
}

#[repr(C)]
pub struct ReadLayerAnswer {
    pub refusal: u8,
    pub z: u8,
    pub width: u8,
    pub from: usize,
    pub to: usize,
}

#[repr(C)]
pub struct WriteAnswer {
    pub refusal: u8,
    pub length: usize,
}

#[repr(C)]
pub struct PracticeAnswer {
    pub refusal: u8,
}

#[repr(C)]
#[derive(Clone, Copy, Debug, PartialEq, Eq)]
pub struct LocalAnswer {
    pub k: u32,
    pub m: u32,
    pub corners: u32,
    pub edges: u32,
    pub faces: u32,
    pub face: u32,
}

/// What `face` is where no face is bare, and of a carve that removed nothing. After a refusal `face` is 0, as every number but `refusal` is, and
/// stands for no face either.
pub const NO_FACE: u32 = 6;

// The symbols are those that the header maps the names to.
extern "C" {
    pub fn wattlerugby_version_number() -> u32;

    #[link_name = "wattlerugby_begin_8"]
    pub fn wattlerugby_begin(
        sides: Sides,
        allowed: u16,
        values: *const i32,
        values_len: usize,
        marks: *const u8,
        marks_len: usize,
        dist: *mut i32,
        dist_len: usize,
        status: *mut u8,
        status_len: usize,
    ) -> BeginAnswer;

    pub fn wattlerugby_begin_coarse(
        sides: Sides,
        allowed: u16,
        values: *const i32,
        values_len: usize,
        marks: *const u8,
        marks_len: usize,
        dist: *mut i32,
        dist_len: usize,
        status: *mut u8,
        status_len: usize,
        block_dist: *mut i32,
        block_dist_len: usize,
        block_status: *mut u8,
        block_status_len: usize,
    ) -> BeginCoarseAnswer;

    #[link_name = "wattlerugby_carve_9"]
    pub fn wattlerugby_carve(
        given: Record,
        dist: *const i32,
        dist_len: usize,
        marks: *const u8,
        marks_len: usize,
        status: *mut u8,
        status_len: usize,
        limit: u32,
    ) -> CarveAnswer;

    #[link_name = "wattlerugby_take_9"]
    pub fn wattlerugby_take(
        given: Record,
        dist: *const i32,
        dist_len: usize,
        marks: *const u8,
        marks_len: usize,
        status: *mut u8,
        status_len: usize,
        index: usize,
    ) -> TakeAnswer;

    #[link_name = "wattlerugby_open_9"]
    pub fn wattlerugby_open(
        given: Record,
        dist: *const i32,
        dist_len: usize,
        marks: *const u8,
        marks_len: usize,
        status: *mut u8,
        status_len: usize,
    ) -> OpenAnswer;

    pub fn wattlerugby_serve(
        grids: Grids,
        order: Order,
        dist: *const i32,
        dist_len: usize,
        marks: *const u8,
        marks_len: usize,
        status: *mut u8,
        status_len: usize,
        limit: u32,
    ) -> ServeAnswer;

    pub fn wattlerugby_judge(
        given: Record,
        dist: *const i32,
        dist_len: usize,
        status: *mut u8,
        status_len: usize,
        list: *const u8,
        list_len: usize,
    ) -> JudgeAnswer;

    pub fn wattlerugby_finish(given: Record, dist: *mut i32, dist_len: usize, status: *const u8, status_len: usize) -> FinishAnswer;

    pub fn wattlerugby_crossing(
        given: Record,
        dist: *const i32,
        dist_len: usize,
        status: *const u8,
        status_len: usize,
        index: usize,
        axis: u32,
    ) -> CrossingAnswer;

    pub fn wattlerugby_points(
        given: Record,
        dist: *const i32,
        dist_len: usize,
        status: *const u8,
        status_len: usize,
        position: usize,
        out: *mut f64,
        out_len: usize,
    ) -> PointsAnswer;

    #[link_name = "wattlerugby_read_6"]
    pub fn wattlerugby_read(file: *const u8, file_len: usize, values: *mut i32, values_len: usize) -> ReadAnswer;

    #[link_name = "wattlerugby_read_layer_6"]
    pub fn wattlerugby_read_layer(sides: Sides, file: *const u8, file_len: usize, start: usize) -> ReadLayerAnswer;

    #[link_name = "wattlerugby_write_6"]
    pub fn wattlerugby_write(
        sides: Sides,
        allowed: u16,
        values: *const i32,
        values_len: usize,
        file: *mut u8,
        file_len: usize,
    ) -> WriteAnswer;

    pub fn wattlerugby_practice(sides: Sides, seed: u32, values: *mut i32, values_len: usize) -> PracticeAnswer;

    #[link_name = "wattlerugby_local_test_9"]
    pub fn wattlerugby_local_test(kept: u32) -> LocalAnswer;
}
