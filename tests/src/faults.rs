//! Every fault that a call has, each by itself and whether or not another one is answered first. From document 01's numbers, document 02's for
//! `write`, for patch records, for the order of layers, for values of 32 bits, for marks, for coarse starts, for lists of removals, for practice grids
//! and for many scans at once, and docs/RULES.md for `points`, which is ours, with the order of checks beside them, and not from the reference's code:
//! so the kit can be asked for every pair of faults, and the reference is held to the order.

use crate::faces::ACROSS;
use crate::marks::{pinned, wrong_mark};
use crate::records::{contents, is_measured, negative, parts, patch_index, second_byte, written_length, written_width, LayerRecord};
use crate::records::{GREATEST, LEAST, LONGEST_INPUT, MISSING, NARROW, OPENING, ORDINARY, PATCH_LENGTH, REMOVAL_LENGTH, WIDE};
use crate::served::Office;
use reference::grid::{Record, Sides};
use reference::local::local_test;
use reference::replay::{Replay, Slot};

/// A check of a call in its place of the order: a number, or `header N` for a file's header and `patch N` for its patch records where a layer record
/// has that number too; `removal N` for the records of a list; and `order N` for an order record, where the grids have that number too.
pub type Check = &'static str;

pub struct Fault {
    /// Place in the order of checks; the lowest is answered.
    rank: usize,
    pub check: Check,
    /// Which clause of the number it is.
    pub cause: &'static str,
    /// The record of a file, patches counted on from the layers, or of a list.
    pub record: Option<usize>,
    /// The place of the grid, where there are many.
    pub place: Option<usize>,
}

impl Fault {
    pub fn number(&self) -> &'static str {
        self.check.rsplit(' ').next().unwrap_or(self.check)
    }

    /// Whether it is a fault of a patch record.
    pub fn of_patch(&self) -> bool {
        self.record.is_some() && PATCH.contains(&self.check)
    }
}

/// The checks of a patch record.
pub const PATCH: [Check; 3] = ["patch 21", "patch 22", "5"];

/// A call's checks in their order (document 01, the last two sentences of "Numbers that come from the state"; document 02, CR 1 for `write`, CR 2
/// for what follows the layers of a file and for the program's 25, CR 4 for 27, CR 5 for 28, CR 7 for 29 and 30, CR 10 for 31, CR 11 for `judge`,
/// CR 12 for `practice` and CR 14 for `serve`).
pub fn order(call: &str) -> Option<&'static [Check]> {
    Some(match call {
        "begin" => &["1", "2", "28", "29", "3", "4"],
        "begincoarse" => &["1", "2", "28", "29", "3", "4", "31"],
        "carve" => &["1", "2", "7", "29", "8"],
        "take" => &["1", "2", "7", "29", "8", "5", "10", "11", "30", "12"],
        "open" => &["1", "2", "7", "29", "8", "13", "14", "15"],
        "finish" => &["1", "2", "7", "8", "13"],
        "serve" => &["34", "1", "2", "7", "order 7", "29", "8", "35"],
        "judge" => &["1", "2", "7", "8", "removal 21", "removal 22", "removal 5", "32", "33"],
        "crossing" => &["1", "2", "7", "9", "5", "6"],
        "points" => &["1", "2", "7", "9", "5"],
        "readlayer" => &["1", "21", "22", "23"],
        "read" => &["header 21", "header 22", "1", "2", "21", "22", "23", "24", "27", "28", "patch 21", "patch 22", "5"],
        "program" => &["25", "header 21", "header 22", "1", "21", "22", "23", "24", "27", "28", "patch 21", "patch 22", "5", "3", "4"],
        "write" => &["1", "2", "28", "26"],
        "practice" => &["1", "2"],
        _ => return None,
    })
}

/// The faults of a call in the state before it, the one to be answered first; nothing where the line is no call that can be refused.
pub fn faults(state: &Replay, command: &str) -> Option<Vec<Fault>> {
    let words: Vec<&str> = command.split_ascii_whitespace().collect();
    let call = *words.first()?;
    let mut found = Found { order: order(call)?, list: Vec::new(), place: None };
    let argument = |i: usize| words.get(i).and_then(|word| word.parse::<u64>().ok()).unwrap_or(0);
    match call {
        "begin" | "begincoarse" => {
            found.sides(&state.sides, 64);
            found.lengths(&state.sides, &[("values", state.values.len()), ("marks", state.marks.len())]);
            found.lengths(&state.sides, &[("dist", state.dist.len()), ("status", state.status.len())]);
            found.range(&state.values);
            found.marks(&state.marks);
            found.values(&state.sides, &state.values);
            if call == "begincoarse" {
                found.further(&state.sides, &state.cdist, &state.cstatus);
                found.coarse(&state.sides, &state.values);
            }
        }
        "readlayer" => found.layer(&state.sides, &state.file, argument(1)),
        "read" => {
            found.header(&state.file, 64);
            found.lent(&state.file, state.values.len());
            found.records(&state.file);
        }
        "program" => {
            found.input(state.file.len());
            found.header(&state.file, 24);
            found.records(&state.file);
            let sides = file_sides(&state.file).unwrap_or(Sides { a: 0, b: 0, c: 0 });
            found.values(&sides, &contents(&state.file, &sides));
        }
        "write" => {
            found.sides(&state.sides, 64);
            found.lengths(&state.sides, &[("values", state.values.len())]);
            found.range(&state.values);
            found.room(&state.sides, written_width(&state.values), argument(1));
        }
        "practice" => {
            found.sides(&state.sides, 64);
            found.lengths(&state.sides, &[("values", state.values.len())]);
        }
        "serve" => found.office(&Office::of(state, argument(1) as usize), argument(2)),
        "judge" => {
            found.record(state);
            found.removals(state, &words.get(1).map_or(Vec::new(), |list| bytes_of(list)));
        }
        "points" => {
            found.record(state);
            found.position(&state.record.sides, argument(1));
        }
        _ => {
            found.record(state);
            if ["carve", "take", "open"].contains(&call) {
                found.lengths(&state.record.sides, &[("marks", state.marks.len())]);
                found.marks(&state.marks);
            }
            found.argument(call, state, argument(1), argument(2));
        }
    }
    found.list.sort_by_key(|fault| fault.rank);
    Some(found.list)
}

/// The bytes that hexadecimal digits stand for.
pub fn bytes_of(digits: &str) -> Vec<u8> {
    let digit = |byte: u8| char::from(byte).to_digit(16).unwrap_or(0) as u8;
    digits.as_bytes().chunks_exact(2).map(|pair| 16 * digit(pair[0]) + digit(pair[1])).collect()
}

/// n, whatever the sides are.
fn size(sides: &Sides) -> u128 {
    u128::from(sides.a).saturating_mul(sides.b.into()).saturating_mul(sides.c.into())
}

fn place(sides: &Sides, i: usize) -> [u128; 3] {
    let (i, a, b) = (i as u128, u128::from(sides.a), u128::from(sides.b));
    [i % a, i / a % b, i / (a * b)]
}

const PLANES: [[&str; 2]; 3] = [["x is 0", "x is last"], ["y is 0", "y is last"], ["z is 0", "z is last"]];

/// The border planes that a voxel lies on.
fn planes(sides: &Sides, i: usize) -> Vec<&'static str> {
    let at = place(sides, i);
    let last = [sides.a, sides.b, sides.c].map(|side| u128::from(side) - 1);
    let on = |k: usize| [(at[k] == 0).then_some(PLANES[k][0]), (at[k] == last[k]).then_some(PLANES[k][1])];
    (0..3).flat_map(on).flatten().collect()
}

/// The ends of the grid that a voxel is too near to for a coarse start.
fn near_planes(sides: &Sides, i: usize) -> Vec<&'static str> {
    const NEAR: [[&str; 2]; 3] = [["x below 2", "x above a - 3"], ["y below 2", "y above b - 3"], ["z below 2", "z above c - 3"]];
    let (at, all) = (place(sides, i), [sides.a, sides.b, sides.c].map(u128::from));
    let near = |k: usize| [(at[k] < 2).then_some(NEAR[k][0]), (at[k] + 3 > all[k]).then_some(NEAR[k][1])];
    (0..3).flat_map(near).flatten().collect()
}

/// Whether the voxel at some steps from another is kept; none beyond the grid or the buffer is.
fn kept(sides: &Sides, status: &[u8], i: usize, steps: [i64; 3]) -> bool {
    let (at, ends) = (place(sides, i), [sides.a, sides.b, sides.c]);
    let to = |k: usize| u64::try_from(at[k] as i64 + steps[k]).ok().filter(|&v| v < ends[k]);
    let (Some(x), Some(y), Some(z)) = (to(0), to(1), to(2)) else { return false };
    let j = u128::from(x) + u128::from(ends[0]) * (u128::from(y) + u128::from(ends[1]) * u128::from(z));
    usize::try_from(j).ok().and_then(|j| status.get(j)).is_some_and(|&s| s != 0)
}

fn passes(sides: &Sides, status: &[u8], i: usize) -> bool {
    let step = |p: usize| [p % 3, p / 3 % 3, p / 9].map(|digit| digit as i64 - 1);
    local_test(&std::array::from_fn(|p| kept(sides, status, i, step(p)))).passes()
}

fn bare(sides: &Sides, status: &[u8], i: usize) -> bool {
    ACROSS.into_iter().any(|step| !kept(sides, status, i, step))
}

/// Which clause of 28 a value fails, if any: the range has two ends, the missing mark lies beside it, and 32 bits end.
pub fn out_of_range(value: i32) -> Option<&'static str> {
    Some(match value {
        _ if value == MISSING || is_measured(value) => return None,
        _ if value == LEAST - 1 => "one under the range",
        _ if value == GREATEST + 1 => "one over the range",
        _ if value == MISSING + 1 => "one over the missing mark",
        i32::MAX => "the greatest of 32 bits",
        _ if value < 0 => "under the range",
        _ => "over the range",
    })
}

/// The three side bytes of a file, as far as it has them.
fn side_bytes(file: &[u8]) -> Vec<u64> {
    file.iter().skip(2).take(3).map(|&s| u64::from(s)).collect()
}

fn file_sides(file: &[u8]) -> Option<Sides> {
    match side_bytes(file)[..] {
        [a, b, c] => Some(Sides { a, b, c }),
        _ => None,
    }
}

/// Faults as they are found, of any number: those that the call does not check are dropped.
struct Found {
    order: &'static [Check],
    list: Vec<Fault>,
    /// Of the grid that is looked at, where there are many.
    place: Option<usize>,
}

impl Found {
    fn add(&mut self, check: &str, cause: &'static str) {
        if let Some(rank) = self.order.iter().position(|&c| c == check) {
            self.list.push(Fault { rank, check: self.order[rank], cause, record: None, place: self.place });
        }
    }

    /// Records are checked one after the other, and what follows them after all of them.
    fn add_record(&mut self, record: usize, check: &str, cause: &'static str) {
        if let Some(place) = self.order.iter().position(|&c| c == check) {
            let rank = 100 * (record + 1) + place;
            self.list.push(Fault { rank, check: self.order[place], cause, record: Some(record), place: None });
        }
    }

    fn add_last(&mut self, check: &str, cause: &'static str) {
        self.add(check, cause);
        if let Some(fault) = self.list.last_mut().filter(|fault| fault.check == check) {
            fault.rank += 1 << 30;
        }
    }

    fn if_so(&mut self, is: bool, check: &str, cause: &'static str) {
        if is {
            self.add(check, cause);
        }
    }

    /// `most` is 64, or the program's 24.
    fn side(&mut self, k: usize, side: u64, most: u64) {
        const CAUSES: [[&str; 4]; 3] = [
            ["a under 3", "a over 64", "a is 25", "a of 26 to 64"],
            ["b under 3", "b over 64", "b is 25", "b of 26 to 64"],
            ["c under 3", "c over 64", "c is 25", "c of 26 to 64"],
        ];
        self.if_so(side < 3, "1", CAUSES[k][0]);
        self.if_so(side > 64, "1", CAUSES[k][1]);
        self.if_so(side == 25 && side > most, "1", CAUSES[k][2]);
        self.if_so((26..=64).contains(&side) && side > most, "1", CAUSES[k][3]);
    }

    fn sides(&mut self, sides: &Sides, most: u64) {
        for (k, side) in [sides.a, sides.b, sides.c].into_iter().enumerate() {
            self.side(k, side, most);
        }
    }

    fn lengths(&mut self, sides: &Sides, buffers: &[(&str, usize)]) {
        self.lengths_of(size(sides), buffers);
    }

    fn lengths_of(&mut self, n: u128, buffers: &[(&str, usize)]) {
        for &(buffer, len) in buffers {
            let (short, long) = match buffer {
                "values" => ("values short", "values long"),
                "dist" => ("dist short", "dist long"),
                "marks" => ("marks short", "marks long"),
                _ => ("status short", "status long"),
            };
            self.if_so((len as u128) < n, "2", short);
            self.if_so(len as u128 > n, "2", long);
        }
    }

    /// 2 of the two further buffers of a coarse start.
    fn further(&mut self, sides: &Sides, dist: &[i32], status: &[u8]) {
        let blocks = size(sides) / 8;
        self.if_so((dist.len() as u128) < blocks, "2", "cdist short");
        self.if_so(dist.len() as u128 > blocks, "2", "cdist long");
        self.if_so((status.len() as u128) < blocks, "2", "cstatus short");
        self.if_so(status.len() as u128 > blocks, "2", "cstatus long");
    }

    /// 31.
    fn coarse(&mut self, sides: &Sides, values: &[i32]) {
        const ODD: [&str; 3] = ["a is odd", "b is odd", "c is odd"];
        const UNDER: [&str; 3] = ["a under 6", "b under 6", "c under 6"];
        let all = [sides.a, sides.b, sides.c];
        let mut causes: Vec<&str> = (0..3).filter(|&k| !all[k].is_multiple_of(2)).map(|k| ODD[k]).collect();
        causes.extend((0..3).filter(|&k| all[k] < 6).map(|k| UNDER[k]));
        let n = size(sides).min(values.len() as u128) as usize;
        (0..n).filter(|&i| negative(values[i])).for_each(|i| causes.extend(near_planes(sides, i)));
        causes.sort_unstable();
        causes.dedup();
        causes.into_iter().for_each(|cause| self.add_last("31", cause));
    }

    /// 28 of values that are lent.
    fn range(&mut self, values: &[i32]) {
        wrong_values(values.iter().copied()).into_iter().for_each(|cause| self.add("28", cause));
    }

    /// 29.
    fn marks(&mut self, marks: &[u8]) {
        let mut causes: Vec<&str> = marks.iter().filter_map(|&mark| wrong_mark(mark)).collect();
        causes.sort_unstable();
        causes.dedup();
        causes.into_iter().for_each(|cause| self.add("29", cause));
    }

    /// 3 and 4.
    fn values(&mut self, sides: &Sides, values: &[i32]) {
        let n = size(sides).min(values.len() as u128) as usize;
        let mut causes: Vec<&str> = Vec::new();
        for i in (0..n).filter(|&i| negative(values[i])) {
            causes.extend(planes(sides, i));
        }
        causes.sort_unstable();
        causes.dedup();
        causes.into_iter().for_each(|cause| self.add_last("3", cause));
        if !values.iter().any(|&v| negative(v)) {
            let missing = values.contains(&MISSING);
            self.add_last("4", if missing { "missing ones alone" } else { "none below 0" });
        }
    }

    /// 1, 2, 7, 8 and 9.
    fn record(&mut self, state: &Slot) {
        let (r, dist, status) = (&state.record, &state.dist, &state.status);
        self.sides(&r.sides, 64);
        self.lengths(&r.sides, &[("dist", dist.len()), ("status", status.len())]);
        self.fitness(r, dist, status);
    }

    /// 7, 8 and 9.
    fn fitness(&mut self, r: &Record, dist: &[i32], status: &[u8]) {
        let n = size(&r.sides);
        self.if_so(r.openings > u64::from(r.t), "7", "openings over T");
        self.if_so(u128::from(r.removals) > n, "7", "removals over n");
        self.if_so(u128::from(r.examinations) > 27 * n.min(1 << 64), "7", "examinations over 27n");
        self.if_so(r.euler > 0 && r.euler as u128 > 8 * n.min(1 << 64), "7", "Euler number over 8n");
        self.if_so(r.euler < 0 && u128::from(r.euler.unsigned_abs()) > 8 * n.min(1 << 64), "7", "Euler number under -8n");
        for i in 0..n.min(dist.len().min(status.len()) as u128) as usize {
            let (d, s) = (dist[i], status[i]);
            self.if_so(![0, 1, 3].contains(&s), "7", "status not 0, 1 or 3");
            self.if_so([1, 3].contains(&s) && !planes(&r.sides, i).is_empty(), "7", "border kept");
            self.if_so(d < 0 && s == 0, "7", "negative and gone");
            self.if_so(d < 0 && s == 3, "7", "negative and pending");
        }
        self.if_so(r.finished(), "8", "");
        self.if_so(!r.finished(), "9", "");
    }

    /// 34 and 35, 2 of the whole buffers, and 1, 7, 29 and 8 of each grid.
    fn office(&mut self, office: &Office, limit: u64) {
        let grids = office.records.len();
        self.if_so(limit == 0, "34", "limit 0");
        self.if_so(limit > 1_000, "34", "limit over 1000");
        self.if_so(grids == 0, "34", "no grids");
        self.if_so(grids > 16, "34", "over 16 grids");
        let n = office.records.iter().fold(0u128, |n, r| n.saturating_add(size(&r.sides)));
        self.lengths_of(n, &[("dist", office.dist.len()), ("marks", office.marks.len()), ("status", office.status.len())]);
        let places = || office.order.iter().map(|&place| usize::from(place));
        self.if_so(places().enumerate().any(|(at, place)| places().take(at).any(|other| other == place)), "order 7", "a place twice");
        self.if_so(places().any(|place| place >= grids), "order 7", "a place past the last grid");
        for (place, r) in office.records.iter().enumerate() {
            self.place = Some(place);
            self.sides(&r.sides, 64);
            self.fitness(r, office.dist_of(place), office.status_of(place));
            self.marks(office.marks_of(place));
        }
        self.place = None;
        self.if_so(!office.status.contains(&3), "35", "");
    }

    /// 5, 6, 10 to 15, 30.
    fn argument(&mut self, call: &str, state: &Slot, index: u64, axis: u64) {
        let (r, dist, status) = (&state.record, &state.dist, &state.status);
        let held = |i: usize| state.marks.get(i).is_some_and(|&mark| pinned(mark));
        let n = size(&r.sides);
        let within = u128::from(index) < n;
        self.if_so(!within, "5", "");
        let i = index as usize;
        if within && i < dist.len().min(status.len()) {
            self.if_so(status[i] == 0, "10", "");
            self.if_so(dist[i] < 0, "11", "");
            self.if_so(held(i), "30", "");
            self.if_so(call == "take" && !passes(&r.sides, status, i), "12", "");
        }
        self.if_so(axis > 2, "6", "axis over 2");
        if within && axis <= 2 {
            let k = axis as usize;
            const BEYOND: [&str; 3] = ["beyond along x", "beyond along y", "beyond along z"];
            let last = [r.sides.a, r.sides.b, r.sides.c][k] - 1;
            self.if_so(place(&r.sides, i)[k] == u128::from(last), "6", BEYOND[k]);
        }
        self.if_so(status.contains(&3), "13", "");
        self.if_so(r.openings == u64::from(r.t), "14", "");
        let voxels = n.min(dist.len().min(status.len()) as u128) as usize;
        let to_open = |i: usize| status[i] != 0 && dist[i] >= 0 && !held(i) && bare(&r.sides, status, i);
        self.if_so(call == "open" && !(0..voxels).any(to_open), "15", "");
    }

    /// 5 of `points`.
    fn position(&mut self, sides: &Sides, position: u64) {
        let end = 3 * size(sides).min(1 << 70);
        self.if_so(u128::from(position) == end + 1, "5", "one over");
        self.if_so(u128::from(position) > end + 1, "5", "far over");
    }

    /// 26.
    fn room(&mut self, sides: &Sides, width: usize, lent: u64) {
        let (lent, length) = (u128::from(lent), written_length(sides, width));
        self.if_so(lent == 0, "26", "nothing lent");
        self.if_so(lent > 0 && lent + 1 == length, "26", "a byte short");
        self.if_so(lent > 0 && lent + 1 < length, "26", "more than a byte short");
    }

    // ---- files

    /// 25.
    fn input(&mut self, len: usize) {
        self.if_so(len == LONGEST_INPUT + 1, "25", "a byte over");
        self.if_so(len > LONGEST_INPUT + 1, "25", "more than a byte over");
    }

    fn header(&mut self, file: &[u8], most: u64) {
        self.if_so(file.len() < 7, "header 21", "");
        self.if_so(file.first().is_some_and(|&b| b != 0x56), "header 22", "first byte");
        self.if_so(file.get(1).is_some_and(|&b| b != 0x48), "header 22", "second byte");
        for (k, side) in side_bytes(file).into_iter().enumerate() {
            self.side(k, side, most);
        }
    }

    fn lent(&mut self, file: &[u8], len: usize) {
        if let Some(sides) = file_sides(file) {
            self.lengths(&sides, &[("values", len)]);
        }
    }

    /// The records of a file up to the first that is not whole.
    fn records(&mut self, file: &[u8]) {
        let Some(sides) = file_sides(file).filter(|_| file.len() >= 7) else { return };
        let (layers, patches) = parts(file, &sides);
        self.layers(&layers, &sides);
        for (k, record) in patches.chunks(PATCH_LENGTH).enumerate() {
            self.patch(sides.c as usize + k, record, size(&sides));
        }
    }

    /// Only a wide record can have 28: what two bytes say is a value.
    fn layers(&mut self, layers: &[LayerRecord], sides: &Sides) {
        let mut seen: Vec<u8> = Vec::new();
        for (number, record) in layers.iter().enumerate() {
            self.mark_and_z(record.left, sides.c, |found, check, cause| found.add_record(number, check, cause));
            if let Some(&z) = record.left.get(2) {
                self.layer_due(number, z, &seen);
                seen.push(z);
            }
            wrong_values(record.values()).into_iter().for_each(|cause| self.add_record(number, "28", cause));
            if !record.is_whole() {
                self.add_record(number, "21", cut_off(record));
            }
        }
    }

    /// 24 and 27. Layers come from 0 up and none is skipped, so a record's place says which layer is the next.
    fn layer_due(&mut self, record: usize, z: u8, seen: &[u8]) {
        let z_of_next = record as u8;
        if seen.contains(&z) {
            let again = if seen.last() == Some(&z) { "the record before has it" } else { "an earlier record has it" };
            self.add_record(record, "24", again);
        } else if z != z_of_next {
            let skipped = match z.checked_sub(z_of_next) {
                None => "skipped before",
                Some(_) if record == 0 => "the first is not 0",
                Some(1) => "one skipped",
                Some(_) => "more than one skipped",
            };
            self.add_record(record, "27", skipped);
        }
    }

    /// A patch record, or what is left of a file where one is due.
    fn patch(&mut self, number: usize, record: &[u8], n: u128) {
        const LEFT: [&str; 8] = ["", "1 byte", "2 bytes", "3 bytes", "4 bytes", "5 bytes", "6 bytes", "7 bytes"];
        if let Some(left) = LEFT.get(record.len()) {
            self.add_record(number, "patch 21", left);
        }
        self.mark(record, &[0x50], |found, cause| found.add_record(number, "patch 22", cause));
        if let Some(cause) = patch_index(record).and_then(|index| over(index, n)) {
            self.add_record(number, "5", cause);
        }
    }

    // ---- lists of removals

    /// 21, 22, 5, 32 and 33. A record that is at fault removes nothing, so that those behind it have faults of their own.
    fn removals(&mut self, state: &Slot, list: &[u8]) {
        const LEFT: [&str; 6] = ["", "1 byte", "2 bytes", "3 bytes", "4 bytes", "5 bytes"];
        let n = size(&state.record.sides);
        let mut judged = Removals { state, status: state.status.clone(), openings: 0 };
        for (number, record) in list.chunks(REMOVAL_LENGTH).enumerate() {
            let before = self.list.len();
            if let Some(left) = LEFT.get(record.len()) {
                self.add_record(number, "removal 21", left);
            }
            self.mark(record, &[ORDINARY, OPENING], |found, cause| found.add_record(number, "removal 22", cause));
            let Some(index) = patch_index(record) else { continue };
            if let Some(cause) = over(index, n) {
                self.add_record(number, "removal 5", cause);
            } else {
                let kind = (self.list.len() == before).then_some(record[1]);
                judged.broken(index as usize, kind).into_iter().for_each(|cause| self.add_record(number, "32", cause));
            }
            if self.list.len() == before {
                judged.remove(index as usize, record[1]);
            }
        }
        if !judged.passing().is_empty() {
            self.add_last("33", "");
        }
    }

    // ---- records of either

    fn mark(&mut self, left: &[u8], second: &[u8], mut add: impl FnMut(&mut Self, &'static str)) {
        if left.first().is_some_and(|&b| b != 0x56) {
            add(self, "first byte");
        }
        if left.get(1).is_some_and(|b| !second.contains(b)) {
            add(self, "second byte");
        }
    }

    fn mark_and_z(&mut self, left: &[u8], c: u64, mut add: impl FnMut(&mut Self, &str, &'static str)) {
        self.mark(left, &[NARROW, WIDE].map(second_byte), |found, cause| add(found, "22", cause));
        if let Some(&z) = left.get(2).filter(|&&z| u64::from(z) >= c) {
            add(self, "23", if u64::from(z) == c { "z is c" } else { "z over c" });
        }
    }

    fn layer(&mut self, sides: &Sides, file: &[u8], start: u64) {
        self.sides(sides, 64);
        let record = LayerRecord::at(file, usize::try_from(start).unwrap_or(usize::MAX), area(sides));
        let (len, begins) = (file.len() as u128, u128::from(start));
        self.if_so(begins > len, "21", "start past the end");
        self.if_so(begins == len, "21", "start at the end");
        self.if_so(begins < len && !record.is_whole(), "21", cut_off(&record));
        self.mark_and_z(record.left, sides.c, |found, check, cause| found.add(check, cause));
    }
}

/// Which clause of 5 an index of four bytes fails, if any.
fn over(index: u32, n: u128) -> Option<&'static str> {
    let index = u128::from(index);
    let within = index % (1 << 16) < n;
    Some(match index {
        _ if index < n => return None,
        _ if index == n => "index n",
        _ if within => "index over n, its low two bytes under n",
        _ => "index over n",
    })
}

/// What a list has removed so far.
struct Removals<'a> {
    state: &'a Slot,
    status: Vec<u8>,
    openings: u64,
}

impl Removals<'_> {
    fn outside(&self, i: usize) -> bool {
        self.state.dist.get(i).is_some_and(|&d| d >= 0)
    }

    fn passes(&self, i: usize) -> bool {
        passes(&self.state.record.sides, &self.status, i)
    }

    /// The kept voxels outside S that pass.
    fn passing(&self) -> Vec<usize> {
        let voxels = size(&self.state.record.sides).min(self.status.len() as u128) as usize;
        (0..voxels).filter(|&i| self.status[i] != 0 && self.outside(i) && self.passes(i)).collect()
    }

    /// The clauses of 32 that a removal breaks. Of one without a mark it is not known which of the other clauses are for it.
    fn broken(&self, i: usize, kind: Option<u8>) -> Vec<&'static str> {
        let Some(&status) = self.status.get(i) else { return Vec::new() };
        let (sides, t) = (&self.state.record.sides, u64::from(self.state.record.t));
        if status == 0 {
            return vec![if self.state.status[i] == 0 { "gone before" } else { "gone by the list" }];
        }
        if !self.outside(i) {
            return vec!["inside"];
        }
        let mut causes = Vec::new();
        if kind == Some(ORDINARY) && !self.passes(i) {
            causes.push("not passed");
        }
        if kind == Some(OPENING) {
            let passing = self.passing();
            let all = [
                (passing.contains(&i), "an opening that passes"),
                (passing.iter().any(|&j| j != i), "an opening while another passes"),
                (!bare(sides, &self.status, i), "an opening without a face neighbour gone"),
                (self.openings >= t, "more openings than T"),
            ];
            causes.extend(all.iter().filter(|(is, _)| *is).map(|(_, cause)| *cause));
        }
        causes
    }

    fn remove(&mut self, i: usize, kind: u8) {
        if let Some(status) = self.status.get_mut(i) {
            *status = 0;
        }
        self.openings += u64::from(kind == OPENING);
    }
}

/// a b, or more than any file has, which is enough to tell that one is cut off.
fn area(sides: &Sides) -> usize {
    usize::try_from(sides.a.saturating_mul(sides.b)).unwrap_or(usize::MAX).min(1 << 40)
}

/// How a record that is not whole ends: a wide one may have as many bytes as a narrow one has.
fn cut_off(record: &LayerRecord) -> &'static str {
    let narrow = 3 + (record.length - 3) / record.width * NARROW;
    match record.left.len() {
        0 => "nothing left",
        left if record.width == WIDE && left >= narrow => "cut off, wide with the bytes of a narrow one",
        _ if record.width == WIDE => "cut off, wide",
        _ => "cut off",
    }
}

/// The clauses of 28 that some values fail, each once.
fn wrong_values(values: impl Iterator<Item = i32>) -> Vec<&'static str> {
    let mut causes: Vec<&str> = values.filter_map(out_of_range).collect();
    causes.sort_unstable();
    causes.dedup();
    causes
}
