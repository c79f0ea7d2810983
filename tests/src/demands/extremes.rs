//! Widths and extremes of every number that crosses the interface: each number in by which a call is refused, though it would be fit if its upper bits
//! were lost; each that is fit at its greatest; calls that have nothing to do and are still refused; and each number out at its greatest. A request
//! that brings a number adds it here. Left out is what no input reaches, or none quickly (tests/mutants/README.md).

use super::sights::chosen;
use crate::faults::{bytes_of, order};
use crate::records::{parts, patch_index, PATCH_LENGTH, REMOVAL_LENGTH};
use reference::grid::{Record, Sides};
use reference::replay::Slot;

/// The calls on a record.
const ON_RECORDS: [&str; 8] = ["carve", "take", "open", "finish", "serve", "judge", "crossing", "points"];

/// The buffers that a call is lent, each of n but for the two further ones of a coarse start.
pub fn buffers(call: &str) -> &'static [&'static str] {
    match call {
        "begincoarse" => &["values", "marks", "dist", "status", "cdist", "cstatus"],
        "begin" => &["values", "marks", "dist", "status"],
        "carve" | "take" | "open" | "serve" => &["marks", "dist", "status"],
        "finish" | "judge" | "crossing" | "points" => &["dist", "status"],
        "read" | "write" | "practice" => &["values"],
        _ => &[],
    }
}

/// How many places a buffer has to have.
pub fn places(buffer: &str, n: u64) -> u64 {
    match buffer {
        "cdist" | "cstatus" => n / 8,
        _ => n,
    }
}

/// Widths, in bits, to which a number may be cut by mistake: one of 64 bits, one of 32, a length up to 2^21, the index of a patch, a distance.
pub const OF_64: [u32; 4] = [8, 16, 32, 63];
pub const OF_32: [u32; 3] = [8, 16, 31];
pub const OF_LENGTHS: [u32; 3] = [8, 16, 20];
pub const OF_INDICES: [u32; 4] = [8, 16, 24, 31];
pub const OF_DISTANCES: [u32; 5] = [8, 14, 16, 24, 30];

/// Status bytes of which some bits are those of 0, 1 or 3, and mark bytes likewise.
pub const STATUS: [u8; 9] = [2, 4, 5, 7, 127, 128, 129, 131, 255];
pub const MARKS: [u8; 9] = [4, 5, 6, 7, 127, 128, 129, 130, 131];

/// Numbers out: the call, the word before the number, and bounds that it must be over, or under where they are below 0.
const OUT: &[(&str, &str, &[i64])] = &[
    ("begincoarse", "coarse", &[255, 65_535]),
    ("carve", "examined", &[255, 65_535, 131_071]),
    ("carve", "removed", &[255, 65_535]),
    ("carve", "face", &[5]),
    ("take", "face", &[4]),
    ("open", "opened", &[255, 65_535, 131_071]),
    ("open", "k", &[7]),
    ("open", "m", &[5]),
    ("open", "face", &[4]),
    ("serve", "place", &[14]),
    ("serve", "examined", &[255, 999]),
    ("serve", "removed", &[255, 999]),
    ("serve", "face", &[5]),
    ("judge", "removals", &[255]),
    ("judge", "openings", &[255]),
    ("judge", "euler", &[127, -128]),
    ("points", "count", &[255, 65_535]),
    ("points", "next", &[255, 65_535, 524_287]),
    ("readlayer", "z", &[62]),
    ("readlayer", "from", &[255, 65_535, 983_040]),
    ("readlayer", "to", &[255, 65_535, 1_048_575]),
    ("read", "T", &[255, 32_767, 65_534]),
    ("write", "length", &[255, 65_535, 1_048_575]),
    ("program", "kept", &[255, 4_095]),
    ("program", "removed", &[255, 4_095]),
    ("program", "opened", &[255, 511]),
    ("program", "examined", &[255, 16_383]),
    ("program", "euler", &[-128, -512]),
    ("local", "k", &[7]),
    ("local", "m", &[5]),
    ("local", "corners", &[7]),
    ("local", "edges", &[11]),
    ("local", "faces", &[5]),
    ("local", "face", &[5]),
];

/// The numbers of a record, in and out.
const OF_RECORDS: &[(&str, &[i64])] = &[
    ("T", &[255, 32_767, 65_534]),
    ("openings", &[255, 32_767, 65_533]),
    ("removals", &[255, 65_535, 262_143]),
    ("examinations", &[255, 65_535, 1_048_575, 7_077_887]),
    ("euler", &[127, 32_767, 2_097_151, -128, -32_768, -2_097_151]),
];

fn beyond(value: i64, bound: i64) -> bool {
    if bound < 0 {
        value < bound
    } else {
        value > bound
    }
}

fn side_of(bound: i64) -> &'static str {
    if bound < 0 {
        "under"
    } else {
        "over"
    }
}

// ---- the list

/// Every entry, each of which one call must meet.
pub fn entries() -> Vec<String> {
    let mut all = Vec::new();
    for call in ["begin", "begincoarse", "write", "practice", "readlayer"].into_iter().chain(ON_RECORDS) {
        let sides = ["a", "b", "c"].into_iter().flat_map(|side| OF_64.map(|bits| (side, bits)));
        all.extend(sides.map(|(side, bits)| format!("{call} refused: 1, {side} fit in its low {bits} bits")));
    }
    for call in ["begin", "begincoarse", "read", "write", "practice"].into_iter().chain(ON_RECORDS) {
        for buffer in buffers(call) {
            all.extend(["1", "2"].map(|number| format!("{call} refused: {number}, {buffer} empty")));
            all.extend(OF_LENGTHS.map(|bits| format!("{call} refused: 2, {buffer} of the right length in its low {bits} bits")));
        }
    }
    for call in ON_RECORDS {
        for (field, widths) in FIELDS {
            all.extend(widths.iter().map(|bits| format!("{call} refused: 7, {field} fit in the low {bits} bits")));
        }
        all.extend(STATUS.map(|byte| format!("{call} refused: 7, a status of {byte} within")));
        for (field, bounds) in OF_RECORDS {
            all.extend(bounds.iter().map(|&bound| format!("{call}: given {field} {} {bound}", side_of(bound))));
        }
    }
    for call in ["begin", "begincoarse", "carve", "take", "open", "serve"] {
        all.extend(MARKS.map(|byte| format!("{call} refused: 29, a mark of {byte}")));
    }
    for &(call, number, bounds) in OUT {
        all.extend(bounds.iter().map(|&bound| format!("{call}: {number} {} {bound}", side_of(bound))));
    }
    for call in ["carve", "take", "open", "finish", "serve"] {
        for (field, bounds) in OF_RECORDS {
            all.extend(bounds.iter().map(|&bound| format!("{call}: answered {field} {} {bound}", side_of(bound))));
        }
    }
    all.extend(arguments());
    all
}

/// What the arguments of single calls are asked for.
fn arguments() -> Vec<String> {
    let mut all: Vec<String> = Vec::new();
    for (call, argument, number, widths) in ARGUMENTS {
        all.extend(widths.iter().map(|bits| format!("{call} refused: {number}, {argument} fit in its low {bits} bits")));
    }
    for (call, nothing) in [("carve", "limit 0"), ("points", "capacity 0"), ("points", "capacity 1 or 2")] {
        all.extend(order(call).unwrap_or(&[]).iter().map(|number| format!("{call} refused: {number}, {nothing}")));
    }
    all.extend(["1", "2", "7", "8"].map(|number| format!("judge refused: {number}, an empty list")));
    all.extend([255, 65_535, 131_071].map(|bound| format!("judge: an index over {bound}")));
    let checks = order("write").unwrap_or(&[]).iter();
    all.extend(checks.flat_map(|number| ["lent 0", "lent 1 to 6"].map(|lent| format!("write refused: {number}, {lent}"))));
    all.extend(["take", "crossing"].into_iter().flat_map(|call| [255, 65_535, 131_071].map(|i| format!("{call}: an index over {i}"))));
    all.extend([255, 65_535, 524_287].map(|bound| format!("points: a point from a position over {bound}")));
    all.extend([255, 65_535, 196_607].map(|bound| format!("points: over {bound} doubles filled")));
    all.extend(["x", "y", "z"].map(|axis| format!("crossing: over 62 along {axis}")));
    all.extend(OF_32.map(|bits| format!("carve: a limit of 2^{bits} with a voxel pending")));
    all.extend([255, 65_535].map(|bound| format!("carve: ended by a limit over {bound}")));
    for call in ["begin", "begincoarse"] {
        all.extend([255, 256, 32_767, 32_768, 65_535].map(|t| format!("{call}: T of {t}")));
    }
    all.extend([256, 32_768, 65_535].map(|t| format!("open refused: 14, T of {t}")));
    all.extend(["open: openings that are T in their low 8 bits".to_string(), "write: lent 2097152".to_string()]);
    for call in ["carve", "carve, hurried voxels", "open"] {
        all.extend(OF_DISTANCES.map(|bits| format!("{call}: another comes first by the low {bits} bits of distances")));
        all.extend(OF_DISTANCES.map(|bits| format!("{call}: another comes first by distances up to 2^{bits}")));
        all.push(format!("{call}: another comes first by floats of 32 bits"));
    }
    all
}

/// A call's argument, or a number of the file that it reads, with the number that refuses it.
const ARGUMENTS: &[(&str, &str, &str, &[u32])] = &[
    ("take", "an index", "5", &OF_64),
    ("crossing", "an index", "5", &OF_64),
    ("crossing", "an axis", "6", &OF_32),
    ("serve", "a limit", "34", &OF_32),
    ("serve", "a place of the order", "order 7", &[4, 7]),
    ("judge", "a removal's index", "removal 5", &OF_INDICES),
    ("points", "a position", "5", &OF_64),
    ("readlayer", "a start", "21", &OF_64),
    ("read", "a side", "1", &[7]),
    ("program", "a side", "1", &[7]),
    ("read", "z", "23", &[7]),
    ("program", "z", "23", &[7]),
    ("readlayer", "z", "23", &[7]),
    ("read", "a patch's index", "5", &OF_INDICES),
    ("program", "a patch's index", "5", &OF_INDICES),
];

/// The counts of a record, with the widths to which each may be cut.
const FIELDS: [(&str, &[u32]); 4] = [("openings", &OF_32), ("removals", &OF_64), ("examinations", &OF_64), ("euler", &OF_32)];

// ---- what is seen

/// The lowest bits of a number.
fn low(number: u64, bits: u32) -> u64 {
    number & ((1 << bits) - 1)
}

/// The lowest bits of a number that has a sign, the uppermost of them for its sign.
fn low_signed(number: i64, bits: u32) -> i64 {
    number << (64 - bits) >> (64 - bits)
}

fn length(state: &Slot, buffer: &str) -> u64 {
    let length = match buffer {
        "values" => state.values.len(),
        "marks" => state.marks.len(),
        "dist" => state.dist.len(),
        "cdist" => state.cdist.len(),
        "cstatus" => state.cstatus.len(),
        _ => state.status.len(),
    };
    length as u64
}

/// What is seen before a call.
pub fn of(state: &Slot, call: &str, words: &[&str]) -> Vec<String> {
    let number = |i: usize| words.get(i).and_then(|word| word.parse::<u64>().ok()).unwrap_or(0);
    let sides = if ON_RECORDS.contains(&call) { state.record.sides } else { state.sides };
    let mut seen = cut_sides(state, call, sides);
    seen.extend(lengths(state, call, sides));
    if ON_RECORDS.contains(&call) && sides.fit() {
        seen.extend(counts(call, &state.record));
        seen.extend(status_byte(state, call));
        let given = numbers_of(&state.record);
        seen.extend(bounds_met(&given).into_iter().map(|(field, bound)| format!("{call}: given {field} {} {bound}", side_of(bound))));
    }
    if ["begin", "begincoarse", "carve", "take", "open", "serve"].contains(&call) {
        let wrong: Vec<u8> = state.marks.iter().copied().filter(|&mark| mark > 3).take(2).collect();
        seen.extend(wrong.iter().filter(|_| wrong.len() == 1).map(|mark| format!("if refused 29: {call} refused: 29, a mark of {mark}")));
    }
    seen.extend(match call {
        "carve" => carve(state, number(1)),
        "open" => open(state),
        "take" => within(call, "an index", number(1), state.record.sides),
        "serve" => limit(number(2)),
        "judge" => judge(&bytes_of(words.get(1).unwrap_or(&"")), sides),
        "crossing" => crossing(state, number(1), number(2)),
        "points" => points(state, number(1), number(2)),
        "write" => write(number(1)),
        "begin" | "begincoarse" => vec![format!("{call}: T of {}", state.t)],
        "readlayer" => start(state, number(1)),
        "read" | "program" => file(call, &state.file),
        _ => Vec::new(),
    });
    seen
}

/// One side is not fit but for its lowest bits, and the buffers have as many voxels as these say: nothing else would be refused.
fn cut_sides(state: &Slot, call: &str, sides: Sides) -> Vec<String> {
    let all = [sides.a, sides.b, sides.c];
    let fit = |side: &u64| (3..=64).contains(side);
    if call == "read" || call == "program" || all.iter().filter(|side| !fit(side)).count() != 1 {
        return Vec::new();
    }
    let cut = |k: usize, bits: u32| {
        let mut cut = all;
        cut[k] = low(all[k], bits);
        let n: u64 = cut.iter().map(|&side| side % 65).product();
        !fit(&all[k]) && fit(&cut[k]) && buffers(call).iter().all(|buffer| length(state, buffer) == places(buffer, n))
    };
    let places = (0..3).flat_map(|k| OF_64.map(|bits| (k, bits))).filter(|&(k, bits)| cut(k, bits));
    places.map(|(k, bits)| format!("if refused 1: {call} refused: 1, {} fit in its low {bits} bits", ["a", "b", "c"][k])).collect()
}

fn lengths(state: &Slot, call: &str, sides: Sides) -> Vec<String> {
    let of_file = |i: usize| state.file.get(i).map_or(0, |&side| u64::from(side));
    let sides = if call == "read" { Sides { a: of_file(2), b: of_file(3), c: of_file(4) } } else { sides };
    let all = buffers(call);
    let mut seen = Vec::new();
    for buffer in all {
        let others = || all.iter().filter(|other| *other != buffer);
        let is = length(state, buffer);
        if is == 0 && others().all(|other| length(state, other) > 0) {
            seen.extend(["1", "2"].map(|number| format!("if refused {number}: {call} refused: {number}, {buffer} empty")));
        }
        let n = if sides.fit() { sides.n() as u64 } else { continue };
        let right = others().all(|other| length(state, other) == places(other, n));
        let wanted = places(buffer, n);
        let cut = OF_LENGTHS.into_iter().filter(|&bits| right && is > wanted && low(is, bits) == wanted);
        seen.extend(cut.map(|bits| format!("if refused 2: {call} refused: 2, {buffer} of the right length in its low {bits} bits")));
    }
    seen
}

/// The numbers of a record by their names.
fn numbers_of(r: &Record) -> [(&'static str, i64); 5] {
    let most = |count: u64| i64::try_from(count).unwrap_or(i64::MAX);
    [
        ("T", r.t.into()),
        ("openings", most(r.openings)),
        ("removals", most(r.removals)),
        ("examinations", most(r.examinations)),
        ("euler", r.euler),
    ]
}

/// The bounds of the list that numbers of a record are beyond.
fn bounds_met(numbers: &[(&'static str, i64)]) -> Vec<(&'static str, i64)> {
    let bounds = |field: &str| OF_RECORDS.iter().find(|(name, _)| *name == field).map_or(&[][..], |(_, bounds)| *bounds);
    let met = |&(field, value): &(&'static str, i64)| {
        bounds(field).iter().filter(move |&&bound| beyond(value, bound)).map(move |&bound| (field, bound))
    };
    numbers.iter().flat_map(met).collect()
}

/// One count is over its limit, and its lowest bits are not.
fn counts(call: &str, r: &Record) -> Vec<String> {
    let n = r.sides.n() as u64;
    let fits = [r.openings <= u64::from(r.t), r.removals <= n, r.examinations <= 27 * n, r.euler.unsigned_abs() <= 8 * n];
    if fits.iter().filter(|fits| !**fits).count() != 1 {
        return Vec::new();
    }
    let cut = |k: usize, bits: u32| match k {
        0 => low(r.openings, bits) <= u64::from(r.t),
        1 => low(r.removals, bits) <= n,
        2 => low(r.examinations, bits) <= 27 * n,
        _ => low_signed(r.euler, bits).unsigned_abs() <= 8 * n,
    };
    let fields = (0..4).filter(|&k| !fits[k]).flat_map(|k| FIELDS[k].1.iter().map(move |&bits| (k, bits)));
    let fields = fields.filter(|&(k, bits)| cut(k, bits));
    fields.map(|(k, bits)| format!("if refused 7: {call} refused: 7, {} fit in the low {bits} bits", FIELDS[k].0)).collect()
}

/// One status byte is none, of a voxel that is neither on the border nor in S.
fn status_byte(state: &Slot, call: &str) -> Vec<String> {
    let Slot { record, dist, status, .. } = state;
    let wrong: Vec<usize> = (0..status.len()).filter(|&i| ![0, 1, 3].contains(&status[i])).take(2).collect();
    let [i] = wrong[..] else { return Vec::new() };
    let within = status.len() == record.sides.n() && dist.get(i).is_some_and(|&d| d >= 0) && !record.sides.border(i);
    chosen(&[(within, format!("if refused 7: {call} refused: 7, a status of {} within", status[i]))])
}

/// Whether another voxel comes first where distances are read by some key.
fn others_first(dist: &[i32], voxels: &[usize]) -> Vec<String> {
    let foremost = |key: &dyn Fn(i32) -> f64| {
        let farther = |best: Option<usize>, i: usize| best.filter(|&best| key(dist[best]) >= key(dist[i])).or(Some(i));
        voxels.iter().copied().fold(None, farther)
    };
    let first = foremost(&f64::from);
    let other = |key: &dyn Fn(i32) -> f64| foremost(key) != first;
    let mut seen = chosen(&[(other(&|d| f64::from(d as f32)), "another comes first by floats of 32 bits")]);
    for bits in OF_DISTANCES {
        seen.extend(chosen(&[
            (other(&|d| low(d as u64, bits) as f64), format!("another comes first by the low {bits} bits of distances")),
            (other(&|d| f64::from(d.min(1 << bits))), format!("another comes first by distances up to 2^{bits}")),
        ]));
    }
    seen
}

fn carve(state: &Slot, limit: u64) -> Vec<String> {
    let Slot { dist, marks, status, .. } = state;
    let mut seen: Vec<String> = Vec::new();
    if limit == 0 {
        seen.extend(order("carve").unwrap_or(&[]).iter().map(|number| format!("if refused {number}: carve refused: {number}, limit 0")));
    }
    let pending: Vec<usize> = (0..status.len()).filter(|&i| status[i] == 3).collect();
    if pending.is_empty() || dist.len() != status.len() || marks.len() != status.len() {
        return seen;
    }
    seen.extend(OF_32.iter().filter(|&&bits| limit == 1 << bits).map(|bits| format!("carve: a limit of 2^{bits} with a voxel pending")));
    // after one examination the status says which voxel it was
    if limit == 1 {
        let hurried: Vec<usize> = pending.iter().copied().filter(|&i| marks[i] == 2).collect();
        let call = if hurried.is_empty() { "carve" } else { "carve, hurried voxels" };
        let first = if hurried.is_empty() { pending } else { hurried };
        seen.extend(others_first(dist, &first).iter().map(|entry| format!("{call}: {entry}")));
    }
    seen
}

fn open(state: &Slot) -> Vec<String> {
    let Slot { record: r, dist, marks, status, .. } = state;
    let t = u64::from(r.t);
    let mut seen = chosen(&[
        (r.openings < t && low(r.openings, 8) == low(t, 8), "open: openings that are T in their low 8 bits".to_string()),
        (true, format!("if refused 14: open refused: 14, T of {t}")),
    ]);
    if !r.sides.fit() || [dist.len(), marks.len(), status.len()] != [r.sides.n(); 3] {
        return seen;
    }
    let bare = |i: usize| r.sides.face_neighbours(i).into_iter().any(|j| j.is_none_or(|j| status[j] == 0));
    let may_go: Vec<usize> = (0..status.len()).filter(|&i| status[i] != 0 && dist[i] >= 0 && marks[i] == 0 && bare(i)).collect();
    seen.extend(others_first(dist, &may_go).iter().map(|entry| format!("open: {entry}")));
    seen
}

/// An index that is none of the grid's but for its lowest bits, or one of its greatest.
fn within(call: &str, what: &str, index: u64, sides: Sides) -> Vec<String> {
    if !sides.fit() {
        return Vec::new();
    }
    let n = sides.n() as u64;
    let cut = OF_64.into_iter().filter(|&bits| index >= n && low(index, bits) < n);
    let mut seen: Vec<String> = cut.map(|bits| format!("if refused 5: {call} refused: 5, {what} fit in its low {bits} bits")).collect();
    seen.extend([255, 65_535, 131_071].iter().filter(|&&bound| index > bound).map(|bound| format!("{call}: {what} over {bound}")));
    seen
}

fn limit(limit: u64) -> Vec<String> {
    let cut = OF_32.into_iter().filter(|&bits| limit > 1_000 && (1..=1_000).contains(&low(limit, bits)));
    cut.map(|bits| format!("if refused 34: serve refused: 34, a limit fit in its low {bits} bits")).collect()
}

fn judge(list: &[u8], sides: Sides) -> Vec<String> {
    let numbers = ["1", "2", "7", "8"].into_iter().filter(|_| list.is_empty());
    let mut seen: Vec<String> = numbers.map(|number| format!("if refused {number}: judge refused: {number}, an empty list")).collect();
    let n = if sides.fit() { sides.n() as u64 } else { return seen };
    let indices: Vec<u64> = list.chunks(REMOVAL_LENGTH).filter_map(patch_index).map(u64::from).collect();
    let index = indices.iter().copied().find(|&index| index >= n).unwrap_or(0);
    let cut = OF_INDICES.into_iter().filter(|&bits| index >= n && low(index, bits) < n);
    seen.extend(cut.map(|bits| format!("if refused removal 5: judge refused: removal 5, a removal's index fit in its low {bits} bits")));
    let over = |bound: &u64| indices.iter().any(|index| index > bound);
    seen.extend([255, 65_535, 131_071].into_iter().filter(over).map(|bound| format!("judge: an index over {bound}")));
    seen
}

fn crossing(state: &Slot, index: u64, axis: u64) -> Vec<String> {
    let mut seen = within("crossing", "an index", index, state.record.sides);
    let cut = OF_32.into_iter().filter(|&bits| axis > 2 && low(axis, bits) <= 2);
    seen.extend(cut.map(|bits| format!("if refused 6: crossing refused: 6, an axis fit in its low {bits} bits")));
    seen
}

fn points(state: &Slot, position: u64, capacity: u64) -> Vec<String> {
    let mut seen = Vec::new();
    for number in order("points").unwrap_or(&[]) {
        seen.extend(chosen(&[
            (capacity == 0, format!("if refused {number}: points refused: {number}, capacity 0")),
            ((1..3).contains(&capacity), format!("if refused {number}: points refused: {number}, capacity 1 or 2")),
        ]));
    }
    let sides = state.record.sides;
    if !sides.fit() {
        return seen;
    }
    let end = 3 * sides.n() as u64;
    let cut = OF_64.into_iter().filter(|&bits| position > end && low(position, bits) <= end);
    seen.extend(cut.map(|bits| format!("if refused 5: points refused: 5, a position fit in its low {bits} bits")));
    seen
}

fn write(lent: u64) -> Vec<String> {
    let mut seen = chosen(&[(lent == 1 << 21, "write: lent 2097152")]);
    for number in order("write").unwrap_or(&[]) {
        seen.extend(chosen(&[
            (lent == 0, format!("if refused {number}: write refused: {number}, lent 0")),
            ((1..7).contains(&lent), format!("if refused {number}: write refused: {number}, lent 1 to 6")),
        ]));
    }
    seen
}

// ---- files

fn start(state: &Slot, start: u64) -> Vec<String> {
    let bytes = &state.file;
    let is_record = |at: u64| usize::try_from(at).ok().and_then(|at| bytes.get(at..)).is_some_and(|left| left.starts_with(&[0x56, 0x4C]));
    let past = start >= bytes.len() as u64;
    let cut = OF_64.into_iter().filter(|&bits| past && is_record(low(start, bits)));
    let mut seen: Vec<String> =
        cut.map(|bits| format!("if refused 21: readlayer refused: 21, a start fit in its low {bits} bits")).collect();
    let z = usize::try_from(start).ok().and_then(|start| bytes.get(start.checked_add(2)?)).map_or(0, |&z| u64::from(z));
    seen.extend(chosen(&[(low(z, 7) < state.sides.c, "if refused 23: readlayer refused: 23, z fit in its low 7 bits")]));
    seen
}

fn file(call: &str, bytes: &[u8]) -> Vec<String> {
    let [_, _, a, b, c, ..] = bytes else { return Vec::new() };
    let most = if call == "program" { 24 } else { 64 };
    let [a, b, c] = [a, b, c].map(|side| u64::from(*side));
    let cut = [a, b, c].into_iter().all(|side| (3..=most).contains(&low(side, 7)));
    let mut seen = chosen(&[(cut, format!("if refused 1: {call} refused: 1, a side fit in its low 7 bits"))]);
    let sides = Sides { a, b, c };
    if !sides.fit() {
        return seen;
    }
    let (layers, patches) = parts(bytes, &sides);
    let z = layers.iter().filter_map(|record| record.left.get(2)).find(|&&z| u64::from(z) >= c);
    let cut = z.is_some_and(|&z| low(z.into(), 7) < c);
    seen.extend(chosen(&[(cut, format!("if refused 23: {call} refused: 23, z fit in its low 7 bits"))]));
    let n = sides.n() as u64;
    let indices = patches.chunks(PATCH_LENGTH).filter_map(patch_index).map(u64::from);
    let index = indices.into_iter().find(|&index| index >= n).unwrap_or(0);
    let cut = OF_INDICES.into_iter().filter(|&bits| index >= n && low(index, bits) < n);
    seen.extend(cut.map(|bits| format!("if refused 5: {call} refused: 5, a patch's index fit in its low {bits} bits")));
    seen
}

// ---- what is answered

/// What is seen in the answer of a call that was done.
pub fn answered(call: &str, words: &[&str], said: &str) -> Vec<String> {
    let answer: Vec<&str> = said.split_ascii_whitespace().collect();
    let of_call = said.split(" | ").next().unwrap_or(said);
    let after = |text: &str, name: &str| {
        let words: Vec<&str> = text.split_ascii_whitespace().collect();
        words.iter().position(|&word| word == name).and_then(|i| words.get(i + 1)?.parse::<i64>().ok())
    };
    let mut seen = Vec::new();
    for &(_, number, bounds) in OUT.iter().filter(|(of, ..)| *of == call) {
        let met = bounds.iter().filter(|&&bound| after(of_call, number).is_some_and(|value| beyond(value, bound)));
        seen.extend(met.map(|&bound| format!("{call}: {number} {} {bound}", side_of(bound))));
    }
    if ["carve", "take", "open", "finish", "serve"].contains(&call) {
        let record = said.split("rec ").nth(1).unwrap_or("");
        let numbers = ["T", "openings", "removals", "examinations", "euler"].map(|field| (field, after(record, field).unwrap_or(0)));
        seen.extend(bounds_met(&numbers).iter().map(|(field, bound)| format!("{call}: answered {field} {} {bound}", side_of(*bound))));
    }
    match call {
        "carve" => {
            let (examined, limit) = (after(said, "examined"), words.get(1).and_then(|word| word.parse::<i64>().ok()));
            let ended = examined == limit && after(said, "pending") == Some(1);
            let met = [255, 65_535].into_iter().filter(|&bound| ended && examined > Some(bound));
            seen.extend(met.map(|bound| format!("carve: ended by a limit over {bound}")));
        }
        "points" => {
            let (position, filled) = (words.get(1).and_then(|word| word.parse::<i64>().ok()), 3 * after(said, "count").unwrap_or(0));
            let from = [255, 65_535, 524_287].into_iter().filter(|&bound| filled > 0 && position > Some(bound));
            seen.extend(from.map(|bound| format!("points: a point from a position over {bound}")));
            seen.extend(
                [255, 65_535, 196_607].iter().filter(|&&bound| filled > bound).map(|bound| format!("points: over {bound} doubles filled")),
            );
        }
        "crossing" => seen.extend(last_stretch(&answer)),
        _ => {}
    }
    seen
}

/// The axes along which a point lies between the last two voxels of the longest side.
fn last_stretch(answer: &[&str]) -> Vec<String> {
    let [.., "point", x, y, z] = answer else { return Vec::new() };
    let along = |bits: &str| u64::from_str_radix(bits, 16).map_or(0.0, f64::from_bits);
    let over = [("x", x), ("y", y), ("z", z)].into_iter().filter(|(_, bits)| along(bits) > 62.0);
    over.map(|(axis, _)| format!("crossing: over 62 along {axis}")).collect()
}
