//! What a call is about, besides its faults: the entries of `ALSO` that it meets if it is done.

use super::{coarse, gaps, judged, marked, ordered, patched, practised, served, wide};
use crate::gaps::filled;
use crate::records::{negative, written_length, written_width, GREATEST, LONGEST_INPUT, MISSING};
use reference::file::read;
use reference::grid::Sides;
use reference::replay::{Replay, Slot};

/// What is seen in the state before a call.
pub fn of(state: &Replay, call: &str, words: &[&str]) -> Vec<String> {
    let number = |i: usize| words.get(i).and_then(|word| word.parse::<u64>().ok()).unwrap_or(0);
    let mut seen = match call {
        "begin" => begin(state),
        "begincoarse" => begin_coarse(state),
        "carve" => carve(state, number(1)),
        "take" => take(state, number(1)),
        "finish" => finish(state),
        "judge" => judged::of(state, words),
        "serve" => served::of(state, words),
        "crossing" => crossing(state, number(1), number(2)),
        "points" => points(state, number(1), number(2)),
        "read" | "program" => file(call, &state.file),
        "readlayer" => readlayer(state, number(1)),
        "write" => write(state, number(1)),
        "practice" => practised::of(state, words),
        "local" => local(words),
        _ => Vec::new(),
    };
    let byte = state.record.finished;
    match call {
        // the entries of calls that are refused for it
        "carve" | "take" | "open" | "finish" | "judge" => seen.push(format!("if refused 8: {call} refused: 8, finished {byte}")),
        "crossing" | "points" => seen.push(format!("{call}: finished {byte}")),
        _ => {}
    }
    seen.extend(marked::of(state, call, number(1)));
    if !["read", "program", "readlayer", "local", "serve"].contains(&call) {
        let sides = if ["begin", "begincoarse", "write", "practice"].contains(&call) { state.sides } else { state.record.sides };
        seen.extend(chosen(&[
            (sides == Sides { a: 64, b: 64, c: 64 }, format!("{call} on 64 64 64")),
            (different(&sides), format!("{call} on three different sides")),
        ]));
    }
    seen
}

/// What is seen in the answer of a call that was done.
pub fn answered(call: &str, said: &str) -> Vec<String> {
    let words: Vec<&str> = said.split_ascii_whitespace().collect();
    let after = |name: &str| words.iter().position(|&w| w == name).and_then(|i| words.get(i + 1)?.parse::<u64>().ok()).unwrap_or(0);
    match call {
        "carve" => chosen(&[(after("pending") == 1, "carve: something still pending"), (after("removed") > 0, "carve: a removal")]),
        "open" => chosen(&[
            (after("k") > 1, "open: k is 2 or more"),
            (after("m") > 1, "open: m is 2 or more"),
            (after("k") == 1 && after("m") == 1, "open: k and m are 1"),
        ]),
        "serve" => served::answered(said),
        "points" => chosen(&[(after("count") >= 1000, "points: 1000 or more in one call")]),
        "program" => chosen(&[
            (after("opened") > 0, "program: an opening"),
            (after("opened") > 1, "program: two openings"),
            (after("removed") > 0, "program: a removal"),
        ]),
        _ => Vec::new(),
    }
}

pub(super) fn chosen<S: ToString>(entries: &[(bool, S)]) -> Vec<String> {
    entries.iter().filter(|(is, _)| *is).map(|(_, entry)| entry.to_string()).collect()
}

fn different(s: &Sides) -> bool {
    s.a != s.b && s.b != s.c && s.a != s.c
}

/// Groups of measured negative voxels joined by touching, in the order of their smallest index.
pub(super) fn groups(sides: &Sides, values: &[i32]) -> Vec<Vec<usize>> {
    let mut free: Vec<bool> = values.iter().map(|&v| negative(v)).collect();
    let mut groups = Vec::new();
    for seed in 0..values.len() {
        if !std::mem::take(&mut free[seed]) {
            continue;
        }
        let mut group = vec![seed];
        let mut at = 0;
        while at < group.len() {
            let near = sides.touching(group[at]);
            group.extend(near.into_iter().filter(|&j| std::mem::take(&mut free[j])));
            at += 1;
        }
        groups.push(group);
    }
    groups
}

fn begin(state: &Slot) -> Vec<String> {
    let (sides, values) = (&state.sides, &state.values);
    if !sides.fit() || values.len() != sides.n() {
        return Vec::new();
    }
    let mut seen = wide::of_begin(state);
    seen.extend(gaps::of_values("begin", sides, values));
    let measured = filled(sides, values);
    let groups = groups(sides, &measured);
    let Some(largest) = groups.iter().map(Vec::len).max() else { return seen };
    let inside = groups.iter().find(|group| group.len() == largest).expect("the largest is one of them");
    let facing = |&i: &usize| sides.face_neighbours(i).into_iter().flatten();
    let beside: Vec<i32> = inside.iter().flat_map(facing).map(|j| measured[j]).filter(|&v| !negative(v)).collect();
    let m = beside.iter().copied().filter(|&v| v >= 0).max();
    seen.extend(chosen(&[
        (m == Some(0), "begin: M raised to 1, a 0 beside S"),
        (m.is_none() && !beside.is_empty(), "begin: M raised to 1, only missing points beside S"),
        (m > Some(32_767), "begin: M over 16 bits"),
        (m == Some(GREATEST), "begin: M of 1000000000"),
        (groups.len() > 1, "begin: a discarded group"),
        (groups.iter().filter(|group| group.len() == largest).count() > 1, "begin: two largest groups of one size"),
        (values.contains(&-32767), "begin: a value of -32767"),
        ((0..values.len()).any(|i| values[i] == MISSING && sides.border(i)), "begin: a missing border voxel"),
    ]));
    seen
}

fn begin_coarse(state: &Slot) -> Vec<String> {
    let (sides, values) = (&state.sides, &state.values);
    if !sides.fit() || values.len() != sides.n() {
        return Vec::new();
    }
    let mut seen = wide::places_of_28("begincoarse", sides, values);
    seen.extend(coarse::of(state));
    seen
}

fn carve(state: &Slot, limit: u64) -> Vec<String> {
    let (r, pending) = (&state.record, state.status.contains(&3));
    let n = if r.sides.fit() { r.sides.n() as u64 } else { 0 };
    chosen(&[
        (limit == 0 && pending, "carve: limit 0 with a voxel pending"),
        (limit > 65535 && limit < 4294967295 && pending, "carve: limit over 16 bits"),
        (limit == 4294967295 && pending, "carve: limit 4294967295"),
        (r.removals == n && r.examinations == 27 * n && pending, "carve: counts at their limits"),
    ])
}

fn take(state: &Slot, index: u64) -> Vec<String> {
    let status = usize::try_from(index).ok().and_then(|i| state.status.get(i)).copied();
    let mut seen = chosen(&[(status == Some(3), "take: pending"), (status == Some(1), "take: not pending")]);
    seen.extend(gaps::of_take(state, index));
    seen
}

fn finish(state: &Slot) -> Vec<String> {
    let kept = |distance: i32| state.dist.iter().zip(&state.status).any(|(&d, &s)| s != 0 && d == distance);
    chosen(&[(kept(0), "finish: a distance of 0 kept"), (kept(i32::MAX), "finish: a distance of 2147483647 kept")])
}

fn crossing(state: &Slot, index: u64, axis: u64) -> Vec<String> {
    let sides = &state.record.sides;
    if !sides.fit() || state.dist.len() != sides.n() || index >= sides.n() as u64 || axis > 2 {
        return Vec::new();
    }
    let (index, axis) = (index as usize, axis as usize);
    let mut there = sides.coordinates(index);
    there[axis] += 1;
    let Some(next) = sides.index(there) else { return Vec::new() };
    let (low, high) = (i64::from(state.dist[index]), i64::from(state.dist[next]));
    let (p, q) = (-low.min(high), low.max(high));
    let t = p as f64 / (p + q) as f64;
    let (from, crosses) = (there[axis] as f64, (low < 0) != (high < 0));
    let other_bits = ((from - 1.0) + (1.0 - t)).to_bits() != (from - t).to_bits();
    let above = crosses && high < 0;
    chosen(&[
        (above, &format!("crossing: negative above along {}", ["x", "y", "z"][axis])[..]),
        (above && other_bits, "crossing: negative above, where the lower plus 1 - t has other bits"),
        (crosses && low < 0, "crossing: negative below"),
        (low < 0 && high < 0, "crossing: none, both negative"),
        (low >= 0 && high >= 0, "crossing: none, neither negative"),
        (crosses && q == 0, "crossing: q is 0"),
        (crosses && p == 1 << 31, "crossing: p is 2147483648"),
        (crosses && p + q == (1 << 32) - 1, "crossing: p + q is 4294967295"),
    ])
}

fn points(state: &Slot, position: u64, capacity: u64) -> Vec<String> {
    let sides = &state.record.sides;
    if !sides.fit() || state.dist.len() != sides.n() || position > 3 * sides.n() as u64 {
        return Vec::new();
    }
    let end = 3 * sides.n() as u64;
    let left = (position..end).filter(|p| crosses(state, *p)).count() as u64;
    let room = capacity / 3;
    chosen(&[
        (capacity == 0, "points: capacity 0"),
        (capacity == 2, "points: capacity 2"),
        (capacity == 3, "points: capacity 3"),
        (capacity == 5, "points: capacity 5"),
        (position == 0 && left > 0 && room >= left, "points: position 0, all in one call"),
        (position == 0 && room > 0 && room < left, "points: position 0, the buffer full before the end"),
        (left > 0 && room == left, "points: the buffer full with the last point"),
        (left > 0 && room > left, "points: room for one more point at the end"),
        (position > 0 && left > 0 && room > 0, "points: from the middle"),
        (!position.is_multiple_of(3) && left > 0 && room > 0, "points: from the middle of a voxel's three"),
        (position == end && capacity > 2, "points: position 3n"),
        (position == end && capacity == 0, "points: position 3n, capacity 0"),
        (position < end && left == 0 && room > 0, "points: none left"),
        (!capacity.is_multiple_of(3) && left > room && room > 0, "points: a capacity that is no multiple of 3"),
    ])
}

/// Whether a position has a point.
fn crosses(state: &Slot, position: u64) -> bool {
    let (sides, index) = (&state.record.sides, (position / 3) as usize);
    let mut there = sides.coordinates(index);
    there[(position % 3) as usize] += 1;
    sides.index(there).is_some_and(|next| (state.dist[index] < 0) != (state.dist[next] < 0))
}

fn readlayer(state: &Slot, start: u64) -> Vec<String> {
    let bytes = &state.file;
    let mark = usize::try_from(start).ok().and_then(|start| bytes.get(start..)?.get(..2));
    let mut seen = chosen(&[
        (start > 7, "readlayer: not the first record"),
        (mark == Some(&[0x56, 0x50]), "if refused 22: readlayer refused: 22, a patch record"),
    ]);
    seen.extend(ordered::of_layer(&state.sides, bytes, start));
    seen.extend(wide::of_layer(&state.sides, bytes, start));
    seen
}

fn file(call: &str, bytes: &[u8]) -> Vec<String> {
    let [_, _, a, b, c, low, high, ..] = bytes else { return Vec::new() };
    let sides = Sides { a: u64::from(*a), b: u64::from(*b), c: u64::from(*c) };
    let greatest = sides.a.max(sides.b).max(sides.c);
    let mut seen = chosen(&[
        (greatest == 64, format!("{call}: a side of 64")),
        (greatest == 24, format!("{call}: a side of 24")),
        (different(&sides), format!("{call}: three different sides")),
        (u16::from_le_bytes([*low, *high]) > 255, format!("{call}: T over 255")),
        (bytes.len() > LONGEST_INPUT, format!("{call}: over {LONGEST_INPUT} bytes")),
        (bytes.len() == LONGEST_INPUT, format!("{call}: {LONGEST_INPUT} bytes")),
    ]);
    seen.extend(ordered::of(call, &sides, bytes));
    seen.extend(patched::of(call, &sides, bytes));
    seen.extend(wide::of_file(call, &sides, bytes));
    seen.extend(gaps::of_file(call, &sides, bytes));
    seen
}

/// Whether the file is of these sides, T and values.
fn is_of_the_state(state: &Slot) -> bool {
    let mut values = vec![0; state.values.len()];
    read(&state.file, &mut values, 64) == Ok((state.sides, state.t)) && values == state.values
}

fn write(state: &Slot, lent: u64) -> Vec<String> {
    let (sides, values) = (&state.sides, &state.values);
    if !sides.fit() || values.len() != sides.n() {
        return Vec::new();
    }
    let length = written_length(sides, written_width(values)) as u64;
    let own = is_of_the_state(state);
    let negatives = values.iter().filter(|&&v| negative(v)).count();
    let mut seen = wide::of_write(state, lent, own);
    seen.extend(gaps::handed_on("write", sides, values));
    seen.extend(chosen(&[
        (lent == length, "write: lent exactly the length"),
        (lent == length + 1, "write: lent a byte more"),
        (lent > 2 * length, "write: lent more than twice the length"),
        (sides.a == 64, "write: a is 64"),
        (sides.b == 64, "write: b is 64"),
        (sides.c == 64, "write: c is 64"),
        (true, &format!("write: T of {}", state.t)[..]),
        (values.contains(&MISSING), "write: a missing point"),
        (values.contains(&-32767), "write: a value of -32767"),
        (values.contains(&32767), "write: a value of 32767"),
        (negatives > 0 && values.iter().any(|&v| v > 0), "write: values of both signs"),
        ((0..values.len()).any(|i| negative(values[i]) && sides.border(i)), "write: a negative border voxel"),
        (negatives == 0, "write: no negative voxel"),
        (state.record.sides != *sides, "write: the record has other sides"),
        (state.record.t != state.t, "write: the record has another T"),
        (state.dist.len() != sides.n() && state.status.len() != sides.n(), "write: dist and status of other lengths"),
        (state.file.len() as u64 > length, "write: a longer file before"),
        (own && state.file.len() as u64 == length, "write: the file's own grid, without patches"),
        (own && state.file.len() as u64 > length, "write: the file's own grid, its patches among the layers"),
    ]));
    seen
}

fn local(words: &[&str]) -> Vec<String> {
    let bits = words.get(1).and_then(|word| u32::from_str_radix(word, 16).ok()).unwrap_or(0);
    chosen(&[(true, "local"), (bits >> 27 != 0, "local: bits from 27 on"), (bits >> 13 & 1 == 1, "local: the middle kept")])
}
