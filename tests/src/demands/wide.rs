//! Values of 32 bits, and files with layers of both widths: the entries of `ALSO` that begin, the writer, read, the program and readlayer meet on
//! them.

use super::sights::chosen;
use crate::faults::out_of_range;
use crate::records::{
    is_measured, parts, patches, written_length, written_width, LayerRecord, GREATEST, LEAST, MISSING, NARROW, NARROW_MISSING, WIDE,
};
use reference::grid::Sides;
use reference::replay::Slot;

/// What the old mark of a missing point is as a value of 32 bits: measured.
const OLD_MARK: i32 = -32_768;

fn over_16_bits(value: i32) -> bool {
    is_measured(value) && i16::try_from(value).is_err()
}

/// Where a value stands that is refused with 28.
pub fn places_of_28(call: &str, sides: &Sides, values: &[i32]) -> Vec<String> {
    let wrong: Vec<usize> = (0..values.len()).filter(|&i| out_of_range(values[i]).is_some()).collect();
    let alone = |wanted: bool| wrong.len() == 1 && wanted;
    let on_border = sides.fit() && values.len() == sides.n() && wrong.iter().all(|&i| sides.border(i));
    let places = chosen(&[
        (alone(wrong == [0]), "at the first voxel alone"),
        (alone(wrong == [values.len().wrapping_sub(1)]), "at the last voxel alone"),
        (alone(!on_border), "within the grid alone"),
        (wrong.len() > 1, "at two voxels or more"),
    ]);
    places.iter().map(|place| format!("if refused 28: {call} refused: 28, {place}")).collect()
}

pub fn of_begin(state: &Slot) -> Vec<String> {
    let (sides, values) = (&state.sides, &state.values);
    let on_border = |value: i32| (0..values.len()).any(|i| values[i] == value && sides.border(i));
    let mut seen = places_of_28("begin", sides, values);
    seen.extend(chosen(&[
        (values.iter().any(|&v| over_16_bits(v)), "begin: a value over 16 bits"),
        (values.contains(&OLD_MARK), "begin: a value of -32768"),
        (values.contains(&LEAST), "begin: a value of -1000000000"),
        (values.contains(&GREATEST), "begin: a value of 1000000000"),
        (on_border(OLD_MARK), "if refused 3: begin refused: 3, for a value of -32768"),
        (on_border(LEAST), "if refused 3: begin refused: 3, for a value of -1000000000"),
    ]));
    seen
}

/// `own` says that the file at hand is of this grid.
pub fn of_write(state: &Slot, lent: u64, own: bool) -> Vec<String> {
    let (sides, values) = (&state.sides, &state.values);
    let wide = written_width(values) == WIDE;
    let needs: Vec<usize> = (0..values.len()).filter(|&i| written_width(&values[i..=i]) == WIDE).collect();
    let needed_for = |value: i32| wide && needs.iter().all(|&i| values[i] == value);
    let layers = || values.chunks((sides.a * sides.b) as usize);
    let of_file = if own { parts(&state.file, sides).0 } else { Vec::new() };
    let had = |width: usize| of_file.iter().any(|record| record.width == width);
    let length = |width: usize| written_length(sides, width) as u64;
    let mut seen = places_of_28("write", sides, values);
    seen.extend(chosen(&[
        (wide, "write: wide layers"),
        (wide && lent == length(WIDE), "write: wide layers, lent exactly the length"),
        (wide && lent > length(WIDE), "write: wide layers, lent more"),
        (needed_for(32_768), "write: wide for 32768 alone"),
        (needed_for(OLD_MARK), "write: wide for -32768 alone"),
        (needs == [0], "write: wide for the first value alone"),
        (needs == [values.len() - 1], "write: wide for the last value alone"),
        (wide && layers().any(|layer| written_width(layer) == NARROW), "write: wide with a layer that two bytes hold"),
        (wide && values.contains(&MISSING), "write: wide with a missing point"),
        (wide && values.contains(&LEAST), "write: a value of -1000000000"),
        (wide && values.contains(&GREATEST), "write: a value of 1000000000"),
        (!wide && values.contains(&-32_767) && values.contains(&32_767), "write: narrow with -32767 and 32767"),
        (values.iter().all(|&v| v == MISSING), "write: missing points alone"),
        (!wide && had(WIDE), "write: narrow, of a file with a wide layer"),
        (wide && had(NARROW), "write: wide, of a file with a narrow layer"),
        (wide && lent == length(NARROW), "if refused 26: write refused: 26, wide and lent the narrow length"),
        (wide && lent + 1 == length(WIDE), "if refused 26: write refused: 26, wide and lent a byte less"),
    ]));
    seen
}

/// What is seen in a file before it is read.
pub fn of_file(call: &str, sides: &Sides, bytes: &[u8]) -> Vec<String> {
    if !sides.fit() {
        return Vec::new();
    }
    let (records, behind) = parts(bytes, sides);
    let mut seen: Vec<String> = taken(sides, bytes, &records).iter().map(|entry| format!("{call}: {entry}")).collect();
    let refused = wrong_value(sides, bytes, &records, behind).into_iter().map(|entry| ("28", entry));
    let refused = refused.chain(cut_off(&records).into_iter().map(|entry| ("21", entry)));
    seen.extend(refused.map(|(number, entry)| format!("if refused {number}: {call} refused: {number}, {entry}")));
    seen
}

/// Entries of a file that is read.
fn taken(sides: &Sides, bytes: &[u8], records: &[LayerRecord]) -> Vec<String> {
    let widths: Vec<usize> = records.iter().map(|record| record.width).collect();
    let (wide, narrow) = (widths.contains(&WIDE), widths.contains(&NARROW));
    let both = wide && narrow;
    let value = |width: usize, wanted: &dyn Fn(i32) -> bool| records.iter().any(|r| r.width == width && r.values().any(wanted));
    let area = (sides.a * sides.b) as usize;
    let patch = |wanted: &dyn Fn(i32, i16) -> bool| {
        let was = |index: u32| records.get(index as usize / area).filter(|r| r.width == WIDE)?.values().nth(index as usize % area);
        wide && patches(bytes, sides).any(|(index, value)| was(index).is_some_and(|was| wanted(was, value)))
    };
    chosen(&[
        (wide && !narrow, "wide layers alone"),
        (both && widths[0] == NARROW, "both widths, a narrow layer first"),
        (both && widths[0] == WIDE, "both widths, a wide layer first"),
        (both && widths.last() == Some(&NARROW), "both widths, a narrow layer last"),
        (value(WIDE, &|v| v == OLD_MARK), "a wide value of -32768"),
        (value(WIDE, &|v| v == MISSING), "a wide missing mark"),
        (value(WIDE, &|v| v == LEAST), "a wide value of -1000000000"),
        (value(WIDE, &|v| v == GREATEST), "a wide value of 1000000000"),
        (value(WIDE, &over_16_bits), "a wide value over 16 bits"),
        (value(WIDE, &|v| i16::try_from(v).is_ok()), "a wide value that two bytes hold"),
        (wide && value(NARROW, &|v| v == MISSING), "a narrow missing mark beside wide layers"),
        (patch(&|_, _| true), "a patch to a wide layer"),
        (patch(&|was, _| over_16_bits(was)), "a patch to a wide value over 16 bits"),
        (patch(&|_, value| value == NARROW_MISSING), "a patch of -32768 to a wide layer"),
        (both && patches(bytes, sides).next().is_some(), "a patch behind both widths"),
    ])
}

/// Where the first value that is refused with 28 stands, and what follows its record.
fn wrong_value(sides: &Sides, bytes: &[u8], records: &[LayerRecord], behind: &[u8]) -> Vec<String> {
    let wrong = |record: &LayerRecord| record.values().position(|v| out_of_range(v).is_some());
    let found = records.iter().enumerate().find_map(|(number, record)| Some((number, record, wrong(record)?)));
    let Some((number, record, place)) = found.filter(|(_, record, _)| record.is_whole()) else { return Vec::new() };
    let (area, c) = ((sides.a * sides.b) as usize, sides.c as usize);
    let next = records.get(number + 1);
    let (left, due) = (bytes.len() - record.start - record.length, number + 1 < c);
    let mended = patches(bytes, sides).any(|(index, _)| index as usize == number * area + place);
    chosen(&[
        (number == 0, "in the first record"),
        (number > 0 && due, "in between"),
        (!due, "in the last record"),
        (place == 0, "its first value"),
        (place == area - 1, "its last value"),
        (records[..number].iter().any(|record| record.width == NARROW), "behind a narrow layer"),
        (due && left == 0, "nothing behind"),
        (due && left == 1, "1 byte behind"),
        (due && left == 2, "2 bytes behind"),
        (next.is_some_and(|next| next.width == WIDE && !next.is_whole()), "a wide record cut off behind"),
        (mended, "a patch to that voxel behind"),
        (!behind.is_empty() && !mended, "bytes behind the layers"),
    ])
}

/// How the last record of a file that ends in it begins.
fn cut_off(records: &[LayerRecord]) -> Vec<String> {
    let left = records.last().map_or(&[][..], |record| record.left);
    chosen(&[(left == [0x56], "1 byte of a mark alone"), (left == [0x56, 0x57], "the wide mark alone")])
}

/// What is seen of a layer that is read by itself.
pub fn of_layer(sides: &Sides, bytes: &[u8], start: u64) -> Vec<String> {
    let Some(start) = usize::try_from(start).ok().filter(|_| sides.fit()) else { return Vec::new() };
    let record = LayerRecord::at(bytes, start, (sides.a * sides.b) as usize);
    let wide = record.width == WIDE;
    let mut before = parts(bytes, sides).0.into_iter().filter(|record| record.start < start);
    let behind_wide = before.next_back().is_some_and(|last| last.width == WIDE && last.start + last.length == start);
    let wrong = || record.values().any(|v| out_of_range(v).is_some());
    chosen(&[
        (wide, "readlayer: a wide layer"),
        (!wide && behind_wide, "readlayer: a narrow layer behind a wide one"),
        (wide && behind_wide, "readlayer: a wide layer behind a wide one"),
        (wide && wrong(), "readlayer: a wide layer with a value out of range"),
        (record.left == [0x56], "if refused 21: readlayer refused: 21, 1 byte of a mark alone"),
        (record.left == [0x56, 0x57], "if refused 21: readlayer refused: 21, the wide mark alone"),
    ])
}
