//! Grid files: whole ones, with patch records or without, and every kind of broken one; some with their layers in another order than rising, some
//! with layers of both widths, and some with gaps that patches make or break.

use crate::gaps::gaps;
use crate::grids::{grid, stretched, walled, Grid};
use crate::random::Random;
use crate::records::{bytes, narrowed, parts, second_byte, written_width};
use crate::records::{LONGEST_INPUT, MISSING, NARROW, NARROW_MISSING, OUT_OF_RANGE, PATCH_LENGTH, WIDE};
use reference::grid::Sides;

/// A layer record of some width.
pub fn layer(z: usize, values: &[i32], width: usize) -> Vec<u8> {
    let values = values.iter().flat_map(|&value| bytes(value, width));
    [0x56, second_byte(width), z as u8].into_iter().chain(values).collect()
}

/// The file of a grid with a record for each z, of some width.
pub fn file_of_widths(g: &Grid, layers: impl IntoIterator<Item = (usize, usize)>) -> Vec<u8> {
    let [a, b, c] = g.sides;
    let mut file = vec![0x56, 0x48, a as u8, b as u8, c as u8];
    file.extend(g.allowed.to_le_bytes());
    for (z, width) in layers {
        file.extend(layer(z, &g.values[z * a * b..(z + 1) * a * b], width));
    }
    file
}

/// The file of a grid, its layers narrow and in the given order.
pub fn file_of(g: &Grid, order: &[usize]) -> Vec<u8> {
    file_of_widths(g, order.iter().map(|&z| (z, NARROW)))
}

/// A patch record.
pub fn patch(index: u32, value: i16) -> Vec<u8> {
    [&[0x56, 0x50][..], &index.to_le_bytes(), &value.to_le_bytes()].concat()
}

/// Bytes as a script has them.
pub fn hex(bytes: &[u8]) -> String {
    bytes.iter().map(|b| format!("{b:02x}")).collect()
}

pub fn shuffled(r: &mut Random, n: usize) -> Vec<usize> {
    let mut order: Vec<usize> = (0..n).collect();
    for i in (1..n).rev() {
        order.swap(i, r.below(i as u64 + 1) as usize);
    }
    order
}

/// The order that was drawn for a seed's layers, or rising, as read wants it: nine times in ten, by a draw of its own.
pub fn mostly_rising(seed: u64, mut drawn: Vec<usize>) -> Vec<usize> {
    if Random::new(seed.rotate_left(32)).chance(90) {
        drawn.sort_unstable();
    }
    drawn
}

/// Damage of a random kind to a file whose layers have this length.
fn damaged(r: &mut Random, mut file: Vec<u8>, layer: usize, layers: usize) -> Vec<u8> {
    let record = 7 + layer * r.below(layers as u64) as usize;
    match r.below(9) {
        0 => file.truncate(r.below(8) as usize),
        1 => file.truncate(r.below(file.len() as u64) as usize),
        2 => file[r.below(2) as usize] ^= 1 << r.below(8),
        3 => file[2 + r.below(3) as usize] = r.pick(&[0, 2, 3, 24, 25, 64, 65, 255]),
        4 => file[record + r.below(2) as usize] ^= 1 << r.below(8),
        5 => file[record + 2] = r.pick(&[layers as u8, 255, 0, 1]),
        6 => file.extend((0..r.between(1, 9)).map(|_| 0)),
        7 => file[7 + 2 * r.below(3) as usize] = 0x80,
        _ => {
            let at = r.below(file.len() as u64) as usize;
            file[at] ^= 1 << r.below(8);
        }
    }
    file
}

/// The file that a seed names.
pub fn file(seed: u64, greatest_side: i64) -> Vec<u8> {
    let mut r = Random::new(seed);
    let g = grid(&mut r, greatest_side);
    let [a, b, c] = g.sides;
    let order = if r.chance(50) { (0..c).collect() } else { shuffled(&mut r, c) };
    let whole = file_of(&g, &mostly_rising(seed, order));
    if r.chance(30) {
        damaged(&mut r, whole, 3 + 2 * a * b, c)
    } else {
        whole
    }
}

// ---- files with patches

/// What a patch brings: the ends of the values too, and on the border seldom a negative one.
fn patched_value(r: &mut Random, border: bool) -> i16 {
    let value = r.pick(&[NARROW_MISSING, -32767, -300, -6, -1, 0, 1, 6, 255, 256, 32767]);
    if border && value != NARROW_MISSING && !r.chance(1) {
        value.abs()
    } else {
        value
    }
}

/// Some patches of a grid, many of them to the same few voxels. So many in a hundred bring the value that the layers have.
fn patches(r: &mut Random, g: &Grid, count: usize, same: u64) -> Vec<u8> {
    let [a, b, c] = g.sides.map(|side| side as u64);
    let (sides, n) = (Sides { a, b, c }, g.values.len() as u64);
    let few = [0, n - 1, n / 2, r.below(n), r.below(n)];
    let mut records = Vec::new();
    for _ in 0..count {
        let index = (if r.chance(30) { r.pick(&few) } else { r.below(n) }) as usize;
        let value = if r.chance(same) { narrowed(g.values[index]) } else { patched_value(r, sides.border(index)) };
        records.extend(patch(index as u32, value));
    }
    records
}

/// Damage of a random kind to patch records of a grid with n voxels.
fn damaged_patches(r: &mut Random, mut records: Vec<u8>, n: u32) -> Vec<u8> {
    let first = PATCH_LENGTH * r.below((records.len() / PATCH_LENGTH).max(1) as u64) as usize;
    let Some(record) = records.get_mut(first..first + PATCH_LENGTH) else { return records };
    match r.below(7) {
        0 => record[r.below(2) as usize] ^= 1 << r.below(8),
        1 => record[..2].copy_from_slice(&r.pick(&[[0x56, 0x4C], [0x50, 0x56], [0x56, 0x48], [0, 0]])),
        2 => record[2..6].copy_from_slice(&r.pick(&[n, n + 1, n | 1 << 16, 1 << 16, 1 << 24, 1 << 31, u32::MAX]).to_le_bytes()),
        3 => record[2..6].reverse(),
        4 => records.truncate(first + r.between(1, 7) as usize),
        5 => records.extend((0..r.between(1, 9)).map(|_| 0)),
        _ => {
            let at = r.below(records.len() as u64) as usize;
            records[at] ^= 1 << r.below(8);
        }
    }
    records
}

/// A grid whose body, or the mending of its border, is left to patches now and then.
fn to_be_patched(r: &mut Random, greatest_side: i64) -> Grid {
    let mut g = grid(r, greatest_side);
    if r.chance(15) {
        g.values.iter_mut().filter(|value| **value != MISSING).for_each(|value| *value = value.abs());
    }
    if r.chance(5) {
        g.values[0] = -1;
    }
    g
}

/// The file with patch records that a seed names.
pub fn patched_file(seed: u64, greatest_side: i64) -> Vec<u8> {
    let mut r = Random::new(!seed);
    let g = to_be_patched(&mut r, greatest_side);
    let [a, b, c] = g.sides;
    let order = if r.chance(50) { (0..c).collect() } else { shuffled(&mut r, c) };
    let mut layers = file_of(&g, &mostly_rising(seed, order));
    let count = r.pick(&[1, 1, 2, 3, 5, 9, 20, 60, 300]);
    let mut records = patches(&mut r, &g, count, 20);
    if r.chance(8) {
        layers = damaged(&mut r, layers, 3 + 2 * a * b, c);
    }
    while r.chance(25) {
        records = damaged_patches(&mut r, records, g.values.len() as u32);
    }
    [layers, records].concat()
}

/// The file of a seed that is about as long as the program takes: with whole patches, or to a byte.
pub fn long_file(seed: u64) -> Vec<u8> {
    let mut r = Random::new(!seed);
    let full = r.chance(50);
    let (g, layers) = loop {
        let g = to_be_patched(&mut r, 24);
        let order = shuffled(&mut r, g.sides[2]);
        let layers = file_of(&g, &mostly_rising(seed, order));
        if !full || (LONGEST_INPUT - layers.len()).is_multiple_of(PATCH_LENGTH) {
            break (g, layers);
        }
    };
    let count = (LONGEST_INPUT - layers.len()) / PATCH_LENGTH + r.pick(&[0, 0, 0, 1]);
    let mut file = [layers, patches(&mut r, &g, count, 97)].concat();
    if !full {
        file.resize(LONGEST_INPUT - 9 + r.below(19) as usize, 0x56);
    }
    file
}

// ---- files with layers of both widths

/// Layers of either width, wide where two bytes do not hold them; seldom with a value out of range.
fn layers_of_both_widths(r: &mut Random, g: &mut Grid) -> Vec<u8> {
    let area = g.sides[0] * g.sides[1];
    let wide = r.pick(&[0, 30, 50, 100]);
    let mut widths: Vec<usize> = g.values.chunks(area).map(written_width).collect();
    widths.iter_mut().for_each(|width| *width = if r.chance(wide) { WIDE } else { *width });
    if r.chance(12) {
        let z = r.below(g.sides[2] as u64) as usize;
        g.values[z * area + r.below(area as u64) as usize] = r.pick(&OUT_OF_RANGE);
        widths[z] = WIDE;
    }
    file_of_widths(g, widths.into_iter().enumerate())
}

/// A record with the mark of the other width or with a wrong one, with another z, or cut off; mostly none of these.
fn damaged_record(r: &mut Random, mut file: Vec<u8>, sides: &Sides) -> Vec<u8> {
    let starts: Vec<usize> = parts(&file, sides).0.iter().map(|record| record.start).collect();
    let at = r.pick(&starts);
    match r.below(20) {
        0 => file[at + 1] ^= second_byte(WIDE) ^ second_byte(NARROW),
        1 => file[at + r.below(2) as usize] ^= 1 << r.below(8),
        2 => file[at + 2] = r.pick(&[0, 1, 255]),
        3 => file.truncate(at + r.below(4) as usize),
        4 => file.truncate(r.below(file.len() as u64) as usize),
        _ => {}
    }
    file
}

/// A file with layers of both widths, whole or damaged, some with patches behind.
pub fn file_of_both_widths(r: &mut Random, greatest_side: i64) -> Vec<u8> {
    let mut g = stretched(r, greatest_side);
    let [a, b, c] = g.sides.map(|side| side as u64);
    let layers = layers_of_both_widths(r, &mut g);
    let mut file = damaged_record(r, layers, &Sides { a, b, c });
    while r.chance(35) {
        let value = r.pick(&[6, -6, NARROW_MISSING, 32_767, -32_767, 0]);
        let beyond = u64::from(r.chance(5));
        file.extend(patch(r.below(a * b * c + beyond) as u32, value));
    }
    file
}

/// The file of both widths that a seed names.
pub fn wide_file(seed: u64, greatest_side: i64) -> Vec<u8> {
    file_of_both_widths(&mut Random::new(seed.rotate_left(16)), greatest_side)
}

// ---- files with gaps

/// A patch that can make a gap, or open it, close it or measure it: a missing point in the wall, or a value to a voxel of a gap or beside one.
fn patch_of_a_gap(r: &mut Random, sides: &Sides, values: &[i32]) -> Vec<u8> {
    let all = gaps(sides, values);
    let wall: Vec<usize> = (0..values.len()).filter(|&i| values[i] < 0 && !sides.border(i)).collect();
    let within = |i: &usize| !sides.border(*i);
    let of: Vec<usize> = all.iter().flat_map(|gap| gap.voxels.iter().copied()).filter(within).collect();
    let beside: Vec<usize> = all.iter().flat_map(|gap| gap.beside.iter().map(|&(_, i)| i)).filter(within).collect();
    let (voxels, value) = match r.below(4) {
        0 => (wall, NARROW_MISSING),
        1 => (of, r.pick(&[-7, -1, 0, 3, 32_767])),
        2 => (beside.into_iter().filter(|&i| values[i] >= 0).collect(), r.pick(&[-3, -1])),
        _ => (beside, r.pick(&[0, 5, NARROW_MISSING])),
    };
    match voxels.is_empty() {
        true => Vec::new(),
        false => patch(r.pick(&voxels) as u32, value),
    }
}

/// A file of walls with gaps in them, its layers of either width, mostly with patches behind.
pub fn file_of_walls(r: &mut Random, greatest_side: i64) -> Vec<u8> {
    let mut g = walled(r, greatest_side);
    let [a, b, c] = g.sides.map(|side| side as u64);
    if r.chance(30) {
        let factor = r.pick(&[40, 33_333, 1_000_000]);
        g.values.iter_mut().filter(|value| **value != MISSING).for_each(|value| *value *= factor);
    }
    let wide = r.pick(&[0, 50, 100]);
    let widths: Vec<usize> =
        g.values.chunks(g.sides[0] * g.sides[1]).map(|layer| if r.chance(wide) { WIDE } else { written_width(layer) }).collect();
    let mut file = file_of_widths(&g, widths.into_iter().enumerate());
    while r.chance(60) {
        file.extend(patch_of_a_gap(r, &Sides { a, b, c }, &g.values));
    }
    file
}

/// The file of walls that a seed names.
pub fn walled_file(seed: u64, greatest_side: i64) -> Vec<u8> {
    file_of_walls(&mut Random::new(seed.rotate_left(48)), greatest_side)
}
