//! A grid file taken apart into its records, whatever is wrong with it, and what its values are; and removal records. Written from the papers, not from
//! the reference.

use reference::grid::Sides;

/// The mark of a missing point in 32 bits, and in the two bytes of a narrow layer or a patch.
pub const MISSING: i32 = -2_147_483_648;
pub const NARROW_MISSING: i16 = -32_768;

/// The ends of the measured values.
pub const LEAST: i32 = -1_000_000_000;
pub const GREATEST: i32 = 1_000_000_000;

/// Values that are neither measured nor the missing mark: beside each of them, at the end of 32 bits, and some that have the upper or the lower bytes
/// of a measured one.
pub const OUT_OF_RANGE: [i32; 10] = [
    LEAST - 1,
    GREATEST + 1,
    MISSING + 1,
    i32::MAX,
    -2_000_000_000,
    2_000_000_000,
    GREATEST + 65_536,
    LEAST - 65_536,
    0x4000_0000,
    -0x4000_0000,
];

/// Bytes a value of a layer.
pub const NARROW: usize = 2;
pub const WIDE: usize = 4;

/// The second byte of a layer's mark, for its width.
pub fn second_byte(width: usize) -> u8 {
    match width {
        WIDE => 0x57,
        _ => 0x4C,
    }
}

/// The length of a patch record.
pub const PATCH_LENGTH: usize = 8;

/// The most bytes that the program takes.
pub const LONGEST_INPUT: usize = 65_536;

// ---- values

/// What two bytes stand for.
pub fn widened(value: i16) -> i32 {
    match value {
        NARROW_MISSING => MISSING,
        _ => value.into(),
    }
}

/// The two bytes for a value that they hold.
pub fn narrowed(value: i32) -> i16 {
    match value {
        MISSING => NARROW_MISSING,
        _ => value as i16,
    }
}

pub fn is_measured(value: i32) -> bool {
    (LEAST..=GREATEST).contains(&value)
}

/// Measured, and inside the body.
pub fn negative(value: i32) -> bool {
    value < 0 && is_measured(value)
}

/// A value's bytes in a layer of some width.
pub fn bytes(value: i32, width: usize) -> Vec<u8> {
    match width {
        WIDE => value.to_le_bytes().to_vec(),
        _ => narrowed(value).to_le_bytes().to_vec(),
    }
}

/// The width of the layers that a grid of these values is written with.
pub fn written_width(values: &[i32]) -> usize {
    let holds = |&value: &i32| value == MISSING || (-32_767..=32_767).contains(&value);
    match values.iter().all(holds) {
        true => NARROW,
        false => WIDE,
    }
}

/// The length of a written file, whatever the sides are.
pub fn written_length(sides: &Sides, width: usize) -> u128 {
    let layer = (width as u128 * u128::from(sides.a)).saturating_mul(sides.b.into()).saturating_add(3);
    layer.saturating_mul(sides.c.into()).saturating_add(7)
}

// ---- records

/// A layer record: where it begins, its width and its length by its mark, and as many of its bytes as the file has.
pub struct LayerRecord<'a> {
    pub start: usize,
    pub width: usize,
    pub length: usize,
    pub left: &'a [u8],
}

impl<'a> LayerRecord<'a> {
    pub fn at(file: &'a [u8], start: usize, area: usize) -> Self {
        let left = file.get(start..).unwrap_or(&[]);
        let width = if left.starts_with(&[0x56, 0x57]) { WIDE } else { NARROW };
        let length = 3 + width * area;
        LayerRecord { start, width, length, left: &left[..length.min(left.len())] }
    }

    pub fn is_whole(&self) -> bool {
        self.left.len() == self.length
    }

    /// The values, as many as are whole.
    pub fn values(&self) -> impl Iterator<Item = i32> + 'a {
        let bytes = self.left.get(3..).unwrap_or(&[]);
        bytes.chunks_exact(self.width).map(|bytes| match *bytes {
            [b0, b1, b2, b3] => i32::from_le_bytes([b0, b1, b2, b3]),
            _ => widened(i16::from_le_bytes([bytes[0], bytes[1]])),
        })
    }
}

/// The layer records of a file, up to the first that is not whole, and the bytes after the last layer.
pub fn parts<'a>(file: &'a [u8], sides: &Sides) -> (Vec<LayerRecord<'a>>, &'a [u8]) {
    let (mut records, mut start) = (Vec::new(), 7);
    for _ in 0..sides.c {
        let record = LayerRecord::at(file, start, (sides.a * sides.b) as usize);
        start += record.length;
        let whole = record.is_whole();
        records.push(record);
        if !whole {
            return (records, &[]);
        }
    }
    (records, file.get(start..).unwrap_or(&[]))
}

/// The index of a patch record, or of a removal record, as far as it has one: four bytes behind the mark.
pub fn patch_index(record: &[u8]) -> Option<u32> {
    record.get(2..6).map(|bytes| bytes.iter().rev().fold(0, |index, &byte| index << 8 | u32::from(byte)))
}

/// The index and the value of each whole patch record of a file.
pub fn patches<'a>(file: &'a [u8], sides: &Sides) -> impl Iterator<Item = (u32, i16)> + 'a {
    let (_, patches) = parts(file, sides);
    let value = |record: &[u8]| i16::from_le_bytes([record[6], record[7]]);
    patches.chunks_exact(PATCH_LENGTH).filter_map(move |record| Some((patch_index(record)?, value(record))))
}

/// What the whole records of a file hold.
pub fn contents(file: &[u8], sides: &Sides) -> Vec<i32> {
    let area = (sides.a * sides.b) as usize;
    let mut values = vec![0; sides.n()];
    let (layers, _) = parts(file, sides);
    for record in layers.iter().filter(|record| record.is_whole()) {
        let z = usize::from(record.left[2]);
        if (z as u64) < sides.c {
            values.splice(z * area..(z + 1) * area, record.values());
        }
    }
    for (index, value) in patches(file, sides) {
        if let Some(voxel) = values.get_mut(index as usize) {
            *voxel = widened(value);
        }
    }
    values
}

// ---- lists of removals

/// The length of a removal record, and the second byte of its mark.
pub const REMOVAL_LENGTH: usize = 6;
pub const ORDINARY: u8 = 0x52;
pub const OPENING: u8 = 0x4F;

/// A removal record.
pub fn removal(second: u8, index: u32) -> Vec<u8> {
    [&[0x56, second][..], &index.to_le_bytes()].concat()
}
