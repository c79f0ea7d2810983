//! Grid files in Rust, read and written: (a) in idiomatic Rust, (b) by the fastest plain loops that were found, and by loops by index.

use crate::types::{Refused, Sides, MISSING};

/// The greatest measured value, either way.
const GREATEST: i32 = 1_000_000_000;

/// Measured, and not -bound to bound.
fn beyond(value: i32, bound: i32) -> bool {
    value != MISSING && !(-bound..=bound).contains(&value)
}

/// What two bytes stand for.
fn widened(value: i16) -> i32 {
    match value {
        i16::MIN => MISSING,
        _ => i32::from(value),
    }
}

/// What two bytes are to stand for, of a value that they hold.
fn narrowed(value: i32) -> i16 {
    match value {
        MISSING => i16::MIN,
        _ => value as i16,
    }
}

/// A layer: its value bytes, and how many of them a value has.
type Layer<'a> = (&'a [u8], usize);

/// A way through the values of a file, one that is read or one that is written.
pub trait Way {
    /// Whether some value is measured and not -bound to bound.
    fn any_beyond(values: &[i32], bound: i32) -> bool;
    /// Whether some value of a wide layer is measured and out of the range.
    fn any_stray(bytes: &[u8]) -> bool;
    /// A layer's values into their places.
    fn fill(layer: Layer, values: &mut [i32]);
    /// The checks of all patches for n voxels.
    fn check(n: usize, bytes: &[u8]) -> Result<(), Refused>;
    /// The patches' values into their places.
    fn apply(bytes: &[u8], values: &mut [i32]);
    /// Values into a layer.
    fn put(values: &[i32], width: usize, bytes: &mut [u8]);
}

/// By iterators, and as arrays of 2, 4 or 8 bytes, in which no index is checked. Where a wide layer is copied the compiler sees through it: what runs
/// is the C library's memcpy, which is not held to plain x86-64.
pub struct Chunked;

impl Way for Chunked {
    fn any_beyond(values: &[i32], bound: i32) -> bool {
        values.iter().any(|&v| beyond(v, bound))
    }

    fn any_stray(bytes: &[u8]) -> bool {
        bytes.as_chunks().0.iter().any(|&bytes| beyond(i32::from_le_bytes(bytes), GREATEST))
    }

    fn fill((bytes, width): Layer, values: &mut [i32]) {
        match width {
            4 => values.iter_mut().zip(bytes.as_chunks().0).for_each(|(value, &bytes)| *value = i32::from_le_bytes(bytes)),
            _ => values.iter_mut().zip(bytes.as_chunks().0).for_each(|(value, &bytes)| *value = widened(i16::from_le_bytes(bytes))),
        }
    }

    fn check(n: usize, bytes: &[u8]) -> Result<(), Refused> {
        // what is too short for a patch comes last
        let (patches, rest) = bytes.as_chunks::<8>();
        for &[first, second, i, j, k, l, ..] in patches {
            if [first, second] != *b"VP" {
                return Err(22);
            }
            if u32::from_le_bytes([i, j, k, l]) as usize >= n {
                return Err(5);
            }
        }
        match rest {
            [] => Ok(()),
            _ => Err(21),
        }
    }

    fn apply(bytes: &[u8], values: &mut [i32]) {
        for &[_, _, i, j, k, l, low, high] in bytes.as_chunks().0 {
            values[u32::from_le_bytes([i, j, k, l]) as usize] = widened(i16::from_le_bytes([low, high]));
        }
    }

    fn put(values: &[i32], width: usize, bytes: &mut [u8]) {
        match width {
            4 => bytes.as_chunks_mut().0.iter_mut().zip(values).for_each(|(bytes, value)| *bytes = value.to_le_bytes()),
            _ => bytes.as_chunks_mut().0.iter_mut().zip(values).for_each(|(bytes, &value)| *bytes = narrowed(value).to_le_bytes()),
        }
    }
}

fn index_at(bytes: &[u8], start: usize) -> usize {
    u32::from_le_bytes([bytes[start + 2], bytes[start + 3], bytes[start + 4], bytes[start + 5]]) as usize
}

/// The value of so many bytes that begins at a byte.
fn value_at(bytes: &[u8], at: usize, width: usize) -> i32 {
    match width {
        4 => i32::from_le_bytes([bytes[at], bytes[at + 1], bytes[at + 2], bytes[at + 3]]),
        _ => widened(i16::from_le_bytes([bytes[at], bytes[at + 1]])),
    }
}

/// As `Chunked`, but with bodies that a compiler makes few steps of, for many values at a time, and no scan that ends early. No loop in plain Rust was
/// found to be faster.
pub struct Packed;

impl Way for Packed {
    /// One size for all bounds that are all ones: the missing mark's is the sign bit alone.
    fn any_beyond(values: &[i32], bound: i32) -> bool {
        if bound & (bound + 1) == 0 {
            return values.iter().fold(0, |all, v| all | v.wrapping_abs()) & i32::MAX > bound;
        }
        values.iter().fold(false, |found, v| found | (v.wrapping_abs() > bound))
    }

    fn any_stray(bytes: &[u8]) -> bool {
        bytes.as_chunks().0.iter().fold(false, |found, &bytes| found | (i32::from_le_bytes(bytes).wrapping_abs() > GREATEST))
    }

    /// From the mark of 16 bits to the one of 32 it is a step down that no other value takes.
    fn fill((bytes, width): Layer, values: &mut [i32]) {
        let step = MISSING - i32::from(i16::MIN);
        let widened = |value: i16| i32::from(value) + if value == i16::MIN { step } else { 0 };
        match width {
            4 => Chunked::fill((bytes, width), values),
            _ => values.iter_mut().zip(bytes.as_chunks().0).for_each(|(value, &bytes)| *value = widened(i16::from_le_bytes(bytes))),
        }
    }

    fn check(n: usize, bytes: &[u8]) -> Result<(), Refused> {
        Chunked::check(n, bytes)
    }

    fn apply(bytes: &[u8], values: &mut [i32]) {
        Chunked::apply(bytes, values);
    }

    /// Held to 16 bits: the mark of 32 becomes the one of 16.
    fn put(values: &[i32], width: usize, bytes: &mut [u8]) {
        let held = |value: i32| value.clamp(i16::MIN.into(), i16::MAX.into()) as i16;
        match width {
            4 => Chunked::put(values, width, bytes),
            _ => bytes.as_chunks_mut().0.iter_mut().zip(values).for_each(|(bytes, &value)| *bytes = held(value).to_le_bytes()),
        }
    }
}

/// Loops by index, from value to value and from record to record by the byte where it begins, a byte at a time, and no scan that ends early.
pub struct Indexed;

impl Way for Indexed {
    fn any_beyond(values: &[i32], bound: i32) -> bool {
        let (mut found, mut i) = (false, 0);
        while i < values.len() {
            found |= beyond(values[i], bound);
            i += 1;
        }
        found
    }

    fn any_stray(bytes: &[u8]) -> bool {
        let (mut found, mut i) = (false, 0);
        while i < bytes.len() / 4 {
            found |= beyond(value_at(bytes, 4 * i, 4), GREATEST);
            i += 1;
        }
        found
    }

    fn fill((bytes, width): Layer, values: &mut [i32]) {
        let mut i = 0;
        while i < values.len() {
            values[i] = value_at(bytes, width * i, width);
            i += 1;
        }
    }

    fn check(n: usize, bytes: &[u8]) -> Result<(), Refused> {
        let mut start = 0;
        while start < bytes.len() {
            if bytes.len() - start < 8 {
                return Err(21);
            }
            if bytes[start] != 0x56 || bytes[start + 1] != 0x50 {
                return Err(22);
            }
            if index_at(bytes, start) >= n {
                return Err(5);
            }
            start += 8;
        }
        Ok(())
    }

    fn apply(bytes: &[u8], values: &mut [i32]) {
        let mut start = 0;
        while start < bytes.len() {
            values[index_at(bytes, start)] = value_at(bytes, start + 6, 2);
            start += 8;
        }
    }

    fn put(values: &[i32], width: usize, bytes: &mut [u8]) {
        let mut i = 0;
        while i < values.len() {
            let at = width * i;
            let word = if width == 2 { narrowed(values[i]) as u32 } else { values[i] as u32 };
            bytes[at] = word as u8;
            bytes[at + 1] = (word >> 8) as u8;
            if width != 2 {
                bytes[at + 2] = (word >> 16) as u8;
                bytes[at + 3] = (word >> 24) as u8;
            }
            i += 1;
        }
    }
}

/// The layers and the rest of what follows the header: 21, 22, 23, 24, 27, 28 of each record.
fn layers_and_rest<W: Way>(Sides { a, b, c }: Sides, bytes: &[u8]) -> Result<(Vec<Layer<'_>>, &[u8]), Refused> {
    let mut layers = Vec::with_capacity(c);
    let mut rest = bytes;
    for k in 0..c {
        let width = if rest.starts_with(b"VW") { 4 } else { 2 };
        let Some((record, after)) = rest.split_at_checked(3 + width * a * b) else { return Err(21) };
        let z = usize::from(record[2]);
        if width == 2 && !record.starts_with(b"VL") {
            return Err(22);
        }
        if z >= c {
            return Err(23);
        }
        if z != k {
            return Err(if z < k { 24 } else { 27 });
        }
        // no value of two bytes is out of the range
        if width == 4 && W::any_stray(&record[3..]) {
            return Err(28);
        }
        layers.push((&record[3..], width));
        rest = after;
    }
    Ok((layers, rest))
}

/// A grid file into n values, every check before the first of them; sides and T.
#[inline(never)]
pub fn read<W: Way>(file: &[u8], values: &mut [i32]) -> Result<(Sides, u16), Refused> {
    let Some((header, records)) = file.split_at_checked(7) else { return Err(21) };
    if !header.starts_with(b"VH") {
        return Err(22);
    }
    let [a, b, c] = [2, 3, 4].map(|i| usize::from(header[i]));
    let Some(n) = (Sides { a, b, c }).voxels() else { return Err(1) };
    if values.len() != n {
        return Err(2);
    }
    let (layers, rest) = layers_and_rest::<W>(Sides { a, b, c }, records)?;
    W::check(n, rest)?;
    for (layer, values) in layers.into_iter().zip(values.chunks_exact_mut(a * b)) {
        W::fill(layer, values);
    }
    W::apply(rest, values);
    Ok((Sides { a, b, c }, u16::from_le_bytes([header[5], header[6]])))
}

/// A grid's file into a lent buffer, and its length.
#[inline(never)]
pub fn write<W: Way>(sides: Sides, allowed: u16, values: &[i32], file: &mut [u8]) -> Result<usize, Refused> {
    let Sides { a, b, c } = sides;
    let Some(n) = sides.voxels() else { return Err(1) };
    if values.len() != n {
        return Err(2);
    }
    // where 16 bits hold all of them, none is out of the range
    let (width, mark) = if W::any_beyond(values, 32_767) { (4, 0x57) } else { (2, 0x4C) };
    if width == 4 && W::any_beyond(values, GREATEST) {
        return Err(28);
    }
    let record = 3 + width * a * b;
    let Some(file) = file.get_mut(..7 + c * record) else { return Err(26) };
    let (header, records) = file.split_at_mut(7);
    header[..5].copy_from_slice(&[0x56, 0x48, a as u8, b as u8, c as u8]);
    header[5..].copy_from_slice(&allowed.to_le_bytes());
    for (z, (record, layer)) in records.chunks_exact_mut(record).zip(values.chunks_exact(a * b)).enumerate() {
        record[..3].copy_from_slice(&[0x56, mark, z as u8]);
        W::put(layer, width, &mut record[3..]);
    }
    Ok(file.len())
}
