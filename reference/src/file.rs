//! Grid files and the line of the program carve (document 01, "The grid file"); the writer of such files, patch records in them, the order of
//! their layers, and layers with four bytes a value (document 02, CR 1, CR 2, CR 4 and CR 5).

use crate::grid::{begin, is_value, Refused, Sides, MISSING};
use crate::machine::{carve, finish, open};

const NARROW_MARK: [u8; 2] = [0x56, 0x4C];
const WIDE_MARK: [u8; 2] = [0x56, 0x57];

pub struct Layer {
    pub z: u64,
    /// Bytes a value: 2 or 4.
    pub width: u64,
    pub from: usize,
    pub to: usize,
}

/// The bytes a value of the record that begins at a byte of the file: 4 exactly where it begins with the wide mark.
fn width_at(file: &[u8], start: u64) -> u64 {
    let left = usize::try_from(start).ok().and_then(|start| file.get(start..)).unwrap_or(&[]);
    if left.starts_with(&WIDE_MARK) {
        4
    } else {
        2
    }
}

/// The layer record that begins at a byte of the file.
pub fn layer(sides: &Sides, file: &[u8], start: u64) -> Result<Layer, Refused> {
    if !sides.fit() {
        return Err(1);
    }
    let width = width_at(file, start);
    let values = width * sides.a * sides.b;
    if u128::from(start) + 3 + u128::from(values) > file.len() as u128 {
        return Err(21);
    }
    let start = start as usize;
    if file[start..start + 2] != NARROW_MARK && file[start..start + 2] != WIDE_MARK {
        return Err(22);
    }
    let z = u64::from(file[start + 2]);
    if z >= sides.c {
        return Err(23);
    }
    Ok(Layer { z, width, from: start + 3, to: start + 3 + values as usize })
}

/// A value of two bytes as the one of 32 bits that it stands for: nothing is lost, and the old mark of a missing point becomes the new one.
fn widened(value: i16) -> i32 {
    if value == i16::MIN {
        MISSING
    } else {
        i32::from(value)
    }
}

/// The value that two or four bytes of a layer stand for.
fn value_of(bytes: &[u8]) -> i32 {
    match *bytes {
        [b0, b1, b2, b3] => i32::from_le_bytes([b0, b1, b2, b3]),
        _ => widened(i16::from_le_bytes([bytes[0], bytes[1]])),
    }
}

/// The voxel and the value of the patch record with which the rest of a file begins.
fn patch(sides: &Sides, rest: &[u8]) -> Result<(usize, i32), Refused> {
    if rest.len() < 8 {
        return Err(21);
    }
    if rest[0..2] != [0x56, 0x50] {
        return Err(22);
    }
    let index = u32::from_le_bytes([rest[2], rest[3], rest[4], rest[5]]) as usize;
    if index >= sides.n() {
        return Err(5);
    }
    Ok((index, value_of(&rest[6..8])))
}

/// Sides and T; the lent values are written only where nothing is refused.
pub fn read(file: &[u8], lent: &mut [i32], greatest_side: u64) -> Result<(Sides, u16), Refused> {
    if file.len() < 7 {
        return Err(21);
    }
    if file[0..2] != [0x56, 0x48] {
        return Err(22);
    }
    let sides = Sides { a: u64::from(file[2]), b: u64::from(file[3]), c: u64::from(file[4]) };
    if !sides.fit() || [sides.a, sides.b, sides.c].iter().any(|&s| s > greatest_side) {
        return Err(1);
    }
    if lent.len() != sides.n() {
        return Err(2);
    }
    let mut values = vec![0; lent.len()];
    let mut seen = vec![false; sides.c as usize];
    let mut at = 7;
    for next in 0..sides.c {
        let found = layer(&sides, file, at as u64)?;
        if seen[found.z as usize] {
            return Err(24);
        }
        if found.z != next {
            return Err(27);
        }
        seen[found.z as usize] = true;
        let first = (found.z * sides.a * sides.b) as usize;
        for (i, bytes) in file[found.from..found.to].chunks(found.width as usize).enumerate() {
            values[first + i] = value_of(bytes);
            if !is_value(values[first + i]) {
                return Err(28);
            }
        }
        at = found.to;
    }
    while at < file.len() {
        let (index, value) = patch(&sides, &file[at..])?;
        values[index] = value;
        at += 8;
    }
    lent.copy_from_slice(&values);
    Ok((sides, u16::from_le_bytes([file[5], file[6]])))
}

/// Whether two bytes hold a value.
fn is_narrow(value: i32) -> bool {
    value == MISSING || (-32_767..=32_767).contains(&value)
}

/// A value as a layer of this width has it.
fn bytes_of(value: i32, width: usize) -> Vec<u8> {
    let narrow = if value == MISSING { i16::MIN } else { value as i16 };
    if width == 2 {
        narrow.to_le_bytes().to_vec()
    } else {
        value.to_le_bytes().to_vec()
    }
}

/// The length of the written form, which the lent buffer's first bytes are then; they are written only where nothing is refused.
pub fn write(sides: &Sides, t: u16, values: &[i32], lent: &mut [u8]) -> Result<usize, Refused> {
    if !sides.fit() {
        return Err(1);
    }
    if values.len() != sides.n() {
        return Err(2);
    }
    if !values.iter().all(|&v| is_value(v)) {
        return Err(28);
    }
    let (mark, width) = if values.iter().all(|&v| is_narrow(v)) { (NARROW_MARK, 2) } else { (WIDE_MARK, 4) };
    let layer = (sides.a * sides.b) as usize;
    let length = 7 + sides.c as usize * (3 + width * layer);
    if lent.len() < length {
        return Err(26);
    }
    let mut file = vec![0x56, 0x48, sides.a as u8, sides.b as u8, sides.c as u8];
    file.extend(t.to_le_bytes());
    for (z, layer) in values.chunks(layer).enumerate() {
        file.extend([mark[0], mark[1], z as u8]);
        file.extend(layer.iter().flat_map(|&value| bytes_of(value, width)));
    }
    lent[..length].copy_from_slice(&file);
    Ok(length)
}

/// The most bytes that the program takes.
const LONGEST_INPUT: usize = 65_536;

/// The line that the program prints for a file.
pub fn program_line(file: &[u8]) -> String {
    match carve_file(file) {
        Ok(line) => line,
        Err(number) => format!("refused {number}"),
    }
}

fn carve_file(file: &[u8]) -> Result<String, Refused> {
    if file.len() > LONGEST_INPUT {
        return Err(25);
    }
    let side = |i: usize| file.get(i).map_or(0, |&s| usize::from(s));
    let mut values = vec![0; side(2) * side(3) * side(4)];
    let (sides, t) = read(file, &mut values, 24)?;
    let n = sides.n();
    let (mut dist, marks, mut status) = (vec![0i32; n], vec![0u8; n], vec![0u8; n]);
    let mut r = begin(sides, t, &values, &marks, &mut dist, &mut status)?;
    loop {
        carve(&mut r, &dist, &marks, &mut status, u64::MAX)?;
        if open(&mut r, &dist, &marks, &mut status).is_err() {
            break;
        }
    }
    finish(&mut r, &mut dist, &status)?;
    let kept = status.iter().filter(|&&s| s != 0).count();
    Ok(format!("kept {kept} removed {} opened {} examined {} euler {}", r.removals, r.openings, r.examinations, r.euler))
}
