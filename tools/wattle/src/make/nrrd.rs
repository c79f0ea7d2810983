//! NRRD with whole numbers for samples, raw or as text.

use super::{fit, value, Made};
use std::collections::HashMap;
use wattlerugby::{Sides, MISSING, NARROW_MISSING};

/// A type's names, the bytes of a sample, and whether it is signed.
const TYPES: [(&[&str], usize, bool); 8] = [
    (&["signed char", "int8", "int8_t"], 1, true),
    (&["uchar", "unsigned char", "uint8", "uint8_t"], 1, false),
    (&["short", "short int", "signed short", "signed short int", "int16", "int16_t"], 2, true),
    (&["ushort", "unsigned short", "unsigned short int", "uint16", "uint16_t"], 2, false),
    (&["int", "signed int", "int32", "int32_t"], 4, true),
    (&["uint", "unsigned int", "uint32", "uint32_t"], 4, false),
    (&["longlong", "long long", "long long int", "signed long long", "signed long long int", "int64", "int64_t"], 8, true),
    (&["ulonglong", "unsigned long long", "unsigned long long int", "uint64", "uint64_t"], 8, false),
];

/// How samples are stored.
#[derive(Clone, Copy)]
struct Stored {
    width: usize,
    signed: bool,
    little: bool,
}

pub fn read(bytes: &[u8]) -> Result<Made, String> {
    let (fields, data) = header(bytes)?;
    let field = |name: &str| fields.get(name).map(String::as_str);
    let due = |name: &str| field(name).ok_or_else(|| format!("its header has no field {name}"));
    let sides = sides(due("dimension")?, due("sizes")?)?;
    let voxels = sides.a * sides.b * sides.c;
    let detached = ["data file", "datafile", "line skip", "lineskip", "byte skip", "byteskip"];
    if let Some(name) = detached.into_iter().find(|name| field(name).is_some_and(|said| said != "0")) {
        return Err(format!("its header has the field {name}, and samples are read only right behind the header"));
    }
    let (width, signed) = stored_as(due("type")?)?;
    let samples = match due("encoding")? {
        "raw" => {
            let little = width == 1 || endian(due("endian")?)?;
            raw(data, voxels, Stored { width, signed, little })?
        }
        "ascii" | "text" | "txt" => as_text(data, voxels)?,
        other => return Err(format!("its encoding is {other}, and raw and ascii are read")),
    };
    let narrow = width == 2 && signed;
    let values = samples.iter().enumerate().map(|(i, &sample)| of_sample(sample, narrow).map_err(|wrong| format!("sample {i} {wrong}")));
    Ok(Made { sides, values: values.collect::<Result<_, _>>()? })
}

/// The fields, and what follows the empty line behind them.
fn header(bytes: &[u8]) -> Result<(HashMap<String, String>, &[u8]), String> {
    let (mut fields, mut rest) = (HashMap::new(), bytes);
    loop {
        let end = rest.iter().position(|&byte| byte == b'\n').ok_or("its header has no end, which is an empty line")?;
        let line = String::from_utf8_lossy(&rest[..end]);
        rest = &rest[end + 1..];
        match line.trim_end_matches('\r') {
            "" => return Ok((fields, rest)),
            line if line.starts_with('#') => {}
            line => {
                // `key:=value` is a remark of the writer's, and not a field
                if let Some((name, said)) = line.split_once(": ").filter(|(name, _)| !name.contains(":=")) {
                    fields.insert(name.to_ascii_lowercase(), said.trim().to_ascii_lowercase());
                }
            }
        }
    }
}

fn sides(dimension: &str, sizes: &str) -> Result<Sides, String> {
    let numbers: Result<Vec<usize>, _> = sizes.split_whitespace().map(str::parse).collect();
    let fit = match numbers.as_deref() {
        Ok(&[a, b, c]) if dimension == "3" => fit(Sides { a, b, c }),
        _ => None,
    };
    fit.ok_or_else(|| format!("its dimension is {dimension} and its sizes are {sizes}; a grid has three sides of 3 to 64 voxels"))
}

fn stored_as(name: &str) -> Result<(usize, bool), String> {
    let found = TYPES.iter().find(|(names, ..)| names.contains(&name));
    let unlike = || format!("its type is {name}, and whole numbers of 8 to 64 bits are read, such as short and int");
    found.map(|&(_, width, signed)| (width, signed)).ok_or_else(unlike)
}

/// Whether the low byte comes first.
fn endian(said: &str) -> Result<bool, String> {
    match said {
        "little" => Ok(true),
        "big" => Ok(false),
        _ => Err(format!("its endian is {said}, and little and big are known")),
    }
}

fn raw(data: &[u8], voxels: usize, stored: Stored) -> Result<Vec<i128>, String> {
    let due = voxels * stored.width;
    if data.len() != due {
        return Err(format!("{} bytes follow its header, and {due} are due: {voxels} samples of {} bytes", data.len(), stored.width));
    }
    Ok(data.chunks(stored.width).map(|bytes| sample(bytes, stored)).collect())
}

fn sample(bytes: &[u8], Stored { signed, little, .. }: Stored) -> i128 {
    let from_high = |sum: i128, byte: &u8| sum << 8 | i128::from(*byte);
    let number = if little { bytes.iter().rev().fold(0, from_high) } else { bytes.iter().fold(0, from_high) };
    let (bits, negative) = (8 * bytes.len(), signed && number >> (8 * bytes.len() - 1) == 1);
    if negative {
        number - (1 << bits)
    } else {
        number
    }
}

fn as_text(data: &[u8], voxels: usize) -> Result<Vec<i128>, String> {
    let text = std::str::from_utf8(data).map_err(|_| "its encoding is ascii, and what follows the header is no text".to_string())?;
    let samples: Result<Vec<i128>, String> =
        text.split_whitespace().map(|word| word.parse().map_err(|_| format!("{word} is no whole number"))).collect();
    let samples = samples?;
    match samples.len() == voxels {
        true => Ok(samples),
        false => Err(format!("{} samples follow its header, and {voxels} are due", samples.len())),
    }
}

/// As in a narrow layer, -32768 of two bytes is the mark of a missing point.
fn of_sample(sample: i128, narrow: bool) -> Result<i32, String> {
    match narrow && sample == i128::from(NARROW_MISSING) {
        true => Ok(MISSING),
        false => i64::try_from(sample).map_err(|_| format!("has {sample}, which no value can be")).and_then(value),
    }
}
