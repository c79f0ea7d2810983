//! Rows of x, y, z and value.

use super::{fit, value, Made};
use crate::words::some;
use wattlerugby::{Sides, MISSING};

const NAMES: [&str; 4] = ["x", "y", "z", "value"];

/// A row's voxel and value, with its line.
struct Row {
    line: usize,
    place: [usize; 3],
    value: i32,
}

pub fn read(bytes: &[u8], sides: Option<Sides>, sparse: bool) -> Result<Made, String> {
    let text = std::str::from_utf8(bytes).map_err(|e| format!("this is neither NRRD nor text: byte {} is no letter", e.valid_up_to()))?;
    let rows = rows(text.trim_start_matches('\u{feff}'))?;
    let sides = match sides {
        Some(sides) => sides,
        None => around(&rows)?,
    };
    let values = placed(sides, &rows)?;
    let absent = values.iter().filter(|value| value.is_none()).count();
    if let Some(first) = values.iter().position(Option::is_none).filter(|_| !sparse) {
        let (x, y, z) = (first % sides.a, first / sides.a % sides.b, first / (sides.a * sides.b));
        return Err(format!(
            "{absent} of {} voxels have no row, the first is ({x}, {y}, {z}); --sparse takes these as missing range points",
            values.len()
        ));
    }
    Ok(Made { sides, values: values.into_iter().map(|value| value.unwrap_or(MISSING)).collect() })
}

fn rows(text: &str) -> Result<Vec<Row>, String> {
    let lines = text.lines().enumerate().map(|(i, line)| (i + 1, line.trim()));
    let mut lines = lines.filter(|(_, line)| !line.is_empty() && !line.starts_with('#')).peekable();
    let &(first, line) = lines.peek().ok_or("there is no row in it")?;
    let names = cells(line);
    let named = names.iter().any(|name| name.eq_ignore_ascii_case("x"));
    let columns = if named { columns(first, &names)? } else { [0, 1, 2, 3] };
    let due = if named { names.len() } else { NAMES.len() };
    lines.skip(usize::from(named)).map(|(line, text)| row(line, &cells(text), columns, due)).collect()
}

fn cells(line: &str) -> Vec<&str> {
    line.split(',').map(|cell| cell.trim().trim_matches('"')).collect()
}

/// Where the four stand in the rows, by the line of names.
fn columns(line: usize, names: &[&str]) -> Result<[usize; 4], String> {
    let mut columns = [0; 4];
    for (column, due) in columns.iter_mut().zip(NAMES) {
        let found = names.iter().position(|name| name.eq_ignore_ascii_case(due));
        *column = found.ok_or_else(|| format!("line {line} names no column {due}"))?;
    }
    Ok(columns)
}

fn row(line: usize, cells: &[&str], columns: [usize; 4], due: usize) -> Result<Row, String> {
    if cells.len() != due {
        return Err(format!("line {line} has {} between commas, and {due} are due", some(cells.len(), "cell")));
    }
    let [x, y, z, measured] = columns.map(|column| cells[column]);
    let along = |name: &str, cell: &str| {
        let place = whole(cell).and_then(|number| usize::try_from(number).ok()).filter(|&place| place < 64);
        place.ok_or_else(|| format!("line {line}: {name} is a whole number from 0 to 63, not {cell}"))
    };
    Ok(Row { line, place: [along("x", x)?, along("y", y)?, along("z", z)?], value: measured_as(line, measured)? })
}

fn measured_as(line: usize, cell: &str) -> Result<i32, String> {
    if ["", "missing"].contains(&cell) {
        return Ok(MISSING);
    }
    let number = whole(cell).ok_or_else(|| format!("line {line}: value is a whole number, or empty where it is missing, not {cell}"))?;
    value(number).map_err(|wrong| format!("line {line} {wrong}"))
}

/// A whole number. Programs whose columns hold missing values write the others as 12.0.
fn whole(cell: &str) -> Option<i64> {
    let (number, fraction) = cell.split_once('.').unwrap_or((cell, ""));
    number.parse().ok().filter(|_| fraction.bytes().all(|digit| digit == b'0'))
}

/// Sides just large enough for all rows.
fn around(rows: &[Row]) -> Result<Sides, String> {
    let [a, b, c] = [0, 1, 2].map(|axis| rows.iter().map(|row| row.place[axis] + 1).max().unwrap_or(0));
    fit(Sides { a, b, c }).ok_or_else(|| format!("its rows are of {a} x {b} x {c} voxels, and a side is 3 to 64; --sides A,B,C sets them"))
}

/// The value of each voxel that has a row.
fn placed(Sides { a, b, c }: Sides, rows: &[Row]) -> Result<Vec<Option<i32>>, String> {
    let mut values = vec![None; a * b * c];
    for Row { line, place: [x, y, z], value } in rows {
        if *x >= a || *y >= b || *z >= c {
            return Err(format!("line {line}: voxel ({x}, {y}, {z}) lies beyond the grid of {a} x {b} x {c} voxels"));
        }
        if values[x + a * (y + b * z)].replace(*value).is_some() {
            return Err(format!("line {line}: voxel ({x}, {y}, {z}) has a row before it already"));
        }
    }
    Ok(values)
}
