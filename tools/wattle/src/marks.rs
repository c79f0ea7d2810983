//! `--pin` and `--hurry`: voxels that an operator holds, or wants gone early.

use crate::args::Args;
use crate::file::Scan;
use crate::start::Start;
use crate::Failure;
use wattlerugby::{Grid, Sides, GONE, HURRIED, PINNED, UNMARKED};

/// The options with the mark that each sets, and what it is called.
const OPTIONS: [(&str, u8, &str); 2] = [("--pin", PINNED, "pinned"), ("--hurry", HURRIED, "hurried")];

/// A mark for each voxel of the scan, as the options say.
pub fn marks(args: &Args, scan: &Scan) -> Result<Vec<u8>, Failure> {
    let mut marks = vec![UNMARKED; scan.values.len()];
    for (option, mark, _) in OPTIONS {
        for word in args.values(option) {
            let voxels = match word.strip_prefix('@') {
                Some(list) => listed(args, scan, option, list)?,
                None => vec![index(args, scan, option, word)?],
            };
            voxels.into_iter().for_each(|i| marks[i] |= mark);
        }
    }
    Ok(marks)
}

/// The voxels of a file, one to a line. Empty lines and those that begin with # are passed over.
fn listed(args: &Args, scan: &Scan, option: &str, list: &str) -> Result<Vec<usize>, Failure> {
    let text = std::fs::read_to_string(list).map_err(|e| Failure::unusable(format!("{list} cannot be read: {e}")))?;
    let lines = text.lines().map(str::trim).enumerate().filter(|(_, line)| !line.is_empty() && !line.starts_with('#'));
    let in_line = |(number, voxel): (usize, &str)| {
        let told = |wrong: Failure| Failure::unusable(format!("{list}, line {}: {}", number + 1, wrong.line));
        index(args, scan, option, voxel).map_err(told)
    };
    lines.map(in_line).collect()
}

/// The index of a voxel that is named by its index or by its place.
pub fn index(args: &Args, scan: &Scan, option: &str, voxel: &str) -> Result<usize, Failure> {
    let numbers: Result<Vec<usize>, _> = voxel.split(',').map(str::parse).collect();
    let Sides { a, b, c } = scan.sides;
    let index = match numbers.as_deref() {
        Ok([index]) => (*index < a * b * c).then_some(*index),
        Ok([x, y, z]) => (*x < a && *y < b && *z < c).then(|| x + a * (y + b * z)),
        _ => {
            let line = format!("{option} takes a voxel as X,Y,Z or as an index, not {voxel}; see `wattle help {}`", args.command);
            return Err(Failure::unusable(line));
        }
    };
    let beyond = || format!("voxel {voxel} lies beyond the grid of {} voxels, with indices 0 to {}", scan.size(), a * b * c - 1);
    index.ok_or_else(|| Failure::unusable(beyond()))
}

/// How many voxels have a mark, in words, where any has.
pub fn told(marks: &[u8]) -> String {
    let count = |mark: u8| marks.iter().filter(|&&m| m & mark != 0).count();
    let each = OPTIONS.map(|(_, mark, name)| (count(mark), name));
    each.iter().filter(|(count, _)| *count > 0).map(|(count, name)| format!(", {count} {name}")).collect()
}

/// Sentences on marks that do nothing, by a grid that has just begun. Of a voxel with both the pin alone counts.
pub fn idle(scan: &Scan, start: &Start, grid: &Grid) -> Vec<String> {
    let gone_at_first = match start.coarse {
        true => "outside the blocks that carving starts from, where all is gone",
        false => "outside the box around the inside, where all is gone",
    };
    let sentence = |(_, mark, name): (&str, u8, &str)| {
        let marked: Vec<usize> = (0..grid.marks().len()).filter(|&i| grid.marks()[i] & mark != 0).collect();
        let (gone, kept): (Vec<usize>, Vec<usize>) = marked.iter().partition(|&&i| grid.status()[i] == GONE);
        let (inside, outside): (Vec<usize>, Vec<usize>) = kept.into_iter().partition(|&i| grid.distances()[i] < 0);
        let held: Vec<usize> = outside.into_iter().filter(|&i| mark == HURRIED && grid.marks()[i] & PINNED != 0).collect();
        let places = [(inside, "inside, where all is kept"), (gone, gone_at_first), (held, "pinned too, where the pin alone counts")];
        let found: Vec<String> = places
            .iter()
            .filter_map(|(voxels, place)| {
                let first = voxels.first()?;
                Some(format!("{} {place}, such as {}", voxels.len(), scan.voxel(*first)))
            })
            .collect();
        let idle: usize = places.iter().map(|(voxels, _)| voxels.len()).sum();
        let are = if idle == 1 { "is" } else { "are" };
        (idle > 0).then(|| format!("{idle} of {} {name} voxels {are} without effect: {}.", marked.len(), found.join("; ")))
    };
    OPTIONS.into_iter().filter_map(sentence).collect()
}
