//! Begin and missing points: what it costs to look for gaps where there are none, and whether the time grows with the voxels alone where a grid is full
//! of them.

use crate::{after, against_all, apart, before_leaves_gaps, case, mark, most_of_begin, named, Demand, ALL, BEFORE, GRIDS, LARGEST};
use bench::contest::{begin, Race, ROUNDS};
use bench::grids::Shape;
use bench::plain::filled;
use bench::types::{size, Sides, MISSING};

const SIDES: [Sides; 3] = [GRIDS[0], GRIDS[2], LARGEST];

/// Rounds on each of the sides for one on the largest, so that the small grids, whose times vary more, have more of them.
const REPEATS: [usize; 3] = [8, 2, 1];

/// The greatest growth of the time for a voxel from the smallest to the largest grid that is still taken as linear.
const LINEAR: f64 = 2.0;

/// What begin took on a grid in ns a voxel, for each implementation.
struct Found {
    shape: Shape,
    sides: Sides,
    /// Points that are missing, and those of them that are filled.
    missing: usize,
    filled: usize,
    apart: bool,
    times: Vec<f64>,
}

/// A shape at each of the sides, all raced in the same rounds.
fn find(shape: Shape) -> [Found; 3] {
    let cases = SIDES.map(|sides| case(sides, shape));
    let starts = [0, 1, 2].map(|k| after(&cases[k], &[]));
    let apart = [0, 1, 2].map(|k| apart(&cases[k]));
    let mut races = [0, 1, 2].map(|k| Race::new(ALL.len(), &cases[k], &starts[k], begin, apart[k].as_ref()));
    for _ in 0..5 * ROUNDS {
        for (race, repeats) in races.iter_mut().zip(REPEATS) {
            (0..repeats).for_each(|_| race.round(&ALL));
        }
    }
    [0, 1, 2].map(|k| {
        let (sides, values) = (SIDES[k], &cases[k].values.wide);
        let count = |values: &[i32]| values.iter().filter(|&&v| v == MISSING).count();
        let missing = count(values);
        let filled = missing - count(&filled(sides, values));
        let times = races[k].times.iter().map(|time| time / size(sides) as f64).collect();
        Found { shape, sides, missing, filled, apart: apart[k].is_some(), times }
    })
}

/// Prints the tables; the answer is what is asked of the figures.
pub fn measure() -> Vec<Demand> {
    let shapes = [Shape::WHOLE, Shape::GAPS].concat();
    let found: Vec<[Found; 3]> = shapes.into_iter().map(find).collect();
    let before = if ALL.len() > BEFORE { ", ours/before" } else { "" };
    println!("\n## Gaps behind the face\n\nBegin, ns per voxel: ours, ours/(a), ours/(b){before}.\n");
    println!("| grid | | missing | filled | begin |\n|---|---|---|---|---|");
    for f in (0..SIDES.len()).flat_map(|k| found.iter().map(move |of_shape| &of_shape[k])) {
        let cell = against_all(&f.times) + mark(f.apart);
        println!("| {} | {} | {} | {} | {cell} |", named(f.sides), f.shape.name(), f.missing, f.filled);
    }
    println!("\nGrowth of the time per voxel, {} to {}, both in the same rounds:\n", named(SIDES[0]), named(LARGEST));
    println!("| | ours | (a) | (b) |{}\n|---|---|---|---|{}", if_before(" before |"), if_before("---|"));
    for of_shape in &found {
        let cells: Vec<String> = (0..ALL.len()).map(|k| format!("{:.2}", growth(of_shape, k))).collect();
        println!("| {} | {} |", of_shape[0].shape.name(), cells.join(" | "));
    }
    println!(
        "\nAt most {LINEAR} is taken as linear. A time that went with the voxels and with a side would grow by 4, one with the square of the voxels by 64. \
         Some growth is no sign of either: the border, where no gap is, has a third of the smallest grid's voxels and a tenth of the largest's, and the \
         largest's buffers leave the first cache."
    );
    demands(&found)
}

/// What a table has for the other archive.
fn if_before(text: &str) -> &str {
    if ALL.len() > BEFORE {
        text
    } else {
        ""
    }
}

fn growth([small, .., large]: &[Found; 3], implementation: usize) -> f64 {
    large.times[implementation] / small.times[implementation]
}

/// Against an archive that leaves gaps, where no point is missing; against one that fills them, everywhere.
fn demands(found: &[[Found; 3]]) -> Vec<Demand> {
    let compared = |f: &&Found| f.missing == 0 || !before_leaves_gaps();
    let against_before = |f: &Found| {
        let ratio = f.times[0] / f.times.get(BEFORE)?;
        Some(Demand(
            format!("gaps: begin, {} {}, {} missing, ours/before", named(f.sides), f.shape.name(), f.missing),
            ratio,
            most_of_begin(),
        ))
    };
    let mut asked: Vec<Demand> = found.iter().flatten().filter(compared).filter_map(against_before).collect();
    for of_shape in found.iter().filter(|of_shape| of_shape[0].missing > 0) {
        let what = format!("gaps: begin, {}, growth of the time per voxel", of_shape[0].shape.name());
        asked.push(Demand(what, growth(of_shape, 0), LINEAR));
    }
    asked
}
