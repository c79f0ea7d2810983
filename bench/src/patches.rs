//! Read by the patch: a file with many, less its layers alone. Ours against two loops in Rust, and against another archive's where that takes
//! patches.

use crate::files::{readers, Reader};
use crate::singles::PATCHES;
use crate::{against_all, named, GRIDS, LARGEST};
use bench::clock;
use bench::contest::{Case, ROUNDS};
use bench::grids::{patches, Shape};
use bench::race::Order;
use bench::types::{size, Sides, Values};
use std::hint::black_box;
use wattlerugby::{read, written};

/// The time of one read in ns; the values must be those.
fn time(reader: &Reader, file: &[u8], wanted: &[i32]) -> f64 {
    let mut values: Values = vec![0x5A5A; wanted.len()].into();
    let from = clock::now();
    let taken = (reader.read)(black_box(file), black_box(&mut values));
    let time = clock::since(from);
    (reader.take_back)(&mut values);
    assert!(taken && values.wide == wanted, "the file is not taken, or other values are read");
    time
}

/// The least time of each contestant in ns a patch: that of the whole file less that of its layers.
fn race(case: &Case, all: &[Reader]) -> Vec<f64> {
    let layers = written(case.sides, case.allowed, &case.values.wide).expect("a grid that can be written");
    let file = [&layers[..], &patches(size(case.sides), PATCHES)].concat();
    let mut corrected = case.values.wide.clone();
    read(&file, &mut corrected).expect("the file is taken");
    let mut least = vec![(f64::INFINITY, f64::INFINITY); all.len()];
    let mut order = Order::of(all.len());
    for _ in 0..5 * ROUNDS {
        for k in order.drawn() {
            let (reader, (whole, part)) = (&all[k], &mut least[k]);
            *whole = whole.min(time(reader, &file, &corrected));
            *part = part.min(time(reader, &layers, &case.values.wide));
        }
    }
    least.into_iter().map(|(whole, part)| (whole - part) / PATCHES as f64).collect()
}

/// Prints the table, the smallest and the largest cube; the answer is ours to a plain loop by index, on each. (a) goes through arrays of 8 bytes.
pub fn measure(case: fn(Sides, Shape) -> Case) -> [(Sides, f64); 2] {
    let mut all = readers();
    // an archive from before there were patches takes none
    let patched = [written(GRIDS[0], 0, &vec![0; size(GRIDS[0])]).expect("fit sides"), patches(1, 1)].concat();
    all.retain(|reader| (reader.read)(&patched, &mut vec![0; size(GRIDS[0])].into()));
    let before = if all.len() > 3 { ", ours/before" } else { "" };
    println!("\n## Patches, ns per patch of {PATCHES}: ours, ours/(a), ours/a loop by index{before}\n\n| grid | |\n|---|---|");
    [GRIDS[0], LARGEST].map(|sides| {
        let times = race(&case(sides, Shape::Noise), &all);
        println!("| {} | {} |", named(sides), against_all(&times));
        (sides, times[0] / times[2])
    })
}
