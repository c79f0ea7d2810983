//! Reads a grid file, carves it in slices, and writes the points of the body's surface: what examples/carve_grid.c does, in Rust.
//!
//!     cargo run --package wattlerugby --example carve_grid -- samples/torus-1.grid points.xyz
//!
//! The status is 0 where the points were written, 1 where a call refused, 2 where a file could not be read or written.

use std::fmt::Write;
use std::process::ExitCode;
use wattlerugby::{read_values, Grid, Refusal, GONE};

/// Examinations in one slice: between two slices a display can be drawn, or the work given up.
const SLICE: u32 = 250;

enum Wrong {
    Refused(&'static str, Refusal),
    File(String, std::io::Error),
}

fn main() -> ExitCode {
    let words: Vec<String> = std::env::args().skip(1).collect();
    let [file, points] = &words[..] else {
        eprintln!("usage: carve_grid GRID POINTS");
        return ExitCode::from(2);
    };
    match carve_file(file, points) {
        Ok(()) => ExitCode::SUCCESS,
        Err(Wrong::Refused(call, refusal)) => {
            println!("{call}: refused {}, {}", refusal.0, refusal.reason());
            ExitCode::from(1)
        }
        Err(Wrong::File(what, error)) => {
            eprintln!("carve_grid: {what}: {error}");
            ExitCode::from(2)
        }
    }
}

fn carve_file(file: &str, points: &str) -> Result<(), Wrong> {
    let bytes = std::fs::read(file).map_err(|e| Wrong::File(format!("{file} cannot be read"), e))?;
    let (sides, allowed, values) = read_values(&bytes).map_err(|r| Wrong::Refused("read", r))?;
    let mut grid = Grid::begin(sides, allowed, &values).map_err(|r| Wrong::Refused("begin", r))?;
    let ended_by = carve_to_the_end(&mut grid).map_err(|r| Wrong::Refused("carve", r))?;
    // after finish the filled voxels are negative like the inside, so they are counted before
    println!("ended by {}, {}\nfilled: {}", ended_by.0, ended_by.reason(), filled(&grid));
    grid.finish().map_err(|r| Wrong::Refused("finish", r))?;
    let r = grid.record();
    println!(
        "openings {} of {}, removals {}, examinations {}, Euler number {}",
        r.openings, r.allowed, r.removals, r.examinations, r.euler
    );
    let (count, text) = listed(&grid).map_err(|r| Wrong::Refused("points", r))?;
    std::fs::write(points, text).map_err(|e| Wrong::File(format!("{points} cannot be written"), e))?;
    println!("points: {count}");
    Ok(())
}

/// The standard loop. Gives the number that ended it, the last open's. `Grid::carve_to_the_end` is the same without slices.
fn carve_to_the_end(grid: &mut Grid) -> Result<Refusal, Refusal> {
    loop {
        let carved = grid.carve(SLICE)?;
        let pending = if carved.pending { "some pending" } else { "nothing pending" };
        println!("carve: examined {}, removed {}, {pending}", carved.examined, carved.removed);
        if carved.pending {
            continue;
        }
        match grid.open() {
            Ok(opened) => println!("open: voxel {}, k {}, m {}, face {}", opened.index, opened.k, opened.m, opened.face.number()),
            Err(ended_by) => return Ok(ended_by),
        }
    }
}

fn filled(grid: &Grid) -> usize {
    grid.status().iter().zip(grid.distances()).filter(|&(&status, &dist)| status != GONE && dist >= 0).count()
}

/// How many points there are, and a line "x y z" for each.
fn listed(grid: &Grid) -> Result<(usize, String), Refusal> {
    let (mut count, mut text) = (0, String::new());
    for p in grid.points()? {
        count += 1;
        writeln!(text, "{} {} {}", p.x, p.y, p.z).expect("a string takes any text");
    }
    Ok((count, text))
}
