//! samples/ is what its generator writes, and the program carve prints the lines that stand there.

mod common;
#[allow(dead_code)]
#[path = "../examples/samples.rs"]
mod generator;

use common::root;
use std::process::{Command, Stdio};
use wattlerugby::{patch, read, read_layer, read_values, Grid, Refusal, GONE, MISSING, WIDE};

#[test]
fn files_and_pictures() {
    let page = std::fs::read_to_string(root().join("samples/README.md")).expect("samples/README.md can be read");
    for sample in generator::samples() {
        let stored = |end: &str| std::fs::read(root().join(format!("samples/{}.{end}", sample.name))).expect("the sample can be read");
        assert!(stored("grid") == sample.file(), "{}.grid is not what the generator writes", sample.name);
        assert!(stored("txt") == sample.told().into_bytes(), "{}.txt is not what the generator writes", sample.name);
        let entry = format!("`{}.grid`", sample.name);
        assert!(page.contains(&entry) && page.contains(&sample.line()), "samples/README.md does not tell of {}", sample.name);
    }
}

/// What fills the torus's hole with T = 0 holds it closed with T = 1.
#[test]
fn the_torus_pinned() {
    let pins = std::fs::read_to_string(root().join("samples/torus-1.pins")).expect("the list can be read");
    assert_eq!(pins, generator::pins());
    let file = std::fs::read(root().join("samples/torus-1.grid")).expect("the sample can be read");
    let mut grid = Grid::from_file(&file).expect("the sample is taken");
    for line in pins.lines().skip(1) {
        let place: Vec<usize> = line.split(',').map(|number| number.parse().expect("a number")).collect();
        grid.pin(place[0] + 16 * (place[1] + 16 * place[2])).expect("a voxel of the grid");
    }
    grid.carve_to_the_end().expect("a begun grid is carved");
    let kept = grid.status().iter().filter(|&&s| s != GONE).count();
    assert_eq!((kept, grid.record().openings, grid.record().euler), (344, 0, 1));
    assert_eq!(grid.ended_by(), Some(Refusal::NOTHING_TO_OPEN));
}

/// Left out where the program was not built.
#[test]
fn lines_of_the_program() {
    let program = root().join("target/bin/carve");
    if !program.exists() {
        return eprintln!("{} is missing, so its lines were not compared", program.display());
    }
    for sample in generator::samples() {
        let file = std::fs::File::open(root().join(format!("samples/{}.grid", sample.name))).expect("the sample can be opened");
        let out = Command::new(&program).stdin(Stdio::from(file)).output().expect("the program runs");
        assert_eq!(String::from_utf8_lossy(&out.stdout), sample.line() + "\n", "{}", sample.name);
        assert_eq!(out.status.code(), Some(0), "the program's status is always 0");
    }
}

/// The patched sample is the pane's file with patches behind it, and tells of a reader that takes the first of two patches.
#[test]
fn the_patched_pane() {
    let [pane, patched] =
        ["wet-glass", "patched"].map(|name| std::fs::read(root().join(format!("samples/{name}.grid"))).expect("the sample can be read"));
    let patches = patched.strip_prefix(&pane[..]).expect("the pane's file comes first");
    let kept = |patches: &[&[u8]]| {
        let mut grid = Grid::from_file(&[&pane[..], &patches.concat()].concat()).expect("the sample is taken");
        grid.carve_to_the_end().expect("a begun grid is carved");
        grid.status().iter().filter(|&&s| s != GONE).count()
    };
    let in_order: Vec<&[u8]> = patches.chunks(8).collect();
    let reversed: Vec<&[u8]> = in_order.iter().rev().copied().collect();
    assert_eq!(in_order.len(), 46);
    assert_ne!(kept(&in_order), kept(&reversed));
    assert_ne!(kept(&in_order), kept(&[]));
}

/// The tunnel's layers are wide, all of them, as some of its values need: and read by the layer it is what the library reads whole.
#[test]
fn the_tunnel_is_wide() {
    let file = std::fs::read(root().join("samples/tunnel.grid")).expect("the sample can be read");
    let grid = Grid::from_file(&file).expect("the sample is taken");
    let (mut values, mut start) = (Vec::new(), 7);
    for z in 0..24 {
        let layer = read_layer(grid.record().sides, &file, start).expect("it is there");
        assert_eq!((layer.z, layer.width), (z, WIDE));
        values.extend(layer.values());
        start = layer.end();
    }
    assert_eq!(start, file.len());
    let mut whole = vec![0; values.len()];
    assert!(read(&file, &mut whole).is_ok() && whole == values);
    assert!(values.contains(&MISSING) && values.iter().max() > Some(&65_535) && values.iter().any(|&v| v < -32_768 && v != MISSING));
}

/// Of the wall's missing points those of the left gap are inside and those of the right one are carved out. Its line tells of a begin that
/// counts them all as outside: there each has M, so it is what 5, the M of this grid, gives in their place.
#[test]
fn the_wall_has_a_gap_behind_its_face() {
    let file = std::fs::read(root().join("samples/wall.grid")).expect("the sample can be read");
    let mut values = vec![0; 16 * 11 * 9];
    let (sides, allowed) = read(&file, &mut values).expect("the sample is read");
    let carved = |values: &[i32]| {
        let mut grid = Grid::begin(sides, allowed, values).expect("the sample is taken");
        let distances = grid.distances().to_vec();
        grid.carve_to_the_end().expect("a begun grid is carved");
        (distances, grid)
    };
    let (distances, grid) = carved(&values);
    let missing: Vec<usize> = (0..values.len()).filter(|&i| values[i] == MISSING).collect();
    let (left, right): (Vec<usize>, Vec<usize>) = missing.iter().partition(|&&i| i % 16 < 9);
    assert_eq!((left.len(), right.len()), (74, 45));
    assert!(left.iter().all(|&i| distances[i] == -1 && grid.status()[i] != GONE));
    assert!(right.iter().all(|&i| distances[i] >= 5 && grid.status()[i] == GONE));
    let core = 5 + 16 * (5 + 11 * 4);
    assert_eq!((values[core], distances[core]), (-25, -25));
    let closed = [&file[..], &patch(11 + 16 * (5 + 11 * 6), -5)].concat();
    let closed = Grid::from_file(&closed).expect("the sample with a patch is taken");
    assert!(missing.iter().all(|&i| closed.distances()[i] == -1));
    let (before, other) = carved(&values.iter().map(|&v| if v == MISSING { 5 } else { v }).collect::<Vec<_>>());
    assert!(missing.iter().all(|&i| before[i] >= 5) && before[core] > 5);
    assert_eq!((grid.record().examinations, other.record().examinations), (90, 108), "as samples/README.md says");
}

/// With T = 1 the torus ends for want of openings; with more allowed it gives the same record, and nothing is left to open.
#[test]
fn one_opening_more() {
    let carved = |allowed: u8| {
        let mut file = std::fs::read(root().join("samples/torus-1.grid")).expect("the sample can be read");
        file[5] = allowed;
        let mut grid = Grid::from_file(&file).expect("the sample is taken");
        grid.carve_to_the_end().expect("a begun grid is carved");
        grid
    };
    let (one, two) = (carved(1), carved(2));
    assert_eq!((one.ended_by(), two.ended_by()), (Some(Refusal::NO_OPENING_LEFT), Some(Refusal::NOTHING_TO_OPEN)));
    assert_eq!(one.status(), two.status());
    assert_eq!((two.record().openings, two.record().euler), (1, 0));
    assert_eq!(one.record().examinations, two.record().examinations);
}

/// A sample carved to the end from a plain start and from a coarse one, with this T, and the examinations of blocks.
fn both_starts(name: &str, allowed: u16) -> (Grid, Grid, u32) {
    let file = std::fs::read(root().join(format!("samples/{name}.grid"))).expect("the sample can be read");
    let (sides, _, values) = read_values(&file).expect("the sample is read");
    let mut plain = Grid::begin(sides, allowed, &values).expect("the sample is taken");
    let (mut coarse, blocks) = Grid::begin_coarse(sides, allowed, &values).expect("the sample is fit for a coarse start");
    plain.carve_to_the_end().expect("a begun grid is carved");
    coarse.carve_to_the_end().expect("a begun grid is carved");
    (plain, coarse, blocks.examined)
}

/// The lines from a coarse start as samples/README.md has them; whether the body is a plain start's; and the layers of the hopper by both.
#[test]
fn coarse_starts() {
    let page = std::fs::read_to_string(root().join("samples/README.md")).expect("samples/README.md can be read");
    for (name, allowed, same) in [("stockpile", 1, true), ("hopper", 0, false)] {
        let (plain, coarse, of_blocks) = both_starts(name, allowed);
        let (kept, r) = (coarse.status().iter().filter(|&&s| s != GONE).count(), coarse.record());
        let counts = format!("kept {kept} removed {} opened {} examined {} euler {}", r.removals, r.openings, r.examinations, r.euler);
        let line = format!("    {:16}{counts} coarse {of_blocks}\n", format!("{name}.grid"));
        assert!(page.contains(&line), "samples/README.md does not say: {line}");
        assert_eq!(plain.status() == coarse.status(), same, "{name}");
    }
    let (plain, coarse, _) = both_starts("hopper", 1);
    assert_eq!(plain.status(), coarse.status(), "with T = 1 both leave the same");
    let (plain, coarse, _) = both_starts("hopper", 0);
    let inside = Grid::from_file(&std::fs::read(root().join("samples/hopper.grid")).expect("the sample can be read")).expect("it is taken");
    let mark = |grid: &Grid, i: usize| match (grid.status()[i], inside.distances()[i] < 0) {
        (GONE, _) => '.',
        (_, true) => '#',
        _ => 'o',
    };
    for y in 6..14 {
        let row = |grid: &Grid, z: usize| (5..15).map(|x| mark(grid, x + 20 * (y + 20 * z))).collect::<String>();
        let rows = [&plain, &coarse].map(|grid| [13, 14, 15].map(|z| row(grid, z)).join("  "));
        assert!(page.contains(&format!("    {}\n", rows.join("        "))), "samples/README.md has other layers of the hopper, at y = {y}");
    }
}
