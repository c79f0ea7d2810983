//! `--coarse`: the line with the examinations of blocks, what is said of a plain start's body, grids that are not fit for it, and pins.

use crate::common::{answer, grid_file, path, sample, samples, sphere, status, text, wattle, wattle_on};
use wattlerugby::{read_values, Grid, GONE};

/// What the library makes of a sample from a coarse start, and the examinations of blocks.
fn carved(name: &str) -> (Grid, u32) {
    let (sides, allowed, values) = read_values(&std::fs::read(sample(name)).unwrap()).expect("a sample is a good file");
    let (mut grid, blocks) = Grid::begin_coarse(sides, allowed, &values).expect("it is fit for a coarse start");
    grid.carve_to_the_end().unwrap();
    (grid, blocks.examined)
}

fn line(name: &str) -> String {
    let (grid, examined) = carved(name);
    let (kept, r) = (grid.status().iter().filter(|&&s| s != GONE).count(), grid.record());
    format!("kept {kept} removed {} opened {} examined {} euler {} coarse {examined}", r.removals, r.openings, r.examinations, r.euler)
}

const FIT: [&str; 2] = ["hopper.grid", "stockpile.grid"];

/// Of the hopper 13 voxels could still be opened, so that its body is its own; of the stockpile none.
const NOTE: &str = "wattle: note: 13 voxels could still be opened, so a plain start may leave another body than this coarse one: \
                    `wattle explain --coarse` says.\n";

#[test]
fn the_line_and_its_note() {
    for (name, note) in FIT.into_iter().zip([NOTE, ""]) {
        let grid = sample(name);
        let output = wattle(&["carve", "--coarse", path(&grid)]);
        assert_eq!((status(&output), text(&output.stdout), text(&output.stderr).as_str()), (0, line(name) + "\n", note));
        let json = text(&wattle(&["carve", "--coarse", "--json", path(&grid)]).stdout);
        assert!(json.contains(&format!(", \"coarse_examined\": {}", carved(name).1)), "{json}");
        assert!(!text(&answer(&["carve", "--json", path(&grid)])).contains("coarse"), "a plain start has none");
        for command in ["look", "list", "points", "volume"] {
            let output = wattle(&[command, "--coarse", path(&grid)]);
            assert_eq!((status(&output), text(&output.stderr).as_str()), (0, note), "{command}");
        }
    }
}

/// What explain and the page say of both starts: the same body of the stockpile, and another one of the hopper.
#[test]
fn both_starts_are_compared() {
    let same = "- The start is coarse: 182 examinations of blocks left 944 voxels to carve, and 332 of voxels followed; \
                a plain start takes 1340 of voxels, and leaves the same body.\n";
    let another = "- The start is coarse: 290 examinations of blocks left 1272 voxels to carve, and 720 of voxels followed; \
                   a plain start takes 2187 of voxels, and leaves another body: 7 voxels are kept there and not here, 7 here and not there.\n";
    for (name, sentence) in FIT.into_iter().zip([another, same]) {
        let grid = sample(name);
        let told = text(&answer(&["explain", "--coarse", path(&grid)]));
        assert!(told.contains(sentence) && told.lines().next().is_some_and(|first| first.ends_with(" allowed, begun coarse.")), "{told}");
        assert_eq!(told.lines().nth(1), Some(line(name).as_str()));
        let page = text(&answer(&["page", "--coarse", path(&grid)]));
        assert!(page.contains(sentence.trim_start_matches("- ").trim_end()) && page.contains(", begun coarse</h1>"), "{name}");
        assert!(!text(&answer(&["explain", path(&grid)])).contains("coarse"));
    }
}

/// What is numbered there is what the library says of the two bodies.
#[test]
fn the_hoppers_two_bodies() {
    let (coarse, _) = carved("hopper.grid");
    let mut plain = Grid::from_file(&std::fs::read(sample("hopper.grid")).unwrap()).unwrap();
    plain.carve_to_the_end().unwrap();
    let kept = |grid: &Grid, other: &Grid| (0..7200).filter(|&i| grid.status()[i] != GONE && other.status()[i] == GONE).count();
    assert_eq!((kept(&plain, &coarse), kept(&coarse, &plain), plain.record().examinations), (7, 7, 2187));
}

/// The page's removals are those after the coarse run.
#[test]
fn removals_of_a_page() {
    let (grid, _) = carved("stockpile.grid");
    let page = text(&answer(&["page", "--coarse", path(&sample("stockpile.grid"))]));
    let removals = page.split("\"removals\": \"").nth(1).and_then(|rest| rest.split('"').next()).expect("they are in the page");
    let bytes = removals.trim_end_matches('=').len() * 3 / 4;
    assert_eq!(bytes as u64, 4 * grid.record().removals);
}

// ---- grids that are not fit

/// No other sample is: one line says what a coarse start needs.
#[test]
fn one_line_for_31() {
    let needs = "a coarse start needs even sides of 6 or more, and a border of two voxels around what is measured negative; \
                 `wattle explain --coarse` says where, and without --coarse the grid is taken\n";
    for grid in samples() {
        let name = grid.file_name().unwrap().to_str().unwrap().to_string();
        if FIT.contains(&name.as_str()) || name == "refused.grid" {
            continue;
        }
        let output = wattle(&["carve", "--coarse", path(&grid)]);
        let said = (status(&output), text(&output.stdout), text(&output.stderr));
        assert_eq!(said, (1, "refused 31\n".to_string(), format!("wattle: note: {needs}")));
        for command in ["look", "list", "points", "volume", "page"] {
            let output = wattle(&[command, "--coarse", path(&grid)]);
            let due = format!("wattle: {name}: refused 31: the grid is not fit for a coarse start: {needs}");
            assert_eq!((status(&output), output.stdout.len(), text(&output.stderr)), (1, 0, due), "{command}");
        }
    }
    let output = wattle(&["carve", "--coarse", path(&sample("refused.grid"))]);
    assert_eq!((text(&output.stdout).as_str(), text(&output.stderr).as_str()), ("refused 3\n", ""), "3 comes before 31");
}

/// What explain says of a grid from a coarse start: where it is unfit, and what to do.
fn unfit(file: &[u8]) -> (String, String) {
    let output = wattle_on(&["explain", "--coarse", "-"], file);
    assert_eq!((status(&output), text(&output.stderr).as_str()), (1, ""));
    let told = text(&output.stdout);
    let lines: Vec<&str> = told.lines().collect();
    assert_eq!((lines.len(), lines[0]), (3, "the standard input is refused 31: the grid is not fit for a coarse start."));
    assert_eq!(status(&wattle_on(&["explain", "-"], file)), 0, "without --coarse it is taken, as is said");
    (lines[1].to_string(), lines[2].to_string())
}

#[test]
fn where_a_grid_is_unfit() {
    let end = ", with voxels measured outside or missing. Or leave out --coarse: then the grid is taken.";
    // a small sphere about the middle, far from every edge
    let sides = |sides: [usize; 3]| unfit(&grid_file(sides, 0, sphere(sides, 1.0)));
    let (place, advice) = sides([9, 8, 10]);
    assert_eq!(place, "Where: side a is 9, and a coarse start needs even sides of 6 or more.");
    assert_eq!(advice, format!("What to do: make each side even and 6 or more{end}"));
    let (place, _) = sides([10, 9, 7]);
    assert_eq!(place, "Where: side b is 9, side c is 7, and a coarse start needs even sides of 6 or more.");

    let one =
        |voxel: [usize; 3]| unfit(&grid_file([8, 8, 8], 0, |x, y, z| if [x, y, z] == voxel || [x, y, z] == [3, 3, 3] { -5 } else { 5 }));
    for [x, y, z] in [[1, 3, 3], [6, 3, 3], [4, 1, 5], [4, 6, 5], [3, 4, 1], [3, 4, 6]] {
        let (place, advice) = one([x, y, z]);
        // a header of 7 bytes, and layers of 3 and 128
        let (index, byte) = (x + 8 * (y + 8 * z), 7 + 131 * z + 3 + 2 * (x + 8 * y));
        let told = format!("voxel ({x}, {y}, {z}), index {index}, with -5: byte {byte}, in layer z = {z}.");
        assert_eq!(place, format!("Where: 1 negative voxel lies within two voxels of the grid's edge; the first is {told}"));
        assert_eq!(advice, format!("What to do: leave a border of two voxels or more around all that is measured negative{end}"));
    }
    let (place, advice) = unfit(&grid_file([6, 5, 6], 0, sphere([6, 5, 6], 1.5)));
    assert!(place.starts_with("Where: side b is 5, and a coarse start needs even sides of 6 or more. "), "{place}");
    assert!(place.contains("negative voxels lie within two voxels of the grid's edge; the first is voxel (2, 1, "), "{place}");
    assert!(advice.contains("6 or more, and leave a border of two voxels or more around all"), "{advice}");
}

// ---- pins

/// A pin outside the box around the inside, in a block of it, holds its voxel; one beyond the blocks that are left does nothing, and is told.
#[test]
fn pins() {
    let file = grid_file([8, 8, 8], 9, |x, y, z| if (3..5).contains(&x) && (y, z) == (3, 3) { -5 } else { 5 });
    let explained = |words: &[&str]| {
        let output = wattle_on(&[&["explain", "-"], words].concat(), &file);
        assert_eq!((status(&output), text(&output.stderr).as_str()), (0, ""));
        text(&output.stdout)
    };
    let coarse = explained(&["--coarse", "--pin", "2,2,2"]);
    assert!(
        coarse.starts_with("the standard input is taken: 8 x 8 x 8 voxels, T = 9 openings allowed, 1 pinned, begun coarse.\nkept 3 "),
        "{coarse}"
    );
    assert!(coarse.contains(", and leaves another body: 0 voxels are kept there and not here, 1 here and not there.\n"), "{coarse}");
    assert!(!coarse.contains("without effect"), "{coarse}");
    let plain = explained(&["--pin", "2,2,2"]);
    assert!(
        plain.contains("\nkept 2 ") && plain.contains("without effect: 1 outside the box around the inside, where all is gone,"),
        "{plain}"
    );
    let beyond = explained(&["--coarse", "--pin", "6,3,3"]);
    assert!(beyond.contains("without effect: 1 outside the blocks that carving starts from, where all is gone,"), "{beyond}");

    let output = wattle_on(&["carve", "-", "--coarse", "--pin", "2,2,2"], &file);
    let note =
        "wattle: note: 1 voxel is pinned, so a plain start may leave another body than this coarse one: `wattle explain --coarse` says.\n";
    assert_eq!((status(&output), text(&output.stderr).as_str()), (0, note));
}
