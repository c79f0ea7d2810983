//! The commands that print text, on every sample.

use crate::common::{self, answer, carved, path, root, samples, status, text, wattle, COLOURS};
use std::path::Path;
use std::process::Command;

/// The page of a sample: its line, and its picture from the title of the first layer on.
fn stored(grid: &Path) -> (String, String) {
    let page = std::fs::read_to_string(grid.with_extension("txt")).expect("the sample has its page");
    let line = page.lines().nth(1).expect("a line").to_string();
    let picture = page.split_once("\nz = 0").expect("a picture").1.to_string();
    (line, format!("z = 0{picture}"))
}

#[test]
fn look_shows_the_pictures_that_stand_beside_the_samples() {
    for grid in samples() {
        let (line, picture) = stored(&grid);
        let refused = line.starts_with("refused");
        let output = wattle(&["look", path(&grid)]);
        assert_eq!(status(&output), i32::from(refused));
        let shown = text(&output.stdout);
        assert!(shown.lines().nth(1).expect("a line").starts_with(&line), "{shown}");
        let layers = format!("z = 0{}", shown.split_once("\nz = 0").expect("layers").1);
        // the pages of refused samples do not tell the edge apart
        assert_eq!(layers.replace('!', "#"), picture, "{}", grid.display());
        assert_eq!(layers.contains('!'), refused);
    }
}

#[test]
fn look_counts() {
    for grid in samples() {
        let Ok(body) = carved(&std::fs::read(&grid).unwrap()) else { continue };
        let shown = text(&answer(&["look", path(&grid)]));
        for (kind, mark, name) in common::NAMES {
            let entry = format!("{mark} {name}: {}", body.count(kind));
            let key = shown.lines().nth(3).unwrap();
            assert!(key.split("   ").any(|e| e == entry), "{entry} is not in {key}");
        }
    }
    let shown = text(&wattle(&["look", path(&common::sample("refused.grid"))]).stdout);
    assert!(shown.contains("! negative on the grid's edge: 12   "), "{shown}");
}

#[test]
fn look_shows_what_is_discarded() {
    let shown = text(&common::wattle_on(&["look", "-", "--layer", "7"], &common::apart()).stdout);
    assert!(shown.contains("   - discarded: gone, though measured negative: 2   . gone: 863\n"), "{shown}");
    assert!(shown.ends_with("\n...........\n........--.\n...........\n"), "{shown}");
}

#[test]
fn look_at_one_layer() {
    let grid = common::sample("torus-1.grid");
    let all = text(&answer(&["look", path(&grid)]));
    let one = text(&answer(&["look", path(&grid), "--layer", "4"]));
    assert_eq!(one.matches("z = ").count(), 1);
    let rows: Vec<&str> = one.split_once("z = 4\n").unwrap().1.lines().collect();
    assert_eq!(rows.len(), 16);
    assert!(rows.iter().all(|row| all.contains(row)));
    assert_eq!(rows[7], "..####.+..####..");
}

#[test]
fn look_at_some_layers() {
    for grid in samples() {
        let look = |more: &[&str]| wattle(&[&["look", path(&grid)], more].concat()).stdout;
        let some = text(&look(&["--layers", "3-5"]));
        let titles: Vec<&str> = some.split_whitespace().zip(some.split_whitespace().skip(2)).filter(|w| w.0 == "z").map(|w| w.1).collect();
        assert_eq!(titles, ["3", "4", "5"], "{}", grid.display());
        assert_eq!(look(&["--layers", "4-4"]), look(&["--layer", "4"]));
        let last = text(&look(&[])).matches("z = ").count() - 1;
        assert!(
            look(&["--png", "--layers", &format!("0-{last}")]) == look(&["--png"])
                && look(&["--png", "--layers", "0-1"]) != look(&["--png"])
        );
    }
}

/// The program's lines are those of samples/NAME.txt; where the program is there, it prints them.
#[test]
fn carve_prints_the_programs_line() {
    let program = root().join("target/bin/carve");
    if !program.exists() {
        common::left_out("the lines of `wattle carve` were not compared with the program's, which is not built");
    }
    for grid in samples() {
        let (line, _) = stored(&grid);
        let output = wattle(&["carve", path(&grid)]);
        assert_eq!(text(&output.stdout), format!("{line}\n"));
        assert_eq!(status(&output), i32::from(line.starts_with("refused")));
        if program.exists() {
            let printed = common::fed(&mut Command::new(&program), &std::fs::read(&grid).unwrap());
            assert_eq!(text(&printed.stdout), format!("{line}\n"));
        }
    }
}

#[test]
fn explain_says_what_a_result_means() {
    let told = |name: &str| {
        let output = wattle(&["explain", path(&common::sample(name))]);
        (status(&output), text(&output.stdout))
    };
    let (sphere, torus, glass, refused) = (told("sphere.grid"), told("torus-1.grid"), told("wet-glass.grid"), told("refused.grid"));
    assert_eq!([sphere.0, torus.0, glass.0, refused.0], [0, 0, 0, 1]);
    assert!(sphere.1.contains("T is 0, so the body is closed") && sphere.1.contains("9 voxels were filled"), "{}", sphere.1);
    assert!(torus.1.contains("(14)") && torus.1.contains("with 1 tunnel, and nothing is left to open"), "{}", torus.1);
    assert!(glass.1.contains("missing in 9 filled voxels"), "{}", glass.1);
    assert!(
        glass.1.contains("- 4 missing range points count as inside, in 1 gap behind the face, closed in by voxels measured negative.\n"),
        "{}",
        glass.1
    );
    assert!(glass.1.contains("- 117 missing range points count as outside, in 2 gaps at the grid's edge.\n"), "{}", glass.1);
    let place = "12 negative voxels lie on the grid's edge (12 at x = 0). The first is voxel (0, 5, 4), index 636, with -2: byte 1294, in layer z = 4.";
    assert!(refused.1.contains("refused 3") && refused.1.contains(place), "{}", refused.1);
    let file = std::fs::read(common::sample("refused.grid")).unwrap();
    assert_eq!(i16::from_le_bytes([file[1294], file[1295]]), -2, "the byte that explain names");
}

#[test]
fn compare_a_sample_with_itself_and_with_others() {
    for grid in samples() {
        assert_eq!(text(&answer(&["compare", path(&grid), path(&grid)])), "the same: sides, T, every value, and the result\n");
    }
    let both = [common::sample("torus-0.grid"), common::sample("torus-1.grid")];
    let output = wattle(&["compare", path(&both[0]), path(&both[1])]);
    let told = text(&output.stdout);
    assert_eq!(status(&output), 1);
    assert!(told.contains("T: 0 and 1\n") && !told.contains("values:"), "{told}");
    assert!(told.contains("result: 19 of 2304 voxels differ\n  (7, 5, 4), index 1111: filled and gone\n"), "{told}");
    assert!(told.contains("(7, 7, 4), index 1143: filled and opened\n"), "{told}");
    assert!(told.contains("distances: 19 of 2304 voxels differ\n  (7, 5, 4), index 1111: -2 and 2\n"), "{told}");
    let unlike = text(&wattle(&["compare", path(&both[0]), path(&common::sample("refused.grid"))]).stdout);
    assert!(unlike.contains("sides: 16 x 16 x 9 and 12 x 12 x 12") && unlike.contains("line of B: refused 3"), "{unlike}");
}

#[test]
fn compare_lists_values() {
    let folder = common::folder("compare");
    let mut file = std::fs::read(common::sample("sphere.grid")).unwrap();
    // 25 values of layer 0, far from the body, and one of layer 5: the first row of it begins behind the record's head
    (0..25).for_each(|i| file[10 + 2 * i] ^= 1);
    let other = folder.join("other.grid");
    std::fs::write(&other, &file).unwrap();
    let words = ["compare", path(&common::sample("sphere.grid")), path(&other)].map(str::to_string);
    let told = text(&wattle(&words).stdout);
    assert!(told.contains("values: 25 of 1728 voxels differ\n  (0, 0, 0), index 0: 64 and 65\n"), "{told}");
    assert!(told.contains("  and 5 more; --all lists them\n") && !told.contains("(0, 2, 0)"), "{told}");
    assert!(!told.contains("result:") && !told.contains("line of"), "far from the body a value decides nothing: {told}");
    let all = text(&wattle(&[&words[..], &["--all".to_string()]].concat()).stdout);
    assert!(all.contains("(0, 2, 0), index 24: ") && !all.contains("more"), "{all}");
}

#[test]
fn the_samples_pictures_are_what_look_draws() {
    for grid in samples() {
        let stored = std::fs::read(grid.with_extension("png")).expect("the sample has its picture");
        assert!(stored == wattle(&["look", "--png", path(&grid)]).stdout, "{} is to be drawn anew", grid.with_extension("png").display());
    }
}

/// The torus with its hole held closed by a list of pins, as samples/README.md shows it.
#[test]
fn the_pinned_torus_is_what_look_draws() {
    let (grid, pins) = (common::sample("torus-1.grid"), format!("@{}", path(&common::sample("torus-1.pins"))));
    let stored = std::fs::read(common::sample("torus-1-pinned.png")).expect("the picture is there");
    assert!(stored == answer(&["look", "--png", path(&grid), "--pin", &pins]), "samples/torus-1-pinned.png is to be drawn anew");
    let line = text(&answer(&["carve", path(&grid), "--pin", &pins]));
    let page = std::fs::read_to_string(root().join("samples/README.md")).expect("samples/README.md can be read");
    assert!(page.contains(&format!("`{}`", line.trim_end())), "{line} is not in samples/README.md");
}

/// The key in the file says which colour is which.
#[test]
fn a_picture_tells_its_colours() {
    let picture = common::png::parse(&answer(&["look", "--png", path(&common::sample("wet-glass.grid"))]));
    for (kind, ..) in common::NAMES {
        let [r, g, b] = COLOURS[kind as usize];
        let colour = format!("#{r:02x}{g:02x}{b:02x} ");
        assert!(picture.description.contains(&colour), "{colour} is not in {}", picture.description);
    }
    assert!(picture.description.contains("kept 446 removed 54"));
}
