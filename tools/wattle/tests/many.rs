//! carve and explain on several files.

use crate::common::{self, damaged, folder, left_out, path, python, sample, samples, status, text, wattle, Seed};
use std::path::PathBuf;

fn words<'a>(first: &[&'a str], files: &'a [PathBuf]) -> Vec<&'a str> {
    first.iter().copied().chain(files.iter().map(|file| path(file))).collect()
}

/// Each file is answered as it is alone, in the order given, under its name.
#[test]
fn every_file_is_answered_as_it_is_alone() {
    let files = samples();
    let lines: Vec<String> = files.iter().map(|file| format!("{}: {}", path(file), text(&wattle(&["carve", path(file)]).stdout))).collect();
    let output = wattle(&words(&["carve"], &files));
    let (all, taken) = (files.len(), files.len() - 1);
    assert_eq!(text(&output.stdout), lines.concat() + &format!("{all} files: {taken} carved, 1 refused, 0 not read\n"));
    assert_eq!((status(&output), text(&output.stderr).as_str()), (1, ""));

    let named = |file: &PathBuf| {
        let told = text(&wattle(&["explain", path(file)]).stdout);
        told.replacen(&*file.file_name().unwrap().to_string_lossy(), path(file), 1)
    };
    let output = wattle(&words(&["explain"], &files));
    let due: String = files.iter().map(named).collect();
    assert_eq!((status(&output), text(&output.stdout)), (1, due + &format!("{all} files: {taken} taken, 1 refused, 0 not read\n")));

    let good: Vec<PathBuf> = files.into_iter().filter(|name| !name.ends_with("refused.grid")).collect();
    let again: Vec<PathBuf> = good.iter().chain(good.iter().rev()).cloned().collect();
    let output = wattle(&words(&["carve", "--openings", "0"], &again));
    let count = format!("\n{0} files: {0} carved, 0 refused, 0 not read\n", 2 * taken);
    assert!(status(&output) == 0 && text(&output.stdout).ends_with(&count));
    let lines: Vec<String> = text(&output.stdout).lines().take(2 * taken).map(str::to_string).collect();
    assert!((0..taken).all(|i| lines[i] == lines[2 * taken - 1 - i]), "{lines:?}");
}

/// A line of JSON for each file, also for one that cannot be read, and no count.
#[test]
fn json_has_a_line_for_each() {
    let folder = folder("many-json");
    let odd = folder.join("a \"b\"\\c\n.grid");
    std::fs::copy(sample("sphere.grid"), &odd).unwrap();
    let mut seed = Seed(13);
    let damaged = (0..60).map(|i| {
        let name = folder.join(format!("{i}.grid"));
        std::fs::write(&name, damaged(&mut seed)).unwrap();
        name
    });
    let files: Vec<PathBuf> = samples().into_iter().chain([odd, folder.join("none.grid"), folder.clone()]).chain(damaged).collect();
    for command in ["carve", "explain"] {
        let output = wattle(&words(&[command, "--json"], &files));
        assert_eq!(status(&output), 2, "two files are not read");
        let (lines, out) = (text(&output.stdout), folder.join("lines.json"));
        std::fs::write(&out, &lines).unwrap();
        assert_eq!(lines.lines().count(), files.len());
        for (line, file) in lines.lines().zip(&files) {
            let alone = wattle(&[command, "--json", path(file)]);
            assert_eq!(text(&alone.stdout), format!("{line}\n"));
            let kinds = ["\"kept\": ", "\"refused\": ", "\"error\": "];
            assert!(line.contains(kinds[status(&alone) as usize]) && line.starts_with("{\"file\": \""), "{line}");
        }
        assert_eq!(text(&output.stderr).matches(" cannot be read: ").count(), 2, "{}", text(&output.stderr));
        match python("json_lines", &out) {
            Some(rows) => assert_eq!(rows.lines().count(), files.len()),
            None => left_out("JSON was not read back, since python3 is not there"),
        }
    }
}

#[test]
fn one_bad_file_does_not_stop_the_others() {
    let (grid, none) = (sample("sphere.grid"), folder("many").join("none.grid"));
    let large = folder("many-large").join("large.grid");
    std::fs::write(&large, common::grid_file([25, 5, 5], 0, common::sphere([25, 5, 5], 1.2))).unwrap();
    let output = wattle(&["carve", path(&grid), path(&none), path(&large), path(&grid)]);
    let (out, err) = (text(&output.stdout), text(&output.stderr));
    assert_eq!(status(&output), 2);
    assert!(out.ends_with("\n4 files: 2 carved, 1 refused, 1 not read\n") && out.lines().count() == 4, "{out}");
    let note = format!("wattle: note: {}: the program takes 24 voxels a side at most", path(&large));
    assert!(
        err.lines().count() == 2 && err.starts_with(&format!("wattle: {} cannot be read: ", path(&none))) && err.contains(&note),
        "{err}"
    );
    // a voxel that one grid has not, and a number that no grid has
    let output = wattle(&["carve", path(&grid), path(&sample("torus-0.grid")), "--pin", "2000"]);
    let line = format!("wattle: {}: voxel 2000 lies beyond the grid of 12 x 12 x 12 voxels, with indices 0 to 1727\n", path(&grid));
    assert!(status(&output) == 2 && text(&output.stderr).starts_with(&line), "{}", text(&output.stderr));
    let output = wattle(&["carve", path(&grid), path(&grid), "--openings", "x"]);
    assert_eq!((status(&output), text(&output.stderr).lines().count(), output.stdout.len()), (2, 1, 0));
}
