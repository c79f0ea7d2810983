//! `wattle list`, and the places that `wattle explain` names.

use crate::common::{
    self, answer, carved, damaged, folder, left_out, path, python, sample, samples, status, text, wattle, wattle_on, Seed,
};
use std::path::Path;
use wattlerugby::{read, Grid, MISSING, NO_LIMIT};

/// 12 x 8 x 7 voxels of noise, with voxels of every kind.
fn noise() -> Vec<u8> {
    let mut seed = Seed(8);
    let values: Vec<i16> = (0..12 * 8 * 7)
        .map(|_| match seed.below(100) {
            0..=69 => -1 - seed.below(40) as i16,
            70..=84 => i16::MIN,
            _ => seed.below(40) as i16,
        })
        .collect();
    let inner = |p: usize, side: usize| 0 < p && p + 1 < side;
    common::grid_file([12, 8, 7], 3, |x, y, z| match (x, inner(y, 8) && inner(z, 7)) {
        (1..=7, true) => values[x + 12 * (y + 8 * z)],
        (10, true) => -3,
        _ => 25,
    })
}

/// The columns of a row up to the kind, and its k and m.
type Row = (Vec<String>, String, Option<(u32, u32)>);

fn row(index: usize, sides: wattlerugby::Sides, value: i32, kind: &str, test: Option<(u32, u32)>) -> Row {
    let place = [index % sides.a, index / sides.a % sides.b, index / (sides.a * sides.b), index].map(|n| n.to_string());
    let value = if value == MISSING { String::new() } else { value.to_string() };
    ([&place[..], &[value]].concat(), kind.to_string(), test)
}

/// The rows due, by the library: kinds as `wattle help volume` numbers them, discarded ones by their values, openings one by one.
fn due(file: &[u8]) -> Vec<Row> {
    let body = carved(file).expect("a grid that is taken");
    let mut values = vec![0; body.values.len()];
    let (sides, allowed) = read(file, &mut values).unwrap();
    let of = |kind: u8| (0..values.len()).filter(|&i| body.kinds[i] == kind).collect::<Vec<_>>();
    let rows = |voxels: Vec<usize>, kind: &'static str| voxels.into_iter().map(move |i| (i, kind, None)).collect::<Vec<_>>();
    let mut grid = Grid::begin(sides, allowed, &values).unwrap();
    let mut opened = Vec::new();
    loop {
        grid.carve(NO_LIMIT).unwrap();
        let Ok(o) = grid.open() else { break };
        opened.push((o.index, "opened", Some((o.k, o.m))));
    }
    let stray = (0..values.len()).filter(|&i| values[i] < 0 && values[i] != MISSING && !body.inside[i]).collect();
    let all = [rows(of(2), "filled"), rows(of(3), "missing"), opened, rows(stray, "discarded"), rows(of(5), "gap")].concat();
    all.into_iter().map(|(i, kind, test)| row(i, sides, values[i], kind, test)).collect()
}

fn parsed(csv: &str) -> Vec<Row> {
    let mut lines = csv.lines();
    assert_eq!(lines.next(), Some("x,y,z,index,value,kind,k,m"));
    let row = |line: &str| {
        let words: Vec<String> = line.split(',').map(str::to_string).collect();
        assert_eq!(words.len(), 8, "{line}");
        let test = words[6].parse().ok().zip(words[7].parse().ok());
        (words[..5].to_vec(), words[5].clone(), test)
    };
    lines.map(row).collect()
}

/// Both formats as Python's own readers see them: the same rows.
fn read_back(folder: &Path, grid: &Path) -> bool {
    let written = |name: &str| {
        let out = folder.join(name);
        assert!(answer(&["list", path(grid), "--voxel", "0.1", "--force", "-o", path(&out)]).is_empty());
        out
    };
    let (csv, json) = (python("csv_rows", &written("rows.csv")), python("json_rows", &written("rows.json")));
    let rows = |text: Option<String>| text.map(|text| text.lines().map(str::to_string).collect::<Vec<_>>());
    let (csv, json) = (rows(csv), rows(json));
    assert_eq!(csv, json, "{}", grid.display());
    let listed = text(&answer(&["list", path(grid)])).lines().count() - 1;
    assert!(csv.as_ref().is_none_or(|rows| rows.len() == listed), "{}", grid.display());
    csv.is_some()
}

#[test]
fn every_voxel_of_every_kind() {
    let folder = folder("list");
    let noisy = folder.join("noise.grid");
    std::fs::write(&noisy, noise()).unwrap();
    let mut found = Vec::new();
    for grid in samples().into_iter().filter(|name| !name.ends_with("refused.grid")).chain([noisy.clone()]) {
        let rows = parsed(&text(&answer(&["list", path(&grid)])));
        let listed: Vec<Row> = rows.iter().filter(|(_, kind, _)| kind != "dent").cloned().collect();
        let due = due(&std::fs::read(&grid).unwrap());
        assert_eq!(listed, due, "{}", grid.display());
        for kind in ["filled", "missing", "dent", "opened", "discarded", "gap"] {
            let of: Vec<Row> = rows.iter().filter(|row| row.1 == kind).cloned().collect();
            assert_eq!(parsed(&text(&answer(&["list", path(&grid), "--kind", kind]))), of, "{kind}");
            assert!(!of.is_empty() || grid != noisy, "the noise has {kind}");
        }
        found.push(read_back(&folder, &grid));
    }
    if !found.contains(&true) {
        left_out("CSV and JSON were read here alone, since python3 is not there");
    }
    let two = text(&answer(&["list", path(&noisy), "--kind", "gap", "--kind", "filled"]));
    let kinds: Vec<String> = parsed(&two).into_iter().map(|(_, kind, _)| kind).collect();
    assert!(kinds.is_sorted_by_key(|kind| kind == "gap") && kinds.contains(&"gap".to_string()) && kinds.contains(&"filled".to_string()));
    assert_eq!(text(&answer(&["list", "--json", "--kind", "gap", path(&sample("sphere.grid"))])), "[]\n");
}

/// The pane: a gap from its face is carved to a dent, one through it leaves a skin of filled voxels.
#[test]
fn dents_are_listed_and_named() {
    let glass = sample("wet-glass.grid");
    let rows = parsed(&text(&answer(&["list", path(&glass), "--kind", "dent"])));
    let z: Vec<&str> = rows.iter().filter(|row| row.0[0].parse::<usize>().unwrap() >= 8).map(|row| row.0[2].as_str()).collect();
    assert_eq!((rows.len(), z.len(), z.iter().filter(|z| **z == "5").count()), (54, 18, 9), "none beyond the box, z = 2 to 6");
    assert!(rows.iter().all(|row| row.0[4].is_empty()));
    let told = |name: &str| text(&answer(&["explain", path(&sample(name))]));
    let again = "assumed there, not measured. Scan (3, 3, 6) to (5, 5, 6) again.\n";
    let dents = "- 54 voxels were carved away beside the inside, though the range point is missing: nobody measured the dent or tunnel there. Scan (3, 3, 2) to (5, 5, 5) and (8, 3, 5) to (10, 5, 6) again.\n";
    assert!(told("wet-glass.grid").contains(again) && told("wet-glass.grid").contains(dents), "{}", told("wet-glass.grid"));
    assert!(told("wall.grid").contains("Scan (10, 3, 3) to (12, 7, 5) again.\n"), "{}", told("wall.grid"));
    // the gap in the bore has voxels measured outside all around it
    assert!(!told("tunnel.grid").contains("Scan ") && !told("sphere.grid").contains("Scan "));
    assert!(told("torus-0.grid").contains("though not measured inside. By size and place: 19 at (6, 5, 4) to (9, 10, 5).\n"));
}

#[test]
fn discarded_groups_are_named_by_size_and_place() {
    let told = |xs: &[usize]| {
        let file = common::grid_file([16, 5, 3], 0, |x, y, z| if z == 1 && y == 2 && xs.contains(&x) { -4 } else { 4 });
        text(&wattle_on(&["explain", "-"], &file).stdout)
    };
    let due = [
        (&[1, 2, 5][..], "1 voxel was measured negative apart from the largest group, and not counted as inside. By size and place: 1 at (5, 2, 1).\n"),
        (&[1, 2, 3, 5, 7, 8], "3 voxels were measured negative apart from the largest group, and not counted as inside. By size and place: 2 at (7, 2, 1) to (8, 2, 1) and 1 at (5, 2, 1).\n"),
        (&[1, 2, 4, 6, 8, 10, 12], "By size and place: 1 at (4, 2, 1), 1 at (6, 2, 1), 1 at (8, 2, 1) and 2 groups more.\n"),
        (&[1, 2, 4, 6, 8, 10], "1 at (8, 2, 1) and 1 group more.\n"),
    ];
    for (xs, sentence) in due {
        assert!(told(xs).contains(sentence), "{sentence} is not in {}", told(xs));
    }
    assert!(!told(&[1, 2]).contains("discarded") && !told(&[1, 2]).contains("apart"));
    // a corner is enough to hang together
    let corner = common::grid_file([12, 6, 5], 0, |x, y, z| match (x, y, z) {
        (1..=3, 2, 1) | (6, 2, 1) | (7, 3, 2) => -4,
        _ => 4,
    });
    let told = text(&wattle_on(&["explain", "-"], &corner).stdout);
    assert!(told.contains("By size and place: 2 at (6, 2, 1) to (7, 3, 2).\n"), "{told}");
}

/// Damaged files are listed exactly where they are explained as taken, and refused with the same number.
#[test]
fn damaged_files() {
    let (mut seed, mut met) = (Seed(77), [0; 2]);
    for _ in 0..150 {
        let file = damaged(&mut seed);
        let (explained, listed) = (wattle_on(&["explain", "-"], &file), wattle_on(&["list", "-"], &file));
        assert_eq!(status(&listed), status(&explained));
        met[status(&listed) as usize] += 1;
        if status(&listed) == 1 {
            let number = text(&explained.stdout).split_once(" is refused ").unwrap().1.split_once(':').unwrap().0.to_string();
            assert!(text(&listed.stderr).contains(&format!(": refused {number}: ")) && listed.stdout.is_empty());
        }
    }
    assert!(met.iter().all(|&met| met > 10), "{met:?}");
}

#[test]
fn wrong_words() {
    let grid = sample("sphere.grid");
    let line = |words: &[&str]| {
        let output = wattle(&[&["list", path(&grid)], words].concat());
        (status(&output), text(&output.stderr))
    };
    let kinds = "the kinds are filled, missing, dent, opened, discarded, gap";
    assert_eq!(line(&["--kind", "holes"]), (2, format!("wattle: there is no kind holes; {kinds}\n")));
    assert_eq!(line(&["--kind", "gap", "--kind", ""]), (2, format!("wattle: there is no kind ; {kinds}\n")));
    assert_eq!(line(&["--csv", "--json"]).0, 2);
    assert_eq!(status(&wattle(&["list", path(&sample("refused.grid"))])), 1);
}
