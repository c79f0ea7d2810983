//! How much of a body there is, and coordinates in units: `--voxel` and `--origin`.

use crate::common::{self, answer, carved, path, sample, samples, status, text, wattle, wattle_on};
use wattlerugby::MISSING;

/// The fields of a line of JSON that have numbers.
fn numbers(json: &str) -> std::collections::HashMap<String, f64> {
    let fields = json.trim_end().trim_matches(['{', '}']).split(", \"").filter_map(|field| field.split_once("\": "));
    fields.filter_map(|(name, value)| Some((name.trim_matches('"').to_string(), value.parse().ok()?))).collect()
}

#[test]
fn volumes_are_the_sums_of_their_parts() {
    for grid in samples() {
        let Ok(body) = carved(&std::fs::read(&grid).unwrap()) else { continue };
        let json = text(&answer(&["carve", "--json", path(&grid)]));
        let found = numbers(&json);
        let kept: Vec<usize> = (0..body.values.len()).filter(|&i| [1, 2, 3, 5].contains(&body.kinds[i])).collect();
        let unmeasured = kept.iter().filter(|&&i| body.values[i] == MISSING).count();
        let due = [
            ("kept", kept.len()),
            ("inside", body.count(1) + body.count(5)),
            ("gaps", body.count(5)),
            ("filled", body.count(2) + body.count(3)),
            ("filled_over_missing", body.count(3)),
            ("pinned", 0),
            ("unmeasured", unmeasured),
        ];
        for (name, count) in due {
            assert_eq!(found[name], count as f64, "{name} in {json}");
        }
        assert_eq!(found["kept"], found["inside"] + found["filled"]);
        assert!(!found.contains_key("volume"), "without a voxel's size there are no units");
        let sized = numbers(&text(&answer(&["carve", "--json", "--voxel", "0.5,2,3", path(&grid)])));
        assert_eq!((sized["volume"], sized["volume_unmeasured"]), (3.0 * kept.len() as f64, 3.0 * unmeasured as f64));
    }
}

#[test]
fn explain_and_the_page_say_it() {
    let glass = sample("wet-glass.grid");
    let parts = "437 inside, of these 4 in gaps; 9 filled, of these 9 over missing points.";
    let cases: [(&[&str], String); 4] = [
        (&[], format!("The volume is 446 voxels: {parts} Nobody measured 13 voxels of it, 2.9 %.")),
        (
            &["--voxel", "0.05"],
            format!("The volume is 446 voxels (0.05575 cubic units): {parts} Nobody measured 13 voxels (0.001625 cubic units) of it, 2.9 %."),
        ),
        (&["--voxel", "1,2,3"], format!("The volume is 446 voxels (2676 cubic units): {parts} Nobody measured 13 voxels (78 cubic units) of it, 2.9 %.")),
        (&["--openings", "1"], "The volume is 437 voxels: 437 inside, of these 4 in gaps; 0 filled, of these 0 over missing points. Nobody measured 4 voxels of it, 0.9 %.".to_string()),
    ];
    for (words, sentence) in cases {
        let explained = text(&answer(&[&["explain", path(&glass)], words].concat()));
        assert!(explained.contains(&format!("\n- {sentence}\n")), "{sentence} is not in {explained}");
        let page = text(&answer(&[&["page", path(&glass)], words].concat()));
        assert!(page.contains(&format!("<li>{sentence}</li>")), "{sentence}");
        let json = text(&answer(&[&["explain", "--json", path(&glass)], words].concat()));
        assert!(json.contains(&format!("\"{sentence}\"")) && json.lines().count() == 1, "{json}");
    }
    let ring = common::grid_file([5, 5, 3], 2, |x, y, z| if z == 1 && x.abs_diff(2).max(y.abs_diff(2)) == 1 { -4 } else { 4 });
    let held = text(&wattle_on(&["explain", "-", "--pin", "37"], &ring).stdout);
    let sentence = "The volume is 9 voxels: 8 inside, of these 0 in gaps; 0 filled, of these 0 over missing points, 1 pinned. Every voxel of it was measured.";
    assert!(held.contains(sentence), "{held}");
}

// ---- units and place

const FRAME: [&str; 4] = ["--voxel", "0.25,0.5,2", "--origin", "500000.5,-20,7"];

fn placed([x, y, z]: [f64; 3]) -> [f64; 3] {
    [500_000.5 + 0.25 * x, -20.0 + 0.5 * y, 7.0 + 2.0 * z]
}

#[test]
fn points_and_lists_are_in_units() {
    for grid in samples() {
        let Ok(body) = carved(&std::fs::read(&grid).unwrap()) else { continue };
        let due: Vec<[f64; 3]> = body.points().iter().map(|(p, _)| placed(*p)).collect();
        let three = |line: &str| {
            let words: Vec<f64> = line.split(' ').take(3).map(|n| n.parse().unwrap()).collect();
            [words[0], words[1], words[2]]
        };
        let xyz = text(&answer(&[&["points", "--xyz", path(&grid)], &FRAME[..]].concat()));
        assert_eq!(xyz.lines().map(three).collect::<Vec<_>>(), due, "{}", grid.display());
        let ply = text(&answer(&[&["points", "--ply", path(&grid)], &FRAME[..]].concat()));
        let (head, rows) = ply.split_once("end_header\n").unwrap();
        assert!(head.contains(" allowed, a voxel is 0.25 x 0.5 x 2, and voxel 0,0,0 lies at 500000.5,-20,7; scalar"), "{head}");
        assert_eq!(rows.lines().map(three).collect::<Vec<_>>(), due);

        let list = text(&answer(&[&["list", path(&grid)], &FRAME[..]].concat()));
        for line in list.lines().skip(1) {
            let words: Vec<&str> = line.split(',').collect();
            let [place, at] = [0, 8].map(|from| [0, 1, 2].map(|i| words[from + i].parse::<f64>().unwrap()));
            assert_eq!(placed(place), at, "{line}");
        }
        assert_eq!(list.lines().next(), Some("x,y,z,index,value,kind,k,m,at_x,at_y,at_z"));
    }
    let torus = sample("torus-1.grid");
    let value = carved(&std::fs::read(&torus).unwrap()).expect("the torus is taken").values[1143];
    let json = text(&answer(&[&["list", "--json", "--kind", "opened", path(&torus)], &FRAME[..]].concat()));
    let due = format!(
        "\"index\": 1143, \"value\": {value}, \"kind\": \"opened\", \"k\": 1, \"m\": 2, \"at_x\": 500002.25, \"at_y\": -16.5, \"at_z\": 15"
    );
    assert_eq!(json, format!("[{{\"x\": 7, \"y\": 7, \"z\": 4, {due}}}]\n"));
}

#[test]
fn volumes_and_pages_are_in_units() {
    for grid in samples().into_iter().filter(|name| !name.ends_with("refused.grid")) {
        let with = |words: &[&str]| String::from_utf8_lossy(&answer(&[words, &[path(&grid)], &FRAME[..]].concat())).into_owned();
        let without = |words: &[&str]| String::from_utf8_lossy(&answer(&[words, &[path(&grid)]].concat())).into_owned();
        let vtk = ("\nORIGIN 0 0 0\nSPACING 1 1 1\n", "\nORIGIN 500000.5 -20 7\nSPACING 0.25 0.5 2\n");
        assert!(with(&["volume", "--vtk"]) == without(&["volume", "--vtk"]).replacen(vtk.0, vtk.1, 1) && with(&["volume"]).contains(vtk.1));
        let nrrd = with(&["volume", "--nrrd"]);
        let lines = ["\nspace directions: (0.25,0,0) (0,0.5,0) (0,0,2)\n", "\nspace origin: (500000.5,-20,7)\n"];
        assert!(lines.iter().all(|line| nrrd.contains(line)), "{}", grid.display());
        let page = with(&["page"]);
        assert!(page.contains("\n\"voxel\": [0.25, 0.5, 2.0],\n\"origin\": [500000.5, -20.0, 7.0],\n"));
        assert!(!without(&["page"]).contains("\"origin\": ["));
    }
    let alone = text(&answer(&["points", "--xyz", path(&sample("sphere.grid")), "--origin", "10,0,0"]));
    let plain = text(&answer(&["points", "--xyz", path(&sample("sphere.grid"))]));
    let first = |text: &str| text.split(' ').next().unwrap().parse::<f64>().unwrap();
    assert_eq!(first(&alone), first(&plain) + 10.0);
}

#[test]
fn wrong_sizes_and_places() {
    let grid = sample("sphere.grid");
    for command in ["points", "volume", "list", "page"] {
        for word in ["0", "-1", "x", "", "1,2", "1,2,0", "1,2,3,4", "nan", "inf", "1e300", "1e-300", "1,,3"] {
            let output = wattle(&[command, path(&grid), "--voxel", word]);
            let line = format!("wattle: --voxel takes a size from 1e-12 to 1e12, or three: SIZE,SIZE,SIZE, not {word}\n");
            assert_eq!((status(&output), text(&output.stderr), output.stdout.len()), (2, line, 0), "{command}");
        }
        for word in ["0", "x", "", "1,2", "1,2,x", "1,2,3,4", "1,2,inf"] {
            let output = wattle(&[command, path(&grid), "--origin", word]);
            let line = format!("wattle: --origin takes three numbers: X,Y,Z, not {word}\n");
            assert_eq!((status(&output), text(&output.stderr), output.stdout.len()), (2, line, 0), "{command}");
        }
    }
    for (command, option) in [("look", "--voxel"), ("rewrite", "--voxel"), ("carve", "--origin"), ("explain", "--origin")] {
        assert_eq!(status(&wattle(&[command, path(&grid), option, "1,2,3"])), 2, "{command} {option}");
    }
}
