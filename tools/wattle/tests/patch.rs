//! `wattle patch`: what it appends, what it refuses; and files with more patches than are read at a time.

use crate::common::{self, answer, folder, path, sample, status, text, wattle, wattle_on, Seed};
use std::path::PathBuf;
use wattlerugby::{patch, read, Sides, NARROW_MISSING};

/// A grid file of the tests' own, in a folder, and its bytes: 4 x 3 x 5 voxels, each value its index.
fn given(name: &str) -> (PathBuf, Vec<u8>) {
    let file = common::grid_file([4, 3, 5], 7, |x, y, z| (x + 4 * (y + 3 * z)) as i16);
    let grid = folder(name).join("given.grid");
    std::fs::write(&grid, &file).unwrap();
    (grid, file)
}

/// The words of the command with a --set for each of these.
fn words<'a>(grid: &'a str, sets: &[&'a str]) -> Vec<&'a str> {
    ["patch", grid].into_iter().chain(sets.iter().flat_map(|set| ["--set", set])).collect()
}

#[test]
fn records_go_behind_the_file() {
    let (grid, file) = given("patch");
    let cases: [(&[&str], &[[u8; 8]]); 7] = [
        (&["0=9"], &[patch(0, 9)]),
        (&["3,2,4=-32767"], &[patch(59, -32767)]),
        (&["1,2,3=missing"], &[patch(45, NARROW_MISSING)]),
        (&["59=32767"], &[patch(59, 32767)]),
        (&["0,0,1=-1"], &[patch(12, -1)]),
        (&["5=1", "2,0,0=2", "5=3"], &[patch(5, 1), patch(2, 2), patch(5, 3)]),
        (&["0,1,0=0", "0,1,0=0"], &[patch(4, 0), patch(4, 0)]),
    ];
    for (sets, records) in cases {
        let wanted = [&file[..], &records.concat()].concat();
        assert_eq!(answer(&words(path(&grid), sets)), wanted, "{sets:?}");
        assert_eq!(wattle_on(&words("-", sets), &file).stdout, wanted, "{sets:?}");
    }
    assert_eq!(std::fs::read(&grid).unwrap(), file, "the file that was read stays as it is");
}

/// A patched file is patched again, and the other commands see what it says last.
#[test]
fn a_patched_file_is_a_grid_file() {
    let folder = folder("patch-twice");
    let [once, twice, plain] = ["once", "twice", "plain"].map(|name| folder.join(name));
    let (sphere, out) = (sample("sphere.grid"), ["-o", path(&once)]);
    assert_eq!(answer(&[&words(path(&sphere), &["0,0,0=20", "5,5,5=missing"])[..], &out].concat()), b"");
    assert_eq!(answer(&[&words(path(&once), &["0=64", "5,5,5=77"])[..], &["-o", path(&twice)]].concat()), b"");
    assert_eq!(std::fs::read(&twice).unwrap().len(), std::fs::read(&sphere).unwrap().len() + 4 * 8);
    // voxel (0, 0, 0) is 64 again, as in the sample
    let told = text(&wattle(&["compare", path(&sphere), path(&twice)]).stdout);
    assert!(told.contains("values: 1 of 1728 voxels differ\n  (5, 5, 5), index 785: -"), "{told}");
    assert!(told.contains(" and 77\n"), "{told}");
    answer(&["rewrite", path(&twice), "-o", path(&plain)]);
    assert!(text(&answer(&["compare", path(&twice), path(&plain)])).starts_with("the same"));
    for (grid, mark) in [(&once, '='), (&twice, 'o')] {
        let layer = text(&answer(&["look", "--layer", "5", path(grid)]));
        let row = layer.split_once("z = 5\n").unwrap().1.lines().nth(5).unwrap();
        assert_eq!(row.chars().nth(5), Some(mark), "closed in on every side, missing it counts as inside, and as 77 it is filled: {layer}");
    }
}

/// Behind layers with four bytes a value a patch has two all the same.
#[test]
fn a_wide_file_is_patched() {
    let file = common::wide_file([4, 4, 3], 0, &[1], |x, y, z| if (x, y, z) == (2, 1, 1) { -70_000 } else { 60 });
    let patched = wattle_on(&words("-", &["1,1,1=-32767", "2,1,1=missing"]), &file);
    assert_eq!(patched.stdout, [&file[..], &patch(21, -32_767), &patch(22, NARROW_MISSING)].concat());
    let told = text(&wattle_on(&["explain", "-"], &patched.stdout).stdout);
    assert!(
        told.contains("- 1 of 3 layers have four bytes a value, the others two.\n- 2 patches correct 2 values of the layers.\n"),
        "{told}"
    );
}

#[test]
fn wrong_words_and_refused_files() {
    let (grid, file) = given("patch-refused");
    let out = grid.with_file_name("out.grid");
    let one_line = |sets: &[&str], ended: i32, part: &str| {
        let output = wattle(&[&words(path(&grid), sets)[..], &["-o", path(&out)]].concat());
        let line = text(&output.stderr);
        assert_eq!((status(&output), output.stdout.len(), line.lines().count()), (ended, 0, 1), "{sets:?}: {line}");
        assert!(line.starts_with("wattle: ") && line.contains(part), "{sets:?}: {line}");
        assert!(!out.exists(), "{sets:?}");
    };
    one_line(&[], 2, "patch needs --set VOXEL=VALUE; see `wattle help patch`");
    one_line(&["5"], 2, "--set takes VOXEL=VALUE, not 5; see");
    for voxel in ["", "x", "1,2", "1,2,3,4", "1,,2", "-1", "1;2;3", "1.5", "99999999999999999999"] {
        one_line(&[&format!("{voxel}=5")], 2, "--set takes a voxel as X,Y,Z or as an index, not");
    }
    for voxel in ["60", "4,0,0", "0,3,0", "0,0,5", "18446744073709551615", "18446744073709551615,0,0", "4294967296"] {
        one_line(&[&format!("{voxel}=5")], 2, &format!("voxel {voxel} lies beyond the grid of 4 x 3 x 5 voxels, with indices 0 to 59"));
    }
    for value in ["", "32768", "-32768", "-32769", "1000000000", "Missing", "1.5", "5=6", "0x10"] {
        one_line(&[&format!("0={value}")], 2, "--set takes a value from -32767 to 32767, or `missing`, not");
    }
    // the first that is wrong is told, and nothing is written for those before it
    one_line(&["0=1", "60=1", "x=1"], 2, "voxel 60 lies beyond");
    std::fs::write(&grid, [&file[..], &[0; 8]].concat()).unwrap();
    one_line(&["0=1"], 1, "given.grid: refused 22: ");
    std::fs::write(&grid, [&file[..], &patch(60, 1)].concat()).unwrap();
    one_line(&["0=1"], 1, "given.grid: refused 5: ");
}

// ---- long files

/// A file that is read in several pieces, none of which ends where a record does, and the values that it says.
fn long() -> (Vec<u8>, Vec<i32>) {
    let (sides, mut seed) = ([64, 64, 64], Seed(3));
    let mut file = common::grid_file(sides, 0, common::sphere(sides, 6.0));
    let mut values = vec![0; 64 * 64 * 64];
    assert_eq!(read(&file, &mut values), Ok((Sides { a: 64, b: 64, c: 64 }, 0)));
    for _ in 0..300_000 {
        let (index, value) = (seed.below(64 * 64 * 64), seed.below(1000) as i16);
        file.extend(patch(index as u32, value));
        values[index] = value.into();
    }
    (file, values)
}

#[test]
fn every_piece_of_a_long_file_is_read() {
    let (file, values) = long();
    let wanted = common::grid_file([64, 64, 64], 0, |x, y, z| values[x + 64 * (y + 64 * z)] as i16);
    assert!(wattle_on(&["rewrite", "-"], &file).stdout == wanted, "the last patch of each voxel stands");
    let told = text(&wattle_on(&["explain", "-"], &file).stdout);
    assert!(told.contains("- 300000 patches correct "), "{told}");
    // a wrong patch far behind is found, also where more bytes follow than were read by then
    let mut wrong = file.clone();
    let at = 524_487 + 8 * 150_000;
    wrong[at] = 0;
    let told = text(&wattle_on(&["explain", "-"], &wrong).stdout);
    assert!(told.contains(&format!("patch record 150001 begins at byte {at} with 00 50 hex")), "{told}");
    let told = text(&wattle_on(&["explain", "-"], &file[..file.len() - 1]).stdout);
    assert!(told.contains("patch record 300000 begins") && told.contains(&format!("The file has {} bytes", file.len() - 1)), "{told}");
}
