//! Grid files in their written form, and files that are whole or not there, whatever befalls the writing.

use crate::common::{self, answer, folder, path, sample, samples, status, text, wattle, wattle_on};
use std::os::unix::fs::{symlink, PermissionsExt};
use std::os::unix::process::ExitStatusExt;
use std::path::Path;
use std::process::{Command, Output, Stdio};
use wattlerugby::{patch, written, Sides, MISSING, NARROW_MISSING};

/// The records of a file in another order, by their places in it.
fn reordered(file: &[u8], order: &[usize]) -> Vec<u8> {
    let records: Vec<&[u8]> = file[7..].chunks(3 + 2 * usize::from(file[2]) * usize::from(file[3])).collect();
    assert_eq!(records.len(), order.len());
    [&file[..7], &order.iter().map(|&i| records[i]).collect::<Vec<_>>().concat()].concat()
}

/// A grid file of the tests' own: values over all of 16 bits, the first of them missing.
fn rising(sides: [usize; 3], allowed: u16) -> Vec<u8> {
    let [a, b, _] = sides;
    common::grid_file(sides, allowed, |x, y, z| i16::MIN.wrapping_add((257 * (x + a * (y + b * z))) as i16))
}

#[test]
fn samples_stay_as_they_are_unless_patched() {
    for grid in samples() {
        let same = answer(&["rewrite", path(&grid)]) == std::fs::read(&grid).unwrap();
        assert_eq!(same, !grid.ends_with("patched.grid"), "{}", grid.display());
    }
}

#[test]
fn patches_go_into_the_layers() {
    let (layers, at) = (rising([4, 3, 5], 7), |index: usize| 7 + index / 12 * 27 + 3 + 2 * (index % 12));
    let mut wanted = layers.clone();
    wanted[at(3)..at(3) + 2].copy_from_slice(&[0x39, 0x30]);
    wanted[at(59)..at(59) + 2].copy_from_slice(&[0x00, 0x80]);
    let patches = [patch(3, 1), patch(59, i16::MIN), patch(3, 12345)].concat();
    let output = wattle_on(&["rewrite", "-"], &[&layers[..], &patches].concat());
    assert_eq!((status(&output), output.stdout), (0, wanted.clone()));
    let output = wattle_on(&["rewrite", "--sort", "-"], &[&reordered(&layers, &[4, 3, 2, 1, 0])[..], &patches].concat());
    assert_eq!((status(&output), output.stdout), (0, wanted.clone()));
    // and that is the file's form for good
    assert_eq!(wattle_on(&["rewrite", "-"], &wanted).stdout, wanted);
}

/// Layers in another order are refused, unless they are to be sorted.
#[test]
fn any_order_can_be_sorted() {
    let folder = folder("rewrite");
    for (sides, order) in [([4, 3, 5], &[4, 3, 2, 1, 0][..]), ([3, 5, 4], &[1, 3, 0, 2]), ([64, 3, 3], &[0, 2, 1])] {
        let wanted = rising(sides, 0xABCD);
        let (given, out) = (folder.join("given.grid"), folder.join("out.grid"));
        let file = reordered(&wanted, order);
        assert_ne!(file, wanted);
        std::fs::write(&given, &file).unwrap();
        let refused = wattle(&["rewrite", path(&given), "-o", path(&out)]);
        let line = "wattle: given.grid: refused 27: a layer's z is not the next; `wattle explain` says where, and what to do\n";
        assert_eq!((status(&refused), text(&refused.stderr).as_str(), out.exists()), (1, line, false));
        assert_eq!(answer(&["rewrite", "--sort", path(&given), "-o", path(&out)]), b"");
        assert_eq!(std::fs::read(&out).unwrap(), wanted);
        assert_eq!(std::fs::read(&given).unwrap(), file, "the file that was read stays as it is");
        assert_eq!(wattle_on(&["rewrite", "-", "--sort"], &file).stdout, wanted);
        assert_eq!(answer(&["rewrite", "--sort", path(&out)]), wanted, "what is in order stays so");
        std::fs::remove_file(&out).unwrap();
    }
}

/// Layers of both widths come out with one width: narrow where two bytes hold every value, patches among them, otherwise wide; and sorted ones too.
#[test]
fn both_widths_become_one() {
    let sides = Sides { a: 4, b: 3, c: 5 };
    let value =
        |large: i32| move |x: usize, y: usize, z: usize| if (x, y, z) == (1, 1, 2) { large } else { 100 * z as i32 - 7 * (x + y) as i32 };
    let grid = |large: i32, wide: &[usize]| common::wide_file([4, 3, 5], 7, wide, value(large));
    let all = [0, 1, 2, 3, 4];
    for wide in [&[2][..], &[0, 2], &[2, 3, 4], &all] {
        for (large, form) in
            [(5, grid(5, &[])), (-32_767, grid(-32_767, &[])), (-32_768, grid(-32_768, &all)), (70_000, grid(70_000, &all))]
        {
            assert_eq!(wattle_on(&["rewrite", "-"], &grid(large, wide)).stdout, form, "{large} {wide:?}");
            let patched = [&grid(large, wide)[..], &patch(29, 5)].concat();
            assert_eq!(wattle_on(&["rewrite", "-"], &patched).stdout, grid(5, &[]), "a patch in place of {large}");
            let missing = [&grid(large, wide)[..], &patch(0, NARROW_MISSING)].concat();
            let mut values: Vec<i32> = (0..60).map(|i| value(large)(i % 4, i / 4 % 3, i / 12)).collect();
            values[0] = MISSING;
            assert_eq!(wattle_on(&["rewrite", "-"], &missing).stdout, written(sides, 7, &values).unwrap());
        }
    }
    // records of different lengths, in falling order
    let file = grid(70_000, &[1, 2, 4]);
    let ends = [7, 34, 85, 136, 163, 214];
    assert_eq!(file.len(), ends[5]);
    let falling: Vec<u8> = (0..5).rev().flat_map(|z| file[ends[z]..ends[z + 1]].to_vec()).collect();
    let falling = [&file[..7], &falling, &patch(3, 9)].concat();
    assert_eq!(status(&wattle_on(&["rewrite", "-"], &falling)), 1);
    let sorted = wattle_on(&["rewrite", "--sort", "-"], &falling).stdout;
    assert_eq!(sorted, wattle_on(&["rewrite", "-"], &[&file[..], &patch(3, 9)].concat()).stdout);
    assert_eq!(sorted.len(), 7 + 5 * 51);
}

/// What has not every layer once is refused as it is without sorting.
#[test]
fn what_cannot_be_sorted() {
    let good = rising([4, 3, 5], 0);
    let z = |z: [u8; 5]| {
        let mut file = good.clone();
        (0..5).for_each(|record| file[7 + 27 * record + 2] = z[record]);
        file
    };
    let marked = |mut file: Vec<u8>, at: usize| {
        file[at] ^= 1;
        file
    };
    let wrong = [
        (27, z([0, 2, 2, 3, 4])),
        (24, z([0, 0, 1, 2, 3])),
        (27, z([1, 2, 3, 4, 5])),
        (27, z([4, 3, 2, 1, 0])[..141].to_vec()),
        (27, marked(z([1, 0, 2, 3, 4]), 7 + 27 * 3)),
        (22, marked(z([1, 0, 2, 3, 4]), 0)),
        (1, [&[0x56, 0x48, 4, 3, 0], &good[5..]].concat()),
        (21, b"VH".to_vec()),
        (21, Vec::new()),
    ];
    for (number, file) in wrong {
        let outputs = [wattle_on(&["rewrite", "-"], &file), wattle_on(&["rewrite", "--sort", "-"], &file)];
        for output in outputs {
            let line = text(&output.stderr);
            assert_eq!((status(&output), output.stdout.len()), (1, 0), "{line}");
            assert!(line.starts_with(&format!("wattle: the standard input: refused {number}: ")), "{line}");
        }
    }
    // what sorting brings to light
    for (number, rest) in [(5, &patch(60, 0)[..]), (22, &[0; 8]), (21, &[0])] {
        let file = [&reordered(&good, &[1, 0, 2, 3, 4])[..], rest].concat();
        let line = text(&wattle_on(&["rewrite", "--sort", "-"], &file).stderr);
        assert!(line.starts_with(&format!("wattle: the standard input: refused {number}: ")), "{line}");
    }
}

#[test]
fn the_largest_grid() {
    let wanted = rising([64, 64, 64], 0);
    let order: Vec<usize> = (0..64).rev().collect();
    let falling = reordered(&wanted, &order);
    let output = wattle_on(&["rewrite", "--sort", "-"], &falling);
    assert!((status(&output), output.stderr.len()) == (0, 0) && output.stdout == wanted);
    // with more patches than are read at a time: the last one stands
    let patched = [&falling[..], &patch(0, 7).repeat(200_000), &patch(0, i16::MIN)].concat();
    assert!(wattle_on(&["rewrite", "--sort", "-"], &patched).stdout == wanted);
}

#[test]
fn a_file_that_is_refused_leaves_nothing() {
    let folder = folder("rewrite-refused");
    let (given, out) = (folder.join("given.grid"), folder.join("out.grid"));
    let good = rising([4, 3, 5], 0);
    let second = 7 + 3 + 2 * 12;
    let wrong = [
        (21, good[..good.len() - 1].to_vec()),
        (22, [&good[..second], &[0x57], &good[second + 1..]].concat()),
        (24, [&good[..second + 2], &[0], &good[second + 3..]].concat()),
        (27, reordered(&good, &[0, 1, 3, 2, 4])),
        (21, [&good[..], &[0]].concat()),
        (22, [&good[..], &[0; 8]].concat()),
        (5, [&good[..], &patch(0, 0), &patch(60, 0)].concat()),
    ];
    for (number, file) in wrong {
        std::fs::write(&given, &file).unwrap();
        let output = wattle(&["rewrite", path(&given), "-o", path(&out)]);
        let line = text(&output.stderr);
        assert_eq!((status(&output), output.stdout.len(), line.lines().count()), (1, 0, 1), "{line}");
        assert!(line.starts_with(&format!("wattle: given.grid: refused {number}: ")), "{line}");
        assert_eq!((entries(&folder), std::fs::read(&given).unwrap()), (vec!["given.grid".to_string()], file));
    }
}

// ---- writing that fails

fn entries(folder: &Path) -> Vec<String> {
    let listed = std::fs::read_dir(folder).unwrap().map(|e| e.unwrap().file_name().into_string().unwrap());
    let mut names: Vec<String> = listed.collect();
    names.sort();
    names
}

/// Runs the tool where no file may grow beyond some kilobytes: what is written beyond fails, or the program is killed by it.
fn confined(words: &[&str], killed: bool) -> Output {
    let line = format!("ulimit -c 0; ulimit -f 8; {}exec \"$0\" \"$@\"", if killed { "" } else { "trap '' XFSZ; " });
    let mut command = Command::new("sh");
    command.args(["-c", &line, env!("CARGO_BIN_EXE_wattle")]).args(words).stdin(Stdio::null()).output().expect("sh runs")
}

#[test]
fn a_file_is_whole_or_not_there() {
    let folder = folder("rewrite-fails");
    let (grid, out) = (folder.join("grid"), folder.join("out"));
    let file = rising([64, 64, 3], 0);
    std::fs::write(&grid, &file).unwrap();
    let rewrite = ["rewrite", path(&grid), "-o", path(&out)];
    let forced = ["rewrite", path(&grid), "--force", "-o", path(&out)];

    let failed = |words: &[&str]| {
        let output = confined(words, false);
        let line = text(&output.stderr);
        assert_eq!((status(&output), output.stdout.len(), line.lines().count()), (2, 0, 1), "{line}");
        assert!(line.starts_with("wattle: ") && line.contains("out cannot be written: "), "{line}");
    };
    failed(&rewrite);
    assert_eq!(entries(&folder), ["grid"]);
    std::fs::write(&out, "mine").unwrap();
    failed(&forced);
    assert_eq!((entries(&folder), std::fs::read(&out).unwrap()), (vec!["grid".to_string(), "out".to_string()], b"mine".to_vec()));

    // killed in the middle of writing: what was there is there, and nothing bears the name where nothing did
    assert!(confined(&forced, true).status.signal().is_some(), "the program was killed");
    assert_eq!(std::fs::read(&out).unwrap(), b"mine");
    std::fs::remove_file(&out).unwrap();
    assert!(confined(&rewrite, true).status.signal().is_some(), "the program was killed");
    assert!(!out.exists());
    // what a killed one left behind is in nobody's way
    assert_eq!(answer(&rewrite), b"");
    assert!(std::fs::read(&out).unwrap() == file && std::fs::read(&grid).unwrap() == file);
}

#[test]
fn what_is_replaced_keeps_its_place() {
    let folder = folder("rewrite-replaces");
    let (out, link) = (folder.join("out"), folder.join("link"));
    let grid = sample("sphere.grid");
    std::fs::write(&out, "mine").unwrap();
    std::fs::set_permissions(&out, PermissionsExt::from_mode(0o640)).unwrap();
    symlink("out", &link).unwrap();
    answer(&["rewrite", path(&grid), "--force", "-o", path(&link)]);
    assert!(link.is_symlink() && std::fs::read(&out).unwrap() == std::fs::read(&grid).unwrap());
    assert_eq!(out.metadata().unwrap().permissions().mode() & 0o777, 0o640);
    assert_eq!(entries(&folder), ["link", "out"]);
    // where the output is another name of the grid file, only that name gets the new one
    let (falling, other) = (folder.join("falling"), folder.join("other"));
    let file = reordered(&rising([3, 3, 3], 0), &[2, 1, 0]);
    std::fs::write(&falling, &file).unwrap();
    std::fs::hard_link(&falling, &other).unwrap();
    answer(&["rewrite", "--sort", path(&falling), "--force", "-o", path(&other)]);
    assert_eq!((std::fs::read(&falling).unwrap(), std::fs::read(&other).unwrap()), (file, rising([3, 3, 3], 0)));
    // a pipe is written to, and stays a pipe
    assert!(answer(&["rewrite", path(&grid), "--force", "-o", "/dev/stdout"]) == std::fs::read(&grid).unwrap());
}

// ---- single voxels corrected

/// `--set` takes what a patch has no bytes for, and the grid gets the width that its values then need.
#[test]
fn any_value_is_set() {
    let (sides, file) = (Sides { a: 4, b: 3, c: 5 }, rising([4, 3, 5], 7));
    let wide = common::wide_file([4, 3, 5], 7, &[0, 1, 2, 3, 4], |x, y, z| if (x, y, z) == (1, 1, 2) { 70_000 } else { x as i32 });
    let set = |file: &[u8], sets: &[&str]| {
        let words: Vec<&str> = ["rewrite", "-"].into_iter().chain(sets.iter().flat_map(|set| ["--set", set])).collect();
        let output = wattle_on(&words, file);
        assert_eq!((status(&output), text(&output.stderr).as_str()), (0, ""), "{sets:?}");
        output.stdout
    };
    let due = |file: &[u8], sets: &[(usize, i32)]| {
        let (.., mut values) = wattlerugby::read_values(file).unwrap();
        sets.iter().for_each(|&(index, value)| values[index] = value);
        written(sides, 7, &values).unwrap()
    };
    for file in [&file, &wide] {
        assert_eq!(set(file, &["0=1000000000"]), due(file, &[(0, 1_000_000_000)]));
        assert_eq!(set(file, &["3,2,4=-1000000000", "0=missing"]), due(file, &[(59, -1_000_000_000), (0, MISSING)]));
        assert_eq!(set(file, &["5=-32768", "5=9", "1,1,0=8", "6=-40000"]), due(file, &[(5, 8), (6, -40_000)]));
        // behind patches too, which it overrules
        assert_eq!(set(&[&file[..], &patch(3, 1), &patch(4, 2)].concat(), &["3=77777"]), due(file, &[(3, 77_777), (4, 2)]));
        // what two bytes hold a patch sets as well
        let patched = wattle_on(&["patch", "-", "--set", "29=5"], file).stdout;
        assert_eq!(set(file, &["29=5"]), wattle_on(&["rewrite", "-"], &patched).stdout);
    }
    assert_eq!(set(&wide, &["1,1,2=5"]).len(), 7 + 5 * 27, "narrow once no value needs more");
    assert_eq!(wattle_on(&["rewrite", "--sort", "-", "--set", "0=3"], &reordered(&file, &[4, 3, 2, 1, 0])).stdout, due(&file, &[(0, 3)]));
}

#[test]
fn wrong_corrections_get_one_line() {
    let folder = folder("rewrite-set");
    let out = folder.join("out.grid");
    let one_line = |set: &str, due: &str| {
        let output = wattle(&["rewrite", path(&sample("sphere.grid")), "--set", "0=1", "--set", set, "-o", path(&out)]);
        assert_eq!((status(&output), text(&output.stderr)), (2, format!("wattle: {due}\n")), "{set}");
        assert!(!out.exists());
    };
    one_line("5", "--set takes VOXEL=VALUE, not 5; see `wattle help rewrite`");
    one_line("1,2=5", "--set takes a voxel as X,Y,Z or as an index, not 1,2; see `wattle help rewrite`");
    one_line("12,0,0=5", "voxel 12,0,0 lies beyond the grid of 12 x 12 x 12 voxels, with indices 0 to 1727");
    for value in ["", "1000000001", "-1000000001", "-2147483648", "1.5", "Missing", "99999999999"] {
        let due = format!("--set takes a value from -1000000000 to 1000000000, or `missing`, not {value}; see `wattle help rewrite`");
        one_line(&format!("0={value}"), &due);
    }
}
