//! Files that are refused, words that are wrong, and files that are not to be overwritten.

use crate::common::{self, damaged, fed, path, root, sample, status, text, wattle, wattle_on, Seed};
use std::io::Read;
use std::process::{Command, Stdio};
use wattlerugby::{patch, GREATEST_VALUE, LEAST_VALUE};

fn sphere() -> Vec<u8> {
    std::fs::read(sample("sphere.grid")).unwrap()
}

/// Bytes of a layer record of the sphere, whose first begins behind the header.
const RECORD: usize = 3 + 2 * 12 * 12;

fn with(changes: &[(usize, u8)]) -> Vec<u8> {
    let mut file = sphere();
    changes.iter().for_each(|&(at, byte)| file[at] = byte);
    file
}

/// What explain says of a file within the program's limits: a number, and words that have to be there.
fn explained(file: &[u8], number: u8, words: &[&str]) {
    let output = wattle_on(&["explain", "-"], file);
    let told = text(&output.stdout);
    assert_eq!((status(&output), text(&output.stderr).as_str()), (1, ""), "{told}");
    assert!(told.starts_with(&format!("the standard input is refused {number}: ")), "{told}");
    assert_eq!(told.lines().count(), 3, "a line each for what, where and what to do: {told}");
    assert!(told.contains("\nWhere: ") && told.contains("\nWhat to do: "), "{told}");
    for word in words {
        assert!(told.contains(word), "{word} is not in {told}");
    }
}

#[test]
fn explain_finds_the_byte() {
    let second = 7 + RECORD;
    explained(&sphere()[..5], 21, &["the file has 5 bytes, and the header alone has 7"]);
    explained(&[], 21, &["the file has 0 bytes"]);
    explained(&with(&[(0, 0x50), (1, 0x4B)]), 22, &["bytes 0 and 1 are 50 4B hex"]);
    explained(&with(&[(2, 64), (3, 2), (4, 65)]), 1, &["Where: side b, byte 3, is 2; side c, byte 4, is 65; a side is 3 to 64"]);
    let cut =
        "layer record 2 of 12 begins at byte 298 and has 291 bytes (narrow, two bytes a value), but 290 are left. The file has 588 bytes";
    let due = "with sides 12 x 12 x 12 header and layers have 3499 bytes, 6955 where all layers are wide";
    explained(&sphere()[..second + 290], 21, &[cut, due]);
    explained(&sphere()[..second], 21, &["begins at byte 298", "but 0 are left"]);
    explained(
        &with(&[(second, 0x41)]),
        22,
        &["layer record 2 begins at byte 298 with 41 4C hex, and 56 4C or 56 57 hex is due", "layer z = 0 from byte 7, narrow"],
    );
    explained(&with(&[(7, 0), (8, 0)]), 22, &["layer record 1 begins at byte 7 with 00 00 hex", "the first after the header"]);
    explained(&with(&[(second + 2, 12)]), 23, &["layer record 2, from byte 298: byte 300 says z = 12, and there are 12 layers"]);
    explained(&with(&[(second + 2, 0)]), 24, &["layer z = 0 comes in the record from byte 7 and again in the one from byte 298, byte 300"]);
}

/// A wide record is told by its own length, and a value out of range with its voxel and bytes.
#[test]
fn explain_finds_the_wide_layer() {
    let grid = |value: i32| {
        let at = move |x: usize, y: usize, z: usize| match (x, y, z) {
            (2, 1, 1) => -70_000,
            (1, 3, 1) => value,
            _ => 60,
        };
        common::wide_file([4, 4, 3], 0, &[1, 2], at)
    };
    let (second, third) = (7 + 35, 7 + 35 + 67);
    let bytes = second + 3 + 4 * 13;
    for value in [GREATEST_VALUE + 1, LEAST_VALUE - 1, i32::MAX, -i32::MAX] {
        let file = grid(value);
        assert_eq!(i32::from_le_bytes(file[bytes..bytes + 4].try_into().unwrap()), value);
        let place = format!("layer record 2 of 3, z = 1, from byte {second}, is wide, four bytes a value: voxel (1, 3, 1), index 29, has {value} in bytes {bytes} to {}; a measured value is", bytes + 3);
        let advice = "What to do: write that layer again with the value in range, or missing. A patch does not mend it.\n";
        explained(&file, 28, &[&place, "-1000000000 to 1000000000, and -2147483648 is a missing range point", advice]);
        explained(&[&file[..], &patch(29, 6)].concat(), 28, &[&place]);
        explained(&file[..third + 1], 28, &[&place]);
        assert_eq!(text(&wattle_on(&["carve", "-"], &file).stdout), "refused 28\n");
        for command in ["look", "points", "volume", "page", "rewrite"] {
            let output = wattle_on(&[command, "-"], &file);
            let line = "wattle: the standard input: refused 28: a value is neither in range nor the missing mark; `wattle explain` says where, and what to do\n";
            assert_eq!((status(&output), text(&output.stderr).as_str(), output.stdout.len()), (1, line, 0), "{command}");
        }
    }
    let mut more = grid(GREATEST_VALUE + 1);
    more[third - 4..third].copy_from_slice(&i32::MAX.to_le_bytes());
    explained(&more, 28, &["has 1000000001 in bytes", ", the first of 2 such values there; "]);
    // cut off, and with a wrong mark behind a wide record
    let good = grid(60);
    let short =
        "layer record 2 of 3 begins at byte 42 and has 67 bytes (wide, four bytes a value), but 66 are left. The file has 108 bytes";
    explained(&good[..third - 1], 21, &[short, "header and layers have 112 bytes, 208 where all layers are wide"]);
    explained(&good[..second + 2], 21, &["has 67 bytes (wide, four bytes a value), but 2 are left"]);
    explained(&good[..second + 1], 21, &["has 35 bytes (narrow, two bytes a value), but 1 are left"]);
    let mut marked = good.clone();
    marked[third + 1] = 0x58;
    explained(
        &marked,
        22,
        &["layer record 3 begins at byte 109 with 56 58 hex", "layer z = 1 from byte 42, wide, four bytes a value, may have"],
    );
    // what begin refuses is told with the bytes where it stands, in either width
    for (voxel, byte) in [((0, 0, 0), 10), ((3, 2, 1), second + 3 + 4 * 11), ((3, 3, 2), third + 3 + 4 * 15)] {
        let edge = common::wide_file([4, 4, 3], 0, &[1, 2], |x, y, z| if (x, y, z) == voxel { -9 } else { 60 });
        explained(&edge, 3, &[&format!("with -9: byte {byte}, in layer z = {}.", voxel.2)]);
    }
    let told = text(&wattle_on(&["explain", "-"], &good).stdout);
    assert!(told.contains("- 2 of 3 layers have four bytes a value, the others two.\n"), "{told}");
    let wide = text(
        &wattle_on(&["explain", "-"], &common::wide_file([4, 4, 3], 0, &[0, 1, 2], |x, y, z| 60 - 130 * i32::from((x, y, z) == (1, 1, 1))))
            .stdout,
    );
    assert!(wide.contains("- The layers have four bytes a value.\n"), "{wide}");
}

/// The record that is out of order, the layer found there and the one due; and whether sorting helps, which is tried.
#[test]
fn explain_finds_the_layer() {
    let at = |record: usize| 7 + RECORD * record;
    let sorts = |file: &[u8]| wattle_on(&["rewrite", "--sort", "-"], file).stdout == sphere();
    let mut exchanged = sphere();
    exchanged[at(2)..at(4)].rotate_left(RECORD);
    let place = "layer record 3 of 12, from byte 589: byte 591 says z = 3, and z = 2 is due, as layers come from 0 up and none is skipped.";
    let advice = "What to do: each layer is there once: `wattle rewrite --sort` puts them in order.\n";
    explained(&exchanged, 27, &[place, advice]);
    assert!(sorts(&exchanged));
    let mut falling = sphere();
    (0..12).for_each(|z| falling[at(z)..at(z + 1)].copy_from_slice(&sphere()[at(11 - z)..at(12 - z)]));
    explained(&falling, 27, &["layer record 1 of 12, from byte 7: byte 9 says z = 11, and z = 0 is due", advice]);
    assert!(sorts(&falling));
    // the other commands do not read it
    assert_eq!(text(&wattle_on(&["carve", "-"], &exchanged).stdout), "refused 27\n");
    for command in ["look", "points", "volume", "page", "rewrite"] {
        let output = wattle_on(&[command, "-"], &exchanged);
        let line = "wattle: the standard input: refused 27: a layer's z is not the next; `wattle explain` says where, and what to do\n";
        assert_eq!((status(&output), text(&output.stderr).as_str(), output.stdout.len()), (1, line, 0), "{command}");
    }
    // also with patches behind, whatever they are
    explained(&[&exchanged[..], &patch(1, 9), &patch(1728, 9)].concat(), 27, &[place, advice]);

    let not_all = "write the layers 0 to 11, each once, in that order; they are not all there, so the file cannot be sorted.";
    let left_out = with(&[(at(5) + 2, 6)]);
    explained(&left_out, 27, &["layer record 6 of 12, from byte 1462: byte 1464 says z = 6, and z = 5 is due", not_all]);
    explained(&exchanged[..at(5) + 9], 27, &[place, not_all]);
    explained(&exchanged[..at(3)], 27, &[place, not_all]);
    assert!(!sorts(&left_out) && !sorts(&exchanged[..at(5) + 9]));
    // what comes first in the file is told
    let mut both = exchanged.clone();
    both[at(1) + 2] = 0;
    explained(&both, 24, &["layer z = 0 comes in the record from byte 7 and again in the one from byte 298, byte 300"]);
}

#[test]
fn explain_finds_the_patch() {
    let after = |records: &[&[u8]]| [&sphere()[..], &records.concat()].concat();
    let (good, cut) = (patch(1727, 5), "cut the file after its first");
    let short = "patch record 1 begins at byte 3499 and has 8 bytes, but 3 are left. The file has 3502 bytes.";
    explained(&after(&[&[0; 3]]), 21, &[short, cut]);
    explained(&after(&[&good, &good, &good[..7]]), 21, &["patch record 3 begins at byte 3515 and has 8 bytes, but 7 are left", cut]);
    explained(&after(&[&[0; 8]]), 22, &["patch record 1 begins at byte 3499 with 00 00 hex, and 56 50 hex is due", "first 3499 bytes"]);
    let thirteenth = &sphere()[7..7 + RECORD];
    explained(&after(&[thirteenth]), 22, &["byte 3499 with 56 4C hex, and 56 50 hex is due", "the third side, byte 4, is right"]);
    let beyond = "patch record 2 begins at byte 3507: bytes 3509 to 3512 say index 1728, and a grid of 12 x 12 x 12 voxels has";
    explained(&after(&[&good, &patch(1728, 5), &good]), 5, &[beyond, "indices 0 to 1727.", "has index x + 12 (y + 12 z)"]);
    explained(&after(&[&patch(u32::MAX, 5)]), 5, &["say index 4294967295,"]);
    // a layer that came before is told even where all that follows is right
    let mut twice = after(&[&good]);
    twice[7 + RECORD + 2] = 0;
    explained(&twice, 24, &["layer z = 0 comes in the record from byte 7"]);
}

/// The byte of a patched value is that of its last patch.
#[test]
fn explain_finds_the_patched_voxel() {
    let body = common::grid_file([4, 4, 3], 0, |x, y, z| if (x, y, z) == (2, 1, 1) { -7 } else { 6 });
    let edge = [&body[..], &patch(43, -9), &patch(22, -8), &patch(43, -10), &patch(1, 5)].concat();
    let byte = body.len() + 2 * 8 + 6;
    assert_eq!(i16::from_le_bytes([edge[byte], edge[byte + 1]]), -10);
    explained(&edge, 3, &[&format!("The first is voxel (3, 2, 2), index 43, with -10: byte {byte}, in patch record 3.")]);
    let none = [&body[..], &patch(22, 1)].concat();
    explained(&none, 4, &[&format!("the least is at voxel (2, 1, 1), index 22, with 1: byte {}, in patch record 1.", body.len() + 6)]);
    let page = text(&wattle_on(&["page", "-"], &edge).stdout);
    assert!(page.contains(&format!("byte {byte}, in patch record 3.")), "the page says it too");
}

#[test]
fn explain_counts_patches() {
    let told = |patches: &[[u8; 8]]| text(&wattle_on(&["explain", "-"], &[&sphere()[..], &patches.concat()].concat()).stdout);
    assert!(!told(&[]).contains("patch"));
    assert!(told(&[patch(0, 9)]).contains("- 1 patch corrects 1 value of the layers.\n"), "{}", told(&[patch(0, 9)]));
    assert!(told(&[patch(0, 9), patch(1, 9), patch(0, 8)]).contains("- 3 patches correct 2 values of the layers.\n"));
}

#[test]
fn explain_finds_the_voxel() {
    let inner = |x: usize, y: usize, z: usize| if (x, y, z) == (2, 1, 1) { -7 } else { 6 };
    let edge = |x: usize, y: usize, z: usize| if (x, y, z) == (3, 2, 2) { -9 } else { inner(x, y, z) };
    let file = common::grid_file([4, 4, 3], 0, edge);
    let byte = 7 + 2 * (3 + 2 * 16) + 3 + 2 * (3 + 4 * 2);
    assert_eq!(i16::from_le_bytes([file[byte], file[byte + 1]]), -9);
    let place = format!("1 negative voxel lies on the grid's edge (1 at x = 3, 1 at z = 2). The first is voxel (3, 2, 2), index 43, with -9: byte {byte}, in layer z = 2");
    explained(&file, 3, &[&place]);
    let none = common::grid_file([4, 4, 3], 0, |x, y, z| if inner(x, y, z) < 0 { 0 } else { i16::MIN });
    explained(&none, 4, &["47 of 48 values are missing; the least is at voxel (2, 1, 1), index 22, with 0"]);
    explained(&common::grid_file([3, 3, 3], 0, |_, _, _| i16::MIN), 4, &["all 27 values are missing"]);
}

#[test]
fn damaged_files_get_the_programs_line() {
    let program = root().join("target/bin/carve");
    if !program.exists() {
        common::left_out("damaged files were not compared with the program, which is not built");
    }
    let (mut seed, mut numbers) = (Seed(5), std::collections::BTreeSet::new());
    for _ in 0..400 {
        let file = damaged(&mut seed);
        let carve = wattle_on(&["carve", "-"], &file);
        let line = text(&carve.stdout);
        let number = line.strip_prefix("refused ").map(|n| n.trim_end().to_string());
        assert_eq!((status(&carve), carve.stderr.len()), (i32::from(number.is_some()), 0));
        if program.exists() {
            assert_eq!(line, text(&fed(&mut Command::new(&program), &file).stdout));
        }
        let explain = wattle_on(&["explain", "-"], &file);
        let told = text(&explain.stdout);
        // the program refuses a side over 24, which the library takes, so explain may know a later reason
        match (&number, status(&explain)) {
            (None, 0) => assert!(told.contains(&line), "{told}"),
            (Some(n), 0 | 1) if n == "1" => {}
            (Some(n), 1) => assert!(told.starts_with(&format!("the standard input is refused {n}: ")), "{line}{told}"),
            other => panic!("{other:?}: {line}{told}"),
        }
        numbers.extend(number);
    }
    assert!(["1", "5", "21", "22", "23", "24", "27"].iter().all(|n| numbers.contains(*n)), "the damage is of many kinds: {numbers:?}");
    assert!(!numbers.contains("25"), "no file was over 65,536 bytes");
}

#[test]
fn the_programs_limit() {
    let large = |side: usize| common::grid_file([side, 5, 5], 0, common::sphere([side, 5, 5], 1.2));
    let run = |words: &[&str], side| {
        let output = wattle_on(words, &large(side));
        (status(&output), text(&output.stdout))
    };
    assert_eq!(run(&["carve", "-"], 24).0, 0);
    assert_eq!(run(&["carve", "-"], 25), (1, "refused 1\n".to_string()));
    let note = "wattle: note: the program takes 24 voxels a side at most; the library takes 64, and so does `wattle carve --large`\n";
    assert_eq!(text(&wattle_on(&["carve", "-"], &large(25)).stderr), note);
    assert_eq!(text(&wattle_on(&["carve", "--large", "-"], &large(25)).stderr), "");
    let (ended, line) = run(&["carve", "--large", "-"], 25);
    assert!(ended == 0 && line.starts_with("kept "), "{line}");
    let (ended, told) = run(&["explain", "-"], 64);
    assert!(ended == 0 && told.contains("The program carve prints `refused 1` for it"), "{told}");
    assert!(run(&["look", "-"], 64).1.contains("z = 4"));
    // the longest files without patches, narrow and wide, and one byte more
    let folder = common::folder("longest");
    let sphere = common::sphere([64, 64, 64], 3.0);
    let all: Vec<usize> = (0..64).collect();
    let mut file = common::wide_file([64, 64, 64], 0, &all, |x, y, z| 100_000 * i32::from(sphere(x, y, z)));
    assert_eq!(file.len(), wattlerugby::LONGEST_FILE);
    assert_eq!(text(&wattle_on(&["carve", "-"], &file).stdout), "refused 25\n");
    assert!(text(&wattle_on(&["carve", "--large", "-"], &file).stdout).starts_with("kept "));
    file.push(0);
    assert_eq!(text(&wattle_on(&["carve", "--large", "-"], &file).stdout), "refused 21\n");
    let mut file = common::grid_file([64, 64, 64], 0, sphere);
    for (name, number) in [("whole", 0), ("longer", 1)] {
        let grid = folder.join(name);
        std::fs::write(&grid, &file).unwrap();
        let outputs = [wattle(&["carve", "--large", path(&grid)]), wattle_on(&["carve", "--large", "-"], &file)];
        for output in outputs {
            assert_eq!((status(&output), text(&output.stdout) == "refused 21\n"), (number, number == 1));
        }
        assert_eq!(text(&wattle(&["carve", path(&grid)]).stdout), "refused 25\n");
        file.push(0);
    }
    // the mark comes before the sides, and the sides before the layers
    let mut file = large(25);
    file[7] = 0;
    let output = wattle_on(&["carve", "-"], &file);
    assert_eq!((text(&output.stdout).as_str(), text(&output.stderr).as_str()), ("refused 1\n", ""), "--large would not take it");
    file[0] = 0;
    assert_eq!(text(&wattle_on(&["carve", "-"], &file).stdout), "refused 22\n");
    assert_eq!(text(&wattle_on(&["carve", "-"], &large(25)[..6]).stdout), "refused 21\n");
}

/// Input over 65,536 bytes is 25 before all else, for `carve` as for the program, and nothing to the other commands.
#[test]
fn the_programs_limit_on_bytes() {
    let program = root().join("target/bin/carve");
    let line = |file: &[u8]| {
        let line = text(&wattle_on(&["carve", "-"], file).stdout);
        if program.exists() {
            assert_eq!(line, text(&fed(&mut Command::new(&program), file).stdout), "{} bytes", file.len());
        }
        line
    };
    // 7754 patches and 5 bytes fit behind the sphere
    let patched = |patches: usize| [&sphere()[..], &patch(0, 99).repeat(patches)].concat();
    let (most, over) = (patched(7754), patched(7755));
    assert_eq!((most.len(), over.len()), (65_531, 65_539));
    let due = line(&patched(1));
    assert!(due.starts_with("kept 296 "), "{due}");
    assert_eq!((line(&most), line(&over).as_str()), (due.clone(), "refused 25\n"));
    assert_eq!(line(&[&most[..], &[0; 5]].concat()), "refused 21\n");
    assert_eq!(line(&[&most[..], &[0; 6]].concat()), "refused 25\n");
    assert_eq!((line(&[0; 65_536]).as_str(), line(&[0; 65_537]).as_str()), ("refused 22\n", "refused 25\n"));

    assert_eq!(text(&wattle_on(&["carve", "--large", "-"], &over).stdout), due);
    let note =
        "wattle: note: the program takes input of 65536 bytes at most; the library takes any length, and so does `wattle carve --large`\n";
    assert_eq!(text(&wattle_on(&["carve", "-"], &over).stderr), note);
    assert_eq!(text(&wattle_on(&["carve", "-"], &[0; 65_537]).stderr), "", "it is no grid");
    let on_the_edge = common::grid_file([25, 5, 5], 0, |x, _, _| if x == 0 { -1 } else { 1 });
    assert_eq!(text(&wattle_on(&["carve", "-"], &on_the_edge).stderr), "", "the library refuses it too");
    let sentence = "prints `refused 25` for it, since it takes input of 65536 bytes at most; the library takes any length.\n";
    let explain = |file: &[u8]| text(&wattle_on(&["explain", "-"], file).stdout);
    assert!(explain(&over).ends_with(&format!("\n- The program carve {sentence}")), "{}", explain(&over));
    assert!(!explain(&most).contains("The program"), "{}", explain(&most));
    let refused = explain(&[0; 65_537]);
    assert!(refused.starts_with("the standard input is refused 22"), "{refused}");
    assert!(refused.ends_with(&format!("\nThe program carve {sentence}")), "{refused}");
}

/// What is no grid file is not read to its end, which may never come. The least memory that a broken tool would fail with is 1 GB.
#[test]
fn endless_input_comes_to_an_end() {
    let exchanged = common::folder("endless").join("exchanged.grid");
    let (header, first, second, rest) = (0..7, 7..7 + RECORD, 7 + RECORD..7 + 2 * RECORD, 7 + 2 * RECORD..);
    std::fs::write(&exchanged, [&sphere()[header], &sphere()[second], &sphere()[first], &sphere()[rest]].concat()).unwrap();
    let told = |line: &str| {
        let words = ["-c", line, env!("CARGO_BIN_EXE_wattle"), path(&sample("sphere.grid")), path(&exchanged)].map(str::to_string);
        let output = Command::new("sh").args(words).output().expect("sh runs");
        text(&output.stdout) + &text(&output.stderr)
    };
    assert_eq!(told("ulimit -v 1000000; \"$0\" carve --large /dev/zero"), "refused 22\n");
    assert_eq!(told("cat \"$1\" /dev/zero | (ulimit -v 1000000; \"$0\" carve --large -)"), "refused 22\n");
    assert_eq!(told("cat \"$2\" /dev/zero | (ulimit -v 1000000; \"$0\" carve --large -)"), "refused 27\n");
    let sorted = told("cat \"$2\" /dev/zero | (ulimit -v 1000000; \"$0\" rewrite --sort -)");
    assert!(sorted.starts_with("wattle: the standard input: refused 22: "), "{sorted}");
}

/// Before every 0A a 0D: what a transfer as text makes of a file.
fn as_text(file: &[u8]) -> Vec<u8> {
    file.iter().flat_map(|&byte| if byte == b'\n' { vec![b'\r', byte] } else { vec![byte] }).collect()
}

#[test]
fn explain_names_a_transfer_as_text() {
    // a side of 10 is a 0A in the header, and layer z = 10 has one too
    let block = common::grid_file([10, 5, 12], 0, |x, y, z| if [x, y, z] == [4, 2, 5] { -10 } else { 3338 });
    for (name, file) in common::samples()
        .iter()
        .map(|path| (path.display().to_string(), std::fs::read(path).unwrap()))
        .chain([("block".to_string(), block)])
    {
        let (sent, first) = (as_text(&file), file.iter().position(|&byte| byte == b'\n'));
        let output = wattle_on(&["explain", "-"], &sent);
        let told = text(&output.stdout);
        let Some(first) = first else {
            assert!(sent == file && !told.contains("transfer"), "{name}");
            continue;
        };
        let count = sent.len() - file.len();
        let place = format!("\nWhere: the file was changed by a transfer as text: a byte 0D was put before each byte 0A, the first as byte {first}, {count} in all. Without them it is a grid file.\n");
        assert_eq!(status(&output), 1, "{name}: {told}");
        assert!(
            told.contains(&place) && told.contains("\nWhat to do: send or copy the file again as it is, in binary.\n"),
            "{name}: {told}"
        );
        // with one of them taken out, or the end cut off, it is another damage
        let mut other = sent.clone();
        other.remove(first);
        assert!(!text(&wattle_on(&["explain", "-"], &other).stdout).contains("transfer"), "{name}");
        assert!(!text(&wattle_on(&["explain", "-"], &sent[..sent.len() - 1]).stdout).contains("transfer"), "{name}");
    }
    // a file that is read is what it is, whatever its bytes
    let good = common::grid_file([5, 5, 3], 0, |x, y, z| if [x, y, z] == [2, 2, 1] { -1 } else { 0x0A0D });
    assert_eq!(status(&wattle_on(&["explain", "-"], &good)), 0);
}

// ---- words and files

/// One line on the standard error, nothing on the standard output.
fn one_line(words: &[&str], ended: i32, part: &str) {
    let output = wattle(words);
    let line = text(&output.stderr);
    assert_eq!((status(&output), text(&output.stdout).as_str()), (ended, ""), "{words:?}: {line}");
    assert!(line.starts_with("wattle: ") && line.lines().count() == 1 && line.contains(part), "{words:?}: {line}");
}

#[test]
fn wrong_words_get_one_line() {
    let (good, refused) = (sample("sphere.grid"), sample("refused.grid"));
    let (good, refused) = (path(&good), path(&refused));
    one_line(&[], 2, "no command is given");
    one_line(&["loook", good], 2, "there is no command loook");
    one_line(&["look"], 2, "look takes one file, not 0");
    one_line(&["compare", good], 2, "compare takes two files, not 1");
    one_line(&["look", good, "--ply"], 2, "look has no option --ply");
    one_line(&["look", good, "--layer"], 2, "--layer needs a word");
    one_line(&["look", good, "--layer", "12"], 2, "--layer takes a number from 0 to 11, not 12");
    for word in ["12-12", "3-2", "4", "-4", "1-2-3", "a-b", ""] {
        one_line(&["look", good, "--layers", word], 2, "--layers takes A-B, two layers from 0 to 11 with A not above B");
    }
    one_line(&["look", good, "--layers", "1-2", "--layer", "1"], 2, "--layer and --layers are given; choose one");
    one_line(&["look", good, "--png", "--scale", "x"], 2, "--scale takes a number from 1 to 32, not x");
    one_line(&["points", good, "--ply", "--xyz"], 2, "choose one");
    one_line(&["carve"], 2, "carve takes one file or more, not 0");
    one_line(&["look", "--", good, good], 2, "look takes one file, not 2");
    one_line(&["look", "--", "--png"], 2, "--png cannot be read");
    for (command, endings) in [("look", ".txt or .png"), ("points", ".ply or .xyz"), ("volume", ".vtk or .nrrd"), ("list", ".csv or .json")]
    {
        let line = format!("the ending of x.gif is not known: {command} writes {endings}");
        one_line(&[command, good, "-o", "x.gif"], 2, &line);
    }
    one_line(&["volume", good, "--field", "colour"], 2, "there is no field colour");
    one_line(&["look", "/no/such.grid"], 2, "/no/such.grid cannot be read");
    one_line(&["look", path(&root())], 2, "cannot be read");
    one_line(&["compare", good, path(&root().join("README.md"))], 2, "refused 22");
    for command in ["look", "points", "volume", "page", "rewrite"] {
        one_line(&[command, path(&root().join("README.md"))], 1, "refused 22");
    }
    one_line(&["points", refused], 1, "refused 3");
    one_line(&["volume", refused], 1, "refused 3");
}

#[test]
fn nothing_is_overwritten_unasked() {
    let folder = common::folder("overwrite");
    let (grid, out) = (folder.join("sphere.grid"), folder.join("out"));
    std::fs::copy(sample("sphere.grid"), &grid).unwrap();
    for command in ["look", "explain", "points", "volume", "page", "patch --set 0=9", "rewrite", "carve", "list", "shaky --all 1"] {
        let words: Vec<&str> = command.split(' ').chain([path(&grid)]).collect();
        std::fs::write(&out, "mine").unwrap();
        one_line(&[&words[..], &["-o", path(&out)]].concat(), 2, "--force overwrites it");
        assert_eq!(std::fs::read(&out).unwrap(), b"mine");
        let done = wattle(&[&words[..], &["--force", "-o", path(&out)]].concat());
        assert_eq!((status(&done), done.stdout.len()), (0, 0));
        assert!(std::fs::read(&out).unwrap() == wattle(&words).stdout, "{command}");
        one_line(&[&words[..], &["--force", "-o", path(&folder.join("./sphere.grid"))]].concat(), 2, "is the file that is read");
        assert_eq!(std::fs::read(&grid).unwrap(), sphere());
    }
    one_line(&["look", path(&grid), "-o", path(&folder.join("none/out"))], 2, "cannot be written");
    one_line(&["look", path(&grid), "--force", "-o", "/dev/full"], 2, "cannot be written");
    assert_eq!(wattle(&["carve", path(&grid), "-o", "-"]).stdout, wattle(&["carve", path(&grid)]).stdout);
    // a link that leads nowhere is there, and what it names is not made
    std::os::unix::fs::symlink(folder.join("elsewhere"), folder.join("link")).unwrap();
    one_line(&["carve", path(&grid), "-o", path(&folder.join("link"))], 2, "--force overwrites it");
    assert!(!folder.join("elsewhere").exists());
    // the output is looked at before the work
    one_line(&["points", path(&sample("refused.grid")), "-o", path(&out)], 2, "--force overwrites it");
    // a refused grid leaves no file behind
    one_line(&["points", path(&sample("refused.grid")), "-o", path(&folder.join("points.ply"))], 1, "refused 3");
    assert!(!folder.join("points.ply").exists());
}

/// The ending of the output decides, and a word after -- is a file whatever it looks like.
#[test]
fn endings_and_dashes() {
    let folder = common::folder("endings");
    let grid = sample("torus-1.grid");
    let written = |name: &str, more: &[&str]| {
        let out = folder.join(name);
        assert_eq!(status(&wattle(&[&["look", path(&grid), "-o", path(&out)], more].concat())), 0, "{name}");
        std::fs::read(out).unwrap()
    };
    let (picture, layers) = (wattle(&["look", "--png", path(&grid)]).stdout, wattle(&["look", path(&grid)]).stdout);
    assert!(written("a.png", &[]) == picture && written("a.PNG", &[]) == picture && written("a.gif", &["--png"]) == picture);
    assert!(written("a.txt", &[]) == layers && written("layers", &[]) == layers);
    std::fs::copy(&grid, folder.join("--png")).unwrap();
    let mut command = Command::new(env!("CARGO_BIN_EXE_wattle"));
    let output = command.args(["carve", "--large", "--", "--png"]).current_dir(&folder).output().unwrap();
    assert_eq!((status(&output), output.stdout), (0, wattle(&["carve", path(&grid)]).stdout));
}

/// A reader that has seen enough is no failure; a full disk is one.
#[test]
fn the_standard_output_may_end_early() {
    let folder = common::folder("early");
    let grid = folder.join("large.grid");
    std::fs::write(&grid, common::grid_file([64, 64, 64], 0, common::sphere([64, 64, 64], 9.0))).unwrap();
    let volume = |out: Stdio| {
        let mut command = Command::new(env!("CARGO_BIN_EXE_wattle"));
        command.args(["volume", path(&grid)]).stdout(out).stderr(Stdio::piped()).spawn().expect("wattle starts")
    };
    let mut enough = volume(Stdio::piped());
    let mut first = [0; 5];
    enough.stdout.take().unwrap().read_exact(&mut first).unwrap();
    let enough = enough.wait_with_output().unwrap();
    assert_eq!((&first, status(&enough), text(&enough.stderr).as_str()), (b"# vtk", 0, ""));
    let full = volume(Stdio::from(std::fs::OpenOptions::new().write(true).open("/dev/full").unwrap())).wait_with_output().unwrap();
    assert!(status(&full) == 2 && text(&full.stderr).contains("the standard output cannot be written"), "{}", text(&full.stderr));
}

#[test]
fn help_names_every_command_and_option() {
    let overview = text(&wattle(&["help"]).stdout);
    for command in
        ["look", "explain", "list", "points", "volume", "compare", "shaky", "page", "make", "practice", "patch", "rewrite", "carve"]
    {
        assert!(overview.contains(&format!("  wattle {command} ")), "{overview}");
        let help = text(&wattle(&["help", command]).stdout);
        assert!(help.starts_with(&format!("wattle {command} ")), "{help}");
        assert_eq!(help, text(&wattle(&[command, "--help"]).stdout));
    }
    for (command, option) in [
        ("look", "--layer"),
        ("look", "--layers"),
        ("points", "--xyz"),
        ("volume", "--field"),
        ("rewrite", "--sort"),
        ("rewrite", "--set"),
        ("make", "--shape"),
        ("shaky", "--all"),
        ("carve", "--large"),
    ] {
        let help = text(&wattle(&["help", command]).stdout);
        assert!(help.contains(&format!("\n  {option} ")), "{option} is not in {help}");
    }
    for command in ["look", "explain", "list", "points", "volume", "shaky", "page", "make", "practice", "rewrite", "carve"] {
        let help = text(&wattle(&["help", command]).stdout);
        assert!(help.contains(" [--openings N] ") && help.contains("\n  --openings N    allow N openings"), "{help}");
        assert!(help.lines().all(|line| line.chars().count() <= 140), "{help}");
    }
    assert_eq!(text(&wattle(&["--version"]).stdout), concat!("wattle ", env!("CARGO_PKG_VERSION"), "\n"));
    assert_eq!(wattle(&["-V"]).stdout, wattle(&["--version"]).stdout);
}

/// A large grid full of holes takes long: its progress is shown on a terminal, which `script` makes, and nowhere else.
#[test]
fn progress_is_for_terminals() {
    let folder = common::folder("progress");
    let (grid, out) = (folder.join("large.grid"), folder.join("points.xyz"));
    std::fs::write(&grid, common::grid_file([64, 64, 64], 1000, sponge)).unwrap();
    let words = ["points", path(&grid), "--force", "-o", path(&out)];
    let output = wattle(&words);
    assert_eq!((status(&output), output.stderr.len(), output.stdout.len()), (0, 0, 0));
    assert!(std::fs::read_to_string(&out).unwrap().lines().count() > 5000);
    let line = format!("{} {}", env!("CARGO_BIN_EXE_wattle"), words.join(" "));
    let Ok(shown) = Command::new("script").args(["-qec", &line, "/dev/null"]).stdin(Stdio::null()).output() else {
        return common::left_out("progress was not looked at, since `script` is not there");
    };
    let shown = text(&shown.stdout);
    assert!(shown.contains("carving: opened ") && shown.contains(" of 1000 allowed"), "{shown}");
    assert!(shown.ends_with("\r\u{1b}[K"), "the line is cleared at the end: {shown:?}");
}

/// Three voxels in ten are negative, none of them on the grid's edge.
fn sponge(x: usize, y: usize, z: usize) -> i16 {
    let mixed = ((x + 64 * (y + 64 * z)) as u64 + 1).wrapping_mul(0x9E37_79B9_7F4A_7C15);
    let mixed = (mixed ^ (mixed >> 29)).wrapping_mul(0xBF58_476D_1CE4_E5B9) >> 32;
    let size = (mixed & 0xFF) as i16;
    if mixed >> 8 & 0xFF < 77 && [x, y, z].iter().all(|v| (1..63).contains(v)) {
        -1 - size
    } else {
        size
    }
}
