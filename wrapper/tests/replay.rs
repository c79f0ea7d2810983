//! The replay tool's `program`: its limit on the input's length, and what decides below that.

use std::io::Write;
use std::process::{Command, Stdio};
use wattlerugby::{patch, written, Sides};

/// What replay prints for a script of one file and `program`.
fn program(file: &[u8]) -> String {
    let digits: String = file.iter().map(|byte| format!("{byte:02X}")).collect();
    let mut replay =
        Command::new(env!("CARGO_BIN_EXE_replay")).stdin(Stdio::piped()).stdout(Stdio::piped()).spawn().expect("replay starts");
    let mut script = replay.stdin.take().expect("an input");
    script.write_all(format!("file {digits}\nprogram\n").as_bytes()).expect("replay reads its script");
    drop(script);
    let out = replay.wait_with_output().expect("replay ends");
    assert!(out.status.success());
    String::from_utf8(out.stdout).expect("text").trim_end().to_string()
}

/// Document 01's case D, with the same patch so often that the file has 65,536 bytes: the two patched values are those of its layers.
fn longest() -> Vec<u8> {
    let mut values = [6; 48];
    (values[21], values[26]) = (-6, -6);
    let file = written(Sides { a: 4, b: 4, c: 3 }, 0, &values).expect("fit sides");
    let patches = (65_536 - file.len()) / 8;
    let file = [file, patch(21, -6).repeat(patches)].concat();
    assert_eq!(file.len(), 65_536);
    file
}

#[test]
fn input_over_65536_bytes_is_refused_first() {
    let longest = longest();
    assert_eq!(program(&longest), "kept 2 removed 2 opened 0 examined 2 euler 1");
    assert_eq!(program(&[&longest[..], &patch(21, -6)].concat()), "refused 25");
    assert_eq!(program(&[&longest[..], &[0]].concat()), "refused 25");
    // before any other check: of the header's mark, of its sides, of a patch
    for at in [0, 2, 4, 7, 65_528] {
        let mut file = longest.clone();
        file[at] = 200;
        let refused = program(&file);
        assert!(["refused 22", "refused 1"].contains(&refused.as_str()), "byte {at}: {refused}");
        file.push(0);
        assert_eq!(program(&file), "refused 25", "byte {at}");
    }
}

#[test]
fn shorter_input_is_never_refused_with_25() {
    let longest = longest();
    assert_eq!(program(&longest[..65_535]), "refused 21");
    assert_eq!(program(&longest[..113]), "refused 21");
    assert_eq!(program(&[&longest[..112], &[0; 8]].concat()), "refused 22");
    assert_eq!(program(&[&longest[..112], &patch(48, 0)].concat()), "refused 5");
    assert_eq!(program(&[&longest[..112], &patch(21, 6), &patch(26, 6)].concat()), "refused 4");
    assert_eq!(program(&[&longest[..112], &patch(0, -1)].concat()), "refused 3");
    assert_eq!(program(&[&longest[..112], &patch(22, -6)].concat()), "kept 3 removed 1 opened 0 examined 1 euler 1");
}

/// Layers out of order are 27, before what follows them and after the input's length.
#[test]
fn layers_out_of_order() {
    let mut file = longest();
    let (first, second) = (7..42, 42..77);
    let layers = [&file[second], &file[first]].concat();
    file[7..77].copy_from_slice(&layers);
    for end in [112, 113, 120, 65_536] {
        assert_eq!(program(&file[..end]), "refused 27", "{end} bytes");
    }
    file.push(0);
    assert_eq!(program(&file), "refused 25");
}

/// Both widths in one file, and a value out of range: 28, before what follows it and after the input's length.
#[test]
fn wide_layers() {
    let narrow = longest();
    let wide = |z: u8, value: i32| [&[0x56, 0x57, z][..], &value.to_le_bytes().repeat(16)].concat();
    let file = |value: i32| [&narrow[..77], &wide(2, value)[..]].concat();
    assert_eq!(program(&file(1_000_000_000)), "kept 2 removed 2 opened 0 examined 2 euler 1");
    assert_eq!([program(&file(-32_768)), program(&file(i32::MIN))], ["refused 3", "kept 2 removed 2 opened 0 examined 2 euler 1"]);
    let bad = file(1_000_000_001);
    for rest in [&[][..], &[0], &patch(32, 6), &patch(48, 6)] {
        assert_eq!(program(&[&bad[..], rest].concat()), "refused 28", "{rest:02X?}");
    }
    assert_eq!(program(&[&bad[..], &vec![0; 65_537 - bad.len()]].concat()), "refused 25");
    assert_eq!(program(&bad[..bad.len() - 1]), "refused 21");
}

/// A side over 24 is 1 in its place, whatever the patches are.
#[test]
fn a_side_over_24() {
    let sides = Sides { a: 25, b: 4, c: 3 };
    let file = written(sides, 0, &[6; 300]).expect("fit sides");
    assert_eq!(program(&[&file[..], &[0; 8]].concat()), "refused 1");
    let large = written(Sides { a: 64, b: 64, c: 8 }, 0, &vec![6; 64 * 64 * 8]).expect("fit sides");
    assert_eq!((large.len(), program(&large).as_str()), (7 + 8 * 8195, "refused 25"));
}
