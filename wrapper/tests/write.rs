//! Grid files out: their bytes, what is refused, and that what is written reads as what it was made from. Files with patches among them:
//! patches.rs has more of those.

use std::collections::BTreeSet;
use std::path::{Path, PathBuf};
use wattlerugby::{read, read_layer, widened, write, written, written_length, Refusal, Sides, MISSING, NARROW, WIDE};

const SIDES: Sides = Sides { a: 3, b: 4, c: 5 };
const N: usize = 60;
const LENGTH: usize = 7 + 5 * (3 + 2 * 12);

// ---- the bytes

#[test]
fn every_byte_of_unequal_sides() {
    let mut values: Vec<i32> = (0..60).collect();
    (values[0], values[1], values[2], values[12], values[59]) = (MISSING, -1, 258, 32_767, -2);
    let bytes = |i: usize| match i {
        0 => [0x00, 0x80],
        1 => [0xFF, 0xFF],
        2 => [0x02, 0x01],
        12 => [0xFF, 0x7F],
        59 => [0xFE, 0xFF],
        _ => [i as u8, 0x00],
    };
    let mut wanted = vec![0x56, 0x48, 0x03, 0x04, 0x05, 0xCD, 0xAB];
    for z in 0..5usize {
        wanted.extend([0x56, 0x4C, z as u8]);
        wanted.extend((12 * z..12 * z + 12).flat_map(bytes));
    }
    assert_eq!(written(SIDES, 0xABCD, &values), Ok(wanted));
}

#[test]
fn every_value_and_every_t() {
    let low_and_high = |word: u16| [(word % 256) as u8, (word / 256) as u8];
    let values: Vec<i32> = (0..=u16::MAX).map(|word| widened(word as i16)).collect();
    let file = written(Sides { a: 64, b: 64, c: 16 }, 0, &values).expect("fit sides");
    let stored: Vec<u8> = file[7..].chunks(3 + 2 * 64 * 64).flat_map(|record| record[3..].to_vec()).collect();
    assert!(stored == (0..=u16::MAX).flat_map(low_and_high).collect::<Vec<u8>>());
    let mut file = [0; LENGTH];
    for allowed in 0..=u16::MAX {
        assert_eq!(write(SIDES, allowed, &[0; N], &mut file), Ok(LENGTH));
        assert_eq!(file[5..7], low_and_high(allowed));
    }
}

// ---- what is refused, and what stays as it was

/// Writes sevens into a part of a larger buffer, whose bytes are over 127 and so none of the file's; the answer, and which bytes changed.
fn changed(sides: Sides, values: usize, room: usize) -> (Result<usize, Refusal>, Vec<usize>) {
    const BEFORE: usize = 5;
    let clean: Vec<u8> = (0..LENGTH + 20).map(|i| 0x80 | i as u8).collect();
    let mut buffer = clean.clone();
    let answer = write(sides, 0, &vec![7; values], &mut buffer[BEFORE..BEFORE + room]);
    let differ = |&i: &usize| buffer[i] != clean[i];
    (answer, (0..clean.len()).filter(differ).map(|i| i.wrapping_sub(BEFORE)).collect())
}

#[test]
fn a_refused_call_writes_nothing() {
    let unfit = [0, 1, 2, 65, 255, 256 + 3, (1 << 32) + 3, usize::MAX];
    let sides = unfit.into_iter().flat_map(|s| [Sides { a: s, ..SIDES }, Sides { b: s, ..SIDES }, Sides { c: s, ..SIDES }]);
    let mut refused: Vec<(Sides, usize, usize, Refusal)> = Vec::new();
    for sides in sides {
        // 1 comes before 2 and 26
        refused.extend([(N, LENGTH), (N, 0), (0, LENGTH), (0, 0)].map(|(values, room)| (sides, values, room, Refusal::SIDE)));
    }
    for values in [0, 1, N - 1, N + 1, 2 * N] {
        // 2 comes before 26
        refused.extend([0, LENGTH - 1, LENGTH, LENGTH + 9].map(|room| (SIDES, values, room, Refusal::LENGTH)));
    }
    refused.extend((0..LENGTH).map(|room| (SIDES, N, room, Refusal::ROOM)));
    for (sides, values, room, number) in refused {
        assert_eq!(changed(sides, values, room), (Err(number), vec![]), "{sides:?}, {values} values, room for {room}");
    }
}

#[test]
fn bytes_past_the_length_stay() {
    let all: Vec<usize> = (0..LENGTH).collect();
    for room in [LENGTH, LENGTH + 1, LENGTH + 15] {
        assert_eq!(changed(SIDES, N, room), (Ok(LENGTH), all.clone()), "room for {room}");
    }
}

#[test]
fn a_vector_is_as_long_as_its_file() {
    assert_eq!(written(SIDES, 0, &[0; N]).map(|file| file.len()), Ok(LENGTH));
    assert_eq!((written_length(SIDES, NARROW), written_length(SIDES, WIDE)), (Some(LENGTH), Some(LENGTH + 2 * N)));
    assert_eq!(written(SIDES, 0, &[32_768; N]).map(|file| file.len()), Ok(LENGTH + 2 * N));
    assert_eq!(written(SIDES, 0, &[0; N + 1]), Err(Refusal::LENGTH));
    assert_eq!(written(Sides { c: usize::MAX, ..SIDES }, 0, &[0; N]), Err(Refusal::SIDE));
}

// ---- files that read takes

fn listed(folder: &str, ending: &str) -> Vec<PathBuf> {
    let folder = Path::new(env!("CARGO_MANIFEST_DIR")).join("..").join(folder);
    let entries = std::fs::read_dir(&folder).unwrap_or_else(|e| panic!("{} cannot be listed: {e}", folder.display()));
    entries.map(|entry| entry.expect("an entry").path()).filter(|path| path.extension().is_some_and(|end| end == ending)).collect()
}

/// A grid: sides, T and values.
type Taken = (Sides, u16, Vec<i32>);

fn taken(file: &[u8]) -> Result<Taken, Refusal> {
    let side = |i: usize| file.get(i).map_or(0, |&s| usize::from(s));
    let mut values = vec![0; Sides { a: side(2), b: side(3), c: side(4) }.voxels().unwrap_or(0)];
    read(file, &mut values).map(|(sides, allowed)| (sides, allowed, values))
}

/// The values of a good file's layers, with each patch's written over the one that it corrects.
fn values_of(sides: Sides, file: &[u8]) -> Vec<i32> {
    let (mut values, mut at) = (Vec::new(), 7);
    for _ in 0..sides.c {
        let layer = read_layer(sides, file, at).expect("a layer of a good file");
        values.extend(layer.values());
        at = layer.end();
    }
    for patch in file[at..].chunks(8) {
        let index = u32::from_le_bytes([patch[2], patch[3], patch[4], patch[5]]) as usize;
        values[index] = widened(i16::from_le_bytes([patch[6], patch[7]]));
    }
    values
}

/// The written form of a good file: its header, and its values in layers of two bytes each, or of four where one needs them.
fn by_its_bytes(sides: Sides, file: &[u8]) -> Vec<u8> {
    let values = values_of(sides, file);
    let wide = values.iter().any(|&v| v != MISSING && !(-32_767..=32_767).contains(&v));
    let low_first = |v: i32| [v as u8, (v >> 8) as u8, (v >> 16) as u8, (v >> 24) as u8];
    let bytes = |&v: &i32| match (wide, v) {
        (true, _) => low_first(v).to_vec(),
        (false, MISSING) => vec![0x00, 0x80],
        (false, _) => low_first(v)[..2].to_vec(),
    };
    let mut form = file[..7].to_vec();
    for (z, layer) in values.chunks(sides.a * sides.b).enumerate() {
        form.extend([0x56, if wide { 0x57 } else { 0x4C }, z as u8]);
        form.extend(layer.iter().flat_map(bytes));
    }
    form
}

/// What is written of a file that read takes; nothing of another.
fn rewritten(file: &[u8]) -> Option<Vec<u8>> {
    let grid = taken(file).ok()?;
    let (sides, allowed, values) = &grid;
    let again = written(*sides, *allowed, values).expect("a grid that was read");
    assert_eq!(taken(&again).as_ref(), Ok(&grid));
    assert!(again == by_its_bytes(*sides, file), "other bytes than the file's own values");
    Some(again)
}

#[test]
fn samples_are_written_forms_unless_patched() {
    let files = listed("samples", "grid");
    assert!(files.len() >= 6, "the samples are found");
    for path in files {
        let file = std::fs::read(&path).expect("the sample can be read");
        let patched = path.ends_with("patched.grid");
        assert_eq!(rewritten(&file).expect("a sample is a good file") != file, patched, "{}", path.display());
    }
}

/// Every file that the lines `file` and `append` of conformance/ make.
fn files_of_scripts() -> BTreeSet<Vec<u8>> {
    let byte = |digits: &[u8]| u8::from_str_radix(std::str::from_utf8(digits).expect("digits"), 16).expect("hexadecimal");
    let mut found = BTreeSet::new();
    for path in listed("conformance", "script") {
        let mut file = Vec::new();
        for line in std::fs::read_to_string(&path).expect("the script can be read").lines() {
            let mut words = line.split_ascii_whitespace();
            let Some(command) = words.next().filter(|word| ["file", "append"].contains(word)) else { continue };
            if command == "file" {
                file.clear();
            }
            file.extend(words.next().unwrap_or("").as_bytes().chunks(2).map(byte));
            found.insert(file.clone());
        }
    }
    found
}

#[test]
fn files_of_conformance() {
    let files = files_of_scripts();
    let rewritten: Vec<bool> = files.iter().filter_map(|file| rewritten(file).map(|again| again == *file)).collect();
    let in_order = rewritten.iter().filter(|&&same| same).count();
    assert!(in_order >= 10 && rewritten.len() - in_order >= 10, "{in_order} of {} files are written forms", rewritten.len());
}
