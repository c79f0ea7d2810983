//! Values of 32 bits and layers of both widths (document 02, CR 5): what each width holds, where number 28 stands among the others, and which width
//! the writer chooses.

use reference::file::{layer, program_line, read, write};
use reference::grid::{begin, Sides, MISSING};

const SIDES: Sides = Sides { a: 3, b: 4, c: 3 };
const N: usize = 36;
const AREA: usize = 12;
const MOST: i32 = 1_000_000_000;
const BAD: [i32; 6] = [-MOST - 1, MOST + 1, i32::MAX, MISSING + 1, -MOST - 65_536, MOST + 65_536];

/// A layer record, wide or narrow, with 6 everywhere but at one place.
fn record(z: u8, wide: bool, at: usize, value: i32) -> Vec<u8> {
    let values = (0..AREA).map(|i| if i == at { value } else { 6 });
    if wide {
        [&[0x56, 0x57, z][..], &values.flat_map(i32::to_le_bytes).collect::<Vec<u8>>()].concat()
    } else {
        [&[0x56, 0x4C, z][..], &values.flat_map(|v| (v as i16).to_le_bytes()).collect::<Vec<u8>>()].concat()
    }
}

/// Three layers of these widths, the body in the middle of the second.
fn file(wide: [bool; 3]) -> Vec<u8> {
    let layers = [record(0, wide[0], 0, 7), record(1, wide[1], 4, -6), record(2, wide[2], 11, 8)];
    [&[0x56, 0x48, 3, 4, 3, 1, 0][..], &layers.concat()].concat()
}

/// The number for a file from read and from the program, 0 where it is taken, and the values; a refusal writes none.
fn taken(file: &[u8]) -> (u8, Vec<i32>) {
    let mut lent = vec![77; N];
    let number = read(file, &mut lent, 64).err().unwrap_or(0);
    assert_eq!(lent == [77; N], number != 0);
    let line = program_line(file);
    assert_eq!(line.strip_prefix("refused ").map_or(Ok(0), str::parse), Ok(number), "{line}");
    (number, lent)
}

fn number(file: &[u8]) -> u8 {
    taken(file).0
}

#[test]
fn every_mixture_of_widths_reads_the_same() {
    let (_, narrow) = taken(&file([false; 3]));
    assert_eq!([narrow[0], narrow[16], narrow[35], narrow[1]], [7, -6, 8, 6]);
    for mixture in 0..8 {
        assert_eq!(taken(&file([0, 1, 2].map(|z| mixture >> z & 1 == 1))), (0, narrow.clone()));
    }
}

#[test]
fn the_old_mark_is_widened_in_narrow_records_alone() {
    let value = |bytes: Vec<u8>| {
        let mut whole = [&[0x56, 0x48, 3, 4, 3, 1, 0][..], &record(0, false, 0, 6), &record(1, true, 4, -6)].concat();
        whole.extend(bytes);
        let mut lent = [77; N];
        assert_eq!(read(&whole, &mut lent, 64), Ok((SIDES, 1)));
        lent[24 + 5]
    };
    assert_eq!([value(record(2, false, 5, -32_768)), value(record(2, true, 5, -32_768))], [MISSING, -32_768]);
    assert_eq!([value(record(2, true, 5, MISSING)), value(record(2, false, 5, -32_767))], [MISSING, -32_767]);
    let patch = [0x56, 0x50, 29, 0, 0, 0, 0, 0x80];
    assert_eq!(value([&record(2, true, 5, MOST)[..], &patch].concat()), MISSING);
}

#[test]
fn a_record_is_measured_by_its_mark() {
    let (narrow, wide) = (3 + 2 * AREA, 3 + 4 * AREA);
    let found = |file: &[u8], start: usize| layer(&SIDES, file, start as u64).map(|l| (l.z, l.width, l.from, l.to));
    let mixed = file([false, true, false]);
    assert_eq!(found(&mixed, 7), Ok((0, 2, 10, 7 + narrow)));
    assert_eq!(found(&mixed, 7 + narrow), Ok((1, 4, 10 + narrow, 7 + narrow + wide)));
    assert_eq!(found(&mixed, 7 + narrow + wide), Ok((2, 2, 10 + narrow + wide, mixed.len())));
    let cut = |length: usize| found(&mixed[..7 + narrow + length], 7 + narrow);
    for length in 0..wide {
        assert_eq!(cut(length), Err(21), "{length}");
    }
    let mut other = mixed.clone();
    other[7 + narrow + 1] = 0x58;
    assert_eq!([found(&other[..7 + narrow + narrow], 7 + narrow), found(&other[..7 + 2 * narrow - 1], 7 + narrow)], [Err(22), Err(21)]);
    assert_eq!(layer(&SIDES, &mixed, u64::MAX).err(), Some(21));
}

#[test]
fn number_28_is_a_wide_record_s_last_check() {
    for bad in BAD {
        let spoilt = |z: [u8; 3], then: &[u8]| {
            let layers = [record(z[0], true, 4, 6), record(z[1], true, 11, bad), record(z[2], true, 0, bad)];
            number(&[&[0x56, 0x48, 3, 4, 3, 1, 0][..], &layers.concat(), then].concat())
        };
        assert_eq!([spoilt([0, 1, 2], &[]), spoilt([0, 0, 2], &[]), spoilt([0, 2, 1], &[]), spoilt([0, 3, 2], &[])], [28, 24, 27, 23]);
        assert_eq!([spoilt([0, 1, 9], &[]), spoilt([0, 1, 0], &[])], [28, 28]);
        // before the next record is looked at, and before patches, good or bad
        let two = [&[0x56, 0x48, 3, 4, 3, 1, 0][..], &record(0, false, 0, 6), &record(1, true, 3, bad)].concat();
        assert_eq!([number(&two), number(&[&two[..], &[0x56]].concat()), number(&two[..two.len() - 1])], [28, 28, 21]);
        let patch = [0x56, 0x50, 15, 0, 0, 0, 6, 0];
        assert_eq!([number(&[&two[..], &record(2, true, 0, 6), &patch].concat()), spoilt([0, 1, 2], &[0])], [28, 28]);
        // reading a layer has no 28
        assert_eq!(layer(&SIDES, &two, 7 + 3 + 2 * AREA as u64).map(|l| (l.z, l.width)).ok(), Some((1, 4)));
    }
}

#[test]
fn number_28_of_begin_and_of_the_writer_comes_straight_after_2() {
    let numbers = |sides: Sides, values: &[i32]| {
        let begun = begin(sides, 0, values, &[0; N], &mut [0; N], &mut [0; N]).err();
        let written = |room: usize| write(&sides, 0, values, &mut vec![0; room]).err();
        [begun, written(1000), written(0)]
    };
    for bad in BAD {
        for place in [0, 16, 35] {
            let mut values = [6; N];
            values[place] = bad;
            assert_eq!(numbers(SIDES, &values), [Some(28); 3]);
            assert_eq!(numbers(Sides { c: 2, ..SIDES }, &values), [Some(1); 3]);
            assert_eq!(numbers(SIDES, &values[..35]), [Some(2); 3]);
            values[1] = -1;
            assert_eq!(numbers(SIDES, &values), [Some(28); 3]);
        }
    }
    for good in [-MOST, MOST, -32_768, 32_768] {
        let mut values = [6; N];
        (values[16], values[0]) = (-1, good.abs());
        assert_eq!(numbers(SIDES, &values), [None, None, Some(26)]);
    }
}

#[test]
fn the_writer_is_wide_only_where_it_must_be() {
    let (narrow, wide) = (7 + 3 * (3 + 2 * AREA), 7 + 3 * (3 + 4 * AREA));
    let length = |place: usize, value: i32| {
        let mut values = [MISSING; N];
        values[place] = value;
        let mut lent = [0xA5; 200];
        let length = write(&SIDES, 258, &values, &mut lent).expect("it is written");
        let mut again = [77; N];
        assert_eq!(read(&lent[..length], &mut again, 64), Ok((SIDES, 258)));
        assert_eq!(again, values);
        assert!(lent[length..].iter().all(|&byte| byte == 0xA5));
        assert_eq!(write(&SIDES, 258, &values, &mut lent[..length - 1]), Err(26));
        length
    };
    for place in [0, 17, 35] {
        assert_eq!([-32_767, 32_767, 0, MISSING].map(|value| length(place, value)), [narrow; 4]);
        assert_eq!([-32_768, 32_768, -MOST, MOST, 65_536, -65_536].map(|value| length(place, value)), [wide; 6]);
    }
}

/// The greatest worked distances that begin leaves.
#[test]
fn worked_distances_beyond_the_values() {
    let sides = Sides { a: 64, b: 64, c: 64 };
    let mut values = vec![MOST; sides.n()];
    let inside = sides.index([1, 1, 1]).expect("a voxel");
    values[inside] = -MOST;
    let (mut dist, mut status) = (vec![0; sides.n()], vec![0; sides.n()]);
    assert!(begin(sides, 0, &values, &vec![0; sides.n()], &mut dist, &mut status).is_ok());
    assert_eq!((dist[inside], dist[inside + 1], dist[sides.n() - 1]), (-MOST, MOST, MOST + 3 * 62));
}
