//! Layers from the bottom up (document 02, CR 4): numbers 24 and 27 for every order of a file's layers, what comes before them and after them, and
//! reading a layer, to which the order is nothing.

use reference::file::{layer, program_line, read, write};
use reference::grid::Sides;

const SIDES: Sides = Sides { a: 4, b: 3, c: 4 };
const N: usize = 48;
const RECORD: usize = 3 + 2 * 12;

fn start(record: usize) -> usize {
    7 + RECORD * record
}

/// The file of a grid with a body, whose records say these z.
fn file(z: [u8; 4]) -> Vec<u8> {
    let values: Vec<i32> = (0..N as i32).map(|i| if i == 17 { -6 } else { 6 + i }).collect();
    let mut file = vec![0; 7 + 4 * RECORD];
    assert_eq!(write(&SIDES, 1, &values, &mut file), Ok(file.len()));
    (0..4).for_each(|record| file[start(record) + 2] = z[record]);
    file
}

/// The number for a file, from read and from the program; 0 where it is taken. A refusal writes nothing.
fn number(file: &[u8]) -> u8 {
    let mut lent = [77; N];
    let number = read(file, &mut lent, 64).err().unwrap_or(0);
    assert_eq!(lent == [77; N], number != 0);
    let line = program_line(file);
    assert_eq!(line.strip_prefix("refused ").map_or(Ok(0), str::parse), Ok(number), "{line}");
    number
}

/// The first record whose z is not its place in the file decides: a z under that place came before, and one over it is not the next.
#[test]
fn every_order() {
    let mut met = [0; 4];
    for word in 0..5_u32.pow(4) {
        let z = [0, 1, 2, 3].map(|k| (word / 5_u32.pow(k) % 5) as u8);
        let wanted = match (0..4).find(|&k| usize::from(z[k]) != k) {
            None => 0,
            Some(k) if z[k] == 4 => 23,
            Some(k) if usize::from(z[k]) < k => 24,
            Some(_) => 27,
        };
        assert_eq!(number(&file(z)), wanted, "{z:?}");
        met[[0, 23, 24, 27].iter().position(|&n| n == wanted).expect("one of the four")] += 1;
    }
    // 1 file in rising order; of the others as many as the first wrong record leaves open, 5 for each record after it
    assert_eq!(met, [1, 125 + 25 + 5 + 1, 25 + 2 * 5 + 3, 3 * 125 + 2 * 25 + 5]);
}

/// All checks of a record come before those of the next, and 27 is a record's last.
#[test]
fn one_record_before_the_next() {
    let changed = |z: [u8; 4], at: usize, byte: u8| {
        let mut file = file(z);
        file[at] = byte;
        number(&file)
    };
    // in one record
    assert_eq!(changed([1, 0, 2, 3], start(0), 0), 22);
    assert_eq!(changed([0, 1, 9, 2], start(2) + 1, 0), 22);
    assert_eq!(number(&file([0, 2, 1, 3])[..start(2) - 1]), 21);
    // in the next: its length, its mark, its z
    assert_eq!(number(&file([0, 2, 1, 3])[..start(2)]), 27);
    assert_eq!(changed([0, 2, 1, 3], start(2), 0), 27);
    assert_eq!([number(&file([0, 2, 9, 3])), number(&file([0, 9, 3, 2]))], [27, 23]);
    // and a repeat before it or after it
    assert_eq!([number(&file([0, 2, 2, 1])), number(&file([0, 0, 3, 1]))], [27, 24]);
}

/// What follows the layers is looked at after all of them.
#[test]
fn patches_come_later() {
    let with = |z: [u8; 4], rest: &[u8]| number(&[&file(z)[..], rest].concat());
    let (good, beyond) = ([0x56, 0x50, 5, 0, 0, 0, 9, 0], [0x56, 0x50, 48, 0, 0, 0, 9, 0]);
    for rest in [&good[..], &good[..7], &[0; 8], &beyond] {
        assert_eq!([with([0, 1, 3, 2], rest), with([0, 1, 2, 2], rest)], [27, 24]);
    }
    assert_eq!([with([0, 1, 2, 3], &good), with([0, 1, 2, 3], &beyond)], [0, 5]);
}

#[test]
fn a_layer_by_itself_has_no_order() {
    let file = file([3, 3, 1, 0]);
    let found = |record: usize| layer(&SIDES, &file, start(record) as u64).map(|layer| (layer.z, layer.from, layer.to));
    for (record, z) in [(0, 3), (1, 3), (2, 1), (3, 0)] {
        assert_eq!(found(record), Ok((z, start(record) + 3, start(record + 1))));
    }
}
