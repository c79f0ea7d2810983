//! The order of a file's layers: what is refused for it, before what and after what, and that a refusal has written nothing.

use wattlerugby::{patch, read, read_layer, written, Grid, Refusal, Sides};

const SIDES: Sides = Sides { a: 3, b: 4, c: 4 };
const N: usize = 48;
const RECORD: usize = 3 + 2 * 12;

fn start(record: usize) -> usize {
    7 + RECORD * record
}

/// The file of a grid with a body, whose records say these z.
fn file(z: [u8; 4]) -> Vec<u8> {
    let values: Vec<i32> = (0..N as i32).map(|i| if i == 16 { -6 } else { 6 + i }).collect();
    let mut file = written(SIDES, 0xABCD, &values).expect("fit sides");
    (0..4).for_each(|record| file[start(record) + 2] = z[record]);
    file
}

/// What read says of a file; where it refuses, no value changed, and a grid from that file is refused likewise.
fn taken(file: &[u8]) -> Result<(Sides, u16), Refusal> {
    const BEFORE: i32 = 0x5A5A_5A5A;
    let mut values = [BEFORE; N];
    let answer = read(file, &mut values);
    assert_eq!(answer.is_err(), values == [BEFORE; N]);
    assert_eq!(Grid::from_file(file).err(), answer.err());
    answer
}

/// The first record whose z is not its place in the file decides.
#[test]
fn every_order_of_four() {
    let mut met = [0; 4];
    for word in 0..5_u32.pow(4) {
        let z = [125, 25, 5, 1].map(|power| (word / power % 5) as u8);
        let wrong = (0..4).find(|&place| z[place] != place as u8);
        let (number, wanted) = match wrong.map(|place| (z[place], place as u8)) {
            None => (0, Ok((SIDES, 0xABCD))),
            Some((4, _)) => (1, Err(Refusal::LAYER)),
            Some((z, place)) if z < place => (2, Err(Refusal::LAYER_TWICE)),
            Some(_) => (3, Err(Refusal::LAYER_ORDER)),
        };
        assert_eq!(taken(&file(z)), wanted, "{z:?}");
        met[number] += 1;
    }
    assert_eq!(met, [1, 156, 38, 430]);
}

/// Many layers: one that is exchanged with another, near and far, and one that came before.
#[test]
fn every_place_of_64() {
    let sides = Sides { a: 3, b: 3, c: 64 };
    let rising = written(sides, 0, &[1; 576]).expect("fit sides");
    let mut values = [0; 576];
    let z_of = |record: usize| 7 + 21 * record + 2;
    for place in 0..64 {
        for other in (0..64).filter(|&other| other != place) {
            let mut file = rising.clone();
            file[z_of(place)] = other as u8;
            let wanted = if other < place { Refusal::LAYER_TWICE } else { Refusal::LAYER_ORDER };
            assert_eq!(read(&file, &mut values), Err(wanted), "layer {other} in place {place}");
            file[z_of(other)] = place as u8;
            assert_eq!(read(&file, &mut values), Err(Refusal::LAYER_ORDER), "layers {other} and {place} exchanged");
        }
    }
    assert!(values == [0; 576] && read(&rising, &mut values) == Ok((sides, 0)));
}

/// All checks of a record come before those of the next, and 27 is a record's last.
#[test]
fn each_number_in_its_place() {
    let changed = |z: [u8; 4], at: usize, byte: u8| {
        let mut file = file(z);
        file[at] = byte;
        taken(&file).expect_err("it is refused")
    };
    let cut = |z: [u8; 4], length: usize| taken(&file(z)[..length]).expect_err("it is refused");
    // of the record that is out of order, and of the header
    assert_eq!(cut([0, 2, 1, 3], start(2) - 1), Refusal::SHORT);
    assert_eq!(changed([0, 2, 1, 3], start(1), 0), Refusal::MARK);
    assert_eq!(changed([0, 2, 1, 3], 1, 0), Refusal::MARK);
    assert_eq!(changed([0, 2, 1, 3], 2, 65), Refusal::SIDE);
    assert_eq!(read(&file([0, 2, 1, 3]), &mut [0; N - 1]), Err(Refusal::LENGTH));
    // of the records after it
    assert_eq!(cut([0, 2, 1, 3], start(2)), Refusal::LAYER_ORDER);
    assert_eq!(changed([0, 2, 1, 3], start(2), 0), Refusal::LAYER_ORDER);
    assert_eq!(changed([0, 2, 9, 3], start(3), 0), Refusal::LAYER_ORDER);
    // of the records before it
    assert_eq!(changed([0, 1, 3, 2], start(1), 0), Refusal::MARK);
    assert_eq!([taken(&file([0, 9, 3, 2])), taken(&file([0, 0, 3, 2]))], [Err(Refusal::LAYER), Err(Refusal::LAYER_TWICE)]);
}

#[test]
fn patches_mend_no_order() {
    for rest in [&patch(5, 1)[..], &patch(48, 1), &[0; 8], &[0x56]] {
        assert_eq!(taken(&[&file([0, 1, 3, 2])[..], rest].concat()), Err(Refusal::LAYER_ORDER), "{rest:02X?}");
    }
}

/// A layer by itself is found whatever the order, and so a file in another order can be put right.
#[test]
fn layers_one_by_one() {
    let file = file([3, 1, 1, 0]);
    for (record, z) in [(0, 3), (1, 1), (2, 1), (3, 0)] {
        let layer = read_layer(SIDES, &file, start(record)).expect("it is there");
        assert_eq!((layer.z, layer.from, layer.bytes), (z, start(record) + 3, &file[start(record) + 3..start(record + 1)]));
    }
}
