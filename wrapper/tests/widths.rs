//! Values of 32 bits and layers of both widths: what is read and written of each, the ends of the range, and number 28 in its place.

use wattlerugby::{begin, patch, read, read_layer, widened, write, written, written_length, written_width, Grid, Refusal, Sides};
use wattlerugby::{GREATEST_VALUE, LEAST_VALUE, MISSING, NARROW, WIDE};

const SIDES: Sides = Sides { a: 3, b: 4, c: 3 };
const N: usize = 36;
const AREA: usize = 12;
const HEADER: [u8; 7] = [0x56, 0x48, 3, 4, 3, 0xCD, 0xAB];

/// Values that are refused with 28.
const BAD: [i32; 6] = [LEAST_VALUE - 1, GREATEST_VALUE + 1, MISSING + 1, i32::MAX, -2_000_000_000, 1_073_741_824];

/// A layer record, wide or narrow.
fn record(z: u8, width: u8, values: &[i32]) -> Vec<u8> {
    let (second, keep) = if width == WIDE { (0x57, 4) } else { (0x4C, 2) };
    let bytes = values.iter().flat_map(|v| v.to_le_bytes()[..keep].to_vec());
    [&[0x56, second, z][..], &bytes.collect::<Vec<u8>>()].concat()
}

/// A file of three layers with these widths.
fn file(widths: [u8; 3], values: &[i32]) -> Vec<u8> {
    let layers = (0..3).map(|z| record(z as u8, widths[z], &values[AREA * z..AREA * (z + 1)]));
    [&HEADER[..], &layers.collect::<Vec<_>>().concat()].concat()
}

fn mixtures() -> impl Iterator<Item = [u8; 3]> {
    (0..8).map(|word| [0, 1, 2].map(|z| if word >> z & 1 == 1 { WIDE } else { NARROW }))
}

/// Read, with no value changed where it refuses.
fn taken(file: &[u8]) -> Result<Vec<i32>, Refusal> {
    const BEFORE: i32 = 0x5A5A_5A5A;
    let mut values = [BEFORE; N];
    let answer = read(file, &mut values);
    assert!(answer.is_ok() || values == [BEFORE; N], "a refused file was written from");
    answer.map(|header| {
        assert_eq!(header, (SIDES, 0xABCD));
        values.to_vec()
    })
}

#[test]
fn every_mixture_of_widths() {
    let values: Vec<i32> = (0..N as i32).map(|i| 1800 * (i - 18)).collect();
    for widths in mixtures() {
        let file = file(widths, &values);
        assert_eq!(taken(&file), Ok(values.clone()), "{widths:?}");
        let mut start = 7;
        for (z, width) in widths.into_iter().enumerate() {
            let layer = read_layer(SIDES, &file, start).expect("it is there");
            assert_eq!((layer.z, layer.width, layer.from), (z as u8, width, start + 3));
            assert!(layer.values().eq(values[AREA * z..AREA * (z + 1)].iter().copied()));
            start = layer.end();
        }
        assert_eq!(start, file.len());
        // patches begin where the last layer ends, and what is written has one width
        let patched = [&file[..], &patch(35, -5)].concat();
        assert_eq!(taken(&patched).map(|values| values[35]), Ok(-5));
        assert_eq!(written(SIDES, 0xABCD, &values).ok(), Some(self::file([NARROW; 3], &values)));
    }
}

/// All values of two bytes, in narrow layers and in wide ones.
#[test]
fn all_values_of_two_bytes() {
    let sides = Sides { a: 64, b: 64, c: 16 };
    let words: Vec<i16> = (0..=u16::MAX).map(|word| word as i16).collect();
    let file = |second: u8, bytes: &dyn Fn(i16) -> Vec<u8>| {
        let layers = words.chunks(4096).zip(0..).map(|(layer, z)| {
            let values: Vec<u8> = layer.iter().flat_map(|&word| bytes(word)).collect();
            [&[0x56, second, z][..], &values].concat()
        });
        [&[0x56, 0x48, 64, 64, 16, 0, 0][..], &layers.collect::<Vec<_>>().concat()].concat()
    };
    let mut values = vec![0; 1 << 16];
    assert_eq!(read(&file(0x4C, &|word| word.to_le_bytes().to_vec()), &mut values), Ok((sides, 0)));
    assert!(values.iter().zip(&words).all(|(&value, &word)| value == widened(word)));
    assert_eq!(values[0x8000], MISSING);
    assert_eq!(read(&file(0x57, &|word| i32::from(word).to_le_bytes().to_vec()), &mut values), Ok((sides, 0)));
    assert!(values.iter().zip(&words).all(|(&value, &word)| value == i32::from(word)));
}

#[test]
fn the_width_that_is_written() {
    let (narrow, wide) = (written_length(SIDES, NARROW), written_length(SIDES, WIDE));
    assert_eq!((narrow, wide), (Some(7 + 3 * 27), Some(7 + 3 * 51)));
    for place in [0, 1, 17, 35] {
        for fill in [MISSING, 0, -32_767] {
            for value in [MISSING, 0, -32_767, 32_767, -32_768, 32_768, LEAST_VALUE, GREATEST_VALUE, 65_535, 65_536, -65_536] {
                let mut values = [fill; N];
                values[place] = value;
                let is_narrow = value == MISSING || (-32_767..=32_767).contains(&value);
                let width = if is_narrow { NARROW } else { WIDE };
                assert_eq!(written_width(&values), width);
                let form = written(SIDES, 0xABCD, &values).expect("good values");
                assert_eq!(Some(form.len()), written_length(SIDES, width));
                assert_eq!(taken(&form).as_deref(), Ok(&values[..]));
                let stored = read_layer(SIDES, &form, 7 + place / AREA * (3 + usize::from(width) * AREA)).expect("it is there");
                assert_eq!((stored.width, stored.values().nth(place % AREA)), (width, Some(value)));
                let mut short = vec![0xEE; form.len() - 1];
                assert_eq!(write(SIDES, 0xABCD, &values, &mut short), Err(Refusal::ROOM));
                assert!(short.iter().all(|&byte| byte == 0xEE));
            }
        }
    }
}

// ---- 28

#[test]
fn of_begin_and_write() {
    let lent = |values: &[i32], room: usize, sides: Sides| {
        let (mut dist, mut status, mut file) = ([77; N], [77; N], vec![0xEE; room]);
        let answers = (begin(sides, 0, values, &[0; N], &mut dist, &mut status).err(), write(sides, 0, values, &mut file).err());
        assert!(dist == [77; N] && status == [77; N] && file.iter().all(|&byte| byte == 0xEE));
        answers
    };
    for bad in BAD {
        for place in [0, 16, 35] {
            // no negative voxel, one inside, and one on the border: 28 comes before 3, 4 and 26
            for (at, other) in [(1, 6), (16, -6), (2, -6)] {
                let mut values = [6; N];
                (values[at], values[place]) = (other, bad);
                for room in [0, 160] {
                    assert_eq!(lent(&values, room, SIDES), (Some(Refusal::VALUE), Some(Refusal::VALUE)), "{bad} at {place}");
                }
                assert_eq!(lent(&values[..35], 0, SIDES), (Some(Refusal::LENGTH), Some(Refusal::LENGTH)));
                assert_eq!(lent(&values, 0, Sides { a: 2, ..SIDES }), (Some(Refusal::SIDE), Some(Refusal::SIDE)));
            }
        }
    }
}

/// The ends themselves are taken, and worked distances go beyond them.
#[test]
fn the_ends_of_the_range() {
    let mut values = [GREATEST_VALUE; N];
    (values[16], values[0], values[35]) = (LEAST_VALUE, MISSING, -32_768);
    assert_eq!(Grid::begin(SIDES, 0, &values), Err(Refusal::BORDER_NEGATIVE), "-32,768 is a measured value");
    values[35] = 0;
    let mut grid = Grid::begin(SIDES, 0, &values).expect("a body in the middle");
    assert_eq!((grid.distances()[16], grid.distances()[17], grid.distances()[0]), (LEAST_VALUE, GREATEST_VALUE, GREATEST_VALUE + 3));
    assert_eq!(grid.distances()[35], GREATEST_VALUE + 4);
    grid.carve_to_the_end().expect("a begun grid is carved");
    assert_eq!(grid.points().expect("it is finished").map(|p| p.x + p.y + p.z).collect::<Vec<_>>(), [2.5, 2.5, 2.5, 3.5, 3.5, 3.5]);
    let file = written(SIDES, 0xABCD, &values).expect("good values");
    assert_eq!(Grid::from_file(&file).map(|grid| grid.distances()[16]), Ok(LEAST_VALUE));
}

#[test]
fn of_read_in_its_place() {
    let good = [6; N];
    for bad in BAD {
        let mut values = good;
        values[20] = bad;
        let spoilt = file([NARROW, WIDE, WIDE], &values);
        let (second, third) = (7 + 27, 7 + 27 + 51);
        assert_eq!(taken(&spoilt), Err(Refusal::VALUE));
        // the record's own checks come first, then those of the next record, and patches last
        let changed = |changes: &[(usize, u8)], length: usize| {
            let mut file = spoilt.clone();
            changes.iter().for_each(|&(at, byte)| file[at] = byte);
            taken(&file[..length]).expect_err("it is refused")
        };
        let all = spoilt.len();
        assert_eq!(changed(&[(second + 2, 3)], all), Refusal::LAYER);
        assert_eq!(changed(&[(second + 2, 0)], all), Refusal::LAYER_TWICE);
        assert_eq!(changed(&[(second + 2, 2)], all), Refusal::LAYER_ORDER);
        assert_eq!(changed(&[], third - 1), Refusal::SHORT);
        for length in [third, third + 1, third + 2, all - 1, all] {
            assert_eq!(changed(&[], length), Refusal::VALUE, "{length} bytes");
        }
        assert_eq!([changed(&[(third, 0)], all), changed(&[(third + 2, 0)], all)], [Refusal::VALUE; 2]);
        for rest in [&patch(20, 6)[..], &patch(36, 6), &[0]] {
            assert_eq!(taken(&[&spoilt[..], rest].concat()), Err(Refusal::VALUE), "{rest:02X?}");
        }
        // a layer by itself has no 28
        assert_eq!(read_layer(SIDES, &spoilt, second).map(|layer| layer.values().nth(8)), Ok(Some(bad)));
    }
}

/// A record is measured by its mark: 56 57 asks for four bytes a value, and anything else for two.
#[test]
fn of_what_is_left() {
    let wide = record(0, WIDE, &[6; AREA]);
    for length in 0..=wide.len() {
        let wanted = if length == wide.len() { Ok(WIDE) } else { Err(Refusal::SHORT) };
        assert_eq!(read_layer(SIDES, &wide[..length], 0).map(|layer| layer.width), wanted, "{length} bytes");
    }
    for mark in [[0x56, 0x56], [0x57, 0x57], [0x56, 0x47], [0x56, 0xD7]] {
        let mut other = wide.clone();
        other[..2].copy_from_slice(&mark);
        assert_eq!(read_layer(SIDES, &other[..26], 0), Err(Refusal::SHORT));
        assert_eq!(read_layer(SIDES, &other[..27], 0), Err(Refusal::MARK));
        assert_eq!(read_layer(SIDES, &other, 0), Err(Refusal::MARK));
    }
    for start in [wide.len(), wide.len() + 1, usize::MAX] {
        assert_eq!(read_layer(SIDES, &wide, start), Err(Refusal::SHORT));
    }
}
