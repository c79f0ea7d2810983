//! Patch records: what they correct, what is refused, and that a refusal has written nothing.

use wattlerugby::{patch, read, widened, written, Grid, Refusal, Sides, MISSING, NARROW_MISSING};

const SIDES: Sides = Sides { a: 3, b: 4, c: 5 };
const N: usize = 60;

fn layers() -> Vec<i32> {
    (100..160).collect()
}

/// A file of these sides, with what is given behind its layers.
fn with(rest: &[&[u8]]) -> Vec<u8> {
    let file = written(SIDES, 0xABCD, &layers()).expect("fit sides");
    [&file[..], &rest.concat()].concat()
}

/// What a file reads as in a buffer of n values; where it is refused, none of them changed.
fn taken(file: &[u8]) -> Result<Vec<i32>, Refusal> {
    const BEFORE: i32 = 0x5A5A_5A5A;
    let mut values = [BEFORE; N];
    match read(file, &mut values) {
        Ok(answer) => {
            assert_eq!(answer, (SIDES, 0xABCD));
            Ok(values.to_vec())
        }
        Err(refused) => {
            assert_eq!(values, [BEFORE; N], "a refused file was written from: {refused}");
            Err(refused)
        }
    }
}

// ---- what a patch is

#[test]
fn the_bytes_of_a_record() {
    assert_eq!(patch(0x0403_0201, 0x0605), [0x56, 0x50, 1, 2, 3, 4, 5, 6]);
    assert_eq!(patch(u32::MAX, -2), [0x56, 0x50, 0xFF, 0xFF, 0xFF, 0xFF, 0xFE, 0xFF]);
}

#[test]
fn a_patch_corrects_its_voxel_alone() {
    for index in 0..N {
        let mut wanted = layers();
        wanted[index] = -7;
        assert_eq!(taken(&with(&[&patch(index as u32, -7)])), Ok(wanted), "voxel {index}");
    }
}

#[test]
fn every_value_is_taken() {
    let sides = Sides { a: 64, b: 64, c: 16 };
    let mut file = written(sides, 0, &[1; 1 << 16]).expect("fit sides");
    (0..=u16::MAX).for_each(|word| file.extend(patch(u32::from(word), word as i16)));
    let mut values = vec![0; 1 << 16];
    assert_eq!(read(&file, &mut values), Ok((sides, 0)));
    assert!((0..=u16::MAX).all(|word| values[usize::from(word)] == widened(word as i16)));
    assert_eq!((values[0x7FFF], values[0x8000], values[0x8001]), (32_767, MISSING, -32_767));
}

#[test]
fn the_later_patch_stands() {
    let mut wanted = layers();
    (wanted[17], wanted[18]) = (3, MISSING);
    let [first, second, third] = [patch(17, 1), patch(17, 2), patch(17, 3)];
    assert_eq!(taken(&with(&[&first, &patch(18, NARROW_MISSING), &second, &third])), Ok(wanted.clone()));
    assert_eq!(taken(&with(&[&third, &patch(18, 5), &patch(18, NARROW_MISSING)])), Ok(wanted.clone()));
    wanted[17] = 1;
    assert_eq!(taken(&with(&[&third, &second, &first, &patch(18, NARROW_MISSING)])), Ok(wanted));
}

/// A patch can bring about what begin refuses, and can mend it.
#[test]
fn begin_sees_what_was_patched() {
    let body = with(&[&patch(16, -5)]);
    assert_eq!(Grid::from_file(&with(&[])), Err(Refusal::NO_NEGATIVE));
    assert_eq!(Grid::from_file(&body).map(|grid| grid.distances()[16]), Ok(-5));
    assert_eq!(Grid::from_file(&[&body[..], &patch(0, -1)].concat()), Err(Refusal::BORDER_NEGATIVE));
    assert!(Grid::from_file(&[&body[..], &patch(0, -1), &patch(0, NARROW_MISSING)].concat()).is_ok());
}

// ---- what is refused

/// What may stand where a patch record is due, with the number that it is refused with. More may follow but for 21.
fn wrong_records() -> Vec<(Vec<u8>, Refusal)> {
    let (good, beyond) = (patch(59, 1), patch(60, 1));
    let mut wrong: Vec<(Vec<u8>, Refusal)> = Vec::new();
    for (at, mark) in [(0, 0x57), (0, 0), (0, 0x50), (1, 0x4C), (1, 0x48), (1, 0x57), (1, 0x51), (1, 0xD0)] {
        // 22 comes before 5
        for mut record in [good, beyond] {
            record[at] = mark;
            wrong.push((record.to_vec(), Refusal::MARK));
        }
    }
    // each of the four bytes counts, also where the others are those of a voxel
    for index in [60, 61, 127, 128, 255, 256 + 3, 65_535, (1 << 16) + 3, (1 << 24) + 3, i32::MAX as u32, 1 << 31, (1 << 31) + 3, u32::MAX] {
        wrong.push((patch(index, 1).to_vec(), Refusal::INDEX));
    }
    wrong
}

/// Records that are cut short, with any mark and index: 21 comes before 22 and 5.
fn short_records() -> Vec<Vec<u8>> {
    let whole = [patch(59, 1).to_vec(), patch(60, 1).to_vec(), vec![0; 8], vec![0xFF; 8]];
    whole.iter().flat_map(|record| (1..8).map(|length| record[..length].to_vec())).collect()
}

#[test]
fn each_number_in_its_place() {
    let good: Vec<u8> = (0..40).flat_map(|i| patch(i, -1)).collect();
    for before in [0, 1, 2, 7, 40] {
        let before = &good[..8 * before];
        assert!(taken(&with(&[before])).is_ok());
        for short in short_records() {
            assert_eq!(taken(&with(&[before, &short])), Err(Refusal::SHORT), "{short:02X?}");
        }
        for (wrong, number) in wrong_records() {
            // the first record that is wrong decides, whatever follows
            let follows: [&[u8]; 5] = [&[], &good, &[0], &patch(60, 0), &[0; 8]];
            for rest in follows {
                assert_eq!(taken(&with(&[before, &wrong, rest])), Err(number), "{wrong:02X?}, then {rest:02X?}");
            }
        }
    }
}

#[test]
fn header_and_layers_come_first() {
    let file = with(&[&patch(60, 1)]);
    let changed = |at: usize, byte: u8| {
        let mut file = file.clone();
        file[at] = byte;
        taken(&file)
    };
    assert_eq!(taken(&file), Err(Refusal::INDEX));
    assert_eq!(changed(0, 0), Err(Refusal::MARK));
    assert_eq!(changed(2, 65), Err(Refusal::SIDE));
    assert_eq!(changed(3, 5), Err(Refusal::LENGTH));
    assert_eq!(changed(7 + 4 * 27 + 2, 5), Err(Refusal::LAYER));
    assert_eq!(changed(7 + 4 * 27 + 2, 0), Err(Refusal::LAYER_TWICE));
    assert_eq!(changed(7 + 3 * 27 + 2, 4), Err(Refusal::LAYER_ORDER));
    for lent in [0, N - 1, N + 1] {
        assert_eq!(read(&file, &mut vec![0; lent]), Err(Refusal::LENGTH));
    }
    // a patch where a layer is due: 4 of 5 layers, then records as long as a fifth
    let layers = &with(&[])[..7 + 4 * 27];
    assert_eq!(taken(&[layers, &patch(0, 1).repeat(4)].concat()), Err(Refusal::MARK));
    assert_eq!(taken(&[layers, &patch(0, 1).repeat(3)].concat()), Err(Refusal::SHORT));
}

#[test]
fn the_last_voxel_of_the_largest_grid() {
    let n = 64 * 64 * 64;
    let file = written(Sides { a: 64, b: 64, c: 64 }, 0, &vec![1; n]).expect("fit sides");
    let patched = |index: usize| [&file[..], &patch(index as u32, -1)].concat();
    let mut values = vec![0; n];
    assert_eq!(read(&patched(n), &mut values), Err(Refusal::INDEX));
    assert!(values.iter().all(|&v| v == 0));
    assert!(read(&patched(n - 1), &mut values).is_ok());
    assert_eq!((values[0], values[n - 2], values[n - 1]), (1, 1, -1));
}

// ---- many

/// Numbers that are the same on every run.
fn random(seed: &mut u64) -> u64 {
    *seed = seed.wrapping_mul(6_364_136_223_846_793_005).wrapping_add(1_442_695_040_888_963_407);
    *seed >> 33
}

/// More patches than voxels, most voxels patched and many of them twice. Then one more that is wrong, at the very end.
#[test]
fn patches_by_the_hundred_thousand() {
    const PATCHES: usize = 300_000;
    let (sides, n) = (Sides { a: 64, b: 64, c: 64 }, 64 * 64 * 64);
    let mut wanted = vec![1; n];
    let mut file = written(sides, 0, &wanted).expect("fit sides");
    let mut seed = 1;
    for _ in 0..PATCHES {
        let (index, value) = (random(&mut seed) as usize % n, random(&mut seed) as i16);
        file.extend(patch(index as u32, value));
        wanted[index] = widened(value);
    }
    let mut values = vec![0; n];
    assert_eq!(read(&file, &mut values), Ok((sides, 0)));
    assert!(values == wanted, "other values than those of the last patches");
    for (wrong, number) in [(&patch(n as u32, 0)[..], Refusal::INDEX), (&[0; 8], Refusal::MARK), (&[0x56], Refusal::SHORT)] {
        values.fill(0);
        assert_eq!(read(&[&file[..], wrong].concat(), &mut values), Err(number));
        assert!(values.iter().all(|&v| v == 0), "a refused file was written from: {number}");
    }
}

// ---- written again

/// What is written has no patches, reads the same, and is the written form of that grid.
#[test]
fn patches_go_into_the_layers() {
    let mut seed = 2;
    for count in [0, 1, 2, 60, 300] {
        let patches: Vec<u8> = (0..count).flat_map(|_| patch((random(&mut seed) % 60) as u32, random(&mut seed) as i16)).collect();
        let values = taken(&with(&[&patches])).expect("good patches");
        let again = written(SIDES, 0xABCD, &values).expect("a grid that was read");
        assert_eq!(again.len(), 7 + 5 * 27, "layers alone");
        assert_eq!(taken(&again), Ok(values));
        assert_eq!(again == with(&[]), count == 0, "the patches are in it");
    }
}
