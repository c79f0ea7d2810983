//! Document 01's worked cases, through the wrapper, and document 02's patches on one of them.

use wattlerugby::{local_test, written, Grid, Point, Refusal, Sides};

fn grid(sides: [usize; 3], value: i32, negative: &[usize]) -> (Sides, Vec<i32>) {
    let [a, b, c] = sides;
    let mut values = vec![value; a * b * c];
    for &i in negative {
        values[i] = -value;
    }
    (Sides { a, b, c }, values)
}

#[test]
fn case_a() {
    let (sides, values) = grid([3, 3, 3], 5, &[13]);
    let mut g = Grid::begin(sides, 0, &values).unwrap();
    assert_eq!([g.distances()[12], g.distances()[9], g.distances()[0]], [5, 7, 8]);
    assert!(g.status().iter().all(|&s| s != wattlerugby::PENDING));
    assert_eq!(g.crossing(13, 0), Err(Refusal(9)));
    g.finish().unwrap();
    assert_eq!(g.crossing(13, 0), Ok(Some(Point { x: 1.5, y: 1.0, z: 1.0 })));
    assert_eq!(g.crossing(12, 0), Ok(Some(Point { x: 0.5, y: 1.0, z: 1.0 })));
    assert_eq!(g.crossing(0, 0), Ok(None));
    assert_eq!(g.crossing(27, 0), Err(Refusal(5)));
    assert_eq!(g.crossing(13, 3), Err(Refusal(6)));
    assert_eq!(g.finish(), Err(Refusal(8)));
}

#[test]
fn case_c() {
    let ring = [31, 32, 33, 36, 38, 41, 42, 43];
    let (sides, values) = grid([5, 5, 3], 4, &ring);
    let mut closed = Grid::begin(sides, 0, &values).unwrap();
    let done = closed.carve(u32::MAX).unwrap();
    assert_eq!((done.examined, done.removed, done.pending), (1, 0, false));
    assert_eq!(closed.take(37), Err(Refusal(12)));
    assert_eq!(closed.open(), Err(Refusal(14)));
    closed.finish().unwrap();
    assert_eq!(closed.distances()[37], -4);

    let mut opened = Grid::begin(sides, 1, &values).unwrap();
    assert_eq!(opened.open(), Err(Refusal(13)));
    opened.carve(u32::MAX).unwrap();
    let o = opened.open().unwrap();
    assert_eq!((o.index, o.k, o.m, o.next.euler, o.next.openings), (37, 1, 2, 0, 1));
}

/// The file of case D as document 01 has it.
fn file_of_d() -> Vec<u8> {
    let bytes = |i: usize| if i == 21 || i == 26 { [0xFA, 0xFF] } else { [0x06, 0x00] };
    let mut file = vec![0x56, 0x48, 0x04, 0x04, 0x03, 0x00, 0x00];
    for z in 0..3usize {
        file.extend([0x56, 0x4C, z as u8]);
        file.extend((16 * z..16 * z + 16).flat_map(bytes));
    }
    file
}

/// Kept, removed and examined voxels of a file that is carved to its end.
fn carved(file: &[u8]) -> (usize, u64, u64) {
    let mut g = Grid::from_file(file).unwrap();
    g.carve_to_the_end().unwrap();
    let kept = g.status().iter().filter(|&&s| s != wattlerugby::GONE).count();
    (kept, g.record().removals, g.record().examinations)
}

#[test]
fn case_d() {
    let (sides, values) = grid([4, 4, 3], 6, &[21, 26]);
    let mut g = Grid::begin(sides, 0, &values).unwrap();
    g.carve(1).unwrap();
    assert_eq!((g.status()[22], g.status()[25]), (wattlerugby::GONE, wattlerugby::PENDING));
    g.carve(1).unwrap();
    assert_eq!((g.status()[22], g.status()[25]), (wattlerugby::GONE, wattlerugby::GONE));
    assert_eq!((g.record().removals, g.record().examinations, g.record().euler), (2, 2, 1));

    let file = file_of_d();
    assert_eq!(written(sides, 0, &values).as_ref(), Ok(&file));
    assert_eq!(carved(&file), (2, 2, 2));
    assert_eq!(Grid::from_file(&file[..file.len() - 1]), Err(Refusal(21)));
}

/// Case D's file with patches behind it, byte by byte: voxel 26 is outside after all, and voxel 22 inside.
#[test]
fn case_d_patched() {
    let patches = [0x56, 0x50, 0x1A, 0, 0, 0, 0x06, 0x00, 0x56, 0x50, 0x16, 0, 0, 0, 0xFA, 0xFF];
    let after = |bytes: &[u8]| [&file_of_d()[..], bytes].concat();
    assert_eq!(carved(&after(&patches[..8])), (1, 0, 0));
    assert_eq!(carved(&after(&patches)), (2, 0, 0));
    assert_eq!(carved(&after(&patches[8..])), (3, 1, 1));
    assert_eq!(Grid::from_file(&after(&patches[..15])), Err(Refusal(21)));
    assert_eq!(Grid::from_file(&after(&patches[1..9])), Err(Refusal(22)));
    assert_eq!(Grid::from_file(&after(&[0x56, 0x50, 0x30, 0, 0, 0, 0, 0])), Err(Refusal(5)));
}

/// The places that run along so many axes: 0 for corners, 1 for edges, 2 for faces.
fn of_kinds(kinds: &[usize]) -> u32 {
    let axes = |p: u32| [p % 3, p / 3 % 3, p / 9].iter().filter(|&&digit| digit == 1).count();
    (0..27).filter(|&p| kinds.contains(&axes(p))).fold(0, |bits, p| bits | 1 << p)
}

#[test]
fn local_tests() {
    let km = |kept: u32| (local_test(kept).k, local_test(kept).m);
    assert_eq!(km(0), (0, 1));
    assert_eq!(km(of_kinds(&[0, 1, 2])), (1, 0));
    assert_eq!(km(1 << 4), (1, 1));
    assert_eq!(km(1), (1, 1));
    assert_eq!(km(1 << 4 | 1 << 22), (2, 1));
    assert_eq!(km(1 << 10 | 1 << 12 | 1 << 14 | 1 << 16), (1, 2));
    assert_eq!(km(1 << 4 | 1 << 10 | 1 << 12 | 1 << 14 | 1 << 16), (1, 1));
    assert_eq!(km(of_kinds(&[0])), (8, 1));
    assert_eq!(km(of_kinds(&[0, 1])), (1, 6));
}
