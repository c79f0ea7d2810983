//! Every field of every struct that crosses to the library and back: a different number in each, so that a field that lies elsewhere in
//! the library's own declaration would show.

use wattlerugby::raw::*;
use wattlerugby::{Order, Sides};

const SIDES: Sides = Sides { a: 3, b: 4, c: 5 };
const N: usize = 60;

/// A record that is unfit in one count, so that each call hands it back as it was.
const UNFIT: Record = Record {
    sides: SIDES,
    allowed: 0x1234,
    openings: 0x5678_9ABC,
    removals: 0x0102_0304_0506_0708,
    examinations: 0x1112_1314_1516_1718,
    euler: -0x2122_2324,
    finished: 1,
};

#[test]
fn the_record_given_comes_back() {
    let (mut dist, marks, mut status) = ([0i32; N], [3u8; N], [0u8; N]);
    let (d, m, s) = (dist.as_mut_ptr(), marks.as_ptr(), status.as_mut_ptr());
    for finished in [0, 1, 2, 255] {
        let given = Record { finished, ..UNFIT };
        // SAFETY: the pointers are those of three live arrays of N elements, or null with length 0.
        unsafe {
            let carved = wattlerugby_carve(given, d, N, m, N, s, N, 9);
            assert_eq!((carved.refusal, carved.examined, carved.removed, carved.pending, carved.face), (7, 0, 0, false, 0));
            assert_eq!(carved.next, given);
            let taken = wattlerugby_take(given, d, N, m, N, s, N, 9);
            assert_eq!((taken.refusal, taken.k, taken.m, taken.face, taken.next), (7, 0, 0, 0, given));
            let opened = wattlerugby_open(given, d, N, m, N, s, N);
            assert_eq!((opened.refusal, opened.index, opened.k, opened.m, opened.face, opened.next), (7, 0, 0, 0, 0, given));
            let closed = wattlerugby_finish(given, d, N, s, N);
            assert_eq!((closed.refusal, closed.next), (7, given));
            let judged = wattlerugby_judge(given, d, N, s, N, std::ptr::null(), 0);
            assert_eq!((judged.refusal, judged.removals, judged.openings, judged.euler), (7, 0, 0, 0));
            // serve has no record to hand back, and hands back the order record
            let (grids, order) =
                (Grids { count: 1, records: [given; 16] }, Order { len: 0x0102_0304, places: std::array::from_fn(|i| 240 + i as u8) });
            let served = wattlerugby_serve(grids, order, d, N, m, N, s, N, 9);
            assert_eq!(
                (served.refusal, served.place, served.examined, served.removed, served.pending, served.face),
                (7, 0, 0, 0, false, 0)
            );
            assert_eq!((served.next, served.order), (Record::default(), order));
            let crossed = wattlerugby_crossing(given, d, N, s, N, 9, 1);
            assert_eq!((crossed.refusal, crossed.crosses, crossed.point.x), (7, false, 0.0));
            let filled = wattlerugby_points(given, d, N, s, N, 9, std::ptr::null_mut(), 0);
            assert_eq!((filled.refusal, filled.count, filled.next), (7, 0, 0));
        }
    }
}

/// Each count by itself decides between fit and unfit: its own place is read.
#[test]
fn each_count_is_read_from_its_place() {
    let (dist, mut status) = ([0i32; N], [0u8; N]);
    let n = N as u64;
    let fit =
        Record { sides: SIDES, allowed: 0x1234, openings: 0x1234, removals: n, examinations: 27 * n, euler: -8 * N as i32, finished: 0 };
    let unfit = [
        Record { sides: Sides { a: 4, ..SIDES }, ..fit },
        Record { sides: Sides { b: 3, ..SIDES }, ..fit },
        Record { sides: Sides { c: 4, ..SIDES }, ..fit },
        Record { allowed: 0x1233, ..fit },
        Record { openings: 0x1235, ..fit },
        Record { removals: n + 1, ..fit },
        Record { examinations: 27 * n + 1, ..fit },
        Record { euler: -8 * N as i32 - 1, ..fit },
        Record { finished: 1, ..fit },
    ];
    let numbers = [2, 2, 2, 7, 7, 7, 7, 7, 8];
    assert!(wattlerugby::carve(fit, &dist, &[0; N], &mut status, 1).is_ok());
    for (given, number) in unfit.into_iter().zip(numbers) {
        let refused = wattlerugby::carve(given, &dist, &[0; N], &mut status, 1).unwrap_err();
        assert_eq!(refused.0, number, "{given:?}");
    }
}

#[test]
fn begin_and_its_buffers() {
    let mut values = [7i32; N];
    values[16] = -5;
    let (marks, mut dist, mut status) = ([3u8; N], [0i32; N], [9u8; N]);
    // SAFETY: the pointers are those of four live arrays of N elements.
    let mut begin = |[values_len, marks_len, dist_len, status_len]: [usize; 4]| unsafe {
        let (v, m, d, s) = (values.as_ptr(), marks.as_ptr(), dist.as_mut_ptr(), status.as_mut_ptr());
        wattlerugby_begin(SIDES, 0xABCD, v, values_len, m, marks_len, d, dist_len, s, status_len)
    };
    for short in 0..4 {
        let mut lengths = [N; 4];
        lengths[short] -= 1;
        let refused = begin(lengths);
        assert_eq!((refused.refusal, refused.next), (2, Record::default()));
    }
    let begun = begin([N; 4]);
    let record = Record { sides: SIDES, allowed: 0xABCD, euler: 1, ..Record::default() };
    assert_eq!((begun.refusal, begun.next), (0, record));
    assert_eq!((dist[16], dist[17], status[16], status[17]), (-5, 7, 1, 0));
}

#[test]
fn begin_coarse_and_its_buffers() {
    const SIDES: Sides = Sides { a: 6, b: 8, c: 10 };
    const N: usize = 480;
    // of 1 x 2 x 3 inner blocks the first and the last have a voxel of the inside each, and the four between them are pending
    let mut values = [7i32; N];
    (values[3 + 6 * (3 + 8 * 3)], values[3 + 6 * (4 + 8 * 4)], values[3 + 6 * (4 + 8 * 6)], values[3 + 6 * (4 + 8 * 5)]) = (-5, -6, -7, -8);
    let (marks, mut dist, mut status, mut block_dist, mut block_status) = ([0u8; N], [0i32; N], [9u8; N], [0i32; N / 8], [9u8; N / 8]);
    // SAFETY: the pointers are those of four live arrays of N elements and of two of N / 8, of which no more is lent than there is.
    let mut begin = |[v, m, d, s, bd, bs]: [usize; 6]| unsafe {
        let (voxels, blocks) = ((dist.as_mut_ptr(), status.as_mut_ptr()), (block_dist.as_mut_ptr(), block_status.as_mut_ptr()));
        let (values, marks) = (values.as_ptr(), marks.as_ptr());
        wattlerugby_begin_coarse(SIDES, 0xABCD, values, v, marks, m, voxels.0, d, voxels.1, s, blocks.0, bd, blocks.1, bs)
    };
    const LENGTHS: [usize; 6] = [N, N, N, N, N / 8, N / 8];
    for short in 0..6 {
        let mut lengths = LENGTHS;
        lengths[short] -= 1;
        let refused = begin(lengths);
        assert_eq!((refused.refusal, refused.examined, refused.next), (2, 0, Record::default()));
    }
    let begun = begin(LENGTHS);
    let record = Record { sides: SIDES, allowed: 0xABCD, euler: 1, ..Record::default() };
    assert_eq!((begun.refusal, begun.examined, begun.next), (0, 3, record));
    assert_eq!((dist[3 + 6 * (3 + 8 * 3)], status[0], status[3 + 6 * (3 + 8 * 3)]), (-5, 0, 1));
    let block = |y: usize, z: usize| (block_dist[1 + 3 * (y + 4 * z)], block_status[1 + 3 * (y + 4 * z)]);
    assert_eq!([block(1, 1), block(2, 2), block(2, 3)], [(-5, 1), (-8, 1), (-7, 1)]);
    assert_eq!([block(2, 1), block(1, 2), block(1, 3)].map(|(_, status)| status), [0; 3]);
}

#[test]
fn judge_and_its_counts() {
    // a ring around two voxels, each pending: one opening, and then the other passes
    const SIDES: Sides = Sides { a: 6, b: 5, c: 3 };
    const N: usize = 90;
    let mut values = [7i32; N];
    for i in [37, 38, 39, 40, 43, 46, 49, 50, 51, 52] {
        values[i] = -5;
    }
    let (mut dist, mut status) = ([0i32; N], [0u8; N]);
    let begun = wattlerugby::begin(SIDES, 1, &values, &[0; N], &mut dist, &mut status).unwrap();
    let (before, list) = (status, [0x56, 0x4F, 44, 0, 0, 0, 0x56, 0x52, 45, 0, 0, 0]);
    // SAFETY: the pointers are those of three live arrays, of which no more is lent than there is.
    let mut judge =
        |[d, s, l]: [usize; 3]| unsafe { wattlerugby_judge(begun.into(), dist.as_ptr(), d, status.as_mut_ptr(), s, list.as_ptr(), l) };
    for (lengths, number) in [([N - 1, N, 12], 2), ([N, N - 1, 12], 2), ([N, N, 11], 21), ([N, N, 6], 33)] {
        let refused = judge(lengths);
        assert_eq!((refused.refusal, refused.removals, refused.openings, refused.euler), (number, 0, 0, 0), "{lengths:?}");
    }
    // no two of the numbers are equal
    let judged = judge([N, N, 12]);
    assert_eq!((judged.refusal, judged.removals, judged.openings, judged.euler), (0, 2, 1, 0));
    assert_eq!((status, status[44]), (before, 3));
}

/// Sixteen grids of other sides each, of which the last but one waits, and each count of its record is another number.
#[test]
fn serve_and_its_structs() {
    let sides: [Sides; 16] = std::array::from_fn(|place| Sides { a: 4, b: 3 + place % 3, c: 3 + place / 3 });
    let record = |place: usize| Record {
        sides: sides[place],
        allowed: 0x1234 + place as u16,
        openings: 0x1111 + place as u32,
        removals: 10 + place as u64,
        examinations: 30 + place as u64,
        euler: -50 - place as i32,
        finished: 0,
    };
    let n = |place: usize| sides[place].voxels().unwrap();
    let total: usize = (0..16).map(n).sum();
    let (dist, marks, mut status) = (vec![5i32; total], vec![0u8; total], vec![0u8; total]);
    // two voxels side by side in a row of four, of which the first is pending
    let at = (0..14).map(n).sum::<usize>() + 1 + 4 * (1 + sides[14].b);
    (status[at], status[at + 1]) = (3, 1);
    let grids = Grids { count: 16, records: std::array::from_fn(record) };
    let order = Order { len: 15, places: [15, 3, 14, 0, 1, 2, 4, 5, 6, 7, 8, 9, 10, 11, 12, 99] };
    // SAFETY: the pointers are those of three live vectors, of which no more is lent than there is.
    let mut serve = |limit: u32, [d, s, m]: [usize; 3]| unsafe {
        wattlerugby_serve(grids, order, dist.as_ptr(), d, marks.as_ptr(), m, status.as_mut_ptr(), s, limit)
    };
    for short in 0..3 {
        let mut lengths = [total; 3];
        lengths[short] -= 1;
        let refused = serve(1, lengths);
        assert_eq!((refused.refusal, refused.place, refused.next, refused.order), (2, 0, Record::default(), order));
    }
    // each of the numbers is another
    let served = serve(1000, [total; 3]);
    assert_eq!((served.refusal, served.place, served.examined, served.removed, served.pending, served.face), (0, 14, 2, 1, false, 0));
    assert_eq!(served.next, Record { removals: 25, examinations: 46, ..record(14) });
    let after = Order { len: 15, places: [15, 3, 0, 1, 2, 4, 5, 6, 7, 8, 9, 10, 11, 12, 14, 0] };
    assert_eq!(served.order, after);
    assert_eq!((status[at], status[at + 1], status.iter().filter(|&&s| s != 0).count()), (0, 1, 1));
}

/// The struct has its number alone.
#[test]
fn practice_and_its_number() {
    let mut values = [7i32; N];
    // SAFETY: the pointer is that of a live array, of which no more is lent than there is.
    let mut practice = |sides: Sides, lent: usize| unsafe { wattlerugby_practice(sides, 0x8000_0001, values.as_mut_ptr(), lent) }.refusal;
    assert_eq!([practice(Sides { c: 2, ..SIDES }, N), practice(SIDES, N - 1), practice(SIDES, 0), practice(SIDES, N)], [1, 2, 2, 0]);
    let border = |i: usize| [i % 3, i / 3 % 4, i / 12].iter().zip([2, 3, 4]).any(|(&at, last)| at == 0 || at == last);
    assert!((0..N).all(|i| border(i) == (values[i] == 1_000)));
}

#[test]
fn a_point_has_three_coordinates() {
    let (mut values, mut dist, mut status) = ([7i32; N], [0i32; N], [0u8; N]);
    values[1 + 3 * (2 + 4 * 3)] = -7;
    let begun = wattlerugby::begin(SIDES, 0, &values, &[0; N], &mut dist, &mut status).unwrap();
    let closed = wattlerugby::finish(begun, &mut dist, &status).unwrap();
    // SAFETY: the pointers are those of two live arrays of N elements.
    let crossed = unsafe { wattlerugby_crossing(closed.into(), dist.as_ptr(), N, status.as_ptr(), N, 43, 0) };
    assert_eq!((crossed.refusal, crossed.crosses), (0, true));
    assert_eq!((crossed.point.x, crossed.point.y, crossed.point.z), (1.5, 2.0, 3.0));
    let mut out = [9.0; 8];
    // SAFETY: as above, and of an array of 8 doubles.
    let filled = unsafe { wattlerugby_points(closed.into(), dist.as_ptr(), N, status.as_ptr(), N, 3 * 43, out.as_mut_ptr(), 8) };
    assert_eq!((filled.refusal, filled.count, filled.next), (0, 2, 3 * 43 + 2));
    assert_eq!(out, [1.5, 2.0, 3.0, 1.0, 2.5, 3.0, 9.0, 9.0]);
}

#[test]
fn files_and_layers() {
    let mut file = vec![0x56, 0x48, 3, 4, 5, 0xCD, 0xAB];
    for z in 0..5u8 {
        // the fourth layer is wide
        file.extend([0x56, if z == 3 { 0x57 } else { 0x4C }, z]);
        file.extend((0..12u8).flat_map(|i| if z == 3 { vec![i, z, 5, 6] } else { vec![i, z] }));
    }
    let mut values = [0i32; N];
    // SAFETY: pointers and lengths are those of a live vector and a live array.
    let read = unsafe { wattlerugby_read(file.as_ptr(), file.len(), values.as_mut_ptr(), N) };
    assert_eq!((read.refusal, read.sides, read.allowed), (0, SIDES, 0xABCD));
    assert_eq!((values[0], values[11], values[12], values[59]), (0, 11, 256, 4 * 256 + 11));
    assert_eq!((values[36], values[47]), (0x0605_0300, 0x0605_030B));
    let (third, fourth, fifth) = (7 + 2 * 27, 7 + 3 * 27, 7 + 3 * 27 + 51);
    for (start, z, width, end) in [(third, 2, 2, fourth), (fourth, 3, 4, fifth), (fifth, 4, 2, file.len())] {
        // SAFETY: as above.
        let layer = unsafe { wattlerugby_read_layer(SIDES, file.as_ptr(), file.len(), start) };
        assert_eq!((layer.refusal, layer.z, layer.width, layer.from, layer.to), (0, z, width, start + 3, end));
    }
    // SAFETY: as above.
    let beyond = unsafe { wattlerugby_read_layer(SIDES, file.as_ptr(), file.len(), usize::MAX) };
    assert_eq!((beyond.refusal, beyond.z, beyond.width, beyond.from, beyond.to), (21, 0, 0, 0, 0));
}

#[test]
fn a_written_file() {
    const LENGTH: usize = 7 + 5 * 27;
    let values: [i32; N] = std::array::from_fn(|i| 256 * (i / 12) as i32 + (i % 12) as i32);
    let mut file = [9; LENGTH + 1];
    // SAFETY: the pointers are those of two live arrays, of which no more is lent than there is.
    let mut write = |room| unsafe { wattlerugby_write(SIDES, 0xABCD, values.as_ptr(), N, file.as_mut_ptr(), room) };
    let (refused, done) = (write(LENGTH - 1), write(LENGTH + 1));
    assert_eq!((refused.refusal, refused.length), (26, 0));
    assert_eq!((done.refusal, done.length), (0, LENGTH));
    assert_eq!(file[..12], [0x56, 0x48, 3, 4, 5, 0xCD, 0xAB, 0x56, 0x4C, 0, 0, 0]);
    assert_eq!(file[LENGTH - 4..], [10, 4, 11, 4, 9]);
}

#[test]
fn the_local_test_has_six_numbers() {
    // SAFETY: numbers alone cross.
    let of = |gone: u32| unsafe { wattlerugby_local_test(0x07FF_FFFF & !(1 << 13 | gone)) };
    // The voxels at low x and at high z are not kept: no two of the numbers are equal.
    let t = of(1 << 12 | 1 << 22);
    assert_eq!((t.k, t.m, t.corners, t.edges, t.faces, t.face), (1, 2, 8, 12, 4, 0));
    // Only the one at low z is not: the face is not 0 for want of a number.
    let t = of(1 << 4);
    assert_eq!((t.k, t.m, t.corners, t.edges, t.faces, t.face), (1, 1, 8, 12, 5, 4));
}
