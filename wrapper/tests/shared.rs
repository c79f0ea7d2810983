//! A finished grid between threads, and a grid stored field by field and resumed.

use wattlerugby::{Grid, Point, Record, Refusal, Sides};

fn sphere() -> Grid {
    Grid::from_file(include_bytes!("../../samples/sphere.grid")).unwrap()
}

fn points(grid: &Grid) -> Vec<Result<Option<Point>, Refusal>> {
    (0..3).flat_map(|axis| (0..grid.status().len()).map(move |i| (i, axis))).map(|(i, axis)| grid.crossing(i, axis)).collect()
}

#[test]
fn threads_share_a_finished_grid() {
    let mut grid = sphere();
    grid.carve_to_the_end().unwrap();
    let both = || (points(&grid), grid.points().unwrap().collect::<Vec<_>>());
    let alone = both();
    std::thread::scope(|scope| {
        let others: Vec<_> = (0..4).map(|_| scope.spawn(both)).collect();
        for other in others {
            assert_eq!(other.join().unwrap(), alone);
        }
    });
}

/// The record's fields as numbers, and a record from them.
fn stored(r: Record) -> [i64; 9] {
    let Sides { a, b, c } = r.sides;
    let counts = [r.allowed.into(), r.openings.into(), r.removals as i64, r.examinations as i64, r.euler.into(), i64::from(r.finished)];
    [a as i64, b as i64, c as i64, counts[0], counts[1], counts[2], counts[3], counts[4], counts[5]]
}

fn resumed([a, b, c, allowed, openings, removals, examinations, euler, finished]: [i64; 9]) -> Record {
    Record {
        sides: Sides { a: a as usize, b: b as usize, c: c as usize },
        allowed: allowed as u16,
        openings: openings as u32,
        removals: removals as u64,
        examinations: examinations as u64,
        euler: euler as i32,
        finished: finished != 0,
    }
}

#[test]
fn a_stored_grid_goes_on() {
    let mut at_once = sphere();
    at_once.carve_to_the_end().unwrap();

    let mut grid = sphere();
    while grid.carve(10).unwrap().pending {
        let (record, dist, status) = grid.into_parts();
        grid = Grid::from_parts(resumed(stored(record)), dist, status).unwrap();
    }
    grid.finish().unwrap();
    assert_eq!(grid.clone().into_parts(), at_once.into_parts());

    let (record, dist, status) = grid.into_parts();
    assert!(Grid::from_parts(record, dist.clone(), status.clone()).is_ok(), "a finished grid is taken too");
    let wrong = [
        (Record { sides: Sides { a: 2, ..record.sides }, ..record }, Refusal::SIDE),
        (Record { sides: Sides { a: 11, ..record.sides }, ..record }, Refusal::LENGTH),
        (Record { openings: 1, ..record }, Refusal::UNFIT),
    ];
    for (record, number) in wrong {
        assert_eq!(Grid::from_parts(record, dist.clone(), status.clone()), Err(number));
    }
}
