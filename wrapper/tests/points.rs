//! All points of a body: each is what crossing answers, in whatever stretches they are asked for.

use wattlerugby::{points, Filled, Grid, Point, Record, Refusal, Sides, GONE, KEPT};

/// A finished grid of single voxels: more points than one call of the iterator gives.
fn checkered() -> Grid {
    let sides = Sides { a: 18, b: 19, c: 20 };
    let n = sides.voxels().expect("fit sides");
    let inner = |v: usize, side: usize| v > 0 && v + 1 < side;
    let kept = |i: usize| {
        let (x, y, z) = (i % sides.a, i / sides.a % sides.b, i / (sides.a * sides.b));
        inner(x, sides.a) && inner(y, sides.b) && inner(z, sides.c) && (x + y + z) % 2 == 0
    };
    let dist = (0..n).map(|i| if kept(i) { -1 - (i % 7) as i32 } else { (i % 5) as i32 }).collect();
    let status = (0..n).map(|i| if kept(i) { KEPT } else { GONE }).collect();
    Grid::from_parts(Record { sides, euler: 1, finished: true, ..Record::default() }, dist, status).expect("fit parts")
}

fn bits(p: Point) -> [u64; 3] {
    [p.x, p.y, p.z].map(f64::to_bits)
}

/// By a call of crossing for each position that has a point.
fn by_crossing(grid: &Grid) -> Vec<Point> {
    let Sides { a, b, c } = grid.record().sides;
    let (dist, steps) = (grid.distances(), [(1, a), (a, b), (a * b, c)]);
    let mut all = Vec::new();
    for position in 0..3 * dist.len() {
        let (index, (step, side)) = (position / 3, steps[position % 3]);
        if index / step % side + 1 < side && (dist[index] < 0) != (dist[index + step] < 0) {
            all.extend(grid.crossing(index, (position % 3) as u32).expect("a finished grid"));
        }
    }
    all
}

#[test]
fn the_iterator_gives_what_crossing_gives() {
    let mut sphere = Grid::from_file(include_bytes!("../../samples/sphere.grid")).expect("a sample");
    sphere.carve_to_the_end().expect("a begun grid");
    for grid in [checkered(), sphere] {
        let wanted: Vec<_> = by_crossing(&grid).into_iter().map(bits).collect();
        let found: Vec<_> = grid.points().expect("a finished grid").map(bits).collect();
        assert!(found == wanted, "{} points where crossing gives {}", found.len(), wanted.len());
        assert!(grid.status().len() < 2000 || wanted.len() > 3 * 4096);
    }
}

#[test]
fn every_stretch_goes_on_where_the_last_one_ended() {
    let grid = checkered();
    let all: Vec<f64> = grid.points().expect("a finished grid").flat_map(|p| [p.x, p.y, p.z]).collect();
    let end = 3 * grid.status().len();
    for room in [3, 4, 100, 1000, all.len(), all.len() + 9] {
        let (mut found, mut next, mut out) = (Vec::new(), 0, vec![-1.0; room]);
        while next < end && (room > 99 || found.len() < 300) {
            out.fill(-1.0);
            let Filled { count, next: on } = points(grid.record(), grid.distances(), grid.status(), next, &mut out).expect("finished");
            assert!(out[3 * count..].iter().all(|&d| d == -1.0), "the rest stays as it was");
            found.extend_from_slice(&out[..3 * count]);
            next = on;
        }
        assert!(found == all[..found.len()] && (next < end || found.len() == all.len()), "room for {room}");
    }
}

#[test]
fn refusals() {
    let grid = checkered();
    let end = 3 * grid.status().len();
    let mut out = [7.0; 4];
    let mut at = |position| points(grid.record(), grid.distances(), grid.status(), position, &mut out);
    assert_eq!(at(end), Ok(Filled { count: 0, next: end }));
    assert_eq!(at(end + 1), Err(Refusal::INDEX));
    assert_eq!(at(usize::MAX), Err(Refusal::INDEX));
    assert_eq!(out, [7.0; 4]);
    let (record, dist, status) = grid.into_parts();
    let begun = Grid::from_parts(Record { finished: false, ..record }, dist, status).expect("fit parts");
    assert_eq!(begun.points().err(), Some(Refusal::NOT_FINISHED));
}
