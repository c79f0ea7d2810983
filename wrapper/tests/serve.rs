//! Many scans at once: whose turn it is, against the rule as it is written; each grid as alone; which number comes first, and what a refusal leaves; and an
//! office that grids come to and go from.

use wattlerugby::{carve, practice_values, serve, Grid, Office, Order, Record, Refusal, Service, Sides};
use wattlerugby::{HURRIED, PENDING, PINNED, UNMARKED};

struct Seed(u32);

impl Seed {
    fn below(&mut self, bound: usize) -> usize {
        self.0 = self.0.wrapping_mul(1_664_525).wrapping_add(1_013_904_223);
        (self.0 >> 16) as usize % bound
    }
}

/// A practice grid of some sides, begun plainly or coarsely, with marks by chance.
fn grid(seed: &mut Seed) -> Grid {
    loop {
        let sides = Sides { a: 4 + seed.below(4), b: 4 + seed.below(4), c: 4 + seed.below(4) };
        let mut values = practice_values(sides, seed.0).unwrap();
        let marks: Vec<u8> =
            values.iter().map(|_| if seed.below(10) == 0 { [PINNED, HURRIED, 3][seed.below(3)] } else { UNMARKED }).collect();
        if sides.a % 2 + sides.b % 2 + sides.c % 2 == 0 && seed.below(2) == 0 {
            // what is negative stays two voxels off the edge
            let near = |i: usize| {
                [(i % sides.a, sides.a), (i / sides.a % sides.b, sides.b), (i / (sides.a * sides.b), sides.c)]
                    .iter()
                    .any(|&(at, side)| at < 2 || at + 3 > side)
            };
            (0..values.len()).filter(|&i| near(i)).for_each(|i| values[i] = values[i].abs());
            if let Ok((grid, _)) = Grid::begin_coarse_marked(sides, 2, &values, &marks) {
                return grid;
            }
        }
        if let Ok(grid) = Grid::begin_marked(sides, 2, &values, &marks) {
            return grid;
        }
    }
}

/// The place whose turn it is: never served first, from 0 up, and then as the order record has them.
fn due(office: &Office) -> Option<usize> {
    let served = office.order();
    let never = (0..office.grids()).filter(|place| !served.contains(&(*place as u8)));
    never.chain(served.iter().map(|&place| usize::from(place))).find(|&place| office.status(place).contains(&PENDING))
}

/// Each grid has a twin outside, on which the same carve is made.
#[test]
fn each_grid_as_alone() {
    let (mut calls, mut longest) = (0, 0);
    for round in 0..60 {
        let mut seed = Seed(round);
        let mut twins: Vec<Grid> = (0..1 + seed.below(16)).map(|_| grid(&mut seed)).collect();
        let mut office = Office::new();
        for (place, twin) in twins.iter().enumerate() {
            assert_eq!(office.add(twin.clone()), Ok(place));
        }
        let mut waited = vec![0; twins.len()];
        loop {
            let limit = [1, 1, 2, 3, 10, 1000][seed.below(6)];
            let (place, waiting): (_, Vec<usize>) =
                (due(&office), (0..twins.len()).filter(|&place| office.status(place).contains(&PENDING)).collect());
            let service = match office.serve(limit) {
                Ok(service) => service,
                Err(refused) => {
                    assert_eq!((refused, place), (Refusal::NOTHING_PENDING, None), "{round}");
                    break;
                }
            };
            assert_eq!(Some(service.place), place, "{round}");
            assert_eq!(twins[service.place].carve(limit), Ok(service.carved), "{round}");
            for (place, twin) in twins.iter().enumerate() {
                let ours = (office.record(place), office.distances(place), office.status(place), office.marks(place));
                assert_eq!(ours, (twin.record(), twin.distances(), twin.status(), twin.marks()), "{round}: place {place}");
            }
            for other in waiting {
                waited[other] = if other == service.place { 0 } else { waited[other] + 1 };
                assert!(waited[other] < twins.len(), "{round}: place {other} waits");
                longest = longest.max(waited[other]);
            }
            assert_eq!(office.order().last(), Some(&(service.place as u8)));
            calls += 1;
            let (place, i) = (seed.below(twins.len()), seed.below(64));
            if seed.below(3) == 0 {
                office.marks_mut(place)[i] = PINNED;
                twins[place].marks_mut()[i] = PINNED;
            }
        }
    }
    assert!(calls > 1000 && longest == 15, "{calls} {longest}");
}

/// Grids come and go between calls, and each comes to what it comes to alone.
#[test]
fn grids_come_and_go() {
    for round in 0..40 {
        let mut seed = Seed(round);
        let (mut office, mut twins) = (Office::new(), Vec::new());
        let (mut added, mut ended) = (0, Vec::new());
        while added < 20 || office.grids() > 0 {
            if added < 20 && office.grids() < 16 && (office.grids() == 0 || seed.below(4) == 0) {
                let new = grid(&mut seed);
                let mut twin = new.clone();
                twin.carve(u32::MAX).unwrap();
                assert_eq!(office.add(new), Ok(twins.len()));
                twins.push(twin);
                added += 1;
            }
            // the order record is fit, whatever came and went
            let mut order = office.order().to_vec();
            order.sort_unstable();
            order.dedup();
            assert!(order.len() == office.order().len() && order.iter().all(|&place| usize::from(place) < office.grids()));
            let before = (office.order().to_vec(), due(&office));
            match office.serve(1 + seed.below(20) as u32) {
                Ok(service) => assert_eq!(Some(service.place), before.1),
                Err(refused) => assert_eq!((refused, before), (Refusal::NOTHING_PENDING, (office.order().to_vec(), None))),
            }
            let place = seed.below(office.grids());
            if !office.status(place).contains(&PENDING) {
                let (served, turns) = (office.grids(), office.order().to_vec());
                let gone = office.take_out(place);
                let twin = twins.remove(place);
                assert_eq!((gone.record().removals, gone.status(), gone.marks()), (twin.record().removals, twin.status(), twin.marks()));
                ended.push(gone);
                // the others keep their turns
                let left = turns.iter().map(|&place| usize::from(place)).filter(|&other| other != place);
                let left: Vec<u8> = left.map(|other| (other - usize::from(other > place)) as u8).collect();
                assert_eq!((office.order(), office.grids()), (&left[..], served - 1));
            }
        }
        assert_eq!(ended.len(), 20);
        assert_eq!(office, Office::new());
    }
}

/// An office of three with all in one: a fault each, and the numbers in their order, each on all grids before the next.
#[test]
fn numbers_in_their_order() {
    let three: Vec<Grid> = (0..3).map(|place| grid(&mut Seed(100 + place))).collect();
    let records: Vec<Record> = three.iter().map(Grid::record).collect();
    let dist: Vec<i32> = three.iter().flat_map(|grid| grid.distances().to_vec()).collect();
    let status: Vec<u8> = three.iter().flat_map(|grid| grid.status().to_vec()).collect();
    let (n, first) = (dist.len(), three[0].status().len());
    let order = Order::of(&[1]);
    let call = |records: &[Record], mut given: Order, limit: u32, lent: usize, marks: &[u8], status: &[u8]| {
        let (mut left, before) = (status.to_vec(), given);
        let answer = serve(records, &mut given, &dist[..lent], marks, &mut left, limit);
        if answer.is_err() {
            assert_eq!((given, &left[..]), (before, status));
        }
        answer.map(|Service { place, .. }| place).map_err(|refused| refused.0)
    };
    let none = vec![UNMARKED; n];
    assert_eq!(call(&records, order, 1, n, &none, &status), Ok(0));

    // from the last number to the first, each in the first grid where what comes before it is in the last
    let idle: Vec<u8> = status.iter().map(|&s| s.min(1)).collect();
    assert_eq!(call(&records, order, 1, n, &none, &idle), Err(35));
    let mut given = records.clone();
    given[0].finished = true;
    assert_eq!(call(&given, order, 1, n, &none, &idle), Err(8));
    assert_eq!(call(&given, order, 1, n, &none, &status), Err(8));
    let mut marks = none.clone();
    marks[n - 1] = 4;
    assert_eq!(call(&given, order, 1, n, &marks, &status), Err(29));
    marks[0] = 255;
    given[2].removals = u64::MAX;
    assert_eq!(call(&given, order, 1, n, &marks, &status), Err(7));
    given[2].removals = 0;
    for unfit in [&[0, 0][..], &[3], &[255], &[0, 1, 2, 0]] {
        assert_eq!(call(&given, Order::of(unfit), 1, n, &marks, &status), Err(7), "{unfit:?}");
    }
    let mut spoilt = status.clone();
    spoilt[first] = 2;
    assert_eq!(call(&given, order, 1, n, &marks, &spoilt), Err(7));
    assert_eq!(call(&given, Order::of(&[9]), 1, n - 1, &marks, &spoilt), Err(2));
    assert_eq!(call(&given, Order::of(&[9]), 1, n, &marks[1..], &spoilt), Err(2));
    assert_eq!(call(&given, Order::of(&[9]), 1, n, &marks, &spoilt[1..]), Err(2));
    given[2].sides.c = 65;
    assert_eq!(call(&given, Order::of(&[9]), 1, n - 1, &marks, &spoilt), Err(1));
    for limit in [0, 1001, 1 << 16, u32::MAX] {
        assert_eq!(call(&given, Order::of(&[9]), limit, 0, &[], &[]), Err(34));
    }
    assert_eq!([call(&[], order, 1, 0, &[], &[]), call(&[records[0]; 17], order, 1, 0, &[], &[])], [Err(34); 2]);
    assert_eq!(call(&[records[0]; 16], order, 1, 0, &[], &[]), Err(2));
}

/// One grid is carved as by carve, up to 1,000 examinations.
#[test]
fn one_grid_is_carved() {
    let sides = Sides { a: 14, b: 14, c: 14 };
    let mut values = [9; 2744];
    (1..13).for_each(|k| values[k * (1 + 14 + 196)] = -9);
    let begun = Grid::begin(sides, 0, &values).unwrap();
    for limit in [1, 2, 255, 256, 999, 1000] {
        let (record, dist, marks) = (begun.record(), begun.distances(), begun.marks());
        let (mut ours, mut theirs, mut order) = (begun.status().to_vec(), begun.status().to_vec(), Order::EMPTY);
        let service = serve(&[record], &mut order, dist, marks, &mut ours, limit).unwrap();
        assert_eq!(service, Service { place: 0, carved: carve(record, dist, marks, &mut theirs, limit).unwrap() });
        assert_eq!((service.carved.examined, service.carved.pending), (limit, true));
        assert_eq!((ours, order.served()), (theirs, &[0][..]));
    }
}

/// What an office does not take is given back, and what nobody is at is refused.
#[test]
fn seats() {
    let one = grid(&mut Seed(7));
    let mut office = Office::new();
    assert_eq!((office.serve(1), office.grids(), office.order()), (Err(Refusal::OFFICE), 0, &[][..]));
    for place in 0..16 {
        assert_eq!(office.add(one.clone()), Ok(place));
    }
    assert_eq!(office.add(one.clone()), Err(one.clone()));
    office.marks_mut(15)[3] = 9;
    assert_eq!(office.serve(1), Err(Refusal::MARK_BYTE));
    office.marks_mut(15)[3] = UNMARKED;
    let served: Vec<usize> = (0..16).map(|_| office.serve(1).unwrap().place).collect();
    assert_eq!(served, (0..16).collect::<Vec<_>>());
    let mut closed = office.take_out(3);
    closed.carve_to_the_end().unwrap();
    assert_eq!(office.add(closed.clone()), Err(closed));
    assert_eq!((office.grids(), office.serve(1).unwrap().place), (15, 0));
}

#[test]
fn out_of_turn() {
    let ring = {
        let mut values = [4; 75];
        [31, 32, 33, 36, 38, 41, 42, 43].iter().for_each(|&i| values[i] = -4);
        Grid::begin(Sides { a: 5, b: 5, c: 3 }, 1, &values).unwrap()
    };
    let mut office = Office::new();
    assert_eq!((office.add(ring.clone()), office.add(ring.clone())), (Ok(0), Ok(1)));
    assert_eq!((office.take(1, 37), office.open(1)), (Err(Refusal::NOT_PASSED), Err(Refusal::STILL_PENDING)));
    assert_eq!([office.serve(9).unwrap().place, office.serve(9).unwrap().place], [0, 1]);
    assert_eq!(office.open(1).map(|opened| opened.index), Ok(37));
    assert_eq!((office.record(0).openings, office.record(1).openings), (0, 1));
    let mut alone = ring;
    alone.carve(9).unwrap();
    assert_eq!(office.take_out(0), alone);
    alone.open().unwrap();
    assert_eq!(office.take_out(0), alone);
}

#[test]
#[should_panic]
fn a_place_that_is_not_there() {
    Office::new().take_out(0);
}
