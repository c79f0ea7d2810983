//! Many scans at once (document 02, CR 14): whose turn it is, worked out by hand, the order record, and every number in its place.

use reference::grid::{begin, Record, Refused, Sides};
use reference::serve::{serve, Served};

const SIDES: Sides = Sides { a: 4, b: 4, c: 3 };
const N: usize = 48;

/// Document 01's case D at each place: 22 goes by high x, and then 25 by low x. Where the place does not wait, nothing is pending.
struct Office {
    records: Vec<Record>,
    order: Vec<u8>,
    dist: Vec<i32>,
    marks: Vec<u8>,
    status: Vec<u8>,
}

impl Office {
    fn of(waits: &[bool], order: &[u8]) -> Self {
        let mut office = Office { records: vec![], order: order.to_vec(), dist: vec![], marks: vec![], status: vec![] };
        for waits in waits {
            let mut values = [6; N];
            (values[21], values[26]) = (-6, -6);
            let (mut dist, mut status) = ([0; N], [0; N]);
            office.records.push(begin(SIDES, 0, &values, &[0; N], &mut dist, &mut status).expect("case D is begun"));
            office.dist.extend(dist);
            office.marks.extend([0; N]);
            office.status.extend(status.map(|s| if *waits { s } else { s.min(1) }));
        }
        office
    }

    fn call(&mut self, limit: u64) -> Result<Served, Refused> {
        serve(&mut self.records, &mut self.order, &self.dist, &self.marks, &mut self.status, limit)
    }

    fn place(&mut self, limit: u64) -> Option<usize> {
        self.call(limit).ok().map(|served| served.place)
    }
}

/// The place served, and the order record after it.
fn turn(waits: &[bool], order: &[u8]) -> (Option<usize>, Vec<u8>) {
    let mut office = Office::of(waits, order);
    (office.place(1), office.order)
}

#[test]
fn never_served_first_from_0_up() {
    assert_eq!(turn(&[true; 3], &[]), (Some(0), vec![0]));
    assert_eq!(turn(&[true; 3], &[0]), (Some(1), vec![0, 1]));
    assert_eq!(turn(&[true; 3], &[1, 0]), (Some(2), vec![1, 0, 2]));
    assert_eq!(turn(&[false, true, true], &[]), (Some(1), vec![1]));
    assert_eq!(turn(&[false, true, true], &[1]), (Some(2), vec![1, 2]));
    // 0 was never served, and has nothing pending
    assert_eq!(turn(&[false, true, true], &[2, 1]), (Some(2), vec![1, 2]));
}

#[test]
fn then_the_one_served_longest_ago() {
    assert_eq!(turn(&[true; 3], &[2, 0, 1]), (Some(2), vec![0, 1, 2]));
    assert_eq!(turn(&[true, true, false], &[2, 1, 0]), (Some(1), vec![2, 0, 1]));
    assert_eq!(turn(&[true, false, false], &[2, 1, 0]), (Some(0), vec![2, 1, 0]));
    assert_eq!(turn(&[false; 3], &[2, 1, 0]), (None, vec![2, 1, 0]));
}

#[test]
fn a_round_until_nothing_waits() {
    let mut office = Office::of(&[true; 3], &[]);
    let faces: Vec<(usize, u32, bool)> =
        std::iter::from_fn(|| office.call(1).ok()).map(|s| (s.place, s.carving.face, s.carving.pending)).collect();
    assert_eq!(faces, [(0, 1, true), (1, 1, true), (2, 1, true), (0, 0, false), (1, 0, false), (2, 0, false)]);
    assert_eq!((office.call(1).err(), office.order.clone()), (Some(35), vec![0, 1, 2]));
    assert!(office.records.iter().all(|r| (r.removals, r.examinations) == (2, 2)));
}

/// The marks of its own part, and no others.
#[test]
fn a_part_of_its_own() {
    let mut office = Office::of(&[true; 3], &[]);
    office.marks[N + 22] = 1;
    office.marks[2 * N + 25] = 2;
    let removed: Vec<(u64, u64)> = (0..3).map(|_| office.call(9).expect("all wait").carving).map(|c| (c.examined, c.removed)).collect();
    assert_eq!(removed, [(2, 2), (2, 1), (2, 2)]);
    assert_eq!([22, N + 22, 2 * N + 22].map(|i| office.status[i]), [0, 1, 0]);
}

/// Each fault in the last grid but the one that comes next in the first, so that no grid is done with before the others are looked at.
#[test]
fn every_number_in_its_place() {
    let mut office = Office::of(&[false; 3], &[1]);
    let refused = |office: &mut Office, limit: u64| {
        let before = (office.order.clone(), office.status.clone(), office.records.clone());
        let number = office.call(limit).err();
        assert_eq!((office.order.clone(), office.status.clone(), office.records.clone()), before);
        number
    };
    assert_eq!(refused(&mut office, 1), Some(35));
    office.records[0].finished = 2;
    assert_eq!(refused(&mut office, 1), Some(8));
    office.marks[3 * N - 1] = 4;
    assert_eq!(refused(&mut office, 1), Some(29));
    office.marks[0] = 255;
    for order in [&[0, 0][..], &[3], &[1, 2, 1], &[0, 1, 2, 3]] {
        office.order = order.to_vec();
        assert_eq!(refused(&mut office, 1), Some(7), "{order:?}");
    }
    office.order = vec![2, 0, 1];
    assert_eq!(refused(&mut office, 1), Some(29));
    office.records[2].removals = 49;
    assert_eq!(refused(&mut office, 1), Some(7));
    office.status[0] = 2;
    office.marks.push(0);
    assert_eq!(refused(&mut office, 1), Some(2));
    office.records[2].sides.a = 65;
    assert_eq!(refused(&mut office, 1), Some(1));
    for limit in [0, 1_001, 1 << 32] {
        assert_eq!(refused(&mut office, limit), Some(34));
    }
    assert_eq!((Office::of(&[], &[]).call(1).err(), Office::of(&[true; 17], &[]).call(1).err()), (Some(34), Some(34)));
    assert_eq!((Office::of(&[true; 16], &[]).place(1_000), Office::of(&[true; 16], &[9]).place(1)), (Some(0), Some(0)));
}
