//! Removal lists: what judge says of lists from calls and of lists that are spoiled, against the rule as it is written; which number comes first;
//! and that both buffers end as they began.

use wattlerugby::{judge, local_test, Entry, Grid, Judged, Record, Refusal, Sides};
use wattlerugby::{GONE, HURRIED, KEPT, MISSING, NO_LIMIT, PENDING, PINNED, UNMARKED};

struct Seed(u32);

impl Seed {
    fn below(&mut self, bound: usize) -> usize {
        self.0 = self.0.wrapping_mul(1_664_525).wrapping_add(1_013_904_223);
        (self.0 >> 16) as usize % bound
    }
}

/// Noise within the border: of 100 so many negative, and 5 missing.
fn noise(seed: &mut Seed, sides: Sides, negative: usize) -> Vec<i32> {
    let inner = |i: usize| {
        let place = [i % sides.a, i / sides.a % sides.b, i / (sides.a * sides.b)];
        place.iter().zip([sides.a, sides.b, sides.c]).all(|(&p, side)| (1..side - 1).contains(&p))
    };
    let value = |i: usize| match (seed.below(100), seed.below(50) as i32 + 1) {
        (chance, size) if chance < negative && inner(i) => -size,
        (chance, _) if (negative..negative + 5).contains(&chance) => MISSING,
        (_, size) => size,
    };
    (0..sides.voxels().unwrap()).map(value).collect()
}

// ---- the rule, as document 02 has it, by a look at every voxel each time it asks whether one passes

struct Rule<'a> {
    sides: Sides,
    allowed: u32,
    dist: &'a [i32],
    kept: Vec<bool>,
    counts: Judged,
}

impl Rule<'_> {
    /// The kept voxels around one, as the local test is given them. A kept voxel is off the border.
    fn block(&self, i: usize) -> u32 {
        let (row, layer) = (self.sides.a, self.sides.a * self.sides.b);
        let around = |bit: usize| i + bit % 3 + row * (bit / 3 % 3) + layer * (bit / 9) - 1 - row - layer;
        (0..27).filter(|&bit| self.kept[around(bit)]).map(|bit| 1 << bit).sum()
    }

    fn outside(&self, i: usize) -> bool {
        self.kept[i] && self.dist[i] >= 0
    }

    fn passes(&self, i: usize) -> bool {
        self.outside(i) && {
            let test = local_test(self.block(i));
            (test.k, test.m) == (1, 1)
        }
    }

    fn some_passes(&self) -> bool {
        (0..self.kept.len()).any(|i| self.passes(i))
    }

    fn bare(&self, i: usize) -> bool {
        [1, self.sides.a, self.sides.a * self.sides.b].iter().any(|step| !self.kept[i - step] || !self.kept[i + step])
    }

    fn allows(&self, entry: Entry) -> bool {
        let i = entry.index() as usize;
        match entry {
            Entry::Ordinary(_) => self.passes(i),
            Entry::Opening(_) => self.outside(i) && self.bare(i) && !self.some_passes() && self.counts.openings < self.allowed,
        }
    }

    fn goes(&mut self, entry: Entry) {
        let i = entry.index() as usize;
        let test = local_test(self.block(i));
        if entry.opens() {
            self.counts.openings += 1;
            self.counts.euler += test.k as i32 - test.m as i32;
        }
        self.counts.removals += 1;
        self.kept[i] = false;
    }
}

/// What judge is to say of a list on a fit grid that is not finished.
fn by_rule(record: Record, dist: &[i32], status: &[u8], list: &[u8]) -> Result<Judged, Refusal> {
    let (kept, counts) = (status.iter().map(|&s| s != GONE).collect(), Judged { removals: 0, openings: 0, euler: 1 });
    let mut rule = Rule { sides: record.sides, allowed: record.allowed.into(), dist, kept, counts };
    for bytes in list.chunks(Entry::LENGTH) {
        let entry = Entry::first(bytes)?;
        if entry.index() as usize >= dist.len() {
            return Err(Refusal::INDEX);
        }
        if !rule.allows(entry) {
            return Err(Refusal::BREAKS_RULES);
        }
        rule.goes(entry);
    }
    match rule.some_passes() {
        true => Err(Refusal::STILL_PASSES),
        false => Ok(rule.counts),
    }
}

/// What judge says: the rule's answer, with both buffers as they were.
fn judged(grid: &Grid, list: &[u8]) -> Result<Judged, Refusal> {
    let (record, dist, mut status) = grid.clone().into_parts();
    let (dist_before, status_before) = (dist.clone(), status.clone());
    let answer = judge(record, &dist, &mut status, list);
    assert!(dist == dist_before && status == status_before, "a buffer changed by {list:02X?}");
    assert_eq!(answer, by_rule(record, &dist, &status, list), "{record:?} {list:02X?}");
    answer
}

// ---- lists of our own calls

/// The removals of carve with limit 1 and open in turn, to the end.
fn own(mut grid: Grid) -> (Vec<Entry>, Grid) {
    let mut made = Vec::new();
    loop {
        let before = grid.status().to_vec();
        let carved = grid.carve(1).unwrap();
        let gone = (0..before.len()).find(|&i| before[i] != GONE && grid.status()[i] == GONE);
        made.extend(gone.map(|i| Entry::Ordinary(i as u32)));
        if !carved.pending {
            match grid.open() {
                Ok(opened) => made.push(Entry::Opening(opened.index as u32)),
                Err(_) => return (made, grid),
            }
        }
    }
}

/// Grids from seeds: the values, T, and how many voxels are negative vary.
fn grids(rounds: usize, each: impl Fn(&mut Seed, Sides, u16, Vec<i32>)) {
    let mut seed = Seed(11);
    for round in 0..rounds {
        let sides = Sides { a: 4 + round % 4, b: 4 + round / 4 % 3, c: 3 + round % 5 };
        let values = noise(&mut seed, sides, [8, 20, 35, 50][round % 4]);
        each(&mut seed, sides, [0, 1, 3, u16::MAX][round / 3 % 4], values);
    }
}

#[test]
fn our_own_list_is_accepted_with_our_counts() {
    let met = std::cell::Cell::new([0; 4]);
    grids(240, |seed, sides, allowed, values| {
        let marks: Vec<u8> = values.iter().map(|_| if seed.below(8) == 0 { HURRIED } else { UNMARKED }).collect();
        let Ok(begun) = Grid::begin_marked(sides, allowed, &values, &marks) else { return };
        let (made, ended) = own(begun.clone());
        let record = ended.record();
        let wanted = Judged { removals: record.removals, openings: record.openings, euler: record.euler };
        assert_eq!(judged(&begun, &Entry::list(&made)), Ok(wanted));
        // the record's own counts and what is pending are not read: the grid at its end takes the list of nothing
        assert_eq!(judged(&ended, &[]), Ok(Judged { removals: 0, openings: 0, euler: 1 }));
        let [grids, opened, several, tunnels] = met.get();
        let more = [1, u32::from(record.openings > 0), u32::from(record.openings > 1), u32::from(record.euler != 1)];
        met.set([grids + more[0], opened + more[1], several + more[2], tunnels + more[3]]);
    });
    let [grids, opened, several, tunnels] = met.get();
    assert!(grids > 200 && opened > 40 && several > 20 && tunnels > 30, "too little is tried: {:?}", met.get());
}

/// A list of ours, spoiled: an entry less or twice, two exchanged, all shuffled, a mark changed, another voxel, cut in an entry, an opening anywhere.
fn spoiled(seed: &mut Seed, entries: &[Entry], n: usize, kind: usize) -> Vec<u8> {
    let (mut made, at, other) = (entries.to_vec(), seed.below(entries.len()), seed.below(entries.len()));
    match kind {
        0 => drop(made.remove(at)),
        1 => made.insert(other, entries[at]),
        2 => made.swap(at, other),
        3 => (1..made.len()).for_each(|i| made.swap(i, seed.below(i + 1))),
        4 => made[at] = if made[at].opens() { Entry::Ordinary(made[at].index()) } else { Entry::Opening(made[at].index()) },
        5 => made[at] = Entry::Ordinary(seed.below(n) as u32),
        6 => made.truncate(at),
        7 => made[at] = Entry::Ordinary((n + seed.below(3)) as u32),
        11 => made.push(Entry::Opening(seed.below(n) as u32)),
        12 => made.insert(at, Entry::Opening(seed.below(n) as u32)),
        _ => {}
    }
    let mut list = Entry::list(&made);
    match kind {
        8 => list.truncate(6 * at + 1 + seed.below(5)),
        9 => list[6 * at + seed.below(2)] ^= 1 << seed.below(8),
        10 => list[6 * at + 2 + seed.below(4)] ^= 1 << seed.below(8),
        _ => {}
    }
    list
}

#[test]
fn spoiled_lists() {
    const NUMBERS: [u8; 6] = [0, 5, 21, 22, 32, 33];
    let met = std::cell::Cell::new([0; 6]);
    grids(400, |seed, sides, allowed, values| {
        let Ok(begun) = Grid::begin(sides, allowed, &values) else { return };
        let (made, _) = own(begun.clone());
        for kind in (0..13).filter(|_| !made.is_empty()) {
            let list = spoiled(seed, &made, values.len(), kind);
            let number = judged(&begun, &list).map_or_else(|refused| refused.0, |_| 0);
            let mut counts = met.get();
            counts[NUMBERS.iter().position(|&n| n == number).expect("a number of judge")] += 1;
            met.set(counts);
        }
    });
    assert!(met.get().iter().all(|&count| count > 50), "some number is seldom met: {NUMBERS:?} {:?}", met.get());
}

/// Lists in any order that the rules allow: what passes is taken at random, and where nothing does any bare voxel is opened.
#[test]
fn other_orders_are_accepted() {
    let met = std::cell::Cell::new([0; 2]);
    grids(200, |seed, sides, allowed, values| {
        let Ok(begun) = Grid::begin(sides, allowed, &values) else { return };
        let (ours, ended) = own(begun.clone());
        let (record, dist, status) = begun.clone().into_parts();
        let (kept, counts) = (status.iter().map(|&s| s != GONE).collect(), Judged { removals: 0, openings: 0, euler: 1 });
        let mut rule = Rule { sides, allowed: record.allowed.into(), dist: &dist, kept, counts };
        let mut made = Vec::new();
        loop {
            let pass: Vec<usize> = (0..values.len()).filter(|&i| rule.passes(i)).collect();
            let open: Vec<usize> = (0..values.len()).filter(|&i| rule.outside(i) && rule.bare(i)).collect();
            let next = match (pass.len(), open.len()) {
                (0, 0) => break,
                (0, _) if rule.counts.openings >= rule.allowed => break,
                (0, some) => Entry::Opening(open[seed.below(some)] as u32),
                (some, _) => Entry::Ordinary(pass[seed.below(some)] as u32),
            };
            rule.goes(next);
            made.push(next);
        }
        assert_eq!(judged(&begun, &Entry::list(&made)), Ok(rule.counts));
        // where both ended with nothing to open, the same voxels are kept
        let same = rule.kept.iter().zip(ended.status()).all(|(&kept, &s)| kept == (s != GONE));
        let closed = ended.clone().open() == Err(Refusal::NOTHING_TO_OPEN);
        assert!(same || !closed || !(0..values.len()).all(|i| !rule.outside(i) || !rule.bare(i)));
        let [orders, same_body] = met.get();
        met.set([orders + u32::from(made != ours), same_body + u32::from(same && closed)]);
    });
    assert!(met.get().iter().all(|&count| count > 100), "too little is tried: {:?}", met.get());
}

/// A tube with both ends open and no opening allowed: the skin that closes it lies wherever the list ends, and in one place where we carve.
#[test]
fn the_skin_may_lie_elsewhere() {
    let sides = Sides { a: 5, b: 5, c: 7 };
    let ring = |i: usize| (6..19).contains(&(i % 25)) && (1..4).contains(&(i % 5)) && i % 25 != 12;
    let values: Vec<i32> = (0..175).map(|i| if ring(i) && (1..6).contains(&(i / 25)) { -4 } else { 4 }).collect();
    let begun = Grid::begin(sides, 0, &values).unwrap();
    let (ours, _) = own(begun.clone());
    for skin in 1..6 {
        let (below, above) = ((1..skin), (skin + 1..6).rev());
        let made: Vec<Entry> = below.chain(above).map(|z| Entry::Ordinary(25 * z + 12)).collect();
        assert_eq!(judged(&begun, &Entry::list(&made)), Ok(Judged { removals: 4, openings: 0, euler: 1 }), "skin in layer {skin}");
    }
    assert_eq!(ours.len(), 4);
    let all: Vec<Entry> = (1..6).map(|z| Entry::Ordinary(25 * z + 12)).collect();
    assert_eq!(judged(&begun, &Entry::list(&all)), Err(Refusal::BREAKS_RULES)); // the last would open the tube
}

/// From a coarse start, whose body is handed out as blocks.
#[test]
fn lists_from_a_coarse_start() {
    let (mut seed, mut with_removals) = (Seed(12), 0);
    for round in 0..60 {
        let sides = Sides { a: 8 + 2 * (round % 3), b: 8, c: 8 };
        let off =
            |i: usize| [i % sides.a, i / sides.a % 8, i / (sides.a * 8)].iter().zip([sides.a, 8, 8]).all(|(&p, s)| (2..s - 2).contains(&p));
        let values: Vec<i32> = (0..sides.a * 64).map(|i| if off(i) && seed.below(3) == 0 { -4 } else { 4 }).collect();
        let Ok((begun, _)) = Grid::begin_coarse(sides, [0, 2, u16::MAX][round % 3], &values) else { continue };
        let (made, ended) = own(begun.clone());
        let (Record { removals, openings, euler, .. }, some) = (ended.record(), !made.is_empty());
        assert_eq!(judged(&begun, &Entry::list(&made)), Ok(Judged { removals, openings, euler }));
        with_removals += usize::from(some);
    }
    assert!(with_removals > 40, "{with_removals}");
}

// ---- marks, which judge is not lent

/// Case D: 21 and 26 are inside, 22 and 25 fill the box and pass.
fn case_d(allowed: u16, marks: &[u8; 48]) -> Grid {
    let mut values = [6; 48];
    (values[21], values[26]) = (-6, -6);
    Grid::begin_marked(Sides { a: 4, b: 4, c: 3 }, allowed, &values, marks).unwrap()
}

#[test]
fn judge_knows_no_pins() {
    let mut marks = [UNMARKED; 48];
    marks[22] = PINNED;
    let begun = case_d(0, &marks);
    assert_eq!((begun.status()[22], begun.status()[25]), (KEPT, PENDING));
    let (made, ended) = own(begun.clone());
    assert_eq!((&made[..], ended.status()[22]), (&[Entry::Ordinary(25)][..], KEPT));
    // the pin held a voxel that passes
    assert_eq!(judged(&begun, &Entry::list(&made)), Err(Refusal::STILL_PASSES));
    // without pins it goes, pending or not
    let both = Entry::list(&[Entry::Ordinary(25), Entry::Ordinary(22)]);
    assert_eq!(judged(&begun, &both), Ok(Judged { removals: 2, openings: 0, euler: 1 }));
}

// ---- the order of checks, and the grid's own

#[test]
fn each_number_in_its_place() {
    let grid = case_d(1, &[UNMARKED; 48]);
    let (record, dist, status) = grid.clone().into_parts();
    let with = |record: Record, dist: &[i32], status: &[u8], list: &[u8]| {
        let (mut lent, before) = (status.to_vec(), status.to_vec());
        let answer = judge(record, dist, &mut lent, list);
        assert_eq!(lent, before);
        answer.unwrap_err()
    };
    let wrong_mark = [0x56, 0x50, 0, 0, 0, 0];
    let sides = |a: usize| Record { sides: Sides { a, ..record.sides }, openings: 9, ..record };
    assert_eq!(with(sides(2), &dist[1..], &status, &wrong_mark), Refusal::SIDE);
    assert_eq!(with(Record { openings: 9, ..record }, &dist[1..], &status, &wrong_mark), Refusal::LENGTH);
    assert_eq!(with(Record { openings: 9, ..record }, &dist, &status[1..], &wrong_mark), Refusal::LENGTH);
    assert_eq!(with(Record { openings: 2, finished: true, ..record }, &dist, &status, &wrong_mark), Refusal::UNFIT);
    assert_eq!(with(Record { finished: true, ..record }, &dist, &status, &wrong_mark), Refusal::FINISHED);
    // 21, 22, 5, 32 of an entry, all before the next one; 33 last
    let list = |parts: &[&[u8]]| judged(&grid, &parts.concat()).unwrap_err();
    let entry = |i: u32| Entry::Ordinary(i).bytes();
    assert_eq!(list(&[&wrong_mark[..5]]), Refusal::SHORT);
    assert_eq!(list(&[&wrong_mark, &wrong_mark[..5]]), Refusal::MARK);
    assert_eq!(list(&[&entry(48), &wrong_mark]), Refusal::INDEX);
    assert_eq!(list(&[&entry(u32::MAX), &wrong_mark]), Refusal::INDEX);
    assert_eq!(list(&[&entry(21), &entry(48)]), Refusal::BREAKS_RULES);
    assert_eq!(list(&[&entry(22), &[0x56]]), Refusal::SHORT);
    assert_eq!(list(&[&entry(22)]), Refusal::STILL_PASSES);
    // a border voxel is never kept; a mark needs both its bytes
    assert_eq!(list(&[&entry(0)]), Refusal::BREAKS_RULES);
    for mark in [[0x52, 0x56], [0x56, 0], [0, 0x52], [0x57, 0x52], [0x4F, 0x4F]] {
        assert_eq!(list(&[&[mark[0], mark[1], 22, 0, 0, 0]]), Refusal::MARK, "{mark:02X?}");
    }
}

/// The worked lists of the rule's page: which openings may come, and when.
#[test]
fn openings_at_their_turn() {
    let ring = |allowed: u16| {
        let mut values = [4; 90];
        for i in [37, 38, 39, 40, 43, 46, 49, 50, 51, 52] {
            values[i] = -4;
        }
        Grid::begin(Sides { a: 6, b: 5, c: 3 }, allowed, &values).unwrap()
    };
    let counts = |removals, openings, euler| Ok(Judged { removals, openings, euler });
    let (first, second) = (Entry::Opening(44), Entry::Opening(45));
    let say = |allowed: u16, entries: &[Entry]| judged(&ring(allowed), &Entry::list(entries));
    assert_eq!(say(0, &[]), counts(0, 0, 1));
    assert_eq!(say(1, &[first, Entry::Ordinary(45)]), counts(2, 1, 0));
    assert_eq!(say(1, &[second, Entry::Ordinary(44)]), counts(2, 1, 0));
    assert_eq!(say(1, &[first]), Err(Refusal::STILL_PASSES));
    assert_eq!(say(0, &[first, Entry::Ordinary(45)]), Err(Refusal::BREAKS_RULES)); // one over T
    assert_eq!(say(9, &[first, second]), Err(Refusal::BREAKS_RULES)); // the second passes by then
    assert_eq!(say(9, &[Entry::Ordinary(44)]), Err(Refusal::BREAKS_RULES)); // it does not pass
    assert_eq!(say(9, &[Entry::Opening(43)]), Err(Refusal::BREAKS_RULES)); // inside
                                                                           // a voxel with its six face neighbours inside: nothing passes any more, and it does not lie bare
    let apart = |i: usize| [i % 5, i / 5 % 5, i / 25].iter().map(|p| p.abs_diff(2)).sum::<usize>();
    let values: Vec<i32> = (0..125).map(|i| if apart(i) == 1 { -4 } else { 4 }).collect();
    let cross = Grid::begin(Sides { a: 5, b: 5, c: 5 }, 9, &values).unwrap();
    let (made, _) = own(cross.clone());
    let list = Entry::list(&made);
    assert_eq!(judged(&cross, &list), counts(20, 0, 1));
    assert_eq!(judged(&cross, &[&list[..], &Entry::Opening(62).bytes()].concat()), Err(Refusal::BREAKS_RULES));
}

/// The record's own openings do not count against T, and its removals and Euler number are not added.
#[test]
fn the_records_own_counts_are_not_read() {
    let grid = case_d(1, &[UNMARKED; 48]);
    let (record, dist, mut status) = grid.into_parts();
    let given = Record { openings: 1, removals: 48, examinations: 27 * 48, euler: -8 * 48, ..record };
    let both = Entry::list(&[Entry::Ordinary(22), Entry::Ordinary(25)]);
    assert_eq!(judge(given, &dist, &mut status, &both), Ok(Judged { removals: 2, openings: 0, euler: 1 }));
}

/// Every pattern of pending voxels is given back, after an accepted list and after one that is refused halfway.
#[test]
fn status_bytes_are_put_back() {
    let sides = Sides { a: 5, b: 5, c: 5 };
    let mut values = [4; 125];
    values[62] = -4;
    (values[31], values[93]) = (-4, -4);
    let mut grid = Grid::begin(sides, 0, &values).unwrap();
    let list = Entry::list(&own(grid.clone()).0);
    let mut seed = Seed(13);
    for _ in 0..200 {
        let (record, dist, mut status) = grid.into_parts();
        for s in status.iter_mut().zip(&dist).filter(|(s, d)| **s != GONE && **d >= 0).map(|(s, _)| s) {
            *s = [KEPT, PENDING][seed.below(2)];
        }
        grid = Grid::from_parts(record, dist, status).unwrap();
        assert!(judged(&grid, &list).is_ok());
        assert!(judged(&grid, &[&list[..6 * (list.len() / 12)], &[0x56]].concat()).is_err());
    }
    let before = grid.clone();
    assert!(grid.judge(&list).is_ok() && grid == before, "a Grid is as it was");
    grid.carve(NO_LIMIT).unwrap();
    assert_eq!(grid.judge(&list), Err(Refusal::BREAKS_RULES)); // what the list removes is gone already
}

/// The largest grid: a floor with a column at its corner, and over 200,000 voxels taken off in layers, each in an order of its own.
#[test]
fn a_large_grid() {
    let sides = Sides { a: 64, b: 64, c: 64 };
    let inner = (1..63).flat_map(|z| (1..63).flat_map(move |y| (1..63).map(move |x| (x, y, z))));
    let at = |(x, y, z): (usize, usize, usize)| x + 64 * (y + 64 * z);
    let inside = |&(x, y, z): &(usize, usize, usize)| z == 1 || (x, y) == (1, 1);
    let mut values = vec![9; sides.voxels().unwrap()];
    inner.clone().filter(inside).for_each(|place| values[at(place)] = -9);
    let mut grid = Grid::begin(sides, 0, &values).unwrap();
    let (mut seed, mut entries) = (Seed(14), Vec::new());
    for z in (2..63).rev() {
        let mut layer: Vec<_> =
            inner.clone().filter(|place| place.2 == z && !inside(place)).map(|place| Entry::Ordinary(at(place) as u32)).collect();
        (1..layer.len()).for_each(|i| layer.swap(i, seed.below(i + 1)));
        entries.extend(layer);
    }
    let (before, list) = (grid.clone(), Entry::list(&entries));
    assert_eq!(grid.judge(&list), Ok(Judged { removals: 61 * (62 * 62 - 1), openings: 0, euler: 1 }));
    assert_eq!(grid.judge(&list[..list.len() - 6]), Err(Refusal::STILL_PASSES));
    assert_eq!(grid.judge(&[&list[..], &list[..6]].concat()), Err(Refusal::BREAKS_RULES));
    assert_eq!(grid.judge(&list[6 * (62 * 62 - 1)..]), Err(Refusal::BREAKS_RULES)); // the second layer first
    assert!(grid == before);
}
