//! The two Rust implementations against the reference, on small grids and on random calls; the local tests, and the race.

use crate::archive::now::Ours;
use crate::coarse::{by_parts, ours, Blocks};
use crate::contest::{begin, carve, contest, turns, Apart, Calls, Case, Log, State};
use crate::file::{read, write, Chunked, Indexed, Packed, Way};
use crate::grids;
use crate::grids::{blocks, bordered, inner, lengthened, patches, statuses, values, Marks, Random, Shape};
use crate::lists;
use crate::local::searched::{both, by_cells, by_frontiers, touched};
use crate::local::{bare_face, joined, passes, ranked, Whole};
use crate::neighbourhood::{gather, kept_bits};
use crate::office;
use crate::office::Office;
use crate::plain::{filled, Plain};
use crate::practice;
use crate::race::{median, race, Contestant};
use crate::tuned::Tuned;
use crate::types::{
    begun, size, Carved, Local, Machine, Opened, Record, Refused, Sides, Taken, Value, Values, HURRIED, MISSING, NO_FACE, PINNED, UNMARKED,
};
use reference::{grid, local, machine};
use std::cell::RefCell;
use std::collections::BTreeSet;
use wattlerugby::{patch, Order};

fn theirs(r: Record) -> grid::Record {
    let side = |s: usize| s as u64;
    grid::Record {
        sides: grid::Sides { a: side(r.sides.a), b: side(r.sides.b), c: side(r.sides.c) },
        t: r.allowed,
        openings: u64::from(r.openings),
        removals: r.removals,
        examinations: r.examinations,
        euler: i64::from(r.euler),
        finished: u8::from(r.finished),
    }
}

/// Values on either side of a bound: of the two ranges, and of all numbers.
const EDGES: [i32; 12] =
    [32_767, 32_768, -32_767, -32_768, 1_000_000_000, -1_000_000_000, 1_000_000_001, -1_000_000_001, i32::MAX, MISSING, MISSING + 1, 0];

fn random_values(random: &mut Random, sides: Sides) -> Vec<i32> {
    let missing = [5, 20, 40][random.below(3) as usize];
    // every third grid has so few voxels that are not negative that gaps are enclosed
    let dense = if random.below(3) == 0 { 97 - missing } else { random.below(60) };
    let scale = [1, 3, 1000, 32_767, 1_000_000_000][random.below(5) as usize];
    let mut values: Vec<i32> = (0..size(sides))
        .map(|_| match random.below(100) {
            p if p < dense => -1 - random.below(scale) as i32,
            p if p >= 100 - missing => MISSING,
            _ => random.below(scale + 1) as i32,
        })
        .collect();
    // on the border, too, where 28 comes before 3
    if random.below(10) == 0 {
        values[random.below(size(sides) as u64) as usize] = EDGES[random.below(EDGES.len() as u64) as usize];
    }
    if random.below(20) > 0 {
        for z in 0..sides.c {
            for y in 0..sides.b {
                for x in 0..sides.a {
                    let border = x == 0 || y == 0 || z == 0 || x + 1 == sides.a || y + 1 == sides.b || z + 1 == sides.c;
                    let v = &mut values[x + sides.a * (y + sides.b * z)];
                    if border && *v < 0 {
                        *v = MISSING;
                    }
                }
            }
        }
    }
    values
}

/// A crafted record or a byte changed: the calls must answer alike there too.
fn spoil(random: &mut Random, record: &mut Record, dist: &mut [i32], status: &mut [u8]) {
    let n = status.len() as u64;
    let at = random.below(n) as usize;
    match random.below(8) {
        0 => status[at] = random.below(5) as u8,
        1 => dist[at] = -1,
        2 => record.openings = random.below(70000) as u32,
        3 => record.removals = n + random.below(2),
        4 => record.examinations = 27 * n + random.below(2),
        5 => record.euler = if random.below(2) == 0 { -1 } else { 1 } * (8 * n + random.below(2)) as i32,
        6 => status[at] = 3,
        _ => record.finished = true,
    }
}

/// Marks of n voxels: none, few or many, seldom of another length or with a byte over 3.
fn random_marks(random: &mut Random, n: usize) -> Vec<u8> {
    let in_100 = [0, 10, 60][random.below(3) as usize];
    let length = if random.below(40) == 0 { n - 1 + 2 * random.below(2) as usize } else { n };
    let mut marks: Vec<u8> = (0..length).map(|_| if random.below(100) < in_100 { random.below(4) as u8 } else { UNMARKED }).collect();
    if random.below(40) == 0 {
        marks[random.below(n as u64 - 1) as usize] = [4, 255][random.below(2) as usize];
    }
    marks
}

/// The number of a face; both Rust implementations tell it.
fn told(face: Option<u32>) -> u64 {
    face.expect("a face is told").into()
}

fn play(calls: &Calls, seed: u64) {
    let mut random = Random(seed);
    let mut side = || 3 + random.below(7) as usize;
    let sides = Sides { a: side(), b: side(), c: side() };
    let values = random_values(&mut random, sides);
    let n = size(sides);
    let allowed = [0, 1, 5, 65535][random.below(4) as usize];
    let (mut dist, mut status) = (vec![7; n], vec![7; n]);
    let (mut their_dist, mut their_status) = (dist.clone(), status.clone());
    let mut marks = random_marks(&mut random, n);
    let ours = (calls.begin)(sides, allowed, &values.clone().into(), &marks, &mut dist, &mut status);
    let expected = grid::begin(theirs(begun(sides, allowed)).sides, allowed, &values, &marks, &mut their_dist, &mut their_status);
    assert_eq!(ours.map(theirs), expected, "{} begin {seed}", calls.name);
    assert_eq!((&dist, &status), (&their_dist, &their_status), "{} begin {seed}", calls.name);
    let Ok(mut record) = ours else { return };
    for _ in 0..30 {
        if random.below(40) == 0 {
            spoil(&mut random, &mut record, &mut dist, &mut status);
            (their_dist, their_status) = (dist.clone(), status.clone());
        }
        if random.below(10) == 0 {
            marks = random_marks(&mut random, n);
        }
        let mut their = theirs(record);
        let (ours, theirs_answer) = match random.below(8) {
            0..2 => {
                let index = random.below(n as u64 + 1) as usize;
                let r = (calls.take)(record, &dist, &marks, &mut status, index);
                let t = machine::take(&mut their, &their_dist, &marks, &mut their_status, index as u64);
                let ours = r.map(|r| (r.next, vec![r.k as u64, r.m as u64, told(r.face)]));
                (ours, t.map(|l| vec![l.k as u64, l.m as u64, l.face as u64]))
            }
            2..5 => {
                let limit = if random.below(2) == 0 { random.below(20) as u32 } else { u32::MAX };
                let r = (calls.carve)(record, &dist, &marks, &mut status, limit);
                let t = machine::carve(&mut their, &their_dist, &marks, &mut their_status, u64::from(limit));
                let ours = r.map(|r| (r.next, vec![r.examined as u64, r.removed as u64, r.pending as u64, told(r.face)]));
                (ours, t.map(|c| vec![c.examined, c.removed, c.pending as u64, c.face as u64]))
            }
            5..7 => {
                let r = (calls.open)(record, &dist, &marks, &mut status);
                let t = machine::open(&mut their, &their_dist, &marks, &mut their_status);
                let ours = r.map(|r| (r.next, vec![r.index as u64, r.k as u64, r.m as u64, told(r.face)]));
                (ours, t.map(|o| vec![o.index as u64, o.local.k as u64, o.local.m as u64, o.local.face as u64]))
            }
            _ if random.below(4) == 0 => {
                let r = (calls.finish)(record, &mut dist, &status);
                let t = machine::finish(&mut their, &mut their_dist, &their_status);
                (r.map(|next| (next, vec![])), t.map(|()| vec![]))
            }
            _ => continue,
        };
        let next = ours.as_ref().map_or(record, |(next, _)| *next);
        assert_eq!(theirs(next), their, "{} record {seed}", calls.name);
        assert_eq!(ours.map(|(_, answer)| answer), theirs_answer, "{} answer {seed}", calls.name);
        assert_eq!((&dist, &status), (&their_dist, &their_status), "{} buffers {seed}", calls.name);
        record = next;
    }
}

#[test]
fn plain_as_the_reference() {
    (0..3000).for_each(|seed| play(&Calls::of::<Plain>(), seed));
}

#[test]
fn tuned_as_the_reference() {
    (0..3000).for_each(|seed| play(&Calls::of::<Tuned>(), seed));
}

type Place = [usize; 3];

fn index(sides: Sides, [x, y, z]: Place) -> usize {
    x + sides.a * (y + sides.b * z)
}

/// The six places that share a face with an inner one.
fn around([x, y, z]: Place) -> [Place; 6] {
    [[x - 1, y, z], [x + 1, y, z], [x, y - 1, z], [x, y + 1, z], [x, y, z - 1], [x, y, z + 1]]
}

/// A grid with gaps, drawn by hand, and which voxels are filled.
struct Drawn {
    what: &'static str,
    sides: [usize; 3],
    /// The value of every place that is not named.
    others: i32,
    negative: Vec<Place>,
    missing: Vec<Place>,
    filled: Vec<Place>,
}

impl Drawn {
    fn sides(&self) -> Sides {
        let [a, b, c] = self.sides;
        Sides { a, b, c }
    }

    fn given(&self) -> Vec<i32> {
        let mut values = vec![self.others; size(self.sides())];
        self.negative.iter().for_each(|&at| values[index(self.sides(), at)] = -7);
        // a missing voxel may be named among the face neighbours of another
        self.missing.iter().for_each(|&at| values[index(self.sides(), at)] = MISSING);
        values
    }

    fn by_hand(&self) -> Vec<i32> {
        let mut values = self.given();
        self.filled.iter().for_each(|&at| values[index(self.sides(), at)] = -1);
        values
    }
}

/// The places of a cube from low to high.
fn cube(low: usize, high: usize) -> Vec<Place> {
    let side = low..=high;
    side.clone().flat_map(|z| side.clone().flat_map(move |y| (low..=high).map(move |x| [x, y, z]))).collect()
}

fn drawn() -> Vec<Drawn> {
    let middle = [2, 2, 2];
    let line = |length: usize| (1..=length).map(|x| [x, 1, 1]);
    let core = [3, 3, 3];
    let not_core = |places: Vec<Place>| places.into_iter().filter(|&at| at != core).collect::<Vec<_>>();
    let pair = [[2, 2, 2], [3, 2, 2]];
    let by_edge = [[2, 2, 2], [3, 3, 2]];
    let beyond_the_line = [4, 4, 2];
    vec![
        Drawn {
            what: "one voxel between six negative ones",
            sides: [5, 5, 5],
            others: 4,
            negative: around(middle).into(),
            missing: vec![middle],
            filled: vec![middle],
        },
        Drawn {
            what: "one of the six is 0",
            sides: [5, 5, 5],
            others: 0,
            negative: around(middle)[1..].into(),
            missing: vec![middle],
            filled: vec![],
        },
        Drawn {
            what: "nothing else is measured",
            sides: [5, 5, 5],
            others: MISSING,
            negative: around(middle).into(),
            missing: vec![middle],
            filled: vec![middle],
        },
        Drawn {
            what: "one of the six is missing, and joined to the border",
            sides: [5, 5, 5],
            others: MISSING,
            negative: around(middle)[..5].into(),
            missing: vec![middle],
            filled: vec![],
        },
        Drawn {
            what: "two joined by a face",
            sides: [6, 5, 5],
            others: 4,
            negative: pair.map(around).concat(),
            missing: pair.into(),
            filled: pair.into(),
        },
        Drawn {
            what: "two joined by a face, the second open",
            sides: [6, 5, 5],
            others: 4,
            negative: [&around(pair[0])[..], &around(pair[1])[..5]].concat(),
            missing: pair.into(),
            filled: vec![],
        },
        Drawn {
            what: "two that share an edge alone, the second open",
            sides: [6, 6, 5],
            others: 4,
            negative: [&around(by_edge[0])[..], &around(by_edge[1])[..5]].concat(),
            missing: by_edge.into(),
            filled: vec![by_edge[0]],
        },
        Drawn {
            what: "a gap around a core, which only the filled voxels join to the rest",
            sides: [7, 7, 7],
            others: 4,
            negative: cube(1, 5),
            missing: not_core(cube(2, 4)),
            filled: not_core(cube(2, 4)),
        },
        Drawn {
            what: "six and a filled one are more than a line of six",
            sides: [8, 7, 5],
            others: 4,
            negative: line(6).chain(around(beyond_the_line)).collect(),
            missing: vec![beyond_the_line],
            filled: vec![beyond_the_line],
        },
        Drawn {
            what: "six and a filled one are no more than a line of seven, which is first",
            sides: [9, 7, 5],
            others: 4,
            negative: line(7).chain(around(beyond_the_line)).collect(),
            missing: vec![beyond_the_line],
            filled: vec![beyond_the_line],
        },
    ]
}

/// What begin answers and leaves.
type Begun = (Result<grid::Record, Refused>, Vec<i32>, Vec<u8>);

fn begun_by(calls: &Calls, sides: Sides, values: &[i32]) -> Begun {
    let (mut dist, mut status) = (vec![7; values.len()], vec![7; values.len()]);
    let marks = vec![UNMARKED; values.len()];
    let answer = (calls.begin)(sides, 3, &values.to_vec().into(), &marks, &mut dist, &mut status);
    (answer.map(theirs), dist, status)
}

fn begun_by_the_reference(sides: Sides, values: &[i32]) -> Begun {
    let (mut dist, mut status) = (vec![7; values.len()], vec![7; values.len()]);
    let marks = vec![UNMARKED; values.len()];
    let answer = grid::begin(theirs(begun(sides, 3)).sides, 3, values, &marks, &mut dist, &mut status);
    (answer, dist, status)
}

/// Begin of a grid with gaps is that of the grid filled by hand.
#[test]
fn gaps_drawn_by_hand() {
    for drawn in drawn() {
        let (sides, given, by_hand) = (drawn.sides(), drawn.given(), drawn.by_hand());
        assert_eq!(filled(sides, &given), by_hand, "{}", drawn.what);
        let expected = begun_by_the_reference(sides, &by_hand);
        assert!(expected.0.is_ok(), "{}", drawn.what);
        assert_eq!(begun_by_the_reference(sides, &given), expected, "{}", drawn.what);
        for calls in [Calls::of::<Plain>(), Calls::of::<Tuned>()] {
            assert_eq!(begun_by(&calls, sides, &given), expected, "{}: {}", calls.name, drawn.what);
        }
    }
}

/// The worked distances at the gap of the last three grids: inside at -1, and M + d where the group is discarded.
#[test]
fn distances_of_filled_gaps() {
    let told = ["gap around a core", "line of six", "line of seven"].map(|what| {
        let drawn = drawn().into_iter().find(|drawn| drawn.what.contains(what)).expect("it is drawn");
        let (_, dist, status) = begun_by(&Calls::of::<Tuned>(), drawn.sides(), &drawn.given());
        let at = index(drawn.sides(), drawn.filled[0]);
        (dist[at], status[at])
    });
    // from (4, 4, 2) to the line at y = 1, z = 1 there are 4 steps
    assert_eq!(told, [(-1, 1), (-1, 1), (4 + 4, 0)]);
}

/// No gap counts for the checks: without a measured negative voxel it is 4, and the border has none.
#[test]
fn gaps_and_the_checks() {
    let sides = Sides { a: 4, b: 4, c: 4 };
    let all_missing = vec![MISSING; 64];
    let mut one_missing = vec![5; 64];
    one_missing[21] = MISSING;
    let mut on_the_border = all_missing.clone();
    on_the_border[0] = -1;
    for calls in [Calls::of::<Plain>(), Calls::of::<Tuned>()] {
        for (values, number) in [(&all_missing, 4), (&one_missing, 4), (&on_the_border, 3)] {
            assert_eq!(begun_by(&calls, sides, values), (Err(number), vec![7; 64], vec![7; 64]), "{}", calls.name);
        }
    }
}

/// The rule the other way round: what is on the border or beside a measured non-negative voxel is open, and so is all that shares a face with what is open,
/// looked at again and again until nothing changes; missing voxels that are left are filled.
fn filled_until_nothing_changes(sides: Sides, values: &[i32]) -> Vec<i32> {
    let their_sides = theirs(begun(sides, 0)).sides;
    let mut open = vec![false; values.len()];
    loop {
        let was = open.clone();
        for i in (0..values.len()).filter(|&i| values[i] == MISSING) {
            let beside = |j: usize| if values[j] == MISSING { was[j] } else { values[j] >= 0 };
            open[i] = was[i] || their_sides.border(i) || their_sides.face_neighbours(i).into_iter().flatten().any(beside);
        }
        if open == was {
            break;
        }
    }
    (0..values.len()).map(|i| if values[i] == MISSING && !open[i] { -1 } else { values[i] }).collect()
}

#[test]
fn random_gaps_as_the_reference() {
    let mut random = Random(6);
    let (mut closed, mut left) = (0, 0);
    for seed in 0..3000 {
        // an enclosed gap needs sides of 5
        let mut side = || 5 + random.below(6) as usize;
        let sides = Sides { a: side(), b: side(), c: side() };
        let given = random_values(&mut random, sides);
        let wanted = filled_until_nothing_changes(sides, &given);
        assert_eq!(filled(sides, &given), wanted, "{seed}");
        assert_eq!(filled(sides, &wanted), wanted, "{seed}: filled once, no gap is left");
        let expected = begun_by_the_reference(sides, &wanted);
        for calls in [Calls::of::<Plain>(), Calls::of::<Tuned>()] {
            assert_eq!(begun_by(&calls, sides, &given), expected, "{} {seed}", calls.name);
        }
        closed += usize::from(wanted != given && expected.0.is_ok());
        left += usize::from(wanted.contains(&MISSING) && expected.0.is_ok());
    }
    assert!(closed > 300 && left > 300, "both are met: {closed} grids with filled gaps, {left} with others");
}

/// The grids that are measured for gaps have what their names say, and a cavity the same shares at every side.
#[test]
fn measured_grids_with_gaps() {
    let count = |values: &[i32], wanted: fn(i32) -> bool| values.iter().filter(|&&v| wanted(v)).count();
    let missing = |values: &[i32]| count(values, |v| v == MISSING);
    for side in [16, 32, 64] {
        let sides = Sides { a: side, b: side, c: side };
        let told = |shape: Shape| {
            let given = values(sides, shape);
            assert_eq!(Shape::named(shape.name()), Some(shape));
            assert!(!i16::lent(&given.clone().into()).is_empty(), "16 bits hold it");
            (missing(&given), missing(&given) - missing(&filled(sides, &given)))
        };
        assert_eq!(Shape::WHOLE.map(told), [(0, 0); 3]);
        let scale = (side / 16).pow(3);
        assert_eq!(told(Shape::Closed), (12 * 12 * 12 * scale, 12 * 12 * 12 * scale));
        assert_eq!(told(Shape::Holed), ((12 * 12 * 12 + 1) * scale, 0));
        let shell = count(&values(sides, Shape::Closed), |v| v < 0 && v != MISSING);
        assert_eq!(shell, (14 * 14 * 14 - 12 * 12 * 12) * scale);
        let (gaps, closed) = told(Shape::Gapped);
        let inner = (side - 2).pow(3);
        assert!((38 * inner..42 * inner).contains(&(100 * gaps)) && 100 * closed > gaps, "{gaps} of {inner}, {closed} filled");
    }
}

/// By the rule from before document 02's CR 6, as far as a race can tell: something else where a point is missing, and the same where none is.
struct Earlier;

impl Machine for Earlier {
    const NAME: &'static str = "earlier";
    type Value = i32;

    fn begin(sides: Sides, allowed: u16, values: &[i32], marks: &[u8], dist: &mut [i32], status: &mut [u8]) -> Result<Record, Refused> {
        let outside: Vec<i32> = values.iter().map(|&v| if v == MISSING { 1 } else { v }).collect();
        Plain::begin(sides, allowed, &outside, marks, dist, status)
    }

    fn carve(given: Record, dist: &[i32], marks: &[u8], status: &mut [u8], limit: u32) -> Result<Carved, Refused> {
        Plain::carve(given, dist, marks, status, limit)
    }

    fn take(given: Record, dist: &[i32], marks: &[u8], status: &mut [u8], index: usize) -> Result<Taken, Refused> {
        Plain::take(given, dist, marks, status, index)
    }

    fn open(given: Record, dist: &[i32], marks: &[u8], status: &mut [u8]) -> Result<Opened, Refused> {
        Plain::open(given, dist, marks, status)
    }

    fn finish(given: Record, dist: &mut [i32], status: &[u8]) -> Result<Record, Refused> {
        Plain::finish(given, dist, status)
    }
}

#[test]
fn who_fills_gaps() {
    let told = [Calls::of::<Plain>(), Calls::of::<Tuned>(), Calls::of::<Earlier>()].map(|calls| calls.fills_gaps());
    assert_eq!(told, [true, true, false]);
}

/// A race on the first grid that was drawn, the last entrant set apart with these values, or not.
fn race_apart(values: Option<fn(&Drawn) -> Vec<i32>>) {
    let all = [Calls::of::<Plain>(), Calls::of::<Tuned>(), Calls::of::<Earlier>()];
    let drawn = &drawn()[0];
    let case = |values: Vec<i32>| Case::unmarked(drawn.sides(), 0, values.into());
    let apart = values.map(|values| Apart { entrant: 2, filled: case(values(drawn)) });
    let given = case(drawn.given());
    let race = contest(&all, &given, &State::blank(&given), begin, apart.as_ref()).times;
    assert!(race.iter().all(|time| time.is_finite()));
}

#[test]
fn set_apart_on_a_grid_with_gaps() {
    race_apart(Some(Drawn::by_hand));
}

#[test]
#[should_panic = "other buffers"]
fn not_set_apart_on_a_grid_with_gaps() {
    race_apart(None);
}

#[test]
#[should_panic = "other buffers"]
fn set_apart_with_a_gap_left() {
    race_apart(Some(Drawn::given));
}

/// By the rules but for the faces of carve: these are left out, or wrong.
struct Faces<const TOLD: bool>;

impl<const TOLD: bool> Machine for Faces<TOLD> {
    const NAME: &'static str = "other faces";
    type Value = i32;

    fn begin(sides: Sides, allowed: u16, values: &[i32], marks: &[u8], dist: &mut [i32], status: &mut [u8]) -> Result<Record, Refused> {
        Plain::begin(sides, allowed, values, marks, dist, status)
    }

    fn carve(given: Record, dist: &[i32], marks: &[u8], status: &mut [u8], limit: u32) -> Result<Carved, Refused> {
        let carved = Plain::carve(given, dist, marks, status, limit)?;
        Ok(Carved { face: TOLD.then_some(NO_FACE), ..carved })
    }

    fn take(given: Record, dist: &[i32], marks: &[u8], status: &mut [u8], index: usize) -> Result<Taken, Refused> {
        Plain::take(given, dist, marks, status, index)
    }

    fn open(given: Record, dist: &[i32], marks: &[u8], status: &mut [u8]) -> Result<Opened, Refused> {
        Plain::open(given, dist, marks, status)
    }

    fn finish(given: Record, dist: &mut [i32], status: &[u8]) -> Result<Record, Refused> {
        Plain::finish(given, dist, status)
    }
}

/// A race of a carve that removes voxels, between these and one that tells no face, whichever of them is first.
fn race_faces(others: [Calls; 2]) {
    let [first, last] = others;
    let sides = Sides { a: 16, b: 16, c: 16 };
    let case = Case::unmarked(sides, 0, values(sides, Shape::Sphere).into());
    let mut start = State::blank(&case);
    begin(&first, &case, &mut start, &mut Log::default());
    let race = contest(&[first, Calls::of::<Faces<false>>(), last], &case, &start, carve, None);
    assert!(race.times.iter().all(|time| time.is_finite()) && race.log().carved[0].removed > 0);
}

#[test]
fn faces_that_are_not_told() {
    race_faces([Calls::of::<Plain>(), Calls::of::<Tuned>()]);
    race_faces([Calls::of::<Faces<false>>(), Calls::of::<Tuned>()]);
}

#[test]
#[should_panic = "other faces"]
fn faces_that_are_wrong() {
    race_faces([Calls::of::<Plain>(), Calls::of::<Faces<true>>()]);
}

/// The marks that are measured are what their names say.
#[test]
fn measured_marks() {
    let sides = Sides { a: 16, b: 16, c: 16 };
    let count = |marks: Marks, mark: u8| marks.of(sides).iter().filter(|&&m| m == mark).count();
    assert_eq!(count(Marks::None, UNMARKED), 4096);
    assert_eq!(count(Marks::AllHurried, HURRIED), 4096);
    let pinned = count(Marks::OneInTenPinned, PINNED);
    assert!((330..500).contains(&pinned) && pinned + count(Marks::OneInTenPinned, UNMARKED) == 4096, "{pinned} pinned");
}

/// A coarse start by the begin and carve of (a), of (b) and of the archive itself is the archive's, marks or none.
#[test]
fn coarse_starts_by_parts() {
    let mut examined = 0;
    for (shape, marks) in Shape::COARSE.into_iter().flat_map(|shape| Marks::ALL.map(|marks| (shape, marks))) {
        let sides = Sides { a: 16, b: 20, c: 12 };
        let case = Case { marks: marks.of(sides), ..Case::unmarked(sides, 3, bordered(sides, values(sides, shape)).into()) };
        let begun = |calls: Calls, begin_coarse: crate::coarse::BeginCoarse| {
            let (mut state, mut blocks) = (State::blank(&case), Blocks::blank(sides));
            let of_blocks = begin_coarse(&calls, &case, &mut state, &mut blocks);
            (state, blocks, of_blocks)
        };
        let due = begun(Calls::of::<Ours>(), ours);
        for calls in [Calls::of::<Plain>(), Calls::of::<Tuned>(), Calls::of::<Ours>()] {
            assert!(begun(calls, by_parts) == due, "{} with marks: {}", shape.name(), marks.name());
        }
        examined += due.2;
    }
    assert!(examined > 100, "{examined} blocks were examined");
}

/// The stockpile has a core that begin fills, and a box that is mostly air; of a bordered grid no negative voxel is within two of the edge.
#[test]
fn measured_coarse_grids() {
    let sides = Sides { a: 32, b: 32, c: 32 };
    let stockpile = values(sides, Shape::Stockpile);
    let missing = stockpile.iter().filter(|&&v| v == MISSING).count();
    assert!(missing > 100 && filled(sides, &stockpile).iter().all(|&v| v != MISSING), "{missing} missing");
    let negative = filled(sides, &stockpile).iter().filter(|&&v| v < 0).count();
    assert!((1000..5000).contains(&negative), "{negative} negative");
    assert_eq!(bordered(sides, stockpile.clone()), stockpile, "it has its border");
    let noise = bordered(sides, values(sides, Shape::Noise));
    let near = |p: usize| !(2..30).contains(&p);
    assert!((0..noise.len()).all(|i| noise[i] >= 0 || noise[i] == MISSING || ![i % 32, i / 32 % 32, i / 1024].into_iter().any(near)));
}

/// The lists that are measured are those of the calls, and both judges in Rust say what ours says, of lists that are spoiled too.
#[test]
fn lists_and_their_judges() {
    let mut met = BTreeSet::new();
    let mut random = Random(11);
    for (shape, allowed) in Shape::ALL.into_iter().flat_map(|shape| [0, 2, 1000].map(|allowed| (shape, allowed))) {
        let case = Case::unmarked(Sides { a: 16, b: 14, c: 12 }, allowed, values(Sides { a: 16, b: 14, c: 12 }, shape).into());
        let (mut start, calls) = (State::blank(&case), Calls::of::<Ours>());
        begin(&calls, &case, &mut start, &mut Log::default());
        let (list, mut end) = (lists::own(&case, &start), start.clone());
        carve(&calls, &case, &mut end, &mut Log::default());
        turns(&calls, &case, &mut end, &mut Log::default());
        let mut say = |list: &[u8]| {
            let mut status = start.status.clone();
            let said = [lists::ours, lists::plain, lists::tuned].map(|judge| judge(start.record, &start.dist, &mut status, list));
            assert!(said[0] == said[1] && said[0] == said[2] && status == start.status, "{} {said:?}", shape.name());
            met.insert(said[0].err().map(|refused| refused.0));
            said[0]
        };
        let judged = say(&list).expect("our own list is accepted");
        assert_eq!((judged.removals, judged.openings, judged.euler), (end.record.removals, end.record.openings, end.record.euler));
        let entries = list.len() / 6;
        for _ in 0..20 {
            let (at, other) = (6 * random.below(entries as u64) as usize, 6 * random.below(entries as u64) as usize);
            let (mut swapped, mut opened, mut far) = (list.clone(), list.clone(), list.clone());
            (0..6).for_each(|byte| swapped.swap(at + byte, other + byte));
            opened[at + 1] = 0x4F;
            far[at + 4] = 1;
            for spoiled in [&list[..at], &list[..at + 1], &[&list[..], &list[at..at + 6]].concat(), &swapped, &opened, &far] {
                _ = say(spoiled);
            }
        }
    }
    assert_eq!(met, BTreeSet::from([None, Some(5), Some(21), Some(32), Some(33)]));
}

/// Ours, both in Rust and the reference's, on offices of any size: limits, order records, marks and grids that are fit or not.
#[test]
fn offices() {
    let (mut random, mut met, mut served) = (Random(14), BTreeSet::new(), BTreeSet::new());
    for _ in 0..400 {
        let mut office = Office { records: vec![], order: Order::EMPTY, dist: vec![], marks: vec![], status: vec![] };
        for _ in 0..1 + random.below(17) {
            let mut side = || 3 + random.below(5) as usize;
            let sides = Sides { a: side(), b: side(), c: side() };
            let (n, values) = (size(sides), random_values(&mut random, sides));
            let marks: Vec<u8> = (0..n).map(|_| if random.below(10) == 0 { random.below(4) as u8 } else { UNMARKED }).collect();
            let (mut dist, mut status) = (vec![0; n], vec![0; n]);
            let Ok(record) = Plain::begin(sides, 2, &values, &marks, &mut dist, &mut status) else { continue };
            office.records.push(record);
            office.dist.extend(dist);
            office.marks.extend(marks);
            office.status.extend(status);
        }
        for _ in 0..30 {
            let before = office.clone();
            if !office.records.is_empty() && random.below(6) == 0 {
                let at = random.below(office.records.len() as u64) as usize;
                let Office { records, dist, status, .. } = &mut office;
                spoil(&mut random, &mut records[at], dist, status);
            }
            match random.below(20) {
                0 => office.order = Order::of(&[random.below(18) as u8, random.below(18) as u8]),
                1 => office.marks.push(0),
                2 => office.marks.iter_mut().take(1).for_each(|mark| *mark = 4),
                3 => office.status.iter_mut().for_each(|s| *s = (*s).min(1)),
                _ => {}
            }
            let limit = [1, 2, 10, 1000, 1000, 0, 1001][random.below(7) as usize];
            let mut records: Vec<grid::Record> = office.records.iter().map(|r| theirs(*r)).collect();
            let (mut order, mut status) = (office.order.served().to_vec(), office.status.clone());
            let wanted = reference::serve::serve(&mut records, &mut order, &office.dist, &office.marks, &mut status, limit.into());
            let all = [office::ours, office::plain, office::tuned].map(|serve: office::Serve| {
                let mut left = office.clone();
                (serve(&mut left, limit), left)
            });
            for (answer, left) in &all {
                assert_eq!(left.records.iter().map(|r| theirs(*r)).collect::<Vec<_>>(), records);
                assert_eq!((left.order.served(), &left.status, &left.dist), (&order[..], &status, &office.dist));
                match (answer, &wanted) {
                    (Ok((place, c)), Ok(w)) => {
                        assert_eq!((*place, c.pending, told(c.face)), (w.place, w.carving.pending, w.carving.face.into()));
                        assert_eq!((u64::from(c.examined), u64::from(c.removed)), (w.carving.examined, w.carving.removed));
                        served.insert(*place);
                    }
                    (answer, wanted) => assert_eq!(answer.err(), wanted.as_ref().err().copied()),
                }
            }
            met.insert(wanted.as_ref().err().copied());
            let [(_, after), ..] = all;
            office = if wanted.is_ok() { after } else { before };
        }
    }
    assert_eq!(met, BTreeSet::from([None, Some(2), Some(7), Some(8), Some(29), Some(34), Some(35)]));
    assert!(served.len() > 10, "{served:?}");
}

/// Ours, both in Rust and the reference's, on sides that are fit or not, and lengths that are right or not.
#[test]
fn practice_grids() {
    let (mut random, mut met) = (Random(12), BTreeSet::new());
    for _ in 0..500 {
        let mut side = || if random.below(12) == 0 { 2 + 63 * random.below(2) as usize } else { 3 + random.below(10) as usize };
        let sides = Sides { a: side(), b: side(), c: side() };
        let (seed, more) = (random.word() as u32, [0, 0, 0, 0, 1, -1][random.below(6) as usize]);
        let lent = vec![7; size(sides).strict_add_signed(more)];
        let mut theirs = lent.clone();
        let [a, b, c] = [sides.a, sides.b, sides.c].map(|side| side as u64);
        let wanted = reference::practice::practice(&grid::Sides { a, b, c }, seed, &mut theirs);
        for practice in [practice::ours, practice::plain, practice::tuned] {
            let mut values = lent.clone();
            assert!(practice(sides, seed, &mut values) == wanted && values == theirs, "{sides:?} {seed}");
        }
        met.insert(wanted.err());
    }
    assert_eq!(met, BTreeSet::from([None, Some(1), Some(2)]));
}

/// Values of which none, some or all need more than 16 bits; in some grids one is at the edge of a range, or out of it.
fn file_values(random: &mut Random, n: usize) -> Vec<i32> {
    let scale = [32_768, 40_000, 1_000_000_001][random.below(3) as usize];
    let signed = |v: u64, negative: bool| if negative { -(v as i32) } else { v as i32 };
    let value = |random: &mut Random| if random.below(10) == 0 { MISSING } else { signed(random.below(scale), random.below(2) == 0) };
    let mut values: Vec<i32> = (0..n).map(|_| value(random)).collect();
    if random.below(4) == 0 {
        values[random.below(n as u64) as usize] = EDGES[random.below(EDGES.len() as u64) as usize];
    }
    values
}

/// Every answer of write with the buffer after it; every check is met, each before those that come after it, and either width.
fn written_as_the_reference<W: Way>() {
    let mut random = Random(1);
    let (mut numbers, mut widths) = (BTreeSet::new(), BTreeSet::new());
    for seed in 0..3000 {
        let mut side = || 3 + random.below(5) as usize;
        let mut sides = Sides { a: side(), b: side(), c: side() };
        let (n, allowed) = (size(sides), random.word() as u16);
        let mut values = file_values(&mut random, n);
        let full = 7 + sides.c * (3 + 4 * sides.a * sides.b);
        let mut lent = vec![0xA5; full + 3];
        if random.below(4) == 0 {
            lent.truncate(random.below(full as u64) as usize);
        }
        match random.below(12) {
            0 => values.truncate(n - 1),
            1 => sides.c = [2, 65][random.below(2) as usize],
            _ => {}
        }
        let mut their = lent.clone();
        let expected = reference::file::write(&theirs(begun(sides, 0)).sides, allowed, &values, &mut their);
        assert_eq!(write::<W>(sides, allowed, &values, &mut lent), expected, "{seed}");
        assert_eq!(lent, their, "{seed}");
        numbers.insert(expected.err().unwrap_or(0));
        widths.extend(expected.ok().map(|_| lent[8]));
    }
    assert_eq!(Vec::from_iter(numbers), [0, 1, 2, 26, 28], "every answer is met");
    assert_eq!(Vec::from_iter(widths), *b"LW", "either width is met");
}

#[test]
fn write_as_the_reference() {
    written_as_the_reference::<Chunked>();
    written_as_the_reference::<Packed>();
    written_as_the_reference::<Indexed>();
}

/// A file of random layers, narrow and wide ones, seldom with another than the first in front, and of some patches; in most of them something is wrong
/// then.
fn random_file(random: &mut Random) -> Vec<u8> {
    let mut side = || 3 + random.below(3) as usize;
    let sides = Sides { a: side(), b: side(), c: side() };
    let (n, area) = (size(sides), sides.a * sides.b);
    let mut values = file_values(random, n);
    let mut widths = vec![4; sides.c];
    for (width, layer) in widths.iter_mut().zip(values.chunks_exact_mut(area)) {
        if random.below(2) == 0 {
            *width = 2;
            layer.iter_mut().for_each(|v| *v = (*v).clamp(-32_767, 32_767));
        }
    }
    let mut file = grids::file(sides, random.word() as u16, &values, |z| widths[z]);
    let heads: Vec<usize> = (0..sides.c).map(|z| 7 + widths[..z].iter().map(|width| 3 + width * area).sum::<usize>()).collect();
    if random.below(8) == 0 {
        file[7..].rotate_left(heads[random.below(sides.c as u64) as usize] - 7);
    }
    file.extend(patches(n, random.below(20) as usize));
    spoil_file(random, &mut file, n, &heads);
    file
}

/// Another length, a patch at the grid's end or just beyond it, the mark of the other width, or a bit changed: in the header, in a record's head, or
/// anywhere.
fn spoil_file(random: &mut Random, file: &mut Vec<u8>, n: usize, heads: &[usize]) {
    let length = file.len() as u64;
    let head = heads[random.below(heads.len() as u64) as usize];
    match random.below(7) {
        0 => file.truncate(random.below(length) as usize),
        1 => file.extend(&[0x56, 0x50, 0, 0, 0, 0, 0, 0][..random.below(9) as usize]),
        2 => file.extend(patch(n as u32 - random.below(2) as u32, 1)),
        3 => file[head + 1] ^= 0x4C ^ 0x57,
        4 | 5 => {
            let at = [random.below(7) as usize, head + random.below(3) as usize, random.below(length) as usize][random.below(3) as usize];
            file[at] ^= 1 << random.below(8);
        }
        _ => {}
    }
}

fn read_by<W: Way>(file: &[u8], lent: &[i32]) -> (Result<(grid::Sides, u16), u8>, Vec<i32>) {
    let mut values = lent.to_vec();
    let answer = read::<W>(file, &mut values).map(|(sides, allowed)| (theirs(begun(sides, 0)).sides, allowed));
    (answer, values)
}

/// Every answer of read with the buffer after it, refused or not.
#[test]
fn read_as_the_reference() {
    let mut random = Random(4);
    let mut numbers = BTreeSet::new();
    for seed in 0..20_000 {
        let file = random_file(&mut random);
        let side = |i: usize| usize::from(*file.get(i).unwrap_or(&0));
        let voxels = (Sides { a: side(2), b: side(3), c: side(4) }).voxels().unwrap_or(5);
        let lent = vec![77; voxels + usize::from(random.below(50) == 0)];
        let mut their = lent.clone();
        let expected = (reference::file::read(&file, &mut their, 64), their);
        assert_eq!(read_by::<Chunked>(&file, &lent), expected, "{seed}: {file:02X?}");
        assert_eq!(read_by::<Packed>(&file, &lent), expected, "{seed}: {file:02X?}");
        assert_eq!(read_by::<Indexed>(&file, &lent), expected, "{seed}: {file:02X?}");
        numbers.insert(expected.0.err().unwrap_or(0));
    }
    assert_eq!(Vec::from_iter(numbers), [0, 1, 2, 5, 21, 22, 23, 24, 27, 28], "every answer is met");
}

/// What an archive with 16 bits a value is lent, and what is taken back from it.
#[test]
fn values_in_16_bits_and_back() {
    let wide = vec![-32_767, -1, 0, 32_767, MISSING];
    let mut values = Values::from(wide.clone());
    assert_eq!(i16::lent(&values), [-32_767, -1, 0, 32_767, i16::MIN]);
    values.wide.fill(7);
    i32::take_back(&mut values);
    assert_eq!(values.wide, [7; 5]);
    i16::take_back(&mut values);
    assert_eq!(values.wide, wide);
    for beyond in [-32_768, 32_768, i32::MAX] {
        assert!(i16::lent(&vec![0, beyond].into()).is_empty(), "16 bits do not hold {beyond}");
    }
}

/// The grids that growth goes through: no two are carved alike, and each has about as many examinations as the one of its shape in every other table.
#[test]
fn different_grids() {
    let sides = Sides { a: 16, b: 16, c: 16 };
    let carved = |values: Vec<i32>| {
        let case = Case::unmarked(sides, 0, values.into());
        let (mut state, mut log) = (State::blank(&case), Log::default());
        begin(&Calls::of::<Tuned>(), &case, &mut state, &mut log);
        carve(&Calls::of::<Tuned>(), &case, &mut state, &mut log);
        (log.examined(), state.dist)
    };
    for shape in Shape::ALL {
        let (one, _) = carved(values(sides, shape));
        let all: BTreeSet<(u64, Vec<i32>)> = (0..64).map(|nth| carved(grids::another(sides, shape, nth))).collect();
        assert_eq!(all.len(), 64, "{}", shape.name());
        assert!(all.iter().all(|(examined, _)| (one..3 * one).contains(&(2 * examined))), "{}", shape.name());
    }
}

/// The grids that are measured: 16 bits hold the values, and do not where they are lengthened.
#[test]
fn measured_grids_narrow_and_wide() {
    for shape in Shape::ALL {
        let sides = Sides { a: 9, b: 8, c: 7 };
        let narrow = values(sides, shape);
        let long = lengthened(&narrow);
        assert!(!i16::lent(&narrow.clone().into()).is_empty() && i16::lent(&long.clone().into()).is_empty(), "{}", shape.name());
        for (values, width) in [(&narrow, 2), (&long, 4)] {
            let mut file = vec![0; 7 + sides.c * (3 + width * sides.a * sides.b)];
            assert_eq!(write::<Chunked>(sides, 5, values, &mut file), Ok(file.len()));
            assert_eq!(file, grids::file(sides, 5, values, |_| width));
        }
    }
}

#[test]
fn local_tests_as_the_reference() {
    let whole = Whole::build();
    assert_eq!(whole.count(), 25_985_144);
    for kept in [10, 30, 50, 70, 90] {
        for bytes in blocks(4000, kept).chunks_exact(27) {
            let block: [bool; 27] = std::array::from_fn(|p| bytes[p] != 0);
            let bits = (0..27).fold(0, |bits, p| bits | u32::from(block[p]) << p);
            let expected = local::local_test(&block);
            let all = [
                joined::test(bits),
                joined::call(bits),
                ranked::test(bits),
                touched(bits, by_frontiers),
                both(bits, by_frontiers),
                touched(bits, by_cells),
                both(bits, by_cells),
            ];
            for found in all {
                assert_eq!(passes(found), expected.passes());
                let Local { k, m, corners, edges, faces, face } = found;
                assert_eq!(local::Local { k, m, corners, edges, faces, face }, expected);
            }
            let passing = [joined::passes(bits), ranked::passes(bits), whole.passes(bits)];
            assert_eq!(passing, [expected.passes(); 3]);
            // the faces of the kept voxels are those of the touched cells, which carve has not at hand
            assert_eq!(bare_face(bits), expected.face);
        }
    }
}

/// The kept voxels around a voxel, against a look at each of the 27 by its coordinates.
#[test]
fn neighbourhoods_by_coordinates() {
    let sides = Sides { a: 5, b: 4, c: 6 };
    let status = statuses(size(sides), 50);
    for i in inner(sides, 1000) {
        let i = i as usize;
        let (x, y, z) = (i % sides.a, i / sides.a % sides.b, i / (sides.a * sides.b));
        assert!((1..4).contains(&x) && (1..3).contains(&y) && (1..5).contains(&z));
        let kept = |p: usize| status[(x + p % 3 - 1) + sides.a * ((y + p / 3 % 3 - 1) + sides.b * (z + p / 9 - 1))] & 1;
        let expected = (0..27).fold(0, |bits, p| bits | u32::from(kept(p)) << p);
        // SAFETY: an inner voxel, and a status byte for each voxel.
        assert_eq!(kept_bits(unsafe { gather(sides, &status, i) }), expected);
    }
}

/// Every contestant runs once a round, and follows every other at some time.
#[test]
fn races_in_changing_order() {
    let ran = RefCell::new(Vec::new());
    let run = |k: u64| {
        ran.borrow_mut().push(k);
        7u64
    };
    let contestants: Vec<Contestant> = (0..4).map(|k| Box::new(move || run(k)) as Contestant).collect();
    let times = race(27, &contestants);
    assert!(times.len() == 4 && times.iter().all(|of_one| of_one.len() == 27));
    let ran = ran.borrow();
    assert!(ran.chunks(4).all(|round| (0..4).all(|k| round.contains(&k))));
    let follows: BTreeSet<_> = ran.chunks(4).flat_map(|round| round.windows(2)).collect();
    assert_eq!(follows.len(), 4 * 3);
}

#[test]
fn median_of_rounds() {
    assert_eq!(median(&[5.0, 1.0, 4.0, 2.0, 3.0]), 3.0);
}

#[test]
#[should_panic = "other answers"]
fn another_number_stops_a_race() {
    race(1, &[Box::new(|| 1), Box::new(|| 2)]);
}

#[test]
fn stack_of_a_known_call() {
    #[inline(never)]
    fn fill(with: u8) -> u8 {
        let mut room = [0u8; 100_000];
        std::hint::black_box(&mut room).fill(with);
        room[with as usize]
    }
    let used = crate::stack::used(|| assert_eq!(fill(7), 7));
    assert!((100_000..104_000).contains(&used), "{used}");
    assert_eq!(crate::stack::used(|| ()), 1024);
}
