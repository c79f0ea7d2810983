//! What docs/RESULT.md concludes from the last answer of open, on grids from seeds.

use wattlerugby::{Grid, Refusal, Sides, GONE, HURRIED, MISSING, PINNED, UNMARKED};

struct Carved {
    sides: Sides,
    inside: Vec<bool>,
    /// Pinned, and in the body that carving starts from.
    held: Vec<bool>,
    kept: Vec<bool>,
    ended_by: Refusal,
    openings: u32,
    euler: i32,
}

/// Noise so many voxels off the border: of 100 so many negative and 5 missing.
fn noise(sides: Sides, off: usize, negative: u32, seed: &mut u32) -> Vec<i32> {
    let n = sides.voxels().unwrap();
    let mut next = |below: u32| {
        *seed = seed.wrapping_mul(1_664_525).wrapping_add(1_013_904_223);
        (*seed >> 16) % below
    };
    let end = |i: usize, side: usize| i < off || i + off >= side;
    (0..n)
        .map(|i| {
            let [x, y, z] = place(sides, i);
            let (chance, size) = (next(100), next(50) as i32 + 1);
            match chance {
                _ if end(x, sides.a) || end(y, sides.b) || end(z, sides.c) => size,
                c if c < negative => -size,
                c if c < negative + 5 => MISSING,
                _ => size,
            }
        })
        .collect()
}

fn place(sides: Sides, i: usize) -> [usize; 3] {
    [i % sides.a, i / sides.a % sides.b, i / (sides.a * sides.b)]
}

/// A plain start, or a coarse one.
type Start = fn(Sides, u16, &[i32], &[u8]) -> Result<Grid, Refusal>;
const PLAIN: Start = Grid::begin_marked;
const COARSE: Start = |sides, allowed, values, marks| Ok(Grid::begin_coarse_marked(sides, allowed, values, marks)?.0);

fn carved(start: Start, sides: Sides, allowed: u16, values: &[i32], marks: &[u8]) -> Option<Carved> {
    let mut grid = match start(sides, allowed, values, marks) {
        Err(Refusal::NO_NEGATIVE) => return None,
        begun => begun.unwrap(),
    };
    let inside = grid.distances().iter().map(|&d| d < 0).collect();
    let held = grid.status().iter().zip(marks).map(|(&s, &mark)| s != GONE && mark & PINNED != 0).collect();
    grid.carve_to_the_end().unwrap();
    let kept = grid.status().iter().map(|&s| s != GONE).collect();
    let r = grid.record();
    Some(Carved { sides, inside, held, kept, ended_by: grid.ended_by().unwrap(), openings: r.openings, euler: r.euler })
}

/// What can be reached from a voxel of the set by steps within it, each step changing at most so many coordinates by one.
fn reached(sides: Sides, set: &[bool], from: usize, coordinates: usize) -> Vec<bool> {
    let mut seen = vec![false; set.len()];
    let mut waiting = vec![from];
    seen[from] = true;
    while let Some(i) = waiting.pop() {
        for j in 0..set.len() {
            let gaps: Vec<usize> = place(sides, i).iter().zip(place(sides, j)).map(|(&p, q)| p.abs_diff(q)).collect();
            let step = gaps.iter().all(|&g| g <= 1) && gaps.iter().sum::<usize>() <= coordinates;
            if set[j] && !seen[j] && step {
                seen[j] = true;
                waiting.push(j);
            }
        }
    }
    seen
}

fn pieces(sides: Sides, set: &[bool]) -> i32 {
    let (mut left, mut count) = (set.to_vec(), 0);
    while let Some(first) = left.iter().position(|&k| k) {
        let piece = reached(sides, &left, first, 3);
        left.iter_mut().zip(piece).for_each(|(l, p)| *l &= !p);
        count += 1;
    }
    count
}

/// Whether a voxel is left to open: kept, neither inside nor held, with a face neighbour that is gone.
fn left_to_open(c: &Carved) -> bool {
    let Sides { a, b, .. } = c.sides;
    let beside = |i: usize| [i - 1, i + 1, i - a, i + a, i - a * b, i + a * b];
    (0..c.kept.len()).any(|i| c.kept[i] && !c.inside[i] && !c.held[i] && beside(i).iter().any(|&j| !c.kept[j]))
}

/// Gives how many pieces the body has.
fn check(c: &Carved, allowed: u16) -> i32 {
    let nothing_to_open = c.ended_by == Refusal::NOTHING_TO_OPEN;
    assert!(nothing_to_open || c.ended_by == Refusal::NO_OPENING_LEFT);
    assert_eq!(nothing_to_open, c.openings < u32::from(allowed), "14 comes exactly where all openings are used");
    let pieces = pieces(c.sides, &c.kept);
    assert!(c.euler <= pieces, "there is no hollow, so pieces less tunnels");
    if c.openings == 0 {
        assert_eq!((pieces, c.euler), (1, 1));
    }
    assert!(!(nothing_to_open && left_to_open(c)));
    if !left_to_open(c) {
        let outside: Vec<bool> = c.inside.iter().zip(&c.held).map(|(i, h)| !i && !h).collect();
        let free = reached(c.sides, &outside, 0, 1);
        let body: Vec<bool> = free.iter().map(|f| !f).collect();
        assert!(c.kept == body, "kept is the inside and what is held, with what these close in");
        assert!(pieces == 1 || c.held.contains(&true));
    }
    pieces
}

/// With one more opening allowed, one more is made exactly where a voxel is left to open.
fn one_more(c: &Carved, more: Option<Carved>) {
    assert_eq!(left_to_open(c), more.is_some_and(|more| more.openings > c.openings));
}

#[test]
fn the_last_answer_of_open() {
    let mut seed = 7;
    let (mut ends, mut unequal) = ([0; 2], 0);
    for round in 0..120usize {
        let sides = Sides { a: 5 + round % 4, b: 6, c: 5 + round % 3 };
        let values = noise(sides, 1, 20 + 10 * (round as u32 % 6), &mut seed);
        for allowed in [0, 1, 3, u16::MAX] {
            if let Some(c) = carved(PLAIN, sides, allowed, &values, &vec![UNMARKED; values.len()]) {
                check(&c, allowed);
                one_more(&c, carved(PLAIN, sides, allowed.saturating_add(1), &values, &vec![UNMARKED; values.len()]));
                let nothing_to_open = c.ended_by == Refusal::NOTHING_TO_OPEN;
                ends[usize::from(nothing_to_open)] += 1;
                unequal += i32::from(nothing_to_open && c.openings as i32 != 1 - c.euler);
            }
        }
    }
    assert!(ends[0] > 100 && ends[1] > 100, "both ends are met: {ends:?}");
    assert!(unequal > 0, "openings and tunnels need not be equal in number");
}

/// One voxel in ten pinned, and others hurried.
fn some_marks(n: usize, round: usize) -> Vec<u8> {
    let mark = |i: usize| match ((i + round) % 10, (7 * i + round) % 6) {
        (0, 0) => PINNED | HURRIED,
        (0, _) => PINNED,
        (_, 0) => HURRIED,
        _ => UNMARKED,
    };
    (0..n).map(mark).collect()
}

/// The same with pins and hurries: after 15 the body may have more pieces than one. Gives how many were carved with T = 0 and a pin that holds, and
/// how many fell into pieces.
fn marked(start: Start, allowed: &[u16], grid: impl Fn(usize, &mut u32) -> (Sides, Vec<i32>)) -> (usize, usize) {
    let (mut seed, mut filled, mut free) = (11, 0, 0);
    for round in 0..120usize {
        let (sides, values) = grid(round, &mut seed);
        let marks = some_marks(values.len(), round);
        for &allowed in allowed {
            if let Some(c) = carved(start, sides, allowed, &values, &marks) {
                let pieces = check(&c, allowed);
                one_more(&c, carved(start, sides, allowed.saturating_add(1), &values, &marks));
                assert!((0..values.len()).all(|i| c.kept[i] || !c.held[i]), "a pin holds");
                filled += usize::from(allowed == 0 && c.held.contains(&true));
                free += usize::from(c.ended_by == Refusal::NOTHING_TO_OPEN && pieces > 1);
            }
        }
    }
    (filled, free)
}

#[test]
fn with_pins() {
    let grid = |round: usize, seed: &mut u32| {
        let sides = Sides { a: 5 + round % 4, b: 6, c: 5 + round % 3 };
        (sides, noise(sides, 1, 3 + 10 * (round as u32 % 6), seed))
    };
    let (filled, free) = marked(PLAIN, &[0, 1, 3, u16::MAX], grid);
    assert!(filled > 50 && free > 10, "{filled} with T = 0, {free} in pieces");
}

/// All of it holds from a coarse start on.
#[test]
fn with_pins_and_a_coarse_start() {
    let grid = |round: usize, seed: &mut u32| {
        let sides = Sides { a: 8 + 2 * (round % 2), b: 8, c: 6 + 2 * (round % 3) };
        (sides, noise(sides, 2, 3 + 10 * (round as u32 % 6), seed))
    };
    let (filled, free) = marked(COARSE, &[0, 2, u16::MAX], grid);
    assert!(filled > 50 && free > 10, "{filled} with T = 0, {free} in pieces");
}
