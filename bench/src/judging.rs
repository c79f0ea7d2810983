//! Removal lists: judge of our own list against the calls that made it, and against Rust; and what openings cost.

use crate::{named, Demand, ALL, GRIDS, LARGEST};
use bench::contest::{begin, carve, turns, Case, Log, State, ROUNDS};
use bench::grids::{values, Shape};
use bench::lists::{ours, own, plain, tuned, Judge};
use bench::race::{race, Contestant};
use bench::types::Sides;
use std::cell::RefCell;
use wattlerugby::{Entry, Judged};

const SIDES: [Sides; 2] = [GRIDS[2], LARGEST];

/// A grid of the table, with T: none allowed, and of noise so many besides.
const CASES: [(Shape, u16); 4] = [(Shape::Sphere, 0), (Shape::Torus, 0), (Shape::Noise, 0), (Shape::Noise, 1000)];

/// Rust's judge with a look at every voxel for each opening takes over a second where there are a thousand: such a race has fewer rounds.
const LONG: f64 = 500e6;

pub fn case(sides: Sides, shape: Shape, allowed: u16) -> Case {
    Case::unmarked(sides, allowed, values(sides, shape).into())
}

pub fn begun(case: &Case) -> State {
    let mut state = State::blank(case);
    begin(&ALL[0], case, &mut state, &mut Log::default());
    state
}

fn least(times: &[f64]) -> f64 {
    times.iter().copied().fold(f64::INFINITY, f64::min)
}

/// What a row has of a list: removals, and the times in ns of the calls that made it, of our judge, and of both in Rust.
struct Row {
    removals: u64,
    made: f64,
    judges: [f64; 3],
}

fn row(case: &Case) -> (Row, Judged) {
    let start = begun(case);
    let list = &own(case, &start);
    // the calls that make the list, timed without begin
    let desk = RefCell::new((start.clone(), Log::default()));
    let calls: Contestant = Box::new(|| {
        let (state, log) = &mut *desk.borrow_mut();
        state.set(&start);
        *log = Log::default();
        carve(&ALL[0], case, state, log);
        turns(&ALL[0], case, state, log);
        state.record.removals
    });
    let status = RefCell::new(start.status.clone());
    let judge = |judge: Judge| -> Contestant {
        let (start, status) = (&start, &status);
        Box::new(move || judge(start.record, &start.dist, &mut status.borrow_mut(), list).expect("our own list is accepted").removals)
    };
    let contestants = [calls, judge(ours), judge(plain), judge(tuned)];
    let first = race(1, &contestants);
    let rounds = if first.iter().any(|times| times[0] > LONG) { 2 } else { ROUNDS };
    let again = race(rounds, &contestants);
    let times: Vec<f64> = first.iter().zip(&again).map(|(first, again)| least(first).min(least(again))).collect();
    let judged = ours(start.record, &start.dist, &mut status.borrow_mut(), list).expect("our own list is accepted");
    let record = desk.borrow().0.record;
    assert_eq!((judged.removals, judged.openings, judged.euler), (record.removals, record.openings, record.euler));
    assert!(*status.borrow() == start.status, "the status bytes end as they began");
    (Row { removals: judged.removals, made: times[0], judges: [times[1], times[2], times[3]] }, judged)
}

/// Prints the table; the answer is what is asked of the figures: that judging takes no longer than the calls that it stands in for, and that openings
/// do not make a removal cost a look at the grid.
pub fn measure() -> Vec<Demand> {
    println!(
        "\n## Removal lists\n\nOur own list, judged on the grid as begun, beside carve and open in turn, which made it. (a) looks at every voxel for each \
         opening, (b) around what has gone since the last one; both have a copy of the status bytes.\n"
    );
    println!(
        "| grid | | T | removals | openings | carve and open, ms | judge, ms | judge/carve and open | ours/(a) | ours/(b) | ns a removal |"
    );
    println!("|---|---|---|---|---|---|---|---|---|---|---|");
    let mut asked = Vec::new();
    for sides in SIDES {
        let mut unopened = f64::NAN;
        for (shape, allowed) in CASES {
            let (Row { removals, made, judges: [judge, a, b] }, judged) = row(&case(sides, shape, allowed));
            let each = judge / removals as f64;
            println!(
                "| {} | {} | {allowed} | {removals} | {} | {:.3} | {:.3} | {:.2} | {:.2} | {:.2} | {each:.1} |",
                named(sides),
                shape.name(),
                judged.openings,
                made / 1e6,
                judge / 1e6,
                judge / made,
                judge / a,
                judge / b,
            );
            let told = format!("{} {}, T = {allowed}", named(sides), shape.name());
            if sides == LARGEST {
                asked.push(Demand(format!("judge, {told}, to the calls that made the list"), judge / made, 1.0));
            }
            match (shape, allowed) {
                (Shape::Noise, 0) => unopened = each,
                (Shape::Noise, _) => asked.push(Demand(format!("judge, {told}, a removal to one with T = 0"), each / unopened, 2.0)),
                _ => {}
            }
        }
    }
    asked
}

/// Judge a single time; nothing where the other archive is asked, which may not have it. The list's entries stand in for examinations.
pub fn once(shape: &str, sides: Sides, before: bool) {
    if before {
        return println!("none");
    }
    let allowed = if shape == Shape::Noise.name() { 1000 } else { 0 };
    let case = case(sides, Shape::named(shape).expect("a shape by its name"), allowed);
    let mut start = begun(&case);
    let list = own(&case, &start);
    ours(start.record, &start.dist, &mut start.status, &list).expect("our own list is accepted");
    println!("{} {}", case.marks.len(), list.len() / Entry::LENGTH);
}
