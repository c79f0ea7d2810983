//! Plain and coarse starts: begin coarse itself against Rust, and whole runs from either, with what both leave.

use crate::{named, Demand, ALL, GRIDS, LARGEST};
use bench::coarse::{by_parts, ours, BeginCoarse, Blocks};
use bench::contest::{begin, carve, finish, turns, Calls, Case, Log, State, ROUNDS};
use bench::grids::{bordered, values, Shape};
use bench::race::{race, Contestant};
use bench::types::Sides;
use std::cell::RefCell;

const SIDES: [Sides; 2] = [GRIDS[2], LARGEST];

/// The most openings that can be allowed, and none.
const ALLOWED: [u16; 2] = [u16::MAX, 0];

pub fn case(sides: Sides, shape: Shape, allowed: u16) -> Case {
    Case::unmarked(sides, allowed, bordered(sides, values(sides, shape)).into())
}

/// A run of so many ms is made twice, and any other ten times.
const LONG: f64 = 500.0;

/// What a run is given and leaves.
struct Desk {
    state: State,
    blocks: Blocks,
    log: Log,
    of_blocks: u32,
}

impl Desk {
    fn of(case: &Case) -> RefCell<Desk> {
        RefCell::new(Desk { state: State::blank(case), blocks: Blocks::blank(case.sides), log: Log::default(), of_blocks: 0 })
    }
}

/// The least of a contestant's times, in ms.
fn least(times: &[f64]) -> f64 {
    times.iter().copied().fold(f64::INFINITY, f64::min) / 1e6
}

/// Ours, and by the begin and carve of (a) and of (b).
const COARSE: [(&Calls, BeginCoarse); 3] = [(&ALL[0], ours), (&ALL[1], by_parts), (&ALL[2], by_parts)];

/// Prints what begin coarse takes, beside begin.
fn starts() {
    println!(
        "\nBegin coarse, ms: ours, ours/(a), ours/(b), where these have plain loops over blocks and (a)'s or (b)'s own begin and carve.\n"
    );
    println!("| grid | | begin | begin coarse | blocks examined | voxels handed out |\n|---|---|---|---|---|---|");
    for (sides, shape) in SIDES.into_iter().flat_map(|sides| Shape::COARSE.map(|shape| (sides, shape))) {
        let case = &case(sides, shape, 0);
        let desks = [(); 4].map(|()| Desk::of(case));
        let mut runs: Vec<Contestant> = Vec::new();
        for ((calls, begin_coarse), desk) in COARSE.iter().zip(&desks) {
            runs.push(Box::new(move || {
                let Desk { state, blocks, of_blocks, .. } = &mut *desk.borrow_mut();
                *of_blocks = begin_coarse(calls, case, state, blocks);
                0
            }));
        }
        let plain = &desks[3];
        runs.push(Box::new(move || {
            let Desk { state, log, .. } = &mut *plain.borrow_mut();
            begin(&ALL[0], case, state, log);
            0
        }));
        let times: Vec<f64> = race(3 * ROUNDS, &runs).iter().map(|times| least(times)).collect();
        let first = desks[0].borrow();
        for other in [&desks[1], &desks[2]].map(RefCell::borrow) {
            let same = (&first.state, &first.blocks, first.of_blocks) == (&other.state, &other.blocks, other.of_blocks);
            assert!(same, "other answers or buffers than by parts");
        }
        let kept = kept(&first.state).count();
        let ratios = [1, 2].map(|k| format!("{:.2}", times[0] / times[k])).join(", ");
        println!("| {} | {} | {:.3} | {:.3}, {ratios} | {} | {kept} |", named(sides), shape.name(), times[3], times[0], first.of_blocks);
    }
}

fn kept(state: &State) -> impl Iterator<Item = usize> + '_ {
    (0..state.status.len()).filter(|&i| state.status[i] != 0)
}

/// Carves to the end what was begun, and finishes.
fn to_the_end(case: &Case, desk: &mut Desk) {
    desk.log.carved.clear();
    desk.log.opened.clear();
    desk.log.faces.clear();
    desk.log.refused = None;
    carve(&ALL[0], case, &mut desk.state, &mut desk.log);
    turns(&ALL[0], case, &mut desk.state, &mut desk.log);
    finish(&ALL[0], case, &mut desk.state, &mut desk.log);
}

/// Whole runs of a grid from either start, as a row; the answer is the time from a coarse start to that from a plain one.
fn whole(case: &Case, shape: Shape) -> f64 {
    let [plain, coarse] = [(); 2].map(|()| Desk::of(case));
    let runs: [Contestant; 2] = [
        Box::new(|| {
            let desk = &mut *plain.borrow_mut();
            begin(&ALL[0], case, &mut desk.state, &mut desk.log);
            to_the_end(case, desk);
            0
        }),
        Box::new(|| {
            let desk = &mut *coarse.borrow_mut();
            desk.of_blocks = ours(&ALL[0], case, &mut desk.state, &mut desk.blocks);
            to_the_end(case, desk);
            0
        }),
    ];
    let first = race(1, &runs);
    let rounds = if least(&first[0]) > LONG { 1 } else { ROUNDS };
    let again = race(rounds, &runs);
    let times: Vec<f64> = first.iter().zip(&again).map(|(first, again)| least(first).min(least(again))).collect();
    let (plain, coarse) = (plain.borrow(), coarse.borrow());
    let [alone, here] =
        [(&plain, &coarse), (&coarse, &plain)].map(|(one, other)| kept(&one.state).filter(|&i| other.state.status[i] == 0).count());
    println!(
        "| {} | {} | {} | {} | {} + {} | {}, {} | {} | {} | {alone}, {here} | {:.3} | {:.3} | {:.2} |",
        named(case.sides),
        shape.name(),
        case.allowed,
        plain.log.examined(),
        coarse.of_blocks,
        coarse.log.examined(),
        plain.log.opened.len(),
        coarse.log.opened.len(),
        kept(&plain.state).count(),
        kept(&coarse.state).count(),
        times[0],
        times[1],
        times[1] / times[0],
    );
    times[1] / times[0]
}

/// Prints the tables; the answer is what is asked of the figures: that a coarse start saves time on a stockpile.
pub fn measure() -> Vec<Demand> {
    println!("\n## Coarse starts\n\nEvery grid has a border of two voxels that are not negative.");
    starts();
    println!(
        "\nBegin, carve and open in turn, finish: from a plain start and from a coarse one, ms, the least of ten runs, of two where one takes over half a \
         second. Examined are voxels, and from a coarse start blocks + voxels. The kept voxels that one of the two has alone are the plain start's and the \
         coarse one's.\n"
    );
    println!("| grid | | T | examined, plain | coarse | openings | kept, plain | coarse | by one alone | plain, ms | coarse, ms | coarse/plain |");
    println!("|---|---|---|---|---|---|---|---|---|---|---|---|");
    let mut asked = Vec::new();
    for (sides, shape) in SIDES.into_iter().flat_map(|sides| Shape::COARSE.map(|shape| (sides, shape))) {
        for allowed in ALLOWED {
            let ratio = whole(&case(sides, shape, allowed), shape);
            if shape == Shape::Stockpile && sides == LARGEST {
                asked.push(Demand(format!("whole run, {} {}, T = {allowed}, coarse/plain", named(sides), shape.name()), ratio, 1.0));
            }
        }
    }
    asked
}

/// Begin coarse a single time; nothing where the other archive is asked, which may not have it.
pub fn once(shape: &str, sides: Sides, before: bool) {
    if before {
        return println!("none");
    }
    let case = case(sides, Shape::named(shape).expect("a shape by its name"), 0);
    let (mut state, mut blocks) = (State::blank(&case), Blocks::blank(sides));
    let of_blocks = ours(&ALL[0], &case, &mut state, &mut blocks);
    println!("{} {of_blocks}", case.marks.len());
}
