//! Pins and hurries: what marks cost the calls that are lent them, where no voxel is marked, where each is hurried, and where one in ten is pinned.

use crate::{after, against_all, apart, case, mark, named, Demand, ALL, BEFORE, GRIDS, LARGEST, NOT_SLOWER};
use bench::archive::BEFORE_HAS_MARKS;
use bench::contest::{begin, carve, carve_one, contest, open, take, Calls, Case, Log, Race, Run, State};
use bench::grids::{Marks, Shape};
use bench::types::Sides;

const SIDES: [Sides; 2] = [GRIDS[0], LARGEST];

/// What document 02's CR 7 may cost a call where no voxel is marked.
const MARKS_LOOKED_AT: f64 = 1.1;

/// A call: from which state, and in which unit a time is told.
struct Call {
    title: &'static str,
    before: &'static [Run],
    run: Run,
    unit: fn(&Log) -> f64,
}

fn microseconds(_: &Log) -> f64 {
    1e3
}

const CALLS: [Call; 5] = [
    Call { title: "begin, us", before: &[], run: begin, unit: microseconds },
    Call { title: "first carve, ns per examination", before: &[begin], run: carve, unit: |log| log.examined() as f64 },
    Call { title: "carve with limit 1, us", before: &[begin], run: carve_one, unit: microseconds },
    Call { title: "take, us", before: &[begin], run: take, unit: microseconds },
    Call { title: "open, us", before: &[begin, carve], run: open, unit: microseconds },
];

/// The grid with these marks, and for take the middle one of the voxels that can be taken.
fn marked(sides: Sides, shape: Shape, marks: Marks) -> Case {
    let mut case = Case { marks: marks.of(sides), ..case(sides, shape) };
    let begun = after(&case, &[begin]);
    let takes = |&i: &usize| {
        let State { record, dist, mut status } = begun.clone();
        (ALL[1].take)(record, &dist, &case.marks, &mut status, i).is_ok()
    };
    // each try looks at the whole grid, so only some are made
    let pending: Vec<usize> = (0..begun.status.len()).filter(|&i| begun.status[i] == 3).collect();
    let from_the_middle = pending.iter().skip(pending.len() / 2).chain(&pending).copied();
    case.taken = from_the_middle.take(1000).find(takes).expect("a pending voxel that passes, among a thousand");
    case
}

/// Ours, (a), (b), and the other archive's unless it has no marks and some voxel is marked.
fn entrants(marks: Marks) -> &'static [Calls] {
    static ENTRANTS: &[Calls] = &ALL;
    match marks == Marks::None || BEFORE_HAS_MARKS {
        true => ENTRANTS,
        false => &ENTRANTS[..BEFORE],
    }
}

fn times(call: &Call, case: &Case, marks: Marks) -> (String, Vec<f64>) {
    let start = after(case, call.before);
    let apart = if call.before.is_empty() { apart(case) } else { None }.filter(|_| entrants(marks).len() > BEFORE);
    let race: Race = contest(entrants(marks), case, &start, call.run, apart.as_ref());
    let times: Vec<f64> = race.times.iter().map(|time| time / (call.unit)(race.log())).collect();
    let examined = match race.log().examined() {
        0 | 1 => String::new(),
        many => format!("{many} examined: "),
    };
    (format!("{examined}{}{}", against_all(&times), mark(apart.is_some())), times)
}

/// Prints the table; the answer is what is asked of the figures.
pub fn measure() -> Vec<Demand> {
    let before = if ALL.len() > BEFORE { ", ours/before" } else { "" };
    println!("\n## Marks: our time, ours/(a), ours/(b){before}\n");
    if !before.is_empty() && !BEFORE_HAS_MARKS {
        println!("The other archive is from before document 02's CR 7 and is lent no marks: it runs where no voxel is marked.\n");
    }
    println!("| grid | | marks | {} |", CALLS.map(|call| call.title).join(" | "));
    println!("|---|---|---|{}", "---|".repeat(CALLS.len()));
    let mut asked = Vec::new();
    for (sides, shape) in SIDES.into_iter().flat_map(|sides| Shape::ALL.map(|shape| (sides, shape))) {
        for marks in Marks::ALL {
            let case = marked(sides, shape, marks);
            print!("| {} | {} | {} |", named(sides), shape.name(), marks.name());
            for call in &CALLS {
                let (cell, times) = times(call, &case, marks);
                print!(" {cell} |");
                let against_before = times.get(BEFORE).filter(|_| marks == Marks::None && sides == LARGEST && !cell.ends_with('*'));
                asked.extend(against_before.map(|before| demand(call, shape, times[0] / before)));
            }
            println!();
        }
    }
    asked
}

fn demand(call: &Call, shape: Shape, ratio: f64) -> Demand {
    let most = if BEFORE_HAS_MARKS { NOT_SLOWER } else { MARKS_LOOKED_AT };
    let call = call.title.split(',').next().unwrap_or(call.title);
    Demand(format!("marks: {call}, {} {}, no voxel marked, ours/before", named(LARGEST), shape.name()), ratio, most)
}
