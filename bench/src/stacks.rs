//! The stack of each of our calls.

use crate::judging::begun as begun_plainly;
use crate::singles::{archives, Scene};
use crate::{case, named, GRIDS};
use bench::archive::now::local_test;
use bench::archive::read_layer;
use bench::coarse::{ours as begin_coarse, Blocks};
use bench::contest::{Case, State};
use bench::grids::{bordered, Marks, Shape};
use bench::lists::{ours as judge, own};
use bench::office::{call, Office};
use bench::practice::ours as practice;
use bench::stack::{used, LEAST};
use std::hint::black_box;
use wattlerugby::raw::Grids;
use wattlerugby::MOST_GRIDS;

const CALLS: [&str; 15] = [
    "begin",
    "begin coarse",
    "carve",
    "take",
    "open",
    "serve",
    "judge",
    "finish",
    "crossing",
    "points",
    "read",
    "read_layer",
    "write",
    "practice",
    "local test",
];

/// Prints the table; the answer is the most that a call on one grid takes, and serve on sixteen, in bytes.
pub fn measure() -> [f64; 2] {
    println!("\n## Stack of our calls, bytes\n\n| grid | {} |\n|---|{}", CALLS.join(" | "), "---|".repeat(CALLS.len()));
    let serve = CALLS.iter().position(|&call| call == "serve").expect("serve is among them");
    let (mut most, mut most_of_serve) = (0, 0);
    for sides in GRIDS {
        // each is the most of the torus with no voxel marked, with every voxel hurried and with some pinned
        let marked = Marks::ALL.map(|marks| on(&Scene::of(Case { marks: marks.of(sides), ..case(sides, Shape::Torus) })));
        let mut found: [usize; 15] = std::array::from_fn(|call| marked.iter().map(|found| found[call]).max().unwrap_or(0));
        // begin's is the most of the torus and of what is full of gaps
        found[0] = Shape::GAPS.into_iter().map(|shape| of_begin(&case(sides, shape))).fold(found[0], usize::max);
        let cells = found.map(|bytes| if bytes == LEAST { format!("under {bytes}") } else { bytes.to_string() });
        println!("| {} | {} |", named(sides), cells.join(" | "));
        most_of_serve = most_of_serve.max(found[serve]);
        found[serve] = 0;
        most = most.max(found.into_iter().max().unwrap_or(0));
    }
    [most as f64, most_of_serve as f64]
}

fn of_begin(case: &Case) -> usize {
    let (calls, mut blank) = (&archives()[0].calls, State::blank(case));
    used(|| _ = (calls.begin)(case.sides, case.allowed, &case.values, &case.marks, &mut blank.dist, &mut blank.status).expect("begin"))
}

/// On the grid with a border of two voxels.
fn of_begin_coarse(case: &Case) -> usize {
    let case = Case { values: bordered(case.sides, case.values.wide.clone()).into(), marks: case.marks.clone(), ..*case };
    let (calls, mut blank, mut blocks) = (&archives()[0].calls, State::blank(&case), Blocks::blank(case.sides));
    used(|| _ = begin_coarse(calls, &case, &mut blank, &mut blocks))
}

/// In the order of `CALLS`.
fn on(scene: &Scene) -> [usize; 15] {
    let ours = &archives()[0];
    let (calls, others, case) = (&ours.calls, &ours.others, &scene.case);
    let done = &scene.finished;
    let [mut begun, mut to_take] = [(); 2].map(|()| scene.begun.clone());
    let [mut to_open, mut to_finish] = [(); 2].map(|()| scene.carved.clone());
    let pending = begun.status.iter().position(|&s| s == 3).expect("a pending voxel");
    let (mut values, mut out) = (case.values.clone(), vec![0.0; 3 * scene.crossings]);
    let (index, axis) = (scene.crossing / 3, (scene.crossing % 3) as u32);
    let (points, write) = (others.points.expect("ours has it"), others.write.expect("ours has it"));
    let mut file = scene.file.clone();
    // the list that carve and open leave with no voxel marked
    let unmarked = Case::unmarked(case.sides, case.allowed, case.values.clone());
    let mut to_judge = begun_plainly(&unmarked);
    let list = own(&unmarked, &to_judge);
    let mut office = Office::of(case, &scene.begun, MOST_GRIDS);
    let grids = Grids { count: MOST_GRIDS, records: [scene.begun.record.into(); MOST_GRIDS] };
    [
        of_begin(case),
        of_begin_coarse(case),
        used(|| _ = (calls.carve)(begun.record, &begun.dist, &case.marks, &mut begun.status, u32::MAX).expect("carve")),
        used(|| _ = (calls.take)(to_take.record, &to_take.dist, &case.marks, &mut to_take.status, pending)),
        used(|| _ = (calls.open)(to_open.record, &to_open.dist, &case.marks, &mut to_open.status).expect("open")),
        used(|| assert_eq!(call(&grids, &mut office, 1_000), 0)),
        used(|| assert!(judge(to_judge.record, &to_judge.dist, &mut to_judge.status, &list).is_ok())),
        used(|| _ = (calls.finish)(to_finish.record, &mut to_finish.dist, &to_finish.status).expect("finish")),
        used(|| assert!((others.crossing)(done.record, &done.dist, &done.status, index, axis).crosses)),
        used(|| assert_eq!(points(done.record, &done.dist, &done.status, 0, &mut out).count, scene.crossings)),
        used(|| assert_eq!((others.read)(&scene.patched, &mut values).refusal, 0)),
        used(|| assert_eq!(read_layer(case.sides, &scene.file, 7).refusal, 0)),
        used(|| assert_eq!(write(case.sides, case.allowed, &case.values, &mut file).length, scene.file.len())),
        used(|| assert_eq!(practice(case.sides, 1, &mut values.wide), Ok(()))),
        used(|| _ = black_box(local_test(black_box(0x07BE_8BEF)))),
    ]
}
