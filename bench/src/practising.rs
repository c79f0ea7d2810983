//! Practice grids: ours against two loops in Rust.

use crate::{named, Demand, GRIDS, LARGEST};
use bench::contest::ROUNDS;
use bench::practice::{ours, plain, tuned, Practice};
use bench::race::{race, Contestant};
use bench::types::{size, Sides};
use std::cell::RefCell;

const SEED: u32 = 2_026;

/// Document 02's CR 12 is a loop: so much of a plain one it may take.
const OF_PLAIN: f64 = 1.2;

/// As many calls in a run as have the voxels of the largest grid.
fn calls(sides: Sides) -> usize {
    size(LARGEST) / size(sides)
}

/// The least time of each in ns a call.
fn times(sides: Sides) -> Vec<f64> {
    let [mut wanted, lent] = [0x5A5A, 0].map(|value| vec![value; size(sides)]);
    plain(sides, SEED, &mut wanted).expect("fit sides");
    let lent = RefCell::new(lent);
    let contestant = |practice: Practice| -> Contestant {
        let lent = &lent;
        Box::new(move || {
            let values = &mut lent.borrow_mut()[..];
            (0..calls(sides)).for_each(|_| practice(sides, SEED, values).expect("fit sides"));
            values[size(sides) / 2] as u32 as u64
        })
    };
    for practice in [ours, plain, tuned] {
        lent.borrow_mut().fill(0x5A5A);
        practice(sides, SEED, &mut lent.borrow_mut()).expect("fit sides");
        assert!(*lent.borrow() == wanted, "other values");
    }
    let all = race(5 * ROUNDS, &[contestant(ours), contestant(plain), contestant(tuned)]);
    all.iter().map(|times| times.iter().copied().fold(f64::INFINITY, f64::min) / calls(sides) as f64).collect()
}

/// Prints the table; the answer is what is asked of the largest grid.
pub fn measure() -> Vec<Demand> {
    println!(
        "\n## Practice grids\n\nThe values of a seed. (a) goes voxel by voxel and asks each where it lies, (b) row by row, with the border filled.\n\n\
         | grid | practice, us | ours/(a) | ours/(b) | ns a voxel |\n|---|---|---|---|---|"
    );
    let mut asked = Vec::new();
    for sides in [GRIDS[0], GRIDS[2], LARGEST] {
        let [ours, a, b] = times(sides)[..] else { unreachable!("three contestants") };
        println!("| {} | {:.1} | {:.2} | {:.2} | {:.2} |", named(sides), ours / 1e3, ours / a, ours / b, ours / size(sides) as f64);
        if sides == LARGEST {
            asked.push(Demand(format!("practice, {}, ours/(a)", named(sides)), ours / a, OF_PLAIN));
        }
    }
    asked
}

/// Practice a single time; nothing where the other archive is asked, which may not have it.
pub fn once(sides: Sides, before: bool) {
    if before {
        return println!("none");
    }
    ours(sides, SEED, &mut vec![0; size(sides)]).expect("fit sides");
    println!("{0} {0}", size(sides));
}
