//! The local test on 1,000,000 random blocks.

use crate::ways::{self, block_bits, over, over_bytes, Loop, Way};
use crate::{named, Demand, GRIDS, NOT_SLOWER};
use bench::archive::now::Ours;
use bench::archive::BEFORE_HAS_FACES;
use bench::contest::{self, Calls, Case, Log, State};
use bench::grids::{blocks, inner, statuses, values, Shape};
use bench::local::{joined, Whole};
use bench::neighbourhood::{gather, kept_bits};
use bench::race::{median, race, Contestant};
use bench::types::{size, Machine, Sides};
use std::hint::black_box;

/// What document 02's CR 8 may cost the local test.
const FACE_FOUND: f64 = 1.1;

const COUNT: usize = 1_000_000;
const KEPT: [u64; 4] = [10, 25, 50, 80];

/// A grid whose status bytes stay in the first cache.
const SMALL: Sides = GRIDS[1];

/// Medians of rounds in ns per block, of blocks with so many in 100 kept.
struct Found {
    kept: u64,
    gathered: Vec<f64>,
    given: Vec<f64>,
    passing: Vec<f64>,
    in_place: Vec<f64>,
}

fn medians(rounds: usize, contestants: Vec<Contestant>) -> Vec<f64> {
    race(rounds, &contestants).iter().map(|times| median(times) / COUNT as f64).collect()
}

/// As carve does it, of the blocks around voxels of a small grid: their kept bits given, and gathered from the grid.
fn in_place(rounds: usize, kept: u64) -> Vec<f64> {
    let sides = black_box(SMALL);
    let (status, voxels) = (statuses(size(sides), kept), inner(sides, COUNT));
    // SAFETY: these are inner voxels of the grid, and there is a status byte for each voxel.
    let bits_at = |i: u32| kept_bits(unsafe { gather(sides, &status, i as usize) });
    let bits: Vec<u32> = voxels.iter().map(|&i| bits_at(i)).collect();
    let given = || over(&bits, |b| u64::from(joined::passes(b)));
    let gathered = || over(&voxels, |i| u64::from(joined::passes(bits_at(i))));
    medians(rounds, vec![Box::new(given), Box::new(gathered)])
}

/// The blocks that the first carve meets on a grid of such a shape, in its order, over and over: found by one examination at a time.
fn met(shape: Shape) -> Vec<u32> {
    let case = Case::unmarked(SMALL, 0, values(SMALL, shape).into());
    let mut state = State::blank(&case);
    contest::begin(&Calls::of::<Ours>(), &case, &mut state, &mut Log::default());
    let mut blocks = Vec::new();
    loop {
        let before = state.status.clone();
        let carved = Ours::carve(state.record, &state.dist, &case.marks, &mut state.status, 1).expect("carve takes the state");
        // the voxel that was examined is the only one that is no longer pending
        let Some(i) = (0..before.len()).find(|&i| before[i] == 3 && state.status[i] != 3) else { break };
        // SAFETY: a pending voxel is an inner one, and there is a status byte for each voxel.
        blocks.push(kept_bits(unsafe { gather(SMALL, &before, i) }));
        state.record = carved.next;
    }
    blocks.into_iter().cycle().take(COUNT).collect()
}

/// Passes or not of the blocks that carve meets, on a sphere, a torus and noise.
fn as_met(rounds: usize) -> Vec<f64> {
    let time = |shape: &Shape| {
        let bits = met(*shape);
        medians(rounds, vec![Box::new(|| over(&bits, |b| u64::from(joined::passes(b))))])[0]
    };
    Shape::ALL.iter().map(time).collect()
}

/// All ways over the same blocks. What their faces come to is added where a way is a call.
fn over_all<T>(blocks: &[T], of: fn(&Way) -> Loop<T>, faces: u64) -> Vec<Contestant<'_>> {
    let added = move |way: &Way| if way.is_call { faces } else { 0 };
    ways::ALL.iter().map(|way| Box::new(move || of(way)(blocks) ^ added(way)) as Contestant).collect()
}

fn find(rounds: usize, kept: u64, whole: &Whole) -> Found {
    let bytes = blocks(COUNT, kept);
    let bits: Vec<u32> = bytes.chunks_exact(27).map(block_bits).collect();
    let faces = ways::faces(&bits);
    let mut passing = over_all(&bytes, |way| way.passing, 0);
    passing.push(Box::new(|| over_bytes(&bytes, |b| u64::from(whole.passes(b)))));
    Found {
        kept,
        gathered: medians(rounds, over_all(&bytes, |way| way.gathered, faces)),
        given: medians(rounds, over_all(&bits, |way| way.given, faces)),
        passing: medians(rounds, passing),
        in_place: in_place(rounds, kept),
    }
}

fn table(title: &str, names: &[&str], found: &[Found], times: fn(&Found) -> &[f64]) {
    let heads: Vec<String> = found.iter().map(|f| f.kept.to_string()).collect();
    println!("\n{title}:\n\n| test | {} |\n|---|{}", heads.join(" | "), "---|".repeat(heads.len()));
    for (k, name) in names.iter().enumerate() {
        let cells: Vec<String> = found.iter().map(|f| format!("{:.1}", times(f)[k])).collect();
        println!("| {name} | {} |", cells.join(" | "));
    }
}

/// Prints the tables; the answer is what is asked of the figures.
pub fn measure(rounds: usize) -> Vec<Demand> {
    let heads = KEPT.map(|kept| kept.to_string()).join(", ");
    println!("\n## Local test, ns per block: 1,000,000 random blocks with {heads} in 100 kept, medians of {rounds} rounds");
    let whole = Whole::build();
    let found = KEPT.map(|kept| find(rounds, kept, &whole));
    let mut names: Vec<&str> = ways::ALL.iter().map(|way| way.name).collect();
    table("k, m, counts and face, the 27 status bytes gathered", &names, &found, |f| &f.gathered);
    table("k, m, counts and face, the block given as bits", &names, &found, |f| &f.given);
    names.push("(c) the table of 2^26 bits, 8 MB");
    table("Passes or not, the 27 status bytes gathered", &names, &found, |f| &f.passing);
    let title = format!("Passes or not, in place: as carve does it, of blocks in a grid of {}", named(SMALL));
    table(&title, &["Rust, the kept bits given", "Rust, gathered from the grid"], &found, |f| &f.in_place);
    let met = as_met(rounds);
    println!("\nPasses or not, in place, of the blocks that the first carve meets in a grid of {}:\n", named(SMALL));
    println!("| test | {} |\n|---|{}", Shape::ALL.map(|shape| shape.name()).join(" | "), "---|".repeat(met.len()));
    println!("| Rust, the kept bits given | {} |", met.iter().map(|t| format!("{t:.1}")).collect::<Vec<_>>().join(" | "));
    demands(&found, &met)
}

/// The local test of so many blocks, with so many in 100 kept, for a count of instructions.
pub fn once(kept: &str, count: &str, before: bool) {
    let bytes = blocks(count.parse().expect("how many blocks"), kept.parse().expect("how many in 100 are kept"));
    let way = &ways::ALL[if before { ways::BEFORE } else { ways::OURS }];
    black_box((way.gathered)(&bytes));
    println!("{count} {count}");
}

/// Where no density is named, at worst.
fn demands(found: &[Found], met: &[f64]) -> Vec<Demand> {
    let worst = |of: &dyn Fn(&Found) -> f64| found.iter().map(of).fold(0.0, f64::max);
    let mut asked = vec![
        Demand("local test, its bytes gathered, ns".into(), worst(&|f| f.gathered[ways::OURS]), 20.0),
        // the 20 ns were asked for where the same body takes Rust 13
        Demand("local test, ours/the same body in Rust".into(), worst(&|f| f.gathered[ways::OURS] / f.gathered[ways::SAME]), 20.0 / 13.0),
        Demand(
            "local test, a call, ours/the same body in Rust as a call".into(),
            worst(&|f| f.given[ways::OURS] / f.given[ways::CALLED]),
            1.1,
        ),
        Demand("local test, in place on the blocks that carve meets, in Rust, ns".into(), met.iter().copied().fold(0.0, f64::max), 14.0),
    ];
    // a block scanned once takes less time
    for (touched, both, how) in ways::SEARCHES {
        for (what, way) in [("ours", ways::OURS), ("a search of touched cells", touched)] {
            let ratio = |f: &Found| f.given[way] / f.given[both];
            let told = |f: &Found| format!("local test, {} in 100 kept, {what}/a search of both, {how}", f.kept);
            asked.extend(found.iter().map(|f| Demand(told(f), ratio(f), 1.0)));
        }
    }
    if ways::ALL.len() > ways::BEFORE {
        let most = if BEFORE_HAS_FACES { NOT_SLOWER } else { FACE_FOUND };
        asked.push(Demand("local test, a call, ours/before".into(), worst(&|f| f.given[ways::OURS] / f.given[ways::BEFORE]), most));
    }
    asked
}
