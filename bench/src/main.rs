//! The benchmark: the product against idiomatic and tuned Rust, and against an earlier archive of its own where one is given, as Markdown tables.
//! Words given name the parts to run; none: all. `once PART SHAPE SIDE [before]` makes a part's calls a single time on a cube, `once block KEPT
//! COUNT [before]` the local test on so many blocks; either prints by what to divide a count of instructions.

mod files;
mod gaps;
mod judging;
mod locals;
mod marks;
mod patches;
mod practising;
mod serving;
mod singles;
mod stacks;
mod starts;
mod ways;

use bench::archive;
use bench::contest::{begin, carve, contest, turns, whole, Apart, Calls, Case, Log, Race, Run, State, ROUNDS};
use bench::grids::{another, pending, values, Distances, Shape};
use bench::plain::{filled, Plain};
use bench::tuned::Tuned;
use bench::types::{size, Sides, Values};
use singles::Took;
use std::hint::black_box;

const GRIDS: [Sides; 5] = [
    Sides { a: 16, b: 16, c: 16 },
    Sides { a: 24, b: 24, c: 24 },
    Sides { a: 32, b: 32, c: 32 },
    Sides { a: 64, b: 64, c: 64 },
    Sides { a: 64, b: 40, c: 20 },
];
const LARGEST: Sides = GRIDS[3];

/// The words that choose parts.
const WORDS: [&str; 17] = [
    "begin", "gaps", "marks", "coarse", "carve", "turns", "whole", "serve", "judge", "practice", "single", "read", "write", "patches",
    "crafted", "local", "stack",
];

/// T of every grid, so that a noise grid's turns come to an end.
const ALLOWED: u16 = 64;

/// Ours, (a), (b), and the other archive's where one is given.
#[cfg(not(before))]
const ALL: [Calls; 3] = [Calls::of::<archive::now::Ours>(), Calls::of::<Plain>(), Calls::of::<Tuned>()];
#[cfg(before)]
const ALL: [Calls; 4] =
    [Calls::of::<archive::now::Ours>(), Calls::of::<Plain>(), Calls::of::<Tuned>(), Calls::of::<archive::before::Before>()];
const BEFORE: usize = 3;

/// What a table's title says of the second figure.
fn ratio_to(before: bool) -> &'static str {
    if before {
        "; then ours/before"
    } else {
        ""
    }
}

/// A time, with how it stands to another where there is one.
fn with_ratio(time: f64, before: Option<f64>) -> String {
    let digits = if time < 10.0 { 3 } else { 1 };
    let ratio = before.filter(|before| before.is_finite()).map(|before| format!(", {:.2}", time / before));
    format!("{time:.digits$}{}", ratio.unwrap_or_default())
}

fn named(Sides { a, b, c }: Sides) -> String {
    format!("{a} x {b} x {c}")
}

fn case(sides: Sides, shape: Shape) -> Case {
    Case::unmarked(sides, ALLOWED, values(sides, shape).into())
}

/// Whether another archive is given that is from before document 02's CR 6.
fn before_leaves_gaps() -> bool {
    ALL.get(BEFORE).is_some_and(|before| !before.fills_gaps())
}

/// The other archive, on a grid of which its begin makes something else by rule: one with gaps behind the face.
fn apart(case: &Case) -> Option<Apart> {
    if !before_leaves_gaps() {
        return None;
    }
    let values = filled(case.sides, &case.values.wide);
    let marks = case.marks.clone();
    (values != case.values.wide).then(|| Apart { entrant: BEFORE, filled: Case { values: values.into(), marks, ..*case } })
}

/// The state that runs lead to from a grid's values.
fn after(case: &Case, runs: &[Run]) -> State {
    let mut state = State::blank(case);
    for run in runs {
        run(&ALL[1], case, &mut state, &mut Log::default());
    }
    state
}

/// A part of the benchmark: what is timed, from which state, and in which unit a time is told.
struct Part {
    word: &'static str,
    title: &'static str,
    before: &'static [Run],
    run: Run,
    unit: fn(&Log) -> f64,
    count: fn(&Log) -> String,
}

fn milliseconds(_: &Log) -> f64 {
    1e6
}

fn examinations(log: &Log) -> f64 {
    log.examined() as f64
}

fn openings(log: &Log) -> String {
    format!("{} openings: ", log.opened.len())
}

fn uncounted(_: &Log) -> String {
    String::new()
}

const PARTS: [Part; 4] = [
    Part { word: "begin", title: "begin, ms", before: &[], run: begin, unit: milliseconds, count: uncounted },
    Part {
        word: "carve",
        title: "first carve, ns per examination",
        before: &[begin],
        run: carve,
        unit: examinations,
        count: |log| format!("{} examined: ", log.examined()),
    },
    Part { word: "turns", title: "open and carve in turn, ms", before: &[begin, carve], run: turns, unit: milliseconds, count: openings },
    Part { word: "whole", title: "whole run, ms", before: &[], run: whole, unit: milliseconds, count: uncounted },
];

/// What a part took on a grid, for each implementation.
struct Found {
    word: &'static str,
    sides: Sides,
    shape: Shape,
    times: Vec<f64>,
}

/// Our time, and how it stands to (a), to (b), and to the other archive's.
fn against_all(times: &[f64]) -> String {
    let digits = if times[0] < 10.0 { 3 } else { 1 };
    let ratios: String = times[1..].iter().map(|t| format!(", {:.2}", times[0] / t)).collect();
    format!("{:.digits$}{ratios}", times[0])
}

/// Behind a ratio to the other archive that has other answers.
fn mark(apart: bool) -> &'static str {
    if apart {
        "*"
    } else {
        ""
    }
}

/// Times a part on a grid and prints its cell.
fn measure(part: &Part, sides: Sides, shape: Shape) -> Found {
    let case = case(sides, shape);
    let start = after(&case, part.before);
    // from a state on, all go by the same rules
    let apart = if part.before.is_empty() { apart(&case) } else { None };
    let race = contest(&ALL, &case, &start, part.run, apart.as_ref());
    let unit = (part.unit)(race.log());
    let times: Vec<f64> = race.times.iter().map(|t| t / unit).collect();
    print!(" {}{}{} |", (part.count)(race.log()), against_all(&times), mark(apart.is_some()));
    Found { word: part.word, sides, shape, times }
}

fn measure_all(parts: &[&Part]) -> Vec<Found> {
    let titles: Vec<&str> = parts.iter().map(|part| part.title).collect();
    let before = if ALL.len() > BEFORE { ", ours/before" } else { "" };
    println!("\n## Calls: our time, ours/(a), ours/(b){before}\n\n| grid | | {} |", titles.join(" | "));
    println!("|---|---|{}", "---|".repeat(parts.len()));
    let mut found = Vec::new();
    for sides in GRIDS {
        for shape in Shape::ALL {
            print!("| {} | {} |", named(sides), shape.name());
            found.extend(parts.iter().map(|part| measure(part, sides, shape)));
            println!();
        }
    }
    found
}

/// The time of an implementation for a part.
fn time(found: &[Found], word: &str, sides: Sides, shape: Shape, implementation: usize) -> f64 {
    let of = found.iter().find(|f| f.word == word && f.sides == sides && f.shape == shape);
    of.expect("a measured part").times[implementation]
}

/// How many grids of the smallest size are carved in turn, for the time that the largest one's is held against. A single one has so few examinations
/// that the branch predictor learns them where it is carved again and again.
const DIFFERENT: u64 = 64;

/// What an examination may take more of in the largest grid.
const GROWTH: f64 = 1.15;

/// Prints how much more an examination takes in the largest grid than in the smallest ones, all raced in the same rounds; the answer is ours at
/// worst.
fn growth() -> f64 {
    println!("\n## Growth of the time per examination, {} to {}\n", named(GRIDS[0]), named(LARGEST));
    println!(
        "From ns to ns, and their ratio. The first is over {DIFFERENT} different grids that are carved in turn, since the branch predictor learns one \
         that is repeated.\n"
    );
    println!("| | ours | (a) | (b) |\n|---|---|---|---|");
    let mut most = 0.0f64;
    for shape in Shape::ALL {
        let case = |sides: Sides, nth: u64| Case::unmarked(sides, ALLOWED, another(sides, shape, nth).into());
        let cases: Vec<Case> = (0..DIFFERENT).map(|nth| case(GRIDS[0], nth)).chain([case(LARGEST, DIFFERENT)]).collect();
        let starts: Vec<State> = cases.iter().map(|case| after(case, &[begin])).collect();
        let mut races: Vec<Race> = cases.iter().zip(&starts).map(|(case, start)| Race::new(ALL.len(), case, start, carve, None)).collect();
        (0..5 * ROUNDS).for_each(|_| races.iter_mut().for_each(|race| race.round(&ALL)));
        let (large, small) = races.split_last().expect("the largest grid");
        let each = |races: &[Race], k: usize| {
            let time: f64 = races.iter().map(|race| race.times[k]).sum();
            time / races.iter().map(|race| examinations(race.log())).sum::<f64>()
        };
        let times = [0, 1, 2].map(|k| (each(small, k), each(std::slice::from_ref(large), k)));
        let cells = times.map(|(from, to)| format!("{from:.1} to {to:.1}, {:.2}", to / from));
        println!("| {} | {} |", shape.name(), cells.join(" | "));
        most = most.max(times[0].1 / times[0].0);
    }
    most
}

/// Prints what an examination takes where every inner voxel of the largest grid is pending, which begin never makes; the answer is ours to
/// the other archive's at worst.
fn worst_case() -> Option<f64> {
    let before = if ALL.len() > BEFORE { ", ours/before" } else { "" };
    println!("\n## Every inner voxel of {} pending, ns per examination: ours, ours/(a), ours/(b){before}\n", named(LARGEST));
    println!("| distances | examined | |\n|---|---|---|");
    let mut most: Option<f64> = None;
    for distances in Distances::ALL {
        let case = Case::unmarked(LARGEST, 0, Values::default());
        let start = crafted(LARGEST, distances);
        let race = contest(&ALL, &case, &start, carve, None);
        let times: Vec<f64> = race.times.iter().map(|t| t / examinations(race.log())).collect();
        println!("| {} | {} | {} |", distances.name(), race.log().examined(), against_all(&times));
        most = times.get(BEFORE).map(|before| (times[0] / before).max(most.unwrap_or(0.0)));
    }
    most
}

fn crafted(sides: Sides, distances: Distances) -> State {
    let (dist, status) = pending(sides, distances);
    State { record: bench::types::begun(sides, 0), dist, status }
}

/// A demand: what it is about, what was measured, and the greatest that meets it.
struct Demand(String, f64, f64);

/// Ours to (a) or to (b), on the largest grid.
fn against_rust(found: &[Found], word: &'static str, rust: &'static str, shapes: &[Shape], most: f64) -> Vec<Demand> {
    let other = if rust == "(a)" { 1 } else { 2 };
    let measured = |&shape: &Shape| {
        let ratio = time(found, word, LARGEST, shape, 0) / time(found, word, LARGEST, shape, other);
        Demand(format!("{word}, {} {}, ours/{rust}", named(LARGEST), shape.name()), ratio, most)
    };
    shapes.iter().map(measured).collect()
}

/// A change makes no call slower, beyond what a run tells.
const NOT_SLOWER: f64 = 1.15;

/// What document 02's CR 8 may cost carve.
const FACE_HANDED_ON: f64 = 1.05;

/// What CR 6 may cost begin where no point is missing.
const GAPS_LOOKED_FOR: f64 = 1.3;

/// What is asked of begin against the other archive: of one that leaves gaps, on grids without a missing point alone.
fn most_of_begin() -> f64 {
    if before_leaves_gaps() {
        GAPS_LOOKED_FOR
    } else {
        NOT_SLOWER
    }
}

/// Ours to the other archive's, on the largest grid: for a part, or for a single call.
fn against_before(found: &[Found], took: &[Took], word: &str, shapes: &[Shape], most: f64) -> Vec<Demand> {
    let part = |shape: Shape| found.iter().find(|f| f.word == word && f.sides == LARGEST && f.shape == shape).map(|f| &f.times);
    let single = |shape: Shape| took.iter().find(|t| t.word == word && t.sides == LARGEST && t.shape == shape).map(|t| &t.times);
    let measured = |&shape: &Shape| {
        let (ours, before) = match (part(shape), single(shape)) {
            (Some(times), _) => (times[0], *times.get(BEFORE)?),
            (_, Some(times)) => (times[0], *times.get(1)?),
            _ => return None,
        };
        Some(Demand(format!("{word}, {} {}, ours/before", named(LARGEST), shape.name()), ours / before, most))
    };
    shapes.iter().filter_map(measured).collect()
}

/// A part's calls a single time: ours, or those of the other archive.
fn once(word: &str, shape: &str, side: &str, before: bool) {
    if word == "block" {
        return locals::once(shape, side, before);
    }
    let side = side.parse().expect("a side");
    let sides = Sides { a: side, b: side, c: side };
    if word == "coarse" {
        return starts::once(shape, sides, before);
    }
    if word == "judge" {
        return judging::once(shape, sides, before);
    }
    if word == "practice" {
        return practising::once(sides, before);
    }
    if word == "serve" {
        return serving::once(shape, sides, before);
    }
    let calls = &ALL[if before { BEFORE } else { 0 }];
    if let Some(distances) = Distances::ALL.into_iter().find(|d| word == "crafted" && d.name() == shape) {
        let (mut state, mut log) = (crafted(sides, distances), Log::default());
        carve(calls, &Case::unmarked(sides, 0, Values::default()), &mut state, &mut log);
        return println!("{} {}", size(sides), log.examined());
    }
    let case = case(sides, Shape::named(shape).expect("a shape by its name"));
    let Some(part) = PARTS.iter().find(|part| part.word == word) else {
        assert!(singles::once(word, case, usize::from(before)), "there is no part {word}");
        return;
    };
    let (mut state, mut log) = (after(&case, part.before), Log::default());
    (part.run)(calls, &case, &mut state, &mut log);
    println!("{} {}", size(case.sides), log.examined());
}

// So many bytes stand in front of the code of both archives. Begin took up to a fifth more where its inner loop lay across two lines of the cache,
// and where each archive's lies is the linker's chance: four builds that are 16 bytes apart have every placement.
std::arch::global_asm!(".section .text.shift, \"ax\"", ".globl shift", "shift:", concat!(".skip ", env!("SHIFT")), ".text");

extern "C" {
    fn shift();
}

fn main() {
    black_box(shift as *const ());
    let words: Vec<String> = std::env::args().skip(1).collect();
    let given: Vec<&str> = words.iter().map(String::as_str).collect();
    #[cfg(before)]
    archive::check_before();
    match given[..] {
        ["once", part, shape, side] => return once(part, shape, side, false),
        ["once", part, shape, side, "before"] => return once(part, shape, side, true),
        _ => {}
    }
    if let Some(word) = given.iter().find(|word| !WORDS.contains(word)) {
        eprintln!("bench: there is no part '{word}'; the parts are {}", WORDS.join(" "));
        std::process::exit(2);
    }
    let wanted = |word: &str| words.is_empty() || words.iter().any(|w| w == word);
    println!(
        "Processor time, least of {ROUNDS} rounds or more, or as told; every implementation once a round, in an order drawn anew, all answers and \
         buffers equal."
    );
    if before_leaves_gaps() {
        println!(
            "\nThe other archive is from before document 02's CR 6 and leaves gaps behind the face as they are. On a grid with such gaps its begin and its \
             whole run come to something else by rule: a ratio marked * is of times alone, of answers that are not compared. What it makes of the \
             same grid with the gaps filled is compared."
        );
    }
    let mut demands = Vec::new();
    let parts: Vec<&Part> = PARTS.iter().filter(|part| wanted(part.word)).collect();
    let found = if parts.is_empty() { Vec::new() } else { measure_all(&parts) };
    let took = if wanted("single") { singles::measure(case) } else { Vec::new() };
    if wanted("begin") {
        let shapes = if before_leaves_gaps() { &[Shape::Sphere, Shape::Torus] } else { &Shape::ALL[..] };
        demands.extend(against_before(&found, &took, "begin", shapes, most_of_begin()));
        demands.extend(against_rust(&found, "begin", "(a)", &[Shape::Sphere, Shape::Noise], 0.5));
        demands.extend(against_rust(&found, "begin", "(b)", &[Shape::Sphere, Shape::Torus], 0.4));
        demands.extend(against_rust(&found, "begin", "(b)", &[Shape::Noise], 0.55));
    }
    if wanted("gaps") {
        demands.extend(gaps::measure());
    }
    if wanted("marks") {
        demands.extend(marks::measure());
    }
    if wanted("coarse") {
        demands.extend(starts::measure());
    }
    if wanted("carve") {
        let most = if archive::BEFORE_HAS_FACES { NOT_SLOWER } else { FACE_HANDED_ON };
        demands.extend(against_before(&found, &took, "carve", &Shape::ALL, most));
        demands.extend(against_rust(&found, "carve", "(a)", &Shape::ALL, 0.35));
        demands.extend(against_rust(&found, "carve", "(b)", &Shape::ALL, 0.6));
        demands.push(Demand("carve, growth".into(), growth(), GROWTH));
    }
    if wanted("turns") {
        demands.extend(against_before(&found, &took, "turns", &[Shape::Noise], NOT_SLOWER));
    }
    if wanted("serve") {
        demands.extend(serving::measure());
    }
    if wanted("judge") {
        demands.extend(judging::measure());
    }
    if wanted("practice") {
        demands.extend(practising::measure());
    }
    if wanted("single") {
        for word in ["check", "open", "finish", "points", "read", "write"] {
            demands.extend(against_before(&found, &took, word, &Shape::ALL, NOT_SLOWER));
        }
        let points = took.iter().filter(|t| t.word == "points" && t.sides == LARGEST);
        let each = points.map(|t| 1e3 * t.times[0] / (3 * size(LARGEST)) as f64).fold(0.0, f64::max);
        demands.push(Demand(format!("all points, {}, ns per position", named(LARGEST)), each, 15.0));
    }
    if wanted("read") {
        demands.extend(files::measure_read(case));
    }
    if wanted("write") {
        demands.extend(files::measure_write(case));
    }
    if wanted("patches") {
        for (sides, by_index) in patches::measure(case) {
            demands.push(Demand(format!("patches, {}, ours/a loop by index", named(sides)), by_index, 1.3));
        }
    }
    if wanted("crafted") {
        demands.extend(worst_case().map(|ratio| Demand("carve, every inner voxel pending, ours/before".into(), ratio, 1.0)));
    }
    if wanted("local") {
        demands.extend(locals::measure(3 * ROUNDS));
    }
    if wanted("stack") {
        let [most, serve] = stacks::measure().map(|bytes| bytes / 1024.0);
        demands.push(Demand("stack of a call on one grid, KB".into(), most, 15.0));
        demands.push(Demand("stack of serve on sixteen, KB".into(), serve, 19.0));
    }
    println!("\n## Demands\n\n| | measured | at most | |\n|---|---|---|---|");
    for Demand(what, measured, most) in demands {
        println!("| {what} | {measured:.2} | {most:.2} | {} |", if measured <= most { "met" } else { "MISSED" });
    }
}

#[cfg(test)]
mod tests {
    use super::{PARTS, WORDS};

    /// bench/run refuses any other word before it builds anything, and so has the list too.
    #[test]
    fn words() {
        let run = include_str!("../run");
        let list = run.lines().find_map(|line| line.strip_prefix("parts='")).expect("bench/run has a list");
        assert_eq!(list.trim_end_matches('\''), WORDS.join(" "));
        let asked = include_str!("main.rs").split("wanted(\"").skip(1).filter_map(|rest| rest.split_once("\")"));
        let known = asked.map(|(word, _)| word).chain(PARTS.iter().map(|part| part.word));
        let known: std::collections::BTreeSet<&str> = known.collect();
        assert!(known.iter().eq(std::collections::BTreeSet::from(WORDS).iter()), "{known:?}");
    }

    #[test]
    fn another_word_is_refused() {
        let script = |name: &str| concat!(env!("CARGO_MANIFEST_DIR"), "/").to_string() + name;
        for (name, words) in [("run", &["bogus"][..]), ("run", &["begin", "bogus"]), ("count", &["bogus"])] {
            let out = std::process::Command::new("sh").arg(script(name)).args(words).output().expect("a shell runs");
            let said = String::from_utf8_lossy(&out.stderr);
            assert_eq!((out.status.code(), said.lines().count(), out.stdout.len()), (Some(2), 1, 0), "{said}");
            assert!(said.starts_with(&format!("bench/{name}: there is no part 'bogus'; the parts are ")), "{said}");
        }
    }
}
