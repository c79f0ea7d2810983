//! Many scans at once (document 02, CR 14): offices of 1 to 16 grids in slots; every order record of few places, fit or not; whose turn it is; each number by
//! each of its clauses, in each grid, and each pair of faults; what a refusal leaves; lists of calls until nothing waits, beside the same carves on each grid
//! alone. The kind `offices` has those from seeds.

use super::marking::{index, listed, set, BOX, DEEP, SURFACE};
use super::refusals::{along, at, state, Fault, Subject, PAIR, RING, UNFIT_PAIR, UNFIT_RING};
use crate::grids::{coarse, grid, walled, Grid};
use crate::marks::NO_MARKS;
use crate::random::Random;
use reference::calls::REFERENCE;
use reference::replay::Replay;

/// A script that is played as it is written, so that it can go on from what the calls left.
struct Stage {
    text: String,
    state: Replay,
}

impl Stage {
    fn new(what: &str) -> Self {
        Stage { text: format!("# {what}\n"), state: Replay::new(REFERENCE) }
    }

    /// The answer to the last line.
    fn say(&mut self, lines: &str) -> String {
        let mut said = None;
        for line in lines.lines() {
            said = self.state.line(line).expect("a line of the language");
        }
        self.text += lines.trim_end();
        self.text.push('\n');
        said.unwrap_or_default()
    }

    /// Calls until nothing waits, or so many of them.
    fn serve_to_the_end(&mut self, grids: usize, limit: u64, most: usize) {
        for _ in 0..most {
            if self.say(&format!("serve {grids} {limit}")).starts_with("serve refused") {
                return;
            }
        }
    }
}

pub(super) fn order(places: &[u8]) -> String {
    format!("order {}", places.iter().map(u8::to_string).collect::<Vec<_>>().join(" ")).trim_end().to_string()
}

// ---- small grids that wait

/// Two voxels side by side, of which the first is pending and passes: then the other is pending, and stays.
const BAR: &str = "sides 4 3 3\nT 0\nrec a 4\nrec b 3\nrec c 3\nrec T 5\nrec openings 0\nrec removals 0\nrec examinations 0\nrec euler 1\nrec finished 0\n\
                   dist fill 5\nstatus fill 0\nstatus set 17 3\nstatus set 18 1\n";

fn bars(grids: usize) -> String {
    (0..grids).map(|place| format!("slot {place}\n{BAR}")).collect::<String>() + "order\n"
}

impl Stage {
    /// Bars that wait where they are to, and no others; all of them as they were.
    fn set_bars(&mut self, waits: &[bool]) {
        for (place, waits) in waits.iter().enumerate() {
            let wanted = [if *waits { 3 } else { 1 }, 1];
            let slot = &self.state.slots()[place];
            if slot.status[17..19] != wanted || slot.record.examinations > 0 {
                self.say(&format!("slot {place}\nstatus set 17 {}\nstatus set 18 1\nrec removals 0\nrec examinations 0", wanted[0]));
            }
        }
    }
}

/// Every order record of so many places at most, of grids that all wait: some are fit, and most are not.
fn every_order(grids: usize, longest: usize) -> String {
    let mut stage = Stage::new(&format!("{grids} grids, with every order record of up to {longest} places from 0 to {grids}"));
    stage.say(&bars(grids));
    let mut orders: Vec<Vec<u8>> = vec![vec![]];
    let mut last = orders.clone();
    for _ in 0..longest {
        last = last.iter().flat_map(|order| (0..=grids as u8).map(move |place| [&order[..], &[place]].concat())).collect();
        orders.extend(last.clone());
    }
    for places in orders {
        stage.set_bars(&vec![true; grids]);
        stage.say(&format!("{}\nserve {grids} 1", order(&places)));
    }
    stage.text
}

/// The orders of some of the places, each once.
fn fit_orders(grids: u8) -> Vec<Vec<u8>> {
    let mut orders: Vec<Vec<u8>> = vec![vec![]];
    let mut at = 0;
    while at < orders.len() {
        let more: Vec<Vec<u8>> =
            (0..grids).filter(|place| !orders[at].contains(place)).map(|place| [&orders[at][..], &[place]].concat()).collect();
        orders.extend(more);
        at += 1;
    }
    orders
}

/// Each fit order record, with each set of grids waiting.
fn turns(grids: usize) -> String {
    let mut stage = Stage::new(&format!("{grids} grids, with every fit order record and something pending in every set of them"));
    stage.say(&bars(grids));
    for places in fit_orders(grids as u8) {
        for set in 0..1 << grids {
            stage.set_bars(&(0..grids).map(|place| set >> place & 1 == 1).collect::<Vec<_>>());
            stage.say(&format!("{}\nserve {grids} 1", order(&places)));
        }
    }
    stage.text
}

/// 16 grids in turn, and order records of about 16 places.
fn sixteen() -> String {
    let mut stage = Stage::new("16 grids: two rounds, then every second one; and order records of 15 to 17 places");
    stage.say(&bars(16));
    for _ in 0..20 {
        stage.say("serve 16 1");
    }
    for odd in [false, true] {
        stage.set_bars(&[odd, !odd].repeat(8));
        stage.serve_to_the_end(16, 1, 40);
    }
    let all: Vec<u8> = (0..16).collect();
    let falling: Vec<u8> = (0..16).rev().collect();
    let mut twice = all.clone();
    twice[15] = 0;
    let mut past = all.clone();
    past[7] = 16;
    let mut far = all.clone();
    far[0] = 255;
    let orders = [
        all.clone(),
        falling.clone(),
        [&all[5..], &all[..5]].concat(),
        all[..15].to_vec(),
        all[1..].to_vec(),
        falling[..8].to_vec(),
        twice,
        past,
        far,
        [&all[..], &[16]].concat(),
        [&all[..], &[0]].concat(),
        [&falling[..], &[7]].concat(),
        vec![3; 17],
        vec![15, 15],
        vec![16],
        vec![128],
        vec![255],
    ];
    for places in orders {
        stage.set_bars(&[true; 16]);
        stage.say(&format!("{}\nserve 16 1\nserve 16 1", order(&places)));
        stage.set_bars(&[&[false; 9][..], &[true, false, true, false, false, true, true]].concat());
        stage.say("serve 16 1\nserve 16 1");
        stage.say("slot 0\nserve 15 1");
    }
    stage.text
}

/// A fault of a bar, and what mends it: 1, 7 three times, 29, and 8 twice.
const OF_BARS: [(&str, &str); 7] = [
    ("rec a 65", "rec a 4"),
    ("rec removals 37", "rec removals 0"),
    ("status set 0 1", "status set 0 0"),
    ("status set 18 2", "status set 18 1"),
    ("marks set 35 4", "marks set 35 0"),
    ("rec finished 1", "rec finished 0"),
    ("rec finished 255", "rec finished 0"),
];

/// Every two faults, each in every grid.
fn faults_by_place(grids: usize) -> String {
    let mut stage = Stage::new(&format!("{grids} grids, each fault in each of them, and every two faults in every two of them"));
    stage.say(&bars(grids));
    let each = || (0..grids).flat_map(|place| OF_BARS.iter().map(move |(wrong, right)| (place, *wrong, *right)));
    for (place, wrong, right) in each() {
        stage.say(&format!("slot {place}\n{wrong}\nserve {grids} 1"));
        let others = each()
            .filter(|(other, ..)| *other != place)
            .map(|(other, also, mended)| format!("slot {other}\n{also}\nserve {grids} 1\n{mended}\n"));
        stage.say(&others.collect::<String>());
        stage.say(&format!("slot {place}\n{right}"));
    }
    stage.say(&format!("serve {grids} 1"));
    stage.text
}

/// The last of 16.
fn faults_of_the_last() -> String {
    let mut stage = Stage::new("16 grids, each fault in the last of them, and in the first");
    stage.say(&bars(16));
    for place in [15, 0] {
        for (wrong, right) in OF_BARS {
            stage.say(&format!("slot {place}\n{wrong}\nserve 16 1\nserve 15 1\n{right}"));
            stage.set_bars(&[true; 16]);
        }
        for buffer in ["dist", "status", "marks"] {
            for len in [35, 37] {
                stage.say(&format!("slot {place}\n{buffer} len {len}\nserve 16 1\n{buffer} len 36"));
            }
        }
        for (grids, limit) in [(17, 1), (0, 1), (16, 0), (16, 1001)] {
            stage.say(&format!("slot {place}\nserve {grids} {limit}"));
        }
    }
    stage.set_bars(&[false; 16]);
    stage.say("serve 16 1000\nslot 15\nstatus set 17 3\nserve 16 1000\nserve 16 1000");
    stage.text
}

// ---- what a refusal leaves

/// The order record, all records and buffers: the next call is as if the refused one had not been.
fn refusals_leave_all() -> String {
    let mut stage = Stage::new("after a refusal with each number the order record is what it was");
    stage.say(&bars(3));
    let wrong = [
        ("slot 0", "serve 3 0", "slot 0"),
        ("slot 0", "serve 3 1001", "slot 0"),
        ("slot 0", "serve 0 1", "slot 0"),
        ("slot 0", "serve 17 1", "slot 0"),
        ("slot 1\nrec c 2", "serve 3 1", "rec c 3"),
        ("slot 2\nmarks len 35", "serve 3 1", "marks len 36"),
        ("slot 2\nstatus len 37", "serve 3 1", "status len 36"),
        ("slot 1\nrec examinations 973", "serve 3 1", "rec examinations 0"),
        ("slot 0\nstatus set 35 3", "serve 3 1", "status set 35 0"),
        ("slot 2\nmarks set 0 255", "serve 3 1", "marks set 0 0"),
        ("slot 1\nrec finished 2", "serve 3 1", "rec finished 0"),
    ];
    for places in [&[2, 0][..], &[1], &[0, 1, 2], &[2, 1, 0], &[0]] {
        for (wrong, call, right) in wrong {
            stage.set_bars(&[true; 3]);
            stage.say(&format!("{}\n{wrong}\n{call}\n{right}\nserve 3 1", order(places)));
        }
        stage.set_bars(&[false; 3]);
        stage.say(&format!("{}\nserve 3 1\nserve 3 1000\nslot 0\nstatus set 17 3\nserve 3 1", order(places)));
        stage.set_bars(&[true; 3]);
        stage.say(&format!("{}\nserve 2 1\nserve 1 1\nserve 3 1", order(places)));
    }
    stage.text
}

// ---- refusals by each clause

/// A ring and a pair, of which the pair was served before: nothing is wrong, and it is the ring's turn.
fn both_begun() -> String {
    format!("slot 1\n{PAIR}begin\nslot 0\n{RING}begin\norder 1\n")
}

/// Each clause in either grid.
fn clauses() -> Vec<(&'static str, String)> {
    let marks = NO_MARKS.map(|byte| format!("marks set 7 {byte}\n"));
    let mut all: Vec<(&str, String)> = Vec::new();
    for (slot, unfit, n) in [(1, &UNFIT_PAIR[..], 72), (0, &UNFIT_RING[..], 75)] {
        let mut of = |check: &'static str, lines: &str| all.push((check, format!("slot {slot}\n{lines}")));
        unfit.iter().for_each(|fault| of(fault.check(), fault.lines()));
        [n - 1, n + 1, 0].iter().for_each(|len| of("2", &format!("marks len {len}\n")));
        marks.iter().for_each(|lines| of("29", lines));
        of("29", &format!("marks set {} 4\n", n - 1));
        ["rec finished 1\n", "rec finished 2\n", "rec finished 255\n"].iter().for_each(|lines| of("8", lines));
    }
    let orders = ["order 0 0", "order 2", "order 1 1", "order 1 0 1", "order 0 1 2", "order 1 255", "order 16", "order 17", "order 128"];
    all.extend(orders.map(|order| ("order 7", format!("{order}\n"))));
    all.push(("35", "slot 0\nstatus set 37 1\nslot 1\nstatus set 32 1\nstatus set 37 1\n".to_string()));
    all
}

/// Every clause alone, and the first clauses of every two numbers together, brought about in both orders.
fn subject_scripts() -> Vec<String> {
    let clauses = clauses();
    let mut faults: Vec<Fault> = vec![
        along("34", None, "1001"),
        along("34", None, "0"),
        along("34", None, "1002"),
        along("34", None, "65537"),
        along("34", None, "4294967295"),
        at("34", "", "0"),
        at("34", "", "17"),
    ];
    faults.extend(clauses.iter().map(|(check, lines)| state(check, lines)));
    Subject { call: "serve", index: "2", axis: "9", state: both_begun(), faults }.scripts()
}

// ---- lengths

/// The buffers lie end to end, so their sum alone counts: what one slot has too many, another may have too few.
fn sums_of_lengths() -> String {
    let mut stage = Stage::new("lengths: the sum alone counts, and the parts are cut by the sides");
    let apart = "slot 0\nstatus set 17 3\nstatus set 18 0\nslot 1\nstatus set 17 3\nstatus set 18 0\n";
    for buffer in ["dist", "status", "marks"] {
        for (lens, kept) in
            [([37, 35], apart), ([37, 35], ""), ([35, 37], apart), ([35, 37], ""), ([72, 0], ""), ([0, 72], ""), ([36, 36], "")]
        {
            stage.say(&format!(
                "{}{kept}slot 0\n{buffer} len {}\nslot 1\n{buffer} len {}\nserve 2 1\nserve 2 1",
                bars(2),
                lens[0],
                lens[1]
            ));
            stage.say("slot 0\ndump status\nslot 1\ndump status");
        }
        for lens in
            [[36, 35], [35, 36], [36, 37], [37, 36], [0, 36], [36, 0], [0, 0], [72, 36], [36, 72], [36 + 256, 36], [36, 36 + 65_536]]
        {
            stage.say(&format!("{}slot 0\n{buffer} len {}\nslot 1\n{buffer} len {}\nserve 2 1", bars(2), lens[0], lens[1]));
        }
    }
    // too many in one buffer and too few in another
    stage.say(&format!("{}slot 0\ndist len 37\nmarks len 35\nserve 2 1\nslot 1\ndist len 35\nserve 2 1\nmarks len 37\nserve 2 1", bars(2)));
    // a part that is moved by one: what was pending lies beside it then
    let moved: Vec<u8> = (0..37).map(|i| if i == 18 { 3 } else { 0 }).collect();
    stage.say(&format!("{}slot 0\n{}slot 1\nstatus len 35\nserve 2 1\nserve 2 1\nserve 2 1", bars(2), listed("status", &moved)));
    stage.text
}

// ---- limits, and numbers of grids

/// S goes from corner to corner within 13 x 13 x 13, so that 1,000 examinations leave many to come.
fn deep_box() -> String {
    let line: String = (1..=11).map(|k| format!("values set {} -1\n", 183 * k)).collect();
    format!("sides 13 13 13\nT 0\nvalues fill 9\n{line}begin\n")
}

fn limits() -> String {
    let mut stage = Stage::new("limits at their ends, and numbers of grids");
    let all = [1, 2, 255, 256, 257, 999, 1000];
    let wrong: [u64; 10] = [0, 1001, 1002, 1024, 1256, 65_536, 65_537, 1 << 31, (1 << 31) + 1, u64::from(u32::MAX)];
    let refused: String = wrong.map(|limit| format!("serve 1 {limit}\n")).concat();
    for limit in all {
        stage.say(&format!("slot 0\n{}order\nserve 1 {limit}\nserve 1 {limit}\n{refused}serve 1 1", deep_box()));
    }
    stage.say(&format!("slot 0\n{0}slot 1\n{0}slot 2\n{RING}begin\norder", deep_box()));
    for limit in [1000, 1000, 999, 1000, 1000] {
        stage.say(&format!("serve 3 {limit}"));
    }
    stage.say(&bars(18));
    for grids in [17, 16, 15, 8, 3, 2, 1, 0, 1] {
        stage.say(&format!("order\nserve {grids} 1"));
    }
    stage.say("slot 17\nrec a 2\nserve 17 1\nslot 16\nrec b 65\nserve 16 1\nslot 2\nstatus len 3\nserve 2 1\nserve 3 1");
    stage.text
}

// ---- lists of calls until nothing waits

fn numbers<T: ToString>(items: &[T]) -> String {
    items.iter().map(T::to_string).collect::<Vec<_>>().join(" ")
}

/// A grid of few voxels with a way to begin, marked by chance.
fn begun(r: &mut Random, slot: usize, marked: u64) -> String {
    let in_blocks = r.chance(30);
    let Grid { sides: [a, b, c], allowed, values } = match in_blocks {
        true => coarse(r, 8),
        false if r.chance(50) => walled(r, 6),
        false => grid(r, 5),
    };
    let marks: Vec<u8> = values.iter().map(|_| if r.chance(marked) { r.below(4) as u8 } else { 0 }).collect();
    let start = if in_blocks { "begincoarse" } else { "begin" };
    format!("slot {slot}\nsides {a} {b} {c}\nT {allowed}\nvalues list {}\nmarks list {}\n{start}\n", numbers(&values), numbers(&marks))
}

/// An office of grids that are begun, each by a seed of its own until a start takes it.
fn office(stage: &mut Stage, r: &mut Random, grids: usize, marked: u64) {
    for slot in 0..grids {
        while stage.say(&begun(r, slot, marked)).contains("refused") {}
    }
    stage.say("order");
}

fn lists() -> Vec<String> {
    let each = |(seed, &(grids, limit, marked)): (usize, &(usize, u64, u64))| {
        let mut stage = Stage::new(&format!("{grids} grids, limit {limit}: until nothing waits, opened, and until nothing waits again"));
        let mut r = Random::new(seed as u64 + 100);
        office(&mut stage, &mut r, grids, marked);
        stage.serve_to_the_end(grids, limit, 90);
        stage.say(&format!("serve {grids} {limit}"));
        for slot in 0..grids {
            stage.say(&format!("slot {slot}\ncarve 4294967295\nopen"));
        }
        stage.serve_to_the_end(grids, limit, 40);
        stage.say(&format!("slot {}\ncarve 4294967295\nfinish\nserve {grids} {limit}", grids - 1));
        stage.text
    };
    let all = [
        (1, 1, 0),
        (1, 7, 30),
        (2, 1, 0),
        (2, 3, 40),
        (3, 1, 10),
        (3, 5, 0),
        (4, 2, 5),
        (5, 1000, 0),
        (8, 2, 10),
        (15, 3, 0),
        (16, 1, 0),
        (16, 4, 20),
    ];
    all.iter().enumerate().map(each).collect()
}

/// Each grid stands a second time in a slot of its own, where the same carves are made on it alone.
fn beside_carves() -> Vec<String> {
    let each = |seed: u64| {
        let (mut r, grids) = (Random::new(seed + 50), 3);
        let mut stage = Stage::new("each call of serve, and the same carve on the grid alone");
        for slot in 0..grids {
            loop {
                let lines = begun(&mut r, slot, 20);
                if !stage.say(&lines).contains("refused") {
                    stage.say(&lines.replacen(&format!("slot {slot}\n"), &format!("slot {}\n", slot + 10), 1));
                    break;
                }
            }
        }
        stage.say("order");
        for _ in 0..40 {
            let limit = r.pick(&[1, 2, 3, 8, 30]);
            let said = stage.say(&format!("serve {grids} {limit}"));
            let Some(place) = said.split(' ').nth(3).and_then(|word| word.parse::<usize>().ok()) else { break };
            stage.say(&format!("slot {}\ncarve {limit}\nslot {place}\nhash", place + 10));
        }
        stage.text
    };
    (0..6).map(each).collect()
}

// ---- marks and records of their places

/// The same grid in each slot, with other marks in each.
fn marks_of_places() -> String {
    let mut stage = Stage::new("the same grid at three places, with other marks at each of them, from begin and later");
    let marks =
        [format!("marks set {DEEP} 2\n"), format!("marks set {SURFACE} 1\n"), format!("marks set {DEEP} 3\nmarks set {SURFACE} 2\n")];
    let none = "marks fill 0\n".to_string();
    for turned in 0..3 {
        for from_begin in [true, false] {
            for slot in 0..3 {
                let marks = &marks[(slot + turned) % 3];
                let (before, after) = if from_begin { (marks, &none) } else { (&none, marks) };
                stage.say(&format!("slot {slot}\n{BOX}{before}begin\n{after}"));
            }
            stage.say("order");
            stage.serve_to_the_end(3, 1, 18);
            stage.say(&format!("slot 0\n{none}slot 1\nmarks fill 1\nslot 2\nmarks fill 2"));
            stage.serve_to_the_end(3, 2, 30);
            stage.say("slot 0\ndump status\nslot 1\ndump status\nslot 2\ndump status");
        }
    }
    stage.text
}

/// Counts of each grid are its own, and may go past their limits: the next call is 7, whoever's turn it is.
fn records_of_places() -> String {
    let mut stage = Stage::new("the record of each place is its own, and its counts may go past their limits");
    let records = [
        "rec removals 3\nrec examinations 5\nrec euler -2\nrec T 7\nrec openings 7\n",
        "rec removals 30\nrec examinations 500\nrec euler 9\nrec T 65535\nrec openings 1\n",
        "rec removals 0\nrec examinations 971\nrec euler 288\nrec T 0\n",
    ];
    let set: String = records.iter().enumerate().map(|(slot, lines)| format!("slot {slot}\n{lines}")).collect();
    stage.say(&format!("{}{set}", bars(3)));
    stage.serve_to_the_end(3, 1, 9);
    for field in ["removals 36\nrec examinations 972", "examinations 972", "euler -288"] {
        stage.say(&format!(
            "{}slot 1\nrec {field}\nserve 3 1\nserve 3 1\nserve 3 1\nslot 1\nrec show 0\nrec removals 0\nserve 3 1",
            bars(3)
        ));
    }
    stage.text
}

/// Grids where nothing is pending from begin on.
fn nothing_waits() -> String {
    let one = "sides 3 3 3\nT 2\nvalues fill 5\nvalues set 13 -5\nbegin\n";
    let mut stage = Stage::new("nothing is pending anywhere, or in one grid alone");
    for grids in [1, 2, 16] {
        stage.say(&(0..grids).map(|slot| format!("slot {slot}\n{one}")).collect::<String>());
        stage.say(&format!("order\nserve {grids} 1\norder 0\nserve {grids} 1000\nserve {grids} 1001\norder 0 0\nserve {grids} 1"));
        stage.say(&format!("order\nslot {}\n{BAR}serve {grids} 1\nserve {grids} 1\nserve {grids} 1", grids - 1));
    }
    stage.text
}

/// Finished grids are in the way of all others.
fn finished() -> String {
    let mut stage = Stage::new("a finished grid stops every call with 8, until it is taken out");
    stage.say(&format!("slot 2\n{RING}begin\nslot 1\n{PAIR}begin\nslot 0\n{BOX}begin\norder\nserve 3 2\nserve 3 2\nserve 3 2"));
    stage.say("slot 2\ncarve 9\nfinish\nserve 3 2\nserve 2 2\nslot 2\nrec finished 0\nserve 3 2\nrec finished 128\nserve 3 2");
    stage.say(&format!("order 1 0\nserve 2 2\nslot 2\n{RING}begin\nserve 3 2\nserve 3 2\nserve 3 2\nserve 3 1"));
    stage.serve_to_the_end(3, 9, 30);
    stage.say("slot 0\nopen\nserve 3 9\nslot 0\ncarve 4294967295\nfinish\nserve 3 9\nslot 1\nfinish\nserve 3 9\nslot 2\nfinish\nserve 3 9\nserve 1 9");
    stage.text
}

/// Grids are added behind the others, and taken out: those behind move up, and the order record with them.
fn added_and_taken_out() -> String {
    let mut stage = Stage::new("grids added and taken out between calls");
    stage.say(&format!("slot 0\n{BOX}begin\norder\nserve 1 1\nserve 1 1\nslot 1\n{RING}begin\nserve 2 1\nserve 2 1"));
    stage.say(&format!("slot 2\n{PAIR}begin\nserve 3 1\nserve 3 1"));
    stage.say(&format!("slot 3\n{BOX}marks set {DEEP} 2\nbegin\nserve 4 3\nserve 4 3\nserve 4 3\nserve 4 3\nserve 4 3\n"));
    // place 1 leaves: 3 becomes 1, or 2 and 3 move up
    stage
        .say(&format!("slot 1\n{BOX}begin\norder 0 2 1\nserve 3 2\nserve 3 2\nserve 3 2\norder 1\nserve 2 2\nserve 2 2\norder\nserve 1 5"));
    stage.serve_to_the_end(2, 5, 30);
    stage.text
}

/// The slot in use is of no matter, but for the hashes of its line; nor are slots past the last grid.
fn slots() -> String {
    let mut stage = Stage::new("the slot in use, and slots past the last grid, are not looked at");
    stage.say(&format!("{}slot 19\n{RING}begin\nserve 2 1\nslot 0\nserve 2 1\nslot 1\nhash\nslot 19\nhash\ncarve 9\nserve 2 1", bars(2)));
    for lines in ["rec a 0", "marks set 0 9", "status len 1", "dist len 0", "rec finished 1", "rec removals 999"] {
        stage.say(&format!("{}slot 2\n{BAR}{lines}\nserve 2 1\nserve 3 1\nserve 2 1", bars(2)));
    }
    stage.say(&format!(
        "{}slot 5\nsides 65 3 3\nserve 2 1\nfile 5648\nslot 6\nsides 3 3 3\nshowfile\nserve 2 1\nshowfile\nautohash 0\n\
         serve 2 1\nslot 7\nsides 3 4 3\nserve 2 1\nautohash 1\nserve 2 1",
        bars(2)
    ));
    stage.text
}

/// Coarse starts, whose marks come and go after them: three rods from one corner, with much beside them that goes.
fn coarse_starts() -> String {
    let mut stage = Stage::new("coarse starts and plain ones, with marks that change after them");
    let sides = [12, 12, 10];
    let rods = (2..8).flat_map(|k| [[k, 2, 2], [2, k, 2], [2, 2, k]]);
    let lines = format!("sides 12 12 10\nT 3\nvalues fill 5\n{}", rods.map(|v| set("values", index(sides, v), -5)).collect::<String>());
    for mark in [1, 2, 3] {
        stage.say(&format!("slot 0\n{lines}begincoarse\nslot 1\n{lines}begin\nslot 2\n{lines}marks fill {mark}\nbegincoarse\norder"));
        for (slot, mark) in [(0, mark), (1, mark), (2, 0), (0, 0), (2, 2)] {
            stage.say(&format!("serve 3 4\nserve 3 4\nslot {slot}\nmarks fill {mark}\nserve 3 4\nserve 3 4"));
        }
        stage.serve_to_the_end(3, 100, 20);
    }
    stage.text
}

/// The middle of 3 x 3 x 3, with one or two of its face neighbours gone.
fn faces() -> String {
    let mut stage = Stage::new("each face, at each of three places");
    let state = "sides 5 5 5\nT 0\nrec a 5\nrec b 5\nrec c 5\nrec T 0\nrec openings 0\nrec removals 0\nrec examinations 0\nrec euler 1\nrec finished 0\n\
                 dist fill 5\nstatus fill 0\n";
    let kept: String = (0..27).map(|p| 31 + p % 3 + 5 * (p / 3 % 3) + 25 * (p / 9)).map(|i| format!("status set {i} 1\n")).collect();
    for (turned, bare) in [61, 63, 57, 67, 37, 87].into_iter().enumerate() {
        for slot in 0..3 {
            let others = [61, 63, 57, 67, 37, 87];
            stage.say(&format!(
                "slot {slot}\n{state}{kept}status set 62 3\nstatus set {bare} 0\nstatus set {} 0",
                others[(turned + slot) % 6]
            ));
        }
        stage.say("order\nserve 3 1\nserve 3 1\nserve 3 1");
    }
    stage.text
}

/// A hole that does not pass, and voxels that are pinned once they are pending, beside grids from which voxels go.
fn without_removal() -> String {
    let mut stage = Stage::new("calls that remove nothing, beside others that do");
    let corners = "values set 31 -4\nvalues set 33 -4\nvalues set 41 -4\nvalues set 43 -4\n";
    let ring = format!("{RING}begin\n");
    let bits = format!("sides 5 5 3\nT 0\nvalues fill 4\n{corners}begin\n");
    stage.say(&format!("slot 0\n{ring}slot 1\n{bits}slot 2\n{ring}slot 3\n{BOX}marks fill 1\nbegin\nmarks fill 0\norder"));
    stage.serve_to_the_end(4, 1, 20);
    stage.say(&format!("slot 3\n{BOX}begin\nmarks fill 3\nslot 0\n{ring}slot 1\n{bits}marks fill 1"));
    stage.serve_to_the_end(4, 2, 30);
    stage.text
}

pub fn scripts() -> Vec<String> {
    let mut scripts = vec![every_order(1, 3), every_order(2, 4), every_order(3, 4), turns(2), turns(3), sixteen()];
    scripts.extend([faults_by_place(2), faults_by_place(3), faults_of_the_last(), refusals_leave_all()]);
    scripts.extend(subject_scripts());
    scripts.extend([sums_of_lengths(), limits(), marks_of_places(), records_of_places(), nothing_waits(), finished()]);
    scripts.extend([added_and_taken_out(), slots(), coarse_starts(), faces(), without_removal()]);
    scripts.extend(lists());
    scripts.extend(beside_carves());
    // what follows a script may be one that works in slot 0
    scripts.iter_mut().for_each(|script| script.push_str("slot 0\n"));
    scripts
}

/// One grid by itself, the ring: the widths of numbers show in it as in any call on a record.
pub fn extremes() -> (&'static str, String) {
    ("serve 1 9", format!("slot 0\norder\n{RING}begin\n"))
}

/// Sixteen of the largest grids, and one whose counts are at their limits.
pub fn greatest(diagonal: &str) -> Vec<String> {
    let limits = |euler: i64| format!("rec openings 65534\nrec removals 262144\nrec examinations 7077888\nrec euler {euler}\n");
    let counts = [2_097_152, -2_097_152].map(|euler| format!("begin\n{}serve 1 5\n{}order\nserve 1 1000\n", limits(euler), limits(euler)));
    let one = "sides 64 64 64\nT 65535\nvalues fill 5\nvalues set 133152 -5\nvalues set 133217 -5\nbegin\n";
    let all: String = (0..16).map(|slot| format!("slot {slot}\n{one}")).collect();
    let but_the_last = order(&(0..15).collect::<Vec<u8>>());
    let calls = format!("order\nserve 16 1\nserve 16 1000\n{but_the_last}\nserve 16 1\n");
    vec![
        format!("# serve: counts at their limits on the largest grid\nslot 0\norder\n{diagonal}{}", counts.concat()),
        format!("# serve: sixteen of the largest grids\nautohash 0\n{all}{calls}autohash 1\nslot 0\n"),
    ]
}
