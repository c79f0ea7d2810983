//! Call scripts (docs/CALL-SCRIPTS.md). Those from seeds: lists of calls from begin, crafted records, unfit ones, finished grids, files read, patched,
//! written, out of order and of both widths, walls with gaps, marks that change, coarse starts, lists of removals, practice grids, offices of many
//! grids, blocks; each is made along with a run of the reference, so that it can choose voxels by what they are at that moment. And those written out,
//! in the modules below: every fault, every worked case, and what chance leaves out.

mod both;
pub mod cases;
mod coarse;
mod crafted;
mod damage;
mod extremes;
mod faces;
mod filling;
mod greatest;
mod judging;
pub mod language;
mod long;
mod marking;
mod offices;
mod ordering;
mod patching;
mod points;
mod practice;
mod refusals;
mod serving;
mod shapes;
mod widening;
mod writing;

use crate::files::{file, hex};
use crate::grids::{grid, Grid};
use crate::random::Random;
use crate::records::{MISSING, NARROW};
use reference::grid::{begin, Record, Sides};
use reference::machine::{carve, finish, open, take};
use std::fmt::{Display, Write};

/// The kinds of scripts from seeds.
pub const SEEDED: [&str; 18] = [
    "lists",
    "takes",
    "openings",
    "crafted",
    "unfit",
    "crossings",
    "files",
    "orders",
    "patches",
    "writes",
    "widths",
    "gaps",
    "marks",
    "starts",
    "removals",
    "courses",
    "offices",
    "blocks",
];

/// The kinds of scripts that are written out. What takes longest stands last.
pub const WRITTEN: [&str; 20] = [
    "cases", "language", "refusals", "damage", "ordering", "patching", "writing", "widening", "filling", "marking", "faces", "coarse",
    "judging", "practice", "serve", "extremes", "long", "points", "shapes", "greatest",
];

/// How many scripts of each seeded kind a second supplier is given.
const GIVEN: u64 = 40;

/// The scripts of a kind in conformance/, in order.
pub fn conformance(kind: &str) -> Vec<String> {
    if SEEDED.contains(&kind) {
        // What carves needs room for ties and tunnels; the rest stays small.
        const CARVES: [&str; 10] = ["lists", "takes", "openings", "crafted", "gaps", "marks", "starts", "removals", "courses", "offices"];
        let greatest = if CARVES.contains(&kind) { 9 } else { 5 };
        return (1..=GIVEN).map(|seed| script(kind, seed, greatest)).collect();
    }
    let written = match kind {
        "cases" => cases::scripts(),
        "language" => language::scripts(),
        "refusals" => refusals::scripts(),
        "damage" => damage::scripts(),
        "ordering" => ordering::scripts(),
        "writing" => writing::scripts(),
        "widening" => widening::scripts(),
        "filling" => filling::scripts(),
        "marking" => marking::scripts(),
        "faces" => faces::scripts(),
        "coarse" => coarse::scripts(),
        "judging" => judging::scripts(),
        "practice" => practice::scripts(),
        "serve" => serving::scripts(),
        "patching" => patching::scripts(),
        "long" => long::scripts(),
        "points" => points::scripts(),
        "shapes" => shapes::scripts(),
        "extremes" => extremes::scripts(),
        "greatest" => greatest::scripts(),
        _ => Vec::new(),
    };
    let numbered = |(i, script): (usize, String)| format!("# {kind} {}\nautohash 1\nsides 3 3 3\nT 0\n{script}", i + 1);
    written.into_iter().enumerate().map(numbered).collect()
}

/// The script that a kind and a seed name, on grids up to a greatest side. It sets everything that it relies on.
pub fn script(kind: &str, seed: u64, greatest: i64) -> String {
    let mut m = Maker::new(seed);
    m.say(format!("# {kind} {seed}"));
    match kind {
        "lists" => m.list(greatest, [35, 30, 31, 1]),
        "takes" => m.list(greatest, [4, 80, 15, 0]),
        "openings" => m.list(greatest, [48, 5, 46, 0]),
        "crafted" => m.crafted(greatest),
        "unfit" => m.unfit(greatest),
        "crossings" => m.crossings(greatest),
        "files" => m.file(seed, greatest),
        "orders" => m.orders(greatest),
        "patches" => m.patches(seed, greatest),
        "writes" => m.writes(seed, greatest),
        "widths" => m.widths(greatest),
        "gaps" => m.gaps(greatest),
        "marks" => m.marked(greatest),
        "starts" => m.starts(greatest),
        "removals" => m.removals(greatest),
        "courses" => m.courses(greatest),
        "offices" => m.offices(greatest),
        "large" => m.large(),
        _ => m.blocks(),
    }
    m.text
}

struct Maker {
    r: Random,
    text: String,
    record: Record,
    dist: Vec<i32>,
    marks: Vec<u8>,
    status: Vec<u8>,
}

impl Maker {
    fn new(seed: u64) -> Self {
        let sides = Sides { a: 3, b: 3, c: 3 };
        let record = Record { sides, t: 0, openings: 0, removals: 0, examinations: 0, euler: 1, finished: 0 };
        let (dist, marks, status) = (Vec::new(), Vec::new(), Vec::new());
        Maker { r: Random::new(seed.wrapping_mul(0x9E37_79B9)), text: String::new(), record, dist, marks, status }
    }

    fn say(&mut self, line: impl Display) {
        writeln!(self.text, "{line}").expect("a string takes text");
    }

    fn list_of<T: Display>(&mut self, buffer: &str, items: &[T]) {
        let items: Vec<String> = items.iter().map(|v| v.to_string()).collect();
        self.say(format!("{buffer} list {}", items.join(" ")));
    }

    /// Sides and T for begin, and fresh buffers.
    fn set(&mut self, sides: Sides, t: u16) {
        let Sides { a, b, c } = sides;
        self.say(format!("autohash 1\nsides {a} {b} {c}\nT {t}"));
        self.dist = vec![0x5A5A_5A5A; sides.n()];
        self.marks = vec![0; sides.n()];
        self.status = vec![0x5A; sides.n()];
        self.record = Record { sides, t, openings: 0, removals: 0, examinations: 0, euler: 1, finished: 0 };
        self.show_record();
    }

    fn show_record(&mut self) {
        let r = self.record;
        self.say(format!("rec a {}\nrec b {}\nrec c {}\nrec T {}\nrec openings {}", r.sides.a, r.sides.b, r.sides.c, r.t, r.openings));
        self.say(format!("rec removals {}\nrec examinations {}", r.removals, r.examinations));
        self.say(format!("rec euler {}\nrec finished {}", r.euler, r.finished));
    }

    // ---- calls, as the reference makes them

    fn carve(&mut self, limit: u64) {
        self.say(format!("carve {limit}"));
        let _ = carve(&mut self.record, &self.dist, &self.marks, &mut self.status, limit);
    }

    fn take(&mut self, index: u64) {
        self.say(format!("take {index}"));
        let _ = take(&mut self.record, &self.dist, &self.marks, &mut self.status, index);
    }

    fn open(&mut self) {
        self.say("open");
        let _ = open(&mut self.record, &self.dist, &self.marks, &mut self.status);
    }

    fn finish(&mut self) {
        self.say("finish");
        let _ = finish(&mut self.record, &mut self.dist, &self.status);
    }

    fn crossing(&mut self) {
        let index = self.voxel();
        let axis = if self.r.chance(95) { self.r.below(3) } else { self.r.pick(&[3, 7, 255, 256, 4294967295]) };
        self.say(format!("crossing {index} {axis}"));
    }

    /// All points from a position on, into a buffer of some length.
    fn points(&mut self) {
        let end = 3 * self.status.len() as u64;
        let position = match self.r.below(10) {
            0..=2 => 0,
            3..=7 => self.r.below(end.max(1)),
            _ => self.r.pick(&[end, end, end + 1, end.saturating_sub(1), 1 << 32, u64::MAX]),
        };
        let capacity = self.r.pick(&[0, 1, 2, 3, 4, 5, 6, 30, 100, 3000]);
        self.say(format!("points {position} {capacity}"));
    }

    // ---- choices

    /// A voxel whose status and distance are as wanted.
    fn one_of(&mut self, wanted: impl Fn(u8, i32) -> bool) -> Option<u64> {
        let found: Vec<u64> = (0..self.status.len()).filter(|&i| wanted(self.status[i], self.dist[i])).map(|i| i as u64).collect();
        (!found.is_empty()).then(|| self.r.pick(&found))
    }

    fn any_voxel(&mut self) -> u64 {
        let n = self.status.len().max(1) as u64;
        if self.r.chance(96) {
            self.r.below(n)
        } else {
            self.r.pick(&[n, n + 1, 1 << 32, u64::MAX])
        }
    }

    /// A pending voxel, a kept one outside, a kept one, or any.
    fn voxel(&mut self) -> u64 {
        let found = match self.r.below(10) {
            0..=5 => self.one_of(|s, _| s == 3).or_else(|| self.one_of(|s, d| s != 0 && d >= 0)),
            6 | 7 => self.one_of(|s, d| s != 0 && d >= 0),
            8 => self.one_of(|s, _| s != 0),
            _ => None,
        };
        found.unwrap_or_else(|| self.any_voxel())
    }

    fn limit(&mut self) -> u64 {
        self.r.pick(&[0, 1, 1, 1, 2, 3, 5, 8, 20, 100, 4294967295])
    }

    /// Calls by weights in a hundred for carve, take, open and finish; the rest are crossings.
    fn calls(&mut self, count: i64, weights: [u64; 4]) {
        for _ in 0..count {
            let mut w = self.r.below(100);
            let mut falls = |weight: u64| {
                let here = w < weight;
                w = w.wrapping_sub(if here { 0 } else { weight });
                here
            };
            let choice = weights.iter().position(|&weight| falls(weight));
            match choice {
                Some(0) => {
                    let limit = self.limit();
                    self.carve(limit);
                }
                Some(1) => {
                    let index = self.voxel();
                    self.take(index);
                }
                Some(2) => self.open(),
                Some(3) => self.finish(),
                _ => self.crossing(),
            }
        }
    }

    fn and_finish(&mut self) {
        for _ in 0..self.r.between(1, 6) {
            self.carve(4294967295);
            self.open();
        }
        self.carve(4294967295);
        self.finish();
        for _ in 0..6 {
            self.crossing();
        }
        self.say("carve 1\nopen\nfinish\ntake 0");
        for _ in 0..3 {
            self.points();
        }
    }

    // ---- lists of calls from begin

    /// A body full of holes: each voxel that is not on the border is negative by chance, so that carving meets many that do not pass.
    fn sponge(&mut self, greatest: i64) -> Grid {
        let sides = [self.r.between(4, greatest), self.r.between(4, greatest), self.r.between(3, greatest)].map(|s| s as usize);
        let s = Sides { a: sides[0] as u64, b: sides[1] as u64, c: sides[2] as u64 };
        let (dense, range) = (self.r.pick(&[30, 50, 65, 80]), self.r.pick(&[1, 3, 1000]));
        let value = |i: usize| {
            let size = self.r.between(1, range) as i32;
            if !s.border(i) && self.r.chance(dense) {
                -size
            } else {
                size
            }
        };
        let values = (0..s.n()).map(value).collect();
        Grid { sides, allowed: self.r.pick(&[1, 3, 20]), values }
    }

    fn list(&mut self, greatest: i64, weights: [u64; 4]) {
        let g = if self.r.chance(50) { self.sponge(greatest) } else { grid(&mut self.r, greatest) };
        let [a, b, c] = g.sides.map(|s| s as u64);
        let sides = Sides { a, b, c };
        let t = if self.r.chance(50) { g.allowed } else { 65535 };
        self.set(sides, t);
        let mut values = g.values;
        if self.r.chance(4) {
            let place = self.r.below(values.len() as u64) as usize;
            values[place] = -1;
        }
        self.list_of("values", &values);
        self.say("begin");
        match begin(sides, t, &values, &self.marks, &mut self.dist, &mut self.status) {
            Ok(record) => self.record = record,
            Err(_) => return self.say("carve 1\nhash"),
        }
        let count = self.r.between(3, 40);
        self.calls(count, weights);
        if self.r.chance(60) {
            self.and_finish();
        }
        if self.r.chance(5) {
            self.say("dump status\ndump dist");
        }
    }

    /// A grid too large to list: a few lumps of negative voxels in an even field, walled gaps where there is room, and marks.
    fn large(&mut self) {
        let sides = Sides { a: self.r.pick(&[31, 33, 64]), b: self.r.pick(&[33, 40, 64]), c: self.r.pick(&[3, 32, 64]) };
        self.set(sides, 65535);
        let outer = self.r.between(1, 900) as i32;
        let mut values = vec![outer; sides.n()];
        self.say(format!("values fill {outer}"));
        for _ in 0..self.r.between(1, 3) {
            let mut v = [sides.a, sides.b, sides.c].map(|side| self.r.between(1, side as i64 - 2));
            for _ in 0..self.r.between(50, 400) {
                let i = sides.index(v).expect("a walk stays within the grid");
                values[i] = self.r.between(-90, -1) as i32;
                self.say(format!("values set {i} {}", values[i]));
                let axis = self.r.below(3) as usize;
                let side = [sides.a, sides.b, sides.c][axis] as i64;
                v[axis] = (v[axis] + self.r.between(-1, 1)).clamp(1, side - 2);
            }
        }
        for _ in 0..if sides.c > 4 { self.r.between(0, 3) } else { 0 } {
            let v = [sides.a, sides.b, sides.c].map(|side| self.r.between(2, side as i64 - 3));
            let gap = sides.index(v).expect("a voxel within the border");
            let wall = sides.face_neighbours(gap).into_iter().flatten().map(|i| (i, -7));
            for (i, value) in wall.chain([(gap, MISSING)]) {
                values[i] = value;
                self.say(format!("values set {i} {value}"));
            }
        }
        for _ in 0..self.r.pick(&[0, 3, 30]) {
            let v = [sides.a, sides.b, sides.c].map(|side| self.r.between(0, side as i64 - 1));
            let mark = self.r.below(4) as u8;
            self.mark(sides.index(v).expect("a voxel of the grid"), mark);
        }
        self.say("begin");
        self.record =
            begin(sides, 65535, &values, &self.marks, &mut self.dist, &mut self.status).expect("no negative voxel is on the border");
        let count = self.r.between(3, 12);
        self.calls(count, [50, 20, 28, 0]);
        self.and_finish();
        self.write(&sides, NARROW);
        self.practice(&sides);
    }

    // ---- files

    /// A file for the program and for read, with as many values lent as it has, mostly. Its sides, and n where so many can be lent.
    fn reads(&mut self, bytes: &[u8]) -> ([u64; 3], u64) {
        self.say(format!("autohash 1\nsides 3 3 3\nT 0\nfile {}\nprogram", hex(bytes)));
        self.show_record();
        let side = |i: usize| bytes.get(i).map_or(3, |&s| u64::from(s));
        let [a, b, c] = [side(2), side(3), side(4)];
        let n = if a.max(b).max(c) > 64 { 27 } else { a * b * c };
        let lent = if self.r.chance(85) { n } else { self.r.pick(&[0, n + 1, n.saturating_sub(1)]) };
        self.say(format!("values len {lent}\nread\nrawsides {a} {b} {c}"));
        ([a, b, c], n)
    }

    fn file(&mut self, seed: u64, greatest: i64) {
        let bytes = file(seed, greatest);
        let ([a, b, c], n) = self.reads(&bytes);
        let layer = 3 + 2 * a * b;
        for _ in 0..4 {
            let record = 7 + layer * self.r.below(c + 1);
            let len = bytes.len() as u64;
            let start =
                self.r.pick(&[record, record, record, record + 1, len, len + 1, len.saturating_sub(layer), u64::MAX, u64::MAX - layer]);
            self.say(format!("readlayer {start}"));
        }
        let (unfit, fit) = (self.r.pick(&[2, 65]), self.r.pick(&[3, 64]));
        self.say(format!("rawsides {unfit} 3 3\nreadlayer 7\nrawsides 3 {fit} 65\nreadlayer 7"));
        self.say(format!(
            "rawsides {a} {b} {c}\ndist len {n}\nstatus len {n}\nmarks len {n}\nbegin\ncarve 5\nopen\ncarve 4294967295\nfinish"
        ));
    }

    // ---- the local test

    fn blocks(&mut self) {
        self.say("autohash 0");
        for _ in 0..60 {
            let (x, y, z) = (self.r.word() as u32, self.r.word() as u32, self.r.word() as u32);
            let block = self.r.pick(&[x, x & y, x | y, x & y & z, x | y | z, 1 << (x % 27), !(1 << (x % 27))]);
            self.say(format!("local {:x}", block & 0x07FF_FFFF));
        }
        self.say("autohash 1");
    }
}
