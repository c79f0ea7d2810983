//! Practice grids (document 02, CR 12): seeds at their ends, s, u and values at theirs, sides in every order, what a refusal leaves, and that a call
//! changes nothing but the values; and such grids carved, written and read. The kind `courses` has those from seeds.

use super::refusals::{state, Subject};
use super::writing::{given, read_again, varied};
use super::Maker;
use crate::practised::{s_of, seed_of, u_of, value_of, values};
use crate::records::{written_length, NARROW};
use reference::grid::Sides;

/// 5, 4, 3: 60 voxels, 6 of them within. Some unfit sides have 60 voxels, so that nothing but 1 is wrong.
fn subject() -> Subject<'static> {
    let faults = [
        state("1", "rawsides 10 2 3\n"),
        state("1", "rawsides 2 10 3\n"),
        state("1", "rawsides 10 3 2\n"),
        state("1", "rawsides 20 1 3\n"),
        state("1", "rawsides 65 3 3\nvalues len 585\n"),
        state("1", "rawsides 3 65 3\nvalues len 585\n"),
        state("1", "rawsides 3 3 65\nvalues len 585\n"),
        state("1", "rawsides 0 4 3\nvalues len 0\n"),
        state("1", "rawsides 5 4 0\nvalues len 0\n"),
        state("1", "rawsides 300 3 3\nvalues len 2700\n"),
        state("1", "rawsides 261 4 3\n"),
        state("1", "rawsides 4294967301 4294967300 4294967299\n"),
        state("1", "rawsides 18446744073709551615 18446744073709551615 18446744073709551615\n"),
        state("2", "values len 59\n"),
        state("2", "values len 61\n"),
        state("2", "values len 0\n"),
        state("2", "values len 120\n"),
        state("2", "values len 65596\n"),
    ];
    Subject { call: "practice", index: "305419896", axis: "", state: given([5, 4, 3], 258, &varied(60)), faults: faults.to_vec() }
}

/// Grids small enough to be worked out by hand.
fn worked() -> String {
    let each = |sides: &str| [0, 1, 12_345, u32::MAX].map(|seed| format!("sides {sides}\npractice {seed}\ndump values\n")).concat();
    format!("# practice grids to be worked out by hand\n{}{}", each("3 3 3"), each("4 3 5"))
}

/// The ends of a seed's bytes, each single bit, and all but one.
fn seeds() -> String {
    let ends = [0, 1, 2, 127, 128, 255, 256, 257, 32_767, 32_768, 65_535, 65_536, 65_537, 16_777_215, 16_777_216];
    let mut all: Vec<u32> = ends.to_vec();
    all.extend([0x7FFF_FFFF, 0x8000_0000, 0x8000_0001, 0xFFFF_0000, 0xFFFF_FFFE, u32::MAX, 0x9E37_79B9, 0x9E37_79B9_u32.wrapping_neg()]);
    all.extend((0..32).flat_map(|bit| [1 << bit, !(1 << bit)]));
    let each: String = all.iter().map(|seed| format!("practice {seed}\n")).collect();
    format!("# seeds at the ends of their bytes, of single bits, and of all but one\nsides 4 5 3\n{each}")
}

/// The only voxel within 3, 3, 3, and one within a larger grid, are reached with each of these words as s.
fn placed() -> Vec<String> {
    let mut words: Vec<u32> = vec![0, 1, 2, 65_535, 65_536, 65_537, 0x7FFF_FFFF, 0x8000_0000, 0xFFFF_0000, 0xFFFF_FFFE, u32::MAX];
    words.extend([0x0001_0001, 0xFFFE_FFFE, 0x1234_1234, 0x8000_8000, 0x0000_8000, 0x5A5A_A5A5]);
    // what u comes to, at the ends of some remainders
    let rounds = [0, 1, 2, 32, 33, 536, 1_073_236, 2_146_409];
    let around = rounds.into_iter().flat_map(|round| [0, 999, 1_000, 1_001, 2_000].map(|rest| 2_001 * round + rest));
    words.extend(around.chain([u32::MAX]).map(u_of));
    let single = [("3 3 3", 13), ("5 4 4", 26), ("3 4 63", 742)];
    let each = |(sides, index): (&str, usize)| {
        let calls: String = words.iter().map(|&s| format!("practice {}\n", seed_of(s, index))).collect();
        let first = format!("practice {}\npractice {}\n", seed_of(0, 0), seed_of(u32::MAX, 0));
        format!("# s and u at their ends, at voxel {index}\nsides {sides}\n{first}{calls}dump values\n")
    };
    single.map(each).to_vec()
}

/// One seed on three sides in every order, and on sides at their ends.
fn sides() -> String {
    let all = [[3, 4, 5], [3, 5, 4], [4, 3, 5], [4, 5, 3], [5, 3, 4], [5, 4, 3], [3, 3, 4], [6, 3, 3], [64, 3, 3], [3, 64, 3], [3, 3, 64]];
    let each = all.map(|[a, b, c]| format!("sides {a} {b} {c}\npractice 2654435769\npractice 7\n")).concat();
    format!("# three sides in every order, and sides at their ends\n{each}sides 5 6 7\npractice 11\ndump values\nsides 7 6 5\npractice 11\ndump values\n")
}

fn largest([a, b, c]: [u64; 3]) -> String {
    let length = written_length(&Sides { a, b, c }, NARROW);
    format!("# a practice grid of {a}, {b}, {c}\nsides {a} {b} {c}\nT 3\npractice 0\npractice 4294967295\nwrite {length}\nreadlayer 7\n")
}

/// What the buffer held is of no matter, and a seed gives the same grid again.
fn over() -> String {
    let held = [-2147483648, -2147483647, -1, 0, 1000, 2147483647].map(|value| format!("values fill {value}\npractice 40\n")).concat();
    let again = "practice 40\npractice 41\nvalues set 52 -2147483648\npractice 40\npractice 4294967295\npractice 0\npractice 0\n";
    format!("# over whatever the values were, and over each other\nsides 6 4 5\n{held}{again}values len 119\nvalues len 120\npractice 40\n")
}

/// A refusal leaves every value, and the next call is as if it had not been.
fn and_goes_on() -> String {
    let wrong = [
        ("rawsides 4 5 65", "rawsides 4 5 6"),
        ("rawsides 4 5 2", "rawsides 4 5 6"),
        ("values len 119", "values len 120"),
        ("values len 121", "values len 120"),
    ];
    let each = wrong.map(|(wrong, right)| format!("{wrong}\npractice 9\nhash\n{right}\npractice 8\n")).concat();
    format!("# after a refusal\nsides 4 5 6\npractice 7\n{each}dump values\n")
}

/// Between all calls, and whatever record, marks, distances and status are.
const AMONG: &str = "# practice changes nothing but the values, and looks at sides and seed alone\nsides 5 5 4\nT 1\npractice 3\nbegin\nrec show 0\n\
     practice 4\nrec show 0\ncarve 2\npractice 5\nrec show 0\nopen\npractice 3\nwrite 300\ncarve 4294967295\npractice 6\nshowfile\nread\npractice 6\n\
     finish\npractice 7\nrec show 0\npoints 0 90\npractice 8\nrec a 65\npractice 9\nrec a 3\nrec T 7\nrec finished 255\npractice 9\nrec euler 2147483647\n\
     practice 9\nT 65535\npractice 9\nmarks len 3\npractice 10\nmarks list 4 255\npractice 11\ndump marks\ndist len 74\nstatus len 76\npractice 12\ndist list\n\
     status list\ncdist list\ncstatus list\npractice 13\nfile 5648\npractice 14\nshowfile\nrec show 0\nautohash 0\npractice 15\nvalues len 3\npractice 15\n\
     autohash 1\n";

fn carved() -> Vec<String> {
    let all = [([3, 3, 3], 0), ([4, 4, 4], 1), ([5, 6, 7], 2), ([9, 8, 7], 65_535), ([12, 5, 9], 4), ([10, 10, 10], 0), ([8, 8, 8], 9)];
    let each = |(which, ([a, b, c], t)): (usize, ([u64; 3], u16))| {
        let length = written_length(&Sides { a, b, c }, NARROW);
        let again = read_again([a, b, c].map(|side| side as usize));
        let run = |seed: u32| {
            format!(
                "sides {a} {b} {c}\nT {t}\npractice {seed}\nbegin\njudge\ncarve 5\ncarve 4294967295\nopen\ncarve 4294967295\nopen\ncarve 4294967295\n\
                 finish\npoints 0 30\nwrite {length}\n{again}program\n"
            )
        };
        let seeds = [0, 1, u32::MAX, 20_261_117 + which as u32];
        format!("# practice grids of {a}, {b}, {c}: begun, carved, opened, finished; written and read\n{}", seeds.map(run).concat())
    };
    all.into_iter().enumerate().map(each).collect()
}

/// The one voxel within is not negative: 4. Some negative voxel is near the border: 31.
fn refused_starts() -> String {
    let none = |seed: &u32| value_of(s_of(*seed, 13)) >= 0;
    let each: String = (0..40).filter(none).map(|seed| format!("practice {seed}\nbegin\nbegincoarse\n")).collect();
    format!("# practice grids without a negative voxel, and coarse starts of others\nsides 3 3 3\n{each}sides 8 6 10\npractice 1\nbegincoarse\nbegin\n")
}

pub fn scripts() -> Vec<String> {
    let mut scripts = vec![worked()];
    scripts.extend(subject().scripts());
    scripts.push(seeds());
    scripts.extend(placed());
    scripts.extend([sides(), over(), and_goes_on(), AMONG.to_string(), refused_starts()]);
    scripts.extend(carved());
    scripts.extend([[64, 64, 3], [3, 64, 64], [64, 64, 64]].map(largest));
    scripts
}

// ---- from seeds

impl Maker {
    fn seed(&mut self) -> u32 {
        let word = self.r.word() as u32;
        self.r.pick(&[word, word, word, word % 65_536, word | 0xFFFF_0000, 0, 1, 1 << 31, u32::MAX])
    }

    /// A practice grid, whose values are handed back.
    pub(super) fn practice(&mut self, sides: &Sides) -> Vec<i32> {
        let seed = self.seed();
        self.say(format!("practice {seed}"));
        values(sides, seed)
    }

    /// One with unfit sides, or another number of values, or both, which are mended after it.
    fn practice_refused(&mut self, sides: &Sides) {
        let (Sides { a, b, c }, n, seed) = (sides, sides.n() as u64, self.seed());
        let also = self.r.chance(30);
        if also || self.r.chance(50) {
            let mut unfit = [*a, *b, *c];
            let side = &mut unfit[self.r.below(3) as usize];
            *side = self.r.pick(&[0, 2, 65, *side + 256, *side + (1 << 32), u64::MAX]);
            self.say(format!("rawsides {} {} {}", unfit[0], unfit[1], unfit[2]));
        }
        if also || self.r.chance(50) {
            let len = self.r.pick(&[0, n - 1, n + 1, 2 * n]);
            self.say(format!("values len {len}"));
        }
        self.say(format!("practice {seed}\nrawsides {a} {b} {c}\nvalues len {n}"));
    }

    /// Practice grids begun, carved and written, and made anew between all other calls.
    pub(super) fn courses(&mut self, greatest: i64) {
        for _ in 0..self.r.between(1, 2) {
            let mut side = || if self.r.chance(20) { 3 } else { self.r.between(3, greatest) as u64 };
            let sides = Sides { a: side(), b: side(), c: side() };
            let t = self.r.pick(&[0, 1, 2, 20, 65535]);
            self.set(sides, t);
            self.say("file");
            if self.r.chance(40) {
                self.practice_refused(&sides);
            }
            let grid = self.practice(&sides);
            if !self.begin(&grid) {
                self.say("carve 1\nhash");
                continue;
            }
            for _ in 0..self.r.between(1, 3) {
                let (count, weights) = (self.r.between(1, 5), self.r.pick(&[[40, 30, 30, 0], [70, 0, 30, 0], [10, 70, 20, 0]]));
                self.calls(count, weights);
                match self.r.below(5) {
                    0 => self.practice_refused(&sides),
                    1 | 2 => drop(self.practice(&sides)),
                    3 => self.write(&sides, NARROW),
                    _ => self.say("judge"),
                }
            }
            if self.r.chance(60) {
                self.and_finish();
            }
            self.practice(&sides);
            self.write(&sides, NARROW);
            self.say("read");
            if self.r.chance(10) {
                self.say("dump values");
            }
        }
    }
}
