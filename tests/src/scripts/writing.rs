//! The writer of grid files (document 02, CR 1): each fault and every two of them, buffers of every length, sides, T and values at their ends, and
//! what is written read again. Those from seeds write in the middle of other calls.

use super::refusals::{at, state, Subject};
use super::Maker;
use crate::files::{file_of, hex, mostly_rising, shuffled};
use crate::grids::{grid, Grid};
use crate::records::{widened, written_length, MISSING, NARROW};
use reference::grid::Sides;

/// Values of both signs, no two of them the same.
pub(super) fn varied(n: usize) -> Vec<i32> {
    (0..n).map(|i| widened((i * 2731 + 4660) as u16 as i16)).collect()
}

pub(super) fn listed(values: &[i32]) -> String {
    let words: Vec<String> = values.iter().map(i32::to_string).collect();
    format!("values list {}\n", words.join(" "))
}

/// Fresh buffers of these sides, with T and values.
pub(super) fn given([a, b, c]: [usize; 3], t: u16, values: &[i32]) -> String {
    format!("sides {a} {b} {c}\nT {t}\n{}", listed(values))
}

fn length(sides: [usize; 3]) -> usize {
    let [a, b, c] = sides.map(|side| side as u64);
    written_length(&Sides { a, b, c }, NARROW) as usize
}

/// What was written is read again, where nothing is as the file has it.
pub(super) fn read_again(sides: [usize; 3]) -> String {
    let n: usize = sides.iter().product();
    format!("rawsides 65 65 65\nT 9\nvalues list\nvalues len {n}\nread\n")
}

/// 5, 4, 3 with T = 258: 60 voxels, 136 bytes. The first unfit sides have 60 voxels and need no more bytes, and the next have values and buffers
/// of their own, so that nothing but 1 is wrong.
fn subject() -> Subject<'static> {
    let faults = [
        state("1", "rawsides 10 2 3\n"),
        state("1", "rawsides 2 10 3\n"),
        state("1", "rawsides 10 3 2\n"),
        state("1", "rawsides 20 1 3\n"),
        at("1", "rawsides 65 3 3\nvalues len 585\n", "1186"),
        at("1", "rawsides 3 65 3\nvalues len 585\n", "1186"),
        at("1", "rawsides 3 3 65\nvalues len 585\n", "1372"),
        at("1", "rawsides 0 4 3\nvalues len 0\n", "16"),
        at("1", "rawsides 5 4 0\nvalues len 0\n", "7"),
        at("1", "rawsides 300 3 3\nvalues len 2700\n", "1048576"),
        // 5, 4 and 3 in the low bits, and 60 in those of their product
        state("1", "rawsides 261 4 3\n"),
        state("1", "rawsides 5 65540 3\n"),
        state("1", "rawsides 5 4 4294967299\n"),
        state("1", "rawsides 4294967301 4294967300 4294967299\n"),
        state("1", "rawsides 9223372036854775813 4 3\n"),
        state("1", "rawsides 18446744073709551615 18446744073709551615 18446744073709551615\n"),
        state("2", "values len 59\n"),
        state("2", "values len 61\n"),
        state("2", "values len 0\n"),
        state("2", "values len 120\n"),
        state("2", "values len 65596\n"),
        at("26", "", "9"),
        at("26", "", "135"),
        at("26", "", "134"),
        at("26", "", "129"),
        at("26", "", "127"),
        at("26", "", "120"),
        at("26", "", "93"),
        at("26", "", "60"),
        at("26", "", "7"),
        at("26", "", "1"),
        at("26", "", "0"),
    ];
    let state = given([5, 4, 3], 258, &varied(60));
    Subject { call: "write", index: "136", axis: "", state, faults: faults.to_vec() }
}

/// Document 01's case D, whose file the paper has.
const CASE_D: &str = "# case D's grid is written as the file that document 01 has\nsides 4 4 3\nvalues fill 6\nvalues set 21 -6\n\
                      values set 26 -6\nwrite 112\nshowfile\nprogram\n";

/// Buffers from the file's length on: what lies past it stays.
fn lent() -> String {
    let writes = [136, 137, 138, 139, 143, 176, 272, 273, 1000, 65535, 65536, 65672, 1048576];
    let writes: String = writes.iter().map(|lent| format!("write {lent}\n")).collect();
    format!("# buffers that are long enough\n{}{writes}showfile\n", given([5, 4, 3], 258, &varied(60)))
}

/// The same 60 values with three sides in every order.
fn orders_of_sides() -> String {
    let orders = [[3, 4, 5], [3, 5, 4], [4, 3, 5], [4, 5, 3], [5, 3, 4], [5, 4, 3]];
    let each = orders.map(|sides| {
        let length = length(sides);
        let again = read_again(sides);
        format!("{}write {length}\nshowfile\nwrite {}\n{again}", given(sides, 3, &varied(60)), length - 1)
    });
    format!("# three sides in every order\n{}", each.concat())
}

/// A side of 64 in each place, and of 24 and 25, which the program tells apart.
fn ends_of_sides() -> String {
    let all = [[64, 3, 3], [3, 64, 3], [3, 3, 64], [24, 3, 4], [3, 25, 4]];
    let each = all.map(|sides| {
        let (n, length) = (sides.iter().product(), length(sides));
        let again = read_again(sides);
        format!("{}write {length}\nwrite {}\nwrite {}\n{again}program\n", given(sides, 64, &varied(n)), length - 1, length + 1)
    });
    format!("# sides at their ends\n{}", each.concat())
}

/// Too many voxels to list: one in each layer, in another row each, differs from the rest.
fn largest(sides: [usize; 3]) -> String {
    let [a, b, c] = sides;
    let length = length(sides);
    let place = |z: usize| 7 * z % a + a * (11 * z % b + b * z);
    let set: String = (0..c).map(|z| format!("values set {} {}\n", place(z), 515 * z as i64 - 16384)).collect();
    let again = read_again(sides);
    format!(
        "# {a}, {b}, {c}\nsides {a} {b} {c}\nT 513\nvalues fill 1027\n{set}write {}\nwrite {length}\nwrite {}\nreadlayer {}\n{again}",
        length - 1,
        length + 3,
        length - (3 + 2 * a * b)
    )
}

fn ends_of_t() -> String {
    let all = [0, 1, 127, 128, 255, 256, 257, 22088, 32767, 32768, 65280, 65535];
    let each = all.map(|t| format!("T {t}\nwrite 70\nshowfile\nT 7\nread\n"));
    format!("# T at the ends of its bytes\n{}{}", given([3, 3, 3], 0, &varied(27)), each.concat())
}

/// The ends of the values and of their bytes; and the files' own marks.
const ENDS: [i32; 27] = [
    MISSING, -32767, -32766, -257, -256, -255, -129, -128, -127, -2, -1, 0, 1, 2, 127, 128, 129, 255, 256, 257, 258, 18518, 19542, 22092,
    32512, 32766, 32767,
];

/// Any value is written, also where begin or the program refuses the grid.
fn ends_of_values() -> String {
    let each =
        [MISSING, -32767, -1, 0, 1, 32767].map(|v| format!("values fill {v}\nwrite 70\nshowfile\nbegin\nvalues fill 5\nread\nprogram\n"));
    let again = read_again([3, 3, 3]);
    format!("# values at their ends\n{}write 70\nshowfile\n{again}dump values\nbegin\n{}", given([3, 3, 3], 1, &ENDS), each.concat())
}

/// Files with their layers in some order: but for the last, read refuses them, and values, sides and T stay. What is written has its layers rising,
/// and is read.
fn other_orders() -> String {
    let orders = [[3, 2, 1, 0], [1, 0, 2, 3], [0, 1, 3, 2], [2, 3, 0, 1], [0, 1, 2, 3]];
    let each = orders.map(|order| {
        let file = file_of(&Grid { sides: [4, 3, 4], allowed: 770, values: varied(48) }, &order);
        let length = file.len();
        let again = read_again([4, 3, 4]);
        format!("sides 4 3 4\nfile {}\nread\nwrite {length}\nshowfile\n{again}write {length}\nshowfile\nreadlayer 88\n", hex(&file))
    });
    format!("# layers in another order are refused, and never written\n{}", each.concat())
}

/// What becomes of the file: a refused write leaves it, another one is in its place whole.
fn one_after_another() -> String {
    let large = given([5, 4, 3], 258, &varied(60));
    let small = given([3, 3, 3], 1, &ENDS);
    format!(
        "# writes one after the other\nfile 5648\n{large}write 135\nshowfile\nwrite 0\nvalues len 59\nwrite 136\nrawsides 5 4 65\nwrite 136\n\
         showfile\n{large}write 136\nshowfile\nwrite 135\nshowfile\nread\nT 259\nwrite 135\nwrite 136\nshowfile\nwrite 136\n{small}write 69\n\
         showfile\nwrite 136\nshowfile\nread\nappend 00\nread\nwrite 70\nread\n{large}write 136\nfile\nwrite 7\nshowfile\nwrite 136\nread\n"
    )
}

/// Case C, with writes between all calls: they change nothing but the file, and neither record nor distances nor status matter to them.
const AMONG: &str = "# a write changes nothing but the file, and looks at sides, T and values alone\nsides 5 5 3\nT 1\nvalues fill 4\nvalues set 31 -4\n\
     values set 32 -4\nvalues set 33 -4\nvalues set 36 -4\nvalues set 38 -4\nvalues set 41 -4\nvalues set 42 -4\nvalues set 43 -4\nwrite 166\n\
     write 165\nbegin\nwrite 166\nrec show 0\ncarve 9\nwrite 165\nrec show 0\nopen\nwrite 200\ncarve 9\ntake 37\nwrite 166\nfinish\n\
     write 166\nrec show 0\ncrossing 36 0\npoints 0 90\nwrite 166\nprogram\nrec a 65\nwrite 166\nrec a 3\nrec T 7\nrec finished 255\nwrite 166\n\
     rec euler 2147483647\nwrite 166\ncarve 1\nT 2\nwrite 166\nshowfile\nprogram\ndist len 74\nstatus len 76\nwrite 166\ndist list\nstatus list\n\
     write 166\nread\nstatus fill 2\nwrite 166\nrec show 0\n";

pub fn scripts() -> Vec<String> {
    let mut scripts = subject().scripts();
    scripts.extend([CASE_D.to_string(), lent(), orders_of_sides(), ends_of_sides(), ends_of_t(), ends_of_values(), other_orders()]);
    scripts.extend([one_after_another(), AMONG.to_string()]);
    scripts.extend([[64, 63, 3], [3, 64, 64], [64, 64, 64]].map(largest));
    scripts
}

impl Maker {
    /// A write of a grid of these sides into a buffer of some length.
    pub(super) fn write(&mut self, sides: &Sides, width: usize) {
        let length = written_length(sides, width) as u64;
        let lent = match self.r.below(10) {
            0..=4 => length,
            5 => length + 1,
            6 => length - 1,
            7 => length + self.r.below(1000),
            8 => self.r.below(length),
            _ => self.r.pick(&[0, 1, 7, 2 * length]),
        };
        self.say(format!("write {lent}"));
    }

    /// One with unfit sides, or another number of values, or both, which are mended after it.
    fn write_refused(&mut self, sides: &Sides) {
        let (Sides { a, b, c }, n) = (sides, sides.n() as u64);
        let also = self.r.chance(30);
        if also || self.r.chance(50) {
            let mut unfit = [*a, *b, *c];
            let side = &mut unfit[self.r.below(3) as usize];
            *side = self.r.pick(&[0, 2, 65, *side + 256, *side + (1 << 32), u64::MAX]);
            self.say(format!("rawsides {} {} {}", unfit[0], unfit[1], unfit[2]));
        }
        if also || self.r.chance(50) {
            let len = self.r.pick(&[0, n - 1, n + 1, 2 * n]);
            self.say(format!("values len {len}"));
        }
        self.write(sides, NARROW);
        self.say(format!("rawsides {a} {b} {c}\nvalues len {n}"));
    }

    /// What the last write left, if there was one, and the grid read from it.
    fn read_written(&mut self, sides: &Sides) {
        if sides.n() < 200 && self.r.chance(50) {
            self.say("showfile");
        }
        let (t, fill) = (self.r.below(65536), self.r.between(-32768, 32767));
        self.say(format!("program\nreadlayer 7\nT {t}\nvalues fill {fill}\nread"));
    }

    /// A grid as a list of values or as a file, and writes between other calls on it.
    pub(super) fn writes(&mut self, seed: u64, greatest: i64) {
        let mut g = grid(&mut self.r, greatest);
        if self.r.chance(30) {
            g.values.iter_mut().for_each(|v| *v = widened(self.r.word() as i16));
        }
        let [a, b, c] = g.sides.map(|s| s as u64);
        let sides = Sides { a, b, c };
        let t = self.r.pick(&[g.allowed, 1, 255, 256, 4660]);
        self.set(sides, t);
        self.say("file");
        if self.r.chance(50) {
            let order = shuffled(&mut self.r, g.sides[2]);
            self.say(format!("file {}\nread", hex(&file_of(&g, &mostly_rising(seed, order)))));
        } else {
            self.list_of("values", &g.values);
        }
        self.say("begin");
        for _ in 0..self.r.between(6, 15) {
            match self.r.below(10) {
                0..=3 => self.write(&sides, NARROW),
                4 | 5 => self.write_refused(&sides),
                6 => self.read_written(&sides),
                7 => {
                    let (i, v, t) = (self.r.below(a * b * c), self.r.between(-32768, 32767), self.r.below(65536));
                    self.say(format!("T {t}\nvalues set {i} {v}"));
                }
                8 => self.say("begin"),
                _ => {
                    let limit = self.limit();
                    self.say(format!("carve {limit}\nopen"));
                }
            }
        }
        self.say(format!("write {}", written_length(&sides, NARROW)));
        self.read_written(&sides);
    }
}
