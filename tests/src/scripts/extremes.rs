//! Widths and extremes of every number that crosses the interface, on small grids: what would be fit if its upper bits were lost, what is fit at its
//! greatest, and calls that have nothing to do and are refused all the same. Where a grid must be large, its script is in greatest.rs.

use super::refusals::{PAIR, RING};
use super::writing::{given, varied};
use crate::demands::extremes::{buffers, places, MARKS, OF_32, OF_64, OF_DISTANCES, OF_INDICES, OF_LENGTHS, STATUS};
use crate::files::{file_of, hex, patch};
use crate::grids::Grid;
use crate::random::Random;
use reference::grid::Sides;

/// A call that is done in some state: what is refused is put right again, and last of all the call is made.
struct Subject {
    line: &'static str,
    state: String,
    sides: [u64; 3],
    /// A voxel that is neither on the border nor in S, with its status.
    within: (usize, u8),
}

impl Subject {
    fn call(&self) -> &'static str {
        self.line.split(' ').next().unwrap_or(self.line)
    }

    fn on_record(&self) -> bool {
        !["begin", "begincoarse", "write", "practice", "readlayer"].contains(&self.call())
    }

    fn n(&self) -> u64 {
        self.sides.iter().product()
    }

    /// The call with one side in place of another.
    fn with_side(&self, k: usize, side: u64) -> String {
        let mut sides = self.sides;
        sides[k] = side;
        let set = |sides: [u64; 3]| match self.on_record() {
            true => format!("rec {} {}\n", ["a", "b", "c"][k], sides[k]),
            false => format!("rawsides {} {} {}\n", sides[0], sides[1], sides[2]),
        };
        format!("{}{}\n{}", set(sides), self.line, set(self.sides))
    }

    fn script(&self, what: &str, lines: String) -> String {
        format!("# {}: {what}\nautohash 0\n{}{lines}hash\n{}\nhash\nautohash 1\n", self.call(), self.state, self.line)
    }

    fn sides(&self) -> String {
        let each = (0..3).flat_map(|k| OF_64.map(|bits| self.with_side(k, self.sides[k] + (1 << bits))));
        self.script("a side that is fit in its low 8, 16, 32 or 63 bits is 1", each.collect())
    }

    /// Also with a side of 0, where an empty buffer has as many as the sides say.
    fn empty_buffers(&self) -> String {
        let each = buffers(self.call()).iter().map(|buffer| {
            let unfit: String = [(0, 65), (1, 2), (2, 0)].map(|(k, side)| self.with_side(k, side)).concat();
            format!("{buffer} len 0\n{unfit}{}\n{}", self.line, self.state)
        });
        self.script("an empty buffer is 2, and an unfit side comes before it", each.collect())
    }

    fn long_buffers(&self) -> String {
        let all = buffers(self.call()).iter().map(|buffer| (buffer, places(buffer, self.n())));
        let lens = all.flat_map(|(buffer, right)| OF_LENGTHS.map(|bits| (buffer, right, right + (1 << bits))));
        let each = lens.map(|(buffer, right, len)| format!("{buffer} len {len}\n{}\n{buffer} len {right}\n", self.line));
        self.script("a buffer with as many as there are voxels in its length's low bits is 2", each.collect())
    }

    /// Over their limits, which are 1, n, 27n and 8n, and under them in the lowest bits.
    fn counts(&self) -> String {
        let mut counts: Vec<(&str, i128, i128)> = Vec::new();
        counts.extend(OF_32.map(|bits| ("openings", 1 << bits, 0)));
        counts.extend(OF_64.map(|bits| ("removals", 1 << bits, 0)));
        counts.extend([1 << 12, 1 << 16, 1 << 32, 1 << 63].map(|count| ("examinations", count, 0)));
        counts.extend([1024, -1024, 1 << 16, -(1 << 16), i128::from(i32::MIN), i128::from(i32::MAX)].map(|euler| ("euler", euler, 1)));
        let each = counts.iter().map(|(field, count, fit)| format!("rec {field} {count}\n{}\nrec {field} {fit}\n", self.line));
        self.script("counts that are fit in their low bits are 7", each.collect())
    }

    fn status_bytes(&self) -> String {
        let (i, status) = self.within;
        let all: Vec<u8> = if self.call() == "carve" { (0..=255).filter(|s| ![0, 1, 3].contains(s)).collect() } else { STATUS.to_vec() };
        let each = all.iter().map(|byte| format!("status set {i} {byte}\n{}\n", self.line));
        self.script(
            "a status byte with other bits of a voxel within is 7",
            each.collect::<String>() + &format!("status set {i} {status}\n"),
        )
    }

    fn mark_bytes(&self) -> String {
        let i = self.within.0;
        let each = MARKS.map(|byte| format!("marks set {i} {byte}\n{}\n", self.line)).concat();
        self.script("a mark byte with other bits is 29", each + &format!("marks set {i} 0\n"))
    }

    fn scripts(&self) -> Vec<String> {
        let mut scripts = vec![self.sides()];
        if !buffers(self.call()).is_empty() {
            scripts.extend([self.empty_buffers(), self.long_buffers()]);
        }
        if self.on_record() {
            scripts.extend([self.counts(), self.status_bytes()]);
        }
        if buffers(self.call()).contains(&"marks") {
            scripts.push(self.mark_bytes());
        }
        scripts
    }
}

fn subjects() -> Vec<Subject> {
    let ring = [5, 5, 3];
    let carved = format!("{RING}begin\ncarve 9\n");
    let finished = format!("{carved}open\ncarve 9\nfinish\n");
    let file = hex(&small([3, 3, 3], 0));
    vec![
        Subject { line: "begin", state: RING.to_string(), sides: ring, within: (37, 3) },
        Subject { line: "carve 9", state: format!("{RING}begin\n"), sides: ring, within: (37, 3) },
        Subject { line: "take 32", state: format!("{PAIR}begin\n"), sides: [6, 4, 3], within: (37, 3) },
        Subject { line: "open", state: carved.clone(), sides: ring, within: (37, 1) },
        Subject { line: "finish", state: carved, sides: ring, within: (37, 1) },
        Subject { line: "crossing 38 0", state: finished.clone(), sides: ring, within: (37, 0) },
        Subject { line: "points 0 30", state: finished, sides: ring, within: (37, 0) },
        Subject { line: "write 136", state: given([5, 4, 3], 258, &varied(60)), sides: [5, 4, 3], within: (26, 0) },
        Subject { line: "readlayer 7", state: format!("rawsides 3 3 3\nfile {file}\n"), sides: [3, 3, 3], within: (13, 0) },
    ]
}

// ---- arguments

/// Indices, axes, positions and starts that are fit in their lowest bits.
fn arguments() -> String {
    let over = |line: &str, fit: u64, after: &str| OF_64.map(|bits| format!("{line} {}{after}\n", fit + (1 << bits))).concat();
    let axes = OF_32.map(|bits| format!("crossing 38 {}\n", 1u64 << bits)).concat();
    let file = hex(&small([3, 3, 3], 0));
    format!(
        "# arguments that are fit in their low bits alone\n{PAIR}begin\n{}take 32\n{RING}begin\ncarve 2147483648\nbegin\ncarve 256\nfinish\n{}{axes}\
         crossing 38 0\n{}points 20 30\nrawsides 3 3 3\nfile {file}\n{}readlayer 7\n",
        over("take", 32, ""),
        over("crossing", 38, " 0"),
        over("points", 20, " 30"),
        over("readlayer", 7, ""),
    )
}

/// No examination, no room for a point, no room for a header: each number of these calls all the same.
fn nothing_to_do() -> Vec<String> {
    let unfit = [("rec a 65", "rec a 5"), ("dist len 74", "dist len 75"), ("rec removals 76", "rec removals 0")];
    let each = |calls: &str, more: &[(&str, &str)]| {
        let all = unfit.iter().chain(more);
        all.map(|(wrong, right)| format!("{wrong}\n{calls}{right}\n")).collect::<String>() + calls
    };
    let carve = each("carve 0\n", &[("marks set 0 4", "marks set 0 0"), ("rec finished 1", "rec finished 0")]);
    let points = each("points 0 0\npoints 0 2\npoints 225 1\n", &[("rec finished 0", "rec finished 1")]);
    let wrong = [
        ("rawsides 5 65 3", "rawsides 5 4 3"),
        ("values len 59", "values len 60"),
        ("values set 7 1000000001", "values set 7 1"),
        ("values set 59 -2147483647", "values set 59 32768"),
    ];
    let writes = [0, 1, 2, 3, 4, 5, 6].map(|lent| format!("write {lent}\n")).concat();
    let written = wrong.map(|(wrong, right)| format!("{wrong}\n{writes}{right}\n")).concat() + &writes;
    vec![
        format!("# carve: an examination of none is refused as any other\n{RING}begin\n{carve}carve 1\n"),
        format!("# points: room for none is refused as any other\n{RING}begin\ncarve 9\nfinish\n{points}points 226 0\npoints 226 2\npoints 0 30\n"),
        format!("# write: room for no header, behind every other number\n{}{written}", given([5, 4, 3], 258, &varied(60))),
    ]
}

/// T and openings at the ends of 8, 15 and 16 bits.
fn openings() -> String {
    let begun: String = [255, 256, 32_767, 32_768, 65_535].map(|t| format!("T {t}\nbegin\n")).concat();
    let opened = [1, 255, 256, 257, 32_767, 32_768, 65_534, 65_535].map(|t| {
        let least = t % 256;
        let low = if least < t { format!("rec openings {least}\nopen\nstatus set 37 1\n") } else { String::new() };
        format!("rec T {t}\nrec openings {t}\nopen\n{low}rec openings {}\nopen\nopen\nstatus set 37 1\n", t - 1)
    });
    format!("# T and openings at the ends of their bytes\n{RING}{begun}carve 9\n{}", opened.concat())
}

// ---- distances

/// The lesser distance, or the equal one with the greater index, must come second; each pair both ways about.
fn distances() -> Vec<(i64, i64)> {
    let mut pairs: Vec<(i64, i64)> = Vec::new();
    for bits in OF_DISTANCES {
        let end = 1 << bits;
        pairs.extend([(end - 1, end), (end, end + 1), (end + 1, 2 * end)]);
    }
    let greatest = i64::from(i32::MAX);
    pairs.extend([
        (1 << 24, (1 << 24) + 1),
        ((1 << 30) + 64, (1 << 30) + 65),
        (greatest - 1, greatest),
        (0, greatest),
        ((1 << 30) - 1, greatest),
    ]);
    let about = |&(a, b): &(i64, i64)| [(a, b), (b, a)];
    pairs.iter().flat_map(about).map(|(a, b)| (a.min(greatest), b.min(greatest))).collect()
}

/// Two voxels apart, neither of which passes: one examination leaves the other pending, and an opening says which it was.
fn order_of_distances() -> Vec<String> {
    let state =
        "sides 7 3 3\nT 0\nrec a 7\nrec b 3\nrec c 3\nrec T 65535\nrec openings 0\nrec removals 0\nrec examinations 0\nrec euler 1\n\
                 rec finished 0\ndist fill 0\nstatus fill 0\n";
    let pair =
        |status: u8, (a, b): (i64, i64)| format!("dist set 29 {a}\ndist set 33 {b}\nstatus set 29 {status}\nstatus set 33 {status}\n");
    let all = |status: u8, calls: &str| distances().into_iter().map(|both| pair(status, both) + calls).collect::<String>();
    let fresh = "rec removals 0\nrec examinations 0\nrec euler 1\n";
    vec![
        format!("# carve: the greater distance first, up to 31 bits\n{state}{}", all(3, &format!("carve 1\n{fresh}"))),
        format!("# carve: of hurried voxels too\n{state}marks set 29 2\nmarks set 33 2\n{}", all(3, &format!("carve 1\n{fresh}"))),
        format!("# open: the greater distance first, up to 31 bits\n{state}{}", all(1, &format!("open\n{fresh}"))),
    ]
}

// ---- files

/// A box of one voxel in a grid that the program takes.
fn small(sides: [usize; 3], t: u16) -> Vec<u8> {
    let [a, b, c] = sides;
    let mut values = vec![6; a * b * c];
    values[1 + a * (1 + b)] = -6;
    file_of(&Grid { sides, allowed: t, values }, &(0..c).collect::<Vec<_>>())
}

/// Bytes with the upper bit, and an index with upper bytes: nothing of a file is fit in its lowest bits.
fn files() -> String {
    let calls = "read\nprogram\nreadlayer 7\n";
    let with_byte = |at: usize| {
        let mut file = small([3, 3, 3], 0);
        file[at] |= 128;
        format!("file {}\n{calls}", hex(&file))
    };
    let bytes: String = [2, 3, 4, 9].map(with_byte).concat();
    let patched =
        OF_INDICES.map(|bits| format!("file {}{}\n{calls}", hex(&small([3, 3, 3], 0)), hex(&patch(13 + (1 << bits), -1)))).concat();
    let unfit = |at: usize, side: u8| {
        let mut file = small([3, 3, 3], 0);
        file[at] = side;
        format!("file {}\nvalues len 0\nread\nvalues len 27\n", hex(&file))
    };
    let empty = [(2, 65), (3, 2), (4, 0)].map(|(at, side)| unfit(at, side)).concat();
    let lens = OF_LENGTHS.map(|bits| format!("values len {}\nread\n", 27 + (1 << bits))).concat();
    let ts = [255, 256, 32_767, 32_768, 65_535].map(|t| format!("file {}\n{calls}", hex(&small([3, 3, 3], t)))).concat();
    format!(
        "# files: bytes and indices that are fit in their low bits, and values lent\nsides 3 3 3\nautohash 0\n{bytes}{patched}{empty}file {}\n\
         values len 0\nread\n{lens}values len 27\nhash\n{ts}autohash 1\n",
        hex(&small([3, 3, 3], 0))
    )
}

/// Noise of 24 voxels a side, of which so many in a hundred are negative: hundreds of openings, thousands kept, a long way below 0.
fn noise(seed: u64, dense: u64) -> String {
    let (mut r, sides) = (Random::new(seed), Sides { a: 24, b: 24, c: 24 });
    let value = |i: usize| {
        let outside = r.between(1, 9) as i32;
        if !sides.border(i) && r.chance(dense) {
            -1
        } else {
            outside
        }
    };
    let values = (0..sides.n()).map(value).collect();
    let file = file_of(&Grid { sides: [24; 3], allowed: 65_535, values }, &(0..24).collect::<Vec<_>>());
    format!("# the program's line: noise, {dense} in a hundred inside\nfile {}\nprogram\n", hex(&file))
}

/// Blocks with each number of the local test at its greatest: corners alone, edges and corners, all.
fn blocks() -> String {
    let block = |kinds: &[usize]| {
        let along = |p: usize| [p % 3, p / 3 % 3, p / 9].iter().filter(|&&digit| digit == 1).count();
        (0..27).filter(|&p| kinds.contains(&along(p))).fold(0u32, |bits, p| bits | 1 << p)
    };
    let all: [&[usize]; 8] = [&[], &[0], &[1], &[2], &[0, 1], &[0, 2], &[1, 2], &[0, 1, 2]];
    let lines: String = all.map(|kinds| format!("local {:x}\n", block(kinds))).concat();
    format!("# the local test: its numbers at their greatest\n{lines}")
}

/// The middle of a block of corners, and of one of edges and corners: the most parts that an opening parts, and the most that it joins.
fn greatest_openings() -> String {
    let state = "sides 5 5 5\nT 0\nrec a 5\nrec b 5\nrec c 5\nrec T 9\nrec openings 0\nrec removals 0\nrec examinations 0\nrec euler 1\n\
                 rec finished 0\ndist fill 1\nstatus fill 0\ndist set 62 5\nstatus set 62 1\n";
    let kept = |most: usize| {
        let steps = (0..27).map(|p| [p % 3, p / 3 % 3, p / 9]).filter(|step| step.iter().filter(|&&digit| digit == 1).count() <= most);
        steps.map(|[x, y, z]| format!("status set {} 1\n", 1 + x + 5 * (1 + y + 5 * (1 + z)))).collect::<String>()
    };
    format!("# open: the most parts, and the most joined\n{state}{}open\n{state}{}open\n", kept(0), kept(1))
}

/// A coarse start, whose two further buffers have n / 8 places.
fn coarse() -> Subject {
    let state = "sides 6 6 6\nT 9\nvalues fill 4\nvalues set 86 -4\nvalues set 129 -4\n";
    Subject { line: "begincoarse", state: state.to_string(), sides: [6, 6, 6], within: (87, 3) }
}

/// The pair's two voxels, in the order of distances.
fn judge() -> Subject {
    Subject { line: "judge 565220000000565225000000", state: format!("{PAIR}begin\n"), sides: [6, 4, 3], within: (37, 3) }
}

fn practice() -> Subject {
    Subject { line: "practice 4294967295", state: given([5, 4, 3], 258, &varied(60)), sides: [5, 4, 3], within: (26, 0) }
}

fn serve() -> Subject {
    let (line, state) = super::serving::extremes();
    Subject { line, state, sides: [5, 5, 3], within: (37, 3) }
}

/// A list of no removals, behind every number of the record.
fn empty_list() -> String {
    let unfit = [
        ("rec a 65", "rec a 5"),
        ("dist len 74", "dist len 75"),
        ("rec removals 76", "rec removals 0"),
        ("rec finished 1", "rec finished 0"),
    ];
    let each = unfit.map(|(wrong, right)| format!("{wrong}\njudge\n{right}\n")).concat();
    format!("# judge: an empty list is refused as any other\n{RING}begin\n{each}judge\n")
}

/// T is handed on as it is.
fn coarse_t() -> String {
    let each = [255, 256, 32_767, 32_768, 65_535].map(|t| format!("T {t}\nbegincoarse\n")).concat();
    format!("# a coarse start: T at the ends of its bytes\n{}{each}", coarse().state)
}

pub fn scripts() -> Vec<String> {
    let mut scripts: Vec<String> = subjects().iter().flat_map(Subject::scripts).collect();
    scripts.push(arguments());
    scripts.extend(nothing_to_do());
    scripts.push(openings());
    scripts.extend(order_of_distances());
    scripts.extend([files(), blocks(), greatest_openings(), noise(1, 40), noise(2, 15)]);
    scripts.extend(coarse().scripts());
    scripts.push(coarse_t());
    scripts.extend(judge().scripts());
    scripts.push(empty_list());
    scripts.extend(practice().scripts());
    scripts.extend(serve().scripts());
    scripts
}
