//! Pins and hurries (document 02, CR 7, and CR 9 with more in `both`): each mark on each kind of voxel, at begin and later; in which order pending voxels
//! are examined; what a removal wakes; what open passes over; and the numbers 2, 29 and 30 in their places. Those from seeds change marks in the middle
//! of a list of calls.

use super::refusals::{at, state, with, Fault, Subject, FINISHED, PENDING, UNFIT_PAIR, UNFIT_RING};
use super::refusals::{PAIR, RING};
use super::{both, Maker};
use crate::grids::{grid, walled};
use crate::marks::{BOTH, HURRIED, NO_MARKS, PINNED, UNMARKED};
use reference::grid::{begin, Sides};

const MARKS: [u8; 4] = [UNMARKED, PINNED, HURRIED, BOTH];

pub(super) fn index([a, b, _]: [usize; 3], [x, y, z]: [usize; 3]) -> usize {
    x + a * (y + b * z)
}

pub(super) fn set(buffer: &str, i: usize, value: impl std::fmt::Display) -> String {
    format!("{buffer} set {i} {value}\n")
}

pub(super) fn listed<T: std::fmt::Display>(buffer: &str, items: &[T]) -> String {
    format!("{buffer} list {}\n", items.iter().map(T::to_string).collect::<Vec<_>>().join(" "))
}

// ---- grids to begin with

/// S goes along the edges of a box of 3 x 3 x 3, whose middle, 62, is neither in S nor at the surface. 36 is at the surface.
pub(super) const BOX: &str =
    "sides 5 5 5\nT 9\nvalues fill 4\nvalues set 31 -4\nvalues set 32 -4\nvalues set 33 -4\nvalues set 38 -4\nvalues set 43 -4\n\
                   values set 68 -4\nvalues set 93 -4\n";
pub(super) const DEEP: usize = 62;
pub(super) const SURFACE: usize = 36;
/// In S, and on the border.
pub(super) const INSIDE: usize = 38;
pub(super) const CORNER: usize = 124;

/// A box of 4 x 4 x 4 in 7 x 6 x 6, with S along three of its edges: eight voxels are deep inside, and some within the border are beyond the box.
pub(super) fn cage() -> String {
    format!("sides 7 6 6\nT 9\nvalues fill 30\n{}", edges().map(|v| set("values", in_cage(v), -4)).collect::<String>())
}

fn edges() -> impl Iterator<Item = [usize; 3]> {
    (1..=4).flat_map(|k| [[k, 1, 1], [4, k, 1], [4, 4, k]])
}

pub(super) fn in_cage(v: [usize; 3]) -> usize {
    index([7, 6, 6], v)
}

/// Three holes in a plate, at 65, 67 and 69, which do not pass and have the distances 5, 9 and 7.
pub(super) fn plate(allowed: u16) -> String {
    let mut values = [4; 135];
    (1..8).flat_map(|x| (1..4).map(move |y| [x, y, 1])).for_each(|v| values[index([9, 5, 3], v)] = -4);
    (values[65], values[67], values[69]) = (5, 9, 7);
    format!("sides 9 5 3\nT {allowed}\n{}begin\ncarve 9\n", listed("values", &values))
}

/// Each mark on a voxel of each kind, and on all.
fn from_begin() -> String {
    let mut text =
        "# each mark from begin: at the surface, deep inside, in S, beyond the box, on the border, and on every voxel\n".to_string();
    let of_cage = [[2, 3, 4], [2, 2, 2], [4, 1, 1], [5, 2, 2], [0, 3, 3]].map(in_cage);
    for (grid, voxels) in [(BOX.to_string(), &[SURFACE, DEEP, INSIDE, CORNER, 0]), (cage(), &of_cage)] {
        text += &grid;
        for mark in MARKS {
            for i in voxels {
                text += &format!("marks set {i} {mark}\nbegin\ndump status\ncarve 1\ncarve 4294967295\nopen\nmarks set {i} 0\n");
            }
            text += &format!("marks fill {mark}\nbegin\ndump status\ncarve 1\ncarve 2\ncarve 4294967295\nopen\nfinish\nmarks fill 0\n");
        }
    }
    text + "dump marks\n"
}

/// Every voxel by itself.
fn each_voxel(mark: u8) -> String {
    let mut text = format!("# mark {mark} on every voxel in turn\n{BOX}");
    for i in 0..125 {
        text += &format!("marks set {i} {mark}\nbegin\ncarve 4294967295\nmarks set {i} 0\n");
    }
    text
}

/// A grid with deep voxels, marked by turns, carved one by one.
fn by_turns(turns: &[u8]) -> String {
    let marks: Vec<u8> = turns.iter().copied().cycle().take(252).collect();
    let mut text = format!("# marks {turns:?} by turns, carved one by one\n{}{}begin\ndump status\n", cage(), listed("marks", &marks));
    text += &"carve 1\n".repeat(20);
    text + "carve 5\ncarve 4294967295\ndump status\nopen\ncarve 4294967295\nopen\nopen\nfinish\npoints 0 300\n"
}

/// Marks on what is in S, beyond the box or on the border: all answers are those without them.
fn without_effect() -> String {
    let mut text = format!("# marks where they have no effect\n{}", cage());
    let edges: Vec<usize> = edges().map(in_cage).collect();
    let within = |i: &usize| [i % 7, i / 7 % 6, i / 42].iter().all(|k| (1..=4).contains(k));
    let marked = |i: &usize| !within(i) || edges.contains(i);
    let beyond = in_cage([5, 2, 2]);
    for mark in MARKS {
        text += &(0..252).filter(marked).map(|i| set("marks", i, mark)).collect::<String>();
        text +=
            &format!("begin\ndump status\ntake {}\ntake 0\ntake {beyond}\ncarve 3\ncarve 4294967295\nopen\ncarve 9\n", in_cage([4, 1, 1]));
        text += "open\ncarve 4294967295\nfinish\n";
    }
    text
}

// ---- marks that change

/// A voxel that is pending when it is pinned is examined in its turn, counts and stays; a pin that is taken off wakes nothing.
fn later_pin() -> String {
    let mut text = "# a pin on a pending voxel, and taken off again\n".to_string();
    for mark in [PINNED, BOTH] {
        text += &format!("{PAIR}begin\nmarks set 32 {mark}\ncarve 1\ndump status\ncarve 1\ncarve 9\ndump status\ntake 32\nopen\n");
        text += "marks set 32 0\ncarve 9\ntake 37\ndump status\nopen\ncarve 9\n";
        text += &format!("begin\nmarks set 32 {mark}\ncarve 9\nmarks set 32 0\ncarve 9\ndump status\ntake 32\ncarve 9\n");
        text += &format!("begin\nmarks set 32 {mark}\ncarve 9\nmarks set 32 0\nopen\ndump status\ncarve 9\nfinish\n");
        text += &format!("marks set 32 {mark}\nbegin\nmarks set 32 0\ncarve 9\ndump status\nopen\ncarve 9\ntake 32\nfinish\n");
    }
    text
}

/// What is hurried after begin is examined first where it is pending, and is not woken where it is not.
fn later_hurry() -> String {
    let mut text = format!("# a hurry after begin wakes nothing\n{BOX}begin\n");
    for mark in [HURRIED, BOTH] {
        text +=
            &format!("marks set {DEEP} {mark}\ncarve 0\ndump status\ncarve 1\ncarve 1\ndump status\ncarve 4294967295\nmarks fill {mark}\n");
        text += "carve 4294967295\ndump status\nopen\nmarks fill 0\nbegin\n";
        text += &format!("carve 4294967295\nmarks fill {mark}\ncarve 4294967295\ndump status\nfinish\nmarks fill 0\nbegin\n");
    }
    text + &format!("marks set {SURFACE} 2\ncarve 1\ndump status\nmarks set {SURFACE} 0\nmarks set 91 2\ncarve 1\ndump status\n")
}

/// The marks that count are those of the call: with each of one call after each of another.
fn of_the_call() -> String {
    let mut text = "# each mark of all voxels at begin, and each other one after it\n".to_string();
    for first in MARKS {
        for then in MARKS {
            text += &format!("{}marks fill {first}\nbegin\nmarks fill {then}\ncarve 7\ntake 94\ntake 136\ndump status\n", cage());
            text += &format!("marks fill {first}\ncarve 9\nmarks fill {then}\ncarve 4294967295\nopen\nmarks fill {first}\nopen\n");
            text += "marks fill 0\nopen\ncarve 4294967295\ndump status\nfinish\n";
        }
    }
    text
}

// ---- the order of examination

/// A fit record of a solid block of 3 x 3 x 3 in 5 x 5 x 5, with no voxel in S, and buffers for it.
pub(super) const SOLID: &str = "sides 5 5 5\nT 9\nrec a 5\nrec b 5\nrec c 5\nrec T 9\nrec openings 0\nrec removals 0\n\
                                rec examinations 0\nrec euler 1\nrec finished 0\n";

pub(super) fn solid(status: u8) -> Vec<u8> {
    let within = |i: usize| [i % 5, i / 5 % 5, i / 25].iter().all(|x| (1..4).contains(x));
    (0..125).map(|i| if within(i) { status } else { 0 }).collect()
}

/// All 27 pending, with these distances and marks by turns of index, examined one by one.
fn examined(what: &str, distances: &[i32], marks: &[u8]) -> String {
    let by_turns = |i: usize, length: usize| (i % 5 + 3 * (i / 5 % 5) + 9 * (i / 25)) % length;
    let dist: Vec<i32> = (0..125).map(|i| distances[by_turns(i, distances.len())]).collect();
    let marks: Vec<u8> = (0..125).map(|i| marks[by_turns(i, marks.len())]).collect();
    let buffers = format!("{}{}{}", listed("dist", &dist), listed("marks", &marks), listed("status", &solid(3)));
    format!("# {what}\n{SOLID}{buffers}{}carve 4294967295\n{}carve 4294967295\n", "carve 1\n".repeat(27), listed("status", &solid(3)))
}

fn orders() -> Vec<String> {
    let far = i32::MAX;
    vec![
        examined("hurried ones first, of whatever distance", &[9, 1, 5, 7], &[0, 2, 0, 0, 2]),
        examined("among hurried ones of equal distance the smallest index", &[5], &[0, 2, 0, 0, 2, 3, 1]),
        examined("among hurried ones the greatest distance", &[1, 2, 3, 4, 5, 6, 7, 8, 9, 10], &[2]),
        examined("falling distances, hurried and both by turns", &[10, 9, 8, 7, 6, 5, 4, 3, 2, 1], &[3, 2]),
        examined(
            "one is hurried, of the least distance",
            &[0, 8, 8, 8, 8, 8, 8, 8, 8, 8, 8, 8, 8, 8, 8, 8, 8],
            &[2, 0, 0, 0, 0, 0, 0, 0, 0],
        ),
        examined("distances at the end of 32 bits", &[far, 0, far - 1, 1, far], &[0, 2, 2, 0, 1, 3, 2]),
        examined("distances over 30 bits among hurried ones", &[1 << 30, (1 << 30) + 1, (1 << 30) - 1, far], &[2, 2, 0]),
        examined("distances that differ above 16 bits alone", &[65_536, 131_072, 0, 196_608, 65_535], &[2, 0, 2, 2, 0]),
        examined("distances of 0 and 1", &[0, 1], &[0, 2, 3, 1, 2]),
        examined("pinned alone, and unmarked", &[3, 4, 5], &[1, 0]),
        examined("all are pinned", &[3, 4, 5], &[1]),
        examined("all are both", &[5, 3, 4], &[3]),
    ]
}

/// One far voxel that is not hurried, one near that is, at both ends of the grid; and limits that end among them.
fn limits() -> String {
    let mut text = "# limits among hurried and pinned ones\n".to_string();
    for (far, near) in [(31, 93), (93, 31)] {
        for limit in [0, 1, 2, 3, 26, 27, 28] {
            for mark in MARKS {
                text += &format!("{SOLID}dist fill 5\n{}", listed("status", &solid(3)));
                text += &format!("dist set {far} 2147483647\ndist set {near} 0\nmarks set {near} {mark}\nmarks set 61 1\nmarks set 63 3\ncarve {limit}\n");
            }
        }
        text += &format!("dump status\nmarks set {far} 2\ncarve 1\nmarks set {far} 1\ncarve 1\nmarks fill 0\ncarve 1\ndump status\n");
    }
    text
}

// ---- what a removal wakes

/// 62 passes, as of its face neighbours 87 alone is gone. It has the greatest distance.
pub(super) fn bare_middle(around: u8, middle: u8) -> String {
    let mut status = solid(around);
    (status[62], status[87]) = (middle, 0);
    format!("{SOLID}dist fill 5\ndist set 62 9\n{}", listed("status", &status))
}

const REMOVALS: [(&str, &str, u8); 3] = [("take", "take 62\n", 1), ("carve", "carve 1\n", 3), ("open", "open\n", 1)];

/// Each neighbour marked by itself, all of them, all but one.
fn woken((call, line, middle): (&str, &str, u8)) -> String {
    let mut text = format!("# what {call} wakes, where its neighbours are marked\n");
    let neighbours: Vec<usize> = (0..125).filter(|&i| solid(1)[i] == 1 && i != 62 && i != 87).collect();
    for mark in MARKS {
        text += &format!("{}marks fill {mark}\nmarks set 62 0\n{line}dump status\n", bare_middle(1, middle));
        for &i in &neighbours {
            text += &format!("{}marks set {i} {mark}\n{line}", bare_middle(1, middle));
        }
    }
    for &i in &neighbours {
        text += &format!("{}marks fill 1\nmarks set 62 0\nmarks set {i} 0\n{line}", bare_middle(1, middle));
    }
    text
}

/// Neighbours that are pinned and pending stay so; those that are not pending are not woken.
fn left_pending() -> String {
    let mut text = "# a removal leaves what is pinned as it is, pending or not\n".to_string();
    for mark in MARKS {
        for line in ["take 62\n", "marks set 62 2\ncarve 1\n"] {
            text += &format!("{}marks fill {mark}\nmarks set 62 0\n{line}dump status\ncarve 2\ndump status\n", bare_middle(3, 3));
            text += &format!("{}marks fill {mark}\nmarks set 62 0\n", bare_middle(1, 3));
            text += &format!("status set 61 3\nstatus set 36 3\nstatus set 88 3\n{line}dump status\ncarve 4294967295\n");
        }
    }
    text
}

/// Voxels of S are never woken nor lost, pinned, hurried or not.
fn beside_the_inside() -> String {
    let mut text = "# marks on S beside a removal\n".to_string();
    for mark in MARKS {
        for line in ["take 62\n", "status set 62 3\ncarve 1\n", "open\n"] {
            text += &format!(
                "{}dist set 61 -3\ndist set 31 -1\ndist set 93 -2147483648\nmarks fill {mark}\nmarks set 62 0\n",
                bare_middle(1, 1)
            );
            text += &format!("{line}dump status\ncarve 4294967295\ntake 61\n");
        }
    }
    text
}

// ---- open

fn opened() -> String {
    let mut text = "# open passes over what is pinned\n".to_string();
    for mark in MARKS {
        for which in [&[65][..], &[67], &[69], &[65, 67], &[67, 69], &[65, 69], &[65, 67, 69]] {
            text += &plate(9);
            text += &which.iter().map(|&i| set("marks", i, mark)).collect::<String>();
            text += "open\ncarve 9\nopen\ncarve 9\nopen\ncarve 9\nopen\nmarks fill 0\nopen\nfinish\n";
        }
    }
    text
}

fn equal_distances() -> String {
    let mut text = "# open takes no notice of hurries: of equal distances the smallest index that is not pinned\n".to_string();
    for mark in MARKS {
        for (one, other) in [(65, 65), (67, 67), (69, 69), (67, 69), (65, 69), (65, 67)] {
            text += &format!(
                "{}dist set 65 7\ndist set 67 7\nmarks set {one} {mark}\nmarks set {other} {mark}\nopen\ncarve 9\nopen\ncarve 9\nopen\n",
                plate(9)
            );
        }
    }
    text + &format!("{}dist set 65 0\ndist set 67 2147483647\nmarks set 65 2\nmarks set 67 1\nmarks set 69 1\nopen\nopen\n", plate(9))
}

/// 15 where nothing but pinned voxels could be opened, after 13 and 14; and finish, which is lent no marks, all the same.
fn all_pinned() -> String {
    let mut text = "# open where all is pinned\n".to_string();
    for mark in [PINNED, BOTH] {
        text += &format!("{}marks fill {mark}\nopen\nmarks set 67 2\nopen\ncarve 9\nopen\nfinish\n", plate(9));
        text +=
            &format!("{}marks fill {mark}\nopen\nrec T 1\nopen\nstatus set 65 3\nopen\nrec T 0\nopen\ncarve 1\nopen\nfinish\n", plate(0));
        text += &format!(
            "{BOX}marks fill {mark}\nbegin\ncarve 4294967295\nopen\ntake {DEEP}\ntake {SURFACE}\nfinish\ndump dist\npoints 0 300\n"
        );
        text += &format!("{BOX}marks fill {mark}\nmarks set {DEEP} 0\nbegin\ncarve 4294967295\nopen\nfinish\n");
    }
    text
}

/// A voxel whose pin is taken off may pass, and is opened all the same.
fn open_that_passes() -> String {
    let mut text = "# open meets a voxel that passes, as a pin was taken off or a hurry came late\n".to_string();
    for mark in [PINNED, BOTH] {
        text += &format!(
            "{BOX}marks fill {mark}\nbegin\ncarve 4294967295\nmarks fill 0\ncarve 4294967295\nopen\ndump status\ncarve 4294967295\n"
        );
        text += &format!("{PAIR}marks set 32 {mark}\nbegin\ncarve 9\nmarks set 32 2\nopen\ncarve 9\nopen\n");
    }
    text
}

// ---- take

fn taken() -> String {
    let mut text = "# take: 30 for every pinned voxel that could be taken, and hurried ones taken\n".to_string();
    for mark in MARKS {
        text += &format!("{PAIR}marks set 32 {mark}\nbegin\ntake 32\ntake 37\ntake 32\nmarks set 32 0\ntake 32\n");
        text += &format!("begin\nmarks set 32 {mark}\ntake 32\nstatus set 32 1\ntake 32\nmarks fill {mark}\ntake 37\ntake 31\ntake 0\ntake 34\ntake 72\n");
        text += &format!(
            "marks fill 0\nmarks set 31 {mark}\nmarks set 33 {mark}\nmarks set 71 {mark}\nmarks set 0 {mark}\nbegin\ntake 32\ntake 37\n"
        );
        text += &format!("{BOX}marks set {DEEP} {mark}\nbegin\ntake {DEEP}\ntake {SURFACE}\ncarve 9\ntake {DEEP}\n");
    }
    text
}

// ---- numbers

/// Bytes that are no marks, and the mark buffer's length, on 75 voxels: 37 may go, 31 is in S, 0 and 74 are on the border.
const WRONG_RING: [Fault; 14] = [
    state("29", "marks set 37 4\n"),
    state("29", "marks set 0 5\n"),
    state("29", "marks set 74 255\n"),
    state("29", "marks set 31 128\n"),
    state("29", "marks set 0 255\n"),
    state("29", "marks set 74 4\n"),
    state("29", "marks fill 255\n"),
    state("29", "marks set 12 7\nmarks set 13 4\n"),
    state("2", "marks len 74\n"),
    state("2", "marks len 76\n"),
    state("2", "marks len 0\n"),
    state("2", "marks list\n"),
    state("2", "marks len 2097152\n"),
    state("2", "marks list 1\n"),
];

/// The same on 72 voxels, of which 34 is gone.
const WRONG_PAIR: [Fault; 10] = [
    state("29", "marks set 32 4\n"),
    state("29", "marks set 0 5\n"),
    state("29", "marks set 71 255\n"),
    state("29", "marks set 31 128\n"),
    state("29", "marks set 34 6\n"),
    state("2", "marks len 71\n"),
    state("2", "marks len 73\n"),
    state("2", "marks len 0\n"),
    state("2", "marks list\n"),
    state("2", "marks len 2097152\n"),
];

fn begun() -> Subject<'static> {
    let others = [
        state("1", "rawsides 65 5 3\n"),
        state("2", "values len 74\n"),
        state("2", "dist len 74\n"),
        state("2", "status len 76\n"),
        state("28", "values set 20 1000000001\n"),
        state("3", "values set 35 -1\n"),
        state("4", "values fill 4\n"),
    ];
    Subject { call: "begin", index: "", axis: "", state: format!("{RING}marks set 37 2\n"), faults: with(&WRONG_RING, &others) }
}

fn subjects() -> [Subject<'static>; 4] {
    let ring = with(&WRONG_RING, &UNFIT_RING);
    let carve = Subject { call: "carve", index: "9", axis: "", state: format!("{RING}begin\n"), faults: with(&ring, &[FINISHED]) };
    let opening = [FINISHED, PENDING, state("14", "rec T 0\n"), state("15", "marks set 37 1\n"), state("15", "marks set 37 3\n")];
    let open = Subject { call: "open", index: "", axis: "", state: format!("{RING}begin\ncarve 9\n"), faults: with(&ring, &opening) };
    let taking = [
        FINISHED,
        at("5", "", "72"),
        at("10", "", "0"),
        at("11", "", "31"),
        state("30", "marks set 32 1\n"),
        state("30", "marks set 32 3\n"),
        at("12", "status set 34 1\n", "34"),
    ];
    let faults = with(&with(&WRONG_PAIR, &UNFIT_PAIR), &taking);
    let take = Subject { call: "take", index: "32", axis: "", state: format!("{PAIR}begin\n"), faults };
    [begun(), carve, take, open]
}

/// Pairs that need a voxel of their own.
fn before_and_after_30() -> String {
    let mut text = format!("# take: 10 and 11 before 30, 30 before 12\n{PAIR}begin\nstatus set 34 1\ntake 34\n");
    for mark in [PINNED, BOTH, HURRIED] {
        text += &format!("marks fill 0\nmarks set 0 {mark}\ntake 0\nmarks set 34 {mark}\ntake 34\nstatus set 34 3\ntake 34\n");
        text += &format!(
            "status set 34 0\ntake 34\nstatus set 34 1\nmarks set 31 {mark}\ntake 31\nmarks fill {mark}\ntake 0\ntake 31\ntake 34\n"
        );
    }
    text
}

/// Every byte that is no mark, at every kind of voxel, in every call; then each byte on its way.
fn no_marks() -> String {
    let mut text = format!("# 29 for every byte over 3, wherever it stands\n{PAIR}");
    for wrong in NO_MARKS {
        for i in [37, 0, 71, 31, 34] {
            text += &format!(
                "marks set {i} {wrong}\nbegin\nmarks set {i} 0\nbegin\nmarks set {i} {wrong}\ncarve 1\ntake 37\nopen\nmarks set {i} 0\n"
            );
        }
    }
    text += "begin\n";
    text += &(0..=255).map(|byte| format!("marks set 40 {byte}\ncarve 0\n")).collect::<String>();
    text + "marks set 40 3\nbegin\nmarks set 40 4\nbegin\ncarve 0\n"
}

/// A byte that is no mark with every clause of 7, of 28 and of 3, at voxels before it and behind it.
fn with_other_faults() -> String {
    let mut text = "# 7 by each clause before 29; 28 before 29, and 29 before 3, whichever voxel comes first\n".to_string();
    let counts = ["openings 2", "removals 76", "examinations 2026", "euler 601", "euler -601"].map(|field| format!("rec {field}\n"));
    let voxels = [(37, 2), (0, 1), (74, 1), (31, 0), (31, 3), (74, 255)].map(|(i, status)| set("status", i, status));
    for i in [0, 37, 74] {
        for fault in counts.iter().chain(&voxels) {
            text += &format!("{RING}begin\nmarks set {i} 4\n{fault}carve 1\ntake 37\nopen\nrec finished 1\ncarve 1\n");
        }
        for (voxel, value) in [(0, 1_000_000_001), (74, 1_000_000_001), (40, i32::MAX), (0, -1), (74, -1)] {
            text += &format!("{RING}marks set {i} 4\nvalues set {voxel} {value}\nbegin\n");
        }
    }
    text
}

/// Every place of the buffer.
fn each_place() -> String {
    let mut text = format!("# 29 at every place\n{RING}begin\n");
    for i in 0..75 {
        text += &format!("marks set {i} 4\ncarve 1\nbegin\nmarks set {i} 0\n");
    }
    text
}

/// Lengths from none to far too long, with marks that are right and wrong within them.
fn lengths() -> String {
    let mut text = "# lengths of the mark buffer\n".to_string();
    for length in [0, 1, 37, 38, 74, 76, 150, 65_536, 65_611, 2_097_152] {
        for byte in [0, 2, 9] {
            text +=
                &format!("{RING}begin\nmarks fill {byte}\nmarks len {length}\nbegin\ncarve 3\ntake 37\nopen\nrec finished 1\ncarve 3\n");
            text += "rec finished 0\nstatus set 0 1\ncarve 0\nvalues set 0 -1\nbegin\nvalues set 0 4\nvalues set 1 2147483647\nbegin\n";
        }
    }
    text + "marks list 0 0 0\nbegin\n"
}

/// Calls that are lent no marks answer as ever, whatever that buffer is.
fn without_marks() -> String {
    let mut text = "# finish, crossing, points, local, read and write are lent no marks\n".to_string();
    for lines in
        ["marks fill 255\n", "marks len 0\n", "marks len 74\n", "marks len 76\n", "marks fill 1\n", "marks fill 2\n", "marks fill 3\n"]
    {
        text += &format!(
            "{RING}begin\ncarve 9\n{lines}finish\ncrossing 36 0\ncrossing 37 2\npoints 0 90\nlocal 15400\nwrite 200\nread\nprogram\n"
        );
        text += "readlayer 7\ncarve 1\ntake 37\nopen\nbegin\n";
    }
    text
}

/// A refused call writes nothing, and the next one, with marks set right, goes on.
fn set_right() -> String {
    let mut text = format!("# refused for its marks, then done with other ones\n{BOX}");
    let lines =
        ["begin\n", "carve 2\n", "take 91\n", "carve 1\n", "take 87\n", "carve 4294967295\n", "open\n", "carve 4294967295\n", "open\n"];
    for line in lines {
        text += &format!("marks set {DEEP} 4\n{line}marks set {DEEP} 1\nmarks len 124\n{line}marks len 125\n{line}dump status\n");
    }
    text + "finish\n"
}

pub fn scripts() -> Vec<String> {
    let mut scripts = vec![from_begin(), each_voxel(PINNED), each_voxel(HURRIED), each_voxel(BOTH)];
    scripts.extend([&[0, 1][..], &[0, 2], &[0, 3], &[1, 2], &[0, 1, 2, 3], &[2, 0, 0, 1, 0, 3, 0]].map(by_turns));
    scripts.extend([without_effect(), later_pin(), later_hurry(), of_the_call()]);
    scripts.extend(orders());
    scripts.push(limits());
    scripts.extend(REMOVALS.map(woken));
    scripts.extend([left_pending(), beside_the_inside()]);
    scripts.extend([opened(), equal_distances(), all_pinned(), open_that_passes(), taken()]);
    scripts.extend(subjects().iter().flat_map(Subject::scripts));
    scripts.extend([before_and_after_30(), no_marks(), with_other_faults(), each_place(), lengths(), without_marks(), set_right()]);
    scripts.extend(both::scripts());
    scripts
}

/// 64 voxels a side, with marks at both ends of the buffer and over many a voxel; for what takes longest.
pub(super) fn greatest_marked() -> String {
    let sides = [64, 64, 64];
    let at = |x: usize, y: usize, z: usize| index(sides, [x, y, z]);
    let mut text = "# 64 voxels a side, with marks\nsides 64 64 64\nT 3\nvalues fill 900\n".to_string();
    for k in 1..=62 {
        text += &[at(k, 1, 62), at(k, 24, 62), at(1, 1 + k % 24, 62), at(62, 1 + k % 24, 62)].map(|i| set("values", i, -7)).concat();
    }
    text += &set("values", at(30, 1, 61), -7);
    for k in 2..=23 {
        text += &set("marks", at(k, 23, 61), if k % 2 == 0 { HURRIED } else { PINNED });
        text += &set("marks", at(2 * k, k, 62), [PINNED, HURRIED, BOTH][k % 3]);
        text += &set("marks", at(63, k, 63), BOTH);
    }
    text += &format!("begin\ntake {}\ntake {}\ncarve 1\ncarve 70\ncarve 4294967295\nopen\ncarve 9\n", at(5, 5, 61), at(3, 23, 61));
    text += "marks set 262143 4\nopen\ncarve 1\nmarks set 262143 3\nmarks set 0 255\ncarve 1\nmarks set 0 3\nmarks len 262143\ncarve 1\n";
    text + "marks len 262144\ncarve 4294967295\nopen\ncarve 9\nopen\ncarve 4294967295\nfinish\n"
}

// ---- from seeds

impl Maker {
    pub(super) fn mark(&mut self, i: usize, mark: u8) {
        self.say(format!("marks set {i} {mark}"));
        self.marks[i] = mark;
    }

    fn list_marks(&mut self) {
        let marks = self.marks.clone();
        self.list_of("marks", &marks);
    }

    /// New marks for all voxels: so many in a hundred are marked, with these.
    pub(super) fn mark_all(&mut self) {
        let marked = self.r.pick(&[0, 3, 10, 30, 60, 100]);
        let with =
            self.r.pick(&[&[PINNED][..], &[HURRIED], &[BOTH], &[PINNED, HURRIED], &[PINNED, HURRIED, BOTH], &[HURRIED, HURRIED, BOTH]]);
        self.marks = (0..self.status.len()).map(|_| if self.r.chance(marked) { self.r.pick(with) } else { UNMARKED }).collect();
        self.list_marks();
    }

    /// Some marks change: of pending voxels mostly, or of kept ones, or all of them.
    pub(super) fn change_marks(&mut self) {
        match self.r.below(12) {
            0 => self.mark_all(),
            1 => {
                let mark = self.r.pick(&MARKS);
                self.say(format!("marks fill {mark}"));
                self.marks.fill(mark);
            }
            _ => {
                for _ in 0..self.r.between(1, 5) {
                    let (i, mark) = (self.voxel(), self.r.pick(&MARKS));
                    if i < self.marks.len() as u64 {
                        self.mark(i as usize, mark);
                    }
                }
            }
        }
    }

    /// A call with a mark too many, one too few or a byte that is none; then the marks are what they were.
    fn with_wrong_marks(&mut self, weights: [u64; 4]) {
        let (right, n) = (self.marks.clone(), self.marks.len());
        if self.r.chance(50) {
            let any = self.r.below(n as u64) as usize;
            let (i, wrong) = (self.r.pick(&[0, n - 1, any]), self.r.pick(&NO_MARKS));
            self.mark(i, wrong);
        } else {
            let length = self.r.pick(&[0, n - 1, n + 1]);
            self.say(format!("marks len {length}"));
            self.marks.resize(length, 0);
        }
        let count = self.r.between(1, 3);
        self.calls(count, weights);
        self.marks = right;
        self.list_marks();
    }

    /// A begun grid, or a fit record that begin did not make, with marks that change between calls.
    pub(super) fn marked(&mut self, greatest: i64) {
        if self.r.chance(25) {
            self.craft(greatest, false);
            self.mark_all();
        } else if !self.begin_marked(greatest) {
            return;
        }
        let weights = self.r.pick(&[[55, 25, 20, 0], [30, 50, 19, 1], [40, 5, 55, 0], [80, 10, 10, 0]]);
        for _ in 0..self.r.between(2, 9) {
            let count = self.r.between(1, 6);
            self.calls(count, weights);
            if self.r.chance(70) {
                self.change_marks();
            }
            if self.r.chance(12) {
                self.with_wrong_marks(weights);
            }
        }
        if self.r.chance(70) {
            self.and_finish();
        }
        if self.r.chance(30) {
            self.say("dump status\ndump marks");
        }
    }

    /// Whether begin took the grid.
    fn begin_marked(&mut self, greatest: i64) -> bool {
        let g = match self.r.below(5) {
            0 => walled(&mut self.r, greatest),
            1 => grid(&mut self.r, greatest),
            _ => self.sponge(greatest),
        };
        let [a, b, c] = g.sides.map(|side| side as u64);
        let sides = Sides { a, b, c };
        self.set(sides, g.allowed);
        self.list_of("values", &g.values);
        self.mark_all();
        if self.r.chance(10) {
            let (i, wrong) = (self.r.below(sides.n() as u64) as usize, self.r.pick(&NO_MARKS));
            self.say(format!("marks set {i} {wrong}\nbegin\nmarks set {i} {}", self.marks[i]));
        }
        self.say("begin");
        match begin(sides, g.allowed, &g.values, &self.marks, &mut self.dist, &mut self.status) {
            Ok(record) => self.record = record,
            Err(_) => {
                self.say("carve 1\nhash");
                return false;
            }
        }
        true
    }
}
