//! Pinned and hurried together (document 02, CR 9): mark 3 means mark 1, at begin and later, in every call; what a limited carve reaches, what open and
//! finish answer straight after begin, and what follows from marks that change. Marks 1 and 2 stand beside mark 3, so that the answers tell which it is.

use super::marking::{bare_middle, cage, in_cage, listed, plate, set, solid, BOX, CORNER, DEEP, INSIDE, SOLID, SURFACE};
use super::refusals::{PAIR, RING};
use crate::marks::{BOTH, HURRIED, PINNED, UNMARKED};

const TO_THE_END: &str = "carve 4294967295\n";

/// All voxels of the box that are outside S.
fn outside() -> impl Iterator<Item = usize> {
    const IN_S: [usize; 7] = [31, 32, 33, 38, 43, 68, 93];
    (0..125).filter(|i| solid(1)[*i] == 1 && !IN_S.contains(i))
}

/// Nothing else is marked.
fn mark_outside(mark: u8) -> String {
    let outside: Vec<usize> = outside().collect();
    listed("marks", &(0..125).map(|i| if outside.contains(&i) { mark } else { UNMARKED }).collect::<Vec<_>>())
}

fn mark_each(voxels: impl IntoIterator<Item = usize>, mark: u8) -> String {
    voxels.into_iter().map(|i| set("marks", i, mark)).collect()
}

// ---- from begin

/// One voxel of mark 3 by itself, and with another of mark 1 or 2, on every kind of voxel.
fn from_begin() -> String {
    let mut text = "# status after begin with mark 3: at the surface, deep inside, in S, beyond the box and on the border\n".to_string();
    let of_cage = [[2, 3, 4], [2, 2, 2], [4, 1, 1], [5, 2, 2], [0, 3, 3]].map(in_cage);
    for (grid, voxels) in [(BOX.to_string(), [SURFACE, DEEP, INSIDE, CORNER, 0]), (cage(), of_cage)] {
        text += &grid;
        for one in voxels {
            for mark in [BOTH, PINNED, HURRIED] {
                text += &format!("marks set {one} {mark}\nbegin\ndump status\nmarks set {one} 0\n");
            }
            for other in voxels.into_iter().filter(|&other| other != one) {
                for mark in [PINNED, HURRIED] {
                    text += &format!("marks set {one} 3\nmarks set {other} {mark}\nbegin\nmarks set {one} 0\nmarks set {other} 0\n");
                }
            }
        }
    }
    text + "marks fill 3\nbegin\ndump status\n"
}

/// Nothing is pending from begin where all that could be is of mark 3 or 1; one voxel more that is free, at the surface, or hurried is.
fn at_once() -> String {
    let mut text = "# open and finish straight after begin, where all that could be pending is of mark 3\n".to_string();
    let others = ["", "marks set 62 0\n", "marks set 62 2\n", "marks set 36 0\n", "marks set 36 2\n", "marks set 36 1\nmarks set 62 1\n"];
    for mark in [BOTH, PINNED, HURRIED] {
        for t in [9, 0] {
            for other in others {
                let marks = mark_outside(mark);
                text += &format!("{BOX}T {t}\n{marks}{other}begin\nopen\ntake 62\ntake 36\ncarve 0\nfinish\npoints 0 9\n");
            }
        }
        // the middle of the ring is all that could go
        for then in ["", "marks set 37 0\n", "marks set 37 2\n", "marks set 37 1\n", "marks set 37 3\n"] {
            text += &format!("{RING}marks set 37 {mark}\nbegin\n{then}open\ncarve 9\nfinish\n");
            text += &format!("{RING}marks set 37 {mark}\nbegin\n{then}take 37\nfinish\ncarve 9\nopen\ncrossing 36 0\n");
        }
    }
    text
}

// ---- what a limited carve reaches

/// A voxel of mark 3 takes no place in a limit, as it would where it is pending from begin and examined first.
fn limited() -> String {
    let mut text = "# what a limited carve reaches, with mark 3 at the surface and deep inside\n".to_string();
    for marked in [&[SURFACE][..], &[DEEP], &[SURFACE, DEEP], &[91, 92, SURFACE, 81]] {
        for mark in [BOTH, PINNED, HURRIED, UNMARKED] {
            for limit in [1, 2, 3] {
                let marks = mark_each(marked.iter().copied(), mark);
                text += &format!("{BOX}{marks}begin\ncarve {limit}\ndump status\n{TO_THE_END}");
            }
        }
    }
    for (both, hurried) in [(SURFACE, 91), (91, SURFACE), (DEEP, 91), (SURFACE, DEEP)] {
        for limit in [1, 2] {
            text += &format!("{BOX}marks set {both} 3\nmarks set {hurried} 2\nbegin\ncarve {limit}\ndump status\ncarve {limit}\n");
        }
    }
    text
}

/// The farthest, one between and the nearest of pending voxels, and one of two equal ones, at both ends of the indices. One by one, with limits and in
/// one call, also behind one that is hurried.
fn in_turn() -> String {
    let mut text = "# a pending voxel that is given mark 3 later is examined in its turn by distance, counts and stays\n".to_string();
    for mark in [BOTH, PINNED, HURRIED] {
        for (voxel, distance) in [(31, 60), (31, 45), (31, 40), (31, 20), (93, 60), (93, 45), (93, 40), (93, 20), (62, 0), (63, i32::MAX)] {
            let dist: Vec<i32> = (0..125).map(|i| 30 + i % 4 * 10).collect();
            let state = format!("{SOLID}{}{}dist set {voxel} {distance}\n", listed("dist", &dist), listed("status", &solid(3)));
            text += &format!("{state}marks set {voxel} {mark}\ncarve 1\ncarve 2\ncarve 5\ncarve 1\ncarve 1\n{TO_THE_END}dump status\n");
            text += &format!("{state}marks set {voxel} {mark}\nmarks set 68 2\ncarve 1\ncarve 1\n{TO_THE_END}");
        }
        text += &format!("{BOX}values set 91 9\nvalues set 36 8\nbegin\nmarks set 36 {mark}\ncarve 1\ndump status\ncarve 1\ndump status\n");
        text += &format!("marks set 36 0\n{TO_THE_END}dump status\n");
    }
    text
}

// ---- the same script with mark 1 and with mark 3

/// Every call, on a box with these voxels marked.
fn on_the_box(mark: u8) -> String {
    let surface = |&i: &usize| i != DEEP;
    let all = [vec![SURFACE], vec![DEEP], vec![INSIDE, CORNER, 0], outside().filter(surface).collect(), outside().collect()];
    let mut text = String::new();
    for voxels in all {
        text += &format!("{BOX}{}begin\ndump status\ncarve 0\ncarve 1\ncarve 2\n", mark_each(voxels, mark));
        text += &format!("take {SURFACE}\ntake {DEEP}\ntake {INSIDE}\nopen\n{TO_THE_END}open\ncarve 3\n{TO_THE_END}open\n");
        text += &format!("{TO_THE_END}take {SURFACE}\ndump status\nfinish\npoints 0 300\ncrossing {SURFACE} 0\n");
    }
    text
}

/// Marks by turns on a cage, carved by small limits, opened, and taken from.
fn in_a_cage(mark: u8) -> String {
    let mut text = String::new();
    for turns in [&[0, mark][..], &[mark, 2], &[2, mark, 0, 1, 0], &[0, 0, mark, 0, 0, 0, 2], &[mark]] {
        let marks: Vec<u8> = turns.iter().copied().cycle().take(252).collect();
        text += &format!("{}{}begin\ndump status\n{}", cage(), listed("marks", &marks), "carve 1\n".repeat(12));
        text += &format!("carve 2\ntake 94\ntake 136\ncarve 5\n{TO_THE_END}open\n{TO_THE_END}open\nopen\ndump status\nfinish\n");
    }
    text
}

/// Pins that come and go after begin, on voxels that are pending and on those that are not.
fn given_later(mark: u8) -> String {
    let mut text = String::new();
    for before in [UNMARKED, HURRIED, mark] {
        for then in [UNMARKED, HURRIED, mark] {
            text += &format!("{PAIR}marks set 32 {before}\nbegin\nmarks set 32 {mark}\ncarve 1\ntake 32\nmarks set 32 {then}\ncarve 1\n");
            text += "dump status\ncarve 9\nopen\ntake 32\ncarve 9\nfinish\n";
            text += &format!("{}marks fill {before}\nbegin\nmarks fill {mark}\ncarve 3\nopen\nmarks fill {then}\ncarve 3\n", cage());
            text +=
                &format!("take 94\ntake 136\nopen\nmarks fill {mark}\n{TO_THE_END}open\ndump status\nmarks fill {then}\nopen\nfinish\n");
        }
    }
    text
}

/// Which holes open passes over, and what a removal by each call wakes.
fn opened_and_woken(mark: u8) -> String {
    let mut text = String::new();
    for which in [&[65][..], &[67], &[67, 69], &[65, 67, 69]] {
        let marks = mark_each(which.iter().copied(), mark);
        text += &format!("{}{marks}open\ncarve 9\nopen\ncarve 9\nopen\nfinish\n", plate(9));
    }
    for (line, middle) in [("take 62\n", 1), ("carve 1\n", 3), ("open\n", 1)] {
        for around in [1, 3] {
            let state = format!("{}status set 62 {middle}\n", bare_middle(around, middle));
            text += &format!("{state}marks fill {mark}\nmarks set 62 0\nmarks set 37 0\n{line}dump status\n{TO_THE_END}");
            text += &format!("{state}marks set 61 {mark}\nmarks set 88 {mark}\n{line}carve 2\n{TO_THE_END}dump status\n");
        }
    }
    text
}

/// What a script with one mark is about, and the script.
type Life = (&'static str, fn(u8) -> String);

const LIVES: [Life; 4] = [
    ("every call on a box", on_the_box),
    ("marks by turns, small limits", in_a_cage),
    ("marks that come and go after begin", given_later),
    ("what open passes over, and what a removal wakes", opened_and_woken),
];

fn twice() -> impl Iterator<Item = String> {
    LIVES
        .into_iter()
        .map(|(what, life)| format!("# mark 3 means mark 1: {what}; once with 1, then the same with 3\n{}{}", life(PINNED), life(BOTH)))
}

// ---- marks that change

/// The pair's two voxels outside S. Where mark 3 is hurried too, 32 is pending from begin, and goes once its mark is 0 or 2; and where it is given mark 3
/// while it is pending, it is examined before 37, which is farther, and stays although its mark goes back.
fn changed_after_begin() -> String {
    let mut text = "# marks of 3 changed after begin: more is kept than where mark 3 is hurried too, or less\n".to_string();
    for then in [UNMARKED, HURRIED, PINNED] {
        text += &format!("{PAIR}marks set 32 3\nmarks set 37 1\nbegin\nmarks set 32 {then}\ncarve 9\ndump status\nfinish\n");
    }
    for then in [UNMARKED, HURRIED, PINNED] {
        text += &format!("{PAIR}marks fill 3\nbegin\nmarks fill {then}\ncarve 9\ndump status\nfinish\n");
        text += &format!("{BOX}marks fill 3\nbegin\nmarks fill {then}\n{TO_THE_END}dump status\nfinish\n");
    }
    for then in [UNMARKED, HURRIED, PINNED] {
        text += &format!("{PAIR}values set 37 9\nbegin\nmarks set 32 3\nmarks set 37 1\ncarve 1\nmarks set 32 {then}\ncarve 9\n");
        text += "dump status\nfinish\n";
    }
    text
}

/// Each mark that 3 is changed to, before each call, and back.
fn changed_to_each() -> String {
    let mut text = "# mark 3 at begin, and each other one in the calls after it\n".to_string();
    for then in [UNMARKED, HURRIED, PINNED] {
        for line in ["carve 1\n", "carve 2\n", "take 36\n", "take 62\n", "take 91\n", "open\n", "finish\n"] {
            let marks = mark_outside(BOTH);
            text +=
                &format!("{BOX}{marks}begin\nmarks fill {then}\n{line}dump status\n{marks}carve 2\nmarks fill {then}\n{TO_THE_END}open\n");
            text += &format!("{BOX}marks set 36 3\nmarks set 62 3\nbegin\nmarks set 36 {then}\nmarks set 62 {then}\n{line}dump status\n");
            text += &format!("{TO_THE_END}marks set 62 3\nmarks set 36 3\nopen\n{TO_THE_END}dump status\n");
        }
    }
    text
}

/// Each mark that 3 comes after, on voxels that are pending by then or are not.
fn changed_from_each() -> String {
    let mut text = "# each mark at begin, and mark 3 in the calls after it\n".to_string();
    for before in [UNMARKED, PINNED, HURRIED] {
        for voxels in [&[SURFACE, DEEP][..], &[SURFACE], &[DEEP], &[87, 92]] {
            let [first, then] = [before, BOTH].map(|mark| mark_each(voxels.iter().copied(), mark));
            for line in ["carve 1\n", "carve 2\n", "take 91\n", "take 36\n"] {
                text += &format!("{BOX}{first}begin\n{then}{line}take 91\n{TO_THE_END}open\n{first}{line}{TO_THE_END}dump status\n");
            }
        }
        for holes in [&[65][..], &[67], &[67, 69], &[65, 67, 69]] {
            let [first, then] = [before, BOTH].map(|mark| mark_each(holes.iter().copied(), mark));
            text += &format!("{}{first}begin\n{then}carve 9\nopen\ncarve 9\nopen\n{first}open\nmarks fill 0\nopen\nfinish\n", plate(9));
        }
    }
    text
}

pub fn scripts() -> impl Iterator<Item = String> {
    let before = [from_begin(), at_once(), limited(), in_turn()];
    before.into_iter().chain(twice()).chain([changed_after_begin(), changed_to_each(), changed_from_each()])
}

#[cfg(test)]
mod tests {
    use super::*;
    use crate::compare::reference_lines;

    #[test]
    fn a_script_with_mark_3_is_answered_as_with_mark_1() {
        for (what, life) in LIVES {
            let lines = |mark: u8| reference_lines(&format!("autohash 1\n{}", life(mark))).expect("a script of the language");
            assert_eq!(lines(BOTH), lines(PINNED), "{what}");
            assert_ne!(lines(BOTH), lines(HURRIED), "{what}");
        }
    }

    /// How many voxels are kept at the end of each part. By the rule before CR 9, mark 3 hurried too, they are 3, 3, 4, then 2 and 7 twice, 4 and 27, and
    /// at last 4, 4, 4.
    #[test]
    fn what_is_kept_where_marks_of_3_change() {
        let lines = reference_lines(&changed_after_begin()).expect("a script of the language");
        let kept = |line: &String| line.starts_with('[').then(|| line.matches(['1', '3']).count());
        let now: Vec<usize> = lines.iter().filter_map(kept).collect();
        assert_eq!(now, [4, 4, 4, 4, 27, 4, 27, 4, 27, 3, 3, 4]);
    }
}
