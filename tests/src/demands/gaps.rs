//! Gaps that begin takes for measured, and those that it does not: the entries of `ALSO` that begin, take, the program, read and the writer meet on
//! them.

use super::sights::{chosen, groups};
use crate::gaps::{filled, gaps, Gap};
use crate::records::{contents, negative, parts, patches, LEAST, MISSING};
use reference::grid::Sides;
use reference::replay::Slot;
use std::collections::BTreeSet;

const SIDES: [&str; 6] = ["low x", "high x", "low y", "high y", "low z", "high z"];

/// What is seen of a grid that begin is given, or the program: which gaps are filled, and for what others are left open.
pub fn of_values(call: &str, sides: &Sides, values: &[i32]) -> Vec<String> {
    if !sides.fit() || values.len() != sides.n() || !values.contains(&MISSING) {
        return Vec::new();
    }
    let all = gaps(sides, values);
    let (closed, open): (Vec<&Gap>, Vec<&Gap>) = all.iter().partition(|gap| gap.is_filled(values));
    let mut seen = sizes(&closed);
    seen.extend(walls(sides, values, &closed));
    seen.extend(left_open(sides, values, &open));
    seen.extend(meetings(sides, values, &closed));
    if !closed.is_empty() {
        seen.extend(chosen(&[(!open.is_empty(), "a gap filled and another not")]));
        seen.extend(bodies(sides, values, &closed));
    }
    seen.iter().map(|entry| format!("{call}: {entry}")).collect()
}

fn sizes(closed: &[&Gap]) -> Vec<String> {
    let of = |wanted: &dyn Fn(usize) -> bool| closed.iter().any(|gap| wanted(gap.voxels.len()));
    chosen(&[
        (!closed.is_empty(), "a gap filled"),
        (of(&|size| size == 1), "a gap of one voxel filled"),
        (of(&|size| (2..9).contains(&size)), "a gap of 2 to 8 voxels filled"),
        (of(&|size| (9..65).contains(&size)), "a gap of 9 to 64 voxels filled"),
        (of(&|size| size > 64), "a gap of over 64 voxels filled"),
        (of(&|size| size > 255), "a gap of over 255 voxels filled"),
        (of(&|size| size > 4096), "a gap of over 4096 voxels filled"),
        (of(&|size| size > 65535), "a gap of over 65535 voxels filled"),
        (closed.len() > 1, "two gaps filled"),
        (closed.len() > 255, "over 255 gaps filled"),
        (closed.len() > 65535, "over 65535 gaps filled"),
    ])
}

/// What is about a filled gap.
fn walls(sides: &Sides, values: &[i32], closed: &[&Gap]) -> Vec<String> {
    let of = |value: i32| closed.iter().any(|gap| gap.beside.iter().any(|&(_, i)| values[i] == value));
    let beyond = closed.iter().any(|gap| gap.beside.iter().any(|&(_, i)| i16::try_from(values[i]).is_err()));
    let diagonal = |gap: &Gap| gap.voxels.iter().flat_map(|&i| sides.touching(i)).any(|j| values[j] >= 0);
    chosen(&[
        (of(-1), "a filled gap beside a value of -1"),
        (of(-32_768), "a filled gap beside a value of -32768"),
        (of(LEAST), "a filled gap beside a value of -1000000000"),
        (beyond, "a filled gap beside a value over 16 bits"),
        (closed.iter().any(|gap| diagonal(gap)), "a filled gap touched by a voxel of 0 or more"),
    ])
}

/// Gaps for which a single thing is the reason that they are left open.
fn left_open(sides: &Sides, values: &[i32], open: &[&Gap]) -> Vec<String> {
    let mut seen = Vec::new();
    for gap in open {
        let reasons: Vec<(usize, usize)> = gap.openings(values).collect();
        match reasons[..] {
            [] => seen.push("a gap left open by the border alone".to_string()),
            [(side, i)] if !gap.on_border => {
                seen.push(format!("a gap left open on one side alone, {}", SIDES[side]));
                seen.extend(chosen(&[
                    (values[i] == 0, "a gap left open by a 0 alone"),
                    (values[i] > 32_767, "a gap left open by a value over 16 bits alone"),
                    (gap.voxels.len() > 64, "a gap of over 64 voxels left open on one side alone"),
                ]));
            }
            _ if gap.on_border && reasons.iter().all(|&(_, i)| sides.border(i)) => {
                seen.push("a gap left open on the border alone".to_string());
            }
            _ => {}
        }
    }
    seen
}

/// Gaps that touch and share no face.
fn meetings(sides: &Sides, values: &[i32], closed: &[&Gap]) -> Vec<String> {
    let mut of = vec![usize::MAX; values.len()];
    closed.iter().enumerate().for_each(|(k, gap)| gap.voxels.iter().for_each(|&i| of[i] = k));
    let mut seen = BTreeSet::new();
    for (k, gap) in closed.iter().enumerate() {
        for &i in &gap.voxels {
            let (at, own) = (sides.coordinates(i), |j: usize| of[j] == k);
            for j in sides.touching(i).into_iter().filter(|&j| values[j] == MISSING && !own(j)) {
                let to = sides.coordinates(j);
                let place = if (0..3).all(|axis| at[axis] != to[axis]) { "a corner" } else { "an edge" };
                let other = if of[j] == usize::MAX { "one that is not" } else { "another" };
                seen.insert(format!("a filled gap meets {other} at {place}"));
            }
        }
    }
    seen.into_iter().collect()
}

/// What the fill does to the groups of negative voxels.
fn bodies(sides: &Sides, values: &[i32], closed: &[&Gap]) -> Vec<String> {
    let (before, after) = (groups(sides, values), groups(sides, &filled(sides, values)));
    let largest = |groups: &[Vec<usize>]| groups.iter().map(Vec::len).max().unwrap_or(0);
    let inside =
        |groups: &[Vec<usize>]| groups.iter().find(|group| group.len() == largest(groups)).and_then(|group| group.iter().copied().min());
    let ties = |groups: &[Vec<usize>]| groups.iter().filter(|group| group.len() == largest(groups)).count() > 1;
    let s: BTreeSet<usize> = after.iter().find(|group| group.len() == largest(&after)).into_iter().flatten().copied().collect();
    let within = |gap: &&&Gap| s.contains(&gap.voxels[0]);
    let fills = closed.iter().filter(within).count();
    chosen(&[
        (fills > 0, "a fill in S"),
        (fills < closed.len(), "a fill in a discarded group"),
        (after.len() < before.len(), "a fill joins two groups"),
        (inside(&before) != inside(&after), "a fill makes another group S"),
        (ties(&after) && !ties(&before), "a fill makes two largest groups of one size"),
        (ties(&before) && !ties(&after), "a fill decides between two groups of one size"),
    ])
}

/// A take of a voxel that is in S because it was filled; `values` are still those that were begun with.
pub fn of_take(state: &Slot, index: u64) -> Vec<String> {
    let (sides, values) = (&state.record.sides, &state.values);
    let found = usize::try_from(index).ok().filter(|&i| values.get(i) == Some(&MISSING) && state.dist.get(i) == Some(&-1));
    chosen(&[(sides.fit() && values.len() == sides.n() && found.is_some(), "if refused 11: take refused: 11, a filled voxel")])
}

/// What read and the writer hand on as it is.
pub fn handed_on(call: &str, sides: &Sides, values: &[i32]) -> Vec<String> {
    let closed = sides.fit() && values.len() == sides.n() && gaps(sides, values).iter().any(|gap| gap.is_filled(values));
    chosen(&[(closed, format!("{call}: a closed gap, handed on as it is"))])
}

/// What is seen in a file before it is read.
pub fn of_file(call: &str, sides: &Sides, bytes: &[u8]) -> Vec<String> {
    if !sides.fit() {
        return Vec::new();
    }
    let values = contents(bytes, sides);
    if call == "read" {
        return handed_on(call, sides, &values);
    }
    let mut seen = of_values(call, sides, &values);
    let (records, rest) = parts(bytes, sides);
    let layers = contents(&bytes[..bytes.len() - rest.len()], sides);
    let closed = |values: &[i32]| -> Vec<Gap> { gaps(sides, values).into_iter().filter(|gap| gap.is_filled(values)).collect() };
    let voxels = |gaps: &[Gap]| -> BTreeSet<usize> { gaps.iter().flat_map(|gap| gap.voxels.iter().copied()).collect() };
    let (with, without) = (closed(&values), closed(&layers));
    let (is, was) = (voxels(&with), voxels(&without));
    let patched: BTreeSet<usize> = patches(bytes, sides).map(|(index, _)| index as usize).collect();
    let widths = |gap: &Gap| -> BTreeSet<usize> {
        let area = (sides.a * sides.b) as usize;
        gap.voxels.iter().filter_map(|i| records.get(i / area)).map(|record| record.width).collect()
    };
    seen.extend(chosen(&[
        (with.iter().any(|gap| widths(gap).len() == 2), "program: a filled gap in layers of both widths"),
        (with.iter().any(|gap| widths(gap).contains(&4)), "program: a filled gap in a wide layer"),
        (is.iter().any(|i| layers[*i] != MISSING), "program: a patch of a missing point makes a closed gap"),
        (is.iter().any(|i| layers[*i] == MISSING && !was.contains(i)), "program: a patch closes a gap"),
        (was.iter().any(|i| values[*i] == MISSING && !is.contains(i)), "program: a patch opens a gap"),
        (was.iter().any(|i| negative(values[*i])), "program: a patch measures a gap"),
        (was.iter().any(|i| values[*i] >= 0 && patched.contains(i)), "program: a patch of 0 or more to a gap"),
    ]));
    seen
}

#[cfg(test)]
mod tests {
    use super::*;

    const SIDES: Sides = Sides { a: 6, b: 6, c: 6 };

    /// A wall with some voxels changed, and what is seen of it.
    fn seen(changes: &[([i64; 3], i32)]) -> Vec<String> {
        let mut values: Vec<i32> = (0..SIDES.n()).map(|i| if SIDES.border(i) { 9 } else { -4 }).collect();
        changes.iter().for_each(|&(v, value)| values[SIDES.index(v).expect("a voxel of the grid")] = value);
        of_values("begin", &SIDES, &values)
    }

    #[test]
    fn a_gap_is_told_from_an_open_one() {
        let has = |changes: &[([i64; 3], i32)], entry: &str| seen(changes).contains(&format!("begin: {entry}"));
        let gap = ([2, 2, 2], MISSING);
        assert!(has(&[gap], "a gap of one voxel filled") && has(&[gap], "a fill in S"));
        assert!(
            !has(&[gap], "a filled gap touched by a voxel of 0 or more")
                && has(&[gap, ([1, 1, 1], 0)], "a filled gap touched by a voxel of 0 or more")
        );
        for (beside, side) in
            [([1, 2, 2], "low x"), ([3, 2, 2], "high x"), ([2, 1, 2], "low y"), ([2, 3, 2], "high y"), ([2, 2, 3], "high z")]
        {
            let open = [gap, (beside, 0)];
            assert!(has(&open, &format!("a gap left open on one side alone, {side}")) && !has(&open, "a gap filled"), "{side}");
        }
        let two = [gap, ([3, 3, 2], MISSING)];
        assert!(has(&two, "a filled gap meets another at an edge") && !has(&two, "a filled gap meets another at a corner"));
        let one = [gap, ([3, 3, 3], MISSING), ([4, 3, 3], 0)];
        assert!(has(&one, "a filled gap meets one that is not at a corner") && has(&one, "a gap filled and another not"));
    }
}
