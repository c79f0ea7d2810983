//! Faces (document 02, CR 8): the face that a call must answer, and the entries of `ALSO` that it meets by the faces that are bare before it.

use super::sights::chosen;
use crate::faces::{examinations, lowest, of_block, of_carve, of_voxel, Examination, ACROSS};
use crate::marks::pinned;
use reference::replay::Slot;

/// Up to how many voxels a carve is gone through examination by examination: on larger grids that takes too long.
const SMALL: usize = 1000;

/// The face that a call must answer, and what is seen before it.
pub struct Faced {
    pub face: usize,
    pub seen: Vec<String>,
}

/// Of a call that is not refused; nothing where it answers no face, or is not gone through.
pub fn of(state: &Slot, call: &str, words: &[&str]) -> Option<Faced> {
    let argument = words.get(1).copied().unwrap_or("");
    let number = || argument.parse::<u64>().unwrap_or(0);
    let Faced { face, seen } = match call {
        "local" => with_faces(&of_block(u32::from_str_radix(argument, 16).ok()?)),
        "take" => removed(state, number() as usize),
        "open" => removed(state, opened(state)?),
        "carve" if state.status.len() <= SMALL => carve(state, number()),
        _ => return None,
    };
    let entries = seen.into_iter().chain([format!("face {face}")]);
    Some(Faced { face, seen: entries.map(|entry| format!("{call}: {entry}")).collect() })
}

/// The face that an answer has, if any.
pub fn answered(said: &str) -> Option<usize> {
    let mut words = said.split_ascii_whitespace().skip_while(|&word| word != "face");
    words.nth(1).and_then(|word| word.parse().ok())
}

/// Orders in which faces may be looked at by mistake.
const ORDERS: [(&str, [usize; 6]); 6] = [
    ("from the highest number down", [5, 4, 3, 2, 1, 0]),
    ("high before low", [1, 0, 3, 2, 5, 4]),
    ("z before y before x", [4, 5, 2, 3, 0, 1]),
    ("y before x", [2, 3, 0, 1, 4, 5]),
    ("all low ones first", [0, 2, 4, 1, 3, 5]),
    // places 4, 10, 12, 14, 16 and 22 of a block
    ("by the place in the block", [4, 2, 0, 1, 3, 5]),
];

/// A voxel with these bare faces.
fn with_faces(faces: &[usize]) -> Faced {
    let face = lowest(faces);
    let other = |order: &[usize; 6]| order.iter().find(|number| faces.contains(number)).is_some_and(|&first| first != face);
    let mut seen: Vec<String> = Vec::new();
    seen.extend(ORDERS.iter().filter(|(_, order)| other(order)).map(|(name, _)| format!("another face, {name}")));
    seen.extend(chosen(&[(faces.len() == 6, "every face is bare"), (faces.len() == 1, "one face is bare")]));
    Faced { face, seen }
}

/// A voxel that take or open removes, and what covers its faces of lower numbers.
fn removed(state: &Slot, i: usize) -> Faced {
    let Slot { record, dist, marks, status, .. } = state;
    let mut faced = with_faces(&of_voxel(&record.sides, status, i));
    let [x, y, z] = record.sides.coordinates(i);
    let lower = ACROSS[..faced.face].iter();
    let covers: Vec<usize> = lower.filter_map(|[dx, dy, dz]| record.sides.index([x + dx, y + dy, z + dz])).collect();
    faced.seen.extend(chosen(&[
        (covers.iter().any(|&j| status[j] == 3), "a lower face covered by a pending voxel"),
        (covers.iter().any(|&j| dist[j] < 0), "a lower face covered by a voxel of S"),
        (covers.iter().any(|&j| pinned(marks[j]) && dist[j] >= 0), "a lower face covered by a pinned voxel"),
    ]));
    faced
}

/// The voxel that open removes.
fn opened(state: &Slot) -> Option<usize> {
    let Slot { record, dist, marks, status, .. } = state;
    let may_go = |&i: &usize| status[i] != 0 && dist[i] >= 0 && !pinned(marks[i]) && !of_voxel(&record.sides, status, i).is_empty();
    (0..status.len()).filter(may_go).max_by_key(|&i| (dist[i], std::cmp::Reverse(i)))
}

fn carve(state: &Slot, limit: u64) -> Faced {
    let Slot { record, dist, marks, status, .. } = state;
    let made = examinations(record, dist, marks, status, limit);
    let face = of_carve(&made);
    let seen = match made.iter().rposition(|one| one.removed) {
        None => without_removal(state, limit, &made),
        Some(last) => {
            let at_first = of_voxel(&record.sides, status, made[last].voxel);
            let mut seen = with_faces(&made[last].faces).seen;
            seen.extend(earlier(&made[..=last], face));
            seen.extend(later(&made[last + 1..], face, marks));
            seen.extend(chosen(&[
                (lowest(&at_first) != face, "another face of the last removal when the call began"),
                (at_first.is_empty(), "no bare face of the last removal when the call began"),
            ]));
            seen
        }
    };
    Faced { face, seen }
}

fn without_removal(state: &Slot, limit: u64, made: &[Examination]) -> Vec<String> {
    let pending = state.status.contains(&3);
    let all = |wanted: bool| !made.is_empty() && made.iter().all(|one| pinned(state.marks[one.voxel]) == wanted);
    chosen(&[
        (limit == 0 && pending, "no removal, limit 0"),
        (!pending, "no removal, nothing pending"),
        (all(true), "no removal, what was examined is pinned"),
        (all(false), "no removal, what was examined does not pass"),
        (made.iter().any(|one| !one.faces.is_empty()), "no removal, what was examined has a bare face"),
        (state.record.removals > 0, "no removal, after one of an earlier call"),
    ])
}

/// What the removals before the last came out by.
fn earlier(made: &[Examination], face: usize) -> Vec<String> {
    let removals: Vec<(usize, usize)> = made.iter().filter(|one| one.removed).map(|one| (one.voxel, lowest(&one.faces))).collect();
    let before = &removals[..removals.len() - 1];
    let differs = |one: Option<&(usize, usize)>| one.is_some_and(|(_, other)| *other != face);
    chosen(&[
        (differs(before.first()), "another face of the first removal"),
        (differs(before.last()), "another face of the removal before"),
        (before.iter().any(|(_, other)| *other < face), "a lower face of an earlier removal"),
        (before.iter().any(|(_, other)| *other > face), "a higher face of an earlier removal"),
        (differs(removals.iter().max()), "another face of the removal of the greatest index"),
    ])
}

/// What was examined after the last removal.
fn later(made: &[Examination], face: usize, marks: &[u8]) -> Vec<String> {
    let last = made.last().filter(|one| lowest(&one.faces) != face);
    chosen(&[
        (last.is_some_and(|one| !pinned(marks[one.voxel])), "another face of a voxel examined last, which does not pass"),
        (last.is_some_and(|one| pinned(marks[one.voxel])), "another face of a voxel examined last, which is pinned"),
        (made.len() > 1, "two examinations or more after the last removal"),
    ])
}

#[cfg(test)]
mod tests {
    use super::*;
    use crate::faces::place;

    #[test]
    fn one_of_the_orders_is_that_of_the_places() {
        let mut numbers = [0, 1, 2, 3, 4, 5];
        numbers.sort_by_key(|&number| place(ACROSS[number]));
        assert!(ORDERS.contains(&("by the place in the block", numbers)));
    }
}
