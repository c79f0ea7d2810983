//! Lists of removals (document 02, CR 11): the entries of `ALSO` that a judged list meets, and the whole answer of one that keeps the rules.

use super::sights::chosen;
use crate::faults::bytes_of;
use crate::judged::{is_mark, removals, Body, Removal};
use crate::marks::pinned;
use crate::records::{patch_index, OPENING, REMOVAL_LENGTH};
use reference::replay::Slot;

fn list_of(words: &[&str]) -> Vec<u8> {
    words.get(1).map_or(Vec::new(), |list| bytes_of(list))
}

/// The lent buffers, where there are n of each.
fn body(state: &Slot) -> Option<Body<'_>> {
    let sides = state.record.sides;
    let right = sides.fit() && [state.dist.len(), state.status.len()] == [sides.n(); 2];
    right.then(|| Body { sides, dist: &state.dist, status: state.status.clone() })
}

/// The answer to a call of `judge` that has no fault.
pub fn line(state: &Slot, words: &[&str]) -> Option<String> {
    let body = body(state).filter(|_| words.first() == Some(&"judge"))?;
    Some(crate::judged::line(&body, &list_of(words)))
}

/// What is seen before a list is judged.
pub fn of(state: &Slot, words: &[&str]) -> Vec<String> {
    let (list, Some(mut body)) = (list_of(words), body(state)) else { return Vec::new() };
    let n = body.status.len();
    let good = |record: &&[u8]| record.len() == REMOVAL_LENGTH && is_mark(&record[..2]);
    let good = |record: &&[u8]| good(record) && patch_index(record).is_some_and(|index| (index as usize) < n);
    let whole: Vec<&[u8]> = list.chunks(REMOVAL_LENGTH).take_while(good).collect();
    let mut seen = refused(state, &mut body.clone(), &whole, list.len());
    if whole.len() * REMOVAL_LENGTH < list.len() {
        return seen;
    }
    let (first, removed) = (body.clone(), removals(&mut body, &list));
    seen.extend(done(state, &first, &body, &removed));
    seen
}

/// What stands beside a refusal: the records up to the first that breaks the rules are good.
fn refused(state: &Slot, body: &mut Body, whole: &[&[u8]], length: usize) -> Vec<String> {
    let (mut good, mut woken, mut openings) = (0, false, 0);
    for record in whole {
        let (i, opening) = (patch_index(record).expect("a whole record") as usize, record[1] == OPENING);
        let may_go = body.status[i] != 0 && body.dist[i] >= 0;
        let passing = |body: &Body| body.outside().any(|j| body.passes(j));
        let fits = if opening { openings < state.record.t && body.bare(i) && !passing(body) } else { body.passes(i) };
        if !may_go || !fits {
            break;
        }
        good += 1;
        woken |= body.status[i] == 3;
        openings += u16::from(opening);
        body.status[i] = 0;
    }
    let mut seen = Vec::new();
    for check in ["removal 21", "removal 22", "removal 5", "32", "33"] {
        let entries = [(good > 0 && check != "33", "after good records"), (woken, "after a pending voxel went")];
        seen.extend(chosen(&entries).iter().map(|entry| format!("if refused {check}: judge refused: {check}, {entry}")));
    }
    let free = |i: usize| state.marks.get(i).is_none_or(|&mark| !pinned(mark));
    let entries = [
        (good == 0, "32", "the first record"),
        (REMOVAL_LENGTH * (good + 1) == length, "32", "the last record"),
        (length > REMOVAL_LENGTH * body.status.len(), "32", "more records than voxels"),
        (length == 0, "33", "an empty list"),
        (openings > 0, "33", "after an opening"),
        (!body.status.contains(&3), "33", "nothing pending"),
        (!body.outside().any(|i| free(i) && body.passes(i)), "33", "nothing but pinned voxels passes"),
    ];
    let told = entries.iter().filter(|(is, ..)| *is);
    seen.extend(told.map(|(_, check, entry)| format!("if refused {check}: judge refused: {check}, {entry}")));
    seen
}

/// What is seen where the list keeps the rules, from the body before it and the one behind it.
fn done(state: &Slot, first: &Body, last: &Body, removed: &[Removal]) -> Vec<String> {
    let (r, dist) = (&state.record, &state.dist);
    let openings: Vec<&Removal> = removed.iter().filter(|removal| removal.opening).collect();
    let held = |i: usize| state.marks.get(i).is_some_and(|&mark| pinned(mark));
    let first_opening = removed.iter().position(|removal| removal.opening);
    let t = u64::from(r.t);
    let entries = chosen(&[
        (removed.is_empty(), "an empty list"),
        (removed.is_empty() && first.status.contains(&3), "an empty list, something pending"),
        (!removed.is_empty() && openings.is_empty(), "ordinary removals alone"),
        (!openings.is_empty(), "an opening"),
        (openings.len() > 1, "two openings or more"),
        (!openings.is_empty() && openings.len() as u64 == t, "as many openings as T"),
        (first_opening == Some(0), "an opening first"),
        (first_opening.is_some_and(|at| removed[at..].iter().any(|removal| !removal.opening)), "a removal after an opening"),
        (openings.iter().any(|opening| opening.local.k == 0), "an opening of k 0"),
        (openings.iter().any(|opening| opening.local.k > 1), "an opening of k 2 or more"),
        (openings.iter().any(|opening| opening.local.m > 1), "an opening of m 2 or more"),
        (another_order(dist, first, removed), "another order than that of distances"),
        (nearer_opened(dist, first, removed), "an opening that is not the farthest"),
        (removed.iter().any(|removal| first.status[removal.index] == 3), "a pending voxel"),
        (removed.iter().any(|removal| first.status[removal.index] == 1), "a voxel that is not pending"),
        (removed.iter().any(|removal| dist[removal.index] == 0), "a voxel of distance 0"),
        (removed.iter().any(|removal| held(removal.index)), "a pinned voxel"),
        (openings.iter().any(|opening| held(opening.index)), "a pinned voxel opened"),
        (last.status.contains(&3), "something pending at the end"),
        (r.openings > 0, "the record has openings"),
        (t > 0 && r.openings == t && !openings.is_empty(), "the record's openings are T, and the list has some"),
        (r.removals > 0, "the record has removals"),
        (r.examinations > 0, "the record has examinations"),
        (r.euler != 1, "the record has another Euler number"),
        (r.euler != 1 && !openings.is_empty(), "the record has another Euler number, and the list has openings"),
        (t == 0, "T of 0"),
    ]);
    entries.iter().map(|entry| format!("judge: {entry}")).collect()
}

/// Whether an ordinary removal comes before a farther one that passed already.
fn another_order(dist: &[i32], first: &Body, removed: &[Removal]) -> bool {
    let mut body = first.clone();
    removed.iter().enumerate().any(|(at, removal)| {
        let farther = |later: &&Removal| dist[later.index] > dist[removal.index] && body.passes(later.index);
        let so = !removal.opening && removed[at + 1..].iter().any(|later| farther(&later));
        body.status[removal.index] = 0;
        so
    })
}

/// Whether an opening leaves a farther voxel that could be opened.
fn nearer_opened(dist: &[i32], first: &Body, removed: &[Removal]) -> bool {
    let mut body = first.clone();
    removed.iter().any(|removal| {
        let so = removal.opening && body.outside().any(|i| dist[i] > dist[removal.index] && body.bare(i));
        body.status[removal.index] = 0;
        so
    })
}
