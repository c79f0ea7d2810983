//! Many scans at once (document 02, CR 14): the entries of `ALSO` that a call of `serve` meets, and all that it must leave.

use super::sights::chosen;
use crate::served::Office;
use reference::grid::{Record, Sides};
use reference::replay::{Replay, Slot};
use std::collections::BTreeSet;

/// The number of grids and the limit of a line, which is one of the language.
fn numbers_in(words: &[&str]) -> Option<(usize, u64)> {
    let [_, grids, limit] = words else { return None };
    Some((grids.parse().ok()?, limit.parse().ok()?))
}

/// Whether the call is on the slot in use alone: then its numbers are seen as those of any other call.
pub fn is_of_one(state: &Replay, words: &[&str]) -> bool {
    state.slot_in_use() == 0 && numbers_in(words).is_some_and(|(grids, _)| grids == 1)
}

/// The place that a call serves, where it is done.
pub fn place(state: &Replay, words: &[&str]) -> Option<usize> {
    let (grids, _) = numbers_in(words)?;
    Office::of(state, grids).place()
}

/// All slots and the order record after a call, and its whole line where it has no fault.
pub struct Wanted {
    pub all: Office,
    pub line: Option<String>,
}

impl Wanted {
    pub fn of(state: &Replay, words: &[&str], has_fault: bool) -> Self {
        let mut all = Office::of(state, state.slots().len());
        let (grids, limit) = numbers_in(words).filter(|_| !has_fault).unwrap_or_default();
        if grids == 0 {
            return Wanted { all, line: None };
        }
        let (after, line) = Office::of(state, grids).served(limit);
        all.order = after.order;
        all.records[..grids].copy_from_slice(&after.records);
        all.status[..after.status.len()].copy_from_slice(&after.status);
        Wanted { all, line: Some(line) }
    }

    /// An error where something else was left.
    pub fn left(&self, state: &Replay) -> Result<(), String> {
        let (all, left) = (&self.all, Office::of(state, state.slots().len()));
        let same = [
            (all.order == left.order, "the order record"),
            (all.records == left.records, "a record"),
            (all.status == left.status, "a status buffer"),
            (all.dist == left.dist, "a buffer of distances"),
            (all.marks == left.marks, "a mark buffer"),
        ];
        match same.iter().find(|(same, _)| !same) {
            Some((_, what)) => Err(format!("{what} is not what the call must leave")),
            None => Ok(()),
        }
    }
}

/// What is seen before a call.
pub fn of(state: &Replay, words: &[&str]) -> Vec<String> {
    let Some((grids, limit)) = numbers_in(words) else { return Vec::new() };
    let office = Office::of(state, grids);
    let mut seen = refused(state, &office);
    seen.extend(office.place().into_iter().flat_map(|place| done(state, &office, place, limit)));
    seen
}

/// What is seen where the call is refused.
fn refused(state: &Replay, office: &Office) -> Vec<String> {
    let (grids, order) = (office.records.len(), &office.order);
    let waits = (0..grids).any(|place| office.waits(place));
    let past = order.iter().map(|&place| usize::from(place)).find(|&place| place >= grids);
    let fit_in = |bits: u32| past.is_some_and(|place| place % (1 << bits) < grids);
    let entries = [
        (order.len() > grids, "order 7", "longer than the grids".to_string()),
        (order.len() > 16, "order 7", "17 places".to_string()),
        (order.len() <= grids, "order 7", "no longer than the grids".to_string()),
        (grids == 16, "order 7", "of 16 grids".to_string()),
        (past == Some(grids), "order 7", "one past the last".to_string()),
        (past == Some(255), "order 7", "place 255".to_string()),
        (fit_in(4), "order 7", "a place of the order fit in its low 4 bits".to_string()),
        (fit_in(7), "order 7", "a place of the order fit in its low 7 bits".to_string()),
        (waits, "8", "while a grid waits".to_string()),
        (waits, "8", format!("finished {}", office.records.iter().map(|r| r.finished).max().unwrap_or(0))),
        (!order.is_empty(), "35", "after grids were served".to_string()),
        (order.is_empty(), "35", "none was served".to_string()),
        (grids == 16, "35", "of 16 grids".to_string()),
        (sum_alone(state, grids), "7", "lengths that are right in sum alone".to_string()),
    ];
    let mut seen: Vec<String> = entries
        .iter()
        .filter(|(is, ..)| *is)
        .map(|(_, check, entry)| format!("if refused {check}: serve refused: {check}, {entry}"))
        .collect();
    seen.extend(at_places(office));
    seen
}

/// Whether a buffer of the slots has as many places as their grids together, but not each of them.
fn sum_alone(state: &Replay, grids: usize) -> bool {
    let slots = &state.slots()[..grids];
    let lens = |len: fn(&Slot) -> usize| slots.iter().map(len).collect::<Vec<usize>>();
    let wanted = lens(|slot| if slot.record.sides.fit() { slot.record.sides.n() } else { 0 });
    let lent = [lens(|slot| slot.dist.len()), lens(|slot| slot.status.len()), lens(|slot| slot.marks.len())];
    lent.iter().any(|lens| *lens != wanted && lens.iter().sum::<usize>() == wanted.iter().sum::<usize>())
}

/// The first and the last place of several, where nothing else has a fault of that check.
fn at_places(office: &Office) -> Vec<String> {
    let grids = office.records.len();
    let counts = |r: &Record| {
        let n = if r.sides.fit() { r.sides.n() as u64 } else { u64::MAX / 27 };
        r.openings > u64::from(r.t) || r.removals > n || r.examinations > 27 * n || r.euler.unsigned_abs() > 8 * n
    };
    let bytes = |place: usize| office.status_of(place).iter().any(|s| ![0, 1, 3].contains(s));
    let faults: [(&str, &dyn Fn(usize) -> bool); 5] = [
        ("1", &|place| !office.records[place].sides.fit()),
        ("7", &|place| counts(&office.records[place])),
        ("7", &bytes),
        ("29", &|place| office.marks_of(place).iter().any(|&mark| mark > 3)),
        ("8", &|place| office.records[place].finished()),
    ];
    let mut seen = Vec::new();
    for (check, fault) in faults {
        let at: Vec<usize> = (0..grids).filter(|&place| fault(place)).collect();
        let [place] = at[..] else { continue };
        seen.extend(chosen(&[
            (grids > 1 && place == 0, format!("if refused {check}: serve refused: {check}, of the first grid alone")),
            (grids > 1 && place + 1 == grids, format!("if refused {check}: serve refused: {check}, of the last grid alone")),
            (grids == 16 && place == 15, format!("if refused {check}: serve refused: {check}, of the last of 16 grids alone")),
            (
                office.place().is_some_and(|served| served != place),
                format!("if refused {check}: serve refused: {check}, of a grid whose turn it is not"),
            ),
        ]));
    }
    seen
}

/// What is seen where the call is done.
fn done(state: &Replay, office: &Office, place: usize, limit: u64) -> Vec<String> {
    let mut seen = whose_turn(office, place);
    seen.extend(around(state, office, place, limit));
    let mut seen: Vec<String> = seen.iter().map(|entry| format!("serve: {entry}")).collect();
    seen.extend(otherwise(office, place, limit));
    seen
}

/// How it came to be this place's turn.
fn whose_turn(office: &Office, place: usize) -> Vec<String> {
    let (grids, order) = (office.records.len(), &office.order);
    let served = |other: usize| order.iter().position(|&p| usize::from(p) == other);
    let (waiting, idle): (Vec<usize>, Vec<usize>) = (0..grids).partition(|&other| office.waits(other));
    let others: Vec<usize> = waiting.into_iter().filter(|&other| other != place).collect();
    let (at, last) = (served(place), order.len().saturating_sub(1));
    let (before, after) = (others.iter().any(|&other| other < place), others.iter().any(|&other| other > place));
    let served_waits = others.iter().any(|&other| served(other).is_some());
    let new_waits = others.iter().any(|&other| other > place && served(other).is_none());
    let new_idle = idle.iter().any(|&other| served(other).is_none());
    let lower_idle = idle.iter().any(|&other| other < place && served(other).is_none());
    let earlier_idle = idle.iter().any(|&other| served(other).is_some() && served(other) < at);
    let never = at.is_none();
    chosen(&[
        (order.is_empty(), "an empty order record"),
        (order.len() == grids, "an order record of all grids"),
        (order.len() == 16, "an order record of 16 grids"),
        (!order.is_empty() && order.len() < grids, "an order record of some grids"),
        (never && before, "never served, a lower place was and waits"),
        (never && new_waits, "never served, and a higher place neither"),
        (never && served_waits, "never served, one that was waits too"),
        (never && lower_idle, "never served, a lower one neither but nothing is pending there"),
        (!never && before, "served longest ago, a lower place waits too"),
        (!never && after, "served longest ago, a higher place waits too"),
        (!never && earlier_idle, "served longest ago of those with something pending"),
        (!never && others.is_empty(), "served before, and no other waits"),
        (!never && new_idle, "served before, one never served has nothing pending"),
        (at == Some(0) && last > 0, "from the front of the order record"),
        (at.is_some_and(|at| at > 0 && at < last), "from the middle of the order record"),
        (at.is_some_and(|at| at > 0 && at == last), "from the end of the order record"),
        (grids > 1 && others.is_empty(), "the only grid with something pending"),
    ])
}

/// What else the call is about.
fn around(state: &Replay, office: &Office, place: usize, limit: u64) -> Vec<String> {
    let (grids, r) = (office.records.len(), &office.records[place]);
    let sides: Vec<Sides> = office.records.iter().map(|r| r.sides).collect();
    let sizes: BTreeSet<usize> = sides.iter().filter(|sides| sides.fit()).map(|sides| sides.n()).collect();
    let n = if r.sides.fit() { r.sides.n() as u64 } else { 0 };
    let is_unfit = |slot: &Slot| !slot.record.sides.fit() || slot.status.len() != slot.record.sides.n();
    chosen(&[
        (true, &format!("of {grids}")[..]),
        (true, &format!("place {place}")),
        (limit == 1, "limit 1"),
        (limit == 1000, "limit 1000"),
        (sizes.len() > 2, "three different sizes"),
        (grids > 1 && sides.iter().all(|other| *other == sides[0]), "the same sides everywhere"),
        (sides.iter().all(|sides| *sides == Sides { a: 64, b: 64, c: 64 }), "64 64 64 everywhere"),
        (state.slot_in_use() >= grids, "the slot in use is not among the grids"),
        (state.slot_in_use() != place, "the slot in use is not the one served"),
        (state.slots()[grids..].iter().any(is_unfit), "an unfit slot past the last grid"),
        (r.removals == n && r.examinations == 27 * n, "counts at their limits"),
        (sum_alone(state, grids), "lengths that are right in sum alone"),
    ])
}

/// Whether another part of a buffer, or another record, would make another answer.
fn otherwise(office: &Office, place: usize, limit: u64) -> Vec<String> {
    let told = |office: &Office| {
        let alone = office.alone(place, limit);
        (alone.answer.map(|c| (c.examined, c.removed, c.pending, c.face)), alone.record, alone.status)
    };
    let as_it_is = told(office);
    let mut seen = Vec::new();
    for other in (0..office.records.len()).filter(|&other| other != place && office.records[other].sides == office.records[place].sides) {
        let mut marked = office.clone();
        let (own, lent) = (marked.marks_of(place).len(), office.marks_of(other).to_vec());
        let start = (0..place).map(|before| office.marks_of(before).len()).sum::<usize>();
        if own == lent.len() {
            marked.marks[start..start + own].copy_from_slice(&lent);
            let which = if other == 0 { "of place 0" } else { "of another place" };
            seen.extend(chosen(&[(told(&marked) != as_it_is, format!("serve: otherwise with the marks {which}"))]));
        }
        let mut recorded = office.clone();
        recorded.records[place] = office.records[other];
        seen.extend(chosen(&[(told(&recorded) != as_it_is, "serve: otherwise with the record of another place")]));
    }
    seen
}

/// What is seen in the answer of a call that was done.
pub fn answered(said: &str) -> Vec<String> {
    let words: Vec<&str> = said.split_ascii_whitespace().collect();
    let after = |name: &str| words.iter().position(|&w| w == name).and_then(|i| words.get(i + 1)?.parse::<u64>().ok()).unwrap_or(0);
    chosen(&[
        (after("pending") == 1, "serve: something still pending".to_string()),
        (after("pending") == 0, "serve: nothing pending there any more".to_string()),
        (after("removed") > 0, "serve: a removal".to_string()),
        (true, format!("serve: face {}", after("face"))),
        (after("removed") == 0 && after("removals") > 0, "serve: no removal, after one of an earlier call".to_string()),
    ])
}
