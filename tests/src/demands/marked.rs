//! Marks (document 02, CR 7 and CR 9): the entries of `ALSO` that a call meets by the marks it is lent, or is not.

use super::sights::chosen;
use crate::marks::{hurried, pinned, wrong_mark, BOTH, HURRIED, PINNED, UNMARKED};
use reference::grid::Sides;
use reference::machine::test_at;
use reference::replay::Slot;

/// The calls that are given sides and values.
const STARTS: [&str; 2] = ["begin", "begincoarse"];

/// What is seen of the marks before a call.
pub fn of(state: &Slot, call: &str, index: u64) -> Vec<String> {
    let sides = if STARTS.contains(&call) { &state.sides } else { &state.record.sides };
    if !sides.fit() || state.marks.iter().all(|&mark| mark == 0) && state.marks.len() == sides.n() {
        return Vec::new();
    }
    let seen = match call {
        "begin" | "begincoarse" | "carve" | "take" | "open" => lent(state, sides, call, index),
        "finish" | "judge" | "crossing" | "points" => chosen(&[
            (state.marks.len() != sides.n(), "marks of another length"),
            (state.marks.iter().any(|&mark| wrong_mark(mark).is_some()), "a mark over 3"),
            (untouched(state) && held_by_both(state), "both, and nothing examined yet"),
        ]),
        _ => Vec::new(),
    };
    let told = |entry: &String| match entry.strip_prefix("if refused ").and_then(|rest| rest.split_once(": ")) {
        Some((check, entry)) => format!("if refused {check}: {call} refused: {check}, {entry}"),
        None => format!("{call}: {entry}"),
    };
    seen.iter().map(told).collect()
}

fn lent(state: &Slot, sides: &Sides, call: &str, index: u64) -> Vec<String> {
    let (marks, n) = (&state.marks, sides.n());
    if marks.len() != n {
        return chosen(&[
            (marks.is_empty(), "if refused 2: no marks"),
            (marks.len() + 1 == n, "if refused 2: a mark too few"),
            (marks.len() == n + 1, "if refused 2: a mark too many"),
            (marks.len() > 2 * n, "if refused 2: far too many marks"),
        ]);
    }
    let wrong: Vec<usize> = (0..n).filter(|&i| wrong_mark(marks[i]).is_some()).collect();
    let mut seen = match wrong[..] {
        [] => Vec::new(),
        [i] => wrong_at(state, sides, call, i),
        _ => vec!["if refused 29: at two voxels or more".to_string()],
    };
    let r = &state.record;
    let counts = r.openings <= u64::from(r.t) && r.removals <= n as u64 && r.examinations <= 27 * n as u64;
    let counts = counts && r.euler.unsigned_abs() <= 8 * n as u64;
    seen.extend(chosen(&[(counts && !wrong.is_empty(), "if refused 7: for a voxel, with a mark over 3")]));
    if state.dist.len() != n || state.status.len() != n {
        return seen;
    }
    seen.extend(chosen(&[(*sides == Sides { a: 64, b: 64, c: 64 }, "marks on 64 64 64")]));
    seen.extend(match call {
        "begin" => begin(state, sides),
        // coarse.rs has what such a start does with marks
        "begincoarse" => Vec::new(),
        "carve" => carve(state, index),
        "take" => take(state, index),
        _ => open(state),
    });
    seen
}

/// Where the one byte is that is no mark.
fn wrong_at(state: &Slot, sides: &Sides, call: &str, i: usize) -> Vec<String> {
    let status = state.status.get(i).copied().filter(|_| !STARTS.contains(&call));
    let distance = state.dist.get(i).copied().unwrap_or(0);
    chosen(&[
        (i == 0, "if refused 29: at the first voxel alone"),
        (i + 1 == sides.n(), "if refused 29: at the last voxel alone"),
        (sides.border(i), "if refused 29: on the border alone"),
        (status == Some(0) && !sides.border(i), "if refused 29: at a voxel that is gone alone"),
        (status.is_some_and(|s| s != 0) && distance < 0, "if refused 29: in S alone"),
        (status.is_some_and(|s| s != 0) && distance >= 0, "if refused 29: at a voxel that could go alone"),
    ])
}

/// Whether no voxel has been examined, taken or opened.
fn untouched(state: &Slot) -> bool {
    let r = &state.record;
    (r.openings, r.removals, r.examinations) == (0, 0, 0)
}

/// Whether a voxel that could go is of mark 3.
fn held_by_both(state: &Slot) -> bool {
    let Slot { dist, marks, status, .. } = state;
    let n = marks.len();
    (dist.len(), status.len()) == (n, n) && (0..n).any(|i| marks[i] == BOTH && status[i] != 0 && dist[i] >= 0)
}

/// What begin leaves is seen by making the call.
fn begin(state: &Slot, sides: &Sides) -> Vec<String> {
    let (mut dist, mut status) = (state.dist.clone(), state.status.clone());
    let unmarked = vec![0; sides.n()];
    if reference::grid::begin(*sides, 0, &state.values, &unmarked, &mut dist, &mut status).is_err() {
        return Vec::new();
    }
    let all: Vec<usize> = (0..sides.n()).filter(|&i| state.marks[i] != 0).collect();
    let has = |mark: u8, wanted: &dyn Fn(usize) -> bool| all.iter().any(|&i| state.marks[i] == mark && wanted(i));
    let places: [(&str, &dyn Fn(usize) -> bool); 5] = [
        ("at the surface", &|i| status[i] == 3),
        ("deep inside", &|i| status[i] == 1 && dist[i] >= 0),
        ("in S", &|i| dist[i] < 0),
        ("beyond the box", &|i| status[i] == 0 && !sides.border(i)),
        ("on the border", &|i| sides.border(i)),
    ];
    let mut seen = Vec::new();
    for (mark, name) in [(PINNED, "pinned"), (HURRIED, "hurried"), (BOTH, "both")] {
        seen.extend(places.iter().filter(|(_, wanted)| has(mark, wanted)).map(|(place, _)| format!("{name} {place}")));
        seen.extend(chosen(&[(state.marks.iter().all(|&m| m == mark), format!("{name} everywhere"))]));
    }
    let may_go = |i: usize| status[i] != 0 && dist[i] >= 0;
    let pending = |i: usize| may_go(i) && (hurried(state.marks[i]) || status[i] == 3 && !pinned(state.marks[i]));
    let both = has(BOTH, &may_go);
    seen.extend(chosen(&[
        (both && !(0..sides.n()).any(pending), "both, and nothing is pending"),
        (both && has(HURRIED, &may_go), "both and hurried"),
        (both && has(PINNED, &may_go), "both and pinned"),
    ]));
    seen
}

fn carve(state: &Slot, limit: u64) -> Vec<String> {
    let Slot { dist, marks, status, .. } = state;
    let pending: Vec<usize> = (0..status.len()).filter(|&i| status[i] == 3).collect();
    let (first, others): (Vec<usize>, Vec<usize>) = pending.iter().partition(|&&i| hurried(marks[i]));
    let distances: Vec<i32> = first.iter().map(|&i| dist[i]).collect();
    let farthest = distances.iter().max().copied();
    let of_farthest = distances.iter().filter(|&&d| Some(d) == farthest).count();
    let nearest_first = first.first().is_some_and(|&i| Some(dist[i]) < farthest);
    let asleep = |i: usize| status[i] == 1 && dist[i] >= 0 && hurried(marks[i]);
    let mut seen = carve_both(state, limit, &pending);
    seen.extend(chosen(&[
        (others.iter().any(|&i| Some(dist[i]) > farthest && farthest.is_some()), "a hurried voxel before one that is farther"),
        (others.first() < first.first() && farthest.is_some() && !others.is_empty(), "a hurried voxel before one of a smaller index"),
        (of_farthest > 1, "hurried voxels of equal distance"),
        (nearest_first, "a hurried voxel before a hurried one of a smaller index"),
        (distances.iter().any(|&d| d > 1 << 30) && first.len() > 1, "hurried voxels, one with a distance over 30 bits"),
        (pending.iter().any(|&i| marks[i] == PINNED), "pending and pinned alone"),
        (pending.iter().any(|&i| marks[i] == BOTH), "pending and both"),
        ((0..status.len()).any(asleep), "hurried and not pending"),
    ]));
    seen
}

/// When a pending voxel of mark 3 has its turn, beside what is free: by its distance and index, behind all that is hurried.
fn carve_both(state: &Slot, limit: u64, pending: &[usize]) -> Vec<String> {
    let Slot { dist, marks, status, .. } = state;
    let foremost = |ahead: &dyn Fn(u8) -> bool| pending.iter().copied().max_by_key(|&i| (ahead(marks[i]), dist[i], std::cmp::Reverse(i)));
    let other_first = foremost(&hurried) != foremost(&|mark| mark >= HURRIED);
    let (both, others): (Vec<usize>, Vec<usize>) = pending.iter().partition(|&&i| marks[i] == BOTH);
    let beside = |wanted: &dyn Fn(usize, usize) -> bool| both.iter().any(|&i| others.iter().any(|&j| wanted(i, j)));
    let free = |j: usize| marks[j] == 0;
    let asleep = |i: usize| marks[i] == BOTH && status[i] == 1 && dist[i] >= 0;
    chosen(&[
        (limit == 1 && other_first, "limit 1, another first than where both is hurried"),
        (limit == 2 && other_first, "limit 2, another first than where both is hurried"),
        (limit > 2 && other_first, "another first than where both is hurried"),
        (beside(&|i, j| free(j) && dist[j] > dist[i]), "both, behind one that is farther"),
        (beside(&|i, j| free(j) && dist[j] < dist[i]), "both, before one that is nearer"),
        (beside(&|i, j| free(j) && dist[j] == dist[i] && j < i), "both, behind one of equal distance and a smaller index"),
        (beside(&|i, j| free(j) && dist[j] == dist[i] && j > i), "both, before one of equal distance and a greater index"),
        (beside(&|i, j| hurried(marks[j]) && dist[j] < dist[i]), "both, behind a hurried one that is nearer"),
        (!both.is_empty() && others.is_empty(), "both alone are pending"),
        (!others.is_empty() && (0..status.len()).any(asleep), "both and not pending, where another is"),
        (pending.is_empty() && untouched(state) && held_by_both(state), "both, nothing pending and nothing examined yet"),
    ])
}

fn take(state: &Slot, index: u64) -> Vec<String> {
    let Slot { dist, marks, status, record, .. } = state;
    let Some(i) = usize::try_from(index).ok().filter(|&i| i < status.len()) else { return Vec::new() };
    let near = record.sides.touching(i);
    let beside = |wanted: &dyn Fn(usize) -> bool| near.iter().any(|&j| status[j] != 0 && dist[j] >= 0 && wanted(j));
    chosen(&[
        (marks[i] == HURRIED, "hurried"),
        (beside(&|j| pinned(marks[j]) && status[j] == 1), "beside a pinned voxel"),
        (beside(&|j| pinned(marks[j]) && status[j] == 3), "beside a pinned voxel that is pending"),
        (beside(&|j| marks[j] == BOTH && status[j] == 1), "beside both"),
        (beside(&|j| marks[j] == BOTH && status[j] == 3), "beside both that is pending"),
        (marks[i] == BOTH && status[i] == 3, "if refused 30: both and pending"),
        (marks[i] == BOTH && status[i] == 1, "if refused 30: both and not pending"),
        (marks[i] == PINNED, "if refused 30: pinned alone"),
        (marks[i] == BOTH, "if refused 30: both"),
        (status[i] == 3, "if refused 30: pending"),
        (status[i] == 1, "if refused 30: not pending"),
    ])
}

fn open(state: &Slot) -> Vec<String> {
    let Slot { dist, marks, status, record, .. } = state;
    let bare = |i: usize| record.sides.face_neighbours(i).into_iter().any(|j| j.is_none_or(|j| status[j] == 0));
    let all: Vec<usize> = (0..status.len()).filter(|&i| status[i] != 0 && dist[i] >= 0 && bare(i)).collect();
    // rising indices, so that the first of the farthest is the one to open
    let foremost = |from: &[usize]| from.iter().copied().fold(None, |best, i| best.filter(|&b| dist[b] >= dist[i]).or(Some(i)));
    let free: Vec<usize> = all.iter().copied().filter(|&i| !pinned(marks[i])).collect();
    let opened = foremost(&free);
    let over = |wanted: &dyn Fn(usize) -> bool| opened.is_some() && foremost(&all).is_some_and(|i| pinned(marks[i]) && wanted(i));
    let hurried_ones: Vec<usize> = free.iter().copied().filter(|&i| hurried(marks[i])).collect();
    let equal = |i: usize| Some(dist[i]) == opened.map(|o| dist[o]);
    chosen(&[
        (over(&|i| !equal(i)), "passed over a pinned voxel that is farther"),
        (over(&equal), "passed over a pinned voxel of equal distance"),
        (over(&|i| marks[i] == BOTH && !equal(i)), "passed over both that is farther"),
        (over(&|i| marks[i] == BOTH && equal(i)), "passed over both of equal distance"),
        (untouched(state) && held_by_both(state), "both, and nothing examined yet"),
        (untouched(state) && held_by_both(state), "if refused 14: both, and nothing examined yet"),
        (untouched(state) && held_by_both(state), "if refused 15: both, and nothing examined yet"),
        (opened.is_some_and(|i| record.sides.touching(i).iter().any(|&j| marks[j] == BOTH && status[j] == 1)), "beside both"),
        (all.iter().any(|&i| marks[i] == BOTH) && free.is_empty(), "if refused 15: where both could be opened"),
        (opened.is_some_and(|i| !hurried(marks[i])) && !hurried_ones.is_empty(), "no notice of a hurry"),
        (opened.is_some_and(|i| !hurried(marks[i])) && hurried_ones.iter().any(|&i| equal(i)), "no notice of a hurry of equal distance"),
        (!all.is_empty() && free.is_empty(), "if refused 15: where a pinned voxel could be opened"),
        (opened.is_some_and(|i| record.sides.touching(i).iter().any(|&j| pinned(marks[j]) && status[j] != 0)), "beside a pinned voxel"),
    ])
}

#[derive(Default)]
pub struct Begun {
    /// The start that the record comes from, where nothing but calls and other marks came after it: which call it was, and its marks.
    start: Option<(String, Vec<u8>)>,
    /// The values of the last practice grid.
    practised: Option<Vec<i32>>,
}

impl Begun {
    /// After a line was done.
    pub fn note(&mut self, state: &Slot, command: &str, answer: Option<&str>) {
        let word = command.split_ascii_whitespace().next().unwrap_or("");
        match word {
            "begin" | "begincoarse" if answer.is_some_and(|said| said.starts_with(&format!("{word} ok"))) => {
                self.start = Some((word.to_string(), state.marks.clone()));
            }
            "sides" | "rawsides" | "rec" | "dist" | "status" => self.start = None,
            "practice" if answer.is_some_and(|said| said.starts_with("practice ok")) => self.practised = Some(state.values.clone()),
            _ => {}
        }
    }

    /// What is seen of the start, if the call is done.
    pub fn seen(&self, state: &Slot, command: &str) -> Vec<String> {
        let call = command.split_ascii_whitespace().next().unwrap_or("");
        let practised = self.practised.as_ref() == Some(&state.values);
        let of_values = chosen(&[(practised && ["begin", "write"].contains(&call), format!("{call}: a practice grid"))]);
        let Some((start, marks)) = &self.start else { return of_values };
        let later = ["carve", "take", "open", "finish", "serve", "judge"].contains(&call);
        let mut seen = of_values;
        seen.extend(chosen(&[
            (later && start == "begincoarse", format!("{call}: after a coarse start")),
            (STARTS.contains(&call), format!("{call}: over what {start} left")),
        ]));
        if ["carve", "take", "open", "serve"].contains(&call) && marks.len() == state.marks.len() {
            seen.extend(changed(state, call, marks));
            let hurry = |i: usize| marks[i] != state.marks[i] && state.status[i] != 0;
            seen.extend(chosen(&[(
                start == "begincoarse" && (0..marks.len()).any(hurry),
                format!("{call}: after a coarse start, with other marks"),
            )]));
        }
        seen
    }
}

/// What is seen of marks of 3 that came or went since begin, on voxels that could go.
fn changed(state: &Slot, call: &str, begun: &[u8]) -> Vec<String> {
    let Slot { record, dist, marks, status, .. } = state;
    let may_go: Vec<usize> = (0..marks.len()).filter(|&i| status[i] != 0 && dist[i] >= 0).collect();
    let has = |before: u8, now: u8| may_go.iter().any(|&i| (begun[i], marks[i]) == (before, now));
    let mut seen = Vec::new();
    for (mark, name) in [(UNMARKED, "unmarked"), (PINNED, "pinned"), (HURRIED, "hurried")] {
        seen.extend(chosen(&[
            (has(BOTH, mark), format!("{call}: both at begin, {name} now")),
            (has(mark, BOTH), format!("{call}: {name} at begin, both now")),
        ]));
    }
    let stays = |&i: &usize| begun[i] == BOTH && !pinned(marks[i]) && status[i] == 1 && test_at(record, status, i).passes();
    seen.extend(chosen(&[(may_go.iter().any(stays), format!("{call}: both at begin, free now, not pending although it passes"))]));
    seen
}
