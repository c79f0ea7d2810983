//! Coarse starts (document 02, CR 10): the entries of `ALSO` that such a call meets by its grid, its marks and what comes of them.

use super::sights::{chosen, groups};
use crate::coarse::{block_pinned, eight, halved, in_box};
use crate::gaps::filled;
use crate::marks::{hurried, pinned, BOTH};
use crate::records::negative;
use reference::coarse::{begin_coarse, Lent};
use reference::grid::{begin, Record, Sides};
use reference::machine::{carve, open};
use reference::replay::Slot;

/// A grid of at most so many voxels is carved to its end from either start.
const SMALL: usize = 1000;

/// What is seen before a coarse start; what it leaves is seen by making the call.
pub fn of(state: &Slot) -> Vec<String> {
    let sides = state.sides;
    if !sides.fit() || [state.values.len(), state.marks.len(), state.dist.len(), state.status.len()] != [sides.n(); 4] {
        return Vec::new();
    }
    let mut seen = refused(state, &sides);
    let (mut dist, mut status) = (state.dist.clone(), state.status.clone());
    let (mut block_dist, mut block_status) = (state.cdist.clone(), state.cstatus.clone());
    let voxels = Lent { dist: &mut dist, status: &mut status };
    let blocks = Lent { dist: &mut block_dist, status: &mut block_status };
    let Ok(begun) = begin_coarse(sides, state.t, &state.values, &state.marks, voxels, blocks) else { return seen };
    let start = Start { sides, marks: &state.marks, dist, status, block_dist, block_status };
    seen.extend(start.run(begun.examined));
    seen.extend(start.pins());
    seen.extend(start.body());
    seen.extend(start.groups(&state.values));
    seen.extend(start.end(state, begun.next));
    seen.iter().map(|entry| if entry.starts_with("if ") { entry.clone() } else { format!("begincoarse: {entry}") }).collect()
}

/// What stands beside a refusal.
fn refused(state: &Slot, sides: &Sides) -> Vec<String> {
    let all = [sides.a, sides.b, sides.c];
    let (right, odd) = ([state.cdist.len(), state.cstatus.len()] == [sides.n() / 8; 2], all.iter().any(|side| !side.is_multiple_of(2)));
    let up = sides.n().div_ceil(8);
    let near = |i: usize| sides.coordinates(i).iter().zip(all).any(|(&x, side)| x < 2 || x + 3 > side as i64);
    let all_groups = if right { groups(sides, &filled(sides, &state.values)) } else { Vec::new() };
    let largest = all_groups.iter().map(Vec::len).max();
    let of_s = all_groups.iter().find(|group| Some(group.len()) == largest);
    let of_s = of_s.is_some_and(|group| group.iter().any(|&i| near(i)));
    let entries = [
        (odd && up > sides.n() / 8 && state.cdist.len() == up, "2: cdist of n / 8 rounded up"),
        (odd && up > sides.n() / 8 && state.cstatus.len() == up, "2: cstatus of n / 8 rounded up"),
        (odd && !right, "2: for an odd side"),
        (odd && !sides.n().is_multiple_of(8) && right, "31: further buffers of n / 8 rounded down"),
        (all.contains(&4) && !odd, "31: a side of 4"),
        (!odd && all.iter().all(|&side| side >= 6) && right && !of_s, "31: for a voxel outside S alone"),
        (all == [64; 3], "31: on 64 64 64"),
    ];
    let told =
        |entry: &String| entry.split_once(": ").map(|(number, rest)| format!("if refused {number}: begincoarse refused: {number}, {rest}"));
    chosen(&entries).iter().filter_map(told).collect()
}

struct Start<'a> {
    sides: Sides,
    marks: &'a [u8],
    dist: Vec<i32>,
    status: Vec<u8>,
    block_dist: Vec<i32>,
    block_status: Vec<u8>,
}

impl Start<'_> {
    fn blocks(&self) -> impl Iterator<Item = usize> {
        0..self.block_dist.len()
    }

    fn inside(&self, block: usize) -> bool {
        self.block_dist[block] < 0
    }

    fn box_of_blocks(&self) -> Vec<bool> {
        in_box(&halved(&self.sides), &self.blocks().filter(|&j| self.inside(j)).collect::<Vec<_>>())
    }

    /// The blocks of the box that are outside.
    fn outside(&self) -> Vec<usize> {
        let boxed = self.box_of_blocks();
        self.blocks().filter(|&j| boxed[j] && !self.inside(j)).collect()
    }

    fn run(&self, examined: u64) -> Vec<String> {
        let all = self.outside();
        let gone = all.iter().filter(|&&j| self.block_status[j] == 0).count();
        let stays = |j: &usize| self.block_status[*j] != 0 && !block_pinned(&self.sides, self.marks, *j);
        let mut seen = chosen(&[
            (examined == 0, "no block examined"),
            (examined == 0 && !all.is_empty(), "no block examined, though some are outside"),
            (examined > 0, "blocks examined"),
            (gone > 0, "a block gone"),
            (gone > 10, "more than ten blocks gone"),
            (examined > gone as u64, "a block examined that did not go then"),
            (all.iter().any(stays), "a block stays that is free"),
        ]);
        let least = |j: usize| {
            let all = eight(&self.sides, j).map(|i| self.dist[i]);
            (0..8).filter(|&o| all[o] == self.block_dist[j]).collect::<Vec<_>>()
        };
        for (where_to, among) in [("inside", self.blocks().filter(|&j| self.inside(j)).collect::<Vec<_>>()), ("outside", all)] {
            let alone = |o: usize| among.iter().any(|&j| least(j) == [o]);
            seen.extend((0..8).filter(|&o| alone(o)).map(|o| format!("a block {where_to}, the least at voxel {o} of its eight alone")));
        }
        seen
    }

    fn pins(&self) -> Vec<String> {
        let (sides, marks, all) = (&self.sides, self.marks, self.outside());
        let s: Vec<usize> = (0..sides.n()).filter(|&i| self.dist[i] < 0).collect();
        let (of_voxels, of_blocks) = (in_box(sides, &s), self.box_of_blocks());
        let pins = |j: usize| (0..8).filter(|&o| pinned(marks[eight(sides, j)[o]])).collect::<Vec<_>>();
        let any = |wanted: &dyn Fn(usize) -> bool| all.iter().any(|&j| wanted(j));
        let voxels = |j: usize, wanted: &dyn Fn(usize) -> bool| eight(sides, j).into_iter().filter(|&i| pinned(marks[i])).all(wanted);
        let mut seen: Vec<String> =
            (0..8).filter(|&o| any(&|j| pins(j) == [o])).map(|o| format!("a block pinned by voxel {o} of its eight alone")).collect();
        let beyond =
            |i: usize| pinned(marks[i]) && !sides.border(i) && self.blocks().any(|j| !of_blocks[j] && eight(sides, j).contains(&i));
        let waits = |j: usize| eight(sides, j).iter().any(|&i| hurried(marks[i])) && pins(j).is_empty();
        seen.extend(chosen(&[
            (any(&|j| pins(j).len() == 8), "a block pinned by all eight"),
            (any(&|j| !pins(j).is_empty() && voxels(j, &|i| !of_voxels[i])), "a block pinned from outside the box of voxels alone"),
            (any(&|j| !pins(j).is_empty() && voxels(j, &|i| marks[i] == BOTH)), "a block pinned by marks of 3 alone"),
            (any(&waits), "a block with a hurry, which waits"),
            (any(&waits) && all.iter().any(|&j| !waits(j)), "a block with a hurry beside others"),
            (sides.n() <= SMALL && (0..sides.n()).any(beyond), "a pin beyond the box of blocks"),
            (self.blocks().any(|j| self.inside(j) && !pins(j).is_empty()), "a pin in a block of the inside"),
            (
                self.blocks().any(|j| self.inside(j) && voxels(j, &|i| self.dist[i] >= 0) && !pins(j).is_empty()),
                "a pin beside S in its block",
            ),
            (
                self.blocks().any(|j| self.inside(j) && eight(sides, j).iter().any(|&i| pinned(marks[i]) && !of_voxels[i])),
                "a pin outside the box of voxels, in a block of the inside",
            ),
        ]));
        seen
    }

    fn body(&self) -> Vec<String> {
        let bare = |i: usize| self.sides.face_neighbours(i).into_iter().any(|j| j.is_none_or(|j| self.status[j] == 0));
        let any = |wanted: &dyn Fn(usize) -> bool| (0..self.dist.len()).any(|i| self.status[i] != 0 && self.dist[i] >= 0 && wanted(i));
        let s: Vec<usize> = (0..self.dist.len()).filter(|&i| self.dist[i] < 0).collect();
        let boxed = in_box(&self.sides, &s);
        chosen(&[
            (any(&|i| self.status[i] == 3 && !bare(i)), "pending by a hurry alone"),
            (any(&|i| hurried(self.marks[i]) && bare(i)), "a hurried voxel at the surface"),
            (any(&|i| pinned(self.marks[i]) && bare(i)), "a pinned voxel at the surface"),
            (any(&|i| self.marks[i] == BOTH && !bare(i)), "a voxel of mark 3 deep inside"),
            (any(&|i| self.status[i] == 1 && !bare(i)), "a voxel deep inside that is not pending"),
            (any(&|i| !boxed[i]), "a voxel kept beyond the box of voxels"),
            ((0..boxed.len()).any(|i| boxed[i] && self.status[i] == 0), "a voxel of the box gone with its block"),
            (self.sides == Sides { a: 64, b: 64, c: 64 }, "on 64 64 64"),
        ])
    }

    fn groups(&self, values: &[i32]) -> Vec<String> {
        let other = |i: usize| negative(values[i]) && self.dist[i] >= 0;
        let gaps = filled(&self.sides, values);
        let fills: Vec<usize> = (0..values.len()).filter(|&i| gaps[i] != values[i]).collect();
        let of_fills = self.blocks().filter(|&j| eight(&self.sides, j).iter().any(|i| fills.contains(i))).count();
        chosen(&[
            ((0..values.len()).any(other), "a discarded group"),
            (self.outside().into_iter().any(|j| eight(&self.sides, j).into_iter().any(other)), "a discarded group in the box of blocks"),
            (!fills.is_empty(), "a gap filled"),
            (of_fills > 1 && fills.len() < 100, "gaps filled in two blocks"),
        ])
    }

    /// Bodies at the end, carved and opened in turn until open refuses.
    fn end(&self, state: &Slot, next: Record) -> Vec<String> {
        if self.sides.n() > SMALL {
            return Vec::new();
        }
        let ended = |mut r: Record, dist: &[i32], mut status: Vec<u8>| loop {
            let _ = carve(&mut r, dist, self.marks, &mut status, u64::MAX);
            if let Err(number) = open(&mut r, dist, self.marks, &mut status) {
                return (number, status);
            }
        };
        let (mut dist, mut status) = (self.dist.clone(), self.status.clone());
        let Ok(plain) = begin(self.sides, state.t, &state.values, self.marks, &mut dist, &mut status) else { return Vec::new() };
        let (one, other) = (ended(plain, &dist, status), ended(next, &self.dist, self.status.clone()));
        let free = !self.marks.iter().any(|&mark| pinned(mark));
        let same = one.1 == other.1;
        chosen(&[
            (free && !same && other.0 == 14, "no pins, another body at the end than from begin, where openings ended"),
            (free && same && other.0 == 15 && one.0 == 15, "no pins, the same body at the end as from begin, where all was opened"),
            (!free && !same && other.0 == 15 && one.0 == 15, "pins, another body at the end than from begin, where all was opened"),
        ])
    }
}
