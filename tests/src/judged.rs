//! What a list of removals comes to (document 02, CR 11). Written from the papers, not from the reference.

use crate::faces::{of_voxel, place};
use crate::records::{patch_index, OPENING, ORDINARY, REMOVAL_LENGTH};
use reference::grid::Sides;
use reference::local::{local_test, Local};

/// A grid's voxels, each gone or not: a status byte that is not 0 is kept, whatever else it says.
#[derive(Clone)]
pub struct Body<'a> {
    pub sides: Sides,
    pub dist: &'a [i32],
    pub status: Vec<u8>,
}

/// A removal of a list, with what the local test says of its voxel at its turn.
pub struct Removal {
    pub index: usize,
    pub opening: bool,
    pub local: Local,
}

impl Body<'_> {
    /// The kept voxels outside S.
    pub fn outside(&self) -> impl Iterator<Item = usize> + '_ {
        (0..self.status.len().min(self.dist.len())).filter(|&i| self.status[i] != 0 && self.dist[i] >= 0)
    }

    pub fn local(&self, i: usize) -> Local {
        let [x, y, z] = self.sides.coordinates(i);
        let mut block = [false; 27];
        let steps = (-1..=1).flat_map(|dz| (-1..=1).flat_map(move |dy| (-1..=1).map(move |dx| [dx, dy, dz])));
        for [dx, dy, dz] in steps {
            let there = self.sides.index([x + dx, y + dy, z + dz]);
            block[place([dx, dy, dz])] = there.and_then(|j| self.status.get(j)).is_some_and(|&status| status != 0);
        }
        local_test(&block)
    }

    pub fn passes(&self, i: usize) -> bool {
        self.local(i).passes()
    }

    pub fn bare(&self, i: usize) -> bool {
        !of_voxel(&self.sides, &self.status, i).is_empty()
    }

    /// Corners less edges plus faces less cubes, a shared one counted a single time.
    fn euler(&self) -> i64 {
        let mut cells = std::collections::BTreeSet::new();
        for i in (0..self.status.len()).filter(|&i| self.status[i] != 0) {
            let middle = self.sides.coordinates(i).map(|x| 2 * x + 1);
            // an odd coordinate runs along the axis, an even one does not
            let along = |x: i64| [x - 1, x, x + 1];
            for x in along(middle[0]) {
                for y in along(middle[1]) {
                    cells.extend(along(middle[2]).map(|z| [x, y, z]));
                }
            }
        }
        let sign = |cell: &[i64; 3]| 1 - 2 * (cell.iter().filter(|x| *x % 2 != 0).count() as i64 % 2);
        cells.iter().map(sign).sum()
    }
}

/// The whole records of a list that keeps the rules, one by one. A removal leaves the corners, edges and faces that it must for k - m to be what the
/// Euler number of the body rises by.
pub fn removals(body: &mut Body, list: &[u8]) -> Vec<Removal> {
    let mut removed = Vec::new();
    for record in list.chunks_exact(REMOVAL_LENGTH) {
        let Some(index) = patch_index(record).map(|index| index as usize) else { continue };
        removed.push(Removal { index, opening: record[1] == OPENING, local: body.local(index) });
        body.status[index] = 0;
    }
    removed
}

/// The line of a list that keeps the rules: its Euler number is found by counting what the body has, before and after.
pub fn line(body: &Body, list: &[u8]) -> String {
    let mut end = body.clone();
    let removed = removals(&mut end, list);
    let openings = removed.iter().filter(|removal| removal.opening).count();
    format!("judge ok removals {} openings {openings} euler {}", removed.len(), 1 + end.euler() - body.euler())
}

/// Whether two bytes are a removal record's mark.
pub fn is_mark(bytes: &[u8]) -> bool {
    matches!(bytes, [0x56, ORDINARY | OPENING])
}

#[cfg(test)]
mod tests {
    use super::*;
    use crate::grids::{grid, walled, Grid};
    use crate::random::Random;
    use crate::records::removal;
    use reference::grid::{begin, Record};
    use reference::judge::judge;

    /// A list from what begin left, in any order of distances, and the body behind it.
    fn list_of<'a>(r: &mut Random, body: &Body<'a>, allowed: u16) -> (Vec<u8>, Body<'a>) {
        let (mut body, mut list, mut openings) = (body.clone(), Vec::new(), 0);
        loop {
            let passing: Vec<usize> = body.outside().filter(|&i| body.passes(i)).collect();
            let bare: Vec<usize> = body.outside().filter(|&i| body.bare(i)).collect();
            let opens = passing.is_empty();
            if opens && (openings == allowed || bare.is_empty()) {
                return (list, body);
            }
            openings += u16::from(opens);
            let i = r.pick(if opens { &bare } else { &passing });
            list.extend(removal(if opens { OPENING } else { ORDINARY }, i as u32));
            body.status[i] = 0;
        }
    }

    /// Whether any two kept voxels are linked by a chain of them, each touching the next.
    fn in_one_piece(body: &Body) -> bool {
        let mut free: Vec<bool> = body.status.iter().map(|&status| status != 0).collect();
        let mut piece: Vec<usize> = free.iter().position(|&kept| kept).into_iter().collect();
        piece.iter().for_each(|&i| free[i] = false);
        while let Some(i) = piece.pop() {
            piece.extend(body.sides.touching(i).into_iter().filter(|&j| std::mem::take(&mut free[j])));
        }
        !free.contains(&true)
    }

    /// What document 02, CR 11, says of an accepted list where begin left the buffers: the body behind it has the Euler number that is answered, and is in
    /// one piece if the list has no opening. A list that is cut off is refused while a voxel passes.
    #[test]
    fn what_document_02_promises_of_lists() {
        let (mut accepted, mut opened, mut refused) = (0, 0, 0);
        for seed in 0..1500 {
            let mut r = Random::new(seed);
            let Grid { sides: [a, b, c], values, .. } = if seed % 3 == 0 { walled(&mut r, 7) } else { grid(&mut r, 7) };
            let (sides, allowed) = (Sides { a: a as u64, b: b as u64, c: c as u64 }, r.pick(&[0, 1, 3, 9]));
            let (mut dist, mut status, marks) = (vec![0; sides.n()], vec![0; sides.n()], vec![0; sides.n()]);
            let Ok(begun) = begin(sides, allowed, &values, &marks, &mut dist, &mut status) else { continue };
            let body = Body { sides, dist: &dist, status: status.clone() };
            let (list, end) = list_of(&mut r, &body, allowed);
            let record = Record { examinations: r.below(9), ..begun };
            let judged = judge(&record, &dist, &mut status, &list).unwrap_or_else(|number| panic!("seed {seed}: {number}"));
            let said = format!("judge ok removals {} openings {} euler {}", judged.removals, judged.openings, judged.euler);
            assert_eq!(said, line(&body, &list), "seed {seed}");
            assert_eq!(judged.euler, end.euler(), "seed {seed}");
            assert!(judged.openings > 0 || in_one_piece(&end) && judged.euler == 1, "seed {seed}");
            accepted += 1;
            opened += judged.openings;
            let cut = &list[..list.len() / REMOVAL_LENGTH / 2 * REMOVAL_LENGTH];
            let mut half = body.clone();
            removals(&mut half, cut);
            let passes = half.outside().any(|i| half.passes(i));
            assert_eq!(judge(&record, &dist, &mut status, cut).err(), passes.then_some(33), "seed {seed}");
            assert_eq!(status, body.status, "seed {seed}");
            refused += u32::from(passes);
        }
        assert!(accepted > 500 && opened > 100 && refused > 200, "{accepted} {opened} {refused}");
    }
}
