//! Gaps in a grid's walls (document 02, CR 6): its groups of missing voxels joined by faces, and which of them count as measured. Written from the
//! papers, not from the reference.

use crate::records::{negative, MISSING};
use reference::grid::Sides;

/// What a filled gap counts as.
pub const FILLED: i32 = -1;

/// A group of missing voxels joined by faces.
pub struct Gap {
    /// In rising order.
    pub voxels: Vec<usize>,
    pub on_border: bool,
    /// Its other face neighbours: which of the six it is of a voxel of the gap (0 and 1 low and high x, then y, then z), and its index.
    pub beside: Vec<(usize, usize)>,
}

impl Gap {
    /// The face neighbours for which it is left open.
    pub fn openings<'a>(&'a self, values: &'a [i32]) -> impl Iterator<Item = (usize, usize)> + 'a {
        self.beside.iter().copied().filter(|&(_, i)| !negative(values[i]))
    }

    pub fn is_filled(&self, values: &[i32]) -> bool {
        !self.on_border && self.openings(values).next().is_none()
    }
}

/// The groups, in the order of their smallest index: each voxel takes the least index that it is joined to, in turns from both ends, until all have it.
pub fn gaps(sides: &Sides, values: &[i32]) -> Vec<Gap> {
    let missing = |i: usize| values[i] == MISSING;
    let near = |i: usize| sides.face_neighbours(i).into_iter().enumerate().filter_map(|(side, j)| Some((side, j?)));
    let mut least: Vec<usize> = (0..values.len()).collect();
    let mut changed = true;
    while changed {
        changed = false;
        for i in (0..values.len()).chain((0..values.len()).rev()).filter(|&i| missing(i)) {
            let joined = near(i).filter(|&(_, j)| missing(j)).map(|(_, j)| least[j]).min().unwrap_or(i);
            changed |= joined < least[i];
            least[i] = least[i].min(joined);
        }
    }
    let mut gaps: Vec<Gap> = Vec::new();
    let mut place = vec![usize::MAX; values.len()];
    for i in (0..values.len()).filter(|&i| missing(i)) {
        if least[i] == i {
            place[i] = gaps.len();
            gaps.push(Gap { voxels: Vec::new(), on_border: false, beside: Vec::new() });
        }
        let gap = &mut gaps[place[least[i]]];
        gap.voxels.push(i);
        gap.on_border |= sides.border(i);
        gap.beside.extend(near(i).filter(|&(_, j)| !missing(j)));
    }
    gaps
}

/// The values as begin takes them.
pub fn filled(sides: &Sides, values: &[i32]) -> Vec<i32> {
    let mut filled = values.to_vec();
    for gap in gaps(sides, values).iter().filter(|gap| gap.is_filled(values)) {
        gap.voxels.iter().for_each(|&i| filled[i] = FILLED);
    }
    filled
}

#[cfg(test)]
mod tests {
    use super::*;
    use crate::grids::{grid, walled};
    use crate::random::Random;
    use reference::grid::begin;

    fn begun(sides: Sides, values: &[i32]) -> Result<(Vec<i32>, Vec<u8>), u8> {
        let (mut dist, mut status) = (vec![0x5A; sides.n()], vec![0x5A; sides.n()]);
        begin(sides, 3, values, &vec![0; sides.n()], &mut dist, &mut status).map(|_| (dist, status))
    }

    /// What begin leaves is what it leaves of the same grid with its gaps measured; and what it refuses, it refuses for the same number.
    #[test]
    fn begin_takes_a_closed_gap_for_measured() {
        let (mut told, mut same) = (0, 0);
        for seed in 0..4000 {
            let mut r = Random::new(seed);
            let g = if r.chance(80) { walled(&mut r, 9) } else { grid(&mut r, 9) };
            let [a, b, c] = g.sides.map(|side| side as u64);
            let sides = Sides { a, b, c };
            let measured = filled(&sides, &g.values);
            assert_eq!(begun(sides, &g.values), begun(sides, &measured), "seed {seed}");
            assert_eq!(filled(&sides, &measured), measured, "seed {seed}");
            *(if measured == g.values { &mut same } else { &mut told }) += 1;
        }
        assert!(told > 1500 && same > 500, "{told} grids have a closed gap, {same} have none");
    }
}
