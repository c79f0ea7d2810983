//! Kept voxels, and what the local test says of one of them.

use crate::file::Scan;
use wattlerugby::{local_test, Grid, LocalTest, GONE};

/// The kept voxels of a scan, which change, and its inside, which does not.
pub struct Kept<'a> {
    pub scan: &'a Scan,
    pub kept: Vec<bool>,
    pub inside: Vec<bool>,
}

impl<'a> Kept<'a> {
    /// As a grid that is not finished has them.
    pub fn of(scan: &'a Scan, grid: &Grid) -> Kept<'a> {
        let (kept, inside) = (grid.status().iter().map(|&s| s != GONE), grid.distances().iter().map(|&d| d < 0));
        Kept { scan, kept: kept.collect(), inside: inside.collect() }
    }

    /// The local test of a voxel that is off the grid's edge, as a kept one is.
    pub fn test(&self, index: usize) -> LocalTest {
        let row = self.scan.sides.a;
        let (layer, mut block, mut bit) = (row * self.scan.sides.b, 0, 0);
        for z in [index - layer, index, index + layer] {
            for y in [z - row, z, z + row] {
                for &kept in &self.kept[y - 1..y + 2] {
                    block |= u32::from(kept) << bit;
                    bit += 1;
                }
            }
        }
        local_test(block)
    }

    /// Whether a voxel is kept and not inside.
    pub fn outside(&self, index: usize) -> bool {
        self.kept[index] && !self.inside[index]
    }

    /// Whether it passes the local test besides.
    pub fn passes(&self, index: usize) -> bool {
        self.outside(index) && {
            let test = self.test(index);
            (test.k, test.m) == (1, 1)
        }
    }

    /// Whether a face neighbour of it is not kept.
    pub fn is_bare(&self, index: usize) -> bool {
        self.scan.faces(index).any(|j| !self.kept[j])
    }

    /// The voxels that pass, by index.
    pub fn passing(&self) -> impl Iterator<Item = usize> + '_ {
        (0..self.kept.len()).filter(|&i| self.passes(i))
    }

    /// The kept voxels outside that lie bare, by index: what open could take, were one more opening allowed and nothing pinned.
    pub fn to_open(&self) -> impl Iterator<Item = usize> + '_ {
        (0..self.kept.len()).filter(|&i| self.outside(i) && self.is_bare(i))
    }

    pub fn count(&self) -> usize {
        self.kept.iter().filter(|&&kept| kept).count()
    }
}
