//! How a grid is begun: with which marks, and plainly or coarse (`--coarse`).

use crate::args::Args;
use crate::file::Scan;
use crate::marks::marks;
use crate::Failure;
use wattlerugby::{Grid, Refusal, UNMARKED};

#[derive(Clone, Debug)]
pub struct Start {
    /// A mark for each voxel.
    pub marks: Vec<u8>,
    pub coarse: bool,
}

impl Start {
    /// As the options say.
    pub fn of(args: &Args, scan: &Scan) -> Result<Start, Failure> {
        Ok(Start { marks: marks(args, scan)?, coarse: args.has("--coarse") })
    }

    /// As the program starts, which marks no voxel.
    pub fn plain(scan: &Scan) -> Start {
        Start { marks: vec![UNMARKED; scan.values.len()], coarse: false }
    }

    /// The grid, and the examinations of a coarse run.
    pub fn begin(&self, scan: &Scan, allowed: u16) -> Result<(Grid, Option<u32>), Refusal> {
        if self.coarse {
            let (grid, blocks) = Grid::begin_coarse_marked(scan.sides, allowed, &scan.values, &self.marks)?;
            return Ok((grid, Some(blocks.examined)));
        }
        Ok((Grid::begin_marked(scan.sides, allowed, &scan.values, &self.marks)?, None))
    }
}
