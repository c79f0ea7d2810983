//! How much of a body there is, in voxels and in cubic units: of what it is made up, and how much of it nobody measured.

use crate::body::{Body, Kind};
use crate::frame::Frame;
use crate::words::some;
use wattlerugby::{GONE, MISSING};

pub struct Amounts {
    pub kept: usize,
    pub inside: usize,
    /// Of the inside, the missing range points.
    pub gaps: usize,
    pub filled: usize,
    /// Of the filled, the missing range points.
    pub filled_missing: usize,
    pub pinned: usize,
    /// Of all that is kept, the missing range points.
    pub unmeasured: usize,
}

impl Amounts {
    pub fn of(body: &Body) -> Amounts {
        let (gaps, filled_missing) = (body.count(Kind::Gap), body.count(Kind::FilledMissing));
        let kept = |i: usize| body.grid.status()[i] != GONE;
        Amounts {
            kept: body.all(kept).count(),
            inside: body.count(Kind::Inside) + gaps,
            gaps,
            filled: body.count(Kind::Filled) + filled_missing,
            filled_missing,
            pinned: body.count(Kind::Pinned),
            unmeasured: body.all(|i| kept(i) && body.scan.values[i] == MISSING).count(),
        }
    }

    pub fn told(&self, frame: &Frame) -> String {
        let volume = |voxels: usize| some(voxels, "voxel") + &frame.cubic(voxels).map_or(String::new(), |c| format!(" ({c} cubic units)"));
        let pinned = if self.pinned > 0 { format!(", {} pinned", self.pinned) } else { String::new() };
        let measured = match self.unmeasured {
            0 => "Every voxel of it was measured".to_string(),
            voxels => format!("Nobody measured {} of it, {:.1} %", volume(voxels), 100.0 * voxels as f64 / self.kept as f64),
        };
        format!(
            "The volume is {}: {} inside, of these {} in gaps; {} filled, of these {} over missing points{pinned}. {measured}.",
            volume(self.kept),
            self.inside,
            self.gaps,
            self.filled,
            self.filled_missing
        )
    }
}
