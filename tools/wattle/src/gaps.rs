//! The gaps of a scan: groups of missing range points joined by faces, and what each counts as.

use crate::body::{Body, Kind};
use crate::file::Scan;
use crate::groups::{ends, groups};
use wattlerugby::{GONE, MISSING};

/// So many gaps, with so many missing range points in them.
#[derive(Clone, Copy, Default)]
pub struct Tally {
    pub gaps: usize,
    pub points: usize,
}

/// The gaps that count as inside, which the library says; and of the others, why they do not, which is looked for here.
#[derive(Default)]
pub struct Gaps {
    pub inside: Tally,
    pub on_edge: Tally,
    pub beside_outside: Tally,
    /// The first voxel measured outside beside one of the latter.
    pub first_beside: Option<usize>,
    /// Only negative voxels lie beside it, and these were discarded.
    pub discarded: Tally,
}

impl Gaps {
    pub fn of(body: &Body) -> Gaps {
        let (scan, mut found) = (body.scan, Gaps::default());
        let missing = (0..scan.values.len()).filter(|&i| scan.values[i] == MISSING);
        for gap in groups(scan, missing, Scan::faces) {
            let outside = gap.iter().flat_map(|&i| scan.faces(i)).filter(|&j| scan.values[j] >= 0).min();
            let tally = match outside {
                _ if body.kinds[gap[0]] == Kind::Gap => &mut found.inside,
                _ if gap.iter().any(|&i| scan.on_border(i)) => &mut found.on_edge,
                Some(beside) => {
                    found.first_beside.get_or_insert(beside);
                    &mut found.beside_outside
                }
                None => &mut found.discarded,
            };
            tally.gaps += 1;
            tally.points += gap.len();
        }
        found
    }
}

/// Gaps within the box around the inside, beside it, and carved away: what the surface is there nobody measured. Farther out a missing point
/// says nothing about the body.
pub fn dents(body: &Body) -> Vec<Vec<usize>> {
    let scan = body.scan;
    let inside = |i: usize| matches!(body.kinds[i], Kind::Inside | Kind::Gap);
    let ends = ends(scan, &body.all(inside).collect::<Vec<usize>>());
    let boxed = |i: usize| scan.place(i).iter().zip(ends).all(|(p, (low, high))| (low..=high).contains(p));
    let carved = body.all(|i| scan.values[i] == MISSING && body.grid.status()[i] == GONE && boxed(i));
    let mut found = groups(scan, carved, Scan::faces);
    found.retain(|gap| gap.iter().any(|&i| scan.faces(i).any(inside)));
    found
}
