//! What carving leaves of a scan, and what each voxel has become.

use crate::file::{is_negative, Scan};
use crate::groups::groups;
use crate::marks::{idle, told};
use crate::progress::Progress;
use crate::start::Start;
use crate::words::{are, some};
use wattlerugby::{Grid, Opened, Refusal, GONE, MISSING, PINNED};

/// Examinations between two looks at the clock. Each call of carve checks the whole grid, so fewer would cost more.
const SLICE: u32 = 200_000;

/// What a voxel is in pictures. The first eight are of a carved grid, in the order of their numbers in `volume`; the others of one that is
/// refused for its values.
#[derive(Clone, Copy, Debug, PartialEq, Eq)]
#[repr(u8)]
pub enum Kind {
    Gone,
    Inside,
    Filled,
    FilledMissing,
    Opened,
    /// A missing range point that begin counts as inside.
    Gap,
    /// Kept and not inside, by a pin or with one.
    Pinned,
    /// Gone, and measured negative: discarded, since it is apart from the largest group.
    Discarded,
    Outside,
    Negative,
    Missing,
    NegativeOnBorder,
}

impl Kind {
    /// Every kind, by its number.
    pub const ALL: [Kind; 12] = [
        Kind::Gone,
        Kind::Inside,
        Kind::Filled,
        Kind::FilledMissing,
        Kind::Opened,
        Kind::Gap,
        Kind::Pinned,
        Kind::Discarded,
        Kind::Outside,
        Kind::Negative,
        Kind::Missing,
        Kind::NegativeOnBorder,
    ];
    /// The kinds of a carved grid, of one with pins and of a refused one, in the order of the key.
    pub const CARVED: [Kind; 7] = [Kind::Inside, Kind::Gap, Kind::Filled, Kind::FilledMissing, Kind::Opened, Kind::Discarded, Kind::Gone];
    pub const WITH_PINS: [Kind; 8] =
        [Kind::Inside, Kind::Gap, Kind::Pinned, Kind::Filled, Kind::FilledMissing, Kind::Opened, Kind::Discarded, Kind::Gone];
    pub const REFUSED: [Kind; 4] = [Kind::Negative, Kind::NegativeOnBorder, Kind::Missing, Kind::Outside];

    pub fn mark(self) -> char {
        match self {
            Kind::Gone | Kind::Outside => '.',
            Kind::Inside | Kind::Negative => '#',
            Kind::Gap => '=',
            Kind::Pinned => '*',
            Kind::Filled => 'o',
            Kind::FilledMissing | Kind::Missing => '?',
            Kind::Opened => '+',
            Kind::Discarded => '-',
            Kind::NegativeOnBorder => '!',
        }
    }

    pub fn name(self) -> &'static str {
        match self {
            Kind::Gone => "gone",
            Kind::Inside => "inside",
            Kind::Gap => "gap counted as inside",
            Kind::Pinned => "pinned",
            Kind::Filled => "filled",
            Kind::FilledMissing => "filled, and the range point is missing",
            Kind::Opened => "opened",
            Kind::Discarded => "discarded: gone, though measured negative",
            Kind::Outside => "measured outside",
            Kind::Negative => "measured negative",
            Kind::Missing => "missing",
            Kind::NegativeOnBorder => "negative on the grid's edge",
        }
    }

    /// Red, green, blue: colours that remain apart for the colour-blind (Okabe and Ito, 2008), on a light grey.
    pub fn colour(self) -> [u8; 3] {
        match self {
            Kind::Gone | Kind::Outside => [0xE8, 0xEA, 0xED],
            Kind::Inside | Kind::Negative => [0x00, 0x72, 0xB2],
            Kind::Gap => [0x56, 0xB4, 0xE9],
            Kind::Pinned => [0x00, 0x00, 0x00],
            Kind::Filled => [0xE6, 0x9F, 0x00],
            Kind::FilledMissing | Kind::Missing => [0xCC, 0x79, 0xA7],
            Kind::Opened => [0x00, 0x9E, 0x73],
            Kind::Discarded => [0xF0, 0xE4, 0x42],
            Kind::NegativeOnBorder => [0xD5, 0x5E, 0x00],
        }
    }
}

/// A carved and finished grid.
#[derive(Debug)]
pub struct Body<'a> {
    pub scan: &'a Scan,
    pub start: Start,
    /// Blocks that a coarse run examined, where the start is coarse.
    pub coarse: Option<u32>,
    pub grid: Grid,
    pub kinds: Vec<Kind>,
    pub openings: Vec<Opened>,
    /// On marks that do nothing.
    pub notes: Vec<String>,
}

impl<'a> Body<'a> {
    /// Carves to the end from a start.
    pub fn carve(scan: &'a Scan, start: Start) -> Result<Body<'a>, Refusal> {
        Body::carve_allowing(scan, scan.allowed, start)
    }

    /// What carving leaves from the same start with as many openings as can be allowed. Nothing where that is this body: without a voxel left
    /// to open, further openings change nothing.
    pub fn freely(&self) -> Option<Body<'a>> {
        let free = || Body::carve_allowing(self.scan, u16::MAX, self.start.clone()).expect("begin takes the same values again");
        (self.to_open() > 0).then(free)
    }

    /// What carving leaves with the same marks and openings from a plain start, where this one is coarse.
    pub fn begun_plainly(&self) -> Option<Body<'a>> {
        let plain = Start { coarse: false, ..self.start.clone() };
        self.coarse.map(|_| Body::carve(self.scan, plain).expect("begin takes what a coarse start takes"))
    }

    fn carve_allowing(scan: &'a Scan, allowed: u16, start: Start) -> Result<Body<'a>, Refusal> {
        let (mut grid, coarse) = start.begin(scan, allowed)?;
        let notes = idle(scan, &start, &grid);
        // finish makes all that is kept negative, so the inside is told now
        let inside: Vec<bool> = grid.distances().iter().map(|&d| d < 0).collect();
        let mut openings: Vec<Opened> = Vec::new();
        let mut progress = Progress::new();
        loop {
            while grid.carve(SLICE)?.pending {
                progress.show(|| format!("carving: examined {}", grid.record().examinations));
            }
            let Ok(opened) = grid.open() else { break };
            openings.push(opened);
            progress.show(|| format!("carving: opened {} of {} allowed", openings.len(), allowed));
        }
        grid.finish()?;
        let kinds = kinds(scan, &grid, &inside, &openings);
        Ok(Body { scan, start, coarse, grid, kinds, openings, notes })
    }

    pub fn count(&self, kind: Kind) -> usize {
        self.kinds.iter().filter(|&&k| k == kind).count()
    }

    /// What a command that says no more of the body is to note: which marks do nothing, and that a coarse start's body is its own.
    pub fn all_notes(&self) -> Vec<String> {
        self.notes.iter().cloned().chain(self.of_its_own()).collect()
    }

    /// Says these on the standard error.
    pub fn note(&self) {
        self.all_notes().iter().for_each(|note| eprintln!("wattle: note: {note}"));
    }

    /// That a plain start may leave another body. With nothing pinned or left to open both leave the same, given openings enough, which is proved
    /// (docs/RESULT.md).
    fn of_its_own(&self) -> Option<String> {
        let why = match (self.to_open(), self.count(Kind::Pinned)) {
            (0, 0) => None,
            (0, pinned) => Some(are(pinned, "voxel") + " pinned"),
            (left, _) => Some(some(left, "voxel") + " could still be opened"),
        };
        let told =
            |why: String| format!("{why}, so a plain start may leave another body than this coarse one: `wattle explain --coarse` says.");
        why.filter(|_| self.coarse.is_some()).map(told)
    }

    /// How it was begun, where that is not as the program does.
    pub fn begun(&self) -> String {
        told(&self.start.marks) + if self.start.coarse { ", begun coarse" } else { "" }
    }

    /// How many voxels open could take, were one more opening allowed: kept, neither inside nor pinned, and beside one that is gone. It
    /// answers 15 exactly where there is none (docs/RESULT.md).
    pub fn to_open(&self) -> usize {
        let gone = |i: usize| self.grid.status()[i] == GONE;
        let bare = |&i: &usize| matches!(self.kinds[i], Kind::Filled | Kind::FilledMissing) && self.scan.faces(i).any(gone);
        (0..self.kinds.len()).filter(bare).count()
    }

    /// How many pieces the body has: groups of kept voxels that touch. It is in one without an opening, and where nothing is pinned or left
    /// to open, which is proved (docs/RESULT.md); otherwise they are counted.
    fn pieces(&self) -> usize {
        if self.openings.is_empty() || (self.count(Kind::Pinned) == 0 && self.to_open() == 0) {
            return 1;
        }
        groups(self.scan, self.all(|i| self.grid.status()[i] != GONE), Scan::touching).len()
    }

    /// How many pieces and how many tunnels the body has. It has no hollow, so the Euler number is pieces less tunnels.
    pub fn shape(&self) -> (usize, usize) {
        let pieces = self.pieces();
        (pieces, usize::try_from(pieces as i64 - i64::from(self.grid.record().euler)).unwrap_or(0))
    }

    /// Where the first tunnel was opened, if the body has one. A removal makes one only where it joins two bare sides or more.
    pub fn first_tunnel(&self) -> Option<usize> {
        self.openings.iter().find(|o| o.m > 1).map(|o| o.index).filter(|_| self.shape().1 > 0)
    }

    /// The voxels that something holds of, by index.
    pub fn all(&self, of: impl Fn(usize) -> bool) -> impl Iterator<Item = usize> {
        (0..self.kinds.len()).filter(move |&i| of(i))
    }

    /// The line that the program prints; after a coarse start with the blocks examined behind it.
    pub fn line(&self) -> String {
        let kept = self.grid.status().iter().filter(|&&s| s != GONE).count();
        let r = self.grid.record();
        let coarse = self.coarse.map_or(String::new(), |examined| format!(" coarse {examined}"));
        format!("kept {kept} removed {} opened {} examined {} euler {}{coarse}", r.removals, r.openings, r.examinations, r.euler)
    }

    /// Voxels that are measured negative and not of the inside.
    pub fn discarded(&self) -> impl Iterator<Item = usize> + '_ {
        self.all(|i| is_negative(self.scan.values[i]) && self.kinds[i] != Kind::Inside)
    }

    /// Openings where the range point is missing.
    pub fn openings_over_missing(&self) -> usize {
        self.openings.iter().filter(|o| self.scan.values[o.index] == MISSING).count()
    }
}

fn kinds(scan: &Scan, grid: &Grid, inside: &[bool], openings: &[Opened]) -> Vec<Kind> {
    let kind = |i: usize| match (grid.status()[i], inside[i], scan.values[i]) {
        (GONE, _, value) if is_negative(value) => Kind::Discarded,
        (GONE, ..) => Kind::Gone,
        (_, true, MISSING) => Kind::Gap,
        (_, true, _) => Kind::Inside,
        _ if grid.marks()[i] & PINNED != 0 => Kind::Pinned,
        (_, false, MISSING) => Kind::FilledMissing,
        _ => Kind::Filled,
    };
    let mut kinds: Vec<Kind> = (0..inside.len()).map(kind).collect();
    for opened in openings {
        kinds[opened.index] = Kind::Opened;
    }
    kinds
}

/// The values of a grid that begin refuses.
pub fn kinds_of_values(scan: &Scan) -> Vec<Kind> {
    let kind = |(i, &value): (usize, &i32)| match value {
        MISSING => Kind::Missing,
        v if v >= 0 => Kind::Outside,
        _ if scan.on_border(i) => Kind::NegativeOnBorder,
        _ => Kind::Negative,
    };
    scan.values.iter().enumerate().map(kind).collect()
}
