//! Every removal of a body, in its order: for `wattle removals`, as a list that another firm can judge, and for the page, where each voxel slides
//! away.
//!
//! Carve with limit 1 tells the order too, but each of its calls checks the whole grid. So the order is made here, by the library's local test, and
//! after each carve of the library's own the voxels that are gone must be the same.

use crate::args::Args;
use crate::body::Body;
use crate::file::{refusal, Scan};
use crate::kept::Kept;
use crate::start::Start;
use crate::{Answer, Failure};
use std::cmp::Reverse;
use std::collections::BinaryHeap;
use wattlerugby::{Entry, Face, Grid, GONE, HURRIED, NO_LIMIT, PENDING, PINNED};

pub struct Removal {
    pub index: usize,
    /// The side that the voxel came out by.
    pub face: Face,
    pub opens: bool,
}

impl Removal {
    fn entry(&self) -> Entry {
        match self.opens {
            true => Entry::Opening(self.index as u32),
            false => Entry::Ordinary(self.index as u32),
        }
    }
}

/// `wattle removals`: the list.
pub fn list(args: &Args) -> Result<Answer, Failure> {
    let scan = Scan::open(&args.files[0])?.allowing(args)?;
    let body = Body::carve(&scan, Start::of(args, &scan)?).map_err(|refused| refusal(&scan.name, refused))?;
    body.note();
    let list: Vec<u8> = removals(&body).iter().flat_map(|removal| removal.entry().bytes()).collect();
    if let Err(refused) = begun(&body).judge(&list) {
        eprintln!("wattle: note: judge knows no pins: of this list it says {refused}.");
    }
    Ok(Answer::file(list))
}

/// The grid that a body was carved from, begun again.
fn begun(body: &Body) -> Grid {
    body.start.begin(body.scan, body.grid.record().allowed).expect("begin takes the same values again").0
}

pub fn removals(body: &Body) -> Vec<Removal> {
    let mut grid = begun(body);
    let mut order = Order::of(body.scan, &grid);
    loop {
        order.carve();
        grid.carve(NO_LIMIT).expect("a begun grid is carved");
        let same = order.kept.kept.iter().zip(grid.status()).all(|(&kept, &status)| kept == (status != GONE));
        assert!(same, "the library's carve removes the same voxels");
        let Ok(opened) = grid.open() else { return order.made };
        order.remove(Removal { index: opened.index, face: opened.face, opens: true });
    }
}

/// Pending voxels in the order in which carve examines them, and what was removed so far.
struct Order<'a> {
    kept: Kept<'a>,
    /// As it has begun: for distances and marks, which no carve changes.
    begun: Grid,
    waits: Vec<bool>,
    pending: BinaryHeap<Turn>,
    made: Vec<Removal>,
}

/// A pending voxel: hurried ones first, of either the greatest distance, of equals the smallest index.
type Turn = (bool, i32, Reverse<usize>);

impl<'a> Order<'a> {
    /// Of a grid that has just begun.
    fn of(scan: &'a Scan, begun: &Grid) -> Order<'a> {
        let (kept, waits) = (Kept::of(scan, begun), vec![false; scan.values.len()]);
        let mut order = Order { kept, begun: begun.clone(), waits, pending: BinaryHeap::new(), made: Vec::new() };
        (0..scan.values.len()).filter(|&i| begun.status()[i] == PENDING).for_each(|i| order.wait(i));
        order
    }

    fn is_pinned(&self, index: usize) -> bool {
        self.begun.marks()[index] & PINNED != 0
    }

    fn wait(&mut self, index: usize) {
        if !std::mem::replace(&mut self.waits[index], true) {
            // of a voxel that is both the pin alone counts, and it does not wait
            let hurried = self.begun.marks()[index] & HURRIED != 0;
            self.pending.push((hurried, self.begun.distances()[index], Reverse(index)));
        }
    }

    /// Examines until nothing is pending.
    fn carve(&mut self) {
        while let Some((_, _, Reverse(index))) = self.pending.pop() {
            self.waits[index] = false;
            let test = self.kept.test(index);
            if (test.k, test.m) == (1, 1) {
                let face = test.face.expect("what passes has a bare face");
                self.remove(Removal { index, face, opens: false });
            }
        }
    }

    /// A voxel goes, and the kept ones around it that are neither inside nor pinned become pending.
    fn remove(&mut self, removal: Removal) {
        self.kept.kept[removal.index] = false;
        let scan = self.kept.scan;
        for j in scan.touching(removal.index) {
            if self.kept.outside(j) && !self.is_pinned(j) {
                self.wait(j);
            }
        }
        self.made.push(removal);
    }
}
