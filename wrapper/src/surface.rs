//! All points of a finished body's surface.

use crate::{points, Grid, Point, Refusal};

/// Points that one call writes: enough that its check of the whole grid is a small part of its time.
const CHUNK: usize = 4096;

/// The points of a finished grid in rising order of position, from [`Grid::points`].
#[derive(Clone, Debug)]
pub struct Points<'a> {
    grid: &'a Grid,
    buffer: Vec<f64>,
    /// The next double to give, and where those of the last call end.
    at: usize,
    end: usize,
    /// The position to go on from.
    next: usize,
}

impl<'a> Points<'a> {
    pub(crate) fn of(grid: &'a Grid) -> Result<Self, Refusal> {
        let mut all = Points { grid, buffer: vec![0.0; 3 * CHUNK], at: 0, end: 0, next: 0 };
        all.fill()?;
        Ok(all)
    }

    fn fill(&mut self) -> Result<(), Refusal> {
        let grid = self.grid;
        let filled = points(grid.record(), grid.distances(), grid.status(), self.next, &mut self.buffer)?;
        (self.at, self.end, self.next) = (0, 3 * filled.count, filled.next);
        Ok(())
    }
}

impl Iterator for Points<'_> {
    type Item = Point;

    fn next(&mut self) -> Option<Point> {
        // what a call leaves over is refused no more than it was: nobody changes the grid meanwhile
        while self.at == self.end && self.next < 3 * self.grid.status().len() {
            self.fill().ok()?;
        }
        let [x, y, z] = *self.buffer[self.at..self.end].first_chunk()?;
        self.at += 3;
        Some(Point { x, y, z })
    }
}

impl std::iter::FusedIterator for Points<'_> {}
