//! The faces of a voxel: which side a removed one came out by.

/// A face of a voxel, by which it slides away when it is removed: the lowest numbered one that is bare, so that nothing is in its way there.
///
/// [`crate::take`] and [`crate::open`] answer it for the voxel that they remove, [`crate::carve`] for its last one. The voxel across it was not
/// kept just before the removal, and those across every lower numbered face were. To draw each removal, carve one examination at a time:
///
/// ```
/// use wattlerugby::{Face, Grid, Refusal, Sides, GONE};
///
/// // two voxels that touch in an edge: 22 and 25 fill the box around them
/// let mut values = [6; 48];
/// (values[21], values[26]) = (-6, -6);
/// let mut grid = Grid::begin(Sides { a: 4, b: 4, c: 3 }, 0, &values)?;
///
/// let first = grid.carve(1)?.face.expect("it removed a voxel");
/// assert_eq!(grid.status()[22], GONE);
/// assert_eq!(first, Face::HighX); // voxel 21 is kept, 23 is not
/// assert_eq!((first.number(), first.axis(), first.is_high(), first.step()), (1, 0, true, [1, 0, 0]));
/// assert_eq!(first.to_string(), "high x");
///
/// assert_eq!(grid.take(25)?.face, Face::LowX);
/// assert_eq!(grid.carve(9)?.face, None); // nothing was left to remove
/// # Ok::<(), Refusal>(())
/// ```
#[derive(Clone, Copy, Debug, PartialEq, Eq, PartialOrd, Ord, Hash)]
pub enum Face {
    /// 0: towards the voxel whose x is one less.
    LowX,
    /// 1: towards the voxel whose x is one more.
    HighX,
    /// 2: towards the voxel whose y is one less.
    LowY,
    /// 3: towards the voxel whose y is one more.
    HighY,
    /// 4: towards the voxel whose z is one less.
    LowZ,
    /// 5: towards the voxel whose z is one more.
    HighZ,
}

impl Face {
    /// Every face, in the order of their numbers.
    pub const ALL: [Face; 6] = [Face::LowX, Face::HighX, Face::LowY, Face::HighY, Face::LowZ, Face::HighZ];

    /// The face of a number, 0 to 5; nothing for any other, such as [`crate::raw::NO_FACE`].
    pub fn of(number: u32) -> Option<Face> {
        Face::ALL.into_iter().find(|face| face.number() == number)
    }

    /// Its number, 0 to 5.
    pub fn number(self) -> u32 {
        self as u32
    }

    /// The axis that it lies across: 0, 1, 2 for x, y, z, as [`crate::crossing`] takes it.
    pub fn axis(self) -> u32 {
        self.number() / 2
    }

    /// Whether it lies on the side where that coordinate is higher.
    pub fn is_high(self) -> bool {
        self.number() % 2 == 1
    }

    /// The way out through it, along x, y and z: added to a voxel's place, it is the place of the voxel across.
    pub fn step(self) -> [i8; 3] {
        let mut step = [0; 3];
        step[self.axis() as usize] = if self.is_high() { 1 } else { -1 };
        step
    }
}

impl std::fmt::Display for Face {
    fn fmt(&self, f: &mut std::fmt::Formatter<'_>) -> std::fmt::Result {
        f.write_str(match self {
            Face::LowX => "low x",
            Face::HighX => "high x",
            Face::LowY => "low y",
            Face::HighY => "high y",
            Face::LowZ => "low z",
            Face::HighZ => "high z",
        })
    }
}
