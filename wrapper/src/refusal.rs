//! What a call refuses with.

/// A call's refusal, by its number. Nothing was written, and the record given still holds for the next call.
///
/// Each number has a name here, the same as in the C header, and a reason:
///
/// ```
/// use wattlerugby::{Grid, Refusal, Sides};
///
/// let refused = Grid::begin(Sides { a: 3, b: 3, c: 3 }, 0, &[5; 27]).unwrap_err();
/// assert_eq!(refused, Refusal::NO_NEGATIVE);
/// assert_eq!(refused.0, 4);
/// assert_eq!(refused.to_string(), "refused 4: no voxel is measured negative");
/// assert_eq!(format!("{refused:?}"), "Refusal(4, NO_NEGATIVE: no voxel is measured negative)");
/// ```
#[derive(Clone, Copy, PartialEq, Eq, PartialOrd, Ord, Hash)]
pub struct Refusal(pub u8);

/// The numbers with their names and reasons, in one table.
macro_rules! numbers {
    ($($(#[$more:meta])* $number:literal $name:ident $reason:literal)+) => {
        impl Refusal {
            $(#[doc = concat!(stringify!($number), ": ", $reason, ".")] $(#[$more])* pub const $name: Refusal = Refusal($number);)+

            /// Every number of a refusal, rising.
            pub const ALL: &'static [Refusal] = &[$(Refusal::$name),+];

            /// The number's name; nothing for one that is not in [`Refusal::ALL`].
            pub fn name(&self) -> Option<&'static str> {
                match self.0 {
                    $($number => Some(stringify!($name)),)+
                    _ => None,
                }
            }

            /// What the number says.
            pub fn reason(&self) -> &'static str {
                match self.0 {
                    $($number => $reason,)+
                    _ => "no number of this library",
                }
            }
        }
    };
}

numbers! {
    1 SIDE "a side is outside 3 to 64"
    2 LENGTH "a lent buffer's length is not the number of voxels"
    3 BORDER_NEGATIVE "a border voxel is measured negative"
    4 NO_NEGATIVE "no voxel is measured negative"
    5 INDEX "the index, a patch's or an entry's among them, is beyond the grid"
    6 AXIS "the axis is over 2, or the next voxel lies beyond the grid"
    7 UNFIT "the record does not fit its buffers"
    8 FINISHED "the grid is finished"
    9 NOT_FINISHED "the grid is not finished"
    10 GONE_ALREADY "the voxel is gone already"
    11 INSIDE "the voxel's worked distance is negative"
    12 NOT_PASSED "the voxel does not pass the local test"
    13 STILL_PENDING "a voxel is pending"
    14 NO_OPENING_LEFT "as many openings as were allowed have been made"
    15 NOTHING_TO_OPEN "there is no voxel to open"
    21 SHORT "the file or the list ends where more bytes are due"
    22 MARK "a mark in the file or the list is wrong"
    23 LAYER "a layer's z is beyond the grid"
    24 LAYER_TWICE "a layer's z came before"
    /// No call refuses with it any more: the program `carve` alone prints it.
    25 BYTES_LEFT "the input is over 65,536 bytes"
    26 ROOM "the lent buffer is shorter than the file"
    27 LAYER_ORDER "a layer's z is not the next"
    28 VALUE "a value is neither in range nor the missing mark"
    29 MARK_BYTE "a mark byte is over 3"
    30 PINNED_VOXEL "the voxel is pinned"
    /// A side is odd or under 6, or a measured negative voxel has a coordinate below 2 or above that side less 3.
    31 COARSE "the grid is not fit for a coarse start"
    /// [`crate::judge`] says which rules these are.
    32 BREAKS_RULES "a removal of the list breaks the rules"
    33 STILL_PASSES "a voxel still passes the local test at the list's end"
    34 OFFICE "the limit is not 1 to 1,000, or the grids are not 1 to 16"
    35 NOTHING_PENDING "nothing is pending in any grid"
}

impl std::fmt::Debug for Refusal {
    fn fmt(&self, f: &mut std::fmt::Formatter<'_>) -> std::fmt::Result {
        match self.name() {
            Some(name) => write!(f, "Refusal({}, {name}: {})", self.0, self.reason()),
            None => write!(f, "Refusal({}: {})", self.0, self.reason()),
        }
    }
}

impl std::fmt::Display for Refusal {
    fn fmt(&self, f: &mut std::fmt::Formatter<'_>) -> std::fmt::Result {
        write!(f, "refused {}: {}", self.0, self.reason())
    }
}

impl std::error::Error for Refusal {}
