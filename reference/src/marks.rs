//! Mark bytes, one for each voxel (document 02, CR 7 and CR 9): 0, 1 pinned, 2 hurried, 3 both.

/// Any other is number 29.
pub fn is_mark(mark: u8) -> bool {
    mark <= 3
}

pub fn pinned(mark: u8) -> bool {
    mark == 1 || mark == 3
}

/// The pin rule comes first and alone, so mark 3 means mark 1.
pub fn hurried(mark: u8) -> bool {
    mark == 2
}
