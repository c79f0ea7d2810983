//! A removal list's entries, and their bytes.

use crate::Refusal;

/// One removal of a list that [`crate::judge`] is given, by the voxel's index: hex 56 52 or 56 4F, and the index in four bytes, low byte first.
#[derive(Clone, Copy, Debug, PartialEq, Eq, Hash)]
pub enum Entry {
    /// A voxel that passes the local test, as carve and take remove it.
    Ordinary(u32),
    /// A voxel that is removed where none passes, as open does.
    Opening(u32),
}

impl Entry {
    /// The bytes of an entry.
    pub const LENGTH: usize = 6;

    /// The voxel.
    pub fn index(self) -> u32 {
        match self {
            Entry::Ordinary(index) | Entry::Opening(index) => index,
        }
    }

    /// Whether it is an opening.
    pub fn opens(self) -> bool {
        matches!(self, Entry::Opening(_))
    }

    /// The entry as a list has it. The index is not looked at: a list does not know its grid.
    ///
    /// ```
    /// use wattlerugby::Entry;
    ///
    /// assert_eq!(Entry::Ordinary(0x01_02_03).bytes(), [0x56, 0x52, 3, 2, 1, 0]);
    /// assert_eq!(Entry::Opening(7).bytes(), [0x56, 0x4F, 7, 0, 0, 0]);
    /// ```
    pub fn bytes(self) -> [u8; Entry::LENGTH] {
        let (mark, [i, j, k, l]) = (if self.opens() { 0x4F } else { 0x52 }, self.index().to_le_bytes());
        [0x56, mark, i, j, k, l]
    }

    /// The entry that begins a list's bytes: refused with 21 where there are fewer than 6, and with 22 where the mark is neither of the two.
    ///
    /// ```
    /// use wattlerugby::{Entry, Refusal};
    ///
    /// let list = Entry::list(&[Entry::Opening(7), Entry::Ordinary(8)]);
    /// assert_eq!(Entry::first(&list), Ok(Entry::Opening(7)));
    /// assert_eq!(Entry::first(&list[6..]), Ok(Entry::Ordinary(8)));
    /// assert_eq!(Entry::first(&list[7..]), Err(Refusal::SHORT));
    /// assert_eq!(Entry::first(&list[2..]), Err(Refusal::MARK));
    /// ```
    pub fn first(list: &[u8]) -> Result<Entry, Refusal> {
        let [mark, opens, i, j, k, l] = *list.first_chunk().ok_or(Refusal::SHORT)?;
        let index = u32::from_le_bytes([i, j, k, l]);
        match [mark, opens] {
            [0x56, 0x52] => Ok(Entry::Ordinary(index)),
            [0x56, 0x4F] => Ok(Entry::Opening(index)),
            _ => Err(Refusal::MARK),
        }
    }

    /// The list of these entries.
    pub fn list(entries: &[Entry]) -> Vec<u8> {
        entries.iter().flat_map(|entry| entry.bytes()).collect()
    }
}
