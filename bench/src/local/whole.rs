//! The table of document 000: whether each of the 2^26 blocks passes, a bit for each, 8 MB.

use super::ranked;

pub struct Whole(Vec<u64>);

impl Whole {
    /// The index of a block: its 26 neighbours, the middle left out.
    fn index(kept: u32) -> usize {
        ((kept & 0o17777) | (kept >> 1 & 0o377760000)) as usize
    }

    pub fn build() -> Self {
        let mut bits = vec![0u64; 1 << 20];
        for (at, word) in bits.iter_mut().enumerate() {
            for low in 0..64 {
                let i = (at << 6 | low) as u32;
                let kept = (i & 0o17777) | (i & !0o17777) << 1;
                *word |= u64::from(ranked::passes(kept)) << low;
            }
        }
        Whole(bits)
    }

    pub fn count(&self) -> u32 {
        self.0.iter().map(|word| word.count_ones()).sum()
    }

    #[inline]
    pub fn passes(&self, kept: u32) -> bool {
        let i = Self::index(kept);
        self.0[i >> 6] >> (i & 63) & 1 != 0
    }
}
