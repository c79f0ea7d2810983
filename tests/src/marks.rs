//! Mark bytes (document 02, CR 7 and CR 9). Written from the papers, not from the reference.

/// Marks: 0, pinned, hurried, and both.
pub const UNMARKED: u8 = 0;
pub const PINNED: u8 = 1;
pub const HURRIED: u8 = 2;
pub const BOTH: u8 = 3;

/// Bytes that are none: beside the greatest mark, at the ends of a byte, of 7 bits and of 8, and some whose lowest two bits are each of the marks'.
pub const NO_MARKS: [u8; 10] = [4, 5, 6, 7, 8, 16, 127, 128, 131, 255];

pub fn pinned(mark: u8) -> bool {
    [PINNED, BOTH].contains(&mark)
}

/// Of both, the pin rule comes first and alone.
pub fn hurried(mark: u8) -> bool {
    mark == HURRIED
}

/// Which clause of 29 a byte fails, if any.
pub fn wrong_mark(mark: u8) -> Option<&'static str> {
    match mark {
        UNMARKED..=BOTH => None,
        4 => Some("a mark of 4"),
        5..128 => Some("a mark of 5 to 127"),
        128..255 => Some("a mark of 128 to 254"),
        255 => Some("a mark of 255"),
    }
}

#[cfg(test)]
mod tests {
    use super::*;
    use crate::grids::{grid, walled};
    use crate::random::Random;
    use reference::grid::{begin, Record, Sides};
    use reference::machine::{carve, open, take, test_at};

    fn marks_of(r: &mut Random, n: usize) -> Vec<u8> {
        let marked = r.pick(&[0, 5, 30, 100]);
        (0..n).map(|_| if r.chance(marked) { r.below(4) as u8 } else { UNMARKED }).collect()
    }

    fn call(r: &mut Random, record: &mut Record, dist: &[i32], marks: &[u8], status: &mut [u8]) {
        let _ = match r.below(3) {
            0 => carve(record, dist, marks, status, r.pick(&[1, 2, 7, 1000])).err(),
            1 => take(record, dist, marks, status, r.below(status.len() as u64)).err(),
            _ => open(record, dist, marks, status).err(),
        };
    }

    /// Over lists of calls from begin: S is kept whatever the marks; what every call pins is kept; and with marks unchanged from begin on, whatever is
    /// kept outside S, passes and is not pinned is pending.
    #[test]
    fn what_document_02_promises_of_lists() {
        let (mut lists, mut held) = (0, 0);
        for seed in 0..1500 {
            let mut r = Random::new(seed);
            let g = if r.chance(50) { walled(&mut r, 7) } else { grid(&mut r, 7) };
            let [a, b, c] = g.sides.map(|side| side as u64);
            let sides = Sides { a, b, c };
            let (mut dist, mut status) = (vec![0; sides.n()], vec![0; sides.n()]);
            let mut marks = marks_of(&mut r, sides.n());
            let Ok(mut record) = begin(sides, g.allowed, &g.values, &marks, &mut dist, &mut status) else { continue };
            let (fixed, mut always) = (r.chance(60), (0..sides.n()).filter(|&i| status[i] != 0 && pinned(marks[i])).collect::<Vec<_>>());
            for _ in 0..r.between(1, 25) {
                call(&mut r, &mut record, &dist, &marks, &mut status);
                let awake = |i: usize| status[i] == 3 || pinned(marks[i]) || !test_at(&record, &status, i).passes();
                assert!(!fixed || (0..sides.n()).all(|i| status[i] == 0 || dist[i] < 0 || awake(i)), "seed {seed}: a voxel that passes");
                assert!((0..sides.n()).all(|i| dist[i] >= 0 || status[i] == 1), "seed {seed}: S");
                assert!(always.iter().all(|&i| status[i] != 0), "seed {seed}: what is pinned");
                if !fixed {
                    marks = marks_of(&mut r, sides.n());
                    always.retain(|&i| pinned(marks[i]));
                }
            }
            lists += 1;
            held += always.len();
        }
        assert!(lists > 500 && held > 2000, "{lists} lists, {held} voxels held");
    }

    /// Over lists of calls from begin with marks that change: with a pin in place of every mark of 3 all is the same.
    #[test]
    fn mark_3_means_mark_1() {
        let mut with_both = 0;
        for seed in 0..1000 {
            let mut r = Random::new(seed);
            let g = if r.chance(50) { walled(&mut r, 7) } else { grid(&mut r, 7) };
            let [a, b, c] = g.sides.map(|side| side as u64);
            let sides = Sides { a, b, c };
            let pins = |marks: &[u8]| marks.iter().map(|&mark| if mark == BOTH { PINNED } else { mark }).collect::<Vec<u8>>();
            let mut marks = marks_of(&mut r, sides.n());
            let begun = |marks: &[u8]| {
                let (mut dist, mut status) = (vec![0; sides.n()], vec![0; sides.n()]);
                begin(sides, g.allowed, &g.values, marks, &mut dist, &mut status).map(|record| (record, dist, status))
            };
            let (Ok(mut one), Ok(mut other)) = (begun(&marks), begun(&pins(&marks))) else { continue };
            for call_seed in 0..r.between(1, 25) as u64 {
                assert_eq!(one, other, "seed {seed}");
                with_both += usize::from((0..sides.n()).any(|i| marks[i] == BOTH && one.2[i] != 0 && one.1[i] >= 0));
                for ((record, dist, status), marks) in [(&mut one, marks.clone()), (&mut other, pins(&marks))] {
                    call(&mut Random::new(seed ^ call_seed << 32), record, dist, &marks, status);
                }
                marks = if r.chance(30) { marks_of(&mut r, sides.n()) } else { marks };
            }
        }
        assert!(with_both > 2000, "{with_both} calls with a mark of 3 that matters");
    }
}
