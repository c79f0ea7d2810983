//! Practice grids (document 02, CR 12) voxel by voxel: what s is at an index, without those before it, and what it comes to. Written from the papers, not
//! from the reference.

use reference::grid::Sides;

const STEP: u64 = 0x9E37_79B9;
const BORDER: i32 = 1_000;

/// The steps up to an index, that of the index among them, in 32 bits.
fn steps(index: usize) -> u32 {
    ((index as u64 + 1) * STEP % (1 << 32)) as u32
}

/// The s of an index.
pub fn s_of(seed: u32, index: usize) -> u32 {
    seed.wrapping_add(steps(index))
}

/// The seed from which an index has this s.
pub fn seed_of(s: u32, index: usize) -> u32 {
    s.wrapping_sub(steps(index))
}

/// The upper bits combined into the lower ones; done twice, it is s again.
pub fn u_of(s: u32) -> u32 {
    let (upper, lower) = (s / 65_536, s % 65_536);
    65_536 * upper + (upper ^ lower)
}

/// The value of a voxel within.
pub fn value_of(s: u32) -> i32 {
    i64::from(u_of(s)).rem_euclid(2_001) as i32 - 1_000
}

/// All values of a practice grid.
pub fn values(sides: &Sides, seed: u32) -> Vec<i32> {
    (0..sides.n()).map(|i| if sides.border(i) { BORDER } else { value_of(s_of(seed, i)) }).collect()
}

#[cfg(test)]
mod tests {
    use super::*;
    use crate::random::Random;
    use reference::grid::begin;
    use reference::practice::practice;

    #[test]
    fn what_is_undone() {
        let mut r = Random::new(1);
        for _ in 0..1000 {
            let (word, index) = (r.word() as u32, r.below(262_144) as usize);
            assert_eq!(s_of(seed_of(word, index), index), word);
            assert_eq!(u_of(u_of(word)), word);
        }
        assert_eq!([u_of(0), u_of(65_536), u_of(0xFFFF_0000)], [0, 65_537, u32::MAX]);
    }

    /// The reference's, and what document 02 says of them: within 1,000 of 0, and begin takes them where any is negative, or else answers 4.
    #[test]
    fn the_references_grids() {
        let (mut r, mut taken, mut refused) = (Random::new(2), 0, 0);
        for round in 0..400 {
            let mut side = || if round % 2 == 0 { 3 } else { r.between(3, 12) as u64 };
            let sides = Sides { a: side(), b: side(), c: side() };
            let (n, seed) = (sides.n(), r.word() as u32);
            let mut lent = vec![i32::MIN; n];
            assert_eq!(practice(&sides, seed, &mut lent), Ok(()));
            assert_eq!(lent, values(&sides, seed), "{sides:?} {seed}");
            assert!(lent.iter().all(|value| (-1_000..=1_000).contains(value)));
            let begun = begin(sides, 0, &lent, &vec![0; n], &mut vec![0; n], &mut vec![0; n]).err();
            let negative = lent.iter().any(|&value| value < 0);
            assert_eq!(begun, (!negative).then_some(4), "{sides:?} {seed}");
            (taken, refused) = (taken + u32::from(negative), refused + u32::from(!negative));
        }
        assert!(taken > 200 && refused > 50, "{taken} {refused}");
    }
}
