//! Practice grids (document 02, CR 12): the entries of `ALSO` that a call of `practice` meets, and the values that it must leave.

use super::sights::chosen;
use crate::practised::{s_of, seed_of, u_of, value_of, values};
use crate::records::{is_measured, MISSING};
use reference::replay::Slot;

/// The seed of a line, which is one of the language.
fn seed_in(words: &[&str]) -> Option<u32> {
    let number = words.get(1).filter(|_| words.first() == Some(&"practice"))?.parse::<i64>();
    number.ok().and_then(|seed| u32::try_from(seed).ok())
}

/// The values that a practice call without a fault leaves.
pub fn left(state: &Slot, words: &[&str]) -> Option<Vec<i32>> {
    seed_in(words).map(|seed| values(&state.sides, seed))
}

/// What is seen before a practice grid is made.
pub fn of(state: &Slot, words: &[&str]) -> Vec<String> {
    let (sides, lent) = (&state.sides, &state.values);
    let Some(seed) = seed_in(words).filter(|_| sides.fit() && lent.len() == sides.n()) else { return Vec::new() };
    let within: Vec<u32> = (0..lent.len()).filter(|&i| !sides.border(i)).map(|i| s_of(seed, i)).collect();
    let s = |wanted: u32| within.contains(&wanted);
    let u = |wanted: u32| within.iter().any(|&s| u_of(s) == wanted);
    let value = |wanted: i32| within.iter().any(|&s| value_of(s) == wanted);
    chosen(&[
        (true, &format!("practice: a seed of {seed}")[..]),
        (seed == seed_of(0, 0), "practice: the first s is 0"),
        (s(0), "practice: s of 0 within"),
        (s(u32::MAX), "practice: s of 4294967295 within"),
        (s(1 << 31), "practice: s of 2147483648 within"),
        (within.iter().any(|&s| s < 65_536), "practice: s without upper bits within"),
        (within.iter().any(|&s| s % 65_536 == 0), "practice: s without lower bits within"),
        (within.iter().any(|&s| s / 65_536 == s % 65_536), "practice: s of equal halves within"),
        (u(2_000), "practice: u of 2000 within"),
        (u(2_001), "practice: u of 2001 within"),
        (u(u32::MAX), "practice: u of 4294967295 within"),
        (value(-1_000), "practice: a value of -1000 within"),
        (value(1_000), "practice: a value of 1000 within"),
        (value(0), "practice: a value of 0 within"),
        (within.iter().all(|&s| value_of(s) >= 0), "practice: no negative voxel"),
        (values(sides, seed) == *lent, "practice: over the same grid"),
        (lent.contains(&MISSING), "practice: over missing points"),
        (lent.iter().any(|&v| v != MISSING && !is_measured(v)), "practice: over values out of range"),
        (state.record.sides != *sides, "practice: the record has other sides"),
        (state.record.finished != 0, "practice: the record is finished"),
        (state.dist.len() != sides.n() && state.status.len() != sides.n(), "practice: dist and status of other lengths"),
        (state.marks.len() != sides.n(), "practice: marks of another length"),
    ])
}
