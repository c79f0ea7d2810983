//! What the order of a file's layers is: the entries of `ALSO` that read and the program meet where they refuse it, and a layer by itself where it is
//! out of its place.

use super::sights::chosen;
use crate::records::{parts, LayerRecord, LONGEST_INPUT, PATCH_LENGTH};
use reference::grid::Sides;

/// The z that the whole records of a file say, and where each of them begins.
fn layers(sides: &Sides, bytes: &[u8]) -> Vec<(usize, usize)> {
    let (records, _) = parts(bytes, sides);
    let z = |record: &LayerRecord| (usize::from(record.left[2]), record.start);
    records.iter().filter(|record| record.is_whole()).map(z).collect()
}

/// What is seen in a file before it is read; nothing where it has not so many whole records as layers.
pub fn of(call: &str, sides: &Sides, bytes: &[u8]) -> Vec<String> {
    let z: Vec<usize> = if sides.fit() { layers(sides, bytes).into_iter().map(|(z, _)| z).collect() } else { Vec::new() };
    let c = sides.c as usize;
    if !sides.fit() || z.len() < c {
        return Vec::new();
    }
    let (_, behind) = parts(bytes, sides);
    let Some(first) = (0..c).find(|&k| z[k] != k) else { return Vec::new() };
    let mut seen = shapes(&z);
    seen.extend(chosen(&[
        (first > 0, "after good layers"),
        (first == c - 2, "the last record but one"),
        (first > 7, "past layer 7"),
        (first > 15, "past layer 15"),
        (first > 31, "past layer 31"),
        (behind.len() >= PATCH_LENGTH, "patches behind"),
        (bytes.len() == LONGEST_INPUT, "65536 bytes"),
    ]));
    let again = chosen(&[
        (z[first] > 15, "of a layer past 15"),
        (z[first] > 31, "of a layer past 31"),
        ((first..c).any(|k| z[k] > k), "a later layer out of order"),
    ]);
    let of_27 = seen.iter().map(|shape| format!("if refused 27: {call} refused: 27, {shape}"));
    of_27.chain(again.iter().map(|shape| format!("if refused 24: {call} refused: 24, {shape}"))).collect()
}

/// The shape of an order that is not the rising one.
fn shapes(z: &[usize]) -> Vec<String> {
    let c = z.len();
    let sorted = {
        let mut sorted = z.to_vec();
        sorted.sort_unstable();
        sorted
    };
    let wrong: Vec<usize> = (0..c).filter(|&k| z[k] != k).collect();
    let exchanged = wrong.len() == 2 && z[wrong[0]] == wrong[1] && z[wrong[1]] == wrong[0];
    let is = |of: &dyn Fn(usize) -> usize| (0..c).all(|k| z[k] == of(k));
    let skipped = wrong[0];
    chosen(&[
        (is(&|k| c - 1 - k), "in falling order"),
        (exchanged && wrong[1] == wrong[0] + 1, "two neighbours exchanged"),
        (exchanged && wrong[1] > wrong[0] + 1, "two others exchanged"),
        (exchanged && wrong[1] == wrong[0] + 8, "two exchanged that are 8 apart"),
        (exchanged && wrong[1] == wrong[0] + 16, "two exchanged that are 16 apart"),
        (exchanged && wrong[1] == wrong[0] + 32, "two exchanged that are 32 apart"),
        (is(&|k| (k + 1) % c), "the first layer last"),
        (is(&|k| (k + c - 1) % c), "the last layer first"),
        (is(&|k| k + 1), "numbered from 1"),
        (skipped > 0 && is(&|k| k + usize::from(k >= skipped)), "rising but for one skipped"),
        (is_rising(&sorted), "every layer there"),
        (sorted.windows(2).any(|pair| pair[0] == pair[1]), "a layer twice"),
    ])
}

fn is_rising(z: &[usize]) -> bool {
    z.iter().enumerate().all(|(k, &z)| z == k)
}

/// What is seen of a layer that is read by itself, in a file of these sides: whether it is the next, or a repeat.
pub fn of_layer(sides: &Sides, bytes: &[u8], start: u64) -> Vec<String> {
    let all = if sides.fit() { layers(sides, bytes) } else { Vec::new() };
    let Some(record) = all.iter().position(|&(_, from)| from as u64 == start) else { return Vec::new() };
    let (own, _) = all[record];
    chosen(&[
        (own != record, "readlayer: a layer that is not the next"),
        (all[..record].iter().any(|&(z, _)| z == own), "readlayer: a layer that came before"),
    ])
}
