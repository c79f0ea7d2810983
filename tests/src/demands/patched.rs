//! What a file with patch records is about: the entries of `ALSO` that read and the program meet on it.

use super::sights::chosen;
use crate::faults::PATCH;
use crate::records::{parts, patches, LONGEST_INPUT, MISSING, NARROW_MISSING, PATCH_LENGTH};
use reference::file::{program_line, read};
use reference::grid::Sides;
use std::collections::BTreeMap;

/// Index and value of a patch.
type Patch = (usize, i16);

/// What is seen in a file before it is read; nothing where it has no whole patch.
pub fn of(call: &str, sides: &Sides, bytes: &[u8]) -> Vec<String> {
    if !sides.fit() {
        return Vec::new();
    }
    let all: Vec<Patch> = patches(bytes, sides).map(|(index, value)| (index as usize, value)).collect();
    if all.is_empty() {
        return Vec::new();
    }
    let (_, rest) = parts(bytes, sides);
    let layers = &bytes[..bytes.len() - rest.len()];
    let mut seen = places(sides, &all);
    seen.extend(values(sides, &all, layers));
    seen.extend(chosen(&[(bytes.len() >= LONGEST_INPUT + PATCH_LENGTH, "a patch after byte 65536")]));
    seen.iter_mut().for_each(|entry| *entry = format!("{call}: {entry}"));
    if good(sides, &all, rest) > 1 {
        seen.extend(PATCH.map(|check| format!("if refused {check}: {call} refused: {check}, after good patches")));
    }
    seen.extend(if call == "program" { lines(layers, bytes) } else { Vec::new() });
    seen
}

/// How many patches are good before the first that is not.
fn good(sides: &Sides, all: &[Patch], rest: &[u8]) -> usize {
    let marked = rest.chunks_exact(PATCH_LENGTH).map(|record| record[..2] == [0x56, 0x50]);
    marked.zip(all).take_while(|&(marked, &(index, _))| marked && index < sides.n()).count()
}

fn places(sides: &Sides, all: &[Patch]) -> Vec<String> {
    let (n, layer) = (sides.n(), (sides.a * sides.b) as usize);
    let to = |wanted: &dyn Fn(usize) -> bool| all.iter().any(|&(index, _)| wanted(index));
    chosen(&[
        (true, "a patch"),
        ((0..n / layer).all(|z| to(&|index| index / layer == z)), "a patch in every layer"),
        (to(&|index| index == 0) && to(&|index| index == n - 1), "a patch to the first voxel, and one to the last"),
        (to(&|index| index > 255), "a patch to an index over 255"),
        (to(&|index| index > 65535), "a patch to an index over 65535"),
        (all.len() > n, "more patches than voxels"),
        (all.len() > 255, "over 255 patches"),
        (all.len() > 65535, "over 65535 patches"),
    ])
}

/// `layers` is the file without its patches.
fn values(sides: &Sides, all: &[Patch], layers: &[u8]) -> Vec<String> {
    let mut before = vec![0; sides.n()];
    let whole = read(layers, &mut before, 64).is_ok();
    let of = |value: i16| all.iter().any(|&(_, v)| v == value);
    let from = |wanted: &dyn Fn(i32, i16) -> bool| whole && all.iter().any(|&(i, v)| before.get(i).is_some_and(|&was| wanted(was, v)));
    let apart = apart(all);
    chosen(&[
        (of(NARROW_MISSING), "a patch of -32768"),
        (of(-32767), "a patch of -32767"),
        (of(32767), "a patch of 32767"),
        (from(&|was, is| was != MISSING && is == NARROW_MISSING), "a patch of -32768 to a measured voxel"),
        (from(&|was, is| was == MISSING && is != NARROW_MISSING), "a measured patch to a missing voxel"),
        (apart >= 1, "two patches to a voxel, of different values"),
        (apart >= 2, "two patches to a voxel, with another's between them"),
    ])
}

/// How far apart two patches to one voxel stand that have different values and no third one to it between them: the greatest distance, or 0.
fn apart(all: &[Patch]) -> usize {
    let mut last: BTreeMap<usize, (usize, i16)> = BTreeMap::new();
    let mut greatest = 0;
    for (k, &(index, value)) in all.iter().enumerate() {
        match last.insert(index, (k, value)) {
            Some((before, other)) if other != value => greatest = greatest.max(k - before),
            _ => {}
        }
    }
    greatest
}

/// What the program's line would be without the patches, and is with them.
fn lines(layers: &[u8], bytes: &[u8]) -> Vec<String> {
    let (without, with) = (program_line(layers), program_line(bytes));
    let carved = without.starts_with("kept");
    chosen(&[
        (with != without, "program: a patch changes the line"),
        (without == "refused 4", "program: a body made by patches"),
        (without == "refused 3", "program: a border voxel mended by a patch"),
        (carved, "if refused 3: program refused: 3, brought about by a patch"),
        (carved, "if refused 4: program refused: 4, brought about by a patch"),
    ])
}
