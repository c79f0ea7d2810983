//! Voxels in groups that hang together, and where these lie.

use crate::file::Scan;
use crate::words::some;

/// Places that a sentence names, of the largest groups.
const NAMED: usize = 3;

/// Each voxel with all that are joined to it by steps to a neighbour: `Scan::faces` or `Scan::touching`. In the order of the first voxels.
pub fn groups<'a, I: Iterator<Item = usize>>(
    scan: &'a Scan,
    voxels: impl Iterator<Item = usize>,
    beside: impl Fn(&'a Scan, usize) -> I,
) -> Vec<Vec<usize>> {
    let (voxels, mut left) = (voxels.collect::<Vec<usize>>(), vec![false; scan.values.len()]);
    voxels.iter().for_each(|&i| left[i] = true);
    let mut found = Vec::new();
    for first in voxels {
        if !std::mem::replace(&mut left[first], false) {
            continue;
        }
        let (mut group, mut looked_at) = (vec![first], 0);
        while let Some(&i) = group.get(looked_at) {
            group.extend(beside(scan, i).filter(|&j| std::mem::replace(&mut left[j], false)));
            looked_at += 1;
        }
        found.push(group);
    }
    found
}

/// The least and the greatest coordinates of some voxels, along each axis.
pub fn ends(scan: &Scan, voxels: &[usize]) -> [(usize, usize); 3] {
    [0, 1, 2].map(|axis| {
        let places = voxels.iter().map(|&i| scan.place(i)[axis]);
        (places.clone().min().unwrap_or(0), places.max().unwrap_or(0))
    })
}

/// The box around some voxels, by two of its corners; one voxel is its own.
pub fn span(scan: &Scan, voxels: &[usize]) -> String {
    let [x, y, z] = ends(scan, voxels);
    let (low, high) = ((x.0, y.0, z.0), (x.1, y.1, z.1));
    match low == high {
        true => format!("{low:?}"),
        false => format!("{low:?} to {high:?}"),
    }
}

/// Where groups lie, the largest first: `(3, 3, 6) to (5, 5, 6), (1, 2, 3) and 2 places more`.
pub fn places(scan: &Scan, groups: &[Vec<usize>]) -> String {
    named(groups, "place", |group| span(scan, group))
}

/// The same with the size of each: `9 at (3, 3, 6) to (5, 5, 6) and 1 at (1, 2, 3)`.
pub fn sizes_and_places(scan: &Scan, groups: &[Vec<usize>]) -> String {
    named(groups, "group", |group| format!("{} at {}", group.len(), span(scan, group)))
}

fn named(groups: &[Vec<usize>], what: &str, told: impl Fn(&[usize]) -> String) -> String {
    let mut largest: Vec<&Vec<usize>> = groups.iter().collect();
    largest.sort_by_key(|group| std::cmp::Reverse(group.len()));
    let mut words: Vec<String> = largest.iter().take(NAMED).map(|group| told(group)).collect();
    let more = groups.len().saturating_sub(NAMED);
    words.extend((more > 0).then(|| some(more, what) + " more"));
    match words.pop() {
        Some(last) if words.is_empty() => last,
        last => format!("{} and {}", words.join(", "), last.unwrap_or_default()),
    }
}
