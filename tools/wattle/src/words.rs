//! Counts in words.

/// `1 voxel`, `2 voxels`.
pub fn some(count: usize, what: &str) -> String {
    format!("{count} {what}{}", if count == 1 { "" } else { "s" })
}

/// `1 voxel was`, `2 voxels were`.
pub fn was(count: usize, what: &str) -> String {
    some(count, what) + if count == 1 { " was" } else { " were" }
}

/// `1 voxel is`, `2 voxels are`.
pub fn are(count: usize, what: &str) -> String {
    some(count, what) + if count == 1 { " is" } else { " are" }
}
