//! Wrong implementations of documents 01 and 02: the reference with a patch each (tests/mutants). conformance/ must tell every one of them from the rules.

mod build;
mod own;
mod patch;
mod told;

pub use build::{build, Quick};
pub use patch::patched;
pub use told::{read_hints, what_is_old, write_hints, Hints, Telling};

use crate::compare::{read_kind, Script};
use crate::scripts::{SEEDED, WRITTEN};
use std::path::{Path, PathBuf};

/// A file of the reference's source: its name and text.
pub type Source = (String, String);

/// A mutant ready to be built: its name and its sources.
pub type Mutant = (String, Vec<Source>);

/// The modules of the reference, each with its text.
pub fn sources(folder: &Path) -> Result<Vec<Source>, String> {
    let told = |wrong: std::io::Error| format!("{} cannot be read: {wrong}", folder.display());
    let mut sources = Vec::new();
    for entry in std::fs::read_dir(folder).map_err(told)? {
        let path = entry.map_err(told)?.path();
        let name = path.file_name().unwrap_or_default().to_string_lossy().into_owned();
        if name.ends_with(".rs") && !["main.rs", "lib.rs"].contains(&name.as_str()) {
            sources.push((name, std::fs::read_to_string(&path).map_err(told)?));
        }
    }
    sources.sort();
    Ok(sources)
}

fn module(file: &str) -> &str {
    file.trim_end_matches(".rs")
}

/// All conformance scripts.
pub fn scripts(folder: &Path) -> Result<Vec<Script>, String> {
    let kinds: Result<Vec<_>, _> = WRITTEN.into_iter().chain(SEEDED).map(|kind| read_kind(folder, kind)).collect();
    Ok(kinds?.into_iter().flatten().collect())
}

/// The patches of a folder, by name.
pub fn patches(folder: &Path) -> Result<Vec<(String, PathBuf)>, String> {
    let told = |wrong: std::io::Error| format!("{} cannot be read: {wrong}", folder.display());
    let mut found = Vec::new();
    for entry in std::fs::read_dir(folder).map_err(told)? {
        let path = entry.map_err(told)?.path();
        if path.extension().is_some_and(|end| end == "patch") {
            found.push((path.file_stem().unwrap_or_default().to_string_lossy().into_owned(), path));
        }
    }
    found.sort();
    Ok(found)
}
