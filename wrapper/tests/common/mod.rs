//! What the tests share: where the repository and the archive are.

#![allow(dead_code)]

use std::path::{Path, PathBuf};

pub fn root() -> PathBuf {
    Path::new(env!("CARGO_MANIFEST_DIR")).join("..")
}

pub fn archive() -> PathBuf {
    let folder = option_env!("WATTLERUGBY_ARCHIVE").map_or_else(|| root().join("target/staticlib"), PathBuf::from);
    folder.join("libcapi.a")
}
