//! Finds the archive of the proved library, under the name that it is installed by or its own: in the folder that WATTLERUGBY_ARCHIVE names,
//! otherwise where `packaging/build` writes it, or where a release has it.

use std::path::{Path, PathBuf};

fn main() {
    println!("cargo:rerun-if-env-changed=WATTLERUGBY_ARCHIVE");
    let folders = folders();
    let mut places = folders.iter().flat_map(|folder| ["wattlerugby", "capi"].map(|name| (folder, name)));
    let found = places.find(|(folder, name)| archive(folder, name).exists());
    match found {
        Some((folder, name)) => link(folder, name),
        None => miss(&folders[0]),
    }
}

fn folders() -> Vec<PathBuf> {
    match std::env::var_os("WATTLERUGBY_ARCHIVE").filter(|folder| !folder.is_empty()) {
        Some(folder) => vec![folder.into()],
        None => {
            let here = PathBuf::from(std::env::var_os("CARGO_MANIFEST_DIR").expect("cargo names this folder"));
            ["../target/staticlib", "../lib"].map(|folder| here.join(folder)).into()
        }
    }
}

fn archive(folder: &Path, name: &str) -> PathBuf {
    folder.join(format!("lib{name}.a"))
}

fn link(folder: &Path, name: &str) {
    println!("cargo:rerun-if-changed={}", archive(folder, name).display());
    println!("cargo:rustc-link-search=native={}", folder.display());
    println!("cargo:rustc-link-lib=static={name}");
}

/// No failure here: `cargo doc` and `cargo check` link nothing, and a build script is not told what it is run for. But where this crate is
/// compiled to be linked, the compiler puts the static library into it, and fails where it finds none, with the library's name. So the name
/// that it is given says what to do, which also `cargo build --quiet` shows.
fn miss(folder: &Path) {
    let archive = archive(folder, "capi");
    println!("cargo:rerun-if-changed={}", archive.display());
    println!("cargo:warning={} is missing, so nothing can be linked", archive.display());
    println!("cargo:rustc-link-lib=static=libcapi.a (run packaging/build, or set WATTLERUGBY_ARCHIVE to its folder)");
}
