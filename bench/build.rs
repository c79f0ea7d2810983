//! The archive of another commit, where WATTLERUGBY_BEFORE names its folder: a copy with every name prefixed, so that one program holds both
//! and times them in the same rounds. WATTLERUGBY_BEFORE_BITS says how many bits a value has in its interface, which plain names do not tell: 32, or
//! 16 before document 02's CR 5. Whether its calls are lent marks, as from CR 7 on, and tell faces, as from CR 8 on, their symbols say. WATTLERUGBY_SHIFT
//! is for main.rs.

use std::path::{Path, PathBuf};
use std::process::Command;

fn main() {
    println!("cargo:rerun-if-env-changed=WATTLERUGBY_SHIFT");
    println!("cargo:rustc-env=SHIFT={}", std::env::var("WATTLERUGBY_SHIFT").unwrap_or_else(|_| "0".into()));
    println!("cargo:rerun-if-env-changed=WATTLERUGBY_BEFORE");
    println!("cargo:rerun-if-env-changed=WATTLERUGBY_BEFORE_BITS");
    println!("cargo:rustc-check-cfg=cfg(before, before_16, before_faces, before_marks, before_points, before_write)");
    let Ok(folder) = std::env::var("WATTLERUGBY_BEFORE") else { return };
    let archive = Path::new(&folder).join("libcapi.a");
    println!("cargo:rerun-if-changed={}", archive.display());
    let out = PathBuf::from(std::env::var("OUT_DIR").expect("cargo names a folder to write to"));
    let names = exported(&archive);
    let renamed: String = names.iter().map(|name| format!("{name} before_{}\n", call(name))).collect();
    let list = out.join("names");
    std::fs::write(&list, renamed).expect("the names can be written");
    run(Command::new("objcopy").arg(format!("--redefine-syms={}", list.display())).arg(&archive).arg(out.join("libbefore.a")));
    println!("cargo:rustc-link-search=native={}", out.display());
    println!("cargo:rustc-link-lib=static=before");
    println!("cargo:rustc-cfg=before");
    match std::env::var("WATTLERUGBY_BEFORE_BITS").as_deref() {
        Ok("16") => println!("cargo:rustc-cfg=before_16"),
        Ok("32") | Err(_) => {}
        Ok(other) => panic!("WATTLERUGBY_BEFORE_BITS is 16 or 32, not {other}"),
    }
    let has = |name: &str| names.iter().any(|other| other == name);
    if has("wattlerugby_carve_9") {
        println!("cargo:rustc-cfg=before_faces");
    }
    if has("wattlerugby_carve_8") || has("wattlerugby_carve_9") {
        println!("cargo:rustc-cfg=before_marks");
    }
    // the calls that an older archive has not
    for newer in ["points", "write"] {
        if names.iter().any(|name| call(name) == format!("wattlerugby_{newer}")) {
            println!("cargo:rustc-cfg=before_{newer}");
        }
    }
}

/// The call that a symbol is of, where archive.rs declares its form: the plain ones, those of 0.6, 0.8 and 0.9. A symbol of another form keeps its
/// number, and is not linked.
fn call(symbol: &str) -> &str {
    ["_6", "_8", "_9"].iter().find_map(|form| symbol.strip_suffix(form)).unwrap_or(symbol)
}

fn exported(archive: &Path) -> Vec<String> {
    let told = run(Command::new("nm").args(["--extern-only", "--defined-only", "--format=posix"]).arg(archive));
    let calls = told.lines().filter_map(|line| line.split(' ').next()).filter(|name| name.starts_with("wattlerugby_"));
    calls.map(str::to_string).collect()
}

fn run(command: &mut Command) -> String {
    let out = command.output().unwrap_or_else(|wrong| panic!("{command:?} does not start: {wrong}"));
    assert!(out.status.success(), "{command:?}: {}", String::from_utf8_lossy(&out.stderr));
    String::from_utf8_lossy(&out.stdout).into_owned()
}
