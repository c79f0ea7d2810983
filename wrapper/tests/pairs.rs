//! A header and an archive that do not belong together: the linker refuses the program, whichever of the two is the older. And the archive has
//! the calls that the header declares, and no other.

mod common;

use common::{archive, root};
use std::collections::BTreeMap;
use std::path::{Path, PathBuf};
use std::process::{Command, Output};

/// The folder of the header.
fn today() -> PathBuf {
    root().join("include")
}

/// The folder of a header with each call that was changed as it was before.
fn before() -> PathBuf {
    root().join("wrapper/tests/before")
}

/// The calls that the header in a folder declares, each with its symbol.
fn declared(folder: &Path) -> BTreeMap<String, String> {
    let text = std::fs::read_to_string(folder.join("wattlerugby.h")).expect("the header can be read");
    let symbol = |call: &str| text.lines().find_map(|line| line.strip_prefix(&format!("#define {call} "))).unwrap_or(call).to_string();
    let declarations = text.lines().filter(|line| !line.starts_with([' ', '/', '#']) && !line.starts_with("static "));
    let calls = declarations.filter_map(|line| line.split_once('(')?.0.rsplit_once(' '));
    calls.map(|(_, call)| (call.to_string(), symbol(call))).collect()
}

/// The calls of the header whose symbol is not their name, with the symbol.
fn changed() -> BTreeMap<String, String> {
    let mut calls = declared(&today());
    calls.retain(|call, symbol| call != symbol);
    calls
}

/// The names in an archive's index, where a linker looks them up: a header of 60 bytes, a count and so many offsets, four bytes each with
/// the high byte first, then the names, each with a 0 behind it. Read here, since a tool that lists them may not be at hand.
fn exported(archive: &Path) -> Vec<String> {
    let bytes = std::fs::read(archive).expect("the archive can be read");
    let index = bytes.strip_prefix(b"!<arch>\n/ ").expect("an archive begins with its index");
    let count = u32::from_be_bytes(index[58..62].try_into().expect("four bytes")) as usize;
    let names = index[62 + 4 * count..].split(|byte| *byte == 0).take(count);
    names.map(|name| String::from_utf8(name.to_vec()).expect("a name is text")).collect()
}

fn run(command: &mut Command) -> Output {
    command.env("LC_ALL", "C").output().unwrap_or_else(|e| panic!("{command:?} does not run: {e}"))
}

fn compiled(name: &str, source: &str, header: &Path) -> PathBuf {
    let file = |end: &str| Path::new(env!("CARGO_TARGET_TMPDIR")).join(format!("{name}.{end}"));
    std::fs::write(file("c"), source).expect("the source can be written");
    let strict = ["-std=c99", "-pedantic", "-Wall", "-Wextra", "-Werror", "-c", "-I"];
    let out = run(Command::new("cc").args(strict).arg(header).arg(file("c")).arg("-o").arg(file("o")));
    assert!(out.status.success(), "{}", String::from_utf8_lossy(&out.stderr));
    file("o")
}

/// A program that uses one call of a header. It asks for the call's address, and so is the same for every call: what a call is lent, a
/// linker does not see.
fn program(name: &str, call: &str, header: &Path) -> PathBuf {
    let source =
        format!("#include \"wattlerugby.h\"\nvoid (*call)(void) = (void (*)(void)){call};\nint main(void) {{ return call == 0; }}\n");
    compiled(name, &source, header)
}

/// An archive from before, as far as a linker sees it: the names.
fn archive_before(name: &str) -> PathBuf {
    let source: String = declared(&before()).values().map(|symbol| format!("void {symbol}(void) {{ }}\n")).collect();
    compiled(name, &source, &before())
}

/// Links a program with an archive, and gives the names of ours that the linker says it does not find where it refuses.
fn link(program: &Path, archive: &Path) -> Result<(), Vec<String>> {
    let out = run(Command::new("cc").arg(program).arg(archive).arg("-o").arg(program.with_extension("out")));
    if out.status.success() {
        return Ok(());
    }
    let said = String::from_utf8_lossy(&out.stderr);
    let named = |line: &str| line.rfind("wattlerugby_").map(|at| line[at..].trim_end_matches(['\'', '`', '"']).to_string());
    Err(said.lines().filter(|line| line.contains("undefined")).filter_map(named).collect())
}

/// A program that was compiled when values had 16 bits would have its buffers read past their ends.
#[test]
fn an_older_program_is_refused() {
    let calls = declared(&before());
    assert!(calls.keys().eq(changed().keys()), "tests/before has each call that was changed");
    let old = archive_before("older-program");
    for (call, symbol) in calls {
        let older = program(&format!("older-{}", call.trim_start_matches("wattlerugby_")), &call, &before());
        assert_eq!(link(&older, &old), Ok(()), "{call} with its own archive");
        assert_eq!(link(&older, &archive()), Err(vec![symbol]));
    }
}

#[test]
fn an_older_archive_is_refused() {
    let old = archive_before("older-archive");
    for (call, symbol) in changed() {
        let newer = program(&format!("newer-{}", call.trim_start_matches("wattlerugby_")), &call, &today());
        assert_eq!(link(&newer, &archive()), Ok(()), "{call} with its own archive");
        assert_eq!(link(&newer, &old), Err(vec![symbol]));
    }
}

#[test]
fn the_archive_has_the_declared_calls_alone() {
    let mut symbols: Vec<String> = declared(&today()).into_values().collect();
    symbols.sort();
    let mut names = exported(&archive());
    names.retain(|name| name.starts_with("wattlerugby_"));
    names.sort();
    assert_eq!(names, symbols);
}
