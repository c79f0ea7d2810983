//! Mutants compiled to one program.

use super::own::{own, Items};
use super::{module, Mutant, Source};
use std::collections::BTreeMap;
use std::path::{Path, PathBuf};
use std::process::Command;

/// What is to be quick: to compile a program, as is best where it has little to do, or to run it.
#[derive(Debug, Clone, Copy, PartialEq)]
pub enum Quick {
    Compiled,
    Run,
}

/// Compiles mutants to one program in a folder, with what they share compiled once. A mutant's name as its argument makes it the replay tool of that
/// mutant; with another it is the reference's.
pub fn build(sources: &[Source], mutants: &[&Mutant], quick: Quick, folder: &Path) -> Result<PathBuf, String> {
    let mut modules: BTreeMap<&str, String> = BTreeMap::new();
    let mut choices = String::new();
    for (k, (name, mutant)) in mutants.iter().enumerate() {
        let own = own(sources, mutant).map_err(|wrong| format!("{name}: {wrong}"))?;
        for (file, _) in sources {
            let Some(items) = own.get(module(file)) else { continue };
            *modules.entry(file).or_default() += &format!("pub mod m{k} {{\n{}}}\n", text_of(items, &own, k));
        }
        let replayed = cited(&own, k, "crate::replay::standard_input(crate::calls::REFERENCE)");
        choices += &format!("        Some({name:?}) => {replayed},\n");
    }
    std::fs::create_dir_all(folder).map_err(|wrong| format!("{} cannot be made: {wrong}", folder.display()))?;
    let write = |name: &str, text: String| {
        let path = folder.join(name);
        std::fs::write(&path, text).map_err(|wrong| format!("{} cannot be written: {wrong}", path.display()))
    };
    for (file, text) in sources {
        let mutants = modules.get(file.as_str()).map_or("", String::as_str);
        write(file, format!("{text}\npub mod mutants {{\n{mutants}}}\n"))?;
    }
    write("main.rs", main_text(sources, &choices))?;
    compile(folder, quick)
}

/// A module of a mutant stands within the shared one, where all that this has is to be seen, and its own items come before those.
fn text_of(items: &Items, own: &BTreeMap<String, Items>, k: usize) -> String {
    let text: String = items.items.values().map(String::as_str).collect();
    format!("pub use super::super::*;\n{}{}", cited(own, k, &items.uses), cited(own, k, &text))
}

/// A text whose paths lead to a mutant's own modules, where it has some.
fn cited(own: &BTreeMap<String, Items>, k: usize, text: &str) -> String {
    own.keys()
        .fold(text.to_string(), |text, module| text.replace(&format!("crate::{module}::"), &format!("crate::{module}::mutants::m{k}::")))
}

fn main_text(sources: &[Source], choices: &str) -> String {
    let declared: String = sources.iter().map(|(file, _)| format!("pub mod {};\n", module(file))).collect();
    format!(
        "{declared}fn main() -> std::process::ExitCode {{\n    match std::env::args().nth(1).as_deref() {{\n{choices}        \
         _ => replay::standard_input(calls::REFERENCE),\n    }}\n}}\n"
    )
}

/// Sums wrap, so that a mutant is caught by what it answers and not by a check of the compiler's.
fn compile(folder: &Path, quick: Quick) -> Result<PathBuf, String> {
    let program = folder.join("replay");
    let options = ["--edition", "2021", "--crate-name", "replay", "-A", "warnings", "--error-format", "short"];
    let level = match quick {
        Quick::Compiled => "opt-level=0",
        Quick::Run => "opt-level=2",
    };
    let codegen = [
        "-C",
        level,
        "-C",
        "codegen-units=1",
        "-C",
        "debuginfo=0",
        "-C",
        "panic=abort",
        "-C",
        "overflow-checks=off",
        "-C",
        "debug-assertions=off",
    ];
    let rustc = std::env::var("RUSTC").unwrap_or("rustc".to_string());
    let out = Command::new(&rustc).args(options).args(codegen).arg("-o").arg(&program).arg(folder.join("main.rs")).output();
    let out = out.map_err(|wrong| format!("{rustc} does not start: {wrong}"))?;
    if !out.status.success() {
        let said = String::from_utf8_lossy(&out.stderr).into_owned();
        return Err(format!("it does not compile: {}", said.lines().next().unwrap_or("")));
    }
    Ok(program)
}
