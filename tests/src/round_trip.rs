//! Every good file at hand is read, written and read again: sides, T and values are the same both times, and what is written is the file with its
//! patches in the layers, all of them of the width that their values need: so the same bytes where there is no patch and no wider layer than needed.

use crate::compare::{bears_on_the_file, read_kind, reference_lines, Script};
use crate::conformance::kinds;
use crate::files::{file, hex, layer, long_file, patched_file, walled_file, wide_file};
use crate::records::{contents, written_width};
use reference::calls::REFERENCE;
use reference::file::read;
use reference::grid::Sides;
use reference::replay::Replay;
use std::collections::BTreeSet;
use std::path::Path;

/// How many seeds name a file each, without patches, with them, with layers of both widths, and with gaps; and how many a long one.
const SEEDS: u64 = 1000;
const LONG: u64 = 20;

/// A file and where it comes from.
type Named = (String, Vec<u8>);

/// The files that the conformance scripts have at any time.
fn of_scripts(folder: &Path) -> Result<Vec<Named>, String> {
    let mut found = Vec::new();
    for kind in kinds() {
        for script in read_kind(folder, kind)? {
            let mut state = Replay::new(REFERENCE);
            for command in script.text.lines().filter(|command| bears_on_the_file(command)) {
                state.line(command)?;
                found.push((script.name.clone(), state.file.clone()));
            }
        }
    }
    Ok(found)
}

fn of_samples(folder: &Path) -> Result<Vec<Named>, String> {
    let told = |wrong: std::io::Error| format!("{} cannot be read: {wrong}", folder.display());
    let mut found = Vec::new();
    for entry in std::fs::read_dir(folder).map_err(told)? {
        let path = entry.map_err(told)?.path();
        if path.extension().is_some_and(|end| end == "grid") {
            found.push((path.display().to_string(), std::fs::read(&path).map_err(told)?));
        }
    }
    found.sort();
    Ok(found)
}

fn of_seeds() -> impl Iterator<Item = Named> {
    let greatest = |seed: u64| if seed.is_multiple_of(8) { 24 } else { 10 };
    let plain = (1..=SEEDS).map(move |seed| (format!("seed {seed}"), file(seed, greatest(seed))));
    let patched = (1..=SEEDS).map(move |seed| (format!("patched seed {seed}"), patched_file(seed, greatest(seed))));
    let wide = (1..=SEEDS).map(move |seed| (format!("wide seed {seed}"), wide_file(seed, greatest(seed))));
    let walled = (1..=SEEDS).map(move |seed| (format!("walled seed {seed}"), walled_file(seed, greatest(seed))));
    plain.chain(patched).chain(wide).chain(walled).chain((1..=LONG).map(|seed| (format!("long seed {seed}"), long_file(seed))))
}

/// How many values a file has; nothing where it is refused.
fn values_in(file: &[u8]) -> Option<usize> {
    let n = file.get(2..5)?.iter().map(|&side| usize::from(side)).product();
    read(file, &mut vec![0; n], 64).ok().map(|_| n)
}

/// A good file with its patches among the layers' values, and these in layers of one width.
fn written_form(file: &[u8]) -> Vec<u8> {
    let [a, b, c] = [file[2], file[3], file[4]].map(u64::from);
    let values = contents(file, &Sides { a, b, c });
    let width = written_width(&values);
    let layers = values.chunks((a * b) as usize).enumerate().flat_map(|(z, values)| layer(z, values, width));
    file[..7].iter().copied().chain(layers).collect()
}

/// Reads the file, writes what was read, and reads that where nothing is as the file has it.
fn commands(file: &[u8], n: usize) -> String {
    let other_t = u16::from_le_bytes([file[5], file[6]]) ^ 1;
    let room = file.len().max(written_form(file).len());
    let written = format!("write {room}\nshowfile\nrawsides 65 65 65\nT {other_t}\nvalues list\nvalues len {n}");
    format!("autohash 0\nfile {}\nvalues len {n}\nread\ndump values\n{written}\nread\ndump values\n", hex(file))
}

/// Holds the lines of these commands to what the file has.
fn held(file: &[u8], lines: &[String]) -> Result<(), String> {
    let [sides, values, written, shown, sides_again, values_again] = lines else { return Err("other lines than wanted".to_string()) };
    let form = written_form(file);
    if !written.starts_with(&format!("write ok length {} ", form.len())) {
        return Err(format!("it is not written: {written}"));
    }
    if shown.to_lowercase() != hex(&form) {
        return Err("what is written is not the file's values in layers of one width".to_string());
    }
    if (sides, values) != (sides_again, values_again) {
        return Err(format!("{sides} at first, then {sides_again}, and the values are the same: {}", values == values_again));
    }
    Ok(())
}

/// A script for each good file, no two of them the same, with the reference's lines: those are held to the file.
pub fn scripts(conformance: &Path, samples: &Path) -> Result<Vec<Script>, String> {
    let mut seen = BTreeSet::new();
    let mut scripts = Vec::new();
    for (origin, file) in of_samples(samples)?.into_iter().chain(of_scripts(conformance)?).chain(of_seeds()) {
        let Some(n) = values_in(&file).filter(|_| seen.insert(file.clone())) else { continue };
        let name = format!("rewrite {}", scripts.len() + 1);
        let text = format!("# {name}: {origin}\n{}", commands(&file, n));
        let answers = reference_lines(&text)?;
        held(&file, &answers).map_err(|wrong| format!("{origin}: {wrong}"))?;
        scripts.push(Script { name, first_line: 1, text, answers });
    }
    Ok(scripts)
}

#[cfg(test)]
mod tests {
    use super::*;

    #[test]
    fn every_good_file_comes_back() {
        let root = Path::new(env!("CARGO_MANIFEST_DIR")).join("..");
        let scripts = scripts(&root.join("conformance"), &root.join("samples")).expect("each file is written as it should be");
        let from = |what: &str| scripts.iter().filter(|script| script.text.lines().next().is_some_and(|line| line.contains(what))).count();
        assert_eq!(from(".grid"), std::fs::read_dir(root.join("samples")).expect("samples").filter(is_grid).count());
        let kinds = [("files", 20), ("damage", 20), ("orders", 20), ("writes", 40), ("writing", 30), ("patches", 40), ("patching", 40)];
        let kinds = kinds.into_iter().chain([("widths", 40), ("widening", 40)]);
        for (kind, least) in kinds.chain([("seed", 600), ("patched", 400), ("wide", 500), ("long", 5)]) {
            assert!(from(&format!(": {kind} ")) >= least, "{kind}: {}", from(&format!(": {kind} ")));
        }
    }

    fn is_grid(entry: &std::io::Result<std::fs::DirEntry>) -> bool {
        entry.as_ref().is_ok_and(|entry| entry.path().extension().is_some_and(|end| end == "grid"))
    }

    #[test]
    fn what_does_not_come_back_is_told() {
        let patched =
            (1..).map(|seed| patched_file(seed, 5)).find(|file| values_in(file).is_some() && !file.starts_with(&written_form(file)));
        let file = &patched.expect("a file that its patches change")[..];
        let lines = reference_lines(&commands(file, values_in(file).expect("it is good"))).expect("a script");
        assert_eq!(held(file, &lines), Ok(()));
        let told = |line: usize, instead: String| {
            let mut lines = lines.clone();
            lines[line] = instead;
            held(file, &lines).is_err()
        };
        assert!(told(2, "write refused 26 buffer 0000000000000000".to_string()));
        assert!(told(3, hex(&file[..written_form(file).len()]).to_uppercase()), "its layers without the patches");
        let (header, layers) = lines[3].split_at(2 * 7);
        let falling: Vec<&[u8]> = layers.as_bytes().chunks(layers.len() / usize::from(file[4])).rev().collect();
        assert!(told(3, header.to_string() + &String::from_utf8_lossy(&falling.concat())), "its layers in falling z");
        assert!(told(4, lines[4].replace(" T ", " T 1")));
        assert!(told(5, lines[5].replacen('[', "[0, ", 1)));
        assert!(held(file, &lines[..5]).is_err());
    }
}
