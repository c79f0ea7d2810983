//! Runs the program carve on grid files from seeds and holds its line to the reference's.
//! usage: match_program PROGRAM COUNT [FIRST SEED]

use std::collections::BTreeMap;
use std::process::ExitCode;
use tests::compare::line_of;
use tests::files::{file, long_file, patched_file, walled_file, wide_file};

fn main() -> ExitCode {
    let args: Vec<String> = std::env::args().collect();
    let number = |i: usize| args.get(i).and_then(|n| n.parse::<u64>().ok());
    let (Some(program), Some(count)) = (args.get(1), number(2)) else {
        eprintln!("usage: match_program PROGRAM COUNT [FIRST SEED]");
        return ExitCode::from(2);
    };
    match differences(program, count, number(3).unwrap_or(1)) {
        Ok(0) => ExitCode::SUCCESS,
        Ok(_) => ExitCode::FAILURE,
        Err(wrong) => {
            eprintln!("match_program: {wrong}");
            ExitCode::from(2)
        }
    }
}

/// The file of a seed: with patches or without, with layers of both widths, with gaps, and now and then about as long as the program takes.
fn drawn(seed: u64) -> Vec<u8> {
    let greatest = if seed.is_multiple_of(8) { 24 } else { 10 };
    if seed.is_multiple_of(37) {
        long_file(seed)
    } else if seed.is_multiple_of(5) {
        wide_file(seed, greatest)
    } else if seed.is_multiple_of(4) {
        walled_file(seed, greatest)
    } else if seed.is_multiple_of(3) {
        file(seed, greatest)
    } else {
        patched_file(seed, greatest)
    }
}

/// How many lines differ, each of them printed.
fn differences(program: &str, count: u64, first: u64) -> Result<u64, String> {
    let mut kinds: BTreeMap<String, u64> = BTreeMap::new();
    let mut differ = 0;
    for seed in first..first + count {
        let file = drawn(seed);
        let wanted = format!("{}\n", reference::file::program_line(&file));
        let said = line_of(program, &file)?;
        if said != wanted {
            differ += 1;
            println!("seed {seed}: wanted {wanted:?}, the program said {said:?}");
        }
        let kind = if wanted.starts_with("refused") { wanted.trim().to_string() } else { "carved".to_string() };
        *kinds.entry(kind).or_default() += 1;
    }
    let kinds: Vec<String> = kinds.iter().map(|(k, n)| format!("{k}: {n}")).collect();
    println!("{count} files, {differ} lines differ ({})", kinds.join(", "));
    Ok(differ)
}
