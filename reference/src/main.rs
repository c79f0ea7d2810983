//! `reference` prints the line of the program carve for the grid file on standard input.
//! `reference replay` runs the call script on standard input.

use std::io::Read;
use std::process::ExitCode;

fn main() -> ExitCode {
    match std::env::args().nth(1).as_deref() {
        None => program(),
        Some("replay") => reference::replay::standard_input(reference::calls::REFERENCE),
        Some(other) => {
            eprintln!("reference: unknown mode {other}; usage: reference [replay]");
            ExitCode::from(2)
        }
    }
}

fn program() -> ExitCode {
    let mut file = Vec::new();
    if let Err(wrong) = std::io::stdin().read_to_end(&mut file) {
        eprintln!("reference: the file cannot be read: {wrong}");
        return ExitCode::from(2);
    }
    println!("{}", reference::file::program_line(&file));
    ExitCode::SUCCESS
}
