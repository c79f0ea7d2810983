//! Runs the call script on standard input (docs/CALL-SCRIPTS.md) and prints one line for each call.

mod script;
mod words;

use std::io::{BufRead, Write};
use std::process::ExitCode;

fn main() -> ExitCode {
    match replay() {
        Ok(()) => ExitCode::SUCCESS,
        Err(wrong) => {
            eprintln!("replay: {wrong}");
            ExitCode::from(2)
        }
    }
}

/// Every answer up to the first line that is none of the language's is written before this ends.
fn replay() -> Result<(), String> {
    let mut state = script::State::new();
    let mut out = std::io::BufWriter::new(std::io::stdout().lock());
    let unwritten = |e: std::io::Error| format!("an answer cannot be written: {e}");
    for (i, bytes) in std::io::stdin().lock().split(b'\n').enumerate() {
        let bytes = bytes.map_err(|e| format!("the script cannot be read: {e}"))?;
        let at = |wrong: String| format!("line {}: {wrong}", i + 1);
        let line = String::from_utf8(bytes).map_err(|_| at("it is not text".to_string()))?;
        if let Some(text) = state.line(&line).map_err(at)? {
            writeln!(out, "{text}").map_err(unwritten)?;
        }
    }
    out.flush().map_err(unwritten)
}
