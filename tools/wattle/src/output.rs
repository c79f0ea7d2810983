//! Where an answer goes: to a file that is not overwritten unasked, or to the standard output.

use crate::{Answer, Failure, Status};
use std::fs::{File, OpenOptions};
use std::io::{ErrorKind, IsTerminal, Result as Done, Write};
use std::path::{Path, PathBuf};

pub fn deliver(answer: Answer, output: Option<&Path>, force: bool) -> Result<Status, Failure> {
    match output {
        Some(path) => to_file(&answer.bytes, path, force)?,
        None => to_standard_output(&answer)?,
    }
    Ok(answer.status)
}

fn to_file(bytes: &[u8], path: &Path, force: bool) -> Result<(), Failure> {
    // a device or a pipe takes bytes, and is not to be replaced by a file
    let device = path.metadata().is_ok_and(|found| !found.is_file());
    let written = if force && device { std::fs::write(path, bytes) } else { replace(bytes, path, force) };
    written.map_err(|e| match e.kind() {
        ErrorKind::AlreadyExists => Failure::unusable(format!("{} is there already; --force overwrites it", path.display())),
        _ => Failure::unusable(format!("{} cannot be written: {e}", path.display())),
    })
}

/// Writes a file beside the path, and lets it take the name when it is whole: half a file would look like a whole one, and what stood
/// there before would be lost.
fn replace(bytes: &[u8], path: &Path, force: bool) -> Done<()> {
    // where a link leads to a file, it is that file that is overwritten
    let target = path.canonicalize().unwrap_or_else(|_| path.to_path_buf());
    let (file, aside) = beside(&target)?;
    fill(file, bytes, &target).and_then(|()| rename(&aside, &target, force)).inspect_err(|_| {
        let _ = std::fs::remove_file(&aside);
    })
}

/// A new file in the target's folder, under a name that nothing has.
fn beside(target: &Path) -> Done<(File, PathBuf)> {
    let mut number = 0;
    loop {
        let aside = target.with_file_name(format!(".wattle-{}-{number}", std::process::id()));
        match OpenOptions::new().write(true).create_new(true).open(&aside) {
            Err(e) if e.kind() == ErrorKind::AlreadyExists => number += 1,
            opened => return opened.map(|file| (file, aside)),
        }
    }
}

fn fill(mut file: File, bytes: &[u8], target: &Path) -> Done<()> {
    if let Ok(old) = target.metadata() {
        // who may not write to the old file may not replace it, and the new one has its permissions
        OpenOptions::new().write(true).open(target)?;
        file.set_permissions(old.permissions())?;
    }
    file.write_all(bytes)?;
    // a disk may tell only here that it is full
    file.sync_all()
}

fn rename(aside: &Path, target: &Path, force: bool) -> Done<()> {
    if force {
        return std::fs::rename(aside, target);
    }
    // fails where the file is there, with no gap between looking and creating
    OpenOptions::new().write(true).create_new(true).open(target)?;
    std::fs::rename(aside, target).inspect_err(|_| {
        let _ = std::fs::remove_file(target);
    })
}

fn to_standard_output(answer: &Answer) -> Result<(), Failure> {
    let mut out = std::io::stdout();
    if answer.binary && out.is_terminal() {
        return Err(Failure::unusable("this answer is no text for a terminal; give -o OUT, or send it to a file"));
    }
    match out.write_all(&answer.bytes).and_then(|()| out.flush()) {
        // the reader has seen enough, as `head` does
        Err(e) if e.kind() == ErrorKind::BrokenPipe => Ok(()),
        Err(e) => Err(Failure::unusable(format!("the standard output cannot be written: {e}"))),
        Ok(()) => Ok(()),
    }
}
