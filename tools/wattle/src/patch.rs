//! `wattle patch`: the file with single voxels corrected, by patch records after its own bytes.

use crate::args::Args;
use crate::file::{Scan, Source};
use crate::marks::index;
use crate::{Answer, Failure};
use wattlerugby::NARROW_MISSING;

pub fn patch(args: &Args) -> Result<Answer, Failure> {
    if !args.has("--set") {
        return Err(Failure::unusable("patch needs --set VOXEL=VALUE; see `wattle help patch`"));
    }
    let source = Source::open(&args.files[0])?;
    let mut file = source.bytes.clone();
    let scan = Scan::of(source)?;
    for (index, value) in sets(args, &scan, "a value from -32767 to 32767, or `missing`", number)? {
        file.extend(wattlerugby::patch(index as u32, value));
    }
    Ok(Answer::file(file))
}

/// What a patch has two bytes for. The number -32768 is not taken: in two bytes it is the mark of a missing point, which has its own word.
fn number(value: &str) -> Option<i16> {
    match value {
        "missing" => Some(NARROW_MISSING),
        _ => value.parse().ok().filter(|&number| number != NARROW_MISSING),
    }
}

/// The voxels that `--set` names, each with its value, in the order given. `due` says what a value can be.
pub fn sets<V>(args: &Args, scan: &Scan, due: &str, number: impl Fn(&str) -> Option<V>) -> Result<Vec<(usize, V)>, Failure> {
    let unlike = |due: &str, word: &str| Failure::unusable(format!("--set takes {due}, not {word}; see `wattle help {}`", args.command));
    let set = |word: &str| {
        let (voxel, value) = word.split_once('=').ok_or_else(|| unlike("VOXEL=VALUE", word))?;
        Ok((index(args, scan, "--set", voxel)?, number(value).ok_or_else(|| unlike(due, value))?))
    };
    args.values("--set").map(set).collect()
}
