//! `wattle judge`: whether a removal list keeps the rules on a grid, and where not, which of its entries breaks which rule.

use crate::args::Args;
use crate::body::Body;
use crate::file::{refusal, Scan, Source};
use crate::kept::Kept;
use crate::start::Start;
use crate::words::{are, some};
use crate::{Answer, Failure, Status};
use std::io::Read;
use std::path::Path;
use wattlerugby::{Entry, Grid, Judged, Refusal, GONE};

pub fn judge(args: &Args) -> Result<Answer, Failure> {
    let [file, path] = [0, 1].map(|i| args.files[i].as_path());
    if file == Path::new("-") && path == Path::new("-") {
        return Err(Failure::unusable("the grid and the list are both the standard input; give one of them as a file"));
    }
    let scan = Scan::open(file)?.allowing(args)?;
    let start = Start::of(args, &scan)?;
    let (mut grid, _) = start.begin(&scan, scan.allowed).map_err(|refused| refusal(&scan.name, refused))?;
    let (name, list) = read(path, scan.values.len())?;
    Ok(match grid.judge(&list) {
        Ok(judged) => Answer::text(accepted(&scan, &start, &grid, &name, &list, judged), Status::Done),
        Err(refused) => Answer::text(refused_told(&scan, &mut grid, &name, &list, refused), Status::Refused),
    })
}

/// The list's name, and as many of its bytes as decide: each entry that is allowed removes a voxel, so of a grid with n voxels no entry after the
/// next to n is looked at.
fn read(path: &Path, n: usize) -> Result<(String, Vec<u8>), Failure> {
    let most = (Entry::LENGTH * (n + 1)) as u64;
    let mut bytes = Vec::new();
    let done = match path == Path::new("-") {
        true => std::io::stdin().take(most).read_to_end(&mut bytes),
        false => std::fs::File::open(path).and_then(|file| file.take(most).read_to_end(&mut bytes)),
    };
    done.map_err(|e| Failure::unusable(format!("{} cannot be read: {e}", path.display())))?;
    Ok((Source::named(path, Vec::new()).name, bytes))
}

/// The whole entries of a list.
fn entries(list: &[u8]) -> impl Iterator<Item = Entry> + '_ {
    list.chunks_exact(Entry::LENGTH).map(|bytes| Entry::first(bytes).expect("judge took the mark"))
}

/// What is kept after some entries that judge allows.
fn after<'a>(scan: &'a Scan, grid: &Grid, list: &[u8]) -> Kept<'a> {
    let mut left = Kept::of(scan, grid);
    entries(list).for_each(|entry| left.kept[entry.index() as usize] = false);
    left
}

// ---- accepted

fn accepted(scan: &Scan, start: &Start, grid: &Grid, name: &str, list: &[u8], judged: Judged) -> String {
    let left = after(scan, grid, list);
    let to_open = left.to_open().count();
    let open = match to_open {
        0 => "no voxel is left to open (15)".to_string(),
        some_left => format!("{} could still be opened", some(some_left, "voxel")),
    };
    let Judged { removals, openings, euler } = judged;
    format!(
        "{name} is accepted on {}: removals {removals}, openings {openings} of {} allowed, Euler number {euler}.\n\
         It leaves {}, and {open}.\n{}\n",
        scan.name,
        scan.allowed,
        some(left.count(), "voxel"),
        beside_ours(scan, start, &left),
    )
}

/// How the list's body stands to the one that our own calls leave from the same start.
fn beside_ours(scan: &Scan, start: &Start, left: &Kept) -> String {
    let ours = Body::carve(scan, start.clone()).expect("begin took the same values");
    let kept = |i: usize| ours.grid.status()[i] != GONE;
    let alone = |here: bool| (0..left.kept.len()).filter(|&i| left.kept[i] == here && kept(i) != here).count();
    match (alone(true), alone(false)) {
        (0, 0) => "Our own removals leave the same body.".to_string(),
        (theirs, ours) => {
            format!("Our own removals leave another body: {} kept by the list alone, {ours} by ours alone.", are(theirs, "voxel"))
        }
    }
}

// ---- refused

fn refused_told(scan: &Scan, grid: &mut Grid, name: &str, list: &[u8], refused: Refusal) -> String {
    let first = format!("{name} is refused {} on {}: {}.\n", refused.0, scan.name, refused.reason());
    if refused == Refusal::STILL_PASSES {
        return first + &still_passing(&after(scan, grid, list));
    }
    let number = first_refused(grid, list);
    let start = Entry::LENGTH * number;
    let bytes = &list[start..list.len().min(start + Entry::LENGTH)];
    let place = format!("Where: entry {}, byte {start}", number + 1);
    let told = match Entry::first(bytes) {
        Err(Refusal::SHORT) => format!("{place}: {} left, and an entry has {}.\n", are(bytes.len(), "byte"), Entry::LENGTH),
        Err(_) => format!("{place}: it begins with hex {:02X} {:02X}, and an entry with 56 52 or 56 4F.\n", bytes[0], bytes[1]),
        Ok(entry) if refused == Refusal::INDEX => {
            format!("{place}: index {}, and the grid's are 0 to {}.\n", entry.index(), scan.values.len() - 1)
        }
        Ok(entry) => {
            let what = if entry.opens() { "an opening" } else { "an ordinary removal" };
            let why = broken(&after(scan, grid, &list[..start]), entry, &list[..start], scan.allowed);
            format!("{place}: {what} of voxel {}.\nWhy: {}.\n", scan.voxel(entry.index() as usize), why.join("; "))
        }
    };
    first + &told
}

/// The entry that a list is refused for, by its place. Up to it the list is taken, or refused for its end alone; the list of no entries is.
fn first_refused(grid: &mut Grid, list: &[u8]) -> usize {
    let mut taken = |count: usize| {
        let judged = grid.judge(&list[..list.len().min(Entry::LENGTH * count)]);
        matches!(judged, Ok(_) | Err(Refusal::STILL_PASSES))
    };
    // by halving: the first `low` entries are taken, the first `high` are not
    let (mut low, mut high) = (0, list.len().div_ceil(Entry::LENGTH));
    while high - low > 1 {
        let middle = low + (high - low) / 2;
        if taken(middle) {
            low = middle;
        } else {
            high = middle;
        }
    }
    low
}

fn still_passing(left: &Kept) -> String {
    let passing: Vec<usize> = left.passing().collect();
    let passes = if passing.len() == 1 { "passes" } else { "pass" };
    let first = left.scan.voxel(passing[0]);
    format!(
        "Where: at its end {} still {passes} the local test, such as {first}: the list is not carved to the end.\n",
        some(passing.len(), "voxel")
    )
}

/// Every rule that a removal breaks, when these are kept.
fn broken(left: &Kept, entry: Entry, before: &[u8], allowed: u16) -> Vec<String> {
    let index = entry.index() as usize;
    if !left.kept[index] {
        return vec![match entries(before).position(|earlier| earlier.index() as usize == index) {
            Some(earlier) => format!("the voxel is not kept at its turn: entry {} removed it", earlier + 1),
            None => "the voxel is not kept: it is none of those that carving starts from".to_string(),
        }];
    }
    if left.inside[index] {
        return vec!["the voxel is inside, where nothing is removed".to_string()];
    }
    let test = left.test(index);
    let passes = (test.k, test.m) == (1, 1);
    if !entry.opens() {
        return vec![format!("the voxel does not pass the local test at its turn, with k = {} and m = {}", test.k, test.m)];
    }
    let made = entries(before).filter(|entry| entry.opens()).count();
    let other = left.passing().find(|&i| i != index).map(|i| left.scan.voxel(i));
    let rules = [
        (made >= usize::from(allowed)).then(|| format!("it is opening {}, and T = {} allowed", made + 1, some(allowed.into(), "opening"))),
        (!left.is_bare(index)).then(|| "each of its six face neighbours is kept".to_string()),
        passes.then(|| "the voxel passes the local test, so that it is no opening".to_string()),
        other.map(|voxel| format!("another voxel passes at that turn, {voxel}, and goes before any opening")),
    ];
    rules.into_iter().flatten().collect()
}
