//! Holds a replay tool to the reference. A tool is named with its arguments in one word: 'reference replay'.
//!
//! usage: fuzz check REPLAY FOLDER [KIND ..]       the conformance scripts against their answers, and the lines that a tool must refuse (`mistakes`);
//!                                                 of these kinds alone where any is named
//!        fuzz show FOLDER KIND NUMBER             prints one conformance script
//!        fuzz program PROGRAM FOLDER              the program's line for each file of the conformance scripts
//!        fuzz rewrite REPLAY FOLDER SAMPLES       every good file of these folders, and of four thousand seeds, read, written and read again
//!        fuzz rewriting FOLDER SAMPLES NUMBER     prints one of its scripts
//!        fuzz write FOLDER                        makes the conformance files; fails where one of the list's entries is missing
//!        fuzz list                                that list, with how many calls meet each entry
//!        fuzz run REPLAY COUNT [FIRST SEED]       COUNT random scripts
//!        fuzz script KIND SEED GREATEST           prints the script of a seed, on grids up to a greatest side
//!        fuzz blocks REPLAY [FIRST COUNT]         the local test on blocks; on all 2^26 if no others are named

use reference::calls::REFERENCE;
use reference::replay::Replay;
use std::collections::BTreeMap;
use std::path::Path;
use std::process::ExitCode;
use tests::compare::{bears_on_the_file, line_of, prints, read_kind, reference_lines, Differences, Script, Tool};
use tests::conformance::{kinds, Made, MISTAKES_FILE};
use tests::progress::Progress;
use tests::round_trip;
use tests::scripts::{script, SEEDED};

const USAGE: &str = "usage: fuzz check REPLAY FOLDER [KIND ..] | show FOLDER KIND NUMBER | program PROGRAM FOLDER | \
                     rewrite REPLAY FOLDER SAMPLES | rewriting FOLDER SAMPLES NUMBER | write FOLDER | list | \
                     run REPLAY COUNT [FIRST SEED] | script KIND SEED GREATEST | blocks REPLAY [FIRST COUNT]";

/// Whether all is the same; an error where that could not be found out.
type Same = Result<bool, String>;

fn main() -> ExitCode {
    let args: Vec<String> = std::env::args().skip(1).collect();
    let words: Vec<&str> = args.iter().map(String::as_str).collect();
    match command(&words) {
        Ok(true) => ExitCode::SUCCESS,
        Ok(false) => ExitCode::FAILURE,
        Err(wrong) => {
            eprintln!("fuzz: {wrong}");
            ExitCode::from(2)
        }
    }
}

fn command(words: &[&str]) -> Same {
    let number = |word: &str| word.parse::<u64>().map_err(|_| format!("not a number: {word}\n{USAGE}"));
    match words {
        ["check", replay, folder, named @ ..] => check(&Tool::named(replay), Path::new(folder), named),
        ["show", folder, kind, which] => show(Path::new(folder), kind, which),
        ["program", program, folder] => program_lines(program, Path::new(folder)),
        ["rewrite", replay, folder, samples] => rewrite(&Tool::named(replay), folder, samples),
        ["rewriting", folder, samples, which] => rewriting(folder, samples, which),
        ["write", folder] => Made::new()?.write(Path::new(folder)).map(|()| true),
        ["list"] => list(),
        ["run", replay, count] => run(&Tool::named(replay), number(count)?, 1),
        ["run", replay, count, first] => run(&Tool::named(replay), number(count)?, number(first)?),
        ["script", kind, seed, greatest] => {
            print!("{}", script(kind, number(seed)?, number(greatest)? as i64));
            Ok(true)
        }
        ["blocks", replay] => blocks(&Tool::named(replay), 0, 1 << 26),
        ["blocks", replay, first, count] => blocks(&Tool::named(replay), number(first)?, number(count)?),
        _ => Err(USAGE.to_string()),
    }
}

/// This program as it was called, for what it says to run.
fn this() -> String {
    std::env::args().next().unwrap_or("fuzz".to_string())
}

fn list() -> Same {
    for (entry, met, least) in Made::new()?.counts() {
        println!("{met} of {least}  {entry}");
    }
    Ok(true)
}

// ---- conformance

/// The lines that a tool must refuse, as a kind.
const MISTAKES: &str = "mistakes";

/// Whether a kind is to be checked: all are where none is named.
fn wanted(named: &[&str], kind: &str) -> bool {
    named.is_empty() || named.contains(&kind)
}

fn known(named: &[&str]) -> Result<(), String> {
    match named.iter().find(|&&name| name != MISTAKES && kinds().all(|kind| kind != name)) {
        Some(name) => Err(format!("no kind of scripts: {name}; there are {}, {MISTAKES}", kinds().collect::<Vec<_>>().join(", "))),
        None => Ok(()),
    }
}

fn check(replay: &Tool, folder: &Path, named: &[&str]) -> Same {
    known(named)?;
    let (mut tally, mut found, mut scripts, progress) = (Tally::default(), Differences::default(), 0, Progress::default());
    for kind in kinds().filter(|kind| wanted(named, kind)) {
        let given = read_kind(folder, kind)?;
        progress.at(format!("{kind}: {} scripts", given.len()));
        given.iter().flat_map(|script| &script.answers).for_each(|line| tally.count(line));
        found.of(replay, &given, |script| format!("{} show {} {}", this(), folder.display(), script.name))?;
        scripts += given.len();
    }
    let mut taken = 0;
    if wanted(named, MISTAKES) {
        progress.at("lines that are not of the language");
        taken = mistakes_taken(replay, folder)?;
    }
    progress.clear();
    println!(
        "{scripts} conformance scripts, {} calls: {} lines differ in {} scripts, {taken} mistakes are taken",
        tally.total(),
        found.lines,
        found.scripts
    );
    found.print_counts();
    Ok(found.lines == 0 && taken == 0)
}

/// How many of the lines that are not of the language a tool takes.
fn mistakes_taken(replay: &Tool, folder: &Path) -> Result<u64, String> {
    let path = folder.join(MISTAKES_FILE);
    let lines = std::fs::read_to_string(&path).map_err(|wrong| format!("{} cannot be read: {wrong}", path.display()))?;
    let mut taken = 0;
    for line in lines.lines() {
        let run = replay.run(line)?;
        if run.status != Some(2) || !run.lines.is_empty() {
            Progress::default().clear();
            let how = run.wrong.unwrap_or("ended well".to_string());
            println!("{} takes {line:?}, which is not of the language: it {how}, with {} lines", replay.name(), run.lines.len());
            println!("  see it: printf '%s\\n' '{line}' | {}", replay.name());
            taken += 1;
        }
    }
    Ok(taken)
}

fn show(folder: &Path, kind: &str, which: &str) -> Same {
    let name = format!("{kind} {which}");
    let scripts = read_kind(folder, kind)?;
    let found = scripts.iter().find(|script| script.name == name).ok_or(format!("{} has no script {name}", folder.display()))?;
    print!("{}", found.text);
    Ok(true)
}

/// Gives the program itself every file for which a script asks its line.
fn program_lines(program: &str, folder: &Path) -> Same {
    let (mut files, mut differ) = (0, 0);
    for kind in kinds() {
        for script in read_kind(folder, kind)? {
            let mut state = Replay::new(REFERENCE);
            let mut answers = script.answers.iter();
            for command in script.text.lines() {
                let wanted = prints(command).then(|| answers.next()).flatten();
                if let Some(wanted) = wanted.filter(|_| command.trim() == "program") {
                    files += 1;
                    let said = line_of(program, &state.file)?;
                    if said != format!("{wanted}\n") {
                        differ += 1;
                        println!("{}, program: wanted {wanted:?}, {program} said {said:?}", script.name);
                    }
                } else if bears_on_the_file(command) {
                    state.line(command)?;
                }
            }
        }
    }
    println!("{files} files of the conformance scripts, {differ} lines of the program differ");
    Ok(differ == 0)
}

// ---- files read and written

fn rewrite(replay: &Tool, folder: &str, samples: &str) -> Same {
    let scripts = round_trip::scripts(Path::new(folder), Path::new(samples))?;
    let mut found = Differences::default();
    let number = |script: &Script| script.name.trim_start_matches("rewrite ").to_string();
    found.of(replay, &scripts, |script| format!("{} rewriting {folder} {samples} {}", this(), number(script)))?;
    println!("{} files read, written and read again: {} lines differ in {} of them", scripts.len(), found.lines, found.scripts);
    Ok(found.lines == 0)
}

fn rewriting(folder: &str, samples: &str, which: &str) -> Same {
    let scripts = round_trip::scripts(Path::new(folder), Path::new(samples))?;
    let found = scripts.iter().find(|script| script.name == format!("rewrite {which}")).ok_or(format!("no script rewrite {which}"))?;
    print!("{}", found.text);
    Ok(true)
}

// ---- scripts from seeds

/// How often each call was answered, and refused with which number.
#[derive(Default)]
struct Tally(BTreeMap<String, BTreeMap<u64, u64>>);

impl Tally {
    fn count(&mut self, line: &str) {
        let words: Vec<&str> = line.split_whitespace().take(3).collect();
        let number = match words[..] {
            [_, "ok", ..] => 0,
            [_, "refused", number] => number.parse().unwrap_or(0),
            _ => return,
        };
        *self.0.entry(words[0].to_string()).or_default().entry(number).or_default() += 1;
    }

    fn total(&self) -> u64 {
        self.0.values().flat_map(|numbers| numbers.values()).sum()
    }

    fn print(&self) {
        for (call, numbers) in &self.0 {
            let part = |(n, count): (&u64, &u64)| if *n == 0 { format!("done {count}") } else { format!("{n}: {count}") };
            println!("  {call:<9} {}", numbers.iter().map(part).collect::<Vec<_>>().join(", "));
        }
    }
}

/// The script of a seed: kinds in turn, small grids mostly. Its kind, its text and its greatest side.
fn numbered(seed: u64) -> (&'static str, String, i64) {
    let kind = if seed.is_multiple_of(331) { "large" } else { SEEDED[(seed % SEEDED.len() as u64) as usize] };
    let greatest = match seed / 8 % 16 {
        0 => 20,
        1..=6 => 12,
        _ => 7,
    };
    (kind, script(kind, seed, greatest), greatest)
}

fn run(replay: &Tool, count: u64, first: u64) -> Same {
    let (mut tally, mut found) = (Tally::default(), Differences::default());
    let seeds: Vec<u64> = (first..first + count).collect();
    for batch in seeds.chunks(100) {
        let mut scripts = Vec::new();
        for &seed in batch {
            let (kind, text, greatest) = numbered(seed);
            let answers = reference_lines(&text)?;
            answers.iter().for_each(|line| tally.count(line));
            scripts.push(Script { name: format!("{kind} {seed} {greatest}"), first_line: 1, text, answers });
        }
        found.of(replay, &scripts, |script| format!("{} script {}", this(), script.name))?;
    }
    println!("{count} scripts, {} calls: {} lines differ in {} scripts", tally.total(), found.lines, found.scripts);
    found.print_counts();
    tally.print();
    Ok(found.lines == 0)
}

// ---- blocks

/// A block's bits without the middle's.
fn block(number: u64) -> u64 {
    number & 0x1FFF | (number >> 13) << 14
}

/// How many blocks a tool is given at once.
const CHUNK: u64 = 1 << 18;

/// How many of the blocks differ.
fn other_blocks(replay: &Tool, from: u64, to: u64) -> Result<u64, String> {
    let text: String = (from..to).map(|i| format!("local {:x}\n", block(i))).collect();
    let (wanted, said) = (reference_lines(&text)?, replay.run(&text)?.lines);
    let differ = (0..wanted.len().max(said.len())).filter(|&i| wanted.get(i) != said.get(i));
    if let Some(first) = differ.clone().next() {
        println!("local {:x}: wanted {:?}, but got {:?}", block(from + first as u64), wanted.get(first), said.get(first));
    }
    Ok(differ.count() as u64)
}

/// In as many threads as there are processors.
fn blocks(replay: &Tool, first: u64, count: u64) -> Same {
    let end = first + count;
    let threads = std::thread::available_parallelism().map_or(1, |n| n.get() as u64);
    let differ: Result<u64, String> = std::thread::scope(|scope| {
        let workers: Vec<_> = (0..threads)
            .map(|worker| {
                let starts = (first..end).step_by(CHUNK as usize).skip(worker as usize).step_by(threads as usize);
                scope.spawn(move || starts.map(|from| other_blocks(replay, from, end.min(from + CHUNK))).sum::<Result<u64, String>>())
            })
            .collect();
        workers.into_iter().map(|worker| worker.join().expect("a worker ends")).sum()
    });
    let differ = differ?;
    println!("{count} blocks, {differ} differ");
    Ok(differ == 0)
}
