//! Grades conformance/: builds every mutant of tests/mutants and says which of them it does not catch. Run it from the repository's root.
//! usage: mutants [each | tell | NAME ..]      each: also the script that catches each of them; with names, so for those alone
//!                                             tell: writes these scripts to tests/mutants/told-by, by which the next grading is quick

use std::collections::BTreeSet;
use std::path::{Path, PathBuf};
use std::process::ExitCode;
use std::sync::atomic::{AtomicUsize, Ordering};
use tests::compare::Tool;
use tests::mutants::{
    build, patched, patches, read_hints, scripts, sources, what_is_old, write_hints, Hints, Mutant, Quick, Source, Telling,
};
use tests::processor::Spent;

const WORK: &str = "target/mutants";
const TABLE: &str = "tests/mutants/told-by";

fn main() -> ExitCode {
    let words: Vec<String> = std::env::args().skip(1).collect();
    match grade(&words) {
        Ok(true) => ExitCode::SUCCESS,
        Ok(false) => ExitCode::FAILURE,
        Err(wrong) => {
            eprintln!("mutants: {wrong}");
            ExitCode::from(2)
        }
    }
}

/// Something of a mutant: its program, the script that tells it, or none; or one line about what went wrong.
type Of<T> = (String, Result<T, String>);

/// The answers of some work on each item, in their order, by as many threads as there are processors.
fn each<T: Sync, A: Send>(items: &[T], work: impl Fn(&T) -> A + Sync) -> Vec<A> {
    let next = AtomicUsize::new(0);
    let turn = || {
        let at = next.fetch_add(1, Ordering::Relaxed);
        items.get(at).map(|item| (at, work(item)))
    };
    let mut done = std::thread::scope(|scope| {
        let worker = || scope.spawn(|| std::iter::from_fn(turn).collect::<Vec<_>>());
        let workers: Vec<_> = (0..threads().min(items.len())).map(|_| worker()).collect();
        workers.into_iter().flat_map(|worker| worker.join().expect("a worker ends")).collect::<Vec<_>>()
    });
    done.sort_by_key(|(at, _)| *at);
    done.into_iter().map(|(_, answer)| answer).collect()
}

fn threads() -> usize {
    std::thread::available_parallelism().map_or(1, |n| n.get())
}

fn mutant(sources: &[Source], patch: &Path) -> Result<Vec<Source>, String> {
    let text = std::fs::read_to_string(patch).map_err(|wrong| format!("{} cannot be read: {wrong}", patch.display()))?;
    patched(sources, &text).map_err(|wrong| format!("its patch no longer applies: {wrong}"))
}

/// The programs of mutants, one for all of them; where that does not compile one for each half, so that in the end the one at fault is named.
fn compiled(sources: &[Source], mutants: &[&Mutant], quick: Quick, folder: &Path) -> Vec<Of<PathBuf>> {
    match build(sources, mutants, quick, folder) {
        Ok(program) => mutants.iter().map(|(name, _)| (name.clone(), Ok(program.clone()))).collect(),
        Err(wrong) if mutants.len() == 1 => vec![(mutants[0].0.clone(), Err(wrong))],
        Err(_) => {
            let (one, other) = mutants.split_at(mutants.len() / 2);
            let halves = [(one, "one"), (other, "other")];
            halves.iter().flat_map(|(half, name)| compiled(sources, half, quick, &folder.join(name))).collect()
        }
    }
}

#[derive(Default)]
struct Times {
    compiling: Spent,
    running: Spent,
}

struct Grader {
    sources: Vec<Source>,
    telling: Telling,
}

impl Grader {
    /// Programs, as many as there are processors.
    fn programs(&self, mutants: &[&Mutant], quick: Quick) -> Vec<Of<PathBuf>> {
        let parts: Vec<usize> = (0..threads().min(mutants.len())).collect();
        let part = |k: usize| mutants.iter().copied().skip(k).step_by(parts.len()).collect::<Vec<_>>();
        let folder = |k: usize| Path::new(WORK).join(format!("{quick:?}-{k}"));
        each(&parts, |&k| compiled(&self.sources, &part(k), quick, &folder(k))).into_iter().flatten().collect()
    }

    /// The scripts by which programs are told. Those that do not run quickly are tried on their hints alone.
    fn told(&self, programs: &[Of<PathBuf>], quick: Quick) -> Vec<Of<Option<String>>> {
        let by = |name: &str, program: &Path| {
            let tool = Tool::of(program, name);
            let by = match quick {
                Quick::Compiled => self.telling.told_by_hint(&tool, name),
                Quick::Run => self.telling.told_by(&tool, name),
            };
            by.map(|by| by.map(str::to_string))
        };
        each(programs, |(name, program)| (name.clone(), program.as_ref().map_err(String::clone).and_then(|program| by(name, program))))
    }

    /// What tells a mutant may not tell the reference in the same program: or that a mutant is told would say nothing.
    fn held_to_the_reference(&self, programs: &[Of<PathBuf>], told: &[Of<Option<String>>]) -> Result<(), String> {
        let pair = |(program, by): (&Of<PathBuf>, &Of<Option<String>>)| Some((program.1.clone().ok()?, by.1.clone().ok()??));
        let pairs: Vec<_> = programs.iter().zip(told).filter_map(pair).collect::<BTreeSet<_>>().into_iter().collect();
        let tells = each(&pairs, |(program, script)| self.telling.tells_by_name(&Tool::of(program, ""), script));
        for (tells, (_, script)) in tells.into_iter().zip(pairs) {
            if tells? {
                return Err(format!("the reference itself does not answer as it must on {script} of conformance/"));
            }
        }
        Ok(())
    }

    fn graded(&self, mutants: &[&Mutant], quick: Quick, times: &mut Times) -> Result<Vec<Of<Option<String>>>, String> {
        let programs = times.compiling.on(|| self.programs(mutants, quick));
        times.running.on(|| {
            let told = self.told(&programs, quick);
            self.held_to_the_reference(&programs, &told).map(|()| told)
        })
    }

    /// Those with a cheap hint are tried on it, in programs that are quickly compiled. All others, and of these what is left, are run on whatever
    /// tells them, in programs that run quickly.
    fn fates(&self, mutants: &[Mutant], times: &mut Times) -> Result<Vec<Of<String>>, String> {
        let (soon, mut late): (Vec<_>, Vec<_>) = mutants.iter().partition(|(name, _)| self.telling.is_soon_told(name));
        let mut graded = self.graded(&soon, Quick::Compiled, times)?;
        graded.retain(|(_, by)| *by != Ok(None));
        late.extend(soon.into_iter().filter(|(name, _)| !graded.iter().any(|(other, _)| other == name)));
        graded.extend(self.graded(&late, Quick::Run, times)?);
        let fate = |by: Option<String>| by.ok_or("conformance/ does not catch it".to_string());
        Ok(graded.into_iter().map(|(name, by)| (name, by.and_then(fate))).collect())
    }
}

fn grade(words: &[String]) -> Result<bool, String> {
    let sources = sources(Path::new("reference/src"))?;
    let hints = read_hints(Path::new(TABLE));
    let (all, tell) = (words.is_empty() || words[0] == "each" || words[0] == "tell", words.first().is_some_and(|word| word == "tell"));
    let (mut mutants, mut fates) = (Vec::new(), Vec::new());
    let patches = patches(Path::new("tests/mutants"))?;
    for (name, patch) in patches.iter().filter(|(name, _)| all || words.contains(name)) {
        match mutant(&sources, patch) {
            Ok(sources) => mutants.push((name.clone(), sources)),
            Err(wrong) => fates.push((name.clone(), Err(wrong))),
        }
    }
    let telling = Telling::new(scripts(Path::new("conformance"))?, hints.clone());
    let mut times = Times::default();
    fates.extend(Grader { sources, telling }.fates(&mutants, &mut times)?);
    fates.sort();
    println!("{}\n{}", times.compiling.line("mutants compiled"), times.running.line("mutants run"));
    let found: Hints = fates.iter().filter_map(|(name, by)| Some((name.clone(), by.as_ref().ok()?.clone()))).collect();
    if tell {
        write_hints(Path::new(TABLE), &found)?;
    } else if let Some(how) = what_is_old(&hints, &found, patches.iter().map(|(name, _)| name)) {
        eprintln!("mutants: {TABLE} is old, so that grading takes longer: {how}. `mutants tell` renews it");
    }
    Ok(printed(&fates, !words.is_empty() && !tell))
}

/// Prints each mutant that is not caught and then how many are; whether there are any and all of them are.
fn printed(fates: &[Of<String>], each: bool) -> bool {
    for (name, fate) in fates {
        match fate {
            Ok(script) if each => println!("mutant {name}: caught by {script}"),
            Ok(_) => {}
            Err(wrong) => println!("mutant {name}: {wrong}"),
        }
    }
    let caught = fates.iter().filter(|(_, fate)| fate.is_ok()).count();
    println!("{} mutants of the reference, {caught} caught by conformance/", fates.len());
    caught == fates.len() && caught > 0
}
