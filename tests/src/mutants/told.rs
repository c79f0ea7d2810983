//! Which script tells a mutant from the rules: one on which, run by itself, the mutant does not answer as it must.
//!
//! tests/mutants/told-by has such a script for each mutant, as lines `NAME KIND NUMBER`. It is a hint: that script is run first, and where it does not
//! tell the mutant, all others are. So an old table costs time, and changes no verdict.

use crate::compare::{reference_lines, Script, Tool};
use std::collections::{BTreeMap, BTreeSet};
use std::path::Path;
use std::sync::OnceLock;
use std::time::{Duration, Instant};

/// The names of scripts by those of mutants.
pub type Hints = BTreeMap<String, String>;

/// A line of another form has a name that no mutant has, or a script that is not there.
fn parsed(table: &str) -> Hints {
    let parts = |line: &str| {
        line.split_once(' ').map_or((line.to_string(), String::new()), |(name, script)| (name.to_string(), script.to_string()))
    };
    table.lines().map(parts).collect()
}

fn printed(hints: &Hints) -> String {
    hints.iter().map(|(name, script)| format!("{name} {script}\n")).collect()
}

/// The hints of a table; none where it is not there.
pub fn read_hints(table: &Path) -> Hints {
    parsed(&std::fs::read_to_string(table).unwrap_or_default())
}

pub fn write_hints(table: &Path, hints: &Hints) -> Result<(), String> {
    std::fs::write(table, printed(hints)).map_err(|wrong| format!("{} cannot be written: {wrong}", table.display()))
}

/// What of a table is old, by the scripts that now tell mutants and by the names of all mutants.
pub fn what_is_old<'a>(hints: &Hints, told: &Hints, mutants: impl Iterator<Item = &'a String>) -> Option<String> {
    let names: BTreeSet<&String> = mutants.collect();
    let others = told.iter().filter(|(name, script)| hints.get(*name) != Some(script)).count();
    let gone = hints.keys().filter(|name| !names.contains(name)).count();
    (others + gone > 0)
        .then(|| format!("{others} mutants are told by a script that it does not name, {gone} of its names are of no mutant"))
}

/// The scripts that mutants are told by, each with its cost, which is found out where somebody asks.
pub struct Telling {
    scripts: Vec<(Script, OnceLock<Duration>)>,
    hints: Hints,
}

impl Telling {
    pub fn new(scripts: Vec<Script>, hints: Hints) -> Self {
        Telling { scripts: scripts.into_iter().map(|script| (script, OnceLock::new())).collect(), hints }
    }

    fn named(&self, name: &str) -> Option<usize> {
        self.scripts.iter().position(|(script, _)| script.name == name)
    }

    fn hint(&self, mutant: &str) -> Option<usize> {
        self.named(self.hints.get(mutant)?)
    }

    /// How long the reference takes for a script.
    fn cost(&self, at: usize) -> Duration {
        let (script, cost) = &self.scripts[at];
        *cost.get_or_init(|| {
            let began = Instant::now();
            // What it answers is not asked here.
            let _ = reference_lines(&script.text);
            began.elapsed()
        })
    }

    /// Whether a mutant has little to do: to optimise its program would cost more than it saves.
    pub fn is_soon_told(&self, mutant: &str) -> bool {
        self.hint(mutant).is_some_and(|at| self.cost(at) < Duration::from_millis(10))
    }

    /// Whether a script, by itself, tells a tool from the rules.
    fn tells(&self, tool: &Tool, at: usize) -> Result<bool, String> {
        Ok(tool.first_difference(&[&self.scripts[at].0])?.is_some())
    }

    /// Whether the script of this name does.
    pub fn tells_by_name(&self, tool: &Tool, name: &str) -> Result<bool, String> {
        self.named(name).map_or(Ok(false), |at| self.tells(tool, at))
    }

    /// The hint's script, where it tells the mutant.
    pub fn told_by_hint(&self, tool: &Tool, mutant: &str) -> Result<Option<&str>, String> {
        match self.hint(mutant) {
            Some(at) if self.tells(tool, at)? => Ok(Some(&self.scripts[at].0.name)),
            _ => Ok(None),
        }
    }

    /// A script that tells a mutant: the hint's, or else the cheapest.
    pub fn told_by(&self, tool: &Tool, mutant: &str) -> Result<Option<&str>, String> {
        match self.told_by_hint(tool, mutant)? {
            None => self.cheapest(tool),
            hint => Ok(hint),
        }
    }

    /// In a row most scripts are quickly done with. The first that differs there mostly tells the tool by itself too; if not, another does or none.
    fn cheapest(&self, tool: &Tool) -> Result<Option<&str>, String> {
        let mut places: Vec<usize> = (0..self.scripts.len()).collect();
        places.sort_by_key(|&at| self.cost(at));
        let row: Vec<&Script> = places.iter().map(|&at| &self.scripts[at].0).collect();
        let agreed = tool.first_difference(&row)?.unwrap_or(row.len());
        for &at in places[agreed..].iter().chain(&places[..agreed]) {
            if self.tells(tool, at)? {
                return Ok(Some(&self.scripts[at].0.name));
            }
        }
        Ok(None)
    }
}

#[cfg(test)]
mod tests {
    use super::*;

    fn hints(lines: &[(&str, &str)]) -> Hints {
        lines.iter().map(|(name, script)| (name.to_string(), script.to_string())).collect()
    }

    /// A script `hash` whose answer is to be this.
    fn script(name: &str, answer: &str) -> Script {
        Script { name: name.to_string(), first_line: 1, text: "hash\n".to_string(), answers: vec![answer.to_string()] }
    }

    /// What a mutant `m` is told by that answers each line with itself: 'lists 2' alone is to be answered otherwise.
    fn told_by(hint: &[(&str, &str)], scripts: Vec<Script>) -> Option<String> {
        let telling = Telling::new(scripts, hints(hint));
        telling.told_by(&Tool::named("cat"), "m").expect("cat runs").map(str::to_string)
    }

    /// Hints that tell, do not, name no script, are no name of one, are of another mutant, and none.
    const HINTS: [&[(&str, &str)]; 6] =
        [&[("m", "lists 2")], &[("m", "lists 1")], &[("m", "lists 9")], &[("m", "")], &[("other", "lists 1")], &[]];

    #[test]
    fn a_table_is_read_as_it_is_written() {
        let table = "a-1 lists 2\nb takes 10\n";
        assert_eq!(parsed(table), hints(&[("a-1", "lists 2"), ("b", "takes 10")]));
        assert_eq!(printed(&parsed(table)), table);
        assert_eq!(parsed(""), hints(&[]));
        assert_eq!(read_hints(Path::new("/no/such/table")), hints(&[]));
    }

    #[test]
    fn a_line_of_another_form_names_no_script() {
        assert_eq!(parsed("a\n\n<<<<<<< HEAD\n"), hints(&[("", ""), ("<<<<<<<", "HEAD"), ("a", "")]));
    }

    #[test]
    fn whatever_the_hint_a_mutant_is_told() {
        for hint in HINTS {
            let scripts = vec![script("lists 1", "hash"), script("lists 2", "other"), script("lists 3", "hash")];
            assert_eq!(told_by(hint, scripts).as_deref(), Some("lists 2"), "{hint:?}");
        }
    }

    #[test]
    fn whatever_the_hint_what_nothing_tells_is_not_told() {
        for hint in HINTS {
            assert_eq!(told_by(hint, vec![script("lists 1", "hash"), script("lists 2", "hash")]), None, "{hint:?}");
        }
    }

    #[test]
    fn what_has_no_hint_is_not_soon_told() {
        for hint in &HINTS[2..] {
            let scripts = vec![script("lists 1", "hash"), script("lists 2", "other")];
            assert!(!Telling::new(scripts, hints(hint)).is_soon_told("m"), "{hint:?}");
        }
    }

    #[test]
    fn an_old_table_is_said_to_be_old() {
        let names = ["a", "b"].map(str::to_string);
        let old = |table: &[(&str, &str)]| what_is_old(&hints(table), &hints(&[("a", "lists 1"), ("b", "lists 2")]), names.iter());
        assert_eq!(old(&[("a", "lists 1"), ("b", "lists 2")]), None);
        let said = |others: u64, gone: u64| {
            Some(format!("{others} mutants are told by a script that it does not name, {gone} of its names are of no mutant"))
        };
        assert_eq!(old(&[("a", "lists 1"), ("b", "lists 1")]), said(1, 0));
        assert_eq!(old(&[("a", "lists 1")]), said(1, 0));
        assert_eq!(old(&[("a", "lists 1"), ("b", "lists 2"), ("c", "lists 2")]), said(0, 1));
    }
}
