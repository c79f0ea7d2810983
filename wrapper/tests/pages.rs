//! docs/RULES.md and docs/RESULT.md cite definitions as `File.name`: each is in the specs, and each rule cites one. docs/PROOFS.md lists every theorem
//! of the specs with the file that proves it, and how many lines the rules have. What docs/PROOFS.md, docs/DECISIONS.md and docs/SHAPE.md cite by a
//! capital is declared somewhere. README's picture has the crates of crates.txt.

mod common;

use common::root;
use std::collections::{BTreeSet, HashMap, HashSet};
use std::path::{Path, PathBuf};

fn text(path: &Path) -> String {
    std::fs::read_to_string(path).unwrap_or_else(|e| panic!("{} cannot be read: {e}", path.display()))
}

/// The name that a line of a specification declares, a record's field among them.
fn declared(line: &str) -> Option<&str> {
    let mut words = line.split_whitespace().skip_while(|w| ["abbrev", "unfoldable"].contains(w));
    (words.next() == Some("pub")).then_some(())?;
    words.find(|w| !["record", "data"].contains(w))
}

fn listed(folder: &Path) -> Vec<PathBuf> {
    let entries = std::fs::read_dir(folder).into_iter().flatten();
    entries.map(|entry| entry.expect("a folder can be listed").path()).collect()
}

/// The declared names of the crates' specification files, by the file's name.
fn specs() -> HashMap<String, Vec<String>> {
    let mut names: HashMap<String, Vec<String>> = HashMap::new();
    let files = listed(&root().join("crates")).into_iter().flat_map(|krate| listed(&krate.join("specs")));
    for path in files.filter(|path| path.extension().is_some_and(|end| end == "antt")) {
        let file = path.file_stem().expect("a name").to_string_lossy().into_owned();
        names.entry(file).or_default().extend(text(&path).lines().filter_map(declared).map(str::to_string));
    }
    names
}

/// What stands between backticks and looks like `File.name`.
fn cited(line: &str) -> Vec<(&str, &str)> {
    let quoted = line.split('`').skip(1).step_by(2);
    let parts = quoted.filter_map(|word| word.split_once('.'));
    parts.filter(|(file, name)| file.starts_with(char::is_uppercase) && !name.is_empty() && *name != "antt" && *name != "md").collect()
}

#[test]
fn every_name_is_in_the_specs() {
    let specs = specs();
    let mut wrong = Vec::new();
    for page in ["docs/RULES.md", "docs/RESULT.md"] {
        for (i, line) in text(&root().join(page)).lines().enumerate() {
            for (file, name) in cited(line) {
                if !specs.get(file).is_some_and(|names| names.iter().any(|n| n == name)) {
                    wrong.push(format!("{page}:{}: {file}.{name}", i + 1));
                }
            }
        }
    }
    assert!(wrong.is_empty(), "not in the specs:\n{}", wrong.join("\n"));
}

/// All files below a folder.
fn below(folder: &Path) -> Vec<PathBuf> {
    listed(folder).into_iter().flat_map(|path| if path.is_dir() { below(&path) } else { vec![path] }).collect()
}

/// The tool names theorems to those who use it: each is on the page of proofs.
#[test]
fn every_theorem_that_the_tool_names_is_listed() {
    let page = text(&root().join("docs/PROOFS.md"));
    let sources: Vec<String> = below(&root().join("tools/wattle/src")).iter().map(|path| text(path)).collect();
    let named: Vec<&str> = sources.iter().flat_map(|source| source.split("(theorem ").skip(1)).collect();
    assert!(!named.is_empty(), "the tool names a theorem");
    for rest in named {
        let name = rest.split(|c: char| !c.is_alphanumeric()).next().expect("a first part");
        assert!(page.contains(&format!("| `{name}` |")), "docs/PROOFS.md has no theorem {name}");
    }
}

/// What the rules, the proofs, the code and the wrapper declare by a capital, and the names of the rules' files.
fn capitals() -> HashSet<String> {
    const WORDS: [&str; 7] = ["abbrev", "unfoldable", "pub", "record", "data", "struct", "enum"];
    let mut names = HashSet::new();
    for path in below(&root().join("crates")).into_iter().chain(below(&root().join("wrapper/src"))) {
        let end = path.extension().map(|end| end.to_string_lossy().into_owned()).unwrap_or_default();
        if !["antt", "rt", "rs"].contains(&end.as_str()) {
            continue;
        }
        names.insert(path.file_stem().expect("a name").to_string_lossy().into_owned());
        for line in text(&path).lines().filter(|line| WORDS.iter().any(|word| line.trim_start().starts_with(word))) {
            let name = line.split_whitespace().find(|word| !WORDS.contains(word)).unwrap_or("");
            names.extend(name.split(|c: char| !c.is_ascii_alphanumeric()).next().map(str::to_string));
        }
    }
    names
}

#[test]
fn every_capital_is_declared() {
    let names = capitals();
    let capital = |word: &&str| word.starts_with(|c: char| c.is_ascii_uppercase()) && word.chars().all(|c| c.is_ascii_alphanumeric());
    for (page, least) in [("docs/PROOFS.md", 100), ("docs/DECISIONS.md", 10), ("docs/SHAPE.md", 3)] {
        let page_text = text(&root().join(page));
        let cited: Vec<&str> = page_text.split('`').skip(1).step_by(2).filter(capital).collect();
        assert!(cited.len() > least, "the names of {page} are read");
        for word in cited {
            assert!(names.contains(word), "{page} cites {word}, which nothing declares");
        }
    }
}

#[test]
fn every_rule_has_a_name() {
    let page = text(&root().join("docs/RULES.md"));
    let rows: Vec<&str> = page.lines().filter(|l| l.starts_with("| ") && !l.ends_with("| Definition |")).collect();
    assert!(rows.len() > 60, "the page's tables are read");
    for row in rows {
        assert!(!cited(row).is_empty(), "no definition stands beside: {row}");
    }
}

// ---- docs/PROOFS.md: every theorem, and the length of the rules

/// Closed types of the specs that are no theorems, by the reason. Each has its file below crates/ before it.
const NO_THEOREMS: [(&str, &[&str]); 3] = [
    (
        "data that rules and contracts are over",
        &[
            "cells/specs/Cells.antt Test",
            "coarse/specs/Coarse.antt FourBuffers",
            "format/specs/Layer.antt Part",
            "judging/specs/Judge.antt Body",
            "judging/specs/Judge.antt Entry",
            "office/specs/Lists.antt Request",
            "office/specs/Lists.antt Service",
            "office/specs/Lists.antt Start",
            "office/specs/Serve.antt Left",
            "office/specs/Serve.antt Office",
            "office/specs/Structs.antt Kept",
            "office_replies/specs/FromC.antt HeldOffice",
            "points/specs/Listing.antt Walk",
            "pushing/specs/Push.antt Fill",
            "replies/specs/FromC.antt Held",
            "rules/specs/Answer.antt Buffers",
            "rules/specs/Answer.antt Removal",
            "rules/specs/Body.antt Voxels",
            "rules/specs/Checks.antt Check",
            "rules/specs/Demand.antt Run",
            "rules/specs/Demand.antt Sums",
            "rules/specs/Grid.antt Voxel",
            "rules/specs/Machine.antt State",
            "rules/specs/Marks.antt Marked",
            "rules/specs/Status.antt Progress",
        ],
    ),
    ("types of the parts that wrong readers exchange", &["format/specs/Wrong.antt Looks", "format/specs/Wrong.antt Places"]),
    (
        "statements that are a field of a listed record",
        &["rules/specs/WrongSteps.antt ByFaces", "rules/specs/WrongSteps.antt OpensFirstFailure"],
    ),
];

/// The name of a type without parameters that a line declares, an abbreviation or a record: what it states, it states of everything.
fn closed(line: &str) -> Option<&str> {
    let declared = line.strip_suffix(" where").unwrap_or(line).strip_suffix(" : Type 0")?;
    let words: Vec<&str> = declared.split(' ').skip_while(|w| ["abbrev", "unfoldable"].contains(w)).collect();
    match words[..] {
        ["pub", "record", name] | ["pub", name] => Some(name),
        _ => None,
    }
}

/// The closed types of all specification files, each with its file below crates/ before it.
fn closed_types() -> BTreeSet<String> {
    let crates = root().join("crates");
    let mut found = BTreeSet::new();
    for path in listed(&crates).iter().flat_map(|krate| below(&krate.join("specs"))) {
        let file = path.strip_prefix(&crates).expect("a file below crates/").display().to_string();
        found.extend(text(&path).lines().filter_map(closed).map(|name| format!("{file} {name}")));
    }
    found
}

/// The cells of the table rows in a section of docs/PROOFS.md that cite something.
fn rows(section: &str) -> Vec<Vec<String>> {
    let page = text(&root().join("docs/PROOFS.md"));
    let begun = page.lines().skip_while(|line| *line != section).skip(1).take_while(|line| !line.starts_with("## "));
    let rows = begun.filter(|line| line.starts_with("| ") && line.contains('`'));
    rows.map(|row| row.trim_matches('|').split(" | ").map(|cell| cell.trim().to_string()).collect()).collect()
}

/// A proof file declares something of the type: at the start of a line, and nothing follows the type.
fn proves(file: &str, theorem: &str) -> bool {
    let path = root().join("crates").join(file);
    let types = |line: &str| line.split_once(" : ").filter(|(name, _)| !name.starts_with(' ')).map(|(_, of)| of.to_string());
    path.is_file() && text(&path).lines().filter_map(types).any(|of| of.rsplit('.').next() == Some(theorem))
}

#[test]
fn every_theorem_is_listed_with_its_proof() {
    let (mut listed, mut wrong) = (BTreeSet::new(), Vec::new());
    for row in rows("## All theorems") {
        let [theorem, _, stated, proved] = &row[..] else { panic!("not four cells: {row:?}") };
        let [theorem, stated, proved] = [theorem, stated, proved].map(|cell| cell.trim_matches('`'));
        if !proves(proved, theorem) {
            wrong.push(format!("{theorem} is not proved in {proved}"));
        }
        if !listed.insert(format!("{stated} {theorem}")) {
            wrong.push(format!("{theorem} is listed twice"));
        }
    }
    let none: BTreeSet<String> = NO_THEOREMS.iter().flat_map(|(_, types)| types.iter().map(|name| name.to_string())).collect();
    let closed = closed_types();
    wrong.extend(none.difference(&closed).map(|name| format!("{name} is no closed type of the specs any more")));
    let theorems: BTreeSet<String> = closed.difference(&none).cloned().collect();
    wrong.extend(theorems.difference(&listed).map(|name| format!("{name} has no line on the page")));
    wrong.extend(listed.difference(&theorems).map(|name| format!("{name} is on the page and is no theorem of that file")));
    assert!(wrong.is_empty(), "docs/PROOFS.md, \"All theorems\":\n{}", wrong.join("\n"));
}

/// Lines of a file that are neither imports nor comments nor blank.
fn definitions(file: &str) -> usize {
    let file = text(&root().join("crates").join(file));
    file.lines().map(str::trim).filter(|line| !line.is_empty() && !line.starts_with("--") && !line.starts_with("use ")).count()
}

#[test]
fn the_rules_are_as_long_as_is_said() {
    let section = "## Where the rules are, and how long";
    let mut sum = 0;
    for row in rows(section).iter().filter(|row| row.len() == 3 && row[1].contains(".antt")) {
        let counted: usize = row[1].split('`').skip(1).step_by(2).map(definitions).sum();
        assert_eq!(row[2], counted.to_string(), "the lines of {}", row[0]);
        sum += counted;
    }
    let all = format!("| All | | {},{:03} |", sum / 1000, sum % 1000);
    assert!(text(&root().join("docs/PROOFS.md")).contains(&all), "the last row is to be: {all}");
}

// ---- README: the picture of crates

/// The crates of crates.txt, each with what it cites. What follows a name, as staticlib, says what the crate is built as.
fn crates() -> HashMap<String, Vec<String>> {
    let text = text(&root().join("crates.txt"));
    let lines = text.lines().filter(|line| !line.starts_with('#')).filter_map(|line| line.split_once(':'));
    let words = |text: &str| text.split_whitespace().map(str::to_string).collect::<Vec<String>>();
    lines.map(|(name, cited)| (words(name).swap_remove(0), words(cited))).collect()
}

/// The names in README's picture, each with its row. What stands to the right of them tells what they are.
fn picture() -> Vec<(String, usize)> {
    const NAMES_END: usize = 68;
    let readme = text(&root().join("README.md"));
    let section = readme.split("## How it is built").nth(1).expect("README has the section");
    let rows = section.lines().skip_while(|line| !line.starts_with("    ")).take_while(|line| line.starts_with("    "));
    let mut found = Vec::new();
    for (row, line) in rows.enumerate() {
        let names: String = line.chars().take(NAMES_END).collect();
        let names = names.split(" (").next().expect("a split has a first part").to_string();
        let words = names.split(|c: char| !c.is_ascii_lowercase() && c != '_').filter(|word| !["", "v"].contains(word));
        found.extend(words.map(|word| (word.to_string(), row)));
    }
    found
}

#[test]
fn the_picture_has_every_crate_once() {
    let (mut shown, mut listed) =
        (picture().into_iter().map(|(name, _)| name).collect::<Vec<_>>(), crates().into_keys().collect::<Vec<_>>());
    shown.sort();
    listed.sort();
    assert_eq!(shown, listed);
}

/// Arrows go down, so what a crate cites stands in its row or below it.
#[test]
fn the_picture_has_what_is_cited_below() {
    let row: HashMap<String, usize> = picture().into_iter().collect();
    for (name, cited) in crates() {
        for other in cited.iter().filter_map(|other| row.get_key_value(other)) {
            assert!(row[&name] <= *other.1, "{name} cites {}, which stands above it", other.0);
        }
    }
}
