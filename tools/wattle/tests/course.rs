//! docs/COURSE.md, and every command, line and picture in it, is what the tool answers today.

use crate::common::{self, root, text};
use std::path::Path;
use std::process::{Command, Stdio};

/// What stands for lines of an answer that the page leaves out.
const LEFT_OUT: &str = "[..]";

fn page() -> String {
    std::fs::read_to_string(root().join("docs/COURSE.md")).expect("docs/COURSE.md can be read")
}

/// What a command of the page prints, typed where samples/ lies. Nothing goes to the standard error.
fn printed(command: &str) -> Vec<u8> {
    let tool = Path::new(env!("CARGO_BIN_EXE_wattle")).parent().expect("the tool lies in a folder");
    let search = format!("{}:{}", common::path(tool), std::env::var("PATH").unwrap_or_default());
    let output = Command::new("sh").args(["-c", command]).current_dir(root()).env("PATH", search).stdin(Stdio::null()).output();
    let output = output.expect("a shell runs");
    assert_eq!(text(&output.stderr), "", "{command}");
    output.stdout
}

/// The page's commands, each with the lines below it. Every line of code is one or the other.
fn commands(page: &str) -> Vec<(&str, Vec<&str>)> {
    let mut found: Vec<(&str, Vec<&str>)> = Vec::new();
    let mut before = "";
    for line in page.lines() {
        if line.starts_with("    ") {
            let code = line.trim_start();
            match (code.strip_prefix("$ "), found.last_mut()) {
                (Some(command), _) => found.push((command, Vec::new())),
                (None, Some((_, answer))) if !before.is_empty() => answer.push(code),
                _ => panic!("{code} stands below no command"),
            }
        }
        before = line;
    }
    found
}

/// Whether the lines are the answer's, where any number of them may be left out at a mark. How far a line is indented does not count.
fn is_answer(due: &[&str], answer: &[&str]) -> bool {
    match due.split_first() {
        None => answer.is_empty(),
        Some((&LEFT_OUT, rest)) => (0..=answer.len()).any(|left_out| is_answer(rest, &answer[left_out..])),
        Some((line, rest)) => answer.first() == Some(line) && is_answer(rest, &answer[1..]),
    }
}

#[test]
fn commands_print_what_stands_below_them() {
    let page = page();
    let commands = commands(&page);
    assert!(commands.len() >= 20, "the page's commands are found");
    for (command, due) in commands {
        let answer = text(&printed(command));
        assert!(
            is_answer(&due, &answer.lines().map(str::trim_start).collect::<Vec<_>>()),
            "`{command}` prints\n{answer}and the page says\n{}",
            due.join("\n")
        );
        assert!(due.iter().any(|line| *line != LEFT_OUT), "nothing stands below `{command}`");
    }
    assert!(is_answer(&["a", LEFT_OUT, "c"], &["a", "b", "c"]) && !is_answer(&["a", "c"], &["a", "b", "c"]), "the comparison tells");
}

/// A part of a line that the text quotes is part of a line that a command printed.
#[test]
fn quoted_lines_are_printed() {
    let page = page();
    let lines: Vec<&str> = commands(&page).into_iter().flat_map(|(_, answer)| answer).collect();
    let text = page.lines().filter(|line| !line.starts_with("    "));
    let quoted = text.flat_map(|line| line.split('`').skip(1).step_by(2));
    let of_a_line = |words: &&str| ["kept ", "removed ", "opened ", "examined ", "euler ", "refused "].iter().any(|w| words.starts_with(w));
    for words in quoted.filter(of_a_line) {
        assert!(lines.iter().any(|line| line.contains(words)), "no command of the page prints `{words}`");
    }
}

/// A picture's title is the command that draws it.
#[test]
fn pictures_are_what_their_titles_draw() {
    let (page, mut seen) = (page(), 0);
    for picture in page.split("](../").skip(1) {
        let picture = picture.split(')').next().expect("a split has a first part");
        let (file, title) = picture.split_once(" \"").unwrap_or_else(|| panic!("{picture} has no title"));
        let command = title.trim_end_matches('"');
        let practised = command.starts_with("wattle practice --sides ") && command.ends_with(" | wattle look --png -");
        assert!(practised || command.starts_with("wattle look --png samples/"), "{command}");
        let stored = std::fs::read(root().join(file)).unwrap_or_else(|e| panic!("{file} cannot be read: {e}"));
        assert!(stored == printed(command), "to be drawn anew: {command} -o {file} --force");
        seen += 1;
    }
    assert_eq!(seen, page.matches("![").count(), "every picture was looked at");
    assert!(seen >= 15, "two sentences, seven cases, the torus three times, and three practice grids");
}

/// Ten questions, and to each an answer with a command that checks it.
#[test]
fn questions_have_answers() {
    let page = page();
    let (_, questions) = page.split_once("## Ten questions\n").expect("the questions");
    let (questions, answers) = questions.split_once("## Answers\n").expect("the answers");
    for number in 1..=10 {
        let (this, next) = (format!("\n{number}. "), format!("\n{}. ", number + 1));
        assert!(questions.contains(&this), "question {number}");
        let answer = answers.split_once(&this).unwrap_or_else(|| panic!("answer {number}")).1;
        assert!(answer.split(&next).next().expect("a first part").contains("$ wattle "), "answer {number} has its command");
    }
    assert!(![questions, answers].iter().any(|part| part.contains("\n11. ")));
}
