//! A replay tool's lines against the wanted ones: every difference is counted, by kind and by call, and the first of each script is reported with its
//! line and command, with what the script is for, and with what to run to see it.

use crate::processor::{outlasts, PATIENCE};
use crate::progress::Progress;
use reference::calls::REFERENCE;
use reference::replay::Replay;
use std::collections::BTreeMap;
use std::io::{BufRead, BufReader, Write};
use std::path::Path;
use std::process::{Command, Stdio};
use std::sync::{mpsc, Mutex};

/// A script with the lines that it must print.
pub struct Script {
    /// Its kind and number.
    pub name: String,
    /// Where its first line stands in the file that has it.
    pub first_line: usize,
    pub text: String,
    pub answers: Vec<String>,
}

/// Whether a command prints a line.
pub fn prints(command: &str) -> bool {
    let mut words = command.split_ascii_whitespace();
    match words.next() {
        None | Some("sides" | "rawsides" | "T" | "file" | "append" | "autohash" | "slot" | "order") => false,
        Some("values" | "dist" | "marks" | "status" | "cdist" | "cstatus") => false,
        Some("rec") => words.next() == Some("show"),
        Some(word) => !word.starts_with('#'),
    }
}

/// Whether a command can change the file, or what `write` makes it from.
pub fn bears_on_the_file(command: &str) -> bool {
    let word = command.split_ascii_whitespace().next();
    matches!(word, Some("slot" | "sides" | "rawsides" | "T" | "values" | "file" | "append" | "read" | "write" | "practice"))
}

/// The reference's lines for a script, or what it does not take.
pub fn reference_lines(script: &str) -> Result<Vec<String>, String> {
    let mut replay = Replay::new(REFERENCE);
    let mut lines = Vec::new();
    for command in script.lines() {
        lines.extend(replay.line(command).map_err(|wrong| format!("the reference does not take {command:?}: {wrong}"))?);
    }
    Ok(lines)
}

/// A replay tool: a program with its arguments.
pub struct Tool(Vec<String>);

/// What came of a run of a tool.
pub struct Run {
    pub lines: Vec<String>,
    /// How it ended; nothing where that was well.
    pub wrong: Option<String>,
    pub status: Option<i32>,
}

impl Tool {
    /// From words with blanks between, such as `reference replay`.
    pub fn named(words: &str) -> Self {
        Tool(words.split_ascii_whitespace().map(str::to_string).collect())
    }

    /// A program with one argument.
    pub fn of(program: &Path, argument: &str) -> Self {
        Tool(vec![program.to_string_lossy().into_owned(), argument.to_string()])
    }

    pub fn name(&self) -> String {
        self.0.join(" ")
    }

    pub fn run(&self, script: &str) -> Result<Run, String> {
        let mut lines = Vec::new();
        let end = self.each_line(script, |line| {
            lines.push(line);
            true
        })?;
        Ok(Run { lines, wrong: end.wrong, status: end.status })
    }

    /// Whether the tool prints exactly what it must for all the scripts in a row.
    pub fn agrees(&self, scripts: &[Script]) -> Result<bool, String> {
        self.first_difference(&scripts.iter().collect::<Vec<_>>()).map(|differs| differs.is_none())
    }

    /// Of scripts in a row the first whose lines are not what the tool must print; the last where only its end is wrong. The tool is stopped at the
    /// first line that differs.
    pub fn first_difference(&self, scripts: &[&Script]) -> Result<Option<usize>, String> {
        let all: String = scripts.iter().map(|script| script.text.as_str()).collect();
        let mut wanted = scripts.iter().enumerate().flat_map(|(i, script)| script.answers.iter().map(move |answer| (i, answer))).peekable();
        let end = self.each_line(&all, |line| wanted.next_if(|(_, answer)| **answer == line).is_some())?;
        match wanted.next() {
            Some((i, _)) => Ok(Some(i)),
            None => Ok(end.wrong.map(|_| scripts.len().saturating_sub(1))),
        }
    }

    /// Runs the tool, and hands on its lines for as long as `more` wants another.
    fn each_line(&self, script: &str, mut more: impl FnMut(String) -> bool) -> Result<End, String> {
        let [program, arguments @ ..] = &self.0[..] else { return Err("no replay tool is named".to_string()) };
        let child = Command::new(program).args(arguments).stdin(Stdio::piped()).stdout(Stdio::piped()).stderr(Stdio::piped()).spawn();
        let mut child = child.map_err(|wrong| format!("{program} does not start: {wrong}"))?;
        let number = child.id();
        let (input, said, told) = (child.stdin.take(), child.stdout.take(), child.stderr.take());
        let child = Mutex::new(child);
        let stop = || child.lock().map(|mut child| child.kill());
        std::thread::scope(|scope| {
            // A tool that stops early does not read the rest.
            scope.spawn(move || input.map(|mut input| input.write_all(script.as_bytes())));
            let told = scope.spawn(|| told.map(std::io::read_to_string));
            let (done, waiting) = mpsc::channel::<()>();
            let watch = scope.spawn(move || outlasts(number, &waiting).then(stop).is_some());
            let lines = said.into_iter().flat_map(|said| BufReader::new(said).split(b'\n')).map_while(Result::ok);
            let enough = lines.map(|line| String::from_utf8_lossy(&line).into_owned()).any(|line| !more(line));
            drop(done);
            let late = watch.join().expect("the watch ends");
            let mut child = child.lock().expect("the watch has ended");
            if enough {
                // It may have ended by itself: then there is nothing to stop.
                let _ = child.kill();
            }
            let status = child.wait().map_err(|wrong| format!("{program} cannot be waited for: {wrong}"))?;
            let told = told.join().expect("a reader ends").and_then(Result::ok).unwrap_or_default();
            let wrong = match (late, enough, status.success()) {
                (true, _, _) => Some(format!("did not end within {} s", PATIENCE.as_secs())),
                (_, true, _) => Some("was stopped".to_string()),
                (_, _, true) => None,
                _ => Some(format!("ended with {status}: {}", told.trim_end())),
            };
            Ok(End { wrong, status: status.code() })
        })
    }
}

/// How a run ended: nothing is wrong where that was well.
struct End {
    wrong: Option<String>,
    status: Option<i32>,
}

/// What a program prints for a file on its standard input.
pub fn line_of(program: &str, file: &[u8]) -> Result<String, String> {
    let child = Command::new(program).stdin(Stdio::piped()).stdout(Stdio::piped()).spawn();
    let mut child = child.map_err(|wrong| format!("{program} does not start: {wrong}"))?;
    // A program that has seen enough may stop reading: then the rest of the file is not its business.
    let _ = child.stdin.take().expect("standard input is a pipe").write_all(file);
    let out = child.wait_with_output().map_err(|wrong| format!("{program} cannot be waited for: {wrong}"))?;
    Ok(String::from_utf8_lossy(&out.stdout).into_owned())
}

/// How many scripts are shown; the rest are counted.
const SHOWN: u64 = 20;

/// What was found different so far.
#[derive(Default)]
pub struct Differences {
    pub scripts: u64,
    pub lines: u64,
    by_kind: BTreeMap<String, u64>,
    by_call: BTreeMap<String, u64>,
    progress: Progress,
}

/// The last comment up to a line of a script, which says what is tried there. Its first line is no such comment, but its name.
fn comment_before(script: &Script, line: usize) -> Option<&str> {
    let before = script.text.lines().take(line + 1).skip(1);
    before.filter(|line| line.starts_with('#')).last()
}

/// A line wanted or said, cut where it is long: some have a whole buffer.
fn short(line: Option<&String>) -> String {
    const LONGEST: usize = 400;
    match line.map(|line| (line, line.char_indices().nth(LONGEST))) {
        None => "nothing".to_string(),
        Some((line, None)) => line.clone(),
        Some((line, Some((end, _)))) => format!("{} .. ({} characters)", &line[..end], line.chars().count()),
    }
}

impl Differences {
    /// Compares a tool on some scripts, all in one run where nothing differs.
    pub fn of(&mut self, tool: &Tool, scripts: &[Script], see: impl Fn(&Script) -> String) -> Result<(), String> {
        if tool.agrees(scripts)? {
            return Ok(());
        }
        let before = self.lines;
        for (i, script) in scripts.iter().enumerate() {
            self.progress.at(format!("{}, {} of {} scripts: {} lines differ so far", script.name, i + 1, scripts.len(), self.lines));
            self.script(tool, script, &see(script))?;
        }
        if self.lines == before {
            return Err(format!("{} answers otherwise on scripts in a row than on each of them", tool.name()));
        }
        Ok(())
    }

    fn script(&mut self, tool: &Tool, script: &Script, see: &str) -> Result<(), String> {
        let Run { lines: said, wrong, .. } = tool.run(&script.text)?;
        let commands: Vec<(usize, &str)> = script.text.lines().enumerate().filter(|(_, command)| prints(command)).collect();
        let mut differ = 0;
        for i in 0..script.answers.len().max(said.len()) {
            let (wanted, found) = (script.answers.get(i), said.get(i));
            if wanted == found {
                continue;
            }
            differ += 1;
            let command = commands.get(i).copied();
            let call = command.and_then(|(_, command)| command.split_ascii_whitespace().next()).unwrap_or("lines too many");
            *self.by_call.entry(call.to_string()).or_default() += 1;
            // The first tells most: what follows it in a script is often its consequence.
            if differ == 1 && self.scripts < SHOWN {
                self.progress.clear();
                let (line, command) = command.unwrap_or((script.text.lines().count(), "after the last command"));
                println!("{}, line {}, {command}", script.name, script.first_line + line);
                comment_before(script, line).into_iter().for_each(|comment| println!("  {comment}"));
                println!("  wanted  {}", short(wanted));
                println!("  but got {}", short(found));
                println!("  see it: {see} | {}", tool.name());
            }
        }
        if let Some(wrong) = wrong.filter(|_| self.scripts < SHOWN || differ == 0) {
            self.progress.clear();
            println!("{}: {} {wrong}", script.name, tool.name());
            differ += u64::from(differ == 0);
        }
        self.count(script, differ);
        Ok(())
    }

    fn count(&mut self, script: &Script, differ: u64) {
        if differ == 0 {
            return;
        }
        self.scripts += 1;
        self.lines += differ;
        let kind = script.name.split(' ').next().unwrap_or(&script.name);
        *self.by_kind.entry(kind.to_string()).or_default() += differ;
        if self.scripts == SHOWN {
            println!("{SHOWN} scripts are listed; those that follow are counted alone");
        }
    }

    /// How many lines differ by kind and by call, the most first; nothing where none does.
    pub fn print_counts(&self) {
        let told = |counts: &BTreeMap<String, u64>| {
            let mut counts: Vec<(&String, &u64)> = counts.iter().collect();
            counts.sort_by_key(|(_, count)| std::cmp::Reverse(**count));
            counts.iter().map(|(name, count)| format!("{name} {count}")).collect::<Vec<_>>().join(", ")
        };
        if self.lines > 0 {
            println!("  by kind: {}", told(&self.by_kind));
            println!("  by call: {}", told(&self.by_call));
        }
    }
}

/// The scripts of a conformance file with their answers.
pub fn read_kind(folder: &Path, kind: &str) -> Result<Vec<Script>, String> {
    let read = |end: &str| {
        let path = folder.join(format!("{kind}.{end}"));
        std::fs::read_to_string(&path).map_err(|wrong| format!("{} cannot be read: {wrong}", path.display()))
    };
    let (text, answers) = (read("script")?, read("answers")?);
    let mut answers = answers.lines().map(str::to_string);
    let mut scripts: Vec<Script> = Vec::new();
    for (i, line) in text.lines().enumerate() {
        let number = line.strip_prefix("# ").and_then(|rest| rest.strip_prefix(kind)).map(str::trim);
        if number.is_some_and(|number| number.parse::<u64>().is_ok()) {
            scripts.push(Script { name: line[2..].to_string(), first_line: i + 1, text: String::new(), answers: Vec::new() });
        }
        let script = scripts.last_mut().ok_or(format!("{kind}.script does not start with `# {kind} NUMBER`"))?;
        script.text += line;
        script.text.push('\n');
        if prints(line) {
            script.answers.push(answers.next().ok_or(format!("{kind}.answers ends before line {} of {kind}.script", i + 1))?);
        }
    }
    match answers.next() {
        None => Ok(scripts),
        Some(_) => Err(format!("{kind}.answers has more lines than {kind}.script asks for")),
    }
}

#[cfg(test)]
mod tests {
    use super::*;

    /// A tool that answers each line of a script with itself.
    fn echo() -> Tool {
        Tool::named("cat")
    }

    fn script(text: &str, answers: &[&str]) -> Script {
        let answers = answers.iter().map(|answer| answer.to_string()).collect();
        Script { name: "echo 1".to_string(), first_line: 1, text: text.to_string(), answers }
    }

    fn differences(scripts: &[Script]) -> (u64, u64) {
        let mut found = Differences::default();
        found.of(&echo(), scripts, |_| "see".to_string()).expect("cat runs");
        (found.scripts, found.lines)
    }

    #[test]
    fn every_line_that_differs_is_counted() {
        assert_eq!(differences(&[script("hash\nbegin\n", &["hash", "begin"])]), (0, 0));
        assert_eq!(differences(&[script("hash\nbegin\nopen\n", &["other", "begin", "another"])]), (1, 2));
        assert_eq!(differences(&[script("hash\n", &["hash", "begin"]), script("open\n", &[]), script("open\n", &["open"])]), (2, 2));
    }

    #[test]
    fn lines_are_counted_by_kind_and_by_call() {
        let mut found = Differences::default();
        let scripts = [script("hash\nbegin\nopen\n", &["other", "begin", "another"]), script("open\n", &["one", "two"])];
        found.of(&echo(), &scripts, |_| "see".to_string()).expect("cat runs");
        assert_eq!(found.by_kind, BTreeMap::from([("echo".to_string(), 4)]));
        assert_eq!(found.by_call, BTreeMap::from([("hash", 1), ("open", 2), ("lines too many", 1)].map(|(call, n)| (call.to_string(), n))));
    }

    #[test]
    fn a_difference_has_the_comment_before_it() {
        let of = |line: usize| {
            let script = script("# echo 1\nautohash 1\n# first\nbegin\n# second\nbegin\n", &[]);
            comment_before(&script, line).map(str::to_string)
        };
        assert_eq!(of(1), None);
        assert_eq!(of(3).as_deref(), Some("# first"));
        assert_eq!(of(5).as_deref(), Some("# second"));
    }

    #[test]
    fn the_first_script_that_differs() {
        let of = |scripts: &[Script]| echo().first_difference(&scripts.iter().collect::<Vec<_>>()).expect("cat runs");
        let (good, bad) = (|| script("hash\nbegin\n", &["hash", "begin"]), || script("hash\nopen\n", &["hash", "begin"]));
        assert_eq!(of(&[]), None);
        assert_eq!(of(&[good(), good()]), None);
        assert_eq!(of(&[good(), bad(), good(), bad()]), Some(1));
        // a line too few, and one too many: both at the end, and before others
        assert_eq!(of(&[good(), script("hash\n", &["hash", "begin"])]), Some(1));
        assert_eq!(of(&[good(), script("hash\nbegin\n", &["hash"])]), Some(1));
        assert_eq!(of(&[script("hash\n", &["hash", "begin"]), good()]), Some(0));
    }

    #[test]
    fn a_tool_that_fails_differs() {
        let mut found = Differences::default();
        found.of(&Tool::named("false"), &[script("# nothing\n", &[])], |_| "see".to_string()).expect("false runs");
        assert_eq!((found.scripts, found.lines), (1, 1));
        let missing = Tool::named("/no/such/tool").run("").err();
        assert!(missing.is_some_and(|said| said.starts_with("/no/such/tool does not start: ")));
    }

    #[test]
    fn a_missing_file_is_a_sentence() {
        let said = read_kind(Path::new("/no/such/folder"), "lists").err();
        assert!(said.is_some_and(|said| said.starts_with("/no/such/folder/lists.script cannot be read: ")));
    }
}
