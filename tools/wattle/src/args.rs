//! The command line, taken apart by the table in help.rs.

use crate::help::{overview, Command, Files, COMMANDS};
use crate::Failure;
use std::ffi::{OsStr, OsString};
use std::path::{Path, PathBuf};
use wattlerugby::Sides;

pub enum Request {
    Help(String),
    Run(Args),
}

pub struct Args {
    pub command: &'static str,
    pub files: Vec<PathBuf>,
    /// What stands behind the file, where the command takes more than files.
    pub words: Vec<String>,
    pub output: Option<PathBuf>,
    /// Options with their words, empty where the option takes none.
    options: Vec<(&'static str, String)>,
}

impl Args {
    pub fn parse(words: &[OsString]) -> Result<Request, Failure> {
        let Some((first, rest)) = words.split_first() else {
            return Err(Failure::unusable("no command is given; `wattle help` lists them"));
        };
        match first.to_string_lossy().as_ref() {
            "help" | "--help" | "-h" => match rest.first() {
                None => Ok(Request::Help(overview())),
                Some(name) => Ok(Request::Help(command(name)?.help.to_string())),
            },
            "--version" | "-V" => Ok(Request::Help(format!("wattle {}\n", env!("CARGO_PKG_VERSION")))),
            _ => Args::of_command(command(first)?, rest),
        }
    }

    fn of_command(command: &'static Command, words: &[OsString]) -> Result<Request, Failure> {
        let mut args = Args { command: command.name, files: Vec::new(), words: Vec::new(), output: None, options: Vec::new() };
        let mut words = words.iter();
        while let Some(word) = words.next() {
            let text = word.to_string_lossy();
            match text.as_ref() {
                "--" => args.files.extend(words.by_ref().map(PathBuf::from)),
                "--help" | "-h" => return Ok(Request::Help(command.help.to_string())),
                "-o" => args.output = Some(PathBuf::from(value_of("-o", words.next())?)).filter(|o| o != Path::new("-")),
                "--force" => args.options.push(("--force", String::new())),
                "-" => args.files.push(PathBuf::from("-")),
                option if option.starts_with('-') => args.add_option(command, option, &mut words)?,
                _ => args.files.push(PathBuf::from(word)),
            }
        }
        let (due, given) = (command.files, args.files.len());
        if !due.fits(given) {
            return Err(Failure::unusable(format!("{0} takes {due}, not {given}; see `wattle help {0}`", command.name)));
        }
        if due == Files::OneAndWords {
            args.words = args.files.drain(1..).map(|word| word.to_string_lossy().into_owned()).collect();
        }
        Ok(Request::Run(args))
    }

    fn add_option<'a>(&mut self, command: &Command, given: &str, words: &mut impl Iterator<Item = &'a OsString>) -> Result<(), Failure> {
        let known = command.options.iter().find(|o| o.trim_end_matches('=') == given);
        let Some(known) = known else {
            return Err(Failure::unusable(format!("{0} has no option {given}; see `wattle help {0}`", command.name)));
        };
        let name = known.trim_end_matches('=');
        let value = match known.ends_with('=') {
            true => value_of(name, words.next())?.to_string_lossy().into_owned(),
            false => String::new(),
        };
        self.options.push((name, value));
        Ok(())
    }

    pub fn has(&self, option: &str) -> bool {
        self.value(option).is_some()
    }

    /// The word given with an option; of several the last.
    pub fn value(&self, option: &str) -> Option<&str> {
        self.options.iter().rev().find(|(name, _)| *name == option).map(|(_, value)| value.as_str())
    }

    /// All words given with an option, in their order.
    pub fn values<'a>(&'a self, option: &'a str) -> impl Iterator<Item = &'a str> {
        self.options.iter().filter(move |(name, _)| *name == option).map(|(_, value)| value.as_str())
    }

    /// A number given with an option, within bounds.
    pub fn number(&self, option: &str, least: usize, most: usize) -> Result<Option<usize>, Failure> {
        self.value(option).map(|word| number(option, word, least, most)).transpose()
    }

    /// T as `--openings` says.
    pub fn openings(&self) -> Result<Option<u16>, Failure> {
        Ok(self.number("--openings", 0, usize::from(u16::MAX))?.map(|openings| openings as u16))
    }

    /// The sides that `--sides` names.
    pub fn sides(&self) -> Result<Option<Sides>, Failure> {
        let Some(word) = self.value("--sides") else { return Ok(None) };
        let numbers: Result<Vec<usize>, _> = word.split(',').map(str::parse).collect();
        let fit = match numbers.as_deref() {
            Ok(&[a, b, c]) => Some(Sides { a, b, c }).filter(|sides| sides.voxels().is_some()),
            _ => None,
        };
        fit.map(Some).ok_or_else(|| Failure::unusable(format!("--sides takes A,B,C, three numbers from 3 to 64, not {word}")))
    }

    /// The seed that `--seed` names.
    pub fn seed(&self) -> Result<Option<u32>, Failure> {
        Ok(self.number("--seed", 0, u32::MAX as usize)?.map(|seed| seed as u32))
    }

    /// Which of two formats is wanted: by an option, otherwise by the output's ending, otherwise the first. An ending that is neither is
    /// refused, since what it promises would not be in the file.
    pub fn format(&self, options: [&'static str; 2]) -> Result<&'static str, Failure> {
        let [first, second] = options;
        match (self.has(first), self.has(second)) {
            (true, true) => Err(Failure::unusable(format!("{first} and {second} are given; choose one"))),
            (true, false) => Ok(first),
            (false, true) => Ok(second),
            (false, false) => self.format_by_ending(options),
        }
    }

    fn format_by_ending(&self, options: [&'static str; 2]) -> Result<&'static str, Failure> {
        let Some((output, ending)) = self.output.as_deref().and_then(|o| Some((o, o.extension()?))) else { return Ok(options[0]) };
        let named = options.into_iter().find(|o| ending.eq_ignore_ascii_case(&o[2..]));
        let endings = options.map(|o| format!(".{}", &o[2..])).join(" or ");
        named
            .ok_or_else(|| Failure::unusable(format!("the ending of {} is not known: {} writes {endings}", output.display(), self.command)))
    }

    /// Refuses an output that is there already before any work is done, and one that is itself read even with --force.
    pub fn check_output(&self) -> Result<(), Failure> {
        let Some(output) = &self.output else { return Ok(()) };
        let same = |file: &PathBuf| matches!((file.canonicalize(), output.canonicalize()), (Ok(f), Ok(o)) if f == o);
        if self.files.iter().any(same) {
            return Err(Failure::unusable(format!("{} is the file that is read, and is not overwritten", output.display())));
        }
        if output.exists() && !self.has("--force") {
            return Err(Failure::unusable(format!("{} is there already; --force overwrites it", output.display())));
        }
        Ok(())
    }
}

/// A number within bounds, by what it is given for.
pub fn number(what: &str, word: &str, least: usize, most: usize) -> Result<usize, Failure> {
    let wrong = || Failure::unusable(format!("{what} takes a number from {least} to {most}, not {word}"));
    word.parse().ok().filter(|number| (least..=most).contains(number)).ok_or_else(wrong)
}

fn command(name: &OsStr) -> Result<&'static Command, Failure> {
    let found = COMMANDS.iter().find(|c| OsStr::new(c.name) == name);
    found.ok_or_else(|| Failure::unusable(format!("there is no command {}; `wattle help` lists them", name.to_string_lossy())))
}

fn value_of<'a>(option: &str, word: Option<&'a OsString>) -> Result<&'a OsString, Failure> {
    word.ok_or_else(|| Failure::unusable(format!("{option} needs a word after it")))
}
