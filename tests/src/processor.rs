//! Processor time, as Linux tells it in /proc; where there is no /proc nothing is known. Beside other work the clock says little about a program.

use std::sync::mpsc::{Receiver, RecvTimeoutError};
use std::time::{Duration, Instant};

/// A process at one moment.
#[derive(Debug, Clone, Copy, PartialEq)]
pub struct Process {
    /// The processor time that it has used.
    pub used: Duration,
    /// And that of its children that have ended.
    pub used_by_children: Duration,
    /// Whether it runs, or waits for nothing but a processor.
    pub is_ready: bool,
}

impl Process {
    /// By a number or `self`.
    pub fn seen(which: &str) -> Option<Process> {
        Self::of_line(&std::fs::read_to_string(format!("/proc/{which}/stat")).ok()?)
    }

    /// By a line `NUMBER (COMMAND) STATE ..`. A command may have blanks and brackets. Times are in hundredths of a second on every machine that
    /// this runs on.
    fn of_line(line: &str) -> Option<Process> {
        let words: Vec<&str> = line.rsplit_once(')')?.1.split_ascii_whitespace().collect();
        let hundredths = |at: usize| words.get(at)?.parse().ok().map(|count: u64| Duration::from_millis(10 * count));
        let sum = |at: usize| Some(hundredths(at)? + hundredths(at + 1)?);
        Some(Process { used: sum(11)?, used_by_children: sum(13)?, is_ready: words[0] == "R" })
    }
}

/// How long a tool may take for one run: far more than any needs.
pub const PATIENCE: Duration = Duration::from_secs(60);

/// How often a tool is looked at.
const LOOK: Duration = Duration::from_secs(1);

/// Whether a process outlasts all patience. It has ended where the other end of the channel is gone.
pub fn outlasts(number: u32, ended: &Receiver<()>) -> bool {
    let mut watch = Watch::default();
    while ended.recv_timeout(LOOK) == Err(RecvTimeoutError::Timeout) {
        if watch.ends(Process::seen(&number.to_string())) {
            return true;
        }
    }
    false
}

/// What was seen of a tool so far.
#[derive(Default)]
struct Watch {
    used: Duration,
    /// for how long it has done nothing and waited for no processor, or nobody could tell
    idle: Duration,
}

impl Watch {
    /// Whether patience ends with one more look. A tool that gets no processor is not at fault, and loses none of its time.
    fn ends(&mut self, tool: Option<Process>) -> bool {
        match tool.filter(|tool| tool.is_ready || tool.used > self.used) {
            Some(tool) => *self = Watch { used: tool.used, idle: Duration::ZERO },
            None => self.idle += LOOK,
        }
        self.used.max(self.idle) >= PATIENCE
    }
}

/// What this process spent on a part of its work, its children that have ended with it.
#[derive(Default)]
pub struct Spent {
    clock: Duration,
    processor: Option<Duration>,
}

impl Spent {
    /// Does some of that work.
    pub fn on<A>(&mut self, work: impl FnOnce() -> A) -> A {
        let used = || Process::seen("self").map(|this| this.used + this.used_by_children);
        let (clock, before) = (Instant::now(), used());
        let answer = work();
        self.clock += clock.elapsed();
        if let Some((before, now)) = before.zip(used()) {
            self.processor = Some(self.processor.unwrap_or_default() + (now - before));
        }
        answer
    }

    /// A line of the seconds by the clock, and of those of processor time where they are known.
    pub fn line(&self, what: &str) -> String {
        let clock = format!("time: {:.0} s {what}", self.clock.as_secs_f64());
        match self.processor {
            Some(used) => format!("{clock}, {:.0} s of processor time", used.as_secs_f64()),
            None => clock,
        }
    }
}

#[cfg(test)]
mod tests {
    use super::*;

    fn process(used: u64, is_ready: bool) -> Option<Process> {
        Some(Process { used: Duration::from_secs(used), used_by_children: Duration::ZERO, is_ready })
    }

    /// At which of a hundred looks patience ends, by what each of them sees.
    fn ends(seen: impl Fn(u64) -> Option<Process>) -> Option<u64> {
        let mut watch = Watch::default();
        (1..=100).find(|&look| watch.ends(seen(look)))
    }

    #[test]
    fn a_line_of_proc() {
        let line = "7 (a) (b c) R 1 7 7 0 -1 4194304 10 20 30 40 150 50 300 1 39 19 1 0 5 6";
        let (used, used_by_children) = (Duration::from_secs(2), Duration::from_millis(3010));
        assert_eq!(Process::of_line(line), Some(Process { used, used_by_children, is_ready: true }));
        assert_eq!(Process::of_line("7 (a) R 1 7"), None);
        assert_eq!(Process::of_line(""), None);
        assert_eq!(Process::seen("self").is_some(), cfg!(target_os = "linux"));
    }

    #[test]
    fn what_is_spent_is_a_line() {
        let (clock, processor) = (Duration::from_millis(1600), Some(Duration::from_millis(3400)));
        assert_eq!(Spent { clock, processor }.line("mutants run"), "time: 2 s mutants run, 3 s of processor time");
        assert_eq!(Spent { clock, processor: None }.line("mutants run"), "time: 2 s mutants run");
        let mut spent = Spent::default();
        assert_eq!(spent.on(|| 7), 7);
        assert_eq!(spent.processor.is_some(), cfg!(target_os = "linux"));
    }

    #[test]
    fn patience_is_by_processor_time() {
        assert_eq!(ends(|look| process(look, true)), Some(60));
        assert_eq!(ends(|look| process(2 * look, true)), Some(30));
    }

    #[test]
    fn a_tool_that_gets_no_processor_is_waited_for() {
        assert_eq!(ends(|_| process(0, true)), None);
        assert_eq!(ends(|look| process(look / 30, false)), None);
    }

    #[test]
    fn a_tool_that_does_nothing_is_given_up() {
        assert_eq!(ends(|_| process(0, false)), Some(60));
        assert_eq!(ends(|look| process(look.min(20), false)), Some(80));
        assert_eq!(ends(|_| None), Some(60));
    }
}
