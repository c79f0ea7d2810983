//! Progress of what takes long, as one line on the standard error, where that is a terminal.

use std::io::{IsTerminal, Write};
use std::time::{Duration, Instant};

/// How long to wait before the first line, and between two.
const PAUSE: Duration = Duration::from_millis(200);

pub struct Progress {
    shown: bool,
    last: Instant,
    terminal: bool,
}

impl Progress {
    /// Of several files at a time none is shown: they would write over each other.
    pub fn new() -> Progress {
        let alone = std::thread::current().name() == Some("main");
        Progress { shown: false, last: Instant::now(), terminal: alone && std::io::stderr().is_terminal() }
    }

    /// Shows the text in place of the last one, if it is time to. The text is made only then.
    pub fn show(&mut self, text: impl FnOnce() -> String) {
        if self.terminal && self.last.elapsed() >= PAUSE {
            write_over(&text());
            self.last = Instant::now();
            self.shown = true;
        }
    }
}

impl Drop for Progress {
    fn drop(&mut self) {
        if self.shown {
            write_over("");
        }
    }
}

/// Goes to the line's beginning, clears it and writes. A terminal that is gone is no reason to stop.
fn write_over(text: &str) {
    let mut err = std::io::stderr();
    let _ = write!(err, "\r\x1b[K{text}").and_then(|()| err.flush());
}
