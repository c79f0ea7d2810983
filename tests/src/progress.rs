//! What is being done, on one line of a terminal that is written over.

use std::fmt::Display;
use std::io::IsTerminal;

/// Says nothing where standard error is no terminal.
#[derive(Clone, Copy)]
pub struct Progress {
    is_shown: bool,
}

impl Default for Progress {
    fn default() -> Self {
        Progress { is_shown: std::io::stderr().is_terminal() }
    }
}

impl Progress {
    pub fn at(&self, what: impl Display) {
        if self.is_shown {
            eprint!("\r\x1b[K{what}");
        }
    }

    /// To be called before a line is printed.
    pub fn clear(&self) {
        if self.is_shown {
            eprint!("\r\x1b[K");
        }
    }
}
