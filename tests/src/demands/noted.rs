//! What came before a call in its script, slot by slot: the entries of `ALSO` that it meets by that.

use super::marked::Begun;
use super::served;
use reference::replay::Replay;
use std::collections::BTreeMap;

#[derive(Default)]
pub struct Noted {
    begun: BTreeMap<usize, Begun>,
    /// The number that the last call of `serve` was refused with, if it was, and an order record was given that no line has set since.
    refused: Option<String>,
}

impl Noted {
    /// After a line was done.
    pub fn note(&mut self, state: &Replay, command: &str, answer: Option<&str>) {
        match command.split_ascii_whitespace().next() {
            Some("order") => self.refused = None,
            Some("serve") => {
                let refused = answer.and_then(|said| said.strip_prefix("serve refused "));
                let number = refused.and_then(|said| said.split(' ').next()).filter(|_| !state.order.is_empty());
                self.refused = number.map(str::to_string);
            }
            _ => self.begun.entry(state.slot_in_use()).or_default().note(state, command, answer),
        }
    }

    /// What is seen, if the call is done.
    pub fn seen(&self, state: &Replay, command: &str) -> Vec<String> {
        let words: Vec<&str> = command.split_ascii_whitespace().collect();
        if words.first() != Some(&"serve") {
            return self.of_slot(state, state.slot_in_use(), command);
        }
        let mut seen: Vec<String> =
            self.refused.iter().map(|number| format!("serve: the order record of a refusal with {number}")).collect();
        seen.extend(served::place(state, &words).into_iter().flat_map(|place| self.of_slot(state, place, command)));
        seen
    }

    fn of_slot(&self, state: &Replay, slot: usize, command: &str) -> Vec<String> {
        self.begun.get(&slot).map_or(Vec::new(), |begun| begun.seen(&state.slots()[slot], command))
    }
}
