//! The slots of a script, of which one is in use, and the calls that serve many of them.

use super::{number_of, shown, Said, Slot};
use crate::words::Words;
use wattlerugby::raw::Record;
use wattlerugby::{serve, Order, Refusal};

/// Slots 0 to 19 can be named, and the first 17 be served.
const SLOTS: usize = 20;
const SERVED: usize = 17;

pub struct State {
    slots: Vec<Slot>,
    in_use: usize,
    order: Order,
}

impl State {
    pub fn new() -> Self {
        State { slots: (0..SLOTS).map(|_| Slot::new()).collect(), in_use: 0, order: Order::EMPTY }
    }

    pub fn line(&mut self, line: &str) -> Said {
        let mut words = Words::of(line);
        let Ok(command) = words.word() else { return Ok(None) };
        if command.starts_with('#') {
            return Ok(None);
        }
        let said = match command {
            "slot" => self.turn_to(&mut words)?,
            "order" => self.set_order(&mut words)?,
            "serve" => self.serve(&mut words)?,
            _ => self.slots[self.in_use].command(command, &mut words)?,
        };
        words.end()?;
        Ok(said)
    }

    /// The file and whether hashes are printed go along.
    fn turn_to(&mut self, words: &mut Words) -> Said {
        let slot: usize = words.number()?;
        if slot >= SLOTS {
            return Err(format!("there is no slot {slot}"));
        }
        let before = &mut self.slots[self.in_use];
        let (file, hashes) = (std::mem::take(&mut before.file), before.hashes);
        (self.slots[slot].file, self.slots[slot].hashes) = (file, hashes);
        self.in_use = slot;
        Ok(None)
    }

    fn set_order(&mut self, words: &mut Words) -> Said {
        let places: Vec<u8> = words.rest()?;
        if places.len() > SERVED {
            return Err(format!("more than {SERVED} places"));
        }
        self.order = Order::of(&places);
        Ok(None)
    }

    /// The buffers of the first slots are lent end to end, and the status bytes go back to where they came from.
    fn serve(&mut self, words: &mut Words) -> Said {
        let grids: usize = words.number()?;
        if grids > SERVED {
            return Err(format!("more than {SERVED} grids"));
        }
        let limit = words.number()?;
        let slots = &mut self.slots[..grids];
        let records: Vec<Record> = slots.iter().map(|slot| slot.record).collect();
        let dist = slots.iter().map(|slot| &slot.dist[..]).collect::<Vec<_>>().concat();
        let marks = slots.iter().map(|slot| &slot.marks[..]).collect::<Vec<_>>().concat();
        let mut status = slots.iter().map(|slot| &slot.status[..]).collect::<Vec<_>>().concat();
        let answer = serve(&records, &mut self.order, &dist, &marks, &mut status, limit);
        let mut rest = &status[..];
        for slot in slots.iter_mut() {
            let (own, behind) = rest.split_at(slot.status.len());
            slot.status.copy_from_slice(own);
            rest = behind;
        }
        let said = match answer {
            Ok(service) => {
                let (place, c) = (service.place, service.carved);
                slots[place].record = c.next.into();
                let (next, face, order) = (shown(&slots[place].record), number_of(c.face), self.order.served());
                let carved = format!("examined {} removed {} pending {} face {face}", c.examined, c.removed, u8::from(c.pending));
                format!("serve ok place {place} {carved} order {order:?} | {next}")
            }
            Err(Refusal(number)) => format!("serve refused {number}"),
        };
        Ok(Some(self.slots[self.in_use].with_hashes(said)))
    }
}
