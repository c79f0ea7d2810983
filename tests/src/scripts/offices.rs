//! Offices of 1 to 16 grids from seeds (document 02, CR 14): rounds of `serve`, calls of every kind on single grids between them, other marks, order
//! records fit and unfit, refused calls, and grids added and taken out.

use super::serving::order;
use super::Maker;
use crate::grids::{coarse, grid, walled};
use crate::marks::NO_MARKS;
use reference::calls::REFERENCE;
use reference::grid::Sides;
use reference::replay::Replay;

impl Maker {
    /// What was said since is played, and the slot in use is what the next calls go on from. The answer to the last line.
    fn follow(&mut self, office: &mut Replay, played: &mut usize) -> String {
        let mut said = None;
        for line in self.text[*played..].lines() {
            said = office.line(line).expect("a line of the language");
        }
        *played = self.text.len();
        (self.record, self.dist, self.marks, self.status) =
            (office.record, office.dist.clone(), office.marks.clone(), office.status.clone());
        said.unwrap_or_default()
    }

    /// A grid for a slot: begun or crafted, with marks. Whether a start took it.
    fn seat(&mut self, greatest: i64) -> bool {
        if self.r.chance(15) {
            self.craft(greatest, false);
            return true;
        }
        let in_blocks = self.r.chance(25);
        let g = match self.r.below(4) {
            _ if in_blocks => coarse(&mut self.r, greatest.max(8)),
            0 => walled(&mut self.r, greatest),
            1 => grid(&mut self.r, greatest),
            _ => self.sponge(greatest),
        };
        let [a, b, c] = g.sides.map(|side| side as u64);
        self.set(Sides { a, b, c }, g.allowed);
        self.list_of("values", &g.values);
        if self.r.chance(50) {
            self.mark_all();
        }
        match in_blocks {
            true => self.begin_coarse(&g.values),
            false => self.begin(&g.values),
        }
    }

    /// A grid that a start took, but for one time in a hundred: then every call is refused.
    fn take_seat(&mut self, slot: usize, greatest: i64) {
        self.say(format!("slot {slot}"));
        while !self.seat(greatest) && self.r.chance(99) {}
    }

    /// Mostly a fit one, of any length.
    fn an_order(&mut self, grids: usize) {
        let mut places: Vec<u8> = (0..grids as u8).collect();
        for at in (1..places.len()).rev() {
            places.swap(at, self.r.below(at as u64 + 1) as usize);
        }
        places.truncate(self.r.below(grids as u64 + 1) as usize);
        if self.r.chance(20) {
            let (at, place) = (self.r.below(places.len() as u64 + 1) as usize, self.r.pick(&[0, grids as u8, 16, 255, 1]));
            places.insert(at, place);
        }
        self.say(order(&places));
    }

    /// A call with something wrong in the slot in use, which is put right again.
    fn refused_serve(&mut self, grids: usize, limit: u64) {
        let (n, r) = (self.status.len(), self.record);
        let any = self.r.below(n.max(1) as u64) as usize;
        let (wrong, right) = match self.r.below(9) {
            0 => (format!("rec a {}", self.r.pick(&[0, 2, 65, 1u64 << 32])), format!("rec a {}", r.sides.a)),
            1 => (format!("rec removals {}", n + 1), format!("rec removals {}", r.removals)),
            2 if n > 0 => (format!("marks set {any} {}", self.r.pick(&NO_MARKS)), format!("marks set {any} {}", self.marks[any])),
            3 => (format!("rec finished {}", self.r.pick(&[1, 2, 255])), format!("rec finished {}", r.finished)),
            4 => (format!("marks len {}", n + 1), format!("marks len {n}")),
            5 => (format!("dist len {}", n + 1), format!("dist len {n}")),
            6 if n > 0 => (format!("status set {any} {}", self.r.pick(&[2, 4, 255])), format!("status set {any} {}", self.status[any])),
            7 => {
                let limit = self.r.pick(&[0, 1001, 1256, 4294967295u64]);
                return self.say(format!("serve {grids} {limit}"));
            }
            _ => {
                let grids = self.r.pick(&[0, 17]);
                return self.say(format!("serve {grids} {limit}"));
            }
        };
        self.say(format!("{wrong}\nserve {grids} {limit}\n{right}"));
    }

    /// What is done between rounds, on the grid of the slot in use or on the office; how many grids there are after it.
    fn between_rounds(&mut self, office: &Replay, grids: usize, limit: u64, greatest: i64) -> usize {
        match self.r.below(12) {
            0..=3 => {
                let (count, weights) = (self.r.between(1, 5), self.r.pick(&[[40, 30, 30, 0], [20, 60, 20, 0], [10, 10, 77, 3]]));
                self.calls(count, weights);
            }
            4 | 5 => self.change_marks(),
            6 | 7 => self.refused_serve(grids, limit),
            8 => self.an_order(grids),
            9 if grids < 16 => {
                self.take_seat(grids, greatest);
                return grids + 1;
            }
            10 if grids > 1 => {
                let left: Vec<u8> = office.order.iter().copied().filter(|&place| usize::from(place) < grids - 1).collect();
                self.say(order(&left));
                return grids - 1;
            }
            _ => self.take_seat(office.slot_in_use(), greatest),
        }
        grids
    }

    /// Rounds of calls on 1 to 16 grids, with calls of every kind on single ones between them, and grids added and taken out.
    pub(super) fn offices(&mut self, greatest: i64) {
        let (mut office, mut played) = (Replay::new(REFERENCE), 0);
        let mut grids = self.r.pick(&[1, 2, 2, 3, 3, 4, 5, 8, 15, 16]);
        let greatest = if grids > 5 { greatest.min(6) } else { greatest };
        for slot in 0..grids {
            self.take_seat(slot, greatest);
        }
        self.say("order");
        for _ in 0..self.r.between(3, 9) {
            let limit = self.r.pick(&[1, 1, 2, 3, 5, 20, 100, 1000]);
            let mut said = String::new();
            for _ in 0..self.r.between(1, 2 * grids as i64 + 4) {
                self.say(format!("serve {grids} {limit}"));
                said = self.follow(&mut office, &mut played);
                if said.starts_with("serve refused") {
                    break;
                }
            }
            // what stands in the way of all others leaves
            for (slot, lent) in office.slots()[..grids].iter().enumerate() {
                let in_the_way = lent.record.finished() || !lent.status.iter().all(|s| [0, 1, 3].contains(s));
                if in_the_way && self.r.chance(80) {
                    self.take_seat(slot, greatest);
                }
            }
            if said.starts_with("serve refused 7") {
                self.an_order(grids);
            }
            let slot = self.r.below(grids as u64);
            self.say(format!("slot {slot}"));
            self.follow(&mut office, &mut played);
            grids = self.between_rounds(&office, grids, limit, greatest);
        }
        for _ in 0..self.r.pick(&[0, 60]) {
            self.say(format!("serve {grids} 20"));
            if self.follow(&mut office, &mut played).starts_with("serve refused") {
                break;
            }
        }
        self.say("slot 0");
    }
}
