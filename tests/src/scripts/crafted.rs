//! Scripts on records and buffers that begin did not make: fit ones, finished ones, and such as fail one clause of number 7.

use super::Maker;
use crate::random::Random;
use reference::grid::Sides;

impl Maker {
    fn distance(&mut self, wide: u64) -> i32 {
        match wide {
            0 => self.r.between(-2, 4) as i32,
            1 => self.r.between(-40, 300) as i32,
            2 => self.r.word() as i32,
            _ => self.r.pick(&[i32::MIN, i32::MIN + 1, -1, 0, 1, 3, i32::MAX - 1, i32::MAX]),
        }
    }

    /// A fit record with buffers that begin need not have made.
    pub(super) fn craft(&mut self, greatest: i64, finished: bool) {
        let mut side = || if self.r.chance(30) { 3 } else { self.r.between(3, greatest) as u64 };
        let sides = Sides { a: side(), b: side(), c: side() };
        let n = sides.n() as u64;
        let t = self.r.pick(&[0, 1, 2, 5, 65535]);
        self.set(sides, t);
        let (kept, pending, wide) = (self.r.pick(&[20, 50, 80, 97]), self.r.pick(&[0, 0, 10, 50]), self.r.below(4));
        for i in 0..sides.n() {
            let d = self.distance(wide);
            self.status[i] = if sides.border(i) || !self.r.chance(kept) {
                0
            } else if d < 0 || finished || !self.r.chance(pending) {
                1
            } else {
                3
            };
            let sign_fits = d >= 0 || self.status[i] == 1;
            self.dist[i] = if sign_fits { d } else { !d };
        }
        let up_to = |r: &mut Random, most: u64| r.pick(&[0, 0, 0, 1, most / 2, most / 2, most - 1, most]);
        self.record.openings = if t == 0 { 0 } else { up_to(&mut self.r, t.into()) };
        self.record.removals = up_to(&mut self.r, n);
        self.record.examinations = up_to(&mut self.r, 27 * n);
        self.record.euler = up_to(&mut self.r, 8 * n) as i64 * self.r.pick(&[1, -1]);
        self.record.finished = u8::from(finished);
        self.show_record();
        let (dist, status) = (self.dist.clone(), self.status.clone());
        self.list_of("dist", &dist);
        self.list_of("status", &status);
    }

    pub(super) fn crafted(&mut self, greatest: i64) {
        self.craft(greatest, false);
        let count = self.r.between(5, 40);
        let weights = self.r.pick(&[[35, 35, 20, 5], [10, 10, 70, 3], [5, 85, 5, 1]]);
        self.calls(count, weights);
        if self.r.chance(40) {
            self.and_finish();
        }
    }

    pub(super) fn crossings(&mut self, greatest: i64) {
        self.craft(greatest, true);
        for _ in 0..30 {
            self.crossing();
        }
        self.say("carve 3\ntake 0\nopen\nfinish");
        for _ in 0..10 {
            self.points();
        }
        let byte = self.r.pick(&[2, 3, 128, 254, 255]);
        self.say(format!("rec finished {byte}\ncarve 1\ntake 0\nopen\nfinish\nrec show 0"));
        self.crossing();
        self.points();
    }

    // ---- unfit records, one clause at a time

    pub(super) fn unfit(&mut self, greatest: i64) {
        let finished = self.r.chance(30);
        self.say("slot 0\norder");
        self.craft(greatest, finished);
        let n = self.record.sides.n() as i64;
        let (t, r) = (i64::from(self.record.t), self.record);
        let euler = r.euler;
        let counts = [
            ("openings", t + 1, r.openings as i64),
            ("openings", 4294967295, r.openings as i64),
            ("removals", n + 1, r.removals as i64),
            ("examinations", 27 * n + 1, r.examinations as i64),
            ("euler", 8 * n + 1, euler),
            ("euler", -8 * n - 1, euler),
            ("euler", i64::from(i32::MIN), euler),
            ("removals", n, r.removals as i64),
            ("examinations", 27 * n, r.examinations as i64),
            ("euler", -8 * n, euler),
            ("a", self.r.pick(&[0, 2, 65, 1 << 32]), r.sides.a as i64),
            ("b", self.r.pick(&[0, 2, 65, i64::MAX]), r.sides.b as i64),
            ("c", self.r.pick(&[0, 2, 65, 64]), r.sides.c as i64),
            ("finished", i64::from(!finished), i64::from(finished)),
        ];
        for _ in 0..self.r.between(2, 6) {
            let (field, wrong, right) = self.r.pick(&counts);
            // At a limit a record is fit: then a call that goes through would go on from there.
            let fits = wrong == n || wrong == 27 * n || wrong == -8 * n || field == "finished";
            self.say(format!("rec {field} {wrong}"));
            if fits {
                self.say(format!("crossing 0 0\nrec show 0\nrec {field} {right}"));
            } else {
                self.each_call();
                self.say(format!("rec {field} {right}"));
            }
        }
        for _ in 0..self.r.between(2, 6) {
            self.break_voxel();
        }
        for buffer in ["dist", "status"] {
            let wrong = self.r.pick(&[0, n - 1, n + 1]);
            self.say(format!("{buffer} len {wrong}"));
            self.each_call();
            let (dist, status) = (self.dist.clone(), self.status.clone());
            if buffer == "dist" {
                self.list_of(buffer, &dist);
            } else {
                self.list_of(buffer, &status);
            }
        }
        self.say("open\nfinish\ncarve 1");
    }

    /// A status that is none, a kept border voxel, or a negative distance on a voxel that is not plainly kept.
    fn break_voxel(&mut self) {
        let i = self.r.below(self.status.len() as u64) as usize;
        let (d, s) = (self.dist[i], self.status[i]);
        let border = self.record.sides.border(i);
        match self.r.below(3) {
            0 => {
                let wrong = self.r.pick(&[2, 4, 5, 128, 253, 255]);
                self.say(format!("status set {i} {wrong}"));
            }
            1 if border => {
                let wrong = self.r.pick(&[1, 3]);
                self.say(format!("status set {i} {wrong}"));
            }
            _ => {
                let wrong = if border { 0 } else { self.r.pick(&[0, 3]) };
                let below = self.r.pick(&[-1, -5, i32::MIN]);
                self.say(format!("status set {i} {wrong}\ndist set {i} {below}"));
            }
        }
        self.each_call();
        self.say(format!("status set {i} {s}\ndist set {i} {d}"));
    }

    /// Every call that is given a record; said, not made, as each is to be refused.
    fn each_call(&mut self) {
        let (limit, index) = (self.limit(), self.any_voxel());
        let axis = self.r.below(4);
        self.say(format!("carve {limit}\ntake {index}\nopen\nfinish\nserve 1 {limit}\njudge\ncrossing {index} {axis}"));
        self.points();
    }
}
