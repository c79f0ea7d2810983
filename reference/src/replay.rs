//! Call scripts (docs/CALL-SCRIPTS.md): one command a line in, one answer a line out for each call.

use crate::coarse::{CoarseBegun, Lent};
use crate::file::Layer;
use crate::grid::{Record, Refused, Sides};
use crate::judge::Judged;
use crate::local::Local;
use crate::machine::{Carving, Opening, Points};
use crate::serve::Served;
use crate::words::{Mistake, Words};
use std::io::{BufRead, Write};
use std::ops::{Deref, DerefMut};

/// The calls that a script makes. They are a table, so that it can be replayed over other implementations too (tests/mutants).
#[derive(Clone, Copy)]
#[allow(clippy::type_complexity)] // each type says what its call takes and answers
pub struct Calls {
    pub begin: fn(Sides, u16, &[i32], &[u8], &mut [i32], &mut [u8]) -> Result<Record, Refused>,
    pub begin_coarse: fn(Sides, u16, &[i32], &[u8], Lent, Lent) -> Result<CoarseBegun, Refused>,
    pub carve: fn(&mut Record, &[i32], &[u8], &mut [u8], u64) -> Result<Carving, Refused>,
    pub take: fn(&mut Record, &[i32], &[u8], &mut [u8], u64) -> Result<Local, Refused>,
    pub open: fn(&mut Record, &[i32], &[u8], &mut [u8]) -> Result<Opening, Refused>,
    pub finish: fn(&mut Record, &mut [i32], &[u8]) -> Result<(), Refused>,
    pub serve: fn(&mut [Record], &mut Vec<u8>, &[i32], &[u8], &mut [u8], u64) -> Result<Served, Refused>,
    pub judge: fn(&Record, &[i32], &mut [u8], &[u8]) -> Result<Judged, Refused>,
    pub crossing: fn(&Record, &[i32], &[u8], u64, u64) -> Result<Option<[f64; 3]>, Refused>,
    pub points: fn(&Record, &[i32], &[u8], u64, &mut [f64]) -> Result<Points, Refused>,
    pub local_test: fn(&[bool; 27]) -> Local,
    pub layer: fn(&Sides, &[u8], u64) -> Result<Layer, Refused>,
    pub read: fn(&[u8], &mut [i32], u64) -> Result<(Sides, u16), Refused>,
    pub write: fn(&Sides, u16, &[i32], &mut [u8]) -> Result<usize, Refused>,
    pub practice: fn(&Sides, u32, &mut [i32]) -> Result<(), Refused>,
    pub program_line: fn(&[u8]) -> String,
}

/// What a script works on: slots of which one is in use, which is seen without being named, and the order record of `serve`.
pub struct Replay {
    slots: Vec<Slot>,
    at: usize,
    pub order: Vec<u8>,
}

/// One of the slots, with the calls that are made on it. The file, and whether hashes are printed, go along to the slot in use.
pub struct Slot {
    calls: Calls,
    pub sides: Sides,
    pub t: u16,
    pub values: Vec<i32>,
    pub dist: Vec<i32>,
    pub marks: Vec<u8>,
    pub status: Vec<u8>,
    /// The further buffers of a coarse start.
    pub cdist: Vec<i32>,
    pub cstatus: Vec<u8>,
    pub file: Vec<u8>,
    pub record: Record,
    hash_after_each: bool,
}

/// How many slots there are, and the most of them that `serve` is given.
const SLOTS: usize = 20;
const MOST_SERVED: usize = 17;

/// The longest buffer that `len` makes, and that `points` and `write` lend.
const LONGEST: usize = 1 << 21;

fn up_to(words: &mut Words, most: usize) -> Result<usize, Mistake> {
    match words.number()? {
        number if number <= most => Ok(number),
        number => Err(format!("out of range: {number}")),
    }
}

fn length(words: &mut Words) -> Result<usize, Mistake> {
    up_to(words, LONGEST)
}

fn fnv(bytes: impl Iterator<Item = u8>) -> String {
    let mut h: u64 = 0xcbf2_9ce4_8422_2325;
    for b in bytes {
        h = (h ^ u64::from(b)).wrapping_mul(0x0000_0100_0000_01b3);
    }
    format!("{h:016x}")
}

/// fill V, set I V, list V V .., len L
fn edit<T: Copy + Default + TryFrom<i128>>(buffer: &mut Vec<T>, words: &mut Words) -> Result<(), Mistake> {
    match words.word()? {
        "fill" => {
            let v = words.number()?;
            buffer.fill(v);
        }
        "set" => {
            let i: usize = words.number()?;
            let v = words.number()?;
            *buffer.get_mut(i).ok_or(format!("set past the end: {i}"))? = v;
        }
        "list" => *buffer = words.numbers()?,
        "len" => buffer.resize(length(words)?, T::default()),
        other => return Err(format!("unknown buffer command: {other}")),
    }
    Ok(())
}

fn shown(r: &Record) -> String {
    format!(
        "rec {} {} {} T {} openings {} removals {} examinations {} euler {} finished {}",
        r.sides.a,
        r.sides.b,
        r.sides.c,
        r.t,
        r.openings,
        r.removals,
        r.examinations,
        r.euler,
        u8::from(r.finished())
    )
}

fn sides_from(words: &mut Words) -> Result<Sides, Mistake> {
    Ok(Sides { a: words.number()?, b: words.number()?, c: words.number()? })
}

/// Replays a script; an error says which line is not of the language, or that no more can be written.
pub fn replay(calls: Calls, script: impl BufRead, mut answers: impl Write) -> Result<(), Mistake> {
    let mut state = Replay::new(calls);
    for (i, line) in script.split(b'\n').enumerate() {
        let line = line.map_err(|wrong| format!("the script cannot be read: {wrong}"))?;
        let line = std::str::from_utf8(&line).map_err(|_| format!("line {}: not text", i + 1))?;
        if let Some(said) = state.line(line).map_err(|wrong| format!("line {}: {wrong}", i + 1))? {
            writeln!(answers, "{said}").map_err(|wrong| format!("an answer cannot be written: {wrong}"))?;
        }
    }
    answers.flush().map_err(|wrong| format!("an answer cannot be written: {wrong}"))
}

/// Replays standard input; the status is 2 where that ends early.
pub fn standard_input(calls: Calls) -> std::process::ExitCode {
    match replay(calls, std::io::stdin().lock(), std::io::BufWriter::new(std::io::stdout().lock())) {
        Ok(()) => std::process::ExitCode::SUCCESS,
        Err(wrong) => {
            eprintln!("reference: {wrong}");
            std::process::ExitCode::from(2)
        }
    }
}

impl Deref for Replay {
    type Target = Slot;

    fn deref(&self) -> &Slot {
        &self.slots[self.at]
    }
}

impl DerefMut for Replay {
    fn deref_mut(&mut self) -> &mut Slot {
        &mut self.slots[self.at]
    }
}

impl Replay {
    pub fn new(calls: Calls) -> Self {
        Replay { slots: (0..SLOTS).map(|_| Slot::new(calls)).collect(), at: 0, order: Vec::new() }
    }

    /// The slot in use, and all of them.
    pub fn slot_in_use(&self) -> usize {
        self.at
    }

    pub fn slots(&self) -> &[Slot] {
        &self.slots
    }

    /// One line of a script: what to print, if anything, or what is wrong with it.
    pub fn line(&mut self, line: &str) -> Result<Option<String>, Mistake> {
        let mut words = Words::of(line);
        let command = match words.word() {
            Ok(command) if !command.starts_with('#') => command,
            _ => return Ok(None),
        };
        let said = match command {
            "slot" => self.take_up(up_to(&mut words, SLOTS - 1)?),
            "order" => self.set_order(words.numbers()?)?,
            "serve" => {
                let answer = self.serve(&mut words)?;
                Some(self.with_hashes(answer))
            }
            _ => self.command(command, &mut words)?,
        };
        words.end()?;
        Ok(said)
    }

    /// Another slot is in use from then on.
    fn take_up(&mut self, slot: usize) -> Option<String> {
        let (file, hash_after_each) = (std::mem::take(&mut self.file), self.hash_after_each);
        self.at = slot;
        (self.file, self.hash_after_each) = (file, hash_after_each);
        None
    }

    fn set_order(&mut self, places: Vec<u8>) -> Result<Option<String>, Mistake> {
        if places.len() > MOST_SERVED {
            return Err(format!("more than {MOST_SERVED} places"));
        }
        self.order = places;
        Ok(None)
    }

    /// The slots' buffers are laid end to end as they are, whatever their lengths.
    fn serve(&mut self, words: &mut Words) -> Result<String, Mistake> {
        let (grids, limit) = (up_to(words, MOST_SERVED)?, words.number::<u32>()?);
        let (serve, slots) = (self.calls.serve, &mut self.slots[..grids]);
        let mut records: Vec<Record> = slots.iter().map(|slot| slot.record).collect();
        let dist: Vec<i32> = slots.iter().flat_map(|slot| slot.dist.iter().copied()).collect();
        let marks: Vec<u8> = slots.iter().flat_map(|slot| slot.marks.iter().copied()).collect();
        let mut status: Vec<u8> = slots.iter().flat_map(|slot| slot.status.iter().copied()).collect();
        let answer = serve(&mut records, &mut self.order, &dist, &marks, &mut status, limit.into());
        let mut left = status.into_iter();
        for (slot, record) in slots.iter_mut().zip(&records) {
            slot.record = *record;
            slot.status.fill_with(|| left.next().expect("as many as were lent"));
        }
        Ok(match answer {
            Ok(Served { place, carving: Carving { examined, removed, pending, face } }) => {
                let (pending, order, record) = (u8::from(pending), &self.order, shown(&records[place]));
                format!(
                    "serve ok place {place} examined {examined} removed {removed} pending {pending} face {face} order {order:?} | {record}"
                )
            }
            Err(number) => format!("serve refused {number}"),
        })
    }
}

impl Slot {
    fn new(calls: Calls) -> Self {
        let sides = Sides { a: 3, b: 3, c: 3 };
        let record = Record { sides, t: 0, openings: 0, removals: 0, examinations: 0, euler: 1, finished: 0 };
        let (values, dist, marks, status, file) = (vec![], vec![], vec![], vec![], vec![]);
        let (cdist, cstatus) = (vec![], vec![]);
        let mut new = Slot { calls, sides, t: 0, values, dist, marks, status, cdist, cstatus, file, record, hash_after_each: false };
        new.make_buffers();
        new
    }

    fn make_buffers(&mut self) {
        let s = self.sides;
        let n = if [s.a, s.b, s.c].iter().any(|&x| x > 64) { 0 } else { s.n() };
        self.values = vec![0; n];
        self.dist = vec![0x5A5A_5A5A; n];
        self.marks = vec![0; n];
        self.status = vec![0x5A; n];
        self.cdist = vec![0x5A5A_5A5A; n / 8];
        self.cstatus = vec![0x5A; n / 8];
    }

    fn hashes(&self) -> String {
        let words = |buffer: &[i32]| fnv(buffer.iter().flat_map(|&d| d.to_le_bytes()));
        let bytes = |buffer: &[u8]| fnv(buffer.iter().copied());
        let (dist, status) = (words(&self.dist), bytes(&self.status));
        let (cdist, cstatus) = (words(&self.cdist), bytes(&self.cstatus));
        format!("dist {dist} status {status} cdist {cdist} cstatus {cstatus} values {}", words(&self.values))
    }

    /// The line of a call.
    fn with_hashes(&self, answer: String) -> String {
        if self.hash_after_each {
            format!("{answer} # {}", self.hashes())
        } else {
            answer
        }
    }

    fn dump(&self, name: &str) -> Result<String, Mistake> {
        Ok(match name {
            "values" => format!("{:?}", self.values),
            "dist" => format!("{:?}", self.dist),
            "marks" => format!("{:?}", self.marks),
            "status" => format!("{:?}", self.status),
            "cdist" => format!("{:?}", self.cdist),
            "cstatus" => format!("{:?}", self.cstatus),
            other => return Err(format!("unknown buffer: {other}")),
        })
    }

    fn command(&mut self, command: &str, words: &mut Words) -> Result<Option<String>, Mistake> {
        match command {
            "sides" => {
                self.sides = sides_from(words)?;
                self.make_buffers();
            }
            "rawsides" => self.sides = sides_from(words)?,
            "T" => self.t = words.number()?,
            "values" => edit(&mut self.values, words)?,
            "dist" => edit(&mut self.dist, words)?,
            "marks" => edit(&mut self.marks, words)?,
            "status" => edit(&mut self.status, words)?,
            "cdist" => edit(&mut self.cdist, words)?,
            "cstatus" => edit(&mut self.cstatus, words)?,
            "rec" => return self.record_command(words),
            "file" => self.file = words.bytes()?,
            "append" => self.file.extend(words.bytes()?),
            "autohash" => self.hash_after_each = flag(words)?,
            "hash" => return Ok(Some(self.hashes())),
            "dump" => return self.dump(words.word()?).map(Some),
            "showfile" => return Ok(Some(self.file.iter().map(|b| format!("{b:02X}")).collect())),
            "program" => return Ok(Some((self.calls.program_line)(&self.file))),
            _ => {
                let answer = match command {
                    "points" => self.points(words)?,
                    "write" => self.write(words)?,
                    "practice" => self.practice(words)?,
                    _ => match self.call(command, words)? {
                        Ok(values) => format!("{command} ok {values}"),
                        Err(number) => format!("{command} refused {number}"),
                    },
                };
                return Ok(Some(self.with_hashes(answer)));
            }
        }
        Ok(None)
    }

    /// Sets a field of the record, within the range that the C interface gives it, or shows the record.
    fn record_command(&mut self, words: &mut Words) -> Result<Option<String>, Mistake> {
        let r = &mut self.record;
        match words.word()? {
            "a" => r.sides.a = words.number()?,
            "b" => r.sides.b = words.number()?,
            "c" => r.sides.c = words.number()?,
            "T" => r.t = words.number()?,
            "openings" => r.openings = words.number::<u32>()?.into(),
            "removals" => r.removals = words.number()?,
            "examinations" => r.examinations = words.number()?,
            "euler" => r.euler = words.number::<i32>()?.into(),
            "finished" => r.finished = words.number()?,
            "show" if words.word()? == "0" => return Ok(Some(shown(r))),
            other => return Err(format!("unknown field of the record: {other}")),
        }
        Ok(None)
    }

    /// Lends a buffer that is told by its bytes, whatever the answer.
    fn points(&self, words: &mut Words) -> Result<String, Mistake> {
        let (position, capacity): (u64, usize) = (words.number()?, length(words)?);
        let mut out = vec![f64::from_bits(0x5A5A_5A5A_5A5A_5A5A); capacity];
        let answer = match (self.calls.points)(&self.record, &self.dist, &self.status, position, &mut out) {
            Ok(all) => format!("ok count {} next {}", all.count, all.next),
            Err(number) => format!("refused {number}"),
        };
        Ok(format!("points {answer} bytes {}", fnv(out.iter().flat_map(|d| d.to_bits().to_le_bytes()))))
    }

    /// Lends a buffer likewise; its first bytes are the file from then on, unless the call is refused.
    fn write(&mut self, words: &mut Words) -> Result<String, Mistake> {
        let mut lent = vec![0xA5; length(words)?];
        let answer = match (self.calls.write)(&self.sides, self.t, &self.values, &mut lent) {
            Ok(length) => {
                self.file = lent[..length].to_vec();
                format!("ok length {length}")
            }
            Err(number) => format!("refused {number}"),
        };
        Ok(format!("write {answer} buffer {}", fnv(lent.into_iter())))
    }

    /// The answer has no values of its own.
    fn practice(&mut self, words: &mut Words) -> Result<String, Mistake> {
        Ok(match (self.calls.practice)(&self.sides, words.number()?, &mut self.values) {
            Ok(()) => "practice ok".to_string(),
            Err(number) => format!("practice refused {number}"),
        })
    }

    fn call(&mut self, name: &str, words: &mut Words) -> Result<Result<String, Refused>, Mistake> {
        let Slot { calls, record: r, dist, marks, status, cdist, cstatus, .. } = self;
        Ok(match name {
            "begin" => (calls.begin)(self.sides, self.t, &self.values, marks, dist, status).map(|new| {
                self.record = new;
                shown(&new)
            }),
            "begincoarse" => {
                let (voxels, blocks) = (Lent { dist, status }, Lent { dist: cdist, status: cstatus });
                (calls.begin_coarse)(self.sides, self.t, &self.values, marks, voxels, blocks).map(|CoarseBegun { next, examined }| {
                    self.record = next;
                    format!("{} coarse {examined}", shown(&next))
                })
            }
            "carve" => (calls.carve)(r, dist, marks, status, words.number::<u32>()?.into()).map(|c| {
                let pending = u8::from(c.pending);
                format!("examined {} removed {} pending {pending} face {} | {}", c.examined, c.removed, c.face, shown(r))
            }),
            "take" => (calls.take)(r, dist, marks, status, words.number()?)
                .map(|t| format!("gone k {} m {} face {} | {}", t.k, t.m, t.face, shown(r))),
            "open" => (calls.open)(r, dist, marks, status)
                .map(|Opening { index, local }| format!("opened {index} k {} m {} face {} | {}", local.k, local.m, local.face, shown(r))),
            "finish" => (calls.finish)(r, dist, status).map(|()| shown(r)),
            "crossing" => {
                let (index, axis) = (words.number()?, words.number::<u32>()?);
                let bits = |p: [f64; 3]| p.map(|v| format!("{:016x}", v.to_bits())).join(" ");
                (calls.crossing)(r, dist, status, index, axis.into())
                    .map(|point| point.map_or("none".to_string(), |p| format!("point {}", bits(p))))
            }
            "judge" => (calls.judge)(r, dist, status, &words.bytes()?)
                .map(|Judged { removals, openings, euler }| format!("removals {removals} openings {openings} euler {euler}")),
            "local" => {
                let bits = words.bits()?;
                let t = (calls.local_test)(&std::array::from_fn(|p| bits >> p & 1 == 1));
                Ok(format!("k {} m {} corners {} edges {} faces {} face {}", t.k, t.m, t.corners, t.edges, t.faces, t.face))
            }
            "readlayer" => (calls.layer)(&self.sides, &self.file, words.number()?).map(|l| {
                let bytes = self.file[l.from..l.to].iter().copied();
                format!("z {} width {} from {} to {} bytes {}", l.z, l.width, l.from, l.to, fnv(bytes))
            }),
            "read" => (calls.read)(&self.file, &mut self.values, 64).map(|(sides, t)| {
                (self.sides, self.t) = (sides, t);
                format!("sides {} {} {} T {t}", sides.a, sides.b, sides.c)
            }),
            other => return Err(format!("unknown command: {other}")),
        })
    }
}

fn flag(words: &mut Words) -> Result<bool, Mistake> {
    match words.word()? {
        "0" => Ok(false),
        "1" => Ok(true),
        other => Err(format!("neither 0 nor 1: {other}")),
    }
}
