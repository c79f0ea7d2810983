//! A script's state, and what each line does to it.

mod slots;

pub use slots::State;

use crate::words::{hash, Words};
use wattlerugby::raw::{Record, NO_FACE};
use wattlerugby::{
    begin, begin_coarse, carve, crossing, finish, judge, local_test, open, points, practice, read, read_layer, take, write, Face, Grid,
    Refusal, Sides,
};

/// A grid of the script with all its buffers, the file and whether hashes are printed.
pub struct Slot {
    sides: Sides,
    allowed: u16,
    values: Vec<i32>,
    dist: Vec<i32>,
    marks: Vec<u8>,
    status: Vec<u8>,
    /// The further buffers of a coarse start.
    cdist: Vec<i32>,
    cstatus: Vec<u8>,
    file: Vec<u8>,
    record: Record,
    hashes: bool,
}

/// A line to print, if any; or what is wrong with the script.
type Said = Result<Option<String>, String>;

impl Slot {
    fn new() -> Self {
        let sides = Sides { a: 3, b: 3, c: 3 };
        let record = Record { sides, euler: 1, ..Record::default() };
        let (values, dist, marks, status, file) = (Vec::new(), Vec::new(), Vec::new(), Vec::new(), Vec::new());
        let (cdist, cstatus) = (Vec::new(), Vec::new());
        let mut slot = Slot { sides, allowed: 0, values, dist, marks, status, cdist, cstatus, file, record, hashes: false };
        slot.make_buffers();
        slot
    }

    fn command(&mut self, command: &str, words: &mut Words) -> Said {
        match command {
            "sides" | "rawsides" => {
                self.sides = Sides { a: words.number()?, b: words.number()?, c: words.number()? };
                if command == "sides" {
                    self.make_buffers();
                }
            }
            "T" => self.allowed = words.number()?,
            "values" => edit(&mut self.values, words)?,
            "dist" => edit(&mut self.dist, words)?,
            "marks" => edit(&mut self.marks, words)?,
            "status" => edit(&mut self.status, words)?,
            "cdist" => edit(&mut self.cdist, words)?,
            "cstatus" => edit(&mut self.cstatus, words)?,
            "rec" => return self.poke(words),
            "file" => self.file = words.bytes()?,
            "append" => self.file.extend(words.bytes()?),
            "autohash" => self.hashes = words.yes_or_no()?,
            "hash" => return Ok(Some(self.buffers())),
            "dump" => return self.dump(words.word()?),
            "showfile" => return Ok(Some(self.file.iter().map(|b| format!("{b:02X}")).collect())),
            "program" => return Ok(Some(program(&self.file))),
            _ => {
                let said = match command {
                    "points" => self.points(words)?,
                    "write" => self.write(words)?,
                    "practice" => self.practice(words)?,
                    _ => match self.call(command, words)? {
                        Ok(text) => format!("{command} ok {text}"),
                        Err(Refusal(number)) => format!("{command} refused {number}"),
                    },
                };
                return Ok(Some(self.with_hashes(said)));
            }
        }
        Ok(None)
    }

    fn make_buffers(&mut self) {
        let Sides { a, b, c } = self.sides;
        let n = if a.max(b).max(c) > 64 { 0 } else { a * b * c };
        self.values = vec![0; n];
        self.dist = vec![0x5A5A_5A5A; n];
        self.marks = vec![wattlerugby::UNMARKED; n];
        self.status = vec![0x5A; n];
        self.cdist = vec![0x5A5A_5A5A; n / 8];
        self.cstatus = vec![0x5A; n / 8];
    }

    fn poke(&mut self, words: &mut Words) -> Said {
        let field = words.word()?;
        let r = &mut self.record;
        match field {
            "a" => r.sides.a = words.number()?,
            "b" => r.sides.b = words.number()?,
            "c" => r.sides.c = words.number()?,
            "T" => r.allowed = words.number()?,
            "openings" => r.openings = words.number()?,
            "removals" => r.removals = words.number()?,
            "examinations" => r.examinations = words.number()?,
            "euler" => r.euler = words.number()?,
            "finished" => r.finished = words.number()?,
            "show" => {
                let zero = words.word()?;
                return if zero == "0" { Ok(Some(shown(r))) } else { Err(format!("rec show 0, and not {zero}")) };
            }
            _ => return Err(format!("the record has no {field}")),
        }
        Ok(None)
    }

    fn with_hashes(&self, said: String) -> String {
        match self.hashes {
            true => format!("{said} # {}", self.buffers()),
            false => said,
        }
    }

    fn buffers(&self) -> String {
        let words = |buffer: &[i32]| hash(buffer.iter().flat_map(|word| word.to_le_bytes()));
        let bytes = |buffer: &[u8]| hash(buffer.iter().copied());
        let of_voxels = format!("dist {} status {}", words(&self.dist), bytes(&self.status));
        format!("{of_voxels} cdist {} cstatus {} values {}", words(&self.cdist), bytes(&self.cstatus), words(&self.values))
    }

    fn dump(&self, buffer: &str) -> Said {
        match buffer {
            "values" => Ok(Some(format!("{:?}", self.values))),
            "dist" => Ok(Some(format!("{:?}", self.dist))),
            "marks" => Ok(Some(format!("{:?}", self.marks))),
            "status" => Ok(Some(format!("{:?}", self.status))),
            "cdist" => Ok(Some(format!("{:?}", self.cdist))),
            "cstatus" => Ok(Some(format!("{:?}", self.cstatus))),
            _ => Err(format!("there is no buffer {buffer}")),
        }
    }

    /// The record that a call answered holds from then on.
    fn goes_on(&mut self, next: wattlerugby::Record) -> String {
        self.record = next.into();
        shown(&self.record)
    }

    /// All points from a position on, into a buffer whose every byte is told, written or not.
    fn points(&mut self, words: &mut Words) -> Result<String, String> {
        let position = words.number()?;
        let mut out = vec![f64::from_bits(0x5A5A_5A5A_5A5A_5A5A); length(words)?];
        let answer = match points(self.record, &self.dist, &self.status, position, &mut out) {
            Ok(filled) => format!("ok count {} next {}", filled.count, filled.next),
            Err(Refusal(number)) => format!("refused {number}"),
        };
        Ok(format!("points {answer} bytes {}", hash(out.iter().flat_map(|d| d.to_bits().to_le_bytes()))))
    }

    /// The grid as a file, into a buffer whose every byte is told, written or not. What was written is the file from then on.
    fn write(&mut self, words: &mut Words) -> Result<String, String> {
        let mut buffer = vec![0xA5; length(words)?];
        let written = write(self.sides, self.allowed, &self.values, &mut buffer);
        let told = hash(buffer.iter().copied());
        Ok(match written {
            Ok(length) => {
                buffer.truncate(length);
                self.file = buffer;
                format!("write ok length {length} buffer {told}")
            }
            Err(Refusal(number)) => format!("write refused {number} buffer {told}"),
        })
    }

    /// Nothing is answered but that it is done.
    fn practice(&mut self, words: &mut Words) -> Result<String, String> {
        Ok(match practice(self.sides, words.number()?, &mut self.values) {
            Ok(()) => "practice ok".to_string(),
            Err(Refusal(number)) => format!("practice refused {number}"),
        })
    }

    fn call(&mut self, name: &str, words: &mut Words) -> Result<Result<String, Refusal>, String> {
        let (given, dist, marks, status) = (self.record, &mut self.dist, &self.marks, &mut self.status);
        Ok(match name {
            "begin" => begin(self.sides, self.allowed, &self.values, marks, dist, status).map(|next| self.goes_on(next)),
            "begincoarse" => {
                let (block_dist, block_status) = (&mut self.cdist, &mut self.cstatus);
                begin_coarse(self.sides, self.allowed, &self.values, marks, dist, status, block_dist, block_status)
                    .map(|begun| format!("{} coarse {}", self.goes_on(begun.next), begun.examined))
            }
            "carve" => carve(given, dist, marks, status, words.number()?).map(|c| {
                let next = self.goes_on(c.next);
                let (pending, face) = (u8::from(c.pending), number_of(c.face));
                format!("examined {} removed {} pending {pending} face {face} | {next}", c.examined, c.removed)
            }),
            "take" => take(given, dist, marks, status, words.number()?).map(|t| {
                let next = self.goes_on(t.next);
                format!("gone k {} m {} face {} | {next}", t.k, t.m, t.face.number())
            }),
            "open" => open(given, dist, marks, status).map(|o| {
                let next = self.goes_on(o.next);
                format!("opened {} k {} m {} face {} | {next}", o.index, o.k, o.m, o.face.number())
            }),
            "finish" => finish(given, dist, status).map(|next| self.goes_on(next)),
            "crossing" => crossing(given, dist, status, words.number()?, words.number()?).map(|point| match point {
                None => "none".to_string(),
                Some(p) => format!("point {:016x} {:016x} {:016x}", p.x.to_bits(), p.y.to_bits(), p.z.to_bits()),
            }),
            "judge" => judge(given, dist, status, &words.bytes()?)
                .map(|j| format!("removals {} openings {} euler {}", j.removals, j.openings, j.euler)),
            "local" => {
                let t = local_test(words.hexadecimal()?);
                let face = number_of(t.face);
                Ok(format!("k {} m {} corners {} edges {} faces {} face {face}", t.k, t.m, t.corners, t.edges, t.faces))
            }
            "readlayer" => read_layer(self.sides, &self.file, words.number()?)
                .map(|l| format!("z {} width {} from {} to {} bytes {}", l.z, l.width, l.from, l.end(), hash(l.bytes.iter().copied()))),
            "read" => read(&self.file, &mut self.values).map(|(sides, allowed)| {
                (self.sides, self.allowed) = (sides, allowed);
                format!("sides {} {} {} T {allowed}", sides.a, sides.b, sides.c)
            }),
            _ => return Err(format!("unknown command: {name}")),
        })
    }
}

/// The longest buffer that `len` makes, and `points` and `write` lend: longer than any grid's file, and short enough to be made.
const LONGEST: usize = 1 << 21;

fn length(words: &mut Words) -> Result<usize, String> {
    match words.number()? {
        length if length <= LONGEST => Ok(length),
        length => Err(format!("longer than {LONGEST}: {length}")),
    }
}

/// fill V, set I V, list V V .., len L
fn edit<T: Copy + Default + TryFrom<i128>>(buffer: &mut Vec<T>, words: &mut Words) -> Result<(), String> {
    match words.word()? {
        "fill" => buffer.fill(words.number()?),
        "set" => {
            let place: usize = words.number()?;
            let value = words.number()?;
            *buffer.get_mut(place).ok_or_else(|| format!("the buffer ends before {place}"))? = value;
        }
        "list" => *buffer = words.rest()?,
        "len" => buffer.resize(length(words)?, T::default()),
        other => return Err(format!("a buffer is not changed by {other}")),
    }
    Ok(())
}

fn number_of(face: Option<Face>) -> u32 {
    face.map_or(NO_FACE, Face::number)
}

fn shown(r: &Record) -> String {
    let Record { sides, allowed, openings, removals, examinations, euler, finished } = r;
    let Sides { a, b, c } = sides;
    let finished = u8::from(*finished != 0);
    format!(
        "rec {a} {b} {c} T {allowed} openings {openings} removals {removals} examinations {examinations} euler {euler} finished {finished}"
    )
}

/// The longest input that the program `carve` takes.
const LONGEST_INPUT: usize = 1 << 16;

/// The program's own refusals: 25 for its input's length before all else, and 1 for a side over 24 in the place of that check.
fn refused_by_program(file: &[u8]) -> Option<Refusal> {
    let fit = |i: usize| (3..=64).contains(&file[i]);
    let large = || file.len() >= 7 && file[..2] == [0x56, 0x48] && (2..5).all(fit) && file[2..5].iter().any(|&side| side > 24);
    match file.len() > LONGEST_INPUT {
        true => Some(Refusal::BYTES_LEFT),
        false => large().then_some(Refusal::SIDE),
    }
}

/// The line of the program `carve`, by calls of the library.
fn program(file: &[u8]) -> String {
    let carved = match refused_by_program(file) {
        Some(refused) => Err(refused),
        None => Grid::from_file(file).and_then(|mut g| g.carve_to_the_end().map(|()| g)),
    };
    match carved {
        Ok(grid) => {
            let kept = grid.status().iter().filter(|&&s| s != wattlerugby::GONE).count();
            let r = grid.record();
            format!("kept {kept} removed {} opened {} examined {} euler {}", r.removals, r.openings, r.examinations, r.euler)
        }
        Err(Refusal(number)) => format!("refused {number}"),
    }
}
