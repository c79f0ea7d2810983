//! A grid file: its bytes, and what read makes of them.

use crate::args::Args;
use crate::words::some;
use crate::{Failure, Status};
use std::io::Read;
use std::path::Path;
use wattlerugby::{read, read_layer, Refusal, Sides, GREATEST_VALUE, LEAST_VALUE, LONGEST_FILE, MISSING, NARROW, WIDE};

/// Bytes of the header, of a layer record before its values, and of a patch record: in all, and before its value.
pub const HEADER: usize = 7;
pub const LAYER_HEAD: usize = 3;
pub const PATCH: usize = 8;
pub const PATCH_HEAD: usize = 6;

/// A file's bytes, with the name that answers call it by.
pub struct Source {
    pub name: String,
    pub bytes: Vec<u8>,
}

/// A layer's record: its first byte, its z, the bytes a value, and the byte after its last.
#[derive(Clone, Copy)]
pub struct LayerRecord {
    pub start: usize,
    pub z: u8,
    pub width: u8,
    pub end: usize,
}

impl LayerRecord {
    /// The byte where a value of the layer begins, by its place there.
    pub fn byte_of(&self, place: usize) -> usize {
        self.start + LAYER_HEAD + usize::from(self.width) * place
    }
}

/// Where a file's records begin, up to the first that is refused.
pub struct Records {
    pub layers: Vec<LayerRecord>,
    /// Each patch's first byte, and its voxel's index.
    pub patches: Vec<(usize, usize)>,
    /// The byte after the last of them.
    pub next: usize,
}

/// A grid as it was scanned, with what was patched.
#[derive(Debug)]
pub struct Scan {
    pub name: String,
    pub sides: Sides,
    /// T, how many openings are allowed: as `--openings` says, otherwise as the file does.
    pub allowed: u16,
    pub allowed_in_file: u16,
    pub values: Vec<i32>,
}

impl Source {
    pub fn open(path: &Path) -> Result<Source, Failure> {
        let cannot = |e: std::io::Error| Failure::unusable(format!("{} cannot be read: {e}", path.display()));
        if path == Path::new("-") {
            return Ok(Source::named(path, bytes_that_decide(std::io::stdin()).map_err(cannot)?));
        }
        Ok(Source::named(path, std::fs::File::open(path).and_then(bytes_that_decide).map_err(cannot)?))
    }

    /// Bytes that were read from a path.
    pub fn named(path: &Path, bytes: Vec<u8>) -> Source {
        if path == Path::new("-") {
            return Source { name: "the standard input".to_string(), bytes };
        }
        let name = path.file_name().unwrap_or(path.as_os_str()).to_string_lossy();
        // a line feed in a name would break the headers that it goes into
        Source { name: name.replace(char::is_control, "?"), bytes }
    }

    /// The sides that the header names, 0 for those beyond the file's end.
    pub fn sides(&self) -> Sides {
        sides_of(&self.bytes)
    }

    pub fn read(self) -> Result<Scan, (Source, Refusal)> {
        match values_of(&self.bytes) {
            Ok((sides, allowed, values)) => Ok(Scan { name: self.name, sides, allowed, allowed_in_file: allowed, values }),
            Err(refused) => Err((self, refused)),
        }
    }

    /// The same with its layers in rising z, where that can be done; otherwise as it is.
    pub fn sorted(self) -> Source {
        match sorted(&self.bytes) {
            Some(bytes) => Source { bytes, ..self },
            None => self,
        }
    }

    pub fn records(&self) -> Records {
        let (sides, layers, mut patches) = (self.sides(), layers_of(&self.bytes), Vec::new());
        let mut next = layers.last().map_or(HEADER, |last| last.end);
        while let Some(index) = self.patch_at(next).filter(|_| layers.len() == sides.c) {
            patches.push((next, index));
            next += PATCH;
        }
        Records { layers, patches, next }
    }

    /// The index in the patch record that begins at a byte, where that is one.
    fn patch_at(&self, start: usize) -> Option<usize> {
        let record = self.bytes.get(start..start + PATCH)?;
        let index = index_of(record);
        (record.starts_with(b"VP") && index < self.sides().voxels()?).then_some(index)
    }
}

/// The index that a patch record has, whatever the grid.
pub fn index_of(record: &[u8]) -> usize {
    record[2..PATCH_HEAD].iter().rev().fold(0, |index, &byte| index << 8 | usize::from(byte))
}

/// The header's sides, 0 for those beyond the file's end.
fn sides_of(bytes: &[u8]) -> Sides {
    let side = |i: usize| bytes.get(i).map_or(0, |&s| usize::from(s));
    Sides { a: side(2), b: side(3), c: side(4) }
}

/// How long a layer's record of this width is.
pub fn record_length(sides: Sides, width: u8) -> usize {
    LAYER_HEAD + usize::from(width) * sides.a * sides.b
}

/// The bytes a value of the layer record that begins at a byte, by its mark, whole or not.
pub fn width_at(bytes: &[u8], start: usize) -> u8 {
    match bytes.get(start..).is_some_and(|left| left.starts_with(b"VW")) {
        true => WIDE,
        false => NARROW,
    }
}

/// The layers' records, whatever their order, up to the first that is none.
fn layers_of(bytes: &[u8]) -> Vec<LayerRecord> {
    let (sides, mut start, mut found) = (sides_of(bytes), HEADER, Vec::new());
    while let Some(layer) = read_layer(sides, bytes, start).ok().filter(|_| found.len() < sides.c) {
        found.push(LayerRecord { start, z: layer.z, width: layer.width, end: layer.end() });
        start = layer.end();
    }
    found
}

/// The file with its layer records in rising z. Nothing where not all layers are there, or one of them is there twice.
fn sorted(bytes: &[u8]) -> Option<Vec<u8>> {
    let (sides, mut layers) = (sides_of(bytes), layers_of(bytes));
    let end = layers.last()?.end;
    layers.sort_by_key(|layer| layer.z);
    let each_once = layers.len() == sides.c && layers.iter().enumerate().all(|(place, layer)| usize::from(layer.z) == place);
    let records: Vec<&[u8]> = layers.iter().map(|layer| &bytes[layer.start..layer.end]).collect();
    each_once.then(|| [&bytes[..HEADER], &records.concat(), &bytes[end..]].concat())
}

/// What read makes of a file: sides, T and values.
fn values_of(bytes: &[u8]) -> Result<(Sides, u16, Vec<i32>), Refusal> {
    let mut values = vec![0; sides_of(bytes).voxels().unwrap_or(0)];
    read(bytes, &mut values).map(|(sides, allowed)| (sides, allowed, values))
}

/// Whether read refuses a file that begins with these bytes, whatever follows and also with its layers in rising z.
fn are_refused(bytes: &[u8]) -> bool {
    let refused = match values_of(bytes).err() {
        Some(Refusal::LAYER_ORDER) => sorted(bytes).map_or(Some(Refusal::LAYER_ORDER), |sorted| values_of(&sorted).err()),
        other => other,
    };
    // every refusal but that of a file which ends too early is of bytes that are there
    refused.is_some_and(|refused| refused != Refusal::SHORT)
}

/// All bytes, or so many that read refuses them whatever follows: no file is too long, but what is no grid file is not read to its end.
fn bytes_that_decide(mut input: impl Read) -> std::io::Result<Vec<u8>> {
    let mut bytes = Vec::new();
    loop {
        // as many again as are there, so that looking at them over and over takes no more than twice the time
        let due = bytes.len().max(LONGEST_FILE);
        let found = input.by_ref().take(due as u64).read_to_end(&mut bytes)?;
        if found < due || are_refused(&bytes) {
            return Ok(bytes);
        }
    }
}

impl Scan {
    /// The scan of a file that read takes.
    pub fn open(path: &Path) -> Result<Scan, Failure> {
        Scan::of(Source::open(path)?)
    }

    pub fn of(source: Source) -> Result<Scan, Failure> {
        source.read().map_err(|(source, refused)| refusal(&source.name, refused))
    }

    /// The same with as many openings allowed as `--openings` says.
    pub fn allowing(self, args: &Args) -> Result<Scan, Failure> {
        let allowed = args.openings()?.unwrap_or(self.allowed);
        Ok(Scan { allowed, ..self })
    }

    /// T, and what it is.
    pub fn allowed_told(&self) -> String {
        let told = format!("T = {} allowed", some(self.allowed.into(), "opening"));
        match self.allowed == self.allowed_in_file {
            true => told,
            false => format!("{told} ({} in the file)", self.allowed_in_file),
        }
    }

    pub fn place(&self, index: usize) -> [usize; 3] {
        let Sides { a, b, .. } = self.sides;
        [index % a, index / a % b, index / (a * b)]
    }

    /// A voxel as answers name it.
    pub fn voxel(&self, index: usize) -> String {
        let [x, y, z] = self.place(index);
        format!("({x}, {y}, {z}), index {index}")
    }

    pub fn on_border(&self, index: usize) -> bool {
        let Sides { a, b, c } = self.sides;
        self.place(index).iter().zip([a, b, c]).any(|(&p, side)| p == 0 || p + 1 == side)
    }

    /// The voxels that share a face with one.
    pub fn faces(&self, index: usize) -> impl Iterator<Item = usize> {
        let (Sides { a, b, c }, [x, y, z]) = (self.sides, self.place(index));
        let along = |p: usize, step: usize, side: usize| [(p > 0).then(|| index - step), (p + 1 < side).then_some(index + step)];
        [along(x, 1, a), along(y, a, b), along(z, a * b, c)].into_iter().flatten().flatten()
    }

    /// The voxels that touch one, in a face, an edge or a corner, and itself.
    pub fn touching(&self, index: usize) -> impl Iterator<Item = usize> {
        let (Sides { a, b, c }, [x, y, z]) = (self.sides, self.place(index));
        let near = |p: usize, side: usize| p.saturating_sub(1)..(p + 2).min(side);
        near(z, c).flat_map(move |z| near(y, b).flat_map(move |y| near(x, a).map(move |x| x + a * (y + b * z))))
    }

    pub fn size(&self) -> String {
        let Sides { a, b, c } = self.sides;
        format!("{a} x {b} x {c}")
    }
}

pub fn is_negative(value: i32) -> bool {
    value < 0 && value != MISSING
}

/// Whether a value is measured or the missing mark: what else it may be is refused with 28.
pub fn is_value(value: i32) -> bool {
    value == MISSING || (LEAST_VALUE..=GREATEST_VALUE).contains(&value)
}

/// What a coarse start asks of a grid, where it refuses with 31.
pub const FOR_COARSE: &str = "a coarse start needs even sides of 6 or more, and a border of two voxels around what is measured negative; \
                              `wattle explain --coarse` says where, and without --coarse the grid is taken";

/// The line for a grid that a command cannot work on.
pub fn refusal(name: &str, refused: Refusal) -> Failure {
    let line = match refused {
        Refusal::COARSE => format!("{name}: {refused}: {FOR_COARSE}"),
        _ => format!("{name}: {refused}; `wattle explain` says where, and what to do"),
    };
    Failure { line, status: Status::Refused }
}
