//! What the tests share: running the tool, the samples, and what the library makes of a file.

pub mod png;

use std::ffi::OsStr;
use std::io::Write;
use std::path::{Path, PathBuf};
use std::process::{Command, Output, Stdio};
use wattlerugby::{patch, read, Grid, Refusal, Sides, GONE, MISSING, NO_LIMIT};

pub fn root() -> PathBuf {
    Path::new(env!("CARGO_MANIFEST_DIR")).join("../..")
}

/// Every grid file in samples/.
pub fn samples() -> Vec<PathBuf> {
    let entries = std::fs::read_dir(root().join("samples")).expect("samples/ can be listed");
    let mut files: Vec<PathBuf> =
        entries.map(|e| e.expect("an entry").path()).filter(|p| p.extension() == Some(OsStr::new("grid"))).collect();
    files.sort();
    assert!(files.len() >= 6, "the samples are found");
    files
}

pub fn sample(name: &str) -> PathBuf {
    root().join("samples").join(name)
}

pub fn wattle<I: AsRef<OsStr>>(words: &[I]) -> Output {
    Command::new(env!("CARGO_BIN_EXE_wattle")).args(words).stdin(Stdio::null()).output().expect("wattle runs")
}

/// Runs the tool on bytes given by the standard input.
pub fn wattle_on(words: &[&str], bytes: &[u8]) -> Output {
    let mut command = Command::new(env!("CARGO_BIN_EXE_wattle"));
    fed(command.args(words), bytes)
}

/// Runs a command on bytes given by the standard input.
pub fn fed(command: &mut Command, bytes: &[u8]) -> Output {
    let command = command.stdin(Stdio::piped()).stdout(Stdio::piped()).stderr(Stdio::piped());
    let mut child = command.spawn().expect("the program starts");
    // a program that does not read to the end closes its input
    let _ = child.stdin.take().expect("an input").write_all(bytes);
    child.wait_with_output().expect("the program ends")
}

pub fn status(output: &Output) -> i32 {
    output.status.code().expect("the program was not killed")
}

/// The answer of a command that is to succeed.
pub fn answer<I: AsRef<OsStr>>(words: &[I]) -> Vec<u8> {
    let output = wattle(words);
    assert_eq!((status(&output), text(&output.stderr).as_str()), (0, ""));
    output.stdout
}

pub fn text(bytes: &[u8]) -> String {
    String::from_utf8(bytes.to_vec()).expect("text")
}

/// What a reader of tests/read_back.py prints, with the first python that has its library.
pub fn python(reader: &str, file: &Path) -> Option<String> {
    let script = Path::new(env!("CARGO_MANIFEST_DIR")).join("tests/read_back.py");
    for python in ["python3", "/usr/bin/python3"] {
        let Ok(output) = Command::new(python).arg(&script).args([reader, path(file)]).output() else { continue };
        if output.status.code() != Some(3) {
            assert!(output.status.success(), "{reader} on {}: {}", file.display(), text(&output.stderr));
            return Some(text(&output.stdout));
        }
    }
    None
}

/// Says what a test leaves out. Written past the test runner, which would swallow what a passing test prints.
pub fn left_out(sentence: &str) {
    writeln!(std::io::stderr(), "left out: {sentence}").expect("the standard error takes a line");
}

/// A folder for one test, empty at its beginning.
pub fn folder(name: &str) -> PathBuf {
    let folder = Path::new(env!("CARGO_TARGET_TMPDIR")).join(name);
    let _ = std::fs::remove_dir_all(&folder);
    std::fs::create_dir_all(&folder).expect("a folder for the test");
    folder
}

pub fn path(p: &Path) -> &str {
    p.to_str().expect("a path of plain letters")
}

// ---- grids of the tests' own

/// A grid file with the layers in rising z, two bytes a value.
pub fn grid_file(sides: [usize; 3], allowed: u16, value: impl Fn(usize, usize, usize) -> i16) -> Vec<u8> {
    let [a, b, c] = sides;
    let mut bytes = vec![0x56, 0x48, a as u8, b as u8, c as u8];
    bytes.extend(allowed.to_le_bytes());
    for z in 0..c {
        bytes.extend([0x56, 0x4C, z as u8]);
        bytes.extend((0..a * b).flat_map(|i| value(i % a, i / a, z).to_le_bytes()));
    }
    bytes
}

/// A grid file with the layers in rising z, some of them with four bytes a value.
pub fn wide_file(sides: [usize; 3], allowed: u16, wide: &[usize], value: impl Fn(usize, usize, usize) -> i32) -> Vec<u8> {
    let [a, b, c] = sides;
    let mut bytes = vec![0x56, 0x48, a as u8, b as u8, c as u8];
    bytes.extend(allowed.to_le_bytes());
    for z in 0..c {
        let (mark, width) = if wide.contains(&z) { (0x57, 4) } else { (0x4C, 2) };
        bytes.extend([0x56, mark, z as u8]);
        bytes.extend((0..a * b).flat_map(|i| value(i % a, i / a, z).to_le_bytes()[..width].to_vec()));
    }
    bytes
}

/// 11 x 10 x 9 voxels: a cube, and apart from it two negative voxels, which are discarded.
pub fn apart() -> Vec<u8> {
    grid_file([11, 10, 9], 0, |x, y, z| match (x, y, z) {
        (2..=6, 2..=6, 2..=6) => -5,
        (8 | 9, 8, 7) => -3,
        _ => 8,
    })
}

/// Ten times the distance from a sphere about the grid's middle, rounded.
pub fn sphere(sides: [usize; 3], radius: f64) -> impl Fn(usize, usize, usize) -> i16 {
    move |x, y, z| {
        let square = |p: usize, side: usize| (p as f64 - (side as f64 - 1.0) / 2.0).powi(2);
        (10.0 * ((square(x, sides[0]) + square(y, sides[1]) + square(z, sides[2])).sqrt() - radius)).round() as i16
    }
}

/// Numbers that are the same on every run.
pub struct Seed(pub u32);

impl Seed {
    pub fn below(&mut self, bound: usize) -> usize {
        self.0 = self.0.wrapping_mul(1_664_525).wrapping_add(1_013_904_223);
        (self.0 >> 8) as usize % bound
    }
}

/// Damage of one to three bytes, now and then with a part cut off or added.
pub fn damaged(seed: &mut Seed) -> Vec<u8> {
    let names = ["sphere.grid", "torus-1.grid", "wet-glass.grid"];
    let mut file = std::fs::read(sample(names[seed.below(3)])).unwrap();
    for _ in 0..seed.below(3) + 1 {
        let records = 7 + (3 + 2 * file[2] as usize * file[3] as usize) * seed.below(9);
        let at = [seed.below(7), (records + seed.below(3)).min(file.len() - 1), seed.below(file.len())][seed.below(3)];
        file[at] = [seed.below(30) as u8, seed.below(256) as u8, file[at] ^ 1][seed.below(3)];
    }
    match seed.below(8) {
        0 => file.truncate(seed.below(file.len())),
        1 => file.push(0),
        2 | 3 => file.extend(damaged_patches(seed)),
        _ => {}
    }
    file
}

/// A few patches for grids of some 2,000 voxels; now and then one is for a larger grid, a byte is changed, or the last is cut off.
fn damaged_patches(seed: &mut Seed) -> Vec<u8> {
    let mut some = Vec::new();
    for _ in 0..seed.below(4) + 1 {
        let index = if seed.below(4) == 0 { seed.below(1 << 20) } else { seed.below(1700) };
        some.extend(patch(index as u32, seed.below(200) as i16));
    }
    match seed.below(4) {
        0 => some.truncate(seed.below(some.len())),
        1 => {
            let at = seed.below(some.len());
            some[at] ^= 1 << seed.below(8);
        }
        _ => {}
    }
    some
}

// ---- what the library makes of a file

/// A finished grid with what it was made from. The kinds are the numbers of `wattle help volume`.
pub struct Carved {
    pub sides: Sides,
    pub values: Vec<i32>,
    pub grid: Grid,
    pub inside: Vec<bool>,
    pub kinds: Vec<u8>,
    /// The openings in their order.
    pub opened: Vec<usize>,
}

pub fn carved(file: &[u8]) -> Result<Carved, Refusal> {
    let mut values = vec![0; file[2] as usize * file[3] as usize * file[4] as usize];
    let (sides, allowed) = read(file, &mut values)?;
    let mut grid = Grid::begin(sides, allowed, &values)?;
    let inside: Vec<bool> = grid.distances().iter().map(|&d| d < 0).collect();
    grid.carve(NO_LIMIT)?;
    let mut opened = Vec::new();
    while let Ok(answer) = grid.open() {
        opened.push(answer.index);
        grid.carve(NO_LIMIT)?;
    }
    grid.finish()?;
    let kind = |i: usize| match (grid.status()[i] != GONE, inside[i]) {
        (false, _) if opened.contains(&i) => 4,
        (false, _) => u8::from(values[i] < 0 && values[i] != MISSING) * 7,
        (true, true) => 1 + u8::from(values[i] == MISSING) * 4,
        (true, false) => 2 + u8::from(values[i] == MISSING),
    };
    let kinds = (0..values.len()).map(kind).collect();
    Ok(Carved { sides, values, grid, inside, kinds, opened })
}

impl Carved {
    /// Every point of the surface, by asking for all of them, with the kind that gives its colour: 1 where it is measured, 3 where a
    /// range point beside it is missing, otherwise 2.
    pub fn points(&self) -> Vec<([f64; 3], usize)> {
        let steps = [1, self.sides.a, self.sides.a * self.sides.b];
        let mut points = Vec::new();
        for i in 0..self.values.len() {
            for axis in 0..3 {
                let (next, dist) = (i + steps[axis as usize], self.grid.distances());
                // each call checks the whole grid, so only where two distances differ in sign
                if dist.get(next).is_none_or(|&d| (d < 0) == (dist[i] < 0)) {
                    continue;
                }
                let Ok(Some(point)) = self.grid.crossing(i, axis) else { continue };
                let (inner, outer) = if self.grid.distances()[i] < 0 { (i, next) } else { (next, i) };
                let kind = match (self.inside[inner] && self.values[outer] >= 0, self.values[inner], self.values[outer]) {
                    (true, ..) => 1,
                    (_, MISSING, _) | (_, _, MISSING) => 3,
                    _ => 2,
                };
                points.push(([point.x, point.y, point.z], kind));
            }
        }
        points
    }

    pub fn count(&self, kind: u8) -> usize {
        self.kinds.iter().filter(|&&k| k == kind).count()
    }
}

/// The colours of kinds 0 to 7.
pub const COLOURS: [[u8; 3]; 8] = [
    [0xE8, 0xEA, 0xED],
    [0, 0x72, 0xB2],
    [0xE6, 0x9F, 0],
    [0xCC, 0x79, 0xA7],
    [0, 0x9E, 0x73],
    [0x56, 0xB4, 0xE9],
    [0, 0, 0],
    [0xF0, 0xE4, 0x42],
];

/// The names of the kinds in keys, but for what is pinned.
pub const NAMES: [(u8, char, &str); 7] = [
    (0, '.', "gone"),
    (1, '#', "inside"),
    (2, 'o', "filled"),
    (3, '?', "filled, and the range point is missing"),
    (4, '+', "opened"),
    (5, '=', "gap counted as inside"),
    (7, '-', "discarded: gone, though measured negative"),
];
