//! Writes samples/: the grid files, beside each its line and its picture as text, and a list of pins.
//! usage: cargo run --example samples -- FOLDER

use wattlerugby::{patch, read_values, written, Grid, Refusal, Sides, GONE, MISSING, NO_LIMIT};

pub struct Sample {
    pub name: &'static str,
    sides: Sides,
    allowed: u16,
    /// The values in the layers.
    values: Vec<i32>,
    /// Index and value of each patch, in the order of the file.
    patches: Vec<(usize, i16)>,
}

fn main() -> std::io::Result<()> {
    let Some(folder) = std::env::args().nth(1).map(std::path::PathBuf::from) else {
        eprintln!("usage: samples FOLDER");
        std::process::exit(2);
    };
    for sample in samples() {
        std::fs::write(folder.join(format!("{}.grid", sample.name)), sample.file())?;
        std::fs::write(folder.join(format!("{}.txt", sample.name)), sample.told())?;
    }
    std::fs::write(folder.join("torus-1.pins"), pins())
}

// ---- the bodies

/// Every sample. A value is ten times the distance to the body's surface in voxels, negative inside; but the tunnel's is in tenths of a
/// millimetre.
pub fn samples() -> Vec<Sample> {
    vec![
        Sample::new("sphere", [12, 12, 12], 0, noisy(12, |x, y, z| tenths(sphere([5.5, 5.5, 5.5], x, y, z)))),
        Sample::new("torus-0", [16, 16, 9], 0, noisy(2, |x, y, z| tenths(torus(x, y, z)))),
        Sample::new("torus-1", [16, 16, 9], 1, noisy(2, |x, y, z| tenths(torus(x, y, z)))),
        Sample::new("wet-glass", [14, 14, 9], 0, pane_with_gaps),
        Sample { name: "patched", patches: shot_again(), ..Sample::new("wet-glass", [14, 14, 9], 0, pane_with_gaps) },
        Sample::new("refused", [12, 12, 12], 0, |x, y, z| tenths(sphere([3.5, 5.5, 5.5], x, y, z))),
        Sample::new("tunnel", [11, 11, 24], 1, noisy(9_000, tunnel_with_gap)),
        Sample::new("wall", [16, 11, 9], 0, wall_with_gaps),
        Sample::new("ball", [9, 9, 9], 1, |x, y, z| tenths(ball(3.2, 4.0, x, y, z))),
        Sample::new("hollow", [9, 9, 9], 5, |x, y, z| tenths(ball(3.4, 4.0, x, y, z).max(-ball(1.2, 4.0, x, y, z)))),
        Sample::new("pieces", [15, 9, 9], 1, |x, y, z| tenths(ball(3.2, 4.0, x, y, z).min(ball(1.2, 11.0, x, y, z)))),
        Sample::new("stockpile", [24, 24, 12], 1, noisy(2, stockpile_with_gap)),
        Sample::new("hopper", [20, 20, 18], 0, noisy(4, |x, y, z| tenths(hopper(x, y, z)))),
    ]
}

fn tenths(distance: f64) -> i32 {
    (10.0 * distance).round() as i32
}

/// A value with noise of at most so much either way, the same on every run. A missing point stays missing.
fn noisy(most: u32, value: impl Fn(f64, f64, f64) -> i32) -> impl FnMut(f64, f64, f64) -> i32 {
    let mut seed = 1u32;
    move |x, y, z| {
        seed = seed.wrapping_mul(1_664_525).wrapping_add(1_013_904_223);
        match value(x, y, z) {
            MISSING => MISSING,
            value => value + ((seed >> 16) % (2 * most + 1)) as i32 - most as i32,
        }
    }
}

fn length(parts: &[f64]) -> f64 {
    parts.iter().map(|p| p * p).sum::<f64>().sqrt()
}

fn sphere([mx, my, mz]: [f64; 3], x: f64, y: f64, z: f64) -> f64 {
    length(&[x - mx, y - my, z - mz]) - 4.0
}

/// A ball about (middle, 4, 4).
fn ball(radius: f64, middle: f64, x: f64, y: f64, z: f64) -> f64 {
    length(&[x - middle, y - 4.0, z - 4.0]) - radius
}

/// A tube of radius 2 around a circle of radius 4.5.
fn torus(x: f64, y: f64, z: f64) -> f64 {
    length(&[length(&[x - 7.5, y - 7.5]) - 4.5, z - 4.0]) - 2.0
}

/// A tunnel's lining, 100 m long in voxels of 5 m: a tube along z with an outer radius of 20 m and a bore of 7 m. Distances in tenths of a millimetre
/// need more than 16 bits. In the middle of the bore no shot came back.
fn tunnel_with_gap(x: f64, y: f64, z: f64) -> i32 {
    const TENTHS_OF_A_MILLIMETRE: f64 = 50_000.0;
    let from_axis = length(&[x - 5.0, y - 5.0]);
    if from_axis < 1.0 && (9.0..=14.0).contains(&z) {
        return MISSING;
    }
    let lining = (from_axis - 4.0).max(1.4 - from_axis).max((z - 11.5).abs() - 10.0);
    (TENTHS_OF_A_MILLIMETRE * lining).round() as i32
}

/// A pane of 10 x 10 x 5 voxels. Range points are missing through its whole thickness, in its middle, and from one of its faces up to the
/// end of the grid.
fn pane_with_gaps(x: f64, y: f64, z: f64) -> i32 {
    let within = |p: f64, low: f64, high: f64| low <= p && p <= high;
    let through = within(x, 3.0, 5.0) && within(y, 3.0, 5.0);
    let middle = within(x, 8.0, 9.0) && within(y, 8.0, 9.0) && z == 4.0;
    let face = within(x, 8.0, 10.0) && within(y, 3.0, 5.0) && z >= 5.0;
    if through || middle || face {
        return MISSING;
    }
    pane(x, y, z)
}

fn pane(x: f64, y: f64, z: f64) -> i32 {
    let beyond = |p: f64, centre: f64, half: f64| (p - centre).abs() - half;
    tenths(beyond(x, 6.5, 5.0).max(beyond(y, 6.5, 5.0)).max(beyond(z, 4.0, 2.5)))
}

/// A wall of 12 x 7 x 5 voxels with its corners cut off. No shot reached its middle: it has two gaps. In the left one a core was measured, as
/// solid. In front of the right one a voxel of the face was measured as lying on the surface, 0, which is outside.
fn wall_with_gaps(x: f64, y: f64, z: f64) -> i32 {
    let within = |p: f64, low: f64, high: f64| low <= p && p <= high;
    let behind = |low: f64, high: f64| within(x, low, high) && within(y, 3.0, 7.0) && within(z, 3.0, 5.0);
    let beyond = |p: f64, centre: f64, half: f64| (p - centre).abs() - half;
    match (x, y, z) {
        (11.0, 5.0, 6.0) => 0,
        (5.0, 5.0, 4.0) => tenths(-2.5),
        _ if behind(3.0, 7.0) || behind(10.0, 12.0) => MISSING,
        _ => {
            let cut = ((x - 7.5).abs() + (y - 5.0).abs() - 8.0) / 2f64.sqrt();
            tenths(beyond(x, 7.5, 6.0).max(beyond(y, 5.0, 3.5)).max(beyond(z, 4.0, 2.5)).max(cut))
        }
    }
}

/// A stockpile on the ground, tipped along an L of 11 by 11 voxels: its ridge falls off to both sides. No shot reaches its middle.
fn stockpile_with_gap(x: f64, y: f64, z: f64) -> i32 {
    let along = |p: f64| (p - p.clamp(6.0, 17.0)).abs();
    let from_ridge = length(&[x - 6.0, along(y)]).min(length(&[along(x), y - 17.0]));
    match heap(from_ridge, z) {
        deep if deep < -1.5 => MISSING,
        distance => tenths(distance),
    }
}

/// The distance from the surface of a heap 4 voxels wide to either side of its ridge and 6 high, by how far the ridge is.
fn heap(from_ridge: f64, z: f64) -> f64 {
    ((z - 7.5 + 1.5 * from_ridge) / length(&[1.0, 1.5])).max(1.5 - z)
}

/// A hopper: a wall around a bore that narrows along z.
fn hopper(x: f64, y: f64, z: f64) -> f64 {
    let bore = 5.0 - 0.25 * (z - 2.0);
    let from_axis = length(&[x - 9.5, y - 9.5]);
    (from_axis - bore - 1.8).max(bore - from_axis).max((z - 8.5).abs() - 6.5)
}

/// The gap through the pane's whole thickness, shot again. Its first shot, on the pane's face, went through, and was made once more: of two
/// patches to a voxel the later one stands.
fn shot_again() -> Vec<(usize, i16)> {
    let place = |x: usize, y: usize, z: usize| (x + 14 * (y + 14 * z), pane(x as f64, y as f64, z as f64) as i16);
    let (first, _) = place(4, 4, 6);
    let gap = (2..7).flat_map(|z| (3..6).flat_map(move |y| (3..6).map(move |x| (x, y, z))));
    std::iter::once((first, 40)).chain(gap.map(|(x, y, z)| place(x, y, z))).collect()
}

/// The voxels that fill the torus's hole with T = 0, as `wattle` takes them for pins.
pub fn pins() -> String {
    let torus = samples().into_iter().find(|sample| sample.name == "torus-0").expect("it is among them");
    let (carved, Sides { a, b, .. }) = (torus.carved().expect("the torus is taken"), torus.sides);
    let filled = (0..torus.values.len()).filter(|&i| carved.mark(i, torus.values[i]) == 'o');
    let lines = filled.map(|i| format!("{},{},{}\n", i % a, i / a % b, i / (a * b)));
    "# what closes the hole of torus-0.grid, for torus-1.grid\n".to_string() + &lines.collect::<String>()
}

// ---- what becomes of them

/// A finished grid, with what it was carved from and which voxels were opened.
struct Carved {
    grid: Grid,
    inside: Vec<bool>,
    opened: Vec<usize>,
}

impl Sample {
    fn new(name: &'static str, [a, b, c]: [usize; 3], allowed: u16, mut value: impl FnMut(f64, f64, f64) -> i32) -> Sample {
        let mut values = Vec::new();
        for z in 0..c {
            for y in 0..b {
                values.extend((0..a).map(|x| value(x as f64, y as f64, z as f64)));
            }
        }
        Sample { name, sides: Sides { a, b, c }, allowed, values, patches: Vec::new() }
    }

    /// The grid file's bytes.
    pub fn file(&self) -> Vec<u8> {
        let mut file = written(self.sides, self.allowed, &self.values).expect("fit sides, and a value for each voxel");
        file.extend(self.patches.iter().flat_map(|&(index, value)| patch(index as u32, value)));
        file
    }

    /// The values that the file reads as.
    fn corrected(&self) -> Vec<i32> {
        let (_, _, values) = read_values(&self.file()).expect("a sample is a good file");
        values
    }

    fn carved(&self) -> Result<Carved, Refusal> {
        let mut grid = Grid::from_file(&self.file())?;
        let inside = grid.distances().iter().map(|&d| d < 0).collect();
        let mut opened = Vec::new();
        grid.carve(NO_LIMIT)?;
        while let Ok(o) = grid.open() {
            opened.push(o.index);
            grid.carve(NO_LIMIT)?;
        }
        grid.finish()?;
        Ok(Carved { grid, inside, opened })
    }

    /// The line that the program carve prints for the file.
    pub fn line(&self) -> String {
        match self.carved() {
            Ok(carved) => {
                let kept = carved.grid.status().iter().filter(|&&s| s != GONE).count();
                let r = carved.grid.record();
                format!("kept {kept} removed {} opened {} examined {} euler {}", r.removals, r.openings, r.examinations, r.euler)
            }
            Err(Refusal(number)) => format!("refused {number}"),
        }
    }

    /// Sides, T, the line, and the picture: of what carving leaves, or of the values where the file is refused.
    pub fn told(&self) -> String {
        let (Sides { a, b, c }, values) = (self.sides, self.corrected());
        let openings = if self.allowed == 1 { "opening" } else { "openings" };
        let told = format!("{}: {a} x {b} x {c}, T = {} {openings} allowed\n{}\n\n", self.name, self.allowed, self.line());
        let measured = |v: i32| match v {
            MISSING => '?',
            v if v < 0 => '#',
            _ => '.',
        };
        match self.carved() {
            Ok(carved) => {
                let key = "# inside   = gap counted as inside   o filled   ? filled, and the range point is missing   + opened   . gone\n";
                told + key + &self.picture((0..values.len()).map(|i| carved.mark(i, values[i])).collect())
            }
            Err(_) => {
                told + "# measured negative   ? missing   . measured outside\n"
                    + &self.picture(values.iter().map(|&v| measured(v)).collect())
            }
        }
    }

    /// The layers, as many beside each other as fit in 100 columns.
    fn picture(&self, marks: Vec<char>) -> String {
        let Sides { a, b, .. } = self.sides;
        let width = a.max(8);
        let layers: Vec<&[char]> = marks.chunks(a * b).collect();
        let across = 100 / (width + 2);
        let mut text = String::new();
        for (band, together) in layers.chunks(across).enumerate() {
            let titles = (0..together.len()).map(|i| format!("{:width$}", format!("z = {}", band * across + i)));
            let rows = (0..b)
                .map(|y| together.iter().map(|l| format!("{:width$}", l[a * y..a * y + a].iter().collect::<String>())).collect::<Vec<_>>());
            for row in std::iter::once(titles.collect::<Vec<_>>()).chain(rows) {
                text += &format!("\n{}", row.join("  ").trim_end());
            }
            text += "\n";
        }
        text
    }
}

impl Carved {
    fn mark(&self, i: usize, value: i32) -> char {
        match (self.grid.status()[i], self.inside[i], value) {
            (GONE, ..) if self.opened.contains(&i) => '+',
            (GONE, _, v) if v < 0 && v != MISSING => '-',
            (GONE, ..) => '.',
            (_, true, MISSING) => '=',
            (_, true, _) => '#',
            (_, false, MISSING) => '?',
            _ => 'o',
        }
    }
}
