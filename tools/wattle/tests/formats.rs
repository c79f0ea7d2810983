//! PNG, PLY, XYZ, NRRD and VTK of every sample: read by strict readers here, and by other programs where they are at hand.

use crate::common::{self, answer, carved, left_out, path, python, samples, text, Carved, COLOURS};
use std::path::{Path, PathBuf};
use std::process::Command;
use wattlerugby::{Sides, GREATEST_VALUE, LEAST_VALUE, MISSING};

/// The samples that are carved, with what the library makes of them, a large flat grid with missing points and openings, one with values up to
/// the ends of their range, one with discarded voxels, and noise with many gaps.
fn bodies(folder: &Path) -> Vec<(PathBuf, Carved)> {
    let mut files: Vec<PathBuf> = samples();
    files.extend([flat(folder), far(folder), apart(folder), noise(folder)]);
    let carved = |file: PathBuf| carved(&std::fs::read(&file).unwrap()).ok().map(|body| (file, body));
    let bodies: Vec<(PathBuf, Carved)> = files.into_iter().filter_map(carved).collect();
    assert!((0..6).all(|kind| bodies.last().is_some_and(|(_, body)| body.count(kind) > 0)), "the noise has voxels of every kind");
    bodies
}

fn apart(folder: &Path) -> PathBuf {
    let name = folder.join("apart.grid");
    std::fs::write(&name, common::apart()).unwrap();
    name
}

/// 12 x 11 x 10 voxels of noise: off the border three in four are negative, and many missing.
fn noise(folder: &Path) -> PathBuf {
    let mut seed = common::Seed(3);
    let values: Vec<i16> = (0..12 * 11 * 10)
        .map(|_| match seed.below(100) {
            0..=74 => -1 - seed.below(40) as i16,
            75..=87 => i16::MIN,
            _ => seed.below(40) as i16,
        })
        .collect();
    let inner = |p: usize, side: usize| 0 < p && p + 1 < side;
    let value = |x: usize, y: usize, z: usize| match inner(x, 12) && inner(y, 11) && inner(z, 10) {
        true => values[x + 12 * (y + 11 * z)],
        false => 25,
    };
    let name = folder.join("noise.grid");
    std::fs::write(&name, common::grid_file([12, 11, 10], 3, value)).unwrap();
    name
}

/// 64 x 5 x 3 voxels: a plate with holes, one of them over a missing range point.
fn flat(folder: &Path) -> PathBuf {
    let file = common::grid_file([64, 5, 3], 2, |x, y, z| match (x, y, z) {
        (10, 2, 1) => 7,
        (20, 2, 1) | (30, 3, 1) => i16::MIN,
        (1..=62, 1..=3, 1) => -4,
        _ => 9,
    });
    let name = folder.join("flat.grid");
    std::fs::write(&name, file).unwrap();
    name
}

/// 9 x 8 x 7 voxels with layers of both widths and values from the least to the greatest, the old mark of a missing point among them.
fn far(folder: &Path) -> PathBuf {
    let file = common::wide_file([9, 8, 7], 1, &[2, 3, 5], |x, y, z| match (x, y, z) {
        (2, 2, 2) => LEAST_VALUE,
        (3, 2, 2) => -32_768,
        (4, 4, 3) | (8, 7, 5) => MISSING,
        (1..=7, 2..=5, 2 | 3) => -10_000_000 * (x + y) as i32,
        (1..=7, 2..=5, 4) => -20,
        (_, _, 2 | 3 | 5) => GREATEST_VALUE - (x + y) as i32,
        _ => 900,
    });
    let name = folder.join("far.grid");
    std::fs::write(&name, file).unwrap();
    name
}

fn written(folder: &Path, words: &[&str], name: &str) -> PathBuf {
    let file = folder.join(name);
    let _ = std::fs::remove_file(&file);
    let done = answer(&[words, &["-o", path(&file)]].concat());
    assert!(done.is_empty(), "with -o nothing goes to the standard output");
    file
}

// ---- other programs

fn at_hand(found: &[bool], what: &str) {
    if !found.contains(&true) {
        left_out(what);
    }
}

// ---- PNG

/// The colours of one layer, in a picture with a pixel for a voxel: the rectangle of what is neither paper nor ink.
fn layer_in(picture: &common::png::Picture, sides: Sides) -> Vec<[u8; 3]> {
    let drawn = |i: &usize| COLOURS.contains(&picture.pixels[*i]);
    let first = (0..picture.pixels.len()).find(drawn).expect("a voxel is drawn");
    let (left, top) = (first % picture.width, first / picture.width);
    (0..sides.a * sides.b).map(|i| picture.at(left + i % sides.a, top + i / sides.a)).collect()
}

#[test]
fn png_has_every_voxel_in_its_colour() {
    for (file, body) in bodies(&common::folder("png-layers")) {
        for (z, layer) in body.kinds.chunks(body.sides.a * body.sides.b).enumerate() {
            let words = ["look", "--png", "--scale", "1", "--layer", &z.to_string(), path(&file)].map(str::to_string);
            let [_, picture] = common::png::parse(&answer(&words)).halves();
            let due: Vec<[u8; 3]> = layer.iter().map(|&kind| COLOURS[kind as usize]).collect();
            assert!(layer_in(&picture, body.sides) == due, "layer {z} of {}", file.display());
            let drawn: usize = COLOURS.iter().map(|&c| picture.count(c)).sum();
            assert_eq!(drawn, layer.len(), "nothing else is drawn in these colours");
        }
    }
}

#[test]
fn png_of_all_layers_read_by_others() {
    let folder = common::folder("png");
    let mut found = Vec::new();
    for (file, body) in bodies(&folder) {
        let name = written(&folder, &["look", "--png", path(&file)], "all.png");
        let picture = common::png::parse(&std::fs::read(&name).unwrap());
        assert_eq!(picture.chunks, ["IHDR", "PLTE", "tEXt", "IDAT", "IEND"]);
        let dot = if body.sides.a > 32 { 3 } else { 7 };
        let [_, layers] = picture.halves();
        for (kind, &colour) in COLOURS.iter().enumerate() {
            assert_eq!(layers.count(colour), dot * dot * body.count(kind as u8), "kind {kind} in {}", file.display());
        }
        let read = python("png_by_pil", &name);
        if let Some(read) = &read {
            let (head, pixels) = read.split_once('\n').unwrap();
            assert_eq!(head, format!("PNG {} {}", picture.width, picture.height));
            let seen: Vec<u8> = pixels.split_whitespace().map(|n| n.parse().unwrap()).collect();
            assert!(seen == picture.pixels.concat(), "PIL sees other pixels in {}", file.display());
        }
        found.push(read.is_some());
    }
    at_hand(&found, "PNG was read here alone, since python3 with PIL (python3-pil) is not there");
}

#[test]
fn png_of_a_refused_grid() {
    let output = common::wattle(&["look", "--png", path(&common::sample("refused.grid"))]);
    let picture = common::png::parse(&output.stdout);
    let [words, layers] = picture.halves();
    assert!(read_letters(&words).ends_with(" negative on the grid's edge: 12 measured outside: 1448"), "{}", read_letters(&words));
    let counts = [[0xD5, 0x5E, 0], COLOURS[1], COLOURS[0]].map(|colour| layers.count(colour));
    assert_eq!((common::status(&output), counts), (1, [12, 268, 1448].map(|voxels| 49 * voxels)));
}

/// The letters that pictures are written with.
#[path = "../src/font.rs"]
mod font;

/// The words above a picture's layers, with one space between any two. What is in colours is no letter.
fn read_letters(words: &common::png::Picture) -> String {
    let dot = if words.width >= 600 { 2 } else { 1 };
    let is_ink = |x: usize, y: usize| x < words.width && words.at(x, y) == [0x33; 3];
    let seen = |left: usize, top: usize| {
        let cell = (0..5).flat_map(|x| (0..font::HEIGHT).map(move |y| (x, y)));
        cell.filter(|(x, y)| is_ink(left + dot * x, top + dot * y)).collect::<Vec<_>>()
    };
    let letter = |dots: Vec<(usize, usize)>| (' '..='~').find(|l| font::dots(&l.to_string()).eq(dots.iter().copied())).expect("a letter");
    let (across, down) = (dot * font::ADVANCE, dot * (font::HEIGHT + 3));
    let mut text = String::new();
    for top in (0..(words.height - 12) / down).map(|line| 12 + down * line) {
        text.extend((0..(words.width - 24) / across).map(|column| letter(seen(12 + across * column, top))));
        text.push(' ');
    }
    text.split_whitespace().collect::<Vec<_>>().join(" ")
}

/// Title, line and key as `look` has them in text, with a square in its colour for each kind that occurs; in small pictures too.
#[test]
fn png_has_title_line_and_key() {
    for (file, body) in bodies(&common::folder("png-words")) {
        let shown = text(&answer(&["look", path(&file)]));
        let [title, line] = [0, 1].map(|i| shown.lines().nth(i).unwrap());
        for more in [&["--png"][..], &["--png", "--layer", "1", "--scale", "1"]] {
            let picture = common::png::parse(&answer(&[&["look", path(&file)], more].concat()));
            let ([words, _], dot) = (picture.halves(), if picture.width >= 600 { 2 } else { 1 });
            let read = read_letters(&words);
            assert!(read.starts_with(&format!("{title} {line} ")), "{read}");
            for (kind, _, name) in common::NAMES {
                let count = body.count(kind);
                assert_eq!(read.contains(&format!(" {name}: {count}")), count > 0, "{name} in {read}");
                assert_eq!(words.count(COLOURS[kind as usize]), usize::from(count > 0) * 49 * dot * dot, "{name}");
            }
        }
    }
}

/// A name longer than the picture is wide is broken, and one of other letters is written as far as it can be.
#[test]
fn png_of_odd_names() {
    let folder = common::folder("png-names");
    for (name, due) in
        [(format!("{}.grid", "long-".repeat(40)), format!("{}.grid:", "long-".repeat(40))), ("\u{fc}ber.grid".into(), "?ber.grid:".into())]
    {
        let file = folder.join(name);
        std::fs::copy(common::sample("sphere.grid"), &file).unwrap();
        let [words, _] = common::png::parse(&answer(&["look", "--png", path(&file)])).halves();
        let read = read_letters(&words);
        // a broken name has a space at each break
        assert!(read.replace(' ', "").starts_with(&format!("{due}12x12x12,T=0openingsallowedkept296")), "{read}");
    }
}

// ---- points

const PLY_HEAD: [&str; 9] = [
    "property double x",
    "property double y",
    "property double z",
    "property uchar red",
    "property uchar green",
    "property uchar blue",
    "property uchar scalar_measured",
    "end_header",
    "",
];

/// The rows of a PLY file: three coordinates, three parts of a colour, and whether it is measured.
fn parse_ply(file: &str) -> Vec<([f64; 3], [u8; 3], bool)> {
    let mut lines = file.lines().filter(|l| !l.starts_with("comment "));
    assert_eq!(lines.next(), Some("ply"));
    assert_eq!(lines.next(), Some("format ascii 1.0"));
    let count: usize = lines.next().unwrap().strip_prefix("element vertex ").unwrap().parse().unwrap();
    for due in PLY_HEAD.iter().filter(|l| !l.is_empty()) {
        assert_eq!(lines.next(), Some(*due));
    }
    let row = |line: &str| {
        let words: Vec<&str> = line.split(' ').collect();
        assert_eq!(words.len(), 7, "{line}");
        let measured = ["0", "1"].iter().position(|w| *w == words[6]).expect("0 or 1") == 1;
        ([0, 1, 2].map(|i| words[i].parse().unwrap()), [3, 4, 5].map(|i| words[i].parse().unwrap()), measured)
    };
    let rows: Vec<_> = lines.map(row).collect();
    assert_eq!(rows.len(), count);
    rows
}

/// Rows of three numbers.
fn parse_rows(text: &str) -> Vec<[f64; 3]> {
    let row = |line: &str| <[f64; 3]>::try_from(line.split(' ').map(|n| n.parse().unwrap()).collect::<Vec<_>>()).expect("three numbers");
    text.lines().map(row).collect()
}

fn near(found: &[[f64; 3]], due: &[[f64; 3]], most: f64) -> bool {
    found.len() == due.len() && found.iter().flatten().zip(due.iter().flatten()).all(|(f, d)| (f - d).abs() <= most)
}

#[test]
fn points_are_all_crossings() {
    let folder = common::folder("points");
    let mut found = Vec::new();
    for (file, body) in bodies(&folder) {
        let due = body.points();
        assert!(due.len() > 100);
        let places: Vec<[f64; 3]> = due.iter().map(|(p, _)| *p).collect();
        let ply = written(&folder, &["points", path(&file)], "points.ply");
        let xyz = written(&folder, &["points", path(&file)], "points.xyz");
        let rows = parse_ply(&std::fs::read_to_string(&ply).unwrap());
        let due_rows: Vec<_> = due.iter().map(|&(place, kind)| (place, COLOURS[kind], kind == 1)).collect();
        assert_eq!(rows, due_rows, "{}", file.display());
        assert_eq!(parse_rows(&std::fs::read_to_string(&xyz).unwrap()), places);
        assert_eq!(answer(&["points", "--ply", path(&file)]), std::fs::read(&ply).unwrap());
        assert_eq!(answer(&["points", "--xyz", path(&file)]), std::fs::read(&xyz).unwrap());
        // VTK keeps single precision
        for (reader, most) in [("ply_by_vtk", 1e-5), ("ply_by_meshio", 0.0)] {
            let read = python(reader, &ply);
            assert!(read.as_ref().is_none_or(|text| near(&parse_rows(text), &places, most)), "{reader} on {}", file.display());
            found.push(read.is_some());
        }
    }
    at_hand(&found, "PLY was read here alone, since python3 with vtk or meshio (python3-vtk9, python3-meshio) is not there");
}

/// All that shares a face with a gap counted as inside is inside too, so no point lies there.
#[test]
fn no_point_lies_beside_a_gap_counted_as_inside() {
    for (file, body) in bodies(&common::folder("points-gaps")) {
        let Sides { a, b, .. } = body.sides;
        for i in (0..body.kinds.len()).filter(|&i| body.kinds[i] == 5) {
            let beside = [i - 1, i + 1, i - a, i + a, i - a * b, i + a * b];
            assert!(beside.iter().all(|&j| body.inside[j]), "voxel {i} of {}", file.display());
        }
    }
}

#[test]
fn points_tell_what_is_assumed() {
    let rows = parse_ply(&text(&answer(&["points", path(&common::sample("wet-glass.grid"))])));
    let colours = [1, 2, 3].map(|kind: usize| rows.iter().filter(|r| r.1 == COLOURS[kind]).count());
    assert!(colours[0] > 0 && colours[2] > 0, "measured points, and points over missing ones: {colours:?}");
    let rows = parse_ply(&text(&answer(&["points", path(&common::sample("torus-0.grid"))])));
    assert!(rows.iter().any(|r| r.1 == COLOURS[2]), "points on what was filled");
}

// ---- volumes

/// A field's name with its samples.
type Field = (String, Vec<i64>);

fn fields(body: &Carved) -> Vec<(&'static str, Vec<i64>)> {
    vec![
        ("values", body.values.iter().map(|&v| v.into()).collect()),
        ("distances", body.grid.distances().iter().map(|&d| d.into()).collect()),
        ("status", body.grid.status().iter().map(|&s| s.into()).collect()),
        ("kinds", body.kinds.iter().map(|&k| k.into()).collect()),
    ]
}

/// Samples of so many bytes each, with or without a sign, low byte first or high byte first.
fn samples_in(bytes: &[u8], kind: &str, low_first: bool) -> Vec<i64> {
    let (width, signed) = match kind {
        "int" => (4, true),
        "uchar" | "unsigned_char" => (1, false),
        other => panic!("no type {other}"),
    };
    assert_eq!(bytes.len() % width, 0);
    let sample = |chunk: &[u8]| {
        let order: Vec<u8> = if low_first { chunk.iter().rev().copied().collect() } else { chunk.to_vec() };
        let number = order.iter().fold(0i64, |n, &b| n << 8 | i64::from(b));
        let wrap = 1i64 << (8 * width);
        number - if signed && number >= wrap / 2 { wrap } else { 0 }
    };
    bytes.chunks(width).map(sample).collect()
}

fn take_line<'a>(rest: &mut &'a [u8]) -> &'a str {
    let end = rest.iter().position(|&b| b == b'\n').expect("a line ends");
    let line = std::str::from_utf8(&rest[..end]).expect("text");
    *rest = &rest[end + 1..];
    line
}

fn parse_nrrd(file: &[u8]) -> (Sides, Field) {
    let mut rest = file;
    assert_eq!(take_line(&mut rest), "NRRD0004");
    let mut entries = std::collections::HashMap::new();
    loop {
        match take_line(&mut rest) {
            "" => break,
            comment if comment.starts_with('#') => {}
            line => {
                let (name, value) = line.split_once(":=").or(line.split_once(": ")).expect("a field or a key");
                assert!(entries.insert(name, value).is_none(), "{name} comes once");
            }
        }
    }
    let due = [
        ("dimension", "3"),
        ("space", "right-anterior-superior"),
        ("space directions", "(1,0,0) (0,1,0) (0,0,1)"),
        ("space origin", "(0,0,0)"),
        ("kinds", "domain domain domain"),
        ("endian", "little"),
        ("encoding", "raw"),
    ];
    for (name, value) in due {
        assert_eq!(entries[name], value, "{name}");
    }
    let sizes: Vec<usize> = entries["sizes"].split(' ').map(|n| n.parse().unwrap()).collect();
    let sides = Sides { a: sizes[0], b: sizes[1], c: sizes[2] };
    (sides, (entries["field"].to_string(), samples_in(rest, entries["type"], true)))
}

fn parse_vtk(file: &[u8]) -> (Sides, Vec<Field>) {
    let mut rest = file;
    assert_eq!(take_line(&mut rest), "# vtk DataFile Version 3.0");
    assert!(take_line(&mut rest).len() < 256);
    assert_eq!([take_line(&mut rest), take_line(&mut rest)], ["BINARY", "DATASET STRUCTURED_POINTS"]);
    let sizes: Vec<usize> = take_line(&mut rest).strip_prefix("DIMENSIONS ").unwrap().split(' ').map(|n| n.parse().unwrap()).collect();
    assert_eq!([take_line(&mut rest), take_line(&mut rest)], ["ORIGIN 0 0 0", "SPACING 1 1 1"]);
    let count: usize = take_line(&mut rest).strip_prefix("POINT_DATA ").unwrap().parse().unwrap();
    let mut found = Vec::new();
    while !rest.is_empty() {
        let words: Vec<&str> = take_line(&mut rest).split(' ').collect();
        assert_eq!((words.len(), words[0], words[3]), (4, "SCALARS", "1"));
        assert_eq!(take_line(&mut rest), "LOOKUP_TABLE default");
        let length = count * ["unsigned_char", "", "", "int"].iter().position(|k| *k == words[2]).expect("a type").saturating_add(1);
        found.push((words[1].to_string(), samples_in(&rest[..length], words[2], false)));
        assert_eq!(rest[length], b'\n');
        rest = &rest[length + 1..];
    }
    (Sides { a: sizes[0], b: sizes[1], c: sizes[2] }, found)
}

/// What tests/read_back.py prints of a volume: the sides, then a line for each array with its name, type and samples.
fn parse_printed(text: &str) -> (String, Vec<(String, String, Vec<i64>)>) {
    let mut lines = text.lines();
    let sides = lines.next().unwrap().to_string();
    let array = |line: &str| {
        let words: Vec<&str> = line.split(' ').collect();
        (words[0].to_string(), words[1].to_string(), words[2..].iter().map(|n| n.parse().unwrap()).collect())
    };
    (sides, lines.map(array).collect())
}

fn printed_sides(sides: Sides) -> String {
    format!("{} {} {}", sides.a, sides.b, sides.c)
}

#[test]
fn vtk_has_every_field() {
    let folder = common::folder("vtk");
    let mut found = Vec::new();
    for (file, body) in bodies(&folder) {
        let due: Vec<Field> = fields(&body).into_iter().map(|(name, samples)| (name.to_string(), samples)).collect();
        let name = written(&folder, &["volume", path(&file)], "volume.vtk");
        assert_eq!(parse_vtk(&std::fs::read(&name).unwrap()), (body.sides, due.clone()), "{}", file.display());
        let one = answer(&["volume", "--vtk", "--field", "status", path(&file)]);
        assert_eq!(parse_vtk(&one).1, due[2..3]);
        let read = python("vtk_by_vtk", &name);
        if let Some(text) = &read {
            let (sides, arrays) = parse_printed(text);
            assert_eq!(sides, printed_sides(body.sides));
            assert_eq!(
                arrays.iter().map(|(_, kind, _)| kind.as_str()).collect::<Vec<_>>(),
                ["int", "int", "unsigned_char", "unsigned_char"]
            );
            assert_eq!(arrays.into_iter().map(|(name, _, samples)| (name, samples)).collect::<Vec<_>>(), due);
        }
        found.push(read.is_some());
    }
    at_hand(&found, "VTK was read here alone, since python3 with vtk (python3-vtk9) is not there");
}

/// The samples that teem's own program reads, printed as text. It is the format's, and the only one that is asked: the reader of VTK 9.1 finds
/// 8 x 7 x 1 samples where a file has 9 x 8 x 7.
fn by_unu(file: &Path) -> Option<(String, Vec<i64>)> {
    // Debian calls it teem-unu
    let run = |name: &str| Command::new(name).args(["save", "-f", "nrrd", "-e", "ascii", "-i", path(file)]).output().ok();
    let output = run("unu").or_else(|| run("teem-unu"))?;
    assert!(output.status.success(), "unu refuses {}: {}", file.display(), text(&output.stderr));
    let (head, data) = text(&output.stdout).split_once("\n\n").map(|(h, d)| (h.to_string(), d.to_string())).expect("a header and data");
    let sizes = head.lines().find_map(|l| l.strip_prefix("sizes: ")).expect("sizes").to_string();
    Some((sizes, data.split_whitespace().map(|n| n.parse().unwrap()).collect()))
}

#[test]
fn nrrd_has_the_field_asked_for() {
    let folder = common::folder("nrrd");
    let mut found = Vec::new();
    for (file, body) in bodies(&folder) {
        for (field, due) in fields(&body) {
            let name = written(&folder, &["volume", "--field", field, path(&file)], "volume.nrrd");
            let bytes = std::fs::read(&name).unwrap();
            assert_eq!(parse_nrrd(&bytes), (body.sides, (field.to_string(), due.clone())), "{}", file.display());
            if field == "distances" {
                assert_eq!(answer(&["volume", "--nrrd", path(&file)]), bytes, "distances are what is written unasked");
            }
            let read = by_unu(&name);
            assert!(read.as_ref().is_none_or(|read| *read == (printed_sides(body.sides), due)), "unu reads other samples");
            found.push(read.is_some());
        }
    }
    at_hand(&found, "NRRD was read here alone, since unu (teem-apps) is not there");
}
