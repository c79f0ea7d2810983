//! The header against this package's declarations and numbers, and what C programs print over it, the example among them.

mod common;

use common::{archive, root};
use std::mem::{offset_of, size_of};
use std::path::Path;
use std::process::Command;
use wattlerugby::raw::*;
use wattlerugby::{
    archive_version, patch, read, read_header, write, written_length, written_width, Entry, Face, Grid, Order, Point, Refusal, Sides,
};
use wattlerugby::{GONE, HURRIED, KEPT, PENDING, PINNED, PINNED_AND_HURRIED, UNMARKED};
use wattlerugby::{
    GREATEST_VALUE, LEAST_VALUE, LONGEST_FILE, MISSING, MOST_EXAMINATIONS, MOST_GRIDS, NARROW, NARROW_MISSING, VERSION, WIDE,
};

/// Compiles a C file against the header and the archive, with every warning an error, and gives what it prints when run.
fn printed(compiler: &str, language: &[&str], source: &Path, name: &str, arguments: &[&str]) -> String {
    let program = Path::new(env!("CARGO_TARGET_TMPDIR")).join(name);
    let built = Command::new(compiler)
        .args(["-pedantic", "-Wall", "-Wextra", "-Werror", "-I"])
        .arg(root().join("include"))
        .args(language)
        .arg(source)
        .args(["-x", "none"])
        .arg(archive())
        .arg("-o")
        .arg(&program)
        .output()
        .unwrap_or_else(|e| panic!("{compiler} does not run: {e}"));
    assert!(built.status.success(), "{}", String::from_utf8_lossy(&built.stderr));
    let out = Command::new(&program).args(arguments).output().expect("the compiled program runs");
    assert!(out.status.success(), "{} ended with {}", source.display(), out.status);
    String::from_utf8(out.stdout).expect("the program prints text")
}

/// A compiler and the words that choose its language: C, and C++ unless tests/run has said that there is no compiler for it.
fn compilers() -> Vec<(&'static str, &'static [&'static str])> {
    let mut all = vec![("cc", &["-std=c99"][..])];
    if std::env::var_os("WATTLERUGBY_WITHOUT_CXX").is_none() {
        all.push(("c++", &["-x", "c++", "-std=c++11"]));
    }
    all
}

/// What a C file prints as each compiler makes it.
fn printed_by_each(source: &Path, name: &str, arguments: &[&str]) -> Vec<String> {
    let one = |(compiler, language)| printed(compiler, language, source, &format!("{name}-{compiler}"), arguments);
    compilers().into_iter().map(one).collect()
}

fn size_of_field<T, F>(_: fn(&T) -> &F) -> usize {
    size_of::<F>()
}

macro_rules! lay_out {
    ($text:ident, $name:literal, $type:ty, $($field:ident)+) => {
        $text.push(format!("{} {}", $name, size_of::<$type>()));
        $($text.push(format!("{}.{} {} {}", $name, stringify!($field), offset_of!($type, $field), size_of_field(|s: &$type| &s.$field)));)+
    };
}

#[test]
fn sizes_and_offsets() {
    let mut ours = Vec::new();
    lay_out!(ours, "sides", Sides, a b c);
    lay_out!(ours, "record", Record, sides allowed openings removals examinations euler finished);
    lay_out!(ours, "point", Point, x y z);
    lay_out!(ours, "begin_answer", BeginAnswer, refusal next);
    lay_out!(ours, "begin_coarse_answer", BeginCoarseAnswer, refusal examined next);
    lay_out!(ours, "carve_answer", CarveAnswer, refusal examined removed pending face next);
    lay_out!(ours, "take_answer", TakeAnswer, refusal k m face next);
    lay_out!(ours, "open_answer", OpenAnswer, refusal index k m face next);
    lay_out!(ours, "grids", Grids, count records);
    lay_out!(ours, "order", Order, len places);
    lay_out!(ours, "serve_answer", ServeAnswer, refusal place examined removed pending face next order);
    lay_out!(ours, "judge_answer", JudgeAnswer, refusal removals openings euler);
    lay_out!(ours, "finish_answer", FinishAnswer, refusal next);
    lay_out!(ours, "crossing_answer", CrossingAnswer, refusal crosses point);
    lay_out!(ours, "points_answer", PointsAnswer, refusal count next);
    lay_out!(ours, "read_answer", ReadAnswer, refusal sides allowed);
    lay_out!(ours, "read_layer_answer", ReadLayerAnswer, refusal z width from to);
    lay_out!(ours, "write_answer", WriteAnswer, refusal length);
    lay_out!(ours, "practice_answer", PracticeAnswer, refusal);
    lay_out!(ours, "local_answer", LocalAnswer, k m corners edges faces face);
    for header in printed_by_each(&root().join("wrapper/tests/layout.c"), "layout", &[]) {
        assert_eq!(header.lines().collect::<Vec<_>>(), ours);
    }
}

/// Each call's answers, marks, a coarse start, many grids at once, removal lists, faces, a file out and in, patches, layers out of order, both widths,
/// practice grids, null pointers, padding.
#[test]
fn calls() {
    let source = root().join("wrapper/tests/calls.c");
    let wanted = std::fs::read_to_string(root().join("wrapper/tests/calls.out")).expect("calls.out can be read");
    for said in printed_by_each(&source, "calls", &[]) {
        assert_eq!(said, wanted);
    }
}

/// The version has five places: Cargo.toml here and that of wattle, the header in numbers and as text, and the archive, which answers it.
#[test]
fn version_and_numbers() {
    let (version, (major, minor, patch)) = (env!("CARGO_PKG_VERSION"), VERSION);
    let number = major * 1_000_000 + minor * 1_000 + patch;
    let mut ours = vec![format!("version {version}, {number}, of the archive {number}")];
    ours.extend(Refusal::ALL.iter().map(|r| format!("{} {} {}", r.name().expect("it has a name"), r.0, r.reason())));
    ours.push(format!("255 {}", Refusal(255).reason()));
    ours.push(format!("most grids {MOST_GRIDS}, most examinations {MOST_EXAMINATIONS}"));
    ours.push(format!("longest file {LONGEST_FILE}"));
    ours.push(format!("values of {} bits, {LEAST_VALUE} to {GREATEST_VALUE}, missing {MISSING}", i32::BITS));
    ours.push(format!("layers of {NARROW} bytes a value, missing {NARROW_MISSING}, and of {WIDE}"));
    ours.push(format!("status {GONE} {KEPT} {PENDING}"));
    ours.push(format!("marks {UNMARKED} {PINNED} {HURRIED} {PINNED_AND_HURRIED}"));
    ours.extend(Face::ALL.iter().map(|face| format!("{face} {} axis {} {}", face.number(), face.axis(), face.is_high())));
    ours.push(format!("no face {NO_FACE}"));
    let source = root().join("wrapper/tests/calls.c");
    for header in printed_by_each(&source, "numbers", &["numbers"]) {
        assert_eq!(header.lines().collect::<Vec<_>>(), ours);
    }
    assert_eq!(archive_version(), VERSION);
    let wattle = std::fs::read_to_string(root().join("tools/wattle/Cargo.toml")).expect("Cargo.toml of wattle can be read");
    assert!(wattle.contains(&format!("\nversion = \"{version}\"\n")), "wattle has the version {version} too");
}

/// The header's lengths, the wrapper's and those that write answers: lent so many bytes it writes, and one less is refused.
#[test]
fn lengths() {
    let said = printed_by_each(&root().join("wrapper/tests/calls.c"), "lengths", &["lengths"]);
    assert!(said.iter().all(|other| *other == said[0]), "the same in C++ as in C");
    let n = 64 * 64 * 64;
    let (values, mut file, mut fit) = ([(NARROW, vec![32_767; n]), (WIDE, vec![32_768; n])], vec![0; LONGEST_FILE], 0);
    for line in said[0].lines() {
        let numbers: Vec<usize> = line.split(' ').map(|word| word.parse().expect("a number")).collect();
        let sides = Sides { a: numbers[0], b: numbers[1], c: numbers[2] };
        assert_eq!([sides.voxels(), sides.blocks()].map(Option::unwrap_or_default), numbers[3..5], "{line}");
        for ((width, values), length) in values.iter().zip([numbers[5], numbers[6]]) {
            assert_eq!(written_length(sides, *width).unwrap_or(0), length, "{line}");
            let Some(n) = sides.voxels() else {
                assert_eq!((write(sides, 0, values, &mut file), length), (Err(Refusal::SIDE), 0), "{line}");
                continue;
            };
            assert_eq!(write(sides, 0, &values[..n], &mut file[..length]), Ok(length), "{line}");
            assert_eq!(write(sides, 0, &values[..n], &mut file[..length - 1]), Err(Refusal::ROOM), "{line}");
            fit += 1;
        }
    }
    assert_eq!((said[0].lines().count(), fit), (25 * (3 * 64 + 5), 2 * (9 * 3 * 62 + 1)));
}

/// The header's width, the wrapper's and the one that write chooses, of values at the ends of both.
#[test]
fn widths() {
    for said in printed_by_each(&root().join("wrapper/tests/calls.c"), "widths", &["widths"]) {
        for line in said.lines() {
            let numbers: Vec<i32> = line.split(' ').map(|word| word.parse().expect("a number")).collect();
            let values: Vec<i32> = numbers[1..].iter().copied().cycle().take(27).collect();
            let width = written_width(&values);
            assert_eq!(i32::from(width), numbers[0], "{line}");
            let sides = Sides { a: 3, b: 3, c: 3 };
            assert_eq!(write(sides, 0, &values, &mut [0; 200]).ok(), written_length(sides, width), "{line}");
        }
        assert_eq!(said.lines().count(), 10);
    }
}

fn bytes(hex: &str) -> Vec<u8> {
    (0..hex.len()).step_by(2).map(|i| u8::from_str_radix(&hex[i..i + 2], 16).expect("two digits")).collect()
}

/// What the header says of a file's first bytes, the wrapper, and read: with a refusal all three have the same number; otherwise read takes
/// so many layers with so many values behind them.
#[test]
fn headers() {
    for said in printed_by_each(&root().join("wrapper/tests/calls.c"), "headers", &["headers"]) {
        let mut numbers = Vec::new();
        for line in said.lines() {
            let (answer, hex) = line.rsplit_once(' ').expect("bytes stand last");
            let start = bytes(hex);
            let ours = read_header(&start);
            let (refusal, (Sides { a, b, c }, allowed)) = (ours.err().map_or(0, |r| r.0), ours.unwrap_or_default());
            assert_eq!(answer, format!("{refusal} {a} {b} {c} {allowed}"), "{line}");
            match ours {
                Err(refused) => assert_eq!(read(&start, &mut []), Err(refused), "{line}"),
                Ok(sides) => {
                    let layers = (0..c as u8).flat_map(|z| [vec![0x56, 0x4C, z], vec![0; 2 * a * b]].concat());
                    let file: Vec<u8> = start[..7].iter().copied().chain(layers).collect();
                    assert_eq!(read(&file, &mut vec![1; a * b * c]), Ok(sides), "{line}");
                }
            }
            numbers.push(refusal);
        }
        let count = |number: u8| numbers.iter().filter(|&&n| n == number).count();
        assert_eq!([21, 22, 1, 0].map(count), [7 + 16, 16 + 18, 12, 2 + 6]);
    }
}

/// The header's patches and the wrapper's: the same bytes, and none for a value that two bytes do not hold.
#[test]
fn patches() {
    for said in printed_by_each(&root().join("wrapper/tests/calls.c"), "patches", &["patches"]) {
        let mut taken = 0;
        for line in said.lines() {
            let words: Vec<&str> = line.split(' ').collect();
            let (index, value): (u32, i32) = (words[0].parse().expect("an index"), words[1].parse().expect("a value"));
            let narrow = if value == MISSING { Some(NARROW_MISSING) } else { i16::try_from(value).ok().filter(|&v| v != NARROW_MISSING) };
            let (length, wanted) = narrow.map_or((0, [0xEE; 8]), |value| (8, patch(index, value)));
            assert_eq!((words[2], bytes(words[3])), (&length.to_string()[..], wanted.to_vec()), "{line}");
            taken += usize::from(narrow.is_some());
        }
        assert_eq!((said.lines().count(), taken), (4 * 14, 4 * 7));
    }
}

/// The header's entries of a removal list and the wrapper's: the same bytes.
#[test]
fn entries() {
    for said in printed_by_each(&root().join("wrapper/tests/calls.c"), "entries", &["entries"]) {
        for line in said.lines() {
            let words: Vec<&str> = line.split(' ').collect();
            let index: u32 = words[0].parse().expect("an index");
            let entry = if words[1] == "1" { Entry::Opening(index) } else { Entry::Ordinary(index) };
            assert_eq!(bytes(words[2]), entry.bytes(), "{line}");
            assert_eq!(Entry::first(&bytes(words[2])), Ok(entry), "{line}");
        }
        assert_eq!(said.lines().count(), 2 * 5);
    }
}

/// Every crossing of a file's body, in rising order of 3 index + axis.
fn points_of(file: &Path) -> Vec<[f64; 3]> {
    let mut grid = Grid::from_file(&std::fs::read(file).expect("the sample can be read")).expect("the sample is taken");
    grid.carve_to_the_end().expect("a begun grid is carved");
    let crossings = (0..grid.status().len()).flat_map(|i| (0..3).map(move |axis| (i, axis)));
    crossings
        .filter_map(|(i, axis)| match grid.crossing(i, axis) {
            Err(Refusal::AXIS) => None, // the last plane
            point => point.expect("a finished grid is looked at").map(|p| [p.x, p.y, p.z]),
        })
        .collect()
}

/// The C example as C and as C++, and the C++ example.
#[test]
fn examples() {
    let mut all: Vec<_> = compilers().into_iter().map(|(compiler, language)| (compiler, language, "carve_grid.c")).collect();
    if let Some(&(compiler, language, _)) = all.iter().find(|(compiler, ..)| *compiler == "c++") {
        all.push((compiler, language, "carve_grid.cpp"));
    }
    let sample = root().join("samples/torus-1.grid");
    let wanted = std::fs::read_to_string(root().join("examples/carve_grid.out")).expect("examples/carve_grid.out can be read");
    for (compiler, language, file) in all {
        let (source, name) = (root().join("examples").join(file), format!("example-{compiler}-{file}"));
        let points = Path::new(env!("CARGO_TARGET_TMPDIR")).join(format!("{name}.xyz"));
        let arguments = [sample.to_str().expect("a path"), points.to_str().expect("a path")];
        assert_eq!(printed(compiler, language, &source, &name, &arguments), wanted);
        let text = std::fs::read_to_string(&points).expect("the example wrote its points");
        let read = text.lines().map(|line| {
            let numbers: Vec<f64> = line.split(' ').map(|word| word.parse().expect("a number")).collect();
            <[f64; 3]>::try_from(numbers).expect("three numbers")
        });
        assert!(read.collect::<Vec<_>>() == points_of(&sample), "{} has other points than crossing gives", points.display());
    }
}

/// The example that judges: our own list, lists of another hand, taken whole and cut, and each file that is not there.
#[test]
fn judge_example() {
    let (source, wanted) = (root().join("examples/judge_list.c"), root().join("examples/judge_list.out"));
    let wanted = std::fs::read_to_string(wanted).expect("examples/judge_list.out can be read");
    let sample = root().join("samples/torus-1.grid").to_str().expect("a path").to_string();
    for said in printed_by_each(&source, "judge-example", &[&sample]) {
        assert_eq!(said, wanted);
    }
    let program = Path::new(env!("CARGO_TARGET_TMPDIR")).join("judge-example-cc");
    let run = |words: &[&str]| {
        let out = Command::new(&program).args(words).output().expect("the example runs");
        (out.status.code(), String::from_utf8(out.stdout).expect("text"))
    };
    let list = Path::new(env!("CARGO_TARGET_TMPDIR")).join("judge-example.list");
    let path = list.to_str().expect("a path");
    std::fs::write(&list, Entry::Ordinary(0).bytes()).expect("a list is written");
    assert_eq!(run(&[&sample, path]), (Some(1), "judge: refused 32, a removal of the list breaks the rules\n".into()));
    std::fs::write(&list, []).expect("a list is written");
    let passes = "judge: refused 33, a voxel still passes the local test at the list's end\n";
    assert_eq!(run(&[&sample, path]), (Some(1), passes.into()));
    assert_eq!((run(&[&sample, "no such list"]).0, run(&["no such grid"]).0, run(&[]).0), (Some(2), Some(2), Some(2)));
}

/// The example that serves three grids by turns, and each end that is none of its own.
#[test]
fn serve_example() {
    let (source, wanted) = (root().join("examples/serve_scans.c"), root().join("examples/serve_scans.out"));
    let wanted = std::fs::read_to_string(wanted).expect("examples/serve_scans.out can be read");
    let path = |name: &str| root().join("samples").join(name).to_str().expect("a path").to_string();
    let three = ["torus-1.grid", "ball.grid", "sphere.grid"].map(path);
    for said in printed_by_each(&source, "serve-example", &three.each_ref().map(String::as_str)) {
        assert_eq!(said, wanted);
    }
    let program = Path::new(env!("CARGO_TARGET_TMPDIR")).join("serve-example-cc");
    let run = |words: &[&str]| {
        let out = Command::new(&program).args(words).output().expect("the example runs");
        (out.status.code(), String::from_utf8(out.stdout).expect("text"))
    };
    let (sixteen, refused) = ([three[1].as_str(); 16], path("refused.grid"));
    let (code, said) = run(&sixteen);
    // three turns each, and a line at the end
    assert_eq!((code, said.lines().count(), said.lines().nth(15)), (Some(0), 16 * 4, Some("place 15: examined 100, removed 100")));
    assert_eq!((run(&[&three[0], "no such grid"]).0, run(&[]).0, run(&[three[1].as_str(); 17]).0), (Some(2), Some(2), Some(2)));
    assert_eq!(run(&[&three[0], &refused]).0, Some(1));
}

/// The example with a coarse start, on a grid that is fit for it and on one that is not, which it begins plainly.
#[test]
fn coarse_example() {
    let (source, wanted) = (root().join("examples/carve_coarse.c"), root().join("examples/carve_coarse.out"));
    let wanted = std::fs::read_to_string(wanted).expect("examples/carve_coarse.out can be read");
    let path = |name: &str| root().join("samples").join(name).to_str().expect("a path").to_string();
    for said in printed_by_each(&source, "coarse-example", &[&path("stockpile.grid")]) {
        assert_eq!(said, wanted);
    }
    for said in printed_by_each(&source, "coarse-example-unfit", &[&path("torus-1.grid")]) {
        let lines: Vec<&str> = said.lines().collect();
        assert_eq!(lines[0], "begin_coarse: refused 31, the grid is not fit for a coarse start");
        assert_eq!(lines[3], "kept 325, removals 655, openings 1, examinations 768, Euler number 0");
    }
}
