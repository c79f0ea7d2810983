//! `wattle practice`: the grid file of a practice grid, the same for the same words, and what is refused with one line.

use crate::common::{self, answer, folder, path, status, text, wattle, wattle_on};
use wattlerugby::{practice_values, read_values, written, Sides};

fn made(sides: &str, seed: &str, more: &[&str]) -> Vec<u8> {
    answer(&[&["practice", "--sides", sides, "--seed", seed], more].concat())
}

#[test]
fn the_librarys_values_as_a_file() {
    for ([a, b, c], seed) in [([3, 3, 3], 0), ([9, 9, 9], 1), ([8, 7, 6], 2026), ([64, 3, 17], 1 << 31), ([64, 64, 64], u32::MAX)] {
        let (sides, words) = (Sides { a, b, c }, [format!("{a},{b},{c}"), seed.to_string()]);
        let values = practice_values(sides, seed).unwrap();
        assert!(made(&words[0], &words[1], &[]) == written(sides, 0, &values).unwrap(), "{words:?}: T is 0 unless given");
        let file = made(&words[0], &words[1], &["--openings", "65535"]);
        assert!(read_values(&file) == Ok((sides, 65_535, values)), "{words:?}");
    }
    // the last of two words counts, and leading zeros do not
    assert_eq!(made("5,5,5", "007", &["--seed", "8"]), made("5,5,5", "8", &[]));
    assert_ne!(made("5,5,5", "7", &[]), made("5,5,5", "8", &[]));
    assert_ne!(made("5,4,3", "7", &[]), made("3,4,5", "7", &[]));
}

/// Into a file that is not there yet, and over one only where it is told so.
#[test]
fn nothing_is_overwritten() {
    let folder = folder("practice");
    let out = folder.join("practice.grid");
    let practice =
        |seed: &str, more: &[&str]| wattle(&[&["practice", "--sides", "4,5,6", "--seed", seed, "-o", path(&out)], more].concat());
    assert_eq!(status(&practice("1", &[])), 0);
    let first = std::fs::read(&out).unwrap();
    assert_eq!(first, made("4,5,6", "1", &[]));
    let again = practice("2", &[]);
    assert_eq!((status(&again), text(&again.stderr)), (2, format!("wattle: {} is there already; --force overwrites it\n", path(&out))));
    assert_eq!(std::fs::read(&out).unwrap(), first);
    assert_eq!(status(&practice("2", &["--force"])), 0);
    assert_eq!(std::fs::read(&out).unwrap(), made("4,5,6", "2", &[]));
    assert_eq!(std::fs::read_dir(&folder).unwrap().count(), 1);
}

#[test]
fn wrong_words() {
    let folder = folder("practice-words");
    let out = folder.join("out.grid");
    let one_line = |words: &str, due: &str| {
        let words: Vec<&str> = words.split(' ').filter(|word| !word.is_empty()).collect();
        let output = wattle(&[&["practice", "-o", path(&out)], &words[..]].concat());
        assert_eq!((status(&output), text(&output.stderr)), (2, format!("wattle: {due}\n")), "{words:?}");
        assert!(!out.exists());
    };
    let both = "practice needs --sides A,B,C and --seed N; see `wattle help practice`";
    one_line("", both);
    one_line("--sides 3,3,3", both);
    one_line("--seed 1", both);
    for sides in ["2,3,3", "3,65,3", "3,3", "3,3,3,3", "3,3,x", "3,-3,3", "", "4294967299,3,3"] {
        let words = wattle(&["practice", "--sides", sides, "--seed", "1"]);
        assert_eq!(text(&words.stderr), format!("wattle: --sides takes A,B,C, three numbers from 3 to 64, not {sides}\n"));
    }
    one_line("--sides 3,3,3 --seed 4294967296", "--seed takes a number from 0 to 4294967295, not 4294967296");
    one_line("--sides 3,3,3 --seed -1", "--seed takes a number from 0 to 4294967295, not -1");
    one_line("--sides 3,3,3 --seed one", "--seed takes a number from 0 to 4294967295, not one");
    one_line("--sides 3,3,3 --seed 1 --openings 65536", "--openings takes a number from 0 to 65535, not 65536");
    one_line("--sides 3,3,3 --seed 1 --noise 5", "practice has no option --noise; see `wattle help practice`");
    one_line("scan.grid --sides 3,3,3 --seed 1", "practice takes no file, not 1; see `wattle help practice`");
    one_line("- --sides 3,3,3 --seed 1", "practice takes no file, not 1; see `wattle help practice`");
}

/// The one voxel within has 730: the file is made, and no body is in it.
#[test]
fn a_grid_without_a_body() {
    let file = made("3,3,3", "1000", &[]);
    let explained = wattle_on(&["explain", "-"], &file);
    assert_eq!(status(&explained), 1);
    assert!(text(&explained.stdout).contains("refused 4"), "{}", text(&explained.stdout));
    assert_eq!(read_values(&file).unwrap().2[13], 730);
}

/// The three grids of the course: sides, seed and T.
const COURSE: [([usize; 3], u32, u16); 3] = [([9, 9, 9], 1, 0), ([8, 7, 6], 2026, 2), ([12, 10, 8], u32::MAX, 65_535)];

/// On which of the three grids an instrument that is wrong prints another line than one that is right.
fn shows(wrong: impl Fn(Sides, u32) -> Vec<i32>) -> [bool; 3] {
    COURSE.map(|([a, b, c], seed, allowed)| {
        let sides = Sides { a, b, c };
        let line = |values: &[i32]| text(&wattle_on(&["carve", "-"], &written(sides, allowed, values).unwrap()).stdout);
        line(&wrong(sides, seed)) != line(&practice_values(sides, seed).unwrap())
    })
}

/// What the course says of each of them: which mistakes it shows, and which one no line does.
#[test]
fn what_each_grid_of_the_course_shows() {
    let right = |sides: Sides, seed: u32| practice_values(sides, seed).unwrap();
    assert_eq!(shows(right), [false, false, false]);
    // a step for each voxel but those on the edge; the values of another seed
    let border = |sides: Sides, i: usize| {
        let Sides { a, b, c } = sides;
        [(i % a, a), (i / a % b, b), (i / (a * b), c)].iter().any(|&(at, side)| at == 0 || at == side - 1)
    };
    let skips = |sides: Sides, seed: u32| {
        let (mut s, n) = (seed, sides.voxels().unwrap());
        let mut value = || {
            s = s.wrapping_add(0x9E37_79B9);
            ((s ^ (s >> 16)) % 2_001) as i32 - 1_000
        };
        (0..n).map(|i| if border(sides, i) { 1_000 } else { value() }).collect()
    };
    assert_eq!(shows(skips), [true, true, true]);
    assert_eq!(shows(|sides, seed| right(sides, seed ^ 1)), [true, true, true]);
    // z first: the grid of the sides the other way round, each voxel in its place
    let turned = |sides: Sides, seed: u32| {
        let Sides { a, b, c } = sides;
        let other = right(Sides { a: c, b, c: a }, seed);
        (0..a * b * c).map(|i| other[i / (a * b) + c * (i / a % b + b * (i % a))]).collect()
    };
    assert_eq!(shows(turned), [false, true, true]);
    // a seed of fewer bits
    assert_eq!(shows(|sides, seed| right(sides, seed & 0x7FFF_FFFF)), [false, false, true]);
    assert_eq!(shows(|sides, seed| right(sides, seed & 0xFFFF)), [false, false, true]);
    // 999 on the edge: the line is the same, and the file is not
    let edge = |sides: Sides, seed: u32| {
        let values = right(sides, seed);
        (0..values.len()).map(|i| values[i] - i32::from(border(sides, i))).collect()
    };
    assert_eq!(shows(edge), [false, false, false]);
}

/// What the help says, and its example.
#[test]
fn help_and_its_example() {
    let help = text(&answer(&["help", "practice"]));
    for option in ["--sides A,B,C", "--seed N", "--openings N"] {
        assert!(help.contains(&format!("\n  {option} ")), "{option} is not in {help}");
    }
    assert!(help.contains("\n    wattle practice --sides 9,9,9 --seed 1 | wattle carve -\n"), "{help}");
    let carved = wattle_on(&["carve", "-"], &made("9,9,9", "1", &[]));
    let course = std::fs::read_to_string(common::root().join("docs/COURSE.md")).unwrap();
    assert!(status(&carved) == 0 && course.contains(&text(&carved.stdout)), "the course has its line");
}
