//! What is said of tunnels: whether a voxel is left to open, what the body would be were openings allowed freely, and T by `--openings`.

use crate::common::{self, answer, path, sample, samples, status, text, wattle, wattle_on, Seed};
use wattlerugby::{read, Grid, Opened, Sides, GONE, NO_LIMIT};

/// A ring of eight voxels around an empty one, in the middle layer of 5 x 5 x 3.
fn ring(allowed: u16) -> Vec<u8> {
    common::grid_file([5, 5, 3], allowed, |x, y, z| if z == 1 && x.abs_diff(2).max(y.abs_diff(2)) == 1 { -4 } else { 4 })
}

/// Two such rings beside each other; the second one's hole is the wider of the two.
fn rings(allowed: u16) -> Vec<u8> {
    common::grid_file([10, 6, 3], allowed, |x, y, z| match (x, y, z) {
        (2, 2, 1) => 3,
        (5 | 6, 2 | 3, 1) => 9,
        (1..=3, 1..=3, 1) | (4..=7, 1..=4, 1) => -4,
        _ => 9,
    })
}

fn told(words: &[&str], file: &[u8]) -> String {
    let output = wattle_on(&[&["explain", "-"], words].concat(), file);
    assert_eq!((status(&output), text(&output.stderr).as_str()), (0, ""));
    text(&output.stdout)
}

#[test]
fn the_meaning_of_the_last_answer_of_open() {
    let one = "\n- Were openings allowed freely, the body would have 1 tunnel, first at (2, 2, 1), index 37.\n";
    let none = "\n- Were openings allowed freely, the body would have no tunnel: the scan is closed.\n";
    let block =
        |allowed: u16| common::grid_file([5, 5, 5], allowed, |x, y, z| if [x, y, z].iter().all(|p| (1..4).contains(p)) { -4 } else { 4 });
    let closed = "T is 0, so the body is closed, whatever was scanned: in one piece, without a tunnel";
    let cases = [
        (ring(0), format!("- {closed}. 1 voxel could still be opened.{one}- 1 voxel was filled: kept")),
        (ring(1), format!("- The body is in one piece, with 1 tunnel, and nothing is left to open, with every opening made that is allowed (14).{one}- Nothing was filled: the body is the inside as it was scanned.\n")),
        (ring(2), format!("- The body is in one piece, with 1 tunnel, and nothing is left to open (15).{one}- Nothing was filled")),
        (block(0), format!("- {closed}, and nothing is left to open.{none}- Nothing was filled")),
        (block(2), format!("- The body is in one piece, without a tunnel, and nothing is left to open (15).{none}- Nothing was filled")),
        (rings(1), "- The body is in one piece, with 1 tunnel. Every opening allowed is made (14), and 1 voxel could still be opened.\n- Were openings allowed freely, the body would have 2 tunnels, first at (".to_string()),
    ];
    for (file, due) in cases {
        assert!(told(&[], &file).contains(&due), "{due} is not in {}", told(&[], &file));
    }
    // a hole over a missing point, and one that is closed in on every side
    let mut missing = ring(0);
    let at = 7 + (3 + 50) + 3 + 2 * (2 + 5 * 2);
    (missing[at], missing[at + 1]) = (0, 0x80);
    assert!(told(&[], &missing).contains("1 tunnel, first at (2, 2, 1), index 37, where the range point is missing.\n"));
    let seen = told(&["--openings", "2"], &missing);
    assert!(seen.contains("- 1 opening was made where the range point is missing"), "{seen}");
    let hollow = common::grid_file([5, 5, 5], 9, |x, y, z| match [x, y, z] {
        [2, 2, 2] => 4,
        place if place.iter().all(|p| (1..4).contains(p)) => -4,
        _ => 4,
    });
    let due = "and nothing is left to open (15).".to_string()
        + none
        + "- 1 voxel was filled: kept in the body, though not measured inside, and closed in by the inside on every side. By size and place: 1 at (2, 2, 2).\n";
    assert!(told(&[], &hollow).contains(&due), "{}", told(&[], &hollow));
}

/// The first opening cuts a bridge to a pinned voxel, which makes no tunnel; the second is the one.
#[test]
fn the_first_tunnel_need_not_be_the_first_opening() {
    let file = common::grid_file([11, 6, 3], 9, |x, y, z| match (x, y, z) {
        (8, 3, 1) => 2,
        (1 | 5, 1..=4, 1) | (1..=6, 4, 1) | (7..=9, 2..=4, 1) => -4,
        _ => 9,
    });
    let listed = text(&wattle_on(&["list", "-", "--kind", "opened", "--pin", "3,2,1"], &file).stdout);
    let tests: Vec<&str> = listed.lines().skip(1).map(|line| &line[line.len() - 3..]).collect();
    assert_eq!(tests, ["2,1", "1,2"], "{listed}");
    let told = told(&["--pin", "3,2,1"], &file);
    assert!(told.contains("- The body is in 2 pieces, with 1 tunnel, and nothing is left to open but what is pinned (15).\n"), "{told}");
    assert!(told.contains("the body would have 1 tunnel, first at (8, 3, 1), index "), "{told}");
}

/// A number of `carve --json`.
fn number(json: &str, name: &str) -> i64 {
    let found = json.split_once(&format!("\"{name}\": ")).unwrap_or_else(|| panic!("{name} is not in {json}")).1;
    found.split([',', '}']).next().expect("a value").parse().expect("a number")
}

/// What the library makes of a file with another T, and its openings.
fn ended(file: &[u8], allowed: u16) -> (Grid, Vec<Opened>) {
    let mut values = vec![0; file[2] as usize * file[3] as usize * file[4] as usize];
    let (sides, _) = read(file, &mut values).expect("a good file");
    let (mut grid, mut openings) = (Grid::begin(sides, allowed, &values).expect("a grid that is taken"), Vec::new());
    loop {
        grid.carve(NO_LIMIT).expect("a begun grid is carved");
        match grid.open() {
            Ok(opened) => openings.push(opened),
            Err(_) => return (grid, openings),
        }
    }
}

/// Groups of kept voxels that touch.
fn pieces(grid: &Grid) -> i64 {
    let Sides { a, b, .. } = grid.record().sides;
    let mut left: Vec<bool> = grid.status().iter().map(|&s| s != GONE).collect();
    let mut pieces = 0;
    while let Some(first) = left.iter().position(|&kept| kept) {
        let mut waiting = vec![first];
        while let Some(i) = waiting.pop() {
            // a kept voxel is none of the border, so all 27 are there
            if std::mem::replace(&mut left[i], false) {
                waiting.extend((0..27).map(|p| i + p % 3 + a * (p / 3 % 3) + a * b * (p / 9) - 1 - a - a * b));
            }
        }
        pieces += 1;
    }
    pieces
}

/// Noise in 9 x 8 x 7 voxels, with so many negative in a hundred.
fn noise(seed: &mut Seed, negative: usize) -> Vec<u8> {
    let values: Vec<i16> = (0..9 * 8 * 7)
        .map(|_| match seed.below(100) {
            chance if chance < negative => -1 - seed.below(40) as i16,
            chance if chance < negative + 5 => i16::MIN,
            _ => seed.below(40) as i16,
        })
        .collect();
    let inner = |p: usize, side: usize| 0 < p && p + 1 < side;
    common::grid_file([9, 8, 7], 0, |x, y, z| match inner(x, 9) && inner(y, 8) && inner(z, 7) {
        true => values[x + 9 * (y + 8 * z)],
        false => 25,
    })
}

/// Whether a voxel is left to open is what the library answers to one more: it opens exactly where one is left. And what is said of free
/// openings is what it makes of T = 65,535.
#[test]
fn the_library_answers_the_same() {
    let (mut seed, mut met) = (Seed(21), [0; 2]);
    let samples = samples().into_iter().filter(|name| !name.ends_with("refused.grid")).map(|name| std::fs::read(name).unwrap());
    for file in samples.chain((0..24).map(|round| noise(&mut seed, 20 + 10 * (round % 6)))) {
        let (free, free_openings) = ended(&file, u16::MAX);
        let tunnels = i64::from(1 - free.record().euler);
        let first = free_openings.iter().find(|o| o.m > 1).filter(|_| tunnels > 0).map(|o| o.index);
        let would = match (tunnels, first) {
            (0, _) => "no tunnel: the scan is closed.\n".to_string(),
            (_, None) => panic!("a tunnel is opened somewhere"),
            (1, Some(first)) => format!("1 tunnel, first at {}, index {first}", place(&file, first)),
            (many, Some(first)) => format!("{many} tunnels, first at {}, index {first}", place(&file, first)),
        };
        for allowed in [0, 1, 2, 5] {
            let option = allowed.to_string();
            let words = ["--openings", &option];
            let json = text(&wattle_on(&[&["explain", "--json", "-"], &words[..]].concat(), &file).stdout);
            let ((with, openings), (_, one_more)) = (ended(&file, allowed), ended(&file, allowed + 1));
            let euler = i64::from(with.record().euler);
            let due = [("opened", openings.len() as i64), ("euler", euler), ("pieces", pieces(&with)), ("tunnels", pieces(&with) - euler)];
            assert!(due.iter().all(|(name, due)| number(&json, name) == *due), "{due:?} {json}");
            assert_eq!((number(&json, "free_tunnels"), json.contains("\"first_free_tunnel\": null")), (tunnels, tunnels == 0));
            let left = number(&json, "left_to_open") > 0;
            assert_eq!(left, one_more.len() > openings.len(), "{json}");
            met[usize::from(left)] += 1;

            let told = told(&words, &file);
            assert!(told.contains(&format!("- Were openings allowed freely, the body would have {would}")), "{would}: {told}");
            // nothing said of what was filled contradicts it
            assert!(!(left && told.contains("Nothing was filled")) && left == told.contains(" could still be opened."), "{told}");
            assert!(left || number(&json, "tunnels") == tunnels, "{told}");
        }
    }
    assert!(met.iter().all(|&met| met > 20), "{met:?}");
}

/// A voxel's place as answers write it.
fn place(file: &[u8], index: usize) -> String {
    let [a, b] = [2, 3].map(|i| usize::from(file[i]));
    format!("({}, {}, {})", index % a, index / a % b, index / (a * b))
}

/// The file with T in its bytes 5 and 6.
fn with_t(file: &[u8], allowed: u16) -> Vec<u8> {
    [&file[..5], &allowed.to_le_bytes(), &file[7..]].concat()
}

/// A page without the picture in it, in which the title is drawn.
fn without_picture(text: &str) -> String {
    let parts = text.split_once("base64,").and_then(|(before, after)| Some((before, after.split_once('"')?.1)));
    parts.map_or(text.to_string(), |(before, after)| format!("{before}{after}"))
}

#[test]
fn openings_stand_in_for_the_files_own() {
    for grid in samples() {
        let file = std::fs::read(&grid).unwrap();
        let in_file = u16::from_le_bytes([file[5], file[6]]);
        for allowed in [0, 1, 7, 65_535] {
            let (changed, option) = (with_t(&file, allowed), allowed.to_string());
            for command in ["carve", "look", "explain", "points --xyz", "page", "volume --nrrd", "rewrite", "list"] {
                let words: Vec<&str> = command.split(' ').chain(["-"]).collect();
                let due = wattle_on(&words, &changed);
                let given = wattle_on(&[&words[..], &["--openings", &option]].concat(), &file);
                assert_eq!(status(&given), status(&due), "{command} {allowed} {}", grid.display());
                // titles say what the file has, where that is another number
                let note = if allowed == in_file { String::new() } else { format!(" ({in_file} in the file)") };
                let plain = |bytes: &[u8]| without_picture(&String::from_utf8_lossy(bytes)).replace(&format!(" allowed{note}"), " allowed");
                assert!(plain(&given.stdout) == plain(&due.stdout), "{command} {allowed} {}", grid.display());
            }
        }
    }
    let torus = sample("torus-1.grid");
    let title = |words: &[&str]| text(&answer(&[&["look", path(&torus)], words].concat())).lines().next().unwrap_or_default().to_string();
    assert_eq!(title(&[]), "torus-1.grid: 16 x 16 x 9, T = 1 opening allowed");
    assert_eq!(title(&["--openings", "0"]), "torus-1.grid: 16 x 16 x 9, T = 0 openings allowed (1 in the file)");
    let explained = text(&answer(&["explain", path(&torus), "--openings", "2"]));
    assert!(explained.starts_with("torus-1.grid is taken: 16 x 16 x 9 voxels, T = 2 openings allowed (1 in the file).\n"), "{explained}");
    let [zero, one] = ["torus-0.grid", "torus-1.grid"].map(|name| std::fs::read(sample(name)).unwrap());
    assert_eq!(answer(&["rewrite", path(&torus), "--openings", "0"]), zero);
    assert_eq!(answer(&["rewrite", path(&sample("torus-0.grid")), "--openings", "1"]), one);
}

#[test]
fn wrong_numbers_of_openings() {
    let grid = sample("sphere.grid");
    for command in ["carve", "look", "explain", "points", "page", "volume", "make", "rewrite", "list"] {
        for word in ["-1", "65536", "x", "", "1.5"] {
            let output = wattle(&[command, path(&grid), "--openings", word]);
            let line = format!("wattle: --openings takes a number from 0 to 65535, not {word}\n");
            assert_eq!((status(&output), text(&output.stderr), output.stdout.len()), (2, line, 0), "{command}");
        }
    }
    for command in ["compare", "patch"] {
        let output = wattle(&[command, path(&grid), path(&grid), "--openings", "1"]);
        assert_eq!(
            (status(&output), text(&output.stderr)),
            (2, format!("wattle: {command} has no option --openings; see `wattle help {command}`\n"))
        );
    }
}
