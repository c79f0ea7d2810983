//! `wattle shaky`: known pairs, and every answer against a plain way: the value changed, carved with the library, and compared.

use crate::common::{answer, folder, grid_file, left_out, path, python, sample, status, text, wattle, wattle_on, wide_file};
use wattlerugby::{read_values, Grid, Refusal, Sides, GONE, GREATEST_VALUE, HURRIED, MISSING, NO_LIMIT, PINNED, UNMARKED};

const PROVED: &str = "S, the inside, stays the same and no worked distance moves by more than";

// ---- the plain way

/// A grid as a file has it, and how it is begun.
struct Scan {
    sides: Sides,
    allowed: u16,
    values: Vec<i32>,
    marks: Vec<u8>,
    coarse: bool,
}

/// What is left of it.
struct End {
    kept: Vec<bool>,
    euler: i32,
    opened: Vec<usize>,
}

impl Scan {
    fn of(file: &[u8]) -> Scan {
        let (sides, allowed, values) = read_values(file).expect("a good file");
        Scan { sides, allowed, marks: vec![UNMARKED; values.len()], values, coarse: false }
    }

    fn carved(&self, values: &[i32]) -> Result<End, Refusal> {
        let mut grid = match self.coarse {
            true => Grid::begin_coarse_marked(self.sides, self.allowed, values, &self.marks)?.0,
            false => Grid::begin_marked(self.sides, self.allowed, values, &self.marks)?,
        };
        let mut opened = Vec::new();
        grid.carve(NO_LIMIT)?;
        while let Ok(opening) = grid.open() {
            opened.push(opening.index);
            grid.carve(NO_LIMIT)?;
        }
        Ok(End { kept: grid.status().iter().map(|&s| s != GONE).collect(), euler: grid.record().euler, opened })
    }

    /// What is left with one value changed.
    fn changed(&self, index: usize, value: i32) -> End {
        let mut values = self.values.clone();
        values[index] = value;
        self.carved(&values).expect("the grid is taken, whatever is measured outside")
    }

    /// The value at a voxel, E lower and E higher.
    fn ends(&self, index: usize, e: i32) -> [i32; 2] {
        [0.max(self.values[index] - e), GREATEST_VALUE.min(self.values[index] + e)]
    }

    fn name(&self, index: usize) -> String {
        let Sides { a, b, .. } = self.sides;
        format!("({}, {}, {}), index {index}", index % a, index / a % b, index / a / b)
    }

    /// Measured outside, and a face neighbour measured negative. On the grid's edge nothing is, so no step leads around it.
    fn is_tried(&self, index: usize) -> bool {
        let steps = [1, self.sides.a, self.sides.a * self.sides.b];
        let is_inside = |j: usize| self.values.get(j).is_some_and(|&value| value < 0 && value != MISSING);
        self.values[index] >= 0 && steps.iter().any(|step| is_inside(index + step) || index >= *step && is_inside(index - step))
    }

    /// The lines on a voxel, below what is proved.
    fn told(&self, index: usize, e: i32) -> String {
        let before = self.carved(&self.values).expect("the grid is taken");
        let mut lines = String::new();
        let ways = [("lower", "a lower value would be inside"), ("higher", "a grid holds no higher value")];
        for (value, (name, limit)) in self.ends(index, e).into_iter().zip(ways) {
            let step = (value - self.values[index]).abs();
            if step == 0 {
                lines += &format!("- not {name}: it is {value}, and {limit}.\n");
                continue;
            }
            let after = self.changed(index, value);
            let differ = differ(&before, &after);
            lines += &format!("- {step} {name}, {value}");
            lines += &if step < e { format!(", since {limit}: ") } else { ": ".to_string() };
            let gone = differ.iter().filter(|&&i| before.kept[i]).count();
            lines += &match differ.len() {
                0 => "the body is the same".to_string(),
                1 => format!("1 voxel differs, {gone} gone and {} new", 1 - gone),
                n => format!("{n} voxels differ, {gone} gone and {} new", n - gone),
            };
            lines += &match before.euler == after.euler {
                true => format!("; Euler number {} as before", before.euler),
                false => format!("; Euler number {}, before {}", after.euler, before.euler),
            };
            lines += &match (before.opened.len(), after.opened.len()) {
                (b, a) if b != a => format!("; openings {a}, before {b}.\n"),
                (b, _) if before.opened == after.opened => format!("; openings {b} as before.\n"),
                (b, _) => format!("; openings {b} as before, but of other voxels.\n"),
            };
            for &i in differ.iter().take(10) {
                lines += &format!("  {}: {}\n", self.name(i), if before.kept[i] { "gone" } else { "new" });
            }
            if differ.len() > 10 {
                lines += &format!("  and {} more\n", differ.len() - 10);
            }
        }
        lines
    }

    /// The lines on all voxels beside the inside, below what is proved.
    fn told_of_all(&self, e: i32) -> String {
        let before = self.carved(&self.values).expect("the grid is taken");
        let tried: Vec<usize> = (0..self.values.len()).filter(|&i| self.is_tried(i)).collect();
        let mut changing = Vec::new();
        for &index in &tried {
            let ends = self.ends(index, e).map(|value| (value, self.changed(index, value)));
            let counts = ends.each_ref().map(|(_, after)| differ(&before, after).len());
            let [(low, lower), (high, higher)] = &ends;
            let voxels = if counts[0] == 1 { "voxel differs" } else { "voxels differ" };
            let mut line = format!("  {}, measured {}: ", self.name(index), self.values[index]);
            line += &format!("{} {voxels} with {low}, {} with {high}", counts[0], counts[1]);
            if lower.euler != before.euler || higher.euler != before.euler {
                line += &format!("; Euler number {} with {low}, {} with {high}", lower.euler, higher.euler);
            }
            if counts != [0, 0] {
                changing.push((counts[0].max(counts[1]), line + "\n"));
            }
        }
        // the sort is stable, so that of equals the smallest index stays first
        changing.sort_by_key(|(count, _)| std::cmp::Reverse(*count));
        let named: String = changing.iter().take(10).map(|(_, line)| line.as_str()).collect();
        let more = if changing.len() > 10 { format!("  and {} more\n", changing.len() - 10) } else { String::new() };
        let (tried, same) = (tried.len(), tried.len() - changing.len());
        match changing.is_empty() {
            true => format!("{tried} voxels were tried, and none changed the body.\n"),
            false => format!("{tried} voxels were tried, and {same} changed nothing of the body. The worst first:\n{named}{more}"),
        }
    }
}

fn differ(one: &End, other: &End) -> Vec<usize> {
    (0..one.kept.len()).filter(|&i| one.kept[i] != other.kept[i]).collect()
}

/// What the tool says below its third line, which tells what is proved.
fn below(output: &std::process::Output, e: i32) -> String {
    assert_eq!(status(output), 0, "{}", text(&output.stderr));
    let told = text(&output.stdout);
    let (above, below) = told.split_once("; the body may still change:\n").expect("what is proved");
    assert!(above.ends_with(&format!("{PROVED} {e} (theorem OneShakyShot)")) && above.lines().count() == 3, "{told}");
    below.to_string()
}

// ---- known pairs

/// A tube of sixteen voxels along z around two, 37 and 62: one of them may go, and the other closes the tube and stays.
fn tube(first: i16, second: i16) -> Vec<u8> {
    grid_file([5, 5, 4], 0, |x, y, z| match (x, y, z) {
        (2, 2, 1) => first,
        (2, 2, 2) => second,
        (1..=3, 1..=3, 1 | 2) => -4,
        _ => 4,
    })
}

#[test]
fn a_tube_around_two() {
    let told = text(&wattle_on(&["shaky", "-", "2,2,2", "1"], &tube(4, 4)).stdout);
    let due = "the standard input: 5 x 5 x 4, T = 0 openings allowed
kept 17 removed 1 opened 0 examined 2 euler 1
Voxel (2, 2, 2), index 62, is measured 4. S, the inside, stays the same and no worked distance moves by more than 1 \
(theorem OneShakyShot); the body may still change:
- 1 lower, 3: the body is the same; Euler number 1 as before; openings 0 as before.
- 1 higher, 5: 2 voxels differ, 1 gone and 1 new; Euler number 1 as before; openings 0 as before.
  (2, 2, 1), index 37: new
  (2, 2, 2), index 62: gone
";
    assert_eq!(told, due);
    assert_eq!(text(&wattle_on(&["shaky", "-", "62", "1"], &tube(4, 4)).stdout), due, "a voxel by its index");
    // where it is two lower, one higher does not make it the first
    let told = text(&wattle_on(&["shaky", "-", "62", "1"], &tube(4, 2)).stdout);
    assert_eq!(told.matches(": the body is the same;").count(), 2, "{told}");
}

/// Both voxels are as bad as each other, so the smaller index comes first; those around them change nothing.
#[test]
fn all_of_the_tube() {
    let told = text(&wattle_on(&["shaky", "--all", "1", "-"], &tube(4, 4)).stdout);
    let due =
        "Each voxel measured outside, beside one that is measured negative, alone 1 lower and 1 higher. S, the inside, stays the same and \
no worked distance moves by more than 1 (theorem OneShakyShot); the body may still change:
42 voxels were tried, and 40 changed nothing of the body. The worst first:
  (2, 2, 1), index 37, measured 4: 2 voxels differ with 3, 0 with 5
  (2, 2, 2), index 62, measured 4: 0 voxels differ with 3, 2 with 5
";
    assert!(told.ends_with(&format!("\n{due}")), "{told}");
    let told = text(&wattle_on(&["shaky", "--all", "1", "-", "--openings", "1"], &tube(4, 4)).stdout);
    assert!(told.ends_with("\n42 voxels were tried, and none changed the body.\n"), "{told}");
}

/// A value is not lowered below 0 nor raised above the greatest, and where it cannot move that is said.
#[test]
fn ends_of_the_range() {
    let lines = |file: &[u8], e: i32| below(&wattle_on(&["shaky", "-", "62", &e.to_string()], file), e);
    assert_eq!(
        lines(&tube(4, 3), 5),
        "- 3 lower, 0, since a lower value would be inside: the body is the same; Euler number 1 as before; openings 0 as before.
- 5 higher, 8: 2 voxels differ, 1 gone and 1 new; Euler number 1 as before; openings 0 as before.
  (2, 2, 1), index 37: new
  (2, 2, 2), index 62: gone
"
    );
    assert!(lines(&tube(4, 3), 3).starts_with("- 3 lower, 0: "), "0 is reached, and not cut off");
    assert!(lines(&tube(4, 0), 1).starts_with("- not lower: it is 0, and a lower value would be inside.\n- 1 higher, 1: "));
    let high = |value: i32| {
        wide_file([5, 5, 4], 0, &[0, 1, 2, 3], |x, y, z| match (x, y, z) {
            (2, 2, 1) => GREATEST_VALUE,
            (2, 2, 2) => value,
            (1..=3, 1..=3, 1 | 2) => -4,
            _ => 4,
        })
    };
    let told = lines(&high(GREATEST_VALUE - 2), 7);
    assert!(told.contains("\n- 2 higher, 1000000000, since a grid holds no higher value: the body is the same; Euler number 1 "), "{told}");
    let told = lines(&high(GREATEST_VALUE), GREATEST_VALUE);
    assert!(
        told.starts_with("- 1000000000 lower, 0: ")
            && told.ends_with("- not higher: it is 1000000000, and a grid holds no higher value.\n"),
        "{told}"
    );
}

// ---- against the plain way

#[test]
fn all_of_the_samples() {
    for (name, e, changing) in [("sphere.grid", 20, 12), ("torus-0.grid", 3, 7), ("wet-glass.grid", 5, 0), ("tunnel.grid", 30_000, 0)] {
        let file = sample(name);
        let told = below(&wattle(&["shaky", path(&file), "--all", &e.to_string()]), e);
        assert_eq!(told, Scan::of(&std::fs::read(&file).unwrap()).told_of_all(e), "{name}");
        let lines = told.lines().filter(|line| line.starts_with("  (")).count();
        assert_eq!((lines, told.contains("  and ")), (changing.min(10), changing > 10), "{told}");
    }
}

/// A shape with noise, as `wattle make` writes it.
fn made(shape: &str, noise: usize, seed: usize, side: usize) -> Vec<u8> {
    let words = format!("make --shape {shape} --noise {noise} --seed {seed} --sides {side},{side},{side}");
    answer(&words.split(' ').collect::<Vec<_>>())
}

/// Noise of three voxels, and each of the worst voxels by itself: openings come to lie elsewhere, and make more or fewer tunnels.
#[test]
fn noise() {
    let mut seen = [0; 3];
    for (round, shape) in ["sphere", "torus", "wall", "tunnel", "wall", "torus"].into_iter().enumerate() {
        let (file, openings) = (made(shape, 30, round, 13), (round % 3).to_string());
        let scan = Scan { allowed: (round % 3) as u16, ..Scan::of(&file) };
        let say = |words: &[&str]| below(&wattle_on(&[&["shaky", "-", "--openings", &openings], words].concat(), &file), 40);
        let all = say(&["--all", "40"]);
        assert_eq!(all, scan.told_of_all(40), "round {round}");
        for line in all.lines().filter(|line| line.starts_with("  (")) {
            let voxel = line.split(", index ").nth(1).and_then(|rest| rest.split(',').next()).expect("an index");
            let told = say(&[voxel, "40"]);
            assert_eq!(told, scan.told(voxel.parse().unwrap(), 40), "round {round}");
            let parts = [", before -", ", but of other voxels", "  and "];
            seen.iter_mut().zip(parts).for_each(|(count, part)| *count += told.matches(part).count());
        }
    }
    assert!(seen.iter().all(|&count| count > 1), "{seen:?}");
}

/// One value of a tunnel, and from a coarse start another skin closes its bore.
#[test]
fn a_body_may_differ_widely() {
    let file = made("tunnel", 3, 1, 16);
    let scan = Scan { coarse: true, ..Scan::of(&file) };
    let output = wattle_on(&["shaky", "-", "6,6,6", "50", "--coarse"], &file);
    assert!(text(&output.stdout).contains("T = 0 openings allowed, begun coarse\n"));
    assert!(text(&output.stderr).contains(" could still be opened, so a plain start may leave another body"));
    let told = below(&output, 50);
    assert_eq!(told, scan.told(6 + 16 * (6 + 16 * 6), 50));
    assert!(told.contains("- 50 higher, 57: 57 voxels differ, 29 gone and 28 new; ") && told.ends_with("  and 47 more\n"), "{told}");
}

#[test]
fn marks_and_openings() {
    let file = std::fs::read(sample("sphere.grid")).unwrap();
    let mut scan = Scan::of(&file);
    (scan.marks[737], scan.marks[605]) = (PINNED, HURRIED);
    let marked = below(&wattle_on(&["shaky", "-", "--all", "20", "--pin", "5,1,5", "--hurry", "605"], &file), 20);
    assert_eq!(marked, scan.told_of_all(20));
    assert_ne!(marked, Scan::of(&file).told_of_all(20));
    // nothing is left to open, and nothing is pinned: the body depends on the inside alone, the number of openings does not
    let free = |words: &[&str], file: &[u8]| below(&wattle_on(&[&["shaky", "-", "--openings", "65535"], words].concat(), file), 40);
    assert_eq!(free(&["--all", "40"], &file), "304 voxels were tried, and none changed the body.\n");
    let wall = made("wall", 30, 0, 13);
    let told = free(&["537", "40"], &wall);
    assert_eq!(told, Scan { allowed: 65535, ..Scan::of(&wall) }.told(537, 40));
    assert!(told.contains(": the body is the same; Euler number -53 as before; openings 44, before 45.\n"), "{told}");
}

// ---- JSON

#[test]
fn json() {
    let carved = |file: &[u8]| text(&wattle_on(&["carve", "--json", "-"], file).stdout).replacen("\"-\"", "\"the standard input\"", 1);
    let say = |words: &[&str], file: &[u8]| {
        let told = text(&wattle_on(&[&["shaky", "-", "--json"], words].concat(), file).stdout);
        told.strip_prefix(carved(file).trim_end_matches("}\n")).expect("what carve gives").to_string()
    };
    let same = |value: i32| format!(r#"{{"value": {value}, "differ": 0, "gone": [], "new": [], "euler": 1, "opened": 0}}"#);
    let other =
        |value: i32| format!(r#"{{"value": {value}, "differ": 2, "gone": [[2, 2, 2]], "new": [[2, 2, 1]], "euler": 1, "opened": 0}}"#);
    let first = format!(r#""voxel": [2, 2, 1], "index": 37, "value": 4, "lower": {}, "higher": {}"#, other(3), same(5));
    let second = format!(r#""voxel": [2, 2, 2], "index": 62, "value": 4, "lower": {}, "higher": {}"#, same(3), other(5));
    assert_eq!(say(&["62", "1"], &tube(4, 4)), format!(", \"e\": 1, {second}}}\n"));
    assert_eq!(
        say(&["--all", "1"], &tube(4, 4)),
        format!(", \"e\": 1, \"tried\": 42, \"unchanged\": 40, \"worst\": [{{{first}}}, {{{second}}}]}}\n")
    );
    // all voxels that differ are named, and the ten worst shots
    let (wide, lines) = (made("wall", 30, 2, 16), folder("shaky-json").join("lines.json"));
    let (one, all) = (say(&["12,11,3", "50"], &wide), say(&["--all", "50"], &wide));
    assert_eq!(one.matches('[').count() - 5, 13, "each way has two lists, and the voxel is one: {one}");
    assert_eq!(all.matches("\"index\": ").count(), 10, "{all}");
    std::fs::write(&lines, [one, all].map(|line| carved(&wide).replace("}\n", &line)).concat()).unwrap();
    match python("json_lines", &lines) {
        Some(rows) => assert_eq!(rows.lines().count(), 2),
        None => left_out("JSON was not read back, since python3 is not there"),
    }
}

// ---- wrong words

#[test]
fn voxels_that_are_not_measured_outside() {
    let file = grid_file([5, 5, 4], 0, |x, y, z| match (x, y, z) {
        (2, 2, 1) => -7,
        (2, 2, 2) => i16::MIN,
        _ => 4,
    });
    for (voxel, why) in [("37", "(2, 2, 1), index 37, is measured negative, -7"), ("2,2,2", "(2, 2, 2), index 62, is missing")] {
        let output = wattle_on(&["shaky", "-", voxel, "1"], &file);
        let line = format!("wattle: voxel {why}; shaky moves a value that is measured and not negative\n");
        assert_eq!((status(&output), text(&output.stdout), text(&output.stderr)), (2, String::new(), line));
    }
}

#[test]
fn wrong_usage() {
    let line = |words: &[&str]| {
        let output = wattle_on(&[&["shaky"], words].concat(), &tube(4, 4));
        assert_eq!(text(&output.stdout), "");
        (status(&output), text(&output.stderr))
    };
    let usage = (2, "wattle: shaky takes FILE VOXEL E, or FILE --all E; see `wattle help shaky`\n".to_string());
    for words in [&["-"][..], &["-", "62"], &["-", "62", "1", "2"], &["-", "62", "1", "--all", "1"], &["-", "62", "--all", "1"]] {
        assert_eq!(line(words), usage, "{words:?}");
    }
    assert_eq!(line(&[]), (2, "wattle: shaky takes one file, not 0; see `wattle help shaky`\n".to_string()));
    assert_eq!(line(&["-", "--all"]), (2, "wattle: --all needs a word after it\n".to_string()));
    assert_eq!(line(&["-", "62", "-1"]), (2, "wattle: shaky has no option -1; see `wattle help shaky`\n".to_string()));
    for e in ["0", "1000000001", "x", "1.5", ""] {
        assert_eq!(line(&["-", "62", e]), (2, format!("wattle: E takes a number from 1 to 1000000000, not {e}\n")));
        assert_eq!(line(&["-", "--all", e]), (2, format!("wattle: --all takes a number from 1 to 1000000000, not {e}\n")));
    }
    let beyond = "wattle: voxel 100 lies beyond the grid of 5 x 5 x 4 voxels, with indices 0 to 99\n";
    assert_eq!(line(&["-", "100", "1"]), (2, beyond.to_string()));
    assert_eq!(
        line(&["-", "2,2", "1"]),
        (2, "wattle: shaky takes a voxel as X,Y,Z or as an index, not 2,2; see `wattle help shaky`\n".to_string())
    );
    let refused = wattle(&["shaky", path(&sample("refused.grid")), "--all", "1"]);
    assert_eq!((status(&refused), text(&refused.stderr).starts_with("wattle: refused.grid: refused 3: ")), (1, true));
    let coarse = line(&["-", "62", "1", "--coarse"]);
    assert!(coarse.0 == 1 && coarse.1.contains("refused 31: "), "{coarse:?}");
}

/// A voxel or a number is no file that is read, also where a file has that name.
#[test]
fn words_are_no_files() {
    let folder = folder("shaky-words");
    std::fs::write(folder.join("scan"), tube(4, 4)).unwrap();
    std::fs::write(folder.join("1"), "mine").unwrap();
    let run = |words: &[&str]| std::process::Command::new(env!("CARGO_BIN_EXE_wattle")).args(words).current_dir(&folder).output().unwrap();
    assert_eq!(status(&run(&["shaky", "scan", "62", "1", "-o", "1", "--force"])), 0);
    assert_eq!(std::fs::read(folder.join("1")).unwrap(), run(&["shaky", "scan", "62", "1"]).stdout);
    assert_eq!(status(&run(&["shaky", "scan", "62", "1", "-o", "scan", "--force"])), 2);
}
