//! `wattle removals` and `wattle judge`: the list against carve with limit 1, and what is said of lists that are accepted, cut, doubled, shuffled.

use crate::common::{answer, folder, grid_file, path, root, sample, samples, sphere, status, text, wattle, wattle_on, Seed};
use std::path::{Path, PathBuf};
use wattlerugby::{read_values, Entry, Grid, Judged, Refusal, GONE, PINNED, UNMARKED};

/// Every removal of a grid, one examination at a time, with an opening where nothing is pending.
fn removals(mut grid: Grid) -> Vec<u8> {
    let mut made = Vec::new();
    loop {
        let before = grid.status().to_vec();
        let pending = grid.carve(1).expect("a begun grid is carved").pending;
        let gone = (0..before.len()).find(|&i| before[i] != GONE && grid.status()[i] == GONE);
        made.extend(gone.map(|i| Entry::Ordinary(i as u32)));
        if !pending {
            match grid.open() {
                Ok(opened) => made.push(Entry::Opening(opened.index as u32)),
                Err(_) => return Entry::list(&made),
            }
        }
    }
}

/// The samples that begin takes, each with its grid as begun.
fn begun() -> Vec<(PathBuf, Grid)> {
    let taken = |file: PathBuf| Some((file.clone(), Grid::from_file(&std::fs::read(&file).unwrap()).ok()?));
    let all: Vec<_> = samples().into_iter().filter_map(taken).collect();
    assert!(all.len() > 10, "all but the refused one");
    all
}

fn name(file: &Path) -> &str {
    file.file_name().unwrap().to_str().unwrap()
}

/// A folder for the test that runs, by its name: tests run at the same time.
fn own_folder() -> PathBuf {
    folder(&std::thread::current().name().expect("a test has a name").replace("::", "-"))
}

// ---- the list

#[test]
fn the_list_is_carves_own_order() {
    for (file, grid) in begun() {
        assert!(answer(&["removals", path(&file)]) == removals(grid), "{}", file.display());
    }
    // hurried voxels come first, T changes the openings, and a coarse start begins elsewhere
    let (file, values) = (sample("torus-1.grid"), std::fs::read(sample("torus-1.grid")).unwrap());
    let (sides, allowed, values) = read_values(&values).unwrap();
    let plain = Grid::begin(sides, allowed, &values).unwrap();
    let kept: Vec<usize> = (0..values.len()).filter(|&i| plain.status()[i] != GONE && plain.distances()[i] >= 0).step_by(7).collect();
    let mut marks = vec![UNMARKED; values.len()];
    kept.iter().for_each(|&i| marks[i] = wattlerugby::HURRIED);
    let listed = folder("hurried").join("voxels");
    std::fs::write(&listed, kept.iter().map(|i| format!("{i}\n")).collect::<String>()).unwrap();
    let hurried = answer(&["removals", path(&file), "--hurry", &format!("@{}", path(&listed)), "--openings", "9"]);
    assert!(hurried == removals(Grid::begin_marked(sides, 9, &values, &marks).unwrap()) && hurried != removals(plain));
    let (sides, allowed, values) = read_values(&std::fs::read(sample("hopper.grid")).unwrap()).unwrap();
    let output = wattle(&["removals", "--coarse", path(&sample("hopper.grid"))]);
    assert!(output.stdout == removals(Grid::begin_coarse(sides, allowed, &values).unwrap().0));
    assert!(text(&output.stderr).contains("13 voxels could still be opened, so a plain start may leave another body"));
}

/// Noise, where voxels are examined again and again, and many openings.
#[test]
fn the_list_of_noise() {
    let mut seed = Seed(21);
    let mut opened = 0;
    for round in 0..12 {
        let sides = [9 + round % 3, 10, 8];
        let values: Vec<i16> = (0..sides.iter().product()).map(|_| [-3, 4, 5, i16::MIN, 9][seed.below(5)]).collect();
        let edge = |p: usize, side: usize| p == 0 || p + 1 == side;
        let file = grid_file(sides, [0, 3, 999][round % 3], |x, y, z| match edge(x, sides[0]) || edge(y, 10) || edge(z, 8) {
            true => 9,
            false => values[x + sides[0] * (y + 10 * z)],
        });
        let output = wattle_on(&["removals", "-"], &file);
        assert_eq!(status(&output), 0);
        assert!(output.stdout == removals(Grid::from_file(&file).unwrap()), "round {round}");
        opened += output.stdout.chunks(6).filter(|entry| entry[1] == 0x4F).count();
    }
    assert!(opened > 20, "{opened}");
}

#[test]
fn a_pin_that_holds_what_passes_is_noted() {
    let file = grid_file([4, 4, 3], 0, |x, y, z| if [(1, 1), (2, 2)].contains(&(x, y)) && z == 1 { -6 } else { 6 });
    let output = wattle_on(&["removals", "-", "--pin", "22"], &file);
    assert_eq!((status(&output), output.stdout), (0, Entry::Ordinary(25).bytes().to_vec()));
    let note =
        "wattle: note: judge knows no pins: of this list it says refused 33: a voxel still passes the local test at the list's end.\n";
    assert_eq!(text(&output.stderr), note);
    let output = wattle_on(&["removals", "-", "--pin", "21"], &file);
    assert!(!text(&output.stderr).contains("judge"), "a pin on the inside holds nothing that passes");
    assert_eq!(output.stdout, Entry::list(&[Entry::Ordinary(22), Entry::Ordinary(25)]));
}

// ---- lists that are judged

/// What the tool says of a list, by a file or by the standard input, with the library's own answer.
fn judged(file: &Path, grid: &mut Grid, list: &[u8]) -> (Result<Judged, Refusal>, String) {
    let place = own_folder().join("their.list");
    std::fs::write(&place, list).unwrap();
    let output = wattle(&["judge", path(file), path(&place)]);
    let (answer, told) = (grid.judge(list), text(&output.stdout));
    assert_eq!((status(&output), text(&output.stderr).as_str()), (i32::from(answer.is_err()), ""));
    let first = match answer {
        Ok(Judged { removals, openings, euler }) => {
            let allowed = grid.record().allowed;
            format!(
                "their.list is accepted on {}: removals {removals}, openings {openings} of {allowed} allowed, Euler number {euler}.",
                name(file)
            )
        }
        Err(refused) => format!("their.list is refused {} on {}: {}.", refused.0, name(file), refused.reason()),
    };
    assert_eq!(told.lines().next(), Some(first.as_str()));
    let piped = wattle_on(&["judge", path(file), "-"], list);
    assert_eq!(text(&piped.stdout), told.replace("their.list", "the standard input"));
    (answer, told)
}

#[test]
fn every_sample_accepted_cut_doubled_shuffled() {
    let mut seed = Seed(22);
    for (file, mut grid) in begun() {
        let ours = removals(grid.clone());
        let (answer, told) = judged(&file, &mut grid, &ours);
        assert!(answer.is_ok() && told.ends_with("Our own removals leave the same body.\n"), "{told}");
        let kept = grid.status().iter().filter(|&&s| s != GONE).count() - ours.len() / 6;
        assert!(told.contains(&format!("\nIt leaves {kept} voxels, and ")), "{told}");

        // cut: the last voxel is left, and passes; in the middle of its entry
        let (answer, told) = judged(&file, &mut grid, &ours[..ours.len() - 6]);
        assert_eq!(answer, Err(Refusal::STILL_PASSES));
        let last = Entry::first(&ours[ours.len() - 6..]).unwrap().index();
        assert!(
            told.contains("Where: at its end 1 voxel still passes the local test, such as ") && told.contains(&format!("index {last}:")),
            "{told}"
        );
        let (answer, told) = judged(&file, &mut grid, &ours[..ours.len() - 2]);
        assert_eq!(answer, Err(Refusal::SHORT));
        assert_eq!(
            told.lines().nth(1),
            Some(&*format!("Where: entry {}, byte {}: 4 bytes are left, and an entry has 6.", ours.len() / 6, ours.len() - 6))
        );

        // doubled: the entry that comes again is told, and the one that removed its voxel
        let at = 6 * seed.below(ours.len() / 6);
        let doubled = [&ours, &ours[at..at + 6]].concat();
        let (answer, told) = judged(&file, &mut grid, &doubled);
        assert_eq!(answer, Err(Refusal::BREAKS_RULES));
        assert!(told.contains(&format!("Where: entry {}, byte {}: ", ours.len() / 6 + 1, ours.len())), "{told}");
        assert!(told.ends_with(&format!("\nWhy: the voxel is not kept at its turn: entry {} removed it.\n", at / 6 + 1)), "{told}");

        // shuffled: most often something comes too early; where it is accepted, that is the library's answer too
        let mut entries: Vec<&[u8]> = ours.chunks(6).collect();
        (1..entries.len()).for_each(|i| entries.swap(i, seed.below(i + 1)));
        let (answer, told) = judged(&file, &mut grid, &entries.concat());
        assert!(answer.is_ok() || told.contains("\nWhy: "), "{told}");
    }
}

/// The entry that is told is the first that the library refuses, counted one by one.
#[test]
fn the_first_wrong_entry_is_told() {
    let mut seed = Seed(23);
    for (file, mut grid) in begun().into_iter().take(6) {
        let mut list = removals(grid.clone());
        let (at, other) = (seed.below(list.len() / 6), seed.below(list.len() / 6));
        (0..6).for_each(|byte| list.swap(6 * at + byte, 6 * other + byte));
        list.extend([0x56, 0x50, 0, 0, 0, 0]);
        let (answer, told) = judged(&file, &mut grid, &list);
        let taken = |count: &usize| matches!(grid.clone().judge(&list[..6 * count]), Ok(_) | Err(Refusal::STILL_PASSES));
        let first = (1..=list.len() / 6).find(|count| !taken(count)).expect("some entry is refused");
        assert!(answer.is_err() && told.contains(&format!("\nWhere: entry {first}, byte {}: ", 6 * (first - 1))), "{told}");
    }
}

// ---- each rule, by its sentence

/// What is said of a list on a grid that is given by the standard input.
fn told(file: &[u8], list: &[u8], words: &[&str]) -> (i32, Vec<String>) {
    let place = own_folder().join("list");
    std::fs::write(&place, list).unwrap();
    let output = wattle_on(&[&["judge", "-", path(&place)], words].concat(), file);
    assert_eq!(text(&output.stderr), "");
    (status(&output), text(&output.stdout).lines().map(str::to_string).collect())
}

/// Case D: 21 and 26 are inside, 22 and 25 fill the box around them, and pass.
fn case_d() -> Vec<u8> {
    grid_file([4, 4, 3], 1, |x, y, z| if [(1, 1), (2, 2)].contains(&(x, y)) && z == 1 { -6 } else { 6 })
}

/// A ring around two voxels, 44 and 45, of which neither passes; T is 1.
fn ring() -> Vec<u8> {
    grid_file(
        [6, 5, 3],
        1,
        |x, y, z| if z == 1 && (1..5).contains(&x) && (1..4).contains(&y) && (y != 2 || x == 1 || x == 4) { -4 } else { 4 },
    )
}

#[test]
fn each_rule_in_words() {
    use Entry::{Opening, Ordinary};
    let why = |file: Vec<u8>, entries: &[Entry]| {
        let (status, lines) = told(&file, &Entry::list(entries), &[]);
        assert_eq!((status, lines[0].as_str()), (1, "list is refused 32 on the standard input: a removal of the list breaks the rules."));
        assert_eq!(lines.len(), 3);
        lines[1..].join("\n")
    };
    assert_eq!(
        why(case_d(), &[Ordinary(22), Ordinary(21)]),
        "Where: entry 2, byte 6: an ordinary removal of voxel (1, 1, 1), index 21.\nWhy: the voxel is inside, where nothing is removed."
    );
    assert_eq!(
        why(case_d(), &[Ordinary(3)]),
        "Where: entry 1, byte 0: an ordinary removal of voxel (3, 0, 0), index 3.\n\
         Why: the voxel is not kept: it is none of those that carving starts from."
    );
    assert_eq!(
        why(ring(), &[Ordinary(44)]),
        "Where: entry 1, byte 0: an ordinary removal of voxel (2, 2, 1), index 44.\n\
         Why: the voxel does not pass the local test at its turn, with k = 1 and m = 2."
    );
    assert!(why(case_d(), &[Opening(22)]).ends_with(
        "\nWhy: the voxel passes the local test, so that it is no opening; \
         another voxel passes at that turn, (1, 2, 1), index 25, and goes before any opening."
    ));
    assert!(why(ring(), &[Opening(45), Opening(44)])
        .ends_with("\nWhy: it is opening 2, and T = 1 opening allowed; the voxel passes the local test, so that it is no opening."));
    // a voxel with its six face neighbours inside
    let cross = grid_file([5, 5, 5], 1, |x, y, z| if x.abs_diff(2) + y.abs_diff(2) + z.abs_diff(2) == 1 { -4 } else { 4 });
    let corners: Vec<Entry> = removals(Grid::from_file(&cross).unwrap()).chunks(6).map(|entry| Entry::first(entry).unwrap()).collect();
    let last = why(cross, &[&corners[..], &[Opening(62)]].concat());
    assert!(last.ends_with("\nWhy: each of its six face neighbours is kept."), "{last}");
}

#[test]
fn each_other_number_in_words() {
    let say = |bytes: &[u8]| told(&case_d(), bytes, &[]).1[..2].join("\n");
    let entry = Entry::Ordinary(22).bytes();
    assert_eq!(
        say(&[&entry[..], &[0x56, 0x50, 25, 0, 0, 0]].concat()),
        "list is refused 22 on the standard input: a mark in the file or the list is wrong.\n\
         Where: entry 2, byte 6: it begins with hex 56 50, and an entry with 56 52 or 56 4F."
    );
    assert_eq!(
        say(&[&entry[..], &Entry::Opening(48).bytes()].concat()),
        "list is refused 5 on the standard input: the index, a patch's or an entry's among them, is beyond the grid.\n\
         Where: entry 2, byte 6: index 48, and the grid's are 0 to 47."
    );
    assert_eq!(
        say(&[&entry[..], &[0x56]].concat()),
        "list is refused 21 on the standard input: the file or the list ends where more bytes are due.\n\
         Where: entry 2, byte 6: 1 byte is left, and an entry has 6."
    );
    assert_eq!(
        say(&[]),
        "list is refused 33 on the standard input: a voxel still passes the local test at the list's end.\n\
         Where: at its end 2 voxels still pass the local test, such as (2, 1, 1), index 22: the list is not carved to the end."
    );
    // a list without end is refused by as many bytes as decide
    let endless = entry.repeat(100_000);
    let (status, lines) = told(&case_d(), &endless, &[]);
    assert_eq!((status, lines[2].as_str()), (1, "Why: the voxel is not kept at its turn: entry 1 removed it."));
}

/// What the pages show of a list is what is said: our own list of the torus, and the same with its opening marked as an ordinary removal.
#[test]
fn the_pages_have_what_it_says() {
    let (torus, folder) = (sample("torus-1.grid"), own_folder());
    let (own, their) = (folder.join("torus-1.list"), folder.join("their.list"));
    let list = answer(&["removals", path(&torus)]);
    std::fs::write(&own, &list).unwrap();
    let marked = |entry: &[u8]| Entry::Ordinary(Entry::first(entry).unwrap().index()).bytes();
    std::fs::write(&their, list.chunks(6).flat_map(marked).collect::<Vec<u8>>()).unwrap();
    for (file, page) in [(&own, "docs/RESULT.md"), (&their, "docs/SECOND-SUPPLIER.md")] {
        let told = text(&wattle(&["judge", path(&torus), path(file)]).stdout);
        let shown: String = told.lines().map(|line| format!("    {line}\n")).collect();
        let page = std::fs::read_to_string(root().join(page)).unwrap();
        assert!(page.contains(&shown), "{}", shown);
    }
}

/// T as `--openings` says, and a body that is not ours.
#[test]
fn openings_and_other_bodies() {
    let list = Entry::list(&[Entry::Opening(45), Entry::Ordinary(44)]);
    assert_eq!(told(&ring(), &list, &["--openings", "0"]).0, 1);
    let (status, lines) = told(&ring(), &list, &[]);
    assert_eq!(status, 0);
    assert_eq!(
        lines,
        [
            "list is accepted on the standard input: removals 2, openings 1 of 1 allowed, Euler number 0.",
            "It leaves 10 voxels, and no voxel is left to open (15).",
            "Our own removals leave the same body."
        ]
    );
    // nobody has to open
    let (status, lines) = told(&ring(), &[], &[]);
    assert_eq!((status, lines[1].as_str()), (0, "It leaves 12 voxels, and 2 voxels could still be opened."));
    assert_eq!(lines[2], "Our own removals leave another body: 2 voxels are kept by the list alone, 0 by ours alone.");
}

/// A list from a coarse start is judged on that start, with the pins that it had.
#[test]
fn coarse_starts() {
    let list = folder("coarse-list").join("hopper.list");
    let (hopper, list) = (sample("hopper.grid"), path(&list).to_string());
    assert_eq!(status(&wattle(&["removals", "--coarse", path(&hopper), "-o", &list])), 0);
    let on_coarse = text(&answer(&["judge", "--coarse", path(&hopper), &list]));
    assert!(
        on_coarse.starts_with("hopper.list is accepted on hopper.grid: removals ") && on_coarse.contains("the same body"),
        "{on_coarse}"
    );
    assert_eq!(status(&wattle(&["judge", path(&hopper), &list])), 1, "a plain start has voxels that the list does not remove");

    let file = grid_file([8, 8, 8], 9, |x, y, z| if (3..5).contains(&x) && (y, z) == (3, 3) { -5 } else { 5 });
    let (sides, allowed, values) = read_values(&file).unwrap();
    let mut marks = vec![UNMARKED; 512];
    marks[438] = PINNED; // (6, 6, 6), in a block of its own, which is beyond the box of blocks
    marks[146] = PINNED;
    let pinned = removals(Grid::begin_coarse_marked(sides, allowed, &values, &marks).unwrap().0);
    assert_eq!(
        told(&file, &pinned, &["--coarse", "--pin", "2,2,2"]).1[0],
        "list is refused 33 on the standard input: a voxel still passes the local test at the list's end."
    );
}

#[test]
fn wrong_usage() {
    let line = |words: &[&str]| {
        let output = wattle_on(words, &case_d());
        (status(&output), text(&output.stderr))
    };
    assert_eq!(line(&["judge", "-"]), (2, "wattle: judge takes two files, not 1; see `wattle help judge`\n".to_string()));
    assert_eq!(
        line(&["judge", "-", "-"]),
        (2, "wattle: the grid and the list are both the standard input; give one of them as a file\n".to_string())
    );
    assert!(line(&["judge", "-", "no such list"]).1.starts_with("wattle: no such list cannot be read: "));
    assert_eq!(line(&["judge", "-", "list", "--hurry", "1"]).0, 2, "judge examines nothing");
    let refused = sample("refused.grid");
    let output = wattle(&["judge", path(&refused), path(&refused)]);
    assert_eq!((status(&output), text(&output.stderr).contains("refused.grid: refused 3: ")), (1, true));
}

/// 64 x 64 x 64 voxels: made and judged in seconds, where one examination a call takes minutes.
#[test]
fn the_largest_grid() {
    let sides = [64, 64, 64];
    let file = grid_file(sides, 0, sphere(sides, 30.0));
    let output = wattle_on(&["removals", "-"], &file);
    let mut grid = Grid::from_file(&file).unwrap();
    let judged = grid.judge(&output.stdout).expect("our own list is accepted");
    grid.carve_to_the_end().unwrap();
    assert_eq!((judged.removals, judged.euler), (grid.record().removals, grid.record().euler));
    assert!(judged.removals > 50_000);
}
