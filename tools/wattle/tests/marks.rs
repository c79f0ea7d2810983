//! Pins and hurries: what the options take, how each command shows what is pinned, and what is said of marks that do nothing.

use crate::common::{self, path, sample, status, text, wattle, wattle_on};
use wattlerugby::{Grid, Sides, GONE, HURRIED, PINNED, UNMARKED};

/// A ring of eight voxels around an empty one, in the middle layer of 5 x 5 x 3; and T.
fn ring(allowed: u16) -> Vec<u8> {
    common::grid_file([5, 5, 3], allowed, |x, y, z| match (x, y, z) {
        (2, 2, 1) => 4,
        (1..=3, 1..=3, 1) => -4,
        _ => 4,
    })
}

/// A bow in the middle layer of 7 x 6 x 3, open towards low y; and T.
fn bow(allowed: u16) -> Vec<u8> {
    common::grid_file([7, 6, 3], allowed, |x, y, z| match (x, y, z) {
        (1..=5, 4, 1) | (1, 1..=4, 1) | (5, 1..=4, 1) => -4,
        _ => 4,
    })
}

fn said(words: &[&str], file: &[u8]) -> String {
    let output = wattle_on(words, file);
    assert_eq!((status(&output), text(&output.stderr).as_str()), (0, ""), "{words:?}");
    text(&output.stdout)
}

fn line(words: &[&str], file: &[u8]) -> String {
    said(&[&["carve", "-"], words].concat(), file)
}

#[test]
fn a_pin_holds_a_voxel() {
    assert_eq!(line(&[], &ring(2)), "kept 8 removed 1 opened 1 examined 1 euler 0\n");
    for pin in ["2,2,1", "37"] {
        assert_eq!(line(&["--pin", pin], &ring(2)), "kept 9 removed 0 opened 0 examined 0 euler 1\n");
    }
    // between the bow's ends a voxel that is held hangs free, once what joins it to the rest is opened
    assert_eq!(line(&["--large"], &bow(0)), "kept 11 removed 9 opened 0 examined 9 euler 1\n");
    assert_eq!(line(&["--pin", "3,2,1"], &bow(9)), "kept 12 removed 8 opened 1 examined 8 euler 2\n");
}

/// Of a voxel that is given to both the pin alone counts, in whichever order: what is printed is what it is with the pin alone, but for the
/// title, which counts what was asked for, and for a note on the hurry.
#[test]
fn a_pin_counts_before_a_hurry() {
    let note = "1 of 1 hurried voxels is without effect: 1 pinned too, where the pin alone counts, such as (2, 2, 1), index 37.";
    let (file, pin) = (ring(2), ["--pin", "2,2,1"]);
    let titled = |text: String| text.replace(", 1 pinned, 1 hurried", ", 1 pinned");
    for both in [["--pin", "2,2,1", "--hurry", "37"], ["--hurry", "2,2,1", "--pin", "37"]] {
        for command in ["carve", "list", "points", "volume", "look"] {
            let [both, alone] = [&both[..], &pin].map(|marks| wattle_on(&[&[command, "-"], marks].concat(), &file));
            assert_eq!((status(&both), text(&both.stderr)), (0, format!("wattle: note: {note}\n")), "{command}");
            let same = both.stdout == alone.stdout || command == "look" && titled(text(&both.stdout)) == text(&alone.stdout);
            assert!(same, "{command}");
        }
        let [explained, alone] = [&both[..], &pin].map(|marks| said(&[&["explain", "-"], marks].concat(), &file));
        assert!(explained.contains(&format!("- {note}\n")), "{explained}");
        assert_eq!(titled(explained).replace(&format!("- {note}\n"), ""), alone);
        // of a page the part that is drawn from: the picture in it has the title
        let [page, alone] = [&both[..], &pin].map(|marks| said(&[&["page", "-"], marks].concat(), &file));
        assert!(page.contains(&format!("<li>{note}</li>\n")) && page.contains("</code> pinned: 1</li>"));
        assert!(page.split_once("<script").unwrap().1 == alone.split_once("<script").unwrap().1);
    }
    assert_eq!(line(&pin, &file), "kept 9 removed 0 opened 0 examined 0 euler 1\n");
    for command in ["look", "explain", "list", "points", "volume", "page", "carve"] {
        let help = said(&["help", command], &[]);
        assert!(help.contains("Of a voxel that is given to both the pin alone counts"), "{help}");
    }
}

/// What the library makes of the same marks: of hurries by chance, on noise.
#[test]
fn marks_are_what_the_library_is_lent() {
    let mut seed = common::Seed(4);
    let folder = common::folder("marks-lent");
    let mut unlike = 0;
    for round in 0..20 {
        let values: Vec<i16> = (0..9 * 8 * 7).map(|_| seed.below(60) as i16 - 20).collect();
        let inner = |p: usize, side: usize| 0 < p && p + 1 < side;
        let value = |x, y, z| if inner(x, 9) && inner(y, 8) && inner(z, 7) { values[x + 9 * (y + 8 * z)] } else { 40 };
        let file = common::grid_file([9, 8, 7], 5, value);
        let mut marks = vec![UNMARKED; 9 * 8 * 7];
        let (mut pins, mut hurries) = (String::from("# by chance\n\n"), Vec::new());
        for _ in 0..40 {
            let i = seed.below(marks.len());
            if seed.below(2) == 0 {
                pins += &format!("{}{}\n", ["", "  "][seed.below(2)], [i.to_string(), place(i)][seed.below(2)]);
                marks[i] |= PINNED;
            } else {
                hurries.extend(["--hurry".to_string(), place(i)]);
                marks[i] |= HURRIED;
            }
        }
        let list = folder.join(format!("{round}.pins"));
        std::fs::write(&list, pins).unwrap();
        let all: Vec<i32> = (0..marks.len()).map(|i| i32::from(value(i % 9, i / 9 % 8, i / 72))).collect();
        let mut grid = Grid::begin_marked(Sides { a: 9, b: 8, c: 7 }, 5, &all, &marks).expect("the grid is taken");
        grid.carve_to_the_end().expect("a begun grid is carved");
        let (kept, r) = (grid.status().iter().filter(|&&s| s != GONE).count(), grid.record());
        let due = format!("kept {kept} removed {} opened {} examined {} euler {}\n", r.removals, r.openings, r.examinations, r.euler);
        let pin = format!("@{}", path(&list));
        let words: Vec<&str> = ["carve", "-", "--pin", &pin].into_iter().chain(hurries.iter().map(String::as_str)).collect();
        let output = wattle_on(&words, &file);
        assert_eq!((status(&output), text(&output.stdout)), (0, due.clone()));
        unlike += usize::from(due != line(&[], &file));
    }
    assert!(unlike > 10, "marks change {unlike} of 20 lines");
}

fn place(i: usize) -> String {
    format!("{},{},{}", i % 9, i / 9 % 8, i / 72)
}

#[test]
fn every_command_shows_it() {
    let file = ring(2);
    let look = said(&["look", "-", "--pin", "2,2,1", "--layer", "1"], &file);
    assert!(look.starts_with("the standard input: 5 x 5 x 3, T = 2 openings allowed, 1 pinned\n"), "{look}");
    assert!(look.contains("   * pinned: 1   o filled: 0   ") && look.contains("\n.#*#.\n"), "{look}");
    let both = text(&wattle_on(&["look", "-", "--pin", "37", "--hurry", "37"], &file).stdout);
    assert!(both.starts_with("the standard input: 5 x 5 x 3, T = 2 openings allowed, 1 pinned, 1 hurried\n"), "{both}");
    let plain = said(&["look", "-"], &file);
    assert!(plain.starts_with("the standard input: 5 x 5 x 3, T = 2 openings allowed\n") && !plain.contains("pinned"), "{plain}");

    let [_, picture] = common::png::parse(&wattle_on(&["look", "--png", "-", "--pin", "37"], &file).stdout).halves();
    assert_eq!(picture.count([0, 0, 0]), 7 * 7, "one voxel of 8 pixels, with a line between");
    assert!(picture.description.contains("#000000 pinned"), "{}", picture.description);
    assert_eq!(common::png::parse(&wattle_on(&["look", "--png", "-"], &file).stdout).count([0, 0, 0]), 0);

    let volume = wattle_on(&["volume", "--nrrd", "--field", "kinds", "-", "--pin", "37"], &file).stdout;
    let kinds = &volume[volume.len() - 75..];
    assert_eq!((kinds[37], kinds.iter().filter(|&&k| k == 6).count(), kinds.iter().filter(|&&k| k == 1).count()), (6, 1, 8));

    let ply = said(&["points", "--ply", "-", "--pin", "37"], &file);
    let black: Vec<&str> = ply.lines().filter(|line| line.ends_with(" 0 0 0 0")).collect();
    assert_eq!(black, ["2 2 0.6 0 0 0 0", "2 2 1.4 0 0 0 0"], "below and above, and assumed");

    let page = said(&["page", "-", "--pin", "37"], &file);
    assert!(page.contains("<title>the standard input: 5 x 5 x 3, T = 2 openings allowed, 1 pinned</title>"), "{}", &page[..400]);
    assert!(
        page.contains("--k6: #000000;")
            && page.contains("var(--k6)\"></span><code>*</code> pinned: 1</li>")
            && page.contains("<li>1 voxel was pinned: ")
    );
    assert!(!said(&["page", "-"], &file).contains("</code> pinned"));
}

#[test]
fn explain_says_what_pins_change() {
    let told = |file: &[u8], pins: &[&str]| {
        let words: Vec<&str> = ["explain", "-"].into_iter().chain(pins.iter().flat_map(|pin| ["--pin", pin])).collect();
        said(&words, file)
    };
    let held = "- 1 voxel was pinned: kept in the body, though not measured inside.\n- Nothing else was filled.\n";
    let free = "- Were openings allowed freely, the body would have no tunnel, with what is pinned.\n";
    let ring_held = told(&ring(2), &["37"]);
    let left = "- The body is in one piece, without a tunnel, and nothing is left to open but what is pinned (15).\n";
    assert!(ring_held.contains(&format!("{left}{free}{held}")), "{ring_held}");
    assert!(!ring_held.contains("the scan is closed"), "the pin closes it");
    let closed = told(&ring(0), &["37"]);
    assert!(closed.contains(&format!("without a tunnel, and nothing is left to open but what is pinned.\n{free}{held}")), "{closed}");
    assert!(told(&ring(0), &[]).contains("- 1 voxel was filled: kept"));
    let free = told(&bow(9), &["3,2,1"]);
    let pieces = "- The body is in 2 pieces, without a tunnel, and nothing is left to open but what is pinned (15).\n";
    assert!(free.contains(pieces), "{free}");
    // one that is kept anyway changes nothing of what is said
    let inside = told(&ring(2), &["1,1,1"]);
    assert!(inside.contains("- The body is in one piece, with 1 tunnel, and nothing is left to open (15).\n"), "{inside}");
}

#[test]
fn marks_that_do_nothing() {
    let file = ring(2);
    let cases: [(&[&str], &[&str]); 6] = [
        (&["--pin", "37"], &[]),
        (&["--pin", "1,1,1"], &["1 of 1 pinned voxels is without effect: 1 inside, where all is kept, such as (1, 1, 1), index 31."]),
        (
            &["--pin", "0,0,0", "--pin", "74", "--pin", "37"],
            &["2 of 3 pinned voxels are without effect: 2 outside the box around the inside, where all is gone, such as (0, 0, 0), index 0."],
        ),
        (
            &["--hurry", "12", "--hurry", "31"],
            &["2 of 2 hurried voxels are without effect: 1 inside, where all is kept, such as (1, 1, 1), index 31; 1 outside the box around the \
               inside, where all is gone, such as (2, 2, 0), index 12."],
        ),
        (
            &["--hurry", "12", "--hurry", "31", "--hurry", "37", "--pin", "37"],
            &["3 of 3 hurried voxels are without effect: 1 inside, where all is kept, such as (1, 1, 1), index 31; 1 outside the box around the \
               inside, where all is gone, such as (2, 2, 0), index 12; 1 pinned too, where the pin alone counts, such as (2, 2, 1), index 37."],
        ),
        (
            &["--hurry", "0", "--pin", "0"],
            &[
                "1 of 1 pinned voxels is without effect: 1 outside the box around the inside, where all is gone, such as (0, 0, 0), index 0.",
                "1 of 1 hurried voxels is without effect: 1 outside the box around the inside, where all is gone, such as (0, 0, 0), index 0.",
            ],
        ),
    ];
    for (words, notes) in cases {
        let lines: String = notes.iter().map(|note| format!("wattle: note: {note}\n")).collect();
        for command in ["look", "carve", "points", "volume"] {
            let output = wattle_on(&[&[command, "-"], words].concat(), &file);
            assert_eq!((status(&output), text(&output.stderr)), (0, lines.clone()), "{command} {words:?}");
        }
        let explained = said(&[&["explain", "-"], words].concat(), &file);
        let page = said(&[&["page", "-"], words].concat(), &file);
        assert!(
            notes.iter().all(|note| explained.contains(&format!("- {note}\n")) && page.contains(&format!("<li>{note}</li>"))),
            "{explained}"
        );
        assert_eq!(explained.matches("without effect").count(), notes.len());
    }
}

#[test]
fn what_is_no_voxel() {
    let folder = common::folder("marks-wrong");
    let list = folder.join("some.pins");
    std::fs::write(&list, "# pins\n2,2,1\n\n2,2\n").unwrap();
    let (file, in_list) = (ring(2), format!("@{}", path(&list)));
    let due = |option: &str, word: &str| format!("{option} takes a voxel as X,Y,Z or as an index, not {word}; see `wattle help look`");
    let beyond = |word: &str| format!("voxel {word} lies beyond the grid of 5 x 5 x 3 voxels, with indices 0 to 74");
    for option in ["--pin", "--hurry"] {
        let cases = [
            ("x".to_string(), due(option, "x")),
            ("1,2".to_string(), due(option, "1,2")),
            ("1,2,-1".to_string(), due(option, "1,2,-1")),
            (String::new(), due(option, "")),
            ("75".to_string(), beyond("75")),
            ("5,0,0".to_string(), beyond("5,0,0")),
            ("0,0,18446744073709551616".to_string(), due(option, "0,0,18446744073709551616")),
            (in_list.clone(), format!("{}, line 4: {}", path(&list), due(option, "2,2"))),
            ("@".to_string(), " cannot be read: No such file or directory (os error 2)".to_string()),
        ];
        for (word, line) in cases {
            let output = wattle_on(&["look", "-", option, &word], &file);
            assert_eq!((status(&output), text(&output.stderr), output.stdout.len()), (2, format!("wattle: {line}\n"), 0));
        }
        let output = wattle(&["look", path(&sample("sphere.grid")), option]);
        assert_eq!((status(&output), text(&output.stderr)), (2, format!("wattle: {option} needs a word after it\n")));
    }
    // a grid that is refused is refused first where it cannot be read, and with its number where it can
    assert_eq!(status(&wattle_on(&["look", "-", "--pin", "x"], b"VH")), 1);
    assert_eq!(status(&wattle(&["carve", path(&sample("refused.grid")), "--pin", "0"])), 1);
    for command in ["compare", "patch", "rewrite"] {
        let grid = sample("sphere.grid");
        let output = wattle(&[command, path(&grid), path(&grid), "--pin", "0"]);
        assert_eq!(
            (status(&output), text(&output.stderr)),
            (2, format!("wattle: {command} has no option --pin; see `wattle help {command}`\n"))
        );
    }
}
