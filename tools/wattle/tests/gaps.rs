//! Gaps behind the face: how each command shows missing points that count as inside, and what explain says of the others.

use crate::common::{self, carved, path, status, text, wattle, wattle_on};

const SIDES: [usize; 3] = [14, 7, 7];

fn index([x, y, z]: [usize; 3]) -> usize {
    x + SIDES[0] * (y + SIDES[1] * z)
}

/// Voxels with their values.
type Changes<'a> = &'a [([usize; 3], i16)];

/// A wall of 5 x 5 x 5 voxels and, apart from it, a block of 3 x 3 x 3, with these values in them.
fn grid(changes: Changes) -> Vec<u8> {
    let within = |low: usize, p: usize, high: usize| low <= p && p <= high;
    common::grid_file(SIDES, 0, |x, y, z| match changes.iter().find(|(place, _)| *place == [x, y, z]) {
        Some((_, value)) => *value,
        None if within(1, x, 5) && within(1, y, 5) && within(1, z, 5) => -40,
        None if within(9, x, 11) && within(2, y, 4) && within(2, z, 4) => -10,
        None => 30,
    })
}

const MISSING: i16 = i16::MIN;
/// The middles of the wall and of the block.
const MIDDLE: [usize; 3] = [3, 3, 3];
const OF_THE_BLOCK: [usize; 3] = [10, 3, 3];

fn explained(file: &[u8]) -> String {
    let output = wattle_on(&["explain", "-"], file);
    assert_eq!(status(&output), 0);
    text(&output.stdout)
}

fn inside(points: &str, gaps: &str) -> String {
    format!("{points} as inside, in {gaps} behind the face, closed in by voxels measured negative.\n")
}

#[test]
fn explain_says_what_missing_points_count_as() {
    let cases: [(Changes, &[String]); 7] = [
        (&[], &[]),
        (&[(MIDDLE, MISSING)], &[inside("1 missing range point counts", "1 gap")]),
        (&[(MIDDLE, MISSING), ([3, 3, 4], MISSING), ([2, 2, 2], MISSING)], &[inside("3 missing range points count", "2 gaps")]),
        (
            &[(MIDDLE, MISSING), ([2, 3, 3], 0)],
            &[format!(
                "1 missing range point counts as outside, in 1 gap beside a voxel measured outside, such as (2, 3, 3), index {}, with 0.\n",
                index([2, 3, 3])
            )],
        ),
        (
            &[([3, 3, 5], MISSING), ([3, 3, 6], MISSING)],
            &["2 missing range points count as outside, in 1 gap at the grid's edge.\n".to_string()],
        ),
        (
            &[(OF_THE_BLOCK, MISSING)],
            &["1 missing range point counts as outside, in 1 gap among negative voxels that are not counted as inside.\n".to_string()],
        ),
        (
            &[
                (MIDDLE, MISSING),
                ([3, 5, 3], MISSING),
                ([1, 3, 3], MISSING),
                ([3, 3, 5], MISSING),
                ([3, 3, 6], MISSING),
                (OF_THE_BLOCK, MISSING),
            ],
            &[
                inside("1 missing range point counts", "1 gap"),
                format!(
                    "5 missing range points count as outside: 2 in 1 gap at the grid's edge; 2 in 2 gaps beside a voxel measured outside, \
                     such as (0, 3, 3), index {}, with 30; 1 in 1 gap among negative voxels that are not counted as inside.\n",
                    index([0, 3, 3])
                ),
            ],
        ),
    ];
    for (changes, due) in cases {
        let told = explained(&grid(changes));
        assert_eq!(told.matches("missing range point").count(), due.len(), "{told}");
        for sentence in due {
            assert!(told.contains(&format!("\n- {sentence}")), "{sentence} is not in {told}");
            let page = text(&wattle_on(&["page", "-"], &grid(changes)).stdout);
            assert!(page.contains(&format!("<li>{}</li>", sentence.trim_end())), "the page says it too");
        }
    }
}

/// How many missing points explain says to count as inside or outside: `- 24 missing range points count as outside: ..`.
fn counted(told: &str, what: &str) -> usize {
    let sentence =
        told.lines().map(|line| line.split(' ').collect::<Vec<_>>()).find(|words| words[2] == "missing" && words[7].starts_with(what));
    sentence.map_or(0, |words| words[1].parse().expect("a number"))
}

/// No missing point is left out, and those inside are as many as the library counts, on grids from seeds.
#[test]
fn explain_counts_every_missing_point() {
    let (mut seed, mut met) = (common::Seed(9), [0; 2]);
    for _ in 0..100 {
        let place = |seed: &mut common::Seed| [1 + seed.below(12), 1 + seed.below(5), 1 + seed.below(5)];
        let changes: Vec<_> = (0..30).map(|_| (place(&mut seed), [MISSING, MISSING, 0][seed.below(3)])).collect();
        let file = grid(&changes);
        let (told, body) = (explained(&file), carved(&file).expect("the grid is taken"));
        let [inside, outside] = ["inside", "outside"].map(|what| counted(&told, what));
        let missing = body.values.iter().filter(|&&v| v == wattlerugby::MISSING).count();
        assert_eq!((inside, inside + outside), (body.count(5), missing), "{told}");
        met = [met[0] + inside, met[1] + outside];
    }
    assert!(met[0] > 50 && met[1] > 50, "{met:?}");
}

#[test]
fn every_command_shows_it() {
    let folder = common::folder("gaps");
    let [gap, measured, open] = [("gap", MISSING, -40), ("measured", -1, -40), ("open", MISSING, 0)].map(|(name, value, beside)| {
        let file = folder.join(format!("{name}.grid"));
        std::fs::write(&file, grid(&[(MIDDLE, value), ([2, 3, 3], beside)])).unwrap();
        file
    });
    let said = |words: &[&str]| text(&wattle(words).stdout);
    let look = said(&["look", "--layer", "3", path(&gap)]);
    assert!(look.contains("   = gap counted as inside: 1   ") && look.contains("\n.##=##...---..\n"), "{look}");
    assert!(said(&["look", "--layer", "3", path(&measured)]).contains("\n.#####...---..\n"));
    assert!(said(&["look", "--layer", "3", path(&open)]).contains("\n.#o?##...---..\n"));
    let volume = |file| wattle(&["volume", "--nrrd", "--field", "kinds", path(file)]).stdout;
    let kind = |file| volume(file)[volume(file).len() - 14 * 7 * 7 + index(MIDDLE)];
    assert_eq!([kind(&gap), kind(&measured), kind(&open)], [5, 1, 3]);
    // where -1 was measured the result is the same, but for what was assumed
    let compared = said(&["compare", path(&gap), path(&measured)]);
    let place = format!("(3, 3, 3), index {}", index(MIDDLE));
    assert!(compared.contains(&format!("result: 1 of 686 voxels differ\n  {place}: gap counted as inside and inside\n")), "{compared}");
    assert!(!compared.contains("distances:") && !compared.contains("line of"), "{compared}");
    let compared = said(&["compare", path(&gap), path(&open)]);
    assert!(compared.contains(&format!("{place}: gap counted as inside and filled, and the range point is missing\n")), "{compared}");
    let points = |file, to: &str| {
        let told = said(&["points", to, path(file)]);
        told.lines().filter(|line| !line.starts_with("comment ")).map(str::to_string).collect::<Vec<_>>()
    };
    assert!(points(&gap, "--ply") == points(&measured, "--ply") && points(&gap, "--xyz").len() == 6 * 25);
    // what is handed on stays missing
    assert_eq!(wattle(&["rewrite", path(&gap)]).stdout, std::fs::read(&gap).unwrap());
    let help = said(&["help", "look"]) + &said(&["help", "volume"]);
    assert!(help.contains("  =  gap counted as inside   light blue") && help.contains("5 gap counted as inside"), "{help}");
}
