//! Which side a voxel came out by (document 02, CR 8): every set of bare faces, in the local test and by take, open and carve; which removal of a
//! carve it is that answers, and that a carve without one answers 6; that faces are those of the moment.

use super::marking::{index, listed, set};
use crate::faces::{place, ACROSS};
use crate::random::Random;

const FACES: std::ops::Range<usize> = 0..6;

/// The bare faces of a voxel, by their numbers.
type Bare = [bool; 6];

fn bare_at(faces: &[usize]) -> Bare {
    std::array::from_fn(|number| faces.contains(&number))
}

fn every_set() -> impl Iterator<Item = Bare> {
    (0..64).map(|bits: u8| std::array::from_fn(|number| bits >> number & 1 == 1))
}

/// Every step to a neighbour.
fn steps() -> impl Iterator<Item = [i64; 3]> {
    (0..27).filter(|&p| p != 13).map(|p| [p % 3, p / 3 % 3, p / 9].map(|digit| digit - 1))
}

/// The faces on whose side a neighbour lies: one, or two of an edge, three of a corner.
fn sides_of(step: [i64; 3]) -> Vec<usize> {
    FACES.filter(|&number| (0..3).any(|k| ACROSS[number][k] != 0 && ACROSS[number][k] == step[k])).collect()
}

/// Which neighbours are kept where these faces are bare.
type Around = fn(&Bare, [i64; 3]) -> bool;

/// Nothing is kept on the side of a bare face: so it is at the surface of a body.
fn body(bare: &Bare, step: [i64; 3]) -> bool {
    sides_of(step).iter().all(|&number| !bare[number])
}

/// All others are kept, so that no two bare faces meet.
fn full(bare: &Bare, step: [i64; 3]) -> bool {
    sides_of(step).len() > 1 || body(bare, step)
}

fn faces_alone(bare: &Bare, step: [i64; 3]) -> bool {
    sides_of(step).len() == 1 && body(bare, step)
}

fn with_edges(bare: &Bare, step: [i64; 3]) -> bool {
    sides_of(step).len() == 2 || faces_alone(bare, step)
}

fn with_corners(bare: &Bare, step: [i64; 3]) -> bool {
    sides_of(step).len() == 3 || faces_alone(bare, step)
}

// ---- the local test

fn blocks(what: &str, around: Around) -> String {
    let block = |bare: Bare| steps().filter(|&step| around(&bare, step)).fold(0_u32, |bits, step| bits | 1 << place(step));
    let lines = every_set().map(block).map(|bits| format!("local {bits:x}\nlocal {:x}\n", bits | 0xF800_2000));
    format!(
        "# every set of bare faces, {what}; the middle and the upper bits are not regarded\nautohash 0\n{}autohash 1\n",
        lines.collect::<String>()
    )
}

// ---- one voxel of a crafted record

/// Sides that differ, and a voxel whose neighbours are all within the border.
const SIDES: [usize; 3] = [6, 7, 5];
const VOXEL: [usize; 3] = [3, 4, 2];

fn at(sides: [usize; 3], voxel: [usize; 3], step: [i64; 3]) -> usize {
    index(sides, std::array::from_fn(|k| (voxel[k] as i64 + step[k]) as usize))
}

/// The counts of a record as begin leaves them: many states on one record would else bring them to their limits.
const COUNTS: &str = "rec openings 0\nrec removals 0\nrec examinations 0\nrec euler 1\n";

/// A fit record that begin did not make, with buffers for it.
fn record([a, b, c]: [usize; 3]) -> String {
    format!("sides {a} {b} {c}\nT 99\nrec a {a}\nrec b {b}\nrec c {c}\nrec T 99\n{COUNTS}rec finished 0\ndist fill 5\n")
}

/// Status bytes of which these voxels and what is around them is kept, the voxels themselves with a status of their own.
fn kept(sides: [usize; 3], voxels: &[([usize; 3], u8, Bare)], around: Around) -> Vec<u8> {
    let mut status = vec![0; sides.iter().product()];
    for &(voxel, own, bare) in voxels {
        steps().filter(|&step| around(&bare, step)).for_each(|step| status[at(sides, voxel, step)] = 1);
        status[index(sides, voxel)] = own;
    }
    status
}

/// Every set of bare faces, and each of these calls on its voxel, which is the farthest: what is gone beside it has distances too.
fn sets(what: &str, around: Around, calls: &[&str], beside: impl Fn(usize) -> usize) -> String {
    let voxel = index(SIDES, VOXEL);
    let mut text = format!("# every set of bare faces, {what}, by {}\n{}dist set {voxel} 90\n", calls.join(", "), record(SIDES));
    text += &FACES.map(|number| set("dist", at(SIDES, VOXEL, ACROSS[number]), beside(number))).collect::<String>();
    for bare in every_set() {
        text += COUNTS;
        for &call in calls {
            let (own, line) = match call {
                "take" => (1, format!("take {voxel}")),
                "carve" => (3, "carve 1".to_string()),
                _ => (1, call.to_string()),
            };
            text += &format!("{}{line}\n", listed("status", &kept(SIDES, &[(VOXEL, own, bare)], around)));
        }
    }
    text
}

/// One bare face by itself and two that meet: the lowest number decides, and not the larger group.
fn of_two_groups() -> String {
    let voxel = index(SIDES, VOXEL);
    let mut text = format!("# a bare face by itself, and two that meet\n{}dist set {voxel} 90\n", record(SIDES));
    for edge in steps().filter(|&step| sides_of(step).len() == 2) {
        let pair = sides_of(edge);
        for lone in FACES.filter(|number| !pair.contains(number)) {
            let bare = bare_at(&[lone, pair[0], pair[1]]);
            let kept: Vec<[i64; 3]> = steps().filter(|&step| full(&bare, step) && step != edge).collect();
            let mut status = vec![0; SIDES.iter().product()];
            kept.iter().for_each(|&step| status[at(SIDES, VOXEL, step)] = 1);
            status[voxel] = 1;
            let block = kept.iter().fold(0_u32, |bits, &step| bits | 1 << place(step));
            text += &format!("local {block:x}\n{COUNTS}{}open\n", listed("status", &status));
        }
    }
    text
}

/// A kept neighbour covers its face, whatever else it is.
fn covered() -> String {
    let voxel = index(SIDES, VOXEL);
    let mut text = "# a lower face is covered by what is pending, pinned, hurried, of distance 0, or in S\n".to_string();
    let covers: [fn(usize) -> String; 6] = [
        |i| set("status", i, 3),
        |i| set("marks", i, 1),
        |i| set("marks", i, 2),
        |i| set("status", i, 3) + &set("marks", i, 3),
        |i| set("dist", i, 0),
        |i| set("dist", i, -4),
    ];
    for number in 1..6 {
        let status = listed("status", &kept(SIDES, &[(VOXEL, 1, bare_at(&[number]))], body));
        for cover in covers {
            let lower: String = (0..number).map(|lower| cover(at(SIDES, VOXEL, ACROSS[lower]))).collect();
            let state = format!("{}dist set {voxel} 90\n{status}{lower}", record(SIDES));
            text += &format!("{state}take {voxel}\n{state}open\n{state}status set {voxel} 3\nmarks set {voxel} 2\ncarve 1\n");
        }
    }
    text
}

// ---- from begin

/// What is around the voxel is S, but for the side of one face.
fn begun(number: usize) -> String {
    let [a, b, c] = SIDES;
    let inside = steps().filter(|&step| body(&bare_at(&[number]), step)).map(|step| set("values", at(SIDES, VOXEL, step), -4));
    format!("sides {a} {b} {c}\nT 99\nvalues fill 6\n{}", inside.collect::<String>())
}

/// Open meets the voxel, which passes, as a pin was taken off.
fn from_begin() -> String {
    let voxel = index(SIDES, VOXEL);
    let mut text = "# each face from begin, by take, carve and open\n".to_string();
    for number in FACES {
        text += &format!("{}begin\ntake {voxel}\ncarve 9\nbegin\ncarve 1\ncarve 9\nbegin\ncarve 4294967295\n", begun(number));
        text += &format!("marks set {voxel} 1\nbegin\ncarve 9\nmarks set {voxel} 0\nopen\ncarve 9\nfinish\n");
    }
    text
}

/// A block of S with holes in it, each from the surface inwards; a voxel of a hole has its value for its distance.
fn block_with([a, b, c]: [usize; 3], hole: &[([usize; 3], i32)]) -> String {
    let border = |v: [usize; 3]| (0..3).any(|k| v[k] == 0 || v[k] == [a, b, c][k] - 1);
    let of_hole = |v: [usize; 3]| hole.iter().find(|(voxel, _)| *voxel == v).map(|(_, value)| *value);
    let value = |v: [usize; 3]| of_hole(v).unwrap_or(if border(v) { 4 } else { -4 });
    let values: Vec<i32> = (0..a * b * c).map(|i| value([i % a, i / a % b, i / (a * b)])).collect();
    format!("sides {a} {b} {c}\nT 99\n{}", listed("values", &values))
}

/// From begin, carves of every limit up to one that is too large.
fn of_every_limit(most: usize) -> String {
    (0..=most + 1).map(|limit| format!("begin\ncarve {limit}\ncarve 0\n")).collect()
}

const SEVEN: [usize; 3] = [7, 7, 7];

/// Three voxels from a face of the block to its middle, the outermost first.
fn hole(number: usize) -> [[usize; 3]; 3] {
    [2, 1, 0].map(|depth| std::array::from_fn(|k| (3 + depth * ACROSS[number][k]) as usize))
}

/// The inner voxels have no bare face at first.
fn holes() -> String {
    let mut text = "# a hole from each face of a block: what is further in has no bare face when the call begins\n".to_string();
    for number in FACES {
        let voxels = hole(number);
        text += &format!("{}{}", block_with(SEVEN, &voxels.map(|voxel| (voxel, 9))), of_every_limit(3));
        text += "begin\n";
        text += &voxels.map(|voxel| format!("take {}\ncarve 0\n", index(SEVEN, voxel))).concat();
    }
    text
}

/// From high z inwards, and around corners: every face is one that some voxel comes out by.
const WINDING: [[usize; 3]; 13] = [
    [2, 2, 8],
    [2, 2, 7],
    [3, 2, 7],
    [4, 2, 7],
    [4, 3, 7],
    [4, 4, 7],
    [3, 4, 7],
    [2, 4, 7],
    [2, 4, 6],
    [2, 4, 5],
    [2, 3, 5],
    [3, 3, 5],
    [3, 3, 6],
];

/// With falling distances each examination removes; with equal ones voxels are examined that do not pass yet.
fn winding() -> String {
    let sides = [7, 7, 10];
    let voxels = WINDING.map(|voxel| index(sides, voxel));
    let mut text = "# a winding hole: each voxel comes out by where the one before it was\n".to_string();
    let falling: Vec<([usize; 3], i32)> = WINDING.into_iter().zip((1..=30).rev()).collect();
    text += &block_with(sides, &falling);
    text += &of_every_limit(WINDING.len());
    text += &block_with(sides, &WINDING.map(|voxel| (voxel, 9)));
    text += &of_every_limit(2 * WINDING.len());
    text += &format!("begin\n{}begin\n{}", "carve 1\n".repeat(26), "carve 2\n".repeat(13));
    text += &format!("begin\n{}", voxels.map(|i| format!("take {i}\ncarve 0\n")).concat());
    text += &format!("marks fill 1\nbegin\ncarve 9\n{}", voxels.map(|i| format!("marks set {i} 0\nopen\ncarve 9\n")).concat());
    text + "finish\n"
}

/// By turns from one hole and the other, as their distances are.
fn two_holes() -> String {
    let mut text = "# two holes by turns: the last removal answers, and not the first, the lowest or the highest\n".to_string();
    for (one, other) in [(0, 1), (1, 0), (2, 5), (5, 2), (3, 4), (4, 3)] {
        // the outer two of each, so that the holes do not meet in the middle
        let voxels = |number: usize, first: i32| [0, 1].map(|depth| (hole(number)[depth], first - 2 * depth as i32));
        text += &block_with(SEVEN, &[voxels(one, 9), voxels(other, 8)].concat());
        text += &of_every_limit(4);
    }
    text
}

// ---- which examination of a carve

/// Two voxels whose neighbours are apart, the first of them examined first.
const APART: [usize; 3] = [9, 6, 5];
const FIRST: [usize; 3] = [2, 2, 2];
const SECOND: [usize; 3] = [6, 3, 2];

fn two_voxels(one: Bare, other: Bare) -> String {
    let (first, second) = (index(APART, FIRST), index(APART, SECOND));
    let status = kept(APART, &[(FIRST, 3, one), (SECOND, 3, other)], body);
    format!("{COUNTS}dist fill 5\nmarks fill 0\ndist set {first} 9\ndist set {second} 8\n{}", listed("status", &status))
}

/// Each face after each: both go, the one or the other is pinned, or the second does not pass.
fn pairs() -> String {
    let (first, second) = (index(APART, FIRST), index(APART, SECOND));
    let mut text = format!("# two examinations, each face after each: the last that removes\n{}", record(APART));
    for one in FACES {
        for other in FACES {
            let both = two_voxels(bare_at(&[one]), bare_at(&[other]));
            text += &format!("{both}carve 2\n{both}marks set {second} 1\ncarve 2\n");
            text += &format!("{both}marks set {first} 3\ncarve 2\nmarks set {second} 1\ncarve 1\n");
        }
        for other in [0, 2, 4] {
            text += &format!("{}carve 2\n", two_voxels(bare_at(&[one]), bare_at(&[other, other + 1])));
        }
    }
    text
}

/// A solid block, all pending, in the order of these distances: carves of every limit, each followed by one that examines nothing.
fn solid(what: &str, distances: &[i32], marks: &[u8]) -> String {
    let sides = [5, 5, 5];
    let by_turns = |i: usize, length: usize| (i % 5 + 3 * (i / 5 % 5) + 9 * (i / 25)) % length;
    let within = |i: usize| [i % 5, i / 5 % 5, i / 25].iter().all(|x| (1..4).contains(x));
    let dist: Vec<i32> = (0..125).map(|i| if within(i) { distances[by_turns(i, distances.len())] } else { 5 }).collect();
    let status: Vec<u8> = (0..125).map(|i| if !within(i) { 0 } else { [3, 1][usize::from(dist[i] < 0)] }).collect();
    let marks: Vec<u8> = (0..125).map(|i| marks[by_turns(i, marks.len())]).collect();
    let (status, mut text) = (COUNTS.to_string() + &listed("status", &status), format!("# {what}\n{}", record(sides)));
    text += &format!("{}{}", listed("dist", &dist), listed("marks", &marks));
    text += &(0..=28).map(|limit| format!("{status}carve {limit}\ncarve 0\n")).collect::<String>();
    text + &format!("{status}{}{status}carve 4294967295\ncarve 4294967295\nopen\ncarve 4294967295\n", "carve 1\n".repeat(30))
}

/// Every distance once, in an order by chance.
fn shuffled(seed: u64) -> [i32; 27] {
    let mut r = Random::new(seed);
    let mut distances = std::array::from_fn(|i| i as i32);
    (1..27).for_each(|i| distances.swap(i, r.below(i as u64 + 1) as usize));
    distances
}

fn blocks_carved() -> Vec<String> {
    vec![
        solid("a solid block in some order", &shuffled(1), &[0]),
        solid("a solid block in another order", &shuffled(2), &[0]),
        solid("a solid block by turns, some of it in S", &[4, 9, 1, -2, 7, 3, 8], &[0]),
        solid("a solid block in some order, pinned and hurried by turns", &shuffled(3), &[0, 1, 0, 2, 0, 0, 3]),
    ]
}

/// After each face a carve that removes nothing, for each reason, and after a take and an open.
fn none_removed() -> String {
    let voxel = index(SIDES, VOXEL);
    let mut text =
        "# after each face a carve that removes nothing: limit 0, nothing pending, a pinned voxel, one that does not pass\n".to_string();
    for number in FACES {
        let status = kept(SIDES, &[(VOXEL, 3, bare_at(&[number]))], body);
        text += &format!("{}{}", record(SIDES), listed("status", &status));
        // what is around it is in S, so that no removal wakes anything
        text += &(0..status.len()).filter(|&i| status[i] == 1).map(|i| set("dist", i, -5)).collect::<String>();
        text += &format!("carve 1\ncarve 0\ncarve 9\nstatus set {voxel} 3\ncarve 0\nmarks set {voxel} 1\ncarve 9\nmarks set {voxel} 0\n");
        text += &format!("take {voxel}\ncarve 9\nstatus set {voxel} 3\ncarve 0\ncarve 1\ncarve 1\nstatus set {voxel} 1\nopen\ncarve 9\n");
        text += &format!("status set {voxel} 1\nrec finished 1\ncarve 9\ntake {voxel}\nopen\nrec finished 0\ncarve 9\n");
        let opposite = at(SIDES, VOXEL, ACROSS[number ^ 1]);
        text += &format!(
            "dist set {opposite} 5\nstatus set {opposite} 0\nstatus set {voxel} 3\ncarve 9\ntake {voxel}\nopen\ncarve 0\ncarve 9\n"
        );
    }
    text
}

// ---- faces of the moment

/// Three in a row, the last of them in S, and so is what covers the faces of lower numbers: the second's lowest bare face is another one before the
/// first is gone.
fn rows() -> String {
    let sides = [5, 5, 5];
    let mut text = "# rows of three: what a removal lays bare counts for the next\n".to_string();
    for number in FACES {
        let axis = number / 2;
        let along = |i: usize| -> [usize; 3] { std::array::from_fn(|k| if k == axis { [i, 4 - i][number % 2] } else { 2 }) };
        let row = [1, 2, 3].map(along);
        let [first, second, third] = row.map(|voxel| index(sides, voxel));
        let walls = row.iter().flat_map(|&voxel| (0..2 * axis).map(move |lower| at(sides, voxel, ACROSS[lower])));
        let inside: Vec<usize> = walls.chain([third]).collect();
        let state = format!(
            "{COUNTS}status fill 0\n{}status set {first} 3\nstatus set {second} 3\n",
            inside.iter().map(|&i| set("status", i, 1)).collect::<String>()
        );
        text += &format!("{}dist set {first} 9\n{}", record(sides), inside.iter().map(|&i| set("dist", i, -5)).collect::<String>());
        text += &format!("{state}carve 1\ncarve 1\ncarve 1\n{state}carve 2\n{state}carve 9\n");
        text += &format!("{state}take {second}\ntake {first}\ntake {second}\n");
        text += &format!("{state}status set {first} 1\nstatus set {second} 1\nopen\ncarve 0\ncarve 9\n");
    }
    text
}

/// Thin grids, in which every voxel that is kept has the border on two sides or more.
fn beside_the_border() -> String {
    let mut text = "# voxels beside the border, and one with no neighbour\n".to_string();
    for sides in [[3, 3, 3], [3, 3, 5], [3, 5, 3], [5, 3, 3]] {
        let border = |v: [usize; 3]| (0..3).any(|k| v[k] == 0 || v[k] == sides[k] - 1);
        let all = 0..sides.iter().product::<usize>();
        let within: Vec<usize> = all.filter(|i| !border([i % sides[0], i / sides[0] % sides[1], i / (sides[0] * sides[1])])).collect();
        for farthest in &within {
            let kept: String = within.iter().map(|&i| set("status", i, 1)).collect();
            text += &format!("{}status fill 0\n{kept}dist set {farthest} 9\nopen\ncarve 9\nopen\ncarve 9\nopen\n", record(sides));
        }
    }
    text
}

/// Every face is bare, and the voxel passes.
fn hanging() -> String {
    let voxel = index(SIDES, VOXEL);
    let mut text = format!("# a voxel that hangs by an edge or a corner\n{}", record(SIDES));
    for step in steps().filter(|&step| sides_of(step).len() > 1) {
        let state = format!("{COUNTS}status fill 0\nstatus set {} 1\n", at(SIDES, VOXEL, step));
        text += &format!("{state}status set {voxel} 1\ntake {voxel}\n{state}status set {voxel} 3\ncarve 1\n");
    }
    text
}

pub fn scripts() -> Vec<String> {
    let mut scripts = vec![
        blocks("nothing kept on the side of one", body),
        blocks("all others kept", full),
        blocks("faces alone kept", faces_alone),
        blocks("and all edges kept", with_edges),
        blocks("and all corners kept", with_corners),
        sets("at the surface of a body", body, &["take", "carve", "open"], |number| 10 + number),
        sets("all others kept", full, &["take", "open"], |number| 20 - number),
        sets("faces alone kept", faces_alone, &["take", "open"], |_| 5),
    ];
    scripts.extend([of_two_groups(), covered(), from_begin(), holes(), winding(), two_holes(), pairs()]);
    scripts.extend(blocks_carved());
    scripts.extend([none_removed(), rows(), beside_the_border(), hanging()]);
    scripts
}
