//! Lists of removals (document 02, CR 11): such as this machine could have made, in any order of distances, and what is wrong with others: cut off, doubled,
//! in another order, with another mark or index, with removals that break each clause of 32, and such as end where a voxel still passes. The kind
//! `removals` has those from seeds.

use super::marking::{cage, index, plate, BOX};
use super::refusals::{at, with, Subject, FINISHED, PAIR, RING, SHELL, UNFIT_PAIR};
use super::Maker;
use crate::files::hex;
use crate::grids::{coarse, grid, Grid};
use crate::judged::Body;
use crate::marks::{BOTH, HURRIED, PINNED, UNMARKED};
use crate::random::Random;
use crate::records::{removal, OPENING, ORDINARY};
use reference::calls::REFERENCE;
use reference::grid::{begin, Sides};
use reference::replay::{Replay, Slot};

type List = Vec<Vec<u8>>;

fn go(i: usize) -> Vec<u8> {
    removal(ORDINARY, i as u32)
}

fn opened(i: usize) -> Vec<u8> {
    removal(OPENING, i as u32)
}

fn judge(list: &[Vec<u8>]) -> String {
    format!("judge {}", hex(&list.concat())).trim_end().to_string() + "\n"
}

/// What the reference has after some lines.
fn played(lines: &str) -> Replay {
    let mut state = Replay::new(REFERENCE);
    lines.lines().for_each(|line| drop(state.line(line).expect("a line of the language")));
    state
}

/// In which order a list takes what may go.
#[derive(Clone, Copy)]
enum Order {
    Farthest,
    Nearest,
    Any,
}

impl Order {
    fn pick(self, r: &mut Random, dist: &[i32], from: &[usize]) -> usize {
        match self {
            Order::Farthest => from.iter().copied().rev().max_by_key(|&i| dist[i]),
            Order::Nearest => from.iter().copied().min_by_key(|&i| dist[i]),
            Order::Any => None,
        }
        .unwrap_or_else(|| r.pick(from))
    }
}

/// A list that keeps the rules, with at most so many openings.
fn kept_rules(body: &Body, r: &mut Random, order: Order, openings: usize) -> List {
    let (mut body, mut list, mut left) = (body.clone(), List::new(), openings);
    loop {
        let passing: Vec<usize> = body.outside().filter(|&i| body.passes(i)).collect();
        let bare: Vec<usize> = body.outside().filter(|&i| body.bare(i)).collect();
        let i = match (&passing[..], &bare[..]) {
            ([], []) => return list,
            ([], _) if left == 0 => return list,
            ([], from) => {
                left -= 1;
                let i = order.pick(r, body.dist, from);
                list.push(opened(i));
                i
            }
            (from, _) => {
                let i = order.pick(r, body.dist, from);
                list.push(go(i));
                i
            }
        };
        body.status[i] = 0;
    }
}

fn body_of(state: &Slot) -> Body<'_> {
    Body { sides: state.record.sides, dist: &state.dist, status: state.status.clone() }
}

/// Such a list after some lines, as far as T lets it go.
fn list_after(lines: &str, seed: u64, order: Order) -> List {
    let state = played(lines);
    kept_rules(&body_of(&state), &mut Random::new(seed), order, state.record.t.into())
}

/// A body full of holes, the same for a seed.
fn sponge(seed: u64, allowed: u16) -> String {
    let (mut r, sides) = (Random::new(seed), Sides { a: 6, b: 5, c: 5 });
    let value = |i: usize| {
        let size = r.between(0, 9);
        if !sides.border(i) && r.chance(60) {
            -1 - size
        } else {
            size
        }
    };
    let values: Vec<String> = (0..sides.n()).map(value).map(|value| value.to_string()).collect();
    format!("sides 6 5 5\nT {allowed}\nvalues list {}\nbegin\n", values.join(" "))
}

/// A plate in one layer with holes of one to four voxels and a corner cut off: behind each opening the rest of its hole passes.
fn slots(allowed: u16) -> String {
    let sides = [11, 7, 3];
    let open = [[2, 2], [4, 2], [4, 3], [6, 2], [6, 3], [6, 4], [8, 3], [9, 3], [2, 4], [3, 4], [9, 5], [8, 5], [9, 4]];
    let value = |i: usize| match [i % 11, i / 11 % 7, i / 77] {
        [x, y, 1] if (1..10).contains(&x) && (1..6).contains(&y) && !open.contains(&[x, y]) => -3,
        [x, y, _] => 4 + (x * y) as i32 % 5,
    };
    let values: Vec<String> = (0..sides.iter().product()).map(value).map(|value| value.to_string()).collect();
    format!("sides 11 7 3\nT {allowed}\nvalues list {}\nbegin\n", values.join(" "))
}

fn grids() -> Vec<(&'static str, String)> {
    vec![
        ("a plate with slots", slots(9)),
        ("a plate with slots, T of 2", slots(2)),
        ("a pair", format!("{PAIR}begin\n")),
        ("a ring", format!("{RING}begin\n")),
        ("a ring, T of 0", format!("{RING}T 0\nbegin\n")),
        ("a box with S along its edges", format!("{BOX}begin\n")),
        ("a cage", format!("{}begin\n", cage())),
        ("a plate with three holes", plate(3)),
        ("a shell", SHELL.to_string()),
        ("a body full of holes", sponge(1, 9)),
        ("another, T of 1", sponge(2, 1)),
        ("another, T of 0", sponge(3, 0)),
        ("another, T of 65535", sponge(4, 65535)),
    ]
}

// ---- lists that keep the rules

/// By the order of distances, against it, and in any order; then the machine's own calls, as if nothing had been judged.
fn of_grids() -> Vec<String> {
    let each = |(what, lines): (&str, String)| {
        let mut text = format!("# {what}: lists that keep the rules, and the record and both buffers stay\n{lines}judge\n");
        text += &[(Order::Farthest, 0), (Order::Nearest, 0), (Order::Any, 1), (Order::Any, 2)]
            .map(|(order, seed)| judge(&list_after(&lines, seed, order)))
            .concat();
        text + "rec show 0\ndump status\ndump dist\ncarve 1\njudge\ncarve 4294967295\njudge\nopen\njudge\ncarve 4294967295\njudge\nfinish\njudge\n"
    };
    grids().into_iter().map(each).collect()
}

/// The list goes on where the machine is: what it has taken is left out, one by one.
fn after_takes() -> String {
    let mut text = "# after takes and openings: what is left of a list, and the whole of it\n".to_string();
    for lines in [sponge(1, 9), format!("{BOX}begin\n"), slots(5)] {
        let list = list_after(&lines, 3, Order::Any);
        text += &lines;
        for (at, record) in list.iter().enumerate().take(9) {
            let i = u32::from_le_bytes([record[2], record[3], record[4], record[5]]);
            text += &format!("{}{}", judge(&list[at..]), judge(&list));
            text += &if record[1] == OPENING { "carve 4294967295\nopen\n".to_string() } else { format!("take {i}\n") };
        }
        text += "rec show 0\ncarve 4294967295\njudge\n";
    }
    text
}

/// Counts of the record are looked at by number 7 alone.
fn own_counts() -> String {
    let mut text = "# the record's own counts do not count, its T does\n".to_string();
    for lines in [plate(2), slots(2), format!("{RING}begin\n")] {
        let list = list_after(&lines, 0, Order::Nearest);
        let n = played(&lines).status.len();
        for (openings, removals, euler) in [(0, 0, 1), (1, 1, 0), (1, 9, -5), (1, n, 8 * n as i64), (1, n, -8 * n as i64), (0, 3, 2)] {
            text += &lines;
            text += &format!("rec openings {openings}\nrec removals {removals}\nrec examinations {}\nrec euler {euler}\n", 27 * n);
            text += &format!("{}{}judge\nrec show 0\n", judge(&list), judge(&list[..1]));
        }
        for t in [0, 1, 2, 3, 255, 256, 65535] {
            text += &format!("{lines}rec openings 0\nrec T {t}\n{}rec openings {t}\n{}judge\n", judge(&list), judge(&list));
        }
    }
    text
}

/// Pending bytes and marks are read by no clause.
fn pending_and_marks() -> Vec<String> {
    let mut pending = "# pending or not, the answers are the same\n".to_string();
    let mut marks = "# marks of any number and of any byte, and pins: no list is the worse for them\n".to_string();
    for lines in [sponge(1, 9), format!("{BOX}begin\n"), plate(3), slots(5)] {
        let (list, state) = (list_after(&lines, 5, Order::Any), played(&lines));
        let outside: Vec<usize> = body_of(&state).outside().collect();
        let half = judge(&list[..list.len() / 2]);
        for statuses in [[1, 1], [3, 3], [1, 3], [3, 1]] {
            let set: String = outside.iter().map(|&i| format!("status set {i} {}\n", statuses[i % 2])).collect();
            pending += &format!("{lines}{set}judge\n{}{half}dump status\n", judge(&list));
        }
        marks += &lines;
        for mark in [PINNED, HURRIED, BOTH, UNMARKED, 4, 255] {
            marks += &format!("marks fill {mark}\njudge\n{}{half}", judge(&list));
        }
        let n = state.status.len();
        for length in [0, n - 1, n + 1] {
            marks += &format!("marks len {length}\njudge\n{}", judge(&list));
        }
        marks += &format!("marks len {n}\nmarks fill 1\nbegin\njudge\n{}carve 9\njudge\n{}", judge(&list), judge(&list));
    }
    vec![pending, marks]
}

/// S is told by distances; a voxel of distance 0 is outside.
fn distances() -> String {
    let mut text = "# distances at their ends: 0 is outside, and below it is S\n".to_string();
    let list = [go(32), go(37)];
    for d in [0, 1, i32::MAX, -1, i32::MIN] {
        text += &format!("{PAIR}begin\nstatus set 32 1\ndist set 32 {d}\n{}{}judge\n{}", judge(&list), judge(&list[1..]), judge(&[go(32)]));
    }
    for [near, far] in [[0, i32::MAX], [i32::MAX, 0], [7, 7]] {
        let (one, other) = (judge(&list), judge(&[go(37), go(32)]));
        text += &format!("{PAIR}begin\ndist set 32 {near}\ndist set 37 {far}\n{one}{other}");
        let holes = [opened(65), opened(67), opened(69)];
        text += &format!(
            "{}dist set 65 {near}\ndist set 67 {far}\n{}{}",
            plate(3),
            judge(&holes),
            judge(&[opened(69), opened(67), opened(65)])
        );
    }
    text
}

/// A body with few blocks left, from a coarse start.
fn after_coarse() -> String {
    let mut text = "# after a coarse start\n".to_string();
    for seed in [1, 5, 9, 13] {
        let g = coarse(&mut Random::new(seed), 8);
        let [a, b, c] = g.sides;
        let values: Vec<String> = g.values.iter().map(i32::to_string).collect();
        for start in ["begincoarse", "begin"] {
            let lines = format!("sides {a} {b} {c}\nT 2\nvalues list {}\n{start}\n", values.join(" "));
            let list = list_after(&lines, seed, Order::Any);
            text += &format!("{lines}judge\n{}{}carve 4294967295\njudge\n", judge(&list), judge(&list[..list.len() / 2]));
        }
    }
    text
}

// ---- lists that do not

fn cut_off() -> Vec<String> {
    let mut records = "# cut off behind each record\n".to_string();
    let mut bytes = "# cut off within a record, after none, one, some and all others\n".to_string();
    for lines in [format!("{BOX}begin\n"), format!("{}begin\n", cage()), sponge(4, 3), plate(2), slots(4)] {
        let list = list_after(&lines, 7, Order::Any);
        records += &lines;
        records += &(0..list.len()).map(|at| judge(&list[..at])).collect::<String>();
        bytes += &lines;
        for at in [0, 1, list.len() / 2, list.len() - 1] {
            let cut = |left: usize| judge(&[&list[..at], &[list[at][..left].to_vec()]].concat());
            bytes += &(1..6).map(cut).collect::<String>();
        }
        for left in [vec![0], vec![0x56], vec![0x56, 0x52], vec![0x57, 0, 0], vec![0xFF; 5], vec![0x56, 0x4F, 0, 0, 0]] {
            bytes += &judge(&[&list[..], &[left]].concat());
        }
    }
    vec![records, bytes]
}

/// Records twice, whole lists twice, neighbours exchanged, one left out, one more behind.
fn other_orders() -> Vec<String> {
    let mut doubled = "# a record twice in a row, the first one again at the end, and the whole list again\n".to_string();
    let mut exchanged = "# two records exchanged, one left out, and the list from its end\n".to_string();
    for lines in [format!("{BOX}begin\n"), slots(4), plate(3)] {
        let list = list_after(&lines, 11, Order::Any);
        (doubled, exchanged) = (doubled + &lines, exchanged + &lines);
        for at in 0..list.len() {
            doubled += &judge(&[&list[..=at], &list[at..]].concat());
            let mut other = list.clone();
            other.swap(at, (at + 1) % list.len());
            exchanged += &judge(&other);
            other = list.clone();
            other.remove(at);
            exchanged += &judge(&other);
        }
        doubled += &format!("{}{}", judge(&[&list[..], &list[..1]].concat()), judge(&[&list[..], &list[..]].concat()));
        exchanged += &judge(&list.iter().rev().cloned().collect::<Vec<_>>());
    }
    vec![doubled, exchanged]
}

fn other_marks() -> Vec<String> {
    let lines = format!("{PAIR}begin\n");
    let list = |first: u8, second: u8, at: usize| {
        let mut list = vec![go(32), go(37)];
        (list[at][0], list[at][1]) = (first, second);
        judge(&list)
    };
    let all = |what: &str, mark: &dyn Fn(u8) -> (u8, u8)| {
        let each = (0..=255).map(mark).map(|(first, second)| list(first, second, usize::from(second % 2))).collect::<String>();
        format!("# every {what} byte of a mark\n{lines}{each}")
    };
    let mut kinds = "# each record of the other kind, and marks that other files have\n".to_string();
    for lines in [format!("{BOX}begin\n"), sponge(1, 9), slots(4), format!("{RING}begin\n")] {
        let list = list_after(&lines, 13, Order::Any);
        kinds += &lines;
        for at in 0..list.len() {
            let mut other = list.clone();
            other[at][1] = if other[at][1] == OPENING { ORDINARY } else { OPENING };
            kinds += &judge(&other);
        }
        for second in [0x48, 0x4C, 0x57, 0x50, 0x4E, 0x51, 0x53, 0x72, 0x6F] {
            let mut other = list.clone();
            other[list.len() / 2][1] = second;
            kinds += &judge(&other);
        }
    }
    vec![all("first", &|byte| (byte, ORDINARY)), all("second", &|byte| (0x56, byte)), kinds]
}

/// n and beyond, first of all and behind good records; the bytes of a good index the other way about.
fn other_indices() -> String {
    let mut text = "# indices of n and beyond\n".to_string();
    for lines in [format!("{PAIR}begin\n"), sponge(4, 3)] {
        let (list, n) = (list_after(&lines, 17, Order::Any), played(&lines).status.len() as u32);
        text += &lines;
        for at in [0, 1, list.len() - 1] {
            let good = u32::from_le_bytes([list[at][2], list[at][3], list[at][4], list[at][5]]);
            let far = [n, n + 1, good + 256, good + 65_536, good + (1 << 24), good + (1 << 31), u32::MAX, good.swap_bytes()];
            for i in far {
                for kind in [ORDINARY, OPENING] {
                    text += &judge(&[&list[..at], &[removal(kind, i)], &list[at + 1..]].concat());
                }
            }
        }
    }
    text
}

/// Each voxel by itself, of either kind: gone, inside, passing or not.
fn each_voxel() -> Vec<String> {
    let all = [
        ("from begin", format!("{BOX}begin\n")),
        ("where nothing passes", format!("{BOX}begin\ncarve 4294967295\n")),
        ("of a ring, where nothing passes", format!("{RING}begin\n")),
        ("of a pair", format!("{PAIR}begin\n")),
    ];
    let each = |(what, lines): (&str, String)| {
        let n = played(&lines).status.len();
        let records: String = (0..n).map(|i| judge(&[go(i)]) + &judge(&[opened(i)])).collect();
        format!("# every voxel as a list of one, {what}\n{lines}{records}")
    };
    all.into_iter().map(each).collect()
}

/// Every voxel behind a list that keeps the rules.
fn one_more() -> String {
    let mut text = "# one record more than the list, of every voxel and of either kind\n".to_string();
    for lines in [format!("{PAIR}begin\n"), plate(3)] {
        let list = list_after(&lines, 19, Order::Any);
        let n = played(&lines).status.len();
        text += &lines;
        text += &(0..n).map(|i| [go(i), opened(i)].map(|more| judge(&[&list[..], &[more]].concat())).concat()).collect::<String>();
    }
    text
}

// ---- openings

/// So many openings, with T from none to more than there are.
fn up_to_t() -> String {
    let mut text = "# from none to three openings, with T from 0 to 4 and at the ends of its bytes\n".to_string();
    let holes = [opened(67), opened(69), opened(65)];
    for t in [0, 1, 2, 3, 4, 255, 256, 257, 32_768, 65_535] {
        text += &plate(t);
        text += &(0..=3).map(|many| judge(&holes[..many])).collect::<String>();
        text += &judge(&[opened(65), opened(69)]);
    }
    // the opening over T comes before what is wrong behind it
    for t in 0..3 {
        let more = [vec![0x56], removal(0x50, 69), go(135), go(66)];
        text += &plate(t as u16);
        text += &more.map(|record| judge(&[&holes[..=t], &[record]].concat())).concat();
    }
    text
}

/// While another passes, while it passes itself, without a face neighbour gone, of a voxel that is gone or inside.
fn openings() -> Vec<String> {
    let mut text =
        "# an opening while a voxel passes, that passes itself, that has no face neighbour gone, that is gone or inside\n".to_string();
    // 32 and 37 pass, each by itself; 34 stands apart and passes never
    let apart = "status set 34 1\n";
    text += &format!("{PAIR}begin\n{apart}{}{}", judge(&[opened(34)]), judge(&[go(32), opened(34)]));
    text += &format!("{}{}", judge(&[go(32), go(37), opened(34)]), judge(&[go(32), opened(34), go(37)]));
    text += &format!("{}{}", judge(&[opened(32)]), judge(&[go(32), opened(37)]));
    text += &format!("{}{}", judge(&[opened(34), go(32), go(37)]), judge(&[go(32), go(37), opened(31)]));
    text += &format!("{}{}", judge(&[go(32), go(37), opened(34), opened(34)]), judge(&[go(32), go(37), go(34)]));
    text += "status set 32 1\nstatus set 37 1\n";
    text += &format!("{}{}judge\n", judge(&[opened(34)]), judge(&[go(32), go(37), opened(34)]));
    let mut deep = format!("# voxels that have no face neighbour gone\n{SHELL}{}{}judge\n", judge(&[opened(62)]), judge(&[go(62)]));
    for beside in [61, 63, 57, 67, 37, 87, 31, 32] {
        deep += &format!("{SHELL}dist set {beside} 4\n{}", judge(&[opened(beside), opened(62)]));
        deep += &format!("{}{}", judge(&[go(beside), opened(62)]), judge(&[opened(62), opened(beside)]));
        deep += &format!("rec T 2\n{}", judge(&[opened(beside), opened(62)]));
    }
    // both ends of a hole through the shell go, which lays its middle bare
    for [low, high] in [[61, 63], [57, 67], [37, 87]] {
        deep += &format!("{SHELL}dist set {low} 4\ndist set {high} 4\njudge\n{}", judge(&[go(low), go(high), opened(62)]));
        deep += &format!("{}{}", judge(&[go(high), go(low)]), judge(&[go(low), opened(62), go(high)]));
        deep += &judge(&[go(low), go(62), go(high)]);
    }
    vec![text, deep]
}

/// A fit record that begin did not make: so many voxels kept apart from all others, each of which must be opened.
fn crafted(sides: [usize; 3], t: u16, kept: &[(usize, i32)]) -> String {
    let [a, b, c] = sides;
    let set: String = kept.iter().map(|(i, d)| format!("status set {i} 1\ndist set {i} {d}\n")).collect();
    format!(
        "sides {a} {b} {c}\nT 0\nrec a {a}\nrec b {b}\nrec c {c}\nrec T {t}\nrec openings 0\nrec removals 0\nrec examinations 0\nrec euler 1\n\
         rec finished 0\ndist fill 1\nstatus fill 0\n{set}"
    )
}

/// Voxels that touch no other: each opening has k 0 and m 1.
fn apart() -> String {
    let sides = [43, 17, 5];
    let voxels: Vec<usize> = (0..300).map(|j| index(sides, [1 + 2 * (j % 20), 1 + 2 * (j / 20 % 8), 1 + 2 * (j / 160)])).collect();
    let kept: Vec<(usize, i32)> = voxels.iter().map(|&i| (i, i as i32 % 7)).collect();
    let list: List = voxels.iter().map(|&i| opened(i)).collect();
    let mut text = format!("# 300 voxels that touch no other, with T about as many\n{}judge\n", crafted(sides, 300, &kept));
    for t in [255, 256, 299, 300, 301, 65_535] {
        text += &format!("rec T {t}\n{}", judge(&list));
    }
    text + &format!("{}rec T 255\n{}{}", judge(&list[..299]), judge(&list[..255]), judge(&list[..256]))
}

/// Blocks of eight corners about a voxel, and of corners and edges: k 8 and m 1, k 1 and m 6.
fn greatest_euler() -> String {
    let sides = [33, 13, 5];
    let block = |at: [usize; 3], most: usize| {
        let steps = (0..27).map(|p| [p % 3, p / 3 % 3, p / 9]).filter(move |step| step.iter().filter(|&&digit| digit == 1).count() <= most);
        steps.map(move |[x, y, z]| (index(sides, [at[0] + x, at[1] + y, at[2] + z]), -4)).collect::<Vec<_>>()
    };
    let middles: Vec<[usize; 3]> = (0..24).map(|j| [1 + 4 * (j % 8), 1 + 4 * (j / 8), 1]).collect();
    let list: List = middles.iter().map(|[x, y, z]| opened(index(sides, [x + 1, y + 1, z + 1]))).collect();
    let mut text = "# openings with the most parts, and with the most joined\n".to_string();
    for most in [0, 1] {
        let mut kept: Vec<(usize, i32)> = middles.iter().flat_map(|&at| block(at, most)).collect();
        kept.extend(middles.iter().map(|[x, y, z]| (index(sides, [x + 1, y + 1, z + 1]), 5)));
        text += &format!("{}judge\n{}{}rec T 23\n{}", crafted(sides, 30, &kept), judge(&list), judge(&list[..7]), judge(&list));
    }
    text
}

/// A voxel between so many others that touch it at corners alone: k is their number.
fn bridges() -> String {
    let (sides, corners) = ([5, 6, 7], (0..8).map(|p| [p % 2, p / 2 % 2, p / 4]));
    let around: Vec<usize> = corners.map(|[x, y, z]| index(sides, [1 + 2 * x, 1 + 2 * y, 1 + 2 * z])).collect();
    let middle = index(sides, [2, 2, 2]);
    let mut text = "# a voxel with none to eight of S at its corners: an opening, and a removal where there is one\n".to_string();
    for many in 0..=8 {
        let kept: Vec<(usize, i32)> = around[..many].iter().map(|&i| (i, -9)).chain([(middle, 9)]).collect();
        text += &format!("{}judge\n{}{}", crafted(sides, 1, &kept), judge(&[opened(middle)]), judge(&[go(middle)]));
    }
    text
}

/// A row that S ends: from its far end each voxel passes in turn, and from within none but the last.
fn row() -> String {
    let sides = [9, 4, 3];
    let voxels: Vec<usize> = (1..8).map(|x| index(sides, [x, 1, 1])).collect();
    let kept: Vec<(usize, i32)> = voxels.iter().enumerate().map(|(k, &i)| (i, if k == 0 { -3 } else { 10 - k as i32 })).collect();
    let inwards: List = voxels[1..].iter().rev().map(|&i| go(i)).collect();
    let mut text = format!("# a row of voxels that S ends, nothing pending\n{}judge\n{}", crafted(sides, 1, &kept), judge(&inwards));
    text += &(0..7).map(|at| judge(&[&inwards[at.min(5)..], &inwards[..at.min(5)]].concat())).collect::<String>();
    text += &(1..7).map(|many| judge(&inwards[..many])).collect::<String>();
    // with no S the last voxel of the row has nothing beside it, and stays or is opened
    text += &format!("dist set {} 0\n{}", voxels[0], judge(&inwards));
    let outwards: List = voxels[..6].iter().map(|&i| go(i)).collect();
    text += &format!("{}{}", judge(&outwards), judge(&[&outwards[..], &[opened(voxels[6])]].concat()));
    text + &judge(&[&outwards[..], &[go(voxels[6])]].concat())
}

/// Bodies without S, or of S alone, and none at all.
fn bare_grids() -> String {
    let sides = [5, 4, 3];
    let two = [index(sides, [1, 1, 1]), index(sides, [2, 1, 1])];
    let mut text = format!("# nothing kept, S alone, and one voxel without S\n{}judge\n{}", crafted(sides, 1, &[]), judge(&[go(two[0])]));
    text += &format!("{}judge\n{}", crafted(sides, 1, &[(two[0], -1)]), judge(&[opened(two[0])]));
    text += &format!("{}judge\n{}{}", crafted(sides, 1, &[(two[0], 0)]), judge(&[opened(two[0])]), judge(&[go(two[0])]));
    text += &format!("{}judge\n{}", crafted(sides, 1, &[(two[0], 0), (two[1], 0)]), judge(&[go(two[0])]));
    let [first, second] = two;
    text += &format!("{}{}", judge(&[go(second), opened(first)]), judge(&[opened(second), opened(first)]));
    text + &format!("{}rec T 0\n{}", judge(&[go(first), go(second)]), judge(&[go(second), opened(first)]))
}

// ---- numbers

fn subject() -> Subject<'static> {
    let more = [
        FINISHED,
        at("removal 21", "", "56522000000056"),
        at("removal 21", "", "56"),
        at("removal 22", "", "575220000000"),
        at("removal 22", "", "565320000000"),
        at("removal 22", "", "56522000000056505800000056502500"),
        at("removal 5", "", "565240420F00"),
        at("removal 5", "", "565248000000"),
        at("removal 5", "", "5652FFFFFFFF"),
        at("32", "", "564F20000000"),
        at("32", "", "565226000000"),
        at("32", "", "565220000000565220000000"),
        at("33", "", ""),
        at("33", "", "565220000000"),
    ];
    let state = format!("{PAIR}begin\n");
    Subject { call: "judge", index: "565220000000565225000000", axis: "", state, faults: with(&UNFIT_PAIR, &more) }
}

/// Every two faults in records of one list, the one first and the other first, with good records before, between and behind; some end where a voxel passes.
fn faults_in_turn() -> Vec<String> {
    let (lines, sides) = (format!("{BOX}begin\n"), 125);
    let list = list_after(&lines, 23, Order::Any);
    let good = list[0].clone();
    let wrong: Vec<(&str, Vec<u8>)> = vec![
        ("22", [&[0x56, 0x50][..], &list[1][2..]].concat()),
        ("22, its index n", [&[0x56, 0x50][..], &[sides, 0, 0, 0]].concat()),
        ("22, its voxel gone", [&[0x57, 0x52][..], &good[2..]].concat()),
        ("5", removal(ORDINARY, 125)),
        ("5 of an opening", removal(OPENING, u32::MAX)),
        ("32, gone", good.clone()),
        ("32, inside", go(31)),
        ("32, an opening", opened(62)),
    ];
    let cut: [Vec<u8>; 3] = [vec![0x56], vec![0x56, 0x52, 62, 0, 0], vec![0]];
    let mut together = format!("# each fault in a record before each other in a later one\n{lines}");
    for (_, first) in &wrong {
        for (_, second) in &wrong {
            together += &judge(&[good.clone(), first.clone(), list[1].clone(), second.clone(), list[2].clone()]);
        }
        for left in &cut {
            together += &judge(&[good.clone(), first.clone(), list[1].clone(), left.clone()]);
            together += &judge(&[&list[..], &[first.clone(), left.clone()]].concat());
        }
    }
    let mut places = "# each fault in a record at each place of a list\n".to_string();
    for (what, record) in &wrong {
        places += &format!("# {what}\n{lines}");
        for at in 1..=list.len() {
            places += &judge(&[&list[..at], std::slice::from_ref(record), &list[at..]].concat());
        }
    }
    vec![together, places]
}

/// More records than voxels: what is wrong first is answered, however long the list is.
fn long_lists() -> String {
    let lines = format!("{PAIR}begin\n");
    let list = [go(32), go(37)];
    let many = |record: Vec<u8>, times: usize| vec![record; times];
    let mut text = format!("# lists of more records than there are voxels\n{lines}");
    text += &judge(&[&list[..], &many(go(32), 72)].concat());
    text += &judge(&[&list[..], &many(removal(0x50, 32), 72)].concat());
    text += &judge(&[&list[..], &many(go(72), 72)].concat());
    text += &judge(&[&many(removal(0, 0), 80)[..], &[vec![0x56]]].concat());
    text += &judge(&[&many(go(1000), 80)[..], &[vec![0x56, 0x52]]].concat());
    text + &judge(&[&list[..], &many(go(32), 71), &[vec![0x56; 3]]].concat())
}

/// A byte that is neither 0 nor 1 is finished; and a finished grid is refused whatever the list.
fn finished() -> String {
    let list = [opened(37)];
    let mut text = format!("# a finished grid is 8, whatever the list\n{RING}begin\ncarve 9\nfinish\njudge\n{}", judge(&list));
    for byte in [2, 128, 255, 0, 1] {
        text += &format!("rec finished {byte}\n{}{}judge\n", judge(&list), judge(&[vec![0x56]]));
    }
    text + &format!("{RING}begin\nrec finished 2\n{}rec finished 0\n{}", judge(&list), judge(&list))
}

/// What is refused leaves everything as it is, and the machine goes on from there.
fn and_goes_on() -> String {
    let lines = format!("{}begin\n", cage());
    let list = list_after(&lines, 29, Order::Any);
    let mut text = format!("# judged between the machine's own calls, accepted or not\n{lines}");
    for at in 0..12 {
        text += &format!("{}carve 2\n{}{}", judge(&list), judge(&list[..at]), judge(&[&list[at..], &[vec![0]]].concat()));
        text += "rec show 0\nhash\n";
    }
    text + "carve 4294967295\ndump status\njudge\nopen\njudge\nfinish\n"
}

/// The worked cases of document 01.
fn cases() -> String {
    let pair = "sides 4 4 3\nT 0\nvalues fill 6\nvalues set 21 -6\nvalues set 26 -6\nbegin\n";
    let mut text = format!("# case D's two removals in either order; case C's opening, and case A's empty list\n{pair}");
    text += &format!("{}{}", judge(&[go(22), go(25)]), judge(&[go(25), go(22)]));
    text += &format!("{}{}judge\n", judge(&[go(22)]), judge(&[go(25)]));
    for t in [0, 1] {
        text += &format!("{RING}T {t}\nbegin\njudge\n{}{}", judge(&[opened(37)]), judge(&[go(37)]));
    }
    text + "sides 3 3 3\nT 0\nvalues fill 5\nvalues set 13 -5\nbegin\njudge\n" + &judge(&[go(13)])
}

pub fn scripts() -> Vec<String> {
    let mut scripts = vec![cases()];
    scripts.extend(of_grids());
    scripts.extend([after_takes(), own_counts()]);
    scripts.extend(pending_and_marks());
    scripts.extend([distances(), after_coarse()]);
    scripts.extend(cut_off());
    scripts.extend(other_orders());
    scripts.extend(other_marks());
    scripts.push(other_indices());
    scripts.extend(each_voxel());
    scripts.extend([one_more(), up_to_t()]);
    scripts.extend(openings());
    scripts.extend([apart(), greatest_euler(), bridges(), row(), bare_grids()]);
    scripts.extend(subject().scripts());
    scripts.extend(faults_in_turn());
    scripts.extend([long_lists(), finished(), and_goes_on()]);
    scripts
}

/// 64 voxels a side, few of them kept: a row at the far end, with counts of the record at the limits of number 7.
pub(super) fn greatest() -> String {
    let sides = [64, 64, 64];
    let kept = [(index(sides, [60, 62, 62]), -5), (index(sides, [61, 62, 62]), 5), (index(sides, [62, 62, 62]), 6)];
    let list = [go(kept[2].0), go(kept[1].0)];
    let mut text = format!("# a list on the largest grid, the record's counts at their limits\n{}", crafted(sides, 65_535, &kept));
    for euler in [2_097_152, -2_097_152] {
        text += &format!("rec openings 65534\nrec removals 262144\nrec examinations 7077888\nrec euler {euler}\n");
        text += &format!("{}judge\n{}{}", judge(&list), judge(&list[1..]), judge(&[&list[..], &[go(262_144)]].concat()));
    }
    text
}

// ---- from seeds

impl Maker {
    /// A list with something changed: records cut off, doubled, exchanged, left out or put in, bytes of a mark or an index.
    fn spoilt(&mut self, list: &List, n: usize) -> Vec<u8> {
        let mut list = list.clone();
        let many = list.len();
        let at = if list.is_empty() { 0 } else { self.r.below(list.len() as u64) as usize };
        let any = self.voxel() as u32;
        let far = self.r.pick(&[n as u32, n as u32 + 1, any + (1 << 16), any + (1 << 24), u32::MAX]);
        match self.r.below(12) {
            0 => list.truncate(at),
            1 | 2 if many > 1 => list.swap(at, (at + 1) % many),
            3 if !list.is_empty() => list.insert(at, list[at].clone()),
            4 if !list.is_empty() => drop(list.remove(at)),
            5 if !list.is_empty() => list[at][1] = if list[at][1] == OPENING { ORDINARY } else { OPENING },
            6 if !list.is_empty() => list[at][self.r.below(2) as usize] = self.r.pick(&[0x56, 0x4F, 0x52, 0x50, 0, 0x4C]),
            7 => list.insert(at, removal(self.r.pick(&[ORDINARY, OPENING]), far)),
            8 => list.insert(at, removal(self.r.pick(&[ORDINARY, OPENING]), any)),
            9 => list.push(removal(self.r.pick(&[ORDINARY, OPENING, OPENING]), any)),
            10 => list.push(vec![0x56; self.r.between(1, 5) as usize]),
            _ => {
                let bytes = list.concat();
                return bytes[..self.r.below(bytes.len() as u64 + 1) as usize].to_vec();
            }
        }
        list.concat()
    }

    /// One layer with holes of any form, behind whose openings others pass.
    fn plate(&mut self, greatest: i64) -> Grid {
        let sides = [self.r.between(5, greatest) as usize, self.r.between(5, greatest) as usize, 3];
        let (grid, dense) = (Sides { a: sides[0] as u64, b: sides[1] as u64, c: 3 }, self.r.pick(&[50, 65, 80]));
        let value = |i: usize| {
            let size = self.r.between(1, 30) as i32;
            if !grid.border(i) && self.r.chance(dense) {
                -size
            } else {
                size - 1
            }
        };
        let values = (0..grid.n()).map(value).collect();
        Grid { sides, allowed: self.r.pick(&[1, 2, 5, 20]), values }
    }

    fn judges(&mut self, many: i64) {
        let order = self.r.pick(&[Order::Any, Order::Any, Order::Farthest, Order::Nearest]);
        let n = self.status.len();
        let openings = if self.r.chance(70) { self.record.t.into() } else { self.r.below(4) as usize };
        let body = Body { sides: self.record.sides, dist: &self.dist, status: self.status.clone() };
        let list = kept_rules(&body, &mut self.r, order, openings.min(12));
        self.say(judge(&list).trim_end());
        for _ in 0..many {
            let mut bytes = self.spoilt(&list, n);
            if self.r.chance(15) {
                let more = bytes.chunks(6).map(<[u8]>::to_vec).collect();
                bytes = self.spoilt(&more, n);
            }
            self.say(format!("judge {}", hex(&bytes)).trim_end());
        }
    }

    /// Lists after begin, after a coarse start or on crafted buffers, spoilt and not, and between other calls.
    pub(super) fn removals(&mut self, greatest: i64) {
        let greatest = greatest.min(7);
        match self.r.below(4) {
            0 => self.craft(greatest.min(5), false),
            kind => {
                let g = match kind {
                    1 => grid(&mut self.r, greatest),
                    2 if self.r.chance(60) => self.plate(greatest + 2),
                    2 => self.sponge(greatest),
                    _ => coarse(&mut self.r, 7),
                };
                let [a, b, c] = g.sides.map(|side| side as u64);
                let (sides, t) = (Sides { a, b, c }, self.r.pick(&[g.allowed, 0, 1, 2, 65535]));
                self.set(sides, t);
                self.list_of("values", &g.values);
                if self.r.chance(30) {
                    self.marks =
                        (0..sides.n()).map(|_| if self.r.chance(20) { self.r.pick(&[PINNED, HURRIED, BOTH]) } else { UNMARKED }).collect();
                    let marks = self.marks.clone();
                    self.list_of("marks", &marks);
                }
                let begun = if kind == 3 { self.begin_coarse(&g.values) } else { self.begin(&g.values) };
                if !begun {
                    return self.say("judge\nhash");
                }
            }
        }
        for _ in 0..self.r.between(1, 3) {
            let many = self.r.between(2, 7);
            self.judges(many);
            let (count, weights) = (self.r.between(1, 6), self.r.pick(&[[40, 40, 20, 0], [60, 20, 20, 0], [10, 70, 20, 0]]));
            self.calls(count, weights);
        }
        self.judges(2);
        if self.r.chance(20) {
            self.and_finish();
            self.say("judge");
        }
    }

    pub(super) fn begin(&mut self, values: &[i32]) -> bool {
        self.say("begin");
        let (sides, t) = (self.record.sides, self.record.t);
        let begun = begin(sides, t, values, &self.marks, &mut self.dist, &mut self.status);
        self.record = begun.unwrap_or(self.record);
        begun.is_ok()
    }
}
