//! Gaps behind the face (document 02, CR 6): gaps of every form in a wall, each left open at every place in turn; gaps that touch and share no face; the
//! border; what a fill does to S; numbers on such grids; and gaps in files, made and broken by patches. Those from seeds have walls rich in gaps.

use super::refusals::{state, Subject};
use super::widening::{file, given, mixtures};
use super::writing::{given as set, read_again};
use super::Maker;
use crate::files::{file_of_walls, hex, patch};
use crate::gaps::gaps;
use crate::grids::{walled, Grid};
use crate::records::{written_length, GREATEST, LEAST, MISSING, NARROW, NARROW_MISSING, WIDE};
use reference::grid::{begin, Sides};

/// A wall's value, and what is outside it.
const WALL: i32 = -4;
const OUTER: i32 = 9;

type Voxel = [usize; 3];

const STEPS: [[i64; 3]; 6] = [[-1, 0, 0], [1, 0, 0], [0, -1, 0], [0, 1, 0], [0, 0, -1], [0, 0, 1]];

fn index([a, b, _]: [usize; 3], [x, y, z]: Voxel) -> usize {
    x + a * (y + b * z)
}

fn moved(v: Voxel, step: [i64; 3]) -> Voxel {
    [0, 1, 2].map(|k| (v[k] as i64 + step[k]) as usize)
}

fn fit([a, b, c]: [usize; 3]) -> Sides {
    Sides { a: a as u64, b: b as u64, c: c as u64 }
}

/// A wall up to the border, with some voxels changed.
fn block(sides: [usize; 3], changes: &[(Voxel, i32)]) -> Vec<i32> {
    let grid = fit(sides);
    let mut values: Vec<i32> = (0..grid.n()).map(|i| if grid.border(i) { OUTER } else { WALL }).collect();
    changes.iter().for_each(|&(v, value)| values[index(sides, v)] = value);
    values
}

fn with_gap(sides: [usize; 3], gap: &[Voxel]) -> Vec<i32> {
    block(sides, &gap.iter().map(|&v| (v, MISSING)).collect::<Vec<_>>())
}

/// Fresh buffers, T, and a wall.
fn wall(sides: [usize; 3], changes: &[(Voxel, i32)]) -> String {
    set(sides, 65_535, &block(sides, changes))
}

/// Begin with a voxel changed, which is then set back.
fn changed(i: usize, to: i32, back: i32) -> String {
    format!("values set {i} {to}\nbegin\nvalues set {i} {back}\n")
}

/// Calls of each kind to the end, with every byte of the buffers on the way.
const CALLS: &str =
    "begin\ndump dist\ndump status\ncarve 1\ncarve 1\ncarve 4294967295\ndump status\nopen\ncarve 4294967295\nopen\ncarve 4294967295\n\
                     open\ncarve 4294967295\nfinish\ndump dist\npoints 0 3000\n";

// ---- one gap

/// In each of the six places every kind of value.
fn one_voxel() -> String {
    let (sides, middle) = ([5, 5, 5], [2, 2, 2]);
    let mut text = format!("# one voxel, with each value on each side\n{}{CALLS}", wall(sides, &[(middle, MISSING)]));
    for step in STEPS {
        let beside = index(sides, moved(middle, step));
        for value in [0, 1, OUTER, 32_768, 40_000, 65_535, GREATEST, -1, -2, -32_767, -32_768, -40_000, -65_536, LEAST, MISSING] {
            text += &changed(beside, value, WALL);
        }
    }
    text + "dump values\n"
}

/// What touches at an edge or at a corner does not matter, whether one of them is not negative or all are.
fn diagonals() -> String {
    let (sides, middle) = ([5, 5, 5], [2, 2, 2]);
    let mut text = format!("# voxels of 0 or more, and missing ones, that touch the gap\n{}", wall(sides, &[(middle, MISSING)]));
    let touching: Vec<usize> = fit(sides).touching(index(sides, middle));
    let faces = STEPS.map(|step| index(sides, moved(middle, step)));
    let diagonal: Vec<usize> = touching.into_iter().filter(|i| !faces.contains(i)).collect();
    for &i in &diagonal {
        text += &[0, OUTER, MISSING].map(|value| changed(i, value, WALL)).concat();
    }
    text += &diagonal.iter().map(|i| format!("values set {i} {OUTER}\nbegin\n")).collect::<String>();
    text += CALLS;
    text += &diagonal.iter().map(|i| format!("values set {i} {MISSING}\nbegin\n")).collect::<String>();
    text + CALLS
}

fn row(from: Voxel, axis: usize, length: usize) -> Vec<Voxel> {
    let at = |k: usize| std::array::from_fn(|j| from[j] + if j == axis { k } else { 0 });
    (0..length).map(at).collect()
}

fn cube(from: Voxel, to: Voxel) -> Vec<Voxel> {
    let rows = (from[2]..=to[2]).flat_map(|z| (from[1]..=to[1]).map(move |y| (y, z)));
    rows.flat_map(|(y, z)| (from[0]..=to[0]).map(move |x| [x, y, z])).collect()
}

/// Gaps of several voxels: what they are, the grid's sides, and the gap.
fn forms() -> Vec<(&'static str, [usize; 3], Vec<Voxel>)> {
    let but = |from: Voxel, to: Voxel, out: &[Voxel]| cube(from, to).into_iter().filter(|v| !out.contains(v)).collect::<Vec<_>>();
    vec![
        ("two along x", [6, 5, 5], row([2, 2, 2], 0, 2)),
        ("two along y", [5, 6, 5], row([2, 2, 2], 1, 2)),
        ("two along z", [5, 5, 6], row([2, 2, 2], 2, 2)),
        ("three along x", [7, 5, 5], row([2, 2, 2], 0, 3)),
        ("three along y", [5, 7, 5], row([2, 2, 2], 1, 3)),
        ("three along z", [5, 5, 7], row([2, 2, 2], 2, 3)),
        ("a corner", [6, 6, 6], vec![[2, 2, 2], [3, 2, 2], [3, 3, 2], [3, 3, 3]]),
        ("a corner the other way", [6, 6, 6], vec![[3, 3, 2], [2, 3, 2], [2, 2, 2], [2, 2, 3]]),
        ("a U in a layer", [7, 7, 5], but([2, 2, 2], [4, 4, 2], &[[3, 2, 2], [3, 3, 2]])),
        ("a U upside down", [7, 7, 5], but([2, 2, 2], [4, 4, 2], &[[3, 4, 2], [3, 3, 2]])),
        ("a U over layers", [7, 5, 7], but([2, 2, 2], [4, 2, 4], &[[3, 2, 2], [3, 2, 3]])),
        ("a U over layers, its arms up", [7, 5, 7], but([2, 2, 2], [4, 2, 4], &[[3, 2, 4], [3, 2, 3]])),
        ("a ring", [7, 7, 5], but([2, 2, 2], [4, 4, 2], &[[3, 3, 2]])),
        ("a star", [7, 7, 7], STEPS.iter().map(|&step| moved([3, 3, 3], step)).chain([[3, 3, 3]]).collect()),
        ("eight", [6, 6, 6], cube([2, 2, 2], [3, 3, 3])),
        ("27", [7, 7, 7], cube([2, 2, 2], [4, 4, 4])),
    ]
}

/// Closed, and with each of its neighbours in turn 0; and where it touches a voxel of 0 or more.
fn form(&(what, sides, ref gap): &(&str, [usize; 3], Vec<Voxel>)) -> String {
    let values = with_gap(sides, gap);
    let mut text = format!("# a gap of several voxels: {what}\n{}begin\ndump dist\n", set(sides, 3, &values));
    let all = gaps(&fit(sides), &values);
    let mut beside: Vec<usize> = all.iter().flat_map(|gap| gap.beside.iter().map(|&(_, i)| i)).collect();
    beside.sort_unstable();
    beside.dedup();
    text += &beside.iter().map(|&i| changed(i, 0, WALL)).collect::<String>();
    let corner = index(sides, [1, 1, 1]);
    text + &format!(
        "values set {corner} {OUTER}\nbegin\ncarve 1\ncarve 4294967295\nopen\ntake {}\nfinish\npoints 0 1200\n",
        all[0].voxels[0]
    )
}

/// A row that turns at each end: along one axis to and fro, a step along another at each turn.
fn serpent(along: usize, across: usize, length: usize, legs: usize) -> ([usize; 3], Vec<Voxel>) {
    let mut sides = [5; 3];
    sides[along] = length + 4;
    sides[across] = 2 * legs + 3;
    let mut gap = Vec::new();
    for leg in 0..legs {
        let mut at = [2; 3];
        at[across] = 2 + 2 * leg;
        gap.extend(row(at, along, length));
        if leg + 1 < legs {
            at[across] += 1;
            at[along] = if leg % 2 == 0 { 1 + length } else { 2 };
            gap.push(at);
        }
    }
    (sides, gap)
}

/// A gap that turns many times, closed, and open at one place alone: at either end, on either side, and in the middle.
fn winding(along: usize, across: usize) -> String {
    let (sides, gap) = serpent(along, across, 4, 9);
    let beyond = fit(sides);
    let third = 3 - along - across;
    let side = |v: Voxel| {
        let mut w = v;
        w[third] += 1;
        index(sides, w)
    };
    let mut text = format!("# a winding gap\n{}begin\n", set(sides, 1, &with_gap(sides, &gap)));
    for i in [0, gap.len() / 4, gap.len() / 2, gap.len() - 3, gap.len() - 1] {
        assert!(!beyond.border(side(gap[i])), "beside the gap there is a wall");
        text += &changed(side(gap[i]), 0, WALL);
    }
    text + "begin\ndump dist\n"
}

/// A gap of many voxels with a wall of one, all else missing: set voxel by voxel. Closed, and open at one place of each side along these axes.
fn cavern(sides: [usize; 3], from: Voxel, to: Voxel, axes: &[usize]) -> String {
    let Sides { a, b, c } = fit(sides);
    let mut text = format!("# a gap of many voxels\nsides {a} {b} {c}\nT 2\nvalues fill {MISSING}\n");
    let beside = |v: Voxel| (0..3).filter(|&k| v[k] + 1 == from[k] || v[k] == to[k] + 1).count() == 1;
    let around = cube(from.map(|x| x - 1), to.map(|x| x + 1));
    for &v in around.iter().filter(|&&v| beside(v)) {
        text += &format!("values set {} {WALL}\n", index(sides, v));
    }
    text += "begin\n";
    let middle = [0, 1, 2].map(|k| (from[k] + to[k]) / 2);
    for &k in axes {
        for end in [from[k] - 1, to[k] + 1] {
            let mut v = middle;
            v[k] = end;
            text += &changed(index(sides, v), 0, WALL);
        }
    }
    text + &format!("begin\ncarve 3\ntake {}\nopen\n", index(sides, middle))
}

// ---- several gaps

/// The steps to what touches at an edge or at a corner alone.
fn diagonal_steps() -> Vec<[i64; 3]> {
    let all = (0..27).map(|k| [k % 3 - 1, k / 3 % 3 - 1, k / 9 - 1]);
    all.filter(|step: &[i64; 3]| step.iter().filter(|&&s| s != 0).count() > 1).collect()
}

/// Two gaps that touch: both closed, and each of them open alone, on the side away from the other.
fn meeting() -> String {
    let (sides, one) = ([7, 7, 7], [3, 3, 3]);
    let mut text = format!("# two gaps that meet at an edge or at a corner\n{}", wall(sides, &[(one, MISSING)]));
    for step in diagonal_steps() {
        let other = moved(one, step);
        text += &format!("values set {} {MISSING}\nbegin\n", index(sides, other));
        for axis in (0..3).filter(|&axis| step[axis] != 0) {
            let away: [i64; 3] = std::array::from_fn(|k| if k == axis { step[k] } else { 0 });
            text += &changed(index(sides, moved(one, away.map(|s| -s))), 0, WALL);
            text += &changed(index(sides, moved(other, away)), 0, WALL);
        }
        text += &format!("values set {} {WALL}\n", index(sides, other));
    }
    text + "begin\ndump dist\n"
}

/// Rows of gaps that meet at edges or corners, one of which is open, or reaches the border.
fn chains() -> String {
    let sides = [9, 9, 9];
    let mut text = "# chains of gaps that meet at edges and corners\n".to_string();
    for step in [[1, 1, 0], [0, 1, 1], [1, 0, 1], [1, 1, 1]] {
        let chain: Vec<Voxel> = (0..5).map(|k| moved([2, 2, 2], step.map(|s: i64| s * k))).collect();
        text += &format!("{}begin\n", set(sides, 5, &with_gap(sides, &chain)));
        for v in &chain {
            let beside = STEPS.map(|s| moved(*v, s));
            let alone =
                beside.iter().find(|w| chain.iter().filter(|u| (0..3).map(|k| u[k].abs_diff(w[k])).sum::<usize>() == 1).count() == 1);
            let alone = alone.expect("a neighbour of this gap alone");
            text += &changed(index(sides, *alone), 1, WALL);
        }
        // the next of the chain, down to the border
        let end = moved([2, 2, 2], step.map(|s: i64| -s));
        text += &format!("values set {} {MISSING}\nbegin\n", index(sides, end));
        text += &format!("values set {} {MISSING}\nbegin\n", index(sides, moved(end, step.map(|s: i64| -s))));
    }
    text + CALLS
}

/// So many gaps of one voxel that their number, or the number of the open ones, is over 255. Some are open, by no pattern.
fn many_gaps() -> String {
    let sides = [20, 20, 20];
    let grid = fit(sides);
    let lattice = |v: [i64; 3]| v.iter().all(|x| (2..18).contains(x) && x % 2 == 0);
    let value = |i: usize| match grid.coordinates(i) {
        _ if grid.border(i) => OUTER,
        v if lattice(v) => MISSING,
        _ if (i * 2_654_435_761) >> 8 & 63 == 0 => (i % 3) as i32,
        _ => WALL,
    };
    let values: Vec<i32> = (0..grid.n()).map(value).collect();
    format!("# more than 255 gaps\n{}begin\ncarve 10\ntake 842\nwrite 17000\nfinish\n", set(sides, 0, &values))
}

// ---- the border

/// A row from the middle out to each side: within the wall, up to the border, and onto it.
fn out_to_the_border() -> String {
    let (sides, middle) = ([7, 7, 7], [3, 3, 3]);
    let mut text = "# gaps that reach the border\n".to_string();
    for step in STEPS {
        text += &wall(sides, &[(middle, MISSING)]);
        for k in 1..=3 {
            text += &format!("values set {} {MISSING}\nbegin\n", index(sides, moved(middle, step.map(|s| s * k))));
        }
        text += &changed(index(sides, moved(middle, step.map(|s| 2 * s))), WALL, MISSING);
        text += &changed(index(sides, moved(middle, step)), WALL, MISSING);
        text += "begin\ndump dist\n";
    }
    text
}

/// Every border voxel is missing: nothing but the border leaves the gap open that they are part of.
fn whole_border() -> String {
    let sides = [6, 7, 5];
    let grid = fit(sides);
    let mut values = block(sides, &[]);
    (0..grid.n()).filter(|&i| grid.border(i)).for_each(|i| values[i] = MISSING);
    let mut text = format!("# every voxel of the border missing\n{}begin\ndump dist\ncarve 4294967295\n", set(sides, 4, &values));
    let middle = index(sides, [2, 3, 2]);
    text += &format!("values set {middle} {MISSING}\nbegin\ndump dist\n");
    for step in STEPS {
        let way: Vec<usize> =
            (1..4).map(|k| moved([2, 3, 2], step.map(|s| s * k))).map(|v| index(sides, v)).take_while(|&i| !grid.border(i)).collect();
        text += &way.iter().map(|i| format!("values set {i} {MISSING}\n")).collect::<String>();
        text += "begin\n";
        text += &way.iter().map(|i| format!("values set {i} {WALL}\n")).collect::<String>();
    }
    text += &format!("values set 0 {OUTER}\nbegin\nvalues set 0 {MISSING}\n");
    // nothing of the wall is left but a little
    text += &format!("values fill {MISSING}\nvalues set {middle} {WALL}\nbegin\nvalues set {} {WALL}\nbegin\ndump dist\n", middle + 1);
    text + CALLS
}

/// Missing points along the border, each plane with what lies next to it, in walls that end there.
fn beside_the_border() -> String {
    let sides = [7, 6, 5];
    let grid = fit(sides);
    let mut text = format!("# missing points on the border and one voxel from it\n{}", wall(sides, &[([3, 3, 2], MISSING)]));
    for i in (0..grid.n()).filter(|&i| grid.coordinates(i)[2] == 2) {
        let back = if grid.border(i) { OUTER } else { WALL };
        text += &changed(i, MISSING, if i == index(sides, [3, 3, 2]) { MISSING } else { back });
    }
    text
}

// ---- what else is enclosed

/// Voxels of 0 or more within the wall are no gap, alone or beside missing ones.
fn hollows() -> String {
    let sides = [7, 7, 7];
    let mut text = "# hollows that are measured, in part or in all\n".to_string();
    for inner in [0, 1, OUTER, 40_000] {
        text += &wall(sides, &[([3, 3, 3], inner)]);
        text += "begin\n";
        for step in STEPS {
            text += &changed(index(sides, moved([3, 3, 3], step)), MISSING, WALL);
        }
        text +=
            &cube([2, 2, 2], [4, 4, 4]).iter().map(|&v| format!("values set {} {MISSING}\nbegin\n", index(sides, v))).collect::<String>();
        text += &changed(index(sides, [3, 3, 3]), inner, MISSING);
        text += "begin\n";
    }
    text + CALLS
}

// ---- S

/// Voxels of a wall about one gap, and a second body of so many voxels, at higher or at lower indices.
fn against(size: usize, first: bool) -> String {
    let sides = [6, 6, 12];
    let (gap, other) = if first { ([2, 2, 2], 6) } else { ([2, 2, 9], 1) };
    let mut values = vec![OUTER; fit(sides).n()];
    values[index(sides, gap)] = MISSING;
    STEPS.iter().for_each(|&step| values[index(sides, moved(gap, step))] = WALL);
    cube([1, 1, other], [4, 4, other]).iter().take(size).for_each(|&v| values[index(sides, v)] = -3);
    format!("{}begin\ndump dist\ncarve 4294967295\nopen\ntake {}\n", set(sides, 2, &values), index(sides, gap))
}

fn which_group() -> String {
    let each = (5..=10).flat_map(|size| [true, false].map(|first| against(size, first))).collect::<String>();
    let sides = [6, 6, 12];
    let mut values = vec![OUTER; fit(sides).n()];
    // a gap of one with six about it, and one of two with ten
    for gap in [&[[2, 2, 8]][..], &[[2, 2, 2], [2, 2, 3]]] {
        for &v in gap {
            STEPS.iter().map(|&step| index(sides, moved(v, step))).for_each(|i| values[i] = WALL);
        }
        gap.iter().for_each(|&v| values[index(sides, v)] = MISSING);
    }
    format!("# a gap counts for the size of its group\n{each}{}{CALLS}", set(sides, 2, &values))
}

/// A negative voxel within a hollow of missing ones; and a second body about as large as the wall, or as all of it.
fn islands() -> String {
    let sides = [15, 7, 7];
    let mut text = "# a fill joins what lies in a hollow to the wall about it\n".to_string();
    let hollow: Vec<Voxel> = cube([2, 2, 2], [4, 4, 4]).into_iter().filter(|&v| v != [3, 3, 3]).collect();
    for mirrored in [false, true] {
        let place = |v: Voxel| index(sides, if mirrored { [14 - v[0], 6 - v[1], 6 - v[2]] } else { v });
        for size in [0, 1, 97, 98, 99, 124, 125, 126] {
            let mut values = vec![OUTER; fit(sides).n()];
            cube([1, 1, 1], [5, 5, 5]).iter().for_each(|&v| values[place(v)] = WALL);
            hollow.iter().for_each(|&v| values[place(v)] = MISSING);
            cube([8, 1, 1], [13, 5, 5]).iter().take(size).for_each(|&v| values[place(v)] = -3);
            text += &format!("{}begin\ncarve 5\n", set(sides, 2, &values));
            // as large as the wall alone, with the hollow open
            text += &format!("values set {} 0\nbegin\ncarve 4294967295\n", place([1, 3, 3]));
        }
    }
    text
}

/// Voxels removed beside a gap wake what touches them, and a filled voxel is not woken; taken, it is 11.
fn carved_beside() -> String {
    let sides = [6, 6, 6];
    let gap = [[2, 2, 2], [3, 3, 3]];
    let mut text = "# carving and taking beside a gap\n".to_string();
    for corners in
        [&[[1, 1, 1]][..], &[[1, 1, 1], [4, 4, 4], [1, 4, 1], [1, 1, 2]], &[[1, 1, 1], [2, 1, 1], [3, 1, 1], [1, 2, 1], [1, 3, 1]]]
    {
        let cut: Vec<(Voxel, i32)> = corners.iter().map(|&v| (v, 5)).chain(gap.map(|v| (v, MISSING))).collect();
        text += &wall(sides, &cut);
        text += CALLS;
        let takes = gap.iter().chain(corners).chain(&gap).map(|&v| format!("take {}\n", index(sides, v))).collect::<String>();
        text += &format!("begin\n{takes}carve 4294967295\n{takes}open\ncarve 4294967295\nfinish\n{takes}");
        // the same with the gap open
        text += &format!("values set {} 0\nbegin\n{takes}carve 4294967295\n{takes}open\n", index(sides, [1, 2, 2]));
    }
    text
}

// ---- numbers

/// 5, 5, 5 with a gap in the middle, which is 62; 61 is beside it.
fn refused() -> Subject<'static> {
    let faults = [
        state("1", "rawsides 5 5 2\n"),
        state("1", "rawsides 65 5 5\n"),
        state("2", "values len 124\n"),
        state("2", "values len 126\n"),
        state("2", "dist len 124\n"),
        state("2", "status len 126\n"),
        state("28", "values set 61 -1000000001\n"),
        state("28", "values set 61 -2147483647\n"),
        state("28", "values set 62 -2147483647\n"),
        state("28", "values set 67 1000000001\n"),
        state("3", "values set 60 -1\n"),
        state("3", "values set 12 -4\n"),
        state("3", "values set 124 -1\n"),
        state("4", "values fill -2147483648\n"),
        state("4", "values fill 0\nvalues set 62 -2147483648\n"),
        state("4", "values fill -2147483648\nvalues set 62 0\n"),
    ];
    Subject { call: "begin", index: "", axis: "", state: wall([5, 5, 5], &[([2, 2, 2], MISSING)]), faults: faults.to_vec() }
}

/// Begin leaves the values as they are lent: what is begun again, or written, is what was listed.
fn as_lent() -> String {
    let sides = [6, 5, 7];
    let (one, two) = (index(sides, [2, 2, 2]), index(sides, [3, 2, 4]));
    let room = written_length(&fit(sides), NARROW);
    let mut text =
        format!("# values stay as they are lent\n{}", wall(sides, &[([2, 2, 2], MISSING), ([3, 2, 4], MISSING), ([1, 1, 1], 5)]));
    text += &format!("begin\ndump values\nwrite {room}\nshowfile\nprogram\nread\nbegin\n");
    for lines in [
        format!("values set {} 0\n", one + 1),
        format!("values set {} {WALL}\n", one + 1),
        format!("values set {two} -7\n"),
        format!("values set {two} 7\n"),
        format!("values set {two} {MISSING}\n"),
    ] {
        text += &format!("{lines}begin\ncarve 1\nwrite {room}\nprogram\nread\nbegin\n");
    }
    text + &format!("finish\nwrite {room}\n{}begin\n", read_again(sides))
}

// ---- files

fn of_walls(sides: [usize; 3], allowed: u16, changes: &[(Voxel, i32)]) -> Grid {
    Grid { sides, allowed, values: block(sides, changes) }
}

/// Read, handed on as it is, begun, and written again.
fn read_and_begun(bytes: &[u8], n: usize) -> String {
    format!("{}dump values\ndist len {n}\nstatus len {n}\nmarks len {n}\nbegin\ncarve 4294967295\nfinish\nwrite 600\n", given(bytes))
}

fn in_every_width() -> String {
    let sides = [5, 5, 5];
    let mut text = "# gaps in layers of every width\n".to_string();
    let narrow = of_walls(sides, 1, &[([2, 2, 2], MISSING), ([1, 1, 1], 5), ([3, 1, 1], MISSING)]);
    for widths in mixtures(5) {
        text += &given(&file(&narrow, &widths));
    }
    let wide = of_walls(sides, 1, &[([2, 2, 2], MISSING), ([1, 1, 1], 50_000), ([2, 2, 1], -70_000), ([2, 3, 2], -32_768)]);
    text += &read_and_begun(&file(&wide, &[NARROW, WIDE, WIDE, NARROW, NARROW]), 125);
    let two = of_walls([5, 5, 6], 2, &[([2, 2, 2], MISSING), ([2, 2, 3], MISSING), ([1, 1, 1], 5), ([3, 3, 4], 0)]);
    let mixed = [
        [WIDE, WIDE, WIDE, NARROW, NARROW, NARROW],
        [NARROW, NARROW, NARROW, WIDE, WIDE, NARROW],
        [NARROW, WIDE, NARROW, WIDE, NARROW, WIDE],
    ];
    for widths in [[NARROW; 6], [WIDE; 6]].into_iter().chain(mixed) {
        text += &read_and_begun(&file(&two, &widths), 150);
    }
    text
}

/// Patches that make a gap, close it, open it, measure it, and put it back.
fn by_patches() -> String {
    let (sides, corner) = ([6, 6, 5], ([1, 1, 1], 5));
    let at = |v: Voxel| index(sides, v) as u32;
    let (gap, beside, second) = (at([2, 2, 2]), at([1, 2, 2]), at([3, 2, 2]));
    let solid = of_walls(sides, 1, &[corner]);
    let closed = of_walls(sides, 1, &[corner, ([2, 2, 2], MISSING)]);
    let open = of_walls(sides, 1, &[corner, ([2, 2, 2], MISSING), ([1, 2, 2], 0)]);
    let mut text = "# gaps made and broken by patches\n".to_string();
    let lost = patch(gap, NARROW_MISSING);
    let behind = [
        vec![],
        lost.clone(),
        [lost.clone(), patch(second, NARROW_MISSING)].concat(),
        [lost.clone(), patch(second, NARROW_MISSING), patch(at([4, 2, 2]), 0)].concat(),
        patch(gap, -7),
        patch(gap, 0),
        patch(gap, 32_767),
        [patch(gap, -7), lost.clone()].concat(),
        [lost.clone(), patch(gap, -7)].concat(),
        patch(beside, 0),
        patch(beside, -1),
        patch(beside, NARROW_MISSING),
        [patch(beside, 0), patch(beside, -2)].concat(),
        [patch(beside, -2), patch(beside, 0)].concat(),
        [lost.clone(), patch(beside, NARROW_MISSING), patch(beside - 1, NARROW_MISSING)].concat(),
        patch(at([0, 0, 0]), -1),
    ];
    let both = [NARROW, WIDE, WIDE, NARROW, WIDE];
    for (layers, widths) in
        [(&solid, [NARROW; 5]), (&closed, [NARROW; 5]), (&open, [NARROW; 5]), (&closed, both), (&open, both), (&open, [WIDE; 5])]
    {
        for rest in &behind {
            text += &given(&[file(layers, &widths), rest.clone()].concat());
        }
    }
    text + &read_and_begun(&[file(&solid, &[NARROW; 5]), lost].concat(), 180)
}

/// Bodies for the program whose line is another one where a gap is filled: by S, or by what is woken beside it.
fn for_the_program() -> String {
    let sides = [6, 6, 12];
    let mut text = "# the program on bodies with gaps\n".to_string();
    for allowed in [0, 1, 300] {
        for size in [5, 6, 7, 8] {
            for (gap, other) in [([2, 2, 2], 6), ([2, 2, 9], 1)] {
                let mut values = vec![OUTER; fit(sides).n()];
                values[index(sides, gap)] = MISSING;
                STEPS.iter().for_each(|&step| values[index(sides, moved(gap, step))] = WALL);
                cube([1, 1, other], [4, 4, other]).iter().take(size).for_each(|&v| values[index(sides, v)] = -3);
                text += &given(&file(&Grid { sides, allowed, values }, &[NARROW; 12]));
            }
        }
        for corners in [&[[1, 1, 1]][..], &[[1, 1, 1], [1, 1, 2], [1, 2, 1]], &[[3, 3, 3], [3, 3, 2]]] {
            let cut: Vec<(Voxel, i32)> = corners.iter().map(|&v| (v, 5)).chain([([2, 2, 2], MISSING)]).collect();
            text += &given(&file(&of_walls([5, 5, 5], allowed, &cut), &[NARROW; 5]));
        }
    }
    let hollow = cube([2, 2, 2], [4, 4, 4]).into_iter().filter(|&v| v != [3, 3, 3]).map(|v| (v, MISSING));
    let island: Vec<(Voxel, i32)> = hollow.chain([([1, 1, 1], 5)]).collect();
    text += &[0, 1, 9].map(|allowed| given(&file(&of_walls([7, 7, 7], allowed, &island), &[NARROW; 7]))).concat();
    let mut border = of_walls([5, 5, 5], 1, &[]);
    (0..125).filter(|&i| fit([5, 5, 5]).border(i)).for_each(|i| border.values[i] = MISSING);
    text + &given(&file(&border, &[NARROW; 5]))
}

pub fn scripts() -> Vec<String> {
    let mut scripts = vec![one_voxel(), diagonals()];
    scripts.extend(forms().iter().map(form));
    scripts.extend([winding(0, 1), winding(1, 0), winding(0, 2), winding(2, 1)]);
    scripts.extend([cavern([9, 8, 8], [2, 2, 2], [6, 5, 5], &[0, 1, 2]), cavern([12, 11, 11], [3, 2, 2], [9, 7, 8], &[0, 1, 2])]);
    scripts.extend([meeting(), chains(), many_gaps(), out_to_the_border(), whole_border(), beside_the_border(), hollows()]);
    scripts.extend([which_group(), islands(), carved_beside()]);
    scripts.extend(refused().scripts());
    scripts.extend([as_lent(), in_every_width(), by_patches(), for_the_program()]);
    scripts
}

/// A gap of over 65,535 voxels, for what takes longest.
pub(super) fn greatest_gap() -> String {
    cavern([64, 64, 64], [3, 2, 4], [43, 42, 45], &[0])
}

/// Gaps of one voxel by the ten thousand, in a file, as the list would be long: every second voxel of a wall. A few are open.
pub(super) fn most_gaps() -> String {
    let sides = [64, 64, 64];
    let grid = fit(sides);
    let gap = |v: [i64; 3]| v.iter().all(|x| (2..62).contains(x)) && v.iter().sum::<i64>() % 2 == 0;
    let open = [index(sides, [3, 2, 2]), index(sides, [9, 30, 8]), index(sides, [30, 31, 30]), index(sides, [60, 60, 61])];
    let value = |i: usize| match grid.coordinates(i) {
        _ if grid.border(i) => OUTER,
        _ if open.contains(&i) => 0,
        v if gap(v) => MISSING,
        _ => WALL,
    };
    let g = Grid { sides, allowed: 1, values: (0..grid.n()).map(value).collect() };
    let bytes = file(&g, &[NARROW; 64]);
    let layers = bytes[7..].chunks((bytes.len() - 7) / 64).map(|layer| format!("append {}\n", hex(layer))).collect::<String>();
    format!("# every second voxel of a wall is missing\nsides 64 64 64\nfile {}\n{layers}read\nbegin\ncarve 5\n", hex(&bytes[..7]))
}

impl Maker {
    /// A wall rich in gaps, with calls on it to the end; then the file of another, of both widths, with patches that make and break gaps.
    pub(super) fn gaps(&mut self, greatest: i64) {
        let g = walled(&mut self.r, greatest);
        let [a, b, c] = g.sides.map(|side| side as u64);
        let sides = Sides { a, b, c };
        self.set(sides, g.allowed);
        self.list_of("values", &g.values);
        self.say("begin");
        match begin(sides, g.allowed, &g.values, &self.marks, &mut self.dist, &mut self.status) {
            Ok(record) => self.record = record,
            Err(_) => self.say("carve 1\nhash"),
        }
        let filled: Vec<usize> =
            gaps(&sides, &g.values).into_iter().filter(|gap| gap.is_filled(&g.values)).flat_map(|gap| gap.voxels).collect();
        for _ in 0..3 {
            let count = self.r.between(1, 7);
            self.calls(count, [45, 35, 18, 0]);
            if !filled.is_empty() {
                let index = self.r.pick(&filled) as u64;
                self.take(index);
            }
        }
        self.and_finish();
        self.say("dump dist");

        let bytes = file_of_walls(&mut self.r, greatest.min(8));
        let (_, n) = self.reads(&bytes);
        self.say(format!(
            "values len {n}\nread\ndist len {n}\nstatus len {n}\nmarks len {n}\nbegin\ncarve 5\nopen\ncarve 4294967295\nfinish\nwrite 2500\nread\nprogram"
        ));
    }
}
