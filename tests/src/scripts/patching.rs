//! Files with patch records (document 02, CR 2): each fault of one alone, by every clause, with every fault that is looked for before it or after it;
//! what stands where patches meet; and what they do to the program's line. Those from seeds append patches.

use super::damage::{calls, damaged, Damage, Damage::*, VOXELS};
use super::Maker;
use crate::files::{file_of, hex, patch, patched_file};
use crate::grids::Grid;
use crate::records::{LONGEST_INPUT, NARROW, NARROW_MISSING};
use reference::grid::Sides;

/// n of the file that `damaged` makes: 4, 3, 3, all 6, voxel (1, 1, 1), which is 17, -6.
const N: u32 = VOXELS as u32;

/// A file with some damage to its header and layers, and with these bytes after them, for every call that reads one.
fn given(damages: &[Damage], rest: &[u8]) -> String {
    let (layers, lent) = damaged(damages);
    calls(&[&layers[..], rest].concat(), lent)
}

/// The file with these bytes after its layers, and with two good patches between.
fn alone_and_after_two(rest: &[u8]) -> String {
    let after = [&patch(14, 9)[..], &patch(18, -9), rest].concat();
    given(&[], rest) + &given(&[], &after)
}

pub(super) fn marked(mark: [u8; 2]) -> Vec<u8> {
    [&mark[..], &patch(14, 9)[2..]].concat()
}

/// As `append` lines, none of them longer than 131,079 characters.
pub(super) fn appended(bytes: &[u8]) -> String {
    bytes.chunks(LONGEST_INPUT).map(|part| format!("append {}\n", hex(part))).collect()
}

/// So many patches to n voxels, of small values over 0.
pub(super) fn many(count: usize, n: u32) -> Vec<u8> {
    (0..count as u32).flat_map(|k| patch((5 * k + 2) % n, 1 + (k % 9) as i16)).collect()
}

// ---- one fault

fn too_short() -> String {
    let two = [patch(14, 9), patch(15, 8)].concat();
    let each = (1..=9).map(|left| alone_and_after_two(&two[..left]) + &given(&[], &vec![0; left]) + &given(&[], &vec![0x56; left]));
    format!("# 1 to 9 bytes after the layers\n{}", each.collect::<String>())
}

fn wrong_marks() -> String {
    let first = [[0x57, 0x50], [0x46, 0x50], [0xD6, 0x50], [0x00, 0x50], [0x50, 0x50]];
    let second = [[0x56, 0x51], [0x56, 0x40], [0x56, 0xD0], [0x56, 0x00], [0x56, 0x56], [0x56, 0x52], [0x56, 0x57], [0x56, 0x4F]];
    let others = [[0x56, 0x4C], [0x56, 0x48], [0x50, 0x56], [0x4C, 0x56], [0x00, 0x00], [0xFF, 0xFF]];
    let each = first.into_iter().chain(second).chain(others).map(|mark| alone_and_after_two(&marked(mark)));
    format!("# marks that are not a patch's\n{}", each.collect::<String>())
}

/// Indices at n and over it, some of which are under it in their low bytes, or with their bytes the other way round.
fn beyond() -> String {
    let over = [N, N + 1, N + 2, 255, 256, 256 + 17, 65535, 65536, 65536 + 17, 17 << 8, 17 << 16, 17 << 24, (17 << 24) + 17];
    let far = [1 << 31, (1 << 31) + 17, u32::MAX - 1, u32::MAX];
    let each = over.into_iter().chain(far).map(|index| alone_and_after_two(&patch(index, 9)));
    format!("# indices of n and more\n{}", each.collect::<String>())
}

fn within() -> String {
    let places = [0, 1, 3, 4, 11, 12, 17, 18, 23, 24, N - 2, N - 1];
    let values = [NARROW_MISSING, -32767, -257, -256, -255, -1, 0, 1, 255, 256, 32767, 0x4856, 0x4C56, 0x5056];
    let at = places.map(|index| alone_and_after_two(&patch(index, 515))).concat();
    let of = values.map(|value| alone_and_after_two(&patch(14, value)) + "dump values\n").concat();
    format!("# indices under n, and values of every kind\n{at}{of}")
}

// ---- two faults

/// Each of the three numbers twice.
fn bad() -> [Vec<u8>; 6] {
    let whole = patch(14, 9);
    [whole[..1].to_vec(), whole[..7].to_vec(), marked([0x57, 0x50]), marked([0x56, 0x4C]), patch(N, 9), patch(65536 + 14, 9)]
}

fn with_each_bad(damages: &[Damage]) -> String {
    bad().iter().map(|rest| given(damages, rest)).collect()
}

fn after_header_and_layers() -> String {
    let damages = [HeaderMark(0), HeaderMark(1), Lent(1), Lent(-1), Mark(2, 0), Mark(0, 1), Z(2, 3), Z(1, 255), Again(2), Again(1)];
    let each = damages.map(|damage| with_each_bad(&[damage])).concat();
    format!("# a fault of the header or of a layer before a patch's\n{each}")
}

/// Grids of unfit sides with nothing else wrong but a patch; 25 is fit for read alone.
fn after_sides() -> String {
    let all = [[2, 3, 3], [3, 2, 3], [3, 3, 2], [65, 3, 3], [3, 3, 65], [25, 3, 3], [3, 25, 3], [3, 3, 25]];
    let file = |sides: [usize; 3]| {
        let n: usize = sides.iter().product();
        let layers = file_of(&Grid { sides, allowed: 0, values: vec![6; n] }, &(0..sides[2]).collect::<Vec<_>>());
        let rests = [patch(14, 9)[..5].to_vec(), marked([0x56, 0x51]), patch(n as u32, 9), patch(14, 9)];
        rests.map(|rest| calls(&[&layers[..], &rest].concat(), n as i64)).concat()
    };
    format!("# 1 before a patch's faults\n{}", all.map(file).concat())
}

fn two_of_one_patch() -> String {
    let other = [&[0x56, 0x4C][..], &patch(N, 9)[2..]].concat();
    let first = [&[0x57, 0x50][..], &patch(65536, 9)[2..]].concat();
    let cut = [&marked([0x57, 0x50])[..1], &marked([0x57, 0x50])[..7], &marked([0x56, 0x4C])[..2], &marked([0x56, 0x4C])[..7]];
    let beyond = [&patch(N, 9)[..7], &patch(N, 9)[..6], &patch(65536 + 14, 9)[..7], &patch(u32::MAX, 9)[..6]];
    let both = [&other[..], &first[..], &other[..7], &first[..6]];
    let each = cut.into_iter().chain(beyond).chain(both).map(alone_and_after_two);
    format!("# two faults of one patch\n{}", each.collect::<String>())
}

fn two_patches() -> String {
    let [_, _, first, second, n, low] = bad();
    let good = patch(20, 4);
    let mut text = "# a patch's fault before those of later patches\n".to_string();
    for earlier in [first, second, n, low] {
        for later in bad() {
            text += &given(&[], &[&earlier[..], &later].concat());
            text += &given(&[], &[&good[..], &earlier, &good, &later].concat());
        }
    }
    text
}

fn before_begin() -> String {
    let layers = [BorderNegative(0), BorderNegative(21), NoneNegative, OnlyMissing].map(|damage| with_each_bad(&[damage])).concat();
    let brought = [patch(0, -1), patch(17, 6)];
    let patched = brought.iter().flat_map(|first| bad().map(|rest| given(&[], &[&first[..], &rest].concat())));
    format!("# a patch's fault before begin's\n{layers}{}", patched.collect::<String>())
}

// ---- what patches do

/// A body made, moved or taken away, and a border spoilt or mended, also on the way to what stands at the end.
fn body_and_border() -> String {
    let mut text = "# 3 and 4 brought about by patches, and mended by them\n".to_string();
    for voxel in [16, 19, 13, 21, 5, 29] {
        for rest in [vec![-1], vec![-32767], vec![NARROW_MISSING], vec![0], vec![-1, 6], vec![6, -1], vec![-1, NARROW_MISSING]] {
            text += &given(&[], &rest.iter().flat_map(|&value| patch(voxel, value)).collect::<Vec<_>>());
        }
        text += &given(&[BorderNegative(voxel as usize)], &patch(voxel, 6));
        text += &given(&[BorderNegative(voxel as usize)], &patch(voxel, NARROW_MISSING));
    }
    for values in [vec![6], vec![0], vec![NARROW_MISSING], vec![6, -6], vec![-6, 6], vec![NARROW_MISSING, -1], vec![-32767]] {
        let rest: Vec<u8> = values.iter().flat_map(|&value| patch(17, value)).collect();
        text += &given(&[], &rest);
        text += &given(&[NoneNegative], &rest);
        text += &given(&[OnlyMissing], &rest);
    }
    let none: Vec<u8> = (0..N).flat_map(|index| patch(index, NARROW_MISSING)).collect();
    text + &given(&[], &none) + &given(&[], &[patch(17, 6), patch(18, -6)].concat()) + &given(&[NoneNegative], &patch(18, -1))
}

/// Case C's ring, with T, and with patches that close it, break it or put a second body beside it. And case D made by patches alone.
fn bodies() -> String {
    let ring = [31, 32, 33, 36, 38, 41, 42, 43];
    let file = |allowed: u16, rest: &[u8]| {
        let values = (0..75).map(|i| if ring.contains(&i) { -4 } else { 4 }).collect();
        calls(&[&file_of(&Grid { sides: [5, 5, 3], allowed, values }, &[0, 1, 2])[..], rest].concat(), 75)
    };
    let closed = patch(37, -4);
    let broken = [patch(31, 4), patch(43, NARROW_MISSING)].concat();
    let fewer: Vec<u8> = [32, 33, 36, 38, 41].into_iter().flat_map(|voxel| patch(voxel, 7)).collect();
    let again = [&closed[..], &patch(37, 4)].concat();
    let far = patch(37, 32767);
    let rings = [0, 1, 256].map(|t| [&[][..], &closed, &broken, &fewer, &again, &far].map(|rest| file(t, rest)).concat()).concat();
    let even = file_of(&Grid { sides: [4, 4, 3], allowed: 0, values: vec![6; 48] }, &[0, 1, 2]);
    let case_d = calls(&[even, patch(21, -6), patch(26, -6)].concat(), 48);
    format!("# case C's ring patched, and case D made by patches\n{rings}{case_d}")
}

/// Voxels patched again and again: the last patch of each stands.
fn in_file_order() -> String {
    let to =
        |voxels: &[u32], values: &[i16]| values.iter().zip(voxels.iter().cycle()).flat_map(|(&v, &i)| patch(i, v)).collect::<Vec<u8>>();
    let rising: Vec<i16> = (1..=40).collect();
    let falling: Vec<i16> = (1..=40).rev().collect();
    let all = [
        to(&[14], &[3, 4]),
        to(&[14], &[4, 3]),
        to(&[14], &[3, 4, 3]),
        to(&[14], &[7, 6]),
        to(&[14], &[NARROW_MISSING, 5]),
        to(&[14], &[5, NARROW_MISSING]),
        to(&[14], &rising),
        to(&[14], &falling),
        to(&[14, 15], &rising),
        to(&[15, 14, 35], &falling),
        to(&[0, 35, 0, 17], &[1, 2, 3, -4, 5, -6, 7, -8]),
    ];
    format!("# the later patch to a voxel stands\n{}", all.map(|rest| given(&[], &rest) + "dump values\n").concat())
}

/// Three different sides, and a patch for every voxel, the last first; then a second round over some of them.
fn every_voxel() -> String {
    let sides = [5, 7, 6];
    let values = (0..210).map(|i| if i == 87 { -3 } else { 3 + i % 7 }).collect();
    let layers = file_of(&Grid { sides, allowed: 1, values }, &[0, 1, 2, 3, 4, 5]);
    let round: Vec<u8> = (0..210).rev().flat_map(|i| patch(i, 301 * (i as i16 % 100))).collect();
    let again: Vec<u8> = (0..210).step_by(4).flat_map(|i| patch(i, [NARROW_MISSING, 1, 2][i as usize % 3])).collect();
    let one_each = [patch(17, 9), patch(52, -5), patch(87, -5), patch(122, -5), patch(157, -5), patch(192, 9)].concat();
    let all = [&round[..], &again, &one_each].concat();
    let rests = [&one_each, &round, &[&round[..], &again].concat(), &all, &patch(210, 1), &patch(209, 1)];
    let each = rests.map(|rest| calls(&[&layers[..], rest].concat(), 210) + "dump values\n").concat();
    format!("# a patch for every voxel\n{each}")
}

// ---- patches and the other calls

/// A patch is no layer for readlayer, nor a layer a patch for read.
fn layers_asked() -> String {
    let layers = file_of(&Grid { sides: [3, 3, 3], allowed: 0, values: (0..27).collect() }, &[0, 1, 2]);
    let patches: Vec<u8> =
        [(1, 0x4C56), (2, 0x4C56), (0, 1), (26, -1), (13, -5), (7, 2)].into_iter().flat_map(|(i, v)| patch(i, v)).collect();
    let starts = |starts: &[usize]| starts.iter().map(|start| format!("readlayer {start}\n")).collect::<String>();
    let asked = starts(&[7, 28, 49, 70, 71, 76, 78, 84, 86, 94, 97, 98, 102, 110, 117, 118, 119]);
    let layer_again = [&layers[..], &layers[28..49]].concat();
    let between = [&layers[..28], &patches, &layers[28..]].concat();
    let among = [&layers[..], &patches[..8], &layers[28..49]].concat();
    let others: String = [layer_again, between, among].iter().map(|file| calls(file, 27) + &starts(&[28, 70, 76, 78])).collect();
    format!(
        "# readlayer at patches, and layers where patches are due\nsides 3 3 3\nfile {}{}\nread\n{asked}{others}",
        hex(&layers),
        hex(&patches)
    )
}

/// What follows read: begin takes the patched values; after a refusal sides, T and values are as before.
fn read_then_begin() -> String {
    let (layers, _) = damaged(&[]);
    let go_on =
        format!("dist len {VOXELS}\nstatus len {VOXELS}\nmarks len {VOXELS}\nbegin\ncarve 4294967295\nfinish\ncrossing 17 0\ncrossing 18 0\npoints 0 60\n");
    let steps = [
        [patch(18, -9), patch(17, 2), patch(14, NARROW_MISSING)].concat(),
        vec![0x56, 0x50, 17],
        vec![0, 0, 0, 0xFE, 0xFF],
        patch(N, 1),
        marked([0x56, 0x4C]),
    ];
    let steps = steps.map(|step| format!("{}T 9\nread\n{go_on}", appended(&step))).concat();
    format!("# read, then begin\nsides 3 3 3\nT 7\nfile {}\nvalues len {VOXELS}\nread\n{go_on}{steps}", hex(&layers))
}

/// The writer writes layers alone: what is read from a file with patches comes out with them among the values.
fn written() -> String {
    let values = (0..48).map(|i| 100 * i - 2400).collect();
    let layers = file_of(&Grid { sides: [4, 3, 4], allowed: 770, values }, &[0, 1, 2, 3]);
    let all = [patch(0, 1), patch(47, NARROW_MISSING), [patch(17, 5), patch(30, -32767), patch(17, -5)].concat(), many(60, 48)];
    let length = layers.len();
    let each = all.map(|patches| {
        let more = patches.len() + length;
        let write =
            format!("write {}\nshowfile\nwrite {more}\nshowfile\nrawsides 65 65 65\nT 9\nvalues fill 77\nread\ndump values\n", length - 1);
        format!(
            "sides 4 3 4\nT 0\nfile {}{}\nread\n{write}{}read\nwrite {length}\nshowfile\n",
            hex(&layers),
            hex(&patches),
            appended(&patches)
        )
    });
    format!("# what is written has no patches\n{}", each.concat())
}

pub fn scripts() -> Vec<String> {
    let mut scripts = vec![too_short(), wrong_marks(), beyond(), within()];
    scripts.extend([after_header_and_layers(), after_sides(), two_of_one_patch(), two_patches(), before_begin()]);
    scripts.extend([body_and_border(), bodies(), in_file_order(), every_voxel()]);
    scripts.extend([layers_asked(), read_then_begin(), written()]);
    scripts
}

impl Maker {
    /// A patch for a grid of n voxels, seldom one that is refused.
    fn patch(&mut self, n: u64) -> Vec<u8> {
        let index = if self.r.chance(92) { self.r.below(n.max(1)) } else { self.r.pick(&[n, n + 1, 65536, 1 << 24, u32::MAX.into()]) };
        let value = self.r.pick(&[6, 6, 6, 1, 0, 32767, -6, -1, -32767, NARROW_MISSING]);
        let mut record = patch(index as u32, value);
        if self.r.chance(4) {
            record.truncate(self.r.between(1, 7) as usize);
        }
        record
    }

    /// A file with patches, to which others are appended one after the other, and which is written between them.
    pub(super) fn patches(&mut self, seed: u64, greatest: i64) {
        let bytes = patched_file(seed, greatest);
        let ([a, b, c], n) = self.reads(&bytes);
        for _ in 0..3 {
            let start = 7 + c * (3 + 2 * a * b) + self.r.pick(&[0, 0, 8, 16, 1, 6]);
            self.say(format!("readlayer {start}"));
        }
        self.say(format!("values len {n}"));
        let sides = Sides { a, b, c };
        for _ in 0..self.r.between(2, 6) {
            let record = self.patch(n);
            self.say(format!("append {}\nvalues fill 77\nread\nprogram", hex(&record)));
            if sides.fit() && self.r.chance(30) {
                self.write(&sides, NARROW);
                self.say("showfile\nread");
            }
        }
        self.say(format!(
            "rawsides {a} {b} {c}\ndist len {n}\nstatus len {n}\nmarks len {n}\nbegin\ncarve 5\nopen\ncarve 4294967295\nfinish"
        ));
    }
}
