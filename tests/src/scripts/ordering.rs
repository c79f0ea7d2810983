//! The order of a file's layers (document 02, CR 4): every order of three layers and of four; five with one of them left out, taken twice or moved; 27
//! with every fault that is looked for before it or after it; and such files with patches, read by the layer, and read between other calls. Those from
//! seeds have layers moved by chance.

use super::damage::calls;
use super::patching::marked;
use super::Maker;
use crate::files::{file_of, hex, patch, shuffled};
use crate::grids::{grid, Grid};
use crate::records::{MISSING, NARROW_MISSING};

/// The values of a layer, 4 by 3.
const AREA: usize = 12;
const RECORD: usize = 3 + 2 * AREA;

fn start(record: usize) -> usize {
    7 + RECORD * record
}

/// 4, 3, c with T = 258. No two layers are the same, and voxel (1, 1, 1) is inside.
fn whole(c: usize) -> Grid {
    let values = (0..AREA * c).map(|i| if i == 17 { -6 } else { 6 + i as i32 % 50 }).collect();
    Grid { sides: [4, 3, c], allowed: 258, values }
}

/// The file of a grid with a record for each z, of that layer; a z beyond the grid has the last layer's values.
fn records_of(g: &Grid, z: &[usize]) -> Vec<u8> {
    let [a, b, c] = g.sides;
    let layers: Vec<usize> = z.iter().map(|&z| z.min(c - 1)).collect();
    let mut file = file_of(g, &layers);
    z.iter().enumerate().for_each(|(k, &z)| file[7 + (3 + 2 * a * b) * k + 2] = z as u8);
    file
}

/// The file of 4, 3, c with these records.
fn file(c: usize, z: &[usize]) -> Vec<u8> {
    records_of(&whole(c), z)
}

/// For every call that reads a file, with as many values lent as its sides say.
fn given(file: &[u8]) -> String {
    calls(file, file[2..5].iter().map(|&side| i64::from(side)).product())
}

fn each(c: usize, orders: &[&[usize]]) -> String {
    orders.iter().map(|z| given(&file(c, z))).collect()
}

// ---- orders

/// Three records with each z from 0 to 3.
fn of_three() -> String {
    let all = (0..64).map(|word| given(&file(3, &[word / 16, word / 4 % 4, word % 4])));
    format!("# three layers in every order, left out, taken twice and beyond the grid\n{}", all.collect::<String>())
}

fn of_four() -> String {
    let mut text = "# four layers in every order\n".to_string();
    for word in 0..256 {
        let z = [word / 64, word / 16 % 4, word / 4 % 4, word % 4];
        if (0..4).all(|layer| z.contains(&layer)) {
            text += &given(&file(4, &z));
        }
    }
    text
}

/// One record of five with each other z.
fn one_changed() -> String {
    let mut text = "# five layers, one of them with another z\n".to_string();
    for record in 0..5 {
        for other in [0, 1, 2, 3, 4, 5, 6, 127, 128, 255] {
            let mut z = [0, 1, 2, 3, 4];
            z[record] = other;
            if other != record {
                text += &given(&file(5, &z));
            }
        }
    }
    text
}

fn moved() -> String {
    let exchanged = (0..5).flat_map(|i| (i + 1..5).map(move |j| (i, j))).map(|(i, j)| {
        let mut z = [0, 1, 2, 3, 4];
        z.swap(i, j);
        given(&file(5, &z))
    });
    let others = each(
        5,
        &[
            &[0, 1, 2, 3, 4],
            &[4, 3, 2, 1, 0],
            &[1, 2, 3, 4, 0],
            &[2, 3, 4, 0, 1],
            &[4, 0, 1, 2, 3],
            &[0, 4, 3, 2, 1],
            &[0, 2, 4, 1, 3],
            &[0, 1, 3, 4, 2],
            &[0, 1, 4, 2, 3],
        ],
    );
    format!("# five layers, some of them moved\n{}{others}", exchanged.collect::<String>())
}

/// Layers left out, so that those after them are one early; and what may stand at the end in their place.
fn left_out() -> String {
    let orders: [&[usize]; 14] = [
        &[1, 2, 3, 4, 5],
        &[0, 2, 3, 4, 5],
        &[0, 1, 3, 4, 5],
        &[0, 1, 2, 4, 5],
        &[2, 3, 4, 5, 6],
        &[0, 3, 4, 5, 6],
        &[0, 1, 4, 5, 6],
        &[1, 2, 3, 4, 4],
        &[0, 2, 3, 4, 4],
        &[0, 2, 2, 3, 4],
        &[0, 1, 3, 3, 4],
        &[0, 2, 4, 6, 8],
        &[1, 1, 2, 3, 4],
        &[4, 4, 4, 4, 4],
    ];
    format!("# five layers with one left out, or numbered from 1\n{}", each(5, &orders))
}

/// A repeat and a layer that is not the next in one file, either first.
fn repeats() -> String {
    let orders: [&[usize]; 14] = [
        &[0, 0, 2, 3, 4],
        &[0, 0, 3, 2, 4],
        &[0, 0, 4, 3, 2],
        &[0, 1, 0, 4, 3],
        &[0, 1, 1, 4, 2],
        &[0, 1, 2, 0, 4],
        &[0, 1, 2, 2, 4],
        &[0, 1, 2, 3, 0],
        &[0, 1, 2, 3, 3],
        &[0, 2, 2, 3, 4],
        &[0, 2, 0, 1, 3],
        &[0, 1, 3, 0, 2],
        &[0, 1, 4, 4, 2],
        &[3, 3, 0, 1, 2],
    ];
    format!("# a repeat before a layer that is not the next, and after one\n{}", each(5, &orders))
}

/// As many layers as a file of the program may have, or of read: a set of 8, 16 or 32 bits does not hold them, and 3, 4 or 5 bits do not tell them
/// apart.
fn of_many() -> String {
    let body = |c: usize| Grid { sides: [3, 3, c], allowed: 0, values: (0..9 * c).map(|i| if i == 13 { -5 } else { 5 }).collect() };
    let mut text = "# 24 layers and 64\n".to_string();
    for (c, places) in [(24, &[0, 7, 8, 9, 15, 16, 17, 20, 21, 22][..]), (64, &[0, 8, 15, 16, 31, 32, 33, 47, 61, 62])] {
        let mut wrong: Vec<Vec<usize>> = vec![(0..c).collect(), (0..c).rev().collect()];
        for (place, other) in places.iter().map(|&place| (place, place + 1)).chain([(5, 13), (5, 21), (11, 43)]) {
            let mut z: Vec<usize> = (0..c).collect();
            z.swap(place, other.min(c - 1));
            wrong.push(z);
        }
        for (place, again) in [(c - 1, 0), (c - 1, c - 2), (c - 2, c - 4), (c / 2 + 1, c / 2 - 7), (c / 2 + 2, 1)] {
            let mut z: Vec<usize> = (0..c).collect();
            z[place] = again;
            wrong.push(z.clone());
            z.swap(c / 4, c / 4 + 1);
            wrong.push(z);
        }
        text += &wrong.iter().map(|z| given(&records_of(&body(c), z))).collect::<String>();
    }
    text
}

// ---- 27 and other faults

/// Files whose only fault is 27: of the first record, of the second, of the last that can have it, and of all of them.
const WRONG: [&[usize]; 4] = [&[1, 0, 2, 3, 4], &[0, 3, 2, 1, 4], &[0, 1, 2, 4, 3], &[4, 3, 2, 1, 0]];

fn changed(mut file: Vec<u8>, changes: &[(usize, u8)]) -> Vec<u8> {
    changes.iter().for_each(|&(at, byte)| file[at] = byte);
    file
}

/// The header's mark, its sides and the length of the lent values. With c = 2 the first two records stay where they are.
fn after_the_header() -> String {
    let mut text = "# a fault of the header before 27\n".to_string();
    for z in WRONG {
        for change in [(0, 0x57), (1, 0x4C), (2, 2), (3, 65), (4, 2), (4, 65), (4, 25), (4, 64)] {
            text += &given(&changed(file(5, z), &[change]));
        }
        for lent in [0, 59, 61] {
            text += &calls(&file(5, z), lent);
        }
        text += &[6, 4, 1].map(|length| format!("file {}\nread\nprogram\n", hex(&file(5, z)[..length]))).concat();
    }
    text
}

/// A record that is no repeat and not the next, and cut off, or with a wrong mark, or beyond the grid.
fn of_one_record() -> String {
    let mut text = "# other faults of a record before its 27\n".to_string();
    for (record, z) in
        [(0, &[1, 0, 2, 3, 4][..]), (1, &[0, 3, 2, 1, 4]), (3, &[0, 1, 2, 4, 3]), (2, &[0, 1, 5, 2, 3]), (0, &[255, 0, 1, 2, 3])]
    {
        let (file, at) = (file(5, z), start(record));
        text += &[at, at + 1, at + 2, at + 3, at + RECORD - 1].map(|length| given(&file[..length])).concat();
        text += &[(at, 0x46), (at + 1, 0x50), (at + 1, 0x48)].map(|change| given(&changed(file.clone(), &[change]))).concat();
        text += &given(&changed(file.clone(), &[(at + 1, 0x48)])[..at + RECORD - 1]);
    }
    text
}

/// 27 of a record, and every fault of the next one. And the same faults of a record before the one that has 27.
fn of_two_records() -> String {
    let mut text = "# 27 before the faults of the next record, and after those of the record before\n".to_string();
    for (record, z) in [(0, &[1, 0, 2, 3, 4][..]), (1, &[0, 2, 1, 3, 4]), (1, &[0, 4, 2, 3, 1]), (3, &[0, 1, 2, 4, 3])] {
        let (file, next) = (file(5, z), start(record + 1));
        text += &[next, next + 1, next + 2, next + RECORD - 1].map(|length| given(&file[..length])).concat();
        text += &[(next, 0x57), (next + 1, 0x50), (next + 2, 5), (next + 2, 255), (next + 2, z[record] as u8), (next + 2, z[0] as u8)]
            .map(|change| given(&changed(file.clone(), &[change])))
            .concat();
    }
    for (record, z) in [(1, &[0, 1, 3, 2, 4][..]), (0, &[0, 2, 1, 3, 4]), (2, &[0, 1, 2, 4, 3]), (0, &[0, 4, 3, 2, 1])] {
        let (file, at) = (file(5, z), start(record));
        let faults = [(at, 0x57), (at + 1, 0x50), (at + 2, 5), (at + 2, 255)];
        text += &faults.map(|change| given(&changed(file.clone(), &[change]))).concat();
    }
    text + &each(5, &[&[0, 0, 3, 2, 4], &[0, 0, 4, 2, 3], &[0, 1, 1, 4, 3], &[0, 1, 0, 4, 2]])
}

/// What follows the layers: patches, good ones and each kind of wrong one; the layer that was due; and nothing.
fn before_patches() -> String {
    let whole = patch(14, 9);
    let layer = |z: usize| file(5, &[z])[7..].to_vec();
    let behind = [
        whole.clone(),
        [patch(17, 6), patch(59, NARROW_MISSING), patch(0, -1)].concat(),
        whole[..1].to_vec(),
        whole[..7].to_vec(),
        marked([0x57, 0x50]),
        marked([0x56, 0x4C]),
        patch(60, 9),
        patch(65536 + 14, 9),
        [patch(60, 9), vec![0; 8]].concat(),
        layer(0),
        layer(1),
        layer(4),
        vec![0; 3],
    ];
    let mut text = "# 27 before all that follows the layers\n".to_string();
    for z in WRONG.into_iter().chain([&[0, 1, 2, 3, 4][..], &[0, 1, 2, 3, 3]]) {
        text += &behind.iter().map(|rest| given(&[&file(5, z)[..], rest].concat())).collect::<String>();
    }
    text
}

/// Grids that begin refuses, and one that patches spoil.
fn before_begin() -> String {
    let border: [&dyn Fn(usize) -> bool; 3] = [&|i| i == 0, &|i| i == 59, &|i| i == 16];
    let with = |wanted: &dyn Fn(usize) -> bool, value: i32| {
        let mut g = whole(5);
        (0..60).filter(|&i| wanted(i)).for_each(|i| g.values[i] = value);
        g
    };
    let mut text = "# 27 before begin's faults\n".to_string();
    for z in WRONG.into_iter().chain([&[0, 1, 2, 3, 4][..]]) {
        for g in border.map(|wanted| with(wanted, -1)).into_iter().chain([with(&|i| i == 17, 6), with(&|_| true, MISSING)]) {
            text += &given(&records_of(&g, z));
        }
    }
    text
}

// ---- such files and the other calls

/// A file that comes layer by layer: what is not in order is told as soon as its record is whole.
fn as_it_comes() -> String {
    let mut text = "# files that come layer by layer\n".to_string();
    for z in WRONG.into_iter().chain([&[0, 1, 2, 3, 4][..], &[0, 1, 3, 2, 4], &[0, 1, 1, 3, 4]]) {
        let file = file(5, z);
        text += &format!("sides 4 3 5\nvalues fill 77\nfile {}\nread\n", hex(&file[..7]));
        for record in 0..5 {
            let (first, rest) = file[start(record)..start(record + 1)].split_at(RECORD - 1);
            text += &format!("append {}\nread\nappend {}\nread\nprogram\nreadlayer {}\n", hex(first), hex(rest), start(record));
        }
    }
    text
}

/// A layer by itself is read wherever it stands and whichever it is, repeats too; and with other sides.
fn by_the_layer() -> String {
    let mut text = "# layers out of order, read one by one\n".to_string();
    for z in [&[4, 3, 2, 1, 0][..], &[1, 2, 3, 4, 0], &[0, 0, 0, 0, 0], &[4, 4, 1, 1, 4], &[2, 0, 5, 1, 9]] {
        text += &format!("file {}\nsides 4 3 5\n", hex(&file(5, z)));
        text += &(0..6).rev().chain([1, 4]).map(|record| format!("readlayer {}\n", start(record))).collect::<String>();
        text += &format!("rawsides 4 3 3\nreadlayer {}\nrawsides 3 4 64\nreadlayer {}\nrawsides 4 3 5\nread\n", start(1), start(3));
    }
    text
}

/// What follows read: begin takes the values, the sides and T that it set; after 27 all three are as before.
fn read_then_begin() -> String {
    let go_on = "dist len 60\nstatus len 60\nmarks len 60\nbegin\ncarve 4294967295\nfinish\ncrossing 17 0\npoints 0 60\n";
    let good = hex(&file(5, &[0, 1, 2, 3, 4]));
    let first = format!("sides 3 3 3\nT 7\nfile {good}\nvalues len 60\nread\n{go_on}");
    let wrong = |z: &[usize]| format!("file {}\nT 9\nread\nprogram\n{go_on}values set 18 -3\nread\n{go_on}", hex(&file(5, z)));
    format!("# read, then begin\n{first}{}file {good}\nread\n{go_on}", WRONG.map(wrong).concat())
}

/// A write after 27 is of the values that were there, with its layers rising; and a file as written is read.
fn written() -> String {
    let listed: Vec<String> = whole(5).values.iter().map(|v| v.to_string()).collect();
    let each = WRONG.map(|z| {
        let length = start(5);
        format!("file {}\nread\nshowfile\nwrite {length}\nshowfile\nread\nprogram\nvalues set 20 -9\n", hex(&file(5, z)))
    });
    format!("# written after 27\nsides 4 3 5\nT 258\nvalues list {}\n{}", listed.join(" "), each.concat())
}

pub fn scripts() -> Vec<String> {
    let mut scripts = vec![of_three(), of_four(), one_changed(), moved(), left_out(), repeats(), of_many()];
    scripts.extend([after_the_header(), of_one_record(), of_two_records(), before_patches(), before_begin()]);
    scripts.extend([as_it_comes(), by_the_layer(), read_then_begin(), written()]);
    scripts
}

impl Maker {
    /// The z of the records of a file, rising now and then.
    fn order(&mut self, c: usize) -> Vec<usize> {
        let mut z: Vec<usize> = (0..c).collect();
        let (i, j) = (self.r.below(c as u64) as usize, self.r.below(c as u64) as usize);
        match self.r.below(9) {
            0 | 1 => {}
            2 => z.swap(i.min(c - 2), i.min(c - 2) + 1),
            3 => z.swap(i, j),
            4 => z.rotate_left(i),
            5 => z.reverse(),
            6 => z[i] = self.r.below(c as u64 + 2) as usize,
            7 => z[i..].iter_mut().for_each(|z| *z += 1),
            _ => z = shuffled(&mut self.r, c),
        }
        z
    }

    /// A file with its layers in some order, seldom damaged otherwise or with patches behind them.
    fn file_in_some_order(&mut self, greatest: i64) -> Vec<u8> {
        let g = grid(&mut self.r, greatest);
        let ([a, b, c], n) = (g.sides, g.values.len() as u64);
        let z = self.order(c);
        let mut file = records_of(&g, &z);
        let record = 7 + (3 + 2 * a * b) * self.r.below(c as u64) as usize;
        if self.r.chance(10) {
            file[record + self.r.below(2) as usize] ^= 1 << self.r.below(8);
        }
        while self.r.chance(25) {
            file.extend(patch(self.r.below(n + 1) as u32, self.r.between(-9, 99) as i16));
        }
        if self.r.chance(15) {
            file.truncate(self.r.below(file.len() as u64) as usize);
        }
        file
    }

    /// A few files, each read whole, by the program and, here and there, by the layer; and what begin makes of the last.
    pub(super) fn orders(&mut self, greatest: i64) {
        for _ in 0..self.r.between(2, 4) {
            let file = self.file_in_some_order(greatest);
            let ([a, b, c], n) = self.reads(&file);
            for _ in 0..3 {
                let start = 7 + (3 + 2 * a * b) * self.r.below(c);
                self.say(format!("readlayer {start}"));
            }
            self.say(format!("values len {n}\nread\ndist len {n}\nstatus len {n}\nmarks len {n}\nbegin"));
        }
        self.say("carve 5\nopen\ncarve 4294967295\nfinish");
    }
}
