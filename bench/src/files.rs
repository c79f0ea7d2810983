//! Read and write by the value, of narrow layers and of wide ones: ours against three ways in Rust, and against another archive's where that takes the
//! same.

use crate::singles::archives;
use crate::{against_all, named, Demand, GRIDS, LARGEST};
use bench::contest::{Case, ROUNDS};
use bench::file::{self, Chunked, Indexed, Packed, Way};
use bench::grids::{self, lengthened, Shape};
use bench::race::Order;
use bench::types::{size, Sides, Values};
use bench::{archive, clock};
use std::hint::black_box;
use wattlerugby::written;

/// Values that a contestant reads or writes in one round, so that the clock's own time counts for little.
const VALUES: usize = 1 << 20;

/// Reads a file; whether it was taken.
pub type Read = Box<dyn Fn(&[u8], &mut Values) -> bool>;

/// Who reads, and what is done afterwards, before the values are compared.
pub struct Reader {
    pub read: Read,
    pub take_back: fn(&mut Values),
}

fn archive_reader(others: archive::Others) -> Reader {
    Reader { read: Box::new(move |file, values| (others.read)(file, values).refusal == 0), take_back: others.take_back }
}

fn rust_reader<W: Way>() -> Reader {
    Reader { read: Box::new(|file, values| file::read::<W>(file, &mut values.wide).is_ok()), take_back: |_| () }
}

/// Ours, (a), a loop by index, and the other archive's where one is given.
pub fn readers() -> Vec<Reader> {
    let mut all: Vec<Reader> = archives().into_iter().map(|archive| archive_reader(archive.others)).collect();
    all.splice(1..1, [rust_reader::<Chunked>(), rust_reader::<Indexed>()]);
    all
}

/// A grid with a file of it, and what it is called.
struct Sheet {
    title: String,
    case: Case,
    file: Vec<u8>,
}

/// What a contestant is lent.
struct Desk {
    values: Values,
    file: Vec<u8>,
}

/// Fills in what the desk lacks of a sheet; whether the sheet was taken.
type Run = Box<dyn Fn(&Sheet, &mut Desk) -> bool>;

struct Contestant {
    run: Run,
    take_back: fn(&mut Values),
}

fn reading(reader: Reader) -> Contestant {
    Contestant { run: Box::new(move |_, desk| (reader.read)(&desk.file, &mut desk.values)), take_back: reader.take_back }
}

fn archive_writing(write: archive::Write) -> Contestant {
    let run = move |Sheet { case, .. }: &Sheet, desk: &mut Desk| write(case.sides, case.allowed, &desk.values, &mut desk.file).refusal == 0;
    Contestant { run: Box::new(run), take_back: |_| () }
}

fn rust_writing<W: Way>() -> Contestant {
    let run =
        |Sheet { case, .. }: &Sheet, desk: &mut Desk| file::write::<W>(case.sides, case.allowed, &desk.values.wide, &mut desk.file).is_ok();
    Contestant { run: Box::new(run), take_back: |_| () }
}

/// Ours, (a), (b), a loop by index, and the other archive's where one is given.
fn layer_readers() -> Vec<Contestant> {
    let mut all = readers();
    all.insert(2, rust_reader::<Packed>());
    all.into_iter().map(reading).collect()
}

/// Who writes, in the order of those who read layers.
fn writers() -> Vec<Contestant> {
    let mut all: Vec<Contestant> = archives().into_iter().filter_map(|archive| archive.others.write).map(archive_writing).collect();
    all.splice(1..1, [rust_writing::<Chunked>(), rust_writing::<Packed>(), rust_writing::<Indexed>()]);
    all
}

/// The least time of each contestant on each sheet in ns a value, all in the same rounds; infinite where it does not take the sheet. `lacking` is
/// the desk of a sheet before a contestant comes to it.
fn race(sheets: &[Sheet], all: &[Contestant], lacking: fn(&Sheet) -> Desk) -> Vec<Vec<f64>> {
    let starts: Vec<Desk> = sheets.iter().map(lacking).collect();
    let mut desks: Vec<Desk> = sheets.iter().map(lacking).collect();
    let mut least = vec![vec![f64::INFINITY; all.len()]; sheets.len()];
    let mut order = Order::of(all.len());
    for _ in 0..5 * ROUNDS {
        for (((sheet, start), desk), least) in sheets.iter().zip(&starts).zip(&mut desks).zip(&mut least) {
            let repeats = VALUES / size(sheet.case.sides);
            for k in order.drawn() {
                let (contestant, least) = (&all[k], &mut least[k]);
                desk.values.set(&start.values);
                desk.file.copy_from_slice(&start.file);
                let from = clock::now();
                let taken = (0..repeats).map(|_| black_box((contestant.run)(sheet, black_box(desk)))).last();
                let time = clock::since(from);
                if taken == Some(true) {
                    *least = least.min(time / (repeats * size(sheet.case.sides)) as f64);
                    (contestant.take_back)(&mut desk.values);
                    assert!(desk.values == sheet.case.values && desk.file == sheet.file, "{}: other values or bytes", sheet.title);
                }
            }
        }
    }
    least
}

/// Prints a table; the answer is what is asked of ours to a loop by index, on each sheet, and to (b) on the largest narrow one. (a) and (b) go through
/// arrays of bytes, and where values are copied as they are Rust makes calls of the C library's memcpy from it: that figure shows what a copy costs at
/// best, and is no loop any more.
fn measure(word: &str, most: f64, sheets: Vec<Sheet>, all: Vec<Contestant>, lacking: fn(&Sheet) -> Desk) -> Vec<Demand> {
    let before = if all.len() > 4 { ", ours/before" } else { "" };
    println!("\n## {word}, ns per value: ours, ours/(a), ours/(b), ours/a loop by index{before}\n\n| grid | |\n|---|---|");
    let times = race(&sheets, &all, lacking);
    for (sheet, times) in sheets.iter().zip(&times) {
        let taken: Vec<f64> = times.iter().copied().filter(|time| time.is_finite()).collect();
        println!("| {} | {} |", sheet.title, against_all(&taken));
    }
    let [.., narrow, wide] = &times[..] else { return Vec::new() };
    let [ours, chunked, packed, indexed] = [0, 1, 2, 3].map(|k| wide[k] / narrow[k]);
    println!("\nWide to narrow on {}: ours {ours:.2}, (a) {chunked:.2}, (b) {packed:.2}, by index {indexed:.2}.", named(LARGEST));
    let asked = |sheet: &Sheet, of: &str| format!("{}, {}, ours/{of}", word.to_lowercase(), sheet.title);
    let [.., largest, _] = &sheets[..] else { return Vec::new() };
    let to_packed = Demand(asked(largest, "(b)"), narrow[0] / narrow[2], most);
    let by_index = sheets.iter().zip(&times).map(|(sheet, times)| Demand(asked(sheet, "a loop by index"), times[0] / times[3], 1.3));
    [to_packed].into_iter().chain(by_index).collect()
}

/// The smallest and the largest cube, each with its written form, then the largest once more, with wide layers.
fn sheets(case: fn(Sides, Shape) -> Case, wide: fn(Case) -> Sheet) -> Vec<Sheet> {
    let narrow = [GRIDS[0], LARGEST].map(|sides| {
        let case = case(sides, Shape::Noise);
        let file = written(sides, case.allowed, &case.values.wide).expect("a grid that can be written");
        Sheet { title: named(sides), case, file }
    });
    narrow.into_iter().chain([wide(case(LARGEST, Shape::Noise))]).collect()
}

/// The same values in layers of either width.
pub fn measure_read(case: fn(Sides, Shape) -> Case) -> Vec<Demand> {
    let wide = |case: Case| {
        let file = grids::file(case.sides, case.allowed, &case.values.wide, |_| 4);
        Sheet { title: format!("{}, wide layers", named(case.sides)), case, file }
    };
    let unread = |sheet: &Sheet| Desk { values: vec![0x5A5A; size(sheet.case.sides)].into(), file: sheet.file.clone() };
    measure("Read", 1.2, sheets(case, wide), layer_readers(), unread)
}

/// The written form has wide layers only where values need them.
pub fn measure_write(case: fn(Sides, Shape) -> Case) -> Vec<Demand> {
    let wide = |Case { sides, allowed, values, .. }: Case| {
        let values: Values = lengthened(&values.wide).into();
        let file = written(sides, allowed, &values.wide).expect("a grid that can be written");
        Sheet { title: format!("{}, wide values", named(sides)), case: Case::unmarked(sides, allowed, values), file }
    };
    let unwritten = |sheet: &Sheet| Desk { values: sheet.case.values.clone(), file: vec![0xA5; sheet.file.len()] };
    measure("Write", 1.15, sheets(case, wide), writers(), unwritten)
}
