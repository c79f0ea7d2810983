//! `wattle explain`: why a file is refused, or what its result means.

use crate::args::Args;
use crate::body::Body;
use crate::carve::{most, program_limit};
use crate::file::{index_of, is_negative, is_value, record_length, width_at};
use crate::file::{LayerRecord, Records, Scan, Source, HEADER, PATCH, PATCH_HEAD};
use crate::frame::Frame;
use crate::json::{object, of_body, of_refused, string};
use crate::many::{each, Said};
use crate::meaning::meaning;
use crate::start::Start;
use crate::words::some;
use crate::{Answer, Failure, Status};
use std::collections::BTreeSet;
use wattlerugby::{read_layer, written_length, Refusal, Sides, GREATEST_VALUE, LEAST_VALUE, MISSING, NARROW, WIDE};

pub fn explain(args: &Args) -> Result<Answer, Failure> {
    let frame = Frame::of(args)?;
    each(args, "taken", |source| explained(args, &frame, source))
}

fn explained(args: &Args, frame: &Frame, source: Source) -> Result<Said, Failure> {
    let (name, records, limit) = (source.name.clone(), source.records(), program_limit(&source));
    let (refused, (place, advice)) = match source.read() {
        Err((source, refused)) => (refused, unreadable(&source, &records, refused)),
        Ok(scan) => {
            let scan = scan.allowing(args)?;
            match Body::carve(&scan, Start::of(args, &scan)?) {
                Ok(body) => return Ok(taken(args, frame, &body, of_file(&records, limit))),
                Err(refused) => (refused, unfit(&scan, &records, refused)),
            }
        }
    };
    if args.has("--json") {
        let more = [("where", string(&place)), ("what_to_do", string(&advice))];
        return Ok(Said::new(object(&[&of_refused(&name, refused)[..], &more].concat()) + "\n", Status::Refused));
    }
    let mut text = format!("{name} is {refused}.\nWhere: {place}\nWhat to do: {advice}\n");
    if let Some(limit) = limit.filter(|limit| *limit != refused) {
        text += &format!("{}\n", of_the_program(limit));
    }
    Ok(Said::new(text, Status::Refused))
}

/// What the program prints in place of what is told here.
fn of_the_program(limit: Refusal) -> String {
    format!("The program carve prints `refused {}` for it, since it takes {}.", limit.0, most(limit))
}

// ---- a file that read refuses

/// Where it is wrong, and what to do.
fn unreadable(source: &Source, records: &Records, refused: Refusal) -> (String, String) {
    let Records { layers: found, patches, next } = records;
    let (length, next) = (source.bytes.len(), *next);
    if let Some(damage) = sent_as_text(&source.bytes) {
        return damage;
    }
    match refused {
        Refusal::SHORT if length < HEADER => {
            (format!("the file has {length} bytes, and the header alone has {HEADER}."), "write the file again.".to_string())
        }
        Refusal::MARK if !source.bytes.starts_with(b"VH") => (
            format!("bytes 0 and 1 are {}, and a grid file begins with 56 48 hex.", hex(&source.bytes[..2])),
            "see that this is a grid file and not some other one.".to_string(),
        ),
        Refusal::SIDE => (wrong_sides(source.sides()), "cut the grid, or measure more voxels, and write it again.".to_string()),
        // read_layer takes a layer in any place, so one that is out of its own is looked for among those that it took
        Refusal::LAYER_TWICE => twice(found, out_of_place(found)),
        Refusal::LAYER_ORDER => not_the_next(source.sides().c, found, out_of_place(found)),
        Refusal::VALUE => out_of_range(source, found),
        _ if found.len() == source.sides().c => wrong_patch(source, patches.len(), next, refused),
        Refusal::SHORT => short(source, found.len(), next),
        Refusal::MARK => wrong_mark(source, found, next),
        // read is lent a buffer of the right length, so 23 is all that is left
        _ => wrong_layer(source, found.len(), next),
    }
}

/// A transfer as text puts a 0D before every 0A. It is told only where undoing that leaves a file that is read.
fn sent_as_text(bytes: &[u8]) -> Option<(String, String)> {
    let feeds: Vec<usize> = (0..bytes.len()).filter(|&i| bytes[i] == b'\n').collect();
    let first = feeds.first().filter(|_| feeds.iter().all(|&i| i > 0 && bytes[i - 1] == b'\r'))? - 1;
    let undone = (0..bytes.len()).filter(|&i| bytes.get(i + 1) != Some(&b'\n')).map(|i| bytes[i]).collect();
    Source { name: String::new(), bytes: undone }.read().ok()?;
    let count = feeds.len();
    let place = format!("the file was changed by a transfer as text: a byte 0D was put before each byte 0A, the first as byte {first}, {count} in all. Without them it is a grid file.");
    Some((place, "send or copy the file again as it is, in binary.".to_string()))
}

fn hex(bytes: &[u8]) -> String {
    bytes.iter().map(|b| format!("{b:02X}")).collect::<Vec<_>>().join(" ") + " hex"
}

fn due_length(sides: Sides) -> String {
    let Sides { a, b, c } = sides;
    let [narrow, wide] = [NARROW, WIDE].map(|width| written_length(sides, width).unwrap_or(0));
    format!("with sides {a} x {b} x {c} header and layers have {narrow} bytes, {wide} where all layers are wide")
}

/// What a record's width is, in words.
fn width_told(width: u8) -> &'static str {
    match width {
        WIDE => "wide, four bytes a value",
        _ => "narrow, two bytes a value",
    }
}

fn wrong_sides(sides: Sides) -> String {
    let named = [("a", 2, sides.a), ("b", 3, sides.b), ("c", 4, sides.c)];
    let wrong = named.iter().filter(|(_, _, side)| !(3..=64).contains(side));
    let told: Vec<String> = wrong.map(|(name, byte, side)| format!("side {name}, byte {byte}, is {side}")).collect();
    format!("{}; a side is 3 to 64 voxels.", told.join("; "))
}

fn short(source: &Source, found: usize, next: usize) -> (String, String) {
    let (sides, left) = (source.sides(), source.bytes.len() - next);
    let width = width_at(&source.bytes, next);
    let place = format!(
        "layer record {} of {} begins at byte {next} and has {} bytes ({}), but {left} are left. The file has {} bytes; {}.",
        found + 1,
        sides.c,
        record_length(sides, width),
        width_told(width),
        source.bytes.len(),
        due_length(sides)
    );
    (place, "write the file again, whole; or see whether the sides, bytes 2 to 4, are right.".to_string())
}

fn wrong_mark(source: &Source, found: &[LayerRecord], next: usize) -> (String, String) {
    let mark = hex(&source.bytes[next..next + 2]);
    let before = match found.last() {
        Some(LayerRecord { start, z, width, .. }) => {
            format!("the record before it, layer z = {z} from byte {start}, {}, may have a wrong length", width_told(*width))
        }
        None => "it is the first after the header".to_string(),
    };
    let place = format!("layer record {} begins at byte {next} with {mark}, and 56 4C or 56 57 hex is due; {before}.", found.len() + 1);
    (place, "see that each record has its mark, its z, and as many values as the first two sides say.".to_string())
}

fn wrong_layer(source: &Source, found: usize, next: usize) -> (String, String) {
    let c = source.sides().c;
    let z = source.bytes[next + 2];
    let place = format!("layer record {}, from byte {next}: byte {} says z = {z}, and there are {c} layers.", found + 1, next + 2);
    (place, format!("number the layers 0 to {}, each once, in that order.", c - 1))
}

/// The first record whose z is not its place in the file.
fn out_of_place(found: &[LayerRecord]) -> usize {
    let wrong = (0..found.len()).find(|&place| usize::from(found[place].z) != place);
    wrong.expect("a layer is out of its place where read refuses it for that")
}

fn twice(found: &[LayerRecord], second: usize) -> (String, String) {
    let LayerRecord { start, z, .. } = found[second];
    let first = found[usize::from(z)].start;
    let place = format!("layer z = {z} comes in the record from byte {first} and again in the one from byte {start}, byte {}.", start + 2);
    (place, "number the layers 0 to c - 1, each once, in that order.".to_string())
}

/// Only a file with every layer in it, each once, can be sorted.
fn not_the_next(c: usize, found: &[LayerRecord], wrong: usize) -> (String, String) {
    let LayerRecord { start, z, .. } = found[wrong];
    let place = format!(
        "layer record {} of {c}, from byte {start}: byte {} says z = {z}, and z = {wrong} is due, as layers come from 0 up and none is skipped.",
        wrong + 1,
        start + 2
    );
    let different: BTreeSet<u8> = found.iter().map(|layer| layer.z).collect();
    let advice = match different.len() == c {
        true => "each layer is there once: `wattle rewrite --sort` puts them in order.".to_string(),
        false => {
            format!("write the layers 0 to {}, each once, in that order; they are not all there, so the file cannot be sorted.", c - 1)
        }
    };
    (place, advice)
}

/// The first value that is neither in range nor the missing mark: read refuses its record, and those before it are in order.
fn out_of_range(source: &Source, found: &[LayerRecord]) -> (String, String) {
    let Sides { a, b, c } = source.sides();
    let values =
        |layer: &LayerRecord| read_layer(source.sides(), &source.bytes, layer.start).map(|layer| layer.values().collect::<Vec<_>>());
    let wrong = |layer: &LayerRecord| {
        let values = values(layer).unwrap_or_default();
        let places: Vec<usize> = (0..values.len()).filter(|&place| !is_value(values[place])).collect();
        places.first().map(|&first| (first, values[first], places.len()))
    };
    let (number, (place, value, count)) = (0..found.len())
        .find_map(|number| Some((number, wrong(&found[number])?)))
        .expect("a value is out of range where read refuses it for that");
    let LayerRecord { start, z, width, .. } = found[number];
    let (first, index) = (found[number].byte_of(place), place + a * b * usize::from(z));
    let others = if count == 1 { String::new() } else { format!(", the first of {count} such values there") };
    let place = format!(
        "layer record {} of {c}, z = {z}, from byte {start}, is {}: voxel ({}, {}, {z}), index {index}, has {value} in bytes {first} to {}{others}; \
         a measured value is {LEAST_VALUE} to {GREATEST_VALUE}, and {MISSING} is a missing range point.",
        number + 1,
        width_told(width),
        place % a,
        place / a,
        first + usize::from(width) - 1,
    );
    (place, "write that layer again with the value in range, or missing. A patch does not mend it.".to_string())
}

/// What follows the last layer is wrong after so many good patches.
fn wrong_patch(source: &Source, found: usize, next: usize, refused: Refusal) -> (String, String) {
    let (length, rest) = (source.bytes.len(), &source.bytes[next..]);
    let begins = format!("patch record {} begins at byte {next}", found + 1);
    match refused {
        Refusal::SHORT => (
            format!("{begins} and has {PATCH} bytes, but {} are left. The file has {length} bytes.", rest.len()),
            format!("write that patch whole; or cut the file after its first {next} bytes, which leaves it out."),
        ),
        Refusal::MARK => (
            format!("{begins} with {}, and 56 50 hex is due: only patches follow the last layer.", hex(&rest[..2])),
            format!(
                "cut the file after its first {next} bytes; or see that each patch has 8 bytes, and that the third side, byte 4, is right."
            ),
        ),
        _ => wrong_index(source.sides(), &begins, next, index_of(rest)),
    }
}

fn wrong_index(sides: Sides, begins: &str, next: usize, index: usize) -> (String, String) {
    let Sides { a, b, c } = sides;
    let (first, last) = (next + 2, next + PATCH_HEAD - 1);
    let place = format!(
        "{begins}: bytes {first} to {last} say index {index}, and a grid of {a} x {b} x {c} voxels has indices 0 to {}.",
        a * b * c - 1
    );
    (place, format!("see that the patch is for this grid, where voxel (x, y, z) has index x + {a} (y + {b} z); or leave the patch out."))
}

// ---- a grid that begin refuses

/// Where it is wrong, and what to do.
pub fn unfit(scan: &Scan, records: &Records, refused: Refusal) -> (String, String) {
    match refused {
        Refusal::BORDER_NEGATIVE => on_the_edge(scan, records),
        Refusal::COARSE => unfit_for_blocks(scan, records),
        _ => nothing_negative(scan, records),
    }
}

/// The voxel with its value, and the byte of the file where that stands: in its last patch, or else in its layer.
fn value_at(scan: &Scan, records: &Records, index: usize) -> String {
    let told = format!("voxel {}, with {}", scan.voxel(index), scan.values[index]);
    if let Some(last) = records.patches.iter().rposition(|(_, patched)| *patched == index) {
        return format!("{told}: byte {}, in patch record {}", records.patches[last].0 + PATCH_HEAD, last + 1);
    }
    let [.., z] = scan.place(index);
    format!("{told}: byte {}, in layer z = {z}", records.layers[z].byte_of(index % (scan.sides.a * scan.sides.b)))
}

fn on_the_edge(scan: &Scan, records: &Records) -> (String, String) {
    let on_edge = |&i: &usize| is_negative(scan.values[i]) && scan.on_border(i);
    let found: Vec<usize> = (0..scan.values.len()).filter(on_edge).collect();
    let Sides { a, b, c } = scan.sides;
    let faces = [("x", 0, 0), ("x", 0, a - 1), ("y", 1, 0), ("y", 1, b - 1), ("z", 2, 0), ("z", 2, c - 1)];
    let told = faces.iter().filter_map(|(name, axis, at)| {
        let count = found.iter().filter(|&&i| scan.place(i)[*axis] == *at).count();
        (count > 0).then(|| format!("{count} at {name} = {at}"))
    });
    let place = format!(
        "{} on the grid's edge ({}). The first is {}.",
        if found.len() == 1 { "1 negative voxel lies".to_string() } else { format!("{} negative voxels lie", found.len()) },
        told.collect::<Vec<_>>().join(", "),
        value_at(scan, records, found[0])
    );
    (place, "leave a rim of one voxel or more around the body, measured outside or missing. `wattle look` marks these voxels.".to_string())
}

/// Sides, or voxels with a coordinate below 2 or above that side less 3; what to do goes by what is wrong.
fn unfit_for_blocks(scan: &Scan, records: &Records) -> (String, String) {
    let Sides { a, b, c } = scan.sides;
    let sides = [("a", a), ("b", b), ("c", c)].into_iter().filter(|(_, side)| side % 2 == 1 || *side < 6);
    let sides: Vec<String> = sides.map(|(name, side)| format!("side {name} is {side}")).collect();
    let near = |p: usize, side: usize| p < 2 || p + 3 > side;
    let is_near = |&i: &usize| is_negative(scan.values[i]) && scan.place(i).iter().zip([a, b, c]).any(|(&p, side)| near(p, side));
    let found: Vec<usize> = (0..scan.values.len()).filter(is_near).collect();
    let (mut places, mut advice) = (Vec::new(), Vec::new());
    if !sides.is_empty() {
        places.push(format!("{}, and a coarse start needs even sides of 6 or more", sides.join(", ")));
        advice.push("make each side even and 6 or more");
    }
    if let Some(&first) = found.first() {
        let lie = if found.len() == 1 { "negative voxel lies" } else { "negative voxels lie" };
        places.push(format!("{} {lie} within two voxels of the grid's edge; the first is {}", found.len(), value_at(scan, records, first)));
        advice.push("leave a border of two voxels or more around all that is measured negative");
    }
    let advice =
        format!("{}, with voxels measured outside or missing. Or leave out --coarse: then the grid is taken.", advice.join(", and "));
    (places.join(". ") + ".", advice)
}

fn nothing_negative(scan: &Scan, records: &Records) -> (String, String) {
    let missing = scan.values.iter().filter(|&&v| v == MISSING).count();
    let measured = (0..scan.values.len()).filter(|&i| scan.values[i] != MISSING);
    let place = match measured.min_by_key(|&i| scan.values[i]) {
        Some(least) => {
            format!("{missing} of {} values are missing; the least is at {}.", scan.values.len(), value_at(scan, records, least))
        }
        None => format!("all {missing} values are missing."),
    };
    (place, "look at the sign: negative is inside the body. Look also whether the body lies in the grid at all.".to_string())
}

// ---- a grid that is taken

fn taken(args: &Args, frame: &Frame, body: &Body, more: Vec<String>) -> Said {
    let free = body.freely();
    let free = free.as_ref().unwrap_or(body);
    let sentences = [meaning(body, free, frame), more].concat();
    if args.has("--json") {
        let first = free.first_tunnel().map_or("null".to_string(), |i| format!("{:?}", body.scan.place(i)));
        let says = format!("[{}]", sentences.iter().map(|s| string(s)).collect::<Vec<_>>().join(", "));
        let more = [("free_tunnels", free.shape().1.to_string()), ("first_free_tunnel", first), ("says", says)];
        return Said::new(object(&[&of_body(body, frame)[..], &more].concat()) + "\n", Status::Done);
    }
    let (scan, begun) = (body.scan, body.begun());
    let mut text = format!("{} is taken: {} voxels, {}{begun}.\n{}\n", scan.name, scan.size(), scan.allowed_told(), body.line());
    text.extend(sentences.iter().map(|sentence| format!("- {sentence}\n")));
    Said::new(text, Status::Done)
}

/// What is said of the file itself.
fn of_file(records: &Records, limit: Option<Refusal>) -> Vec<String> {
    wide(records).into_iter().chain(patched(records)).chain(limit.map(of_the_program)).collect()
}

/// How many layers have four bytes a value, where any has.
fn wide(records: &Records) -> Option<String> {
    let (all, wide) = (records.layers.len(), records.layers.iter().filter(|layer| layer.width == WIDE).count());
    match wide {
        0 => None,
        _ if wide == all => Some("The layers have four bytes a value.".to_string()),
        _ => Some(format!("{wide} of {all} layers have four bytes a value, the others two.")),
    }
}

/// How many patches the file has, and to how many voxels.
fn patched(records: &Records) -> Option<String> {
    let voxels: BTreeSet<usize> = records.patches.iter().map(|(_, index)| *index).collect();
    let patches = match records.patches.len() {
        0 => return None,
        1 => "1 patch corrects".to_string(),
        many => format!("{many} patches correct"),
    };
    Some(format!("{patches} {} of the layers.", some(voxels.len(), "value")))
}
