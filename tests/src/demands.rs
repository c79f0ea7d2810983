//! What conformance/ must contain, as a list of entries, and which entries a call meets. `fuzz write` fails where an entry is not met.
//! A request that brings a call adds its checks to `faults::order`, its causes and impossible pairs here, its own entries to `ALSO`,
//! and its numbers to `extremes`.

use crate::faults::{faults, order, Check, Fault, PATCH};
use reference::replay::Replay;
use std::collections::BTreeMap;

/// The calls that can be refused.
const CALLS: [&str; 15] = [
    "begin",
    "begincoarse",
    "carve",
    "take",
    "open",
    "finish",
    "serve",
    "judge",
    "crossing",
    "points",
    "readlayer",
    "read",
    "program",
    "write",
    "practice",
];

/// Pairs of faults that no input has together, and why.
const IMPOSSIBLE: &[(&str, Check, Check, &str)] = &[
    ("begin", "3", "4", "a negative border voxel is a negative voxel"),
    ("begincoarse", "3", "4", "a negative border voxel is a negative voxel"),
    ("take", "5", "10", "there is no such voxel"),
    ("take", "5", "11", "there is no such voxel"),
    ("take", "5", "12", "there is no such voxel"),
    ("take", "5", "30", "there is no such voxel"),
    ("take", "10", "11", "a voxel that is negative and gone is unfit"),
    ("judge", "removal 21", "removal 5", "a record that is cut off has no index"),
    ("judge", "removal 21", "32", "a record that is cut off has no index"),
    ("judge", "removal 5", "32", "there is no such voxel"),
    ("read", "header 21", "21", "a file shorter than its header has no records"),
    ("read", "header 21", "22", "a file shorter than its header has no records"),
    ("read", "header 21", "23", "a file shorter than its header has no records"),
    ("read", "header 21", "24", "a file shorter than its header has no records"),
    ("read", "header 21", "27", "a file shorter than its header has no records"),
    ("read", "header 21", "28", "a file shorter than its header has no records"),
    ("read", "header 21", "patch 21", "a file shorter than its header has no records"),
    ("read", "header 21", "patch 22", "a file shorter than its header has no records"),
    ("read", "header 21", "5", "a file shorter than its header has no records"),
    ("read", "21", "patch 21", "after a record that is cut off nothing is left"),
    ("read", "21", "patch 22", "after a record that is cut off nothing is left"),
    ("read", "21", "5", "after a record that is cut off nothing is left"),
    ("read", "22", "28", "only a record with the wide mark can have a value out of range"),
    ("read", "23", "24", "a z that is too large was refused where it came before"),
    ("read", "24", "27", "27 is for a layer that is no repeat"),
    ("program", "25", "header 21", "a file of so many bytes is longer than its header"),
    ("program", "header 21", "21", "a file shorter than its header has no records"),
    ("program", "header 21", "22", "a file shorter than its header has no records"),
    ("program", "header 21", "23", "a file shorter than its header has no records"),
    ("program", "header 21", "24", "a file shorter than its header has no records"),
    ("program", "header 21", "27", "a file shorter than its header has no records"),
    ("program", "header 21", "28", "a file shorter than its header has no records"),
    ("program", "header 21", "patch 21", "a file shorter than its header has no records"),
    ("program", "header 21", "patch 22", "a file shorter than its header has no records"),
    ("program", "header 21", "5", "a file shorter than its header has no records"),
    ("program", "header 21", "3", "a file shorter than its header has no values"),
    ("program", "header 21", "4", "a file shorter than its header has no values"),
    ("program", "21", "patch 21", "after a record that is cut off nothing is left"),
    ("program", "21", "patch 22", "after a record that is cut off nothing is left"),
    ("program", "21", "5", "after a record that is cut off nothing is left"),
    ("program", "22", "28", "only a record with the wide mark can have a value out of range"),
    ("program", "23", "24", "a z that is too large was refused where it came before"),
    ("program", "24", "27", "27 is for a layer that is no repeat"),
    ("program", "3", "4", "a negative border voxel is a negative voxel"),
];

/// The checks that `serve` makes on each grid, on all of them before the next.
const OF_GRIDS: [Check; 4] = ["1", "7", "29", "8"];

/// The checks of a layer record, of a patch record and of a removal record. One that is too short is the last, so it is no earlier one's fault.
const RECORDS: [&[Check]; 3] = [&["21", "22", "23", "24", "27", "28"], &PATCH, &["removal 21", "removal 22", "removal 5", "32"]];

const SIDES: &[&str] = &["a under 3", "a over 64", "b under 3", "b over 64", "c under 3", "c over 64"];
const FILE_SIDES: &[&str] = &[
    "a under 3",
    "a is 25",
    "a of 26 to 64",
    "a over 64",
    "b under 3",
    "b is 25",
    "b of 26 to 64",
    "b over 64",
    "c under 3",
    "c is 25",
    "c of 26 to 64",
    "c over 64",
];
const LENGTHS: &[&str] = &["dist short", "dist long", "status short", "status long"];
const WITH_MARKS: &[&str] = &["marks short", "marks long", "dist short", "dist long", "status short", "status long"];
const UNFIT: &[&str] = &[
    "openings over T",
    "removals over n",
    "examinations over 27n",
    "Euler number over 8n",
    "Euler number under -8n",
    "status not 0, 1 or 3",
    "border kept",
    "negative and gone",
    "negative and pending",
];
const BORDER: &[&str] = &["x is 0", "x is last", "y is 0", "y is last", "z is 0", "z is last"];
const MARK: &[&str] = &["first byte", "second byte"];
const Z: &[&str] = &["z is c", "z over c"];
const RANGE: &[&str] = &[
    "one under the range",
    "one over the range",
    "one over the missing mark",
    "the greatest of 32 bits",
    "under the range",
    "over the range",
];

/// That a side is under 6 is never all: it is odd, or it is 4 and the negative voxels are near its ends.
const COARSE: &[&str] =
    &["a is odd", "b is odd", "c is odd", "x below 2", "x above a - 3", "y below 2", "y above b - 3", "z below 2", "z above c - 3"];

const MARKS: &[&str] = &["a mark of 4", "a mark of 5 to 127", "a mark of 128 to 254", "a mark of 255"];

/// What a removal breaks.
const BROKEN: &[&str] = &[
    "gone before",
    "gone by the list",
    "inside",
    "not passed",
    "an opening that passes",
    "an opening while another passes",
    "an opening without a face neighbour gone",
    "more openings than T",
];

/// Each number's clauses, for those that have more than one: a call must be refused for each of them alone.
fn causes(call: &str, check: Check) -> &'static [&'static str] {
    match (call, check) {
        ("program", "1") => FILE_SIDES,
        (_, "1") => SIDES,
        ("begin", "2") => {
            &["values short", "values long", "marks short", "marks long", "dist short", "dist long", "status short", "status long"]
        }
        ("begincoarse", "2") => &[
            "values short",
            "values long",
            "marks short",
            "marks long",
            "dist short",
            "dist long",
            "status short",
            "status long",
            "cdist short",
            "cdist long",
            "cstatus short",
            "cstatus long",
        ],
        ("read" | "write" | "practice", "2") => &["values short", "values long"],
        ("carve" | "take" | "open" | "serve", "2") => WITH_MARKS,
        (_, "2") => LENGTHS,
        (_, "3") => BORDER,
        (_, "4") => &["none below 0", "missing ones alone"],
        ("points", "5") => &["one over", "far over"],
        (_, "32") => BROKEN,
        (_, "removal 21") => &["1 byte", "2 bytes", "3 bytes", "4 bytes", "5 bytes"],
        ("read" | "program", "5") | ("judge", "removal 5") => &["index n", "index over n", "index over n, its low two bytes under n"],
        (_, "6") => &["axis over 2", "beyond along x", "beyond along y", "beyond along z"],
        (_, "7") => UNFIT,
        (_, "order 7") => &["a place twice", "a place past the last grid"],
        (_, "34") => &["limit 0", "limit over 1000", "no grids", "over 16 grids"],
        ("readlayer", "21") => {
            &["start past the end", "start at the end", "cut off", "cut off, wide", "cut off, wide with the bytes of a narrow one"]
        }
        (_, "21") => &["nothing left", "cut off", "cut off, wide", "cut off, wide with the bytes of a narrow one"],
        (_, "22" | "header 22" | "patch 22" | "removal 22") => MARK,
        (_, "patch 21") => &["1 byte", "2 bytes", "3 bytes", "4 bytes", "5 bytes", "6 bytes", "7 bytes"],
        (_, "23") => Z,
        (_, "24") => &["the record before has it", "an earlier record has it"],
        (_, "28") => RANGE,
        (_, "29") => MARKS,
        (_, "31") => COARSE,
        (_, "27") => &["the first is not 0", "one skipped", "more than one skipped"],
        (_, "25") => &["a byte over", "more than a byte over"],
        (_, "26") => &["nothing lent", "a byte short", "more than a byte short"],
        _ => &[],
    }
}

/// Entries besides refusals: what a call does when it is done, with how many such calls there must be.
const ALSO: &[(&str, usize)] = &[
    // begin
    ("begin: M raised to 1, a 0 beside S", 1),
    ("begin: M raised to 1, only missing points beside S", 1),
    ("begin: a discarded group", 5),
    ("begin: two largest groups of one size", 2),
    ("begin: a value of -32767", 1),
    ("begin: a missing border voxel", 5),
    // the carving machine
    ("carve: limit 0 with a voxel pending", 1),
    ("carve: limit over 16 bits", 1),
    ("carve: limit 4294967295", 10),
    ("carve: something still pending", 50),
    ("carve: a removal", 50),
    ("carve: counts at their limits", 1),
    ("take: pending", 50),
    ("take: not pending", 10),
    ("open: k is 2 or more", 8),
    ("open: m is 2 or more", 10),
    ("open: k and m are 1", 5),
    ("finish: a distance of 0 kept", 1),
    ("finish: a distance of 2147483647 kept", 1),
    // surface points
    ("crossing: negative above along x", 1000),
    ("crossing: negative above along y", 1000),
    ("crossing: negative above along z", 1000),
    ("crossing: negative above, where the lower plus 1 - t has other bits", 150),
    ("crossing: negative below", 1000),
    ("crossing: none, both negative", 10),
    ("crossing: none, neither negative", 10),
    ("crossing: q is 0", 10),
    ("crossing: p is 2147483648", 10),
    ("crossing: p + q is 4294967295", 1),
    // finished is a byte
    ("carve refused: 8, finished 2", 1),
    ("carve refused: 8, finished 255", 1),
    ("take refused: 8, finished 2", 1),
    ("open refused: 8, finished 2", 1),
    ("finish refused: 8, finished 2", 1),
    ("crossing: finished 2", 1),
    ("crossing: finished 255", 1),
    ("points: finished 2", 1),
    ("points: finished 255", 1),
    // all points
    ("points: capacity 0", 2),
    ("points: capacity 2", 2),
    ("points: capacity 3", 5),
    ("points: capacity 5", 5),
    ("points: position 0, all in one call", 20),
    ("points: position 0, the buffer full before the end", 20),
    ("points: the buffer full with the last point", 5),
    ("points: room for one more point at the end", 20),
    ("points: from the middle", 50),
    ("points: from the middle of a voxel's three", 50),
    ("points: position 3n", 5),
    ("points: position 3n, capacity 0", 1),
    ("points: none left", 5),
    ("points: a capacity that is no multiple of 3", 20),
    ("points: 1000 or more in one call", 2),
    // sizes
    ("begin on 64 64 64", 1),
    ("carve on 64 64 64", 1),
    ("take on 64 64 64", 1),
    ("open on 64 64 64", 1),
    ("finish on 64 64 64", 1),
    ("crossing on 64 64 64", 1),
    ("points on 64 64 64", 1),
    ("write on 64 64 64", 1),
    ("begin on three different sides", 20),
    ("carve on three different sides", 20),
    ("take on three different sides", 20),
    ("open on three different sides", 20),
    ("finish on three different sides", 10),
    ("crossing on three different sides", 20),
    ("points on three different sides", 20),
    ("write on three different sides", 20),
    // files
    ("read: a side of 64", 3),
    ("read: three different sides", 5),
    ("read: T over 255", 2),
    ("readlayer: not the first record", 5),
    ("program: a side of 24", 3),
    ("program: three different sides", 5),
    ("program: an opening", 2),
    ("program: two openings", 1),
    ("program: a removal", 5),
    // the order of layers
    ("read refused: 27, in falling order", 5),
    ("read refused: 27, two neighbours exchanged", 10),
    ("read refused: 27, two others exchanged", 5),
    ("read refused: 27, two exchanged that are 8 apart", 2),
    ("read refused: 27, two exchanged that are 16 apart", 2),
    ("read refused: 27, two exchanged that are 32 apart", 1),
    ("read refused: 27, the first layer last", 5),
    ("read refused: 27, the last layer first", 5),
    ("read refused: 27, numbered from 1", 5),
    ("read refused: 27, rising but for one skipped", 10),
    ("read refused: 27, every layer there", 50),
    ("read refused: 27, a layer twice", 50),
    ("read refused: 27, after good layers", 50),
    ("read refused: 27, the last record but one", 20),
    ("read refused: 27, past layer 7", 5),
    ("read refused: 27, past layer 15", 5),
    ("read refused: 27, past layer 31", 5),
    ("read refused: 27, patches behind", 10),
    ("read refused: 24, of a layer past 31", 2),
    ("read refused: 24, a later layer out of order", 5),
    ("program refused: 27, in falling order", 5),
    ("program refused: 27, two neighbours exchanged", 10),
    ("program refused: 27, two others exchanged", 5),
    ("program refused: 27, two exchanged that are 8 apart", 1),
    ("program refused: 27, two exchanged that are 16 apart", 1),
    ("program refused: 27, the first layer last", 5),
    ("program refused: 27, the last layer first", 5),
    ("program refused: 27, numbered from 1", 5),
    ("program refused: 27, rising but for one skipped", 10),
    ("program refused: 27, every layer there", 50),
    ("program refused: 27, a layer twice", 50),
    ("program refused: 27, after good layers", 50),
    ("program refused: 27, the last record but one", 20),
    ("program refused: 27, past layer 7", 5),
    ("program refused: 27, past layer 15", 5),
    ("program refused: 27, patches behind", 10),
    ("program refused: 24, of a layer past 15", 2),
    ("program refused: 24, a later layer out of order", 5),
    ("program refused: 27, 65536 bytes", 1),
    ("readlayer: a layer that is not the next", 50),
    ("readlayer: a layer that came before", 20),
    // patch records
    ("read: a patch", 50),
    ("read: a patch in every layer", 5),
    ("read: a patch to the first voxel, and one to the last", 5),
    ("read: two patches to a voxel, of different values", 10),
    ("read: two patches to a voxel, with another's between them", 5),
    ("read: a patch of -32768", 5),
    ("read: a patch of -32767", 2),
    ("read: a patch of 32767", 5),
    ("read: a patch of -32768 to a measured voxel", 5),
    ("read: a measured patch to a missing voxel", 5),
    ("read: a patch to an index over 255", 2),
    ("read: a patch to an index over 65535", 2),
    ("read: more patches than voxels", 2),
    ("read: over 255 patches", 2),
    ("read: over 65535 patches", 1),
    ("read: a patch after byte 65536", 2),
    ("read: over 65536 bytes", 3),
    ("read refused: patch 21, after good patches", 5),
    ("read refused: patch 22, after good patches", 5),
    ("read refused: 5, after good patches", 5),
    ("readlayer refused: 22, a patch record", 5),
    ("program: a patch", 20),
    ("program: a patch changes the line", 10),
    ("program: a body made by patches", 2),
    ("program: a border voxel mended by a patch", 2),
    ("program refused: 3, brought about by a patch", 2),
    ("program refused: 4, brought about by a patch", 2),
    ("program: over 255 patches", 2),
    ("program: 65536 bytes", 1),
    ("write: the file's own grid, its patches among the layers", 10),
    // files written
    ("write: lent exactly the length", 20),
    ("write: lent a byte more", 5),
    ("write: lent more than twice the length", 5),
    ("write: a is 64", 1),
    ("write: b is 64", 1),
    ("write: c is 64", 1),
    ("write: T of 0", 1),
    ("write: T of 255", 1),
    ("write: T of 256", 1),
    ("write: T of 65535", 1),
    ("write: a missing point", 5),
    ("write: a value of -32767", 1),
    ("write: a value of 32767", 1),
    ("write: values of both signs", 20),
    ("write: a negative border voxel", 5),
    ("write: no negative voxel", 2),
    ("write: the record has other sides", 5),
    ("write: the record has another T", 5),
    ("write: dist and status of other lengths", 2),
    ("write: a longer file before", 2),
    ("write: the file's own grid, without patches", 5),
    // values of 32 bits
    ("begin: a value over 16 bits", 30),
    ("begin: a value of -32768", 3),
    ("begin: a value of -1000000000", 5),
    ("begin: a value of 1000000000", 5),
    ("begin: M over 16 bits", 20),
    ("begin: M of 1000000000", 3),
    ("begin refused: 3, for a value of -32768", 2),
    ("begin refused: 3, for a value of -1000000000", 1),
    ("begin refused: 28, at the first voxel alone", 3),
    ("begin refused: 28, at the last voxel alone", 3),
    ("begin refused: 28, within the grid alone", 5),
    ("begin refused: 28, at two voxels or more", 2),
    ("write refused: 28, at the first voxel alone", 3),
    ("write refused: 28, at the last voxel alone", 3),
    ("write refused: 28, within the grid alone", 5),
    ("write refused: 28, at two voxels or more", 2),
    // layers of both widths, read
    ("read: wide layers alone", 30),
    ("read: both widths, a narrow layer first", 20),
    ("read: both widths, a wide layer first", 20),
    ("read: both widths, a narrow layer last", 20),
    ("read: a wide value of -32768", 5),
    ("read: a wide missing mark", 10),
    ("read: a wide value of -1000000000", 5),
    ("read: a wide value of 1000000000", 5),
    ("read: a wide value over 16 bits", 30),
    ("read: a wide value that two bytes hold", 30),
    ("read: a narrow missing mark beside wide layers", 10),
    ("read: a patch to a wide layer", 10),
    ("read: a patch to a wide value over 16 bits", 5),
    ("read: a patch of -32768 to a wide layer", 5),
    ("read: a patch behind both widths", 10),
    ("read refused: 28, in the first record", 5),
    ("read refused: 28, in between", 5),
    ("read refused: 28, in the last record", 5),
    ("read refused: 28, its first value", 5),
    ("read refused: 28, its last value", 5),
    ("read refused: 28, behind a narrow layer", 5),
    ("read refused: 28, nothing behind", 3),
    ("read refused: 28, 1 byte behind", 3),
    ("read refused: 28, 2 bytes behind", 3),
    ("read refused: 28, a wide record cut off behind", 5),
    ("read refused: 28, a patch to that voxel behind", 5),
    ("read refused: 28, bytes behind the layers", 5),
    ("read refused: 21, 1 byte of a mark alone", 3),
    ("read refused: 21, the wide mark alone", 3),
    ("program: wide layers alone", 20),
    ("program: both widths, a narrow layer first", 10),
    ("program: both widths, a wide layer first", 10),
    ("program: both widths, a narrow layer last", 10),
    ("program: a wide value of -32768", 3),
    ("program: a wide missing mark", 5),
    ("program: a wide value of -1000000000", 3),
    ("program: a wide value of 1000000000", 5),
    ("program: a wide value over 16 bits", 20),
    ("program: a wide value that two bytes hold", 20),
    ("program: a narrow missing mark beside wide layers", 5),
    ("program: a patch to a wide layer", 10),
    ("program: a patch to a wide value over 16 bits", 5),
    ("program: a patch of -32768 to a wide layer", 5),
    ("program: a patch behind both widths", 5),
    ("program refused: 28, in the first record", 5),
    ("program refused: 28, in between", 5),
    ("program refused: 28, in the last record", 5),
    ("program refused: 28, nothing behind", 3),
    ("program refused: 28, 1 byte behind", 3),
    ("program refused: 28, 2 bytes behind", 3),
    ("program refused: 28, a patch to that voxel behind", 5),
    ("program refused: 21, the wide mark alone", 3),
    ("readlayer: a wide layer", 100),
    ("readlayer: a narrow layer behind a wide one", 20),
    ("readlayer: a wide layer behind a wide one", 20),
    ("readlayer: a wide layer with a value out of range", 20),
    ("readlayer refused: 21, 1 byte of a mark alone", 3),
    ("readlayer refused: 21, the wide mark alone", 3),
    // and written
    ("write: wide layers", 50),
    ("write: wide layers, lent exactly the length", 20),
    ("write: wide layers, lent more", 10),
    ("write: wide for 32768 alone", 3),
    ("write: wide for -32768 alone", 3),
    ("write: wide for the first value alone", 3),
    ("write: wide for the last value alone", 3),
    ("write: wide with a layer that two bytes hold", 10),
    ("write: wide with a missing point", 10),
    ("write: a value of -1000000000", 5),
    ("write: a value of 1000000000", 5),
    ("write: narrow with -32767 and 32767", 3),
    ("write: missing points alone", 3),
    ("write: narrow, of a file with a wide layer", 5),
    ("write: wide, of a file with a narrow layer", 5),
    ("write refused: 26, wide and lent the narrow length", 5),
    ("write refused: 26, wide and lent a byte less", 5),
    // gaps
    ("begin: a gap filled", 200),
    ("begin: a gap of one voxel filled", 100),
    ("begin: a gap of 2 to 8 voxels filled", 50),
    ("begin: a gap of 9 to 64 voxels filled", 20),
    ("begin: a gap of over 64 voxels filled", 5),
    ("begin: a gap of over 255 voxels filled", 3),
    ("begin: a gap of over 4096 voxels filled", 1),
    ("begin: a gap of over 65535 voxels filled", 1),
    ("begin: two gaps filled", 50),
    ("begin: over 255 gaps filled", 1),
    ("begin: over 65535 gaps filled", 1),
    ("begin: a gap filled and another not", 50),
    ("begin: a filled gap beside a value of -1", 20),
    ("begin: a filled gap beside a value of -32768", 5),
    ("begin: a filled gap beside a value of -1000000000", 5),
    ("begin: a filled gap beside a value over 16 bits", 10),
    ("begin: a filled gap touched by a voxel of 0 or more", 50),
    ("begin: a filled gap meets another at an edge", 20),
    ("begin: a filled gap meets another at a corner", 10),
    ("begin: a filled gap meets one that is not at an edge", 20),
    ("begin: a filled gap meets one that is not at a corner", 20),
    ("begin: a gap left open on one side alone, low x", 10),
    ("begin: a gap left open on one side alone, high x", 10),
    ("begin: a gap left open on one side alone, low y", 10),
    ("begin: a gap left open on one side alone, high y", 10),
    ("begin: a gap left open on one side alone, low z", 10),
    ("begin: a gap left open on one side alone, high z", 10),
    ("begin: a gap left open by a 0 alone", 20),
    ("begin: a gap left open by a value over 16 bits alone", 6),
    ("begin: a gap of over 64 voxels left open on one side alone", 5),
    ("begin: a gap left open on the border alone", 6),
    ("begin: a gap left open by the border alone", 5),
    ("begin: a fill in S", 200),
    ("begin: a fill in a discarded group", 10),
    ("begin: a fill joins two groups", 10),
    ("begin: a fill makes another group S", 5),
    ("begin: a fill makes two largest groups of one size", 2),
    ("begin: a fill decides between two groups of one size", 2),
    ("take refused: 11, a filled voxel", 10),
    ("program: a gap filled", 50),
    ("program: a gap of one voxel filled", 30),
    ("program: a gap of 2 to 8 voxels filled", 10),
    ("program: a gap filled and another not", 10),
    ("program: a fill in a discarded group", 2),
    ("program: a fill joins two groups", 2),
    ("program: a fill makes another group S", 2),
    ("program: a gap left open by a 0 alone", 5),
    ("program: a gap left open by the border alone", 1),
    ("program: a filled gap in layers of both widths", 3),
    ("program: a filled gap in a wide layer", 10),
    ("program: a patch of a missing point makes a closed gap", 5),
    ("program: a patch closes a gap", 5),
    ("program: a patch opens a gap", 5),
    ("program: a patch measures a gap", 3),
    ("program: a patch of 0 or more to a gap", 3),
    ("read: a closed gap, handed on as it is", 20),
    ("write: a closed gap, handed on as it is", 20),
    // marks
    ("begin: pinned at the surface", 30),
    ("begin: pinned deep inside", 10),
    ("begin: pinned in S", 20),
    ("begin: pinned beyond the box", 10),
    ("begin: pinned on the border", 50),
    ("begin: pinned everywhere", 3),
    ("begin: hurried at the surface", 30),
    ("begin: hurried deep inside", 10),
    ("begin: hurried in S", 20),
    ("begin: hurried beyond the box", 10),
    ("begin: hurried on the border", 50),
    ("begin: hurried everywhere", 3),
    ("begin: both at the surface", 30),
    ("begin: both deep inside", 10),
    ("begin: both in S", 20),
    ("begin: both beyond the box", 10),
    ("begin: both on the border", 50),
    ("begin: both everywhere", 3),
    ("begin: both, and nothing is pending", 10),
    ("begin: both and hurried", 20),
    ("begin: both and pinned", 10),
    ("carve: a hurried voxel before one that is farther", 50),
    ("carve: a hurried voxel before one of a smaller index", 50),
    ("carve: hurried voxels of equal distance", 50),
    ("carve: a hurried voxel before a hurried one of a smaller index", 50),
    ("carve: hurried voxels, one with a distance over 30 bits", 10),
    ("carve: pending and pinned alone", 50),
    ("carve: pending and both", 50),
    ("carve: hurried and not pending", 50),
    ("carve: limit 1, another first than where both is hurried", 20),
    ("carve: limit 2, another first than where both is hurried", 10),
    ("carve: another first than where both is hurried", 20),
    ("carve: both, behind one that is farther", 30),
    ("carve: both, before one that is nearer", 30),
    ("carve: both, behind one of equal distance and a smaller index", 20),
    ("carve: both, before one of equal distance and a greater index", 20),
    ("carve: both, behind a hurried one that is nearer", 20),
    ("carve: both alone are pending", 10),
    ("carve: both and not pending, where another is", 50),
    ("carve: both, nothing pending and nothing examined yet", 10),
    ("carve: both at begin, unmarked now", 20),
    ("carve: both at begin, pinned now", 20),
    ("carve: both at begin, hurried now", 20),
    ("carve: unmarked at begin, both now", 20),
    ("carve: pinned at begin, both now", 10),
    ("carve: hurried at begin, both now", 20),
    ("carve: both at begin, free now, not pending although it passes", 20),
    ("take: hurried", 20),
    ("take: beside a pinned voxel", 20),
    ("take: beside a pinned voxel that is pending", 10),
    ("take: beside both", 10),
    ("take: beside both that is pending", 5),
    ("take: both at begin, unmarked now", 5),
    ("take: both at begin, pinned now", 2),
    ("take: both at begin, hurried now", 5),
    ("take: unmarked at begin, both now", 5),
    ("take: pinned at begin, both now", 3),
    ("take: hurried at begin, both now", 5),
    ("take: both at begin, free now, not pending although it passes", 5),
    ("take refused: 30, pinned alone", 20),
    ("take refused: 30, both", 20),
    ("take refused: 30, both and pending", 10),
    ("take refused: 30, both and not pending", 10),
    ("take refused: 30, pending", 20),
    ("take refused: 30, not pending", 20),
    ("open: passed over a pinned voxel that is farther", 20),
    ("open: passed over a pinned voxel of equal distance", 5),
    ("open: passed over both that is farther", 10),
    ("open: passed over both of equal distance", 5),
    ("open: both, and nothing examined yet", 5),
    ("open: beside both", 10),
    ("open: both at begin, unmarked now", 5),
    ("open: both at begin, pinned now", 3),
    ("open: both at begin, hurried now", 5),
    ("open: unmarked at begin, both now", 5),
    ("open: pinned at begin, both now", 3),
    ("open: hurried at begin, both now", 3),
    ("open: both at begin, free now, not pending although it passes", 5),
    ("open: no notice of a hurry", 20),
    ("open: no notice of a hurry of equal distance", 5),
    ("open: beside a pinned voxel", 20),
    ("open refused: 15, where a pinned voxel could be opened", 20),
    ("open refused: 15, where both could be opened", 10),
    ("open refused: 14, both, and nothing examined yet", 3),
    ("open refused: 15, both, and nothing examined yet", 5),
    ("begin refused: 2, no marks", 2),
    ("begin refused: 2, a mark too few", 2),
    ("begin refused: 2, a mark too many", 2),
    ("begin refused: 2, far too many marks", 2),
    ("begin refused: 29, at the first voxel alone", 5),
    ("begin refused: 29, at the last voxel alone", 5),
    ("begin refused: 29, on the border alone", 10),
    ("begin refused: 29, at two voxels or more", 1),
    ("begin: marks on 64 64 64", 1),
    ("carve refused: 2, no marks", 2),
    ("carve refused: 2, a mark too few", 2),
    ("carve refused: 2, a mark too many", 2),
    ("carve refused: 2, far too many marks", 2),
    ("carve refused: 29, at the first voxel alone", 5),
    ("carve refused: 29, at the last voxel alone", 5),
    ("carve refused: 29, on the border alone", 10),
    ("carve refused: 29, at two voxels or more", 1),
    ("carve refused: 7, for a voxel, with a mark over 3", 10),
    ("carve refused: 29, at a voxel that is gone alone", 2),
    ("carve refused: 29, in S alone", 5),
    ("carve refused: 29, at a voxel that could go alone", 5),
    ("carve: marks on 64 64 64", 1),
    ("take refused: 2, no marks", 2),
    ("take refused: 2, a mark too few", 2),
    ("take refused: 2, a mark too many", 2),
    ("take refused: 2, far too many marks", 2),
    ("take refused: 29, at the first voxel alone", 5),
    ("take refused: 29, at the last voxel alone", 5),
    ("take refused: 29, on the border alone", 10),
    ("take refused: 29, at two voxels or more", 1),
    ("take refused: 7, for a voxel, with a mark over 3", 10),
    ("take refused: 29, at a voxel that is gone alone", 2),
    ("take refused: 29, in S alone", 5),
    ("take refused: 29, at a voxel that could go alone", 5),
    ("take: marks on 64 64 64", 1),
    ("open refused: 2, no marks", 2),
    ("open refused: 2, a mark too few", 2),
    ("open refused: 2, a mark too many", 2),
    ("open refused: 2, far too many marks", 2),
    ("open refused: 29, at the first voxel alone", 5),
    ("open refused: 29, at the last voxel alone", 5),
    ("open refused: 29, on the border alone", 10),
    ("open refused: 29, at two voxels or more", 1),
    ("open refused: 7, for a voxel, with a mark over 3", 10),
    ("open refused: 29, at a voxel that is gone alone", 2),
    ("open refused: 29, in S alone", 5),
    ("open refused: 29, at a voxel that could go alone", 5),
    ("open: marks on 64 64 64", 1),
    ("finish: both, and nothing examined yet", 5),
    ("finish: marks of another length", 3),
    ("finish: a mark over 3", 1),
    ("crossing: marks of another length", 3),
    ("crossing: a mark over 3", 1),
    ("points: marks of another length", 3),
    ("points: a mark over 3", 1),
    // faces
    ("local: face 0", 10),
    ("local: face 1", 10),
    ("local: face 2", 10),
    ("local: face 3", 10),
    ("local: face 4", 10),
    ("local: face 5", 10),
    ("local: face 6", 10),
    ("local: another face, from the highest number down", 10),
    ("local: another face, high before low", 10),
    ("local: another face, z before y before x", 10),
    ("local: another face, y before x", 10),
    ("local: another face, all low ones first", 10),
    ("local: another face, by the place in the block", 10),
    ("local: one face is bare", 10),
    ("local: every face is bare", 5),
    ("take: face 0", 10),
    ("take: face 1", 10),
    ("take: face 2", 10),
    ("take: face 3", 10),
    ("take: face 4", 10),
    ("take: face 5", 10),
    ("take: another face, from the highest number down", 10),
    ("take: another face, high before low", 10),
    ("take: another face, z before y before x", 10),
    ("take: another face, y before x", 10),
    ("take: another face, all low ones first", 10),
    ("take: another face, by the place in the block", 10),
    ("take: one face is bare", 10),
    ("take: every face is bare", 5),
    ("take: a lower face covered by a pending voxel", 10),
    ("take: a lower face covered by a voxel of S", 10),
    ("take: a lower face covered by a pinned voxel", 10),
    ("open: face 0", 10),
    ("open: face 1", 10),
    ("open: face 2", 10),
    ("open: face 3", 10),
    ("open: face 4", 10),
    ("open: face 5", 10),
    ("open: another face, from the highest number down", 10),
    ("open: another face, high before low", 10),
    ("open: another face, z before y before x", 10),
    ("open: another face, y before x", 10),
    ("open: another face, all low ones first", 10),
    ("open: another face, by the place in the block", 10),
    ("open: one face is bare", 10),
    ("open: every face is bare", 5),
    ("open: a lower face covered by a voxel of S", 10),
    ("open: a lower face covered by a pinned voxel", 10),
    ("carve: face 0", 10),
    ("carve: face 1", 10),
    ("carve: face 2", 10),
    ("carve: face 3", 10),
    ("carve: face 4", 10),
    ("carve: face 5", 10),
    ("carve: face 6", 10),
    ("carve: another face, from the highest number down", 10),
    ("carve: another face, high before low", 10),
    ("carve: another face, z before y before x", 10),
    ("carve: another face, y before x", 10),
    ("carve: another face, all low ones first", 10),
    ("carve: another face, by the place in the block", 10),
    ("carve: one face is bare", 10),
    ("carve: every face is bare", 5),
    ("carve: no removal, limit 0", 10),
    ("carve: no removal, nothing pending", 10),
    ("carve: no removal, what was examined is pinned", 10),
    ("carve: no removal, what was examined does not pass", 10),
    ("carve: no removal, what was examined has a bare face", 10),
    ("carve: no removal, after one of an earlier call", 10),
    ("carve: another face of the first removal", 10),
    ("carve: another face of the removal before", 10),
    ("carve: a lower face of an earlier removal", 10),
    ("carve: a higher face of an earlier removal", 10),
    ("carve: another face of the removal of the greatest index", 10),
    ("carve: another face of a voxel examined last, which does not pass", 10),
    ("carve: another face of a voxel examined last, which is pinned", 10),
    ("carve: two examinations or more after the last removal", 10),
    ("carve: another face of the last removal when the call began", 10),
    ("carve: no bare face of the last removal when the call began", 10),
    // coarse starts
    ("begincoarse: blocks examined", 100),
    ("begincoarse: no block examined", 20),
    ("begincoarse: no block examined, though some are outside", 5),
    ("begincoarse: a block gone", 100),
    ("begincoarse: more than ten blocks gone", 30),
    ("begincoarse: a block examined that did not go then", 20),
    ("begincoarse: a block stays that is free", 10),
    ("begincoarse: a block inside, the least at voxel 0 of its eight alone", 10),
    ("begincoarse: a block inside, the least at voxel 1 of its eight alone", 10),
    ("begincoarse: a block inside, the least at voxel 2 of its eight alone", 10),
    ("begincoarse: a block inside, the least at voxel 3 of its eight alone", 10),
    ("begincoarse: a block inside, the least at voxel 4 of its eight alone", 10),
    ("begincoarse: a block inside, the least at voxel 5 of its eight alone", 10),
    ("begincoarse: a block inside, the least at voxel 6 of its eight alone", 10),
    ("begincoarse: a block inside, the least at voxel 7 of its eight alone", 10),
    ("begincoarse: a block outside, the least at voxel 0 of its eight alone", 10),
    ("begincoarse: a block outside, the least at voxel 1 of its eight alone", 10),
    ("begincoarse: a block outside, the least at voxel 2 of its eight alone", 10),
    ("begincoarse: a block outside, the least at voxel 3 of its eight alone", 10),
    ("begincoarse: a block outside, the least at voxel 4 of its eight alone", 10),
    ("begincoarse: a block outside, the least at voxel 5 of its eight alone", 10),
    ("begincoarse: a block outside, the least at voxel 6 of its eight alone", 10),
    ("begincoarse: a block outside, the least at voxel 7 of its eight alone", 10),
    ("begincoarse: a block pinned by voxel 0 of its eight alone", 5),
    ("begincoarse: a block pinned by voxel 1 of its eight alone", 5),
    ("begincoarse: a block pinned by voxel 2 of its eight alone", 5),
    ("begincoarse: a block pinned by voxel 3 of its eight alone", 5),
    ("begincoarse: a block pinned by voxel 4 of its eight alone", 5),
    ("begincoarse: a block pinned by voxel 5 of its eight alone", 5),
    ("begincoarse: a block pinned by voxel 6 of its eight alone", 5),
    ("begincoarse: a block pinned by voxel 7 of its eight alone", 5),
    ("begincoarse: a block pinned by all eight", 5),
    ("begincoarse: a block pinned from outside the box of voxels alone", 5),
    ("begincoarse: a block pinned by marks of 3 alone", 10),
    ("begincoarse: a block with a hurry, which waits", 20),
    ("begincoarse: a block with a hurry beside others", 10),
    ("begincoarse: a pin beyond the box of blocks", 20),
    ("begincoarse: a pin in a block of the inside", 20),
    ("begincoarse: a pin beside S in its block", 10),
    ("begincoarse: pending by a hurry alone", 10),
    ("begincoarse: a hurried voxel at the surface", 20),
    ("begincoarse: a pinned voxel at the surface", 20),
    ("begincoarse: a voxel of mark 3 deep inside", 5),
    ("begincoarse: a voxel deep inside that is not pending", 10),
    ("begincoarse: a voxel kept beyond the box of voxels", 50),
    ("begincoarse: a voxel of the box gone with its block", 50),
    ("begincoarse: a discarded group", 10),
    ("begincoarse: a discarded group in the box of blocks", 5),
    ("begincoarse: a pin outside the box of voxels, in a block of the inside", 5),
    ("begincoarse: a gap filled", 10),
    ("begincoarse: gaps filled in two blocks", 3),
    ("begincoarse: no pins, another body at the end than from begin, where openings ended", 3),
    ("begincoarse: no pins, the same body at the end as from begin, where all was opened", 20),
    ("begincoarse: pins, another body at the end than from begin, where all was opened", 3),
    ("begincoarse: over what begin left", 5),
    ("begincoarse: over what begincoarse left", 5),
    ("begincoarse refused: 2, cdist of n / 8 rounded up", 2),
    ("begincoarse refused: 2, cstatus of n / 8 rounded up", 2),
    ("begincoarse refused: 2, for an odd side", 5),
    ("begincoarse refused: 31, further buffers of n / 8 rounded down", 3),
    ("begincoarse refused: 31, a side of 4", 3),
    ("begincoarse refused: 31, for a voxel outside S alone", 6),
    ("begincoarse refused: 28, at the first voxel alone", 2),
    ("begincoarse refused: 28, at the last voxel alone", 2),
    ("begincoarse refused: 28, within the grid alone", 2),
    ("begincoarse refused: 28, at two voxels or more", 1),
    ("begincoarse refused: 2, no marks", 2),
    ("begincoarse refused: 2, a mark too few", 2),
    ("begincoarse refused: 2, a mark too many", 2),
    ("begincoarse refused: 2, far too many marks", 2),
    ("begincoarse refused: 29, at the first voxel alone", 3),
    ("begincoarse refused: 29, at the last voxel alone", 3),
    ("begincoarse refused: 29, on the border alone", 5),
    ("begincoarse refused: 29, at two voxels or more", 1),
    ("begincoarse on 64 64 64", 1),
    ("begincoarse on three different sides", 20),
    ("begin: over what begincoarse left", 5),
    ("carve: after a coarse start", 100),
    ("take: after a coarse start", 50),
    ("open: after a coarse start", 50),
    ("finish: after a coarse start", 20),
    ("carve: after a coarse start, with other marks", 20),
    ("take: after a coarse start, with other marks", 10),
    ("open: after a coarse start, with other marks", 10),
    // lists of removals
    ("judge: an empty list", 10),
    ("judge: an empty list, something pending", 3),
    ("judge: ordinary removals alone", 30),
    ("judge: an opening", 30),
    ("judge: two openings or more", 20),
    ("judge: as many openings as T", 10),
    ("judge: an opening first", 10),
    ("judge: a removal after an opening", 10),
    ("judge: an opening of k 0", 3),
    ("judge: an opening of k 2 or more", 5),
    ("judge: an opening of m 2 or more", 20),
    ("judge: another order than that of distances", 30),
    ("judge: an opening that is not the farthest", 10),
    ("judge: a pending voxel", 30),
    ("judge: a voxel that is not pending", 30),
    ("judge: a voxel of distance 0", 3),
    ("judge: a pinned voxel", 10),
    ("judge: a pinned voxel opened", 3),
    ("judge: something pending at the end", 10),
    ("judge: the record has openings", 10),
    ("judge: the record's openings are T, and the list has some", 5),
    ("judge: the record has removals", 10),
    ("judge: the record has examinations", 10),
    ("judge: the record has another Euler number", 10),
    ("judge: the record has another Euler number, and the list has openings", 5),
    ("judge: marks of another length", 3),
    ("judge: a mark over 3", 3),
    ("judge: after a coarse start", 10),
    ("judge: T of 0", 10),
    ("judge on 64 64 64", 1),
    ("judge on three different sides", 20),
    ("judge refused: 8, finished 2", 1),
    ("judge refused: removal 21, after good records", 10),
    ("judge refused: removal 22, after good records", 10),
    ("judge refused: removal 5, after good records", 10),
    ("judge refused: removal 21, after a pending voxel went", 5),
    ("judge refused: removal 22, after a pending voxel went", 5),
    ("judge refused: removal 5, after a pending voxel went", 5),
    ("judge refused: 32, the first record", 30),
    ("judge refused: 32, after good records", 30),
    ("judge refused: 32, the last record", 30),
    ("judge refused: 32, after a pending voxel went", 20),
    ("judge refused: 32, more records than voxels", 1),
    ("judge refused: 33, an empty list", 10),
    ("judge refused: 33, after an opening", 10),
    ("judge refused: 33, after a pending voxel went", 10),
    ("judge refused: 33, nothing pending", 10),
    ("judge refused: 33, nothing but pinned voxels passes", 3),
    // practice grids
    ("practice: a seed of 0", 5),
    ("practice: a seed of 1", 5),
    ("practice: a seed of 255", 1),
    ("practice: a seed of 256", 1),
    ("practice: a seed of 65535", 1),
    ("practice: a seed of 65536", 1),
    ("practice: a seed of 2147483647", 2),
    ("practice: a seed of 2147483648", 2),
    ("practice: a seed of 4294967294", 1),
    ("practice: a seed of 4294967295", 5),
    ("practice: the first s is 0", 1),
    ("practice: s of 0 within", 2),
    ("practice: s of 4294967295 within", 2),
    ("practice: s of 2147483648 within", 2),
    ("practice: s without upper bits within", 5),
    ("practice: s without lower bits within", 5),
    ("practice: s of equal halves within", 2),
    ("practice: u of 2000 within", 1),
    ("practice: u of 2001 within", 1),
    ("practice: u of 4294967295 within", 1),
    ("practice: a value of -1000 within", 5),
    ("practice: a value of 1000 within", 5),
    ("practice: a value of 0 within", 5),
    ("practice: no negative voxel", 5),
    ("practice: over the same grid", 5),
    ("practice: over missing points", 2),
    ("practice: over values out of range", 2),
    ("practice: the record has other sides", 10),
    ("practice: the record is finished", 2),
    ("practice: dist and status of other lengths", 2),
    ("practice: marks of another length", 2),
    ("practice on 64 64 64", 1),
    ("practice on three different sides", 20),
    ("begin: a practice grid", 50),
    ("write: a practice grid", 20),
    // many scans at once
    ("serve: of 1", 20),
    ("serve: of 2", 20),
    ("serve: of 3", 50),
    ("serve: of 15", 10),
    ("serve: of 16", 20),
    ("serve: place 0", 50),
    ("serve: place 1", 50),
    ("serve: place 15", 5),
    ("serve: limit 1", 50),
    ("serve: limit 1000", 5),
    ("serve: an empty order record", 20),
    ("serve: an order record of all grids", 50),
    ("serve: an order record of 16 grids", 5),
    ("serve: an order record of some grids", 50),
    ("serve: never served, a lower place was and waits", 20),
    ("serve: never served, and a higher place neither", 20),
    ("serve: never served, one that was waits too", 20),
    ("serve: never served, a lower one neither but nothing is pending there", 20),
    ("serve: served longest ago, a lower place waits too", 20),
    ("serve: served longest ago, a higher place waits too", 20),
    ("serve: served longest ago of those with something pending", 20),
    ("serve: served before, and no other waits", 20),
    ("serve: served before, one never served has nothing pending", 20),
    ("serve: from the front of the order record", 50),
    ("serve: from the middle of the order record", 20),
    ("serve: from the end of the order record", 20),
    ("serve: the only grid with something pending", 20),
    ("serve: three different sizes", 20),
    ("serve: the same sides everywhere", 20),
    ("serve: the slot in use is not among the grids", 5),
    ("serve: the slot in use is not the one served", 50),
    ("serve: an unfit slot past the last grid", 5),
    ("serve: counts at their limits", 2),
    ("serve: lengths that are right in sum alone", 3),
    ("serve: 64 64 64 everywhere", 2),
    ("serve: otherwise with the marks of place 0", 5),
    ("serve: otherwise with the marks of another place", 5),
    ("serve: otherwise with the record of another place", 10),
    ("serve: something still pending", 50),
    ("serve: nothing pending there any more", 20),
    ("serve: a removal", 50),
    ("serve: no removal, after one of an earlier call", 5),
    ("serve: face 0", 5),
    ("serve: face 1", 5),
    ("serve: face 2", 5),
    ("serve: face 3", 5),
    ("serve: face 4", 5),
    ("serve: face 5", 5),
    ("serve: face 6", 5),
    ("serve: after a coarse start", 20),
    ("serve: after a coarse start, with other marks", 5),
    ("serve: the order record of a refusal with 34", 5),
    ("serve: the order record of a refusal with 1", 3),
    ("serve: the order record of a refusal with 2", 3),
    ("serve: the order record of a refusal with 7", 3),
    ("serve: the order record of a refusal with 29", 3),
    ("serve: the order record of a refusal with 8", 3),
    ("serve: the order record of a refusal with 35", 3),
    ("serve refused: 1, of the first grid alone", 2),
    ("serve refused: 1, of the last grid alone", 2),
    ("serve refused: 1, of the last of 16 grids alone", 1),
    ("serve refused: 1, of a grid whose turn it is not", 2),
    ("serve refused: 7, of the first grid alone", 2),
    ("serve refused: 7, of the last grid alone", 2),
    ("serve refused: 7, of the last of 16 grids alone", 1),
    ("serve refused: 7, of a grid whose turn it is not", 2),
    ("serve refused: 7, lengths that are right in sum alone", 2),
    ("serve refused: 29, of the first grid alone", 2),
    ("serve refused: 29, of the last grid alone", 2),
    ("serve refused: 29, of the last of 16 grids alone", 1),
    ("serve refused: 29, of a grid whose turn it is not", 2),
    ("serve refused: 8, of the first grid alone", 2),
    ("serve refused: 8, of the last grid alone", 2),
    ("serve refused: 8, of the last of 16 grids alone", 1),
    ("serve refused: 8, of a grid whose turn it is not", 2),
    ("serve refused: 8, while a grid waits", 5),
    ("serve refused: 8, finished 2", 1),
    ("serve refused: 8, finished 255", 1),
    ("serve refused: order 7, longer than the grids", 5),
    ("serve refused: order 7, no longer than the grids", 5),
    ("serve refused: order 7, 17 places", 2),
    ("serve refused: order 7, of 16 grids", 2),
    ("serve refused: order 7, one past the last", 5),
    ("serve refused: order 7, place 255", 2),
    ("serve refused: 35, after grids were served", 5),
    ("serve refused: 35, none was served", 5),
    ("serve refused: 35, of 16 grids", 1),
    // the local test
    ("local", 2400),
    ("local: bits from 27 on", 1),
    ("local: the middle kept", 100),
];

/// Every entry with the least number of calls that must meet it.
pub fn list() -> BTreeMap<String, usize> {
    let mut entries: BTreeMap<String, usize> = ALSO.iter().map(|&(entry, least)| (entry.to_string(), least)).collect();
    for call in CALLS {
        entries.insert(format!("{call} done"), 10);
        let checks = order(call).unwrap_or(&[]);
        for (i, first) in checks.iter().enumerate() {
            entries.insert(format!("{call} refused: {first}"), 2);
            entries.extend(causes(call, first).iter().map(|cause| (format!("{call} refused: {first}, {cause} alone"), 1)));
            let second = checks[i + 1..].iter().filter(|second| !impossible(call, first, second));
            entries.extend(second.map(|second| (format!("{call}: {first} before {second}"), 2)));
        }
        if call == "serve" {
            let both = (1..OF_GRIDS.len()).flat_map(|k| OF_GRIDS[..k].iter().map(move |first| (first, OF_GRIDS[k])));
            entries.extend(both.map(|(first, second)| (format!("{call}: {first} before an earlier grid's {second}"), 2)));
        }
        for record in RECORDS.into_iter().filter(|record| record.iter().all(|check| checks.contains(check))) {
            let both = record[1..].iter().flat_map(|first| record.iter().map(move |second| (first, second)));
            entries.extend(both.map(|(first, second)| (format!("{call}: {first} before a later record's {second}"), 1)));
        }
    }
    entries.extend(extremes::entries().into_iter().map(|entry| (entry, 1)));
    for (case, lines) in crate::scripts::cases::LINES {
        entries.extend(lines.iter().map(|line| (worked(case, line), 1)));
    }
    entries
}

fn worked(case: &str, line: &str) -> String {
    format!("case {case}: {line}")
}

fn impossible(call: &str, first: &str, second: &str) -> bool {
    IMPOSSIBLE.iter().any(|&(c, f, s, _)| (c, f, s) == (call, first, second))
}

/// What is seen of a call before it is made.
pub struct Before {
    call: String,
    words: Vec<String>,
    faults: Option<Vec<Fault>>,
    /// The face that it must answer, where that is found out.
    face: Option<usize>,
    /// The whole answer of a list that is judged and keeps the rules.
    judged: Option<String>,
    /// The values that a practice call must leave.
    practised: Option<Vec<i32>>,
    /// What a call of `serve` must answer and leave.
    served: Option<served::Wanted>,
    seen: Vec<String>,
}

impl Before {
    pub fn of(state: &Replay, command: &str) -> Self {
        let words: Vec<&str> = command.split_ascii_whitespace().collect();
        let call = words.first().unwrap_or(&"").to_string();
        let faults = faults(state, command);
        let (mut seen, mut face, mut judged) = (Vec::new(), None, None);
        if order(&call).is_some() || call == "local" {
            seen.extend(sights::of(state, &call, &words));
            if call != "serve" || served::is_of_one(state, &words) {
                seen.extend(extremes::of(state, &call, &words));
            }
        }
        if faults.as_ref().is_none_or(Vec::is_empty) {
            let faced = faced::of(state, &call, &words);
            face = faced.as_ref().map(|faced| faced.face);
            seen.extend(faced.into_iter().flat_map(|faced| faced.seen));
            judged = judged::line(state, &words);
        }
        let made = faults.as_ref().is_some_and(Vec::is_empty).then(|| practised::left(state, &words)).flatten();
        let practised = (call == "practice").then(|| made.unwrap_or_else(|| state.values.clone()));
        let served = (call == "serve").then(|| served::Wanted::of(state, &words, !faults.as_ref().is_some_and(Vec::is_empty)));
        Before { call, words: words.iter().map(|word| word.to_string()).collect(), faults, face, judged, practised, served, seen }
    }

    /// An error where a practice call left other values, those of its rule, or, refused, those that it was lent; or where `serve` left another order
    /// record, or other grids.
    pub fn left(&self, state: &Replay) -> Result<(), String> {
        match &self.practised {
            Some(wanted) if *wanted != state.values => {
                Err("the values after it are not those of a practice grid, or of a refusal".to_string())
            }
            _ => self.served.as_ref().map_or(Ok(()), |wanted| wanted.left(state)),
        }
    }

    /// The entries that the call meets by its answer; an error where the answer is not that of the first fault, or has another face.
    pub fn entries(self, answer: &str) -> Result<Vec<String>, String> {
        let said = answer.split(" # ").next().unwrap_or("");
        let words: Vec<&str> = self.words.iter().map(String::as_str).collect();
        let answered = extremes::answered(&self.call, &words, said);
        let other_face = |face: &usize| faced::answered(said) != Some(*face);
        let Some(faults) = self.faults else {
            if let Some(face) = self.face.filter(other_face) {
                return Err(format!("the answer {said:?} has not the lowest bare face, {face}"));
            }
            return Ok(if self.call == "local" { self.seen.into_iter().chain(answered).collect() } else { Vec::new() });
        };
        let refused = said.trim_start_matches(&self.call).trim_start().strip_prefix("refused ");
        let refused = refused.map(|number| number.split(' ').next().unwrap_or(number));
        if refused != faults.first().map(Fault::number) {
            let by_faults = faults.first().map_or("done".to_string(), |fault| format!("refused {}", fault.number()));
            return Err(format!("the answer {said:?} is not what the order of checks gives: {by_faults}"));
        }
        let Some(first) = faults.first() else {
            if let Some(face) = self.face.filter(other_face) {
                return Err(format!("the answer {said:?} has not the face of the last removal, {face}"));
            }
            if let Some(judged) = self.judged.filter(|judged| judged != said) {
                return Err(format!("the answer {said:?} is not what the list comes to: {judged}"));
            }
            if let Some(line) = self.served.and_then(|wanted| wanted.line).filter(|line| line != said) {
                return Err(format!("the answer {said:?} is not that of the grid whose turn it is, alone: {line}"));
            }
            let seen = self.seen.into_iter().chain(sights::answered(&self.call, said)).chain(answered);
            return Ok(seen.chain([format!("{} done", self.call)]).collect());
        };
        let so = format!("if refused {}: ", first.check);
        let seen = self.seen.iter().filter_map(|seen| seen.strip_prefix(&so));
        Ok(refusals(&self.call, first, &faults).into_iter().chain(seen.map(str::to_string)).collect())
    }
}

fn refusals(call: &str, first: &Fault, faults: &[Fault]) -> Vec<String> {
    let mut entries = vec![format!("{call} refused: {}", first.check)];
    let same = |fault: &Fault| fault.check == first.check && fault.record == first.record;
    if faults.iter().filter(|fault| same(fault)).all(|fault| fault.cause == first.cause) {
        entries.push(format!("{call} refused: {}, {} alone", first.check, first.cause));
    }
    let others: Vec<&Fault> = faults.iter().filter(|fault| !same(fault)).collect();
    for second in others {
        let later = first.record.is_some() && second.record > first.record && first.of_patch() == second.of_patch();
        let later = if later { "a later record's " } else { "" };
        entries.push(format!("{call}: {} before {later}{}", first.check, second.check));
        if second.place.is_some() && second.place < first.place {
            entries.push(format!("{call}: {} before an earlier grid's {}", first.check, second.check));
        }
    }
    entries.sort_unstable();
    entries.dedup();
    entries
}

/// The entry that an answer of a worked case meets: its line is the one that document 01 has.
pub fn worked_case(case: &str, line: &str) -> String {
    worked(case, line)
}

mod coarse;
pub mod extremes;
mod faced;
mod gaps;
mod judged;
mod marked;
pub mod noted;
mod ordered;
mod patched;
mod practised;
mod served;
mod sights;
mod wide;
