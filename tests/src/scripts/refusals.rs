//! Every call on a record, and begin, with each of its faults alone, by every clause, and with every two of them, brought about in both orders.

use crate::faults::order;

/// A fault of a call: what brings it about, and the argument that it needs.
#[derive(Clone, Copy)]
pub(super) struct Fault<'a> {
    check: &'a str,
    lines: &'a str,
    index: Option<&'a str>,
    axis: Option<&'a str>,
}

impl<'a> Fault<'a> {
    pub fn check(&self) -> &'a str {
        self.check
    }

    pub fn lines(&self) -> &'a str {
        self.lines
    }
}

/// A state in which a call is done, and what spoils it. The first fault of a number is the one that stands in pairs.
pub(super) struct Subject<'a> {
    pub call: &'a str,
    pub index: &'a str,
    pub axis: &'a str,
    pub state: String,
    pub faults: Vec<Fault<'a>>,
}

pub(super) const fn state<'a>(check: &'a str, lines: &'a str) -> Fault<'a> {
    Fault { check, lines, index: None, axis: None }
}

pub(super) const fn at(check: &'static str, lines: &'static str, index: &'static str) -> Fault<'static> {
    Fault { check, lines, index: Some(index), axis: None }
}

pub(super) const fn along(check: &'static str, index: Option<&'static str>, axis: &'static str) -> Fault<'static> {
    Fault { check, lines: "", index, axis: Some(axis) }
}

/// Case C with T = 1: 75 voxels, the ring's middle is 37, one of its members 31.
pub(super) const RING: &str = "sides 5 5 3\nT 1\nvalues fill 4\nvalues set 31 -4\nvalues set 32 -4\nvalues set 33 -4\nvalues set 36 -4\n\
                    values set 38 -4\nvalues set 41 -4\nvalues set 42 -4\nvalues set 43 -4\n";

/// Case D in 72 voxels with T = 1: 31 and 38 are inside, 32 and 37 may go, 34 stands apart.
pub(super) const PAIR: &str = "sides 6 4 3\nT 1\nvalues fill 6\nvalues set 31 -6\nvalues set 38 -6\n";

/// The 26 voxels about 62 are inside, so that 62 is kept and has no face neighbour that is not.
pub(super) const SHELL: &str = "sides 5 5 5\nT 1\nvalues fill 4\nvalues set 31 -4\nvalues set 32 -4\nvalues set 33 -4\nvalues set 36 -4\n\
                     values set 37 -4\nvalues set 38 -4\nvalues set 41 -4\nvalues set 42 -4\nvalues set 43 -4\nvalues set 56 -4\n\
                     values set 57 -4\nvalues set 58 -4\nvalues set 61 -4\nvalues set 63 -4\nvalues set 66 -4\nvalues set 67 -4\n\
                     values set 68 -4\nvalues set 81 -4\nvalues set 82 -4\nvalues set 83 -4\nvalues set 86 -4\nvalues set 87 -4\n\
                     values set 88 -4\nvalues set 91 -4\nvalues set 92 -4\nvalues set 93 -4\nbegin\n";

/// 1, 2 and 7 on the ring.
pub(super) const UNFIT_RING: [Fault; 22] = [
    state("1", "rec a 65\n"),
    state("1", "rec a 2\n"),
    state("1", "rec b 65\n"),
    state("1", "rec b 2\n"),
    state("1", "rec c 65\n"),
    state("1", "rec c 2\n"),
    state("1", "rec a 0\nrec b 0\nrec c 0\n"),
    state("1", "rec a 18446744073709551615\nrec b 18446744073709551615\n"),
    state("2", "dist len 74\n"),
    state("2", "dist len 76\n"),
    state("2", "status len 74\n"),
    state("2", "status len 76\n"),
    state("2", "dist len 0\nstatus len 0\n"),
    state("7", "rec removals 76\n"),
    state("7", "rec openings 2\n"),
    state("7", "rec examinations 2026\n"),
    state("7", "rec euler 601\n"),
    state("7", "rec euler -601\n"),
    state("7", "status set 37 2\n"),
    state("7", "status set 0 1\n"),
    state("7", "status set 31 0\n"),
    state("7", "status set 31 3\n"),
];

/// 1, 2 and 7 on the pair.
pub(super) const UNFIT_PAIR: [Fault; 19] = [
    state("1", "rec a 65\n"),
    state("1", "rec a 2\n"),
    state("1", "rec b 65\n"),
    state("1", "rec b 2\n"),
    state("1", "rec c 65\n"),
    state("1", "rec c 2\n"),
    state("2", "dist len 71\n"),
    state("2", "dist len 73\n"),
    state("2", "status len 71\n"),
    state("2", "status len 73\n"),
    state("7", "rec removals 73\n"),
    state("7", "rec openings 2\n"),
    state("7", "rec examinations 1945\n"),
    state("7", "rec euler 577\n"),
    state("7", "rec euler -577\n"),
    state("7", "status set 37 2\n"),
    state("7", "status set 0 1\n"),
    state("7", "status set 31 0\n"),
    state("7", "status set 31 3\n"),
];

pub(super) const FINISHED: Fault = state("8", "rec finished 1\n");
pub(super) const PENDING: Fault = state("13", "status set 37 3\n");

pub(super) fn with(faults: &[Fault<'static>], more: &[Fault<'static>]) -> Vec<Fault<'static>> {
    faults.iter().chain(more).copied().collect()
}

fn begin() -> Subject<'static> {
    let faults = [
        state("1", "rawsides 65 5 3\n"),
        state("1", "rawsides 2 5 3\n"),
        state("1", "rawsides 5 65 3\n"),
        state("1", "rawsides 5 2 3\n"),
        state("1", "rawsides 5 5 65\n"),
        state("1", "rawsides 5 5 2\n"),
        state("1", "rawsides 5 5 0\n"),
        state("1", "rawsides 18446744073709551615 18446744073709551615 3\n"),
        // sides that are not fit, with buffers that have as many voxels
        state("1", "sides 2 5 3\nvalues fill 4\nvalues set 12 -4\n"),
        state("1", "rawsides 65 3 3\nvalues len 585\ndist len 585\nstatus len 585\n"),
        state("2", "values len 74\n"),
        state("2", "values len 76\n"),
        state("2", "dist len 74\n"),
        state("2", "dist len 76\n"),
        state("2", "status len 74\n"),
        state("2", "status len 76\n"),
        state("3", "values set 35 -1\n"),
        state("3", "values set 39 -1\n"),
        state("3", "values set 27 -1\n"),
        state("3", "values set 47 -1\n"),
        state("3", "values set 12 -1\n"),
        state("3", "values set 62 -32767\n"),
        state("4", "values fill 4\n"),
        state("4", "values fill -2147483648\n"),
    ];
    Subject { call: "begin", index: "", axis: "", state: RING.to_string(), faults: faults.to_vec() }
}

fn take() -> Subject<'static> {
    let more = [
        FINISHED,
        at("5", "", "1000000"),
        at("5", "", "72"),
        at("5", "", "18446744073709551615"),
        at("10", "", "0"),
        at("11", "", "31"),
        at("12", "status set 34 1\n", "34"),
    ];
    Subject { call: "take", index: "32", axis: "", state: format!("{PAIR}begin\n"), faults: with(&UNFIT_PAIR, &more) }
}

fn open() -> Subject<'static> {
    let more = [FINISHED, PENDING, state("14", "rec T 0\n"), state("15", "dist set 37 -4\n")];
    Subject { call: "open", index: "", axis: "", state: format!("{RING}begin\ncarve 9\n"), faults: with(&UNFIT_RING, &more) }
}

fn crossing() -> Subject<'static> {
    let more = [
        state("9", "rec finished 0\n"),
        at("5", "", "1000000"),
        at("5", "", "75"),
        at("5", "", "18446744073709551615"),
        along("6", None, "3"),
        along("6", None, "4294967295"),
        along("6", Some("39"), "0"),
        along("6", Some("47"), "1"),
        along("6", Some("62"), "2"),
    ];
    let state = format!("{RING}begin\ncarve 9\nfinish\n");
    Subject { call: "crossing", index: "38", axis: "0", state, faults: with(&UNFIT_RING, &more) }
}

/// `axis` stands for the second argument, the buffer's length.
fn points() -> Subject<'static> {
    let more = [
        state("9", "rec finished 0\n"),
        at("5", "", "226"),
        at("5", "", "1000000"),
        at("5", "", "4294967296"),
        at("5", "", "18446744073709551615"),
    ];
    let state = format!("{RING}begin\ncarve 9\nfinish\n");
    Subject { call: "points", index: "113", axis: "10", state, faults: with(&UNFIT_RING, &more) }
}

fn subjects() -> [Subject<'static>; 7] {
    let begun = format!("{RING}begin\n");
    let carve = Subject { call: "carve", index: "9", axis: "", state: begun.clone(), faults: with(&UNFIT_RING, &[FINISHED]) };
    let carved = format!("{begun}carve 9\n");
    let finish = Subject { call: "finish", index: "", axis: "", state: carved, faults: with(&UNFIT_RING, &[FINISHED, PENDING]) };
    [begin(), carve, take(), open(), finish, crossing(), points()]
}

impl Subject<'_> {
    /// The call with the arguments that these faults need.
    fn line(&self, faults: &[&Fault]) -> String {
        let index = faults.iter().find_map(|f| f.index).unwrap_or(self.index);
        let axis = faults.iter().find_map(|f| f.axis).unwrap_or(self.axis);
        format!("{} {index} {axis}", self.call).trim_end().to_string() + "\n"
    }

    fn with_fault(&self, fault: &Fault) -> String {
        format!("{}{}{}", self.state, fault.lines, self.line(&[fault]))
    }

    /// Both faults, the one of them brought about first: alone, then together.
    fn with_both(&self, first: &Fault, second: &Fault) -> String {
        let one = if second.index.is_some() && first.index.is_some() { String::new() } else { self.line(&[first]) };
        format!("{}{}{one}{}{}", self.state, first.lines, second.lines, self.line(&[first, second]))
    }

    pub fn scripts(&self) -> Vec<String> {
        let mut scripts = vec![format!("# {}: done, and each fault alone\n{}{}", self.call, self.state, self.line(&[]))];
        self.faults.iter().for_each(|fault| scripts[0] += &self.with_fault(fault));
        let checks = order(self.call).unwrap_or(&[]);
        let of = |check: &str| self.faults.iter().find(|fault| fault.check == check);
        for (i, first) in checks.iter().enumerate() {
            let mut text = format!("# {}: {first} before every later number\n", self.call);
            for (f, s) in checks[i + 1..].iter().filter_map(|second| of(first).zip(of(second))) {
                // Two faults that each need a voxel of their own have their script below.
                if f.index.is_none() || s.index.is_none() {
                    text += &self.with_both(f, s);
                    text += &self.with_both(s, f);
                }
            }
            if text.lines().count() > 1 {
                scripts.push(text);
            }
        }
        scripts
    }
}

/// Pairs that need a state of their own, and records at the limits of number 7.
const APART: &[(&str, &str)] = &[
    ("take: 10 before 12", "begin\ntake 34\nstatus set 34 1\ntake 34\nstatus set 34 0\ntake 34\n"),
    ("take: 11 before 12", "begin\nstatus set 34 1\ntake 34\ndist set 34 -1\ntake 34\ndist set 34 0\ntake 34\ndist set 34 -1\ntake 34\n"),
];

const AT_LIMITS: &str =
    "begin\nrec openings 1\nrec removals 75\nrec examinations 2025\nrec euler 600\nrec show 0\ntake 37\nopen\ncarve 0\ncarve 1\n\
                         carve 1\nrec removals 0\nrec examinations 0\nrec euler -600\ncarve 0\nrec euler -601\ncarve 0\n";

const ENDS: &str = "begin\ncarve 9\ndist set 37 2147483647\nfinish\ncrossing 37 2\nbegin\ncarve 9\ndist set 37 0\nfinish\ncrossing 37 2\n\
                    begin\ncarve 9\ndist set 31 -2147483648\ndist set 56 2147483647\nfinish\ncrossing 31 2\ncrossing 6 2\n";

/// Positions and lengths of `points` at their ends, on the ring and on a grid without a point.
const POSITIONS: &str = "begin\ncarve 9\nfinish\npoints 0 0\npoints 0 2\npoints 0 3\npoints 0 5\npoints 0 6\npoints 0 90\npoints 0 91\npoints 0 93\n\
                         points 20 3\npoints 21 3\npoints 22 5\npoints 100 0\npoints 100 2\npoints 100 3\npoints 100 5\npoints 101 30\npoints 102 30\n\
                         points 131 3\npoints 132 3\npoints 224 3\npoints 224 0\npoints 225 0\npoints 225 2\npoints 225 3\npoints 226 0\npoints 226 3\n\
                         dist fill 5\nstatus fill 0\npoints 0 0\npoints 0 3\npoints 1 300\npoints 225 3\n";

/// A byte that is neither 0 nor 1 is finished, for every call.
const BYTES: &str = "begin\ncarve 9\nfinish\nrec finished 2\ncarve 1\ntake 37\nopen\nfinish\nrec show 0\ncrossing 36 0\npoints 0 30\n\
                     rec finished 255\ncarve 1\ntake 37\nopen\nfinish\nrec show 0\ncrossing 36 0\npoints 0 30\n\
                     rec finished 128\ncarve 1\ncrossing 36 0\nrec finished 0\ncrossing 36 0\npoints 0 30\ncarve 1\n\
                     rec finished 2\nrec openings 2\ncarve 1\ncrossing 36 0\n";

/// The scripts of all subjects.
pub fn scripts() -> Vec<String> {
    let mut scripts: Vec<String> = subjects().iter().flat_map(Subject::scripts).collect();
    scripts.extend(APART.iter().map(|(what, lines)| format!("# {what}\n{PAIR}{lines}")));
    scripts.push(format!(
        "# open: 13 before 15, and 15 where a voxel is kept outside\n{SHELL}open\nstatus set 62 3\nopen\nrec openings 1\nopen\nstatus set 62 1\nopen\nrec openings 0\nopen\nstatus set 62 3\nopen\nstatus set 62 1\nfinish\n"
    ));
    scripts.push(format!("# counts at the limits of number 7 are fit, and a call may go past them\n{RING}{AT_LIMITS}"));
    scripts.push(format!("# distances at the ends of their type\n{RING}{ENDS}"));
    scripts.push(format!("# points: positions and lengths at their ends\n{RING}{POSITIONS}"));
    scripts.push(format!("# finished is any byte but 0\n{RING}{BYTES}"));
    scripts
}
