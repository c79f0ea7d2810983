//! Runs of the calls, timed in turn for each implementation in one process, every answer and buffer matched.

use crate::clock;
use crate::race::Order;
use crate::types::{begun, size, Carved, Machine, Opened, Record, Refused, Sides, Taken, Value, Values, MISSING, UNMARKED};
use std::time::{Duration, Instant};

type Answer<T> = Result<T, Refused>;
type Begin = fn(Sides, u16, &Values, &[u8], &mut [i32], &mut [u8]) -> Answer<Record>;
type Carve = fn(Record, &[i32], &[u8], &mut [u8], u32) -> Answer<Carved>;
type Take = fn(Record, &[i32], &[u8], &mut [u8], usize) -> Answer<Taken>;
type Open = fn(Record, &[i32], &[u8], &mut [u8]) -> Answer<Opened>;
type Finish = fn(Record, &mut [i32], &[u8]) -> Answer<Record>;

/// The five calls of an implementation.
pub struct Calls {
    pub name: &'static str,
    pub begin: Begin,
    pub carve: Carve,
    pub take: Take,
    pub open: Open,
    pub finish: Finish,
}

impl Calls {
    pub const fn of<M: Machine>() -> Self {
        let begin: Begin =
            |sides, allowed, values, marks, dist, status| M::begin(sides, allowed, M::Value::lent(values), marks, dist, status);
        Calls { name: M::NAME, begin, carve: M::carve, take: M::take, open: M::open, finish: M::finish }
    }

    /// Whether begin fills gaps behind the face, as it does since document 02's CR 6: one missing voxel between six negative ones tells.
    pub fn fills_gaps(&self) -> bool {
        let mut values = vec![1; 125];
        for i in [37, 57, 61, 63, 67, 87] {
            values[i] = -1;
        }
        values[62] = MISSING;
        let case = Case::unmarked(Sides { a: 5, b: 5, c: 5 }, 0, values.into());
        let mut state = State::blank(&case);
        begin(self, &case, &mut state, &mut Log::default());
        state.dist[62] == -1
    }
}

pub struct Case {
    pub sides: Sides,
    pub allowed: u16,
    pub values: Values,
    pub marks: Vec<u8>,
    /// The voxel that is taken, where one is.
    pub taken: usize,
}

impl Case {
    pub fn unmarked(sides: Sides, allowed: u16, values: Values) -> Self {
        Case { sides, allowed, values, marks: vec![UNMARKED; size(sides)], taken: 0 }
    }
}

/// A record with its buffers.
#[derive(Clone, Debug, PartialEq, Eq)]
pub struct State {
    pub record: Record,
    pub dist: Vec<i32>,
    pub status: Vec<u8>,
}

impl State {
    /// Before begin: buffers that hold nothing of use.
    pub fn blank(case: &Case) -> Self {
        let n = size(case.sides);
        State { record: begun(case.sides, 0), dist: vec![77; n], status: vec![77; n] }
    }

    pub fn set(&mut self, from: &State) {
        self.record = from.record;
        self.dist.copy_from_slice(&from.dist);
        self.status.copy_from_slice(&from.status);
    }
}

/// What the calls of a run answered, in order.
#[derive(Clone, Debug, Default, PartialEq, Eq)]
pub struct Log {
    pub carved: Vec<Carved>,
    pub taken: Vec<Taken>,
    pub opened: Vec<Opened>,
    pub refused: Option<Refused>,
    /// The faces, taken out of the answers: none where an archive does not tell them.
    pub faces: Vec<u32>,
}

impl Log {
    pub fn examined(&self) -> u64 {
        self.carved.iter().map(|c| u64::from(c.examined)).sum()
    }
}

pub fn begin(calls: &Calls, case: &Case, state: &mut State, _: &mut Log) {
    state.record = (calls.begin)(case.sides, case.allowed, &case.values, &case.marks, &mut state.dist, &mut state.status)
        .expect("begin takes the grid");
}

fn carve_up_to(limit: u32, calls: &Calls, case: &Case, state: &mut State, log: &mut Log) {
    let mut carved = (calls.carve)(state.record, &state.dist, &case.marks, &mut state.status, limit).expect("carve takes the state");
    state.record = carved.next;
    log.faces.extend(carved.face.take());
    log.carved.push(carved);
}

pub fn carve(calls: &Calls, case: &Case, state: &mut State, log: &mut Log) {
    carve_up_to(u32::MAX, calls, case, state, log);
}

pub fn carve_one(calls: &Calls, case: &Case, state: &mut State, log: &mut Log) {
    carve_up_to(1, calls, case, state, log);
}

pub fn take(calls: &Calls, case: &Case, state: &mut State, log: &mut Log) {
    let mut taken = (calls.take)(state.record, &state.dist, &case.marks, &mut state.status, case.taken).expect("the voxel can be taken");
    state.record = taken.next;
    log.faces.extend(taken.face.take());
    log.taken.push(taken);
}

/// Opens, or is refused.
pub fn open(calls: &Calls, case: &Case, state: &mut State, log: &mut Log) {
    match (calls.open)(state.record, &state.dist, &case.marks, &mut state.status) {
        Ok(mut opened) => {
            state.record = opened.next;
            log.faces.extend(opened.face.take());
            log.opened.push(opened);
        }
        Err(number) => log.refused = Some(number),
    }
}

/// Open and carve in turn, until open refuses.
pub fn turns(calls: &Calls, case: &Case, state: &mut State, log: &mut Log) {
    loop {
        open(calls, case, state, log);
        if log.refused.is_some() {
            return;
        }
        carve(calls, case, state, log);
    }
}

pub fn finish(calls: &Calls, _: &Case, state: &mut State, _: &mut Log) {
    state.record = (calls.finish)(state.record, &mut state.dist, &state.status).expect("finish takes the state");
}

pub fn whole(calls: &Calls, case: &Case, state: &mut State, log: &mut Log) {
    begin(calls, case, state, log);
    carve(calls, case, state, log);
    turns(calls, case, state, log);
    finish(calls, case, state, log);
}

pub type Run = fn(&Calls, &Case, &mut State, &mut Log);

/// What a run answered, and what it left.
type Outcome = Option<(Log, State)>;

/// The first run says what is wanted, and every later one must come to the same. Faces are wanted of those that tell them, as the first of these does.
fn compare(wanted: &mut Outcome, log: &Log, state: &State, name: &str) {
    let (answers, after) = wanted.get_or_insert_with(|| (log.clone(), state.clone()));
    if answers.faces.is_empty() || log.faces.is_empty() {
        answers.faces.extend(&log.faces);
    } else {
        assert!(answers.faces == log.faces, "{name}: other faces");
    }
    let told = |log: &Log| (log.carved.clone(), log.taken.clone(), log.opened.clone(), log.refused);
    assert!(told(answers) == told(log), "{name}: other answers");
    assert!(after == state, "{name}: other buffers");
}

/// An implementation that leaves gaps behind the face as they are, and a grid's values without them. On the grid as it is, it comes to something else
/// by its rule, and is timed alone; with the gaps filled it must come to what all others do.
pub struct Apart {
    pub entrant: usize,
    pub filled: Case,
}

pub const ROUNDS: usize = 9;
const AT_LEAST: Duration = Duration::from_millis(300);

/// A run from one state, raced round by round between implementations.
pub struct Race<'a> {
    case: &'a Case,
    start: &'a State,
    run: Run,
    apart: Option<&'a Apart>,
    /// The least time of each implementation so far, in ns.
    pub times: Vec<f64>,
    order: Order,
    state: State,
    log: Log,
    outcome: Outcome,
    outcome_apart: Outcome,
}

impl<'a> Race<'a> {
    pub fn new(entrants: usize, case: &'a Case, start: &'a State, run: Run, apart: Option<&'a Apart>) -> Self {
        let (carved, opened, faces) = (Vec::with_capacity(1 << 12), Vec::with_capacity(1 << 12), Vec::with_capacity(1 << 13));
        let log = Log { carved, opened, faces, ..Log::default() };
        let (times, order) = (vec![f64::INFINITY; entrants], Order::of(entrants));
        Race { case, start, run, apart, times, order, state: start.clone(), log, outcome: None, outcome_apart: None }
    }

    /// Every implementation once; all must answer and leave the same, but for one that is set apart.
    pub fn round(&mut self, all: &[Calls]) {
        for k in self.order.drawn() {
            let calls = &all[k];
            let apart = self.apart.filter(|apart| apart.entrant == k);
            if let (Some(apart), None) = (apart, &self.outcome_apart) {
                self.time(calls, &apart.filled);
                compare(&mut self.outcome, &self.log, &self.state, calls.name);
            }
            self.times[k] = self.times[k].min(self.time(calls, self.case));
            let wanted = if apart.is_some() { &mut self.outcome_apart } else { &mut self.outcome };
            compare(wanted, &self.log, &self.state, calls.name);
        }
    }

    /// The time of one run from the start, in ns.
    fn time(&mut self, calls: &Calls, case: &Case) -> f64 {
        self.state.set(self.start);
        self.log.carved.clear();
        self.log.taken.clear();
        self.log.opened.clear();
        self.log.faces.clear();
        self.log.refused = None;
        case.values.warm();
        std::hint::black_box(case.marks.iter().fold(0, |all, mark| all ^ mark));
        let from = clock::now();
        (self.run)(calls, case, &mut self.state, &mut self.log);
        clock::since(from)
    }

    /// What every run answered.
    pub fn log(&self) -> &Log {
        &self.outcome.as_ref().expect("a round ran").0
    }
}

/// A race of nine rounds or more.
pub fn contest<'a>(all: &[Calls], case: &'a Case, start: &'a State, run: Run, apart: Option<&'a Apart>) -> Race<'a> {
    let mut race = Race::new(all.len(), case, start, run, apart);
    let began = Instant::now();
    let mut rounds = 0;
    while rounds < ROUNDS || (began.elapsed() < AT_LEAST && rounds < 1000) {
        race.round(all);
        rounds += 1;
    }
    race
}
