//! Calls one at a time: what each costs on a grid, the checks of the whole grid included. Ours, against another archive's where one is given.

use crate::{after, named, ratio_to, with_ratio, GRIDS, LARGEST};
use bench::archive::Others;
use bench::contest::{begin, carve, Calls, Case, Log, State, ROUNDS};
use bench::grids::{self, lengthened, patches, Shape};
use bench::race::Order;
use bench::types::{size, Sides, Values};
use bench::{archive, clock};

/// Patches in a file that has many.
pub const PATCHES: usize = 100_000;

/// An archive: the calls that change a grid, and the others.
pub struct Archive {
    pub calls: Calls,
    pub others: Others,
}

/// Ours first.
pub fn archives() -> Vec<Archive> {
    let ours = Archive { calls: Calls::of::<archive::now::Ours>(), others: archive::now::OTHERS };
    #[cfg(before)]
    let all = vec![ours, Archive { calls: Calls::of::<archive::before::Before>(), others: archive::before::OTHERS }];
    #[cfg(not(before))]
    let all = vec![ours];
    all
}

/// What the calls on a grid are given.
pub struct Scene {
    pub case: Case,
    pub begun: State,
    pub carved: State,
    pub finished: State,
    /// The grid's file.
    pub file: Vec<u8>,
    /// The same with many patches.
    pub patched: Vec<u8>,
    /// The same with wide layers.
    pub wide: Vec<u8>,
    /// The grid with values that need wide layers, whose file is as long as that.
    pub long: Values,
    /// A position with a crossing, and how many have one.
    pub crossing: usize,
    pub crossings: usize,
}

impl Scene {
    pub fn of(case: Case) -> Self {
        let begun = after(&case, &[begin]);
        let carved = after(&case, &[begin, carve]);
        let mut finished = carved.clone();
        for (d, &s) in finished.dist.iter_mut().zip(&finished.status) {
            *d = if s != 0 && *d >= 0 { (-*d).min(-1) } else { *d };
        }
        finished.record.finished = true;
        let at: Vec<usize> = (0..3 * size(case.sides)).filter(|&p| crosses(case.sides, &finished.dist, p)).collect();
        // not by the archive, whose calls are counted
        let [file, wide] = [2, 4].map(|width| grids::file(case.sides, case.allowed, &case.values.wide, |_| width));
        let patched = [&file[..], &patches(size(case.sides), PATCHES)].concat();
        let long = lengthened(&case.values.wide).into();
        Scene { begun, carved, finished, file, patched, wide, long, crossing: at[at.len() / 2], crossings: at.len(), case }
    }
}

fn crosses(sides: Sides, dist: &[i32], position: usize) -> bool {
    let (index, axis) = (position / 3, position % 3);
    let (step, side) = [(1, sides.a), (sides.a, sides.b), (sides.a * sides.b, sides.c)][axis];
    index / step % side + 1 < side && (dist[index] < 0) != (dist[index + step] < 0)
}

/// Buffers that a call may write to.
#[derive(Clone, PartialEq)]
pub struct Desk {
    pub state: State,
    pub values: Values,
    pub out: Vec<f64>,
    pub file: Vec<u8>,
}

/// A call: from which state, whether it leaves that as it was, and numbers of its answer, nothing where the archive has no such call.
pub struct Single {
    pub word: &'static str,
    title: &'static str,
    from: fn(&Scene) -> &State,
    only_reads: bool,
    pub run: fn(&Archive, &Scene, &mut Desk) -> Option<[u64; 3]>,
}

fn carve_some(archive: &Archive, scene: &Scene, desk: &mut Desk, limit: u32) -> Option<[u64; 3]> {
    let s = &mut desk.state;
    let r = (archive.calls.carve)(s.record, &s.dist, &scene.case.marks, &mut s.status, limit).expect("carve takes the state");
    Some([r.examined.into(), r.removed.into(), r.pending.into()])
}

/// Reads a file; nothing where the archive takes none of its kind.
fn read_some(archive: &Archive, desk: &mut Desk, file: &[u8]) -> Option<[u64; 3]> {
    let r = (archive.others.read)(file, &mut desk.values);
    (r.refusal == 0).then_some([r.allowed.into(), 0, 0])
}

/// Writes a grid's file, which is so long; nothing where the archive has no such call, or takes no values of their kind.
fn write_some(archive: &Archive, case: &Case, values: &Values, length: usize, desk: &mut Desk) -> Option<[u64; 3]> {
    let r = (archive.others.write?)(case.sides, case.allowed, values, &mut desk.file);
    assert!(r.refusal != 0 || r.length == length, "the file has another length");
    (r.refusal == 0).then_some([r.length as u64, 0, 0])
}

pub const SINGLES: [Single; 13] = [
    Single {
        word: "check",
        title: "check 7: take, refused after it with 5",
        from: |scene| &scene.begun,
        only_reads: true,
        run: |archive, scene, desk| {
            let s = &mut desk.state;
            let n = s.status.len();
            let refused = (archive.calls.take)(s.record, &s.dist, &scene.case.marks, &mut s.status, n).expect_err("there is no such voxel");
            Some([refused.into(), 0, 0])
        },
    },
    Single {
        word: "open",
        title: "open, after the first carve",
        from: |scene| &scene.carved,
        only_reads: false,
        run: |archive, scene, desk| {
            let s = &mut desk.state;
            let opened = (archive.calls.open)(s.record, &s.dist, &scene.case.marks, &mut s.status);
            Some(opened.map_or_else(|number| [number.into(), 0, 0], |o| [0, o.index as u64, o.k.into()]))
        },
    },
    Single {
        word: "carve1",
        title: "carve with limit 1",
        from: |scene| &scene.begun,
        only_reads: false,
        run: |archive, scene, desk| carve_some(archive, scene, desk, 1),
    },
    Single {
        word: "carve100",
        title: "carve with limit 100",
        from: |scene| &scene.begun,
        only_reads: false,
        run: |archive, scene, desk| carve_some(archive, scene, desk, 100),
    },
    Single {
        word: "carve1000",
        title: "carve with limit 1,000",
        from: |scene| &scene.begun,
        only_reads: false,
        run: |archive, scene, desk| carve_some(archive, scene, desk, 1000),
    },
    Single {
        word: "finish",
        title: "finish, after the first carve",
        from: |scene| &scene.carved,
        only_reads: false,
        run: |archive, _, desk| {
            let s = &mut desk.state;
            s.record = (archive.calls.finish)(s.record, &mut s.dist, &s.status).expect("finish takes the state");
            Some([0; 3])
        },
    },
    Single {
        word: "crossing",
        title: "crossing, one point",
        from: |scene| &scene.finished,
        only_reads: true,
        run: |archive, scene, desk| {
            let (s, p) = (&desk.state, scene.crossing);
            let r = (archive.others.crossing)(s.record, &s.dist, &s.status, p / 3, (p % 3) as u32);
            assert!(r.refusal == 0 && r.crosses, "the position has a crossing");
            Some([r.point.x.to_bits(), r.point.y.to_bits(), r.point.z.to_bits()])
        },
    },
    Single {
        word: "points",
        title: "all points",
        from: |scene| &scene.finished,
        only_reads: true,
        run: |archive, scene, desk| {
            let s = &desk.state;
            let r = (archive.others.points?)(s.record, &s.dist, &s.status, 0, &mut desk.out);
            assert_eq!((r.refusal, r.count, r.next), (0, scene.crossings, 3 * s.status.len()), "every crossing has its point");
            Some([r.count as u64, r.next as u64, 0])
        },
    },
    Single {
        word: "read",
        title: "read, a file",
        from: |scene| &scene.begun,
        only_reads: true,
        run: |archive, scene, desk| {
            let r = (archive.others.read)(&scene.file, &mut desk.values);
            assert_eq!((r.refusal, r.sides), (0, scene.case.sides), "the file is taken");
            Some([r.allowed.into(), 0, 0])
        },
    },
    Single {
        word: "patched",
        title: "read, a file with 100,000 patches",
        from: |scene| &scene.begun,
        only_reads: true,
        run: |archive, scene, desk| read_some(archive, desk, &scene.patched),
    },
    Single {
        word: "read_wide",
        title: "read, a file with wide layers",
        from: |scene| &scene.begun,
        only_reads: true,
        run: |archive, scene, desk| read_some(archive, desk, &scene.wide),
    },
    Single {
        word: "write",
        title: "write, a file",
        from: |scene| &scene.begun,
        only_reads: true,
        run: |archive, scene, desk| write_some(archive, &scene.case, &scene.case.values, scene.file.len(), desk),
    },
    Single {
        word: "write_wide",
        title: "write, a file with wide layers",
        from: |scene| &scene.begun,
        only_reads: true,
        run: |archive, scene, desk| write_some(archive, &scene.case, &scene.long, scene.wide.len(), desk),
    },
];

impl Single {
    pub fn desk(&self, scene: &Scene) -> Desk {
        let state = (self.from)(scene).clone();
        let (values, out, file) = (vec![0; state.status.len()], vec![0.0; 3 * (scene.crossings + 1)], vec![0; scene.wide.len()]);
        Desk { state, values: values.into(), out, file }
    }

    /// The least time of each archive in microseconds; all must answer and leave the same.
    fn times(&self, all: &[Archive], scene: &Scene) -> Vec<f64> {
        let clean = self.desk(scene);
        let mut desk = clean.clone();
        // what only reads is repeated, so that the clock's own time counts for little
        let repeats = if self.only_reads { ((1 << 17) / size(scene.case.sides)).clamp(1, 32) } else { 1 };
        let mut least = vec![f64::INFINITY; all.len()];
        let (mut outcome, mut order) = (None, Order::of(all.len()));
        for _ in 0..5 * ROUNDS {
            for k in order.drawn() {
                let (archive, least) = (&all[k], &mut least[k]);
                desk.state.set(&clean.state);
                desk.values.set(&clean.values);
                scene.case.values.warm();
                let from = clock::now();
                let answers: Vec<_> = (0..repeats).map(|_| (self.run)(archive, scene, &mut desk)).collect();
                let Some(answer) = answers[0] else { continue };
                *least = least.min(clock::since(from) / repeats as f64 / 1e3);
                (archive.others.take_back)(&mut desk.values);
                let (wanted, after) = outcome.get_or_insert_with(|| (answer, desk.clone()));
                assert!(*wanted == answer && *after == desk, "{}: another answer or other buffers in {}", archive.calls.name, self.word);
            }
        }
        least
    }
}

/// What a call took on a grid, in microseconds, for each archive.
pub struct Took {
    pub word: &'static str,
    pub sides: Sides,
    pub shape: Shape,
    pub times: Vec<f64>,
}

/// Prints the tables, the smallest and the largest cube.
pub fn measure(case: fn(Sides, Shape) -> Case) -> Vec<Took> {
    let all = archives();
    let mut took = Vec::new();
    for sides in [GRIDS[0], LARGEST] {
        let scenes = Shape::ALL.map(|shape| Scene::of(case(sides, shape)));
        println!("\n## One call on {}, microseconds{}\n", named(sides), ratio_to(all.len() > 1));
        println!("| call | sphere | torus | noise |\n|---|---|---|---|");
        for single in &SINGLES {
            let times: Vec<Vec<f64>> = scenes.iter().map(|scene| single.times(&all, scene)).collect();
            let cells: Vec<String> = times.iter().map(|t| with_ratio(t[0], t.get(1).copied())).collect();
            println!("| {} | {} |", single.title, cells.join(" | "));
            took.extend(Shape::ALL.into_iter().zip(times).map(|(shape, times)| Took { word: single.word, sides, shape, times }));
        }
        let counts: Vec<String> = scenes.iter().map(|scene| scene.crossings.to_string()).collect();
        println!("\nPoints of the three bodies: {}.", counts.join(", "));
    }
    took
}

/// One call of a word on a grid, for a count of instructions; says so where the archive has no answer to it.
pub fn once(word: &str, case: Case, which: usize) -> bool {
    let Some(single) = SINGLES.iter().find(|single| single.word == word) else { return false };
    let scene = Scene::of(case);
    let all = archives();
    match (single.run)(&all[which], &scene, &mut single.desk(&scene)) {
        Some(_) => println!("{} {}", size(scene.case.sides), Log::default().examined()),
        None => println!("none"),
    }
    true
}
