//! Many scans at once: calls of serve on sixteen of the largest grids, what of them are checks, how long a grid waits for its turn, and what the same
//! carves take on each grid alone.

use crate::judging::{begun, case};
use crate::{named, Demand, ALL, LARGEST};
use bench::contest::ROUNDS;
use bench::grids::Shape;
use bench::office::{ours, plain, tuned, Office, Serve};
use bench::race::{race, Contestant};
use bench::types::{size, Sides};
use std::cell::RefCell;
use wattlerugby::MOST_GRIDS;

const LIMITS: [u32; 3] = [10, 100, 1_000];

/// What is asked of carve against plain loops is asked of serve too.
const OF_PLAIN: f64 = 0.8;

fn least(times: &[f64]) -> f64 {
    times.iter().copied().fold(f64::INFINITY, f64::min)
}

/// Sixteen grids of a shape.
fn office(sides: Sides, shape: Shape) -> Office {
    let case = case(sides, shape, 0);
    Office::of(&case, &begun(&case), MOST_GRIDS)
}

/// Sixteen calls, one for each grid. Each contestant goes on from where its last round ended, and all of them alike.
fn calls<'a>(office: &'a RefCell<Office>, serve: Serve, limit: u32) -> Contestant<'a> {
    Box::new(move || {
        let office = &mut *office.borrow_mut();
        (0..MOST_GRIDS).filter(|_| serve(office, limit).is_ok()).count() as u64
    })
}

/// The same carves, each on its grid alone.
fn alone<'a>(office: &'a RefCell<Office>, limit: u32) -> Contestant<'a> {
    Box::new(move || {
        let Office { records, dist, marks, status, .. } = &mut *office.borrow_mut();
        for (place, record) in records.iter_mut().enumerate() {
            let n = size(record.sides);
            let part = n * place..n * (place + 1);
            let carved = (ALL[0].carve)(*record, &dist[part.clone()], &marks[part.clone()], &mut status[part], limit);
            *record = carved.expect("a begun grid is carved").next;
        }
        MOST_GRIDS as u64
    })
}

/// Calls that are refused with 35, once everything is checked.
fn checks<'a>(idle: &'a RefCell<Office>, limit: u32) -> Contestant<'a> {
    Box::new(move || {
        let idle = &mut *idle.borrow_mut();
        (0..MOST_GRIDS).filter(|_| ours(idle, limit).err() == Some(35)).count() as u64
    })
}

/// Ours, (a), (b), carve on each alone, and our checks: the least time of a call in ns, from the same states.
fn times(start: &Office, limit: u32) -> Vec<f64> {
    let offices: Vec<RefCell<Office>> = (0..4).map(|_| RefCell::new(start.clone())).collect();
    let idle = RefCell::new(start.clone().idle());
    let [by_us, by_plain, by_tuned] = [(0, ours as Serve), (1, plain), (2, tuned)].map(|(k, serve)| calls(&offices[k], serve, limit));
    let contestants = [by_us, by_plain, by_tuned, alone(&offices[3], limit), checks(&idle, limit)];
    let times = race(ROUNDS, &contestants);
    drop(contestants);
    let offices: Vec<Office> = offices.into_iter().map(RefCell::into_inner).collect();
    assert!(offices[1..3].iter().all(|office| *office == offices[0]), "other grids, or another order record");
    assert!((&offices[3].records, &offices[3].status) == (&offices[0].records, &offices[0].status), "other grids than alone");
    times.iter().map(|times| least(times) / MOST_GRIDS as f64).collect()
}

/// All grids carved until nothing is pending, by serve and each alone: ms.
fn to_the_end(start: &Office, limit: u32) -> [f64; 2] {
    let office = RefCell::new(start.clone());
    let by_turns: Contestant = Box::new(|| {
        let office = &mut *office.borrow_mut();
        office.clone_from(start);
        while ours(office, limit).is_ok() {}
        office.records.iter().map(|r| r.removals).sum()
    });
    let apart = RefCell::new(start.clone());
    let each = alone(&apart, u32::MAX);
    let each_alone: Contestant = Box::new(|| {
        apart.borrow_mut().clone_from(start);
        each();
        apart.borrow().records.iter().map(|r| r.removals).sum()
    });
    let times = race(2, &[by_turns, each_alone]);
    [least(&times[0]) / 1e6, least(&times[1]) / 1e6]
}

/// Prints the tables; the answer is what is asked of the figures.
pub fn measure() -> Vec<Demand> {
    println!(
        "\n## Many scans at once\n\nSixteen grids of {}, each as begun. A call checks all of them and carves one; its checks are the time of a call \
         that is refused with 35, for which it looks everywhere for something pending. A grid waits for its turn while the fifteen others are served. \
         Alone is carve with the same limit on that grid. (a) and (b) are the rule in Rust over the checks and the carve of each.\n",
        named(LARGEST)
    );
    println!("| | limit | serve, us | calls a second | of it checks | longest wait, ms | serve/carve alone | ours/(a) | ours/(b) |");
    println!("|---|---|---|---|---|---|---|---|---|");
    let mut asked = Vec::new();
    for shape in [Shape::Sphere, Shape::Torus, Shape::Noise] {
        let start = office(LARGEST, shape);
        for limit in LIMITS {
            let [serve, a, b, alone, checks] = times(&start, limit)[..] else { unreachable!("five contestants") };
            println!(
                "| {} | {limit} | {:.1} | {:.0} | {:.2} | {:.1} | {:.1} | {:.2} | {:.2} |",
                shape.name(),
                serve / 1e3,
                1e9 / serve,
                checks / serve,
                (MOST_GRIDS - 1) as f64 * serve / 1e6,
                serve / alone,
                serve / a,
                serve / b
            );
            if limit == LIMITS[1] {
                let told = format!("serve, sixteen {} {}, limit {limit}, ours/(a)", named(LARGEST), shape.name());
                asked.push(Demand(told, serve / a, OF_PLAIN));
            }
        }
    }
    println!(
        "\nAll sixteen carved until nothing is pending, ms:\n\n| | by serve, limit 1,000 | by carve, each alone | |\n|---|---|---|---|"
    );
    for shape in [Shape::Sphere, Shape::Torus] {
        let [by_turns, alone] = to_the_end(&office(LARGEST, shape), LIMITS[2]);
        println!("| {} | {by_turns:.1} | {alone:.1} | {:.1} |", shape.name(), by_turns / alone);
    }
    asked
}

/// Serve a single time on sixteen grids; nothing where the other archive is asked, which may not have it.
pub fn once(shape: &str, sides: Sides, before: bool) {
    if before {
        return println!("none");
    }
    let mut office = office(sides, Shape::named(shape).expect("a shape by its name"));
    let (_, carved) = ours(&mut office, LIMITS[2]).expect("a begun grid is served");
    println!("{} {}", office.status.len(), carved.examined);
}
