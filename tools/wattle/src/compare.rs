//! `wattle compare`: which voxels of two grid files differ.

use crate::args::Args;
use crate::body::Body;
use crate::file::Scan;
use crate::start::Start;
use crate::{Answer, Failure, Status};
use wattlerugby::Refusal;

/// Voxels listed where not all are asked for.
const LISTED: usize = 20;

pub fn compare(args: &Args) -> Result<Answer, Failure> {
    let [left, right] = [0, 1].map(|i| Scan::open(&args.files[i]).map_err(|f| Failure { status: Status::Unusable, ..f }));
    let (left, right) = (left?, right?);
    let most = if args.has("--all") { usize::MAX } else { LISTED };
    let (bodies, mut told) = ([&left, &right].map(|scan| Body::carve(scan, Start::plain(scan))), Vec::new());
    if left.allowed != right.allowed {
        told.push(format!("T: {} and {}\n", left.allowed, right.allowed));
    }
    if left.sides == right.sides {
        told.extend(values(&left, &right, most));
        told.extend(results(&left, &bodies, most));
    } else {
        told.push(format!("sides: {} and {}, so no voxels are compared\n", left.size(), right.size()));
    }
    told.extend(lines(&bodies));
    if told.is_empty() {
        return Ok(Answer::text("the same: sides, T, every value, and the result\n".to_string(), Status::Done));
    }
    Ok(Answer::text(format!("A is {}, B is {}\n{}", left.name, right.name, told.concat()), Status::Refused))
}

fn values(left: &Scan, right: &Scan, most: usize) -> Option<String> {
    let differ = (0..left.values.len()).filter(|&i| left.values[i] != right.values[i]);
    listed("values", left, differ, most, |i| format!("{} and {}", left.values[i], right.values[i]))
}

/// What carving leaves, where both are carved. Distances are compared too, since the surface's points depend on them.
fn results(scan: &Scan, bodies: &[Result<Body, Refusal>; 2], most: usize) -> Option<String> {
    let [Ok(left), Ok(right)] = bodies else { return None };
    let distances = [left.grid.distances(), right.grid.distances()];
    let n = scan.values.len();
    let kinds = listed("result", scan, (0..n).filter(|&i| left.kinds[i] != right.kinds[i]), most, |i| {
        format!("{} and {}", left.kinds[i].name(), right.kinds[i].name())
    });
    let distances = listed("distances", scan, (0..n).filter(|&i| distances[0][i] != distances[1][i]), most, |i| {
        format!("{} and {}", distances[0][i], distances[1][i])
    });
    Some([kinds, distances].into_iter().flatten().collect::<String>()).filter(|told| !told.is_empty())
}

/// How many voxels differ, and the first of them.
fn listed(what: &str, scan: &Scan, differ: impl Iterator<Item = usize>, most: usize, both: impl Fn(usize) -> String) -> Option<String> {
    let differ: Vec<usize> = differ.collect();
    let mut text = format!("{what}: {} of {} voxels differ\n", differ.len(), scan.values.len());
    for &i in differ.iter().take(most) {
        text += &format!("  {}: {}\n", scan.voxel(i), both(i));
    }
    if differ.len() > most {
        text += &format!("  and {} more; --all lists them\n", differ.len() - most);
    }
    (!differ.is_empty()).then_some(text)
}

/// Both lines, where they differ.
fn lines(bodies: &[Result<Body, Refusal>; 2]) -> Option<String> {
    let [left, right] = bodies.each_ref().map(|body| match body {
        Ok(body) => body.line(),
        Err(refused) => refused.to_string(),
    });
    (left != right).then(|| format!("line of A: {left}\nline of B: {right}\n"))
}
