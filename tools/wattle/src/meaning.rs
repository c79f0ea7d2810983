//! What a result says about the scan, in sentences. docs/RESULT.md has the same at length.

use crate::amounts::Amounts;
use crate::body::{Body, Kind};
use crate::file::Scan;
use crate::frame::Frame;
use crate::gaps::{dents, Gaps, Tally};
use crate::groups::{groups, places, sizes_and_places};
use crate::words::{are, some, was};
use wattlerugby::{GONE, MISSING};

/// `free` is what carving leaves where openings are allowed freely, which may be the same body.
pub fn meaning(body: &Body, free: &Body, frame: &Frame) -> Vec<String> {
    let mut told = vec![closed(body), freely(free)];
    told.extend(coarse(body));
    told.extend(pinned(body));
    told.push(filled(body));
    told.extend(assumed(body));
    told.extend(dented(body));
    told.extend(gaps(body));
    told.extend(unseen(body));
    told.extend(discarded(body));
    told.push(Amounts::of(body).told(frame));
    told.extend(body.notes.iter().cloned());
    told
}

// ---- tunnels

/// What the body is with T as it is, and whether a further opening would change it.
fn closed(body: &Body) -> String {
    let (allowed, openings, left) = (body.grid.record().allowed, body.openings.len(), body.to_open());
    let (pieces, tunnels) = body.shape();
    let pieces = match pieces {
        1 => "one piece".to_string(),
        many => format!("{many} pieces"),
    };
    let tunnels = match tunnels {
        0 => "without a tunnel".to_string(),
        tunnels => format!("with {}", some(tunnels, "tunnel")),
    };
    let shape = format!("in {pieces}, {tunnels}");
    let nothing = if body.count(Kind::Pinned) > 0 { "nothing is left to open but what is pinned" } else { "nothing is left to open" };
    let could = format!("{} could still be opened", some(left, "voxel"));
    match (allowed, left) {
        (0, 0) => format!("T is 0, so the body is closed, whatever was scanned: {shape}, and {nothing}."),
        (0, _) => format!("T is 0, so the body is closed, whatever was scanned: {shape}. {could}."),
        (_, 0) if openings < usize::from(allowed) => format!("The body is {shape}, and {nothing} (15)."),
        (_, 0) => format!("The body is {shape}, and {nothing}, with every opening made that is allowed (14)."),
        _ => format!("The body is {shape}. Every opening allowed is made (14), and {could}."),
    }
}

/// The answer that does not depend on T. Only where nothing is pinned does a body without a tunnel say that the scan is closed.
fn freely(free: &Body) -> String {
    let tunnels = match (free.shape().1, free.to_open()) {
        (0, 0) if free.count(Kind::Pinned) > 0 => "no tunnel, with what is pinned".to_string(),
        (0, 0) => "no tunnel: the scan is closed".to_string(),
        (tunnels, 0) => some(tunnels, "tunnel"),
        (tunnels, _) => format!("{} or more", some(tunnels, "tunnel")),
    };
    let place = free.first_tunnel().map_or(String::new(), |first| {
        let missing = if free.scan.values[first] == MISSING { ", where the range point is missing" } else { "" };
        format!(", first at {}{missing}", free.scan.voxel(first))
    });
    format!("Were openings allowed freely, the body would have {tunnels}{place}.")
}

/// What a coarse start did, and how its body stands to that of a plain start.
fn coarse(body: &Body) -> Option<String> {
    let (plain, of_blocks) = (body.begun_plainly()?, body.coarse?);
    let kept = |body: &Body, i: usize| body.grid.status()[i] != GONE;
    let [here, there] = [body, &plain].map(|body| body.grid.record());
    let left = body.all(|i| kept(body, i)).count() + here.removals as usize;
    let work = format!(
        "The start is coarse: {} of blocks left {} to carve, and {} of voxels followed; a plain start takes {} of voxels",
        some(of_blocks as usize, "examination"),
        some(left, "voxel"),
        here.examinations,
        there.examinations
    );
    let more = body.all(|i| kept(&plain, i) && !kept(body, i)).count();
    let fewer = body.all(|i| kept(body, i) && !kept(&plain, i)).count();
    Some(match (more, fewer) {
        (0, 0) => format!("{work}, and leaves the same body."),
        _ => format!("{work}, and leaves another body: {} kept there and not here, {fewer} here and not there.", are(more, "voxel")),
    })
}

/// Openings that nobody saw.
fn unseen(body: &Body) -> Option<String> {
    let unseen = body.openings_over_missing();
    let told =
        || format!("{} made where the range point is missing: a tunnel there is not seen, only not excluded.", was(unseen, "opening"));
    (unseen > 0).then(told)
}

// ---- what is kept, and what is not

/// What pins hold.
fn pinned(body: &Body) -> Option<String> {
    let held = body.count(Kind::Pinned);
    (held > 0).then(|| format!("{} pinned: kept in the body, though not measured inside.", was(held, "voxel")))
}

fn filled(body: &Body) -> String {
    let is_filled = |i: usize| matches!(body.kinds[i], Kind::Filled | Kind::FilledMissing);
    let (pins, count) = (body.count(Kind::Pinned) > 0, body.all(is_filled).count());
    match count {
        0 if pins => return "Nothing else was filled.".to_string(),
        0 => return "Nothing was filled: the body is the inside as it was scanned.".to_string(),
        _ => {}
    }
    let closed_in = match (body.to_open(), pins) {
        (0, false) => ", and closed in by the inside on every side",
        (0, true) => ", and closed in on every side by the inside and what is pinned",
        _ => "",
    };
    let found = groups(body.scan, body.all(is_filled), Scan::touching);
    format!(
        "{} filled: kept in the body, though not measured inside{closed_in}. By size and place: {}.",
        was(count, "voxel"),
        sizes_and_places(body.scan, &found)
    )
}

/// Where the body closes over missing range points.
fn assumed(body: &Body) -> Option<String> {
    let found = groups(body.scan, body.all(|i| body.kinds[i] == Kind::FilledMissing), Scan::touching);
    let told = format!(
        "The range point is missing in {}: assumed there, not measured. Scan {} again.",
        some(body.count(Kind::FilledMissing), "filled voxel"),
        places(body.scan, &found)
    );
    (!found.is_empty()).then_some(told)
}

/// Where the body does not close over them.
fn dented(body: &Body) -> Option<String> {
    let found = dents(body);
    let voxels = found.iter().map(Vec::len).sum();
    let told = format!(
        "{} carved away beside the inside, though the range point is missing: nobody measured the dent or tunnel there. Scan {} again.",
        was(voxels, "voxel"),
        places(body.scan, &found)
    );
    (voxels > 0).then_some(told)
}

fn discarded(body: &Body) -> Option<String> {
    let found = groups(body.scan, body.discarded(), Scan::touching);
    let told = format!(
        "{} measured negative apart from the largest group, and not counted as inside. By size and place: {}.",
        was(body.discarded().count(), "voxel"),
        sizes_and_places(body.scan, &found)
    );
    (!found.is_empty()).then_some(told)
}

/// What missing range points count as, and why.
fn gaps(body: &Body) -> Vec<String> {
    let (found, mut told) = (Gaps::of(body), Vec::new());
    if found.inside.points > 0 {
        let gaps = some(found.inside.gaps, "gap");
        told.push(format!("{} as inside, in {gaps} behind the face, closed in by voxels measured negative.", count(found.inside.points)));
    }
    let beside = found.first_beside.map_or(String::new(), |i| {
        format!("beside a voxel measured outside, such as {}, with {}", body.scan.voxel(i), body.scan.values[i])
    });
    let mut reasons = vec![
        (found.on_edge, "at the grid's edge"),
        (found.beside_outside, &beside),
        (found.discarded, "among negative voxels that are not counted as inside"),
    ];
    reasons.retain(|(tally, _)| tally.points > 0);
    let place = |(tally, why): &(Tally, &str)| format!("in {} {why}", some(tally.gaps, "gap"));
    match &reasons[..] {
        [] => {}
        [one] => told.push(format!("{} as outside, {}.", count(one.0.points), place(one))),
        several => {
            let each: Vec<String> = several.iter().map(|one| format!("{} {}", one.0.points, place(one))).collect();
            let all = several.iter().map(|(tally, _)| tally.points).sum();
            told.push(format!("{} as outside: {}.", count(all), each.join("; ")));
        }
    }
    told
}

/// `1 missing range point counts`, `2 missing range points count`.
fn count(points: usize) -> String {
    some(points, "missing range point") + if points == 1 { " counts" } else { " count" }
}
