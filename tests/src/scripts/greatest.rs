//! Numbers at their greatest, for which a grid of 64 voxels a side is needed: counts of a record, examinations, removals, indices and points beyond
//! 65,535. Little is tested, so that the scripts stay quick: what is pinned is examined without a test, and what is peeled passes at once.

/// S is the line from one corner within the border to the other, so that all that is not on the border is kept.
fn diagonal() -> String {
    let line: String = (1..=62).map(|k| format!("values set {} -5\n", voxel([k, k, k]))).collect();
    format!("sides 64 64 64\nT 65535\nvalues fill 5\n{line}")
}

fn voxel([x, y, z]: [usize; 3]) -> usize {
    x + 64 * (y + 64 * z)
}

/// Nothing is pending after these, and nothing is gone.
const SETTLED: &str = "marks fill 1\ncarve 4294967295\nmarks fill 0\n";

/// A record whose counts are at the limits of number 7, for each call: the call goes past them.
fn records() -> String {
    let limits = |euler: i64| format!("rec openings 65534\nrec removals 262144\nrec examinations 7077888\nrec euler {euler}\n");
    let (edge, face) = (voxel([62, 1, 40]), voxel([62, 30, 40]));
    let calls = |euler: i64| {
        let given = limits(euler);
        let crossings = [[62, 20, 40], [30, 62, 40], [30, 40, 62]].map(voxel);
        let crossings: String = crossings.iter().enumerate().map(|(axis, i)| format!("crossing {i} {axis}\n")).collect();
        format!(
            "begin\n{given}carve 5\n{given}take {edge}\n{given}{SETTLED}{given}dist set {face} 1000000\nopen\n{given}{SETTLED}{given}finish\n\
             {given}{crossings}points 600000 30\n"
        )
    };
    format!("# counts at their limits on the largest grid, in every call\n{}{}{}", diagonal(), calls(2_097_152), calls(-2_097_152))
}

/// Far voxels first, each of which passes.
fn peeled() -> String {
    format!(
        "# carve: over 65,535 examinations and removals\n{}begin\ncarve 256\ncarve 65536\n{SETTLED}finish\npoints 0 2097152\n",
        diagonal()
    )
}

/// What is hurried at begin is pending, and stays where it is pinned after that. What is both from begin on is not pending.
fn pinned() -> String {
    format!(
        "# carve: over 131,071 examinations, of pinned voxels\n{}marks fill 2\nbegin\nmarks fill 3\ncarve 65536\ncarve 4294967295\nbegin\n\
         carve 65536\nfinish\n",
        diagonal()
    )
}

/// Six layers in which every second voxel is inside: each of them has six points about it.
fn points() -> String {
    let inside =
        |x: usize, y: usize, z: usize| (1..63).contains(&x) && (1..63).contains(&y) && (1..7).contains(&z) && (x + y + z).is_multiple_of(2);
    let values: Vec<&str> = (0..8 * 64 * 64).map(|i| if inside(i % 64, i / 64 % 64, i / 4096) { "-1" } else { "1" }).collect();
    format!(
        "# points: over 65,535 in one call\nsides 64 64 64\nT 0\nvalues list {}\nvalues len 262144\nbegin\nrec finished 1\npoints 0 2097152\npoints 0 196608\n\
         points 70000 196607\nwrite 2097152\n",
        values.join(" ")
    )
}

pub fn scripts() -> Vec<String> {
    let mut scripts = vec![points(), pinned(), records(), peeled(), super::coarse::greatest(), super::judging::greatest()];
    scripts.extend(super::serving::greatest(&diagonal()));
    scripts
}
