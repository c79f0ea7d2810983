//! `wattle make`: what NRRD, CSV and shapes become, and what is refused with one line.

use crate::common::{self, answer, folder, path, samples, status, text, wattle, wattle_on, Seed};
use wattlerugby::{read_values, written, Sides, MISSING};

/// A grid file's sides, T and values.
fn read(file: &[u8]) -> (Sides, u16, Vec<i32>) {
    read_values(file).expect("a good file")
}

fn made(words: &[&str], bytes: &[u8]) -> Vec<u8> {
    let output = wattle_on(&[&["make", "-"], words].concat(), bytes);
    assert_eq!((status(&output), text(&output.stderr).as_str()), (0, ""));
    output.stdout
}

/// The line that bytes are refused with. Nothing is written for them.
fn refused(words: &[&str], bytes: &[u8]) -> String {
    // tests run beside each other, each on a thread with its name
    let folder = folder(std::thread::current().name().expect("a test's name"));
    let (given, out) = (folder.join("given"), folder.join("out.grid"));
    std::fs::write(&given, bytes).unwrap();
    let output = wattle(&[&["make", path(&given), "-o", path(&out)], words].concat());
    let line = text(&output.stderr);
    assert_eq!((status(&output), output.stdout.len(), line.lines().count()), (2, 0, 1), "{line}");
    assert_eq!(std::fs::read_dir(&folder).unwrap().count(), 1, "nothing is written");
    line.strip_prefix("wattle: ").and_then(|line| line.strip_suffix('\n')).expect("a line of wattle's").to_string()
}

// ---- NRRD

/// What `wattle volume` wrote of a sample is the sample again.
#[test]
fn volumes_come_back() {
    let folder = folder("make-volumes");
    let mut files = samples();
    let large = folder.join("large.grid");
    std::fs::write(&large, common::grid_file([64, 64, 64], 0, common::sphere([64, 64, 64], 9.0))).unwrap();
    files.push(large);
    for grid in files.into_iter().filter(|grid| !grid.ends_with("refused.grid")) {
        let (sides, allowed, _) = read(&std::fs::read(&grid).unwrap());
        let option = allowed.to_string();
        let nrrd = answer(&["volume", "--nrrd", "--field", "values", path(&grid)]);
        assert!(made(&["--openings", &option], &nrrd) == answer(&["rewrite", path(&grid)]), "{}", grid.display());
        let body = common::carved(&std::fs::read(&grid).unwrap()).expect("it is carved");
        let fields = [
            ("distances", body.grid.distances().to_vec()),
            ("status", body.grid.status().iter().map(|&s| s.into()).collect()),
            ("kinds", body.kinds.iter().map(|&k| k.into()).collect()),
        ];
        for (field, due) in fields {
            let nrrd = answer(&["volume", "--nrrd", "--field", field, path(&grid), "--voxel", "0.5,1,2", "--origin", "1,2,3"]);
            assert!(made(&[], &nrrd) == written(sides, 0, &due).unwrap(), "{field} of {}", grid.display());
        }
    }
}

/// A header of 3 x 3 x 4 voxels, with fields of its own.
fn nrrd(fields: &str, data: &[u8]) -> Vec<u8> {
    [format!("NRRD0001\n# a remark: of nobody\ndimension: 3\nsizes: 3 3 4\n{fields}\n\n").as_bytes(), data].concat()
}

#[test]
fn every_type_of_whole_numbers() {
    let values: Vec<i32> = (0..36).map(|i| 7 * i - 100).collect();
    let sides = Sides { a: 3, b: 3, c: 4 };
    let due = |values: &[i32]| written(sides, 0, values).unwrap();
    let low = |width: usize, values: &[i32]| values.iter().flat_map(|&v| i64::from(v).to_le_bytes()[..width].to_vec()).collect::<Vec<u8>>();
    let high =
        |width: usize, values: &[i32]| values.iter().flat_map(|&v| i64::from(v).to_be_bytes()[8 - width..].to_vec()).collect::<Vec<u8>>();
    let signed = [(2, "short"), (2, "int16_t"), (4, "int"), (4, "signed int"), (8, "longlong"), (8, "INT64")];
    for (width, name) in signed {
        assert_eq!(made(&[], &nrrd(&format!("type: {name}\nencoding: raw\nendian: little"), &low(width, &values))), due(&values), "{name}");
        assert_eq!(made(&[], &nrrd(&format!("type: {name}\nencoding: raw\nendian: big"), &high(width, &values))), due(&values), "{name}");
    }
    let small: Vec<i32> = values.iter().map(|v| v.rem_euclid(256) - 128).collect();
    assert_eq!(made(&[], &nrrd("type: signed char\nencoding: raw", &low(1, &small))), due(&small));
    let positive: Vec<i32> = values.iter().map(|v| v.rem_euclid(256)).collect();
    for (width, name) in [(1, "uchar"), (2, "unsigned short"), (4, "uint32"), (8, "ulonglong")] {
        assert_eq!(
            made(&[], &nrrd(&format!("encoding: raw\ntype: {name}\nendian: little"), &low(width, &positive))),
            due(&positive),
            "{name}"
        );
    }
    let words = values.iter().map(i32::to_string).collect::<Vec<_>>();
    for (encoding, between) in [("ascii", " "), ("text", "\n"), ("txt", " \r\n\t")] {
        let file = nrrd(&format!("type: int\nencoding: {encoding}\nkey:=value: with a colon"), words.join(between).as_bytes());
        assert_eq!(made(&["--openings", "7"], &file), written(sides, 7, &values).unwrap(), "{encoding}");
    }
    // a header with the line ends of another system
    let file = nrrd("type: int\nencoding: ascii", b"");
    let file = [text(&file).replace('\n', "\r\n").as_bytes(), words.join(" ").as_bytes()].concat();
    assert_eq!(made(&[], &file), due(&values));
    // the mark of a missing point, in four bytes and in two; there the number is a value of its own in wider samples
    let with = |first: i32| [&[first], &values[1..]].concat();
    assert_eq!(made(&[], &nrrd("type: int\nencoding: raw\nendian: little", &low(4, &with(MISSING)))), due(&with(MISSING)));
    assert_eq!(made(&[], &nrrd("type: short\nencoding: raw\nendian: little", &low(2, &with(-32_768)))), due(&with(MISSING)));
    assert_eq!(made(&[], &nrrd("type: int\nencoding: raw\nendian: little", &low(4, &with(-32_768)))), due(&with(-32_768)));
}

#[test]
fn wrong_volumes_get_one_line() {
    let raw = "type: int\nencoding: raw\nendian: little";
    let large = |sizes: &str| text(&nrrd(raw, &[])).replace("3 3 4", sizes).into_bytes();
    let sides = "; a grid has three sides of 3 to 64 voxels";
    let cases = [
        (b"NRRD".to_vec(), "its header has no end, which is an empty line".to_string()),
        (b"NRRD0004\n\n".to_vec(), "its header has no field dimension".to_string()),
        (nrrd("type: int\nendian: little", &[0; 144]), "its header has no field encoding".to_string()),
        (nrrd("encoding: raw\nendian: little", &[0; 144]), "its header has no field type".to_string()),
        (nrrd("type: int\nencoding: raw", &[0; 144]), "its header has no field endian".to_string()),
        (nrrd("type: int\nencoding: raw\nendian: middle", &[0; 144]), "its endian is middle, and little and big are known".to_string()),
        (nrrd("type: int\nencoding: gzip", &[0; 144]), "its encoding is gzip, and raw and ascii are read".to_string()),
        (
            nrrd("type: float\nencoding: raw", &[0; 144]),
            "its type is float, and whole numbers of 8 to 64 bits are read, such as short and int".to_string(),
        ),
        (
            nrrd(&format!("{raw}\ndata file: other.raw"), &[]),
            "its header has the field data file, and samples are read only right behind the header".to_string(),
        ),
        (nrrd(raw, &[0; 143]), "143 bytes follow its header, and 144 are due: 36 samples of 4 bytes".to_string()),
        (nrrd(raw, &[0; 145]), "145 bytes follow its header, and 144 are due: 36 samples of 4 bytes".to_string()),
        (nrrd(raw, &[0x7F; 144]), "sample 0 has 2139062143, and a value is -1000000000 to 1000000000".to_string()),
        (
            nrrd("type: ulonglong\nencoding: raw\nendian: little", &[0xFF; 288]),
            "sample 0 has 18446744073709551615, which no value can be".to_string(),
        ),
        (nrrd("type: int\nencoding: ascii", b"1 2 3"), "3 samples follow its header, and 36 are due".to_string()),
        (nrrd("type: int\nencoding: ascii", b"1 2.5"), "2.5 is no whole number".to_string()),
        (nrrd("type: int\nencoding: ascii", b"\xFF"), "its encoding is ascii, and what follows the header is no text".to_string()),
        (large("3 3"), format!("its dimension is 3 and its sizes are 3 3{sides}")),
        (large("3 3 65"), format!("its dimension is 3 and its sizes are 3 3 65{sides}")),
        (large("3 2 3"), format!("its dimension is 3 and its sizes are 3 2 3{sides}")),
        (large("3 3 99999999999999999999"), format!("its dimension is 3 and its sizes are 3 3 99999999999999999999{sides}")),
    ];
    for (file, due) in cases {
        assert_eq!(refused(&[], &file), format!("given: {due}"));
    }
    for option in [&["--sides", "3,3,4"][..], &["--sparse"], &["--noise", "1"]] {
        assert_eq!(refused(option, &nrrd(raw, &[0; 144])), format!("{} is not for NRRD; see `wattle help make`", option[0]));
    }
}

// ---- CSV

/// A row for each voxel, in an order by chance.
fn rows(file: &[u8], seed: &mut Seed) -> Vec<String> {
    let (Sides { a, b, .. }, _, values) = read(file);
    let value = |i: usize| if values[i] == MISSING { String::new() } else { values[i].to_string() };
    let mut rows: Vec<String> = (0..values.len()).map(|i| format!("{},{},{},{}", i % a, i / a % b, i / (a * b), value(i))).collect();
    (1..rows.len()).for_each(|i| rows.swap(i, seed.below(i + 1)));
    rows
}

#[test]
fn rows_become_grids() {
    let mut seed = Seed(5);
    for grid in samples() {
        let due = answer(&["rewrite", path(&grid), "--openings", "3"]);
        let rows = rows(&due, &mut seed);
        let (Sides { a, b, c }, ..) = read(&due);
        let plain = rows.join("\n");
        assert!(made(&["--openings", "3"], plain.as_bytes()) == due, "{}", grid.display());
        assert!(made(&["--openings", "3", "--sides", &format!("{a},{b},{c}")], plain.as_bytes()) == due, "{}", grid.display());
        // as other programs write them: a mark before all, line ends, blanks, remarks, names in other letters, more columns, 12.0 for 12
        let other = |row: &String| {
            let cells: Vec<&str> = row.split(',').collect();
            let value = if cells[3].is_empty() { "missing".to_string() } else { format!("{}.0", cells[3]) };
            format!("{value}, {} ,of no use,\"{}\",{}\r\n", cells[2], cells[0], cells[1])
        };
        let file = "\u{feff}# a scan\r\n\r\nValue,Z,more,X,Y\r\n".to_string() + &rows.iter().map(other).collect::<String>();
        assert!(made(&["--openings", "3"], file.as_bytes()) == due, "{}", grid.display());
    }
}

/// What has no row is an error unless it is to be missing; and what `wattle list` lists can be read.
#[test]
fn voxels_without_a_row() {
    let listed = answer(&["list", path(&common::sample("wet-glass.grid")), "--kind", "missing", "--kind", "gap"]);
    let words = ["--sides", "14,14,9"];
    let line = "given: 1764 of 1764 voxels have no row, the first is (0, 0, 0); --sparse takes these as missing range points";
    assert_eq!(refused(&words, b"x,y,z,value"), line);
    assert_eq!(refused(&words, &listed), line.replace("1764 of", "1751 of"));
    let (sides, allowed, values) = read(&made(&[&words[..], &["--sparse"]].concat(), &listed));
    assert_eq!((sides, allowed, values), (Sides { a: 14, b: 14, c: 9 }, 0, vec![MISSING; 1764]));
    let few = made(&["--sparse"], b"0,0,0,5\n2,2,2,-70000\n1,1,1,missing\n");
    let mut due = vec![MISSING; 27];
    (due[0], due[26]) = (5, -70_000);
    assert_eq!(few, written(Sides { a: 3, b: 3, c: 3 }, 0, &due).unwrap());
}

#[test]
fn wrong_rows_get_one_line() {
    let cases: [(&[u8], &str); 19] = [
        (b"", "there is no row in it"),
        (b"# nothing\n\n", "there is no row in it"),
        (b"\xFF\xFE", "this is neither NRRD nor text: byte 0 is no letter"),
        (b"x,y,z\n0,0,0\n", "line 1 names no column value"),
        (b"x;y;z;value\n", "line 1 has 1 cell between commas, and 4 are due"),
        (b"0,0,0,1\n0,0,1\n", "line 2 has 3 cells between commas, and 4 are due"),
        (b"\n0,0,0,1,2\n", "line 2 has 5 cells between commas, and 4 are due"),
        (b"a,b,c,d\n", "line 1: x is a whole number from 0 to 63, not a"),
        (b"0,64,0,1\n", "line 1: y is a whole number from 0 to 63, not 64"),
        (b"0,0,-1,1\n", "line 1: z is a whole number from 0 to 63, not -1"),
        (b"0.5,0,0,1\n", "line 1: x is a whole number from 0 to 63, not 0.5"),
        (b"0,,0,1\n", "line 1: y is a whole number from 0 to 63, not "),
        (b"0,0,0,1.5\n", "line 1: value is a whole number, or empty where it is missing, not 1.5"),
        (b"0,0,0,nan\n", "line 1: value is a whole number, or empty where it is missing, not nan"),
        (b"0,0,0,1000000001\n", "line 1 has 1000000001, and a value is -1000000000 to 1000000000"),
        (b"0,0,0,1\n0,0,0,1\n", "its rows are of 1 x 1 x 1 voxels, and a side is 3 to 64; --sides A,B,C sets them"),
        (b"x,y,z,value\n2,2,2,1\n0,0,0,1\n2,2,2,1\n", "line 4: voxel (2, 2, 2) has a row before it already"),
        (b"2,2,2,1\n", "26 of 27 voxels have no row, the first is (0, 0, 0); --sparse takes these as missing range points"),
        (b"VH\x03\x03\x03", "this is a grid file already; `wattle rewrite` gives it its written form"),
    ];
    for (file, due) in cases {
        assert_eq!(refused(&[], file), format!("given: {due}"));
    }
    assert_eq!(
        refused(&["--sides", "3,4,3"], b"0,0,0,1\n3,0,0,1\n"),
        "given: line 2: voxel (3, 0, 0) lies beyond the grid of 3 x 4 x 3 voxels"
    );
    let odd = ["\u{1b}[31m\r", &"9".repeat(5000)].concat();
    let line = refused(&[], format!("{odd},0,0,1\n").as_bytes());
    assert!(line.starts_with("given: line 1: x is a whole number from 0 to 63, not ?[31m?999") && line.len() < 320, "{line}");
    assert_eq!(refused(&["--seed", "3"], b"0,0,0,1\n"), "--seed is not for CSV; see `wattle help make`");
    for sides in ["", "3", "3,3", "2,3,3", "3,3,65", "3,3,3,3", "a,b,c", "3,3,-3"] {
        assert_eq!(refused(&["--sides", sides], b"0,0,0,1\n"), format!("--sides takes A,B,C, three numbers from 3 to 64, not {sides}"));
    }
}

/// Bytes changed, cut off or put in: a grid file that is read, or one line.
#[test]
fn damaged_input() {
    let (mut seed, mut met) = (Seed(9), [0; 2]);
    let grid = common::sample("ball.grid");
    let nrrd = answer(&["volume", "--nrrd", "--field", "values", path(&grid)]);
    let csv = rows(&std::fs::read(&grid).unwrap(), &mut seed).join("\n").into_bytes();
    for round in 0..400 {
        let mut file = if round % 2 == 0 { nrrd.clone() } else { csv.clone() };
        for _ in 0..seed.below(3) + 1 {
            let most = [file.len(), file.len().min(300)][seed.below(2)];
            let at = seed.below(most);
            match seed.below(3) {
                0 => file[at] = [b'\n', b',', b'9', seed.below(256) as u8][seed.below(4)],
                1 => file.insert(at, b"0-. \n:"[seed.below(6)]),
                _ => drop(file.remove(at)),
            }
        }
        if seed.below(8) == 0 {
            file.truncate(seed.below(file.len()));
        }
        let output = wattle_on(&["make", "-"], &file);
        let line = text(&output.stderr);
        match status(&output) {
            0 => assert!(read_values(&output.stdout).is_ok() && line.is_empty(), "{line}"),
            ended => assert!(ended == 2 && output.stdout.is_empty() && line.starts_with("wattle: ") && line.lines().count() == 1, "{line}"),
        }
        met[usize::from(status(&output) == 0)] += 1;
    }
    assert!(met.iter().all(|&met| met > 20), "{met:?}");
}

// ---- shapes

fn shape(words: &str) -> Vec<u8> {
    answer(&["make", "--shape"].into_iter().chain(words.split(' ')).collect::<Vec<_>>())
}

/// The numbers hold on every machine: a line for each shape, with and without noise.
#[test]
fn shapes_are_the_same_everywhere() {
    let cases = [
        ("sphere", "kept 4224 removed 3776 opened 0 examined 3776 euler 1"),
        ("sphere --noise 8 --seed 3 --missing 2 --openings 1", "kept 4160 removed 6004 opened 1 examined 6133 euler 0"),
        ("torus --openings 1", "kept 1456 removed 944 opened 1 examined 1143 euler 0"),
        ("torus --noise 5 --seed 7", "kept 1504 removed 1696 opened 0 examined 1924 euler 1"),
        ("wall --sides 12,30,17", "refused 1"),
        ("wall --missing 30 --seed 4294967295", "kept 2929 removed 1071 opened 0 examined 1869 euler 1"),
        ("tunnel --openings 1", "kept 4720 removed 3280 opened 1 examined 3564 euler 0"),
        ("tunnel --noise 12 --seed 2 --sides 16,16,20 --openings 2", "kept 1445 removed 2083 opened 2 examined 2524 euler -2"),
    ];
    for (words, due) in cases {
        assert_eq!(text(&wattle_on(&["carve", "-"], &shape(words)).stdout).trim_end(), due, "{words}");
    }
    assert_eq!(shape("torus --noise 5"), shape("torus --noise 5 --seed 1"));
    assert_ne!(shape("torus --noise 5"), shape("torus --noise 5 --seed 2"));
    assert_eq!(shape("wall"), shape("wall --seed 2"), "without noise the seed does nothing");
}

/// What the shapes are, by the distance in floating point; what noise and missing points change, and where.
#[test]
fn shapes_are_what_they_are_called() {
    let body = |words: &str| common::carved(&shape(words)).expect("a shape is taken");
    for sides in ["12,12,12", "24,24,24", "13,20,31", "64,12,12"] {
        let [sphere, torus, wall, tunnel] =
            ["sphere", "torus", "wall", "tunnel"].map(|name| body(&format!("{name} --sides {sides} --openings 9")));
        assert_eq!([&sphere, &torus, &wall, &tunnel].map(|body| body.grid.record().euler), [1, 0, 1, 0], "{sides}");
        assert!([&sphere, &torus, &wall, &tunnel].iter().all(|body| body.count(2) == 0), "nothing is filled: {sides}");
    }
    let (Sides { a, b, c }, _, values) = read(&shape("sphere --sides 20,17,30"));
    let from_middle = |p: usize, side: usize| 10.0 * (p as f64 - (side as f64 - 1.0) / 2.0);
    for (i, &value) in values.iter().enumerate() {
        let [u, v, w] = [from_middle(i % a, a), from_middle(i / a % b, b), from_middle(i / (a * b), c)];
        assert_eq!(value, (u * u + v * v + w * w).sqrt().floor() as i32 - 65, "rounded down, less the radius");
    }
    let (sides, _, plain) = read(&shape("wall"));
    let (_, _, noisy) = read(&shape("wall --noise 9"));
    let (_, _, both) = read(&shape("wall --noise 9 --missing 20"));
    let on_edge = |i: usize| [i % 24, i / 24 % 24, i / 576].iter().any(|p| [0, 23].contains(p));
    assert_eq!(sides, Sides { a: 24, b: 24, c: 24 });
    assert!((0..plain.len()).all(|i| if on_edge(i) {
        noisy[i] == plain[i] && both[i] == plain[i]
    } else {
        plain[i].abs_diff(noisy[i]) <= 9
    }));
    assert!((0..plain.len()).all(|i| both[i] == noisy[i] || both[i] == MISSING));
    let missing = both.iter().filter(|&&v| v == MISSING).count();
    assert!((1900..2360).contains(&missing), "a fifth of 22^3: {missing}");
    for shift in -9..=9 {
        assert!((0..plain.len()).any(|i| noisy[i] - plain[i] == shift), "{shift} is drawn");
    }
}

#[test]
fn wrong_words_for_shapes() {
    let folder = folder("make-shapes");
    let out = folder.join("out.grid");
    let one_line = |words: &str, due: &str| {
        let words: Vec<&str> = words.split(' ').filter(|word| !word.is_empty()).collect();
        let output = wattle(&[&["make", "-o", path(&out)], &words[..]].concat());
        assert_eq!((status(&output), text(&output.stderr)), (2, format!("wattle: {due}\n")), "{words:?}");
        assert!(!out.exists());
    };
    one_line("", "make needs a file or --shape SHAPE; see `wattle help make`");
    one_line("a b", "make takes one file or none, not 2; see `wattle help make`");
    one_line("a --shape wall", "make takes --shape or a file, not both: a");
    one_line("--shape cube", "there is no shape cube; the shapes are sphere, torus, wall, tunnel");
    one_line("--shape wall --sides 12,11,12", "a shape takes sides from 12 to 64");
    one_line("--shape wall --noise 1001", "--noise takes a number from 0 to 1000, not 1001");
    one_line("--shape wall --missing 101", "--missing takes a number from 0 to 100, not 101");
    one_line("--shape wall --seed 4294967296", "--seed takes a number from 0 to 4294967295, not 4294967296");
    one_line("--shape wall --seed -1", "--seed takes a number from 0 to 4294967295, not -1");
    one_line("--shape wall --sparse", "--sparse is not for a shape; see `wattle help make`");
    one_line("--noise 3", "make needs a file or --shape SHAPE; see `wattle help make`");
    one_line("nowhere.csv", "nowhere.csv cannot be read: No such file or directory (os error 2)");
    let endless = wattle(&["make", "/dev/zero", "-o", path(&out)]);
    let line = "wattle: /dev/zero has over 66846720 bytes, more than any grid of 64 voxels a side needs\n";
    assert_eq!((status(&endless), text(&endless.stderr).as_str(), out.exists()), (2, line, false));
    // what is read is not overwritten
    std::fs::write(&out, "0,0,0,1\n").unwrap();
    let output = wattle(&["make", path(&out), "--force", "-o", path(&out)]);
    assert!(status(&output) == 2 && text(&output.stderr).contains("is the file that is read"), "{}", text(&output.stderr));
}
