//! Document 01's worked cases A, C and D.

use reference::calls::REFERENCE;
use reference::file::{program_line, write};
use reference::grid::Sides;
use reference::replay::Replay;

fn run(script: &str) -> Vec<String> {
    let mut replay = Replay::new(REFERENCE);
    script.lines().filter_map(|l| replay.line(l).expect("a valid script")).collect()
}

#[test]
fn case_a() {
    let said = run("sides 3 3 3\nvalues fill 5\nvalues set 13 -5\nbegin\ndump dist\ncarve 10\nfinish\ncrossing 13 0");
    assert_eq!(said[0], "begin ok rec 3 3 3 T 0 openings 0 removals 0 examinations 0 euler 1 finished 0");
    assert_eq!(said[1], "[8, 7, 8, 7, 5, 7, 8, 7, 8, 7, 5, 7, 5, -5, 5, 7, 5, 7, 8, 7, 8, 7, 5, 7, 8, 7, 8]");
    assert!(said[2].starts_with("carve ok examined 0 removed 0 pending 0 "));
    assert_eq!(said[4], "crossing ok point 3ff8000000000000 3ff0000000000000 3ff0000000000000");
}

fn ring(t: u32) -> String {
    let ring: String = [31, 32, 33, 36, 38, 41, 42, 43].iter().map(|i| format!("values set {i} -4\n")).collect();
    format!("sides 5 5 3\nT {t}\nvalues fill 4\n{ring}begin\ncarve 1000\n")
}

#[test]
fn case_c() {
    let said = run(&format!("{}finish\ndump dist", ring(0)));
    assert!(said[1].starts_with("carve ok examined 1 removed 0 pending 0 "));
    assert_eq!(said[3].split(", ").nth(37), Some("-4"));
    let said = run(&format!("{}open", ring(1)));
    assert!(said[2].starts_with("open ok opened 37 k 1 m 2 "));
    assert!(said[2].ends_with(" euler 0 finished 0"));
}

fn file_d() -> Vec<u8> {
    let mut file = vec![0x56, 0x48, 4, 4, 3, 0, 0];
    for z in 0..3 {
        file.extend([0x56, 0x4C, z]);
        for i in 0..16 {
            file.extend(if z == 1 && (i == 5 || i == 10) { [0xFA, 0xFF] } else { [0x06, 0x00] });
        }
    }
    file
}

#[test]
fn case_d() {
    assert_eq!(program_line(&file_d()), "kept 2 removed 2 opened 0 examined 2 euler 1");
    let said = run("sides 4 4 3\nvalues fill 6\nvalues set 21 -6\nvalues set 26 -6\nbegin\ncarve 1\ndump status\ncarve 1\ndump status");
    let gone = |s: &str, i: usize| s.trim_matches(['[', ']']).split(", ").nth(i) == Some("0");
    assert!(gone(&said[2], 22) && !gone(&said[2], 25));
    assert!(gone(&said[4], 22) && gone(&said[4], 25));
}

#[test]
fn case_d_is_written_as_the_paper_has_it() {
    let values: Vec<i32> = (0..48).map(|i| if i == 21 || i == 26 { -6 } else { 6 }).collect();
    let file = file_d();
    let mut lent = vec![0xA5; file.len() + 2];
    assert_eq!(write(&Sides { a: 4, b: 4, c: 3 }, 0, &values, &mut lent), Ok(file.len()));
    assert_eq!(lent, [file, vec![0xA5, 0xA5]].concat());
}

#[test]
fn broken_files() {
    let file = file_d();
    let changed = |at: usize, to: u8| {
        let mut f = file.clone();
        f[at] = to;
        program_line(&f)
    };
    assert_eq!(program_line(&file[..6]), "refused 21");
    assert_eq!(program_line(&file[..100]), "refused 21");
    assert_eq!(changed(1, 0), "refused 22");
    assert_eq!(changed(2, 2), "refused 1");
    assert_eq!(changed(3, 25), "refused 1");
    assert_eq!(changed(8, 0), "refused 22");
    assert_eq!(changed(9, 3), "refused 23");
    assert_eq!(changed(44, 0), "refused 24");
    assert_eq!(changed(9, 1), "refused 27");
    assert_eq!(changed(11, 0x80), "refused 3");
    let longer: Vec<u8> = file.iter().copied().chain([0]).collect();
    assert_eq!(program_line(&longer), "refused 21");
}
