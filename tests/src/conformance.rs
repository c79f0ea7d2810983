//! Makes conformance/ from its scripts, and holds it to the list of what it must contain.

use crate::compare::prints;
use crate::demands::{list, noted::Noted, worked_case, Before};
use crate::scripts::{cases, conformance, language::MISTAKES, SEEDED, WRITTEN};
use reference::calls::REFERENCE;
use reference::replay::Replay;
use std::collections::BTreeMap;
use std::path::Path;

/// The file of lines that a tool must refuse.
pub const MISTAKES_FILE: &str = "mistakes.lines";

/// The kinds, each a file of scripts and one of answers.
pub fn kinds() -> impl Iterator<Item = &'static str> {
    SEEDED.into_iter().chain(WRITTEN)
}

/// The scripts, their answers, and how many calls meet each entry of the list.
pub struct Made {
    files: Vec<(String, String)>,
    met: BTreeMap<String, usize>,
}

impl Made {
    pub fn new() -> Result<Self, String> {
        let mut made = Made { files: Vec::new(), met: BTreeMap::new() };
        for kind in kinds() {
            made.kind(kind)?;
        }
        made.files.push((MISTAKES_FILE.to_string(), MISTAKES.iter().map(|line| format!("{line}\n")).collect()));
        Ok(made)
    }

    fn kind(&mut self, kind: &str) -> Result<(), String> {
        let scripts = conformance(kind);
        let (mut state, mut noted) = (Replay::new(REFERENCE), Noted::default());
        let mut answers = String::new();
        for (i, script) in scripts.iter().enumerate() {
            let case = cases::SCRIPTS.get(i).filter(|_| kind == "cases").map(|(name, _)| *name);
            for (line, command) in script.lines().enumerate() {
                let told = |wrong: String| format!("{kind} {}, line {} of it, {command}: {wrong}", i + 1, line + 1);
                if let Some(answer) = self.line(&mut state, &mut noted, command, case).map_err(told)? {
                    answers += &answer;
                    answers.push('\n');
                }
            }
        }
        self.files.push((format!("{kind}.script"), scripts.concat()));
        self.files.push((format!("{kind}.answers"), answers));
        Ok(())
    }

    fn line(&mut self, state: &mut Replay, noted: &mut Noted, command: &str, case: Option<&str>) -> Result<Option<String>, String> {
        let (before, mut changed) = (Before::of(state, command), noted.seen(state, command));
        let answer = state.line(command)?;
        before.left(state)?;
        if answer.is_some() != prints(command) {
            return Err("compare::prints is wrong about it".to_string());
        }
        if let Some(said) = &answer {
            let worked = case.map(|case| worked_case(case, said));
            changed.retain(|_| said.contains(" ok "));
            for entry in before.entries(said)?.into_iter().chain(worked).chain(changed) {
                *self.met.entry(entry).or_default() += 1;
            }
        }
        noted.note(state, command, answer.as_deref());
        Ok(answer)
    }

    /// Each entry with how many calls meet it, and how many must.
    pub fn counts(&self) -> impl Iterator<Item = (String, usize, usize)> + '_ {
        list().into_iter().map(|(entry, least)| {
            let met = self.met.get(&entry).copied().unwrap_or(0);
            (entry, met, least)
        })
    }

    /// Writes the files; an error where an entry of the list is not met.
    pub fn write(&self, folder: &Path) -> Result<(), String> {
        let missing: Vec<String> = self
            .counts()
            .filter(|(_, met, least)| met < least)
            .map(|(entry, met, least)| format!("missing in conformance: {entry} ({met} of {least})"))
            .collect();
        if !missing.is_empty() {
            return Err(missing.join("\n"));
        }
        std::fs::create_dir_all(folder).map_err(|wrong| format!("{} cannot be made: {wrong}", folder.display()))?;
        for (name, text) in &self.files {
            let path = folder.join(name);
            std::fs::write(&path, text).map_err(|wrong| format!("{} cannot be written: {wrong}", path.display()))?;
        }
        Ok(())
    }
}

#[cfg(test)]
mod tests {
    use super::*;
    use crate::compare::reference_lines;
    use crate::files::{file_of, file_of_widths, hex, patch};
    use crate::grids::Grid;
    use crate::records::{GREATEST, MISSING, NARROW, WIDE};

    #[test]
    fn what_is_missing_is_told_and_nothing_is_written() {
        let folder = std::env::temp_dir().join(format!("wattlerugby-nothing-{}", std::process::id()));
        let nothing = Made { files: vec![("lists.script".to_string(), String::new())], met: BTreeMap::new() };
        let told = nothing.write(&folder).expect_err("no entry is met");
        assert_eq!(told.lines().count(), list().len());
        for entry in ["begin refused: 1 (0 of 2)", "read: 1 before 2 (0 of 2)", "begin on 64 64 64 (0 of 1)"] {
            assert!(told.lines().any(|line| line == format!("missing in conformance: {entry}")), "{entry}");
        }
        assert!(!folder.exists());
    }

    /// In a row the slots, the file and the order record are what the scripts before left; by itself each script is answered the same.
    #[test]
    fn a_script_stands_by_itself() {
        for kind in ["language", "serve", "offices"] {
            let scripts = conformance(kind);
            let alone: Vec<String> = scripts.iter().flat_map(|script| reference_lines(script).expect("a script of the language")).collect();
            assert!(alone == reference_lines(&scripts.concat()).expect("scripts of the language"), "{kind}");
        }
    }

    #[test]
    fn an_answer_out_of_the_order_of_checks_is_told() {
        let mut state = Replay::new(REFERENCE);
        state.line("rawsides 2 3 3").expect("a line of the language");
        let entries = |answer: &str| Before::of(&state, "begin").entries(answer);
        assert!(entries("begin refused 1").is_ok_and(|met| met.contains(&"begin: 1 before 2".to_string())));
        assert!(entries("begin refused 2").is_err());
        assert!(entries("begin ok rec 2 3 3 T 0 openings 0 removals 0 examinations 0 euler 1 finished 0").is_err());
    }

    #[test]
    fn an_answer_for_a_later_patch_is_told() {
        let layers = file_of(&Grid { sides: [3, 3, 3], allowed: 0, values: vec![6; 27] }, &[0, 1, 2]);
        let patches = [patch(0, 1), patch(27, 1), vec![0; 8]].concat();
        let mut state = Replay::new(REFERENCE);
        state.line(&format!("file {}{}", hex(&layers), hex(&patches))).expect("a line of the language");
        let entries = |answer: &str| Before::of(&state, "read").entries(answer);
        assert!(entries("read refused 5").is_ok_and(|met| met.contains(&"read: 5 before a later record's patch 22".to_string())));
        for other in ["read refused 21", "read refused 22", "read refused 25", "read ok sides 3 3 3 T 0"] {
            assert!(entries(other).is_err());
        }
    }

    #[test]
    fn an_answer_for_another_order_is_told() {
        let grid = Grid { sides: [3, 3, 4], allowed: 0, values: vec![6; 36] };
        let all = [
            ([0, 2, 1, 3], "27", "read: 27 before a later record's 27"),
            ([0, 2, 2, 3], "27", "read: 27 before a later record's 24"),
            ([0, 1, 0, 3], "24", "read refused: 24, an earlier record has it alone"),
            ([0, 0, 3, 2], "24", "read: 24 before a later record's 27"),
        ];
        for (order, number, met) in all {
            let mut state = Replay::new(REFERENCE);
            for line in ["sides 3 3 4".to_string(), format!("file {}", hex(&file_of(&grid, &order)))] {
                state.line(&line).expect("a line of the language");
            }
            let entries = |answer: &str| Before::of(&state, "read").entries(answer);
            assert!(entries(&format!("read refused {number}")).is_ok_and(|all| all.contains(&met.to_string())), "{order:?}");
            let others = ["read refused 23", "read refused 24", "read refused 27", "read ok sides 3 3 4 T 0"];
            for other in others.into_iter().filter(|other| !other.ends_with(number)) {
                assert!(entries(other).is_err(), "{order:?}: {other}");
            }
        }
    }
    #[test]
    fn an_answer_for_a_value_out_of_range_is_told() {
        let mut g = Grid { sides: [3, 3, 3], allowed: 0, values: vec![6; 27] };
        g.values[13] = GREATEST + 1;
        let file = file_of_widths(&g, [(0, NARROW), (1, WIDE), (2, WIDE)]);
        let second = 7 + 21;
        let all = [
            (file.clone(), "28", "read refused: 28, one over the range alone"),
            (file[..second + 39].to_vec(), "28", "read: 28 before a later record's 21"),
            (file[..second + 38].to_vec(), "21", "read: 21 before 28"),
            ([&file[..], &patch(13, 6)].concat(), "28", "read refused: 28, a patch to that voxel behind"),
        ];
        for (file, number, met) in all {
            let mut state = Replay::new(REFERENCE);
            state.line(&format!("file {}", hex(&file))).expect("a line of the language");
            let entries = |answer: &str| Before::of(&state, "read").entries(answer);
            assert!(entries(&format!("read refused {number}")).is_ok_and(|all| all.contains(&met.to_string())), "{met}");
            let others = ["read refused 21", "read refused 22", "read refused 28", "read ok sides 3 3 3 T 0"];
            for other in others.into_iter().filter(|other| !other.ends_with(number)) {
                assert!(entries(other).is_err(), "{met}: {other}");
            }
        }
    }

    #[test]
    fn an_answer_for_other_marks_is_told() {
        let pair = ["sides 4 4 3", "values fill 6", "values set 21 -6", "values set 26 -6", "begin"];
        let all = [
            ("marks set 0 4", "carve 1", "29", "carve refused: 29, at the first voxel alone"),
            ("marks set 47 255", "open", "29", "open: 29 before 13"),
            ("marks len 0", "take 22", "2", "take refused: 2, no marks"),
            ("marks set 22 3", "take 22", "30", "take refused: 30, both"),
            ("marks fill 1", "take 21", "11", "take: 11 before 30"),
            ("marks fill 9", "begin", "29", "begin refused: 29, at two voxels or more"),
        ];
        for (line, call, number, met) in all {
            let mut state = Replay::new(REFERENCE);
            for line in pair.into_iter().chain([line]) {
                state.line(line).expect("a line of the language");
            }
            let entries = |answer: &str| Before::of(&state, call).entries(answer);
            let name = call.split(' ').next().unwrap_or(call);
            assert!(entries(&format!("{name} refused {number}")).is_ok_and(|all| all.contains(&met.to_string())), "{met}");
            for other in ["2", "7", "29", "8", "11", "30", "12", "13"].into_iter().filter(|&other| other != number) {
                assert!(entries(&format!("{name} refused {other}")).is_err(), "{met}: {other}");
            }
            assert!(entries(&format!("{name} ok")).is_err(), "{met}");
        }
    }

    /// 86, 87 and 129 are of the one block that is not on the border; 64 touches none of them, and 85 is near low x alone.
    #[test]
    fn an_answer_for_another_coarse_start_is_told() {
        let all = [
            ("values set 64 -1", "31", "begincoarse refused: 31, for a voxel outside S alone"),
            ("values set 85 -1", "31", "begincoarse refused: 31, x below 2 alone"),
            ("values fill 6", "4", "begincoarse refused: 4, none below 0 alone"),
            ("values set 0 -1", "3", "begincoarse: 3 before 31"),
            ("cdist len 28", "2", "begincoarse refused: 2, cdist long alone"),
            ("cstatus len 0", "2", "begincoarse refused: 2, cstatus empty"),
            ("rawsides 6 6 7", "2", "begincoarse: 2 before 31"),
            ("marks set 5 4", "29", "begincoarse refused: 29, on the border alone"),
        ];
        for (line, number, met) in all {
            let mut state = Replay::new(REFERENCE);
            for line in ["sides 6 6 6", "values fill 6", "values set 86 -6", "values set 87 -6", "values set 129 -6", line] {
                state.line(line).expect("a line of the language");
            }
            let entries = |answer: &str| Before::of(&state, "begincoarse").entries(answer);
            assert!(entries(&format!("begincoarse refused {number}")).is_ok_and(|all| all.contains(&met.to_string())), "{met}");
            for other in ["1", "2", "28", "29", "3", "4", "31", "7"].into_iter().filter(|&other| other != number) {
                assert!(entries(&format!("begincoarse refused {other}")).is_err(), "{met}: {other}");
            }
            assert!(entries("begincoarse ok rec").is_err(), "{met}");
        }
    }

    /// 32 and 37 may go; 31 is inside, and 34 stands apart once it is kept.
    #[test]
    fn an_answer_for_another_list_is_told() {
        let (one, both) = ("565220000000", "565220000000565225000000");
        let all = [
            (one.to_string(), "33", "judge refused: 33, after a pending voxel went"),
            (format!("{one}{one}"), "32", "judge refused: 32, gone by the list alone"),
            (format!("{both}56521F000000"), "32", "judge refused: 32, inside alone"),
            (format!("{both}564F22000000564F22000000"), "32", "judge refused: 32, gone by the list alone"),
            ("564F22000000".to_string(), "32", "judge refused: 32, an opening while another passes alone"),
            (format!("{both}565222000000"), "32", "judge refused: 32, not passed alone"),
            (format!("{one}{one}5650"), "32", "judge: 32 before a later record's removal 21"),
            (format!("{one}{one}565020000000"), "32", "judge: 32 before a later record's removal 22"),
            (format!("{one}565048000000"), "22", "judge: removal 22 before removal 5"),
            (format!("{one}565248000000"), "5", "judge: removal 5 before 33"),
            (format!("{both}56522200"), "21", "judge refused: removal 21, 4 bytes alone"),
        ];
        let mut state = Replay::new(REFERENCE);
        for line in ["sides 6 4 3", "T 1", "values fill 6", "values set 31 -6", "values set 38 -6", "begin", "status set 34 1"] {
            state.line(line).expect("a line of the language");
        }
        for (list, number, met) in all {
            let entries = |answer: &str| Before::of(&state, &format!("judge {list}")).entries(answer);
            assert!(entries(&format!("judge refused {number}")).is_ok_and(|all| all.contains(&met.to_string())), "{met}");
            for other in ["21", "22", "5", "32", "33", "8"].into_iter().filter(|&other| other != number) {
                assert!(entries(&format!("judge refused {other}")).is_err(), "{met}: {other}");
            }
            assert!(entries("judge ok removals 1 openings 0 euler 1").is_err(), "{met}");
        }
        let entries = |answer: &str| Before::of(&state, &format!("judge {both}564F22000000")).entries(answer);
        assert!(entries("judge ok removals 3 openings 1 euler 0").is_ok_and(|all| all.contains(&"judge: an opening of k 0".to_string())));
        for other in ["removals 2 openings 1 euler 0", "removals 3 openings 0 euler 0", "removals 3 openings 1 euler 1"] {
            assert!(entries(&format!("judge ok {other}")).is_err(), "{other}");
        }
    }

    /// A value, the border or a refusal that writes.
    #[test]
    fn another_practice_grid_is_told() {
        let all = [
            ("values len 27", "ok", "practice: a seed of 9"),
            ("values len 26", "refused 2", "practice refused: 2, values short alone"),
            ("values len 28", "refused 2", "practice refused: 2, values long alone"),
            ("rawsides 3 3 65", "refused 1", "practice: 1 before 2"),
        ];
        for (line, said, met) in all {
            let mut state = Replay::new(REFERENCE);
            state.line(line).expect("a line of the language");
            let of = |state: &Replay| Before::of(state, "practice 9");
            let entries = |answer: &str| of(&state).entries(&format!("practice {answer}"));
            assert!(entries(said).is_ok_and(|all| all.contains(&met.to_string())), "{met}");
            for other in ["ok", "refused 1", "refused 2", "refused 28"].into_iter().filter(|&other| other != said) {
                assert!(entries(other).is_err(), "{met}: {other}");
            }
            let before = of(&state);
            state.line("practice 9").expect("a line of the language");
            assert!(before.left(&state).is_ok(), "{met}");
            for i in [0, 13, state.values.len() - 1] {
                state.values[i] += 1;
                assert!(before.left(&state).is_err(), "{met}: {i}");
                state.values[i] -= 1;
            }
        }
    }

    /// Two bars, of which place 1 was served before; 17 is pending in both.
    #[test]
    fn an_answer_of_another_office_is_told() {
        let bar = "sides 4 3 3\nrec a 4\nrec b 3\nrec c 3\nrec T 5\nrec finished 0\ndist fill 5\nstatus fill 0\nstatus set 17 3\nstatus set 18 1\n";
        let fresh = |lines: &str| {
            let mut state = Replay::new(REFERENCE);
            for line in format!("slot 1\n{bar}slot 0\n{bar}order 1\n{lines}").lines() {
                state.line(line).expect("a line of the language");
            }
            state
        };
        let all = [
            ("rec a 65", "1", "serve refused: 1, of the first grid alone"),
            ("slot 1\nrec a 65\nslot 0\nstatus set 0 1", "1", "serve: 1 before an earlier grid's 7"),
            ("marks len 35", "2", "serve refused: 2, marks short alone"),
            ("slot 1\nstatus set 0 1\nslot 0\nmarks set 0 4", "7", "serve: 7 before an earlier grid's 29"),
            ("order 1 1", "7", "serve refused: order 7, a place twice alone"),
            ("order 2\nmarks set 0 4", "7", "serve: order 7 before 29"),
            ("slot 1\nmarks set 35 4\nslot 0\nrec finished 1", "29", "serve: 29 before an earlier grid's 8"),
            ("slot 1\nrec finished 2", "8", "serve refused: 8, of the last grid alone"),
            ("status set 17 1\nslot 1\nstatus set 17 1", "35", "serve refused: 35, after grids were served"),
        ];
        for (lines, number, met) in all {
            let state = fresh(lines);
            let entries = |answer: &str| Before::of(&state, "serve 2 1").entries(answer);
            assert!(entries(&format!("serve refused {number}")).is_ok_and(|all| all.contains(&met.to_string())), "{met}");
            for other in ["34", "1", "2", "7", "29", "8", "35"].into_iter().filter(|&other| other != number) {
                assert!(entries(&format!("serve refused {other}")).is_err(), "{met}: {other}");
            }
            let limit = Before::of(&state, "serve 2 0").entries("serve refused 34");
            assert!(limit.is_ok_and(|all| all.contains(&"serve refused: 34, limit 0 alone".to_string())), "{met}");
        }
        let mut state = fresh("");
        let done =
            "examined 1 removed 1 pending 1 face 0 order [1, 0] | rec 4 3 3 T 5 openings 0 removals 1 examinations 1 euler 1 finished 0";
        let entries = |answer: &str| Before::of(&state, "serve 2 1").entries(&format!("serve ok place {answer}"));
        let met = "serve: never served, one that was waits too".to_string();
        assert!(entries(&format!("0 {done}")).is_ok_and(|all| all.contains(&met)));
        let order = done.replace("[1, 0]", "[0, 1]");
        for other in [format!("1 {done}"), format!("0 {order}"), format!("0 {}", done.replace("face 0", "face 1"))] {
            assert!(entries(&other).is_err(), "{other}");
        }
        let before = Before::of(&state, "serve 2 1");
        state.line("serve 2 1").expect("a line of the language");
        assert!(before.left(&state).is_ok());
        for line in ["order 0", "order 1 0 1", "status set 18 1", "rec removals 0", "slot 1\nmarks set 3 1", "slot 1\nstatus set 17 1"] {
            let mut spoilt = fresh("serve 2 1");
            line.lines().for_each(|line| drop(spoilt.line(line).expect("a line of the language")));
            assert!(before.left(&spoilt).is_err(), "{line}");
        }
    }

    /// 22 is of mark 3 at begin and free in the carve, which passes it by; other buffers make it another record.
    #[test]
    fn a_mark_of_3_that_changed_since_begin_is_told() {
        let met = |lines: &[&str]| {
            let (mut made, mut state, mut noted) =
                (Made { files: Vec::new(), met: BTreeMap::new() }, Replay::new(REFERENCE), Noted::default());
            for line in ["sides 4 4 3", "values fill 6", "values set 21 -6", "values set 26 -6"].iter().chain(lines) {
                made.line(&mut state, &mut noted, line, None).expect("a line of the language");
            }
            made.met
        };
        let stays = "carve: both at begin, free now, not pending although it passes";
        let told = met(&["marks set 22 3", "begin", "marks set 22 2", "carve 0"]);
        assert!(["carve: both at begin, hurried now", stays].iter().all(|&entry| told.contains_key(entry)));
        let others = [
            &["marks set 22 1", "begin", "marks set 22 2", "carve 0"][..],
            &["marks set 22 3", "begin", "carve 0"],
            &["marks set 22 3", "begin", "marks set 22 2", "marks set 0 4", "carve 0"],
            &["marks set 22 3", "begin", "marks set 22 2", "status set 22 1", "carve 0"],
        ];
        for lines in others {
            assert!(!met(lines).keys().any(|entry| entry.contains("at begin")), "{lines:?}");
        }
    }

    /// 22 goes by high x, and then 25 by low x.
    #[test]
    fn an_answer_with_another_face_is_told() {
        let pair = ["sides 4 4 3", "T 1", "values fill 6", "values set 21 -6", "values set 26 -6", "begin"];
        let all = [
            ("carve 9", "carve ok examined 2 removed 2 pending 0 face", 0, "carve: another face of the first removal"),
            ("carve 1", "carve ok examined 1 removed 1 pending 1 face", 1, "carve: another face, z before y before x"),
            ("carve 0", "carve ok examined 0 removed 0 pending 1 face", 6, "carve: no removal, limit 0"),
            ("take 22", "take ok gone k 1 m 1 face", 1, "take: a lower face covered by a voxel of S"),
            ("local 15410", "local ok k 1 m 1 corners 8 edges 12 faces 5 face", 5, "local: one face is bare"),
        ];
        let mut state = Replay::new(REFERENCE);
        for line in pair {
            state.line(line).expect("a line of the language");
        }
        for (call, said, face, met) in all {
            let entries = |answer: String| Before::of(&state, call).entries(&answer);
            assert!(entries(format!("{said} {face}")).is_ok_and(|all| all.contains(&met.to_string())), "{call}: {met}");
            for other in (0..=6).filter(|&other| other != face) {
                assert!(entries(format!("{said} {other}")).is_err(), "{call}: {other}");
            }
            assert!(entries(said.trim_end_matches(" face").to_string()).is_err(), "{call}: none");
        }
    }

    /// A wide grid is given the length of wide layers to write, and a narrow one that of narrow ones.
    #[test]
    fn the_length_for_the_width_is_told() {
        for (value, length) in [(32_767, 70), (32_768, 124), (-32_768, 124), (MISSING, 70)] {
            let mut state = Replay::new(REFERENCE);
            state.line(&format!("values set 3 {value}")).expect("a line of the language");
            let met = |lent: usize, answer: &str| Before::of(&state, &format!("write {lent}")).entries(answer).is_ok();
            assert!(met(length, "write ok length") && !met(length, "write refused 26"), "{value}");
            assert!(!met(length - 1, "write ok length") && met(length - 1, "write refused 26"), "{value}");
        }
    }
}
