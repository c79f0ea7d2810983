//! Patches of the reference's source, applied exactly: what does not fit, or fits in two places, is an error.

use super::Source;

/// A hunk of a unified diff: what it takes for what, and where it stood when it was made.
struct Hunk {
    file: String,
    line: usize,
    old: String,
    new: String,
}

/// A line that stands before a file's hunks, and not in one.
fn is_header(line: &str) -> bool {
    line.starts_with("--- ") || !(line.is_empty() || line.starts_with([' ', '+', '-']))
}

/// The hunks of a patch. What stands before its first `---` says what the mutant does.
fn hunks(patch: &str) -> Result<Vec<Hunk>, String> {
    let mut hunks: Vec<Hunk> = Vec::new();
    let mut file = "";
    for line in patch.lines() {
        if let Some(name) = line.strip_prefix("+++ ") {
            file = name.rsplit('/').next().unwrap_or(name);
        } else if let Some(at) = line.strip_prefix("@@ -") {
            let digits: String = at.chars().take_while(char::is_ascii_digit).collect();
            let line = digits.parse().map_err(|_| format!("no line in {at:?}"))?;
            hunks.push(Hunk { file: file.to_string(), line, old: String::new(), new: String::new() });
        } else if let Some(hunk) = hunks.last_mut().filter(|_| !is_header(line)) {
            let (mark, text) = line.split_at(line.len().min(1));
            if mark != "+" {
                hunk.old += &format!("{text}\n");
            }
            if mark != "-" {
                hunk.new += &format!("{text}\n");
            }
        }
    }
    Ok(hunks)
}

/// Applies a hunk where its old lines stand. They must stand in one place alone: the nearest of several may be another one than was meant.
fn apply(hunk: &Hunk, text: &str) -> Result<String, String> {
    let begins_a_line = |at: &usize| *at == 0 || text.as_bytes()[at - 1] == b'\n';
    let starts: Vec<usize> = text.match_indices(&hunk.old).map(|(at, _)| at).filter(begins_a_line).collect();
    match starts[..] {
        [at] => Ok(format!("{}{}{}", &text[..at], hunk.new, &text[at + hunk.old.len()..])),
        [] => Err(format!("{} has no longer what stood at line {}", hunk.file, hunk.line)),
        _ => {
            Err(format!("{} has {} times what stood at line {}: the patch needs more lines around it", hunk.file, starts.len(), hunk.line))
        }
    }
}

/// The sources with a patch applied.
pub fn patched(sources: &[Source], patch: &str) -> Result<Vec<Source>, String> {
    let mut sources = sources.to_vec();
    let hunks = hunks(patch)?;
    if hunks.is_empty() {
        return Err("it changes nothing".to_string());
    }
    for hunk in hunks {
        let (_, text) = sources.iter_mut().find(|(name, _)| *name == hunk.file).ok_or(format!("there is no {}", hunk.file))?;
        *text = apply(&hunk, text)?;
    }
    Ok(sources)
}

#[cfg(test)]
mod tests {
    use super::*;

    const TEXT: &str = "one\ntwo\nsame\nthree\nfour\nsame\n";

    fn of(text: &str, patch: &str) -> Result<String, String> {
        patched(&[("a.rs".to_string(), text.to_string())], patch).map(|sources| sources[0].1.clone())
    }

    #[test]
    fn a_patch_applies_where_its_lines_are_now() {
        let patch = "What it does.\n--- a/src/a.rs\n+++ b/src/a.rs\n@@ -3,2 +3,2 @@\n-same\n+other\n three\n";
        assert_eq!(of(TEXT, patch).as_deref(), Ok("one\ntwo\nother\nthree\nfour\nsame\n"));
        assert_eq!(of(&format!("zero\n{TEXT}"), patch).as_deref(), Ok("zero\none\ntwo\nother\nthree\nfour\nsame\n"));
    }

    #[test]
    fn a_patch_of_two_files() {
        let part = |file: &str, old: &str| {
            format!("diff --git a/{file} b/{file}\nindex 1..2 100644\n--- a/{file}\n+++ b/{file}\n@@ -1 +1 @@\n-{old}\n+new\n")
        };
        let sources = [("a.rs", "one\n"), ("b.rs", "two\n")].map(|(name, text)| (name.to_string(), text.to_string()));
        let made = patched(&sources, &(part("a.rs", "one") + &part("b.rs", "two"))).expect("both apply");
        assert!(made.iter().all(|(_, text)| text == "new\n"));
    }

    #[test]
    fn a_patch_that_fits_in_two_places_is_told() {
        let told = "a.rs has 2 times what stood at line 3: the patch needs more lines around it";
        assert_eq!(of(TEXT, "--- a/a.rs\n+++ b/a.rs\n@@ -3 +3 @@\n-same\n+other\n"), Err(told.to_string()));
    }

    #[test]
    fn a_patch_that_no_longer_applies_is_told() {
        let gone = of(TEXT, "--- a/a.rs\n+++ b/a.rs\n@@ -1 +1 @@\n-gone\n+other\n");
        assert_eq!(gone, Err("a.rs has no longer what stood at line 1".to_string()));
        assert_eq!(of(TEXT, "--- a/b.rs\n+++ b/b.rs\n@@ -1 +1 @@\n-one\n+other\n"), Err("there is no b.rs".to_string()));
        assert_eq!(of(TEXT, "nothing\n"), Err("it changes nothing".to_string()));
    }
}
