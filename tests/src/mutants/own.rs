//! Which items of the reference a mutant has for itself: those that its patch changes, and all that cite one of these. The rest it shares with the
//! others, so that a thousand mutants are not a thousand references to compile.
//!
//! The source is laid out by rustfmt, so a word at a line's first column begins an item. What is wrongly taken for shared is no danger: the mutant
//! then does not compile, or answers as the rules do, and either fails the tests.

use super::{module, Source};
use std::collections::BTreeMap;

/// A module by its items: a type is one item with all that is implemented for it.
#[derive(Default)]
pub struct Items {
    pub uses: String,
    pub items: BTreeMap<String, String>,
}

fn words(text: &str) -> impl Iterator<Item = &str> {
    text.split(|c: char| !c.is_ascii_alphanumeric() && c != '_').filter(|word| !word.is_empty())
}

/// The name of an item: of an `impl` the type's.
fn name_of(item: &str) -> Option<&str> {
    if item.starts_with("impl") {
        let head = item.split('{').next().unwrap_or(item);
        let of = head.rsplit(" for ").next().unwrap_or(head);
        return words(of).find(|word| word.starts_with(|c: char| c.is_ascii_uppercase()));
    }
    let is_keyword = |word: &&str| ["fn", "struct", "enum", "const", "static", "type"].contains(word);
    words(item).skip_while(|word| !is_keyword(word)).nth(1)
}

/// The texts of a module's items, comments before them left out.
fn split(text: &str) -> Vec<String> {
    let mut items: Vec<String> = Vec::new();
    let is_attribute = |line: &str| line.starts_with("#[");
    for line in text.lines().filter(|line| !line.is_empty() && !line.starts_with("//")) {
        let begins = is_attribute(line) || line.starts_with(|c: char| c.is_ascii_alphabetic()) && !line.starts_with("where");
        match items.last_mut() {
            Some(item) if !begins || item.lines().all(is_attribute) => item.push_str(line),
            _ => items.push(line.to_string()),
        }
        items.last_mut().into_iter().for_each(|item| item.push('\n'));
    }
    items
}

/// The items of a module, its unit tests left out.
fn items(text: &str) -> Result<Items, String> {
    let mut found = Items::default();
    for item in split(text).iter().filter(|item| !item.starts_with("#[cfg(test)]")) {
        if item.starts_with("use ") {
            found.uses += item;
        } else {
            let name = name_of(item).ok_or(format!("an item without a name: {item}"))?;
            *found.items.entry(name.to_string()).or_default() += item;
        }
    }
    Ok(found)
}

/// Whether a `use` of the module has this name of another module.
fn imports(uses: &str, other: &str, name: &str) -> bool {
    let from = format!("use crate::{other}::");
    uses.split(';').filter_map(|line| line.trim_start().strip_prefix(&from)).any(|names| words(names).any(|word| word == name))
}

/// The items that are a mutant's own, by module.
pub fn own(sources: &[Source], mutant: &[Source]) -> Result<BTreeMap<String, Items>, String> {
    let (mut shared, mut own) = (BTreeMap::new(), BTreeMap::new());
    let mut new: Vec<(String, String)> = Vec::new();
    for ((file, before), (_, after)) in sources.iter().zip(mutant) {
        let (before, after) = (items(before)?, items(after)?);
        let changed = after.items.iter().filter(|(name, text)| before.items.get(*name) != Some(text));
        new.extend(changed.map(|(name, _)| (module(file).to_string(), name.clone())));
        own.insert(module(file).to_string(), Items { uses: after.uses.clone(), items: BTreeMap::new() });
        shared.insert(module(file).to_string(), after);
    }
    while let Some((module, name)) = new.pop() {
        let Some(text) = shared.get_mut(&module).and_then(|items| items.items.remove(&name)) else { continue };
        own.entry(module.clone()).or_default().items.insert(name.clone(), text);
        new.extend(citing(&shared, &module, &name));
    }
    own.retain(|_, items| !items.items.is_empty());
    Ok(own)
}

/// The items that cite a name of a module: those of that module, of a module that imports it, or by its path.
fn citing(shared: &BTreeMap<String, Items>, module: &str, name: &str) -> Vec<(String, String)> {
    let path = format!("crate::{module}::{name}");
    let mut found = Vec::new();
    for (here, items) in shared {
        let imported = here == module || imports(&items.uses, module, name);
        let cites = |text: &str| (imported || text.contains(&path)) && words(text).any(|word| word == name);
        found.extend(items.items.iter().filter(|(_, text)| cites(text)).map(|(name, _)| (here.clone(), name.clone())));
    }
    found
}

#[cfg(test)]
mod tests {
    use super::*;

    const GRID: &str = "//! Grids.\n\nuse crate::marks::is_mark;\n\n#[derive(Clone)]\n#[repr(C)]\npub struct Sides(u64);\n\n\
        impl Sides {\n    fn n(&self) -> u64 {\n        self.0\n    }\n}\n\nconst LEAST: u64 =\n    3;\nconst MOST: u64 = 64;\n\n\
        /// begin\npub fn begin(s: &Sides) -> bool {\n    fit(s) && is_mark(0)\n}\n\nfn fit(s: &Sides) -> bool {\n    s.0 >= LEAST\n}\n\n\
        impl<'a> Iterator for Words<'a> {\n}\n\nthread_local! {\n    static SEEN: u8 = 0;\n}\n\n#[cfg(test)]\nmod tests {\n}\n";
    const CALLS: &str = "use crate::grid::{begin, MOST};\n\npub const CALLS: fn() = begin;\npub const OTHERS: u64 = MOST;\n";

    fn sources(grid: &str) -> Vec<Source> {
        [("calls.rs", CALLS), ("grid.rs", grid), ("marks.rs", "pub fn is_mark(mark: u8) -> bool {\n    mark <= 3\n}\n")]
            .map(|(name, text)| (name.to_string(), text.to_string()))
            .to_vec()
    }

    /// The names of a mutant's own items, as `module: name ..`.
    fn own_of(old: &str, new: &str) -> Vec<String> {
        let own = own(&sources(GRID), &sources(&GRID.replace(old, new))).expect("every item has a name");
        own.iter().map(|(module, items)| format!("{module}: {}", items.items.keys().cloned().collect::<Vec<_>>().join(" "))).collect()
    }

    #[test]
    fn items_by_name() {
        let items = items(GRID).expect("every item has a name");
        assert_eq!(items.items.keys().collect::<Vec<_>>(), ["LEAST", "MOST", "SEEN", "Sides", "Words", "begin", "fit"]);
        assert_eq!(items.uses, "use crate::marks::is_mark;\n");
        assert_eq!(items.items["LEAST"], "const LEAST: u64 =\n    3;\n");
        assert!(items.items["Sides"].starts_with("#[derive(Clone)]\n#[repr(C)]\npub struct Sides(u64);\nimpl Sides {\n"));
    }

    #[test]
    fn what_changes_and_what_cites_it_is_own() {
        assert_eq!(own_of("    3;", "    2;"), ["calls: CALLS", "grid: LEAST begin fit"]);
        assert_eq!(own_of("= 64", "= 65"), ["calls: OTHERS", "grid: MOST"]);
        assert_eq!(own_of("        self.0\n", "        0\n"), ["calls: CALLS", "grid: Sides begin fit"]);
        assert_eq!(own_of("is_mark(0)", "is_mark(1)"), ["calls: CALLS", "grid: begin"]);
        assert!(own_of("//! Grids", "//! Others").is_empty());
    }
}
