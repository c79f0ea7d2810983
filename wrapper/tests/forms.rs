//! Document 01 names a form of the language for each of nine places ("The form for each place"; docs/DECISIONS.md has the table). Each stands at its
//! place, in code that a call of the product comes to: a form that nothing calls, or that a clean-up took away, fails here by its sentence.

mod common;

use common::root;
use std::collections::{HashMap, HashSet};

// ---- the source: functions and types, as far as the forms need them

/// What a function declares, and what it does. White space is taken out, so that the layout says nothing.
struct Function {
    public: bool,
    parameters: String,
    result: String,
    contract: String,
    body: String,
    /// The functions that it calls, as `crate::name`.
    calls: Vec<String>,
}

#[derive(Default)]
struct Source {
    functions: HashMap<String, Function>,
    /// What stands between the braces of a struct or an enum, by `crate::Name`.
    types: HashMap<String, String>,
}

fn squeezed(text: &str) -> String {
    text.split_whitespace().collect()
}

fn is_word(c: char) -> bool {
    c.is_ascii_alphanumeric() || c == '_'
}

/// The text up to the bracket that closes the one that it begins with, both left out, and what follows it.
fn enclosed(text: &str) -> (&str, &str) {
    let mut open = 0;
    for (i, c) in text.char_indices() {
        match c {
            '(' | '{' | '[' => open += 1,
            ')' | '}' | ']' => open -= 1,
            _ => {}
        }
        if open == 0 {
            return (&text[1..i], &text[i + 1..]);
        }
    }
    panic!("a bracket is not closed: {}", text.chars().take(80).collect::<String>());
}

/// Code without its comments.
fn bare(text: &str) -> String {
    text.lines().map(|line| line.split("//").next().expect("a split has a first part")).collect::<Vec<_>>().join("\n")
}

/// Code without what is stated in it, by `prove!` and by the clauses of closures.
fn unstated(text: &str) -> String {
    const STATED: [(&str, char); 4] = [("prove!", '('), ("prove_eq!", '('), ("requires", '{'), ("ensures", '{')];
    let first = STATED.iter().filter_map(|(word, open)| text.find(word).map(|at| (at, *open))).min();
    let Some((at, open)) = first else { return text.to_string() };
    let stated = &text[at..];
    let (_, rest) = enclosed(&stated[stated.find(open).expect("what is stated")..]);
    text[..at].to_string() + &unstated(rest)
}

/// The paths that an opening parenthesis follows: what is called.
fn called(body: &str) -> Vec<String> {
    let before = body.match_indices('(').map(|(i, _)| &body[..i]);
    let paths = before.map(|text| text.rsplit(|c| !is_word(c) && c != ':').next().expect("a split has a last part"));
    paths.filter(|path| path.starts_with(|c: char| c.is_ascii_lowercase())).map(str::to_string).collect()
}

impl Source {
    /// Every crate's source, each file as `edit` leaves it.
    fn read(edit: impl Fn(&str, String) -> String) -> Source {
        let mut source = Source::default();
        for folder in std::fs::read_dir(root().join("crates")).expect("crates/ can be listed") {
            let folder = folder.expect("an entry").path();
            let name = folder.file_name().expect("a name").to_string_lossy().into_owned();
            for file in std::fs::read_dir(folder.join("src")).into_iter().flatten() {
                let path = file.expect("an entry").path();
                let text = std::fs::read_to_string(&path).unwrap_or_else(|e| panic!("{} cannot be read: {e}", path.display()));
                source.add(&name, &bare(&edit(&name, text)));
            }
        }
        source
    }

    fn add(&mut self, krate: &str, text: &str) {
        for line in text.match_indices("fn ").filter(|(i, _)| !text[..*i].ends_with(is_word)).map(|(i, _)| i) {
            let (name, rest) = text[line + 3..].split_at(text[line + 3..].find(|c| !is_word(c)).expect("a function goes on"));
            let public = text[..line].lines().last().is_some_and(|begun| begun.trim_start().starts_with("pub"));
            self.functions.insert(format!("{krate}::{name}"), function(krate, public, rest));
        }
        for kind in ["struct ", "enum "] {
            for (i, _) in text.match_indices(kind) {
                let declared = &text[i + kind.len()..];
                let name: String = declared.chars().take_while(|c| is_word(*c)).collect();
                let fields = declared.find('{').map(|at| squeezed(enclosed(&declared[at..]).0));
                self.types.insert(format!("{krate}::{name}"), fields.unwrap_or_default());
            }
        }
    }

    fn function(&self, name: &str) -> Result<&Function, String> {
        self.functions.get(name).ok_or(format!("there is no {name}"))
    }

    fn fields(&self, name: &str) -> Result<&str, String> {
        self.types.get(name).map(String::as_str).ok_or(format!("there is no {name}"))
    }

    /// The functions that are come to from a root, which is itself one of them.
    fn reached(&self, from: &str) -> HashSet<&str> {
        let mut found = HashSet::new();
        let mut next: Vec<&str> = self.functions.keys().filter(|name| *name == from).map(String::as_str).collect();
        while let Some(name) = next.pop() {
            if found.insert(name) {
                next.extend(
                    self.functions[name].calls.iter().filter_map(|call| self.functions.get_key_value(call)).map(|(name, _)| name.as_str()),
                );
            }
        }
        found
    }

    /// The call for C, whatever number its symbol ends in.
    fn call_for_c(&self, call: &str) -> Result<String, String> {
        let plain = format!("capi::wattlerugby_{call}");
        let number = |name: &str| name.strip_prefix(&plain).is_some_and(|end| end.chars().all(|c| c == '_' || c.is_ascii_digit()));
        self.functions.keys().find(|name| number(name)).cloned().ok_or(format!("there is no call {call} for C"))
    }

    /// A call for C, or the program, comes to the function.
    fn comes_to(&self, from: &str, to: &str) -> Result<(), String> {
        let from = if from == "carve::main" { from.to_string() } else { self.call_for_c(from)? };
        holds(self.reached(&from).contains(to), &format!("{from} does not come to {to}"))
    }
}

fn function(krate: &str, public: bool, rest: &str) -> Function {
    let (parameters, rest) = enclosed(&rest[rest.find('(').expect("parameters")..]);
    let mut contract = String::new();
    let end =
        rest.find('{').expect("a body").min(rest.find("requires").unwrap_or(rest.len())).min(rest.find("ensures").unwrap_or(rest.len()));
    let (result, mut rest) = rest.split_at(end);
    while !rest.starts_with('{') {
        let (clause, behind) = enclosed(&rest[rest.find('{').expect("a clause")..]);
        contract.push_str(clause);
        rest = behind.trim_start();
    }
    let body = unstated(enclosed(rest).0);
    let calls = called(&body).into_iter().map(|path| if path.contains("::") { path } else { format!("{krate}::{path}") }).collect();
    Function {
        public,
        parameters: squeezed(parameters),
        result: squeezed(result).trim_start_matches("->").to_string(),
        contract: squeezed(&contract),
        body: squeezed(&body),
        calls,
    }
}

// ---- the forms

fn holds(fact: bool, otherwise: &str) -> Result<(), String> {
    fact.then_some(()).ok_or(otherwise.to_string())
}

/// Document 01's sentence, and what stands at its place.
type Form = (&'static str, fn(&Source) -> Result<(), String>);

const FORMS: [Form; 9] = [
    ("It answers either no crossing, where both are negative or neither is, or a point", |source| {
        let cases = source.fields("surface::Crossed")?;
        holds(cases.contains("At(Point)") && cases.contains("Refused(u8)"), "Crossed has not a case with a point beside a refusal case")?;
        holds(source.function("surface::crossing")?.result == "Crossed", "crossing does not return the enum")?;
        source.comes_to("crossing", "surface::crossing")
    }),
    ("add hex 9E3779B9 to s with wrapping at 32 bits", |source| {
        let add = &source.function("practice::advanced")?.body;
        holds(add == "s.wrapping_add(0x9E3779B9)", "advanced does not add by wrapping_add")?;
        source.comes_to("practice", "practice::advanced")
    }),
    ("It reads the 27 voxels of a three by three by three block", |source| {
        // C gives bits, which `block_of` makes a block of
        let public =
            source.functions.iter().filter(|(name, f)| name.starts_with("local_test::") && f.public && !name.ends_with("::block_of"));
        let bits = public.clone().find(|(_, f)| !f.parameters.contains(":[[u8;3];3]"));
        holds(bits.is_none(), &format!("{} does not take the block by value", bits.map_or("", |(name, _)| name)))?;
        let groups = public.clone().find(|(_, f)| f.result == "Groups").map(|(name, _)| name.as_str());
        let groups = groups.ok_or("no test of a block gives k, m and the face alone")?;
        source.comes_to("carve", "local_test::passes")?;
        source.comes_to("take", groups)?;
        source.comes_to("open", groups)?;
        source.comes_to("local_test", "local_test::local_test")
    }),
    ("hands back its value bytes as a stretch of the caller's file", |source| {
        let result = &source.function("layers::read_layer")?.result;
        holds(result == "Result<LayerPart<'a>,Refusal>", "read_layer does not return the part")?;
        holds(source.fields("layers::LayerPart")?.contains("values:&'a[u8]"), "LayerPart does not hold a part of the file")?;
        source.comes_to("read_layer", "layers::read_layer")?;
        source.comes_to("read", "layers::read_layer")?;
        source.comes_to("carve::main", "layers::read_layer")
    }),
    ("numbers of corners, edges and faces among the touched cells", |source| {
        let call = source.call_for_c("local_test")?;
        let reached = source.reached(&call);
        let unsigned = |name: &&&str| name.contains("touched") && ["u32", "u64"].contains(&source.functions[**name].result.as_str());
        holds(reached.iter().any(|name| unsigned(&name)), "the touched cells are not bits of one unsigned number")?;
        let tested = reached.iter().filter(|name| name.starts_with("local_test::"));
        let bodies: String = tested.map(|name| source.functions[*name].body.as_str()).collect();
        for (kind, cells) in [("corners", 8), ("edges", 12), ("faces", 6)] {
            let counts = masks(&bodies).any(|mask| mask.count_ones() == cells);
            holds(counts, &format!("no masked count of ones has {cells} cells, as the {kind} are"))?;
        }
        Ok(())
    }),
    ("The point's three doubles are the negative voxel's coordinates", |source| {
        holds(source.fields("surface::Point")?.matches(":f64").count() == 3, "Point is not three doubles")?;
        let made = source.function("surface::point_from")?;
        let changed = ["point.x=moved(", "point.y=moved(", "point.z=moved("].iter().all(|store| made.body.contains(store));
        holds(
            made.result == "Point" && made.body.contains("letmutpoint=Point{"),
            "point_from does not make a Point and return it by value",
        )?;
        holds(changed, "point_from does not change one coordinate")?;
        source.comes_to("crossing", "surface::point_from")
    }),
    ("A refused file prints `refused` and the number", |source| {
        let apart = &source.function("line::line_in")?.body;
        let refused = apart.split_once("letOk(header)=").and_then(|(_, rest)| rest.split_once("else{")).map(|(_, rest)| rest);
        let printed = refused.is_some_and(|rest| rest.starts_with("returntext::refused_line("));
        holds(printed, "line_in does not take the read answer apart by let .. else")?;
        source.comes_to("carve::main", "line::line_in")
    }),
    ("The answer of take is gone with k and m, or a refusal number", |source| {
        let cases = source.fields("rules::Taken")?;
        holds(
            cases.contains("Gone{k:u32,m:u32,") && cases.contains("Refused(u8)"),
            "Taken has not a case with k and m, and one with the number",
        )?;
        holds(source.function("taking::take")?.result == "Taken", "take does not return the enum")?;
        source.comes_to("take", "taking::take")
    }),
    ("t is p / (p + q), one double division", |source| {
        holds(source.function("surface::share")?.body == "pasf64/(p+q)asf64", "share is not one division of two exact doubles")?;
        let moved = &source.function("surface::moved")?.body;
        holds(moved.contains("{from+t}") && moved.contains("{from-t}"), "moved is not one sum or difference")?;
        let call = source.call_for_c("crossing")?;
        holds(source.function(&call)?.contract.contains("BoundedAt"), "the call's contract has no bound")?;
        source.comes_to("crossing", "surface::share")
    }),
];

/// The masks of `count_ones(t & MASK)`, octal or hexadecimal.
fn masks(bodies: &str) -> impl Iterator<Item = u64> + '_ {
    let counted = bodies.split("::count_ones(").skip(1).filter_map(|rest| rest.split(')').next());
    let masked = counted.filter_map(|counted| counted.split_once("&0")).map(|(_, mask)| mask);
    masked.filter_map(|mask| u64::from_str_radix(&mask[1..], if mask.starts_with('o') { 8 } else { 16 }).ok())
}

/// The sentences whose form is not at its place, each with what is wrong.
fn lost(source: &Source) -> Vec<(&'static str, String)> {
    FORMS.iter().filter_map(|(sentence, stands)| stands(source).err().map(|wrong| (*sentence, wrong))).collect()
}

#[test]
fn each_form_stands_at_its_place() {
    let lost = lost(&Source::read(|_, text| text));
    let lines: Vec<String> = lost.iter().map(|(sentence, wrong)| format!("{sentence:?}: {wrong}")).collect();
    assert!(lost.is_empty(), "document 01's forms:\n{}", lines.join("\n"));
}

/// A form that is taken away is missed, at its place or where it is called: the sentence begins so, and in that crate one text stands for another.
#[test]
fn a_form_that_goes_is_missed() {
    let taken: [(&str, &str, &str, &str); 17] = [
        ("It answers either", "surface", "At(Point)", "At(f64, f64, f64)"),
        ("It answers either", "capi", "surface::crossing(", "surface::crossing_of("),
        ("add hex 9E3779B9", "practice", "s.wrapping_add(0x9E3779B9)", "(s as u64 + 0x9E3779B9) as u32"),
        ("add hex 9E3779B9", "capi", "practice::practice(", "practice::filled("),
        ("It reads the 27", "local_test", "[[u8; 3]; 3]", "u32"),
        ("It reads the 27", "local_test", "ghost use Rattle.std.specs.Prelude", "pub fn of_bits() {}\nghost use Rattle.std.specs.Prelude"),
        ("It reads the 27", "capi", "local_test::local_test", "local_test::of_bits"),
        ("hands back its value bytes", "layers", "pub values: &'a [u8]", "pub from: usize"),
        ("hands back its value bytes", "layers", "read_layer(sides", "layer_of(sides"),
        ("numbers of corners", "local_test", "count_ones(t & ", "count_ones(t | "),
        ("The point's three doubles", "surface", "point.y = moved(", "point.y = whole("),
        ("The point's three doubles", "surface", "point_from(axis", "point_of(axis"),
        ("A refused file", "line", "let Ok(header) =", "match Ok(header) ="),
        ("A refused file", "line", "line_in(\n", "line_of(\n"),
        (
            "The answer of take",
            "rules",
            "        k: u32,\n        m: u32,\n        face: u32,\n        next: Record,\n    },\n    Refused(u8),\n}\n\n// What open",
            "    },\n}\n\n// What open",
        ),
        ("t is p / (p + q)", "surface", "p as f64 / (p + q) as f64", "1.0 / (1.0 + q as f64 / p as f64)"),
        ("t is p / (p + q)", "capi", "BoundedAt given", "Anywhere given"),
    ];
    for (sentence, krate, old, new) in taken {
        let changed = std::cell::Cell::new(false);
        let source = Source::read(|name, text| {
            changed.set(changed.get() || (name == krate && text.contains(old)));
            if name == krate {
                text.replace(old, new)
            } else {
                text
            }
        });
        assert!(changed.get(), "{old:?} is not in {krate}: the test is to be brought up to date");
        assert!(
            lost(&source).iter().any(|(missed, _)| missed.starts_with(sentence)),
            "{sentence:?} is not missed after {old:?} in {krate}"
        );
    }
}
