//! The page: that it stands alone, and, where Chromium is at hand, what a browser makes of it.

use crate::common::{self, carved, path, samples, status, text, wattle, Carved, COLOURS};
use std::path::Path;
use std::process::Command;
use wattlerugby::{Face, Grid, GONE, MISSING};

fn page(grid: &Path) -> String {
    text(&wattle(&["page", path(grid)]).stdout)
}

/// The file with as many openings allowed as can be.
fn freed(grid: &Path) -> Vec<u8> {
    let mut file = std::fs::read(grid).unwrap();
    file[5..7].fill(0xFF);
    file
}

#[test]
fn it_asks_for_nothing_from_elsewhere() {
    for grid in samples() {
        let page = page(&grid);
        assert!(page.starts_with("<!doctype html>") && page.trim_end().ends_with("</html>"));
        assert!(page.contains("default-src 'none'"), "a browser is told to load nothing");
        for word in ["http:", "https:", "href=", "url(", "import ", "fetch(", "{{"] {
            assert!(!page.contains(word), "{word} in the page of {}", grid.display());
        }
        assert!(page.matches("src=").count() == 1 && page.contains(" src=\"data:image/png;base64,"), "a picture that stands in the page");
    }
}

#[test]
fn it_tells_the_line_and_the_counts() {
    for grid in samples() {
        let page = page(&grid);
        let line = text(&wattle(&["carve", path(&grid)]).stdout);
        assert!(page.contains(&format!("<p class=\"line\">{}", line.trim_end())), "{line}");
        if let Ok(body) = carved(&std::fs::read(&grid).unwrap()) {
            for (kind, mark, name) in common::NAMES {
                let key = format!("</span><code>{mark}</code> {name}: {}</li>", body.count(kind));
                assert!(page.contains(&key), "{key}");
            }
        }
    }
    let refused = wattle(&["page", path(&common::sample("refused.grid"))]);
    assert_eq!(status(&refused), 1);
    assert!(text(&refused.stdout).contains("The first is voxel (0, 5, 4), index 636"));
}

/// The part of a page that is shown with a body: of its words, or of its surface.
fn part(page: &str, body: usize, surface: bool) -> Option<&str> {
    let parts = page.split("<div data-body=\"").skip(1).filter_map(|p| p.strip_prefix(&format!("{body}\"")));
    parts.map(|p| p.split_once("</div>").expect("an end").0).nth(usize::from(surface))
}

/// Points have a key of their own: what a colour means of a voxel it does not mean of a point.
#[test]
fn it_counts_the_points() {
    let names = [(1, "measured point"), (2, "assumed point, between measured voxels"), (3, "assumed point, beside a missing range point")];
    for grid in samples() {
        let page = page(&grid);
        for (number, file) in [std::fs::read(&grid).unwrap(), freed(&grid)].iter().enumerate() {
            let (Ok(body), Some(part)) = (carved(file), part(&page, number, true)) else { continue };
            let points = body.points();
            for (kind, name) in names {
                let count = points.iter().filter(|(_, k)| *k == kind).count();
                assert_eq!(part.contains(&format!("</span>{name}: {count}</li>")), count > 0, "{name}: {count} in {part}");
            }
        }
    }
    let pins = format!("@{}", path(&common::sample("torus-1.pins")));
    let pinned = text(&wattle(&["page", path(&common::sample("torus-1.grid")), "--pin", &pins]).stdout);
    assert!(part(&pinned, 0, true).unwrap().contains("</span>point on a pinned voxel: 59</li>"), "{pinned}");
}

/// A page has the body with T as given, and where openings allowed freely change it, that one too: line, sentences, key and openings.
#[test]
fn it_has_both_bodies() {
    let mut both = 0;
    for grid in samples().into_iter().filter(|grid| carved(&std::fs::read(grid).unwrap()).is_ok()) {
        let page = page(&grid);
        let free = text(&wattle(&["carve", path(&grid), "--openings", "65535"]).stdout);
        let changed = free != text(&wattle(&["carve", path(&grid)]).stdout);
        assert_eq!(page.contains("<select id=\"body\">"), changed, "{}", grid.display());
        assert_eq!(
            part(&page, 1, false).map(|words| words.contains(&format!("<p class=\"line\">{}</p>", free.trim_end()))),
            changed.then_some(true)
        );
        for number in 0..=usize::from(changed) {
            let allowed: &[&str] = if number == 0 { &[] } else { &["--openings", "65535"] };
            let rows = text(&wattle(&[&["list", path(&grid), "--kind", "opened"], allowed].concat()).stdout);
            let due: Vec<String> = rows.lines().skip(1).enumerate().map(|(i, row)| option(i, row)).collect();
            let part = part(&page, number, true).unwrap();
            assert_eq!(part.matches("<option ").count(), due.len());
            assert!(due.iter().all(|option| part.contains(option)), "{due:?} in {part}");
        }
        both += usize::from(changed);
    }
    assert!(both >= 3, "the samples have bodies of both kinds");
}

/// The entry of an opening in the page's list, by its row in `wattle list`.
fn option(number: usize, row: &str) -> String {
    let cells: Vec<&str> = row.split(',').collect();
    let [x, y, z, i, _, _, k, m] = cells[..] else { panic!("{row}") };
    format!("<option value=\"{i}\">{}: ({x}, {y}, {z}), index {i}, k = {k}, m = {m}</option>", number + 1)
}

// ---- removals

/// A voxel that was removed, and the first of its faces across which no voxel was kept just before.
type Removal = (usize, Face);

/// Every removal of a file's body, in its order: one examination at a time, with an opening where nothing is pending.
fn removals(file: &[u8]) -> Vec<Removal> {
    let mut grid = Grid::from_file(file).expect("the file is taken");
    let (sides, mut made) = (grid.record().sides, Vec::new());
    loop {
        let before = grid.status().to_vec();
        if !grid.carve(1).expect("a begun grid is carved").pending && grid.status() == before && grid.open().is_err() {
            return made;
        }
        for i in (0..before.len()).filter(|&i| before[i] != GONE && grid.status()[i] == GONE) {
            let across = |face: &Face| {
                let [x, y, z] = face.step().map(isize::from);
                (i as isize + x + sides.a as isize * (y + sides.b as isize * z)) as usize
            };
            made.push((i, Face::ALL.into_iter().find(|face| before[across(face)] == GONE).expect("a bare face")));
        }
    }
}

/// The removals of each body of a page.
fn listed(page: &str) -> Vec<Vec<Removal>> {
    let texts = page.split("\"removals\": \"").skip(1).map(|rest| rest.split_once('"').expect("an end").0);
    let number = |bytes: &[u8]| u32::from_le_bytes(bytes.try_into().expect("four bytes"));
    let removal = |n: u32| (n as usize >> 3, Face::of(n & 7).expect("a face"));
    texts.map(|text| decoded(text).chunks(4).map(|four| removal(number(four))).collect()).collect()
}

#[test]
fn it_has_every_removal_with_its_side() {
    let mut faces = std::collections::BTreeSet::new();
    for grid in samples() {
        let (file, page) = (std::fs::read(&grid).unwrap(), page(&grid));
        let Ok(body) = carved(&file) else {
            assert_eq!(listed(&page), [[]], "a refused grid has none");
            continue;
        };
        let due: Vec<Vec<Removal>> =
            [file, freed(&grid)].iter().take(1 + page.matches("id=\"body\"").count()).map(|f| removals(f)).collect();
        assert_eq!(due[0].len() as u64, body.grid.record().removals);
        assert!(listed(&page) == due, "{}", grid.display());
        faces.extend(due.concat().iter().map(|(_, face)| *face));
    }
    assert_eq!(faces.len(), 6, "the samples have removals by every side");
}

/// Of a grid with pins, and of one that is too large to be carved so slowly.
#[test]
fn its_removals_hold_to_pins_and_are_left_out_of_large_grids() {
    let pins = format!("@{}", path(&common::sample("torus-1.pins")));
    let torus = text(&wattle(&["page", path(&common::sample("torus-1.grid")), "--pin", &pins]).stdout);
    let line = text(&wattle(&["carve", path(&common::sample("torus-1.grid")), "--pin", &pins]).stdout);
    assert!(line.contains(&format!(" removed {} ", listed(&torus)[0].len())), "{line}");
    for (side, some) in [(32, true), (33, false)] {
        let sides = [side, 32, 32];
        let page = text(&common::wattle_on(&["page", "-"], &common::grid_file(sides, 0, common::sphere(sides, 9.0))).stdout);
        assert_eq!(listed(&page).iter().map(|all| !all.is_empty()).collect::<Vec<_>>(), [some], "{side}");
    }
}

/// Without scripts there are the layers as `wattle look --png` draws them.
#[test]
fn it_has_a_picture_for_those_without_scripts() {
    for grid in samples() {
        let page = page(&grid);
        let (_, rest) = page.split_once("base64,").expect("a picture");
        let picture = decoded(rest.split_once('"').unwrap().0);
        assert!(picture == wattle(&["look", "--png", path(&grid)]).stdout, "{}", grid.display());
    }
}

fn decoded(base64: &str) -> Vec<u8> {
    let six = |letter: u8| match letter {
        b'A'..=b'Z' => letter - b'A',
        b'a'..=b'z' => letter - b'a' + 26,
        b'0'..=b'9' => letter - b'0' + 52,
        b'+' => 62,
        b'/' => 63,
        _ => panic!("no letter of base64"),
    };
    let (mut bytes, mut bits, mut count) = (Vec::new(), 0u32, 0);
    for letter in base64.trim_end_matches('=').bytes() {
        (bits, count) = (bits << 6 | u32::from(six(letter)), count + 6);
        if count >= 8 {
            count -= 8;
            bytes.push((bits >> count) as u8);
        }
    }
    bytes
}

#[test]
fn a_name_cannot_break_it() {
    let folder = common::folder("names");
    let grid = folder.join("a<b>&\"{{DATA}}\n.grid");
    std::fs::copy(common::sample("sphere.grid"), &grid).unwrap();
    let page = page(&grid);
    assert!(page.contains("<title>a&lt;b&gt;&amp;&quot;{{DATA}}?.grid: 12 x 12 x 12, T = 0 openings allowed</title>"), "{}", &page[..600]);
    assert_eq!(page.matches("\"sides\": ").count(), 1);
}

// ---- in a browser

/// The name of a Chromium, if one is there.
fn browser() -> Option<&'static str> {
    let names = ["chromium", "chromium-browser", "google-chrome"];
    let found = names.into_iter().find(|name| Command::new(name).arg("--version").output().is_ok_and(|o| o.status.success()));
    if found.is_none() {
        common::left_out("the page was not looked at in a browser, since Chromium (chromium) is not there");
    }
    found
}

/// A browser's word for a reader who likes it dark.
const DARK: &str = "--blink-settings=preferredColorScheme=0";

/// Opens a file in a browser without a network, by these words.
fn open(browser: &str, folder: &Path, file: &Path, words: &[&str]) -> Vec<u8> {
    let fixed = ["--headless", "--no-sandbox", "--disable-gpu", "--hide-scrollbars", "--no-first-run", "--disable-extensions"];
    // every name resolves to nothing, and colours are those of the page
    let closed = ["--host-resolver-rules=MAP * ~NOTFOUND", "--force-color-profile=srgb", "--virtual-time-budget=10000"];
    let profile = format!("--user-data-dir={}", path(&folder.join("profile")));
    let mut command = Command::new("timeout");
    command.args(["120", browser]).args(fixed).args(closed).arg(&profile).args(words).arg(format!("file://{}", path(file)));
    let output = command.output().expect("the browser runs");
    assert!(output.status.success(), "{}", text(&output.stderr));
    output.stdout
}

/// Written into the page's head: what goes wrong before the end is kept. A browser that only prints the page's end draws no frames, so
/// a clock stands in for them; the screenshot below has the browser's own.
const WATCH: &str = "<script>
window.requestAnimationFrame = (draw) => setTimeout(draw, 16);
const faults = [];
addEventListener('error', (e) => faults.push(e.message));
document.addEventListener('securitypolicyviolation', (e) => faults.push('asks for ' + e.blockedURI));
</script>";

/// Written at the page's end: uses it as a hand does.
const USE: &str = include_str!("use_page.js");

type Report = std::collections::HashMap<String, String>;

/// What using the page in a browser gave, by name.
fn used(browser: &str, name: &str, page: &str, words: &[&str]) -> Report {
    let folder = common::folder(name);
    let file = folder.join("page.html");
    let page = page.replacen("<title>", &format!("{WATCH}<title>"), 1).replacen("</body>", &format!("<script>{USE}</script></body>"), 1);
    std::fs::write(&file, page).unwrap();
    let dom = text(&open(browser, &folder, &file, &[words, &["--dump-dom"]].concat()));
    let report = dom.split_once("<pre id=\"report\">").unwrap_or_else(|| panic!("no report in {dom}")).1;
    let report = report.split_once("</pre>").expect("an end").0;
    report.lines().filter_map(|l| l.split_once(": ")).map(|(n, w)| (n.to_string(), w.to_string())).collect()
}

/// The colours of a layer across an axis.
fn layer_due(body: &Carved, axis: usize, at: usize) -> String {
    let sides = [body.sides.a, body.sides.b, body.sides.c];
    let (right, down) = [(1, 2), (0, 2), (0, 1)][axis];
    let mut colours = Vec::new();
    for v in 0..sides[down] {
        for u in 0..sides[right] {
            let mut place = [at; 3];
            (place[right], place[down]) = (u, v);
            let [r, g, b] = COLOURS[body.kinds[place[0] + sides[0] * (place[1] + sides[1] * place[2])] as usize];
            colours.push(format!("#{r:02x}{g:02x}{b:02x}"));
        }
    }
    colours.join(" ")
}

#[test]
fn a_browser_shows_every_layer_and_turns_the_points() {
    let Some(browser) = browser() else { return };
    for grid in samples() {
        let Ok(body) = carved(&std::fs::read(&grid).unwrap()) else {
            continue;
        };
        let name = grid.file_stem().unwrap().to_string_lossy().into_owned();
        let report = used(browser, &format!("page-{name}"), &page(&grid), &["--window-size=1200,900"]);
        assert_eq!((report["faults"].as_str(), report["dark"].as_str()), ("", "false"), "{name}");
        layers(&report, "", &body, &name);
        let removals = removals(&std::fs::read(&grid).unwrap());
        voxels(&report, &body, &removals);
        steps(&report, &body, &removals);
        assert_eq!((report["scrolled"].as_str(), report["hand"].as_str(), report["surface"].as_str()), ("1", "1", "true"));
        assert_eq!((report["letters"].as_str(), report["zoomed"].as_str()), ("true true", "1.25 1.56 1.25 1.00"), "{name}");
        assert_eq!(report["openings"], openings_due(&body, &removals), "{name}");
        if let Some(line) = report.get("free line") {
            let (free, removals) = (carved(&freed(&grid)).unwrap(), self::removals(&freed(&grid)));
            layers(&report, "free ", &free, &name);
            assert_eq!(report["free openings"], openings_due(&free, &removals), "{name}");
            assert!(line.starts_with("kept ") && !line.contains(','), "one line is shown: {line}");
        }
        cloud(&report, &name);
    }
}

/// Every layer along every axis, in its colours.
fn layers(report: &Report, which: &str, body: &Carved, name: &str) {
    for (axis, side) in [body.sides.a, body.sides.b, body.sides.c].into_iter().enumerate() {
        for at in 0..side {
            assert_eq!(report[&format!("{which}layer {axis} {at}")], layer_due(body, axis, at), "{name}, {which}axis {axis}, layer {at}");
        }
    }
}

/// How the page tells a voxel.
fn told(body: &Carved, removals: &[Removal], [x, y, z]: [usize; 3]) -> String {
    let i = x + body.sides.a * (y + body.sides.b * z);
    let value = if body.values[i] == MISSING { "missing".to_string() } else { format!("value {}", body.values[i]) };
    let name = common::NAMES.iter().find(|(kind, ..)| *kind == body.kinds[i]).unwrap().2;
    let turn = removals.iter().position(|(index, _)| *index == i);
    let removal = turn.map_or(String::new(), |turn| format!(", removal {}, out by {}", turn + 1, removals[turn].1));
    format!("({x}, {y}, {z}), index {i}: {value}, {name}{removal}")
}

fn place_of(body: &Carved, i: usize) -> [usize; 3] {
    let (a, b) = (body.sides.a, body.sides.b);
    [i % a, i / a % b, i / (a * b)]
}

/// Before the first removal all voxels of the box are there, those to go in grey. Each of the first twelve is told in its layer, and slides before it
/// is gone.
fn steps(report: &Report, body: &Carved, removals: &[Removal]) {
    let count = |made: usize| format!("{made} of {} removals", removals.len());
    let last = |made: usize| format!("{}, the last out by {}", count(made), removals[made - 1].1);
    assert_eq!((&report["removals"], &report["no removal"]), (&last(removals.len()), &count(0)));
    let z: usize = report["still to go in"].trim_start_matches("z = ").parse().unwrap();
    let mut layer: Vec<String> = layer_due(body, 2, z).split(' ').map(str::to_string).collect();
    for [x, y, _] in removals.iter().map(|(i, _)| place_of(body, *i)).filter(|place| place[2] == z) {
        layer[x + body.sides.a * y] = "#5d656f".to_string();
    }
    assert_eq!(report["still to go"], layer.join(" "));
    let place = |turn: usize| place_of(body, removals[turn].0);
    let line = |turn: usize| format!("{} in z = {}; {}", told(body, removals, place(turn)), place(turn)[2], last(turn + 1));
    let steps = 0..12.min(removals.len());
    assert!(report["each removal"].starts_with(&steps.clone().map(line).collect::<Vec<_>>().join(" | ")), "{}", report["each removal"]);
    assert_eq!((report["slides"].as_str(), report["jumps"].as_str()), (["true"; 12].join(" ").as_str(), "true"));
    let gone = |turn: usize| {
        let [r, g, b] = COLOURS[body.kinds[removals[turn].0] as usize];
        format!("#{r:02x}{g:02x}{b:02x}")
    };
    assert!(report["gone after"].starts_with(&steps.map(gone).collect::<Vec<_>>().join(" ")), "{}", report["gone after"]);
}

/// The voxel's line goes with the pointer, the layer and the keys, and is never that of a voxel which is not shown.
fn voxels(report: &Report, body: &Carved, removals: &[Removal]) {
    let told = |body, place| told(body, removals, place);
    let none = "Point at a voxel to read it.";
    assert_eq!((report["no voxel"].as_str(), report["voxel left"].as_str()), (none, none));
    assert_eq!((&report["voxel"], &report["voxel below"]), (&told(body, [7, 2, 4]), &told(body, [7, 2, 5])));
    // the first key holds the middle of layer 5
    let [x, y] = [body.sides.a, body.sides.b].map(|side| side / 2);
    assert_eq!(report["voxel by key"], told(body, [x - 1, y - 1, 4]));
    assert_eq!(report["voxel at the edge"], told(body, [body.sides.a - 1, y - 1, 4]));
}

/// What choosing each opening tells, one after the other.
fn openings_due(body: &Carved, removals: &[Removal]) -> String {
    let places = body.opened.iter().map(|&i| place_of(body, i));
    places.map(|place| format!("{} in z = {}", told(body, removals, place), place[2])).collect::<Vec<_>>().join("; ")
}

/// Each movement changes the picture of the points, a finger that was lifted does not, and a double click brings the first one back.
fn cloud(report: &Report, name: &str) {
    let seen = |word: &str| report[&format!("cloud {word}")].clone();
    let drawn: usize = seen("first").split_once(',').unwrap().1.parse().unwrap();
    assert!(drawn > 5000, "{name}: {drawn} pixels are drawn");
    assert!(seen("first") != seen("turned") && seen("turned") != seen("nearer") && seen("nearer") != seen("farther"), "{name}");
    assert!(seen("by key") != seen("farther"), "{name}");
    assert_eq!((seen("let go"), seen("again")), (seen("turned"), seen("first")), "{name}");
    assert_eq!(report["nearness"], "2", "two fingers twice as far apart");
    assert_eq!(report["follows"], "true true", "{name}");
}

#[test]
fn a_browser_shows_it_in_a_narrow_window_and_a_refused_grid() {
    let Some(browser) = browser() else { return };
    let narrow = used(browser, "page-narrow", &page(&common::sample("torus-1.grid")), &["--window-size=500,900"]);
    assert_eq!((narrow["faults"].as_str(), narrow["wide"].as_str()), ("", "true"));
    let refused = used(browser, "page-refused", &page(&common::sample("refused.grid")), &["--window-size=1200,900"]);
    assert_eq!((refused["faults"].as_str(), refused["surface"].as_str()), ("", "false"));
    let edge = refused["layer 2 5"].split(' ').filter(|c| *c == "#d55e00").count();
    assert_eq!(edge, 4, "four voxels of the layer lie on the edge");
}

/// A reader who wants things to stand still sees each removal at once.
#[test]
fn a_browser_slides_nothing_for_those_who_want_no_motion() {
    let Some(browser) = browser() else { return };
    let still = used(browser, "page-still", &page(&common::sample("torus-1.grid")), &["--force-prefers-reduced-motion"]);
    assert_eq!((still["faults"].as_str(), still["slides"].as_str()), ("", ["false"; 12].join(" ").as_str()));
}

/// What is pinned and what is discarded; in the dark what is gone is dark, and what is pinned white.
#[test]
fn a_browser_shows_pins_and_discarded_voxels_in_the_dark_too() {
    let Some(browser) = browser() else { return };
    let pins = format!("@{}", path(&common::sample("torus-1.pins")));
    let pinned = text(&wattle(&["page", path(&common::sample("torus-1.grid")), "--pin", &pins]).stdout);
    let apart = text(&common::wattle_on(&["page", "-"], &common::apart()).stdout);
    for (words, [gone, pin]) in [(&[][..], ["#e8eaed", "#000000"]), (&[DARK], ["#30353b", "#ffffff"])] {
        let [pinned, apart] = [&pinned, &apart].map(|page| used(browser, "page-dark", page, words));
        if (pinned["dark"] == "true") != (words == [DARK]) {
            return common::left_out("the page was not looked at in the dark, since this Chromium takes no word for it");
        }
        assert_eq!([&pinned["faults"], &apart["faults"]], ["", ""]);
        let count = |report: &Report, layer: &str, colour: &str| report[layer].split(' ').filter(|c| *c == colour).count();
        assert_eq!([count(&pinned, "layer 2 4", pin), count(&pinned, "layer 2 0", gone)], [14, 256]);
        assert_eq!([count(&apart, "layer 2 7", "#f0e442"), count(&apart, "layer 2 7", gone)], [2, 108]);
    }
}

/// A frame that lets no script run shows the picture of the layers.
#[test]
fn a_browser_without_scripts_shows_the_layers() {
    let Some(browser) = browser() else { return };
    let folder = common::folder("page-without-scripts");
    let (file, shot) = (folder.join("frame.html"), folder.join("shot.png"));
    std::fs::write(folder.join("page.html"), page(&common::sample("wet-glass.grid"))).unwrap();
    let frame =
        "<!doctype html><body style='margin: 0'><iframe sandbox src='page.html' style='border: 0; width: 1200px; height: 1200px'></iframe>";
    std::fs::write(&file, frame).unwrap();
    // a frame in a process of its own may be drawn too late
    let one_process = "--disable-features=IsolateSandboxedIframes";
    open(browser, &folder, &file, &[one_process, "--window-size=1200,1200", &format!("--screenshot={}", path(&shot))]);
    let (seen, drawn) = (std::fs::read(&shot).unwrap(), wattle(&["look", "--png", path(&common::sample("wet-glass.grid"))]).stdout);
    let [seen, drawn] = [seen, drawn].map(|file| common::png::parse(&file));
    // the key has a square of each too
    let counts = [1, 3].map(|kind: usize| (drawn.count(COLOURS[kind]), seen.count(COLOURS[kind])));
    assert!(counts.iter().all(|(drawn, seen)| (*drawn..drawn + 300).contains(seen)), "{counts:?}");
}

/// A picture of the whole window has the colours of the layer that is shown first, the one with the most filled voxels.
#[test]
fn a_screenshot_has_the_colours() {
    let Some(browser) = browser() else { return };
    let folder = common::folder("page-screenshot");
    let (file, shot) = (folder.join("page.html"), folder.join("shot.png"));
    std::fs::write(&file, page(&common::sample("wet-glass.grid"))).unwrap();
    open(browser, &folder, &file, &["--window-size=1200,1200", &format!("--screenshot={}", path(&shot))]);
    let picture = common::png::parse(&std::fs::read(&shot).unwrap());
    assert_eq!(picture.width, 1200);
    let [gone, inside, _, missing, ..] = COLOURS.map(|colour| picture.count(colour));
    // z = 6 has 9 voxels filled over missing points, and 82 inside
    assert!(missing > 5000 && inside > 8 * missing && gone > 5 * missing, "{gone} {inside} {missing}");
}
