//! The documents against the repository: links and paths lead somewhere, tables agree with the
//! definitions, the sample session runs, the scripts parse, and the crates are grouped alike.

use rack_tests::counts::units;
use rack_tests::documents::{
    all, anchors, blocks, has_word, links, quoted, read, rows, section, sections,
    session_of_reference, top,
};
use rack_tests::{leads, program, script};
use std::collections::{BTreeMap, BTreeSet};
use std::fs;
use std::path::{Path, PathBuf};

const README_ROOM: usize = 12 * 1024;

fn assert_none(wrong: Vec<String>) {
    assert!(wrong.is_empty(), "\n{}", wrong.join("\n"));
}

// ---- links and paths ----

#[test]
fn every_link_leads_somewhere() {
    let mut wrong = Vec::new();
    for document in all() {
        for link in links(&read(&document)) {
            let (path, anchor) = link.split_once('#').unwrap_or((&link, ""));
            let folder = Path::new(&document).parent().expect("a document stands in a folder");
            let target = match path {
                "" => PathBuf::from(&document),
                _ => folder.join(path),
            };
            let text = fs::read_to_string(top().join(&target)).ok();
            let there = text.is_some() || top().join(&target).is_dir();
            let anchored =
                anchor.is_empty() || text.is_some_and(|text| anchors(&text).contains(anchor));
            if !there || !anchored {
                wrong.push(format!("{document}: no {link}"));
            }
        }
    }
    assert_none(wrong);
}

/// The paths of all files and folders in the repository, from its top.
fn tree() -> BTreeSet<String> {
    let mut found = BTreeSet::new();
    let mut folders = vec![String::new()];
    while let Some(folder) = folders.pop() {
        for entry in fs::read_dir(top().join(&folder)).expect("a folder").flatten() {
            let name = entry.file_name().to_string_lossy().into_owned();
            let path = if folder.is_empty() { name } else { format!("{folder}/{name}") };
            if [".git", "target"].contains(&path.as_str()) {
                continue;
            }
            if entry.path().is_dir() {
                folders.push(path.clone());
            }
            found.insert(path);
        }
    }
    found
}

/// A word that can only be a path of the repository: it has a file's ending, or begins with a top
/// folder or a crate's folder. What is under target/ is generated, and is in no clone.
fn looks_like_a_path(word: &str, tree: &BTreeSet<String>) -> bool {
    let plain = |c: char| c.is_ascii_alphanumeric() || "_-./*".contains(c);
    let endings = [".antt", ".rt", ".rs", ".edit", ".script", ".md", ".txt"];
    let first = word.split('/').next().unwrap_or_default();
    let known = tree.contains(first) || tree.contains(&format!("crates/{first}"));
    word.chars().all(plain)
        && first != "target"
        && !endings.contains(&word)
        && ((word.contains('/') && known) || endings.iter().any(|ending| word.ends_with(ending)))
}

/// Whether a path, in which a * stands for anything, is one of the repository's, from its top or
/// from crates/ or from a crate, or the name of a file anywhere.
fn stands(word: &str, tree: &BTreeSet<String>) -> bool {
    let wanted = word.trim_end_matches('/');
    tree.iter().any(|path| {
        let mut ends = path.match_indices('/').map(|(at, _)| &path[at + 1..]);
        let inside = path.starts_with("crates/") || !wanted.contains('/');
        matches(path, wanted) || inside && ends.any(|end| matches(end, wanted))
    })
}

fn matches(text: &str, pattern: &str) -> bool {
    match pattern.split_once('*') {
        None => text == pattern,
        Some((before, behind)) => text.strip_prefix(before).is_some_and(|rest| {
            let mut tails = rest.char_indices().map(|(at, _)| &rest[at..]).chain([""]);
            tails.any(|tail| matches(tail, behind))
        }),
    }
}

#[test]
fn every_path_in_backticks_is_there() {
    let (tree, mut wrong) = (tree(), Vec::new());
    for document in all() {
        let text = read(&document);
        for word in quoted(&text).into_iter().flat_map(str::split_whitespace) {
            let word = word.trim_start_matches(['<', '>']).trim_start_matches("./");
            let word = word.trim_end_matches([',', ';', ':', '.', ')']).replace("NAME", "*");
            if looks_like_a_path(&word, &tree) && !stands(&word, &tree) {
                wrong.push(format!("{document}: no {word}"));
            }
        }
    }
    assert_none(wrong);
}

#[test]
fn paths_are_told_apart() {
    let tree = tree();
    for good in [
        "crates/acts/src/lib.rt",
        "acts/src/lib.rt",
        "tests/cases/model-*",
        "lib.rt",
        "crates.txt",
        "specs/",
    ] {
        assert!(stands(good, &tree), "{good}");
    }
    for bad in ["crates/acts/src/nothing.rt", "tests/cases/nothing-*", "nothing.rt", "docs/lib.rt"]
    {
        assert!(looks_like_a_path(bad, &tree) && !stands(bad, &tree), "{bad}");
    }
    for other in ["PV", "19/20", "target/bin/controller", "and/or", ".rt"] {
        assert!(!looks_like_a_path(other, &tree), "{other}");
    }
}

// ---- docs/PROVED.md ----

/// All sources of a crate in one text.
fn sources(name: &str, tree: &BTreeSet<String>) -> String {
    let start = format!("crates/{name}/");
    let source = |path: &&String| {
        path.starts_with(&start) && (path.ends_with(".antt") || path.ends_with(".rt"))
    };
    tree.iter().filter(source).map(|path| read(path)).collect()
}

#[test]
fn every_name_that_is_proved_stands_in_a_crate_of_its_row() {
    let (tree, mut wrong, mut names) = (tree(), Vec::new(), 0);
    for row in rows(&read("docs/PROVED.md")) {
        let [_, places, what] = &row[..] else { panic!("a row has three cells: {row:?}") };
        let both = format!("{places} {what}");
        let paths = quoted(&both).into_iter().filter(|word| word.contains('/'));
        let crates: BTreeSet<&str> = paths.filter_map(|path| path.split('/').next()).collect();
        let text: String = crates.iter().map(|name| sources(name, &tree)).collect();
        for name in quoted(what).into_iter().filter(|word| !word.contains('/')) {
            names += 1;
            if !has_word(&text, name) {
                wrong.push(format!("no {name} in {crates:?}"));
            }
        }
    }
    assert!(names > 100, "only {names} names were read");
    assert_none(wrong);
}

// ---- docs/COMMANDS.md ----

/// The words of a kind of command in the definitions, with what follows the kind.
fn words_of(kind: &str) -> BTreeMap<String, String> {
    let text = read("crates/asks/specs/Words.antt");
    let mut found = BTreeMap::new();
    for line in text.lines().filter_map(|line| line.trim().strip_prefix("(codes \"")) {
        let (word, rest) = line.split_once("\", ").expect("a word and what it is");
        let (what, _) = rest.split_once(") ∷").expect("a row of the table");
        if let Some(what) = what.strip_prefix(kind) {
            found.insert(word.to_string(), what.trim().trim_matches(['(', ')']).to_string());
        }
    }
    assert!(!found.is_empty(), "no {kind} in the definitions");
    found
}

/// What is defined for an argument by a line `name argument = value`.
fn defined(text: &str, name: &str, argument: &str) -> String {
    let start = format!("{name} {argument} = ");
    let value = text.lines().find_map(|line| line.strip_prefix(&start));
    value.unwrap_or_else(|| panic!("no line '{start}'")).to_string()
}

/// What an order takes, in the words of the page.
fn taken_by(order: &str) -> String {
    let text = read("crates/asks/specs/Words.antt");
    let kind = match order.strip_prefix("set ") {
        Some(target) => format!("number {}", defined(&text, "decimals_of", target)),
        None => defined(&text, "kind_of_order", order),
    };
    let words = match kind.as_str() {
        "bare" => "none",
        "number 4" => "volts",
        "number 3" => "amperes",
        "switch 1" => "`0` or `1`",
        "switch 2" => "`0`, `1` or `2`",
        "hex" => "two hexadecimal digits",
        _ => panic!("a kind that the page does not know: {kind}"),
    };
    words.to_string()
}

/// The first word of each first cell in the tables of a section, with the second cell.
fn page_words(heading: &str) -> BTreeMap<String, String> {
    let body = section(&read("docs/COMMANDS.md"), 2, heading);
    let mut found = BTreeMap::new();
    for row in rows(&body) {
        let first = quoted(&row[0]).first().map(|text| text.to_string()).expect("a command");
        let word = first.split(' ').next().unwrap_or_default().to_string();
        assert!(found.insert(word, row[1].clone()).is_none(), "{first} stands there twice");
    }
    found
}

#[test]
fn the_page_has_every_order_with_what_it_takes() {
    for (heading, kind) in [("Orders", "to_one"), ("Orders to every supply", "to_all")] {
        let wanted: BTreeMap<String, String> =
            words_of(kind).into_iter().map(|(word, order)| (word, taken_by(&order))).collect();
        assert_eq!(page_words(heading), wanted, "{heading}");
    }
}

#[test]
fn the_page_has_every_query_and_adr() {
    let names = |words: BTreeMap<String, String>| words.into_keys().collect::<Vec<_>>();
    assert_eq!(names(page_words("Queries")), names(words_of("of_one")));
    assert_eq!(names(page_words("Selecting a supply")), names(words_of("selecting")));
}

#[test]
fn the_page_has_every_error_code() {
    let mut wanted = BTreeSet::new();
    for path in ["crates/parameters/specs/Parameters.antt", "crates/supply/specs/State.antt"] {
        for name in read(path).lines().filter_map(|line| line.strip_prefix("abbrev pub ")) {
            let name = name.split(' ').next().unwrap_or_default();
            let is_code = name.len() == 3
                && name.starts_with(['c', 'e'])
                && name[1..].bytes().all(|digit| digit.is_ascii_digit());
            wanted.extend(is_code.then(|| name.to_uppercase()));
        }
    }
    assert_eq!(page_words("Error codes").into_keys().collect::<BTreeSet<_>>(), wanted);
}

#[test]
fn the_page_has_the_limits_of_every_model() {
    let text = read("crates/models/specs/Models.antt");
    let figures = |line: &str| -> Vec<i64> {
        line.split(' ').map(|word| word.parse().expect("a figure")).collect()
    };
    let of_table = |line: &str| {
        let row = line.trim().strip_prefix("limits_are ")?.strip_suffix(" ∷")?;
        Some(figures(row))
    };
    let wanted: Vec<Vec<i64>> = text.lines().filter_map(of_table).collect();
    let page = rows(&section(&read("docs/COMMANDS.md"), 2, "Models"));
    assert_eq!((page.len(), wanted.len()), (12, 12));
    for (number, (row, limits)) in page.iter().zip(&wanted).enumerate() {
        let volts = |at: usize| units(&row[at], 4).unwrap_or_else(|| panic!("{row:?}"));
        let amperes = |at: usize| units(&row[at], 3).unwrap_or_else(|| panic!("{row:?}"));
        assert_eq!(row[0], number.to_string());
        assert_eq!([volts(1), amperes(2), volts(5), volts(6), volts(7)], limits[..], "{row:?}");
        assert_eq!(100 * volts(3), 105 * limits[0], "{row:?}");
        assert_eq!(100 * amperes(4), 105 * limits[1], "{row:?}");
    }
}

#[test]
fn the_page_has_every_gauge() {
    let number = |cell: &String| cell.parse::<u64>().expect("a number");
    let page = rows(&section(&read("docs/LEADS.md"), 2, "What it answers"));
    let table: Vec<(u64, u64)> =
        page.iter().map(|row| (number(&row[0]), number(&row[1]))).collect();
    assert_eq!(table, leads::TABLE);
}

/// The lines of a section's examples with their replies.
fn examples(heading: &str) -> Vec<(String, String)> {
    let body = section(&read("docs/COMMANDS.md"), 2, heading);
    let example = |row: &Vec<String>| match quoted(row.last().expect("a cell"))[..] {
        [line, reply] => (line.to_string(), reply.to_string()),
        _ => panic!("no example: {row:?}"),
    };
    rows(&body).iter().map(example).collect()
}

fn assert_examples(heading: &str, before: &str) {
    let examples = examples(heading);
    let lines: String = examples.iter().map(|(line, _)| format!("line {line}\n")).collect();
    let printed = |source: &str| {
        program::run(
            &script::parse(source.as_bytes()).unwrap_or_else(|what| panic!("{what}")).bytes(),
        )
    };
    let wanted: String = examples.iter().map(|(_, reply)| format!("{reply}\n")).collect();
    let all = printed(&format!("{before}{lines}"));
    let replies = all.strip_prefix(&printed(before)[..]).expect("what was printed stays");
    assert_eq!(String::from_utf8_lossy(replies), wanted, "{heading}");
}

#[test]
fn the_examples_are_what_the_model_replies() {
    let selected = "fit 6 0\nline ADR 6\n";
    let settings =
        "line PV 5\nline PC 10\nline OVP 5.5\nline FENA 18\nline OUT 1\nsample 6 4.8V 9A\n";
    assert_examples("Selecting a supply", "fit 6 0\n");
    assert_examples("Orders", selected);
    assert_examples("Queries", &format!("{selected}{settings}"));
}

#[test]
fn the_session_is_what_the_model_prints() {
    session_of_reference().unwrap_or_else(|what| panic!("the reference prints {what}"));
}

// ---- the other documents ----

#[test]
fn every_script_in_a_document_parses() {
    let mut count = 0;
    for document in all() {
        for block in blocks(&read(&document), "script") {
            count += 1;
            script::parse(block.as_bytes()).unwrap_or_else(|what| panic!("{document}: {what}"));
        }
    }
    assert!(count > 0);
}

#[test]
fn the_readme_stays_short() {
    let bytes = read("README.md").len();
    assert!(bytes <= README_ROOM, "README.md has {bytes} bytes, and {README_ROOM} are its room");
}

/// The layers of crates.txt, each with its crates: a comment `# layer NAME: ..` begins one. A static
/// library has that word behind its name.
fn layers() -> Vec<(String, Vec<String>)> {
    let mut found: Vec<(String, Vec<String>)> = Vec::new();
    for line in read("crates.txt").lines() {
        if let Some(head) = line.strip_prefix("# layer ") {
            let name = head.split(':').next().unwrap_or_default();
            found.push((name.to_string(), Vec::new()));
        } else if !line.starts_with('#') && line.contains(':') {
            let (_, crates) = found.last_mut().expect("a crate stands in a layer");
            crates.push(line.split([' ', ':']).next().unwrap_or_default().to_string());
        }
    }
    found
}

#[test]
fn crates_are_grouped_alike() {
    let mut of_page = Vec::new();
    for (heading, body) in sections(&read("docs/CRATES.md"), 3) {
        let names = rows(&body).into_iter().map(|row| row[0].trim_matches('`').to_string());
        of_page.push((
            heading.trim_start_matches("Layer ").trim_matches('`').to_string(),
            names.collect(),
        ));
    }
    assert_eq!(layers(), of_page);
}

/// The crates of each layer in README's picture: after the layer's name, and on the line below if
/// they continue there.
#[test]
fn the_picture_has_every_crate_in_its_layer() {
    let readme = read("README.md");
    let names: BTreeSet<String> = layers().into_iter().flat_map(|(_, crates)| crates).collect();
    let picture = blocks(&readme, "text").pop().expect("README.md has a picture");
    let mut found: BTreeMap<String, Vec<String>> = BTreeMap::new();
    let mut layer = String::new();
    for line in picture.lines().skip(1).filter(|line| line.len() > 18) {
        let (head, rest) = line.split_at(18);
        let named = head.get(9..).unwrap_or_default().trim();
        if !named.is_empty() {
            layer = named.to_string();
        }
        let crates = rest.split("  ").next().unwrap_or_default().split_whitespace();
        assert!(crates.clone().all(|name| names.contains(name)), "{line}");
        found.entry(layer.clone()).or_default().extend(crates.map(str::to_string));
    }
    assert_eq!(found, layers().into_iter().collect());
}

#[test]
fn every_crate_has_a_line_and_a_folder() {
    let listed: BTreeSet<String> = layers().into_iter().flat_map(|(_, crates)| crates).collect();
    let folders = fs::read_dir(top().join("crates")).expect("crates/").flatten();
    let there: BTreeSet<String> =
        folders.map(|entry| entry.file_name().to_string_lossy().into_owned()).collect();
    assert_eq!(listed, there);
}

/// Whoever opens a crate reads its layer first.
#[test]
fn every_crate_names_its_layer_first() {
    let mut wrong = Vec::new();
    for (layer, crates) in layers() {
        for name in crates {
            let source = format!("crates/{name}/src");
            let file = ["lib.rt", "main.rt"].map(|file| format!("{source}/{file}"));
            let file = file.iter().find(|file| top().join(file).exists()).expect("a source");
            if read(file).lines().next() != Some(&format!("// Layer {layer}.")) {
                wrong.push(format!("{file}: its first line is not '// Layer {layer}.'"));
            }
        }
    }
    assert_none(wrong);
}
