//! The documents of the repository as text: their tables, fenced blocks, links and the code in
//! their backticks.

use std::collections::BTreeSet;
use std::fs;
use std::path::{Path, PathBuf};

use crate::program;
use crate::script;

/// The top of the repository.
pub fn top() -> PathBuf {
    Path::new(env!("CARGO_MANIFEST_DIR")).join("..")
}

/// A file of the repository by its path from the top.
pub fn read(path: &str) -> String {
    fs::read_to_string(top().join(path)).unwrap_or_else(|error| panic!("{path}: {error}"))
}

/// The documents by their paths from the top.
pub fn all() -> Vec<String> {
    let mut paths: Vec<String> =
        ["README.md", "tests/README.md", "bench/README.md"].map(str::to_string).to_vec();
    let listing = fs::read_dir(top().join("docs")).expect("docs/");
    let names = listing.flatten().map(|entry| entry.file_name().to_string_lossy().into_owned());
    let mut documents: Vec<String> =
        names.filter(|name| name.ends_with(".md")).map(|name| format!("docs/{name}")).collect();
    documents.sort();
    paths.extend(documents);
    paths
}

/// The text outside fenced blocks, line by line.
pub fn prose(text: &str) -> Vec<&str> {
    let mut fenced = false;
    let outside = |line: &&str| {
        let fence = line.trim_start().starts_with("```");
        fenced ^= fence;
        !fenced && !fence
    };
    text.lines().filter(outside).collect()
}

/// The fenced blocks of a kind.
pub fn blocks(text: &str, kind: &str) -> Vec<String> {
    let mut found = Vec::new();
    let mut lines = text.lines();
    while let Some(line) = lines.next() {
        if let Some(info) = line.trim_start().strip_prefix("```") {
            let block: Vec<&str> = lines.by_ref().take_while(|line| !is_fence(line)).collect();
            if info.trim() == kind {
                found.push(block.iter().map(|line| format!("{line}\n")).collect());
            }
        }
    }
    found
}

fn is_fence(line: &str) -> bool {
    line.trim_start().starts_with("```")
}

/// What stands between backticks in the prose.
pub fn quoted(text: &str) -> Vec<&str> {
    prose(text).into_iter().flat_map(|line| line.split('`').skip(1).step_by(2)).collect()
}

/// The targets of the links in the prose, except those in backticks.
pub fn links(text: &str) -> Vec<String> {
    let mut found = Vec::new();
    for line in prose(text) {
        let outside: String = line.split('`').step_by(2).collect::<Vec<_>>().join("`");
        for (at, _) in outside.match_indices("](") {
            let target = outside[at + 2..].split(')').next().unwrap_or_default();
            found.push(target.to_string());
        }
    }
    found
}

/// The anchors of the headings, as web pages make them: small letters, hyphens for spaces, no other
/// signs.
pub fn anchors(text: &str) -> BTreeSet<String> {
    let headings = prose(text).into_iter().filter(|line| line.starts_with('#'));
    let anchor = |heading: &str| -> String {
        let kept = heading.trim_start_matches('#').trim().to_lowercase();
        let kept = kept.chars().filter(|c| c.is_alphanumeric() || " -_".contains(*c));
        kept.map(|c| if c == ' ' { '-' } else { c }).collect()
    };
    headings.map(anchor).collect()
}

/// The headings of a level, with the text up to the next heading of that level or above.
pub fn sections(text: &str, level: usize) -> Vec<(String, String)> {
    let mut found: Vec<(String, String)> = Vec::new();
    let (mut open, mut fenced) = (false, false);
    for line in text.lines() {
        fenced ^= is_fence(line);
        let depth = line.chars().take_while(|c| *c == '#').count();
        if !fenced && (1..=level).contains(&depth) {
            open = depth == level;
            if open {
                found.push((line[depth..].trim().to_string(), String::new()));
            }
        } else if open {
            let (_, body) = found.last_mut().expect("a section is open");
            body.push_str(line);
            body.push('\n');
        }
    }
    found
}

/// The text under a heading.
pub fn section(text: &str, level: usize, heading: &str) -> String {
    let found = sections(text, level).into_iter().find(|(name, _)| name == heading);
    found.unwrap_or_else(|| panic!("no heading '{heading}'")).1
}

/// The cells of each row of each table in a text, without heads and rules.
pub fn rows(text: &str) -> Vec<Vec<String>> {
    let lines = prose(text);
    let is_rule = |line: &str| line.starts_with("|--") || line.starts_with("| --");
    let mut found = Vec::new();
    for (at, line) in lines.iter().enumerate() {
        let head = lines.get(at + 1).is_some_and(|next| is_rule(next));
        if line.starts_with('|') && !is_rule(line) && !head {
            let inner = line.trim().trim_start_matches('|').trim_end_matches('|');
            found.push(inner.split('|').map(|cell| cell.trim().to_string()).collect());
        }
    }
    found
}

/// Whether a text contains a name as a whole word.
pub fn has_word(text: &str, word: &str) -> bool {
    let in_name = |c: char| c.is_alphanumeric() || "_-′".contains(c);
    text.match_indices(word).any(|(at, _)| {
        let before = text[..at].chars().next_back();
        let behind = text[at + word.len()..].chars().next();
        !before.is_some_and(in_name) && !behind.is_some_and(in_name)
    })
}

// ---- the sample session ----

/// A step of a session: a line of a script, and the bytes that the program prints for it.
pub struct Step {
    pub script: String,
    pub printed: String,
}

/// The session in docs/COMMANDS.md: `> TEXT` is a line that is sent, `(STEP)` another step of a
/// script, and the lines after either are what is printed. A `#` starts a comment.
pub fn session() -> Vec<Step> {
    let text = read("docs/COMMANDS.md");
    let block = blocks(&text, "session").pop().expect("docs/COMMANDS.md has a session");
    let mut steps: Vec<Step> = Vec::new();
    for line in block.lines() {
        if let Some(sent) = line.strip_prefix("> ") {
            steps.push(Step { script: format!("line {sent}"), printed: String::new() });
        } else if let Some(other) = line.strip_prefix('(') {
            let script = other.split(')').next().unwrap_or_default().to_string();
            steps.push(Step { script, printed: String::new() });
        } else {
            let step = steps.last_mut().expect("a session begins with a step");
            step.printed.push_str(line);
            step.printed.push('\n');
        }
    }
    steps
}

/// Runs the session up to each of its steps; each must add what the document shows, byte for byte.
pub fn session_differs<F>(run: F) -> Result<(), String>
where
    F: Fn(&[u8]) -> Result<Vec<u8>, String>,
{
    let (mut source, mut wanted) = (String::new(), String::new());
    for step in session() {
        source.push_str(&step.script);
        source.push('\n');
        wanted.push_str(&step.printed);
        let printed = run(&script::parse(source.as_bytes())?.bytes())?;
        if printed != wanted.as_bytes() {
            let printed = String::from_utf8_lossy(&printed).into_owned();
            return Err(format!("up to '{}':\n{printed}and not\n{wanted}", step.script));
        }
    }
    Ok(())
}

/// The same for the reference model.
pub fn session_of_reference() -> Result<(), String> {
    session_differs(|input| Ok(program::run(input)))
}
