//! docs/TRACE.md against the repository: each file that a row names exists and contains the names
//! listed after it, and each case exists.

use rack_tests::documents::{has_word, top};
use std::fs;

/// The cells of each row that has a definition, a statement and a test.
fn rows(text: &str) -> Vec<Vec<String>> {
    let is_row = |line: &&str| line.starts_with("| ") && !line.starts_with("| 01 says |");
    let cells = |line: &str| line.trim_matches('|').split(" | ").map(remarks_left_out).collect();
    text.lines().filter(is_row).map(cells).collect()
}

/// A cell without what it has in brackets, which is for the reader and names no place.
fn remarks_left_out(cell: &str) -> String {
    let mut depth = 0;
    let outside = |c: &char| {
        match c {
            '(' => depth += 1,
            ')' => depth -= 1,
            _ => return depth == 0,
        }
        false
    };
    cell.chars().filter(outside).collect()
}

/// What stands between backticks.
fn quoted(cell: &str) -> impl Iterator<Item = &str> {
    cell.split('`').skip(1).step_by(2)
}

fn is_file(name: &str) -> bool {
    [".antt", ".rt", ".rs", ".edit"].iter().any(|end| name.ends_with(end))
}

/// What a cell says about files that is not true: a path is below crates/, and the names up to the
/// next ; stand in its file.
fn wrong_places(cell: &str) -> Vec<String> {
    let mut wrong = Vec::new();
    for part in cell.split(';') {
        let mut text = None;
        for name in quoted(part) {
            if is_file(name) {
                let path = if name.starts_with("tests/") {
                    top().join(name)
                } else {
                    top().join("crates").join(name)
                };
                text = fs::read_to_string(path).ok();
                if text.is_none() {
                    wrong.push(format!("no file {name}"));
                }
            } else if text.as_ref().is_some_and(|text| !has_word(text, name)) {
                wrong.push(format!("no {name} in{part}"));
            }
        }
    }
    wrong
}

/// Names with hyphens in a last cell, outside the files' parts, that are not cases.
fn wrong_cases(cell: &str) -> Vec<String> {
    let is_case = |name: &&str| name.contains('-') && !name.contains('/');
    let there = |name: &&str| top().join("tests/cases").join(format!("{name}.script")).exists();
    quoted(cell)
        .filter(is_case)
        .filter(|name| !there(name))
        .map(|name| format!("no case {name}"))
        .collect()
}

#[test]
fn each_row_names_what_is_there() {
    let text = fs::read_to_string(top().join("docs/TRACE.md")).expect("docs/TRACE.md");
    let rows = rows(&text);
    assert!(rows.len() > 200, "only {} rows were read", rows.len());
    let mut wrong = Vec::new();
    for row in &rows {
        assert_eq!(row.len(), 4, "a row has four cells: {row:?}");
        wrong.extend(row.iter().flat_map(|cell| wrong_places(cell)));
        wrong.extend(wrong_cases(&row[3]));
    }
    assert!(wrong.is_empty(), "docs/TRACE.md:\n{}", wrong.join("\n"));
}
