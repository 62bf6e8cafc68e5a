//! The readable cases: each is a script with the output that the paper asks for beside it.

use std::fs;
use std::path::{Path, PathBuf};

use crate::script::{self, Script};

/// One case, from its two files.
pub struct Case {
    pub name: String,
    pub input: Vec<u8>,
    pub expected: Vec<u8>,
}

/// The folder of cases that came with this package.
pub fn folder() -> &'static Path {
    Path::new(concat!(env!("CARGO_MANIFEST_DIR"), "/cases"))
}

/// All cases of a folder, sorted by name.
pub fn load(folder: &Path) -> Result<Vec<Case>, String> {
    paths(folder)?.iter().map(|path| load_one(path)).collect()
}

/// The scripts of all cases by name, in the same order.
pub fn scripts(folder: &Path) -> Result<Vec<(String, Script)>, String> {
    paths(folder)?.iter().map(|path| Ok((name_of(path), script_of(path)?))).collect()
}

fn paths(folder: &Path) -> Result<Vec<PathBuf>, String> {
    let listing = fs::read_dir(folder).map_err(|error| format!("{}: {error}", folder.display()))?;
    let mut scripts: Vec<_> = listing.flatten().map(|entry| entry.path()).collect();
    scripts.retain(|path| path.extension().is_some_and(|end| end == "script"));
    scripts.sort();
    Ok(scripts)
}

fn name_of(path: &Path) -> String {
    path.file_stem().unwrap_or_default().to_string_lossy().into_owned()
}

fn script_of(path: &Path) -> Result<Script, String> {
    let wrong = |what: String| format!("{}: {what}", name_of(path));
    let source = fs::read(path).map_err(|error| wrong(error.to_string()))?;
    script::parse(&source).map_err(wrong)
}

fn load_one(path: &Path) -> Result<Case, String> {
    let name = name_of(path);
    let input = script_of(path)?.bytes();
    let expected = fs::read(path.with_extension("expected"));
    let expected = expected.map_err(|error| format!("{name}: no expected output: {error}"))?;
    Ok(Case { name, input, expected })
}

/// Where the output first differs from what was expected, in words; none if it does not differ.
pub fn difference(case: &Case, printed: &[u8]) -> Option<String> {
    if printed == case.expected {
        return None;
    }
    let wanted = String::from_utf8_lossy(&case.expected).into_owned();
    let got = String::from_utf8_lossy(printed).into_owned();
    let same = wanted.lines().zip(got.lines()).take_while(|(one, other)| one == other).count();
    let at = |text: &str| text.lines().nth(same).unwrap_or("(nothing)").to_string();
    Some(format!(
        "{}: output line {} should be {} and is {}",
        case.name,
        same + 1,
        at(&wanted),
        at(&got)
    ))
}
