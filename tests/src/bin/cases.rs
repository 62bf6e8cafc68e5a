//! Runs all readable cases against a program: `cases PROGRAM [FOLDER]`.

use rack_tests::{cases, outside};
use std::path::Path;
use std::process::ExitCode;

fn main() -> ExitCode {
    let arguments: Vec<String> = std::env::args().skip(1).collect();
    let (program, folder) = match &arguments[..] {
        [program] => (program, cases::folder()),
        [program, folder] => (program, Path::new(folder)),
        _ => {
            eprintln!("usage: cases PROGRAM [FOLDER]");
            return ExitCode::from(2);
        }
    };
    let all = match outside::startable(program).and_then(|()| cases::load(folder)) {
        Ok(all) => all,
        Err(what) => {
            eprintln!("{what}");
            return ExitCode::from(2);
        }
    };
    let mut failed = 0;
    for case in &all {
        let verdict = match outside::run(program, &case.input) {
            Ok(printed) => cases::difference(case, &printed),
            Err(what) => Some(format!("{}: {what}", case.name)),
        };
        if let Some(what) = verdict {
            println!("FAILED {what}");
            failed += 1;
        }
    }
    println!("{} passed, {failed} failed", all.len() - failed);
    if failed == 0 {
        ExitCode::SUCCESS
    } else {
        ExitCode::FAILURE
    }
}
