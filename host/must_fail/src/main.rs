//! Reads what the prover said of each must-fail edit and holds it to each wrong program: refused in its own function, or in the law that a
//! wrong definition is to break, because a fact fails.
//! `must_fail ROOT`, after `tests/edits` in the repository ROOT.

mod edit;
mod log;

use std::fs;
use std::io;
use std::path::{Path, PathBuf};
use std::process::ExitCode;

/// The entries of a folder, in order; none where there is no such folder.
fn entries(folder: &Path) -> Vec<PathBuf> {
    let mut found: Vec<PathBuf> = match fs::read_dir(folder) {
        Ok(list) => list.flatten().map(|entry| entry.path()).collect(),
        Err(_) => Vec::new(),
    };
    found.sort();
    found
}

/// The last part of a path, without its ending.
fn stem(path: &Path) -> String {
    path.file_stem().map(|name| name.to_string_lossy().into_owned()).unwrap_or_default()
}

/// The objections to the wrong programs of one edit, and how many there are in it.
fn judge(root: &Path, folder: &Path, edit: &Path) -> io::Result<(usize, Vec<String>)> {
    let place = format!("{}/{}", stem(folder), stem(edit));
    let text = fs::read_to_string(edit)?;
    let log = fs::read_to_string(root.join("target/must-fail").join(format!("{place}.log")))?;
    let wrong = edit::wrong_programs(&text, &stem(edit));
    let mut objections = Vec::new();
    for program in &wrong {
        let objection = match program.function(folder)? {
            Some(function) => log::objection(&log, &function),
            None => log::law_objection(&log, &program.breaks, folder),
        };
        if let Some(reason) = objection {
            objections.push(format!("{place}, {}: {reason}", program.name));
        }
    }
    Ok((wrong.len(), objections))
}

fn main() -> ExitCode {
    let root = PathBuf::from(std::env::args().nth(1).unwrap_or_else(|| ".".to_string()));
    let (mut total, mut wanting) = (0, 0);
    for folder in entries(&root.join("crates")) {
        for edit in entries(&folder.join("must-fail")) {
            let (count, objections) = judge(&root, &folder, &edit)
                .unwrap_or_else(|error| (1, vec![format!("{}: {error}", edit.display())]));
            total += count;
            wanting += objections.len();
            objections.iter().for_each(|line| println!("{line}"));
        }
    }
    println!("wrong programs: {} refused because a fact fails, {wanting} not", total - wanting);
    if wanting == 0 && total > 0 {
        ExitCode::SUCCESS
    } else {
        ExitCode::FAILURE
    }
}
