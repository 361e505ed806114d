//! What the prover said of an edited crate.

use crate::edit::Law;
use std::fs;
use std::path::Path;

/// Words of an error that says that the proof no longer has the form that the code asks for, not that a fact fails.
const MISFIT: [&str; 5] =
    ["has no `", "has no field `", "is not a field of", "is not in scope", " components"];

/// Where a loop's invariants and measures are written, whose variables are those of the code: an error there is a misfit.
const LOOP: &str = "/Invariants.antt:";

/// Words of an error that only follows from another.
const FOLLOWS: [&str; 3] = ["was not admitted", "was rejected", "not checked"];

/// Words of a verdict by which a fact fails that the prover's tactics find by themselves in the right program.
const UNFOUND: &str = "did not prove";

/// Why a wrong definition does not count as refused; none where each law that it is to break does break by itself, on the line that is named.
pub fn law_objection(log: &str, laws: &[Law], folder: &Path) -> Option<String> {
    if laws.is_empty() {
        return Some("it names no law that it breaks".to_string());
    }
    if let Some(line) = log.lines().find(|line| is_error(line) && in_specs(line)) {
        return Some(format!("it is no definition: {}", short(line)));
    }
    laws.iter().find(|law| !breaks(log, law, folder)).map(|law| {
        format!("{} {} does not break by itself on a line with `{}`", law.file, law.name, law.words)
    })
}

/// Whether the prover has an error of a law's own, and no misfit, on a line that has the law's words.
fn breaks(log: &str, law: &Law, folder: &Path) -> bool {
    let source = fs::read_to_string(folder.join(&law.file)).unwrap_or_default();
    let lines: Vec<&str> = source.lines().collect();
    log.lines().filter(|line| is_error(line)).any(|line| {
        let (place, said) = line.split_once(": error: ").unwrap_or((line, ""));
        let mut parts = place.rsplitn(3, ':').skip(1);
        let number: usize = parts.next().and_then(|part| part.parse().ok()).unwrap_or(0);
        let file = parts.next().unwrap_or("");
        file.ends_with(&format!("/{}", law.file))
            && said.starts_with(&format!("`{}`: ", law.name))
            && !follows(said)
            && !MISFIT.iter().any(|words| said.contains(words))
            && number > 0
            && lines.get(number - 1).is_some_and(|text| text.contains(&law.words))
    })
}

/// Why a wrong program does not count as refused; none where a fact of its own function fails.
pub fn objection(log: &str, function: &str) -> Option<String> {
    match verdict(log, function) {
        None => return Some(format!("the prover does not speak of {function}")),
        Some(said) if said == "proved" => return Some(format!("{function} is proved")),
        Some(said) if said.starts_with("no proof") => {
            let fails = said.contains(UNFOUND);
            return (!fails).then(|| format!("no fact of {function} fails: {}", short(said)));
        }
        Some(_) => {}
    }
    let own: Vec<&str> =
        log.lines().filter(|line| is_error(line) && is_of(line, function)).collect();
    if let Some(line) =
        own.iter().find(|line| MISFIT.iter().chain([&LOOP]).any(|words| line.contains(words)))
    {
        return Some(format!("a misfit: {}", short(line)));
    }
    let fails = own.iter().any(|line| !follows(line));
    (!fails).then(|| format!("no fact of {function} fails"))
}

/// Whether an error only follows from another.
fn follows(line: &str) -> bool {
    FOLLOWS.iter().any(|words| line.contains(words))
}

/// The prover's verdict on a function.
fn verdict<'a>(log: &'a str, function: &str) -> Option<&'a str> {
    log.lines().find_map(|line| {
        let (path, said) = line.strip_prefix("fn ")?.split_once(": ")?;
        (path.rsplit("::").next() == Some(function)).then_some(said)
    })
}

/// Whether a line begins an error.
fn is_error(line: &str) -> bool {
    line.contains(": error: ")
}

/// Whether an error stands in a definition.
fn in_specs(line: &str) -> bool {
    line.split(": error: ").next().is_some_and(|place| place.contains("/specs/"))
}

/// Whether an error stands in a function's proof, alone or in a cycle of calls.
fn is_of(line: &str, function: &str) -> bool {
    let path = line.split(": error: ").next().unwrap_or("");
    path.split('/').any(|part| part.split('+').any(|name| name == function))
}

/// The first words of a line.
fn short(line: &str) -> String {
    let text = line.split(": error: ").nth(1).unwrap_or(line);
    text.chars().take(120).collect()
}

#[cfg(test)]
mod tests {
    use super::*;
    use std::path::PathBuf;

    /// A crate's folder with one file of proofs, whose third line is the clause of `keep` for a rule.
    fn folder(name: &str) -> PathBuf {
        let path = std::env::temp_dir().join(format!("must-fail-{name}-{}", std::process::id()));
        fs::create_dir_all(path.join("proofs")).expect("the folder is made");
        fs::write(path.join("proofs/Keep.antt"), "-- laws\nkeep : Fact\nkeep and-false = tt\n")
            .expect("the file is written");
        path
    }

    /// What is objected to a definition that is to break `keep` on the line of a rule, where the prover said this.
    fn objected(name: &str, words: &str, log: &str) -> bool {
        let path = folder(name);
        let law = Law { file: "proofs/Keep.antt".into(), name: "keep".into(), words: words.into() };
        let objection = law_objection(log, &[law], &path);
        fs::remove_dir_all(path).expect("the folder is removed");
        objection.is_some()
    }

    #[test]
    fn a_law_that_breaks_by_itself_counts() {
        assert!(!objected("own", "and-false", "./proofs/Keep.antt:3:5: error: `keep`: 1 ≟ 2"));
    }

    #[test]
    fn a_law_that_rests_on_another_does_not_count() {
        let log = "./proofs/Keep.antt:3:5: error: `keep`: `sound` was rejected, so";
        assert!(objected("follows", "and-false", log));
    }

    #[test]
    fn another_line_or_law_does_not_count() {
        let log = "./proofs/Keep.antt:3:5: error: `keep`: 1 ≟ 2";
        assert!(objected("line", "and-true", log));
        assert!(objected("law", "and-false", &log.replace("`keep`", "`kept`")));
        assert!(objected("file", "and-false", &log.replace("Keep", "Kept")));
    }

    #[test]
    fn a_misfit_does_not_count() {
        let log = "./proofs/Keep.antt:3:5: error: `keep`: record `R` has no field `x`";
        assert!(objected("misfit", "and-false", log));
    }

    #[test]
    fn a_definition_that_is_not_admitted_does_not_count() {
        let log = "./specs/Fit.antt:3:5: error: `Fit`: `tInt` is not in scope\n\
                   ./proofs/Keep.antt:3:5: error: `keep`: 1 ≟ 2";
        assert!(objected("specs", "and-false", log));
    }

    #[test]
    fn a_definition_that_names_no_law_does_not_count() {
        assert!(law_objection("", &[], Path::new(".")).is_some());
    }

    #[test]
    fn a_function_counts_where_a_fact_of_its_own_fails() {
        let own = "fn c::f: not proved\n./proofs/f/Answers.antt:3:5: error: `returns`: 1 ≟ 2";
        assert!(objection(own, "f").is_none());
        assert!(objection("fn c::f: proved", "f").is_some());
        assert!(objection("fn c::g: not proved", "f").is_some());
        assert!(objection("fn c::f: not proved; it calls `c::g`", "f").is_some());
    }

    #[test]
    fn a_fact_that_the_tactics_do_not_find_counts() {
        let said = "fn c::f: no proof: expected answers in ./proofs/f/Answers.antt; `search` did not prove `returns`";
        assert!(objection(said, "f").is_none());
        assert!(objection("fn c::f: no proof: it calls `c::g`, which is not proved", "f").is_some());
    }

    #[test]
    fn an_invariant_that_no_longer_reads_does_not_count() {
        let log = "fn c::f: not proved\n\
                   ./proofs/f/Invariants.antt:3:5: error: `loop`: 1 ≟ 2\n\
                   ./proofs/f/Answers.antt:3:5: error: `returns`: 1 ≟ 2";
        assert!(objection(log, "f").is_some());
    }
}
