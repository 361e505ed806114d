//! The wrong programs of an edit file: each has a name, the texts it replaces and the function whose text it changes.

use std::fs;
use std::io;
use std::path::Path;

/// One text replaced by another in a file of the crate.
struct Pair {
    file: String,
    old: String,
    new: String,
}

/// A proof that a wrong definition must break: a law in a file, and words of the line on which it breaks.
pub struct Law {
    pub file: String,
    pub name: String,
    pub words: String,
}

/// A wrong program.
pub struct Wrong {
    pub name: String,
    pub breaks: Vec<Law>,
    pairs: Vec<Pair>,
}

/// The wrong programs of an edit file: a comment `# NAME: sentence` begins one; a file without such a comment holds one, named as the file.
/// A comment `# breaks: FILE LAW WORDS` names a law that the program must break.
pub fn wrong_programs(text: &str, stem: &str) -> Vec<Wrong> {
    let mut found: Vec<Wrong> = Vec::new();
    let (mut file, mut old) = (String::new(), String::new());
    for line in text.lines() {
        if let Some(law) = line.strip_prefix("# breaks: ") {
            last(&mut found, stem).breaks.push(law_of(law));
        } else if let Some(comment) = line.strip_prefix("# ") {
            if let Some((name, _)) = comment.split_once(": ").filter(|(name, _)| is_name(name)) {
                found.push(Wrong::new(name));
            }
        } else if let Some(name) = line.strip_prefix("file: ") {
            file = name.to_string();
        } else if let Some(part) = line.strip_prefix("old: ") {
            old = part.to_string();
        } else if let Some(part) = line.strip_prefix("new:") {
            let new = part.strip_prefix(' ').unwrap_or(part).to_string();
            last(&mut found, stem).pairs.push(Pair { file: file.clone(), old: old.clone(), new });
        }
    }
    found
}

/// The wrong program that a line belongs to: the last one, or the only one of a file, which has the file's name.
fn last<'a>(found: &'a mut Vec<Wrong>, stem: &str) -> &'a mut Wrong {
    if found.is_empty() {
        found.push(Wrong::new(stem));
    }
    found.last_mut().expect("one was pushed")
}

/// The law of a comment's words: its file, its name, and what stands on the line that breaks.
fn law_of(text: &str) -> Law {
    let mut parts = text.splitn(3, ' ').map(str::to_string);
    let mut next = || parts.next().unwrap_or_default();
    Law { file: next(), name: next(), words: next() }
}

/// Whether a word can name a wrong program.
fn is_name(word: &str) -> bool {
    !word.is_empty() && word.chars().all(|c| c.is_ascii_alphanumeric() || c == '_')
}

impl Wrong {
    /// A program that changes nothing yet.
    fn new(name: &str) -> Wrong {
        Wrong { name: name.to_string(), breaks: Vec::new(), pairs: Vec::new() }
    }

    /// The function whose text is changed; none where the change is one of a definition. What is changed in a proof beside it, as the names of
    /// goals, is not looked at.
    pub fn function(&self, folder: &Path) -> io::Result<Option<String>> {
        let Some(at) = self.pairs.iter().rposition(|pair| !pair.file.starts_with("proofs/")) else {
            return Ok(None);
        };
        let last = &self.pairs[at];
        if !last.file.starts_with("src/") {
            return Ok(None);
        }
        let mut text = fs::read_to_string(folder.join(&last.file))?;
        for pair in &self.pairs[..at] {
            if pair.file == last.file {
                text = text.replacen(&pair.old, &pair.new, 1);
            }
        }
        Ok(text.find(&last.old).and_then(|at| function_before(&text[..at])))
    }
}

/// The name of the last function that begins in a text.
fn function_before(text: &str) -> Option<String> {
    text.lines().rev().find_map(|line| {
        let (before, after) = line.split_once("fn ")?;
        let is_head = before
            .split_whitespace()
            .all(|word| ["pub", "const", "extern", "\"C\""].contains(&word));
        let name: String =
            after.chars().take_while(|c| c.is_ascii_alphanumeric() || *c == '_').collect();
        (is_head && is_name(&name)).then_some(name)
    })
}
