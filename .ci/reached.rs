//! Lists the definitions of crates/*/specs that no contract reaches. A theorem counts only where a contract names it, so a
//! definition that only proofs use belongs to the proofs: in specs/ a reader would take it for promised.
//! A name counts as reached where it stands in a clause, a ghost field or a ghost member of a source, or in a definition
//! that is reached. The code and its comments do not count, nor does an import: functions and definitions share names.
use std::collections::{HashMap, HashSet};
use std::fs;
use std::path::{Path, PathBuf};

fn files(dir: &Path, ending: &str, found: &mut Vec<PathBuf>) {
    let Ok(entries) = fs::read_dir(dir) else { return };
    for entry in entries.flatten() {
        let path = entry.path();
        if path.is_dir() {
            files(&path, ending, found);
        } else if path.extension().is_some_and(|e| e == ending) {
            found.push(path);
        }
    }
}

fn words(text: &str) -> impl Iterator<Item = &str> {
    text.split(|c: char| c.is_whitespace() || "(){};,.@⌜⌝«»".contains(c)).filter(|w| !w.is_empty())
}

/// The name that a line defines, and whether others can cite it.
fn defined(line: &str) -> Option<(&str, bool)> {
    let code = line.trim_start();
    if let Some(rest) = ["abbrev pub ", "unfoldable pub ", "pub record ", "pub data ", "pub "].iter().find_map(|p| code.strip_prefix(p)) {
        let name = words(rest).next()?;
        return (name != "mod" && name != "use").then_some((name, true));
    }
    // a definition of the file's own, such as a lemma on the way to a law of an impl
    let rest = ["abbrev ", "record ", "data "].iter().find_map(|p| code.strip_prefix(p)).unwrap_or(code);
    let (name, _) = rest.split_once(" : ")?;
    let name = if rest.len() < code.len() { words(name).next()? } else { name };
    (!name.is_empty() && !name.contains(|c: char| c.is_whitespace() || "(){}".contains(c))).then_some((name, false))
}

/// The clauses, ghost fields and ghost members of a source, with what they import under another name by its own.
fn clauses(text: &str, found: &mut Vec<String>) {
    let mut others: HashMap<&str, &str> = HashMap::new();
    let mut depth = 0;
    for line in text.lines() {
        let code = line.split("//").next().unwrap_or("");
        let start = code.trim_start();
        if start.starts_with("ghost use ") {
            let parts: Vec<&str> = words(code).collect();
            others.extend(parts.windows(3).filter(|w| w[1] == "as").map(|w| (w[2], w[0])));
        } else if depth > 0 || ["ghost ", "requires ", "ensures "].iter().any(|k| start.starts_with(k)) {
            found.extend(words(code).map(|w| others.get(w).copied().unwrap_or(w).to_string()));
            depth += code.matches('{').count() as i32 - code.matches('}').count() as i32;
        }
    }
}

fn main() {
    let crates: Vec<PathBuf> = fs::read_dir("crates").expect("crates/ is there").flatten().map(|e| e.path()).collect();
    let mut bodies: HashMap<String, String> = HashMap::new();
    let mut places: Vec<(String, PathBuf)> = Vec::new();
    let mut promised: Vec<String> = Vec::new();
    for dir in &crates {
        let mut found = Vec::new();
        files(&dir.join("src"), "rt", &mut found);
        for path in found {
            clauses(&fs::read_to_string(&path).expect("a source is text"), &mut promised);
        }
        let mut found = Vec::new();
        files(&dir.join("specs"), "antt", &mut found);
        for path in found {
            let text = fs::read_to_string(&path).expect("a spec is text");
            let mut current: Option<String> = None;
            for line in text.lines() {
                let code = line.split("--").next().unwrap_or("");
                if line.trim().is_empty() {
                    current = None;
                } else if current.is_none() || !line.starts_with(' ') {
                    // an indented line after another is a field of a record, or a part of a definition
                    if let Some((name, public)) = defined(code) {
                        if public {
                            places.push((name.to_string(), path.clone()));
                        }
                        current = Some(name.to_string());
                    }
                }
                if let Some(name) = &current {
                    bodies.entry(name.clone()).or_default().push_str(&format!("{code}\n"));
                }
            }
        }
    }
    let mut reached: HashSet<&str> = HashSet::new();
    let mut todo: Vec<&str> = promised.iter().map(String::as_str).collect();
    while let Some(name) = todo.pop() {
        if let Some((name, body)) = bodies.get_key_value(name) {
            if reached.insert(name) {
                todo.extend(words(body));
            }
        }
    }
    let lost: Vec<_> = places.iter().filter(|(name, _)| !reached.contains(name.as_str())).collect();
    for (name, path) in &lost {
        println!("{}: no contract reaches {name}", path.display());
    }
    assert!(places.len() >= 200, "only {} definitions were found", places.len());
    std::process::exit(i32::from(!lost.is_empty()));
}
