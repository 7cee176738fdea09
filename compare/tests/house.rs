//! What a reader of the repository goes by, held against its files: what is to
//! be believed uses nothing that private functions keep, README lists every
//! definition in the order to read them, every promise has its row, and pages
//! name files, edits and fields that are there.

use std::collections::{BTreeMap, BTreeSet};
use std::fs;
use std::path::{Path, PathBuf};

const README: &str = include_str!("../../README.md");
const PROMISES: &str = include_str!("../../docs/PROMISES.md");
const DECISIONS: &str = include_str!("../../docs/DECISIONS.md");

fn root() -> PathBuf {
    Path::new(env!("CARGO_MANIFEST_DIR")).join("..")
}

/// The entries of a folder, which may be missing.
fn entries(folder: &Path) -> Vec<PathBuf> {
    let Ok(entries) = fs::read_dir(folder) else {
        return Vec::new();
    };
    let mut paths: Vec<_> = entries
        .map(|entry| entry.expect("an entry").path())
        .collect();
    paths.sort();
    paths
}

fn crates() -> Vec<PathBuf> {
    entries(&root().join("crates"))
}

fn read(path: &Path) -> String {
    fs::read_to_string(path).unwrap_or_else(|fault| panic!("{}: {fault}", path.display()))
}

fn stem(path: &Path) -> String {
    let stem = path.file_stem().expect("a file");
    stem.to_string_lossy().into_owned()
}

/// A crate's files of definitions and statements, the lists of modules aside.
fn believed(folder: &Path) -> Vec<PathBuf> {
    let mut files = entries(&folder.join("specs"));
    files.retain(|path| path.is_file() && !["Lib", "Kept"].contains(&stem(path).as_str()));
    files
}

/// What stands between backquotes.
fn quoted(text: &str) -> impl Iterator<Item = &str> {
    text.split('`').skip(1).step_by(2)
}

#[test]
fn what_is_believed_uses_nothing_that_is_kept() {
    let mut count = 0;
    for folder in crates() {
        let mut files = believed(&folder);
        files.push(folder.join("src/promises.rt"));
        if folder.ends_with("panel") {
            files.push(folder.join("src/lib.rt"));
        }
        for file in files.iter().filter(|file| file.exists()) {
            let text = read(file);
            let kept = text.lines().find(|line| line.contains(".specs.Kept."));
            assert_eq!(kept, None, "{}", file.display());
            count += 1;
        }
    }
    assert!(count > 60, "only {count} files");
}

/// The rows of README's table of definitions: a crate, then files in order.
#[test]
fn readme_lists_every_definition_once() {
    let (_, behind) = README
        .split_once("| Crate | Definitions |")
        .expect("the table of definitions");
    let rows = behind
        .lines()
        .skip(2)
        .take_while(|line| line.starts_with('|'));
    let mut listed = Vec::new();
    for row in rows {
        let mut names = quoted(row);
        let name = names.next().expect("a crate");
        listed.extend(names.map(|file| format!("{name}/{file}")));
    }
    let mut files = Vec::new();
    for folder in crates() {
        files.extend(
            believed(&folder)
                .iter()
                .map(|file| format!("{}/{}", stem(&folder), stem(file))),
        );
    }
    listed.sort();
    assert_eq!(listed, files);
}

#[test]
fn every_promise_is_listed() {
    let named: BTreeSet<_> = quoted(PROMISES).collect();
    let mut count = 0;
    for file in crates().iter().map(|folder| folder.join("src/promises.rt")) {
        let text = if file.exists() { read(&file) } else { continue };
        for name in text.split("pub fn ").skip(1) {
            let name = name.split('(').next().expect("a name");
            assert!(named.contains(name), "{name} has no row");
            count += 1;
        }
    }
    assert!(count > 40, "only {count} promises");
}

/// The paths that a word stands for, with one pair of braces in it at the most.
fn spelled_out(word: &str) -> Vec<String> {
    let Some((front, rest)) = word.split_once('{') else {
        return vec![word.to_string()];
    };
    let (choices, back) = rest.split_once('}').expect("a closing brace");
    choices
        .split(',')
        .map(|choice| format!("{front}{choice}{back}"))
        .collect()
}

/// Whether a word is a path below one of the repository's folders.
fn is_path(word: &str, folders: &BTreeSet<String>) -> bool {
    let plain = |c: char| c.is_ascii_alphanumeric() || "_./{},-".contains(c);
    word.chars().all(plain)
        && word
            .split_once('/')
            .is_some_and(|(front, _)| folders.contains(front))
}

/// Paths stand in the repository or below `crates`; an edit without its ending.
fn is_there(path: &str) -> bool {
    let edit = format!("{path}.edit");
    let tries = [path, &edit].map(|file| [root().join(file), root().join("crates").join(file)]);
    tries.as_flattened().iter().any(|file| file.exists())
}

#[test]
fn pages_name_what_is_there() {
    let mut folders: BTreeSet<_> = crates().iter().map(|path| stem(path)).collect();
    folders.extend(
        [
            "crates", "compare", "mutants", "docs", "examples", "include",
        ]
        .map(String::from),
    );
    let mut count = 0;
    for word in [README, PROMISES, DECISIONS].into_iter().flat_map(quoted) {
        if is_path(word, &folders) {
            for path in spelled_out(word) {
                assert!(is_there(&path), "{path}");
                count += 1;
            }
        }
    }
    assert!(count > 200, "only {count} paths");
}

/// The names of a record's fields or of a type's constructors: the lines under
/// it that are indented further and declare one.
fn declared_under<'a>(lines: impl Iterator<Item = &'a str>, indent: usize) -> BTreeSet<&'a str> {
    let depth = |line: &str| line.len() - line.trim_start().len();
    lines
        .filter(|line| !line.trim().is_empty())
        .take_while(|line| depth(line) > indent)
        .filter(|line| depth(line) == indent + 2)
        .filter_map(|line| line.trim().trim_start_matches("pub ").split_once(" : "))
        .map(|(name, _)| name)
        .collect()
}

/// Every record and inductive type of the definitions and statements, with what
/// it declares. A name may stand in several crates.
fn declarations(texts: &[String]) -> BTreeMap<&str, Vec<BTreeSet<&str>>> {
    let mut found: BTreeMap<_, Vec<_>> = BTreeMap::new();
    for text in texts {
        for (at, line) in text.lines().enumerate() {
            let plain = line.trim_start();
            let word = ["pub record ", "pub data "]
                .into_iter()
                .find_map(|kind| plain.strip_prefix(kind));
            let Some(name) = word.and_then(|rest| rest.split_whitespace().next()) else {
                continue;
            };
            let indent = line.len() - plain.len();
            let below = declared_under(text.lines().skip(at + 1), indent);
            found.entry(name).or_default().push(below);
        }
    }
    found
}

/// `a`, `b` and `c` of `Record`: each record so named, with the names before it.
fn cited_fields(page: &str) -> Vec<(&str, Vec<&str>)> {
    let is_record = |word: &str| word.starts_with(|c: char| c.is_ascii_uppercase());
    let parts: Vec<_> = page.split('`').collect();
    let mut cited = Vec::new();
    for at in (3..parts.len()).step_by(2) {
        if !is_record(parts[at]) || parts[at - 1] != " of " {
            continue;
        }
        let mut front = at - 2;
        let mut names = vec![parts[front]];
        while front > 2
            && [", ", " and "].contains(&parts[front - 1])
            && !is_record(parts[front - 2])
        {
            front -= 2;
            names.push(parts[front]);
        }
        cited.push((parts[at], names));
    }
    cited
}

#[test]
fn cited_fields_are_there() {
    let texts: Vec<_> = crates()
        .iter()
        .flat_map(|folder| believed(folder))
        .map(|file| read(&file))
        .collect();
    let declared = declarations(&texts);
    let mut count = 0;
    for (record, names) in cited_fields(PROMISES) {
        let places = declared
            .get(record)
            .unwrap_or_else(|| panic!("no record {record}"));
        for name in &names {
            let there = places.iter().any(|fields| fields.contains(name));
            assert!(there, "{record} has no {name}");
        }
        count += names.len();
    }
    assert!(count > 80, "only {count} fields");
}

/// In a cell, names behind an edit's path are further edits of its folder.
#[test]
fn pages_name_edits_that_are_there() {
    let is_edit = |word: &str| word.contains("must-fail/") || word.starts_with("mutants/");
    let is_name = |word: &str| {
        word.chars()
            .all(|c| c.is_ascii_lowercase() || c.is_ascii_digit() || c == '_')
    };
    let mut count = 0;
    for cell in PROMISES
        .lines()
        .filter(|line| line.starts_with('|'))
        .flat_map(|row| row.split(" | "))
    {
        let mut folder = None;
        for word in quoted(cell) {
            if let Some((front, _)) = word.rsplit_once('/').filter(|_| is_edit(word)) {
                folder = Some(front);
            } else if let Some(folder) = folder.filter(|_| is_name(word)) {
                assert!(is_there(&format!("{folder}/{word}")), "{folder}/{word}");
                count += 1;
            }
        }
    }
    assert!(count > 30, "only {count} names");
}
