//! What the pages cite is there: every path is a file of the repository, and every name that stands before one, as in
//! `leafLow` (rules/specs/Leaf.antt) or (`leafLow`, rules/specs/Leaf.antt), is a word of it. Paths are from the root, from crates/ or
//! from the page.

use std::fs;
use std::path::{Path, PathBuf};

/// The endings of the files that pages cite.
const ENDINGS: [&str; 14] =
    ["antt", "rt", "rs", "edit", "h", "c", "sh", "md", "sheet", "svg", "csv", "txt", "toml", "json"];

/// The fewest citations that the pages together have: below, the test would hold to nothing.
const FEWEST: usize = 500;

fn root() -> PathBuf {
    let folder = std::env::var("CARGO_MANIFEST_DIR").expect("cargo says where the tests are");
    Path::new(&folder).join("../..")
}

fn pages(root: &Path) -> Vec<PathBuf> {
    let docs = fs::read_dir(root.join("docs")).expect("docs/").map(|entry| entry.expect("an entry of docs/").path());
    let mut pages: Vec<PathBuf> = docs.filter(|path| path.extension().is_some_and(|ending| ending == "md")).collect();
    pages.push(root.join("README.md"));
    pages.push(root.join("samples/README.md"));
    pages.sort();
    pages
}

/// A letter of a name, in Rattle or in its logic.
fn of_name(letter: char) -> bool {
    letter.is_alphanumeric() || "_-'′₀₁₂·#".contains(letter)
}

/// A letter of a path.
fn of_path(letter: char) -> bool {
    letter.is_ascii_alphanumeric() || "_-./".contains(letter)
}

fn is_path(word: &str) -> bool {
    let ending = word.rsplit_once('.').map(|(_, ending)| ending);
    word.contains('/') && word.chars().all(of_path) && ending.is_some_and(|ending| ENDINGS.contains(&ending))
}

/// The file that a path of a page names.
fn resolved(root: &Path, page: &Path, path: &str) -> Option<PathBuf> {
    let beside = page.parent().expect("a page's folder").to_path_buf();
    [root.to_path_buf(), root.join("crates"), beside].iter().map(|base| base.join(path)).find(|file| file.exists())
}

/// The name is one of the text's words.
fn has_word(text: &str, name: &str) -> bool {
    text.match_indices(name).any(|(at, _)| {
        let before = text[..at].chars().next_back();
        let after = text[at + name.len()..].chars().next();
        !before.is_some_and(of_name) && !after.is_some_and(of_name)
    })
}

/// The names in backquotes at the end of the text, with commas, "and" and parentheses between them.
fn names_before(text: &str) -> Vec<&str> {
    let mut names = Vec::new();
    let mut rest = text;
    loop {
        rest = rest.trim_end_matches([' ', '\n', ',', '(', ')']);
        rest = rest.strip_suffix(" and").unwrap_or(rest).trim_end_matches([' ', '\n', ',', '(', ')']);
        let Some(open) = rest.strip_suffix('`') else { return names };
        let Some(at) = open.rfind('`') else { return names };
        names.push(&open[at + 1..]);
        rest = &open[..at];
    }
}

/// The paths of a page, those side by side together: where the first starts, and each.
fn paths(text: &str) -> Vec<(usize, Vec<&str>)> {
    let mut groups: Vec<(usize, Vec<&str>)> = Vec::new();
    let mut end = 0;
    for word in text.split(|letter| !of_path(letter)) {
        let at = word.as_ptr() as usize - text.as_ptr() as usize;
        let path = word.trim_end_matches('.');
        if !is_path(path) {
            continue;
        }
        match groups.last_mut() {
            Some((_, group)) if text[end..at].trim() == "," => group.push(path),
            _ => groups.push((at, vec![path])),
        }
        end = at + path.len();
    }
    groups
}

/// What is wrong with the citations of one page, and how many it has.
fn amiss(root: &Path, page: &Path) -> (usize, Vec<String>) {
    let text = fs::read_to_string(page).expect("a page");
    let (mut cited, mut said) = (0, Vec::new());
    for (at, group) in paths(&text) {
        let mut files = Vec::new();
        for path in group.iter().filter(|path| !path.starts_with("target/")) {
            cited += 1;
            match resolved(root, page, path) {
                Some(file) => files.extend(fs::read_to_string(file)),
                None => said.push(format!("{}: no file {path}", page.display())),
            }
        }
        // A path that stands in backquotes itself cites no name.
        let names = if text[..at].ends_with('`') { Vec::new() } else { names_before(&text[..at]) };
        for name in names {
            cited += 1;
            if !files.iter().any(|file| has_word(file, name)) {
                said.push(format!("{}: no `{name}` in {}", page.display(), group.join(", ")));
            }
        }
    }
    (cited, said)
}

#[test]
fn every_name_and_path_that_the_pages_cite_is_there() {
    let root = root();
    let (mut cited, mut said) = (0, Vec::new());
    for page in pages(&root) {
        let (count, wrong) = amiss(&root, &page);
        cited += count;
        said.extend(wrong);
    }
    assert!(said.is_empty(), "{} citations of what is gone:\n{}", said.len(), said.join("\n"));
    assert!(cited >= FEWEST, "only {cited} citations were found");
}

#[test]
fn a_name_or_path_that_is_gone_is_noticed() {
    assert!(has_word("pub leafLow : ℕ", "leafLow") && !has_word("pub leafLows : ℕ", "leafLow"));
    assert!(!has_word("low-le", "low") && has_word("(`low-le`)", "low-le"));
    assert_eq!(names_before("shown by `a`, `b` (`c`) and `d` "), ["d", "c", "b", "a"]);
    assert!(names_before("`a` by ").is_empty());
    assert_eq!(paths("(`a`, x/y.rt, x/z.rt; `b` x/y.rt)."), [(6, vec!["x/y.rt", "x/z.rt"]), (26, vec!["x/y.rt"])]);
    assert!(is_path("rules/specs/Leaf.antt") && !is_path("rules/specs") && !is_path("Leaf.antt"));
    assert!(resolved(&root(), &root().join("docs/CLAIMS.md"), "rules/specs/Nowhere.antt").is_none());
}
