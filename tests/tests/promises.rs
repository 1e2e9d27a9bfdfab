//! docs/PROMISES.md names what is there: each theorem and definition stands in the file that is named after it, each function is
//! public, each edit is in a folder of edits.

use std::fs;
use std::path::{Path, PathBuf};
use tests::cases::Cases;
use tests::programs::repository;

fn read(path: &str) -> String {
    fs::read_to_string(repository(path)).unwrap_or_else(|e| panic!("{path}: {e}"))
}

/// The files of a folder, or none where there is no such folder.
fn files(folder: &Path) -> Vec<PathBuf> {
    fs::read_dir(folder).into_iter().flatten().map(|entry| entry.expect("a file").path()).collect()
}

/// What stands between backquotes in a cell.
fn quoted(cell: &str) -> Vec<&str> {
    cell.split('`').skip(1).step_by(2).collect()
}

/// A file of the logic defines a name: at the beginning of a line, after the words that may stand there.
fn defines(text: &str, name: &str) -> bool {
    let words = ["pub", "abbrev", "unfoldable", "record", "data"];
    text.lines().any(|line| line.split_whitespace().find(|word| !words.contains(word)) == Some(name))
}

/// Names are listed in front of the file that they stand in. Gives what is wrong with a cell.
fn faults_of_proofs(cell: &str) -> Vec<String> {
    let mut faults = Vec::new();
    let mut names: Vec<&str> = Vec::new();
    for word in quoted(cell) {
        if word.contains("::") {
            faults.extend(faults_of_functions(&format!("`{word}`")));
        } else if word.ends_with(".antt") {
            let text = read(word);
            let missing = names.drain(..).filter(|name| !defines(&text, name));
            faults.extend(missing.map(|name| format!("{name} is not in {word}")));
        } else {
            names.push(word);
        }
    }
    faults.extend(names.into_iter().map(|name| format!("{name} has no file")));
    faults
}

/// Functions are `crate::function`, `crate::module::function` or names of the C interface.
fn faults_of_functions(cell: &str) -> Vec<String> {
    let missing = |word: &&str| {
        let (path, name) = word.rsplit_once("::").unwrap_or(("exports", word));
        let (library, module) = path.split_once("::").unwrap_or((path, "lib"));
        let head = match library {
            "exports" => format!("pub extern \"C\" fn {name}"),
            _ => format!("pub fn {name}"),
        };
        let has = |text: String| text.split(&head).skip(1).any(|rest| rest.starts_with(['(', '<']));
        !fs::read_to_string(repository(&format!("crates/{library}/src/{module}.rt"))).is_ok_and(has)
    };
    let functions = quoted(cell).into_iter().filter(|word| word.contains("::") || word.starts_with("nettlestair_"));
    functions.filter(missing).map(|word| format!("{word} is no public function")).collect()
}

/// An edit is a file's name, or its whole path where two crates have one of that name.
fn faults_of_edits(cell: &str) -> Vec<String> {
    let fault = |word: &str| {
        let homes = files(&repository("crates"));
        let folders = homes.iter().flat_map(|home| ["must-fail", "wrong"].map(|folder| home.join(folder)));
        let count = match word.contains('/') {
            true => usize::from(repository(word).exists()),
            false => folders.filter(|folder| folder.join(word).exists()).count(),
        };
        (count != 1).then(|| format!("{word} is in {count} crates"))
    };
    quoted(cell).into_iter().filter_map(fault).collect()
}

fn faults(row: &str) -> Vec<String> {
    let cells: Vec<&str> = row.trim_matches('|').split(" | ").collect();
    match cells[..] {
        [_, proofs, functions, edits, _] => {
            [faults_of_proofs(proofs), faults_of_functions(functions), faults_of_edits(edits)].concat()
        }
        _ => vec![format!("{} cells", cells.len())],
    }
}

#[test]
fn what_is_named_is_there() {
    let mut cases = Cases::of("promises");
    let text = read("docs/PROMISES.md");
    let heads = ["| sentence |", "| cause |", "|---"];
    let rows = text.lines().filter(|line| line.starts_with('|') && !heads.iter().any(|head| line.starts_with(head)));
    let mut all = Vec::new();
    for row in rows {
        all.extend(faults(row).into_iter().map(|fault| format!("{fault}: {row}")));
        cases.ran();
    }
    assert!(all.is_empty(), "{}", all.join("\n"));
    cases.end();
}

/// The test can fail: a name, a function and an edit that are not there are seen.
#[test]
fn what_is_not_there_is_seen() {
    let file = "`crates/quadtree/specs/Number.antt`";
    assert_eq!(faults(&format!("| a | `number` of {file} | `blocks::check` | – | b |")), Vec::<String>::new());
    for row in [
        format!("| a | theorem `no-such-law` in {file} | – | – | b |"),
        "| a | `number` | – | – | b |".to_string(),
        "| a | – | `blocks::chuck` | – | b |".to_string(),
        "| a | – | `location::spreads` | – | b |".to_string(),
        "| a | – | `nettlestair_chuck` | – | b |".to_string(),
        "| a | – | – | `no_such.edit` | b |".to_string(),
        "| a | – | – | b |".to_string(),
    ] {
        assert_eq!(faults(&row).len(), 1, "{row}");
    }
}
