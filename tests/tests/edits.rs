//! Each edit was refused because a fact fails of the very function or definition that it edits. What failed first is read from what rt
//! says: target/ci.log has it of must-fail edits, as `./test` leaves it, and target/wrong.log of wrong programs, as tests/wrong.sh does.
//! `./test` sees to it that each edit that was tried is read.

use std::fs;
use std::path::PathBuf;
use tests::programs::repository;

/// The two folders of edits that a crate may have, and the log of each.
const FOLDERS: [(&str, &str); 2] = [("must-fail", "ci.log"), ("wrong", "wrong.log")];

struct Edit {
    folder: &'static str,
    log: &'static str,
    library: String,
    label: String,
}

/// Where an edit changes a crate: the file, and the text that it replaces there.
struct Place {
    file: String,
    old: String,
}

fn entries(folder: PathBuf) -> Vec<String> {
    let found = fs::read_dir(folder).into_iter().flatten();
    let mut names: Vec<String> =
        found.map(|entry| entry.expect("an entry").file_name().into_string().expect("a name")).collect();
    names.sort();
    names
}

fn all_edits() -> Vec<Edit> {
    let mut edits = Vec::new();
    for library in entries(repository("crates")) {
        for (folder, log) in FOLDERS {
            let names = entries(repository("crates").join(&library).join(folder));
            let labels = names.iter().filter_map(|name| name.strip_suffix(".edit"));
            edits.extend(labels.map(|label| Edit { folder, log, library: library.clone(), label: label.to_string() }));
        }
    }
    edits
}

/// What an edit file says: lines `file: `, `old: ` and `new: `, of which one file may have several.
fn places(text: &str) -> Vec<Place> {
    let mut file = "";
    let mut places = Vec::new();
    for line in text.lines() {
        if let Some(name) = line.strip_prefix("file: ") {
            file = name;
        } else if let Some(old) = line.strip_prefix("old: ") {
            places.push(Place { file: file.to_string(), old: old.to_string() });
        }
    }
    places
}

/// A function or method of a source: its name, whether it is a method, and its lines from the attributes above it to the one before the next
/// function.
struct Function {
    name: String,
    method: bool,
    first: usize,
    last: usize,
}

fn name_of_function(line: &str) -> Option<String> {
    let (head, rest) = line.trim_start().split_once("fn ")?;
    let before = ["", "pub ", "pub(crate) ", "pub extern \"C\" "];
    before.contains(&head).then(|| rest.chars().take_while(|c| c.is_alphanumeric() || *c == '_').collect())
}

/// The function of a source that a text stands in, if it stands in one.
fn function_at(source: &str, old: &str) -> Option<Function> {
    let line = source[..source.find(old)?].matches('\n').count() + 1;
    let lines: Vec<&str> = source.lines().collect();
    let attributes = |i: usize| lines[..i].iter().rev().take_while(|l| l.trim_start().starts_with("#[")).count();
    let heads: Vec<(usize, String)> =
        (0..lines.len()).filter_map(|i| name_of_function(lines[i]).map(|name| (i + 1 - attributes(i), name))).collect();
    let at = heads.iter().rposition(|(first, _)| *first <= line)?;
    let last = heads.get(at + 1).map_or(usize::MAX, |(first, _)| first - 1);
    let (first, name) = heads[at].clone();
    Some(Function { name, method: lines[first - 1].starts_with(' '), first, last })
}

/// The line is about a file, at the line number that is handed back.
fn line_in(said: &str, file: &str) -> Option<usize> {
    let (_, rest) = said.split_once(&format!("{file}:"))?;
    rest.split(':').next()?.parse().ok()
}

/// What rt says failed first is a fact of what was edited: an error in the proof of the edited function, a note at a line of a function
/// that has no proof file, or, where a definition was edited, an error of another declaration in any file of the crate's logic.
fn is_own(said: &str, place: &Place, source: &str) -> bool {
    let error = said.contains(": error: ");
    let logic = error && said.contains(".antt:");
    let Some(file) = place.file.strip_prefix("src/") else {
        let edited = definition_at(source, &place.old);
        return logic && (edited.is_none() || edited != declaration_of(said));
    };
    let Some(function) = function_at(source, &place.old) else { return logic };
    let module = match file {
        "lib.rt" | "main.rt" => String::new(),
        _ => file.replace(".rt", "/"),
    };
    // The folder of a method is in that of its type.
    let folder = said.split(':').next().and_then(|path| path.rsplit_once('/')).map_or("", |(folder, _)| folder);
    let of_module = folder.strip_prefix(&format!("./proofs/{module}"));
    let own_folder = |rest: &str| match rest.rsplit_once('/') {
        Some((of_type, name)) => function.method && !of_type.contains('/') && name == function.name,
        None => !function.method && rest == function.name,
    };
    let in_proof = error && of_module.is_some_and(own_folder);
    let unproved = said.starts_with("note: ") && said.contains("it is not proved that");
    let at_line = line_in(said, &place.file).is_some_and(|line| function.first <= line && line <= function.last);
    in_proof || unproved && at_line
}

/// The definition of a text of specs/ whose value a text is of: the last one declared above, or the record that has it in a field; none
/// where the text is of a statement.
fn definition_at<'a>(source: &'a str, old: &str) -> Option<&'a str> {
    let at = source.find(old)?;
    let end = source[at..].find('\n').map_or(source.len(), |length| at + length);
    let (mut record, mut last) = (None, None);
    for line in source[..end].lines() {
        let is_inner = line.starts_with(' ');
        let mut head = line.trim_start();
        let mut is_record = false;
        for word in ["unfoldable ", "abbrev ", "pub ", "record ", "data "] {
            if let Some(rest) = head.strip_prefix(word) {
                is_record |= word == "record " || word == "data ";
                head = rest;
            }
        }
        let declares =
            head.split_once(" : ").is_some_and(|(before, _)| !before.contains('=') && !before.starts_with("--"));
        last = last.map(|(name, _)| (name, false));
        if !declares && !is_record && !head.starts_with("module ") {
            continue;
        }
        last = head.split(' ').next().filter(|name| *name != "module").map(|name| (name, true));
        if !is_inner {
            record = last.filter(|_| is_record).map(|(name, _)| name);
        }
    }
    record.or_else(|| last.filter(|(_, here)| !here).map(|(name, _)| name))
}

/// The declaration of which an error says that it is refused, or that others rest on it.
fn declaration_of(said: &str) -> Option<&str> {
    let (_, error) = said.split_once(": error: ")?;
    let error = error.split_once(" depend").map_or(error, |(_, on)| on.split_once("on ").map_or(on, |(_, name)| name));
    error.strip_prefix('`')?.split('`').next()
}

/// What rt says of an edit, if it was tried.
fn said_of<'a>(log: &'a str, library: &str, label: &str) -> Option<&'a str> {
    let head = format!("rt: must-fail {library}/{label}.edit: ");
    log.lines().find_map(|line| line.strip_prefix(&head))
}

/// Of a wrong definition rt says that a theorem on which others rest is refused, as a bad edit: no contract was tried.
fn refused_theorem(said: &str) -> Option<&str> {
    let first = said.strip_prefix("BAD EDIT: the prover cannot read the edited text, so no contract was tried: ")?;
    let tells = ["which was rejected, ", "which was not admitted, "].iter().any(|what| first.contains(what));
    tells.then_some(first)
}

/// What is wrong with the refusal of an edit, if anything.
fn fault(said: &str, places: &[Place], source_of: impl Fn(&str) -> String) -> Option<&'static str> {
    let first = if places.iter().all(|place| place.file.starts_with("specs/")) { refused_theorem(said) } else { None };
    let first = match (first, said.strip_prefix("refused, as it must be")) {
        (Some(first), _) => first,
        (None, None) => return Some("it is not refused"),
        (None, Some(rest)) if rest.starts_with(" (only because a proof file names") => {
            return Some("the proof does not fit the edited code");
        }
        (None, Some(rest)) => rest.split_once(": ").map_or("", |(_, first)| first),
    };
    let own = places.iter().any(|place| is_own(first, place, &source_of(&place.file)));
    (!own).then_some("no fact fails first of what it edits")
}

#[test]
fn each_edit_falls_where_it_edits() {
    let mut count = 0;
    let mut faults = Vec::new();
    for edit in all_edits() {
        let Edit { folder, log, library, label } = &edit;
        let home = repository("crates").join(library);
        let text = fs::read_to_string(home.join(folder).join(format!("{label}.edit"))).expect("an edit");
        let Ok(log) = fs::read_to_string(repository("target").join(log)) else { continue };
        let Some(said) = said_of(&log, library, label) else { continue };
        let source_of = |file: &str| fs::read_to_string(home.join(file)).expect("an edited file");
        if let Some(fault) = fault(said, &places(&text), source_of) {
            faults.push(format!("{library}/{folder}/{label}: {fault}: {said}"));
        }
        count += 1;
    }
    assert!(faults.is_empty(), "{}", faults.join("\n"));
    println!("edits: {count} cases");
}

/// The test can fail: an error of another function, a missing name and an edit that is not refused are seen.
#[test]
fn what_shows_nothing_is_seen() {
    let source = "fn one() {\n    a\n}\n\npub fn two() {\n    b\n}\n";
    let place = |file: &str, old: &str| [Place { file: file.to_string(), old: old.to_string() }];
    let faulty = |said: &str, place: &[Place]| fault(said, place, |_| source.to_string()).is_some();
    let refused = |first: &str| format!("refused, as it must be: {first}");
    let two = place("src/lib.rt", "b");
    let definition = place("specs/Roots.antt", "= b");
    let unproved = "note: src/lib.rt:6:1: it is not proved that what the function ensures holds";
    let limit =
        " (only by a limit of the prover, which gave no verdict): ./proofs/two/Answers.antt:3:1: error: `returns`: no";
    let rejected = "BAD EDIT: the prover cannot read the edited text, so no contract was tried: \
        ./specs/Roots.antt:3:1: error: 2 declarations that depend on `root`, which was rejected, were not checked: a, b";
    assert!(!faulty(&refused("./proofs/two/Answers.antt:3:1: error: `returns`: the two types differ"), &two));
    assert!(!faulty(&refused(unproved), &two));
    assert!(!faulty(&format!("refused, as it must be{limit}"), &two));
    assert!(!faulty(&refused("./proofs/m/one/Answers.antt:3:1: error: `returns`: no"), &place("src/m.rt", "a")));
    assert!(!faulty(&refused("./specs/Roots.antt:3:1: error: `root`: no"), &definition));
    assert!(!faulty(rejected, &definition));
    // a method, and a function under an attribute
    let methods =
        "impl From<A> for B {\n    fn from(a: A) -> B {\n        b\n    }\n}\n\n#[inline]\nfn three() {\n    c\n}\n";
    let of_methods = |said: &str, old: &str| fault(&refused(said), &place("src/lib.rt", old), |_| methods.to_string());
    assert!(of_methods("./proofs/BFromA/from/Answers.antt:3:1: error: `returns`: no", "        b").is_none());
    assert!(of_methods("./proofs/from/Answers.antt:3:1: error: `returns`: no", "        b").is_some());
    assert!(of_methods("./proofs/m/BFromA/from/Answers.antt:3:1: error: `returns`: no", "        b").is_some());
    assert!(of_methods("./proofs/m/three/Answers.antt:3:1: error: `returns`: no", "    c").is_some());
    assert!(of_methods("note: src/lib.rt:2:5: it is not proved that what the function ensures holds", "        b")
        .is_none());
    assert!(
        of_methods("note: src/lib.rt:7:1: it is not proved that what the function ensures holds", "    c").is_none()
    );
    assert!(
        of_methods("note: src/lib.rt:2:5: it is not proved that what the function ensures holds", "    c").is_some()
    );
    assert!(of_methods("./proofs/BFromA/from/Answers.antt:3:1: error: `returns`: no", "    c").is_some());
    // where the edited definition itself is refused, the edit does not read
    let text = "-- a root : of\npub root : List ℕ → ℕ\nroot p = b\n\npub record Held : Type 0 where\n  pub one : c\n";
    for (old, name) in [("→ ℕ", None), ("= b", Some("root")), (": c", Some("Held"))] {
        assert_eq!(definition_at(text, old), name);
    }
    assert_eq!(declaration_of(rejected), Some("root"));
    assert!(fault(rejected, &definition, |_| text.to_string()).is_some());
    for said in [
        "refused, as it must be",
        "NOT REFUSED: the crate is still proved with this edit",
        "BAD EDIT: an 'old:' text is in src/lib.rt 2 times, and not once",
        "refused, as it must be (only because a proof file names what the edit took away): ./proofs/two/Answers.antt:3:1: error: no",
        rejected,
        &refused("./proofs/one/Answers.antt:3:1: error: `returns`: the two types differ"),
        &refused("note: src/lib.rt:2:1: it is not proved that what the function ensures holds"),
        &refused("./specs/Roots.antt:3:1: error: `root`: no"),
    ] {
        assert!(faulty(said, &two), "{said}");
    }
    let unread = "BAD EDIT: the prover cannot read the edited text, so no contract was tried: ./specs/Roots.antt:3:1: error: expected `=`";
    assert!(faulty(unread, &definition));
}
