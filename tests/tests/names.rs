//! The C names: the crate exports, the header, the module for Rust and docs/ANSWERS.md have the same ones.

use std::collections::BTreeSet;
use std::fs;
use std::path::Path;
use tests::cases::Cases;
use tests::programs::repository;

/// The names of functions in a file: `nettlestair_` and what follows, up to the character that ends it.
fn names(path: &Path, end: char) -> BTreeSet<String> {
    let text = fs::read_to_string(path).unwrap_or_else(|e| panic!("{}: {e}", path.display()));
    let name = |rest: &str| {
        let length = rest.find(|c: char| !c.is_ascii_alphanumeric() && c != '_')?;
        rest[length..].starts_with(end).then(|| rest[..length].to_string())
    };
    text.split("nettlestair_").skip(1).filter_map(name).collect()
}

#[test]
fn names_are_the_same_everywhere() {
    let mut cases = Cases::of("names");
    let sources = fs::read_dir(repository("crates/exports/src")).expect("the sources of exports");
    let exported: BTreeSet<String> = sources.flat_map(|file| names(&file.expect("a file").path(), '(')).collect();
    for (file, end) in [("include/nettlestair.h", '('), ("include/nettlestair.rs", '('), ("docs/ANSWERS.md", '`')] {
        assert_eq!(names(&repository(file), end), exported, "{file}");
        cases.ran();
    }
    assert!(exported.contains("trace"), "{exported:?}");
    cases.end();
}
