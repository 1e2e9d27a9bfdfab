//! Programs as a user builds and runs them, and the files of the repository.

use std::ffi::OsStr;
use std::path::{Path, PathBuf};
use std::process::Command;

/// A file or folder of the repository.
pub fn repository(name: &str) -> PathBuf {
    Path::new(env!("CARGO_MANIFEST_DIR")).parent().expect("the repository").join(name)
}

/// The pictures of the folder samples, by name and content.
pub fn samples() -> Vec<(PathBuf, Vec<u8>)> {
    let files = repository("samples").read_dir().expect("the folder samples").map(|file| file.expect("a file").path());
    let mut pictures: Vec<PathBuf> = files.filter(|path| path.extension() == Some(OsStr::new("pgm"))).collect();
    pictures.sort();
    pictures.into_iter().map(|path| (path.clone(), std::fs::read(path).expect("a sample"))).collect()
}

/// What a program did: its exit status, and what it wrote.
#[derive(Debug, PartialEq, Eq)]
pub struct Ran {
    pub status: Option<i32>,
    pub out: String,
    pub err: String,
}

/// Runs a program to its end, in the repository.
pub fn run(program: impl AsRef<OsStr>, words: &[impl AsRef<OsStr>]) -> Ran {
    let program = program.as_ref();
    let output = Command::new(program).args(words).current_dir(repository("")).output();
    let output = output.unwrap_or_else(|e| panic!("{}: {e}", program.display()));
    let text = |bytes| String::from_utf8(bytes).expect("what a program writes is text");
    Ran { status: output.status.code(), out: text(output.stdout), err: text(output.stderr) }
}

/// Builds a C program over the library into a folder, with every warning an error.
pub fn from_c(source: &str, folder: &Path) -> PathBuf {
    built("gcc -std=c11 -O2 -Wall -Wextra -Werror -Iinclude", source, &["crates/exports/out/libexports.a"], folder)
}

/// Builds a Rust program over the library into a folder, with every warning an error.
pub fn from_rust(source: &str, folder: &Path) -> PathBuf {
    built("rustc -O --edition 2021 -D warnings -L crates/exports/out -l static=exports", source, &[], folder)
}

fn built(command: &str, source: &str, libraries: &[&str], folder: &Path) -> PathBuf {
    let program = folder.join(source.replace(['/', '.'], "-"));
    let mut words: Vec<&OsStr> = command.split(' ').map(OsStr::new).collect();
    words.extend([OsStr::new("-o"), program.as_ref(), source.as_ref()]);
    words.extend(libraries.iter().map(OsStr::new));
    let ran = run(words[0], &words[1..]);
    assert_eq!(ran.status, Some(0), "{words:?}\n{}", ran.err);
    program
}
