//! Turns a binary PGM and the outlines of its regions into one SVG file for people. `bin/picture` builds and runs it; help.txt
//! says what goes in and what comes out.

mod colours;
mod dial;
#[path = "../include/nettlestair.rs"]
mod nettlestair;
mod numbers;
mod svg;

use dial::Dial;
use std::ffi::OsString;
use std::io::{self, IsTerminal, Write};
use std::path::PathBuf;
use std::process::ExitCode;
use std::{env, fs};

const HELP: &str = include_str!("help.txt");

/// Why there is no file: the exit status and what is said.
struct Fault {
    status: u8,
    message: String,
}

/// A call that is not understood, or that can't be served.
fn wrong(message: impl Into<String>) -> Fault {
    Fault { status: 2, message: message.into() }
}

/// What is asked for.
#[derive(Default)]
struct Call {
    picture: Option<PathBuf>,
    region: Option<usize>,
    output: Option<PathBuf>,
}

impl Call {
    fn read(words: impl IntoIterator<Item = OsString>) -> Result<Call, Fault> {
        let mut call = Call::default();
        let mut words = words.into_iter();
        while let Some(word) = words.next() {
            let text = word.to_string_lossy();
            if text == "-o" && call.output.is_none() {
                let name = words.next().ok_or_else(|| wrong("-o takes the name of a file"))?;
                call.output = Some(name.into());
            } else if text.starts_with('-') {
                return Err(wrong(format!("{text} is not understood; --help says what is")));
            } else if call.picture.is_none() {
                call.picture = Some(word.into());
            } else if call.region.is_none() {
                let number = text.parse().map_err(|_| wrong(format!("{text} is no region number")))?;
                call.region = Some(number);
            } else {
                return Err(wrong(format!("{text} is one word too many; --help says what is understood")));
            }
        }
        Ok(call)
    }

    /// Reads the picture, and writes the file.
    fn serve(self) -> Result<(), Fault> {
        let name = self.picture.ok_or_else(|| wrong("no picture is named; --help says how"))?;
        if self.output.is_none() && io::stdout().is_terminal() {
            return Err(wrong("standard output is a terminal: name a file with -o"));
        }
        let of = |name: &PathBuf, error: io::Error| wrong(format!("{}: {error}", name.display()));
        let bytes = fs::read(&name).map_err(|error| of(&name, error))?;
        let dial = Dial::read(&bytes).map_err(|number| Fault {
            status: 1,
            message: format!("{} is refused ({number}): {}", name.display(), cause(number, &bytes)),
        })?;
        let last = dial.regions.len() - 1;
        let file = match self.region {
            None => svg::whole(&dial),
            Some(region) if region <= last => svg::alone(&dial, region),
            Some(region) => return Err(wrong(format!("there is no region {region}: the last one is {last}"))),
        };
        match &self.output {
            Some(output) => fs::write(output, file).map_err(|error| of(output, error)),
            None => io::stdout().write_all(file.as_bytes()).map_err(|error| wrong(error.to_string())),
        }
    }
}

/// What the number of a refusal means for this file, in words.
fn cause(number: u32, bytes: &[u8]) -> &'static str {
    match number {
        10 if !bytes.starts_with(b"P5") => "it is no binary PGM, which begins with P5",
        10 => "P5 is not followed by width, height, maxval and one white space byte, with white space or remarks between them",
        11 => "width and height are not equal, or not a power of two from 1 to 256",
        12 => "maxval is not from 1 to 65,535",
        13 => "the raster is not exactly width times height samples, of two bytes above a maxval of 255: it breaks off, or something follows it",
        14 => "a sample is above maxval",
        _ => "docs/ANSWERS.md says why",
    }
}

fn main() -> ExitCode {
    let words: Vec<OsString> = env::args_os().skip(1).collect();
    if words.iter().any(|word| word == "-h" || word == "--help") {
        print!("{HELP}");
        return ExitCode::SUCCESS;
    }
    match Call::read(words).and_then(Call::serve) {
        Ok(()) => ExitCode::SUCCESS,
        Err(Fault { status, message }) => {
            eprintln!("picture: {message}");
            ExitCode::from(status)
        }
    }
}
