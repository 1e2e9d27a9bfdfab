//! The examples as a user builds and runs them: what they print for a picture by its name, against lines worked out by hand and
//! against the separate tracer.

use std::fs;
use std::path::{Path, PathBuf};
use tests::cases::Cases;
use tests::model::lines::{printed_by_turns, printed_with_areas};
use tests::pictures::{of_both_widths, pgm};
use tests::programs::{from_c, from_rust, run, samples, Ran};
use tests::random::Random;
use tests::rasters;

const FOLDER: &str = env!("CARGO_TARGET_TMPDIR");

/// A file of this name with these bytes.
fn file(name: &str, bytes: &[u8]) -> PathBuf {
    let path = Path::new(FOLDER).join(name);
    fs::write(&path, bytes).expect("the picture is written");
    path
}

/// What an example does: its name, what it prints for document 01's dials 1 to 5 and for a staircase, worked out by hand, and what it prints
/// for a file, by the separate tracer.
struct Job {
    name: &'static str,
    dials: [&'static str; 5],
    staircase: &'static str,
    printed: fn(&[u8]) -> String,
}

/// Region, area and path data of each cycle.
const TRACE: Job = Job {
    name: "trace",
    dials: [
        "0 1 M0 0H1V1H0Z\n",
        "0 11 M0 0H4V2H2V1H1V2H2V4H0Z\n1 1 M1 1H2V2H1Z\n2 4 M2 2H4V4H2Z\n",
        "0 16 M0 0H4V4H0Z\n0 -4 M1 3H3V1H1Z\n1 4 M1 1H3V3H1Z\n",
        "0 1 M0 0H1V1H0Z\n1 1 M1 0H2V1H1Z\n2 1 M0 1H1V2H0Z\n3 1 M1 1H2V2H1Z\n",
        "0 2 M0 0H2V1H0Z\n1 2 M0 1H2V2H0Z\n",
    ],
    staircase: "0 36 M0 0H1V1H2V2H3V3H4V4H5V5H6V6H7V7H8V8H0Z\n1 28 M1 0H8V7H7V6H6V5H5V4H4V3H3V2H2V1H1Z\n",
    printed: printed_with_areas,
};

/// The three longest outlines: turn, cycle, count and corners of each turn.
const TURNS: Job = Job {
    name: "turns",
    dials: [
        "1 0 4 0,0 1,0 1,1 0,1\n",
        "1 0 10 0,0 4,0 4,2 2,2 2,1 1,1 1,2 2,2 2,4 0,4\n2 1 4 1,1 2,1 2,2 1,2\n3 2 4 2,2 4,2 4,4 2,4\n",
        "1 0 4 0,0 4,0 4,4 0,4\n2 1 4 1,3 3,3 3,1 1,1\n3 2 4 1,1 3,1 3,3 1,3\n",
        "1 0 4 0,0 1,0 1,1 0,1\n2 1 4 1,0 2,0 2,1 1,1\n3 2 4 0,1 1,1 1,2 0,2\n",
        "1 0 4 0,0 2,0 2,1 0,1\n2 1 4 0,1 2,1 2,2 0,2\n",
    ],
    // 18 corners in two turns, and 16 in one between them
    staircase: "1 0 16 0,0 1,0 1,1 2,1 2,2 3,2 3,3 4,3 4,4 5,4 5,5 6,5 6,6 7,6 7,7 8,7\n\
                2 1 16 1,0 8,0 8,7 7,7 7,6 6,6 6,5 5,5 5,4 4,4 4,3 3,3 3,2 2,2 2,1 1,1\n\
                3 0 2 8,8 0,8\n",
    printed: printed_by_turns,
};

/// An example prints the lines of a picture, or `refused` and the number, and its status says which.
fn prints(job: &Job, program: &Path, name: &Path, bytes: &[u8]) {
    let out = (job.printed)(bytes);
    let status = Some(i32::from(out.starts_with("refused ")));
    assert_eq!(
        run(program, &[name]),
        Ran { status, out, err: String::new() },
        "{} of {}",
        program.display(),
        name.display()
    );
}

/// An example does its job: on the dials, on a staircase, on all samples, on pictures of 256 by 256, on faulty files, without a file and without a
/// word.
fn does_its_job(job: &Job, program: &Path, test: &'static str) {
    let mut cases = Cases::of(test);
    let mut random = Random::of(test);
    for (dial, text) in (1..).zip(job.dials) {
        let name = format!("samples/dial-{dial}.pgm");
        let ran = run(program, &[&name]);
        assert_eq!(ran, Ran { status: Some(0), out: text.to_string(), err: String::new() }, "{test}: {name}");
        cases.ran();
    }
    // of the pixels of 8 by 8 those with x at most y, and the others
    let staircase: Vec<u16> = (0..64).map(|i| u16::from(i % 8 <= i / 8)).collect();
    let ran = run(program, &[file(&format!("{test} staircase.pgm"), &pgm(3, 1, &staircase))]);
    assert_eq!(ran, Ran { status: Some(0), out: job.staircase.to_string(), err: String::new() }, "{test}: staircase");
    cases.ran();
    for (name, bytes) in samples() {
        prints(job, program, &name, &bytes);
        cases.ran();
    }
    let mut pictures: Vec<Vec<u8>> = (0..8).flat_map(|n| of_both_widths(n, &rasters::any(&mut random, n))).collect();
    pictures.extend(rasters::structured(&mut random, 8).into_iter().map(|(_, raster)| pgm(8, 65_535, &raster)));
    // a header that is longer than the raster
    pictures.push([b"P5".to_vec(), vec![b' '; 200_000], b"1 1 255 x".to_vec()].concat());
    // faulty files
    pictures.extend([b"".to_vec(), b"P5".to_vec()]);
    for whole in of_both_widths(8, &[7; 65_536]) {
        pictures.extend([whole[..whole.len() - 1].to_vec(), [&whole[..], b"\n"].concat()]);
    }
    for bytes in pictures {
        prints(job, program, &file(&format!("{test}.pgm"), &bytes), &bytes);
        cases.ran();
    }
    for (words, message) in [
        (&["no-such.pgm"][..], "NAME: no-such.pgm: No such file or directory"),
        (&["samples"], "NAME: samples: Is a directory"),
        (&[], "usage: NAME FILE.pgm"),
        (&["samples/dial-1.pgm", "samples/dial-2.pgm"], "usage: NAME FILE.pgm"),
    ] {
        let ran = run(program, words);
        assert_eq!((ran.status, &ran.out[..]), (Some(2), ""), "{words:?}");
        assert!(ran.err.starts_with(&message.replace("NAME", job.name)), "{words:?}: {}", ran.err);
        cases.ran();
    }
    cases.end();
}

#[test]
fn example_in_c() {
    does_its_job(&TRACE, &from_c("examples/trace.c", Path::new(FOLDER)), "example in C");
}

#[test]
fn example_in_rust() {
    does_its_job(&TRACE, &from_rust("examples/trace.rs", Path::new(FOLDER)), "example in Rust");
}

#[test]
fn example_of_turns_in_c() {
    does_its_job(&TURNS, &from_c("examples/turns.c", Path::new(FOLDER)), "example of turns in C");
}
