//! The programs `outlines` and `outlines-stored` as a user runs them: a file on standard input, the printed text on
//! standard output. The expected texts are worked out by hand from document 01. The commands build the programs.

use std::collections::BTreeSet;
use std::fs::{self, File};
use std::io::Write;
use std::os::unix::fs::symlink;
use std::path::{Path, PathBuf};
use std::process::{Command, Stdio};
use tests::cases::Cases;
use tests::compare::Shown;
use tests::model::lines;
use tests::model::orders::in_block_order;
use tests::pictures::{any_file, of_both_widths, pgm, picture, put_into_rows};
use tests::programs::{repository, run};
use tests::random::Random;
use tests::rasters;

const FOLDER: &str = env!("CARGO_TARGET_TMPDIR");

/// A program: the name of its command, and the order in which its files have the samples of a raster of side 2^n.
struct Program {
    name: &'static str,
    in_its_order: fn(u32, &[u16]) -> Vec<u16>,
}

const PROGRAMS: [Program; 2] = [
    Program { name: "outlines", in_its_order: |_, raster| raster.to_vec() },
    Program { name: "outlines-stored", in_its_order: in_block_order },
];

impl Program {
    /// The command, which builds the program where that is needed.
    fn command(&self) -> PathBuf {
        repository("bin").join(self.name)
    }

    /// The program itself.
    fn built(&self) -> PathBuf {
        let name = self.name.replace('-', "_");
        repository("crates").join(&name).join("out").join(name)
    }

    /// What the program prints for these bytes.
    fn printed(&self, input: &[u8]) -> String {
        let program = self.built();
        let mut child = Command::new(&program)
            .stdin(Stdio::piped())
            .stdout(Stdio::piped())
            .spawn()
            .unwrap_or_else(|fault| panic!("{}: {fault} (its command builds it)", program.display()));
        let mut stdin = child.stdin.take().expect("standard input");
        let bytes = input.to_vec();
        // The program reads at most 16,385 bytes, so that the rest of a longer input has no reader.
        let writer = std::thread::spawn(move || drop(stdin.write_all(&bytes)));
        let output = child.wait_with_output().expect("the program ends");
        writer.join().expect("the input is handed over");
        assert!(output.status.success(), "the program ends well");
        String::from_utf8(output.stdout).expect("the text is ASCII")
    }

    /// The program prints this text for these bytes.
    fn prints(&self, input: &[u8], text: &str) {
        assert_eq!(self.printed(input), text, "{} of {}", self.name, Shown(input));
    }
}

/// What is printed for dials 2 and 3.
const DIAL_2: &str = "M0 0H4V2H2V1H1V2H2V4H0Z\nM1 1H2V2H1Z\nM2 2H4V4H2Z\n";
const DIAL_3: &str = "M0 0H4V4H0ZM1 3H3V1H1Z\nM1 1H3V3H1Z\n";

/// What is printed where their samples are taken in the other order: rows 1112 1111 1111 3333, and 1112 1121 1211 2111.
const REARRANGED_2: &str = "M0 0H3V1H4V3H0Z\nM3 0H4V1H3Z\nM0 3H4V4H0Z\n";
const REARRANGED_3: &str =
    "M0 0H3V1H2V2H1V3H0Z\nM3 0H4V1H3Z\nM2 1H3V2H2Z\nM3 1H4V4H1V3H2V2H3Z\nM1 2H2V3H1Z\nM0 3H1V4H0Z\n";

/// Document 01's dials 1 to 5, row by row and in block order, and 8 by 8 pixels of which the first 16 have a colour of
/// their own: what each program prints.
#[test]
fn dials_printed() {
    let mut cases = Cases::of("dials printed");
    let dial_4 = "M0 0H1V1H0Z\nM1 0H2V1H1Z\nM0 1H1V2H0Z\nM1 1H2V2H1Z\n";
    let dial_5 = "M0 0H2V1H0Z\nM0 1H2V2H0Z\n";
    let rows: &[(Vec<u8>, [&str; 2])] = &[
        (picture("P5\n1 1\n255\n", &[1]), ["M0 0H1V1H0Z\n"; 2]),
        (picture("P5\n4 4\n255\n", &[1, 1, 1, 1, 1, 2, 1, 1, 1, 1, 3, 3, 1, 1, 3, 3]), [DIAL_2, REARRANGED_2]),
        (picture("P5\n4 4\n255\n", &[1, 1, 1, 2, 1, 1, 1, 1, 1, 1, 1, 1, 3, 3, 3, 3]), [REARRANGED_2, DIAL_2]),
        (picture("P5\n4 4\n255\n", &[1, 1, 1, 1, 1, 2, 2, 1, 1, 2, 2, 1, 1, 1, 1, 1]), [DIAL_3, REARRANGED_3]),
        (picture("P5\n4 4\n255\n", &[1, 1, 1, 2, 1, 1, 2, 1, 1, 2, 1, 1, 2, 1, 1, 1]), [REARRANGED_3, DIAL_3]),
        (picture("P5\n2 2\n255\n", &[1, 2, 2, 1]), [dial_4; 2]),
        (picture("P5\n2 2\n255\n", &[1, 1, 2, 2]), [dial_5; 2]),
        (
            picture("P5\n8 8\n255\n", &[[1; 16], [2; 16], [2; 16], [2; 16]].concat()),
            ["M0 0H8V2H0Z\nM0 2H8V8H0Z\n", "M0 0H4V4H0Z\nM4 0H8V8H0V4H4Z\n"],
        ),
    ];
    for (input, texts) in rows {
        for (program, text) in PROGRAMS.iter().zip(texts) {
            program.prints(input, text);
            cases.ran();
        }
    }
    cases.end();
}

/// What the commands say before they build or run the programs.
#[test]
fn messages() {
    let mut cases = Cases::of("messages of the commands");
    for program in &PROGRAMS {
        let name = program.name;
        for (words, message) in [
            (&["no-such.pgm"][..], "there is no file no-such.pgm"),
            (&["samples"], "samples is a folder, not a picture"),
            (&["samples/dial-1.pgm", "samples/dial-2.pgm"], "one picture at a time"),
            (&["--no-such"], "there is no option --no-such"),
        ] {
            let ran = run(program.command(), words);
            assert_eq!((ran.status, &ran.out[..]), (Some(2), ""), "{name} {words:?}");
            assert!(ran.err.ends_with(&format!("{name}: {message}\n")), "{name} {words:?}: {}", ran.err);
            cases.ran();
        }
        let help = run(program.command(), &["--help"]);
        assert_eq!((help.status, &help.err[..]), (Some(0), ""), "{name}");
        assert!(help.out.starts_with(&format!("usage: bin/{name} [FILE.pgm]\n")), "{name}: {}", help.out);
        cases.ran();
        // the same through a link, which a run before may have left
        let link = Path::new(FOLDER).join(name);
        let _ = fs::remove_file(&link);
        symlink(program.command(), &link).expect("a link is made");
        assert_eq!(run(&link, &["--help"]), help);
        cases.ran();
    }
    cases.end();
}

/// What the commands print for files, and the words that they add to a refusal. They are run one after the other, since
/// each may build its program.
#[test]
fn files() {
    let mut cases = Cases::of("files of the commands");
    for (name, texts, words) in [
        ("samples/dial-2.pgm", [DIAL_2, REARRANGED_2], ""),
        ("samples/dial-2-stored.pgm", [REARRANGED_2, DIAL_2], ""),
        ("samples/remark.pgm", [DIAL_3, REARRANGED_3], ""),
        ("samples/wide-65535.pgm", [DIAL_2, REARRANGED_2], ""),
        ("samples/refused-10.pgm", ["refused 10\n"; 2], "it begins with P2, another kind of Netpbm picture"),
        ("crates.txt", ["refused 10\n"; 2], "it does not begin with P5"),
        ("samples/refused-remark.pgm", ["refused 10\n"; 2], "it begins with P5, but what follows is no such header"),
        ("samples/refused-11.pgm", ["refused 11\n"; 2], "the picture is 3 by 2: "),
        ("samples/refused-12.pgm", ["refused 12\n"; 2], "maxval is 65536: it must be from 1 to 65,535"),
        ("samples/refused-13.pgm", ["refused 13\n"; 2], "the raster is not exactly 2 times 2 samples of one byte: "),
        ("samples/refused-14.pgm", ["refused 14\n"; 2], "a sample is above maxval, which is 9"),
        ("samples/clock-256.pgm", ["refused 15\n"; 2], "the input has more than 16,384 bytes: "),
    ] {
        for (program, text) in PROGRAMS.iter().zip(texts) {
            let ran = run(program.command(), &[name]);
            assert_eq!(ran.out, text, "{} {name}: {}", program.name, ran.err);
            assert_eq!(ran.status, Some(if words.is_empty() { 0 } else { 1 }), "{} {name}", program.name);
            let said = ran.err.lines().last().unwrap_or("");
            let begins = said.starts_with(&format!("{}: {name} is refused: ", program.name));
            assert!((begins && said.contains(words)) != words.is_empty(), "{name}: {said}");
            cases.ran();
        }
    }
    // Larger pictures are taken elsewhere where their samples stand row by row, and only there.
    let ends = ["fit; bin/picture draws larger ones, examples/trace.rs prints their outlines with areas\n", "fit\n"];
    for (program, end) in PROGRAMS.iter().zip(ends) {
        let ran = run(program.command(), &["samples/clock-256.pgm"]);
        assert!(ran.err.ends_with(end), "{}: {}", program.name, ran.err);
        cases.ran();
    }
    // The clock has the same outlines in one byte a sample and in two, row by row and in block order.
    let clock = lines::printed(&fs::read(repository("samples/clock-64.pgm")).expect("a sample"));
    for (program, ending) in PROGRAMS.iter().zip([".pgm", "-stored.pgm"]) {
        for name in ["samples/clock-64", "samples/wide-1000"].map(|name| name.to_string() + ending) {
            let ran = run(program.command(), &[&name]);
            assert_eq!((ran.status, &ran.out), (Some(0), &clock), "{name}: {}", ran.err);
            cases.ran();
        }
    }
    // The words of a refusal past the header are those of the numbers, not of what remarks say.
    let name = &format!("{FOLDER}/remarks.pgm");
    for (header, words) in [
        ("P5#9 9\n3#x\r2# 7 7\r\n255\n", "the picture is 3 by 2: "),
        ("P5 # 1\n#2\r2\t#3\n2 # 4\n00000 #", "maxval is 00000: it must be from 1 to 65,535"),
        ("P5 # 1\n#2\r2\t#3\n2 # 4\n65536 #", "maxval is 65536: it must be from 1 to 65,535"),
        ("P5#1\n2 2#2\n00255 ", "the raster is not exactly 2 times 2 samples of one byte: "),
        ("P5#1\n2 2#2\n00256 ", "the raster is not exactly 2 times 2 samples of two bytes: "),
        ("P5#1\n2 2#2\n09000 ", "the raster is not exactly 2 times 2 samples of two bytes: "),
        ("P5#1\n2 2#2\n00999 #", "a sample is above maxval, which is 00999"),
    ] {
        fs::write(name, picture(header, b"#\n12345")).expect("a file is written");
        for program in &PROGRAMS {
            let ran = run(program.command(), &[name]);
            assert!(ran.err.ends_with('\n') && ran.err.contains(words), "{header:?}: {}", ran.err);
            cases.ran();
        }
    }
    // A text that can't be written whole: the program, which can't end with a status, and the command each say so in
    // one line.
    for name in ["samples/dial-2.pgm", "samples/clock-64.pgm", "samples/refused-11.pgm"] {
        for program in &PROGRAMS {
            let said = format!("{}: the text could not be written whole\n", program.name);
            for (file, status) in [(program.built(), 0), (program.command(), 4)] {
                let full = File::options().write(true).open("/dev/full").expect("a device that is full");
                let picture = File::open(repository(name)).expect("a sample");
                let output = Command::new(&file).stdin(picture).stdout(full).output().expect("the program ends");
                assert_eq!(output.status.code(), Some(status), "{} {name}", file.display());
                assert_eq!(String::from_utf8_lossy(&output.stderr), said, "{} {name}", file.display());
                cases.ran();
            }
        }
    }
    cases.end();
}

/// A refusal of each kind from 10 to 15, and which of two comes first.
#[test]
fn refusals_printed() {
    let mut cases = Cases::of("refusals printed");
    let full = picture("P5\n64 64\n255\n", &[7; 4096]);
    let padded = |length: usize| {
        let mut bytes = full.clone();
        bytes.resize(length, 7);
        bytes
    };
    let rows: &[(Vec<u8>, u32)] = &[
        (b"".to_vec(), 10),
        (b"P5".to_vec(), 10),
        (b"P6\n1 1\n255\n\x01\x01\x01".to_vec(), 10),
        (b"P5\n#1 1 255 \x01".to_vec(), 10),
        (b"P5\n1 1\n255#\n\x01".to_vec(), 10),
        (b"P5\n000001 1\n255\n\x01".to_vec(), 10),
        (b"P5\n3 3 ".to_vec(), 10),
        (picture("P5\n3 3\n255\n", &[1; 9]), 11),
        (picture("P5\n1 2\n255\n", &[1; 2]), 11),
        (picture("P5\n512 512\n0\n", &[]), 11),
        (picture("P5\n1 1\n0\n", &[0]), 12),
        (picture("P5\n1 1\n65536\n", &[0, 0]), 12),
        (picture("P5\n1 1\n99999\n", &[]), 12),
        (picture("P5\n1 1\n255\n", &[]), 13),
        (picture("P5\n1 1\n255\n", &[0, 1]), 13),
        (picture("P5\n1 1\n255\r\n", &[1]), 13),
        (picture("P5\n1 1\n256\n", &[0]), 13),
        (picture("P5\n1 1\n256\n", &[0, 0, 0]), 13),
        (picture("P5\n1 1\n9\n", &[10, 10]), 13),
        (picture("P5\n128 128\n255\n", &[1; 4096]), 13),
        (picture("P5\n64 64\n256\n", &[0; 4096]), 13),
        (picture("P5\n1 1\n9\n", &[10]), 14),
        (picture("P5\n1 1\n1000\n", &[3, 233]), 14),
        (vec![0; 16_384], 10),
        (padded(16_384), 13),
        // of 128 by 128 pixels not all bytes fit beside the header
        (picture("P5\n128 128\n255\n", &[1; 16_369]), 13),
        (vec![0; 16_385], 15),
        (padded(16_385), 15),
        (picture("P5\n128 128\n255\n", &[1; 16_370]), 15),
        (picture("P5\n128 128\n255\n", &[1; 16_384]), 15),
        (picture("P5 128 128 65535 ", &[1; 32_768]), 15),
        (vec![80; 100_000], 15),
    ];
    for (input, number) in rows {
        for program in &PROGRAMS {
            program.prints(input, &format!("refused {number}\n"));
            cases.ran();
        }
    }
    cases.end();
}

/// The largest picture that fits, 64 by 64, in one byte a sample and in two: one colour; a row each; a pixel each, in
/// rising location code.
#[test]
fn largest_pictures_printed() {
    let mut cases = Cases::of("largest pictures printed");
    let even = |code: usize| (0..6).map(|i| (code >> (2 * i) & 1) << i).sum::<usize>();
    let rows: String = (0..64).map(|y| format!("M0 {y}H64V{}H0Z\n", y + 1)).collect();
    let pixels: String = (0..4096)
        .map(|code| (even(code), even(code >> 1)))
        .map(|(x, y)| format!("M{x} {y}H{}V{}H{x}Z\n", x + 1, y + 1))
        .collect();
    for program in &PROGRAMS {
        // two colours: of one byte, then of two bytes that differ in the low one alone, then in the high one alone
        for (maxval, [one, other]) in [(1, [0, 1]), (65_535, [65_534, 65_535]), (999, [231, 999])] {
            let mut prints = |colour: fn(usize, usize) -> usize, text: &str| {
                let raster: Vec<u16> = (0..4096).map(|i| [one, other][colour(i % 64, i / 64) % 2]).collect();
                program.prints(&pgm(6, maxval, &(program.in_its_order)(6, &raster)), text);
                cases.ran();
            };
            prints(|_, _| 1, "M0 0H64V64H0Z\n");
            prints(|_, y| y, &rows);
            prints(|x, y| x + y, &pixels);
        }
    }

    // Exactly 16,384 bytes, with white space in the header, plain or a remark; and one byte more.
    for (fill, size) in [(b'\n', "\n64 64"), (b'#', "\r64 64")] {
        for (maxval, raster) in [(255, vec![7; 4096]), (65_535, vec![7; 8192])] {
            for (length, text) in [(16_384, "M0 0H64V64H0Z\n"), (16_385, "refused 15\n")] {
                let end = picture(&format!("{size} {maxval}\n"), &raster);
                let mut bytes = b"P5".to_vec();
                bytes.resize(length - end.len(), fill);
                bytes.extend_from_slice(&end);
                assert_eq!(bytes.len(), length);
                for program in &PROGRAMS {
                    program.prints(&bytes, text);
                    cases.ran();
                }
            }
        }
    }
    cases.end();
}

/// Rasters of every kind up to 64 by 64, in one byte a sample and in two, against the separate tracer.
#[test]
fn rasters_printed() {
    let mut cases = Cases::of("rasters printed");
    let mut random = Random::of("rasters printed");
    for n in 0..=6 {
        for raster in rasters::of_every_kind(&mut random, n) {
            let texts = of_both_widths(n, &raster).map(|input| lines::printed(&input));
            for program in &PROGRAMS {
                let inputs = of_both_widths(n, &(program.in_its_order)(n, &raster));
                for (input, text) in inputs.iter().zip(&texts) {
                    program.prints(input, text);
                    cases.ran();
                }
            }
        }
    }
    cases.end();
}

/// What outlines-stored prints for a file is what outlines prints for that file with its samples put into rows.
#[test]
fn stored_files_printed() {
    let mut cases = Cases::of("stored files printed");
    let mut random = Random::of("stored files printed");
    let [outlines, stored] = PROGRAMS;
    let mut seen = BTreeSet::new();
    for _ in 0..1000 {
        let bytes = any_file(&mut random);
        let text = stored.printed(&bytes);
        outlines.prints(&put_into_rows(&bytes), &text);
        let number = text.strip_prefix("refused ").map_or(0, |number| number.trim().parse().expect("a number"));
        let expected = if bytes.len() <= 16_384 { lines::printed_stored(&bytes) } else { "refused 15\n".to_string() };
        assert_eq!(text, expected, "the model: {}", Shown(&bytes));
        seen.insert(number);
        cases.ran();
    }
    assert_eq!(seen, BTreeSet::from([0, 10, 11, 12, 13, 14, 15]));
    cases.end();
}
