//! Headers of binary PGM pictures against a separate reader: white space, remarks and numbers, laid out in every way.

use std::collections::BTreeSet;
use std::io::Write;
use std::process::{Command, Stdio};
use tests::cases::Cases;
use tests::compare::Shown;
use tests::model::pgm::read;
use tests::pictures::{judged, lent, picture, sample_bytes, samples_up_to};
use tests::random::Random;

/// A remark at every place of a picture, ended by LF, by CR, by both and not at all.
#[test]
fn remarks_at_every_place() {
    let mut cases = Cases::of("remarks at every place");
    let mut random = Random::of("remarks at every place");
    let pictures: [&[u8]; 5] = [
        b"P5 1 1 255 x",
        b"P5 16 16 9 :",
        b"P5\n4  4\r\n255\n0123456789abcdef",
        b"P5#a\n2#b\r\n2 #c#\n 00077\t!!!!",
        b"P5\r2#\n2\t65535 01234567",
    ];
    let mut seen = BTreeSet::new();
    for bytes in pictures {
        for place in 0..=bytes.len() {
            for remark in ["#\n", "#\r", "#\r\n", "#", "# a remark\n", "#1 1 255\r", "##\n#\r", " #\n", "#\n "] {
                seen.insert(judged(&mut random, &[&bytes[..place], remark.as_bytes(), &bytes[place..]].concat()));
                cases.ran();
            }
        }
    }
    assert_eq!(seen, BTreeSet::from([0, 10, 11, 12, 13]));
    cases.end();
}

/// A remark of every length up to what the program takes, by turns at each of the three places.
#[test]
fn remarks_of_every_length() {
    let mut cases = Cases::of("remarks of every length");
    let mut random = Random::of("remarks of every length");
    for length in 0..=16_384 {
        let remark = format!("#{}\r", "# 4\t".repeat(length / 4 + 1).split_at(length).0);
        let [a, b, c] = [0, 1, 2].map(|place| if place == length % 3 { &remark[..] } else { " " });
        assert_eq!(lent(&mut random, format!("P5{a}1{b}1{c}200\n#").as_bytes(), 1), 0);
        assert_eq!(lent(&mut random, format!("P5{a}1{b}1{c}3000\n##").as_bytes(), 1), 14);
        cases.ran();
    }
    cases.end();
}

/// Headers put together at random from pieces of white space, remarks, numbers and what belongs nowhere.
#[test]
fn headers_of_pieces() {
    let mut cases = Cases::of("headers of pieces");
    let mut random = Random::of("headers of pieces");
    let pieces = [
        " ", "\t", "\n", "\r", "\r\n", "#\n", "#\r", "# 1 1\n", "#x\r\n", "##\n", "#", "\n#", "0", "1", "2", "02",
        "255", "65536", "000001", "P5", "x",
    ];
    // maxval and samples of one byte and of two, with some bytes more
    let rasters: [(&str, &[u8]); 2] = [("77", b"#M\n\x4e\x00"), ("00777", b"\x02#\x00M\x03\x09\x01\n\x00\x00")];
    let mut seen = BTreeSet::new();
    for _ in 0..60_000 {
        let (maxval, raster) = rasters[random.below(2)];
        let mut bytes = b"P5".to_vec();
        for number in ["2", "02", maxval] {
            for _ in 0..random.below(4) {
                // white space mostly, at times any piece
                let among = if random.below(12) == 0 { pieces.len() } else { 10 };
                bytes.extend_from_slice(pieces[random.below(among)].as_bytes());
            }
            bytes.extend_from_slice(number.as_bytes());
        }
        bytes.extend_from_slice([" ", "\n", "\r", "\t", "#\n", " #", ""][random.below(7)].as_bytes());
        bytes.extend_from_slice(&raster[..random.below(raster.len() + 1)]);
        seen.insert((maxval, judged(&mut random, &bytes)));
        cases.ran();
    }
    let numbers = [0, 10, 11, 12, 13, 14];
    let expected = rasters.into_iter().flat_map(|(maxval, _)| numbers.map(|number| (maxval, number)));
    assert_eq!(seen, expected.collect());
    cases.end();
}

/// What one of Netpbm's programs makes of the bytes, where it is installed (Debian's package netpbm).
fn netpbm(program: &str, words: &[&str], bytes: &[u8]) -> Option<Vec<u8>> {
    let mut command = Command::new(program);
    let mut child =
        command.args(words).stdin(Stdio::piped()).stdout(Stdio::piped()).stderr(Stdio::null()).spawn().ok()?;
    let mut stdin = child.stdin.take().expect("standard input");
    // A program that reads nothing may have ended.
    let _ = stdin.write_all(bytes);
    drop(stdin);
    let output = child.wait_with_output().expect("the program ends");
    assert!(output.status.success(), "{program} {words:?} takes {}", Shown(bytes));
    Some(output.stdout)
}

/// Netpbm reads the same width, height, maxval and samples out of files with remarks. For a maxval of 255 the samples are its own.
#[test]
fn netpbm_agrees() {
    let mut cases = Cases::of("Netpbm agrees");
    let mut random = Random::of("Netpbm agrees");
    let mut compared = 0;
    for turn in 0..240 {
        let (n, maxval) = (turn % 6, [255, 65_535, 255, 256, 1000, 32_768][turn / 6 % 6]);
        let side = (1 << n).to_string();
        let own = if maxval == 255 { netpbm("pgmnoise", &[&side, &side], b"") } else { None };
        let any = || samples_up_to(&mut random, maxval, 1 << (2 * n));
        let samples = own.map_or_else(any, |file| read(&file).samples);
        let mut white = || {
            let pieces = ["\n", " ", "\t", "\r", "# a remark\n", "#\n", "#1 1\r", "#x\r\n"];
            (0..=random.below(3)).map(|_| pieces[random.below(pieces.len())]).collect::<String>()
        };
        let header = format!("P5{}{side}{}{side}{}{maxval}\n", white(), white(), white());
        let bytes = picture(&header, &sample_bytes(maxval, &samples));
        assert_eq!(judged(&mut random, &bytes), 0, "{}", Shown(&bytes));
        cases.ran();
        let Some(plain) = netpbm("pnmtoplainpnm", &[], &bytes) else { continue };
        let expected =
            format!("P2 {side} {side} {maxval} {}", samples.iter().map(u16::to_string).collect::<Vec<_>>().join(" "));
        let plain = String::from_utf8(plain).expect("a plain PGM is text");
        assert_eq!(plain.split_whitespace().collect::<Vec<_>>().join(" "), expected, "{}", Shown(&bytes));
        let told = netpbm("pnmfile", &[], &bytes).expect("pnmfile stands beside pnmtoplainpnm");
        let told = String::from_utf8(told).expect("what is told is text");
        assert!(told.contains(&format!("PGM raw, {side} by {side}  maxval {maxval}")), "{}: {told}", Shown(&bytes));
        compared += 1;
    }
    println!("{compared} files with remarks read by Netpbm too");
    cases.end();
}
