//! One outline as path data, the corners of a chain, the stretch of a cycle: causes 16, 17 and 8. The chains are those of the
//! model's writer; the library has none.

use tests::calls::{agrees, Out};
use tests::cases::Cases;
use tests::compare::Shown;
use tests::damage::each_place;
use tests::lent::Entry;
use tests::model::paths::{chain, corner, is_cycle_form, read_chain, stretch, svg};
use tests::nettlestair::{self, Stretch};
use tests::outlines::{outline, random_outline};
use tests::random::Random;

/// Path data of corners, with lists as long as needed, longer and one too short.
fn written(random: &mut Random, corners: &[u32]) {
    let what = Shown(corners);
    let before = corners.to_vec();
    let form = is_cycle_form(corners);
    let text = if form { svg(corners).into_bytes() } else { Vec::new() };
    let need = 9 + 4 * corners.len();
    assert!(text.len() <= need, "the need suffices: {what}");
    for length in [need, need + 3, need - 1, text.len().min(need - 1), 0] {
        let out = Out::of(random, length, |list| nettlestair::svg(corners, list));
        agrees(format_args!("path data, room for {length}, of {what}"), judged(&out, form, 16, need <= length, &text));
    }
    assert_eq!(before, corners, "the corners handed in");
}

/// What differs from the answer by the order: `number` where there is no cycle form, then 8, then acceptance.
fn judged<T: Entry>(out: &Out<T>, form: bool, number: u32, room: bool, entries: &[T]) -> Option<String> {
    match (form, room) {
        (false, _) => out.difference_from_refusal(number),
        (_, false) => out.difference_from_refusal(8),
        _ => out.difference(entries),
    }
}

/// The corners of a chain, with lists as long as needed, longer and one too short; from the corners that were given, path data.
fn read(random: &mut Random, start: u32, digits: &[u8]) {
    let expected = read_chain(start, digits);
    let corners = expected.clone().unwrap_or_default();
    for length in [corners.len(), corners.len() + 3, corners.len().max(1) - 1, 0] {
        let out = Out::of(random, length, |list| nettlestair::read_chain(start, digits, list));
        agrees(
            format_args!("chain read from {start}, room for {length}, of {}", Shown(digits)),
            judged(&out, expected.is_some(), 17, corners.len() <= length, &corners),
        );
    }
    if expected.is_some() {
        let mut given = vec![0; corners.len()];
        let count = nettlestair::read_chain(start, digits, &mut given).count as usize;
        let text = Out::of(random, 9 + 4 * count, |list| nettlestair::svg(&given[..count], list));
        agrees(format_args!("path data of {}", Shown(digits)), text.difference(svg(&corners).as_bytes()));
    }
}

#[test]
fn random_outlines() {
    let mut cases = Cases::of("random outlines");
    let mut random = Random::of("random outlines");
    for round in 0..2000 {
        let pairs = 2 + random.below(if round % 10 == 0 { 200 } else { 6 });
        let most = [2, 3, 9, 99, 100, 256][random.below(6)];
        let corners = random_outline(&mut random, pairs, most);
        assert!(is_cycle_form(&corners), "the model: {}", Shown(&corners));
        written(&mut random, &corners);
        let digits = chain(&corners);
        read(&mut random, corners[0], &digits);
        assert_eq!(read_chain(corners[0], &digits), Some(corners), "the model's round trip");
        cases.ran();
    }
    cases.end();
}

#[test]
fn widest_and_longest() {
    let mut cases = Cases::of("widest and longest");
    let mut random = Random::of("widest and longest");
    let widest = outline(&[0, 256], &[0, 256]);
    let hole = [corner(1, 3), corner(3, 3), corner(3, 1), corner(1, 1)].to_vec();
    let around = |corners: usize| {
        let last = corners / 2 - 1;
        let line: Vec<u32> = (0..=last).map(|i| if i == last && i % 2 == 0 { 2 } else { i as u32 % 2 }).collect();
        outline(&line, &line)
    };
    let at_the_edge = outline(&vec![[255, 256]; 40].concat(), &vec![[256, 100]; 40].concat());
    for corners in [widest, hole, at_the_edge, around(4), around(262_144), around(262_146), around(262_148)] {
        assert_eq!(is_cycle_form(&corners), corners.len() <= 262_144);
        written(&mut random, &corners);
        read(&mut random, corners[0], &chain(&corners));
        cases.ran();
    }
    cases.end();
}

/// Every list of up to 6 corners with coordinates up to 2: which of them are cycle forms.
#[test]
fn every_short_corner_list() {
    let mut cases = Cases::of("short corner lists");
    let mut random = Random::of("short corner lists");
    let mut forms = 0;
    for length in 0..=6 {
        for k in 0..9u32.pow(length) {
            let corners: Vec<u32> = (0..length).map(|i| k / 9u32.pow(i) % 9).map(|p| corner(p % 3, p / 3)).collect();
            let form = is_cycle_form(&corners);
            let text = if form { svg(&corners).into_bytes() } else { Vec::new() };
            let out = Out::of(&mut random, 33, |list| nettlestair::svg(&corners, list));
            agrees(Shown(&corners), judged(&out, form, 16, true, &text));
            forms += u32::from(form);
            cases.ran();
        }
    }
    assert!(forms > 0, "some are cycle forms");
    cases.end();
}

/// Outlines whose coordinates go beyond 256, on one side or both: 16.
#[test]
fn outlines_outside() {
    let mut cases = Cases::of("outlines outside");
    let mut random = Random::of("outlines outside");
    for far in [256, 257, 300, 510, 511] {
        for (xs, ys) in [([0, far], [0, 1]), ([0, 1], [0, far]), ([1, far], [far, 1]), ([far - 1, far], [far, 0])] {
            let corners = outline(&xs, &ys);
            assert_eq!(is_cycle_form(&corners), far == 256);
            written(&mut random, &corners);
            cases.ran();
        }
    }
    for far in [512, 65_536, 8_388_607] {
        written(&mut random, &outline(&[0, 1], &[0, far]));
        cases.ran();
    }
    cases.end();
}

/// Corner lists with one corner changed, removed or added: 16, or another cycle form.
#[test]
fn damaged_corners() {
    let mut cases = Cases::of("damaged corners");
    let mut random = Random::of("damaged corners");
    written(&mut random, &[]);
    for _ in 0..60 {
        let pairs = 2 + random.below(3);
        let corners = random_outline(&mut random, pairs, 3);
        for place in 0..corners.len() {
            let old = corners[place];
            let others = [0, 1, 2, 256, 257, 511].map(|x| old - old % 512 + x);
            let ys = [0, 1, 2, 256, 257, 511, 512, 8_388_607].map(|y: u32| y * 512 + old % 512);
            for other in others.into_iter().chain(ys).chain([u32::MAX, old ^ 1 << 31, random.word()]) {
                let mut damaged = corners.clone();
                damaged[place] = other;
                written(&mut random, &damaged);
                cases.ran();
            }
            let mut shorter = corners.clone();
            shorter.remove(place);
            written(&mut random, &shorter);
            let mut turned = corners.clone();
            turned.rotate_left(place);
            written(&mut random, &turned);
            turned.reverse();
            written(&mut random, &turned);
            cases.ran();
        }
        written(&mut random, &[&corners[..], &corners[..]].concat());
    }
    cases.end();
}

/// Chains with one byte changed, removed or added at every place, and other starts.
#[test]
fn damaged_chains() {
    let mut cases = Cases::of("damaged chains");
    let mut random = Random::of("damaged chains");
    read(&mut random, 0, b"");
    for _ in 0..40 {
        let pairs = 2 + random.below(3);
        let corners = random_outline(&mut random, pairs, 3);
        let digits = chain(&corners);
        for place in 0..digits.len() {
            for other in [b'0', b'1', b'2', b'3', 47, 52, 0, 10, 48 + 128, 255] {
                let mut damaged = digits.clone();
                damaged[place] = other;
                read(&mut random, corners[0], &damaged);
                damaged.insert(place, digits[place]);
                read(&mut random, corners[0], &damaged);
                cases.ran();
            }
            let mut shorter = digits.clone();
            shorter.remove(place);
            read(&mut random, corners[0], &shorter);
            let mut turned = digits.clone();
            turned.rotate_left(place);
            read(&mut random, corners[0], &turned);
        }
        for start in [0, 1, 255, 256, 257, 511, 512, 256 * 512, 257 * 512, 256 * 512 + 256, u32::MAX, random.word()] {
            read(&mut random, start, &digits);
            cases.ran();
        }
    }
    cases.end();
}

#[test]
fn every_short_chain() {
    let mut cases = Cases::of("short chains");
    let mut random = Random::of("short chains");
    for length in 0..=8 {
        for k in 0..4usize.pow(length) {
            let digits: Vec<u8> = (0..length).map(|i| 48 + (k >> (2 * i) & 3) as u8).collect();
            for start in [0, corner(2, 2), corner(256, 256)] {
                let expected = read_chain(start, &digits);
                let corners = expected.clone().unwrap_or_default();
                let out = Out::of(&mut random, 8, |list| nettlestair::read_chain(start, &digits, list));
                agrees(Shown(&digits), judged(&out, expected.is_some(), 17, true, &corners));
                // an accepted chain lists the unit steps of its corners
                assert!(expected.is_none() || chain(&corners) == digits, "{}", Shown(&digits));
                cases.ran();
            }
        }
    }
    cases.end();
}

/// The stretch of cycle k, for every small end list, and for numbers at the edges.
#[test]
fn stretches() {
    let mut cases = Cases::of("stretches");
    let corners = [7u32; 5];
    for length in 0..=3u32 {
        for m in 0..7u32.pow(length) {
            let ends: Vec<u32> = (0..length).map(|i| m / 7u32.pow(i) % 7).collect();
            for count in 0..=4 {
                for k in 0..=4 {
                    cycle(&corners, &ends, count, k, &mut cases);
                }
            }
        }
    }
    for ends in [[3, u32::MAX], [u32::MAX, 3], [1 << 31, 1 << 31], [5, 5], [0, 0]] {
        for count in [0, 1, 2, 3, u32::MAX] {
            for k in [0, 1, 2, 3, 1 << 31, u32::MAX] {
                cycle(&corners, &ends, count, k, &mut cases);
                cycle(&[], &ends, count, k, &mut cases);
            }
        }
    }
    cases.end();
}

fn cycle(corners: &[u32], ends: &[u32], count: u32, k: u32, cases: &mut Cases) {
    let (start, length) = stretch(corners.len(), ends, count, k);
    let found = nettlestair::cycle(corners, ends, count, k);
    assert_eq!(found, Stretch { start, length }, "ends {ends:?}, count {count}, k {k}, {} corners", corners.len());
    cases.ran();
}

/// The comparisons can fail: with one entry of an answer damaged they say so.
#[test]
fn damage_is_seen() {
    let mut cases = Cases::of("damage of outlines");
    let mut random = Random::of("damage of outlines");
    for _ in 0..20 {
        let corners = random_outline(&mut random, 3, 9);
        let (text, digits) = (svg(&corners).into_bytes(), chain(&corners));
        let mut out = Out::of(&mut random, 9 + 4 * corners.len(), |list| nettlestair::svg(&corners, list));
        each_place(&mut random, &mut cases, &mut out, |o| &mut o.list, &text, |o| o.difference(&text));
        let mut out =
            Out::of(&mut random, corners.len() + 1, |list| nettlestair::read_chain(corners[0], &digits, list));
        each_place(&mut random, &mut cases, &mut out, |o| &mut o.list, &corners, |o| o.difference(&corners));
        out.written.count += 1;
        assert!(out.difference(&corners).is_some(), "another count");
    }
    cases.end();
}
