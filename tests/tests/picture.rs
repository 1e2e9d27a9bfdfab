//! The picture for people: the SVG file is read back and held to the regions of the separate implementation, and opened in a
//! browser where one is installed.

use std::collections::BTreeSet;
use std::fs;
use std::path::{Path, PathBuf};
use std::sync::OnceLock;
use tests::browser::Browser;
use tests::cases::Cases;
use tests::model::lines::paths;
use tests::model::pgm::read;
use tests::model::regions::Regions;
use tests::pictures::{of_both_widths, pgm};
use tests::programs::{from_rust, repository, run, samples};
use tests::random::Random;
use tests::rasters;
use tests::svg::{covered, Element};

const FOLDER: &str = env!("CARGO_TARGET_TMPDIR");

/// The program, built once.
fn program() -> &'static Path {
    static PROGRAM: OnceLock<PathBuf> = OnceLock::new();
    PROGRAM.get_or_init(|| from_rust("picture/main.rs", Path::new(FOLDER)))
}

/// The SVG file that the program makes of a picture with these bytes.
fn made(test: &str, bytes: &[u8], words: &[&str]) -> String {
    let name = format!("{FOLDER}/{test}.pgm");
    fs::write(&name, bytes).expect("the picture is written");
    let ran = run(program(), &[&[&name[..]], words].concat());
    assert_eq!((ran.status, &ran.err[..]), (Some(0), ""), "{test}");
    ran.out
}

type Colour = [u8; 3];

/// A colour as it is written: a number sign and six digits.
fn colour(text: &str) -> Colour {
    let value = text.strip_prefix('#').filter(|digits| digits.len() == 6).expect("a colour");
    let [_, red, green, blue] = u32::from_str_radix(value, 16).expect("six digits").to_be_bytes();
    [red, green, blue]
}

/// The largest difference of the parts of two colours.
fn apart(one: Colour, other: Colour) -> u8 {
    (0..3).map(|part| one[part].abs_diff(other[part])).max().expect("three parts")
}

/// The part of the picture that a number takes up: from x, from y, to x, to y.
type Room = [f64; 4];

/// What the model says of a picture.
struct Expected {
    regions: Regions,
    paths: Vec<String>,
    pixels: Vec<usize>,
    colours: Vec<u16>,
}

impl Expected {
    fn of(bytes: &[u8]) -> Expected {
        let picture = read(bytes);
        assert_eq!(picture.number, 0, "an accepted picture");
        let regions = Regions::of(picture.n, &picture.samples);
        let count = regions.count as usize;
        let (mut pixels, mut colours) = (vec![0; count], vec![0; count]);
        for (i, &colour) in picture.samples.iter().enumerate() {
            let region = regions.at((i % (1 << picture.n)) as i64, (i >> picture.n) as i64).expect("inside") as usize;
            pixels[region] += 1;
            colours[region] = colour;
        }
        Expected { paths: paths(&regions), regions, pixels, colours }
    }

    fn title(&self, region: usize) -> String {
        let plural = if self.pixels[region] == 1 { "" } else { "s" };
        format!("Region {region}: {} pixel{plural} of colour {}", self.pixels[region], self.colours[region])
    }

    /// A region's group: its title, exactly its pixels in one path, and its number within them. Gives the colour of the path,
    /// and where the number stands.
    fn holds(&self, region: usize, group: &Element) -> (Colour, Option<Room>) {
        assert_eq!(group.attribute("id"), format!("region-{region}"));
        let ([title], [path]) = (&group.all("title")[..], &group.all("path")[..]) else {
            panic!("region {region} has one title and one path: {group:?}")
        };
        assert_eq!(title.text, self.title(region));
        assert_eq!(path.attribute("d"), self.paths[region], "region {region}");
        let pixels = covered(path.attribute("d"));
        assert_eq!(pixels.len(), self.pixels[region], "region {region}");
        let inside = |x: u32, y: u32| self.regions.at(i64::from(x), i64::from(y)) == Some(region as u32);
        assert!(pixels.iter().all(|&(x, y)| inside(x, y)), "region {region}");
        let number = match &group.all("text")[..] {
            [] => None,
            [number] => {
                assert_eq!(number.text, region.to_string());
                let (x, y, size) = (number.number("x"), number.number("y"), number.number("font-size"));
                let (wide, high) = (0.6 * size * number.text.len() as f64, 0.75 * size);
                let room = [x - wide / 2.0, y - high / 2.0, x + wide / 2.0, y + high / 2.0];
                let all = (room[1] as u32..room[3].ceil() as u32)
                    .all(|y| (room[0] as u32..room[2].ceil() as u32).all(|x| inside(x, y)));
                assert!(all && room[0] >= 0.0 && room[1] >= 0.0, "the number {region} stands in its region: {room:?}");
                let part = size / f64::from(self.regions.side());
                assert!((0.009..=0.0625).contains(&part), "the number {region} is legible: {part} of the side");
                Some(room)
            }
            _ => panic!("region {region} has one number at most"),
        };
        assert_eq!(group.elements.len(), 2 + usize::from(number.is_some()));
        (colour(path.attribute("fill")), number)
    }

    /// A whole file: each region once, each with a colour of its own, neighbours well apart. Gives the colours, and where the
    /// numbers stand.
    fn whole(&self, file: &str) -> (Vec<Colour>, Vec<Option<Room>>) {
        let file = Element::read(file);
        let groups = self.root(&file);
        assert_eq!(groups.len(), self.paths.len(), "each region once");
        assert_eq!(file.elements.len(), 1 + groups.len(), "a style and the regions");
        let (colours, numbers): (Vec<_>, Vec<_>) =
            groups.iter().enumerate().map(|(region, group)| self.holds(region, group)).unzip();
        assert_eq!(colours.iter().collect::<BTreeSet<_>>().len(), groups.len(), "each region has its own colour");
        let side = i64::from(self.regions.side());
        for (x, y) in (0..side * side).map(|i| (i % side, i / side)) {
            let here = self.regions.at(x, y).expect("inside") as usize;
            for (x, y) in [(x + 1, y), (x, y + 1), (x + 1, y + 1), (x - 1, y + 1)] {
                let Some(there) = self.regions.at(x, y).filter(|&there| there as usize != here) else { continue };
                assert!(apart(colours[here], colours[there as usize]) >= 33, "{here} and {there} look alike");
            }
        }
        (colours, numbers)
    }

    /// A file with one region alone.
    fn alone(&self, region: usize, file: &str) {
        let file = Element::read(file);
        let [group] = self.root(&file)[..] else { panic!("one region alone") };
        assert_eq!(file.elements.iter().map(|element| &element.name[..]).collect::<Vec<_>>(), ["style", "rect", "g"]);
        self.holds(region, group);
    }

    /// The groups of a file whose view has all of the picture and a margin.
    fn root<'a>(&self, file: &'a Element) -> Vec<&'a Element> {
        let found = ["xmlns", "fill-rule"].map(|key| file.attribute(key));
        assert_eq!((&file.name[..], found), ("svg", ["http://www.w3.org/2000/svg", "evenodd"]));
        let view: Vec<f64> = file.attribute("viewBox").split(' ').map(|word| word.parse().expect("a number")).collect();
        let side = f64::from(self.regions.side());
        assert!(view[0] < 0.0 && view[0] == view[1] && view[2] == side - 2.0 * view[0] && view[3] == view[2]);
        file.all("g")
    }
}

/// The samples that are accepted, by name.
fn accepted() -> impl Iterator<Item = (PathBuf, Vec<u8>)> {
    samples().into_iter().filter(|(_, bytes)| read(bytes).number == 0)
}

#[test]
fn pictures_read_back() {
    let mut cases = Cases::of("pictures read back");
    let mut random = Random::of("pictures read back");
    let mut pictures: Vec<Vec<u8>> = accepted().map(|(_, bytes)| bytes).collect();
    assert_eq!(pictures.len(), 13, "two clocks, dials 1 to 5, one with a remark, two wide ones, three in block order");
    for n in 0..=6 {
        pictures.extend(rasters::of_every_kind(&mut random, n).iter().flat_map(|raster| of_both_widths(n, raster)));
    }
    for _ in 0..100 {
        let n = random.below(6) as u32;
        pictures.push(pgm(n, 65_535, &rasters::any(&mut random, n)));
    }
    pictures.extend(rasters::structured(&mut random, 8).into_iter().map(|(_, raster)| pgm(8, 65_535, &raster)));
    for bytes in pictures {
        let expected = Expected::of(&bytes);
        expected.whole(&made("read-back", &bytes, &[]));
        for region in [0, random.below(expected.paths.len()), expected.paths.len() - 1] {
            expected.alone(region, &made("read-back", &bytes, &[&region.to_string()]));
        }
        cases.ran();
    }
    cases.end();
}

/// Dial 3 by hand: a region with a hole and the region in it.
#[test]
fn dial_3() {
    let mut cases = Cases::of("picture of dial 3");
    let file = run(program(), &["samples/dial-3.pgm"]).out;
    for part in [
        "<title>Region 0: 12 pixels of colour 1</title>",
        "d=\"M0 0H4V4H0ZM1 3H3V1H1Z\"/>",
        "<title>Region 1: 4 pixels of colour 2</title>",
        "d=\"M1 1H3V3H1Z\"/><text x=\"2\" y=\"2\"",
    ] {
        assert_eq!(file.matches(part).count(), 1, "{part} in {file}");
        cases.ran();
    }
    let name = format!("{FOLDER}/dial-3.svg");
    let ran = run(program(), &["-o", &name, "samples/dial-3.pgm"]);
    assert_eq!((ran.status, ran.out + &ran.err, fs::read_to_string(name).ok()), (Some(0), String::new(), Some(file)));
    cases.ran();
    cases.end();
}

/// Dial 2 by hand, in colours of which the second and the third differ from the first in one byte alone.
#[test]
fn wide_dial() {
    let mut cases = Cases::of("picture of a dial in two bytes a sample");
    let file = run(program(), &["samples/wide-65535.pgm"]).out;
    for part in [
        "<title>Region 0: 11 pixels of colour 65535</title>",
        "d=\"M0 0H4V2H2V1H1V2H2V4H0Z\"/>",
        "<title>Region 1: 1 pixel of colour 65279</title>",
        "d=\"M1 1H2V2H1Z\"/>",
        "<title>Region 2: 4 pixels of colour 65534</title>",
        "d=\"M2 2H4V4H2Z\"/>",
    ] {
        assert_eq!(file.matches(part).count(), 1, "{part} in {file}");
        cases.ran();
    }
    cases.end();
}

/// What can't be served is said on standard error, and nothing is written.
#[test]
fn messages() {
    let mut cases = Cases::of("messages of the picture");
    for (words, status, message) in [
        ("", 2, "no picture is named; --help says how"),
        ("no-such.pgm", 2, "no-such.pgm: No such file or directory"),
        ("samples", 2, "samples: Is a directory"),
        ("README.md", 1, "README.md is refused (10): it is no binary PGM"),
        ("samples/refused-10.pgm", 1, "samples/refused-10.pgm is refused (10): it is no binary PGM"),
        ("samples/refused-11.pgm", 1, "samples/refused-11.pgm is refused (11): width and height are not equal"),
        ("samples/refused-12.pgm", 1, "samples/refused-12.pgm is refused (12): maxval is not from 1 to 65,535"),
        ("samples/refused-13.pgm", 1, "samples/refused-13.pgm is refused (13): the raster is not exactly"),
        ("samples/refused-14.pgm 0", 1, "samples/refused-14.pgm is refused (14): a sample"),
        ("samples/dial-2.pgm 3", 2, "there is no region 3: the last one is 2"),
        ("samples/dial-2.pgm -1", 2, "-1 is not understood"),
        ("samples/dial-2.pgm one", 2, "one is no region number"),
        ("samples/dial-2.pgm 1 2", 2, "2 is one word too many"),
        ("samples/dial-2.pgm -o", 2, "-o takes the name of a file"),
        ("samples/dial-2.pgm -o samples", 2, "samples: Is a directory"),
    ] {
        let ran = run(program(), &words.split_whitespace().collect::<Vec<_>>());
        assert_eq!((ran.status, &ran.out[..]), (Some(status), ""), "{words}");
        assert!(ran.err.starts_with(&format!("picture: {message}")), "{words}: {}", ran.err);
        cases.ran();
    }
    let help = fs::read_to_string(repository("picture/help.txt")).expect("the help");
    for program in [program(), &repository("bin/picture")] {
        let ran = run(program, &["--help"]);
        assert_eq!((ran.status, &ran.out), (Some(0), &help));
        cases.ran();
    }
    // the command says so before it builds anything
    let ran = run(repository("bin/picture"), &["no-such.pgm"]);
    assert_eq!((ran.status, &ran.err[..]), (Some(2), "picture: there is no file no-such.pgm\n"));
    cases.ran();
    cases.end();
}

/// A browser shows each pixel in the colour of its region, as large as its window, and finds the region under the pointer.
#[test]
fn pictures_in_a_browser() {
    let mut cases = Cases::of("pictures in a browser");
    let Some(browser) = Browser::find(Path::new(FOLDER)) else {
        println!("no Chromium is installed: no picture is opened in a browser");
        return;
    };
    for (name, bytes) in accepted() {
        let expected = Expected::of(&bytes);
        let file = made("browser", &bytes, &[]);
        let (colours, numbers) = expected.whole(&file);
        let path = PathBuf::from(format!("{FOLDER}/browser.svg"));
        fs::write(&path, file).expect("the file is written");
        let Some(image) = browser.screenshot(&path, 1200, 1000) else {
            println!("the browser makes no screenshot of {}: no further picture is opened", name.display());
            break;
        };
        // the picture is what is not the background, which the corner shows: its north row, from west to east
        let plain = |x: usize, y: usize| image.at(x, y) == image.at(0, 0);
        let top = (0..image.height).find(|&y| !plain(image.width / 2, y)).expect("a picture");
        let west = (0..image.width).find(|&x| !plain(x, top)).expect("a picture");
        let east = (0..image.width).rfind(|&x| !plain(x, top)).expect("a picture") + 1;
        assert!(east - west > 900 - 900 / 20, "{} fills the window: {west} to {east}", name.display());
        let side = expected.regions.side();
        let scale = (east - west) as f64 / f64::from(side);
        for (x, y) in (0..side * side).map(|i| (i % side, i / side)) {
            let (middle_x, middle_y) = (f64::from(x) + 0.5, f64::from(y) + 0.5);
            let region = expected.regions.at(i64::from(x), i64::from(y)).expect("inside") as usize;
            let [from_x, from_y, to_x, to_y] = numbers[region].unwrap_or_default();
            if (from_x - 0.5..to_x + 0.5).contains(&middle_x) && (from_y - 0.5..to_y + 0.5).contains(&middle_y) {
                continue;
            }
            let shown = image.at(west + (middle_x * scale) as usize, top + (middle_y * scale) as usize);
            assert!(apart(shown, colours[region]) <= 3, "{}, pixel {x} {y}: {shown:?}", name.display());
            cases.ran();
        }
        pointed(&browser, &expected, &path, &mut cases);
    }
    if cases.shows_something() {
        cases.end();
    }
}

/// The titles that a browser finds under the pointer, at the middle of pixels all over the picture.
fn pointed(browser: &Browser, expected: &Expected, file: &Path, cases: &mut Cases) {
    let side = expected.regions.side();
    let pixels: Vec<(u32, u32)> = (0..side * side).step_by(7).map(|i| (i % side, i / side)).collect();
    let list: Vec<[u32; 2]> = pixels.iter().map(|&(x, y)| [x, y]).collect();
    let page = format!(
        "<iframe id=frame src='{}' width=1056 height=1056 style='border: 0'></iframe><pre id=found></pre><script>
        const place = pixel => 16 + (pixel + .5) * 1024 / {side};
        const title = ([x, y]) =>
            frame.contentDocument.elementFromPoint(place(x), place(y)).parentNode.querySelector('title').textContent;
        frame.onload = () => found.textContent = {list:?}.map(title).join('\\n');
        </script>",
        file.display()
    );
    let name = file.with_extension("html");
    fs::write(&name, page).expect("the page is written");
    let page = browser.page(&name);
    let Some((_, found)) = page.split_once("<pre id=\"found\">") else {
        println!("the browser shows no page");
        return;
    };
    let found: Vec<&str> = found.split_once("</pre>").expect("its end").0.lines().collect();
    assert_eq!(found.len(), pixels.len());
    for (&(x, y), found) in pixels.iter().zip(found) {
        let region = expected.regions.at(i64::from(x), i64::from(y)).expect("inside");
        assert_eq!(found, expected.title(region as usize), "under the pointer at {x} {y}");
        cases.ran();
    }
}
