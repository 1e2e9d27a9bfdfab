//! What is timed and how it is told.

use crate::inputs::{Inputs, Pair, Specks};
use crate::pictures::{self, CUT, KINDS, NOISE_OF_256, PAIRS, TOUCHED_UP};
use crate::plain::spread_code;
use crate::sides::{Side, LIBRARY, PLAIN};
use crate::timing::{compare, Times, SAMPLES};
use std::cell::RefCell;
use std::hint::black_box;

const GOAL_RATIO: f64 = 1.0;
const DEFECT_RATIO: f64 = 1.5;
const GOAL_GROWTH: f64 = 4.2;

/// The sides for which growth is told: 2^4 to 2^8.
const SIZES: std::ops::RangeInclusive<u32> = 4..=8;

pub fn preface() {
    println!("The proved library against plain Rust: one machine, one run, the same pictures, both built for release.");
    println!("A time is processor time, the median of {SAMPLES} samples, the two sides taken by turns.");
    println!("All lists are lent by the caller, the same ones to both sides; neither side allocates anything else.");
    println!("The lists are not cleared before a call: they hold what the call before left there.");
    println!(
        "ratio: library / plain; goal at most {GOAL_RATIO:.1} (*: above {GOAL_RATIO:.1}, **: above {DEFECT_RATIO:.1})"
    );
}

/// What stands above the columns of one function.
const HEADING: &str = "  library     plain  ratio  ";

/// A mark for a ratio above the goal.
fn mark(ratio: f64) -> &'static str {
    if ratio > DEFECT_RATIO {
        "**"
    } else if ratio > GOAL_RATIO {
        "*"
    } else {
        ""
    }
}

/// Both times in microseconds and their ratio.
fn columns(times: Times) -> String {
    let ratio = times.ratio();
    format!("{:>9.1} {:>9.1} {ratio:>6.2}{:<2}", 1e6 * times.library, 1e6 * times.plain, mark(ratio))
}

/// Check, number and trace at n = 8, then how the time of trace grows. Says whether all answers were equal.
pub fn outlines() -> bool {
    let mut equal = true;
    let mut traces = Vec::new();
    println!("\nn = 8, microseconds a picture (number runs the check; trace runs the check and the numbering)");
    println!("{:<28} | {:^28} | {:^28} | {:^28} |", "", "check", "number", "trace");
    println!("{:<21}{:>7} | {HEADING} | {HEADING} | {HEADING} | answers", "", "blocks");
    for kind in &KINDS {
        let sizes: Vec<Inputs> = SIZES.map(|n| Inputs::new(kind, n)).collect();
        let same = sizes.iter().all(Inputs::equal_outlines);
        let times: Vec<Times> = sizes.iter().map(Inputs::time_trace).collect();
        let largest = &sizes[sizes.len() - 1];
        println!(
            "{:<21}{:>7} | {} | {} | {} | {}",
            kind.name,
            largest.blocks(),
            columns(largest.time_check()),
            columns(largest.time_number()),
            columns(times[times.len() - 1]),
            if same { "equal" } else { "DIFFERENT" }
        );
        equal &= same;
        traces.push((kind.name, times));
    }
    growth("trace", &traces);
    equal
}

/// How the time of a function grows from n = 4 to n = 8: the factor of each level and the mean factor.
fn growth(function: &str, rows: &[(&str, Vec<Times>)]) {
    println!(
        "\nHow the time of {function} grows with each level, n = 4 to n = 8; goal at most {GOAL_GROWTH} (*: above)"
    );
    println!("At each n as many pictures as have 65,536 pixels in all; the time of one is the mean.");
    println!("{:<21}| {:^45} | {:^45}", "", "library", "plain");
    let levels: String = ["4 to 5", "5 to 6", "6 to 7", "7 to 8", "mean"].map(|level| format!("{level:>7}  ")).concat();
    println!("{:<21}| {levels} | {levels}", "");
    for (name, times) in rows {
        let library: Vec<f64> = times.iter().map(|times| times.library).collect();
        let plain: Vec<f64> = times.iter().map(|times| times.plain).collect();
        println!("{name:<21}| {} | {}", factors(&library), factors(&plain));
    }
}

fn factors(times: &[f64]) -> String {
    let levels = times.len() - 1;
    let mean = (times[levels] / times[0]).powf(1.0 / levels as f64);
    let each = times.windows(2).map(|pair| pair[1] / pair[0]);
    each.chain([mean])
        .map(|factor| format!("{factor:>7.2}{:<2}", if factor > GOAL_GROWTH { "*" } else { "" }))
        .collect()
}

/// Raster to blocks and back at n = 8, then pictures read. Says whether all answers were equal.
pub fn rasters() -> bool {
    let mut equal = true;
    println!("\nn = 8, microseconds a picture");
    println!("{:<28} | {:^28} | {:^28} |", "", "blocks_from_raster", "raster_from_blocks");
    println!("{:<21}{:>7} | {HEADING} | {HEADING} | answers", "", "blocks");
    for kind in &KINDS {
        let same = SIZES.map(|n| Inputs::new(kind, n)).all(|inputs| inputs.equal_rasters());
        let largest = Inputs::new(kind, *SIZES.end());
        println!(
            "{:<21}{:>7} | {} | {} | {}",
            kind.name,
            largest.blocks(),
            columns(largest.time_merge()),
            columns(largest.time_paint()),
            if same { "equal" } else { "DIFFERENT" }
        );
        equal &= same;
    }
    reading() && equal
}

/// Pictures of 256 by 256 read into a raster, of one byte a sample and of two, with the greatest maxval of that width and with a smaller
/// one. Says whether all answers were equal.
fn reading() -> bool {
    let mut equal = true;
    println!("\nA picture of 256 by 256 read into a raster, microseconds");
    println!("{:<28} | {:^28} |", "", "read_pgm");
    println!("{:<28} | {HEADING} | answers", "");
    for (name, maxval) in [
        ("maxval 255, one byte", 255),
        ("maxval 200, one byte", 200),
        ("maxval 65,535, two bytes", 65_535),
        ("maxval 1,000, two bytes", 1_000),
    ] {
        let read = |side: &Side, bytes: &[u8]| {
            let mut raster = vec![9; 65_537];
            ((side.read_pgm)(bytes, &mut raster), raster)
        };
        let equal_answers = |bytes: &[u8]| read(&LIBRARY, bytes) == read(&PLAIN, bytes);
        let same = SIZES
            .map(|n| pictures::file(n, maxval, 0))
            .all(|file| equal_answers(&file) && equal_answers(&file[..file.len() - 1]));
        let file = pictures::file(8, maxval, 0);
        let raster = RefCell::new(vec![0; 65_536]);
        let job = |side: &Side| {
            black_box((side.read_pgm)(black_box(&file), &mut raster.borrow_mut()));
        };
        println!(
            "{name:<28} | {} | {}",
            columns(compare(|| job(&LIBRARY), || job(&PLAIN))),
            if same { "equal" } else { "DIFFERENT" }
        );
        equal &= same;
    }
    equal
}

/// A raster into block order and back at n = 6 and n = 8; its content makes no difference. Says whether all answers were
/// equal, from n = 0 to n = 8.
pub fn orders() -> bool {
    let same = (0..=8).all(|n| Inputs::new(&NOISE_OF_256, n).equal_orders());
    println!("\nA raster into block order and back, microseconds a picture; the table of plain Rust is a static");
    println!("{:<28} | {:^28} | {:^28} |", "", "to_block_order", "from_block_order");
    println!("{:<28} | {HEADING} | {HEADING} | answers", "");
    for n in [6, 8] {
        let inputs = Inputs::new(&NOISE_OF_256, n);
        println!(
            "{:<28} | {} | {} | {}",
            format!("n = {n}"),
            columns(inputs.time_order(|side| side.to_block_order)),
            columns(inputs.time_order(|side| side.from_block_order)),
            if same { "equal" } else { "DIFFERENT" }
        );
    }
    same
}

/// One picture laid over another at n = 8. Says whether all answers were equal.
pub fn overlay() -> bool {
    let mut equal = true;
    println!("\nn = 8, microseconds for one picture over another (plain Rust clears two rasters of its own)");
    println!("{:<28} {:^23} | {:^28} |", "", "blocks", "overlay");
    println!("{:<28} {:>7} {:>7} {:>7} | {HEADING} | answers", "", "first", "second", "merged");
    for (name, kinds) in &PAIRS {
        let same = SIZES.map(|n| Pair::new(kinds, n)).all(|pair| pair.equal());
        let largest = Pair::new(kinds, *SIZES.end());
        let [first, second, merged] = largest.blocks();
        println!(
            "{name:<28} {first:>7} {second:>7} {merged:>7} | {} | {}",
            columns(largest.time()),
            if same { "equal" } else { "DIFFERENT" }
        );
        equal &= same;
    }
    equal
}

/// Single pixels touched up at n = 8. Says whether all answers were equal.
pub fn touch_up() -> bool {
    let mut equal = true;
    println!("\nn = 8, microseconds for one pixel touched up (plain Rust clears a raster of its own)");
    println!(
        "{} pixels spread over the picture, each in a new colour and in its own again; the time is the mean",
        Specks::COUNT
    );
    println!("{:<28} {:^15} | {:^28} |", "", "blocks", "touch_up");
    println!("{:<28} {:>7} {:>7} | {HEADING} | answers", "", "without", "with");
    for kind in &TOUCHED_UP {
        let same = SIZES.map(|n| Specks::new(kind, n)).all(|specks| specks.equal());
        let largest = Specks::new(kind, *SIZES.end());
        let [without, with] = largest.blocks();
        println!(
            "{:<28} {without:>7} {with:>7} | {} | {}",
            kind.name,
            columns(largest.time()),
            if same { "equal" } else { "DIFFERENT" }
        );
        equal &= same;
    }
    equal
}

/// Pictures from their outlines at n = 8. Says whether all answers were equal.
pub fn restoring() -> bool {
    let mut equal = true;
    println!("\nn = 8, microseconds for the block list from the outlines of a picture");
    println!("(both sides clear 8 entries a pixel of the work list at the end of each call)");
    println!("{:<28} {:>7} | {:^28} |", "", "", "blocks_from_outlines");
    println!("{:<21}{:>7} {:>7} | {HEADING} | answers", "", "blocks", "corners");
    for kind in &KINDS {
        let same = SIZES.map(|n| Inputs::new(kind, n)).all(|inputs| inputs.equal_restoring());
        let largest = Inputs::new(kind, *SIZES.end());
        println!(
            "{:<21}{:>7} {:>7} | {} | {}",
            kind.name,
            largest.blocks(),
            largest.corners(),
            columns(largest.time_restore()),
            if same { "equal" } else { "DIFFERENT" }
        );
        equal &= same;
    }
    equal
}

/// All outlines of a picture handed out by turns at n = 8. Says whether all answers were equal.
pub fn serving() -> bool {
    let mut equal = true;
    println!("\nn = 8, microseconds for all outlines of a picture handed out by turns");
    println!("(each is opened as soon as there is room; each opening and each turn is a call of its own)");
    println!("{:<28} {:^15} | {:^28} |", "", "", "open and turn");
    println!("{:<21}{:>7} {:>7} {:>7} | {HEADING} | answers", "", "cycles", "corners", "turns");
    for kind in &KINDS {
        let same = SIZES.map(|n| Inputs::new(kind, n)).all(|inputs| inputs.equal_serving());
        let largest = Inputs::new(kind, *SIZES.end());
        println!(
            "{:<21}{:>7} {:>7} {:>7} | {} | {}",
            kind.name,
            largest.cycles(),
            largest.corners(),
            largest.turns(),
            columns(largest.time_serving()),
            if same { "equal" } else { "DIFFERENT" }
        );
        equal &= same;
    }
    equal
}

/// Orders for cutting from the inside out at n = 8, then how the time of the least order grows. Says whether all answers were equal.
pub fn cutting() -> bool {
    let mut equal = true;
    let mut rows = Vec::new();
    println!("\nn = 8, microseconds a picture (both run the check and the numbering; the order that is judged is the least one)");
    println!("{:<28} {:>7} | {:^28} | {:^28} |", "", "", "least_order", "check_order");
    println!("{:<21}{:>7} {:>7} | {HEADING} | {HEADING} | answers", "", "blocks", "regions");
    for kind in &CUT {
        let sizes: Vec<Inputs> = SIZES.map(|n| Inputs::new(kind, n)).collect();
        let same = sizes.iter().all(Inputs::equal_cutting);
        let times: Vec<Times> = sizes.iter().map(Inputs::time_least_order).collect();
        let largest = &sizes[sizes.len() - 1];
        println!(
            "{:<21}{:>7} {:>7} | {} | {} | {}",
            kind.name,
            largest.blocks(),
            largest.regions(),
            columns(times[times.len() - 1]),
            columns(largest.time_check_order()),
            if same { "equal" } else { "DIFFERENT" }
        );
        equal &= same;
        rows.push((kind.name, times));
    }
    growth("least_order", &rows);
    equal
}

/// A code for each pixel of 256 by 256, against a table that is a `static` and against the spreading that the library had before
/// its table; each code is a call of its own. Says whether all answers were equal.
pub fn codes() -> bool {
    let pixels = || (0..=255).flat_map(|y| (0..=255).map(move |x| (x, y)));
    let same =
        pixels().all(|(x, y)| (LIBRARY.code)(x, y) == (PLAIN.code)(x, y) && (PLAIN.code)(x, y) == spread_code(x, y));
    let all = |code: fn(u16, u16) -> u32| {
        let code = black_box(code);
        move || {
            for (x, y) in pixels() {
                black_box(code(x, y));
            }
        }
    };
    println!("\nA code for each pixel of 256 by 256, microseconds; the table of plain Rust is a static");
    println!("{:<28} | {:^28} | {:^28} |", "", "static table", "former spreading");
    println!("{:<28} | {HEADING} | {HEADING} | answers", "");
    println!(
        "{:<28} | {} | {} | {}",
        "code",
        columns(compare(all(LIBRARY.code), all(PLAIN.code))),
        columns(compare(all(LIBRARY.code), all(spread_code))),
        if same { "equal" } else { "DIFFERENT" }
    );
    same
}
