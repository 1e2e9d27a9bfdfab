//! Times the proved library against a plain Rust implementation of the same job, on the same pictures in one run.

#[path = "../../tests/src/clock.rs"]
mod clock;
#[path = "../../samples/dial.rs"]
mod dial;
mod inputs;
#[path = "../../include/nettlestair.rs"]
mod nettlestair;
mod pictures;
mod plain;
#[path = "../../tests/src/random.rs"]
#[allow(dead_code)]
mod random;
mod report;
mod sides;
mod timing;

use std::process::ExitCode;

const HELP: &str = "\
usage: cargo run --release --offline --manifest-path bench/Cargo.toml [-- MODE]

Times the proved library (crates/exports/out/libexports.a) against a plain Rust implementation of the same job.

  outlines   check, number and trace at n = 8, and how the time of trace grows from n = 4 to n = 8
  rasters    blocks_from_raster and raster_from_blocks at n = 8, and read_pgm of one byte a sample and of two
  orders     to_block_order and from_block_order at n = 6 and n = 8
  overlay    one picture laid over another at n = 8
  touch-up   single pixels of a picture touched up at n = 8
  restoring  blocks_from_outlines at n = 8
  serving    open and turn at n = 8, until all outlines of a picture are handed out
  cutting    least_order and check_order at n = 8, and how the time of least_order grows from n = 4 to n = 8
  codes      a code for each pixel of 256 by 256
  all        all of these (without MODE)

The status is 1 if the answers of the two differ anywhere, else 0, whatever the times.
";

fn main() -> ExitCode {
    let mode = std::env::args().nth(1).unwrap_or("all".to_string());
    let reports: &[fn() -> bool] = match mode.as_str() {
        "outlines" => &[report::outlines],
        "rasters" => &[report::rasters],
        "orders" => &[report::orders],
        "overlay" => &[report::overlay],
        "touch-up" => &[report::touch_up],
        "restoring" => &[report::restoring],
        "serving" => &[report::serving],
        "cutting" => &[report::cutting],
        "codes" => &[report::codes],
        "all" => &[
            report::outlines,
            report::rasters,
            report::orders,
            report::overlay,
            report::touch_up,
            report::restoring,
            report::serving,
            report::cutting,
            report::codes,
        ],
        "help" | "--help" | "-h" => {
            print!("{HELP}");
            return ExitCode::SUCCESS;
        }
        other => {
            eprint!("there is no mode {other}\n\n{HELP}");
            return ExitCode::from(2);
        }
    };
    report::preface();
    let mut equal = true;
    for report in reports {
        equal &= report();
    }
    if equal {
        ExitCode::SUCCESS
    } else {
        ExitCode::FAILURE
    }
}
