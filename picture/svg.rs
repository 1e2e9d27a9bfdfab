//! The SVG file.

use crate::colours::{self, Colour};
use crate::dial::Dial;
use crate::numbers::{self, Number};
use std::fmt::Write;

/// Every region of a dial.
pub fn whole(dial: &Dial) -> String {
    let (colours, numbers) = (colours::of(dial), numbers::of(dial));
    let regions = (0..dial.regions.len()).map(|region| group(dial, region, colours[region], numbers[region], ""));
    file(dial.side, &regions.collect::<String>())
}

/// One region of a dial alone, at its place on a blank ground, with a line along its outline.
pub fn alone(dial: &Dial, region: usize) -> String {
    let side = dial.side;
    let ground = format!("<rect width=\"{side}\" height=\"{side}\" fill=\"#fff\"/>\n");
    let line = " stroke=\"#222\" stroke-width=\"2\" vector-effect=\"non-scaling-stroke\"";
    file(side, &(ground + &group(dial, region, colours::of(dial)[region], numbers::of(dial)[region], line)))
}

/// A file with this content. What it is stands in attributes, which every viewer understands; the style is for browsers, which
/// show it as large as their window and light up the region under the pointer.
fn file(side: usize, content: &str) -> String {
    let margin = side as f64 / 64.0;
    let outside = side as f64 + 2.0 * margin;
    format!(
        r##"<svg xmlns="http://www.w3.org/2000/svg" width="1024" height="1024" viewBox="-{margin} -{margin} {outside} {outside}"
 fill-rule="evenodd" shape-rendering="crispEdges" font-family="sans-serif" text-anchor="middle">
<style>
svg:root {{ width: 100%; height: 100%; background: #d8d8d4 }}
text {{ pointer-events: none }}
g:hover path {{ fill: #d22 }}
g:hover text {{ fill: #fff }}
</style>
{content}</svg>
"##
    )
}

/// A region: what it tells under the pointer, its outlines and its number.
fn group(dial: &Dial, region: usize, [red, green, blue]: Colour, number: Option<Number>, line: &str) -> String {
    let path = &dial.regions[region].path;
    let (pixels, colour) = (dial.regions[region].pixels, dial.regions[region].colour);
    let plural = if pixels == 1 { "" } else { "s" };
    let mut text =
        format!(r#"<g id="region-{region}"><title>Region {region}: {pixels} pixel{plural} of colour {colour}</title>"#);
    let _ = write!(text, r##"<path fill="#{red:02x}{green:02x}{blue:02x}"{line} d="{path}"/>"##);
    if let Some(Number { x, y, size }) = number {
        let _ = write!(text, r#"<text x="{x}" y="{y}" dy=".36em" font-size="{size:.3}">{region}</text>"#);
    }
    text + "</g>\n"
}
