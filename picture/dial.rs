//! A picture as its regions, from the proved library.

use crate::nettlestair as library;

/// The side in pixels, the region of each pixel, row by row, and the regions.
pub struct Dial {
    pub side: usize,
    pub labels: Vec<usize>,
    pub regions: Vec<Region>,
}

/// A region: the path data of its outlines, the colour of its pixels in the picture and how many there are.
#[derive(Clone, Default)]
pub struct Region {
    pub path: String,
    pub colour: u16,
    pub pixels: usize,
}

/// The pixels of the largest picture.
const LARGEST: usize = 65_536;

impl Dial {
    /// The dial in the bytes of a picture, or the number with which the library refuses it.
    pub fn read(bytes: &[u8]) -> Result<Dial, u32> {
        let mut raster = vec![0; LARGEST];
        let picture = library::read_pgm(bytes, &mut raster);
        accepted(picture.number)?;
        let (n, whole) = (picture.n, picture.count as usize);
        let raster = &raster[..whole];

        let (mut codes, mut levels, mut colours) = (vec![0; whole], vec![0; whole], vec![0; whole]);
        let merged = library::blocks_from_raster(n, raster, &mut codes, &mut levels, &mut colours);
        accepted(merged.number)?;
        let blocks = merged.count as usize;
        let (codes, levels, colours) = (&codes[..blocks], &levels[..blocks], &colours[..blocks]);

        let (mut labels, mut work) = (vec![0; blocks], vec![0; 2 * whole]);
        let (mut owners, mut ends, mut areas) = (vec![0; whole], vec![0; whole], vec![0; whole]);
        let mut corners = vec![0; 4 * whole];
        let traced = library::trace(
            n,
            codes,
            levels,
            colours,
            &mut labels,
            &mut work,
            &mut owners,
            &mut ends,
            &mut corners,
            &mut areas,
        );
        accepted(traced.number)?;

        let mut dial =
            Dial { side: 1 << n, labels: vec![0; whole], regions: vec![Region::default(); traced.regions as usize] };
        for k in 0..traced.cycles {
            let cycle = library::cycle(&corners, &ends, traced.cycles, k).of(&corners);
            let mut text = vec![0; 9 + 4 * cycle.len()];
            let path = library::svg(cycle, &mut text);
            accepted(path.number)?;
            dial.regions[owners[k as usize] as usize]
                .path
                .extend(text[..path.count as usize].iter().map(|&b| b as char));
        }
        for ((&code, &level), &label) in codes.iter().zip(levels).zip(&labels) {
            for code in code..code + (1 << (2 * level)) {
                let pixel = (every_other_digit(code >> 1) << n) + every_other_digit(code);
                let region = &mut dial.regions[label as usize];
                dial.labels[pixel] = label as usize;
                region.colour = raster[pixel];
                region.pixels += 1;
            }
        }
        Ok(dial)
    }

    /// The region of a pixel; outside the picture there is none.
    pub fn at(&self, x: usize, y: usize) -> Option<usize> {
        (x < self.side && y < self.side).then(|| self.labels[y * self.side + x])
    }
}

/// An answer's number as a result.
fn accepted(number: u32) -> Result<(), u32> {
    match number {
        0 => Ok(()),
        _ => Err(number),
    }
}

/// The number that every other binary digit makes, from the lowest on: the x of a location code.
fn every_other_digit(code: u32) -> usize {
    (0..8).map(|i| (code >> (2 * i) & 1) << i).sum::<u32>() as usize
}
