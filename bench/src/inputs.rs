//! Pictures of one kind and one n, two of one n, or one with its pixels touched up; the answers of both sides on them, and the times.

use crate::nettlestair::{State, Turned, Written};
use crate::pictures::{Kind, NEW_COLOUR};
use crate::sides::{Blocks, Given, Lists, Side, Speck, Way, LIBRARY, PLAIN};
use crate::timing::{compare, Times};
use std::cell::RefCell;
use std::hint::black_box;

/// A raster with its block list, the least order of its regions and its outlines.
struct Input {
    raster: Vec<u16>,
    codes: Vec<u32>,
    levels: Vec<u8>,
    colours: Vec<u16>,
    order: Vec<u32>,
    owners: Vec<u32>,
    ends: Vec<u32>,
    corners: Vec<u32>,
    region_colours: Vec<u16>,
}

/// The answer of a function that writes a block list and uses a work list, with the lists.
type Restored = (Written, Vec<u32>, Vec<u8>, Vec<u16>, Vec<u32>);

impl Input {
    fn new(kind: &Kind, n: u32, seed: u64) -> Input {
        let raster = (kind.raster)(n, seed);
        let whole = raster.len();
        let (mut codes, mut levels, mut colours) = (vec![0; whole], vec![0; whole], vec![0; whole]);
        let written = (PLAIN.blocks_from_raster)(n, &raster, &mut codes, &mut levels, &mut colours);
        assert_eq!(written.number, 0, "{} has a block list", kind.name);
        codes.truncate(written.count as usize);
        levels.truncate(written.count as usize);
        colours.truncate(written.count as usize);
        let (order, owners, ends, corners) = (vec![], vec![], vec![], vec![]);
        let region_colours = vec![];
        let mut input = Input { raster, codes, levels, colours, order, owners, ends, corners, region_colours };
        let (written, _, order) = input.least_order(n, &PLAIN);
        input.order = order[..written.count as usize].to_vec();
        input.trace(n);
        input
    }

    /// Sets the outlines and the colour of each region.
    fn trace(&mut self, n: u32) {
        let mut lists = Lists::new(n, self.codes.len());
        let traced = (PLAIN.trace)(n, self.blocks(), lists.lend());
        let Lists { labels, owners, ends, corners, .. } = lists;
        self.owners = owners[..traced.cycles as usize].to_vec();
        self.ends = ends[..traced.cycles as usize].to_vec();
        self.corners = corners[..traced.corners as usize].to_vec();
        self.region_colours = vec![0; traced.regions as usize];
        for (&label, &colour) in labels.iter().zip(&self.colours) {
            self.region_colours[label as usize] = colour;
        }
    }

    fn given(&self) -> Given<'_> {
        Given {
            regions: self.region_colours.len() as u32,
            cycles: self.ends.len() as u32,
            corner_count: self.corners.len() as u32,
            owners: &self.owners,
            ends: &self.ends,
            corners: &self.corners,
            colours: &self.region_colours,
        }
    }

    /// The answer to given outlines on fresh lists, and every entry of the lists.
    fn blocks_from_outlines(&self, n: u32, side: &Side, given: Given) -> Restored {
        let whole = self.raster.len();
        let (mut codes, mut levels, mut colours) = (vec![9; whole], vec![9; whole], vec![9; whole]);
        let mut work = vec![9; 8 * whole + 1];
        let written = (side.blocks_from_outlines)(n, given, &mut codes, &mut levels, &mut colours, &mut work);
        (written, codes, levels, colours, work)
    }

    /// The answers to the outlines, to the same with another last corner, to one cycle less and to regions of one colour.
    fn restoring(&self, n: u32, side: &Side) -> [Restored; 4] {
        let right = self.given();
        let mut corners = self.corners.clone();
        corners[self.corners.len() - 1] ^= 1;
        let colours = vec![7; self.region_colours.len()];
        let fewer = Given { cycles: right.cycles - 1, ..right };
        [right, Given { corners: &corners, ..right }, fewer, Given { colours: &colours, ..right }]
            .map(|given| self.blocks_from_outlines(n, side, given))
    }

    fn blocks(&self) -> Blocks<'_> {
        Blocks { codes: &self.codes, levels: &self.levels, colours: &self.colours }
    }

    /// The answers of check, number and trace on fresh lists, and every entry of the lists.
    fn outlines(&self, n: u32, side: &Side) -> impl PartialEq {
        let mut numbered = Lists::new(n, self.codes.len());
        let mut traced = numbered.clone();
        let check = (side.check)(n, self.blocks());
        let number = (side.number)(n, self.blocks(), &mut numbered.labels, &mut numbered.work);
        let trace = (side.trace)(n, self.blocks(), traced.lend());
        (check, number, trace, numbered, traced)
    }

    /// The least order on fresh lists: the answer and every entry of the lists.
    fn least_order(&self, n: u32, side: &Side) -> (Written, Lists, Vec<u32>) {
        let mut lists = Lists::new(n, self.codes.len());
        let mut order = vec![9; self.codes.len()];
        let written = (side.least_order)(n, self.blocks(), &mut lists.labels, &mut lists.work, &mut order);
        (written, lists, order)
    }

    /// The number of an order on fresh lists, and every entry of the lists.
    fn check_order(&self, n: u32, side: &Side, order: &[u32]) -> (u32, Lists) {
        let mut lists = Lists::new(n, self.codes.len());
        ((side.check_order)(n, self.blocks(), order, &mut lists.labels, &mut lists.work), lists)
    }

    /// The least order, and what is answered to it, to rising numbers and to an order that lacks a region.
    fn cutting(&self, n: u32, side: &Side) -> impl PartialEq {
        let rising: Vec<u32> = (0..self.order.len() as u32).collect();
        let numbers = [&self.order[..], &rising, &rising[1..]].map(|order| self.check_order(n, side, order));
        (self.least_order(n, side), numbers)
    }

    /// Hands out all outlines by turns, each opened as soon as there is room for it. Each turn's answer goes to `each`. On either side each
    /// opening and turn is a call of its own.
    fn serve(&self, side: &Side, mut each: impl FnMut(&Turned)) {
        let (open, turn) = (black_box(side.open), black_box(side.turn));
        let count = self.ends.len() as u32;
        let mut next = 0;
        let mut state = State::default();
        loop {
            while next < count && state.length < 8 {
                state = open(state, next, count).state;
                next += 1;
            }
            let turned = turn(state, &self.corners, &self.ends, count);
            each(&turned);
            if !turned.served {
                return;
            }
            state = turned.state;
        }
    }

    /// The answers of all turns, the last of which serves none; and after each those to three openings: of cycle 0, of the cycle just served,
    /// and of one not below the count.
    fn serving(&self, side: &Side) -> (Vec<Turned>, impl PartialEq) {
        let mut turns = vec![];
        self.serve(side, |turned| turns.push(*turned));
        let openings_after = |turned: &Turned| {
            [0, turned.cycle, u32::MAX - 1].map(|cycle| (side.open)(turned.state, cycle, u32::MAX - 1))
        };
        let openings: Vec<_> = turns.iter().map(openings_after).collect();
        (turns, openings)
    }

    /// The answers of both conversions on fresh lists, and every entry of the lists.
    fn rasters(&self, n: u32, side: &Side) -> impl PartialEq {
        let whole = self.raster.len();
        let (mut codes, mut levels, mut colours, mut raster) =
            (vec![9; whole], vec![9; whole], vec![9; whole], vec![9; whole]);
        let merged = (side.blocks_from_raster)(n, &self.raster, &mut codes, &mut levels, &mut colours);
        let painted = (side.raster_from_blocks)(n, self.blocks(), &mut raster);
        (merged, painted, codes, levels, colours, raster)
    }

    /// The answers of both ways to rearrange a raster on fresh lists, and every entry of the lists.
    fn orders(&self, n: u32, side: &Side) -> impl PartialEq {
        let mut lists = [(); 2].map(|()| vec![9; self.raster.len() + 1]);
        let to = (side.to_block_order)(n, &self.raster, &mut lists[0]);
        let from = (side.from_block_order)(n, &self.raster, &mut lists[1]);
        (to, from, lists)
    }
}

/// As many pictures of one kind and one n as have 65,536 pixels in all. One small picture alone, called again and again,
/// would be learnt by heart by the processor's branch predictor.
pub struct Inputs {
    n: u32,
    inputs: Vec<Input>,
}

impl Inputs {
    pub fn new(kind: &Kind, n: u32) -> Inputs {
        Inputs { n, inputs: (0..65_536u64 >> (2 * n)).map(|seed| Input::new(kind, n, seed)).collect() }
    }

    /// The blocks of the first picture.
    pub fn blocks(&self) -> usize {
        self.inputs[0].codes.len()
    }

    pub fn equal_outlines(&self) -> bool {
        self.inputs.iter().all(|input| input.outlines(self.n, &LIBRARY) == input.outlines(self.n, &PLAIN))
    }

    /// The corners of the first picture.
    pub fn corners(&self) -> usize {
        self.inputs[0].corners.len()
    }

    /// The cycles of the first picture.
    pub fn cycles(&self) -> usize {
        self.inputs[0].ends.len()
    }

    /// The turns in which the corners of the first picture are handed out.
    pub fn turns(&self) -> usize {
        let mut turns = 0;
        self.inputs[0].serve(&PLAIN, |turned| turns += usize::from(turned.served));
        turns
    }

    /// The regions of the first picture.
    pub fn regions(&self) -> usize {
        self.inputs[0].order.len()
    }

    pub fn equal_cutting(&self) -> bool {
        self.inputs.iter().all(|input| input.cutting(self.n, &LIBRARY) == input.cutting(self.n, &PLAIN))
    }

    /// The answers to the outlines of each picture are equal on both sides, and the first of them is its block list.
    pub fn equal_restoring(&self) -> bool {
        self.inputs.iter().all(|input| {
            let [library, plain] = [&LIBRARY, &PLAIN].map(|side| input.restoring(self.n, side));
            let (written, codes, ..) = &library[0];
            let given_back = written.number == 0 && codes[..written.count as usize] == input.codes;
            given_back && library[1..].iter().any(|(written, ..)| written.number == 18) && library == plain
        })
    }

    /// The answers to all openings and turns are equal on both sides, and the turns hand out every corner.
    pub fn equal_serving(&self) -> bool {
        self.inputs.iter().all(|input| {
            let [library, plain] = [&LIBRARY, &PLAIN].map(|side| input.serving(side));
            let handed_out = library.0.iter().map(|turned| turned.count as usize).sum::<usize>();
            handed_out == input.corners.len() && library == plain
        })
    }

    pub fn equal_rasters(&self) -> bool {
        self.inputs.iter().all(|input| input.rasters(self.n, &LIBRARY) == input.rasters(self.n, &PLAIN))
    }

    pub fn equal_orders(&self) -> bool {
        self.inputs.iter().all(|input| input.orders(self.n, &LIBRARY) == input.orders(self.n, &PLAIN))
    }

    /// The times of a job for one picture.
    fn time(&self, mut job: impl FnMut(&Side, &Input)) -> Times {
        let job = RefCell::new(|side: &Side| self.inputs.iter().for_each(|input| job(side, input)));
        compare(|| job.borrow_mut()(&LIBRARY), || job.borrow_mut()(&PLAIN)).of_one_in(self.inputs.len())
    }

    /// Lists for every picture.
    fn lists(&self) -> Lists {
        Lists::new(self.n, 1 << (2 * self.n))
    }

    pub fn time_check(&self) -> Times {
        self.time(|side, input| {
            black_box((side.check)(self.n, input.blocks()));
        })
    }

    pub fn time_number(&self) -> Times {
        let mut lists = self.lists();
        self.time(|side, input| {
            black_box((side.number)(self.n, input.blocks(), &mut lists.labels, &mut lists.work));
        })
    }

    pub fn time_trace(&self) -> Times {
        let mut lists = self.lists();
        self.time(|side, input| {
            black_box((side.trace)(self.n, input.blocks(), lists.lend()));
        })
    }

    pub fn time_least_order(&self) -> Times {
        let mut lists = self.lists();
        let mut order = vec![0; 1 << (2 * self.n)];
        self.time(|side, input| {
            black_box((side.least_order)(self.n, input.blocks(), &mut lists.labels, &mut lists.work, &mut order));
        })
    }

    /// The order that is judged is the least one.
    pub fn time_check_order(&self) -> Times {
        let mut lists = self.lists();
        self.time(|side, input| {
            let Lists { labels, work, .. } = &mut lists;
            black_box((side.check_order)(self.n, input.blocks(), &input.order, labels, work));
        })
    }

    pub fn time_restore(&self) -> Times {
        let whole = 1 << (2 * self.n);
        let (mut codes, mut levels, mut colours) = (vec![0; whole], vec![0; whole], vec![0; whole]);
        let mut work = vec![0; 8 * whole];
        self.time(|side, input| {
            let given = input.given();
            black_box((side.blocks_from_outlines)(self.n, given, &mut codes, &mut levels, &mut colours, &mut work));
        })
    }

    pub fn time_serving(&self) -> Times {
        self.time(|side, input| {
            input.serve(side, |turned| {
                black_box(turned);
            });
        })
    }

    pub fn time_merge(&self) -> Times {
        let whole = 1 << (2 * self.n);
        let (mut codes, mut levels, mut colours) = (vec![0; whole], vec![0; whole], vec![0; whole]);
        self.time(|side, input| {
            black_box((side.blocks_from_raster)(self.n, &input.raster, &mut codes, &mut levels, &mut colours));
        })
    }

    pub fn time_paint(&self) -> Times {
        let mut raster = vec![0; 1 << (2 * self.n)];
        self.time(|side, input| {
            black_box((side.raster_from_blocks)(self.n, input.blocks(), &mut raster));
        })
    }

    /// The times of one way to rearrange a raster.
    pub fn time_order(&self, way: fn(&Side) -> Way) -> Times {
        let mut target = vec![0; 1 << (2 * self.n)];
        self.time(|side, input| {
            black_box(way(side)(self.n, &input.raster, &mut target));
        })
    }
}

/// Two pictures of one n, the first laid over the second.
pub struct Pair {
    n: u32,
    first: Input,
    second: Input,
}

impl Pair {
    pub fn new(kinds: &[Kind; 2], n: u32) -> Pair {
        Pair { n, first: Input::new(&kinds[0], n, 0), second: Input::new(&kinds[1], n, 1) }
    }

    /// The answer on fresh lists, and every entry of the lists.
    fn overlay(&self, side: &Side) -> (Written, impl PartialEq) {
        let whole = self.first.raster.len();
        let (mut codes, mut levels, mut colours) = (vec![9; whole], vec![9; whole], vec![9; whole]);
        let (first, second) = (self.first.blocks(), self.second.blocks());
        let written = (side.overlay)(self.n, first, second, &mut codes, &mut levels, &mut colours);
        (written, (codes, levels, colours))
    }

    /// The blocks of the first picture, of the second and of the merged list.
    pub fn blocks(&self) -> [usize; 3] {
        [self.first.codes.len(), self.second.codes.len(), self.overlay(&PLAIN).0.count as usize]
    }

    pub fn equal(&self) -> bool {
        self.overlay(&LIBRARY) == self.overlay(&PLAIN)
    }

    pub fn time(&self) -> Times {
        let whole = self.first.raster.len();
        let lists = RefCell::new((vec![0; whole], vec![0; whole], vec![0; whole]));
        let job = |side: &Side| {
            let (codes, levels, colours) = &mut *lists.borrow_mut();
            black_box((side.overlay)(self.n, self.first.blocks(), self.second.blocks(), codes, levels, colours));
        };
        compare(|| job(&LIBRARY), || job(&PLAIN))
    }
}

/// A picture and pixels spread over it. Each is touched up alone, in a colour that the picture does not have, and then in its own again,
/// which gives the first list.
pub struct Specks {
    n: u32,
    picture: Input,
    places: Vec<usize>,
}

/// The lists that touching up is lent, first for the speck put in and then for the speck taken out.
type TwoLists = [(Vec<u32>, Vec<u8>, Vec<u16>); 2];

impl Specks {
    /// How many pixels are touched up.
    pub const COUNT: usize = 16;

    /// The pixels stand in four rows of four, at even and odd places.
    pub fn new(kind: &Kind, n: u32) -> Specks {
        let side = 1 << n;
        let along = |k: usize| (2 * k + 1) * side / 9;
        let places = (0..Specks::COUNT).map(|k| along(k / 4) * side + along(k % 4)).collect();
        Specks { n, picture: Input::new(kind, n, 0), places }
    }

    fn lists(&self) -> TwoLists {
        let whole = self.picture.raster.len();
        [(); 2].map(|()| (vec![9; whole], vec![9; whole], vec![9; whole]))
    }

    /// Puts a speck in at a place and takes it out again.
    fn touch_up(&self, side: &Side, place: usize, [put_in, taken_out]: &mut TwoLists) -> [Written; 2] {
        let n = self.n;
        let in_colour = |colour: u16| Speck { x: place as u32 % (1 << n), y: place as u32 >> n, colour };
        let (codes, levels, colours) = put_in;
        let first = (side.touch_up)(n, self.picture.blocks(), in_colour(NEW_COLOUR), codes, levels, colours);
        let count = first.count as usize;
        let with_speck = Blocks { codes: &codes[..count], levels: &levels[..count], colours: &colours[..count] };
        let (codes, levels, colours) = taken_out;
        let own = in_colour(self.picture.raster[place]);
        [first, (side.touch_up)(n, with_speck, own, codes, levels, colours)]
    }

    /// The blocks of the picture, and the most that it has with one speck.
    pub fn blocks(&self) -> [usize; 2] {
        let mut lists = self.lists();
        let counts = self.places.iter().map(|&place| self.touch_up(&PLAIN, place, &mut lists)[0].count as usize);
        [self.picture.codes.len(), counts.max().unwrap_or(0)]
    }

    /// The answers on fresh lists, and every entry of the lists, are equal.
    pub fn equal(&self) -> bool {
        let answers = |side: &Side, place: usize| {
            let mut lists = self.lists();
            (self.touch_up(side, place, &mut lists), lists)
        };
        self.places.iter().all(|&place| answers(&LIBRARY, place) == answers(&PLAIN, place))
    }

    /// The times of one call.
    pub fn time(&self) -> Times {
        let lists = RefCell::new(self.lists());
        let job = |side: &Side| {
            for &place in &self.places {
                black_box(self.touch_up(side, place, &mut lists.borrow_mut()));
            }
        };
        compare(|| job(&LIBRARY), || job(&PLAIN)).of_one_in(2 * self.places.len())
    }
}
