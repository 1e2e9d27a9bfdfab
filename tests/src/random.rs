//! A small random generator (SplitMix64). The same seed gives the same numbers on every machine.

pub struct Random {
    state: u64,
}

impl Random {
    pub fn new(seed: u64) -> Random {
        Random { state: seed }
    }

    /// A generator for one test, from the seed in the variable NETTLESTAIR_SEED or a fixed one. The seed is printed.
    pub fn of(test: &str) -> Random {
        let seed = match std::env::var("NETTLESTAIR_SEED") {
            Ok(text) => text.parse().expect("NETTLESTAIR_SEED is a decimal number"),
            Err(_) => 20_240_229,
        };
        println!("{test}: seed {seed}");
        Random::new(seed)
    }

    pub fn draw(&mut self) -> u64 {
        self.state = self.state.wrapping_add(0x9E37_79B9_7F4A_7C15);
        let mut z = self.state;
        z = (z ^ (z >> 30)).wrapping_mul(0xBF58_476D_1CE4_E5B9);
        z = (z ^ (z >> 27)).wrapping_mul(0x94D0_49BB_1331_11EB);
        z ^ (z >> 31)
    }

    /// A number below `bound`.
    pub fn below(&mut self, bound: usize) -> usize {
        (self.draw() % bound as u64) as usize
    }

    pub fn byte(&mut self) -> u8 {
        self.draw() as u8
    }

    /// A colour from the whole range.
    pub fn colour(&mut self) -> u16 {
        self.draw() as u16
    }

    pub fn word(&mut self) -> u32 {
        self.draw() as u32
    }

    pub fn colours(&mut self, count: usize) -> Vec<u16> {
        (0..count).map(|_| self.colour()).collect()
    }

    pub fn words(&mut self, count: usize) -> Vec<u32> {
        (0..count).map(|_| self.word()).collect()
    }
}
