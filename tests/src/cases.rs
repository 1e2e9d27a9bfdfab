//! Counts the cases of a test and says how many it ran.

pub struct Cases {
    name: &'static str,
    count: u64,
}

impl Cases {
    pub fn of(name: &'static str) -> Cases {
        Cases { name, count: 0 }
    }

    /// One more case was run.
    pub fn ran(&mut self) {
        self.count += 1;
    }

    /// Whether the test shows anything: a test without a case does not.
    pub fn shows_something(&self) -> bool {
        self.count > 0
    }

    /// The end of the test.
    pub fn end(self) {
        assert!(self.shows_something(), "{} ran no case", self.name);
        println!("{}: {} cases", self.name, self.count);
    }
}

#[cfg(test)]
mod tests {
    use super::Cases;

    #[test]
    fn a_test_without_a_case_shows_nothing() {
        let mut cases = Cases::of("cases");
        assert!(!cases.shows_something());
        cases.ran();
        assert!(cases.shows_something());
    }
}
