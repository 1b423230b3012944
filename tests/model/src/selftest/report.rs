//! Counts what was tried and says what failed.

#[derive(Default)]
pub struct Report {
    tried: usize,
    failed: usize,
}

impl Report {
    pub fn expect(&mut self, holds: bool, what: &str) {
        self.tried += 1;
        if !holds {
            self.failed += 1;
            println!("FAILED: {}", what);
        }
    }

    /// Prints the group's line; true if nothing failed.
    pub fn close(&self, group: &str) -> bool {
        println!("{}: {} tried, {} failed", group, self.tried, self.failed);
        self.failed == 0
    }
}
