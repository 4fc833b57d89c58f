//! The two engines as one trait, so that each row is written once and timed on both.

/// The calls that are timed. Answers are counted or thrown away: that they are equal is the
/// differential test's matter, and each row checks it once more before it is timed.
pub trait Engine {
    /// A new engine, which is shut.
    fn new() -> Self;
    /// Opens a file; whether it was accepted.
    fn open(&mut self, file: &[u8]) -> bool;
    /// Applies a rule; the five counts, or the refusal's number and what is returned.
    fn apply(&mut self, rule: &[u8]) -> Result<[u64; 5], (u64, u64)>;
    /// Undoes; whether it was accepted.
    fn undo(&mut self) -> bool;
    /// Closes; whether it was accepted.
    fn close(&mut self) -> bool;
    /// The first matching is there.
    fn first(&self, rule: &[u8]) -> bool;
    /// How many matchings a whole listing names.
    fn listing(&self, rule: &[u8]) -> u64;
    /// The length of the saved file.
    fn save(&self, buffer: &mut [u8]) -> usize;
}

/// The five counts, which both engines' reports have under the same names.
macro_rules! five {
    ($report:expr) => {
        [
            $report.matchings,
            $report.nodes_added,
            $report.edges_added,
            $report.nodes_removed,
            $report.edges_removed,
        ]
    };
}

impl Engine for hengvoat::Session {
    fn new() -> Self {
        hengvoat::Session::new()
    }

    fn open(&mut self, file: &[u8]) -> bool {
        self.open(file).is_ok()
    }

    fn apply(&mut self, rule: &[u8]) -> Result<[u64; 5], (u64, u64)> {
        self.apply(rule)
            .map(|report| five!(report))
            .map_err(|refusal| (refusal.number(), refusal.returned()))
    }

    fn undo(&mut self) -> bool {
        self.undo().is_ok()
    }

    fn close(&mut self) -> bool {
        self.close().is_ok()
    }

    fn first(&self, rule: &[u8]) -> bool {
        matches!(self.first(rule), Ok(Some(_)))
    }

    fn listing(&self, rule: &[u8]) -> u64 {
        self.matchings(rule).map_or(0, |all| all.count() as u64)
    }

    fn save(&self, buffer: &mut [u8]) -> usize {
        self.save_into(buffer).unwrap_or(0)
    }
}

impl Engine for second_engine::Engine {
    fn new() -> Self {
        second_engine::Engine::new()
    }

    fn open(&mut self, file: &[u8]) -> bool {
        self.open(file).is_ok()
    }

    fn apply(&mut self, rule: &[u8]) -> Result<[u64; 5], (u64, u64)> {
        self.apply(rule)
            .map(|report| five!(report))
            .map_err(|refused| (refused.number, refused.returned))
    }

    fn undo(&mut self) -> bool {
        self.undo().is_ok()
    }

    fn close(&mut self) -> bool {
        self.close().is_ok()
    }

    fn first(&self, rule: &[u8]) -> bool {
        matches!(self.first(rule), Ok(Some(_)))
    }

    fn listing(&self, rule: &[u8]) -> u64 {
        let mut count = 0;
        let mut next = self.first(rule);
        while let Ok(Some(matching)) = next {
            count += 1;
            next = self.after(rule, &matching);
        }
        count
    }

    fn save(&self, buffer: &mut [u8]) -> usize {
        self.save(buffer).unwrap_or(0)
    }
}
