//! Where units are refused with 15 and 32.

/// How many labels a unit may have, and how far they may be.
#[derive(Debug, Clone, Copy)]
pub struct Limits {
    pub labels: usize,
    lowest: i64,
    highest: i64,
}

impl Limits {
    /// Those of document 01.
    pub const REAL: Self = Self {
        labels: 65_536,
        lowest: -32_768,
        highest: 32_767,
    };

    /// Low ones, that short units meet; `prover/limits.py` has the same.
    ///
    /// A switch of two cases with a mid default makes 7 labels: any of them can be the one too
    /// many. Backward the reach is shorter: a loop's JumpIfFalse spans 3 bytes more than its
    /// closing Jump and comes first, so the lowest distance would not be met otherwise.
    pub const LOW: Self = Self {
        labels: 6,
        lowest: -12,
        highest: 23,
    };

    pub fn reach(&self, distance: i64) -> bool {
        (self.lowest..=self.highest).contains(&distance)
    }
}
