/// A sum of numbers, which may have more than 128 bits: `high * 2^128 + low`.
#[derive(Clone, Copy, Debug, PartialEq, Eq, PartialOrd, Ord, Hash)]
pub struct Sum {
    /// What is above 128 bits.
    pub high: u64,
    /// The low 128 bits.
    pub low: u128,
}

impl Sum {
    /// The sum, where it has at most 128 bits.
    pub fn narrow(self) -> Option<u128> {
        (self.high == 0).then_some(self.low)
    }
}

/// What the numbers of a stretch of processors come to.
#[derive(Clone, Copy, Debug, PartialEq, Eq, Hash)]
pub struct Summary {
    /// The least number.
    pub least: u128,
    /// The greatest number.
    pub greatest: u128,
    /// The sum of all.
    pub sum: Sum,
    /// How many are other than 0.
    pub others: u64,
}
