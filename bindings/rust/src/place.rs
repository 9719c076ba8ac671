/// A place of a program.
#[derive(Clone, Copy, Debug, PartialEq, Eq, Hash)]
pub enum Place {
    /// Before the first row.
    Start,
    /// After the last row.
    End,
    /// Just after the row with this id.
    After(u64),
}

const START: u64 = 0;
const END: u64 = u64::MAX;

/// No row has this id: an id is at most the count of edits, which stays below `2^63`.
const NO_ROW: u64 = u64::MAX - 1;

impl Place {
    /// The number by which the library names the place.
    pub(crate) fn number(self) -> u64 {
        match self {
            Place::Start => START,
            Place::End => END,
            Place::After(START | END) => NO_ROW,
            Place::After(row) => row,
        }
    }
}
