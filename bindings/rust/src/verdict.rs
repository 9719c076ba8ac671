use std::fmt::{self, Display, Formatter};

/// What becomes of a result that is brought. At [`Verdict::Kept`] alone rows change.
#[derive(Clone, Copy, Debug, PartialEq, Eq, Hash)]
#[non_exhaustive]
pub enum Verdict {
    /// Its row is settled by it.
    Kept,
    /// Its row is settled.
    Repeated,
    /// Its row has another edition, which is this.
    Stale(u64),
    /// No row has its id.
    Gone,
    /// The row's instruction or what it reads is another one, or isn't settled.
    Foreign,
}

impl Verdict {
    /// The verdict of a number, where there is one, beside which a call told an edition.
    pub(crate) fn of_number(number: u32, edition: u64) -> Option<Verdict> {
        [
            Verdict::Kept,
            Verdict::Repeated,
            Verdict::Stale(edition),
            Verdict::Gone,
            Verdict::Foreign,
        ]
        .into_iter()
        .find(|verdict| verdict.number() == number)
    }

    /// The number by which `bindings/c/paris.h` names the verdict.
    pub const fn number(self) -> u32 {
        match self {
            Verdict::Kept => 1,
            Verdict::Repeated => 2,
            Verdict::Stale(_) => 3,
            Verdict::Gone => 4,
            Verdict::Foreign => 5,
        }
    }
}

impl Display for Verdict {
    fn fmt(&self, f: &mut Formatter<'_>) -> fmt::Result {
        match self {
            Verdict::Kept => f.write_str("kept"),
            Verdict::Repeated => f.write_str("repeated"),
            Verdict::Stale(edition) => write!(f, "stale {edition}"),
            Verdict::Gone => f.write_str("gone"),
            Verdict::Foreign => f.write_str("foreign"),
        }
    }
}
