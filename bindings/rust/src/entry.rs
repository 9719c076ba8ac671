use std::fmt::{self, Display, Formatter};

/// What an entry of a history is of.
#[derive(Clone, Copy, Debug, PartialEq, Eq, Hash)]
#[non_exhaustive]
pub enum Kind {
    /// An edit: the lines `set`, `field`, `input`, `insert`, `delete` and `replace`.
    Edit = 1,
    /// An order that was taken.
    Take = 2,
    /// A result that was brought.
    Bring = 3,
    /// Orders that were given up: the line `release`.
    Release = 4,
    /// A look at a key: the line `show`.
    Show = 5,
    /// A look at the rows: the line `list`.
    List = 6,
}

impl Kind {
    /// The number by which `bindings/c/paris.h` names the kind.
    pub const fn number(self) -> u32 {
        self as u32
    }

    /// The kind of a number, where there is one.
    pub fn of_number(number: u32) -> Option<Kind> {
        [
            Kind::Edit,
            Kind::Take,
            Kind::Bring,
            Kind::Release,
            Kind::Show,
            Kind::List,
        ]
        .into_iter()
        .find(|kind| kind.number() == number)
    }
}

impl Display for Kind {
    fn fmt(&self, f: &mut Formatter<'_>) -> fmt::Result {
        f.write_str(match self {
            Kind::Edit => "edit",
            Kind::Take => "take",
            Kind::Bring => "bring",
            Kind::Release => "release",
            Kind::Show => "show",
            Kind::List => "list",
        })
    }
}

/// An entry of a desk's history: who did what, and the machine's reply.
#[derive(Clone, Debug, PartialEq, Eq, Hash)]
pub struct Entry {
    /// Its number. The first one of a chapter is 1.
    pub number: u64,
    /// The number of the seat that made the call.
    pub seat: u64,
    /// What it is of.
    pub kind: Kind,
    /// The text of the reply, as [`Session::answer`](crate::Session::answer) gives it. An order has the
    /// number 1 there.
    pub reply: String,
}
