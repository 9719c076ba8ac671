use std::error::Error;
use std::fmt::{self, Display, Formatter};

/// A fault of the machine. Its number is the one by which scripts name it.
#[derive(Clone, Copy, Debug, PartialEq, Eq, Hash)]
pub enum Fault {
    /// As many sets as there may be are declared.
    SetsFull = 1,
    /// There are more than four axes, a length is no power of two, or there are too many
    /// processors.
    BadAxes = 2,
    /// A set or a field has this name.
    NameTaken = 3,
    /// No set has this name.
    NoSet = 4,
    /// As many fields as there may be are declared.
    FieldsFull = 5,
    /// The width is 0 or above the greatest one.
    BadWidth = 6,
    /// No field has this name, or no set has the name before the dot.
    NoField = 7,
    /// There are no numbers, or they reach above the last processor.
    WrongCount = 8,
    /// A number doesn't fit the width.
    TooWide = 9,
    /// No row has this id.
    NoRow = 10,
    /// The program has as many rows as it may have.
    RowsFull = 11,
    /// A length is 0, or above the width of an operand.
    BadLength = 12,
    /// Fields of two sets are named.
    WrongSet = 13,
    /// The set has no axis of this number.
    BadAxis = 14,
    /// An operand of one bit is wider, a constant is too great, or a coordinate is outside its
    /// axis.
    BadOperand = 15,
    /// The field that is notified is the destination.
    Overlap = 16,
    /// The count of edits is at its greatest value.
    EditionsSpent = 17,
    /// The history has as many entries as it may have. A session has no history.
    HistoryFull = 18,
    /// There is no memory left.
    NoMemory = 19,
    /// A line is no command. A session's replies say so, and from which column on.
    Syntax = 20,
    /// A seat has seen more than a history has. A session has no seats.
    StrangeSeat = 21,
    /// No order has this number.
    NoOrder = 22,
    /// A look found no entry. A session has no such looks.
    NoEntry = 23,
}

impl Fault {
    /// Every fault, in the order of their numbers.
    pub const ALL: [Fault; 23] = [
        Fault::SetsFull,
        Fault::BadAxes,
        Fault::NameTaken,
        Fault::NoSet,
        Fault::FieldsFull,
        Fault::BadWidth,
        Fault::NoField,
        Fault::WrongCount,
        Fault::TooWide,
        Fault::NoRow,
        Fault::RowsFull,
        Fault::BadLength,
        Fault::WrongSet,
        Fault::BadAxis,
        Fault::BadOperand,
        Fault::Overlap,
        Fault::EditionsSpent,
        Fault::HistoryFull,
        Fault::NoMemory,
        Fault::Syntax,
        Fault::StrangeSeat,
        Fault::NoOrder,
        Fault::NoEntry,
    ];

    /// The number by which scripts name the fault, from 1 to 23.
    pub const fn number(self) -> u32 {
        self as u32
    }

    /// The fault of a number, where there is one.
    pub fn of_number(number: u32) -> Option<Fault> {
        Fault::ALL
            .into_iter()
            .find(|fault| fault.number() == number)
    }

    const fn text(self) -> &'static str {
        match self {
            Fault::SetsFull => "as many sets as a board may have are declared",
            Fault::BadAxes => "the lengths of the axes make no geometry",
            Fault::NameTaken => "a set or a field has this name",
            Fault::NoSet => "no set has this name",
            Fault::FieldsFull => "as many fields as a board may have are declared",
            Fault::BadWidth => "the width is 0 or above the greatest one",
            Fault::NoField => "no field has this name, or no set has the name before the dot",
            Fault::WrongCount => "there are no values, or more than fit from the first place on",
            Fault::TooWide => "a value does not fit the width",
            Fault::NoRow => "no row has this id",
            Fault::RowsFull => "the program has as many rows as it may have",
            Fault::BadLength => "a length is 0, or above the width of an operand",
            Fault::WrongSet => "fields of two sets are named",
            Fault::BadAxis => "the set has no axis of this number",
            Fault::BadOperand => "an operand of one bit is wider, a constant is too great, or a coordinate is outside its axis",
            Fault::Overlap => "the notify field is the destination",
            Fault::EditionsSpent => "the edit counter is at its greatest value",
            Fault::HistoryFull => "the history has as many entries as it may have",
            Fault::NoMemory => "there is no memory left",
            Fault::Syntax => "the line is not in the grammar",
            Fault::StrangeSeat => "the seat has seen more entries than the history has",
            Fault::NoOrder => "no order has this number",
            Fault::NoEntry => "a look found no entry",
        }
    }
}

impl Display for Fault {
    fn fmt(&self, f: &mut Formatter<'_>) -> fmt::Result {
        f.write_str(self.text())
    }
}

impl Error for Fault {}

#[cfg(test)]
mod tests {
    use super::Fault;
    use crate::sys::texts;

    #[test]
    fn faults_have_the_texts_of_the_library() {
        for fault in Fault::ALL {
            assert_eq!(texts::of_status(fault.number()), fault.to_string());
        }
    }
}
