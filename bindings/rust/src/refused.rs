use std::fmt::{self, Display, Formatter};

/// Why a row is refused for its data.
#[derive(Clone, Copy, Debug, PartialEq, Eq, Hash)]
#[non_exhaustive]
pub enum Cause {
    /// Two messages of a plain send meet at a processor: the least one at which they do is told.
    Collision = 1,
    /// A processor holds an address outside its set: the least one that does is told.
    BadAddress = 2,
}

impl Cause {
    /// The number by which `bindings/c/paris.h` names the cause.
    pub const fn number(self) -> u32 {
        self as u32
    }

    /// The cause of a number, where there is one.
    pub fn of_number(number: u32) -> Option<Cause> {
        [Cause::Collision, Cause::BadAddress]
            .into_iter()
            .find(|cause| cause.number() == number)
    }
}

impl Display for Cause {
    fn fmt(&self, f: &mut Formatter<'_>) -> fmt::Result {
        f.write_str(match self {
            Cause::Collision => "two messages meet at a processor",
            Cause::BadAddress => "a processor holds an address outside its set",
        })
    }
}

/// A settled row that is refused for its data. It changes nothing.
#[derive(Clone, Copy, Debug, PartialEq, Eq, Hash)]
pub struct RowFault {
    /// The row's id.
    pub row: u64,
    /// Why it is refused.
    pub cause: Cause,
    /// The processor that the cause names.
    pub processor: u64,
}

impl RowFault {
    /// How many words the library tells of a row: its id, its cause and the processor.
    pub(crate) const WORDS: usize = 3;

    /// What these words tell, where the cause is known.
    pub(crate) fn of_words(row: u64, cause: u64, processor: u64) -> Option<RowFault> {
        let cause = Cause::of_number(u32::try_from(cause).ok()?)?;
        Some(RowFault {
            row,
            cause,
            processor,
        })
    }
}

impl Display for RowFault {
    fn fmt(&self, f: &mut Formatter<'_>) -> fmt::Result {
        let RowFault {
            row,
            cause,
            processor,
        } = self;
        match cause {
            Cause::Collision => write!(f, "row {row}: two messages meet at processor {processor}"),
            Cause::BadAddress => write!(
                f,
                "row {row}: processor {processor} holds an address outside its set"
            ),
        }
    }
}

#[cfg(test)]
mod tests {
    use super::{Cause, RowFault};
    use crate::sys::texts;

    #[test]
    fn causes_have_the_texts_of_the_library() {
        for number in 0..100 {
            let text = Cause::of_number(number).map_or(String::new(), |cause| cause.to_string());
            assert_eq!(texts::of_cause(number), text, "cause {number}");
        }
    }

    #[test]
    fn words_of_no_cause_tell_of_no_row() {
        assert_eq!(RowFault::of_words(1, 3, 0), None);
        assert_eq!(RowFault::of_words(1, 1 << 32 | 1, 0), None);
    }
}
