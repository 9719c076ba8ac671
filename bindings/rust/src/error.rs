use crate::fault::Fault;
use crate::sys;
use std::error;
use std::fmt::{self, Display, Formatter};

/// Why a call didn't do what it is for. The session, or the desk, is as it was, where it isn't told otherwise.
#[derive(Clone, Copy, Debug, PartialEq, Eq, Hash)]
#[non_exhaustive]
pub enum Error {
    /// The call is refused by a fault of the machine.
    Fault(Fault),
    /// The handle is closed. That of a session, a desk or a seat is open as long as it lives, so no call here
    /// gives this.
    Closed,
    /// The word is no key.
    NoKey,
    /// The row with this id has to be settled first.
    Pending(u64),
    /// The room has another length than the numbers that are to be put there, or reaches past the last of
    /// them, or they can't be cut into so many stretches. They are so many.
    WrongRoom(usize),
    /// The script is too long, or the session has answered as many lines as it can count, or a desk has as
    /// many seats.
    TooMany,
    /// A number is wider than a word.
    TooWide,
    /// There was no memory left while rows were settled. Those that ran are settled, of which the call
    /// tells how many where it can, and those that were settled stay so. Orders that were out may be
    /// given up, and the session can be settled again.
    PartlySettled(Option<u64>),
    /// No profile has the number. A [`Profile`](crate::Profile) has one, so no call here gives this.
    NoProfile,
    /// No row is ready. [`Session::take`](crate::Session::take) says so by `None`, so no call here gives
    /// this.
    NothingReady,
    /// The order is not executed. A [`Done`](crate::Done) is, so no call here gives this.
    NotRun,
    /// The two values differ in width or in the number of their processors.
    Unlike,
    /// The line is no event of a desk, as `settle` or a remark.
    NoEvent,
    /// The seat is of another desk. A [`Seat`](crate::Seat) calls its own, so no call here gives this.
    Strange,
    /// The library answered by a status that this package doesn't know.
    Unknown(u32),
}

impl Error {
    /// The error of a status, beside which a call told a number.
    pub(crate) fn of_status(status: u32, told: u64) -> Error {
        match status {
            sys::CLOSED => Error::Closed,
            sys::NO_KEY => Error::NoKey,
            sys::PENDING => Error::Pending(told),
            sys::WRONG_ROOM => Error::WrongRoom(told as usize),
            sys::TOO_MANY => Error::TooMany,
            sys::TOO_WIDE => Error::TooWide,
            sys::PARTLY => Error::PartlySettled(None),
            sys::NO_PROFILE => Error::NoProfile,
            sys::NOTHING => Error::NothingReady,
            sys::NOT_RUN => Error::NotRun,
            sys::UNLIKE => Error::Unlike,
            sys::NO_EVENT => Error::NoEvent,
            sys::STRANGE => Error::Strange,
            _ => Fault::of_number(status).map_or(Error::Unknown(status), Error::Fault),
        }
    }

    /// The status by which the library says so, as `bindings/c/paris.h` names it.
    pub fn status(self) -> u32 {
        match self {
            Error::Fault(fault) => fault.number(),
            Error::Closed => sys::CLOSED,
            Error::NoKey => sys::NO_KEY,
            Error::Pending(_) => sys::PENDING,
            Error::WrongRoom(_) => sys::WRONG_ROOM,
            Error::TooMany => sys::TOO_MANY,
            Error::TooWide => sys::TOO_WIDE,
            Error::PartlySettled(_) => sys::PARTLY,
            Error::NoProfile => sys::NO_PROFILE,
            Error::NothingReady => sys::NOTHING,
            Error::NotRun => sys::NOT_RUN,
            Error::Unlike => sys::UNLIKE,
            Error::NoEvent => sys::NO_EVENT,
            Error::Strange => sys::STRANGE,
            Error::Unknown(status) => status,
        }
    }

    /// The fault of the machine, where it is one.
    pub fn fault(self) -> Option<Fault> {
        Fault::of_number(self.status())
    }
}

impl Display for Error {
    fn fmt(&self, f: &mut Formatter<'_>) -> fmt::Result {
        match self {
            Error::Fault(fault) => write!(f, "fault {}: {fault}", fault.number()),
            Error::Closed => f.write_str("the handle is closed"),
            Error::NoKey => f.write_str("the word is no key"),
            Error::Pending(row) => write!(f, "row {row} has to be settled first"),
            Error::WrongRoom(count) => write!(
                f,
                "the numbers are {count}, and the room has another length"
            ),
            Error::TooMany => f.write_str(
                "the script is too long, or the session has answered as many lines as it can count",
            ),
            Error::TooWide => f.write_str("a number is wider than a word"),
            Error::PartlySettled(None) => {
                f.write_str("there was no memory left while rows were settled")
            }
            Error::PartlySettled(Some(ran)) => write!(
                f,
                "there was no memory left while rows were settled, and {ran} were run"
            ),
            Error::NoProfile => f.write_str("no profile has this number"),
            Error::NothingReady => f.write_str("no row is ready"),
            Error::NotRun => f.write_str("the order is not executed"),
            Error::Unlike => {
                f.write_str("the two values differ in width or in the number of their processors")
            }
            Error::NoEvent => f.write_str("the line is no event of a desk"),
            Error::Strange => f.write_str("the seat is of another desk"),
            Error::Unknown(status) => write!(
                f,
                "the library answered by status {status}, which this package doesn't know"
            ),
        }
    }
}

impl error::Error for Error {}

#[cfg(test)]
mod tests {
    use super::Error;

    #[test]
    fn an_error_keeps_its_status() {
        for status in 1..200 {
            let error = Error::of_status(status, 7);
            let is_known = matches!(status, 1..=23 | 101..=113);
            assert_eq!(error.status(), status);
            assert_eq!(error == Error::Unknown(status), !is_known, "{error:?}");
        }
    }
}
