use crate::desk::held;
use crate::error::Error;
use crate::fault::Fault;
use crate::order::{Done, Order};
use crate::place::Place;
use crate::session::{in_room, text_of, Session};
use crate::sys::desk::{DeskHandle, SeatHandle};
use crate::verdict::Verdict;
use std::fmt::{self, Debug, Formatter};
use std::sync::{Arc, Mutex};

/// A seat of a desk: somebody's, or a worker's. It may go to another thread, and isn't shared.
///
/// ```
/// fn is_sent<T: Send>() {}
/// is_sent::<paris::Seat>();
/// ```
///
/// ```compile_fail
/// fn is_shared<T: Sync>() {}
/// is_shared::<paris::Seat>();
/// ```
///
/// [`answer`](Seat::answer), [`set`](Seat::set), [`set_wide`](Seat::set_wide), [`release`](Seat::release),
/// [`take`](Seat::take) and [`bring`](Seat::bring) are entries of the desk's history, and wait for its
/// mutex. So does [`look`](Seat::look), which is no entry. What a seat reads needs no mutex.
pub struct Seat {
    desk: Arc<Mutex<DeskHandle>>,
    handle: SeatHandle,
    number: u64,
}

impl Seat {
    pub(crate) fn of(desk: Arc<Mutex<DeskHandle>>, handle: SeatHandle, number: u64) -> Seat {
        Seat {
            desk,
            handle,
            number,
        }
    }

    /// The seat's number, by which entries name it: 0 for the first one.
    pub fn number(&self) -> u64 {
        self.number
    }

    /// The number of the last entry that the seat knows: that of its last call or, where it looked since, of
    /// the last entry then. A new chapter leaves it.
    pub fn front(&self) -> u64 {
        self.handle.front()
    }

    /// Answers a line, without its line feed: `set`, `field`, `input`, `insert`, `delete`, `replace`,
    /// `release`, `show` or `list`. It is the history's next entry, whose number is
    /// [`front`](Seat::front) then. That a command is refused stands in the reply, and it is an entry too.
    ///
    /// A line that isn't in the grammar is answered by `refused 20`, and is no entry. Any other line, as
    /// `settle`, `take` or a remark, is [`Error::NoEvent`].
    pub fn answer(&mut self, line: impl AsRef<[u8]>) -> Result<String, Error> {
        let len = held(&self.desk).answer(&mut self.handle, line.as_ref())?;
        self.reply(len)
    }

    /// Gives a key numbers, from a processor on, as [`Session::set`] does: as many as it has processors, with
    /// no text of them. It is one entry, as the line `input` is, and one that is refused is an entry too. A
    /// word that is no key is none.
    ///
    /// ```
    /// # use paris::{Desk, Error, Fault, Session};
    /// # fn main() -> Result<(), Error> {
    /// let mut session = Session::new()?;
    /// session.answer("set s 4")?;
    /// session.answer("field a s 8")?;
    /// let desk = Desk::open(&session)?;
    /// let mut seat = desk.sit()?;
    ///
    /// assert_eq!(seat.set("a", 0, &[1, 2]), Ok(()));
    /// assert_eq!(seat.set("a", 0, &[256]), Err(Error::Fault(Fault::TooWide)));
    /// assert_eq!(desk.entry(2)?.reply, "refused 9 0\n");
    /// # Ok(())
    /// # }
    /// ```
    pub fn set(&mut self, key: impl AsRef<[u8]>, from: u64, numbers: &[u64]) -> Result<(), Error> {
        let len = held(&self.desk).set(&mut self.handle, key.as_ref(), from, numbers)?;
        accepted(&self.reply(len)?)
    }

    /// The same with numbers of up to 128 bits.
    pub fn set_wide(
        &mut self,
        key: impl AsRef<[u8]>,
        from: u64,
        numbers: &[u128],
    ) -> Result<(), Error> {
        let len = held(&self.desk).set_wide(&mut self.handle, key.as_ref(), from, numbers)?;
        accepted(&self.reply(len)?)
    }

    /// Gives up the orders that are out: their rows are ready again. It is an entry.
    pub fn release(&mut self) -> Result<(), Error> {
        accepted(&self.answer("release")?)
    }

    /// An order for the first row that is ready, as [`Session::take`](crate::Session::take) gives one. It is
    /// an entry, and `None`, where no row is ready, is none.
    pub fn take(&mut self) -> Result<Option<Order>, Error> {
        Ok(held(&self.desk).take(&mut self.handle)?.map(Order))
    }

    /// Brings a result, whoever took the order, as [`Session::bring`](crate::Session::bring) does. It is an
    /// entry.
    pub fn bring(&mut self, done: &Done) -> Result<Verdict, Error> {
        let (number, edition) = held(&self.desk).bring(&mut self.handle, &done.0)?;
        Ok(Verdict::of_number(number, edition).expect("the library has five verdicts"))
    }

    /// Looks at the book as it is. It is no entry, and copies no value. What others do meanwhile changes
    /// nothing of what the look shows.
    ///
    /// ```
    /// # use paris::{Desk, Place, Session};
    /// # fn main() -> Result<(), paris::Error> {
    /// let mut session = Session::new()?;
    /// session.answer("set s 4")?;
    /// session.answer("field a s 8")?;
    /// let desk = Desk::open(&session)?;
    /// let (mut ann, mut bob) = (desk.sit()?, desk.sit()?);
    ///
    /// let look = ann.look()?;
    /// bob.set("a", 0, &[7])?;
    /// assert_eq!(look.get("a", Place::End)?, [0; 4]);
    /// assert_eq!(ann.look()?.get("a", Place::End)?, [7, 0, 0, 0]);
    /// # Ok(())
    /// # }
    /// ```
    ///
    /// A seat looks at one book at a time, so a look ends before the seat looks again:
    ///
    /// ```compile_fail
    /// fn twice(seat: &mut paris::Seat) -> Result<(), paris::Error> {
    ///     let first = seat.look()?;
    ///     let second = seat.look()?;
    ///     first.get("a", paris::Place::End)?;
    ///     Ok(())
    /// }
    /// ```
    pub fn look(&mut self) -> Result<Look<'_>, Error> {
        held(&self.desk).look(&mut self.handle)?;
        Ok(Look(&self.handle))
    }

    /// The reply that the seat keeps, which has so many bytes.
    fn reply(&self, len: usize) -> Result<String, Error> {
        let mut reply = vec![0; len];
        self.handle.reply(&mut reply)?;
        Ok(text_of(reply))
    }

    /// As [`Look::order_for`], of the book that the seat looked at last.
    pub fn order_for(&self, key: impl AsRef<[u8]>, place: Place) -> Result<Option<Order>, Error> {
        Look(&self.handle).order_for(key, place)
    }
}

impl Debug for Seat {
    fn fmt(&self, f: &mut Formatter<'_>) -> fmt::Result {
        f.debug_struct("Seat")
            .field("number", &self.number)
            .finish_non_exhaustive()
    }
}

/// What a seat looks at: the book as it was when the seat [looked](Seat::look) last. Its calls need no mutex.
pub struct Look<'seat>(&'seat SeatHandle);

impl Look<'_> {
    /// The numbers that a key holds at a place. A field of more than 64 bits is [`Error::TooWide`],
    /// whatever it holds: a [`snapshot`](Look::snapshot) has its numbers.
    pub fn get(&self, key: impl AsRef<[u8]>, place: Place) -> Result<Vec<u64>, Error> {
        let (key, place) = (key.as_ref(), place.number());
        in_room(0, |room| self.0.get(key, place, room))
    }

    /// Puts the numbers that a key holds at a place into a room of as many words.
    pub fn get_into(
        &self,
        key: impl AsRef<[u8]>,
        place: Place,
        room: &mut [u64],
    ) -> Result<(), Error> {
        self.0.get(key.as_ref(), place.number(), room)
    }

    /// An order for the first row that is ready of those that the value of a key at a place stands on. It is
    /// no entry: the row waits as before, may be taken too, and is settled by the first result that is
    /// brought while it is as it was. `None` where none of these rows is ready, as where the value is shown.
    /// Where `show` refuses, so does this.
    pub fn order_for(&self, key: impl AsRef<[u8]>, place: Place) -> Result<Option<Order>, Error> {
        Ok(self.0.order_for(key.as_ref(), place.number())?.map(Order))
    }

    /// A session with the book that the seat looks at, where rows that are out are out too. So all that a
    /// [`Session`] tells can be asked of a look: wide numbers, parts, rows, faults, and where a value comes
    /// from. The two share values, and what is done with the session leaves the desk as it is.
    ///
    /// ```
    /// # use paris::{Desk, Place, Profile, Session};
    /// # fn main() -> Result<(), paris::Error> {
    /// let mut session = Session::with_profile(Profile::Two)?;
    /// session.answer("set s 2")?;
    /// session.answer("field a s 128")?;
    /// session.answer("insert end lognot-2-1L a a 128")?;
    /// let desk = Desk::open(&session)?;
    /// let mut seat = desk.sit()?;
    ///
    /// let mut looked = seat.look()?.snapshot()?;
    /// assert_eq!(looked.unsettled()?, [1]);
    /// looked.settle()?;
    /// assert_eq!(looked.get_wide("a", Place::End)?, [u128::MAX; 2]);
    /// assert_eq!(desk.entries().count(), 0);
    /// # Ok(())
    /// # }
    /// ```
    pub fn snapshot(&self) -> Result<Session, Error> {
        self.0.snapshot().map(Session)
    }
}

impl Debug for Look<'_> {
    fn fmt(&self, f: &mut Formatter<'_>) -> fmt::Result {
        f.debug_struct("Look").finish_non_exhaustive()
    }
}

/// What a reply says that is `ok` or a refusal.
fn accepted(reply: &str) -> Result<(), Error> {
    let Some(refused) = reply.strip_prefix("refused ") else {
        return Ok(());
    };
    let number = refused.split_ascii_whitespace().next();
    let fault = number.and_then(|number| Fault::of_number(number.parse().ok()?));
    Err(Error::Fault(
        fault.expect("a refusal has the number of a fault"),
    ))
}
