use crate::error::Error;
use crate::order::{Done, Order};
use crate::place::Place;
use crate::profile::Profile;
use crate::refused::RowFault;
use crate::summary::Summary;
use crate::sys::{self, Handle};
use crate::verdict::Verdict;
use std::fmt::{self, Debug, Formatter};

/// So many refused rows are told by one call of the library, and more of them by two.
const FEW_ROWS: usize = 32;

/// A session: a program, its input data, what is settled of it, and the orders that were taken.
///
/// A key is a field's name, or a set's with a dot and a flag, as `a` or `s.context`. Numbers are
/// words of 64 bits, one a processor, which hold what a field of up to 64 bits can. In
/// [`Profile::Two`] a field may have up to 128, and [`Session::set_wide`] and [`Session::get_wide`] go
/// by numbers of so many.
///
/// A session is closed as it is dropped. It may go to another thread, and is called by one at a time. A
/// look counts as a call, so a session isn't shared by threads but in a mutex:
///
/// ```
/// fn is_sent<T: Send>() {}
/// fn is_shared<T: Sync>() {}
/// is_sent::<paris::Session>();
/// is_shared::<std::sync::Mutex<paris::Session>>();
/// is_sent::<paris::Order>();
/// is_sent::<paris::Done>();
/// is_sent::<paris::Error>();
/// is_shared::<paris::Error>();
/// ```
///
/// ```compile_fail
/// fn is_shared<T: Sync>() {}
/// is_shared::<paris::Session>();
/// ```
pub struct Session(pub(crate) Handle);

impl Session {
    /// Opens a session with nothing in it. It is in [`Profile::One`], and in [`Profile::Two`] where it
    /// begins by the line `paris 2`.
    pub fn new() -> Result<Session, Error> {
        Handle::open().map(Session)
    }

    /// Opens a session with nothing in it, in a profile that no line changes.
    ///
    /// ```
    /// # use paris::{Error, Place, Profile, Session};
    /// # fn main() -> Result<(), Error> {
    /// let mut session = Session::with_profile(Profile::Two)?;
    /// session.answer("set s 2")?;
    /// session.answer("field a s 128")?;
    /// session.set_wide("a", 0, &[u128::MAX, 1 << 100])?;
    /// session.answer("insert end lognot-2-1L a a 128")?;
    /// session.settle()?;
    ///
    /// assert_eq!(session.get_wide("a", Place::End)?, [0, u128::MAX - (1 << 100)]);
    /// assert_eq!(session.get("a", Place::End), Err(Error::TooWide));
    /// # Ok(())
    /// # }
    /// ```
    pub fn with_profile(profile: Profile) -> Result<Session, Error> {
        Handle::open_profile(profile.number()).map(Session)
    }

    /// Answers a line of a script, without its line feed, as the program answers it: by its reply,
    /// which is empty where the line is empty or a remark. That a command is refused stands in the
    /// reply, as `refused 3`.
    ///
    /// Where memory is refused the session is as it was, but for the line `settle`, by which some
    /// rows may be settled: [`Error::PartlySettled`].
    pub fn answer(&mut self, line: impl AsRef<[u8]>) -> Result<String, Error> {
        let len = self.0.answer(line.as_ref())?;
        let mut reply = vec![0; len];
        self.0.reply(&mut reply)?;
        Ok(text_of(reply))
    }

    /// Gives a key numbers, from a processor on: the command `input` without its text.
    pub fn set(&mut self, key: impl AsRef<[u8]>, from: u64, numbers: &[u64]) -> Result<(), Error> {
        self.0.set(key.as_ref(), from, numbers)
    }

    /// The same with numbers of up to 128 bits.
    pub fn set_wide(
        &mut self,
        key: impl AsRef<[u8]>,
        from: u64,
        numbers: &[u128],
    ) -> Result<(), Error> {
        self.0.set_wide(key.as_ref(), from, numbers)
    }

    /// The numbers that a key holds at a place: the command `show` without its text. A field of more
    /// than 64 bits is [`Error::TooWide`], whatever it holds.
    pub fn get(&self, key: impl AsRef<[u8]>, place: Place) -> Result<Vec<u64>, Error> {
        let key = key.as_ref();
        let place = place.number();
        in_room(0, |room| self.0.get(key, place, room))
    }

    /// The same with numbers of up to 128 bits, of a key of any width.
    pub fn get_wide(&self, key: impl AsRef<[u8]>, place: Place) -> Result<Vec<u128>, Error> {
        let key = key.as_ref();
        let place = place.number();
        in_room(0, |room| self.0.get_wide(key, place, room))
    }

    /// Puts the numbers that a key holds at a place into a room of as many words.
    pub fn get_into(
        &self,
        key: impl AsRef<[u8]>,
        place: Place,
        room: &mut [u64],
    ) -> Result<(), Error> {
        self.0.get(key.as_ref(), place.number(), room)
    }

    /// Puts the numbers that a key holds at a place, from a processor on, into a room, as many as there is
    /// room for, and answers how many there are in all. A room that reaches past the last one is
    /// [`Error::WrongRoom`].
    pub fn part_into(
        &self,
        key: impl AsRef<[u8]>,
        place: Place,
        from: u64,
        room: &mut [u64],
    ) -> Result<usize, Error> {
        self.0
            .part(key.as_ref(), place.number(), from, room)
            .map(|told| told as usize)
    }

    /// Of how many processors the number that a key holds at a place is other than 0: of a flag on how many
    /// it is set.
    ///
    /// ```
    /// # use paris::{Place, Session};
    /// # fn main() -> Result<(), paris::Error> {
    /// let mut session = Session::new()?;
    /// session.answer("set s 4")?;
    /// session.answer("field a s 8")?;
    /// session.set("a", 1, &[7, 0, 9])?;
    ///
    /// assert_eq!(session.count("a", Place::End)?, 2);
    /// assert_eq!(session.count("s.context", Place::End)?, 4);
    /// # Ok(())
    /// # }
    /// ```
    pub fn count(&self, key: impl AsRef<[u8]>, place: Place) -> Result<u64, Error> {
        self.0.count(key.as_ref(), place.number())
    }

    /// What the numbers that a key holds at a place come to in so many stretches of the processors. Of n
    /// processors and k parts, stretch i is of those from i * n / k on, up to before (i + 1) * n / k, both
    /// rounded down. No part, or more parts than processors, are [`Error::WrongRoom`].
    ///
    /// ```
    /// # use paris::{Place, Session};
    /// # fn main() -> Result<(), paris::Error> {
    /// let mut session = Session::new()?;
    /// session.answer("set s 4")?;
    /// session.answer("field a s 8")?;
    /// session.set("a", 0, &[7, 3, 0, 9])?;
    /// let halves = session.summary("a", Place::End, 2)?;
    ///
    /// assert_eq!((halves[0].least, halves[0].greatest, halves[0].others), (3, 7, 2));
    /// assert_eq!(halves[1].sum.narrow(), Some(9));
    /// # Ok(())
    /// # }
    /// ```
    pub fn summary(
        &self,
        key: impl AsRef<[u8]>,
        place: Place,
        parts: usize,
    ) -> Result<Vec<Summary>, Error> {
        self.0.summary(key.as_ref(), place.number(), parts)
    }

    /// In which of so many stretches, as [`summary`](Session::summary) cuts them, what a key holds at a place
    /// differs from what it holds there in another session. Values of another width, or of another number
    /// of processors, are [`Error::Unlike`].
    ///
    /// ```
    /// # use paris::{Place, Session};
    /// # fn main() -> Result<(), paris::Error> {
    /// let mut session = Session::new()?;
    /// session.answer("set s 4")?;
    /// session.answer("field a s 8")?;
    /// let before = session.snapshot()?;
    /// session.set("a", 2, &[7])?;
    ///
    /// assert_eq!(session.differs(&before, "a", Place::End, 2)?, [false, true]);
    /// # Ok(())
    /// # }
    /// ```
    pub fn differs(
        &self,
        other: &Session,
        key: impl AsRef<[u8]>,
        place: Place,
        parts: usize,
    ) -> Result<Vec<bool>, Error> {
        self.0
            .differs(&other.0, key.as_ref(), place.number(), parts)
    }

    /// The ids of the rows in program order.
    pub fn rows(&self) -> Result<Vec<u64>, Error> {
        in_room(0, |room| self.0.rows(room))
    }

    /// Settles every row, and answers how many orders were run: the command `settle` without its
    /// text, which leaves the orders that were taken. A row that would compute again what it
    /// computed last isn't run.
    ///
    /// That a row is settled doesn't say that it did its work: it may be refused for its data, and
    /// then it changes nothing. [`Session::faults`] tells which rows these are.
    ///
    /// ```
    /// # use paris::{Cause, Place, Session};
    /// # fn main() -> Result<(), paris::Error> {
    /// let mut session = Session::new()?;
    /// session.answer("set s 4")?;
    /// session.answer("field address s 2")?;
    /// session.answer("field a s 8")?;
    /// session.answer("field d s 8")?;
    /// session.set("address", 0, &[0, 0, 1, 2])?;
    /// session.set("a", 0, &[1, 2, 3, 4])?;
    /// session.answer("insert end send-1L d address a 8 none")?;
    ///
    /// // Both messages of the processors 0 and 1 are for processor 0.
    /// assert_eq!(session.settle()?, 1);
    /// assert_eq!(session.get("d", Place::End)?, [0; 4]);
    /// let fault = session.faults()?[0];
    /// assert_eq!((fault.row, fault.cause, fault.processor), (1, Cause::Collision, 0));
    /// assert_eq!(fault.to_string(), "row 1: two messages meet at processor 0");
    /// # Ok(())
    /// # }
    /// ```
    pub fn settle(&mut self) -> Result<u64, Error> {
        self.0.settle()
    }

    /// Runs at most so many orders, one after another, and answers how many: fewer where no row is ready
    /// any more. Orders that are out stay so.
    pub fn run(&mut self, most: u64) -> Result<u64, Error> {
        self.0.run(most, &mut [])
    }

    /// Runs orders as [`run`](Session::run) does, and puts the ids of their rows into a room, one after
    /// another, as many as it has places for.
    ///
    /// ```
    /// # fn main() -> Result<(), paris::Error> {
    /// use paris::Session;
    ///
    /// let mut session = Session::new()?;
    /// session.answer("set s 4")?;
    /// session.answer("field a s 8")?;
    /// session.answer("insert end my-send-address-1L a 2")?;
    /// let mut ids = [0; 8];
    ///
    /// assert_eq!(session.run_ids(u64::MAX, &mut ids)?, 1);
    /// assert_eq!(ids[..2], [1, 0]);
    /// # Ok(())
    /// # }
    /// ```
    pub fn run_ids(&mut self, most: u64, ids: &mut [u64]) -> Result<u64, Error> {
        self.0.run(most, ids)
    }

    /// Settles the value of a key at a place: runs the unsettled rows that it stands on, and no other, and
    /// answers how many orders were run. A row that is out is run here too.
    ///
    /// ```
    /// # use paris::{Place, Session};
    /// # fn main() -> Result<(), paris::Error> {
    /// let mut session = Session::new()?;
    /// session.answer("set s 4")?;
    /// session.answer("field a s 8")?;
    /// session.answer("field b s 8")?;
    /// session.answer("insert end my-send-address-1L a 2")?;
    /// session.answer("insert end my-send-address-1L b 2")?;
    ///
    /// assert_eq!(session.settle_for("b", Place::End)?, 1);
    /// assert_eq!(session.get("b", Place::End)?, [0, 1, 2, 3]);
    /// assert_eq!(session.unsettled()?, [1]);
    /// assert_eq!(session.origin("a", Place::End)?, Some(1));
    /// # Ok(())
    /// # }
    /// ```
    pub fn settle_for(&mut self, key: impl AsRef<[u8]>, place: Place) -> Result<u64, Error> {
        self.0.settle_for(key.as_ref(), place.number(), &mut [])
    }

    /// Settles a value as [`settle_for`](Session::settle_for) does, and puts the ids of the rows that are run
    /// into a room, in program order, as many as it has places for.
    pub fn settle_for_ids(
        &mut self,
        key: impl AsRef<[u8]>,
        place: Place,
        ids: &mut [u64],
    ) -> Result<u64, Error> {
        self.0.settle_for(key.as_ref(), place.number(), ids)
    }

    /// The ids of the unsettled rows, in program order. What an edit made unsettled is here after it and
    /// wasn't before.
    pub fn unsettled(&self) -> Result<Vec<u64>, Error> {
        let mut ids = vec![0; FEW_ROWS];
        let count = self.0.unsettled(&mut ids)?;
        ids.resize(count, 0);
        if count > FEW_ROWS {
            self.0.unsettled(&mut ids)?;
        }
        Ok(ids)
    }

    /// The ids of the rows that an edit behind the first so many touched, in program order, settled by now
    /// or not, and how many edits were accepted, from which the next call may go on.
    ///
    /// ```
    /// # fn main() -> Result<(), paris::Error> {
    /// use paris::Session;
    ///
    /// let mut session = Session::new()?;
    /// session.answer("set s 4")?;
    /// session.answer("field a s 8")?;
    /// session.answer("insert end my-send-address-1L a 2")?;
    /// let (ids, edits) = session.touched(0)?;
    ///
    /// assert_eq!(ids, [1]);
    /// assert_eq!(session.touched(edits)?.0, []);
    /// # Ok(())
    /// # }
    /// ```
    pub fn touched(&self, since: u64) -> Result<(Vec<u64>, u64), Error> {
        let mut ids = vec![0; FEW_ROWS];
        let (count, edits) = self.0.touched(since, &mut ids)?;
        ids.resize(count, 0);
        if count > FEW_ROWS {
            self.0.touched(since, &mut ids)?;
        }
        Ok((ids, edits))
    }

    /// The row that gives a key its value at a place, settled or not. `None` is the input data.
    pub fn origin(&self, key: impl AsRef<[u8]>, place: Place) -> Result<Option<u64>, Error> {
        let row = self.0.origin(key.as_ref(), place.number())?;
        Ok((row != 0).then_some(row))
    }

    /// An order for the first row that is ready: it waits, and all that it reads is settled. The row is out
    /// then, until a result of it is brought, it is edited or [released](Session::release). `None` where
    /// no row is ready.
    pub fn take(&mut self) -> Result<Option<Order>, Error> {
        Ok(self.0.take()?.map(Order))
    }

    /// Brings a result, however late, and answers what becomes of it.
    ///
    /// ```
    /// # use paris::{Session, Verdict};
    /// # fn main() -> Result<(), paris::Error> {
    /// let mut session = Session::new()?;
    /// session.answer("set s 4")?;
    /// session.answer("field a s 8")?;
    /// session.answer("insert end u-add-3-1L a a a 8")?;
    /// let order = session.take()?.expect("the row is ready");
    /// session.set("a", 0, &[1])?;
    /// let done = order.execute().map_err(|refused| refused.1)?;
    ///
    /// assert_eq!(session.bring(&done)?, Verdict::Stale(4));
    /// # Ok(())
    /// # }
    /// ```
    pub fn bring(&mut self, done: &Done) -> Result<Verdict, Error> {
        let (number, edition) = self.0.bring(&done.0)?;
        Ok(Verdict::of_number(number, edition).expect("the library has five verdicts"))
    }

    /// Gives up the orders that are out: their rows are ready again. Results of them can still be brought.
    pub fn release(&mut self) -> Result<(), Error> {
        self.0.release()
    }

    /// A session in the same state. The two share values, and what is done with either leaves the other
    /// as it is. Rows that are out are out in both.
    pub fn snapshot(&self) -> Result<Session, Error> {
        self.0.snapshot().map(Session)
    }

    /// The settled rows that are refused for their data, in program order: the command `faults`
    /// without its text.
    pub fn faults(&self) -> Result<Vec<RowFault>, Error> {
        let mut words = vec![0; RowFault::WORDS * FEW_ROWS];
        let count = self.0.faults(&mut words)?;
        words.resize(RowFault::WORDS * count, 0);
        if count > FEW_ROWS {
            self.0.faults(&mut words)?;
        }
        Ok(words
            .chunks_exact(RowFault::WORDS)
            .map(|told| RowFault::of_words(told[0], told[1], told[2]))
            .map(|fault| fault.expect("the library has two causes"))
            .collect())
    }
}

impl Debug for Session {
    fn fmt(&self, f: &mut Formatter<'_>) -> fmt::Result {
        f.debug_struct("Session").finish_non_exhaustive()
    }
}

/// Runs a whole script in a session of its own, and answers its transcript.
pub fn transcript(script: impl AsRef<[u8]>) -> Result<String, Error> {
    let script = script.as_ref();
    let mut room = vec![0; 2 * script.len()];
    let len = sys::script(script, &mut room)?;
    if len > room.len() {
        room.resize(len, 0);
        sys::script(script, &mut room)?;
    }
    room.truncate(len);
    Ok(text_of(room))
}

/// Fills a room of the length that is wanted, which the call tells of an empty room.
pub(crate) fn in_room<T: Clone>(
    zero: T,
    fill: impl Fn(&mut [T]) -> Result<(), Error>,
) -> Result<Vec<T>, Error> {
    let count = match fill(&mut []) {
        Err(Error::WrongRoom(count)) => count,
        ended => return ended.map(|()| Vec::new()),
    };
    let mut room = vec![zero; count];
    fill(&mut room)?;
    Ok(room)
}

pub(crate) fn text_of(reply: Vec<u8>) -> String {
    String::from_utf8(reply).expect("replies are ASCII")
}
