use crate::entry::{Entry, Kind};
use crate::error::Error;
use crate::fault::Fault;
use crate::seat::Seat;
use crate::session::{text_of, Session};
use crate::sys::desk::DeskHandle;
use std::fmt::{self, Debug, Formatter};
use std::sync::atomic::{AtomicU64, Ordering};
use std::sync::{Arc, Mutex, MutexGuard, PoisonError};

/// A text of so many bytes is told by one call of the library, and a longer one by two.
const SHORT_TEXT: usize = 128;

/// The name of the next desk. Each has its own, so no desk takes another one's seats for its own.
static NEXT_NAME: AtomicU64 = AtomicU64::new(0);

/// A desk: a book that several people and workers call, with the history of who called it.
///
/// Each person, and each worker, has a [`Seat`]. A call of a seat for the desk is an entry of the history:
/// the seat's number, what was asked, and the reply. The calls of a desk are ordered by a mutex inside,
/// so threads share a desk. A seat goes to one thread.
///
/// ```
/// use paris::{Desk, Place, Session};
/// use std::thread;
///
/// fn main() -> Result<(), paris::Error> {
///     let mut session = Session::new()?;
///     session.answer("set s 4")?;
///     session.answer("field a s 8")?;
///     session.answer("field c s 8")?;
///     let desk = Desk::open(&session)?;
///     let (mut ann, mut bob) = (desk.sit()?, desk.sit()?);
///
///     let typing = thread::spawn(move || ann.set("a", 0, &[1, 2, 3, 250]));
///     bob.answer("insert end u-add-3-1L c a a 8")?;
///     typing.join().expect("a seat doesn't panic")?;
///
///     let order = bob.take()?.expect("the row is ready");
///     let done = order.execute().map_err(|refused| refused.1)?;
///     bob.bring(&done)?;
///     assert_eq!(bob.look()?.get("c", Place::End)?, [2, 4, 6, 244]);
///     assert_eq!(desk.entries().count(), 4);
///     assert!(desk.audit()?);
///     Ok(())
/// }
/// ```
///
/// A desk is closed once it and its seats are dropped.
///
/// ```
/// fn is_shared<T: Send + Sync>() {}
/// is_shared::<paris::Desk>();
/// ```
pub struct Desk(Arc<Mutex<DeskHandle>>);

impl Desk {
    /// Opens a desk whose history begins, with no entry, at the present state of a session, which stays as
    /// it was.
    pub fn open(session: &Session) -> Result<Desk, Error> {
        Desk::with_limit(session, u64::MAX)
    }

    /// Opens a desk whose history has at most so many entries. A call that would be one more is
    /// [`Fault::HistoryFull`], until [`cut`](Desk::cut) begins a new chapter.
    pub fn with_limit(session: &Session, limit: u64) -> Result<Desk, Error> {
        let name = NEXT_NAME.fetch_add(1, Ordering::Relaxed);
        let handle = DeskHandle::open(&session.0, name, limit)?;
        Ok(Desk(Arc::new(Mutex::new(handle))))
    }

    /// The next seat. It looks at the book as it is.
    pub fn sit(&self) -> Result<Seat, Error> {
        let (handle, number) = held(&self.0).sit()?;
        Ok(Seat::of(Arc::clone(&self.0), handle, number))
    }

    /// Who did what, by the number of an entry of the present chapter, from 1 on. Where there is none it is
    /// [`Fault::NoEntry`].
    pub fn entry(&self, number: u64) -> Result<Entry, Error> {
        let mut room = vec![0; SHORT_TEXT];
        let mut desk = held(&self.0);
        let (seat, kind, len) = desk.entry(number, &mut room)?;
        room.resize(len, 0);
        if len > SHORT_TEXT {
            desk.entry(number, &mut room)?;
        }
        drop(desk);
        Ok(Entry {
            number,
            seat,
            kind: Kind::of_number(kind).expect("the library has six kinds"),
            reply: text_of(room),
        })
    }

    /// The entries of the present chapter, one after another. Calls may be made meanwhile: what they add is
    /// told too.
    ///
    /// ```
    /// # use paris::{Desk, Kind, Session};
    /// # fn main() -> Result<(), paris::Error> {
    /// let desk = Desk::open(&Session::new()?)?;
    /// let mut seat = desk.sit()?;
    /// seat.answer("set s 4")?;
    /// seat.answer("set s 8")?;
    /// let told = desk.entries().collect::<Result<Vec<_>, _>>()?;
    ///
    /// assert_eq!((told[1].seat, told[1].kind), (seat.number(), Kind::Edit));
    /// assert_eq!(told[1].reply, "refused 3\n");
    /// # Ok(())
    /// # }
    /// ```
    pub fn entries(&self) -> Entries<'_> {
        Entries {
            desk: self,
            next: 1,
        }
    }

    /// Makes all events of the present chapter again, from the state at which it begins, and compares the
    /// replies. It answers true: the call is a check of what no proof says, as that memory holds what was
    /// written.
    pub fn audit(&self) -> Result<bool, Error> {
        held(&self.0).audit()
    }

    /// Begins a new chapter at the present state, with no entry, and answers how many the last one had.
    /// Seats stay.
    pub fn cut(&self) -> Result<u64, Error> {
        held(&self.0).cut()
    }

    /// A session with the desk's book. What is done with it leaves the desk as it is.
    pub fn snapshot(&self) -> Result<Session, Error> {
        held(&self.0).snapshot().map(Session)
    }
}

impl Debug for Desk {
    fn fmt(&self, f: &mut Formatter<'_>) -> fmt::Result {
        f.debug_struct("Desk").finish_non_exhaustive()
    }
}

/// The desk for one call. A thread that panics with it leaves it whole: each call of the library does.
pub(crate) fn held(desk: &Mutex<DeskHandle>) -> MutexGuard<'_, DeskHandle> {
    desk.lock().unwrap_or_else(PoisonError::into_inner)
}

/// The entries of a desk's present chapter: [`Desk::entries`].
#[derive(Debug)]
pub struct Entries<'desk> {
    desk: &'desk Desk,
    next: u64,
}

impl Iterator for Entries<'_> {
    type Item = Result<Entry, Error>;

    fn next(&mut self) -> Option<Result<Entry, Error>> {
        let told = self.desk.entry(self.next);
        if told == Err(Error::Fault(Fault::NoEntry)) {
            return None;
        }
        self.next += 1;
        Some(told)
    }
}
