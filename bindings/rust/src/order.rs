use crate::error::Error;
use crate::sys::OrderHandle;
use std::fmt::{self, Debug, Formatter};

/// An order, which a session gives for a row that is ready: what the row computes, with all that it
/// reads. It is executed with no session, in any thread.
///
/// ```
/// use paris::{Place, Session, Verdict};
/// use std::thread;
///
/// fn main() -> Result<(), paris::Error> {
///     let mut session = Session::new()?;
///     session.answer("set s 4")?;
///     session.answer("field a s 8")?;
///     session.set("a", 0, &[1, 2, 3, 4])?;
///     session.answer("insert end u-add-3-1L a a a 8")?;
///     while let Some(order) = session.take()? {
///         let worker = thread::spawn(|| order.execute());
///         // Here the session is free.
///         let done = worker.join().expect("an order doesn't panic").map_err(|refused| refused.1)?;
///         assert_eq!(session.bring(&done)?, Verdict::Kept);
///     }
///     assert_eq!(session.get("a", Place::End)?, [2, 4, 6, 8]);
///     Ok(())
/// }
/// ```
///
/// An order goes to one thread: it isn't executed in two at once, nor twice.
///
/// ```compile_fail
/// fn is_shared<T: Sync>() {}
/// is_shared::<paris::Order>();
/// ```
///
/// ```compile_fail
/// fn run(order: paris::Order) {
///     std::thread::scope(|scope| {
///         scope.spawn(|| order.execute());
///         scope.spawn(|| order.execute());
///     });
/// }
/// ```
///
/// Nor is one brought that isn't executed:
///
/// ```compile_fail
/// fn bring(session: &mut paris::Session, order: paris::Order) {
///     let _ = session.bring(&order);
/// }
/// ```
pub struct Order(pub(crate) OrderHandle);

impl Order {
    /// The id of the row that the order is for.
    pub fn row(&self) -> u64 {
        self.0.row().0
    }

    /// The edition that the row had.
    pub fn edition(&self) -> u64 {
        self.0.row().1
    }

    /// Executes the order. Where memory is refused it comes back, and can be executed again.
    pub fn execute(mut self) -> Result<Done, (Order, Error)> {
        match self.0.execute() {
            Ok(()) => Ok(Done(self.0)),
            Err(error) => Err((self, error)),
        }
    }
}

impl Debug for Order {
    fn fmt(&self, f: &mut Formatter<'_>) -> fmt::Result {
        tell(f, "Order", &self.0)
    }
}

/// An order that is executed, with its result. It can be brought more than once, to any session.
///
/// ```compile_fail
/// fn is_shared<T: Sync>() {}
/// is_shared::<paris::Done>();
/// ```
pub struct Done(pub(crate) OrderHandle);

impl Done {
    /// The id of the row that the order was for.
    pub fn row(&self) -> u64 {
        self.0.row().0
    }

    /// The edition that the row had.
    pub fn edition(&self) -> u64 {
        self.0.row().1
    }
}

impl Debug for Done {
    fn fmt(&self, f: &mut Formatter<'_>) -> fmt::Result {
        tell(f, "Done", &self.0)
    }
}

/// Prints the row and the edition of an order.
fn tell(f: &mut Formatter<'_>, name: &str, order: &OrderHandle) -> fmt::Result {
    let (row, edition) = order.row();
    f.debug_struct(name)
        .field("row", &row)
        .field("edition", &edition)
        .finish_non_exhaustive()
}
