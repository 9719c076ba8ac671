//! Sessions of Paris programs.
//!
//! A [`Session`] answers the lines of a script, takes and gives arrays of numbers, and settles the
//! rows of its program. It calls the library `libparis.a`, which `bindings/c/paris.h` declares, and
//! computes nothing of its own. What the commands mean is said in `docs/MACHINE.md` of the
//! repository, and how they are spelled in `docs/SCRIPTS.md`.
//!
//! ```
//! use paris::{Place, Session};
//!
//! fn main() -> Result<(), paris::Error> {
//!     let mut session = Session::new()?;
//!     session.answer("set s 4")?;
//!     session.answer("field a s 8")?;
//!     session.set("a", 0, &[1, 2, 3, 250])?;
//!     assert_eq!(session.answer("insert end u-add-3-1L a a a 8")?, "row 1\n");
//!     assert_eq!(session.settle()?, 1);
//!     assert_eq!(session.faults()?, []);
//!     assert_eq!(session.get("a", Place::End)?, [2, 4, 6, 244]);
//!     assert_eq!(session.get("a", Place::Start)?, [1, 2, 3, 250]);
//!     Ok(())
//! }
//! ```
//!
//! A settled row may be refused for its data, as a plain send in which two messages meet:
//! [`Session::faults`] tells of such rows.
//!
//! Rows can be run in threads while the session takes edits: [`Session::take`] gives an [`Order`], which is
//! executed in any thread, and [`Session::bring`] takes its result.
//!
//! Several people, and workers, share a [`Desk`]: each has a [`Seat`], each call of one is an entry of the
//! desk's history, and a [`Look`] reads with no lock.
//!
//! The library is that of the folder which the variable `PARIS_LIB_DIR` names as the package is
//! built, else that of `bindings/c/out`, where `bindings/c/build` or `bindings/c/unpack` of the repository puts it.
#![warn(missing_docs, missing_debug_implementations)]

mod desk;
mod entry;
mod error;
mod fault;
mod order;
mod place;
mod profile;
mod refused;
mod seat;
mod session;
mod summary;
mod sys;
mod verdict;

pub use desk::{Desk, Entries};
pub use entry::{Entry, Kind};
pub use error::Error;
pub use fault::Fault;
pub use order::{Done, Order};
pub use place::Place;
pub use profile::Profile;
pub use refused::{Cause, RowFault};
pub use seat::{Look, Seat};
pub use session::{transcript, Session};
pub use summary::{Sum, Summary};
pub use verdict::Verdict;
