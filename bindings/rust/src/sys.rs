//! The calls of the library, as safe functions. Nothing else in this package is unsafe.
//!
//! What `bindings/c/paris.h` wants of its callers is kept here: a handle begins as zeros, stays where
//! it is, and is in one call at a time, since no two threads share it; each pointer is that of a slice,
//! with its length; and no two arguments of a call overlap.
#![allow(unsafe_code)]

use crate::error::Error;
use crate::summary::{Sum, Summary};
use std::cell::UnsafeCell;
use std::ffi::c_void;
use std::ptr;

pub(crate) mod desk;

const OK: u32 = 0;
pub(crate) const CLOSED: u32 = 101;
pub(crate) const NO_KEY: u32 = 102;
pub(crate) const PENDING: u32 = 103;
pub(crate) const WRONG_ROOM: u32 = 104;
pub(crate) const TOO_MANY: u32 = 105;
pub(crate) const TOO_WIDE: u32 = 106;
pub(crate) const PARTLY: u32 = 107;
pub(crate) const NO_PROFILE: u32 = 108;
pub(crate) const NOTHING: u32 = 109;
pub(crate) const NOT_RUN: u32 = 110;
pub(crate) const UNLIKE: u32 = 111;
pub(crate) const NO_EVENT: u32 = 112;
pub(crate) const STRANGE: u32 = 113;

#[repr(C)]
struct Words {
    at: *mut c_void,
    is_open: bool,
}

/// A number in two words.
#[repr(C)]
#[derive(Clone, Copy)]
struct Wide {
    low: u64,
    high: u64,
}

impl Wide {
    fn of(number: u128) -> Wide {
        Wide {
            low: number as u64,
            high: (number >> 64) as u64,
        }
    }

    fn number(self) -> u128 {
        u128::from(self.high) << 64 | u128::from(self.low)
    }
}

/// A sum in three words.
#[repr(C)]
#[derive(Clone, Copy, Default)]
struct SumWords {
    low: u64,
    middle: u64,
    high: u64,
}

/// What the numbers of a stretch come to.
#[repr(C)]
#[derive(Clone, Copy)]
struct Stretch {
    least: Wide,
    greatest: Wide,
    sum: SumWords,
    others: u64,
}

impl Stretch {
    fn none() -> Stretch {
        Stretch {
            least: Wide::of(0),
            greatest: Wide::of(0),
            sum: SumWords::default(),
            others: 0,
        }
    }

    fn summary(self) -> Summary {
        let low = Wide {
            low: self.sum.low,
            high: self.sum.middle,
        };
        Summary {
            least: self.least.number(),
            greatest: self.greatest.number(),
            sum: Sum {
                high: self.sum.high,
                low: low.number(),
            },
            others: self.others,
        }
    }
}

extern "C" {
    fn paris_open(handle: *mut Words) -> u32;
    fn paris_open_profile(handle: *mut Words, profile: u32) -> u32;
    fn paris_close(handle: *mut Words) -> u32;
    fn paris_answer(handle: *mut Words, line: *const u8, len: usize, reply: *mut usize) -> u32;
    fn paris_reply(handle: *mut Words, room: *mut u8, len: usize) -> u32;
    fn paris_script(
        script: *const u8,
        len: usize,
        room: *mut u8,
        room_len: usize,
        transcript: *mut usize,
    ) -> u32;
    fn paris_set(
        handle: *mut Words,
        key: *const u8,
        key_len: usize,
        from: u64,
        numbers: *const u64,
        len: usize,
    ) -> u32;
    fn paris_get(
        handle: *mut Words,
        key: *const u8,
        key_len: usize,
        place: u64,
        room: *mut u64,
        len: usize,
        told: *mut u64,
    ) -> u32;
    fn paris_set_wide(
        handle: *mut Words,
        key: *const u8,
        key_len: usize,
        from: u64,
        numbers: *const Wide,
        len: usize,
    ) -> u32;
    fn paris_get_wide(
        handle: *mut Words,
        key: *const u8,
        key_len: usize,
        place: u64,
        room: *mut Wide,
        len: usize,
        told: *mut u64,
    ) -> u32;
    fn paris_part(
        handle: *mut Words,
        key: *const u8,
        key_len: usize,
        place: u64,
        from: u64,
        room: *mut u64,
        len: usize,
        told: *mut u64,
    ) -> u32;
    fn paris_count(
        handle: *mut Words,
        key: *const u8,
        key_len: usize,
        place: u64,
        count: *mut u64,
    ) -> u32;
    fn paris_summary(
        handle: *mut Words,
        key: *const u8,
        key_len: usize,
        place: u64,
        room: *mut Stretch,
        len: usize,
        told: *mut u64,
    ) -> u32;
    fn paris_differs(
        handle: *mut Words,
        other: *mut Words,
        key: *const u8,
        key_len: usize,
        place: u64,
        room: *mut u8,
        len: usize,
        told: *mut u64,
    ) -> u32;
    fn paris_rows(handle: *mut Words, room: *mut u64, len: usize, count: *mut usize) -> u32;
    fn paris_settle(handle: *mut Words, ran: *mut u64) -> u32;
    fn paris_faults(handle: *mut Words, room: *mut u64, len: usize, count: *mut usize) -> u32;
    fn paris_run_ids(
        handle: *mut Words,
        most: u64,
        room: *mut u64,
        len: usize,
        ran: *mut u64,
    ) -> u32;
    fn paris_settle_for_ids(
        handle: *mut Words,
        key: *const u8,
        key_len: usize,
        place: u64,
        room: *mut u64,
        len: usize,
        ran: *mut u64,
    ) -> u32;
    fn paris_unsettled(handle: *mut Words, room: *mut u64, len: usize, count: *mut usize) -> u32;
    fn paris_touched(
        handle: *mut Words,
        since: u64,
        room: *mut u64,
        len: usize,
        count: *mut usize,
        edits: *mut u64,
    ) -> u32;
    fn paris_origin(
        handle: *mut Words,
        key: *const u8,
        key_len: usize,
        place: u64,
        row: *mut u64,
    ) -> u32;
    fn paris_take(handle: *mut Words, order: *mut Words) -> u32;
    fn paris_execute(order: *mut Words) -> u32;
    fn paris_bring(
        handle: *mut Words,
        order: *mut Words,
        verdict: *mut u32,
        edition: *mut u64,
    ) -> u32;
    fn paris_order_row(
        order: *mut Words,
        row: *mut u64,
        edition: *mut u64,
        is_run: *mut bool,
    ) -> u32;
    fn paris_order_close(order: *mut Words) -> u32;
    fn paris_release(handle: *mut Words) -> u32;
    fn paris_snapshot(handle: *mut Words, into: *mut Words) -> u32;
    #[cfg(test)]
    fn paris_fault_text(status: u32, room: *mut u8, len: usize) -> usize;
    #[cfg(test)]
    fn paris_cause_text(cause: u32, room: *mut u8, len: usize) -> usize;
}

/// What became of a call that told this number.
fn outcome(status: u32, told: u64) -> Result<(), Error> {
    match status {
        OK => Ok(()),
        _ => Err(Error::of_status(status, told)),
    }
}

/// The words of a handle, which stay where they are. By the cell a call that leaves all as it was takes
/// a shared borrow, and no two threads have one.
struct Place(Box<UnsafeCell<Words>>);

impl Place {
    fn closed() -> Place {
        let words = Words {
            at: ptr::null_mut(),
            is_open: false,
        };
        Place(Box::new(UnsafeCell::new(words)))
    }

    fn get(&self) -> *mut Words {
        self.0.get()
    }
}

// SAFETY: the library lets a handle go to another thread. It is in one call at a time there too, since
// a cell isn't shared by threads.
unsafe impl Send for Place {}

/// An open handle of a session.
pub(crate) struct Handle(Place);

impl Handle {
    fn closed() -> Handle {
        Handle(Place::closed())
    }

    pub(crate) fn open() -> Result<Handle, Error> {
        let handle = Handle::closed();
        // SAFETY: the handle is all zeros.
        let status = unsafe { paris_open(handle.0.get()) };
        outcome(status, 0).map(|()| handle)
    }

    pub(crate) fn open_profile(profile: u32) -> Result<Handle, Error> {
        let handle = Handle::closed();
        // SAFETY: the handle is all zeros.
        let status = unsafe { paris_open_profile(handle.0.get(), profile) };
        outcome(status, 0).map(|()| handle)
    }

    /// Answers a line, and says how long the reply is.
    pub(crate) fn answer(&mut self, line: &[u8]) -> Result<usize, Error> {
        let mut len = 0;
        // SAFETY: the handle is in no other call, and the line is a slice.
        let status = unsafe { paris_answer(self.0.get(), line.as_ptr(), line.len(), &mut len) };
        outcome(status, 0).map(|()| len)
    }

    /// Copies the reply to the last line.
    pub(crate) fn reply(&self, room: &mut [u8]) -> Result<(), Error> {
        // SAFETY: the handle is in no other call, and the room is a slice.
        let status = unsafe { paris_reply(self.0.get(), room.as_mut_ptr(), room.len()) };
        outcome(status, 0)
    }

    pub(crate) fn set(&mut self, key: &[u8], from: u64, numbers: &[u64]) -> Result<(), Error> {
        // Two slices that are read may overlap, so the key is copied.
        let key = key.to_vec();
        // SAFETY: the handle is in no other call, and the slices don't overlap.
        let status = unsafe {
            paris_set(
                self.0.get(),
                key.as_ptr(),
                key.len(),
                from,
                numbers.as_ptr(),
                numbers.len(),
            )
        };
        outcome(status, 0)
    }

    pub(crate) fn get(&self, key: &[u8], place: u64, room: &mut [u64]) -> Result<(), Error> {
        let mut told = 0;
        // SAFETY: the handle is in no other call, and no slice overlaps one that is written.
        let status = unsafe {
            paris_get(
                self.0.get(),
                key.as_ptr(),
                key.len(),
                place,
                room.as_mut_ptr(),
                room.len(),
                &mut told,
            )
        };
        outcome(status, told)
    }

    pub(crate) fn set_wide(
        &mut self,
        key: &[u8],
        from: u64,
        numbers: &[u128],
    ) -> Result<(), Error> {
        let numbers: Vec<Wide> = numbers.iter().copied().map(Wide::of).collect();
        // SAFETY: the handle is in no other call, and the numbers are a copy, so no slices overlap.
        let status = unsafe {
            paris_set_wide(
                self.0.get(),
                key.as_ptr(),
                key.len(),
                from,
                numbers.as_ptr(),
                numbers.len(),
            )
        };
        outcome(status, 0)
    }

    pub(crate) fn get_wide(&self, key: &[u8], place: u64, room: &mut [u128]) -> Result<(), Error> {
        let mut told = 0;
        let mut words = vec![Wide::of(0); room.len()];
        // SAFETY: the handle is in no other call, and no slice overlaps one that is written.
        let status = unsafe {
            paris_get_wide(
                self.0.get(),
                key.as_ptr(),
                key.len(),
                place,
                words.as_mut_ptr(),
                words.len(),
                &mut told,
            )
        };
        outcome(status, told)?;
        for (number, wide) in room.iter_mut().zip(words) {
            *number = wide.number();
        }
        Ok(())
    }

    pub(crate) fn rows(&self, room: &mut [u64]) -> Result<(), Error> {
        let mut count = 0;
        // SAFETY: the handle is in no other call, and the room is a slice.
        let status = unsafe { paris_rows(self.0.get(), room.as_mut_ptr(), room.len(), &mut count) };
        outcome(status, count as u64)
    }

    /// Puts the words of refused rows into a room, as many of them as there is room for, and says how
    /// many rows these are.
    pub(crate) fn faults(&self, room: &mut [u64]) -> Result<usize, Error> {
        let mut count = 0;
        // SAFETY: the handle is in no other call, and the room is a slice.
        let status =
            unsafe { paris_faults(self.0.get(), room.as_mut_ptr(), room.len(), &mut count) };
        outcome(status, 0).map(|()| count)
    }

    pub(crate) fn settle(&mut self) -> Result<u64, Error> {
        let mut ran = 0;
        // SAFETY: the handle is in no other call.
        let status = unsafe { paris_settle(self.0.get(), &mut ran) };
        settled(status, ran)
    }

    /// Puts the ids of the rows that are run into a room, as many as there is room for.
    pub(crate) fn run(&mut self, most: u64, room: &mut [u64]) -> Result<u64, Error> {
        let mut ran = 0;
        let (start, len) = (room.as_mut_ptr(), room.len());
        // SAFETY: the handle is in no other call, and the room is a slice.
        let status = unsafe { paris_run_ids(self.0.get(), most, start, len, &mut ran) };
        settled(status, ran)
    }

    /// Puts the ids of the rows that are run into a room, as many as there is room for.
    pub(crate) fn settle_for(
        &mut self,
        key: &[u8],
        place: u64,
        room: &mut [u64],
    ) -> Result<u64, Error> {
        let mut ran = 0;
        let (name, start) = (key.as_ptr(), room.as_mut_ptr());
        // SAFETY: the handle is in no other call, and the key and the room are slices.
        let status = unsafe {
            paris_settle_for_ids(
                self.0.get(),
                name,
                key.len(),
                place,
                start,
                room.len(),
                &mut ran,
            )
        };
        settled(status, ran)
    }

    /// Puts the ids of unsettled rows into a room, as many as there is room for, and says how many rows
    /// are unsettled.
    pub(crate) fn unsettled(&self, room: &mut [u64]) -> Result<usize, Error> {
        let mut count = 0;
        // SAFETY: the handle is in no other call, and the room is a slice.
        let status =
            unsafe { paris_unsettled(self.0.get(), room.as_mut_ptr(), room.len(), &mut count) };
        outcome(status, 0).map(|()| count)
    }

    /// Puts the ids of rows that an edit behind the first so many touched into a room, as many as there is
    /// room for, and says how many these rows are, and how many edits were accepted.
    pub(crate) fn touched(&self, since: u64, room: &mut [u64]) -> Result<(usize, u64), Error> {
        let (mut count, mut edits) = (0, 0);
        let (start, len) = (room.as_mut_ptr(), room.len());
        // SAFETY: the handle is in no other call, and the room is a slice.
        let status =
            unsafe { paris_touched(self.0.get(), since, start, len, &mut count, &mut edits) };
        outcome(status, 0).map(|()| (count, edits))
    }

    /// The id of the row that gives a key its value at a place, and 0 for the start.
    pub(crate) fn origin(&self, key: &[u8], place: u64) -> Result<u64, Error> {
        let mut row = 0;
        // SAFETY: the handle is in no other call, and the key is a slice.
        let status =
            unsafe { paris_origin(self.0.get(), key.as_ptr(), key.len(), place, &mut row) };
        outcome(status, 0).map(|()| row)
    }
}

/// What became of a call that settles rows, which ran so many orders.
fn settled(status: u32, ran: u64) -> Result<u64, Error> {
    match status {
        PARTLY => Err(Error::PartlySettled(Some(ran))),
        _ => outcome(status, 0).map(|()| ran),
    }
}

impl Handle {
    /// Puts numbers from a processor on into a room, and says how many there are in all.
    pub(crate) fn part(
        &self,
        key: &[u8],
        place: u64,
        from: u64,
        room: &mut [u64],
    ) -> Result<u64, Error> {
        let mut told = 0;
        // SAFETY: the handle is in no other call, and no slice overlaps one that is written.
        let status = unsafe {
            paris_part(
                self.0.get(),
                key.as_ptr(),
                key.len(),
                place,
                from,
                room.as_mut_ptr(),
                room.len(),
                &mut told,
            )
        };
        outcome(status, told).map(|()| told)
    }

    /// Of how many processors a number is other than 0.
    pub(crate) fn count(&self, key: &[u8], place: u64) -> Result<u64, Error> {
        let mut count = 0;
        // SAFETY: the handle is in no other call, and the key is a slice.
        let status =
            unsafe { paris_count(self.0.get(), key.as_ptr(), key.len(), place, &mut count) };
        outcome(status, count).map(|()| count)
    }

    /// What the numbers of so many stretches come to.
    pub(crate) fn summary(
        &self,
        key: &[u8],
        place: u64,
        parts: usize,
    ) -> Result<Vec<Summary>, Error> {
        let mut told = 0;
        let mut room = vec![Stretch::none(); parts];
        let (name, start) = (key.as_ptr(), room.as_mut_ptr());
        // SAFETY: the handle is in no other call, and the key and the room are slices.
        let status = unsafe {
            paris_summary(
                self.0.get(),
                name,
                key.len(),
                place,
                start,
                parts,
                &mut told,
            )
        };
        outcome(status, told)?;
        Ok(room.into_iter().map(Stretch::summary).collect())
    }

    /// In which of so many stretches this session and another one differ.
    pub(crate) fn differs(
        &self,
        other: &Handle,
        key: &[u8],
        place: u64,
        parts: usize,
    ) -> Result<Vec<bool>, Error> {
        if ptr::eq(self, other) {
            // The library wants two handles.
            return self.differs(&self.snapshot()?, key, place, parts);
        }
        let mut told = 0;
        let mut room = vec![0; parts];
        let (name, start) = (key.as_ptr(), room.as_mut_ptr());
        // SAFETY: the handles are two, and in no other call, and the key and the room are slices.
        let status = unsafe {
            paris_differs(
                self.0.get(),
                other.0.get(),
                name,
                key.len(),
                place,
                start,
                parts,
                &mut told,
            )
        };
        outcome(status, told)?;
        Ok(room.into_iter().map(|differs| differs != 0).collect())
    }

    /// An order for the first row that is ready, if there is one.
    pub(crate) fn take(&mut self) -> Result<Option<OrderHandle>, Error> {
        let order = OrderHandle(Place::closed());
        // SAFETY: the handle is in no other call, and the order is all zeros.
        let status = unsafe { paris_take(self.0.get(), order.0.get()) };
        match status {
            NOTHING => Ok(None),
            _ => outcome(status, 0).map(|()| Some(order)),
        }
    }

    /// Brings a result, and says the number of the verdict and the edition that is told with it.
    pub(crate) fn bring(&mut self, order: &OrderHandle) -> Result<(u32, u64), Error> {
        let (mut verdict, mut edition) = (0, 0);
        // SAFETY: neither handle is in another call.
        let status =
            unsafe { paris_bring(self.0.get(), order.0.get(), &mut verdict, &mut edition) };
        outcome(status, 0).map(|()| (verdict, edition))
    }

    pub(crate) fn release(&mut self) -> Result<(), Error> {
        // SAFETY: the handle is in no other call.
        outcome(unsafe { paris_release(self.0.get()) }, 0)
    }

    pub(crate) fn snapshot(&self) -> Result<Handle, Error> {
        let into = Handle::closed();
        // SAFETY: the handle is in no other call, and the other one is all zeros.
        let status = unsafe { paris_snapshot(self.0.get(), into.0.get()) };
        outcome(status, 0).map(|()| into)
    }
}

/// An open handle of an order.
pub(crate) struct OrderHandle(Place);

impl OrderHandle {
    pub(crate) fn execute(&mut self) -> Result<(), Error> {
        // SAFETY: the handle is in no other call.
        outcome(unsafe { paris_execute(self.0.get()) }, 0)
    }

    /// The row and the edition of the order.
    pub(crate) fn row(&self) -> (u64, u64) {
        let (mut row, mut edition, mut is_run) = (0, 0, false);
        // SAFETY: the handle is in no other call.
        unsafe { paris_order_row(self.0.get(), &mut row, &mut edition, &mut is_run) };
        (row, edition)
    }
}

impl Drop for OrderHandle {
    fn drop(&mut self) {
        // SAFETY: the handle is in no other call.
        unsafe { paris_order_close(self.0.get()) };
    }
}

impl Drop for Handle {
    fn drop(&mut self) {
        // SAFETY: the handle is in no other call.
        unsafe { paris_close(self.0.get()) };
    }
}

/// Runs a script, puts as much of its transcript into a room as there is room for, and says how
/// long the transcript is.
pub(crate) fn script(script: &[u8], room: &mut [u8]) -> Result<usize, Error> {
    let mut len = 0;
    // SAFETY: no slice overlaps one that is written.
    let status = unsafe {
        paris_script(
            script.as_ptr(),
            script.len(),
            room.as_mut_ptr(),
            room.len(),
            &mut len,
        )
    };
    outcome(status, 0).map(|()| len)
}

/// The library's texts, for the tests: those of this package are the same.
#[cfg(test)]
pub(crate) mod texts {
    const ROOM: usize = 128;

    fn text_of(call: unsafe extern "C" fn(u32, *mut u8, usize) -> usize, number: u32) -> String {
        let mut room = [0; ROOM];
        // SAFETY: the room is an array.
        let size = unsafe { call(number, room.as_mut_ptr(), room.len()) };
        String::from_utf8_lossy(&room[..size]).into_owned()
    }

    pub(crate) fn of_status(status: u32) -> String {
        text_of(super::paris_fault_text, status)
    }

    pub(crate) fn of_cause(cause: u32) -> String {
        text_of(super::paris_cause_text, cause)
    }
}
