//! The calls of a desk and of its seats. What a caller keeps is kept as for a session: a desk is in one
//! call at a time, since whoever calls it has it to itself, and so is a seat.

use super::{outcome, Handle, OrderHandle, Place, Wide, Words, NOTHING};
use crate::error::Error;

extern "C" {
    fn paris_desk_open(desk: *mut Words, from: *mut Words, name: u64, limit: u64) -> u32;
    fn paris_desk_sit(desk: *mut Words, seat: *mut Words, number: *mut u64) -> u32;
    fn paris_desk_answer(
        desk: *mut Words,
        seat: *mut Words,
        line: *const u8,
        len: usize,
        reply: *mut usize,
        entry: *mut u64,
    ) -> u32;
    fn paris_desk_set(
        desk: *mut Words,
        seat: *mut Words,
        key: *const u8,
        key_len: usize,
        from: u64,
        numbers: *const u64,
        len: usize,
        reply: *mut usize,
        entry: *mut u64,
    ) -> u32;
    fn paris_desk_set_wide(
        desk: *mut Words,
        seat: *mut Words,
        key: *const u8,
        key_len: usize,
        from: u64,
        numbers: *const Wide,
        len: usize,
        reply: *mut usize,
        entry: *mut u64,
    ) -> u32;
    fn paris_desk_take(
        desk: *mut Words,
        seat: *mut Words,
        order: *mut Words,
        entry: *mut u64,
    ) -> u32;
    fn paris_desk_bring(
        desk: *mut Words,
        seat: *mut Words,
        order: *mut Words,
        verdict: *mut u32,
        edition: *mut u64,
        entry: *mut u64,
    ) -> u32;
    fn paris_desk_look(desk: *mut Words, seat: *mut Words) -> u32;
    fn paris_desk_entry(
        desk: *mut Words,
        entry: u64,
        seat: *mut u64,
        kind: *mut u32,
        room: *mut u8,
        len: usize,
        reply: *mut usize,
    ) -> u32;
    fn paris_desk_audit(desk: *mut Words, agrees: *mut bool) -> u32;
    fn paris_desk_cut(desk: *mut Words, entries: *mut u64) -> u32;
    fn paris_desk_snapshot(desk: *mut Words, into: *mut Words) -> u32;
    fn paris_desk_close(desk: *mut Words) -> u32;
    fn paris_seat_reply(seat: *mut Words, room: *mut u8, len: usize) -> u32;
    fn paris_seat_get(
        seat: *mut Words,
        key: *const u8,
        key_len: usize,
        place: u64,
        room: *mut u64,
        len: usize,
        told: *mut u64,
    ) -> u32;
    fn paris_seat_order_for(
        seat: *mut Words,
        key: *const u8,
        key_len: usize,
        place: u64,
        order: *mut Words,
    ) -> u32;
    fn paris_seat_snapshot(seat: *mut Words, into: *mut Words) -> u32;
    fn paris_seat_front(seat: *mut Words, front: *mut u64) -> u32;
    fn paris_seat_close(seat: *mut Words) -> u32;
}

/// An open handle of a desk.
pub(crate) struct DeskHandle(Place);

impl DeskHandle {
    /// Opens a desk of a name, whose history begins at the state of a session.
    pub(crate) fn open(from: &Handle, name: u64, limit: u64) -> Result<DeskHandle, Error> {
        let desk = DeskHandle(Place::closed());
        // SAFETY: the desk is all zeros, and the session is in no other call.
        let status = unsafe { paris_desk_open(desk.0.get(), from.0.get(), name, limit) };
        outcome(status, 0).map(|()| desk)
    }

    /// The next seat, and its number.
    pub(crate) fn sit(&mut self) -> Result<(SeatHandle, u64), Error> {
        let seat = SeatHandle(Place::closed());
        let mut number = 0;
        // SAFETY: the desk is in no other call, and the seat is all zeros.
        let status = unsafe { paris_desk_sit(self.0.get(), seat.0.get(), &mut number) };
        outcome(status, 0).map(|()| (seat, number))
    }

    /// Answers a line of a seat, and says how long the reply is.
    pub(crate) fn answer(&mut self, seat: &mut SeatHandle, line: &[u8]) -> Result<usize, Error> {
        let (mut len, mut entry) = (0, 0);
        let (start, count) = (line.as_ptr(), line.len());
        // SAFETY: the desk and the seat are in no other call, and the line is a slice.
        let status = unsafe {
            paris_desk_answer(
                self.0.get(),
                seat.0.get(),
                start,
                count,
                &mut len,
                &mut entry,
            )
        };
        outcome(status, 0).map(|()| len)
    }

    /// Gives a key numbers for a seat, and says how long the reply is.
    pub(crate) fn set(
        &mut self,
        seat: &mut SeatHandle,
        key: &[u8],
        from: u64,
        numbers: &[u64],
    ) -> Result<usize, Error> {
        let (mut len, mut entry) = (0, 0);
        // Two slices that are read may overlap, so the key is copied.
        let key = key.to_vec();
        let (start, count) = (numbers.as_ptr(), numbers.len());
        // SAFETY: the desk and the seat are in no other call, and the slices don't overlap.
        let status = unsafe {
            paris_desk_set(
                self.0.get(),
                seat.0.get(),
                key.as_ptr(),
                key.len(),
                from,
                start,
                count,
                &mut len,
                &mut entry,
            )
        };
        outcome(status, 0).map(|()| len)
    }

    /// The same with numbers of two words each.
    pub(crate) fn set_wide(
        &mut self,
        seat: &mut SeatHandle,
        key: &[u8],
        from: u64,
        numbers: &[u128],
    ) -> Result<usize, Error> {
        let (mut len, mut entry) = (0, 0);
        let numbers: Vec<Wide> = numbers.iter().copied().map(Wide::of).collect();
        // SAFETY: the desk and the seat are in no other call, and the numbers are a copy, so no slices overlap.
        let status = unsafe {
            paris_desk_set_wide(
                self.0.get(),
                seat.0.get(),
                key.as_ptr(),
                key.len(),
                from,
                numbers.as_ptr(),
                numbers.len(),
                &mut len,
                &mut entry,
            )
        };
        outcome(status, 0).map(|()| len)
    }

    /// An order for the first row that is ready, if there is one.
    pub(crate) fn take(&mut self, seat: &mut SeatHandle) -> Result<Option<OrderHandle>, Error> {
        let order = OrderHandle(Place::closed());
        let mut entry = 0;
        // SAFETY: the desk and the seat are in no other call, and the order is all zeros.
        let status =
            unsafe { paris_desk_take(self.0.get(), seat.0.get(), order.0.get(), &mut entry) };
        order.where_some(status)
    }

    /// Brings a result, and says the number of the verdict and the edition that is told with it.
    pub(crate) fn bring(
        &mut self,
        seat: &mut SeatHandle,
        order: &OrderHandle,
    ) -> Result<(u32, u64), Error> {
        let (mut verdict, mut edition, mut entry) = (0, 0, 0);
        // SAFETY: none of the handles is in another call.
        let status = unsafe {
            paris_desk_bring(
                self.0.get(),
                seat.0.get(),
                order.0.get(),
                &mut verdict,
                &mut edition,
                &mut entry,
            )
        };
        outcome(status, 0).map(|()| (verdict, edition))
    }

    /// Has a seat look at the book as it is.
    pub(crate) fn look(&mut self, seat: &mut SeatHandle) -> Result<(), Error> {
        // SAFETY: the desk and the seat are in no other call.
        outcome(unsafe { paris_desk_look(self.0.get(), seat.0.get()) }, 0)
    }

    /// Puts the text of an entry's reply into a room, as much of it as there is room for, and says the
    /// seat's number, the number of the kind, and how long the text is.
    pub(crate) fn entry(
        &mut self,
        number: u64,
        room: &mut [u8],
    ) -> Result<(u64, u32, usize), Error> {
        let (mut seat, mut kind, mut len) = (0, 0, 0);
        let (start, count) = (room.as_mut_ptr(), room.len());
        // SAFETY: the desk is in no other call, and the room is a slice.
        let status = unsafe {
            paris_desk_entry(
                self.0.get(),
                number,
                &mut seat,
                &mut kind,
                start,
                count,
                &mut len,
            )
        };
        outcome(status, 0).map(|()| (seat, kind, len))
    }

    pub(crate) fn audit(&mut self) -> Result<bool, Error> {
        let mut agrees = false;
        // SAFETY: the desk is in no other call.
        let status = unsafe { paris_desk_audit(self.0.get(), &mut agrees) };
        outcome(status, 0).map(|()| agrees)
    }

    /// Begins a new chapter, and says how many entries the last one had.
    pub(crate) fn cut(&mut self) -> Result<u64, Error> {
        let mut entries = 0;
        // SAFETY: the desk is in no other call.
        let status = unsafe { paris_desk_cut(self.0.get(), &mut entries) };
        outcome(status, 0).map(|()| entries)
    }

    pub(crate) fn snapshot(&mut self) -> Result<Handle, Error> {
        let into = Handle::closed();
        // SAFETY: the desk is in no other call, and the other handle is all zeros.
        let status = unsafe { paris_desk_snapshot(self.0.get(), into.0.get()) };
        outcome(status, 0).map(|()| into)
    }
}

/// An open handle of a seat.
pub(crate) struct SeatHandle(Place);

impl SeatHandle {
    /// Copies the reply to the last line.
    pub(crate) fn reply(&self, room: &mut [u8]) -> Result<(), Error> {
        // SAFETY: the seat is in no other call, and the room is a slice.
        let status = unsafe { paris_seat_reply(self.0.get(), room.as_mut_ptr(), room.len()) };
        outcome(status, 0)
    }

    pub(crate) fn get(&self, key: &[u8], place: u64, room: &mut [u64]) -> Result<(), Error> {
        let mut told = 0;
        let (name, start) = (key.as_ptr(), room.as_mut_ptr());
        // SAFETY: the seat is in no other call, and no slice overlaps one that is written.
        let status = unsafe {
            paris_seat_get(
                self.0.get(),
                name,
                key.len(),
                place,
                start,
                room.len(),
                &mut told,
            )
        };
        outcome(status, told)
    }

    /// An order for the first row that is ready of those that a value stands on, if there is one.
    pub(crate) fn order_for(&self, key: &[u8], place: u64) -> Result<Option<OrderHandle>, Error> {
        let order = OrderHandle(Place::closed());
        let (name, count) = (key.as_ptr(), key.len());
        // SAFETY: the seat is in no other call, the key is a slice, and the order is all zeros.
        let status =
            unsafe { paris_seat_order_for(self.0.get(), name, count, place, order.0.get()) };
        order.where_some(status)
    }

    /// A session with the book that the seat looks at.
    pub(crate) fn snapshot(&self) -> Result<Handle, Error> {
        let into = Handle::closed();
        // SAFETY: the seat is in no other call, and the other handle is all zeros.
        let status = unsafe { paris_seat_snapshot(self.0.get(), into.0.get()) };
        outcome(status, 0).map(|()| into)
    }

    pub(crate) fn front(&self) -> u64 {
        let mut front = 0;
        // SAFETY: the seat is in no other call.
        unsafe { paris_seat_front(self.0.get(), &mut front) };
        front
    }
}

impl OrderHandle {
    /// The order that a call has opened, where a row was ready.
    fn where_some(self, status: u32) -> Result<Option<OrderHandle>, Error> {
        match status {
            NOTHING => Ok(None),
            _ => outcome(status, 0).map(|()| Some(self)),
        }
    }
}

impl Drop for DeskHandle {
    fn drop(&mut self) {
        // SAFETY: the desk is in no other call.
        unsafe { paris_desk_close(self.0.get()) };
    }
}

impl Drop for SeatHandle {
    fn drop(&mut self) {
        // SAFETY: the seat is in no other call.
        unsafe { paris_seat_close(self.0.get()) };
    }
}
