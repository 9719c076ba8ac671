//! Desks: what each call of a seat adds to the history, what looks show, and seats in threads.

use paris::{Desk, Done, Entry, Error, Fault, Kind, Order, Place, Profile, Seat, Session, Verdict};
use std::thread;

/// A session with three fields on four processors, and the row c = a + b.
fn sum() -> Result<Session, Error> {
    let mut session = Session::new()?;
    for line in ["set s 4", "field a s 8", "field b s 8", "field c s 8"] {
        assert_eq!(session.answer(line)?, "ok\n");
    }
    session.set("a", 0, &[1, 2, 3, 4])?;
    session.set("b", 0, &[10, 20, 30, 40])?;
    assert_eq!(session.answer("insert end u-add-3-1L c a b 8")?, "row 1\n");
    Ok(session)
}

fn executed(order: Order) -> Result<Done, Error> {
    order.execute().map_err(|(_, error)| error)
}

fn entry(number: u64, seat: u64, kind: Kind, reply: &str) -> Entry {
    let reply = reply.to_string();
    Entry {
        number,
        seat,
        kind,
        reply,
    }
}

fn told(desk: &Desk) -> Result<Vec<Entry>, Error> {
    desk.entries().collect()
}

#[test]
fn each_call_of_a_seat_is_an_entry() -> Result<(), Error> {
    let desk = Desk::open(&sum()?)?;
    let (mut ann, mut bob) = (desk.sit()?, desk.sit()?);
    assert_eq!((ann.number(), bob.number()), (0, 1));
    assert_eq!(ann.answer("set s 4")?, "refused 3\n");
    bob.set("a", 0, &[9])?;
    let order = ann.take()?.expect("the row is ready");
    assert!(bob.take()?.is_none());
    let edition = order.edition();
    let done = executed(order)?;
    assert_eq!(bob.bring(&done)?, Verdict::Kept);
    assert_eq!((ann.front(), bob.front()), (3, 4));
    assert_eq!(ann.answer("show c end")?, "values 19 22 33 44\n");
    ann.release()?;
    let list = bob.answer("list")?;
    let wanted = [
        entry(1, 0, Kind::Edit, "refused 3\n"),
        entry(2, 1, Kind::Edit, "ok\n"),
        entry(
            3,
            0,
            Kind::Take,
            &format!("order 1 row 1 edition {edition}\n"),
        ),
        entry(4, 1, Kind::Bring, "kept\n"),
        entry(5, 0, Kind::Show, "values 19 22 33 44\n"),
        entry(6, 0, Kind::Release, "ok\n"),
        entry(7, 1, Kind::List, &list),
    ];
    assert_eq!(told(&desk)?, wanted);
    assert!(list.ends_with(" settled u-add-3-1L c a b 8\n"), "{list}");
    assert!(desk.audit()?);
    Ok(())
}

#[test]
fn long_replies_are_told_whole() -> Result<(), Error> {
    let mut session = Session::new()?;
    session.answer("set s 256")?;
    session.answer("field a s 64")?;
    let numbers = [u64::MAX; 256];
    session.set("a", 0, &numbers)?;
    let desk = Desk::open(&session)?;
    let shown = format!("values{}\n", format!(" {}", u64::MAX).repeat(256));
    assert_eq!(desk.sit()?.answer("show a end")?, shown);
    assert_eq!(desk.entry(1)?, entry(1, 0, Kind::Show, &shown));
    Ok(())
}

#[test]
fn lines_that_are_no_events_are_no_entries() -> Result<(), Error> {
    let desk = Desk::open(&sum()?)?;
    let mut seat = desk.sit()?;
    for line in ["", "# a remark", "settle", "take", "bring 1", "faults"] {
        assert_eq!(seat.answer(line), Err(Error::NoEvent), "{line:?}");
    }
    assert_eq!(seat.answer("shw a end")?, "refused 20 1\n");
    assert_eq!(seat.front(), 0);
    assert_eq!(told(&desk)?, []);
    let missing = Err(Error::Fault(Fault::NoEntry));
    for number in [0, 1, u64::MAX] {
        assert_eq!(desk.entry(number), missing, "{number}");
    }
    Ok(())
}

#[test]
fn a_look_stays_as_it_was() -> Result<(), Error> {
    let desk = Desk::open(&sum()?)?;
    let (mut ann, mut bob) = (desk.sit()?, desk.sit()?);
    let look = ann.look()?;
    assert_eq!(look.get("c", Place::End), Err(Error::Pending(1)));
    bob.set("a", 0, &[100])?;
    let done = executed(bob.take()?.expect("the row is ready"))?;
    bob.bring(&done)?;
    assert_eq!(look.get("c", Place::End), Err(Error::Pending(1)));
    assert_eq!(look.get("a", Place::Start)?, [1, 2, 3, 4]);
    let look = ann.look()?;
    assert_eq!(look.get("c", Place::End)?, [110, 22, 33, 44]);
    assert_eq!(look.get("c", Place::Start)?, [0; 4]);
    assert_eq!(look.get("c", Place::After(1))?, [110, 22, 33, 44]);
    assert_eq!(ann.front(), 3);
    drop(desk);
    drop(bob);
    let mut room = [7; 4];
    let look = ann.look()?;
    assert_eq!(
        look.get_into("c", Place::End, &mut room[1..]),
        Err(Error::WrongRoom(4))
    );
    look.get_into("c", Place::End, &mut room)?;
    assert_eq!(room, [110, 22, 33, 44]);
    Ok(())
}

#[test]
fn looks_are_refused_as_those_of_a_session() -> Result<(), Error> {
    let mut session = Session::with_profile(Profile::Two)?;
    for line in ["set s 4", "field w s 65", "field a s 8"] {
        session.answer(line)?;
    }
    let desk = Desk::open(&session)?;
    let mut seat = desk.sit()?;
    let look = seat.look()?;
    for key in ["a", "w", "zz", "1", "", "s.carry", "t.carry"] {
        for place in [Place::Start, Place::End, Place::After(9)] {
            assert_eq!(look.get(key, place), session.get(key, place), "{key}");
        }
    }
    assert_eq!(look.get("w", Place::End), Err(Error::TooWide));
    Ok(())
}

#[test]
fn numbers_are_refused_as_those_of_a_session() -> Result<(), Error> {
    let mut session = Session::with_profile(Profile::Two)?;
    for line in ["set s 4", "field a s 8", "field w s 128"] {
        session.answer(line)?;
    }
    let desk = Desk::open(&session)?;
    let mut seat = desk.sit()?;
    let keys: [&[u8]; 10] = [
        b"a",
        b"w",
        b"zz",
        b"s.context",
        b"t.carry",
        b"1",
        b"",
        b"a 0",
        b"a\n",
        b"\xff",
    ];
    for key in keys {
        for from in [0, 3, 4, u64::MAX] {
            for numbers in [&[1][..], &[0, 1], &[256], &[1, u128::MAX], &[1; 5]] {
                let wanted = session.set_wide(key, from, numbers);
                assert_eq!(seat.set_wide(key, from, numbers), wanted, "{key:?} {from}");
            }
        }
        assert_eq!(seat.set(key, 0, &[]), session.set(key, 0, &[]), "{key:?}");
    }
    for key in ["a", "w", "s.context"] {
        let shown = format!("show {key} end");
        assert_eq!(seat.answer(&shown)?, session.answer(&shown)?);
    }
    // A word that is no key makes no entry: the last five of the ten.
    let edits = told(&desk)?.len() - 3;
    assert_eq!(edits, 5 * (4 * 5 + 1));
    Ok(())
}

#[test]
fn as_many_numbers_are_given_as_there_are_processors() -> Result<(), Error> {
    let mut session = Session::with_profile(Profile::Two)?;
    for line in ["set s 65536", "field a s 64", "field w s 128"] {
        session.answer(line)?;
    }
    let desk = Desk::open(&session)?;
    let mut seat = desk.sit()?;
    let given: Vec<u64> = (0..65_536).map(|number| u64::MAX - number).collect();
    let wide: Vec<u128> = (0..65_536).map(|number| u128::MAX - number).collect();
    seat.set("a", 0, &given)?;
    seat.set_wide("w", 0, &wide)?;
    let wanted = [
        entry(1, 0, Kind::Edit, "ok\n"),
        entry(2, 0, Kind::Edit, "ok\n"),
    ];
    assert_eq!(told(&desk)?, wanted);
    let look = seat.look()?;
    assert_eq!(look.get("a", Place::End)?, given);
    assert_eq!(look.snapshot()?.get_wide("w", Place::End)?, wide);
    assert!(desk.audit()?);
    Ok(())
}

#[test]
fn a_snapshot_of_a_look_tells_what_a_session_tells() -> Result<(), Error> {
    let mut session = Session::with_profile(Profile::Two)?;
    for line in ["set s 4", "field a s 8", "field d s 8", "field w s 65"] {
        session.answer(line)?;
    }
    session.set_wide("w", 0, &[1 << 64, 1, 2, 3])?;
    // All four messages are for processor 0.
    session.answer("insert end send-1L d a a 8 none")?;
    session.settle()?;
    session.answer("insert end u-move-1L w w 65")?;
    let desk = Desk::open(&session)?;
    let (mut ann, mut bob) = (desk.sit()?, desk.sit()?);
    let looked = ann.look()?.snapshot()?;
    bob.answer("delete 1")?;
    bob.set("w", 0, &[7])?;
    drop(desk);
    assert_eq!(looked.get_wide("w", Place::Start)?, [1 << 64, 1, 2, 3]);
    assert_eq!(looked.unsettled()?, [2]);
    assert_eq!(looked.origin("w", Place::End)?, Some(2));
    let fault = looked.faults()?[0];
    assert_eq!((fault.row, fault.processor), (1, 0));
    assert_eq!(looked.rows()?, session.rows()?);
    Ok(())
}

#[test]
fn orders_for_a_value_are_looks() -> Result<(), Error> {
    let mut session = sum()?;
    session.answer("field d s 8")?;
    session.answer("insert end u-move-1L d a 8")?;
    let desk = Desk::open(&session)?;
    let mut seat = desk.sit()?;
    let first = seat.order_for("d", Place::End)?.expect("it is ready");
    let look = seat.look()?;
    let second = look.order_for("d", Place::End)?.expect("it is ready");
    assert_eq!((first.row(), second.row()), (2, 2));
    assert!(look.order_for("d", Place::Start)?.is_none());
    for (key, place, error) in [
        ("zz", Place::End, Error::Fault(Fault::NoField)),
        ("s.zz", Place::End, Error::NoKey),
        ("d", Place::After(9), Error::Fault(Fault::NoRow)),
        ("1", Place::End, Error::NoKey),
    ] {
        assert_eq!(look.order_for(key, place).map(|_| ()), Err(error), "{key}");
    }
    assert_eq!(told(&desk)?, []);
    let (first, second) = (executed(first)?, executed(second)?);
    assert_eq!(seat.bring(&first)?, Verdict::Kept);
    assert_eq!(seat.bring(&second)?, Verdict::Repeated);
    let look = seat.look()?;
    assert_eq!(look.get("d", Place::End)?, [1, 2, 3, 4]);
    assert_eq!(look.get("c", Place::End), Err(Error::Pending(1)));
    Ok(())
}

#[test]
fn a_full_history_refuses_until_it_is_cut() -> Result<(), Error> {
    let desk = Desk::with_limit(&sum()?, 2)?;
    let mut seat = desk.sit()?;
    seat.set("a", 0, &[5])?;
    let done = executed(seat.take()?.expect("the row is ready"))?;
    let full = Error::Fault(Fault::HistoryFull);
    assert_eq!(seat.answer("list"), Err(full));
    assert_eq!(seat.bring(&done), Err(full));
    assert_eq!(seat.take().map(|_| ()), Ok(()));
    assert!(desk.audit()?);
    assert_eq!(desk.cut()?, 2);
    assert_eq!(told(&desk)?, []);
    assert_eq!(seat.bring(&done)?, Verdict::Kept);
    assert_eq!(told(&desk)?, [entry(1, 0, Kind::Bring, "kept\n")]);
    assert_eq!(seat.look()?.get("c", Place::End)?, [15, 22, 33, 44]);
    assert!(desk.audit()?);
    Ok(())
}

#[test]
fn a_desk_stands_apart_from_its_sessions() -> Result<(), Error> {
    let mut session = sum()?;
    let desk = Desk::open(&session)?;
    let mut seat = desk.sit()?;
    session.set("a", 0, &[200])?;
    let mut copy = desk.snapshot()?;
    seat.set("a", 0, &[100])?;
    copy.settle()?;
    session.settle()?;
    let done = executed(seat.take()?.expect("the row is ready"))?;
    seat.bring(&done)?;
    assert_eq!(copy.get("c", Place::End)?, [11, 22, 33, 44]);
    assert_eq!(session.get("c", Place::End)?, [210, 22, 33, 44]);
    assert_eq!(seat.look()?.get("c", Place::End)?, [110, 22, 33, 44]);
    Ok(())
}

/// What a thread keeps of a call: its entry, but for the text of a list.
struct Person {
    seat: Seat,
    kept: Vec<Entry>,
}

impl Person {
    fn say(&mut self, kind: Kind, line: &str) -> Result<(), Error> {
        let reply = self.seat.answer(line)?;
        self.keep(kind, &reply);
        Ok(())
    }

    fn keep(&mut self, kind: Kind, reply: &str) {
        let (number, seat) = (self.seat.front(), self.seat.number());
        self.kept.push(entry(number, seat, kind, reply));
    }

    /// Takes an order, executes it with no lock, and brings its result.
    fn work(&mut self) -> Result<(), Error> {
        let Some(order) = self.seat.take()? else {
            return Ok(());
        };
        let taken = format!("order 1 row {} edition {}\n", order.row(), order.edition());
        self.keep(Kind::Take, &taken);
        let verdict = self.seat.bring(&executed(order)?)?;
        self.keep(Kind::Bring, &format!("{verdict}\n"));
        Ok(())
    }

    /// What a look shows is told twice the same, whoever edits meanwhile.
    fn look(&mut self) -> Result<(), Error> {
        let look = self.seat.look()?;
        let first = look.get("a", Place::Start)?;
        assert_eq!(look.get("a", Place::Start)?, first);
        Ok(())
    }

    /// Edits, looks and works, in an order that goes by the seat's number.
    fn play(mut self) -> Result<Person, Error> {
        let number = self.seat.number();
        for turn in 0..300 {
            let (key, processor) = (["a", "b"][turn % 2], (turn as u64 + number) % 4);
            self.say(
                Kind::Edit,
                &format!("input {key} {processor} {}", turn % 256),
            )?;
            match (turn as u64 * 7 + number) % 4 {
                0 => self.say(Kind::Show, "show c end")?,
                1 => self.look()?,
                _ => self.work()?,
            }
        }
        Ok(self)
    }
}

#[test]
fn threads_make_one_history() -> Result<(), Error> {
    let desk = Desk::open(&sum()?)?;
    let mut playing = Vec::new();
    for _ in 0..6 {
        let person = Person {
            seat: desk.sit()?,
            kept: Vec::new(),
        };
        playing.push(thread::spawn(|| person.play()));
    }
    let mut kept = Vec::new();
    for each in playing {
        kept.extend(each.join().expect("no seat panics")?.kept);
    }
    kept.sort_by_key(|entry| entry.number);
    assert!(kept.len() > 6 * 300);
    assert_eq!(told(&desk)?, kept);
    assert!(desk.audit()?);
    assert_eq!(desk.cut()?, kept.len() as u64);
    Ok(())
}
