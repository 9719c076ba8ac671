//! Sessions and a desk that are refused memory: this program calls itself with little memory to be had.

use paris::{Desk, Error, Fault, Kind, Seat, Session};
use std::env;
use std::error;
use std::process::Command;

const LIMITED: &str = "PARIS_LIMITED";
const LIMIT: &str = "ulimit -v 30000 && exec timeout 120 \"$0\"";

/// So many bytes are given back once memory was refused, so that small calls have room.
const BALLAST: usize = 1 << 20;

/// A line that gives a field of 64 bits numbers of mixed bits. A plane that is the same bit throughout takes no words.
fn line_of_numbers(field: usize) -> String {
    let mut line = format!("input f{field} 0");
    let mut number = field as u64;
    for _ in 0..2000 {
        number = number
            .wrapping_mul(6364136223846793005)
            .wrapping_add(1442695040888963407);
        line += &format!(" {number}");
    }
    line
}

/// Gives fields numbers of half a megabyte each, until they are refused, and answers how many have room.
fn give_numbers(session: &mut Session) -> Result<usize, Error> {
    for number in 0..60 {
        match session.answer(line_of_numbers(number)) {
            Err(Error::Fault(Fault::NoMemory)) => return Ok(number),
            given => assert_eq!(given?, "ok\n"),
        }
    }
    panic!("all numbers have room");
}

fn numbers_are_refused() -> Result<(), Error> {
    let mut session = Session::new()?;
    assert_eq!(session.answer("set s 65536")?, "ok\n");
    assert_eq!(session.answer("set t 4")?, "ok\n");
    for number in 0..60 {
        assert_eq!(session.answer(format!("field f{number} s 64"))?, "ok\n");
    }
    let ballast = vec![0u8; BALLAST];
    let count = give_numbers(&mut session)?;
    drop(ballast);
    assert!(count > 4, "{count} fields have numbers");
    assert_eq!(session.answer("field small t 8")?, "ok\n");
    assert_eq!(session.answer("input small 0 1 2")?, "ok\n");
    assert_eq!(session.answer("show small end")?, "values 1 2 0 0\n");
    Ok(())
}

fn rows_are_settled_in_part() -> Result<(), Error> {
    let mut session = Session::new()?;
    assert_eq!(session.answer("set s 65536")?, "ok\n");
    for number in 0..16 {
        assert_eq!(session.answer(format!("field f{number} s 64"))?, "ok\n");
    }
    for number in 0..256 {
        let line = format!("insert end my-send-address-1L f{} 64", number % 16);
        assert_eq!(session.answer(line)?, format!("row {}\n", number + 1));
    }
    let ballast = vec![0u8; BALLAST];
    let Err(Error::PartlySettled(Some(ran))) = session.settle() else {
        panic!("all rows have room");
    };
    drop(ballast);
    let list = session.answer("list")?;
    assert_eq!(list.matches(" settled ").count() as u64, ran);
    assert!(ran > 8 && ran < 256, "{ran} rows are settled");
    assert_eq!(session.answer("settle"), Err(Error::PartlySettled(None)));
    Ok(())
}

/// Looks at a desk until one has no room in the history, and answers how many had.
fn fill_history(seat: &mut Seat) -> Result<u64, Error> {
    for count in 0..1_000_000 {
        match seat.answer("show a end") {
            Err(Error::Fault(Fault::NoMemory)) => return Ok(count),
            shown => assert_eq!(shown?, "values 0 0 0 7\n"),
        }
    }
    panic!("all entries have room");
}

fn entries_are_refused() -> Result<(), Error> {
    let mut session = Session::new()?;
    assert_eq!(session.answer("set s 4")?, "ok\n");
    assert_eq!(session.answer("field a s 8")?, "ok\n");
    session.set("a", 3, &[7])?;
    let desk = Desk::open(&session)?;
    let mut seat = desk.sit()?;
    let ballast = vec![0u8; BALLAST];
    let count = fill_history(&mut seat)?;
    drop(ballast);
    assert!(count > 100, "{count} looks have entries");
    assert_eq!(seat.front(), count);
    assert_eq!(desk.entry(count)?.kind, Kind::Show);
    assert_eq!(desk.entry(count + 1), Err(Error::Fault(Fault::NoEntry)));
    assert_eq!(desk.cut()?, count);
    assert_eq!(seat.answer("show a end")?, "values 0 0 0 7\n");
    assert_eq!(desk.entries().count(), 1);
    Ok(())
}

fn main() -> Result<(), Box<dyn error::Error>> {
    if env::var_os(LIMITED).is_some() {
        numbers_are_refused()?;
        rows_are_settled_in_part()?;
        entries_are_refused()?;
        return Ok(());
    }
    let mut limited = Command::new("sh");
    limited
        .args(["-c", LIMIT])
        .arg(env::current_exe()?)
        .env(LIMITED, "yes");
    assert!(limited.status()?.success());
    Ok(())
}
