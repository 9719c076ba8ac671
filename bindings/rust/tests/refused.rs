//! Rows that are refused for their data.

use paris::{Cause, Error, Place, RowFault, Session};

/// A session with two sends on four processors: messages of the first one meet at the processors 0 and 1, and processor 1 holds an
/// address outside the set for the second one.
fn sends() -> Result<Session, Error> {
    let mut session = Session::new()?;
    for line in [
        "set s 4",
        "field d s 8",
        "field v s 8",
        "field near s 3",
        "field far s 3",
        "input v 0 5 6 7 8",
        "input near 0 0 0 1 1",
        "input far 0 2 4 2 0",
    ] {
        assert_eq!(session.answer(line)?, "ok\n");
    }
    assert_eq!(
        session.answer("insert end send-1L d near v 8 none")?,
        "row 1\n"
    );
    assert_eq!(
        session.answer("insert end send-1L d far v 8 none")?,
        "row 2\n"
    );
    Ok(session)
}

#[test]
fn refused_rows_are_told_with_their_causes() -> Result<(), Error> {
    let mut session = sends()?;
    assert_eq!(session.faults()?, []);
    assert_eq!(session.settle()?, 2);
    let meeting = RowFault {
        row: 1,
        cause: Cause::Collision,
        processor: 0,
    };
    let outside = RowFault {
        row: 2,
        cause: Cause::BadAddress,
        processor: 1,
    };
    assert_eq!(session.faults()?, [meeting, outside]);
    assert_eq!(session.get("d", Place::End)?, [0; 4]);
    assert_eq!(
        session.answer("faults")?,
        "faults 2\n1 collision 0\n2 bad-address 1\n"
    );
    Ok(())
}

#[test]
fn a_row_that_is_mended_is_told_no_more() -> Result<(), Error> {
    let mut session = sends()?;
    session.settle()?;
    session.answer("replace 1 send-with-u-add-1L d near v 8 none")?;
    session.answer("delete 2")?;
    session.settle()?;
    assert_eq!(session.faults()?, []);
    assert_eq!(session.get("d", Place::End)?, [11, 15, 0, 0]);
    Ok(())
}

#[test]
fn many_rows_are_told_in_program_order() -> Result<(), Error> {
    let mut session = sends()?;
    for row in 3..=100 {
        let reply = session.answer("insert start send-1L d near v 8 none")?;
        assert_eq!(reply, format!("row {row}\n"));
    }
    session.settle()?;
    let rows: Vec<u64> = session.faults()?.iter().map(|fault| fault.row).collect();
    assert_eq!(rows, (3..=100).rev().chain([1, 2]).collect::<Vec<_>>());
    assert_eq!(rows, session.rows()?);
    Ok(())
}

#[test]
fn refused_rows_say_what_is_wrong() -> Result<(), Error> {
    let mut session = sends()?;
    session.settle()?;
    let said: Vec<String> = session.faults()?.iter().map(RowFault::to_string).collect();
    assert_eq!(
        said,
        [
            "row 1: two messages meet at processor 0",
            "row 2: processor 1 holds an address outside its set",
        ]
    );
    Ok(())
}
