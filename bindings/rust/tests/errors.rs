//! Each error that a session gives while there is memory.

use paris::{Error, Fault, Place, Profile, Session};

const FAULT_NO_ROW: Error = Error::Fault(Fault::NoRow);
const FAULT_NO_FIELD: Error = Error::Fault(Fault::NoField);

/// A session with a set of four processors, and with two fields of eight bits in it.
fn declared() -> Result<Session, Error> {
    let mut session = Session::new()?;
    for line in ["set s 4", "field a s 8", "field b s 8"] {
        assert_eq!(session.answer(line)?, "ok\n");
    }
    Ok(session)
}

#[test]
fn a_refused_command_stands_in_the_reply() -> Result<(), Error> {
    let mut session = declared()?;
    assert_eq!(session.answer("set s 4")?, "refused 3\n");
    assert_eq!(session.answer("shw a end")?, "refused 20 1\n");
    assert_eq!(session.answer(b"\xff\x00")?, "refused 20 1\n");
    assert_eq!(session.answer("# a remark")?, "");
    assert_eq!(session.answer("")?, "");
    Ok(())
}

#[test]
fn refused_numbers_leave_the_field() -> Result<(), Error> {
    let mut session = declared()?;
    session.set("a", 0, &[1, 2, 3, 4])?;
    assert_eq!(
        session.set("a", 0, &[9, 256]),
        Err(Error::Fault(Fault::TooWide))
    );
    assert_eq!(
        session.set("a", 2, &[9, 9, 9]),
        Err(Error::Fault(Fault::WrongCount))
    );
    assert_eq!(
        session.set("a", u64::MAX, &[9]),
        Err(Error::Fault(Fault::WrongCount))
    );
    assert_eq!(
        session.set("a", 0, &[]),
        Err(Error::Fault(Fault::WrongCount))
    );
    assert_eq!(session.set("zz", 0, &[9]), Err(FAULT_NO_FIELD));
    assert_eq!(session.set("t.carry", 0, &[1]), Err(FAULT_NO_FIELD));
    assert_eq!(session.set("1", 0, &[9]), Err(Error::NoKey));
    assert_eq!(session.set("", 0, &[9]), Err(Error::NoKey));
    assert_eq!(session.get("a", Place::End)?, [1, 2, 3, 4]);
    Ok(())
}

#[test]
fn a_key_may_lie_in_the_numbers() -> Result<(), Error> {
    let mut session = declared()?;
    let numbers = [u64::from(b'a'); 4];
    let bytes: Vec<u8> = numbers
        .iter()
        .flat_map(|number| number.to_ne_bytes())
        .collect();
    let at = bytes
        .iter()
        .position(|byte| *byte == b'a')
        .unwrap_or_default();
    session.set(&bytes[at..=at], 0, &numbers)?;
    assert_eq!(session.get("a", Place::End)?, numbers);
    Ok(())
}

#[test]
fn a_pending_row_is_named() -> Result<(), Error> {
    let mut session = declared()?;
    session.answer("insert end u-move-constant-1L b 5 8")?;
    assert_eq!(session.answer("insert end u-add-3-1L a a b 8")?, "row 2\n");
    assert_eq!(session.get("a", Place::End), Err(Error::Pending(2)));
    assert_eq!(session.get("b", Place::End), Err(Error::Pending(1)));
    assert_eq!(session.get("a", Place::After(1))?, [0; 4]);
    assert_eq!(session.settle()?, 2);
    assert_eq!(session.settle()?, 0);
    assert_eq!(session.get("a", Place::End)?, [5; 4]);
    Ok(())
}

#[test]
fn a_room_of_another_length_is_left() -> Result<(), Error> {
    let mut session = declared()?;
    session.set("a", 0, &[1, 2, 3, 4])?;
    let mut room = [7; 5];
    assert_eq!(
        session.get_into("a", Place::End, &mut room),
        Err(Error::WrongRoom(4))
    );
    assert_eq!(
        session.get_into("a", Place::End, &mut room[..3]),
        Err(Error::WrongRoom(4))
    );
    assert_eq!(
        session.get_into("a", Place::End, &mut []),
        Err(Error::WrongRoom(4))
    );
    assert_eq!(room, [7; 5]);
    session.get_into("a", Place::End, &mut room[1..])?;
    assert_eq!(room, [7, 1, 2, 3, 4]);
    Ok(())
}

#[test]
fn a_place_after_no_row_is_refused() -> Result<(), Error> {
    let mut session = declared()?;
    session.answer("insert end u-move-constant-1L a 5 8")?;
    session.settle()?;
    assert_eq!(session.get("a", Place::Start)?, [0; 4]);
    assert_eq!(session.get("a", Place::After(1))?, [5; 4]);
    for row in [0, 2, u64::MAX - 1, u64::MAX] {
        assert_eq!(
            session.get("a", Place::After(row)),
            Err(FAULT_NO_ROW),
            "row {row}"
        );
        assert_eq!(
            session.get("zz", Place::After(row)),
            Err(FAULT_NO_FIELD),
            "row {row}"
        );
        assert_eq!(
            session.get("1", Place::After(row)),
            Err(Error::NoKey),
            "row {row}"
        );
        assert_eq!(
            session.answer(format!("show a after {row}"))?,
            "refused 10\n"
        );
    }
    Ok(())
}

#[test]
fn rows_stand_in_program_order() -> Result<(), Error> {
    let mut session = declared()?;
    assert_eq!(session.rows()?, []);
    session.answer("insert end set-test s")?;
    session.answer("insert start clear-test s")?;
    session.answer("insert after 2 invert-context s")?;
    assert_eq!(session.rows()?, [2, 3, 1]);
    session.answer("delete 3")?;
    assert_eq!(session.rows()?, [2, 1]);
    Ok(())
}

#[test]
fn errors_say_what_is_wrong() {
    let said = [
        (FAULT_NO_ROW, "fault 10: no row has this id"),
        (Error::NoKey, "the word is no key"),
        (Error::Pending(7), "row 7 has to be settled first"),
        (
            Error::WrongRoom(4),
            "the numbers are 4, and the room has another length",
        ),
        (
            Error::Unknown(300),
            "the library answered by status 300, which this package doesn't know",
        ),
    ];
    for (error, text) in said {
        assert_eq!(error.to_string(), text);
    }
}

#[test]
fn errors_and_faults_go_through_the_question_mark() {
    fn show() -> Result<Vec<u64>, Box<dyn std::error::Error + Send + Sync>> {
        Ok(Session::new()?.get("a", Place::End)?)
    }
    let error = show().expect_err("there is no field");
    assert_eq!(error.downcast_ref(), Some(&FAULT_NO_FIELD));
}

#[test]
fn a_width_is_bounded_by_the_profile() -> Result<(), Error> {
    for (profile, widest) in [(Profile::One, 64), (Profile::Two, 128)] {
        let mut session = Session::with_profile(profile)?;
        assert_eq!(session.answer("set s 4")?, "ok\n");
        assert_eq!(session.answer(format!("field a s {widest}"))?, "ok\n");
        let wider = widest + 1;
        assert_eq!(session.answer(format!("field b s {wider}"))?, "refused 6\n");
    }
    Ok(())
}

#[test]
fn a_profile_is_chosen_by_the_first_line_or_by_the_call() -> Result<(), Error> {
    let mut session = Session::new()?;
    assert_eq!(session.answer("# a remark")?, "");
    assert_eq!(session.answer("paris 2")?, "ok\n");
    assert_eq!(session.answer("paris 2")?, "refused 20 1\n");
    assert_eq!(session.answer("set s 4")?, "ok\n");
    assert_eq!(session.answer("field a s 65")?, "ok\n");
    let mut chosen = Session::with_profile(Profile::Two)?;
    assert_eq!(chosen.answer("paris 1")?, "refused 20 1\n");
    Ok(())
}

#[test]
fn wide_numbers_are_given_and_told() -> Result<(), Error> {
    let mut session = Session::with_profile(Profile::Two)?;
    for line in ["set s 4", "field a s 128", "field b s 65", "field c s 8"] {
        assert_eq!(session.answer(line)?, "ok\n");
    }
    let numbers = [u128::MAX, 1 << 64, u128::from(u64::MAX), 5];
    session.set_wide("a", 0, &numbers)?;
    assert_eq!(session.get_wide("a", Place::End)?, numbers);
    let [a, b, c, d] = numbers;
    let shown = format!("values {a} {b} {c} {d}\n");
    assert_eq!(session.answer("show a start")?, shown);
    assert_eq!(
        session.answer(format!("input a 2 {}", 1u128 << 127))?,
        "ok\n"
    );
    assert_eq!(session.get_wide("a", Place::Start)?[2], 1 << 127);
    session.set("b", 1, &[u64::MAX, 7, 8])?;
    assert_eq!(
        session.get_wide("b", Place::End)?,
        [0, u128::from(u64::MAX), 7, 8]
    );
    assert_eq!(session.get("b", Place::End), Err(Error::TooWide));
    session.set_wide("c", 0, &[1, 2, 3, 255])?;
    assert_eq!(session.get("c", Place::End)?, [1, 2, 3, 255]);
    Ok(())
}

#[test]
fn refused_wide_numbers_leave_the_field() -> Result<(), Error> {
    let mut session = Session::with_profile(Profile::Two)?;
    for line in ["set s 2", "field a s 65"] {
        assert_eq!(session.answer(line)?, "ok\n");
    }
    session.set_wide("a", 0, &[1, (1 << 65) - 1])?;
    let refused = |fault| Err(Error::Fault(fault));
    assert_eq!(
        session.set_wide("a", 0, &[1 << 65]),
        refused(Fault::TooWide)
    );
    assert_eq!(
        session.set_wide("a", 1, &[9, 9]),
        refused(Fault::WrongCount)
    );
    assert_eq!(session.set_wide("a", 0, &[]), refused(Fault::WrongCount));
    assert_eq!(session.set_wide("z", 0, &[9]), Err(FAULT_NO_FIELD));
    assert_eq!(session.set_wide("1", 0, &[9]), Err(Error::NoKey));
    assert_eq!(session.get_wide("1", Place::End), Err(Error::NoKey));
    assert_eq!(session.get_wide("a", Place::After(9)), Err(FAULT_NO_ROW));
    assert_eq!(session.get_wide("a", Place::End)?, [1, (1 << 65) - 1]);
    session.answer("insert end u-move-constant-1L a 5 65")?;
    assert_eq!(session.get_wide("a", Place::End), Err(Error::Pending(1)));
    Ok(())
}
