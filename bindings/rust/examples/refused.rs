//! A plain send in which two messages meet: it is settled, and changes nothing. Then what mends it.
use paris::{Error, Place, Session};

fn settle_and_tell(session: &mut Session) -> Result<(), Error> {
    let ran = session.settle()?;
    let refused = session.faults()?;
    println!("settled {ran}, refused for their data {}", refused.len());
    for fault in refused {
        println!("{fault}");
    }
    println!("{:?}", session.get("d", Place::End)?);
    Ok(())
}

fn main() -> Result<(), Error> {
    let mut session = Session::new()?;
    session.answer("set s 4")?;
    session.answer("field at s 2")?;
    session.answer("field a s 8")?;
    session.answer("field d s 8")?;
    session.answer("insert end send-1L d at a 8 none")?;

    session.set("at", 0, &[0, 0, 1, 2])?;
    session.set("a", 0, &[10, 20, 30, 40])?;
    settle_and_tell(&mut session)?;
    session.answer("replace 1 send-with-u-add-1L d at a 8 none")?;
    settle_and_tell(&mut session)
}
