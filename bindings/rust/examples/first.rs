use paris::{Error, Place, Session};

fn tell(session: &mut Session, line: &str) -> Result<(), Error> {
    let reply = session.answer(line)?;
    print!("{line:32} {reply}");
    Ok(())
}

fn main() -> Result<(), Error> {
    let mut session = Session::new()?;
    tell(&mut session, "set s 4")?;
    tell(&mut session, "field a s 8")?;
    tell(&mut session, "field b s 8")?;
    tell(&mut session, "field c s 8")?;
    tell(&mut session, "insert end u-add-3-1L c a b 8")?;

    session.set("a", 0, &[10, 20, 30, 250])?;
    session.set("b", 0, &[1, 2, 3, 4])?;
    session.settle()?;
    let c = session.get("c", Place::End)?;
    println!("{} {} {} {}", c[0], c[1], c[2], c[3]);
    Ok(())
}
