use paris::{Desk, Error, Place, Seat, Session};
use std::thread;

fn type_lines(mut seat: Seat, lines: &[&str]) -> Result<(), Error> {
    lines
        .iter()
        .try_for_each(|line| seat.answer(line).map(|_reply| ()))
}

fn work(mut seat: Seat) -> Result<(), Error> {
    while let Some(order) = seat.take()? {
        let done = order.execute().map_err(|refused| refused.1)?;
        seat.bring(&done)?;
    }
    Ok(())
}

fn main() -> Result<(), Error> {
    let mut session = Session::new()?;
    for line in ["set s 4", "field a s 8", "field b s 8"] {
        session.answer(line)?;
    }
    let desk = Desk::open(&session)?;
    let (ann, bob, worker, mut viewer) = (desk.sit()?, desk.sit()?, desk.sit()?, desk.sit()?);
    let typing = thread::spawn(|| type_lines(ann, &["input a 0 1 2 3 4"]));
    type_lines(bob, &["insert end u-add-3-1L b a a 8"])?;
    typing.join().expect("a seat doesn't panic")?;
    work(worker)?;

    println!("{:?}", viewer.look()?.get("b", Place::End)?);
    for entry in desk.entries().skip(2) {
        let entry = entry?;
        print!("seat {}, {}: {}", entry.seat, entry.kind, entry.reply);
    }
    println!("the history holds: {}", desk.audit()?);
    Ok(())
}
