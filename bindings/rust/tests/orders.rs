//! Orders that threads execute, results that come late, and snapshots.

use paris::{Done, Error, Fault, Order, Place, Session, Verdict};
use std::sync::{Condvar, Mutex};
use std::thread;

/// A session with three rows on four processors: the second reads what the first writes.
fn three_rows() -> Result<Session, Error> {
    let mut session = Session::new()?;
    for line in [
        "set s 4",
        "field a s 8",
        "field b s 8",
        "field c s 8",
        "input a 0 1 2 3 4",
    ] {
        assert_eq!(session.answer(line)?, "ok\n");
    }
    session.answer("insert end u-move-1L b a 8")?;
    session.answer("insert end u-add-3-1L b b b 8")?;
    session.answer("insert end u-max-3-1L c a a 8")?;
    Ok(session)
}

fn executed(order: Order) -> Result<Done, Error> {
    order.execute().map_err(|(_, error)| error)
}

#[test]
fn orders_are_taken_executed_and_brought() -> Result<(), Error> {
    let mut session = three_rows()?;
    let first = session.take()?.expect("a row is ready");
    let third = session.take()?.expect("a row is ready");
    assert_eq!((first.row(), first.edition()), (1, 6));
    assert_eq!(third.row(), 3);
    assert!(session.take()?.is_none());
    let first = executed(first)?;
    assert_eq!((first.row(), first.edition()), (1, 6));
    assert_eq!(format!("{first:?}"), "Done { row: 1, edition: 6, .. }");
    assert_eq!(session.bring(&first)?, Verdict::Kept);
    assert_eq!(session.bring(&first)?, Verdict::Repeated);
    assert_eq!(session.get("b", Place::After(1))?, [1, 2, 3, 4]);
    assert_eq!(session.get("c", Place::End), Err(Error::Pending(3)));
    drop(third);
    assert_eq!(session.settle()?, 2);
    assert_eq!(session.get("c", Place::End)?, [1, 2, 3, 4]);
    Ok(())
}

#[test]
fn results_that_are_late_are_told() -> Result<(), Error> {
    let mut session = three_rows()?;
    let done = executed(session.take()?.expect("a row is ready"))?;
    let mut other = three_rows()?;
    other.answer("replace 1 u-add-3-1L b a a 8")?;
    let verdict = other.bring(&done)?;
    assert_eq!(verdict, Verdict::Stale(9));
    assert_eq!(verdict.to_string(), "stale 9");
    session.answer("delete 1")?;
    assert_eq!(session.bring(&done)?, Verdict::Gone);
    drop(session);
    assert_eq!(three_rows()?.bring(&done)?, Verdict::Kept);
    let mut foreign = Session::new()?;
    for line in ["set s 4", "field a s 8", "field b s 8", "field c s 8"] {
        foreign.answer(line)?;
    }
    foreign.set("a", 0, &[9])?;
    foreign.answer("insert end u-move-1L b a 8")?;
    assert_eq!(foreign.bring(&done)?, Verdict::Foreign);
    Ok(())
}

#[test]
fn released_rows_are_ready_again() -> Result<(), Error> {
    let mut session = three_rows()?;
    let lost = session.take()?.expect("a row is ready");
    session.release()?;
    let again = session.take()?.expect("the row is ready again");
    assert_eq!((again.row(), again.edition()), (lost.row(), lost.edition()));
    assert_eq!(session.bring(&executed(lost)?)?, Verdict::Kept);
    assert_eq!(session.bring(&executed(again)?)?, Verdict::Repeated);
    Ok(())
}

#[test]
fn a_snapshot_is_a_session_of_its_own() -> Result<(), Error> {
    let mut session = three_rows()?;
    assert_eq!(session.answer("take")?, "order 1 row 1 edition 6\n");
    let mut before = session.snapshot()?;
    assert_eq!(before.answer("list")?, session.answer("list")?);
    session.set("a", 0, &[9, 9, 9, 9])?;
    assert_eq!(session.answer("bring 1")?, "stale 9\n");
    assert_eq!(before.answer("bring 1")?, "kept\n");
    session.settle()?;
    before.settle()?;
    assert_eq!(session.get("c", Place::End)?, [9; 4]);
    drop(session);
    assert_eq!(before.get("c", Place::End)?, [1, 2, 3, 4]);
    Ok(())
}

#[test]
fn parts_of_what_a_key_has() -> Result<(), Error> {
    let session = three_rows()?;
    let mut room = [9; 2];
    assert_eq!(session.part_into("a", Place::Start, 1, &mut room)?, 4);
    assert_eq!(room, [2, 3]);
    assert_eq!(session.part_into("a", Place::Start, 4, &mut [])?, 4);
    let past = session.part_into("a", Place::Start, 3, &mut room);
    assert_eq!(past, Err(Error::WrongRoom(4)));
    let pending = session.part_into("b", Place::End, 0, &mut room);
    assert_eq!(pending, Err(Error::Pending(2)));
    let unknown = session.part_into("zz", Place::End, 0, &mut room);
    assert_eq!(unknown, Err(Error::Fault(Fault::NoField)));
    assert_eq!(room, [2, 3]);
    Ok(())
}

/// Runs rows until none is unsettled.
fn work(session: &Mutex<Session>, changed: &Condvar) -> Result<(), Error> {
    let mut held = session.lock().expect("no worker panics");
    while held.answer("list")?.contains(" waiting ") || held.answer("list")?.contains(" out ") {
        let Some(order) = held.take()? else {
            held = changed.wait(held).expect("no worker panics");
            continue;
        };
        drop(held);
        let done = executed(order)?;
        held = session.lock().expect("no worker panics");
        held.bring(&done)?;
        changed.notify_all();
    }
    changed.notify_all();
    Ok(())
}

#[test]
fn two_workers_run_the_rows_while_edits_are_made() -> Result<(), Error> {
    let mut alone = three_rows()?;
    for row in 4..40 {
        let line = if row % 2 == 0 { "c b a" } else { "b c a" };
        alone.answer(format!("insert end u-add-3-1L {line} 8"))?;
    }
    let session = Mutex::new(alone.snapshot()?);
    let changed = Condvar::new();
    thread::scope(|scope| {
        let workers = [
            scope.spawn(|| work(&session, &changed)),
            scope.spawn(|| work(&session, &changed)),
        ];
        for number in 0..20 {
            let mut held = session.lock().expect("no worker panics");
            held.set("a", number % 4, &[number])?;
            alone.set("a", number % 4, &[number])?;
            changed.notify_all();
        }
        workers
            .into_iter()
            .try_for_each(|worker| worker.join().expect("no worker panics"))
    })?;
    let mut session = session.into_inner().expect("no worker panics");
    session.settle()?;
    alone.settle()?;
    for key in ["a", "b", "c"] {
        assert_eq!(
            session.get(key, Place::End)?,
            alone.get(key, Place::End)?,
            "{key}"
        );
    }
    Ok(())
}

#[test]
fn a_session_runs_orders_itself() -> Result<(), Error> {
    let mut session = three_rows()?;
    assert_eq!(session.unsettled()?, [1, 2, 3]);
    let out = session.take()?.expect("a row is ready");
    assert_eq!(session.run(9)?, 1);
    assert_eq!(session.unsettled()?, [1, 2]);
    assert_eq!(session.settle_for("b", Place::After(1))?, 1);
    assert_eq!(session.bring(&executed(out)?)?, Verdict::Repeated);
    assert_eq!(session.unsettled()?, [2]);
    assert_eq!(session.run(9)?, 1);
    assert_eq!(session.run(9)?, 0);
    Ok(())
}

#[test]
fn rows_that_edits_touched_are_told() -> Result<(), Error> {
    let mut session = three_rows()?;
    let (ids, edits) = session.touched(0)?;
    assert_eq!(ids, [1, 2, 3]);
    session.settle()?;
    assert_eq!(session.touched(0)?, (vec![1, 2, 3], edits));
    assert_eq!(session.touched(edits)?, (vec![], edits));
    session.answer("insert start my-send-address-1L a 8")?;
    let (ids, later) = session.touched(edits)?;
    assert_eq!((ids[0], later), (4, edits + 1));
    session.answer("delete 4")?;
    assert!(!session.touched(edits)?.0.contains(&4));
    Ok(())
}

#[test]
fn origins_are_told() -> Result<(), Error> {
    let mut session = three_rows()?;
    assert_eq!(session.origin("b", Place::End)?, Some(2));
    assert_eq!(session.origin("b", Place::After(1))?, Some(1));
    assert_eq!(session.origin("b", Place::Start)?, None);
    let missing = Err(Error::Fault(Fault::NoField));
    assert_eq!(session.origin("e", Place::End), missing);
    assert_eq!(
        session.settle_for("e", Place::End),
        Err(Error::Fault(Fault::NoField))
    );
    assert_eq!(session.settle_for("1", Place::End), Err(Error::NoKey));
    assert_eq!(session.unsettled()?, [1, 2, 3]);
    Ok(())
}
