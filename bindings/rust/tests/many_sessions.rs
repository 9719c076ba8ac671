//! A thousand sessions, each dropped before the next.

use paris::{Error, Session};
use std::fs;

/// How many pages of memory this process has.
fn pages() -> u64 {
    let told = fs::read_to_string("/proc/self/statm").expect("this is Linux");
    let resident = told.split(' ').nth(1).expect("statm has two numbers");
    resident.parse().expect("statm has numbers")
}

/// A session whose field takes half a megabyte.
fn play() -> Result<(), Error> {
    let mut session = Session::new()?;
    session.answer("set s 65536")?;
    session.answer("field a s 64")?;
    session.set("a", 0, &[u64::MAX; 65_536])?;
    session.answer("insert end u-move-1L a a 64")?;
    assert_eq!(session.settle()?, 1);
    Ok(())
}

#[test]
fn a_dropped_session_gives_its_memory_back() -> Result<(), Error> {
    play()?;
    let before = pages();
    for _ in 0..1_000 {
        play()?;
    }
    // A thousand fields that stayed would be 128,000 pages of four kilobytes.
    assert!(
        pages() < before + 8_000,
        "{before} pages before, {} behind",
        pages()
    );
    Ok(())
}
