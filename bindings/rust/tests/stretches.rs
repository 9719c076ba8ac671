//! Counts, summaries and differences beside what plain lists come to.

use paris::{Error, Place, Profile, Session, Sum, Summary};

const COUNT: usize = 64;

fn numbers() -> Vec<u128> {
    (0..COUNT as u128)
        .map(|i| match i % 4 {
            0 => u128::MAX - i,
            1 => 0,
            2 => i << 64,
            _ => i * i,
        })
        .collect()
}

fn session(numbers: &[u128]) -> Result<Session, Error> {
    let mut session = Session::with_profile(Profile::Two)?;
    session.answer(format!("set s {COUNT}"))?;
    session.answer("field a s 128")?;
    session.set_wide("a", 0, numbers)?;
    Ok(session)
}

fn summed_up(numbers: &[u128]) -> Summary {
    let mut sum = Sum { high: 0, low: 0 };
    for number in numbers {
        let (low, is_over) = sum.low.overflowing_add(*number);
        sum = Sum {
            high: sum.high + u64::from(is_over),
            low,
        };
    }
    Summary {
        least: *numbers.iter().min().expect("each stretch has a number"),
        greatest: *numbers.iter().max().expect("each stretch has a number"),
        sum,
        others: numbers.iter().filter(|number| **number != 0).count() as u64,
    }
}

fn stretches(parts: usize) -> impl Iterator<Item = std::ops::Range<usize>> {
    (0..parts).map(move |i| i * COUNT / parts..(i + 1) * COUNT / parts)
}

#[test]
fn stretches_come_to_what_their_lists_do() -> Result<(), Error> {
    let numbers = numbers();
    let session = session(&numbers)?;
    for parts in 1..=COUNT {
        let wanted: Vec<_> = stretches(parts)
            .map(|range| summed_up(&numbers[range]))
            .collect();
        assert_eq!(session.summary("a", Place::End, parts)?, wanted);
    }
    assert_eq!(session.count("a", Place::End)?, summed_up(&numbers).others);
    Ok(())
}

#[test]
fn a_difference_is_in_the_stretch_of_its_processor() -> Result<(), Error> {
    let numbers = numbers();
    let session = session(&numbers)?;
    for at in [0, 1, 31, 32, 63] {
        let mut other = session.snapshot()?;
        other.set_wide("a", at as u64, &[numbers[at] ^ 1 << 100])?;
        for parts in [1, 2, 3, 7, 64] {
            let wanted: Vec<_> = stretches(parts).map(|range| range.contains(&at)).collect();
            assert_eq!(session.differs(&other, "a", Place::End, parts)?, wanted);
            assert_eq!(other.differs(&session, "a", Place::End, parts)?, wanted);
        }
    }
    assert_eq!(session.differs(&session, "a", Place::End, 2)?, [false; 2]);
    Ok(())
}

#[test]
fn what_cannot_be_told_is_an_error() -> Result<(), Error> {
    let mut session = session(&numbers())?;
    let before = session.snapshot()?;
    session.answer("insert end lognot-2-1L a a 128")?;
    let pending = Err(Error::Pending(1));
    assert_eq!(session.count("a", Place::End), Err(Error::Pending(1)));
    assert_eq!(session.summary("a", Place::End, 1).map(|_| ()), pending);
    assert_eq!(
        before.differs(&session, "a", Place::End, 1).map(|_| ()),
        pending
    );
    assert_eq!(
        session.differs(&before, "a", Place::End, 1).map(|_| ()),
        pending
    );
    for parts in [0, COUNT + 1] {
        let wrong = Err(Error::WrongRoom(COUNT));
        assert_eq!(before.summary("a", Place::End, parts).map(|_| ()), wrong);
        assert_eq!(
            session
                .differs(&before, "a", Place::Start, parts)
                .map(|_| ()),
            wrong
        );
    }
    let mut narrow = Session::new()?;
    narrow.answer(format!("set s {COUNT}"))?;
    narrow.answer("field a s 64")?;
    let unlike = before.differs(&narrow, "a", Place::End, 1);
    assert_eq!(unlike, Err(Error::Unlike));
    assert_eq!(before.count("1", Place::End), Err(Error::NoKey));
    Ok(())
}
