//! The numbers of this package beside those of the library's header and of the machine's faults.

use paris::{Cause, Error, Fault, Kind, Verdict};
use std::collections::BTreeMap;

const HEADER: &str = include_str!("../../c/paris.h");
const FAULTS: &str = include_str!("../../../crates/paris_names/src/faults.rt");

/// The error of each status that is no `PARIS_OK`.
fn errors() -> BTreeMap<&'static str, Error> {
    BTreeMap::from([
        ("FULL", Error::Fault(Fault::HistoryFull)),
        ("NO_MEMORY", Error::Fault(Fault::NoMemory)),
        ("NO_ENTRY", Error::Fault(Fault::NoEntry)),
        ("CLOSED", Error::Closed),
        ("NO_KEY", Error::NoKey),
        ("PENDING", Error::Pending(1)),
        ("WRONG_ROOM", Error::WrongRoom(1)),
        ("TOO_MANY", Error::TooMany),
        ("TOO_WIDE", Error::TooWide),
        ("PARTLY", Error::PartlySettled(None)),
        ("NO_PROFILE", Error::NoProfile),
        ("NOTHING", Error::NothingReady),
        ("NOT_RUN", Error::NotRun),
        ("UNLIKE", Error::Unlike),
        ("NO_EVENT", Error::NoEvent),
        ("STRANGE", Error::Strange),
    ])
}

/// The names and the numbers of an enum of the header.
fn declared(name: &str) -> BTreeMap<&'static str, u32> {
    let (_, from) = HEADER.split_once(&format!("enum {name} {{")).expect(name);
    let (body, _) = from.split_once("};").expect(name);
    body.lines().filter_map(number_of).collect()
}

/// The name and the number of a line of the header, as `  PARIS_OK = 0,`.
fn number_of(line: &str) -> Option<(&str, u32)> {
    let (name, rest) = line.strip_prefix("  PARIS_")?.split_once(" = ")?;
    let digits = rest.split(|c: char| !c.is_ascii_digit()).next()?;
    Some((name, digits.parse().ok()?))
}

/// The name and the number of an arm, as `Fault::SetsFull => 1,`.
fn fault_of(line: &str) -> Option<(&str, u32)> {
    let (case, number) = line.trim().strip_prefix("Fault::")?.split_once(" => ")?;
    let name = case.split('(').next()?;
    Some((name, number.strip_suffix(',')?.parse().ok()?))
}

#[test]
fn statuses_are_those_of_the_header() {
    let mut declared = declared("paris_status");
    assert_eq!(declared.remove("OK"), Some(0));
    let known: BTreeMap<_, _> = errors()
        .into_iter()
        .map(|(name, error)| (name, error.status()))
        .collect();
    assert_eq!(known, declared);
}

#[test]
fn causes_are_those_of_the_header() {
    let known = BTreeMap::from([
        ("COLLISION", Cause::Collision.number()),
        ("BAD_ADDRESS", Cause::BadAddress.number()),
    ]);
    assert_eq!(known, declared("paris_cause"));
    for number in 0..10 {
        assert_eq!(
            Cause::of_number(number).is_some(),
            matches!(number, 1..=2),
            "cause {number}"
        );
    }
}

#[test]
fn verdicts_are_those_of_the_header() {
    let known = BTreeMap::from([
        ("KEPT", Verdict::Kept.number()),
        ("REPEATED", Verdict::Repeated.number()),
        ("STALE", Verdict::Stale(1).number()),
        ("GONE", Verdict::Gone.number()),
        ("FOREIGN", Verdict::Foreign.number()),
    ]);
    assert_eq!(known, declared("paris_verdict"));
}

#[test]
fn kinds_are_those_of_the_header() {
    let known: BTreeMap<_, _> = (0..10)
        .filter_map(Kind::of_number)
        .map(|kind| (kind.to_string().to_uppercase(), kind.number()))
        .collect();
    let declared = declared("paris_kind")
        .into_iter()
        .map(|(name, number)| (name.to_string(), number))
        .collect();
    assert_eq!(known, declared);
    assert_eq!(known.len(), 6);
}

#[test]
fn faults_are_those_of_the_machine() {
    let named: Vec<_> = FAULTS
        .lines()
        .filter_map(fault_of)
        .map(|(name, number)| (name.to_string(), number))
        .collect();
    let known: Vec<_> = Fault::ALL
        .into_iter()
        .map(|fault| (format!("{fault:?}"), fault.number()))
        .collect();
    assert_eq!(known, named);
}

#[test]
fn a_fault_is_found_by_its_number() {
    for fault in Fault::ALL {
        assert_eq!(Fault::of_number(fault.number()), Some(fault));
        assert_eq!(Error::Fault(fault).fault(), Some(fault));
    }
    assert_eq!(Fault::of_number(0), None);
    assert_eq!(Fault::of_number(24), None);
    assert_eq!(Error::NoKey.fault(), None);
}
