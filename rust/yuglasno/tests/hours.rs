//! Sessions with hours: a push outside them is 25, says when the next begin, and leaves nothing behind; all else is as without hours.
mod common;
use common::*;
use yuglasno::panel::Panel;
use yuglasno::{raw, Call, Error, FileMode, Hours, Moment, Session, Settings, Span, Step, SyncFlags, Weekday};

const HEADING: &str = "day,open,close\n";
const WORKSHOP: &str = "0,420,1080\n3,0,1440\n6,1439,1440\n";
const MODE: FileMode = FileMode(0o100_644);
const MONDAY: u32 = 1_704_067_200;
const OPENS: Moment = Moment(MONDAY + 25_200);
const EARLY: Moment = Moment(MONDAY + 25_199);
const DAY: u32 = 86_400;

fn settings(lines: &str) -> Settings {
    let mut settings = Settings::published();
    settings.load_hours(format!("{HEADING}{lines}").as_bytes()).unwrap();
    settings
}

fn hours(lines: &str) -> Hours {
    settings(lines).hours().unwrap()
}

fn session(lines: &str, banner: &[u8]) -> Session<Vec<u8>> {
    Session::open_with(&settings(lines), banner, vec![0; 100], vec![0; 100]).unwrap()
}

#[test]
fn what_a_week_has() {
    let week = hours(WORKSHOP);
    assert_eq!(week.on(Weekday::Monday), Some(Span { open: 420, close: 1_080 }));
    assert_eq!((week.on(Weekday::Tuesday), week.on(Weekday::Saturday)), (None, None));
    let shown = [Weekday::Thursday, Weekday::Sunday].map(|day| week.on(day).unwrap().to_string());
    assert_eq!(shown, ["00:00 to 24:00", "23:59 to 24:00"]);
    assert_eq!((hours(""), Settings::published().hours()), (Hours::NEVER, None));
}

/// A start outside the hours, by either version: nothing is asked, and the session goes on.
#[test]
fn a_push_outside() {
    let mut link = Script::new(&stat(), 3, End::Closed);
    let mut session = session(WORKSHOP, b"features=sendrecv_v2");
    for call in [Call::Send(b"/a", MODE, EARLY), Call::SendV2(b"/a", MODE, SyncFlags::NONE, EARLY)] {
        let Err(Error::OutsideHours(outside)) = session.call(&mut link, &call) else { panic!() };
        assert_eq!((outside.moment, outside.hours, session.reads()), (EARLY, hours(WORKSHOP), 0));
        assert!(session.asked(&call).is_none() && link.pieces.is_empty() && link.over.is_empty());
    }
    session.stat(&mut link, "/a").unwrap();
    assert_eq!(link.written(), b"STAT\x02\0\0\0/a", "and nothing else was written");
    session.send(&mut link, "/a", MODE, OPENS).unwrap();
    assert_eq!(session.hours(), Some(hours(WORKSHOP)));
}

/// 3, 6, 4, 5, 8, 7, 9 and 10 come before 25, and where none of them is there 25 does.
#[test]
fn behind_the_other_refusals() {
    let number = |session: &mut Session<Vec<u8>>, call: &Call| match session.start(call) {
        Step::Told(Err(error)) => error.number(),
        other => panic!("{other:?}"),
    };
    let (long, flags) = ([b'p'; 1_025], SyncFlags(3));
    for (path, flags, expected) in [
        (&b"/a\0"[..], flags, 8),
        (&long, flags, 7),
        (b"/a", flags, 9),
        (b"/a", SyncFlags::LZ4, 10),
        (b"/a", SyncFlags::NONE, 25),
    ] {
        let mut session = session("", b"features=sendrecv_v2");
        assert_eq!(number(&mut session, &Call::SendV2(path, MODE, flags, EARLY)), expected);
    }
    let mut session = session("", b"");
    assert_eq!(
        number(&mut session, &Call::SendV2(b"/a", MODE, SyncFlags::NONE, EARLY)),
        10,
        "the feature is not there"
    );
    assert!(matches!(session.start(&Call::Recv(b"/a")), Step::Write(_)));
    assert_eq!(number(&mut session, &Call::Send(b"/a", MODE, EARLY)), 4);
    let mut link = Script::new(b"", 1, End::Closed);
    session.resume(&mut link, &Call::Recv(b"/a")).unwrap();
    session.quit(&mut link).unwrap();
    assert_eq!(number(&mut session, &Call::Send(b"/a", MODE, EARLY)), 6);
}

/// A whole push, in v2 or where the panel has only v1: from a panel that is left as it was, or that has the file, whatever the moments behind its start.
#[test]
fn whole_pushes() {
    for banner in [&b""[..], b"features=sendrecv_v2"] {
        let (mut panel, mut session) = (Panel::with_jobs(), session(WORKSHOP, banner));
        let mut job = &b"SPH -2.25"[..];
        let failure = session.push(&mut panel, "/jobs/new.job", MODE, 5, EARLY, &mut job).unwrap_err();
        assert_eq!(
            (failure.number(), job.len(), session.totals().written),
            (Some(25), 9, 0),
            "nothing is read, either"
        );
        assert_eq!(session.push(&mut panel, "/jobs/new.job", MODE, 5, OPENS, &mut job).unwrap(), 9);
        assert_eq!(panel.file("/jobs/new.job").unwrap(), b"SPH -2.25");
    }
}

/// A session keeps the hours it was opened with, whatever becomes of the settings.
#[test]
fn hours_are_kept() {
    let mut settings = settings(WORKSHOP);
    let open = |settings: &Settings| Session::open_with(settings, b"", [0; 64], [0; 64]).unwrap();
    let (mut with, mut without) = (open(&settings), open(&Settings::published()));
    settings.load_hours(HEADING.as_bytes()).unwrap();
    let mut never = open(&settings);
    let push = Call::Send(b"/a", MODE, OPENS);
    assert!(matches!(with.start(&push), Step::Write(_)) && matches!(without.start(&push), Step::Write(_)));
    assert!(matches!(never.start(&push), Step::Told(Err(Error::OutsideHours(_)))));
    assert_eq!((with.hours(), without.hours(), never.hours()), (Some(hours(WORKSHOP)), None, Some(Hours::NEVER)));
    for moment in [Moment::FIRST, EARLY, Moment::LAST] {
        assert!(matches!(open(&Settings::published()).start(&Call::Send(b"/a", MODE, moment)), Step::Write(_)));
    }
}

#[test]
fn what_a_person_is_told() {
    let on = "25: no push may start on";
    for (lines, moment, told) in [
        (WORKSHOP, EARLY.0, "Monday 2024-01-01 06:59:59 UTC: Mondays are open from 07:00 to 18:00; the next hours begin Monday 2024-01-01 07:00 UTC"),
        (WORKSHOP, MONDAY + 64_800, "Monday 2024-01-01 18:00:00 UTC: Mondays are open from 07:00 to 18:00; the next hours begin Thursday 2024-01-04 00:00 UTC"),
        (WORKSHOP, MONDAY + DAY, "Tuesday 2024-01-02 00:00:00 UTC: Tuesdays have no hours; the next hours begin Thursday 2024-01-04 00:00 UTC"),
        ("0,0,1\n", MONDAY + 60, "Monday 2024-01-01 00:01:00 UTC: Mondays are open from 00:00 to 00:01; the next hours begin Monday 2024-01-08 00:00 UTC"),
        ("", 951_782_400, "Tuesday 2000-02-29 00:00:00 UTC: these hours never open"),
        ("0,0,1\n", u32::MAX, "Sunday 2106-02-07 06:28:15 UTC: Sundays have no hours; no others begin up to Sunday 2106-02-07 06:28:15 UTC, the last moment there is"),
    ] {
        let error = settings(lines).may_push(Moment(moment)).unwrap_err();
        assert_eq!(error.to_string(), format!("{on} {told}"));
    }
}

/// Outside the hours, the next ones begin at the first minute that lets a push start.
#[test]
fn when_the_next_hours_begin() {
    let weeks = [
        WORKSHOP,
        "2,600,601\n",
        "0,0,1\n6,1439,1440\n",
        "0,0,1440\n1,0,1440\n2,0,1440\n3,0,1440\n4,0,1440\n5,0,1440\n6,1,1440\n",
    ];
    for lines in weeks {
        let (settings, mut closed) = (settings(lines), 0);
        let lets = |moment: u32| raw::may_push(settings.as_bytes(), moment) == 0;
        // some moments of four weeks, and each day's first
        let moments = (0..200).map(|step| MONDAY + 12_007 * step).chain((0..28).map(|day| MONDAY + DAY * day));
        for moment in moments.filter(|moment| !lets(*moment)) {
            closed += 1;
            let first = (moment / 60 + 1..).map(|minute| 60 * minute).find(|minute| lets(*minute));
            assert_eq!(settings.hours().unwrap().next(Moment(moment)), first.map(Moment), "{lines} {moment}");
        }
        assert!(closed > 0, "{lines}");
    }
}

/// Settings whose hours no file could have brought there: 24, behind 1, 2, 3, 22 and 23; and what is said of them.
#[test]
fn opening_with_bad_hours() {
    let good = *settings(WORKSHOP).as_bytes();
    let altered = |at: usize, byte| {
        let mut bytes = good;
        bytes[at] = byte;
        bytes
    };
    for (bytes, seen) in [
        (altered(60, 0), "their first byte is 0, and another is not"),
        (altered(60, 2), "their first four bytes are [2, 0, 0, 0], neither 0 nor 1 and zeros"),
        (altered(62, 1), "their first four bytes are [1, 0, 1, 0], neither 0 nor 1 and zeros"),
        (altered(67, 6), "Monday has open 420 and close 1592"),
        (altered(68, 7), "Tuesday has open 7 and close 0"),
    ] {
        let mut rec = [0xEE; raw::RECORD];
        for (rx, msg, number) in [(7, 7, 1), (9, 8, 2), (8, 8, 24)] {
            assert_eq!(raw::open(&mut rec, &bytes, b"", rx, msg), number);
        }
        assert_eq!(raw::open(&mut rec[1..], &bytes, b"", 8, 8), 3);
        assert_eq!((raw::open(&mut rec, &bytes[1..], b"", 8, 8), raw::may_push(&bytes[1..], 0)), (3, 3));
        assert_eq!(rec, [0xEE; raw::RECORD]);
        let bad = Settings::from_bytes(bytes);
        let told = format!("24: bad hours: {seen}");
        assert_eq!(Session::open_with(&bad, b"", [0; 8], [0; 8]).unwrap_err().to_string(), told);
        assert_eq!(bad.may_push(EARLY).unwrap_err().to_string(), told);
    }
    for (at, byte, number) in [(3, b' ', 22), (0, b'F', 24)] {
        let mut both = altered(60, 7);
        both[at] = byte;
        assert_eq!(raw::open(&mut [0; raw::RECORD], &both, b"", 8, 8), number);
    }
    let mut equal = altered(60, 7);
    equal.copy_within(0..4, 4);
    assert_eq!(raw::open(&mut [0; raw::RECORD], &equal, b"", 8, 8), 23);
}
