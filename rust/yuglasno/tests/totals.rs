//! `Session::totals` beside the link's own counts: however replies are cut, where a write fails, while a call is pending and after quit.
mod common;
use common::*;
use yuglasno::{Call, FileMode, Moment, Report, Session, Step, Totals};

const ALL: &[u8] = b"features=stat_v2,ls_v2,sendrecv_v2";

/// The totals of a session that has left so many bytes of the link's unread.
fn of(link: &Script, unread: usize) -> Totals {
    let (received, written) = (link.read as u64, link.written().len() as u64);
    Totals { received, consumed: received - unread as u64, written }
}

#[test]
fn calls_over_a_link() {
    let listing = [entry_v2(b"a", 0), entry_v2(b"b", 13), listing_end(76)].concat();
    let pull = [with(b"DATA", &[7; 300]), with(b"DATA", b""), words(b"DONE", &[0])].concat();
    let incoming = [v2(b"STA2", 0), listing, pull, words(b"OKAY", &[0]), with(b"FAIL", &[b'x'; 900])].concat();
    for cut in cuts() {
        let mut link = Script::new(&incoming, cut, End::Closed);
        let mut session = Session::open(ALL, [0; 400], [0; 400]).unwrap();
        assert_eq!(session.totals(), Totals::default());
        session.stat_v2(&mut link, "/a").unwrap();
        assert_eq!((session.totals().consumed, session.totals().written), (72, 10), "cut {cut}");
        assert_eq!(session.entries(&mut link, "/a", |_, _| ()).unwrap(), 2);
        assert_eq!(session.pull(&mut link, "/a", &mut Vec::new()).unwrap(), 300);
        session.push(&mut link, "/a", FileMode(33188), 5, Moment::FIRST, &mut &[1; 1_000][..]).unwrap();
        assert_eq!(
            session.totals().held() as usize,
            link.read - (incoming.len() - 908),
            "cut {cut}: the FAIL is unread"
        );
        // what the buffer can't hold of its text is dropped, and counts
        assert_eq!(session.stat(&mut link, "/a").unwrap_err().number(), 14);
        assert_eq!((session.totals(), link.read), (of(&link, 0), incoming.len()), "cut {cut}");
        let before = session.totals();
        assert_eq!(session.stat(&mut link, "a\0").unwrap_err().number(), 8);
        assert_eq!(session.totals(), before, "a refusal counts for nothing");
        session.quit(&mut link).unwrap();
        assert_eq!(session.totals(), of(&link, 0), "after quit");
        assert_eq!(session.totals().written, before.written + 8);
    }
}

/// A piece that was not written whole counts for nothing, nor does a reply that is left unread.
#[test]
fn faults() {
    for from in 0..3 {
        let mut link = Script::new(b"FAI", 1, End::Error(5));
        link.broken = Some((from, End::Closed));
        let mut session = Session::open(ALL, [0; 30], [0; 30]).unwrap();
        let told = session.call(&mut link, &Call::Data(&[b'd'; 100])).map_err(|error| error.number()).err();
        let (unread, written) = ([3, 3, 0][from], [0, 8, 108][from]);
        assert_eq!((told, session.totals()), ((from < 2).then_some(12), of(&link, unread)));
        assert_eq!(session.totals(), Totals { received: unread as u64, consumed: 0, written });
    }
}

#[test]
fn while_a_read_is_awaited() {
    let call = Call::RecvNext;
    let mut session = Session::open(b"", [0; 8], [0; 8]).unwrap();
    let fail = with(b"FAIL", b"twenty bytes of text");
    let Step::Read(window) = session.start(&call) else { panic!() };
    window.copy_from_slice(&fail[..8]);
    assert!(matches!(session.report(&call, Report::Read(0)), Step::Told(Err(error)) if error.number() == 11));
    assert_eq!(session.totals(), Totals::default());
    for part in [8..16, 16..24, 24..28] {
        let Step::Read(window) = session.report(&call, Report::Read(8)) else { panic!() };
        window[..part.len()].copy_from_slice(&fail[part.clone()]);
        assert_eq!(session.totals().received, part.start as u64);
    }
    assert!(matches!(session.report(&call, Report::Read(4)), Step::Told(Err(error)) if error.number() == 14));
    assert_eq!(session.totals(), Totals { received: 28, consumed: 28, written: 0 });
}
