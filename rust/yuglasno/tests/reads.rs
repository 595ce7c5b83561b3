//! Reads over a link are gathered until a need is met, or each is reported by itself. The windows asked of the link are those of a host
//! that takes the steps itself and reports every single read, and so are the answers; the reads are as many where none are gathered, and
//! else no more.
mod common;
use common::*;
use yuglasno::{Call, Fault, Link, Report, Session, Step};

/// A link that keeps the length of each window.
struct Watched {
    script: Script,
    windows: Vec<usize>,
}

impl Link for Watched {
    fn read_window(&mut self, window: &mut [u8]) -> Result<usize, Fault> {
        self.windows.push(window.len());
        self.script.read_window(window)
    }

    fn write_piece(&mut self, piece: &[u8]) -> Result<(), Fault> {
        self.script.write_piece(piece)
    }

    fn close(&mut self) -> Result<(), Fault> {
        self.script.close()
    }
}

fn report(came: Result<usize, Fault>) -> Report {
    match came {
        Ok(count) => Report::Read(count),
        Err(Fault::Closed) => Report::Closed,
        Err(Fault::Error(_)) => Report::Error(110),
    }
}

/// A call, every read reported by itself.
fn stepped(session: &mut Session<Vec<u8>>, link: &mut Watched, call: &Call<'_>) -> String {
    let mut last = None;
    loop {
        let step = match last.take() {
            None => session.start(call),
            Some(came) => session.report(call, came),
        };
        last = Some(match step {
            Step::Told(answer) => return format!("{answer:?}"),
            Step::Read(window) => report(link.read_window(window)),
            Step::Write(piece) => link.write_piece(piece).map(|()| Report::Done).unwrap(),
            Step::Close => link.close().map(|()| Report::Done).unwrap(),
        });
    }
}

/// How a call is made: over the link, gathered or not, or by steps.
#[derive(Clone, Copy, Debug)]
enum Way {
    Gathered,
    Each,
    Stepped,
}

/// What seven calls for an entry answer, the reads that each accepted, and the windows that the link was asked to fill.
fn made(way: Way, script: Script, capacity: usize) -> (Vec<String>, Vec<u64>, Vec<usize>) {
    let mut link = Watched { script, windows: Vec::new() };
    let mut session = Session::open(b"", vec![0xAA; capacity], vec![0xBB; capacity]).unwrap();
    session.set_gathering(matches!(way, Way::Gathered));
    let (mut answers, mut reads) = (Vec::new(), Vec::new());
    for _ in 0..7 {
        answers.push(number(&match way {
            Way::Gathered | Way::Each => format!("{:?}", session.call(&mut link, &Call::NextEntry)),
            Way::Stepped => stepped(&mut session, &mut link, &Call::NextEntry),
        }));
        reads.push(session.reads());
    }
    let all: u64 = reads.iter().sum();
    assert!(all <= link.script.brought && (all == link.script.brought || matches!(way, Way::Gathered)), "{way:?}");
    (answers, reads, link.windows)
}

/// Without the words of the fault itself, which a host that takes the steps keeps.
fn number(text: &str) -> String {
    text.replace(": Connection timed out (os error 110)", "")
}

#[test]
fn windows_and_answers_are_those_of_single_reads() {
    let incoming = [
        entry(b"T98"),
        entry(b"a long name of a job"),
        with(b"FAIL", &[b'x'; 150]),
        entry(b""),
        listing_end(20),
        entry(b"cut"),
    ]
    .concat();
    for capacity in [28, 40, 100, 4096] {
        for cut in cuts() {
            for end in [End::Closed, End::Error(110)] {
                let script = || Script::new(&incoming[..incoming.len() - 2], cut, end);
                let stepped = made(Way::Stepped, script(), capacity);
                assert!(stepped.2.len() >= 2);
                assert_eq!(made(Way::Each, script(), capacity), stepped, "capacity {capacity}, cut {cut}, {end:?}");
                let (answers, reads, windows) = made(Way::Gathered, script(), capacity);
                assert_eq!((answers, windows), (stepped.0, stepped.2), "capacity {capacity}, cut {cut}, {end:?}");
                assert!(reads.iter().zip(&stepped.1).all(|(gathered, each)| gathered <= each));
            }
        }
    }
}
