//! How many bytes a session holds, found by asking a copy of it that is then thrown away: either side compacts before it writes a request,
//! so where it composes one, or else where it reads on, is the place behind the held bytes.
use crate::original::sync::SyncSession;
use crate::ours::{self, Step};
use crate::peek::{self, Watched};
use crate::scripted::{Op, Place, Shared};
use crate::theirs::{self, run};

// a FAIL longer than any buffer, put over the held bytes: a copy that holds 8 bytes or more drops it and reads on
const ENDLESS: &[u8; 8] = b"FAIL\xff\xff\xff\xff";

enum Ask {
    Compose,
    ReadOn,
}

fn held(wire: &Shared, capacity: usize, mut ask: impl FnMut(Ask)) -> usize {
    let kept = wire.borrow_mut().take_ops();
    wire.borrow_mut().looking = true;
    ask(Ask::Compose);
    let asked = wire.borrow_mut().take_ops();
    let found = match asked[..] {
        [Op::Write { place: Place::Rx(tail), .. }] => tail,
        _ => {
            ask(Ask::ReadOn);
            match wire.borrow().ops[..] {
                // a full buffer is compacted over the dropped header first
                [Op::Read { place: Place::Rx(tail), .. }] if tail + 8 == capacity => capacity,
                [Op::Read { place: Place::Rx(tail), .. }] => tail,
                ref ops => panic!("a session that is looked at asks {ops:?}"),
            }
        }
    };
    wire.borrow_mut().looking = false;
    wire.borrow_mut().ops = kept;
    found
}

pub fn by_theirs<'l>(session: &SyncSession<theirs::Host<Shared<'l>>>, rx: &Watched, wire: &Shared<'l>) -> usize {
    let bytes = rx.bytes();
    let mut copy = peek::again(session);
    let found = held(wire, bytes.len(), |ask| match ask {
        Ask::Compose => run(copy.recv_start("")).unwrap(),
        Ask::ReadOn => {
            rx.put(ENDLESS);
            let _ = run(copy.recv_next());
        }
    });
    rx.put(&bytes);
    found
}

pub fn by_ours<'l>(host: &ours::Host<Shared<'l>>, wire: &Shared<'l>) -> usize {
    let mut copy = host.clone();
    wire.borrow_mut().receives_at(copy.rx.as_ptr() as usize);
    let found = held(wire, copy.rx.len(), |ask| match ask {
        Ask::Compose => assert_eq!(copy.step(Step::Recv, b"", 0, 0), 0),
        Ask::ReadOn => {
            copy.rx[..8].copy_from_slice(ENDLESS);
            copy.step(Step::RecvNext, b"", 0, 0);
        }
    });
    wire.borrow_mut().receives_at(host.rx.as_ptr() as usize);
    found
}
