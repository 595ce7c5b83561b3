//! `--card`: the bytes that a run received, consumed and wrote, summed over its sessions, and the call that read most often.
use std::cell::{Cell, RefCell};
use std::fmt;
use yuglasno::{Call, Fault, Link, Session, Totals};

/// The sums of the sessions that were let go of, and the most reads of a call that is over.
#[derive(Default)]
pub struct Card {
    sums: Cell<Sums>,
    most: RefCell<Option<Most>>,
}

/// Wider than a session's totals: no sum of those passes them.
#[derive(Clone, Copy, Default)]
struct Sums {
    sessions: usize,
    received: u128,
    consumed: u128,
    written: u128,
}

/// The reads of a call, and the call as a person reads it.
struct Most {
    reads: u64,
    call: String,
}

impl Card {
    fn add(&self, totals: Totals) {
        let sums = self.sums.get();
        self.sums.set(Sums {
            sessions: sums.sessions + 1,
            received: sums.received + u128::from(totals.received),
            consumed: sums.consumed + u128::from(totals.consumed),
            written: sums.written + u128::from(totals.written),
        });
    }

    /// Of calls with as many reads the first stays.
    fn call_over(&self, call: &Call<'_>, reads: u64) {
        let mut most = self.most.borrow_mut();
        if most.as_ref().is_none_or(|most| most.reads < reads) {
            *most = Some(Most { reads, call: call.to_string() });
        }
    }
}

impl fmt::Display for Card {
    fn fmt(&self, f: &mut fmt::Formatter<'_>) -> fmt::Result {
        let Sums { sessions, received, consumed, written } = self.sums.get();
        write!(f, "card: {received} bytes received, {consumed} consumed, {written} written")?;
        match sessions {
            0 => f.write_str(" (no session was opened)")?,
            1 => {}
            many => write!(f, " (in {many} sessions)")?,
        }
        match &*self.most.borrow() {
            Some(Most { reads, call }) => write!(f, "; most reads of a call: {reads} ({call})"),
            None => Ok(()),
        }
    }
}

/// A link whose calls go on the card.
struct Watched<'p> {
    link: Box<dyn Link + 'p>,
    card: &'p Card,
}

impl Link for Watched<'_> {
    fn read_window(&mut self, window: &mut [u8]) -> Result<usize, Fault> {
        self.link.read_window(window)
    }

    fn write_piece(&mut self, piece: &[u8]) -> Result<(), Fault> {
        self.link.write_piece(piece)
    }

    fn close(&mut self) -> Result<(), Fault> {
        self.link.close()
    }

    fn call_over(&mut self, call: &Call<'_>, reads: u64) {
        self.card.call_over(call, reads);
        self.link.call_over(call, reads);
    }
}

/// The link as it is, or one whose calls go on the card.
pub fn watched<'p>(link: Box<dyn Link + 'p>, card: Option<&'p Card>) -> Box<dyn Link + 'p> {
    match card {
        Some(card) => Box::new(Watched { link, card }),
        None => link,
    }
}

/// A session that goes on the card, if there is one, when it is let go of: however the command ends.
pub struct Counted<'p> {
    pub session: Session<Vec<u8>>,
    card: Option<&'p Card>,
}

impl<'p> Counted<'p> {
    /// For a card each read of the link counts by itself.
    pub fn new(mut session: Session<Vec<u8>>, card: Option<&'p Card>) -> Self {
        session.set_gathering(card.is_none());
        Self { session, card }
    }
}

impl Drop for Counted<'_> {
    fn drop(&mut self) {
        if let Some(card) = self.card {
            card.add(self.session.totals());
        }
    }
}

#[cfg(test)]
mod tests {
    use super::*;

    #[test]
    fn sums_past_one_sessions_totals() {
        let card = Card::default();
        assert_eq!(card.to_string(), "card: 0 bytes received, 0 consumed, 0 written (no session was opened)");
        card.add(Totals { received: u64::MAX, consumed: u64::MAX - 1, written: 7 });
        card.add(Totals { received: 1, consumed: 1, written: 0 });
        let sums = "18446744073709551616 bytes received, 18446744073709551615 consumed, 7 written";
        assert_eq!(card.to_string(), format!("card: {sums} (in 2 sessions)"));
    }

    #[test]
    fn the_first_call_with_the_most_reads() {
        let card = Card::default();
        for (call, reads, shown) in [
            (Call::ListV2(b"/jobs"), 0, "0 (list_v2 /jobs)"),
            (Call::NextEntryV2, 3, "3 (next_entry_v2)"),
            (Call::StatV2(b"/a"), 3, "3 (next_entry_v2)"),
            (Call::Stat(b"/a\n"), u64::MAX, "18446744073709551615 (stat /a\\n)"),
            (Call::Quit, 0, "18446744073709551615 (stat /a\\n)"),
        ] {
            card.call_over(&call, reads);
            let line = card.to_string();
            assert_eq!(line.split_once(" written (no session was opened); most reads of a call: ").unwrap().1, shown);
        }
    }
}
