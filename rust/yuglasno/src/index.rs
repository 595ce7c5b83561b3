//! An index beside a listing: its entries in time order, by the library's slots and an area for their names.
use crate::error::Error;
use crate::raw::{self, REPLY, SLOTS};
use crate::reply::{part, word};
use crate::session::Session;
use std::fmt;

/// The most entries of an index.
pub const INDEX_ENTRIES: usize = 4_096;
/// The most bytes of an index's names, together: an area of that length has room for all that an index takes.
pub const INDEX_NAMES: usize = 65_536;

/// The entries of a listing of either version by their times, over an area `A` for their names that it owns (`Vec<u8>`, `[u8; N]`) or
/// borrows (`&mut [u8]`). It must give the same slice each time it is asked. The library's slots are allocated once, at the opening.
///
/// The names stand end to end from the area's front; the bytes behind them are left alone. An entry for which there is no room, because
/// the index holds [`INDEX_ENTRIES`] or the area, or [`INDEX_NAMES`] bytes of it, is full, is turned away with 19, and the
/// index is what it was: a later entry with a shorter name may still be taken. Queries change nothing.
///
/// ```
/// use yuglasno::{panel::Panel, Index, Session, INDEX_NAMES};
///
/// let mut link = Panel::with_jobs();
/// let mut session = Session::open(Panel::BANNER, [0; 512], [0; 512]).unwrap();
/// let mut index = Index::open(vec![0; INDEX_NAMES]);
/// session.list_v2(&mut link, "/jobs").unwrap();
/// while let Some(_entry) = session.next_entry_v2(&mut link).unwrap() {
///     index.add(&mut session).unwrap();
/// }
///
/// let jobs: Vec<_> = index.between(892_000_000, 1_000_000_000).map(|item| item.name).collect();
/// assert_eq!(jobs, [&b"1998-toric.job"[..], b"empty.job", b"sphere.job"]);
/// assert_eq!(index.latest(899_999_999).unwrap().name, b"1998-toric.job");
/// assert_eq!(index.latest(-1), None);
/// ```
///
/// [`Session::entries_into`] does the same for a whole listing.
pub struct Index<A> {
    slots: Box<[u8]>,
    /// The area's length at the opening.
    length: usize,
    area: A,
}

/// An entry that an index holds. The name is a part of its area.
#[derive(Clone, Copy, PartialEq, Eq, Debug)]
pub struct Item<'a> {
    /// Last change, in Unix seconds.
    pub mtime: i64,
    /// The name as the panel's bytes.
    pub name: &'a [u8],
    /// How many entries the index held before this one: its place in the listing, where none was turned away.
    pub number: usize,
}

impl<A: AsRef<[u8]> + AsMut<[u8]>> Index<A> {
    /// An index that holds nothing yet, with an area of any length.
    pub fn open(mut area: A) -> Self {
        let mut slots = vec![0; SLOTS].into_boxed_slice();
        let length = area.as_mut().len();
        taken(raw::index_open(&mut slots, length));
        Self { slots, length, area }
    }

    /// The area back. Its front has the names, in listing order.
    pub fn into_area(self) -> A {
        self.area
    }

    /// Adds the entry that the session has just answered; any other answer, and a call that is still pending, adds nothing. An entry is
    /// to be handed over once, before the session's next call. 19 where there is no room for it; 3, ahead of 19, where
    /// the area gives another length than at first. Both leave index and area as they were, and the session goes on in any case.
    pub fn add<R: AsMut<[u8]>, M: AsMut<[u8]>>(&mut self, session: &mut Session<R, M>) -> Result<(), Error> {
        let (told, reply, rx) = session.last();
        match raw::index_add(&mut self.slots, self.area.as_mut(), told, reply, rx) {
            0 => Ok(()),
            number => Err(Error::plain(number)),
        }
    }

    /// The entries with an mtime from `from` to `to`, both included, in time order, equal times in listing order.
    pub fn between(&self, from: i64, to: i64) -> impl ExactSizeIterator<Item = Item<'_>> + DoubleEndedIterator {
        let (many, first) = self.span(|slots, out| raw::index_between(slots, self.length, from, to, out));
        (first..first + many).map(|rank| self.item(rank))
    }

    /// The latest entry at or before `time`; of equal times the first listed. `None` where all are later.
    pub fn latest(&self, time: i64) -> Option<Item<'_>> {
        let (many, rank) = self.span(|slots, out| raw::index_latest(slots, self.length, time, out));
        (many > 0).then(|| self.item(rank))
    }

    /// How many entries it holds.
    pub fn len(&self) -> usize {
        self.between(i64::MIN, i64::MAX).len()
    }

    /// Whether it holds none.
    pub fn is_empty(&self) -> bool {
        self.len() == 0
    }

    /// How many ranks a query answers, and the first of them.
    fn span(&self, query: impl Fn(&[u8], &mut [u8]) -> u32) -> (usize, usize) {
        let mut out = [0; REPLY];
        taken(query(&self.slots, &mut out));
        (word(&out, 0) as usize, word(&out, 1) as usize)
    }

    fn item(&self, rank: usize) -> Item<'_> {
        let mut out = [0; REPLY];
        taken(raw::index_entry(&self.slots, self.length, rank, &mut out));
        let name = &self.area.as_ref()[part(&out, 1).range()];
        Item { mtime: word(&out, 4) as i64, name, number: word(&out, 3) as usize }
    }
}

/// The slots are the library's own, and no one else has written to them.
fn taken(number: u32) {
    assert_eq!(number, 0, "slots that the library wrote were refused");
}

impl<A: AsRef<[u8]> + AsMut<[u8]>> fmt::Debug for Index<A> {
    fn fmt(&self, f: &mut fmt::Formatter<'_>) -> fmt::Result {
        f.debug_struct("Index").field("len", &self.len()).finish_non_exhaustive()
    }
}
