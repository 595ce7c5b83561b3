//! `ls` by time: the entries between two times, or the latest at one. The library's index, filled beside the listing, says which they are
//! and in what order.
use crate::commands;
use crate::peer::Peer;
use crate::say::say;
use crate::stop::Stop;
use std::io::Write;
use yuglasno::{Details, Index, Item, Shown, INDEX_ENTRIES, INDEX_NAMES};

/// Which entries are wanted, in Unix seconds.
#[derive(Clone, Copy)]
pub enum Which {
    Between(i64, i64),
    Latest(i64),
}

/// The times as they were given.
#[derive(Default)]
pub struct Times {
    pub from: Option<i64>,
    pub to: Option<i64>,
    pub latest: Option<i64>,
}

impl Times {
    pub fn which(&self) -> Result<Option<Which>, String> {
        match (self.from, self.to, self.latest) {
            (None, None, None) => Ok(None),
            (None, None, Some(time)) => Ok(Some(Which::Latest(time))),
            (_, _, Some(_)) => Err("--latest goes without --from and --to".into()),
            (from, to, None) => Ok(Some(Which::Between(from.unwrap_or(i64::MIN), to.unwrap_or(i64::MAX)))),
        }
    }
}

/// The answer to an entry for which the index has no room.
const INDEX_FULL: u8 = 19;

/// A listing with its index beside it.
struct Listing {
    index: Index<Vec<u8>>,
    /// The numbers of the entries that the index holds, by their own.
    held: Vec<Details>,
    entries: usize,
}

/// A line for each entry that is wanted, in time order; where there can be none, or none is early enough, one that says so.
pub fn list(peer: &mut Peer<'_>, path: &[u8], which: Which, said: &mut dyn Write) -> Result<(), Stop> {
    let listing = Listing::of(peer, path)?;
    let found = listing.found(which);
    for item in &found {
        commands::entry(said, item.name, &listing.held[item.number]).map_err(|e| Stop::output(&e))?;
    }
    if found.is_empty() {
        listing.note_none(path, which);
    }
    listing.is_whole(which).map_err(|why| Stop::new(INDEX_FULL, Shown(path), why))
}

impl Listing {
    fn of(peer: &mut Peer<'_>, path: &[u8]) -> Result<Self, Stop> {
        let mut index = Index::open(vec![0; INDEX_NAMES]);
        let (mut held, mut entries) = (Vec::new(), 0);
        let listed = peer.session.entries_into(peer.link, path, &mut index, |_, details, added| {
            entries += 1;
            if added.is_ok() {
                held.push(details);
            }
        });
        commands::listed(peer, path, listed, entries)?;
        Ok(Self { index, held, entries })
    }

    fn found(&self, which: Which) -> Vec<Item<'_>> {
        match which {
            Which::Between(from, to) => self.index.between(from, to).collect(),
            Which::Latest(time) => self.index.latest(time).into_iter().collect(),
        }
    }

    /// Says why nothing is printed; a span that just has no entries needs no word.
    fn note_none(&self, path: &[u8], which: Which) {
        let (path, looked_at) = (Shown(path), self.held.len());
        match which {
            Which::Between(from, to) if from > to => {
                say(format_args!(
                    "{path}: no entry can be between them: --from is later than --to ({from} and {to}, Unix seconds)"
                ));
            }
            Which::Between(..) => {}
            Which::Latest(time) => {
                say(format_args!(
                    "{path}: none of the {looked_at} entries looked at is at or before {time} (Unix seconds)"
                ));
            }
        }
    }

    /// Where some entries are not in the index, what that means for the answer.
    fn is_whole(&self, which: Which) -> Result<(), String> {
        let away = self.entries - self.held.len();
        if away == 0 {
            return Ok(());
        }
        let means = match which {
            Which::Between(from, to) if from > to => "no other could have been printed",
            Which::Between(..) => "those that are printed are right, and others may be missing",
            Which::Latest(_) => "only the others were looked at, and a later one may be missing",
        };
        Err(format!(
            "{away} of {} entries did not fit into the index, which takes {INDEX_ENTRIES} and {INDEX_NAMES} bytes of names: {means}; \
             ls without a time lists them all",
            self.entries
        ))
    }
}
