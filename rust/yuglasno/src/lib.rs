//! The host's side of ADB's `sync:` service, over a proved static library: stat, list, pull and push, v1 and v2.
//!
//! The library does no I/O. A [`Session`] starts a [`Call`] and says what it needs next, as a [`Step`]: read into this
//! window, write this piece, close, or the answer. A program with an event loop of its own takes these steps itself
//! ([`Session::start`] and [`Session::report`]); any other gives the session a [`Link`], such as anything that is
//! `Read + Write`, and each call is one line:
//!
//! ```
//! use yuglasno::{panel::Panel, Session, CAPACITY};
//!
//! let mut link = Panel::with_jobs(); // a panel in memory; a TcpStream, a UnixStream .. serve as well
//! let mut session = Session::open(Panel::BANNER, vec![0; CAPACITY], vec![0; CAPACITY]).unwrap();
//!
//! let mut job = Vec::new();
//! let bytes = session.pull(&mut link, "/jobs/1998-toric.job", &mut job).unwrap();
//! assert_eq!(bytes, job.len() as u64);
//! session.quit(&mut link).unwrap();
//! ```
//!
//! The ids of the messages are the published ones; [`Settings`] have others from a file, and [`Session::open_with`] takes them. From
//! another file they have [`Hours`] in which a push may start; a push says the [`Moment`] of its start, and any will do where there are none.
//!
//! An [`Index`] beside a listing answers which entries are from one time to another, and which is the latest at a time.
//!
//! The panel's side is there too: [`Call::heard`] reads a host's request, [`PanelReply`] writes a reply, and [`panel`] serves jobs by both.
//!
//! [`Session::totals`] says how many bytes a session has received, consumed and written, [`Session::reads`] how many reads a call accepted.
//!
//! What a call comes to has a number: see [`Error`]. A chunk and a name are parts of the receive buffer, lent until the
//! session's next call; the session allocates nothing but the copy of a FAIL's text that its error keeps.
//!
//! Modules: [`adb`] opens the sync service of an ADB server's device; [`raw`] has the static library's functions, and is the only
//! one with `unsafe`; [`panel`] is the panel's side, with jobs of its own or a folder: a test peer, or an archive in a panel's place.
#![deny(unsafe_code)]
#![deny(missing_docs)]

mod answer;
mod call;
mod error;
mod feature;
mod heard;
mod hours;
mod hours_file;
mod ids;
mod index;
mod link;
mod meanings;
mod moment;
mod numbers;
mod reply;
mod runs;
mod session;
mod settings;
mod shown;
mod speak;
mod totals;
mod transfers;

#[cfg(unix)]
pub mod adb;
#[cfg(unix)]
#[doc(hidden)]
pub mod archive;
#[cfg(unix)]
pub mod panel;
#[allow(unsafe_code)]
#[rustfmt::skip]
pub mod raw;

pub use answer::{Answer, Details, Entry, EntryV2, Stat, StatV2};
pub use call::{Call, Report};
pub use error::Error;
pub use feature::Feature;
pub use hours::{Hours, Outside, Span};
pub use ids::{Ids, PUBLISHED_IDS};
pub use index::{Index, Item, INDEX_ENTRIES, INDEX_NAMES};
pub use link::{code_of, Fault, Link, Pair};
pub use meanings::{meaning, MEANINGS};
pub use moment::{Date, Moment, Weekday};
pub use numbers::{FileMode, SyncFlags};
pub use session::{Session, Step};
pub use settings::{Settings, HOURS_MOST, IDS_MOST};
pub use shown::Shown;
pub use speak::PanelReply;
pub use totals::Totals;
pub use transfers::Failure;

/// README's program, compiled and run as a test.
#[cfg(doctest)]
#[doc = include_str!("../../../README.md")]
struct Readme;

/// The most bytes of a path: panels end the session over a longer one, so it is turned away here
/// ([`Error::LongPath`]; [`Error::NulInPath`] where it has a NUL besides).
pub const PATH_MOST: usize = 1_024;
/// The most bytes in one DATA message.
pub const DATA_MOST: usize = 65_536;
/// A receive buffer that takes every DATA message: its header and [`DATA_MOST`] bytes.
pub const CAPACITY: usize = 8 + DATA_MOST;
