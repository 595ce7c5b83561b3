//! Why the program stops short: what it says, and its exit status.
use std::fmt::Display;
use std::io;
use yuglasno::panel::Unserved;
use yuglasno::{adb, code_of, Error, Failure};

/// The status is the session's answer, by its number, or one of those below; the text begins with it.
pub struct Stop {
    pub status: u8,
    pub text: String,
    /// Whether the channel is dropped as it is, without QUIT: a push was cut short, and must not seem whole.
    pub dropped: bool,
}

pub const USAGE: u8 = 64;
pub const NOT_AS_SAID: u8 = 65;
pub const NO_INPUT: u8 = 66;
pub const NOT_THERE: u8 = 67;
pub const UNAVAILABLE: u8 = 69;
pub const CANNOT_CREATE: u8 = 73;
pub const IO: u8 = 74;
pub const LEFT_OUT: u8 = 79;
pub const DAMAGED: u8 = 80;
pub const UNLISTED: u8 = 81;

/// The statuses that are not the session's, most of them as in sysexits.h.
pub const STATUSES: [(u8, &str); 10] = [
    (USAGE, "the words of the command line"),
    (NOT_AS_SAID, "a file is not what its numbers say, or its time does not fit; FILE is left as it was"),
    (NO_INPUT, "FILE can't be read"),
    (NOT_THERE, "PATH is not there, or is no folder to list"),
    (UNAVAILABLE, "no panel there"),
    (CANNOT_CREATE, "FILE can't be made"),
    (IO, "another error on this side"),
    (LEFT_OUT, "archive: some files of the panel were left out, and are named; the others are in DIR"),
    (DAMAGED, "verify: a file of DIR or a list is not as the lists say"),
    (UNLISTED, "verify: what is listed is whole, and besides there is what is not listed"),
];

impl Stop {
    pub fn new(status: u8, what: impl Display, why: impl Display) -> Self {
        Self { status, text: format!("{status}: {what}: {why}"), dropped: false }
    }

    pub fn usage(text: &str) -> Self {
        let text = format!("{USAGE}: {text}\n`transfer --help` says how it is used");
        Self { status: USAGE, text, dropped: false }
    }

    pub fn output(error: &io::Error) -> Self {
        Self::new(IO, "output", error)
    }

    /// No connection to this place.
    pub fn unreached(place: impl Display, error: &io::Error) -> Self {
        let (status, code) = waited(error);
        Self::new(status, place, format_args!("{error}{code}"))
    }

    /// The same, and what it happened to.
    pub fn about(mut self, what: impl Display) -> Self {
        self.text = format!("{} ({what})", self.text);
        self
    }
}

/// The panel's errno of an input or output error.
const EIO: u32 = 5;

/// What helps against an answer, where something on the command line does.
fn hint(error: &Error) -> &'static str {
    match error {
        Error::Errno(EIO) => "; with --folder: its file is not as DIR lists it, and `transfer verify DIR` says more",
        Error::TooLarge => "; a larger one: --capacity N, and 65544 takes every DATA message",
        _ => "",
    }
}

impl From<Error> for Stop {
    fn from(error: Error) -> Self {
        let text = format!("{error}{}", hint(&error));
        Self { status: u8::try_from(error.number()).unwrap_or(IO), text, dropped: false }
    }
}

impl From<adb::Error> for Stop {
    fn from(error: adb::Error) -> Self {
        if matches!(error, adb::Error::Address(_)) {
            return Self::usage(&error.to_string());
        }
        let (status, code) = error.io().map_or((UNAVAILABLE, String::new()), waited);
        let many = matches!(&error, adb::Error::Refused { text, .. } if text.starts_with(b"more than one"));
        let hint = if many { "; --serial S or ANDROID_SERIAL chooses one" } else { "" };
        Self { status, text: format!("{status}: {error}{code}{hint}"), dropped: false }
    }
}

impl From<Unserved> for Stop {
    fn from(unserved: Unserved) -> Self {
        let status = match unserved {
            Unserved::Folder(..) => UNAVAILABLE,
            Unserved::List(..) => NO_INPUT,
            Unserved::Busy(_) => CANNOT_CREATE,
        };
        Self { status, text: format!("{status}: {unserved}"), dropped: false }
    }
}

/// The status of a place that can't be reached: a wait that took too long is 13, as it is within a session, and has its code.
fn waited(error: &io::Error) -> (u8, String) {
    const LINK: u8 = 13;
    match error.kind() {
        io::ErrorKind::TimedOut => (LINK, format!(" (code {})", code_of(error))),
        _ => (UNAVAILABLE, String::new()),
    }
}

impl From<Failure> for Stop {
    fn from(failure: Failure) -> Self {
        match failure {
            Failure::Session(error) => error.into(),
            Failure::File(error) => Self { status: IO, text: format!("{IO}: {error}"), dropped: false },
        }
    }
}
