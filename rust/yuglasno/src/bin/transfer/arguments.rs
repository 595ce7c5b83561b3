//! The command line: options in any place, and the command's words.
use crate::archive::Order;
use crate::by_time::{Times, Which};
use crate::card::Card;
use crate::times::{moment, Edge};
use std::ffi::{OsStr, OsString};
use std::os::unix::ffi::{OsStrExt, OsStringExt};
use std::path::PathBuf;
use std::time::Duration;
use yuglasno::adb::Address;
use yuglasno::{FileMode, Moment, Settings, CAPACITY};

pub enum Request {
    Help,
    Version,
    Run(Box<Plan>),
}

pub struct Plan {
    pub place: Place,
    pub features: Option<Vec<u8>>,
    pub capacity: usize,
    /// A file of ids that is to be loaded into the settings, and one of hours.
    pub ids: Option<PathBuf>,
    pub hours: Option<PathBuf>,
    pub settings: Settings,
    /// The moment that a push starts at, where it is not now.
    pub at: Option<Moment>,
    /// What the sessions come to, where that is to be told.
    pub card: Option<Card>,
    pub command: Command,
}

pub enum Place {
    /// Without an address or serial, those of the environment.
    Server {
        address: Option<Address>,
        serial: Option<String>,
        timeout: Option<Duration>,
    },
    Unix {
        path: PathBuf,
        timeout: Option<Duration>,
    },
    Stdio,
    Exec(Vec<OsString>),
    Panel {
        cut: Option<usize>,
    },
    /// A folder in the panel's place, which is only read.
    Folder {
        dir: PathBuf,
        cut: Option<usize>,
    },
}

/// A FILE that is `-` is standard input or output. A listing has all entries, unless it says which.
pub enum Command {
    Stat(Vec<u8>),
    List { path: Vec<u8>, which: Option<Which> },
    Pull { path: Vec<u8>, file: PathBuf },
    Push { file: PathBuf, path: Vec<u8>, mode: Option<FileMode> },
    Archive(Order),
    Verify(PathBuf),
    Hours(PathBuf),
}

/// The commands and the words that each wants.
const COMMANDS: [(&str, &str); 7] = [
    ("stat", "PATH"),
    ("ls", "PATH"),
    ("pull", "PATH FILE"),
    ("push", "FILE PATH [MODE]"),
    ("archive", "FOLDER DIR"),
    ("verify", "DIR"),
    ("hours", "FILE"),
];

impl Command {
    /// Whether it reads standard input or writes a file to standard output.
    pub fn takes_stdio(&self) -> bool {
        matches!(self, Self::Pull { file, .. } | Self::Push { file, .. } if file.as_os_str() == "-")
    }
}

/// The options as they were given, and the other words.
#[derive(Default)]
struct Given {
    places: Vec<Place>,
    serial: Option<String>,
    timeout: Option<Duration>,
    cut: Option<usize>,
    features: Option<Vec<u8>>,
    capacity: Option<usize>,
    ids: Option<PathBuf>,
    hours: Option<PathBuf>,
    at: Option<Moment>,
    recursive: bool,
    card: bool,
    times: Times,
    words: Vec<OsString>,
}

pub fn parsed(mut words: impl Iterator<Item = OsString>) -> Result<Request, String> {
    let mut given = Given::default();
    while let Some(word) = words.next() {
        match word.as_bytes() {
            b"--help" | b"-h" => return Ok(Request::Help),
            b"--version" => return Ok(Request::Version),
            b"--" => given.words.extend(words.by_ref()),
            b"-" => given.words.push(word),
            option if option.starts_with(b"-") => given.option(&word, &mut words)?,
            _ => given.words.push(word),
        }
    }
    let command = given.command()?;
    Ok(Request::Run(Box::new(given.plan(command)?)))
}

impl Given {
    fn option(&mut self, option: &OsStr, words: &mut impl Iterator<Item = OsString>) -> Result<(), String> {
        match option.as_bytes() {
            b"--server" => {
                let address: Result<Address, _> = text(words, "--server", "HOST:PORT")?.parse();
                let address = address.map_err(|e| format!("--server {e}"))?;
                self.places.push(Place::Server { address: Some(address), serial: None, timeout: None });
            }
            b"--unix" => {
                self.places.push(Place::Unix { path: needed(words, "--unix", "PATH")?.into(), timeout: None });
            }
            b"--stdio" => self.places.push(Place::Stdio),
            b"--exec" => self.places.push(Place::Exec(program(words)?)),
            b"--panel" => self.places.push(Place::Panel { cut: None }),
            b"--folder" => self.places.push(Place::Folder { dir: needed(words, "--folder", "DIR")?.into(), cut: None }),
            b"--serial" => self.serial = Some(text(words, "--serial", "S")?),
            b"--timeout" => self.timeout = Some(seconds(words)?),
            b"--cut" => self.cut = Some(number(words, "--cut")?),
            b"--features" => self.features = Some(needed(words, "--features", "LIST")?.into_vec()),
            b"--capacity" => self.capacity = Some(capacity(words)?),
            b"--ids" => self.ids = Some(needed(words, "--ids", "FILE")?.into()),
            b"--hours" => self.hours = Some(needed(words, "--hours", "FILE")?.into()),
            b"--at" => self.at = Some(when(words)?),
            b"--recursive" => self.recursive = true,
            b"--card" => self.card = true,
            b"--from" => self.times.from = Some(time(words, "--from", Edge::First)?),
            b"--to" => self.times.to = Some(time(words, "--to", Edge::Last)?),
            b"--latest" => self.times.latest = Some(time(words, "--latest", Edge::Last)?),
            _ => return Err(format!("no option {}; behind -- a word may begin with -", option.display())),
        }
        Ok(())
    }

    fn command(&self) -> Result<Command, String> {
        let Some((name, words)) = self.words.split_first() else {
            return Err(format!("a command is wanted: {}", names()));
        };
        let bytes = |word: &OsString| word.as_bytes().to_vec();
        let which = self.times.which()?;
        if which.is_some() && name != "ls" {
            return Err("--from, --to and --latest go with ls".into());
        }
        match (name.as_bytes(), words) {
            (b"stat", [path]) => Ok(Command::Stat(bytes(path))),
            (b"ls", [path]) => Ok(Command::List { path: bytes(path), which }),
            (b"pull", [path, file]) => Ok(Command::Pull { path: bytes(path), file: file.into() }),
            (b"push", [file, path, octal @ ..]) if octal.len() < 2 => {
                let mode = octal.first().map(|octal| mode(octal)).transpose()?;
                Ok(Command::Push { file: file.into(), path: bytes(path), mode })
            }
            (b"archive", [folder, dir]) => {
                Ok(Command::Archive(Order { folder: bytes(folder), dir: dir.into(), deep: self.recursive }))
            }
            (b"verify", [dir]) => Ok(Command::Verify(dir.into())),
            (b"hours", [file]) => Ok(Command::Hours(file.into())),
            _ => Err(match COMMANDS.iter().find(|(each, _)| name == *each) {
                Some((name, wanted)) => format!("{name} wants {wanted}, and has {}", given(words)),
                None => format!("no command {}: {} are there", name.display(), names()),
            }),
        }
    }

    fn plan(self, command: Command) -> Result<Plan, String> {
        let mut places = self.places.into_iter();
        let default = || Place::Server { address: None, serial: None, timeout: None };
        let mut place = places.next().unwrap_or_else(default);
        if places.next().is_some() {
            return Err(
                "one of --server, --unix, --stdio, --exec, --panel and --folder is wanted, and more are given".into()
            );
        }
        let (mut serials, mut timeouts, mut cuts) = (None, None, None);
        match &mut place {
            Place::Server { serial, timeout, .. } => (serials, timeouts) = (Some(serial), Some(timeout)),
            Place::Unix { timeout, .. } => timeouts = Some(timeout),
            Place::Panel { cut } | Place::Folder { cut, .. } => cuts = Some(cut),
            Place::Stdio if command.takes_stdio() => return Err("with --stdio a FILE can't be -".into()),
            Place::Stdio | Place::Exec(_) => {}
        }
        if self.recursive && !matches!(command, Command::Archive(_)) {
            return Err("--recursive goes with archive".into());
        }
        timed(&command, self.hours.is_some(), self.at.is_some())?;
        set(serials, self.serial, "--serial goes with --server")?;
        set(timeouts, self.timeout, "--timeout goes with --server and --unix")?;
        set(cuts, self.cut, "--cut goes with --panel and --folder")?;
        let (capacity, settings) = (self.capacity.unwrap_or(CAPACITY), Settings::published());
        let card = self.card.then(Card::default);
        let (ids, hours, at) = (self.ids, self.hours, self.at);
        Ok(Plan { place, features: self.features, capacity, ids, hours, settings, at, card, command })
    }
}

/// Whether `--hours` and `--at` say anything with a command.
fn timed(command: &Command, hours: bool, at: bool) -> Result<(), String> {
    match command {
        Command::Hours(_) if hours => Err("the command hours has a FILE of its own, and goes without --hours".into()),
        Command::Hours(_) => Ok(()),
        Command::Push { .. } if hours => Ok(()),
        _ if at => Err("--at goes with the command hours, and with push and --hours FILE".into()),
        _ => Ok(()),
    }
}

/// An option's value to the place that takes it.
fn set<T>(place: Option<&mut Option<T>>, given: Option<T>, why: &str) -> Result<(), String> {
    match (place, given) {
        (Some(place), given) => *place = given,
        (None, Some(_)) => return Err(why.into()),
        (None, None) => {}
    }
    Ok(())
}

fn names() -> String {
    COMMANDS.map(|(name, _)| name).join(", ")
}

/// The words that are there.
fn given(words: &[OsString]) -> String {
    match words {
        [] => "none".into(),
        _ => words.join(OsStr::new(" ")).display().to_string(),
    }
}

/// The words up to `--`.
fn program(words: &mut impl Iterator<Item = OsString>) -> Result<Vec<OsString>, String> {
    let mut program = Vec::new();
    for word in words {
        match word.as_bytes() {
            b"--" if program.is_empty() => break,
            b"--" => return Ok(program),
            _ => program.push(word),
        }
    }
    Err("--exec wants COMMAND [ARGS..] --, its words up to --".into())
}

/// An octal mode; permissions alone are a regular file's.
fn mode(octal: &OsStr) -> Result<FileMode, String> {
    match octal.to_str().map(|octal| u32::from_str_radix(octal, 8)) {
        Some(Ok(permissions)) if permissions <= 0o7777 => Ok(FileMode(0o100_000 | permissions)),
        Some(Ok(mode)) => Ok(FileMode(mode)),
        _ => Err(format!("MODE is octal, such as 644, and not {}", octal.display())),
    }
}

fn needed(words: &mut impl Iterator<Item = OsString>, option: &str, wanted: &str) -> Result<OsString, String> {
    words.next().ok_or_else(|| format!("{option} wants {wanted}"))
}

fn text(words: &mut impl Iterator<Item = OsString>, option: &str, wanted: &str) -> Result<String, String> {
    let word = needed(words, option, wanted)?;
    word.into_string().map_err(|word| format!("{option} wants {wanted} as text, and not {}", word.display()))
}

fn number(words: &mut impl Iterator<Item = OsString>, option: &str) -> Result<usize, String> {
    let word = text(words, option, "a number")?;
    word.parse().map_err(|_| format!("{option} wants a number, and not {word}"))
}

/// Two buffers of that length are made.
fn capacity(words: &mut impl Iterator<Item = OsString>) -> Result<usize, String> {
    const MOST: usize = 1 << 30;
    match number(words, "--capacity")? {
        length if length <= MOST => Ok(length),
        length => Err(format!("--capacity wants a number up to {MOST}, and not {length}")),
    }
}

/// A moment, in Unix seconds.
fn time(words: &mut impl Iterator<Item = OsString>, option: &str, edge: Edge) -> Result<i64, String> {
    let word = text(words, option, "a time")?;
    moment(&word, edge).map_err(|why| format!("{option} wants a time, and {word:?} is {why}"))
}

/// A time that a push may start at: the first second of a day or a minute.
fn when(words: &mut impl Iterator<Item = OsString>) -> Result<Moment, String> {
    let seconds = time(words, "--at", Edge::First)?;
    let outside =
        |side| format!("--at wants a time from 1970-01-01 to {}, and {seconds} (Unix seconds) is {side}", Moment::LAST);
    u32::try_from(seconds).map(Moment).map_err(|_| outside(if seconds < 0 { "before it" } else { "past it" }))
}

/// A time from a millisecond on.
fn seconds(words: &mut impl Iterator<Item = OsString>) -> Result<Duration, String> {
    let word = text(words, "--timeout", "SECONDS")?;
    let seconds = word.parse().ok().and_then(|seconds| Duration::try_from_secs_f64(seconds).ok());
    match seconds {
        Some(seconds) if seconds >= Duration::from_millis(1) => Ok(seconds),
        _ => Err(format!("--timeout wants SECONDS, such as 5 or 0.5, and not {word}")),
    }
}
