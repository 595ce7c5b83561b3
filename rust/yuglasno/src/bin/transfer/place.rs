//! The panel's place: a link to it, and its banner.
use crate::arguments::{Place, Plan};
use crate::say::say;
use crate::stop::{Stop, UNAVAILABLE};
use std::ffi::OsString;
use std::io;
use std::path::Path;
use std::process::{Child, Command, Stdio};
use std::thread;
use std::time::{Duration, Instant};
use yuglasno::adb::{Address, Channel, Server};
use yuglasno::panel::Panel;
use yuglasno::{Link, Pair};

pub struct Reached<'p> {
    pub link: Box<dyn Link + 'p>,
    pub banner: Vec<u8>,
    child: Option<Child>,
}

impl<'p> Reached<'p> {
    fn new(link: impl Link + 'p, banner: Vec<u8>) -> Self {
        Self { link: Box::new(link), banner, child: None }
    }

    /// Lets go of the panel; a program that was started for it is waited for, and left to itself where it does not end.
    pub fn leave(self) {
        drop(self.link);
        let Some(mut child) = self.child else { return };
        let start = Instant::now();
        while let Ok(None) = child.try_wait() {
            if start.elapsed() > LAST_WAIT {
                return say(format_args!(
                    "the program of --exec still runs (process {}), and is left to itself",
                    child.id()
                ));
            }
            thread::sleep(Duration::from_millis(2));
        }
    }
}

/// How long a program has to end once its channel is closed.
const LAST_WAIT: Duration = Duration::from_secs(5);

pub fn reached(plan: &Plan) -> Result<Reached<'_>, Stop> {
    let given = || banner_of(plan.features.as_deref().unwrap_or_default());
    match &plan.place {
        Place::Server { address, serial, timeout } => {
            let server = server(address.as_ref(), serial.as_deref(), *timeout)?;
            let banner =
                plan.features.as_deref().map_or_else(|| server.banner(), |features| Ok(banner_of(features)))?;
            Ok(Reached::new(server.sync()?, banner))
        }
        Place::Unix { path, timeout } => unix(path, *timeout, given()),
        Place::Stdio => Ok(Reached::new(Pair::new(io::stdin(), io::stdout()), given())),
        Place::Exec(words) => exec(words, given()),
        Place::Panel { cut } => Ok(here(Panel::with_jobs(), *cut, plan)),
        Place::Folder { dir, cut } => Ok(here(Panel::read_only(dir)?, *cut, plan)),
    }
}

/// A panel in this program, under the ids that were given.
fn here(panel: Panel, cut: Option<usize>, plan: &Plan) -> Reached<'_> {
    let banner = plan.features.as_deref().map_or(Panel::BANNER.to_vec(), banner_of);
    Reached::new(panel.with_ids(plan.settings.ids()).cut(cut.unwrap_or(usize::MAX)), banner)
}

fn banner_of(features: &[u8]) -> Vec<u8> {
    [b"features=", features].concat()
}

/// The server of the command line, or of the environment what that leaves open.
fn server(address: Option<&Address>, serial: Option<&str>, timeout: Option<Duration>) -> Result<Server, Stop> {
    let server = Server::at(address.cloned().map_or_else(Address::from_env, Ok)?);
    let server = match serial {
        Some(serial) => server.with_serial(serial),
        None => server.with_serial_from_env()?,
    };
    Ok(match timeout {
        Some(timeout) => server.with_timeout(timeout),
        None => server,
    })
}

fn unix(path: &Path, timeout: Option<Duration>, banner: Vec<u8>) -> Result<Reached<'static>, Stop> {
    let channel = Channel::to_socket(path, timeout).map_err(|e| Stop::unreached(path.display(), &e))?;
    Ok(Reached::new(channel, banner))
}

fn exec(words: &[OsString], banner: Vec<u8>) -> Result<Reached<'static>, Stop> {
    let program = &words[0];
    let cannot = |why: &dyn std::fmt::Display| Stop::new(UNAVAILABLE, program.display(), why);
    let mut command = Command::new(program);
    let started = command.args(&words[1..]).stdin(Stdio::piped()).stdout(Stdio::piped()).spawn();
    let mut child = started.map_err(|e| cannot(&e))?;
    match (child.stdout.take(), child.stdin.take()) {
        (Some(reader), Some(writer)) => {
            Ok(Reached { child: Some(child), ..Reached::new(Pair::new(reader, writer), banner) })
        }
        _ => Err(cannot(&"no pipes to it")),
    }
}
