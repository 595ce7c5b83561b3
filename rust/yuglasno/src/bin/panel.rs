//! The panel's side of sync over standard input and output, or a Unix socket: a test panel, or a folder that is only read.
#![forbid(unsafe_code)]
use std::fmt::Display;
use std::fs::File;
use std::io::{self, Write};
use std::os::unix::net::UnixListener;
use std::path::PathBuf;
use std::process::ExitCode;
use yuglasno::panel::{Panel, Unserved};
use yuglasno::{Failure, Settings};

const USAGE: &str = "\
usage: panel [--folder DIR [--read-only]] [--ids FILE] [--cut N] [--unix PATH [--once]]

Speaks the panel's side of sync, v1 and v2, over standard input and output or to the hosts that connect to the socket,
one after the other. Serves a few jobs under /jobs, or a folder, which it also writes to; with --read-only it writes nothing,
and answers as `transfer --folder` does. --cut N sends replies in pieces of 1 to N bytes.
With --ids it hears and says the ids of a file, as `transfer --ids` reads it, and no others.
";

/// Exit statuses, as `transfer` has them.
const USAGE_STATUS: u8 = 64;
const NO_INPUT: u8 = 66;
const UNAVAILABLE: u8 = 69;
const BUSY: u8 = 73;
const IO: u8 = 74;

#[derive(Default)]
struct Plan {
    folder: Option<PathBuf>,
    read_only: bool,
    ids: Option<PathBuf>,
    settings: Settings,
    cut: Option<usize>,
    socket: Option<PathBuf>,
    once: bool,
}

/// Why the program ends: its status, and what it says.
struct Stop(u8, String);

impl From<io::Error> for Stop {
    fn from(error: io::Error) -> Self {
        Self(IO, error.to_string())
    }
}

impl From<Unserved> for Stop {
    fn from(unserved: Unserved) -> Self {
        let status = match unserved {
            Unserved::Folder(..) => UNAVAILABLE,
            Unserved::List(..) => NO_INPUT,
            Unserved::Busy(_) => BUSY,
        };
        Self(status, unserved.to_string())
    }
}

impl Plan {
    fn parsed() -> Option<Self> {
        let mut plan = Self::default();
        let mut words = std::env::args_os().skip(1);
        while let Some(word) = words.next() {
            match word.to_str()? {
                "--folder" => plan.folder = Some(words.next()?.into()),
                "--read-only" => plan.read_only = true,
                "--ids" => plan.ids = Some(words.next()?.into()),
                "--cut" => plan.cut = Some(words.next()?.to_str()?.parse().ok()?),
                "--unix" => plan.socket = Some(words.next()?.into()),
                "--once" => plan.once = true,
                _ => return None,
            }
        }
        (!plan.read_only || plan.folder.is_some()).then_some(plan)
    }

    fn panel(&self) -> Result<Panel, Unserved> {
        let panel = match &self.folder {
            Some(folder) if self.read_only => Panel::read_only(folder)?,
            Some(folder) => Panel::with_folder(folder),
            None => Panel::with_jobs(),
        };
        Ok(panel.with_ids(self.settings.ids()).cut(self.cut.unwrap_or(usize::MAX)))
    }

    /// Takes over the ids of the file that is named.
    fn load(&mut self) -> Result<(), Failure> {
        match &self.ids {
            Some(file) => self.settings.read_ids(&mut File::open(file).map_err(Failure::File)?),
            None => Ok(()),
        }
    }
}

fn main() -> ExitCode {
    let Some(mut plan) = Plan::parsed() else {
        let _ = io::stderr().write_all(USAGE.as_bytes());
        return ExitCode::from(USAGE_STATUS);
    };
    if let Err(failure) = plan.load() {
        failed(&format_args!("{failure} (the ids file)"));
        return ExitCode::from(failure.number().map_or(NO_INPUT, |number| number as u8));
    }
    match run(&plan) {
        Ok(()) => ExitCode::SUCCESS,
        Err(Stop(status, why)) => {
            failed(&why);
            ExitCode::from(status)
        }
    }
}

/// Says why; where that can't be written the exit status still does.
fn failed(why: &dyn Display) {
    let _ = writeln!(io::stderr(), "panel: {why}");
}

fn run(plan: &Plan) -> Result<(), Stop> {
    // a folder that can't be served is no panel, also where no host has come yet
    let mut panel = plan.panel()?;
    let Some(path) = &plan.socket else {
        return Ok(panel.serve(&mut io::stdin().lock(), &mut io::stdout().lock())?);
    };
    let listener = UnixListener::bind(path)?;
    loop {
        let (stream, _) = listener.accept()?;
        let served = panel.serve(&mut &stream, &mut &stream);
        if plan.once {
            std::fs::remove_file(path)?;
            return Ok(served?);
        }
        if let Err(error) = served {
            failed(&error);
        }
        panel = plan.panel()?;
    }
}
