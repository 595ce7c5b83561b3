//! The commands.
use crate::arguments::{Command, Plan};
use crate::peer::Peer;
use crate::progress::Progress;
use crate::say::{say, shown};
use crate::stop::{Stop, NOT_THERE};
use crate::target::Target;
use crate::{by_time, check, hours, pull, push};
use std::io::{self, Write};
use yuglasno::{Details, Error, Shown};

/// Where a pull goes, before the panel is asked; none for standard output and for the other commands.
pub fn target(command: &Command) -> Result<Option<Target>, Stop> {
    match command {
        Command::Pull { path, file } if !command.takes_stdio() => Target::of(file, path).map(Some),
        _ => Ok(None),
    }
}

/// Does what the command says. `said` is where its lines go.
pub fn run(peer: &mut Peer<'_>, plan: &Plan, target: Option<&Target>, said: &mut dyn Write) -> Result<(), Stop> {
    match &plan.command {
        Command::Stat(path) => {
            let details = peer.details(path)?;
            numbers(said, &details).map_err(|e| Stop::output(&e))
        }
        Command::List { path, which: None } => list(peer, path, said),
        Command::List { path, which: Some(which) } => by_time::list(peer, path, *which, said),
        Command::Pull { path, .. } => pulled(peer, path, target, said),
        Command::Push { file, path, mode } => {
            let moment = hours::moment(plan)?;
            let bytes = if plan.command.takes_stdio() {
                push::stdin(peer, path, *mode, moment)?
            } else {
                push::file(peer, file, path, *mode, moment)?
            };
            line(said, format_args!("{}: {bytes} bytes pushed to {}", shown(file), Shown(path)))
        }
        Command::Archive(_) | Command::Verify(_) | Command::Hours(_) => {
            unreachable!("they open their own panel, or none")
        }
    }
}

fn line(said: &mut dyn Write, text: std::fmt::Arguments<'_>) -> Result<(), Stop> {
    writeln!(said, "{text}").map_err(|e| Stop::output(&e))
}

fn numbers(said: &mut dyn Write, details: &Details) -> io::Result<()> {
    writeln!(said, "mode  {}", details.mode())?;
    writeln!(said, "size  {}", details.size())?;
    writeln!(said, "mtime {}", details.mtime())?;
    let Details::V2(stat) = details else { return Ok(()) };
    writeln!(said, "atime {}", stat.atime)?;
    writeln!(said, "ctime {}", stat.ctime)?;
    writeln!(said, "dev   {}", stat.dev)?;
    writeln!(said, "ino   {}", stat.ino)?;
    writeln!(said, "nlink {}", stat.nlink)?;
    writeln!(said, "uid   {}", stat.uid)?;
    writeln!(said, "gid   {}", stat.gid)
}

/// A line for each entry. The listing is read to its end even where the lines can't be written.
fn list(peer: &mut Peer<'_>, path: &[u8], said: &mut dyn Write) -> Result<(), Stop> {
    let mut written = Ok(());
    let mut entries = 0;
    let done = peer.session.entries(peer.link, path, |name, details| {
        entries += 1;
        if written.is_ok() {
            written = entry(said, name, &details);
        }
    });
    listed(peer, path, done, entries)?;
    written.map_err(|e| Stop::output(&e))
}

/// What a listing came to, after so many entries.
pub fn listed(peer: &mut Peer<'_>, path: &[u8], done: Result<u64, Error>, entries: usize) -> Result<(), Stop> {
    done.map_err(|e| Stop::from(e).about(format_args!("{}, after {entries} entries", Shown(path))))?;
    if entries == 0 {
        return Err(unlisted(peer, path)?);
    }
    Ok(())
}

pub fn entry(said: &mut dyn Write, name: &[u8], details: &Details) -> io::Result<()> {
    let (mode, size, mtime) = (details.mode(), details.size(), details.mtime());
    write!(said, "{:>6} {size:>10} {mtime:>10} {}", mode.to_string(), Shown(name))?;
    match details.error() {
        0 => writeln!(said),
        errno => writeln!(said, " (errno {errno})"),
    }
}

/// A listing of nothing at all, not even `.`: why.
pub fn unlisted(peer: &mut Peer<'_>, path: &[u8]) -> Result<Stop, Stop> {
    let mode = peer.details(path)?.mode();
    let why = if mode.is_folder() {
        "a folder that the panel lists nothing of, not even `.`: it may not be read".into()
    } else {
        format!("it is no folder (mode {mode})")
    };
    Ok(Stop::new(NOT_THERE, Shown(path), why))
}

fn pulled(peer: &mut Peer<'_>, path: &[u8], target: Option<&Target>, said: &mut dyn Write) -> Result<(), Stop> {
    let mut progress = Progress::of(None);
    let Some(target) = target else {
        let before = peer.details(path)?;
        let mut out = io::stdout().lock();
        pull::received(peer, path, before, &mut out, &mut progress, &"standard output")?;
        out.flush().map_err(|e| Stop::output(&e))?;
        drop(progress);
        warn_of_link(path, &before);
        return Ok(());
    };
    let stored = pull::to_file(peer, path, target, &mut progress)?;
    drop(progress);
    let file = shown(&target.file);
    warn_of_link(path, &stored.details);
    if !stored.timed && !check::is_link(&stored.details) {
        let mtime = stored.details.mtime();
        say(format_args!("{file}: its time is not the panel's: the file system can't keep {mtime}"));
    }
    line(said, format_args!("{}: {} bytes pulled to {file}", Shown(path), stored.bytes))
}

/// What was not compared.
fn warn_of_link(path: &[u8], details: &Details) {
    if check::is_link(details) {
        let why = "a symbolic link, of which v1 has only the link's own numbers";
        say(format_args!(
            "{}: {why}: the bytes that came were not compared with a size, and its time is not known",
            Shown(path)
        ));
    }
}
