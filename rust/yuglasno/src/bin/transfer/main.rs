//! Transfers files from and to a panel: stat, ls, pull, push, archive. `transfer --help` says how.
#![deny(unsafe_code)]

mod archive;
mod arguments;
mod by_time;
mod card;
mod check;
mod commands;
mod folder;
mod help;
mod hours;
mod ids;
mod keep;
mod panel;
mod peer;
mod place;
mod progress;
mod pull;
mod push;
mod say;
mod settings_file;
mod signals;
mod stop;
mod target;
mod times;

use arguments::{Command, Place, Plan, Request};
use panel::Panel;
use std::io::{self, Write};
use std::process::ExitCode;
use stop::Stop;

fn main() -> ExitCode {
    signals::taken_over();
    let status = match arguments::parsed(std::env::args_os().skip(1)) {
        Ok(Request::Run(plan)) => carried_out(*plan),
        Ok(Request::Help) => told(printed(&help::text())),
        Ok(Request::Version) => told(printed(concat!("transfer ", env!("CARGO_PKG_VERSION"), "\n"))),
        Err(text) => told(Err(Stop::usage(&text))),
    };
    ExitCode::from(status)
}

/// The command, then its card, as the last line of all. The command's status is told before that of the card.
fn carried_out(mut plan: Plan) -> u8 {
    let ready = folder::is_there(&plan).and_then(|()| ids::loaded(&mut plan)).and_then(|()| hours::loaded(&mut plan));
    match told(ready.and_then(|()| run(&plan)).map_err(|stop| hours::hinted(ids::hinted(stop, &plan), &plan))) {
        0 => told(carded(&plan)),
        status => {
            let _ = carded(&plan);
            status
        }
    }
}

/// The exit status, with the message of a stop.
fn told(done: Result<(), Stop>) -> u8 {
    match done {
        Ok(()) => 0,
        Err(stop) => {
            say::say(format_args!("{}", stop.text));
            stop.status
        }
    }
}

fn carded(plan: &Plan) -> Result<(), Stop> {
    let Some(card) = &plan.card else { return Ok(()) };
    let mut out = lines(plan);
    writeln!(out, "{card}").and_then(|()| out.flush()).map_err(|e| Stop::output(&e))
}

/// Where the command's lines go.
fn lines(plan: &Plan) -> Box<dyn Write> {
    match matches!(plan.place, Place::Stdio) || plan.command.takes_stdio() {
        true => Box::new(io::stderr()),
        false => Box::new(io::stdout()),
    }
}

fn printed(text: &str) -> Result<(), Stop> {
    let mut out = io::stdout();
    out.write_all(text.as_bytes()).and_then(|()| out.flush()).map_err(|e| Stop::output(&e))
}

fn run(plan: &Plan) -> Result<(), Stop> {
    let mut said = io::BufWriter::new(lines(plan));
    let done = match &plan.command {
        Command::Archive(order) => archive::run(plan, order, &mut said),
        Command::Verify(dir) => archive::verify(dir, &mut said),
        Command::Hours(file) => hours::show(file, plan.at, &mut said),
        _ => with_a_panel(plan, &mut said),
    };
    let shown = said.flush().map_err(|e| Stop::output(&e));
    done.and(shown)
}

/// The command, then quit. The command's failure is told before that of quit.
fn with_a_panel(plan: &Plan, said: &mut dyn Write) -> Result<(), Stop> {
    let target = commands::target(&plan.command)?;
    target.as_ref().map_or(Ok(()), |target| folder::is_spared(plan, &target.folder))?;
    let mut panel = Panel::opened(plan)?;
    match commands::run(&mut panel.peer(), plan, target.as_ref(), said) {
        Err(stop) if stop.dropped => {
            panel.leave();
            Err(stop)
        }
        done => {
            let quit = panel.quit();
            done.and(quit)
        }
    }
}
