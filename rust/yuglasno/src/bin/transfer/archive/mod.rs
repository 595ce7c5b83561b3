//! `archive` and `verify`: the jobs of a panel's folder in a folder of this machine, with lists of what they are.
mod dir;
mod fetch;
mod list;
mod lists;
mod report;
mod store;
mod verify;
mod walk;

pub use verify::run as verify;

use crate::arguments::Plan;
use crate::folder::is_spared;
use crate::panel::Panel;
use crate::stop::{Stop, LEFT_OUT};
use report::Report;
use std::fmt::Display;
use std::io::{self, Write};
use std::path::PathBuf;
use store::{LeftOut, Store};
use walk::Job;
use yuglasno::archive::{folders, numbers};

/// What is archived, and where.
pub struct Order {
    pub folder: Vec<u8>,
    pub dir: PathBuf,
    /// With its sub-folders.
    pub deep: bool,
}

struct Run<'p> {
    panel: Panel<'p>,
    report: Report,
    store: Store,
    /// Jobs that were there already.
    held: usize,
}

/// Brings every job of the folder that DIR does not hold yet, in one session.
pub fn run(plan: &Plan, order: &Order, said: &mut dyn Write) -> Result<(), Stop> {
    is_spared(plan, &order.dir)?;
    let (mut panel, mut report) = (Panel::opened(plan)?, Report::new());
    let jobs = walk::jobs(&mut panel, &order.folder, order.deep, &mut report)?;
    let store = Store::opened(&order.dir)?;
    let mut run = Run { panel, report, store, held: 0 };
    let done = run.all(&jobs);
    let counted = run.counts(&order.dir.display(), said).map_err(|e| Stop::output(&e));
    let left_out = run.report.left_out;
    done.and(run.panel.quit()).and(counted)?;
    match left_out {
        0 => Ok(()),
        _ => Err(Stop::new(LEFT_OUT, order.dir.display(), format!("{left_out} files of the panel were left out"))),
    }
}

impl Run<'_> {
    fn all(&mut self, jobs: &[Job]) -> Result<(), Stop> {
        for (i, job) in jobs.iter().enumerate() {
            self.report.at(i, jobs.len());
            if let Err(stop) = self.job(job) {
                if let Ok(left_out) = self.store.commit() {
                    self.told(left_out);
                }
                return Err(stop.about(format_args!("after {i} of {} jobs", jobs.len())));
            }
        }
        let left_out = self.store.commit()?;
        self.told(left_out);
        Ok(())
    }

    /// Brings a job, or reports why it is left out. An error ends the run.
    fn job(&mut self, job: &Job) -> Result<(), Stop> {
        match self.holds(job) {
            Ok(true) => {
                self.held += 1;
                return Ok(());
            }
            Ok(false) => {}
            Err(error) => {
                self.report.left_out(&job.name, error);
                return Ok(());
            }
        }
        match fetch::pulled(&mut self.panel.peer(), &mut self.store.dir, job) {
            Ok(pulled) => self.store.take(pulled).map(|left_out| self.told(left_out)),
            Err(stop) => self.report.stopped(&job.name, stop, &mut self.panel),
        }
    }

    /// Whether DIR holds what the panel lists. An error where the name can't be one in DIR.
    fn holds(&self, job: &Job) -> io::Result<bool> {
        let found = folders::found(&self.store.dir.path, &job.name)?;
        let same = |numbers: &numbers::Numbers| {
            numbers.are(&job.details) && found.is_some_and(|found| found.is_file() && numbers.other(&found).is_empty())
        };
        Ok(self.store.lists.held(&job.name).is_some_and(same))
    }

    fn counts(&self, dir: &dyn Display, said: &mut dyn Write) -> io::Result<()> {
        let (added, held, left_out) = (self.store.added, self.held, self.report.left_out);
        writeln!(said, "{dir}: {added} pulled, {held} there already, {left_out} left out")?;
        match self.report.folders {
            0 => Ok(()),
            folders => writeln!(said, "{dir}: without {folders} sub-folders; --recursive takes them"),
        }
    }

    fn told(&mut self, left_out: Vec<LeftOut>) {
        for (name, why) in left_out {
            self.report.left_out(&name, why);
        }
    }
}
