//! `verify`: an archive read back against its lists, without a panel.
use super::dir::read_only;
use super::lists::Lists;
use crate::progress::Line;
use crate::stop::{Stop, DAMAGED, NO_INPUT, UNLISTED};
use std::collections::BTreeSet;
use std::fs::{self, File};
use std::io::{self, Write};
use std::os::unix::ffi::OsStrExt;
use std::os::unix::fs::MetadataExt;
use std::path::Path;
use yuglasno::archive::folders;
use yuglasno::archive::names::{joined, DETAILS, SUMS, UNFINISHED};
use yuglasno::archive::numbers::Numbers;
use yuglasno::archive::sha256::{sum_of, Sum};
use yuglasno::Shown;

/// A line for each thing that is not as it should be, and how many there were.
struct Told<'a> {
    said: &'a mut dyn Write,
    line: Line,
    damaged: usize,
    unlisted: usize,
}

/// What is listed must be there as it is listed; what is there must be listed.
pub fn run(dir: &Path, said: &mut dyn Write) -> Result<(), Stop> {
    let _opened = read_only(dir)?;
    let lists = Lists::read(dir)?;
    if !lists.sums.there && !lists.details.there {
        return Err(Stop::new(NO_INPUT, dir.display(), format!("no {SUMS} and no {DETAILS}: it is no archive")));
    }
    let mut told = Told { said, line: Line::new(), damaged: 0, unlisted: 0 };
    told.lists(&lists).map_err(|e| Stop::output(&e))?;
    let whole = told.files(dir, &lists).map_err(|e| Stop::output(&e))?;
    told.others(dir, &lists).map_err(|e| Stop::output(&e))?;
    told.line.clear();
    let Told { said, damaged, unlisted, .. } = told;
    match (damaged, unlisted) {
        (0, 0) => writeln!(said, "{}: {whole} files, all as listed", dir.display()).map_err(|e| Stop::output(&e)),
        (0, _) => Err(Stop::new(
            UNLISTED,
            dir.display(),
            format!("{whole} files are as listed, {unlisted} things are not listed"),
        )),
        _ => Err(Stop::new(DAMAGED, dir.display(), format!("{whole} files are as listed, {damaged} things are not"))),
    }
}

impl Told<'_> {
    fn damage(&mut self, name: &[u8], why: &str) -> io::Result<()> {
        self.damaged += 1;
        self.tell(name, why)
    }

    fn unlisted(&mut self, name: &[u8], why: &str) -> io::Result<()> {
        self.unlisted += 1;
        self.tell(name, why)
    }

    fn tell(&mut self, name: &[u8], why: &str) -> io::Result<()> {
        self.line.clear();
        writeln!(self.said, "{}: {why}", Shown(name))
    }

    /// The lists themselves.
    fn lists(&mut self, lists: &Lists) -> io::Result<()> {
        for (list, fault) in lists.faults() {
            self.damage(list.as_bytes(), &fault)?;
        }
        if !lists.sums.there && lists.details.files.is_empty() {
            self.unlisted(SUMS.as_bytes(), "it is not there yet: the first run was interrupted")?;
        } else if !lists.sums.there {
            self.damage(SUMS.as_bytes(), &format!("it is not there, and {DETAILS} has files"))?;
        }
        for (list, torn) in [(SUMS, lists.sums.torn), (DETAILS, lists.details.torn)] {
            if torn {
                self.unlisted(list.as_bytes(), "its end is no line: a run was interrupted there")?;
            }
        }
        Ok(())
    }

    /// Each file that a list names. Says how many are as listed.
    fn files(&mut self, dir: &Path, lists: &Lists) -> io::Result<usize> {
        let names: BTreeSet<_> = lists.sums.files.keys().chain(lists.details.files.keys()).collect();
        let mut whole = 0;
        for (i, name) in names.iter().enumerate() {
            self.line.show(|| format!("{i} of {}", names.len()));
            let (sum, numbers) = (lists.sums.files.get(*name), lists.details.files.get(*name));
            let Some(sum) = sum else {
                self.unlisted(name, "it has no sum: a run was interrupted there, or the line is gone")?;
                continue;
            };
            let mut differences = differences(dir, name, sum, numbers).unwrap_or_else(|error| vec![error.to_string()]);
            if numbers.is_none() && lists.details.there {
                differences.push(format!("{DETAILS} has no line of it"));
            }
            match differences.as_slice() {
                [] => whole += 1,
                found => self.damage(name, &found.join("; "))?,
            }
        }
        Ok(whole)
    }

    /// Each file that no list names.
    fn others(&mut self, dir: &Path, lists: &Lists) -> io::Result<()> {
        let mut folders = vec![Vec::new()];
        while let Some(folder) = folders.pop() {
            let entries = match names_in(&folders::place(dir, &folder)) {
                Ok(entries) => entries,
                Err(error) => {
                    self.damage(&folder, &error.to_string())?;
                    continue;
                }
            };
            for (entry, is_folder) in entries {
                let name = joined(&folder, &entry);
                let own = [SUMS, DETAILS].iter().any(|list| name == list.as_bytes());
                let listed = own || lists.sums.files.contains_key(&name) || lists.details.files.contains_key(&name);
                match (is_folder, listed) {
                    (true, _) if name == UNFINISHED.as_bytes() => {
                        self.unlisted(&name, "left by a run that was interrupted")?
                    }
                    (true, _) => folders.push(name),
                    (false, false) => self.unlisted(&name, "it is in no list")?,
                    (false, true) => {}
                }
            }
        }
        Ok(())
    }
}

/// A folder's entries in order, and which are folders themselves.
fn names_in(folder: &Path) -> io::Result<Vec<(Vec<u8>, bool)>> {
    let mut names = Vec::new();
    for entry in fs::read_dir(folder)? {
        let entry = entry?;
        names.push((entry.file_name().as_bytes().to_vec(), entry.file_type()?.is_dir()));
    }
    names.sort();
    Ok(names)
}

/// How a file differs from what the lists say of it.
fn differences(dir: &Path, name: &[u8], sum: &Sum, numbers: Option<&Numbers>) -> io::Result<Vec<String>> {
    let Some(found) = folders::found(dir, name)? else { return Ok(vec!["it is not there".into()]) };
    if !found.is_file() {
        return Ok(vec!["it is no regular file".into()]);
    }
    let mut differences = numbers.map_or(Vec::new(), |numbers| numbers.other(&found));
    let mut file = File::open(folders::place(dir, name))?;
    let opened = file.metadata()?;
    if (opened.dev(), opened.ino()) != (found.dev(), found.ino()) {
        return Ok(vec!["it was replaced meanwhile".into()]);
    }
    if sum_of(&mut file)?.0 != *sum {
        differences.push("its sum is another".into());
    }
    Ok(differences)
}
