//! A file that settings are loaded from: a regular one, read before anything else is done.
use crate::say::shown;
use crate::stop::{Stop, NO_INPUT};
use std::fmt::Display;
use std::fs::{self, File};
use std::path::Path;
use yuglasno::Failure;

/// Reads a file of this kind by `load`. The message of a refusal names it.
pub fn loaded(kind: &str, file: &Path, load: impl FnOnce(&mut File) -> Result<(), Failure>) -> Result<(), Stop> {
    let unread = |why: &dyn Display| Stop::new(NO_INPUT, named(kind, file), why);
    // opening a pipe would wait for its writer
    if !fs::metadata(file).map_err(|e| unread(&e))?.is_file() {
        return Err(unread(&"it is no regular file"));
    }
    let mut opened = File::open(file).map_err(|e| unread(&e))?;
    load(&mut opened).map_err(|failure| match failure {
        Failure::Session(error) => Stop::from(error).about(named(kind, file)),
        Failure::File(error) => unread(&error),
    })
}

/// The file as a message has it.
pub fn named(kind: &str, file: &Path) -> String {
    format!("{kind} file {}", shown(file))
}
