//! What goes to standard error. Where that can't be written nothing is said, and the exit status still stands.
use std::fmt::Arguments;
use std::io::{self, Write};
use std::os::unix::ffi::OsStrExt;
use std::path::Path;
use yuglasno::Shown;

/// FILE as a message has it: its name may be one of the panel's, and a terminal should not get all of those as they are.
pub fn shown(file: &Path) -> Shown<'_> {
    Shown(file.as_os_str().as_bytes())
}

pub fn say(text: Arguments<'_>) {
    let _ = writeln!(io::stderr(), "transfer: {text}");
}

/// As it is, such as the terminal's line of a progress.
pub fn show(text: Arguments<'_>) {
    let _ = io::stderr().write_fmt(text);
}
