//! Bytes of the panel for a person to read, on one line.
use std::fmt::{self, Write};

/// Bytes to be displayed: text as it is, a backslash doubled, and what a terminal should not get (control characters,
/// bytes that are no UTF-8) escaped. Different bytes are displayed differently.
///
/// ```
/// use yuglasno::Shown;
/// assert_eq!(Shown(b"T98.job").to_string(), "T98.job");
/// assert_eq!(Shown(b"a\nb\xFFc\\").to_string(), "a\\nb\\xffc\\\\");
/// ```
#[derive(Clone, Copy, Debug)]
pub struct Shown<'a>(pub &'a [u8]);

impl fmt::Display for Shown<'_> {
    fn fmt(&self, f: &mut fmt::Formatter<'_>) -> fmt::Result {
        for chunk in self.0.utf8_chunks() {
            for c in chunk.valid().chars() {
                match c {
                    '\'' | '"' => f.write_char(c)?,
                    _ => write!(f, "{}", c.escape_debug())?,
                }
            }
            for byte in chunk.invalid() {
                write!(f, "\\x{byte:02x}")?;
            }
        }
        Ok(())
    }
}
