//! The lines of the two lists: a value, two spaces, a file's name; a backslash before it all where the name is escaped.
use super::names;
use super::numbers::Numbers;
use super::sha256::Sum;
use std::fmt::{self, Display};
use std::str::FromStr;

/// What a list says of each of its files, in text without two spaces one behind the other.
pub trait Value: Display + FromStr + Copy {}
impl Value for Sum {}
impl Value for Numbers {}

impl Display for Sum {
    fn fmt(&self, f: &mut fmt::Formatter<'_>) -> fmt::Result {
        self.0.iter().try_for_each(|byte| write!(f, "{byte:02x}"))
    }
}

impl FromStr for Sum {
    type Err = ();

    fn from_str(text: &str) -> Result<Self, ()> {
        let (pairs, rest) = text.as_bytes().as_chunks::<2>();
        let mut sum = [0; 32];
        if pairs.len() != sum.len() || !rest.is_empty() {
            return Err(());
        }
        for (byte, pair) in sum.iter_mut().zip(pairs) {
            let digits = std::str::from_utf8(pair).map_err(drop)?;
            *byte = u8::from_str_radix(digits, 16).map_err(drop)?;
        }
        Ok(Self(sum))
    }
}

/// A line, with its end.
pub fn written<V: Value>(name: &[u8], value: &V) -> Vec<u8> {
    let (escaped, text) = names::written(name);
    let mark = if escaped { "\\" } else { "" };
    [format!("{mark}{value}  ").as_bytes(), &text, b"\n"].concat()
}

/// A line without its end. None for what is not written exactly so.
pub fn read<V: Value>(line: &[u8]) -> Option<(Vec<u8>, V)> {
    let (escaped, rest) = match line.strip_prefix(b"\\") {
        Some(rest) => (true, rest),
        None => (false, line),
    };
    let at = rest.windows(2).position(|pair| pair == b"  ")?;
    let text = std::str::from_utf8(&rest[..at]).ok()?;
    let value: V = text.parse().ok()?;
    let name = names::read(escaped, &rest[at + 2..])?;
    (value.to_string() == text).then_some((name, value))
}

#[cfg(test)]
mod tests {
    use super::*;

    #[test]
    fn as_coreutils_writes_them() {
        let sum = Sum([0xab; 32]);
        let digits = "ab".repeat(32);
        for (name, line) in [
            (&b"a b"[..], format!("{digits}  a b\n")),
            (b" a", format!("{digits}   a\n")),
            (b"a\\b\n\r", format!("\\{digits}  a\\\\b\\n\\r\n")),
            (b"-", format!("{digits}  ./-\n")),
        ] {
            assert_eq!(written(name, &sum), line.as_bytes());
            assert_eq!(read(line.trim_end_matches('\n').as_bytes()), Some((name.to_vec(), sum)));
        }
    }

    #[test]
    fn numbers_of_any_size() {
        for (size, mtime, mode) in [(0, 0, 0), (u64::MAX, i64::MIN, u32::MAX), (160_019, 892_000_000, 0o100_660)] {
            let numbers = Numbers { size, mtime, mode };
            let line = written(b"a  b", &numbers);
            assert_eq!(read(&line[..line.len() - 1]), Some((b"a  b".to_vec(), numbers)));
        }
        assert_eq!(written(b"a", &Numbers { size: 5, mtime: -7, mode: 0o100_644 }), b"5 -7 100644  a\n");
    }

    #[test]
    fn other_lines_are_none() {
        for line in ["", "5 5 5 a", "+5 5 5  a", "05 5 5  a", "5 5 5 5  a", "5 5 8  a", "5 5 5  ../a", "5 5 5  "] {
            assert_eq!(read::<Numbers>(line.as_bytes()), None, "{line}");
        }
        let digits = "ab".repeat(32);
        for line in [
            format!("{digits} *a"),
            format!("{digits}  "),
            digits.to_uppercase() + "  a",
            format!("{}  a", &digits[1..]),
        ] {
            assert_eq!(read::<Sum>(line.as_bytes()), None, "{line}");
        }
    }
}
