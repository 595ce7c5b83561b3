//! A file's mode and a transfer's flags: two kinds of 32-bit number, neither of which passes for the other.
use std::fmt;
use std::ops::BitOr;

/// A file's type and permissions, such as `0o100644`. It is displayed in octal.
///
/// ```
/// use yuglasno::FileMode;
/// assert_eq!(FileMode(33188).to_string(), "100644");
/// assert!(FileMode(0o100644).is_file() && !FileMode(0o120777).is_file() && !FileMode(0).is_file());
/// assert!(FileMode(0o040755).is_folder() && !FileMode(0o060660).is_folder());
/// ```
#[derive(Clone, Copy, PartialEq, Eq, Default)]
pub struct FileMode(pub u32);

impl FileMode {
    /// Whether this is a folder's mode.
    pub fn is_folder(self) -> bool {
        self.kind() == 0o040_000
    }

    /// Whether this is a regular file's mode: no folder, symbolic link, device, pipe or socket, and not the 0 of what
    /// isn't there.
    pub fn is_file(self) -> bool {
        self.kind() == 0o100_000
    }

    fn kind(self) -> u32 {
        self.0 & 0o170_000
    }
}

impl fmt::Display for FileMode {
    fn fmt(&self, f: &mut fmt::Formatter<'_>) -> fmt::Result {
        fmt::Octal::fmt(&self.0, f)
    }
}

impl fmt::Debug for FileMode {
    fn fmt(&self, f: &mut fmt::Formatter<'_>) -> fmt::Result {
        write!(f, "FileMode({:#o})", self.0)
    }
}

/// The flags of a v2 transfer, joined with `|`. The packing itself is left to the program: data goes as it is given.
///
/// ```
/// use yuglasno::SyncFlags;
/// assert_eq!((SyncFlags::ZSTD | SyncFlags::DRY_RUN).0, 0x8000_0004);
/// ```
#[derive(Clone, Copy, PartialEq, Eq, Default)]
pub struct SyncFlags(pub u32);

impl SyncFlags {
    /// Nothing set: data as it is.
    pub const NONE: Self = Self(0);
    /// Brotli.
    pub const BROTLI: Self = Self(1);
    /// LZ4.
    pub const LZ4: Self = Self(2);
    /// Zstandard.
    pub const ZSTD: Self = Self(4);
    /// Try a push and keep no file. A pull with it is refused.
    pub const DRY_RUN: Self = Self(0x8000_0000);
}

impl BitOr for SyncFlags {
    type Output = Self;

    fn bitor(self, other: Self) -> Self {
        Self(self.0 | other.0)
    }
}

impl fmt::Debug for SyncFlags {
    fn fmt(&self, f: &mut fmt::Formatter<'_>) -> fmt::Result {
        write!(f, "SyncFlags({:#x})", self.0)
    }
}
