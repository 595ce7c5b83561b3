//! What a panel keeps its files in.
use crate::answer::StatV2;
use crate::numbers::FileMode;
use std::io::Read;

/// Errnos of Linux.
pub(super) const ENOENT: u32 = 2;
pub(super) const EIO: u32 = 5;
pub(super) const ENOTDIR: u32 = 20;

/// Texts of FAILs, as AOSP's service has them.
pub(super) const NOT_THERE: &str = "open failed: No such file or directory";
pub(super) const IS_FOLDER: &str = "read failed: Is a directory";
pub(super) const READ_ONLY: &str = "couldn't create file: Read-only file system";

/// Files by path. A failure is an errno for a stat, the text of a FAIL for the rest.
pub(super) trait Files {
    fn stat(&self, path: &[u8]) -> Result<StatV2, u32>;
    /// The entries of a folder in order; none of what is no folder.
    fn list(&self, path: &[u8]) -> Vec<(Vec<u8>, StatV2)>;
    /// The bytes of a file, read as they are said.
    fn open(&self, path: &[u8]) -> Result<Box<dyn Read>, String>;
    fn may_write(&self, path: &[u8]) -> Result<(), String>;
    fn write(&mut self, path: &[u8], mode: FileMode, mtime: u32, data: &[u8]) -> Result<(), String>;
}

/// A v2 stat: of a failure all zeros but the error.
pub(super) fn or_errno(stat: Result<StatV2, u32>) -> StatV2 {
    stat.unwrap_or_else(|error| StatV2 { error, ..StatV2::default() })
}
