//! The features that the session asks of a banner, with their numbers.
use std::fmt;

/// A feature of the panel. Answer 10 names the one that is missing.
#[derive(Clone, Copy, PartialEq, Eq, Debug)]
pub enum Feature {
    /// 1, `stat_v2`: stat_v2.
    StatV2 = 1,
    /// 2, `ls_v2`: list_v2.
    LsV2 = 2,
    /// 3, `sendrecv_v2`: recv_v2 and send_v2.
    SendrecvV2 = 3,
    /// 4, `sendrecv_v2_brotli`.
    Brotli = 4,
    /// 5, `sendrecv_v2_lz4`.
    Lz4 = 5,
    /// 6, `sendrecv_v2_zstd`.
    Zstd = 6,
    /// 7, `sendrecv_v2_dry_run_send`.
    DryRunSend = 7,
}

impl Feature {
    /// All seven, in the order of their numbers.
    pub const ALL: [Self; 7] =
        [Self::StatV2, Self::LsV2, Self::SendrecvV2, Self::Brotli, Self::Lz4, Self::Zstd, Self::DryRunSend];

    /// Its number, from 1 to 7: answer 10 carries it.
    pub fn number(self) -> u32 {
        self as u32
    }

    /// The name that a banner lists it by.
    pub fn name(self) -> &'static str {
        match self {
            Self::StatV2 => "stat_v2",
            Self::LsV2 => "ls_v2",
            Self::SendrecvV2 => "sendrecv_v2",
            Self::Brotli => "sendrecv_v2_brotli",
            Self::Lz4 => "sendrecv_v2_lz4",
            Self::Zstd => "sendrecv_v2_zstd",
            Self::DryRunSend => "sendrecv_v2_dry_run_send",
        }
    }

    pub(crate) fn numbered(number: u64) -> Option<Self> {
        Self::ALL.into_iter().find(|f| u64::from(f.number()) == number)
    }
}

impl fmt::Display for Feature {
    fn fmt(&self, f: &mut fmt::Formatter<'_>) -> fmt::Result {
        f.write_str(self.name())
    }
}
