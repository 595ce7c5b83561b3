//! A host's requests, as a panel hears them: the first of some bytes, by the library's reader.
use crate::call::Call;
use crate::error::Error;
use crate::moment::Moment;
use crate::numbers::{FileMode, SyncFlags};
use crate::raw::{self, REPLY};
use crate::reply::{part, word};
use crate::settings::Settings;

impl<'l> Call<'l> {
    /// The request at the front of the bytes that a panel has heard, as the call that a host writes it with, and its length. The path or
    /// data is a part of the bytes. `None` where more bytes are wanted; 18 for what is no request of a host, ahead of that 22
    /// or 23 where the settings have no table of ids. No request is a [`Call::NextEntry`], [`Call::NextEntryV2`] or [`Call::RecvNext`], and
    /// none says when a push starts: [`Moment::FIRST`] stands there.
    ///
    /// ```
    /// use yuglasno::{Call, FileMode, Moment, Settings};
    ///
    /// let (settings, bytes) = (Settings::published(), b"SEND\x0A\0\0\0/j,0100644DONE\x05\0\0\0");
    /// let (call, length) = Call::heard(&settings, bytes).unwrap().unwrap();
    /// assert_eq!((call, length), (Call::Send(b"/j", FileMode(33188), Moment::FIRST), 18));
    /// assert_eq!(Call::heard(&settings, &bytes[length..]).unwrap(), Some((Call::SendDone(5), 8)));
    /// assert_eq!(Call::heard(&settings, &bytes[..17]).unwrap(), None);
    /// assert_eq!(Call::heard(&settings, b"OKAY\0\0\0\0").unwrap_err().number(), 18);
    /// ```
    pub fn heard(settings: &Settings, bytes: &'l [u8]) -> Result<Option<(Self, usize)>, Error> {
        let mut out = [0; REPLY];
        match raw::heard(settings.as_bytes(), bytes, &mut out) {
            0 => Ok(numbered(&out, bytes).map(|call| (call, word(&out, 5) as usize))),
            number => Err(settings.refused(number)),
        }
    }
}

/// The call that the numbers say; none where more bytes are wanted.
fn numbered<'l>(out: &[u8; REPLY], bytes: &'l [u8]) -> Option<Call<'l>> {
    let lent = &bytes[part(out, 1).range()];
    let (first, flags) = (word(out, 3) as u32, SyncFlags(word(out, 4) as u32));
    Some(match word(out, 0) {
        1 => Call::Stat(lent),
        2 => Call::StatV2(lent),
        3 => Call::List(lent),
        4 => Call::ListV2(lent),
        5 => Call::Recv(lent),
        6 => Call::RecvV2(lent, flags),
        7 => Call::Send(lent, FileMode(first), Moment::FIRST),
        8 => Call::SendV2(lent, FileMode(first), flags, Moment::FIRST),
        9 => Call::Data(lent),
        10 => Call::SendDone(first),
        11 => Call::Quit,
        _ => return None,
    })
}
