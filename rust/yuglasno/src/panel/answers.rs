//! What a panel says to each request.
use super::files::or_errno;
use super::under_way::{in_v1, UnderWay, Version};
use super::{Panel, Push};
use crate::answer::StatV2;
use crate::call::Call;
use crate::error::Error;
use crate::numbers::{FileMode, SyncFlags};
use crate::speak::PanelReply;

/// The text of the FAIL to what is no request.
const BAD_REQUEST: &str = "bad request";

impl Panel {
    /// Answers the requests that it has heard whole, up to one whose reply has many messages.
    pub(super) fn attend(&mut self) -> Result<(), Error> {
        let mut heard = std::mem::take(&mut self.heard);
        let mut at = 0;
        let done = loop {
            if self.ended || self.under_way.is_some() {
                break Ok(());
            }
            let answered = match Call::heard(&self.settings, &heard[at..]) {
                Ok(None) => break Ok(()),
                Ok(Some((call, length))) => {
                    at += length;
                    self.answer(call)
                }
                Err(Error::BadRequest) => self.end_with(BAD_REQUEST),
                Err(error) => Err(error),
            };
            if answered.is_err() {
                break answered;
            }
        };
        heard.drain(..at);
        self.heard = heard;
        done
    }

    fn say(&mut self, reply: PanelReply<'_>) -> Result<(), Error> {
        reply.append(&self.settings, &mut self.replies)
    }

    pub(super) fn end_with(&mut self, text: &str) -> Result<(), Error> {
        self.ended = true;
        self.say(PanelReply::Fail(text.as_bytes()))
    }

    fn answer(&mut self, call: Call<'_>) -> Result<(), Error> {
        match call {
            Call::Stat(path) => {
                let stat = in_v1(&self.files.stat(path).unwrap_or_default());
                self.say(PanelReply::Stat(stat))
            }
            Call::StatV2(path) => {
                let stat = or_errno(self.files.stat(path));
                self.say(PanelReply::StatV2(stat))
            }
            Call::List(path) => self.list(Version::V1, path),
            Call::ListV2(path) => self.list(Version::V2, path),
            Call::Recv(path) | Call::RecvV2(path, SyncFlags::NONE) => self.pull(path),
            Call::Send(path, mode, _) | Call::SendV2(path, mode, SyncFlags::NONE, _) => self.push(path, mode, true),
            Call::SendV2(path, mode, SyncFlags::DRY_RUN, _) => self.push(path, mode, false),
            Call::RecvV2(_, flags) | Call::SendV2(_, _, flags, _) => {
                self.end_with(&format!("unknown flags: {}", flags.0))
            }
            Call::Data(bytes) => match &mut self.push {
                Push::Taking { data, .. } => {
                    data.extend_from_slice(bytes);
                    Ok(())
                }
                Push::Failed => Ok(()),
                Push::None => self.end_with("data outside a push"),
            },
            Call::SendDone(mtime) => self.finish(mtime),
            Call::Quit => {
                self.ended = true;
                Ok(())
            }
            Call::NextEntry | Call::NextEntryV2 | Call::RecvNext => unreachable!("no request is heard as one of these"),
        }
    }

    fn list(&mut self, version: Version, path: &[u8]) -> Result<(), Error> {
        let entries = self.dots(path).into_iter().chain(self.files.list(path)).collect();
        self.under_way = Some(UnderWay::listing(version, entries));
        Ok(())
    }

    /// What a folder lists before its entries, both with its own numbers here; nothing of what is no folder.
    fn dots(&self, path: &[u8]) -> Vec<(Vec<u8>, StatV2)> {
        match self.files.stat(path) {
            Ok(stat) if stat.mode.is_folder() => vec![(b".".to_vec(), stat), (b"..".to_vec(), stat)],
            _ => Vec::new(),
        }
    }

    fn pull(&mut self, path: &[u8]) -> Result<(), Error> {
        match self.files.open(path) {
            Ok(file) => {
                self.under_way = Some(UnderWay::pull(file));
                Ok(())
            }
            Err(text) => self.end_with(&text),
        }
    }

    fn push(&mut self, path: &[u8], mode: FileMode, keep: bool) -> Result<(), Error> {
        match self.files.may_write(path) {
            Ok(()) => {
                self.push = Push::Taking { path: path.to_vec(), mode, keep, data: Vec::new() };
                Ok(())
            }
            Err(text) => {
                self.push = Push::Failed;
                self.say(PanelReply::Fail(text.as_bytes()))
            }
        }
    }

    fn finish(&mut self, mtime: u32) -> Result<(), Error> {
        match std::mem::replace(&mut self.push, Push::None) {
            Push::Taking { path, mode, keep, data } => {
                match if keep { self.files.write(&path, mode, mtime, &data) } else { Ok(()) } {
                    Ok(()) => self.say(PanelReply::Okay),
                    Err(text) => self.end_with(&text),
                }
            }
            Push::Failed => {
                self.ended = true;
                Ok(())
            }
            Push::None => self.end_with("the end of a push outside one"),
        }
    }
}
