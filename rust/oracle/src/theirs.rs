//! 000's session on a scripted channel.
use crate::call::{Answer, Call, Entry, What, Why};
use crate::error::Error;
use crate::original::base::channel::{Channel, ChannelId, SelectResult};
use crate::original::base::protocol::features::{has_feature, Feature};
use crate::original::base::session::Session;
use crate::original::sync::{DirEntry, FileMode, StatV2, SyncError, SyncSession};
use crate::peek;
use crate::wire::{Fault, Wire};
use std::future::Future;
use std::pin::pin;
use std::task::{Context, Poll, Waker};

pub type Failure = Error<u32>;

/// The channel, and the features of the banner, as `has_feature` finds them.
pub struct Host<W> {
    features: u32,
    pub wire: W,
}

const FEATURES: [Feature; 7] = [
    Feature::StatV2, Feature::LsV2, Feature::SendrecvV2, Feature::SendrecvV2Brotli, Feature::SendrecvV2Lz4, Feature::SendrecvV2Zstd,
    Feature::SendrecvV2DryRunSend,
];

/// A feature by document 01's number.
pub fn number(feature: &Feature) -> u32 {
    FEATURES.iter().position(|f| f == feature).map_or(0, |i| i as u32 + 1)
}

impl<W: Wire> Host<W> {
    pub fn new(banner: &[u8], wire: W) -> Self {
        let present = FEATURES.iter().filter(|f| has_feature(banner, f.wire_name().as_bytes()));
        Host { features: present.fold(0, |mask, f| mask | 1 << *f as u32), wire }
    }

    pub fn session<'a, 'b>(&'a mut self, rx: &'b mut [u8]) -> SyncSession<'a, 'b, Self> {
        SyncSession::new(Channel { session: self, id: ChannelId::from_raw(0, 0) }, rx)
    }
}

fn failed<T>(done: Result<T, Fault>) -> Result<T, Failure> {
    done.map_err(|fault| match fault {
        Fault::Closed => Error::ChannelClosed,
        Fault::Error(code) => Error::Io(code),
    })
}

impl<W: Wire> Session for Host<W> {
    type IoError = u32;

    fn advertises(&self, feature: &Feature) -> bool {
        self.features >> *feature as u32 & 1 == 1
    }
    async fn open_channel(&mut self, _: &[u8]) -> Result<ChannelId, Failure> {
        Ok(ChannelId::from_raw(0, 0))
    }
    async fn read_channel(&mut self, _: ChannelId, buf: &mut [u8]) -> Result<usize, Failure> {
        failed(self.wire.read(buf))
    }
    async fn write_channel(&mut self, _: ChannelId, data: &[u8]) -> Result<(), Failure> {
        failed(self.wire.write(data))
    }
    async fn select_channel<F: Future>(&mut self, _: ChannelId, _: &mut [u8], _: F) -> Result<SelectResult<F::Output>, Failure> {
        unreachable!("the sync module does not select")
    }
    async fn close_channel(&mut self, _: ChannelId) -> Result<(), Failure> {
        failed(self.wire.close())
    }
}

/// Runs a call to its end: the scripted channel never makes it wait.
#[inline]
pub fn run<T>(call: impl Future<Output = T>) -> T {
    match pin!(call).poll(&mut Context::from_waker(Waker::noop())) {
        Poll::Ready(done) => done,
        Poll::Pending => unreachable!("the scripted channel is always ready"),
    }
}

pub fn numbers(s: &StatV2) -> Vec<u64> {
    let narrow = [s.mode.0, s.nlink, s.uid, s.gid].map(u64::from);
    let times = [s.atime, s.mtime, s.ctime].map(|t| t as u64);
    [&[s.error as u64, s.dev, s.ino][..], &narrow, &[s.size], &times].concat()
}

fn why(failure: Failure) -> Why {
    match failure {
        Error::ChannelClosed => Why::Closed,
        Error::ReceiveBufferFull => Why::TooLarge,
        Error::MissingFeature(feature) => Why::Missing(number(&feature)),
        Error::Io(code) => Why::Error(code),
        Error::Sync(SyncError::Failed(text)) => Why::Fail(text),
        Error::Sync(SyncError::UnexpectedId(id)) => Why::Unexpected(id),
        Error::Sync(SyncError::RemoteErrno(code)) => Why::Errno(code),
        Error::Sync(SyncError::InvalidFlags(_)) => Why::Refused(9),
        Error::Sync(SyncError::InvalidPath) => Why::Refused(8),
    }
}

/// Makes a call; quit takes the session.
pub fn make<W: Wire>(session: &mut Option<SyncSession<'_, '_, Host<W>>>, call: &Call) -> Answer {
    if call.what == What::Quit {
        let quit = run(session.take().expect("000 has no call after quit").quit());
        return quit.map_or_else(|failure| Answer::Not(why(failure)), |()| Answer::Done);
    }
    let s = session.as_mut().expect("000 has no call after quit");
    let (path, mode, mtime) = (call.path.as_str(), FileMode(call.mode), call.mtime);
    let flags = peek::flags(call.flags);
    let made = match call.what {
        What::Stat => run(s.stat(path)).map(|s| Answer::Stat([s.mode.0, s.size, s.mtime].map(u64::from).to_vec())),
        What::StatV2 => run(s.stat_v2(path)).map(|s| Answer::Stat(numbers(&s))),
        What::List => run(s.list(path)).map(|all| {
            let numbers = |e: &DirEntry| [e.mode.0, e.size, e.mtime].map(u64::from).to_vec();
            Answer::Listed(all.into_iter().map(|e| Entry { numbers: numbers(&e), name: e.name }).collect())
        }),
        What::ListV2 => run(s.list_v2(path)).map(|all| {
            Answer::Listed(all.into_iter().map(|e| Entry { numbers: numbers(&e.stat), name: e.name }).collect())
        }),
        What::RecvStart => run(s.recv_start(path)).map(|()| Answer::Done),
        What::RecvV2Start => run(s.recv_v2_start(path, flags)).map(|()| Answer::Done),
        What::RecvNext => run(s.recv_next()).map(|chunk| chunk.map_or(Answer::End, |bytes| Answer::Chunk(bytes.to_vec()))),
        What::SendStart => run(s.send_start(path, mode)).map(|()| Answer::Done),
        What::SendV2Start => run(s.send_v2_start(path, mode, flags)).map(|()| Answer::Done),
        What::SendData => run(s.send_data(&call.data)).map(|()| Answer::Done),
        What::SendDone => run(s.send_done(mtime)).map(|()| Answer::Done),
        What::Recv => run(s.recv(path)).map(Answer::Pulled),
        What::RecvV2 => run(s.recv_v2(path, flags)).map(Answer::Pulled),
        What::Send => run(s.send(path, mode, mtime, &call.data)).map(|()| Answer::Done),
        What::SendV2 => run(s.send_v2(path, mode, mtime, flags, &call.data)).map(|()| Answer::Done),
        What::Quit => unreachable!(),
    };
    made.unwrap_or_else(|failure| Answer::Not(why(failure)))
}
