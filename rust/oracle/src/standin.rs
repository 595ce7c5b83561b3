//! Stand-ins for what 000 leans on and is not published with it: its error type, its connection, its transport and two of its protocol's
//! types. Only `Error` is ever used; the rest is there so that 000's own files compile as they are.
use crate::original::base::protocol::features::Feature;
use crate::original::sync::SyncError;

pub mod error {
    use super::*;

    /// What a call of 000 fails with. `Io` carries the scripted channel's code.
    #[derive(Debug, PartialEq, Eq)]
    pub enum Error<E> {
        ChannelClosed,
        ReceiveBufferFull,
        MissingFeature(Feature),
        Sync(SyncError),
        Io(E),
    }

    #[derive(Debug)]
    pub enum ProtocolError {
        UnknownFeature,
    }
}

pub mod transport {
    pub trait ReadCancelSafety {}
}

/// What 000 names of the crates `embedded_io` and `embedded_io_async`.
pub mod embedded {
    pub trait ErrorType {
        type Error;
    }
    pub trait Read: ErrorType {}
    pub trait Write: ErrorType {}
}

pub mod protocol {
    pub mod command {
        #[derive(PartialEq, Eq)]
        pub enum Command {
            Close,
        }
    }

    pub struct Packet {
        pub command: command::Command,
        pub arg0: u32,
        pub arg1: u32,
    }
}

pub mod connection {
    use super::embedded::ErrorType;
    use super::error::Error;
    use crate::original::base::channel::{ChannelId, SelectResult};
    use crate::original::base::protocol::features::Feature;

    pub struct Connection<T>(T);

    pub struct Negotiated;

    impl Negotiated {
        pub fn advertises(&self, _: &Feature) -> bool {
            unreachable!()
        }
    }

    // never made, never called: the channel of the comparison is a session of its own (theirs.rs)
    impl<T: ErrorType> Connection<T> {
        pub fn negotiated(&self) -> Negotiated {
            unreachable!()
        }
        pub async fn open_channel(&mut self, _: &[u8]) -> Result<ChannelId, Error<T::Error>> {
            unreachable!()
        }
        pub async fn read_channel(&mut self, _: ChannelId, _: &mut [u8]) -> Result<usize, Error<T::Error>> {
            unreachable!()
        }
        pub async fn write_channel(&mut self, _: ChannelId, _: &[u8]) -> Result<(), Error<T::Error>> {
            unreachable!()
        }
        pub async fn select_channel<F: core::future::Future>(
            &mut self,
            _: ChannelId,
            _: &mut [u8],
            _: F,
        ) -> Result<SelectResult<F::Output>, Error<T::Error>> {
            unreachable!()
        }
        pub async fn close_channel(&mut self, _: ChannelId) -> Result<(), Error<T::Error>> {
            unreachable!()
        }
    }
}
