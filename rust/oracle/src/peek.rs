//! What 000 keeps to itself: the bytes of the receive buffer that it is lent, and a flag word that its public names cannot make. The only
//! file here with `unsafe`.
#![allow(unsafe_code)]
use crate::original::sync::SyncFlags;
use std::mem::ManuallyDrop;

/// A buffer that 000 is lent and that is looked at between its calls, never during one.
pub struct Watched(*mut [u8]);

impl Watched {
    pub fn new(bytes: Vec<u8>) -> Watched {
        Watched(Box::into_raw(bytes.into_boxed_slice()))
    }

    pub fn address(&self) -> usize {
        self.0 as *const u8 as usize
    }

    /// For 000's session, once.
    #[allow(clippy::mut_from_ref)]
    pub fn lend(&self) -> &mut [u8] {
        unsafe { &mut *self.0 }
    }

    pub fn bytes(&self) -> Vec<u8> {
        unsafe { (*self.0).to_vec() }
    }

    pub fn put(&self, bytes: &[u8]) {
        unsafe { (&mut *self.0)[..bytes.len()].copy_from_slice(bytes) }
    }
}

impl Drop for Watched {
    fn drop(&mut self) {
        drop(unsafe { Box::from_raw(self.0) });
    }
}

/// The same session again, to be looked at and forgotten before the first one goes on.
pub fn again<T>(session: &T) -> ManuallyDrop<T> {
    ManuallyDrop::new(unsafe { std::ptr::read(session) })
}

/// 000's flags by their word. Its constants make only the bits of hexadecimal 80000007; any other word is made of its private field.
pub fn flags(bits: u32) -> SyncFlags {
    let named = [SyncFlags::BROTLI, SyncFlags::LZ4, SyncFlags::ZSTD, SyncFlags::DRY_RUN];
    let made = named.into_iter().filter(|f| bits & f.bits() != 0).fold(SyncFlags::NONE, |all, f| all | f);
    if made.bits() == bits {
        made
    } else {
        unsafe { std::mem::transmute::<u32, SyncFlags>(bits) }
    }
}
