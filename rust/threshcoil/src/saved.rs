//! The file of an account.

use std::fmt;
use threshcoil_sys::layout::FILE_SIZE;

/// A saved account, as it is stored or sent; read as a slice.
#[derive(Clone, Copy)]
pub struct Saved {
    length: usize,
    room: [u8; FILE_SIZE],
}

impl Saved {
    /// What is written into the room for the longest file, and how long it is.
    pub(crate) fn written(write: impl FnOnce(&mut [u8]) -> usize) -> Saved {
        let mut room = [0; FILE_SIZE];
        let length = write(&mut room).min(FILE_SIZE);
        Saved { length, room }
    }
}

impl std::ops::Deref for Saved {
    type Target = [u8];

    fn deref(&self) -> &[u8] {
        &self.room[..self.length]
    }
}

impl AsRef<[u8]> for Saved {
    fn as_ref(&self) -> &[u8] {
        self
    }
}

impl PartialEq for Saved {
    fn eq(&self, other: &Saved) -> bool {
        self[..] == other[..]
    }
}

impl Eq for Saved {}

impl fmt::Debug for Saved {
    fn fmt(&self, f: &mut fmt::Formatter<'_>) -> fmt::Result {
        write!(f, "Saved({self:02x?})", self = &self[..])
    }
}
