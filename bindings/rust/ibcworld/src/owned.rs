//! Values of the library, and the bytes that it writes.
use crate::Refused;
use ibcworld_sys as sys;
use std::cell::UnsafeCell;
use std::fmt;
use std::ptr::null_mut;

/// A value of the library, which is freed with it. The cell keeps it from being `Sync`: a handle is used by one call at a time, also where the
/// call only reads. It is laid out as the handle, of which a journal keeps several beside one another.
#[repr(transparent)]
pub(crate) struct Owned {
    handle: UnsafeCell<sys::Handle>,
}

// SAFETY: `Send` is proved of the library's handles.
unsafe impl Send for Owned {}

impl Owned {
    /// The value that a call puts into an empty handle.
    pub(crate) fn made(make: impl FnOnce(*mut sys::Handle) -> u32) -> Result<Owned, Refused> {
        let handle = sys::Handle { at: null_mut() };
        let owned = Owned {
            handle: UnsafeCell::new(handle),
        };
        Refused::check(make(owned.handle()))?;
        Ok(owned)
    }

    pub(crate) fn handle(&self) -> *mut sys::Handle {
        self.handle.get()
    }

    /// How many entries, messages, holdings, channels or chains the value has.
    pub(crate) fn length(&self) -> Result<u64, Refused> {
        let mut count = 0;
        // SAFETY: the handle is the library's, and used by this call alone.
        Refused::check(unsafe { sys::ibcw_length(self.handle(), &mut count) })?;
        Ok(count)
    }
}

impl Drop for Owned {
    fn drop(&mut self) {
        // SAFETY: the handle was made by the library's calls alone. An empty one is refused, which does no harm.
        unsafe { sys::ibcw_free(self.handle()) };
    }
}

impl fmt::Debug for Owned {
    fn fmt(&self, f: &mut fmt::Formatter<'_>) -> fmt::Result {
        f.write_str("..")
    }
}

/// The room that a call is given first: most messages and proofs have no more bytes. With too little a call would spell them twice.
const ROOM: usize = 4096;

/// The bytes that a call writes, with as much room as it asks for.
pub(crate) fn bytes_of(
    mut write: impl FnMut(*mut u8, usize, *mut usize) -> u32,
) -> Result<Vec<u8>, Refused> {
    let mut room = [0; ROOM];
    let mut size = 0;
    match Refused::check(write(room.as_mut_ptr(), ROOM, &mut size)) {
        Ok(()) => return Ok(room[..size].to_vec()),
        Err(Refused::TooShort) => (),
        Err(refused) => return Err(refused),
    }
    let mut bytes = vec![0; size];
    Refused::check(write(bytes.as_mut_ptr(), bytes.len(), &mut size))?;
    bytes.truncate(size);
    Ok(bytes)
}

/// A text that the library wrote. Its names and paths are ASCII.
pub(crate) fn text_of(bytes: Vec<u8>) -> String {
    match String::from_utf8(bytes) {
        Ok(text) => text,
        Err(other) => String::from_utf8_lossy(other.as_bytes()).into_owned(),
    }
}

/// The amount of two halves.
pub(crate) fn whole(amount: &sys::Amount) -> u128 {
    u128::from(amount.high) << 64 | u128::from(amount.low)
}
