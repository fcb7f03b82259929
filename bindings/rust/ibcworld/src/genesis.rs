//! How worlds begin.
use crate::owned::Owned;
use crate::{Refused, World};
use ibcworld_sys as sys;

/// How a world begins: its chains, in the order of their numbers, and what users hold there.
#[derive(Debug)]
pub struct Genesis {
    pub(crate) owned: Owned,
}

impl Genesis {
    /// A genesis with no chains. A chain publishes at most `capacity` heights and keeps the last `window` of them.
    ///
    /// # Errors
    /// `NoMemory`.
    pub fn new(capacity: u64, window: u64) -> Result<Genesis, Refused> {
        // SAFETY: the handle is empty, and used by this call alone.
        let owned = Owned::made(|at| unsafe { sys::ibcw_make_genesis(at, capacity, window) })?;
        Ok(Genesis { owned })
    }

    /// Adds a chain behind the others, whose first block has this time.
    ///
    /// # Errors
    /// `NoMemory`.
    pub fn add_chain(&mut self, time: u64) -> Result<(), Refused> {
        // SAFETY: the handle is the library's, and used by this call alone.
        Refused::check(unsafe { sys::ibcw_add_chain(self.owned.handle(), time) })
    }

    /// Lets a user hold so much of a base denomination at the last chain.
    ///
    /// # Errors
    /// `BadName` where the user or the denomination is no name of its kind, `NothingThere` where there is no chain, `NoMemory`.
    #[allow(clippy::cast_possible_truncation)]
    pub fn add_balance(&mut self, user: &str, denom: &str, amount: u128) -> Result<(), Refused> {
        let (high, low) = ((amount >> 64) as u64, amount as u64);
        // SAFETY: as in `add_chain`; the pointers and lengths are those of texts.
        Refused::check(unsafe {
            sys::ibcw_add_balance(
                self.owned.handle(),
                user.as_ptr(),
                user.len(),
                denom.as_ptr(),
                denom.len(),
                high,
                low,
            )
        })
    }

    /// The world of the genesis in the beginning: all its ledgers. The library tells it from every other of the process.
    ///
    /// # Errors
    /// `BadMessage` where no world begins so, `NoMemory`.
    pub fn world(&self) -> Result<World, Refused> {
        // SAFETY: two handles of the library, each used by this call alone.
        let owned = Owned::made(|at| unsafe { sys::ibcw_make_ledgers(self.owned.handle(), at) })?;
        Ok(World { owned })
    }
}
