//! Ledgers of one world, and what they come to.
use crate::lists::{channel_notes, holding, ChannelNotes, Holding};
use crate::owned::Owned;
use crate::{Ledger, Refused};
use ibcworld_sys as sys;
use std::fmt;

/// Ledgers of one world. They can be taken out, driven by any threads, and joined again.
#[derive(Debug)]
pub struct World {
    pub(crate) owned: Owned,
}

/// A ledger that isn't joined to others, and why: `OtherWorld`, `NoMemory`.
#[derive(Debug)]
pub struct NotJoined {
    /// Why.
    pub refused: Refused,
    /// The ledger.
    pub ledger: Ledger,
}

impl fmt::Display for NotJoined {
    fn fmt(&self, f: &mut fmt::Formatter<'_>) -> fmt::Result {
        self.refused.fmt(f)
    }
}

impl std::error::Error for NotJoined {}

impl From<NotJoined> for Refused {
    fn from(not: NotJoined) -> Refused {
        not.refused
    }
}

impl World {
    /// Takes out the first ledger, or none where there is none any more.
    ///
    /// # Errors
    /// `NoMemory`.
    pub fn take(&mut self) -> Result<Option<Ledger>, Refused> {
        // SAFETY: two handles of the library, each used by this call alone.
        match Owned::made(|at| unsafe { sys::ibcw_take_ledger(self.owned.handle(), at) }) {
            Ok(owned) => Ok(Some(Ledger { owned })),
            Err(Refused::NothingThere) => Ok(None),
            Err(refused) => Err(refused),
        }
    }

    /// Joins a ledger of this world to the others.
    ///
    /// # Errors
    /// The ledger is handed back where it is refused: `OtherWorld`, `NoMemory`.
    pub fn join(&mut self, ledger: Ledger) -> Result<(), NotJoined> {
        // SAFETY: two handles of the library, each used by this call alone; `Genesis::world` has the library number worlds.
        let answer = unsafe { sys::ibcw_join_ledger(self.owned.handle(), ledger.owned.handle()) };
        Refused::check(answer).map_err(|refused| NotJoined { refused, ledger })
    }

    /// What the ledgers hold, all of which have joined. To be answered is to know that what they did together is a run of the
    /// machine, of which the laws of IBC hold, unless two different texts that they hashed, or got in packets, have one digest. The ledgers
    /// stay, and can go on.
    ///
    /// # Errors
    /// `BadMessage` where a chain is missing, `NoMemory`. The ledgers stay then too.
    pub fn audit(&mut self) -> Result<Audit, Refused> {
        // SAFETY: two handles of the library, each used by this call alone.
        let owned = Owned::made(|at| unsafe { sys::ibcw_make_audit(self.owned.handle(), at) })?;
        Ok(Audit { owned })
    }
}

/// What the ledgers of a world hold.
#[derive(Debug)]
pub struct Audit {
    pub(crate) owned: Owned,
}

impl Audit {
    /// How many chains there are.
    ///
    /// # Errors
    /// None that is known: a list's length needs no memory.
    pub fn chains(&self) -> Result<u64, Refused> {
        self.owned.length()
    }

    /// What the accounts of a chain hold, by the byte order of the accounts and then of the denominations.
    ///
    /// # Errors
    /// `UnknownChain` where there is no such chain, `NoMemory`.
    pub fn balances(&self, chain: u64) -> Result<Vec<Holding>, Refused> {
        let mut count = 0;
        // SAFETY: the handle is the library's, and used by this call alone.
        Refused::check(unsafe { sys::ibcw_holding_count(self.owned.handle(), chain, &mut count) })?;
        (0..count)
            .map(|index| holding(&self.owned, chain, index))
            .collect()
    }

    /// The notes that came over the channels of a chain.
    ///
    /// # Errors
    /// `UnknownChain` where there is no such chain, `NoMemory`.
    pub fn notes(&self, chain: u64) -> Result<Vec<ChannelNotes>, Refused> {
        let mut count = 0;
        // SAFETY: as in `balances`.
        Refused::check(unsafe {
            sys::ibcw_note_channel_count(self.owned.handle(), chain, &mut count)
        })?;
        (0..count)
            .map(|channel| channel_notes(&self.owned, chain, channel))
            .collect()
    }
}
