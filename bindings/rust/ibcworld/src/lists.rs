//! What accounts hold, and which notes came.
use crate::owned::{bytes_of, text_of, whole, Owned};
use crate::Refused;
use ibcworld_sys as sys;
use std::fmt;

/// Who has a balance.
#[derive(Clone, Debug, PartialEq, Eq, Hash, PartialOrd, Ord)]
pub enum Account {
    /// A user.
    User(String),
    /// The escrow account of a channel of port `transfer` (ICS 20).
    Escrow(String),
}

const ESCROW: &str = "escrow/transfer/";

impl Account {
    fn of(text: &str) -> Account {
        match text.strip_prefix(ESCROW) {
            Some(channel) => Account::Escrow(channel.to_owned()),
            None => Account::User(text.to_owned()),
        }
    }
}

impl fmt::Display for Account {
    fn fmt(&self, f: &mut fmt::Formatter<'_>) -> fmt::Result {
        match self {
            Account::User(name) => f.write_str(name),
            Account::Escrow(channel) => write!(f, "{ESCROW}{channel}"),
        }
    }
}

/// What an account holds.
#[derive(Clone, Debug, PartialEq, Eq, Hash)]
pub struct Holding {
    /// The account.
    pub account: Account,
    /// The denomination.
    pub denom: String,
    /// The amount, above 0.
    pub amount: u128,
}

impl fmt::Display for Holding {
    fn fmt(&self, f: &mut fmt::Formatter<'_>) -> fmt::Result {
        write!(f, "{} {} {}", self.account, self.denom, self.amount)
    }
}

/// The notes that came over a channel of port `note`, in the order in which they came.
#[derive(Clone, Debug, PartialEq, Eq, Hash)]
pub struct ChannelNotes {
    /// The channel.
    pub channel: String,
    /// The notes, 1 or more.
    pub notes: Vec<Vec<u8>>,
}

/// The holding at an index of a list of balances; of an audit, at an index of a chain's.
pub(crate) fn holding(owned: &Owned, chain: u64, index: u64) -> Result<Holding, Refused> {
    let mut amount = sys::Amount::default();
    // SAFETY: the handle is the library's, and used by these calls alone.
    let text = bytes_of(|at, room, size| unsafe {
        sys::ibcw_holding(owned.handle(), chain, index, at, room, size)
    })?;
    // SAFETY: as above.
    Refused::check(unsafe { sys::ibcw_holding_amount(owned.handle(), chain, index, &mut amount) })?;
    let text = text_of(text);
    let (account, denom) = text.split_once(' ').unwrap_or((&text, ""));
    Ok(Holding {
        account: Account::of(account),
        denom: denom.to_owned(),
        amount: whole(&amount),
    })
}

/// The notes at an index of a list of notes; of an audit, at an index of a chain's.
pub(crate) fn channel_notes(
    owned: &Owned,
    chain: u64,
    channel: u64,
) -> Result<ChannelNotes, Refused> {
    let mut count = 0;
    // SAFETY: the handle is the library's, and used by these calls alone.
    let name = bytes_of(|at, room, size| unsafe {
        sys::ibcw_note_channel(owned.handle(), chain, channel, at, room, size)
    })?;
    // SAFETY: as above.
    Refused::check(unsafe { sys::ibcw_note_count(owned.handle(), chain, channel, &mut count) })?;
    // SAFETY: as above.
    let note = |index| {
        bytes_of(|at, room, size| unsafe {
            sys::ibcw_note(owned.handle(), chain, channel, index, at, room, size)
        })
    };
    let notes = (0..count).map(note).collect::<Result<_, _>>()?;
    Ok(ChannelNotes {
        channel: text_of(name),
        notes,
    })
}
