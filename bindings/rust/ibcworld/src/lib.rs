#![doc = include_str!("../README.md")]
//!
//! # Threads
//!
//! A [`Ledger`] and the other values are `Send`: what a handle holds is proved to be. A handle is used by one call at a time, so they are not
//! `Sync`. A [`View`] is: its clones share one handle under a lock of this crate, and [`View::share`] makes a handle that waits for none.
#![deny(missing_docs)]
#![warn(clippy::pedantic)]

mod genesis;
mod history;
mod ics23;
#[cfg(feature = "journal")]
mod journal;
mod ledger;
mod lists;
mod message;
mod owned;
mod packet;
mod proof;
mod refused;
mod relay;
mod replay;
mod stored;
mod tokens;
mod view;
mod wire;
mod world;

pub use genesis::Genesis;
pub use history::{Effect, Entry, Event, History};
#[cfg(feature = "journal")]
pub use journal::{FaultKind, Journal, JournalEnd, JournalFault};
pub use ledger::{Ledger, Totals};
pub use lists::{Account, ChannelNotes, Holding};
pub use message::{
    message_proof, message_tag, screen, AckPacket, ChanCloseConfirm, ChanCloseInit, ChanOpenAck,
    ChanOpenConfirm, ChanOpenInit, ChanOpenTry, ClaimedClient, ConnOpenAck, ConnOpenConfirm,
    ConnOpenInit, ConnOpenTry, CreateClient, Header, Message, Order, RecvPacket, SendNote, Timeout,
    TimeoutOnClose, Token, Transfer, TransferMany, UpdateClient,
};
pub use packet::Packet;
pub use proof::{Claim, Proof};
pub use refused::Refused;
pub use relay::{open, relay, Opened, Opening, Relayed};
pub use replay::{replay, NotReplayed};
pub use stored::{first_digest, Digest, Entries, Stored};
pub use tokens::TokenData;
pub use view::{Heights, Plan, View};
pub use world::{Audit, NotJoined, World};

/// The root of a height: a digest of all that its chain proves there (ICS 23).
pub type Root = [u8; 32];

/// The version of the library that is linked: 10,000 times its first number, 100 times the second, and the third.
///
/// ```
/// assert_eq!(ibcworld::version(), 10_000);
/// ```
#[must_use]
pub fn version() -> u32 {
    // SAFETY: the call takes nothing.
    unsafe { ibcworld_sys::ibcw_version() }
}
