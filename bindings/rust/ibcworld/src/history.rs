//! Histories: what ledgers were asked, and what they answered.
use crate::owned::{bytes_of, text_of, Owned};
use crate::{Message, Refused, Root};
use ibcworld_sys as sys;

/// What a ledger was asked.
#[derive(Clone, Debug, PartialEq, Eq, Hash)]
#[non_exhaustive]
pub enum Event {
    /// A message.
    Message {
        /// The bytes that spell it, as they were applied.
        bytes: Vec<u8>,
        /// How many heights the client's chain had published when an update of the client read that; 0 of other messages, and where nothing
        /// was read.
        published: u64,
    },
    /// The end of a block.
    Block {
        /// The time of the next one.
        next_time: u64,
    },
}

impl Event {
    /// The message, with its fields; none for the end of a block.
    ///
    /// # Errors
    /// `NoMemory`.
    pub fn message(&self) -> Result<Option<Message>, Refused> {
        match self {
            Event::Message { bytes, .. } => Message::try_from(bytes.as_slice()).map(Some),
            Event::Block { .. } => Ok(None),
        }
    }
}

/// What a reply gives.
#[derive(Clone, Debug, PartialEq, Eq, Hash)]
#[non_exhaustive]
pub enum Effect {
    /// Nothing to tell.
    Nothing,
    /// The name of a new client.
    Client(String),
    /// The name of a new connection.
    Connection(String),
    /// The name of a new channel.
    Channel(String),
    /// The sequence of the packet that was sent.
    Sent(u64),
    /// The acknowledgement that was written.
    Ack(Vec<u8>),
    /// A block was ended.
    Block {
        /// Its height.
        height: u64,
        /// Its root.
        root: Root,
    },
}

impl Effect {
    pub(crate) fn of(told: sys::Told, bytes: Vec<u8>) -> Effect {
        match told.kind {
            2 => Effect::Client(text_of(bytes)),
            3 => Effect::Connection(text_of(bytes)),
            4 => Effect::Channel(text_of(bytes)),
            5 => Effect::Sent(told.number),
            6 => Effect::Ack(bytes),
            7 => Effect::Block {
                height: told.number,
                root: root_of(&bytes),
            },
            _ => Effect::Nothing,
        }
    }
}

/// The root of the bytes, of which the library writes 32.
pub(crate) fn root_of(bytes: &[u8]) -> Root {
    bytes.try_into().expect("a root has 32 bytes")
}

/// An entry of a ledger's history.
#[derive(Clone, Debug, PartialEq, Eq, Hash)]
pub struct Entry {
    /// What it was asked.
    pub event: Event,
    /// What it answered.
    pub reply: Result<Effect, Refused>,
}

/// A ledger's history, entry by entry, from the first on.
#[derive(Clone, Debug)]
pub struct History<'a> {
    pub(crate) owned: &'a Owned,
    pub(crate) next: u64,
    pub(crate) end: u64,
}

impl History<'_> {
    fn event(&self, index: u64) -> Result<Event, Refused> {
        let mut asked = sys::Asked::default();
        // SAFETY: the handle is the library's, and used by this call alone.
        let bytes = bytes_of(|at, room, size| unsafe {
            sys::ibcw_event(self.owned.handle(), index, &mut asked, at, room, size)
        })?;
        Ok(match asked.kind {
            0 => Event::Block {
                next_time: asked.next_time,
            },
            _ => Event::Message {
                bytes,
                published: asked.published,
            },
        })
    }

    fn reply(&self, index: u64) -> Result<Result<Effect, Refused>, Refused> {
        let mut told = sys::Told::default();
        // SAFETY: as in `event`.
        let bytes = bytes_of(|at, room, size| unsafe {
            sys::ibcw_reply(self.owned.handle(), index, &mut told, at, room, size)
        })?;
        Ok(match told.kind {
            0 => Err(u32::try_from(told.number).map_or(Refused::BadMessage, Refused::of)),
            _ => Ok(Effect::of(told, bytes)),
        })
    }

    fn entry(&self, index: u64) -> Result<Entry, Refused> {
        Ok(Entry {
            event: self.event(index)?,
            reply: self.reply(index)?,
        })
    }
}

impl Iterator for History<'_> {
    type Item = Result<Entry, Refused>;

    fn next(&mut self) -> Option<Self::Item> {
        if self.next == self.end {
            return None;
        }
        let entry = self.entry(self.next);
        self.next += 1;
        Some(entry)
    }

    fn size_hint(&self) -> (usize, Option<usize>) {
        let left = usize::try_from(self.end - self.next).unwrap_or(usize::MAX);
        (left, Some(left))
    }

    fn nth(&mut self, count: usize) -> Option<Self::Item> {
        self.next = self.end.min(self.next.saturating_add(count as u64));
        self.next()
    }
}

impl ExactSizeIterator for History<'_> {}
