//! Ledgers.
use crate::history::{Effect, History};
use crate::lists::{channel_notes, holding, ChannelNotes, Holding};
use crate::owned::{bytes_of, whole, Owned};
use crate::{Message, Packet, Proof, Refused, View};
use ibcworld_sys as sys;

/// The room for the bytes of a reply: none has more.
const REPLY: usize = 1024;

/// What a channel of port `transfer` has of a denomination (ICS 20).
#[derive(Clone, Copy, Debug, PartialEq, Eq, Hash)]
pub struct Totals {
    /// What its escrow account holds.
    pub escrow: u128,
    /// Its vouchers on the peer's chain.
    pub vouchers: u128,
    /// What is under way to the peer.
    pub out: u128,
    /// What is under way back.
    pub back: u128,
}

/// A chain that sees the others through published roots and proofs alone.
///
/// ```
/// use ibcworld::{CreateClient, Effect, Genesis, Refused};
/// let mut genesis = Genesis::new(64, 64)?;
/// genesis.add_chain(100)?;
/// genesis.add_chain(100)?;
/// let mut world = genesis.world()?;
/// let mut ledger = world.take()?.expect("two chains");
/// assert_eq!(ledger.apply(CreateClient { chain: 1 })?, Effect::Client("inprocess-0".into()));
/// assert_eq!(ledger.apply(CreateClient { chain: 0 }), Err(Refused::OwnChain));
/// assert_eq!(ledger.history()?.len(), 2);
/// # Ok::<(), Refused>(())
/// ```
#[derive(Debug)]
#[repr(transparent)]
pub struct Ledger {
    pub(crate) owned: Owned,
}

impl Ledger {
    /// Applies a message to the working block. The history has an entry more, whose reply this is.
    ///
    /// # Errors
    /// The refusal that is the reply. No entry is made where it is `NoMemory`, `NoMessage`, or `TooLarge` for a text of more than 65,535
    /// bytes.
    pub fn apply(&mut self, message: impl Into<Message>) -> Result<Effect, Refused> {
        self.apply_bytes(&message.into().encode()?)
    }

    /// Applies the message that the bytes spell, as [`Ledger::apply`].
    ///
    /// # Errors
    /// As there; `NoMessage` exactly where they spell none.
    pub fn apply_bytes(&mut self, message: &[u8]) -> Result<Effect, Refused> {
        // SAFETY: the handle is the library's, and used by this call alone; the pointers and lengths are those of slices.
        self.replied(|handle, told, at, room, size| unsafe {
            sys::ibcw_apply(
                handle,
                message.as_ptr(),
                message.len(),
                told,
                at,
                room,
                size,
            )
        })
    }

    /// Ends the working block. The next one has this time.
    ///
    /// # Errors
    /// `TimeBack`, `TableFull`, `NoMemory`.
    pub fn end_block(&mut self, next_time: u64) -> Result<Effect, Refused> {
        // SAFETY: as in `apply_bytes`.
        self.replied(|handle, told, at, room, size| unsafe {
            sys::ibcw_end_block(handle, next_time, told, at, room, size)
        })
    }

    fn replied(
        &mut self,
        ask: impl FnOnce(*mut sys::Handle, *mut sys::Told, *mut u8, usize, *mut usize) -> u32,
    ) -> Result<Effect, Refused> {
        let (mut told, mut bytes, mut size) = (sys::Told::default(), [0; REPLY], 0);
        Refused::check(ask(
            self.owned.handle(),
            &mut told,
            bytes.as_mut_ptr(),
            REPLY,
            &mut size,
        ))?;
        Ok(Effect::of(told, bytes[..size].to_vec()))
    }

    /// What the ledger was asked and answered, entry by entry.
    ///
    /// # Errors
    /// None that is known: a history's length needs no memory.
    pub fn history(&self) -> Result<History<'_>, Refused> {
        Ok(History {
            owned: &self.owned,
            next: 0,
            end: self.owned.length()?,
        })
    }

    /// The value at the path of a key in the working block, or none (ICS 24).
    ///
    /// # Errors
    /// `BadName` where no key has the path, `NoMemory`.
    pub fn query(&self, path: &str) -> Result<Option<Vec<u8>>, Refused> {
        // SAFETY: as in `apply_bytes`.
        there(bytes_of(|at, room, size| unsafe {
            sys::ibcw_query(
                self.owned.handle(),
                path.as_ptr(),
                path.len(),
                at,
                room,
                size,
            )
        }))
    }

    /// The proof of what a committed height has at the path of a key.
    ///
    /// # Errors
    /// `BadName` where no key has the path, `NoConsensus` where the height isn't among the last ones that were committed, as many as the
    /// window says, `NoMemory`.
    pub fn prove(&self, height: u64, path: &str) -> Result<Proof, Refused> {
        // SAFETY: as in `apply_bytes`.
        bytes_of(|at, room, size| unsafe {
            sys::ibcw_prove(
                self.owned.handle(),
                height,
                path.as_ptr(),
                path.len(),
                at,
                room,
                size,
            )
        })
        .map(Proof::from)
    }

    /// The packet that was sent from an end of a channel under a sequence, whether its commitment stands or not; or none (ICS 4).
    ///
    /// # Errors
    /// `BadName` where the port or the channel is no name of its kind, `NoMemory`.
    pub fn packet(
        &self,
        port: &str,
        channel: &str,
        sequence: u64,
    ) -> Result<Option<Packet>, Refused> {
        // SAFETY: as in `apply_bytes`.
        let found = there(bytes_of(|at, room, size| unsafe {
            sys::ibcw_packet(
                self.owned.handle(),
                port.as_ptr(),
                port.len(),
                channel.as_ptr(),
                channel.len(),
                sequence,
                at,
                room,
                size,
            )
        }))?;
        found
            .map(|bytes| Packet::try_from(bytes.as_slice()))
            .transpose()
    }

    /// The acknowledgement that was written at an end of a channel for a sequence, or none (ICS 4).
    ///
    /// # Errors
    /// As of [`Ledger::packet`].
    pub fn ack(
        &self,
        port: &str,
        channel: &str,
        sequence: u64,
    ) -> Result<Option<Vec<u8>>, Refused> {
        // SAFETY: as in `apply_bytes`.
        there(bytes_of(|at, room, size| unsafe {
            sys::ibcw_ack(
                self.owned.handle(),
                port.as_ptr(),
                port.len(),
                channel.as_ptr(),
                channel.len(),
                sequence,
                at,
                room,
                size,
            )
        }))
    }

    /// What a user holds of a denomination in the working block.
    ///
    /// # Errors
    /// `BadName` where one is no name of its kind, `NoMemory`.
    pub fn balance(&self, user: &str, denom: &str) -> Result<u128, Refused> {
        let mut amount = sys::Amount::default();
        // SAFETY: as in `apply_bytes`.
        Refused::check(unsafe {
            sys::ibcw_balance(
                self.owned.handle(),
                user.as_ptr(),
                user.len(),
                denom.as_ptr(),
                denom.len(),
                &mut amount,
            )
        })?;
        Ok(whole(&amount))
    }

    /// What the escrow account of a channel of port `transfer` holds of a denomination (ICS 20).
    ///
    /// # Errors
    /// `BadName` where one is no name of its kind, `NoMemory`.
    pub fn escrow(&self, channel: &str, denom: &str) -> Result<u128, Refused> {
        let mut amount = sys::Amount::default();
        // SAFETY: as in `apply_bytes`.
        Refused::check(unsafe {
            sys::ibcw_escrow(
                self.owned.handle(),
                channel.as_ptr(),
                channel.len(),
                denom.as_ptr(),
                denom.len(),
                &mut amount,
            )
        })?;
        Ok(whole(&amount))
    }

    /// How much of a denomination all accounts hold, the escrow accounts among them: of one that came over a channel, no more than the escrow
    /// account of its other end holds.
    ///
    /// # Errors
    /// `BadName` where it is no name of a denomination, `NoMemory`.
    pub fn supply(&self, denom: &str) -> Result<u128, Refused> {
        let mut amount = sys::Amount::default();
        // SAFETY: as in `apply_bytes`.
        Refused::check(unsafe {
            sys::ibcw_supply(
                self.owned.handle(),
                denom.as_ptr(),
                denom.len(),
                &mut amount,
            )
        })?;
        Ok(whole(&amount))
    }

    /// What a channel of port `transfer` has of a denomination, by this ledger and the one of the peer's chain, as their working blocks have them.
    ///
    /// # Errors
    /// `OtherWorld` where the ledgers are of two worlds, `BadName` where one is no name of its kind, `UnknownChannel`, `WrongState` where the end
    /// is neither OPEN nor CLOSED, `BadMessage` where the denomination came over this end, `WrongPeer` where the end's client tracks another chain
    /// than the peer's or the peer's end isn't there, `TooLarge` where a sum is more than 2^128 - 1, `NoMemory`. A ledger isn't its own peer:
    /// `WrongPeer` too.
    pub fn totals(&self, peer: &Ledger, channel: &str, denom: &str) -> Result<Totals, Refused> {
        if std::ptr::eq(self, peer) {
            return Err(Refused::WrongPeer);
        }
        let mut told = sys::ChannelTotals::default();
        // SAFETY: two handles of the library, each used by this call alone; the pointers and lengths are those of slices.
        Refused::check(unsafe {
            sys::ibcw_totals(
                self.owned.handle(),
                peer.owned.handle(),
                channel.as_ptr(),
                channel.len(),
                denom.as_ptr(),
                denom.len(),
                &mut told,
            )
        })?;
        Ok(Totals {
            escrow: whole(&told.escrow),
            vouchers: whole(&told.vouchers),
            out: whole(&told.out),
            back: whole(&told.back),
        })
    }

    /// What the accounts hold in the working block: the amounts above 0, by the byte order of the accounts and then of the denominations.
    ///
    /// # Errors
    /// `NoMemory`.
    pub fn balances(&self) -> Result<Vec<Holding>, Refused> {
        // SAFETY: two handles of the library, each used by this call alone.
        let list = Owned::made(|at| unsafe { sys::ibcw_make_balances(self.owned.handle(), at) })?;
        (0..list.length()?)
            .map(|index| holding(&list, 0, index))
            .collect()
    }

    /// The notes that came over channels of port `note`, as the working block has them.
    ///
    /// # Errors
    /// `NoMemory`.
    pub fn notes(&self) -> Result<Vec<ChannelNotes>, Refused> {
        // SAFETY: two handles of the library, each used by this call alone.
        let list = Owned::made(|at| unsafe { sys::ibcw_make_notes(self.owned.handle(), at) })?;
        (0..list.length()?)
            .map(|channel| channel_notes(&list, 0, channel))
            .collect()
    }

    /// What the chain proves at its last committed height.
    ///
    /// # Errors
    /// `NoMemory`.
    pub fn view(&self) -> Result<View, Refused> {
        // SAFETY: two handles of the library, each used by this call alone.
        Owned::made(|at| unsafe { sys::ibcw_make_view(self.owned.handle(), at) }).map(View::from)
    }
}

/// What was found, or none where there is nothing.
fn there(found: Result<Vec<u8>, Refused>) -> Result<Option<Vec<u8>>, Refused> {
    match found {
        Ok(bytes) => Ok(Some(bytes)),
        Err(Refused::NothingThere) => Ok(None),
        Err(refused) => Err(refused),
    }
}
