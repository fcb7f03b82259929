//! What a journal keeps of a world, and the world that is made again of it.
use crate::owned::Owned;
use crate::{Genesis, Ledger, NotReplayed, Refused, World};
use ibcworld_sys as sys;

/// The room for the bytes of an answer: none has more.
const ANSWER: usize = 1029;

/// The room that an event is given first: most have no more bytes.
const EVENT: usize = 4096;

/// A digest of a journal: SHA-256 of the digest before and of an entry, so each tells of all before it.
pub type Digest = [u8; 32];

/// What a journal keeps of an entry of a ledger's history. Nothing is kept of two entries.
#[derive(Clone, Debug, PartialEq, Eq, Hash)]
pub struct Stored {
    /// The number of the chain, from 0 on.
    pub chain: u32,
    /// 0 the end of a block, 1 a message.
    pub kind: u32,
    /// The time of the next block in 8 bytes, or the bytes that spell the message.
    pub event: Vec<u8>,
    /// The reply, and behind it what an update of a client read.
    pub answer: Vec<u8>,
}

impl Stored {
    /// The digest of the entry behind one with this digest, or behind [`first_digest`]. The event came by this place of a log, or by none where
    /// that is 0.
    ///
    /// # Errors
    /// `NoMemory`.
    pub fn digest_behind(&self, before: &Digest, log_place: u32) -> Result<Digest, Refused> {
        let (mut digest, mut size) = ([0; 32], 0);
        // SAFETY: the pointers and lengths are those of slices.
        Refused::check(unsafe {
            sys::ibcw_next_digest(
                before.as_ptr(),
                before.len(),
                self.chain,
                self.kind,
                log_place,
                self.event.as_ptr(),
                self.event.len(),
                self.answer.as_ptr(),
                self.answer.len(),
                digest.as_mut_ptr(),
                digest.len(),
                &mut size,
            )
        })?;
        Ok(digest)
    }
}

/// The digest of a journal's beginning, of the genesis' text as the journal has it.
///
/// # Errors
/// None that is known: the digest has room, and needs no memory.
pub fn first_digest(genesis: &[u8]) -> Result<Digest, Refused> {
    let (mut digest, mut size) = ([0; 32], 0);
    // SAFETY: the pointers and lengths are those of slices.
    Refused::check(unsafe {
        sys::ibcw_first_digest(
            genesis.as_ptr(),
            genesis.len(),
            digest.as_mut_ptr(),
            digest.len(),
            &mut size,
        )
    })?;
    Ok(digest)
}

impl Ledger {
    /// What a journal keeps of the entry of the history at an index, from 0 on; or none where there is no such entry.
    ///
    /// # Errors
    /// `NoMemory`.
    pub fn stored(&self, index: u64) -> Result<Option<Stored>, Refused> {
        let (mut event, mut answer) = (vec![0; EVENT], vec![0; ANSWER]);
        loop {
            let mut numbers = sys::EntryNumbers::default();
            let (mut event_size, mut answer_size) = (0, 0);
            // SAFETY: the handle is the library's, and used by this call alone; the pointers and lengths are those of slices.
            let told = Refused::check(unsafe {
                sys::ibcw_stored(
                    self.owned.handle(),
                    index,
                    &mut numbers,
                    event.as_mut_ptr(),
                    event.len(),
                    &mut event_size,
                    answer.as_mut_ptr(),
                    answer.len(),
                    &mut answer_size,
                )
            });
            match told {
                Ok(()) => {
                    return Ok(Some(Stored {
                        chain: numbers.chain,
                        kind: numbers.kind,
                        event: event[..event_size].to_vec(),
                        answer: answer[..answer_size].to_vec(),
                    }));
                }
                Err(Refused::TooShort) => {
                    event.resize(event_size.max(event.len()), 0);
                    answer.resize(answer_size.max(answer.len()), 0);
                }
                Err(Refused::NothingThere) => return Ok(None),
                Err(refused) => return Err(refused),
            }
        }
    }
}

/// What a journal keeps of the ledgers of a world, entry by entry, in the order in which they came.
#[derive(Debug)]
pub struct Entries {
    owned: Owned,
}

impl Entries {
    /// A list with no entries.
    ///
    /// # Errors
    /// `NoMemory`.
    pub fn new() -> Result<Entries, Refused> {
        // SAFETY: the handle is empty, and used by this call alone.
        let owned = Owned::made(|at| unsafe { sys::ibcw_make_entries(at) })?;
        Ok(Entries { owned })
    }

    /// Adds the entry of which a journal keeps this, behind the others.
    ///
    /// # Errors
    /// `BadMessage` exactly where this is kept of no entry, `NoMemory`. Then the list is as it was.
    pub fn add(&mut self, stored: &Stored) -> Result<(), Refused> {
        // SAFETY: the handle is the library's, and used by this call alone; the pointers and lengths are those of slices.
        Refused::check(unsafe {
            sys::ibcw_add_entry(
                self.owned.handle(),
                stored.chain,
                stored.kind,
                stored.event.as_ptr(),
                stored.event.len(),
                stored.answer.as_ptr(),
                stored.answer.len(),
            )
        })
    }

    /// How many there are.
    ///
    /// # Errors
    /// None that is known: a list's length needs no memory.
    pub fn count(&self) -> Result<u64, Refused> {
        self.owned.length()
    }
}

impl World {
    /// The world of a genesis whose ledgers kept just these entries, in their order. They are asked again for each event, and each answer is
    /// compared. The library tells the world from every other of the process.
    ///
    /// ```
    /// use ibcworld::{CreateClient, Entries, Genesis, NotReplayed, World};
    /// let mut genesis = Genesis::new(64, 64)?;
    /// genesis.add_chain(100)?;
    /// genesis.add_chain(100)?;
    /// let mut world = genesis.world()?;
    /// let mut ledger = world.take()?.expect("two chains");
    /// ledger.apply(CreateClient { chain: 1 })?;
    /// let stored = ledger.stored(0)?.expect("an entry");
    ///
    /// let mut entries = Entries::new()?;
    /// entries.add(&stored)?;
    /// let mut again = World::replayed(&genesis, entries)?;
    /// let ledger = again.take()?.expect("two chains");
    /// assert_eq!(ledger.stored(0)?, Some(stored));
    /// # Ok::<(), NotReplayed>(())
    /// ```
    ///
    /// # Errors
    /// The first entry that isn't as it is due, or why no world is made: `BadMessage` where none begins so, `NoMemory`.
    pub fn replayed(genesis: &Genesis, entries: Entries) -> Result<World, NotReplayed> {
        let Entries { owned: list } = entries;
        let (mut place, mut due, mut size) = (0, [0; ANSWER], 0);
        // SAFETY: three handles of the library, each used by this call alone; the pointer and the length are those of a slice.
        let made = Owned::made(|at| unsafe {
            sys::ibcw_make_replayed(
                genesis.owned.handle(),
                list.handle(),
                at,
                &mut place,
                due.as_mut_ptr(),
                ANSWER,
                &mut size,
            )
        });
        match made {
            Ok(owned) => Ok(World { owned }),
            Err(Refused::OtherAnswer) => {
                let due = due[..size.min(ANSWER)].to_vec();
                Err(NotReplayed::OtherAnswer { place, due })
            }
            Err(Refused::UnknownChain) => Err(NotReplayed::NoChain { place }),
            Err(refused) => Err(NotReplayed::Refused(refused)),
        }
    }
}
