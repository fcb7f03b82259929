//! A world that is made again of what its ledgers were asked.
use crate::{Effect, Entry, Event, Genesis, Ledger, Message, NotJoined, Refused, World};
use std::collections::VecDeque;
use std::fmt;

/// Why no world is made again of histories.
#[derive(Debug)]
#[non_exhaustive]
pub enum NotReplayed {
    /// A call of the library was refused: `BadMessage` where no world begins so, `NoMemory`.
    Refused(Refused),
    /// There are not as many histories as the genesis has chains.
    Chains,
    /// The entries of this chain before this index were answered as they are in its history, and this one otherwise.
    Otherwise {
        /// The number of the chain.
        chain: usize,
        /// The index of the entry.
        index: usize,
        /// What the chain answers now.
        due: Result<Effect, Refused>,
    },
    /// The histories are none of one world: each chain's next entry waits for one of another chain.
    NoOrder,
    /// What a journal keeps before this place, counted from 0, is as it is due, and at it another answer is.
    OtherAnswer {
        /// The place.
        place: u64,
        /// What a journal would keep of the answer that is due.
        due: Vec<u8>,
    },
    /// What a journal keeps before this place, counted from 0, is as it is due, and at it stands an event for a chain that the genesis
    /// doesn't have.
    NoChain {
        /// The place.
        place: u64,
    },
}

impl fmt::Display for NotReplayed {
    fn fmt(&self, f: &mut fmt::Formatter<'_>) -> fmt::Result {
        match self {
            NotReplayed::Refused(refused) => refused.fmt(f),
            NotReplayed::Chains => f.write_str("there are not as many histories as chains"),
            NotReplayed::Otherwise { chain, index, .. } => {
                write!(f, "entry {index} of chain {chain} is answered otherwise")
            }
            NotReplayed::NoOrder => f.write_str("the histories are none of one world"),
            NotReplayed::OtherAnswer { place, .. } => {
                write!(f, "another answer is due at place {place}")
            }
            NotReplayed::NoChain { place } => {
                write!(f, "there is no such chain at place {place}")
            }
        }
    }
}

impl std::error::Error for NotReplayed {}

impl From<Refused> for NotReplayed {
    fn from(refused: Refused) -> NotReplayed {
        NotReplayed::Refused(refused)
    }
}

impl From<NotJoined> for NotReplayed {
    fn from(not: NotJoined) -> NotReplayed {
        NotReplayed::Refused(not.refused)
    }
}

/// What an update of a client saw of another chain: how many heights that chain had published.
#[derive(Clone, Copy)]
struct Look {
    chain: usize,
    published: u64,
}

/// What an entry saw of another chain. An update that was refused before it looked saw nothing.
fn look_of(entry: &Entry) -> Result<Option<Look>, Refused> {
    let published = match entry.event {
        Event::Message { published, .. } => published,
        Event::Block { .. } => return Ok(None),
    };
    if published == 0 && entry.reply != Err(Refused::NotPublished) {
        return Ok(None);
    }
    Ok(match entry.event.message()? {
        Some(Message::UpdateClient(update)) => Some(Look {
            chain: usize::from(update.header.chain),
            published,
        }),
        _ => None,
    })
}

/// A ledger that is asked again.
struct Again<'a> {
    ledger: Ledger,
    entries: &'a [Entry],
    done: usize,
    published: u64,
    /// What each entry saw.
    looks: Vec<Option<Look>>,
    /// Of each chain, what the entries to come will see of it.
    to_come: Vec<VecDeque<u64>>,
}

impl<'a> Again<'a> {
    fn new(ledger: Ledger, entries: &'a [Entry], chains: usize) -> Result<Again<'a>, NotReplayed> {
        let looks = entries.iter().map(look_of).collect::<Result<Vec<_>, _>>()?;
        let mut to_come = vec![VecDeque::new(); chains];
        for look in looks.iter().flatten() {
            let of_chain = to_come.get_mut(look.chain).ok_or(NotReplayed::NoOrder)?;
            of_chain.push_back(look.published);
        }
        Ok(Again {
            ledger,
            entries,
            done: 0,
            published: 0,
            looks,
            to_come,
        })
    }

    /// Asks for the next entry's event, and compares the answer.
    fn step(&mut self, chain: usize) -> Result<(), NotReplayed> {
        let entry = &self.entries[self.done];
        let due = match &entry.event {
            Event::Message { bytes, .. } => self.ledger.apply_bytes(bytes),
            Event::Block { next_time } => self.ledger.end_block(*next_time),
        };
        if due == Err(Refused::NoMemory) {
            return Err(NotReplayed::Refused(Refused::NoMemory));
        }
        if due != entry.reply {
            let index = self.done;
            return Err(NotReplayed::Otherwise { chain, index, due });
        }
        if let Some(look) = self.looks[self.done] {
            self.to_come[look.chain].pop_front();
        }
        if matches!(due, Ok(Effect::Block { .. })) {
            self.published += 1;
        }
        self.done += 1;
        Ok(())
    }
}

/// Whether the next entry of a chain is due: an update once the other chain has published what it saw, and a block once each update has seen
/// what it sees before that block.
fn is_due(all: &[Again<'_>], chain: usize) -> bool {
    let it = &all[chain];
    match it.entries.get(it.done) {
        None => false,
        Some(entry) => match it.looks[it.done] {
            Some(look) => all[look.chain].published == look.published,
            None => {
                !matches!(entry.reply, Ok(Effect::Block { .. }))
                    || all
                        .iter()
                        .all(|other| other.to_come[chain].front() != Some(&it.published))
            }
        },
    }
}

/// Makes a world again of its genesis and of what each ledger was asked and answered, by the numbers of the chains. Each ledger is asked again for
/// its events in their order, and each answer is compared. The world has all its ledgers, with the same roots, and can be audited and go on.
///
/// Where threads drove the ledgers, leave out each update that was refused as `Pruned`. It changed nothing, and asked again it may be taken.
///
/// ```
/// use ibcworld::{open, replay, Entry, Genesis, Ledger, Opening, Refused};
/// fn history(ledger: &Ledger) -> Result<Vec<Entry>, Refused> {
///     ledger.history()?.collect()
/// }
///
/// let mut genesis = Genesis::new(64, 64)?;
/// genesis.add_chain(100)?;
/// genesis.add_chain(100)?;
/// let mut world = genesis.world()?;
/// let mut harbour = world.take()?.expect("two chains");
/// let mut island = world.take()?.expect("two chains");
/// open(&mut harbour, &mut island, &Opening::of_tokens(100))?;
///
/// let stored = [history(&harbour)?, history(&island)?];
/// let mut again = replay(&genesis, &stored)?;
/// let ledger = again.take()?.expect("two chains");
/// assert_eq!(history(&ledger)?, stored[0]);
/// # Ok::<(), ibcworld::NotReplayed>(())
/// ```
///
/// # Errors
/// The first answer that is another, or why no world is made.
pub fn replay(genesis: &Genesis, histories: &[Vec<Entry>]) -> Result<World, NotReplayed> {
    let mut world = genesis.world()?;
    let mut ledgers = Vec::with_capacity(histories.len());
    while let Some(ledger) = world.take()? {
        ledgers.push(ledger);
    }
    if ledgers.len() != histories.len() {
        return Err(NotReplayed::Chains);
    }
    let mut all = ledgers
        .into_iter()
        .zip(histories)
        .map(|(ledger, entries)| Again::new(ledger, entries, histories.len()))
        .collect::<Result<Vec<_>, _>>()?;
    let mut is_going = true;
    while is_going {
        is_going = false;
        for chain in 0..all.len() {
            while is_due(&all, chain) {
                all[chain].step(chain)?;
                is_going = true;
            }
        }
    }
    if all.iter().any(|it| it.done < it.entries.len()) {
        return Err(NotReplayed::NoOrder);
    }
    for it in all {
        world.join(it.ledger)?;
    }
    Ok(world)
}
