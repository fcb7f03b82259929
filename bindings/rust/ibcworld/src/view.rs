//! What ledgers prove, and what relayers owe.
use crate::history::root_of;
use crate::owned::{bytes_of, Owned};
use crate::{Message, Proof, Refused, Root};
use ibcworld_sys as sys;
use std::sync::{Arc, Mutex, MutexGuard, PoisonError};

/// The number of a view's chain, its last committed height (0 if there is none), and its times.
#[derive(Clone, Copy, Debug, PartialEq, Eq, Hash)]
pub struct Heights {
    /// The number of the chain.
    pub chain: u64,
    /// The last committed height, 0 if there is none.
    pub height: u64,
    /// The time of that height.
    pub time: u64,
    /// The time of the working block.
    pub working_time: u64,
}

/// What a chain proves at its last committed height. It stays as it is while the ledger goes on. Clones share one handle, under a lock that a read
/// holds for the time of a call. [`View::share`] makes another handle, for a thread that is to read without waiting for others.
#[derive(Clone, Debug)]
pub struct View {
    shared: Arc<Mutex<Owned>>,
}

impl From<Owned> for View {
    fn from(owned: Owned) -> View {
        View {
            shared: Arc::new(Mutex::new(owned)),
        }
    }
}

impl View {
    fn owned(&self) -> MutexGuard<'_, Owned> {
        self.shared.lock().unwrap_or_else(PoisonError::into_inner)
    }

    /// The same view behind a handle of its own: who reads by it waits for no other. Nothing is copied.
    ///
    /// # Errors
    /// `NoMemory`.
    pub fn share(&self) -> Result<View, Refused> {
        let owned = self.owned();
        // SAFETY: two handles of the library, each used by this call alone.
        Owned::made(|at| unsafe { sys::ibcw_share_view(owned.handle(), at) }).map(View::from)
    }

    /// The chain, the height and the times.
    ///
    /// # Errors
    /// None that is known.
    pub fn heights(&self) -> Result<Heights, Refused> {
        let mut told = sys::Heights::default();
        // SAFETY: the handle is the library's, and used by this call alone.
        Refused::check(unsafe { sys::ibcw_view_heights(self.owned().handle(), &mut told) })?;
        Ok(Heights {
            chain: told.chain,
            height: told.height,
            time: told.time,
            working_time: told.working_time,
        })
    }

    /// The root of the height.
    ///
    /// # Errors
    /// `NothingThere` at height 0, `NoMemory`.
    pub fn root(&self) -> Result<Root, Refused> {
        let owned = self.owned();
        // SAFETY: as in `heights`.
        let root = bytes_of(|at, room, size| unsafe {
            sys::ibcw_view_root(owned.handle(), at, room, size)
        })?;
        Ok(root_of(&root))
    }

    /// The proof of what the height has at the path of a key.
    ///
    /// # Errors
    /// `BadName` where no key has the path, `NothingThere` at height 0, `NoMemory`.
    pub fn proof(&self, path: &str) -> Result<Proof, Refused> {
        let owned = self.owned();
        // SAFETY: as in `heights`.
        bytes_of(|at, room, size| unsafe {
            sys::ibcw_view_proof(owned.handle(), path.as_ptr(), path.len(), at, room, size)
        })
        .map(Proof::from)
    }

    /// The messages that the chain of `to` is owed and that are proved from this view (ICS 18). A view owes nothing to its own chain.
    ///
    /// # Errors
    /// `NoMemory`.
    pub fn plan_for(&self, to: &View) -> Result<Plan, Refused> {
        if Arc::ptr_eq(&self.shared, &to.shared) {
            return Ok(Plan {
                owned: None,
                next: 0,
                end: 0,
            });
        }
        // (in one order everywhere, so that two threads don't wait for each other)
        let (here, there) = if Arc::as_ptr(&self.shared) < Arc::as_ptr(&to.shared) {
            let here = self.owned();
            (here, to.owned())
        } else {
            let there = to.owned();
            (self.owned(), there)
        };
        // SAFETY: three handles of the library, each used by this call alone.
        let owned =
            Owned::made(|at| unsafe { sys::ibcw_make_plan(here.handle(), there.handle(), at) })?;
        let end = owned.length()?;
        Ok(Plan {
            owned: Some(owned),
            next: 0,
            end,
        })
    }
}

/// The messages that a relayer owes a chain, one after another, as the bytes that [`Ledger::apply_bytes`](crate::Ledger::apply_bytes) takes.
#[derive(Debug)]
pub struct Plan {
    owned: Option<Owned>,
    next: u64,
    end: u64,
}

impl Plan {
    /// The messages with their fields.
    pub fn messages(self) -> impl Iterator<Item = Result<Message, Refused>> {
        self.map(|bytes| Message::try_from(bytes?.as_slice()))
    }
}

impl Iterator for Plan {
    type Item = Result<Vec<u8>, Refused>;

    fn next(&mut self) -> Option<Self::Item> {
        let owned = self.owned.as_ref().filter(|_| self.next < self.end)?;
        // SAFETY: the handle is the library's, and used by this call alone.
        let message = bytes_of(|at, room, size| unsafe {
            sys::ibcw_plan_message(owned.handle(), self.next, at, room, size)
        });
        self.next += 1;
        Some(message)
    }

    fn size_hint(&self) -> (usize, Option<usize>) {
        let left = usize::try_from(self.end - self.next).unwrap_or(usize::MAX);
        (left, Some(left))
    }
}

impl ExactSizeIterator for Plan {}
