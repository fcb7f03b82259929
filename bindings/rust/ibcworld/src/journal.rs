//! Worlds that survive a crash.
use crate::history::Effect;
use crate::owned::Owned;
use crate::{Audit, Genesis, Ledger, Message, Refused};
use ibcworld_sys as sys;
use std::ffi::{CStr, CString};
use std::fmt;
use std::os::unix::ffi::OsStrExt;
use std::path::Path;
use std::ptr::{null, null_mut, NonNull};
use sys::journal as calls;

/// The room for the bytes of a reply: none has more.
const REPLY: usize = 1024;

macro_rules! faults {
    ($($name:ident = $number:literal, $text:literal;)*) => {
        /// Why a journal isn't opened, or goes no further, by the numbers of `ibcworld_journal.h`.
        #[derive(Clone, Copy, Debug, PartialEq, Eq, Hash)]
        #[non_exhaustive]
        pub enum FaultKind {
            /// A call of the library was refused.
            Refused(Refused),
            $(#[doc = $text] $name,)*
        }

        impl FaultKind {
            fn of(number: u32) -> FaultKind {
                match number {
                    $($number => FaultKind::$name,)*
                    other => FaultKind::Refused(Refused::of(other)),
                }
            }
        }
    };
}

faults! {
    NoFile = 201, "There is no such file, and no genesis is given.";
    New = 202, "The file has no table yet, and no genesis is given.";
    BadGenesis = 203, "No world begins with the genesis.";
    OtherGenesis = 204, "The journal began with another genesis, if only by a blank.";
    OtherFormat = 205, "The journal is of another format, whose number is told as the place.";
    NoJournal = 206, "The file has other tables, or is empty or gone beside its log.";
    Damaged = 207, "The digest of the entry at a place isn't the one that is due.";
    Gap = 208, "There is no entry at a place, and there are some behind it.";
    Early = 209, "There is an entry before place 0.";
    Beginnings = 210, "The journal hasn't one beginning.";
    NoEntry = 211, "What stands at a place is no event and answer.";
    OtherAnswer = 212, "The world answers otherwise than the entry at a place says.";
    Full = 213, "There would be 2^32 entries.";
    Held = 214, "Another process, or another journal of this one, has the file.";
    NoDatabase = 215, "The file is no database of sqlite3's.";
    Broken = 216, "The database is damaged.";
    NotOpened = 217, "The file can't be opened or made.";
    ReadOnly = 218, "The file can't be written.";
    DiskFull = 219, "There is no room on the disk.";
    Failed = 220, "Anything else of sqlite3, as an error of the disk.";
    Ended = 221, "A commit failed before.";
    Waits = 222, "The ledger has its entry, which waits for `commit`, since memory was refused.";
    OldPlace = 223, "The place of the log isn't above the last one that is kept.";
    NoOrder = 224, "In no order the entries have their answers.";
}

/// Why a journal isn't opened, or goes no further.
#[derive(Clone, Debug, PartialEq, Eq)]
pub struct JournalFault {
    /// What is wrong.
    pub kind: FaultKind,
    /// The place of the entry that the text names, the number of a format, or 0.
    pub place: i64,
    text: String,
}

impl JournalFault {
    fn of(fault: &calls::Fault) -> JournalFault {
        // SAFETY: a fault's text ends with 0.
        let text = unsafe { CStr::from_ptr(fault.text.as_ptr().cast()) };
        JournalFault {
            kind: FaultKind::of(fault.number),
            place: fault.place,
            text: text.to_string_lossy().into_owned(),
        }
    }

    fn new(kind: FaultKind, text: &str) -> JournalFault {
        JournalFault {
            kind,
            place: 0,
            text: text.into(),
        }
    }
}

impl fmt::Display for JournalFault {
    fn fmt(&self, f: &mut fmt::Formatter<'_>) -> fmt::Result {
        f.write_str(&self.text)
    }
}

impl std::error::Error for JournalFault {}

impl Genesis {
    /// A genesis from its text, as a journal takes it: a script with no steps, in JSON.
    ///
    /// # Errors
    /// `BadMessage` where the text is none, `NoMemory`. Whether a world begins so is for [`Genesis::world`] to say.
    pub fn read(text: &str) -> Result<Genesis, Refused> {
        // SAFETY: the handle is empty, and used by this call alone; the pointer and the length are those of a text.
        let owned =
            Owned::made(|at| unsafe { calls::ibcw_read_genesis(text.as_ptr(), text.len(), at) })?;
        Ok(Genesis { owned })
    }
}

/// How far a journal's file goes.
#[derive(Clone, Copy, Debug, PartialEq, Eq)]
pub struct JournalEnd {
    /// How many entries it has. The last stands at the place before. Keep that elsewhere too, since nothing tells that last entries are missing.
    pub entries: u64,
    /// The last place of a log that came with one, or 0.
    pub log_place: u32,
    /// The digest of the last entry, or of the beginning. It tells of all entries before it.
    pub digest: [u8; 32],
}

/// A world that survives a crash: its ledgers, and a file of `SQLite` that keeps what they were asked and what they answered. `ibcnode` of the library's
/// repository goes on with the same file, and audits it.
///
/// [`Journal::apply`] and [`Journal::end_block`] answer once the entry is on the disk. Or ask the [`Journal::ledgers`] by any calls, and then [`Journal::commit`] before
/// anything of it is told. A crash leaves all of a commit or nothing of it. Where a commit fails, the ledgers have what the file may lack: drop the
/// journal and open it again, which shows what happened. What waits for a commit when a journal is dropped isn't put in.
///
/// ```
/// use ibcworld::{CreateClient, Effect, Journal};
/// let genesis = r#"{"capacity": 64, "chains": [{"name": "a", "time": 100, "balances": []},
///     {"name": "b", "time": 100, "balances": []}], "steps": []}"#;
/// let file = std::env::temp_dir().join(format!("ibcworld-{}.db", std::process::id()));
///
/// let mut journal = Journal::open(&file, Some(genesis))?;
/// let client = journal.apply(0, CreateClient { chain: 1 })?;
/// assert_eq!(client, Ok(Effect::Client("inprocess-0".into())));
/// drop(journal);
///
/// let mut again = Journal::open(&file, None)?;
/// assert_eq!(again.end().entries, 1);
/// assert_eq!(again.ledgers()[0].history()?.len(), 1);
/// # drop(again);
/// # std::fs::remove_file(&file)?;
/// # Ok::<(), Box<dyn std::error::Error>>(())
/// ```
#[derive(Debug)]
pub struct Journal {
    raw: NonNull<calls::Journal>,
}

// SAFETY: `open` asks sqlite3 whether its connections may go from thread to thread; `Send` is proved of the library's handles. It isn't `Sync`.
unsafe impl Send for Journal {}

impl Journal {
    /// Opens the journal in a file, and makes its ledgers again: each digest and each answer is compared. Where the file isn't there or has no
    /// table, a world begins with the genesis: a script with no steps, in JSON. Where one is given, the journal has to have begun with it.
    ///
    /// # Errors
    /// The first fault, of which `ibcnode` says the same. A file that isn't taken stays as it was.
    pub fn open(file: impl AsRef<Path>, genesis: Option<&str>) -> Result<Journal, JournalFault> {
        // SAFETY: the call takes nothing.
        if unsafe { calls::sqlite3_threadsafe() } == 0 {
            return Err(JournalFault::new(
                FaultKind::Failed,
                "sqlite3 is for one thread alone",
            ));
        }
        let path = CString::new(file.as_ref().as_os_str().as_bytes()).map_err(|_| {
            JournalFault::new(FaultKind::NotOpened, "no file has a name with a zero")
        })?;
        let (text, size) = genesis.map_or((null(), 0), |it| (it.as_ptr(), it.len()));
        let mut raw = null_mut();
        let mut fault = calls::Fault {
            number: 0,
            place: 0,
            text: [0; 128],
        };
        // SAFETY: the path ends with 0; the text's pointer and length are those of a text, or null.
        let _told = unsafe {
            calls::ibcw_open_journal(path.as_ptr().cast(), text, size, &mut raw, &mut fault)
        };
        NonNull::new(raw).map_or_else(|| Err(JournalFault::of(&fault)), |raw| Ok(Journal { raw }))
    }

    fn answer(&self, number: u32) -> Result<(), JournalFault> {
        if number == 0 {
            return Ok(());
        }
        // SAFETY: the journal is one that was opened; the fault is its own, and copied.
        Err(JournalFault::of(unsafe {
            &*calls::ibcw_journal_fault(self.raw.as_ptr())
        }))
    }

    /// The ledgers, by the numbers of their chains. Ask them, and [`Journal::commit`] then. Each has to stay in its place.
    pub fn ledgers(&mut self) -> &mut [Ledger] {
        let mut count = 0;
        // SAFETY: the journal is one that was opened. A `Ledger` is a handle, in which the journal keeps a ledger until it is closed.
        unsafe {
            let first = calls::ibcw_journal_ledgers(self.raw.as_ptr(), &mut count);
            std::slice::from_raw_parts_mut(first.cast(), count)
        }
    }

    /// The ledger of a chain, to look at.
    #[must_use]
    pub fn ledger(&self, chain: usize) -> Option<&Ledger> {
        let mut count = 0;
        // SAFETY: as in `ledgers`.
        let ledgers: &[Ledger] = unsafe {
            let first = calls::ibcw_journal_ledgers(self.raw.as_ptr(), &mut count);
            std::slice::from_raw_parts(first.cast(), count)
        };
        ledgers.get(chain)
    }

    /// The text of the genesis, as the journal keeps it.
    #[must_use]
    pub fn genesis(&self) -> &str {
        let mut size = 0;
        // SAFETY: the journal is one that was opened; its text stays until it is closed.
        let text = unsafe {
            let first = calls::ibcw_journal_genesis(self.raw.as_ptr(), &mut size);
            std::slice::from_raw_parts(first, size)
        };
        std::str::from_utf8(text).unwrap_or_default()
    }

    /// How far the file goes.
    #[must_use]
    pub fn end(&self) -> JournalEnd {
        let mut told = calls::JournalEnd::default();
        // SAFETY: the journal is one that was opened.
        unsafe { calls::ibcw_journal_told(self.raw.as_ptr(), &mut told) };
        JournalEnd {
            entries: told.entries,
            log_place: told.log_place,
            digest: told.digest,
        }
    }

    /// Applies a message to the ledger of a chain, as [`Ledger::apply`], and answers once its entry is on the disk. What waited is put in with it.
    ///
    /// # Errors
    /// The inner one is the ledger's refusal, or `NothingThere` where there is no such chain. The outer one is the journal's: then no answer is told.
    pub fn apply(
        &mut self,
        chain: usize,
        message: impl Into<Message>,
    ) -> Result<Result<Effect, Refused>, JournalFault> {
        match message.into().encode() {
            Ok(bytes) => self.apply_bytes(chain, &bytes),
            Err(refused) => Ok(Err(refused)),
        }
    }

    /// Applies the message that the bytes spell, as [`Journal::apply`].
    ///
    /// # Errors
    /// As there; the inner one is `NoMessage` exactly where they spell none.
    pub fn apply_bytes(
        &mut self,
        chain: usize,
        message: &[u8],
    ) -> Result<Result<Effect, Refused>, JournalFault> {
        // SAFETY: the journal is one that was opened, and used by this call alone; the pointers and lengths are those of slices.
        self.replied(|raw, told, at, room, size| unsafe {
            calls::ibcw_apply_durably(
                raw,
                chain,
                message.as_ptr(),
                message.len(),
                told,
                at,
                room,
                size,
            )
        })
    }

    /// Ends the working block of a chain, as [`Ledger::end_block`], and answers once its entry is on the disk.
    ///
    /// # Errors
    /// As of [`Journal::apply`].
    pub fn end_block(
        &mut self,
        chain: usize,
        next_time: u64,
    ) -> Result<Result<Effect, Refused>, JournalFault> {
        // SAFETY: as in `apply_bytes`.
        self.replied(|raw, told, at, room, size| unsafe {
            calls::ibcw_end_block_durably(raw, chain, next_time, told, at, room, size)
        })
    }

    fn replied(
        &mut self,
        ask: impl FnOnce(*mut calls::Journal, *mut sys::Told, *mut u8, usize, *mut usize) -> u32,
    ) -> Result<Result<Effect, Refused>, JournalFault> {
        let (mut told, mut bytes, mut size) = (sys::Told::default(), [0; REPLY], 0);
        let number = ask(
            self.raw.as_ptr(),
            &mut told,
            bytes.as_mut_ptr(),
            REPLY,
            &mut size,
        );
        if number > 200 {
            self.answer(number)?;
        }
        Ok(Refused::check(number).map(|()| Effect::of(told, bytes[..size].to_vec())))
    }

    /// Puts in all entries that the ledgers have and the file hasn't, by one commit, and answers once they are on the disk.
    ///
    /// # Errors
    /// Why it isn't done. Where sqlite3 failed, the journal has ended.
    pub fn commit(&mut self) -> Result<(), JournalFault> {
        self.commit_by(0)
    }

    /// The same of events that came by this place of a log of the caller's, which is above those before it.
    ///
    /// # Errors
    /// As of [`Journal::commit`]; `OldPlace`.
    pub fn commit_by(&mut self, log_place: u32) -> Result<(), JournalFault> {
        // SAFETY: the journal is one that was opened, and used by this call alone.
        self.answer(unsafe { calls::ibcw_commit(self.raw.as_ptr(), log_place) })
    }

    /// What the ledgers hold, as [`crate::World::audit`], what waits among it.
    ///
    /// # Errors
    /// `NoMemory`; what is refused of ledgers that aren't in their places.
    pub fn audit(&mut self) -> Result<Audit, Refused> {
        // SAFETY: as in `commit_by`.
        let owned = Owned::made(|at| unsafe { calls::ibcw_audit_journal(self.raw.as_ptr(), at) })?;
        Ok(Audit { owned })
    }
}

impl Drop for Journal {
    fn drop(&mut self) {
        // SAFETY: the journal is one that was opened, and no longer used.
        unsafe { calls::ibcw_close_journal(self.raw.as_ptr()) };
    }
}
