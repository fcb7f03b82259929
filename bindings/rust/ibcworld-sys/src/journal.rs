//! The calls of `libibcworld_journal`, as `ibcworld_journal.h` has them.
use crate::{Handle, Told};

/// A journal with its ledgers.
#[repr(C)]
#[derive(Debug)]
pub struct Journal {
    _private: [u8; 0],
}

/// A fault: its number, the place that its text names, and its text, which ends with 0.
#[repr(C)]
#[derive(Clone, Copy, Debug)]
pub struct Fault {
    /// 0 for none.
    pub number: u32,
    /// The place of an entry, the number of a format, or 0.
    pub place: i64,
    /// What is wrong.
    pub text: [u8; 128],
}

/// How far the file goes.
#[repr(C)]
#[derive(Clone, Copy, Debug, Default)]
pub struct JournalEnd {
    /// How many entries it has.
    pub entries: u64,
    /// The last place of a log that came with one, or 0.
    pub log_place: u32,
    /// The digest of the last entry, or of the beginning.
    pub digest: [u8; 32],
}

extern "C" {
    /// Makes a genesis in an empty handle from its text: a script with no steps, in JSON. IBCW_FULL; IBCW_BAD_MESSAGE
    /// where the text is none; IBCW_NO_MEMORY. Whether a world begins so is for ibcw_make_ledgers to say.
    pub fn ibcw_read_genesis(text: *const u8, size: usize, genesis: *mut Handle) -> u32;
    /// Opens the journal in a file, and makes its ledgers again. `file` ends with 0. A null pointer stands for no genesis.
    /// `*journal` is the new journal, or null where another number than 0 is answered.
    pub fn ibcw_open_journal(
        file: *const u8,
        genesis: *const u8,
        genesis_size: usize,
        journal: *mut *mut Journal,
        fault: *mut Fault,
    ) -> u32;
    /// The ledgers, by the numbers of their chains, and how many there are. They stay there until ibcw_close_journal.
    pub fn ibcw_journal_ledgers(journal: *mut Journal, count: *mut usize) -> *mut Handle;
    /// The text of the genesis, as the journal keeps it. It stays there until ibcw_close_journal.
    pub fn ibcw_journal_genesis(journal: *const Journal, size: *mut usize) -> *const u8;
    /// Tells how far the file goes.
    pub fn ibcw_journal_told(journal: *const Journal, end: *mut JournalEnd);
    /// Puts in all entries that the ledgers have and the file hasn't, by one commit.
    pub fn ibcw_commit(journal: *mut Journal, log_place: u32) -> u32;
    /// Applies a message to the ledger of a chain, puts its entry in, and only then tells the reply.
    pub fn ibcw_apply_durably(
        journal: *mut Journal,
        chain: usize,
        message: *const u8,
        message_size: usize,
        told: *mut Told,
        bytes: *mut u8,
        room: usize,
        size: *mut usize,
    ) -> u32;
    /// Ends the working block of a chain, and answers as ibcw_apply_durably.
    pub fn ibcw_end_block_durably(
        journal: *mut Journal,
        chain: usize,
        next_time: u64,
        told: *mut Told,
        bytes: *mut u8,
        room: usize,
        size: *mut usize,
    ) -> u32;
    /// The fault of the last call of this journal that was answered with one.
    pub fn ibcw_journal_fault(journal: *const Journal) -> *const Fault;
    /// Audits the ledgers, as ibcw_make_audit, what waits among it.
    pub fn ibcw_audit_journal(journal: *mut Journal, audit: *mut Handle) -> u32;
    /// Gives the file back, and frees the ledgers. What waits isn't put in. A null pointer is allowed.
    pub fn ibcw_close_journal(journal: *mut Journal);
    /// Of sqlite3: whether its connections may go from thread to thread.
    pub fn sqlite3_threadsafe() -> i32;
}
