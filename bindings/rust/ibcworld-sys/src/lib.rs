//! The calls of `libibcworld`, as `ibcworld.h` has them. Each says there what it answers, and what its caller owes: pointers to handles, numbers
//! and structs point to one, a pointer and a size name so many bytes, and a handle is used by one call at a time.
#![no_std]
#![deny(missing_docs)]
#![warn(clippy::pedantic)]
// (what a call says stands here in the words of the header, without marks)
#![allow(clippy::doc_markdown)]

#[cfg(feature = "journal")]
pub mod journal;

/// The version of the header for which this crate is written: 10,000 times the first number, 100 times the second, and the third.
pub const VERSION: u32 = 10_000;

/// A handle of any kind. It begins as a null pointer, and is written by calls alone.
#[repr(C)]
#[derive(Debug)]
pub struct Handle {
    /// Where the value lies, or null.
    pub at: *mut u8,
}

/// What a reply tells: its kind, and the number that goes with it.
#[repr(C)]
#[derive(Clone, Copy, Debug, Default)]
pub struct Told {
    /// 0 a refusal, 1 nothing, 2 a client, 3 a connection, 4 a channel, 5 a packet that was sent, 6 an acknowledgement, 7 a block.
    pub kind: u64,
    /// The number of the refusal, the sequence of the packet, or the height of the block.
    pub number: u64,
}

/// What a ledger was asked.
#[repr(C)]
#[derive(Clone, Copy, Debug, Default)]
pub struct Asked {
    /// The tag of a message, 1 to 19, or 0 for the end of a block.
    pub kind: u64,
    /// The time of the next block.
    pub next_time: u64,
    /// How many heights the other chain had published when an update of a client read that.
    pub published: u64,
}

/// An amount: `high` times 2^64, and `low`.
#[repr(C)]
#[derive(Clone, Copy, Debug, Default)]
pub struct Amount {
    /// The high half.
    pub high: u64,
    /// The low half.
    pub low: u64,
}

/// What a channel of port `transfer` has of a denomination.
#[repr(C)]
#[derive(Clone, Copy, Debug, Default)]
pub struct ChannelTotals {
    /// What its escrow account holds.
    pub escrow: Amount,
    /// Its vouchers on the peer's chain.
    pub vouchers: Amount,
    /// What is under way to the peer.
    pub out: Amount,
    /// What is under way back.
    pub back: Amount,
}

/// What a view tells of itself.
#[repr(C)]
#[derive(Clone, Copy, Debug, Default)]
pub struct Heights {
    /// The number of the chain.
    pub chain: u64,
    /// Its last committed height, 0 if there is none.
    pub height: u64,
    /// The time of that height.
    pub time: u64,
    /// The time of the working block.
    pub working_time: u64,
}

/// What a journal keeps of an entry beside its bytes.
#[repr(C)]
#[derive(Clone, Copy, Debug, Default)]
pub struct EntryNumbers {
    /// The number of the chain, from 0 on.
    pub chain: u32,
    /// 0 the end of a block, 1 a message.
    pub kind: u32,
}

/// The sequence and the timeouts of a packet. A timeout of 0 is none.
#[repr(C)]
#[derive(Clone, Copy, Debug, Default)]
pub struct PacketNumbers {
    /// The sequence, from 1 on.
    pub sequence: u64,
    /// The height of the other chain from which on it has timed out.
    pub timeout_height: u64,
    /// The time of the other chain from which on it has timed out.
    pub timeout_time: u64,
}

extern "C" {
    /// The version of the archive that is linked: [`VERSION`] of its header.
    pub fn ibcw_version() -> u32;
    /// Makes a genesis with no chains in an empty handle. A chain publishes at most `capacity` heights, 1 to
    /// 1,000,000: then ibcw_end_block answers IBCW_TABLE_FULL. A chain keeps the last `window` of them, 1 to 4,096
    /// and at most the capacity. ibcw_make_ledgers checks both. IBCW_FULL.
    pub fn ibcw_make_genesis(genesis: *mut Handle, capacity: u64, window: u64) -> u32;
    /// Adds a chain behind the others, whose first block has this time. IBCW_EMPTY, IBCW_OTHER_KIND.
    pub fn ibcw_add_chain(genesis: *mut Handle, time: u64) -> u32;
    /// Lets a user hold high * 2^64 + low of a denomination at the last chain. IBCW_EMPTY, IBCW_OTHER_KIND;
    /// IBCW_BAD_NAME exactly where the user or the denomination is no name of its kind; IBCW_NOTHING_THERE where
    /// there is no chain. What names may be stands in docs/SCRIPTS.md ("The forms of names").
    pub fn ibcw_add_balance(
        genesis: *mut Handle,
        user: *const u8,
        user_size: usize,
        denom: *const u8,
        denom_size: usize,
        high: u64,
        low: u64,
    ) -> u32;
    /// Makes all ledgers of a genesis in an empty handle: a world of its own, which the library tells from every
    /// other of the process. The genesis stays. IBCW_FULL; IBCW_EMPTY and IBCW_OTHER_KIND of the genesis;
    /// IBCW_BAD_MESSAGE where no world begins so. A world has 2 to 8 chains. Denominations are base ones. At a chain
    /// no user has one twice, and all users together have at most 2^128 - 1 of it.
    pub fn ibcw_make_ledgers(genesis: *mut Handle, ledgers: *mut Handle) -> u32;
    /// The same under a number by which the caller tells worlds apart, for bindings that count worlds themselves.
    /// Different worlds have different numbers, at least 2^63. Nothing checks that. What ibcw_make_ledgers gives out
    /// is smaller.
    pub fn ibcw_make_numbered_ledgers(
        genesis: *mut Handle,
        world: u64,
        ledgers: *mut Handle,
    ) -> u32;
    /// Moves the first of the ledgers, which stand by the numbers of their chains, to an empty handle. IBCW_FULL;
    /// IBCW_EMPTY and IBCW_OTHER_KIND of the ledgers; IBCW_NOTHING_THERE where all were taken.
    pub fn ibcw_take_ledger(ledgers: *mut Handle, ledger: *mut Handle) -> u32;
    /// Moves a ledger to others of its world. IBCW_EMPTY and IBCW_OTHER_KIND of both handles; IBCW_OTHER_WORLD
    /// where it is of another world.
    pub fn ibcw_join_ledger(ledgers: *mut Handle, ledger: *mut Handle) -> u32;
    /// Audits the ledgers of a world, and puts what they hold into an empty handle (ibcw_holding). Any threads may
    /// have driven them, and they may have joined in any order. The answer 0 says that what they did together is a
    /// run of the machine. The laws of IBC hold of it, unless two different texts that they hashed, or got in
    /// packets, have one digest. IBCW_FULL; IBCW_EMPTY and IBCW_OTHER_KIND of the ledgers; IBCW_BAD_MESSAGE where a
    /// chain is missing among them. The ledgers stay where they are, whatever the answer: they can be taken out again
    /// and go on, and be audited again.
    pub fn ibcw_make_audit(ledgers: *mut Handle, audit: *mut Handle) -> u32;
    /// Frees what a handle holds, and leaves it empty. IBCW_EMPTY.
    pub fn ibcw_free(handle: *mut Handle) -> u32;
    /// Tells how many entries a ledger's history has, messages a plan, holdings a list of balances, channels a list
    /// of notes, chains an audit, or entries a journal's list. For one chain of an audit there are ibcw_holding_count
    /// and ibcw_note_channel_count. IBCW_EMPTY, IBCW_OTHER_KIND.
    pub fn ibcw_length(handle: *mut Handle, count: *mut u64) -> u32;
    /// Applies the message that the bytes spell to the working block, and tells its reply. The answer is the reply's
    /// number: 0, or that of the refusal. The reply is told: its kind and its number as *told, and how many bytes it
    /// has as *size. They are written where there is room: IBCW_REPLY_ROOM is always enough, and ibcw_reply gives
    /// them again. The history has an entry more, whose reply this is. Where the answer is IBCW_EMPTY,
    /// IBCW_OTHER_KIND or IBCW_NO_MESSAGE nothing is told, and no entry is made. IBCW_NO_MESSAGE is answered exactly
    /// where the bytes spell no message. Where the answer is IBCW_NO_MEMORY no entry is made.
    pub fn ibcw_apply(
        ledger: *mut Handle,
        message: *const u8,
        message_size: usize,
        told: *mut Told,
        bytes: *mut u8,
        room: usize,
        size: *mut usize,
    ) -> u32;
    /// Ends the working block: it is committed as the next height and published, and the next block has this time.
    /// The reply is told as by ibcw_apply. The history has an entry more, but where the answer is IBCW_NO_MEMORY,
    /// IBCW_EMPTY or IBCW_OTHER_KIND. IBCW_TIME_BACK, IBCW_TABLE_FULL.
    pub fn ibcw_end_block(
        ledger: *mut Handle,
        next_time: u64,
        told: *mut Told,
        bytes: *mut u8,
        room: usize,
        size: *mut usize,
    ) -> u32;
    /// Tells the reply of an entry of the history, which are numbered from 0, and writes the bytes that go with it.
    /// IBCW_EMPTY, IBCW_OTHER_KIND, IBCW_NOTHING_THERE; IBCW_TOO_SHORT, and then *told and *size are told.
    pub fn ibcw_reply(
        ledger: *mut Handle,
        index: u64,
        told: *mut Told,
        bytes: *mut u8,
        room: usize,
        size: *mut usize,
    ) -> u32;
    /// Tells what the ledger was asked by an entry of its history, which are numbered from 0. Writes the bytes that
    /// spell the message: those that ibcw_apply was given. Of the end of a block there are none. IBCW_EMPTY,
    /// IBCW_OTHER_KIND, IBCW_NOTHING_THERE; IBCW_TOO_SHORT, and then *asked and *size are told.
    pub fn ibcw_event(
        ledger: *mut Handle,
        index: u64,
        asked: *mut Asked,
        message: *mut u8,
        room: usize,
        size: *mut usize,
    ) -> u32;
    /// Writes the value at the path of a key (ICS 24) in the working block. IBCW_EMPTY, IBCW_OTHER_KIND,
    /// IBCW_BAD_NAME where no key has the path, IBCW_NOTHING_THERE where the key has no value, IBCW_TOO_SHORT.
    pub fn ibcw_query(
        ledger: *mut Handle,
        path: *const u8,
        path_size: usize,
        value: *mut u8,
        room: usize,
        size: *mut usize,
    ) -> u32;
    /// Writes the bytes of the proof of what a committed height has at the path of a key (ICS 23). It shows presence
    /// where the key is there, and absence where it isn't. The reply of the block tells the height's root.
    /// IBCW_EMPTY, IBCW_OTHER_KIND; IBCW_BAD_NAME exactly where no key has the path. Then IBCW_NO_CONSENSUS exactly
    /// where the height isn't among the last ones that were committed, as many as the window says; IBCW_TOO_SHORT.
    pub fn ibcw_prove(
        ledger: *mut Handle,
        height: u64,
        path: *const u8,
        path_size: usize,
        proof: *mut u8,
        room: usize,
        size: *mut usize,
    ) -> u32;
    /// Tells what a user holds of a denomination in the working block. IBCW_EMPTY, IBCW_OTHER_KIND, IBCW_BAD_NAME
    /// exactly where one is no name of its kind.
    pub fn ibcw_balance(
        ledger: *mut Handle,
        user: *const u8,
        user_size: usize,
        denom: *const u8,
        denom_size: usize,
        amount: *mut Amount,
    ) -> u32;
    /// Tells what the escrow account of a channel of port transfer holds of a denomination (ICS 20). IBCW_EMPTY,
    /// IBCW_OTHER_KIND, IBCW_BAD_NAME exactly where one is no name of its kind.
    pub fn ibcw_escrow(
        ledger: *mut Handle,
        channel: *const u8,
        channel_size: usize,
        denom: *const u8,
        denom_size: usize,
        amount: *mut Amount,
    ) -> u32;
    /// Tells how much of a denomination all accounts hold, the escrow accounts among them. Of one that came over a
    /// channel it is no more than the escrow account of its other end holds. IBCW_EMPTY, IBCW_OTHER_KIND,
    /// IBCW_BAD_NAME exactly where denom is no name of a denomination.
    pub fn ibcw_supply(
        ledger: *mut Handle,
        denom: *const u8,
        denom_size: usize,
        amount: *mut Amount,
    ) -> u32;
    /// Tells the totals of a ledger's channel, by that ledger and the one of the peer's chain, as their working blocks
    /// have them. IBCW_EMPTY and IBCW_OTHER_KIND of either handle; IBCW_OTHER_WORLD where the ledgers are of two
    /// worlds; IBCW_BAD_NAME exactly where one is no name of its kind. Then the first that holds:
    /// IBCW_UNKNOWN_CHANNEL; IBCW_WRONG_STATE where the end is neither OPEN nor CLOSED; IBCW_BAD_MESSAGE where the
    /// denomination came over this end. Behind these IBCW_WRONG_PEER where the end's client tracks another chain, or
    /// the peer's end isn't there; IBCW_TOO_LARGE where a sum is more than 2^128 - 1.
    pub fn ibcw_totals(
        ledger: *mut Handle,
        peer: *mut Handle,
        channel: *const u8,
        channel_size: usize,
        denom: *const u8,
        denom_size: usize,
        totals: *mut ChannelTotals,
    ) -> u32;
    /// Writes the bytes of the packet that the ledger sent from an end of a channel under a sequence (ICS 4). Its
    /// commitment may stand or be gone. IBCW_EMPTY, IBCW_OTHER_KIND, IBCW_BAD_NAME exactly where the port or the
    /// channel is no name of its kind, IBCW_NOTHING_THERE where no such packet was sent, IBCW_TOO_SHORT.
    pub fn ibcw_packet(
        ledger: *mut Handle,
        port: *const u8,
        port_size: usize,
        channel: *const u8,
        channel_size: usize,
        sequence: u64,
        packet: *mut u8,
        room: usize,
        size: *mut usize,
    ) -> u32;
    /// Writes the acknowledgement that the ledger wrote at an end of a channel for a sequence (ICS 4). Refused as
    /// by ibcw_packet.
    pub fn ibcw_ack(
        ledger: *mut Handle,
        port: *const u8,
        port_size: usize,
        channel: *const u8,
        channel_size: usize,
        sequence: u64,
        ack: *mut u8,
        room: usize,
        size: *mut usize,
    ) -> u32;
    /// Makes the list of what accounts hold in the working block, in an empty handle. It has the amounts above 0, in
    /// the byte order of the accounts and then of the denominations. IBCW_FULL; IBCW_EMPTY, IBCW_OTHER_KIND of the
    /// ledger.
    pub fn ibcw_make_balances(ledger: *mut Handle, balances: *mut Handle) -> u32;
    /// Tells how many holdings there are. Of a list of balances the chain is not looked at. Of an audit they are
    /// those of that chain's accounts. IBCW_EMPTY, IBCW_OTHER_KIND; IBCW_UNKNOWN_CHAIN where the audit has no such
    /// chain.
    pub fn ibcw_holding_count(balances: *mut Handle, chain: u64, count: *mut u64) -> u32;
    /// Writes who holds what: the account (a user, or escrow/transfer/ and a channel), a blank, and the denomination.
    /// The handle is a list of balances or an audit. Of a list it is the holding at an index, from 0 on, and the
    /// chain is not looked at. Of an audit the index counts what that chain's accounts hold. IBCW_EMPTY,
    /// IBCW_OTHER_KIND, IBCW_UNKNOWN_CHAIN where the audit has no such chain, IBCW_NOTHING_THERE where there is no
    /// such holding, IBCW_TOO_SHORT.
    pub fn ibcw_holding(
        balances: *mut Handle,
        chain: u64,
        index: u64,
        text: *mut u8,
        room: usize,
        size: *mut usize,
    ) -> u32;
    /// Tells how much is held there. IBCW_EMPTY, IBCW_OTHER_KIND, IBCW_UNKNOWN_CHAIN, IBCW_NOTHING_THERE.
    pub fn ibcw_holding_amount(
        balances: *mut Handle,
        chain: u64,
        index: u64,
        amount: *mut Amount,
    ) -> u32;
    /// Makes the list of the notes that came to a ledger over channels of port note, in an empty handle. They are
    /// those of the working block. Its channels are those over which a note came, in the byte order of their names.
    /// Their number is told by ibcw_length. IBCW_FULL; IBCW_EMPTY, IBCW_OTHER_KIND of the ledger.
    pub fn ibcw_make_notes(ledger: *mut Handle, notes: *mut Handle) -> u32;
    /// Tells over how many channels notes came. Of a list of notes the chain is not looked at. Of an audit they are
    /// those of that chain. IBCW_EMPTY, IBCW_OTHER_KIND; IBCW_UNKNOWN_CHAIN where the audit has no such chain.
    pub fn ibcw_note_channel_count(notes: *mut Handle, chain: u64, count: *mut u64) -> u32;
    /// Writes the name of the channel at an index, from 0 on. Of a list of notes the chain is not looked at. Of an
    /// audit the index counts the channels of that chain. IBCW_EMPTY, IBCW_OTHER_KIND, IBCW_UNKNOWN_CHAIN where the
    /// audit has no such chain, IBCW_NOTHING_THERE, IBCW_TOO_SHORT.
    pub fn ibcw_note_channel(
        notes: *mut Handle,
        chain: u64,
        channel: u64,
        name: *mut u8,
        room: usize,
        size: *mut usize,
    ) -> u32;
    /// Tells how many notes came over that channel, 1 or more. IBCW_EMPTY, IBCW_OTHER_KIND, IBCW_UNKNOWN_CHAIN,
    /// IBCW_NOTHING_THERE.
    pub fn ibcw_note_count(notes: *mut Handle, chain: u64, channel: u64, count: *mut u64) -> u32;
    /// Writes the note at an index, from 0 on, of those that came over that channel, in the order in which they
    /// came. IBCW_EMPTY, IBCW_OTHER_KIND, IBCW_UNKNOWN_CHAIN, IBCW_NOTHING_THERE where there is no such channel or no
    /// such note, IBCW_TOO_SHORT.
    pub fn ibcw_note(
        notes: *mut Handle,
        chain: u64,
        channel: u64,
        index: u64,
        note: *mut u8,
        room: usize,
        size: *mut usize,
    ) -> u32;
    /// Makes the view of a ledger in an empty handle: what its chain proves at its last committed height. It stays
    /// as it is while the ledger goes on, and may be freed before or after it. IBCW_FULL; IBCW_EMPTY,
    /// IBCW_OTHER_KIND of the ledger.
    pub fn ibcw_make_view(ledger: *mut Handle, view: *mut Handle) -> u32;
    /// Puts the view of a handle into an empty handle too. Nothing is copied, and neither of the two is changed by
    /// what is done with the other. So each thread that reads a view takes a handle of its own. Each is freed by
    /// itself. IBCW_FULL; IBCW_EMPTY, IBCW_OTHER_KIND of the first.
    pub fn ibcw_share_view(view: *mut Handle, other: *mut Handle) -> u32;
    /// IBCW_EMPTY, IBCW_OTHER_KIND.
    pub fn ibcw_view_heights(view: *mut Handle, heights: *mut Heights) -> u32;
    /// Writes the root of a view's height, 32 bytes. IBCW_EMPTY, IBCW_OTHER_KIND, IBCW_NOTHING_THERE at height 0,
    /// IBCW_TOO_SHORT.
    pub fn ibcw_view_root(view: *mut Handle, root: *mut u8, room: usize, size: *mut usize) -> u32;
    /// Writes the bytes of the proof of what the height has at the path of a key (ICS 23). It shows presence where
    /// the key is there, and absence where it isn't. IBCW_EMPTY, IBCW_OTHER_KIND, IBCW_NOTHING_THERE at height 0,
    /// IBCW_BAD_NAME where no key has the path, IBCW_TOO_SHORT.
    pub fn ibcw_view_proof(
        view: *mut Handle,
        path: *const u8,
        path_size: usize,
        proof: *mut u8,
        room: usize,
        size: *mut usize,
    ) -> u32;
    /// Makes the plan of the messages that the chain of `to` is owed and that are proved from `from` (ICS 18), in
    /// an empty handle. `from` and `to` are different handles. IBCW_FULL; IBCW_EMPTY, IBCW_OTHER_KIND of the views.
    pub fn ibcw_make_plan(from: *mut Handle, to: *mut Handle, plan: *mut Handle) -> u32;
    /// Writes the bytes of a plan's message, which are numbered from 0 (ibcw_length). IBCW_EMPTY, IBCW_OTHER_KIND,
    /// IBCW_NOTHING_THERE, IBCW_TOO_SHORT; IBCW_BAD_MESSAGE where the message is too long for a spelling.
    pub fn ibcw_plan_message(
        plan: *mut Handle,
        index: u64,
        message: *mut u8,
        room: usize,
        size: *mut usize,
    ) -> u32;
    /// Tells what a journal keeps of an entry of the history, which are numbered from 0. Writes the bytes of the
    /// event, and those of the answer: the reply, and behind it what an update of a client read. IBCW_EMPTY,
    /// IBCW_OTHER_KIND, IBCW_NOTHING_THERE; IBCW_TOO_SHORT where one of the two places is too short. Then *numbers and
    /// both sizes are told, and the other place is written where it has room. IBCW_ANSWER_ROOM, 1,029, is always
    /// enough for the answer.
    pub fn ibcw_stored(
        ledger: *mut Handle,
        index: u64,
        numbers: *mut EntryNumbers,
        event: *mut u8,
        event_room: usize,
        event_size: *mut usize,
        answer: *mut u8,
        answer_room: usize,
        answer_size: *mut usize,
    ) -> u32;
    /// Makes a list with no entries in an empty handle. IBCW_FULL.
    pub fn ibcw_make_entries(entries: *mut Handle) -> u32;
    /// Adds the entry of which a journal keeps this, behind the others: the one of which ibcw_stored tells it.
    /// IBCW_EMPTY, IBCW_OTHER_KIND; IBCW_BAD_MESSAGE exactly where this is kept of no entry. Nothing is kept of two
    /// entries.
    pub fn ibcw_add_entry(
        entries: *mut Handle,
        chain: u32,
        kind: u32,
        event: *const u8,
        event_size: usize,
        answer: *const u8,
        answer_size: usize,
    ) -> u32;
    /// Makes all ledgers of a genesis in an empty handle, as they stand behind these entries: a world of its own, as by
    /// ibcw_make_ledgers. Its ledgers are asked again for each event, and each answer is compared with the stored one.
    /// Where the answer is 0, the entries are exactly what its ledgers keep, in their order. The genesis stays.
    /// IBCW_FULL of the ledgers; IBCW_EMPTY and IBCW_OTHER_KIND of the genesis, and then of the entries: then the
    /// entries stay. Whatever else is answered, their handle is empty then: so none is copied. IBCW_BAD_MESSAGE exactly
    /// where no world begins so. IBCW_OTHER_ANSWER where an entry has another answer than is due, and all before it
    /// have the one that is. *place counts it from 0, and what is due is told as ibcw_stored would: *size bytes, which
    /// are written where there is room. IBCW_ANSWER_ROOM is always enough. IBCW_UNKNOWN_CHAIN where it is an event for
    /// a chain that the genesis hasn't: then *place alone is told.
    pub fn ibcw_make_replayed(
        genesis: *mut Handle,
        entries: *mut Handle,
        ledgers: *mut Handle,
        place: *mut u64,
        due: *mut u8,
        room: usize,
        size: *mut usize,
    ) -> u32;
    /// The same under a number by which the caller tells worlds apart, as for ibcw_make_numbered_ledgers.
    pub fn ibcw_make_numbered_replayed(
        genesis: *mut Handle,
        world: u64,
        entries: *mut Handle,
        ledgers: *mut Handle,
        place: *mut u64,
        due: *mut u8,
        room: usize,
        size: *mut usize,
    ) -> u32;
    /// Writes the digest of a journal's beginning, 32 bytes: SHA-256 of the number of the format, which is 1, and of
    /// the genesis' text as the journal has it. IBCW_TOO_SHORT.
    pub fn ibcw_first_digest(
        genesis: *const u8,
        genesis_size: usize,
        digest: *mut u8,
        room: usize,
        size: *mut usize,
    ) -> u32;
    /// Writes the digest of an entry behind one with the digest `before`, or behind the beginning, 32 bytes. The event
    /// came by the place `log_place` of a log, or by none where that is 0. IBCW_BAD_MESSAGE exactly where `before`
    /// hasn't 32 bytes, IBCW_TOO_SHORT.
    pub fn ibcw_next_digest(
        before: *const u8,
        before_size: usize,
        chain: u32,
        kind: u32,
        log_place: u32,
        event: *const u8,
        event_size: usize,
        answer: *const u8,
        answer_size: usize,
        digest: *mut u8,
        room: usize,
        size: *mut usize,
    ) -> u32;
    /// Whether the bytes spell a proof that shows that the key has the value under the root (ICS 23). The answer is
    /// IBCW_BAD_MESSAGE where the root hasn't 32 bytes, or the bytes spell no proof. Else it is 0 where it does, and
    /// IBCW_BAD_PROOF where it doesn't. So 0 is yes: ibcw_is_present (ibcworld_messages.h) answers by a truth value.
    pub fn ibcw_verify_present(
        root: *const u8,
        root_size: usize,
        key: *const u8,
        key_size: usize,
        value: *const u8,
        value_size: usize,
        proof: *const u8,
        proof_size: usize,
    ) -> u32;
    /// Whether the bytes spell a proof that shows that the key isn't there under the root. Answers as
    /// ibcw_verify_present.
    pub fn ibcw_verify_absent(
        root: *const u8,
        root_size: usize,
        key: *const u8,
        key_size: usize,
        proof: *const u8,
        proof_size: usize,
    ) -> u32;
    /// Tells what the proof shows that the bytes spell: IBCW_PRESENT or IBCW_ABSENT. IBCW_BAD_MESSAGE where they
    /// spell no proof.
    pub fn ibcw_proof_kind(proof: *const u8, proof_size: usize, kind: *mut u8) -> u32;
    /// Writes the key, as its path, of which the proof speaks. IBCW_BAD_MESSAGE where the bytes spell no proof,
    /// IBCW_TOO_SHORT.
    pub fn ibcw_proof_key(
        proof: *const u8,
        proof_size: usize,
        key: *mut u8,
        room: usize,
        size: *mut usize,
    ) -> u32;
    /// Writes the value that the proof shows its key to have. IBCW_BAD_MESSAGE where the bytes spell no proof,
    /// IBCW_NOTHING_THERE where it shows that the key isn't there, IBCW_TOO_SHORT. What a proof says of itself is
    /// true under a root where ibcw_verify_present or ibcw_verify_absent answers 0 of that key and value.
    pub fn ibcw_proof_value(
        proof: *const u8,
        proof_size: usize,
        value: *mut u8,
        room: usize,
        size: *mut usize,
    ) -> u32;
    /// Writes the form of ICS 23 of the proof that the bytes spell. It is the canonical bytes of a
    /// cosmos.ics23.v1.CommitmentProof, with fields in order and none at its default. Leaves and inner nodes are
    /// those of ICS 23's Tendermint spec, so a Cosmos chain verifies it with its own library. IBCW_BAD_MESSAGE
    /// exactly where the bytes spell no proof, IBCW_TOO_SHORT.
    pub fn ibcw_proof_to_ics23(
        proof: *const u8,
        proof_size: usize,
        form: *mut u8,
        room: usize,
        size: *mut usize,
    ) -> u32;
    /// Writes the bytes of the one proof whose form these bytes are. IBCW_BAD_MESSAGE exactly where there is none. So
    /// it is for another hash, a batch, a field out of its order or at its default, and parts that are too long.
    /// IBCW_TOO_SHORT.
    pub fn ibcw_proof_of_ics23(
        form: *const u8,
        form_size: usize,
        proof: *mut u8,
        room: usize,
        size: *mut usize,
    ) -> u32;
    /// Tells the tag, 1 to 19, of the message that the bytes spell. IBCW_NO_MESSAGE where they spell none. How
    /// messages are spelled stands in docs/LIBRARY.md: a message has one spelling, and no bytes spell two messages. A
    /// ledger keeps each message that it refuses, whole, for ever. Who takes messages from strangers asks `screen` of
    /// the crate ibcworld first.
    pub fn ibcw_message_tag(message: *const u8, message_size: usize, tag: *mut u8) -> u32;
    /// Writes the proof at an index, 0 or 1, that the message carries which the bytes spell. Tells the height of the
    /// other chain at which it is. ConnOpenTry and ConnOpenAck carry that of the end and that of the client.
    /// TimeoutOnClose carries that of the packet and that of the closed channel. ConnOpenConfirm, ChanOpenTry,
    /// ChanOpenAck, ChanOpenConfirm, ChanCloseConfirm, RecvPacket, AckPacket and Timeout carry one. IBCW_NO_MESSAGE
    /// where the bytes spell no message, IBCW_NOTHING_THERE where it carries no such proof; IBCW_TOO_SHORT, and then
    /// *height and *size are told.
    pub fn ibcw_message_proof(
        message: *const u8,
        message_size: usize,
        index: u64,
        height: *mut u64,
        proof: *mut u8,
        room: usize,
        size: *mut usize,
    ) -> u32;
    /// Writes the bytes of the packet that the message carries which the bytes spell: of RecvPacket, AckPacket,
    /// Timeout and TimeoutOnClose. IBCW_NO_MESSAGE, IBCW_NOTHING_THERE where it carries none, IBCW_TOO_SHORT.
    pub fn ibcw_message_packet(
        message: *const u8,
        message_size: usize,
        packet: *mut u8,
        room: usize,
        size: *mut usize,
    ) -> u32;
    /// Writes the acknowledgement that an AckPacket carries. Refused as by ibcw_message_packet.
    pub fn ibcw_message_ack(
        message: *const u8,
        message_size: usize,
        ack: *mut u8,
        room: usize,
        size: *mut usize,
    ) -> u32;
    /// Tells them of the packet that the bytes spell. IBCW_BAD_MESSAGE where they spell none.
    pub fn ibcw_packet_numbers(
        packet: *const u8,
        packet_size: usize,
        numbers: *mut PacketNumbers,
    ) -> u32;
    /// Writes a part of the packet that the bytes spell. IBCW_BAD_MESSAGE where they spell none, IBCW_NOTHING_THERE
    /// for another part, IBCW_TOO_SHORT.
    pub fn ibcw_packet_part(
        packet: *const u8,
        packet_size: usize,
        part: u64,
        text: *mut u8,
        room: usize,
        size: *mut usize,
    ) -> u32;
    /// Writes a part of the data of a packet of tokens, as IBCW_DATA of a packet of port transfer has it (ICS 20):
    /// 1 the sender, 2 the receiver, 3 the memo, 4 the version of the channels over which the bytes spell it. It is
    /// exactly what a chain reads where such a packet comes. IBCW_NO_DATA exactly where the bytes spell no data of
    /// tokens, IBCW_NOTHING_THERE for another part, IBCW_TOO_SHORT. What data says is true of a chain where its ledger
    /// took the packet: look at the reply, and at the packet's ends.
    pub fn ibcw_data_part(
        data: *const u8,
        data_size: usize,
        part: u64,
        text: *mut u8,
        room: usize,
        size: *mut usize,
    ) -> u32;
    /// Tells how many tokens it has: 1 for ics20-1, 1 to 8 for ics20-own-2. IBCW_NO_DATA.
    pub fn ibcw_data_count(data: *const u8, data_size: usize, count: *mut u64) -> u32;
    /// Tells the amount of the token at an index, from 0 on, and writes its denomination, as the sending chain calls
    /// it. The receiving chain calls it without the sender's hop where the token comes home, and else with its own hop
    /// before it. IBCW_NO_DATA, IBCW_NOTHING_THERE where there is no such token; IBCW_TOO_SHORT, and then *amount and
    /// *size are told.
    pub fn ibcw_data_token(
        data: *const u8,
        data_size: usize,
        index: u64,
        amount: *mut Amount,
        denom: *mut u8,
        room: usize,
        size: *mut usize,
    ) -> u32;
}
