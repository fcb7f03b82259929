/* The core as a static library, libibcworld.a, by calls whose answers are proved. How to build and link it, and what is proved of a call, stands in
   docs/LIBRARY.md. Beside this header ibcworld_messages.h spells messages and reads them, says what numbers mean, and has helpers that open channels
   and relay.

   First calls. Say how a world begins: ibcw_make_genesis, ibcw_add_chain for each chain, and ibcw_add_balance for what users hold there. Make the world by
   ibcw_make_ledgers, and take out the ledger of one chain after another by ibcw_take_ledger. Three calls of ibcworld_messages.h go on: ibcw_open makes a
   channel, ibcw_send sends a message, and ibcw_relay ends blocks and brings packets. Times are plain numbers, in a unit of the caller's.

   Answers. Each call answers 0, or the number of why it was refused. Numbers from 1 to 31 are those of the core (IBCW_NO_MEMORY and the numbers behind
   it), and those from 101 on are of calls alone. Where several are due, it is the first that the call's comment names; of those of two handles, that of
   the first handle. What is refused changes nothing, but where a call says so. Any call may answer IBCW_NO_MEMORY, since malloc may.

   Handles. A handle holds one value of its kind, or nothing. It begins as IBCW_HANDLE_INIT (or all bytes 0), which holds nothing. Only these calls write
   it. The caller owns it, and what it holds, until ibcw_free. A handle that is copied by `=` is the same value twice: use one of the two from then on. The
   handles of one call are different ones. Calls that take handles of several kinds take the member `handle` that each of them has:
   ibcw_free(&view.handle).

   Threads. A handle is used by one call at a time, also where the call only reads: it writes the handle while it works. So no call takes a const handle. A
   handle may go from thread to thread where that is ordered, as by a lock or by a thread's start and end. Different threads may use different handles at
   the same time. Ledgers of one world meet in a table that any threads share, and handles of one view share it (ibcw_share_view). No call takes a lock or
   waits.

   Bytes. A text goes in as a pointer and a number of bytes. A null pointer is allowed where that number is 0. Bytes come out in a place of the caller's,
   with `room` bytes. Then *size is their number, also where the place is too short (IBCW_TOO_SHORT), and the rest of the place stays. So a call with room
   0 asks how much room is needed. Two calls are no such question, and never answer IBCW_TOO_SHORT: ibcw_apply and ibcw_end_block do what they are asked,
   whatever the room.

   What the caller owes, and nothing checks. Pointers to handles, numbers and structs are not null and point to one of their
   type. A pointer and a number of bytes name so many bytes that are there. A place to write is not read or written by another
   thread meanwhile, and places of one call do not overlap. A handle was begun as IBCW_HANDLE_INIT and written by these calls alone.
   malloc, realloc and free are one allocator's. No call is made from a signal handler, nor from the forked child of a process
   with threads. Worlds are told apart by the library, but for those of ibcw_make_numbered_ledgers. */
#ifndef IBCWORLD_H
#define IBCWORLD_H

#include <stddef.h>
#include <stdint.h>

/* The version of this header: 10,000 times its first number, 100 times the second, and the third. Numbers of refusals, structs and
   calls stay as they are where the first number does. */
#define IBCWORLD_VERSION 10000
#define IBCWORLD_VERSION_TEXT "1.0.0"

#if defined(__GNUC__) || defined(__clang__)
/* An answer that is dropped is warned of, and so is a null pointer where a handle, a number or a struct is wanted. */
#define IBCW_MUST_USE __attribute__((warn_unused_result))
#define IBCW_NONNULL(...) __attribute__((nonnull(__VA_ARGS__)))
#else
#define IBCW_MUST_USE
#define IBCW_NONNULL(...)
#endif

#if defined(__cplusplus) && __cplusplus >= 201103L
#define IBCW_HANDLE_INIT {{nullptr}}
#else
#define IBCW_HANDLE_INIT {{NULL}}
#endif

#ifdef __cplusplus
extern "C" {
#endif

/* A handle of any kind. */
typedef struct {
    unsigned char *at;
} ibcw_handle;

typedef struct { ibcw_handle handle; } ibcw_genesis;  /* how a world begins */
typedef struct { ibcw_handle handle; } ibcw_ledgers;  /* ledgers of one world */
typedef struct { ibcw_handle handle; } ibcw_ledger;   /* a ledger */
typedef struct { ibcw_handle handle; } ibcw_view;     /* what a chain proves at its last committed height */
typedef struct { ibcw_handle handle; } ibcw_plan;     /* the messages that a relayer owes a chain */
typedef struct { ibcw_handle handle; } ibcw_balances; /* who holds how much of what */
typedef struct { ibcw_handle handle; } ibcw_notes;    /* the notes that came over each channel */
typedef struct { ibcw_handle handle; } ibcw_audit;    /* what the ledgers of a world hold */
typedef struct { ibcw_handle handle; } ibcw_entries;  /* what a journal keeps of a world, entry by entry */

enum {
    IBCW_DONE = 0,
    /* the core's refusals: 1 to 31, as in the table of docs/REFUSALS.md; ibcw_refusal_text (ibcworld_messages.h) says each in a sentence */
    IBCW_NO_MEMORY = 1,
    IBCW_BAD_NAME = 2,
    IBCW_UNKNOWN_CHAIN = 3,
    IBCW_OWN_CHAIN = 4,
    IBCW_UNKNOWN_CLIENT = 5,
    IBCW_NOT_PUBLISHED = 6,
    IBCW_WRONG_HEADER = 7,
    IBCW_UNKNOWN_CONNECTION = 8,
    IBCW_WRONG_STATE = 9,
    IBCW_WRONG_PEER = 10,
    IBCW_NO_CONSENSUS = 11,
    IBCW_BAD_PROOF = 12,
    IBCW_WRONG_SELF_CLIENT = 13,
    IBCW_UNKNOWN_PORT = 14,
    IBCW_UNKNOWN_CHANNEL = 15,
    IBCW_WRONG_ORDER = 16,
    IBCW_WRONG_VERSION = 17,
    IBCW_NO_TIMEOUT = 18,
    IBCW_TIMEOUT_PASSED = 19,
    IBCW_ALREADY_RECEIVED = 20,
    IBCW_OUT_OF_ORDER = 21,
    IBCW_NO_COMMITMENT = 22,
    IBCW_NOT_TIMED_OUT = 23,
    IBCW_TOO_LARGE = 24,
    IBCW_POOR = 25,
    IBCW_CLOSE_REFUSED = 26,
    IBCW_TIME_BACK = 27,
    IBCW_TABLE_FULL = 28,
    IBCW_NUMBER_FULL = 29,
    IBCW_BAD_MESSAGE = 30,
    IBCW_PRUNED = 31,
    /* the refusals of calls */
    IBCW_EMPTY = 101,         /* the handle holds nothing */
    IBCW_FULL = 102,          /* the handle holds something already */
    IBCW_OTHER_KIND = 103,    /* the handle holds a value of another kind */
    IBCW_TOO_SHORT = 104,     /* the place is too short for the bytes */
    IBCW_NOTHING_THERE = 105, /* there is nothing there */
    IBCW_OTHER_WORLD = 106,   /* the ledger is of another world */
    IBCW_NO_MESSAGE = 107,    /* the bytes spell no message */
    IBCW_NO_DATA = 108,       /* the bytes spell no data of tokens */
    IBCW_OTHER_ANSWER = 109   /* another answer is due than the stored one */
};

/* The version of the archive that is linked: IBCWORLD_VERSION of its header. */
IBCW_MUST_USE
uint32_t ibcw_version(void);

/* ---- a world */

/* Makes a genesis with no chains in an empty handle. A chain publishes at most `capacity` heights, 1 to 1,000,000: then ibcw_end_block answers
   IBCW_TABLE_FULL. A chain keeps the last `window` of them, 1 to 4,096 and at most the capacity. ibcw_make_ledgers checks both. IBCW_FULL. */
IBCW_MUST_USE IBCW_NONNULL(1)
uint32_t ibcw_make_genesis(ibcw_genesis *genesis, uint64_t capacity, uint64_t window);

/* Adds a chain behind the others, whose first block has this time. IBCW_EMPTY, IBCW_OTHER_KIND. */
IBCW_MUST_USE IBCW_NONNULL(1)
uint32_t ibcw_add_chain(ibcw_genesis *genesis, uint64_t time);

/* Lets a user hold high * 2^64 + low of a denomination at the last chain. IBCW_EMPTY, IBCW_OTHER_KIND;
   IBCW_BAD_NAME exactly where the user or the denomination is no name of its kind; IBCW_NOTHING_THERE where there is no chain. What names may be
   stands in docs/SCRIPTS.md ("The forms of names"). */
IBCW_MUST_USE IBCW_NONNULL(1)
uint32_t ibcw_add_balance(ibcw_genesis *genesis, const uint8_t *user, size_t user_size,
                          const uint8_t *denom, size_t denom_size, uint64_t high, uint64_t low);

/* Makes all ledgers of a genesis in an empty handle: a world of its own, which the library tells from every other of the process. The genesis
   stays. IBCW_FULL; IBCW_EMPTY and IBCW_OTHER_KIND of the genesis; IBCW_BAD_MESSAGE where no world begins so. A world has 2 to 8 chains. Denominations
   are base ones. At a chain no user has one twice, and all users together have at most 2^128 - 1 of it. */
IBCW_MUST_USE IBCW_NONNULL(1, 2)
uint32_t ibcw_make_ledgers(ibcw_genesis *genesis, ibcw_ledgers *ledgers);

/* The same under a number by which the caller tells worlds apart, for bindings that count worlds themselves. Different worlds have
   different numbers, at least 2^63. Nothing checks that. What ibcw_make_ledgers gives out is smaller. */
IBCW_MUST_USE IBCW_NONNULL(1, 3)
uint32_t ibcw_make_numbered_ledgers(ibcw_genesis *genesis, uint64_t world, ibcw_ledgers *ledgers);

/* Moves the first of the ledgers, which stand by the numbers of their chains, to an empty handle. IBCW_FULL; IBCW_EMPTY and
   IBCW_OTHER_KIND of the ledgers; IBCW_NOTHING_THERE where all were taken. */
IBCW_MUST_USE IBCW_NONNULL(1, 2)
uint32_t ibcw_take_ledger(ibcw_ledgers *ledgers, ibcw_ledger *ledger);

/* Moves a ledger to others of its world. IBCW_EMPTY and IBCW_OTHER_KIND of both handles; IBCW_OTHER_WORLD where it is of another world. */
IBCW_MUST_USE IBCW_NONNULL(1, 2)
uint32_t ibcw_join_ledger(ibcw_ledgers *ledgers, ibcw_ledger *ledger);

/* Audits the ledgers of a world, and puts what they hold into an empty handle (ibcw_holding). Any threads may have driven them, and they may have
   joined in any order. The answer 0 says that what they did together is a run of the machine. The laws of IBC hold of it, unless two different
   texts that they hashed, or got in packets, have one digest. IBCW_FULL; IBCW_EMPTY and IBCW_OTHER_KIND of the ledgers;
   IBCW_BAD_MESSAGE where a chain is missing among them. The ledgers stay where they are, whatever the answer: they can be taken out
   again and go on, and be audited again. */
IBCW_MUST_USE IBCW_NONNULL(1, 2)
uint32_t ibcw_make_audit(ibcw_ledgers *ledgers, ibcw_audit *audit);

/* Frees what a handle holds, and leaves it empty. IBCW_EMPTY. */
IBCW_NONNULL(1)
uint32_t ibcw_free(ibcw_handle *handle);

/* Tells how many entries a ledger's history has, messages a plan, holdings a list of balances, channels a list of notes, chains an audit, or entries a
   journal's list. For one chain of an audit there are ibcw_holding_count and ibcw_note_channel_count. IBCW_EMPTY, IBCW_OTHER_KIND. */
IBCW_MUST_USE IBCW_NONNULL(1, 2)
uint32_t ibcw_length(ibcw_handle *handle, uint64_t *count);

/* ---- a ledger */

/* What a reply tells: its kind, and the number that goes with it. */
typedef struct {
    uint64_t kind;
    uint64_t number;
} ibcw_told;

enum {
    IBCW_TOLD_REFUSAL = 0,    /* number: that of the refusal */
    IBCW_TOLD_NOTHING = 1,
    IBCW_TOLD_CLIENT = 2,     /* bytes: the name of the new client */
    IBCW_TOLD_CONNECTION = 3, /* bytes: the name of the new connection */
    IBCW_TOLD_CHANNEL = 4,    /* bytes: the name of the new channel */
    IBCW_TOLD_SENT = 5,       /* number: the sequence of the packet */
    IBCW_TOLD_ACK = 6,        /* bytes: the acknowledgement, 1 to 1,024 bytes */
    IBCW_TOLD_BLOCK = 7       /* number: the height; bytes: its root, 32 bytes */
};

enum {
    IBCW_REPLY_ROOM = 1024 /* no reply has more bytes */
};

/* Applies the message that the bytes spell to the working block, and tells its reply. The answer is the reply's number: 0, or that of the
   refusal. The reply is told: its kind and its number as *told, and how many bytes it has as *size. They are written where there is room: IBCW_REPLY_ROOM
   is always enough, and ibcw_reply gives them again. The history has an entry more, whose reply this is. Where the answer is IBCW_EMPTY, IBCW_OTHER_KIND or
   IBCW_NO_MESSAGE nothing is told, and no entry is made. IBCW_NO_MESSAGE is answered exactly where the bytes spell no message. Where the answer is
   IBCW_NO_MEMORY no entry is made. */
IBCW_MUST_USE IBCW_NONNULL(1, 4, 7)
uint32_t ibcw_apply(ibcw_ledger *ledger, const uint8_t *message, size_t message_size, ibcw_told *told,
                    uint8_t *bytes, size_t room, size_t *size);

/* Ends the working block: it is committed as the next height and published, and the next block has this time. The reply is told as by ibcw_apply.
   The history has an entry more, but where the answer is IBCW_NO_MEMORY, IBCW_EMPTY or IBCW_OTHER_KIND. IBCW_TIME_BACK, IBCW_TABLE_FULL. */
IBCW_MUST_USE IBCW_NONNULL(1, 3, 6)
uint32_t ibcw_end_block(ibcw_ledger *ledger, uint64_t next_time, ibcw_told *told, uint8_t *bytes, size_t room,
                        size_t *size);

/* Tells the reply of an entry of the history, which are numbered from 0, and writes the bytes that go with it. IBCW_EMPTY,
   IBCW_OTHER_KIND, IBCW_NOTHING_THERE; IBCW_TOO_SHORT, and then *told and *size are told. */
IBCW_MUST_USE IBCW_NONNULL(1, 3, 6)
uint32_t ibcw_reply(ibcw_ledger *ledger, uint64_t index, ibcw_told *told, uint8_t *bytes, size_t room,
                    size_t *size);

/* What a ledger was asked. The kind is the tag of a message, 1 to 19, or IBCW_ASKED_BLOCK for the end of a block. The time is that of the next block, and
   0 of a message. Of an UpdateClient, `published` is how many heights the client's chain had published when the ledger read that. Of all else, and
   where nothing was read, it is 0. Who keeps the entries of all ledgers of a world can make the world again: docs/LIBRARY.md says how. */
typedef struct {
    uint64_t kind;
    uint64_t next_time;
    uint64_t published;
} ibcw_asked;

enum {
    IBCW_ASKED_BLOCK = 0
};

/* Tells what the ledger was asked by an entry of its history, which are numbered from 0. Writes the bytes that spell the message: those that
   ibcw_apply was given. Of the end of a block there are none. IBCW_EMPTY, IBCW_OTHER_KIND, IBCW_NOTHING_THERE;
   IBCW_TOO_SHORT, and then *asked and *size are told. */
IBCW_MUST_USE IBCW_NONNULL(1, 3, 6)
uint32_t ibcw_event(ibcw_ledger *ledger, uint64_t index, ibcw_asked *asked, uint8_t *message, size_t room,
                    size_t *size);

/* Writes the value at the path of a key (ICS 24) in the working block. IBCW_EMPTY, IBCW_OTHER_KIND, IBCW_BAD_NAME where no key
   has the path, IBCW_NOTHING_THERE where the key has no value, IBCW_TOO_SHORT. */
IBCW_MUST_USE IBCW_NONNULL(1, 6)
uint32_t ibcw_query(ibcw_ledger *ledger, const uint8_t *path, size_t path_size, uint8_t *value,
                    size_t room, size_t *size);

/* Writes the bytes of the proof of what a committed height has at the path of a key (ICS 23). It shows presence where the key is there, and absence
   where it isn't. The reply of the block tells the height's root. IBCW_EMPTY, IBCW_OTHER_KIND; IBCW_BAD_NAME exactly where no key has the path. Then
   IBCW_NO_CONSENSUS exactly where the height isn't among the last ones that were committed, as many as the window says; IBCW_TOO_SHORT. */
IBCW_MUST_USE IBCW_NONNULL(1, 7)
uint32_t ibcw_prove(ibcw_ledger *ledger, uint64_t height, const uint8_t *path, size_t path_size, uint8_t *proof,
                    size_t room, size_t *size);

/* high * 2^64 + low */
typedef struct {
    uint64_t high;
    uint64_t low;
} ibcw_amount;

/* Tells what a user holds of a denomination in the working block. IBCW_EMPTY, IBCW_OTHER_KIND, IBCW_BAD_NAME exactly where one
   is no name of its kind. */
IBCW_MUST_USE IBCW_NONNULL(1, 6)
uint32_t ibcw_balance(ibcw_ledger *ledger, const uint8_t *user, size_t user_size, const uint8_t *denom,
                      size_t denom_size, ibcw_amount *amount);

/* Tells what the escrow account of a channel of port transfer holds of a denomination (ICS 20). IBCW_EMPTY, IBCW_OTHER_KIND, IBCW_BAD_NAME exactly
   where one is no name of its kind. */
IBCW_MUST_USE IBCW_NONNULL(1, 6)
uint32_t ibcw_escrow(ibcw_ledger *ledger, const uint8_t *channel, size_t channel_size, const uint8_t *denom,
                     size_t denom_size, ibcw_amount *amount);

/* Tells how much of a denomination all accounts hold, the escrow accounts among them. Of one that came over a channel it is no more than the escrow account
   of its other end holds. IBCW_EMPTY, IBCW_OTHER_KIND, IBCW_BAD_NAME exactly where denom is no name of a denomination. */
IBCW_MUST_USE IBCW_NONNULL(1, 4)
uint32_t ibcw_supply(ibcw_ledger *ledger, const uint8_t *denom, size_t denom_size, ibcw_amount *amount);

/* What a channel of port transfer has of a denomination (ICS 20): escrow, vouchers at the peer, and amounts under way there and back. */
typedef struct {
    ibcw_amount escrow;
    ibcw_amount vouchers;
    ibcw_amount out;
    ibcw_amount back;
} ibcw_channel_totals;

/* Tells the totals of a ledger's channel, by that ledger and the one of the peer's chain, as their working blocks have them. IBCW_EMPTY and IBCW_OTHER_KIND of
   either handle; IBCW_OTHER_WORLD where the ledgers are of two worlds; IBCW_BAD_NAME exactly where one is no name of its kind. Then the first that holds:
   IBCW_UNKNOWN_CHANNEL; IBCW_WRONG_STATE where the end is neither OPEN nor CLOSED; IBCW_BAD_MESSAGE where the denomination came over this end. Behind
   these IBCW_WRONG_PEER where the end's client tracks another chain, or the peer's end isn't there; IBCW_TOO_LARGE where a sum is more than 2^128 - 1. */
IBCW_MUST_USE IBCW_NONNULL(1, 2, 7)
uint32_t ibcw_totals(ibcw_ledger *ledger, ibcw_ledger *peer, const uint8_t *channel, size_t channel_size,
                     const uint8_t *denom, size_t denom_size, ibcw_channel_totals *totals);

/* Writes the bytes of the packet that the ledger sent from an end of a channel under a sequence (ICS 4). Its commitment may stand or be gone.
   IBCW_EMPTY, IBCW_OTHER_KIND, IBCW_BAD_NAME exactly where the port or the channel is no name of its kind, IBCW_NOTHING_THERE where no such
   packet was sent, IBCW_TOO_SHORT. */
IBCW_MUST_USE IBCW_NONNULL(1, 9)
uint32_t ibcw_packet(ibcw_ledger *ledger, const uint8_t *port, size_t port_size, const uint8_t *channel,
                     size_t channel_size, uint64_t sequence, uint8_t *packet, size_t room, size_t *size);

/* Writes the acknowledgement that the ledger wrote at an end of a channel for a sequence (ICS 4). Refused as by ibcw_packet. */
IBCW_MUST_USE IBCW_NONNULL(1, 9)
uint32_t ibcw_ack(ibcw_ledger *ledger, const uint8_t *port, size_t port_size, const uint8_t *channel,
                  size_t channel_size, uint64_t sequence, uint8_t *ack, size_t room, size_t *size);

/* Makes the list of what accounts hold in the working block, in an empty handle. It has the amounts above 0, in the byte order of the
   accounts and then of the denominations. IBCW_FULL; IBCW_EMPTY, IBCW_OTHER_KIND of the ledger. */
IBCW_MUST_USE IBCW_NONNULL(1, 2)
uint32_t ibcw_make_balances(ibcw_ledger *ledger, ibcw_balances *balances);

/* Tells how many holdings there are. Of a list of balances the chain is not looked at. Of an audit they are those of that chain's accounts.
   IBCW_EMPTY, IBCW_OTHER_KIND; IBCW_UNKNOWN_CHAIN where the audit has no such chain. */
IBCW_MUST_USE IBCW_NONNULL(1, 3)
uint32_t ibcw_holding_count(ibcw_handle *balances, uint64_t chain, uint64_t *count);

/* Writes who holds what: the account (a user, or escrow/transfer/ and a channel), a blank, and the denomination. The handle is a list of balances or an
   audit. Of a list it is the holding at an index, from 0 on, and the chain is not looked at. Of an audit the index counts what that chain's accounts
   hold. IBCW_EMPTY, IBCW_OTHER_KIND, IBCW_UNKNOWN_CHAIN where the audit has no such chain, IBCW_NOTHING_THERE where there is no such holding,
   IBCW_TOO_SHORT. */
IBCW_MUST_USE IBCW_NONNULL(1, 6)
uint32_t ibcw_holding(ibcw_handle *balances, uint64_t chain, uint64_t index, uint8_t *text, size_t room,
                      size_t *size);

/* Tells how much is held there. IBCW_EMPTY, IBCW_OTHER_KIND, IBCW_UNKNOWN_CHAIN, IBCW_NOTHING_THERE. */
IBCW_MUST_USE IBCW_NONNULL(1, 4)
uint32_t ibcw_holding_amount(ibcw_handle *balances, uint64_t chain, uint64_t index, ibcw_amount *amount);

/* Makes the list of the notes that came to a ledger over channels of port note, in an empty handle. They are those of the working block. Its channels are
   those over which a note came, in the byte order of their names. Their number is told by ibcw_length.
   IBCW_FULL; IBCW_EMPTY, IBCW_OTHER_KIND of the ledger. */
IBCW_MUST_USE IBCW_NONNULL(1, 2)
uint32_t ibcw_make_notes(ibcw_ledger *ledger, ibcw_notes *notes);

/* Tells over how many channels notes came. Of a list of notes the chain is not looked at. Of an audit they are those of that chain. IBCW_EMPTY,
   IBCW_OTHER_KIND; IBCW_UNKNOWN_CHAIN where the audit has no such chain. */
IBCW_MUST_USE IBCW_NONNULL(1, 3)
uint32_t ibcw_note_channel_count(ibcw_handle *notes, uint64_t chain, uint64_t *count);

/* Writes the name of the channel at an index, from 0 on. Of a list of notes the chain is not looked at. Of an audit the index counts the channels of
   that chain. IBCW_EMPTY, IBCW_OTHER_KIND, IBCW_UNKNOWN_CHAIN where the audit has no such chain, IBCW_NOTHING_THERE, IBCW_TOO_SHORT. */
IBCW_MUST_USE IBCW_NONNULL(1, 6)
uint32_t ibcw_note_channel(ibcw_handle *notes, uint64_t chain, uint64_t channel, uint8_t *name, size_t room,
                           size_t *size);

/* Tells how many notes came over that channel, 1 or more. IBCW_EMPTY, IBCW_OTHER_KIND, IBCW_UNKNOWN_CHAIN, IBCW_NOTHING_THERE. */
IBCW_MUST_USE IBCW_NONNULL(1, 4)
uint32_t ibcw_note_count(ibcw_handle *notes, uint64_t chain, uint64_t channel, uint64_t *count);

/* Writes the note at an index, from 0 on, of those that came over that channel, in the order in which they came. IBCW_EMPTY,
   IBCW_OTHER_KIND, IBCW_UNKNOWN_CHAIN, IBCW_NOTHING_THERE where there is no such channel or no such note, IBCW_TOO_SHORT. */
IBCW_MUST_USE IBCW_NONNULL(1, 7)
uint32_t ibcw_note(ibcw_handle *notes, uint64_t chain, uint64_t channel, uint64_t index, uint8_t *note,
                   size_t room, size_t *size);

/* ---- views and plans */

/* Makes the view of a ledger in an empty handle: what its chain proves at its last committed height. It stays as it is while
   the ledger goes on, and may be freed before or after it. IBCW_FULL; IBCW_EMPTY, IBCW_OTHER_KIND of the ledger. */
IBCW_MUST_USE IBCW_NONNULL(1, 2)
uint32_t ibcw_make_view(ibcw_ledger *ledger, ibcw_view *view);

/* Puts the view of a handle into an empty handle too. Nothing is copied, and neither of the two is changed by what is done with the other. So each
   thread that reads a view takes a handle of its own. Each is freed by itself. IBCW_FULL; IBCW_EMPTY, IBCW_OTHER_KIND of the first. */
IBCW_MUST_USE IBCW_NONNULL(1, 2)
uint32_t ibcw_share_view(ibcw_view *view, ibcw_view *other);

/* A view's chain by its number, its last committed height (0 if none), and the times of that height and of the working block. */
typedef struct {
    uint64_t chain;
    uint64_t height;
    uint64_t time;
    uint64_t working_time;
} ibcw_heights;

/* IBCW_EMPTY, IBCW_OTHER_KIND. */
IBCW_MUST_USE IBCW_NONNULL(1, 2)
uint32_t ibcw_view_heights(ibcw_view *view, ibcw_heights *heights);

/* Writes the root of a view's height, 32 bytes. IBCW_EMPTY, IBCW_OTHER_KIND, IBCW_NOTHING_THERE at height 0, IBCW_TOO_SHORT. */
IBCW_MUST_USE IBCW_NONNULL(1, 4)
uint32_t ibcw_view_root(ibcw_view *view, uint8_t *root, size_t room, size_t *size);

/* Writes the bytes of the proof of what the height has at the path of a key (ICS 23). It shows presence where the key is there, and absence where it
   isn't. IBCW_EMPTY, IBCW_OTHER_KIND, IBCW_NOTHING_THERE at height 0, IBCW_BAD_NAME where no key has the path, IBCW_TOO_SHORT. */
IBCW_MUST_USE IBCW_NONNULL(1, 6)
uint32_t ibcw_view_proof(ibcw_view *view, const uint8_t *path, size_t path_size, uint8_t *proof,
                         size_t room, size_t *size);

/* Makes the plan of the messages that the chain of `to` is owed and that are proved from `from` (ICS 18), in an empty handle.
   `from` and `to` are different handles. IBCW_FULL; IBCW_EMPTY, IBCW_OTHER_KIND of the views. */
IBCW_MUST_USE IBCW_NONNULL(1, 2, 3)
uint32_t ibcw_make_plan(ibcw_view *from, ibcw_view *to, ibcw_plan *plan);

/* Writes the bytes of a plan's message, which are numbered from 0 (ibcw_length). IBCW_EMPTY, IBCW_OTHER_KIND,
   IBCW_NOTHING_THERE, IBCW_TOO_SHORT; IBCW_BAD_MESSAGE where the message is too long for a spelling. */
IBCW_MUST_USE IBCW_NONNULL(1, 5)
uint32_t ibcw_plan_message(ibcw_plan *plan, uint64_t index, uint8_t *message, size_t room, size_t *size);

/* ---- journals */

/* A journal keeps the entries of all ledgers of a world, in the order in which they came. Who has them and the genesis has the world: ibcw_stored tells
   what is kept, and ibcw_make_replayed makes the ledgers again. These calls open no file. The file's form stands in crates/ibc_journal/JOURNAL.md. */
typedef struct {
    uint32_t chain; /* the number of the chain, from 0 on */
    uint32_t kind;  /* IBCW_STORED_BLOCK or IBCW_STORED_MESSAGE */
} ibcw_entry_numbers;

enum {
    IBCW_STORED_BLOCK = 0,  /* the end of a block. The event is the time of the next one, 8 bytes */
    IBCW_STORED_MESSAGE = 1 /* a message. The event is the bytes that spell it */
};

enum {
    IBCW_ANSWER_ROOM = 1029, /* no answer has more bytes */
    IBCW_DIGEST_SIZE = 32    /* a digest has so many bytes */
};

/* Tells what a journal keeps of an entry of the history, which are numbered from 0. Writes the bytes of the event, and those of the answer: the reply, and
   behind it what an update of a client read. IBCW_EMPTY, IBCW_OTHER_KIND, IBCW_NOTHING_THERE; IBCW_TOO_SHORT where one of the two places is too short.
   Then *numbers and both sizes are told, and the other place is written where it has room. IBCW_ANSWER_ROOM is always enough for the answer. */
IBCW_MUST_USE IBCW_NONNULL(1, 3, 6, 9)
uint32_t ibcw_stored(ibcw_ledger *ledger, uint64_t index, ibcw_entry_numbers *numbers, uint8_t *event,
                     size_t event_room, size_t *event_size, uint8_t *answer, size_t answer_room,
                     size_t *answer_size);

/* Makes a list with no entries in an empty handle. IBCW_FULL. */
IBCW_MUST_USE IBCW_NONNULL(1)
uint32_t ibcw_make_entries(ibcw_entries *entries);

/* Adds the entry of which a journal keeps this, behind the others: the one of which ibcw_stored tells it. IBCW_EMPTY, IBCW_OTHER_KIND;
   IBCW_BAD_MESSAGE exactly where this is kept of no entry. Nothing is kept of two entries. */
IBCW_MUST_USE IBCW_NONNULL(1)
uint32_t ibcw_add_entry(ibcw_entries *entries, uint32_t chain, uint32_t kind, const uint8_t *event, size_t event_size,
                        const uint8_t *answer, size_t answer_size);

/* Makes all ledgers of a genesis in an empty handle, as they stand behind these entries: a world of its own, as by ibcw_make_ledgers. Its ledgers are asked
   again for each event, and each answer is compared with the stored one. Where the answer is 0, the entries are exactly what its ledgers keep, in
   their order. The genesis stays. IBCW_FULL of the ledgers; IBCW_EMPTY and IBCW_OTHER_KIND of the genesis, and then of the entries: then the entries
   stay. Whatever else is answered, their handle is empty then: so none is copied. IBCW_BAD_MESSAGE exactly where no world begins so. IBCW_OTHER_ANSWER
   where an entry has another answer than is due, and all before it have the one that is. *place counts it from 0, and what is due is told as
   ibcw_stored would: *size bytes, which are written where there is room. IBCW_ANSWER_ROOM is always enough. IBCW_UNKNOWN_CHAIN where it is an event for a
   chain that the genesis hasn't: then *place alone is told. */
IBCW_MUST_USE IBCW_NONNULL(1, 2, 3, 4, 7)
uint32_t ibcw_make_replayed(ibcw_genesis *genesis, ibcw_entries *entries, ibcw_ledgers *ledgers, uint64_t *place,
                            uint8_t *due, size_t room, size_t *size);

/* The same under a number by which the caller tells worlds apart, as for ibcw_make_numbered_ledgers. */
IBCW_MUST_USE IBCW_NONNULL(1, 3, 4, 5, 8)
uint32_t ibcw_make_numbered_replayed(ibcw_genesis *genesis, uint64_t world, ibcw_entries *entries,
                                     ibcw_ledgers *ledgers, uint64_t *place, uint8_t *due, size_t room,
                                     size_t *size);

/* Writes the digest of a journal's beginning, 32 bytes: SHA-256 of the number of the format, which is 1, and of the genesis' text as the journal has it.
   IBCW_TOO_SHORT. */
IBCW_MUST_USE IBCW_NONNULL(5)
uint32_t ibcw_first_digest(const uint8_t *genesis, size_t genesis_size, uint8_t *digest, size_t room, size_t *size);

/* Writes the digest of an entry behind one with the digest `before`, or behind the beginning, 32 bytes. The event came by the place `log_place` of a
   log, or by none where that is 0. IBCW_BAD_MESSAGE exactly where `before` hasn't 32 bytes, IBCW_TOO_SHORT. */
IBCW_MUST_USE IBCW_NONNULL(12)
uint32_t ibcw_next_digest(const uint8_t *before, size_t before_size, uint32_t chain, uint32_t kind, uint32_t log_place,
                          const uint8_t *event, size_t event_size, const uint8_t *answer, size_t answer_size,
                          uint8_t *digest, size_t room, size_t *size);

/* ---- proofs, messages and packets, with no ledger */

/* Whether the bytes spell a proof that shows that the key has the value under the root (ICS 23). The answer is IBCW_BAD_MESSAGE where the root hasn't 32
   bytes, or the bytes spell no proof. Else it is 0 where it does, and IBCW_BAD_PROOF where it doesn't. So 0 is yes: ibcw_is_present (ibcworld_messages.h)
   answers by a truth value. */
IBCW_MUST_USE
uint32_t ibcw_verify_present(const uint8_t *root, size_t root_size, const uint8_t *key, size_t key_size,
                             const uint8_t *value, size_t value_size, const uint8_t *proof,
                             size_t proof_size);

/* Whether the bytes spell a proof that shows that the key isn't there under the root. Answers as ibcw_verify_present. */
IBCW_MUST_USE
uint32_t ibcw_verify_absent(const uint8_t *root, size_t root_size, const uint8_t *key, size_t key_size,
                            const uint8_t *proof, size_t proof_size);

enum {
    IBCW_PRESENT = 1, /* a key has a value */
    IBCW_ABSENT = 2   /* a key isn't there */
};

/* Tells what the proof shows that the bytes spell: IBCW_PRESENT or IBCW_ABSENT. IBCW_BAD_MESSAGE where they spell no proof. */
IBCW_MUST_USE IBCW_NONNULL(3)
uint32_t ibcw_proof_kind(const uint8_t *proof, size_t proof_size, uint8_t *kind);

/* Writes the key, as its path, of which the proof speaks. IBCW_BAD_MESSAGE where the bytes spell no proof, IBCW_TOO_SHORT. */
IBCW_MUST_USE IBCW_NONNULL(5)
uint32_t ibcw_proof_key(const uint8_t *proof, size_t proof_size, uint8_t *key, size_t room, size_t *size);

/* Writes the value that the proof shows its key to have. IBCW_BAD_MESSAGE where the bytes spell no proof, IBCW_NOTHING_THERE
   where it shows that the key isn't there, IBCW_TOO_SHORT. What a proof says of itself is true under a root where
   ibcw_verify_present or ibcw_verify_absent answers 0 of that key and value. */
IBCW_MUST_USE IBCW_NONNULL(5)
uint32_t ibcw_proof_value(const uint8_t *proof, size_t proof_size, uint8_t *value, size_t room, size_t *size);

/* Writes the form of ICS 23 of the proof that the bytes spell. It is the canonical bytes of a cosmos.ics23.v1.CommitmentProof, with fields in order and
   none at its default. Leaves and inner nodes are those of ICS 23's Tendermint spec, so a Cosmos chain verifies it with its own library.
   IBCW_BAD_MESSAGE exactly where the bytes spell no proof, IBCW_TOO_SHORT. */
IBCW_MUST_USE IBCW_NONNULL(5)
uint32_t ibcw_proof_to_ics23(const uint8_t *proof, size_t proof_size, uint8_t *form, size_t room, size_t *size);

/* Writes the bytes of the one proof whose form these bytes are. IBCW_BAD_MESSAGE exactly where there is none. So it is for another hash, a batch, a
   field out of its order or at its default, and parts that are too long. IBCW_TOO_SHORT. */
IBCW_MUST_USE IBCW_NONNULL(5)
uint32_t ibcw_proof_of_ics23(const uint8_t *form, size_t form_size, uint8_t *proof, size_t room, size_t *size);

/* Tells the tag, 1 to 19, of the message that the bytes spell. IBCW_NO_MESSAGE where they spell none. How messages are spelled
   stands in docs/LIBRARY.md: a message has one spelling, and no bytes spell two messages. A ledger keeps each message that it refuses, whole,
   for ever. Who takes messages from strangers asks ibcw_screen_message (ibcworld_messages.h) first. */
IBCW_MUST_USE IBCW_NONNULL(3)
uint32_t ibcw_message_tag(const uint8_t *message, size_t message_size, uint8_t *tag);

enum {
    IBCW_LONGEST_PROOF = 18835 /* bytes that are more spell no proof */
};

/* Writes the proof at an index, 0 or 1, that the message carries which the bytes spell. Tells the height of the other chain at which it is.
   ConnOpenTry and ConnOpenAck carry that of the end and that of the client. TimeoutOnClose carries that of the packet and that of the closed channel.
   ConnOpenConfirm, ChanOpenTry, ChanOpenAck, ChanOpenConfirm, ChanCloseConfirm, RecvPacket, AckPacket and Timeout carry one. IBCW_NO_MESSAGE where the
   bytes spell no message, IBCW_NOTHING_THERE where it carries no such proof; IBCW_TOO_SHORT, and then *height and *size are told. */
IBCW_MUST_USE IBCW_NONNULL(4, 7)
uint32_t ibcw_message_proof(const uint8_t *message, size_t message_size, uint64_t index, uint64_t *height,
                            uint8_t *proof, size_t room, size_t *size);

/* Writes the bytes of the packet that the message carries which the bytes spell: of RecvPacket, AckPacket, Timeout and TimeoutOnClose.
   IBCW_NO_MESSAGE, IBCW_NOTHING_THERE where it carries none, IBCW_TOO_SHORT. */
IBCW_MUST_USE IBCW_NONNULL(5)
uint32_t ibcw_message_packet(const uint8_t *message, size_t message_size, uint8_t *packet, size_t room,
                             size_t *size);

/* Writes the acknowledgement that an AckPacket carries. Refused as by ibcw_message_packet. */
IBCW_MUST_USE IBCW_NONNULL(5)
uint32_t ibcw_message_ack(const uint8_t *message, size_t message_size, uint8_t *ack, size_t room, size_t *size);

/* The sequence and the timeouts of a packet (ICS 4). A timeout of 0 is none. */
typedef struct {
    uint64_t sequence;
    uint64_t timeout_height;
    uint64_t timeout_time;
} ibcw_packet_numbers_told;

/* Tells them of the packet that the bytes spell. IBCW_BAD_MESSAGE where they spell none. */
IBCW_MUST_USE IBCW_NONNULL(3)
uint32_t ibcw_packet_numbers(const uint8_t *packet, size_t packet_size, ibcw_packet_numbers_told *numbers);

enum {
    IBCW_SOURCE_PORT = 1,
    IBCW_SOURCE_CHANNEL = 2,
    IBCW_DESTINATION_PORT = 3,
    IBCW_DESTINATION_CHANNEL = 4,
    IBCW_DATA = 5
};

/* Writes a part of the packet that the bytes spell. IBCW_BAD_MESSAGE where they spell none, IBCW_NOTHING_THERE for another part, IBCW_TOO_SHORT. */
IBCW_MUST_USE IBCW_NONNULL(6)
uint32_t ibcw_packet_part(const uint8_t *packet, size_t packet_size, uint64_t part, uint8_t *text, size_t room,
                          size_t *size);

enum {
    IBCW_SENDER = 1,
    IBCW_RECEIVER = 2,
    IBCW_MEMO = 3,          /* no bytes where there is none */
    IBCW_TOKENS_VERSION = 4 /* the version of the channels over which the bytes spell the data: ics20-1 or ics20-own-2 */
};

/* Writes a part of the data of a packet of tokens, as IBCW_DATA of a packet of port transfer has it (ICS 20). It is exactly what a chain reads
   where such a packet comes. IBCW_NO_DATA exactly where the bytes spell no data of tokens, IBCW_NOTHING_THERE for another part, IBCW_TOO_SHORT.
   What data says is true of a chain where its ledger took the packet: look at the reply, and at the packet's ends. */
IBCW_MUST_USE IBCW_NONNULL(6)
uint32_t ibcw_data_part(const uint8_t *data, size_t data_size, uint64_t part, uint8_t *text, size_t room, size_t *size);

/* Tells how many tokens it has: 1 for ics20-1, 1 to 8 for ics20-own-2. IBCW_NO_DATA. */
IBCW_MUST_USE IBCW_NONNULL(3)
uint32_t ibcw_data_count(const uint8_t *data, size_t data_size, uint64_t *count);

/* Tells the amount of the token at an index, from 0 on, and writes its denomination, as the sending chain calls it. The receiving chain calls it
   without the sender's hop where the token comes home, and else with its own hop before it. IBCW_NO_DATA, IBCW_NOTHING_THERE where there is no such
   token; IBCW_TOO_SHORT, and then *amount and *size are told. */
IBCW_MUST_USE IBCW_NONNULL(4, 7)
uint32_t ibcw_data_token(const uint8_t *data, size_t data_size, uint64_t index, ibcw_amount *amount, uint8_t *denom,
                         size_t room, size_t *size);

#ifdef __cplusplus
}
#endif
#endif
