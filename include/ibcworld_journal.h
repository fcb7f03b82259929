/* A world that survives a crash and a power cut. Its journal is a SQLite file that keeps what the ledgers were asked and what they answered. The file's form
   is that of crates/ibc_journal/JOURNAL.md: ibcnode goes on with it and audits it, and this goes on with ibcnode's. It is C over the calls of ibcworld.h and
   the system's sqlite3: link libibcworld_journal.a, as `pkg-config --libs ibcworld_journal` says. Proved are the calls below it: what is stored of an entry,
   its digest, and the replay. No proof covers the C and sqlite3 between them. tests/library/journal.c tests these.

   First calls. Call ibcw_open_journal, which makes the file or opens it, and makes the ledgers again. Learn from ibcw_journal_ledgers where they are, by the
   numbers of their chains. Ask one of them by ibcw_apply_durably or ibcw_end_block_durably, which answer once its entry is on the disk. End by
   ibcw_close_journal. A short program is examples/library/c/durable.c.

   Many under one commit. Ask the ledgers by any calls and helpers, as ibcw_open and ibcw_relay. Then call ibcw_commit, which puts in all that the file
   hasn't yet. Tell nobody an answer before it. A crash leaves all of a commit, or nothing of it.

   Answers. Each call answers 0, a number of ibcworld.h, or one of ibcw_journal_fault_number. ibcw_journal_fault tells the last one with its place and its
   text.

   A commit that fails. From IBCW_JOURNAL_HELD to IBCW_JOURNAL_FAILED sqlite3 says why. The ledgers have the entries then, and the file has all of them or
   none. No answer of them is told. From then on each commit answers IBCW_JOURNAL_ENDED. Close the journal and open it again: what the file has is what
   happened.

   What the caller owes. One thread at a time uses a journal and its ledgers. The ledgers stay where they are: none is freed, taken, joined or copied. No
   journal is open over a fork. One process has the file at a time. Within that process no other code opens it, since closing a file gives up its locks. The
   file and FILE-wal beside it belong together. */
#ifndef IBCWORLD_JOURNAL_H
#define IBCWORLD_JOURNAL_H

#include "ibcworld.h"

#ifdef __cplusplus
extern "C" {
#endif

/* Why a journal isn't opened, or goes no further. The texts are those of ibcnode. */
typedef enum {
    IBCW_JOURNAL_NO_FILE = 201,       /* there is no such file, and no genesis is given */
    IBCW_JOURNAL_NEW = 202,           /* the file has no table yet, and no genesis is given */
    IBCW_JOURNAL_BAD_GENESIS = 203,   /* no world begins with the genesis */
    IBCW_JOURNAL_OTHER_GENESIS = 204, /* the journal began with another genesis, if only by a blank */
    IBCW_JOURNAL_OTHER_FORMAT = 205,  /* the journal is of another format, whose number is told as the place */
    IBCW_JOURNAL_NONE = 206,          /* the file has other tables, or is empty or gone beside its FILE-wal */
    IBCW_JOURNAL_DAMAGED = 207,       /* the digest of the entry at a place isn't the one that is due */
    IBCW_JOURNAL_GAP = 208,           /* there is no entry at a place, and there are some behind it */
    IBCW_JOURNAL_EARLY = 209,         /* there is an entry before place 0 */
    IBCW_JOURNAL_BEGINNINGS = 210,    /* the table meta has no row, or more than one */
    IBCW_JOURNAL_NO_ENTRY = 211,      /* what stands at a place is no event and answer */
    IBCW_JOURNAL_OTHER_ANSWER = 212,  /* the world answers otherwise than the entry at a place says */
    IBCW_JOURNAL_FULL = 213,          /* there would be 2^32 entries */
    /* of sqlite3, with its own texts */
    IBCW_JOURNAL_HELD = 214,          /* another process, or another journal of this one, has the file */
    IBCW_JOURNAL_NO_DATABASE = 215,   /* the file is no SQLite database */
    IBCW_JOURNAL_BROKEN = 216,        /* the database is damaged */
    IBCW_JOURNAL_NOT_OPENED = 217,    /* the file can't be opened or made */
    IBCW_JOURNAL_READ_ONLY = 218,     /* the file can't be written */
    IBCW_JOURNAL_DISK_FULL = 219,     /* there is no room on the disk */
    IBCW_JOURNAL_FAILED = 220,        /* anything else, as an error of the disk */
    /* of calls */
    IBCW_JOURNAL_ENDED = 221,         /* a commit failed before */
    IBCW_JOURNAL_WAITS = 222,         /* the ledger has its entry, which waits for ibcw_commit, since memory was refused */
    IBCW_JOURNAL_OLD_PLACE = 223,     /* the place of the log isn't above the last one that is kept */
    IBCW_JOURNAL_NO_ORDER = 224       /* in no order the entries have their answers: threads asked the ledgers at the same time */
} ibcw_journal_fault_number;

/* A fault: its number (0 for none), the place of the entry that its text names, or the number of a format (0 where it names none), and its text. */
typedef struct {
    uint32_t number;
    int64_t place;
    char text[128];
} ibcw_fault;

/* How a number of ibcw_journal_fault_number is called, as "IBCW_JOURNAL_HELD"; "Unknown" for another one. */
const char *ibcw_fault_name(uint32_t number);

/* A journal with its ledgers. */
typedef struct ibcw_journal ibcw_journal;

/* Makes a genesis in an empty handle from its text: a script of docs/SCRIPTS.md with no steps, in JSON, as `ibcnode --genesis` reads it. IBCW_FULL;
   IBCW_BAD_MESSAGE where the text is none; IBCW_NO_MEMORY. Whether a world begins so is for ibcw_make_ledgers to say. */
IBCW_MUST_USE IBCW_NONNULL(3)
uint32_t ibcw_read_genesis(const char *text, size_t size, ibcw_genesis *genesis);

/* Opens the journal in a file, and makes its ledgers again: each entry's digest is compared, and each answer. Where the file isn't there or has no table, a
   world begins with the genesis' text, which the journal keeps byte for byte. Where the file is a journal, it has to have begun with it. A null pointer
   stands for no text: then the file has to be a journal. *journal is the new journal, or null where the answer isn't 0. Then *fault tells why, where `fault`
   isn't null. A file that isn't taken stays as it was. IBCW_NO_MEMORY; IBCW_JOURNAL_NO_FILE to IBCW_JOURNAL_FAILED: of several the first that ibcnode would
   tell. */
IBCW_MUST_USE IBCW_NONNULL(1, 4)
uint32_t ibcw_open_journal(const char *file, const char *genesis, size_t genesis_size, ibcw_journal **journal, ibcw_fault *fault);

/* The ledgers, by the numbers of their chains, and how many there are. They stay there until ibcw_close_journal. */
IBCW_MUST_USE IBCW_NONNULL(1, 2)
ibcw_ledger *ibcw_journal_ledgers(ibcw_journal *journal, size_t *count);

/* The text of the genesis, as the journal keeps it. It stays there until ibcw_close_journal. */
IBCW_MUST_USE IBCW_NONNULL(1, 2)
const char *ibcw_journal_genesis(const ibcw_journal *journal, size_t *size);

/* How far a journal's file goes: how many entries it has, the last place of a log that came with one (0 for none), and the digest of the last, or of the
   beginning. */
typedef struct {
    uint64_t entries;
    uint32_t log_place;
    uint8_t digest[32];
} ibcw_journal_end;

/* Tells how far the file goes. The last entry stands at the place `entries - 1`: keep it elsewhere too, since nothing tells that last entries are missing.
   The digest tells of all entries before it. */
IBCW_NONNULL(1, 2)
void ibcw_journal_told(const ibcw_journal *journal, ibcw_journal_end *end);

/* Puts in all entries that the ledgers have and the file hasn't, by one commit. The answer is 0 once they are on the disk, or where there are none. They
   stand in an order in which each ledger would answer so again. Their events came by this place of a log of the caller's, or by none where it is 0.
   IBCW_JOURNAL_ENDED; IBCW_EMPTY and IBCW_OTHER_KIND of a ledger's handle; IBCW_OTHER_WORLD where a ledger isn't where it was; IBCW_JOURNAL_OLD_PLACE,
   IBCW_JOURNAL_FULL, IBCW_JOURNAL_NO_ORDER, IBCW_NO_MEMORY: then nothing has changed. IBCW_JOURNAL_HELD to IBCW_JOURNAL_FAILED: then the journal has ended. */
IBCW_MUST_USE IBCW_NONNULL(1)
uint32_t ibcw_commit(ibcw_journal *journal, uint32_t log_place);

/* Applies a message to the ledger of a chain, as ibcw_apply, puts its entry in, and only then tells the reply. What waited is put in with it. The answer is
   the reply's number, as there. IBCW_JOURNAL_ENDED, and IBCW_NOTHING_THERE where there is no such chain: then no ledger was asked. Where ibcw_commit is
   refused, its number is the answer, or IBCW_JOURNAL_WAITS in place of one below 201. Then the ledger has the entry. Where no reply is told, *told has the
   kind IBCW_TOLD_REFUSAL and the answer's number, and *size is 0. */
IBCW_MUST_USE IBCW_NONNULL(1, 5, 8)
uint32_t ibcw_apply_durably(ibcw_journal *journal, size_t chain, const uint8_t *message, size_t message_size, ibcw_told *told, uint8_t *bytes,
                            size_t room, size_t *size);

/* Ends the working block of a chain, as ibcw_end_block, and answers as ibcw_apply_durably. */
IBCW_MUST_USE IBCW_NONNULL(1, 4, 7)
uint32_t ibcw_end_block_durably(ibcw_journal *journal, size_t chain, uint64_t next_time, ibcw_told *told, uint8_t *bytes, size_t room, size_t *size);

/* The fault of the last call of this journal that was answered with one. */
IBCW_MUST_USE IBCW_NONNULL(1)
const ibcw_fault *ibcw_journal_fault(const ibcw_journal *journal);

/* Audits the ledgers, as ibcw_make_audit. What waits for a commit is among it. */
IBCW_MUST_USE IBCW_NONNULL(1, 2)
uint32_t ibcw_audit_journal(ibcw_journal *journal, ibcw_audit *audit);

/* Gives the file back, and frees the ledgers. What waits isn't put in: nothing of it was told. A null pointer is allowed. */
void ibcw_close_journal(ibcw_journal *journal);

#ifdef __cplusplus
}
#endif
#endif
