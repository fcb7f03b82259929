/* The journal of a world, in a SQLite file (ibcworld_journal.h; the form is that of crates/ibc_journal/JOURNAL.md). */
#include "ibcworld_journal.h"
#include "ibcworld_messages.h"

#include "journal.h"

#include <errno.h>
#include <sqlite3.h>
#include <stdio.h>
#include <stdlib.h>
#include <string.h>
#include <sys/stat.h>

#if SQLITE_VERSION_NUMBER < 3037000
#error "the journal's tables are STRICT, which sqlite3 knows from 3.37 on"
#endif

enum {
    FORMAT = 1,
    EMPTY_LOG = 64, /* a log of so many bytes has no page yet */
    LOG_HEAD = 32,
    PAGE_IN_LOG = 4120,   /* what a page of 4,096 bytes takes in a log */
    LEAST_IN_PAGE = 4000, /* a page that a long text goes on in has more bytes of it */
    MOST_FIRST_PAGES = 5  /* so many pages the tables have besides, at most, when they are made */
};

/* No journal has so many entries, and no number of an entry is so large. */
static const uint64_t TOO_MANY = 4294967296u;

#define MAKE_META "CREATE TABLE meta(format INTEGER PRIMARY KEY, genesis BLOB NOT NULL) STRICT"
#define MAKE_ENTRIES \
    "CREATE TABLE entries(place INTEGER PRIMARY KEY, chain INTEGER NOT NULL, kind INTEGER NOT NULL, log_place INTEGER NOT NULL, event BLOB NOT NULL, " \
    "answer BLOB NOT NULL, digest BLOB NOT NULL) STRICT"

/* How far the file goes. */
typedef struct {
    ibcw_journal_end end;
    uint64_t stored[IBCW_MOST_CHAINS];  /* how many entries of each history it has */
    uint64_t heights[IBCW_MOST_CHAINS]; /* how many heights each chain has published by those */
} reach;

struct ibcw_journal {
    sqlite3 *file;
    int64_t log_size; /* of the log that stood beside the file when it was opened */
    sqlite3_stmt *begin, *insert, *commit;
    ibcw_ledgers world; /* of which no ledger is left here: they stand beside it */
    ibcw_ledger ledgers[IBCW_MOST_CHAINS];
    size_t chains;
    reach reached;
    char *genesis;
    size_t genesis_size;
    uint64_t window;
    uint8_t *event; /* room for the bytes of an event */
    size_t event_room;
    int has_ended;
    ibcw_fault fault;
};

/* ---- faults */

typedef struct {
    uint32_t number;
    const char *name;
    const char *text, *behind; /* before the place and behind it. The texts of some are sqlite3's */
} fault_kind;

static const fault_kind fault_kinds[] = {
    {IBCW_JOURNAL_NO_FILE, "IBCW_JOURNAL_NO_FILE", "there is no such file", NULL},
    {IBCW_JOURNAL_NEW, "IBCW_JOURNAL_NEW", "the file is new: give a genesis", NULL},
    {IBCW_JOURNAL_BAD_GENESIS, "IBCW_JOURNAL_BAD_GENESIS", "no world begins with the genesis", NULL},
    {IBCW_JOURNAL_OTHER_GENESIS, "IBCW_JOURNAL_OTHER_GENESIS", "the journal began with another genesis", NULL},
    {IBCW_JOURNAL_OTHER_FORMAT, "IBCW_JOURNAL_OTHER_FORMAT", "the journal is of format ", ""},
    {IBCW_JOURNAL_NONE, "IBCW_JOURNAL_NONE", "the file is no journal", NULL},
    {IBCW_JOURNAL_DAMAGED, "IBCW_JOURNAL_DAMAGED", "the entry at place ", " is damaged"},
    {IBCW_JOURNAL_GAP, "IBCW_JOURNAL_GAP", "there is no entry at place ", ", and there are some behind it"},
    {IBCW_JOURNAL_EARLY, "IBCW_JOURNAL_EARLY", "there is an entry before place 0", NULL},
    {IBCW_JOURNAL_BEGINNINGS, "IBCW_JOURNAL_BEGINNINGS", "the journal hasn't one beginning", NULL},
    {IBCW_JOURNAL_NO_ENTRY, "IBCW_JOURNAL_NO_ENTRY", "no entry stands at place ", ""},
    {IBCW_JOURNAL_OTHER_ANSWER, "IBCW_JOURNAL_OTHER_ANSWER", "another answer is due at place ", ""},
    {IBCW_JOURNAL_FULL, "IBCW_JOURNAL_FULL", "the journal has more entries than one may have", NULL},
    {IBCW_JOURNAL_HELD, "IBCW_JOURNAL_HELD", "", NULL},
    {IBCW_JOURNAL_NO_DATABASE, "IBCW_JOURNAL_NO_DATABASE", "", NULL},
    {IBCW_JOURNAL_BROKEN, "IBCW_JOURNAL_BROKEN", "database disk image is malformed", NULL},
    {IBCW_JOURNAL_NOT_OPENED, "IBCW_JOURNAL_NOT_OPENED", "", NULL},
    {IBCW_JOURNAL_READ_ONLY, "IBCW_JOURNAL_READ_ONLY", "", NULL},
    {IBCW_JOURNAL_DISK_FULL, "IBCW_JOURNAL_DISK_FULL", "", NULL},
    {IBCW_JOURNAL_FAILED, "IBCW_JOURNAL_FAILED", "the file can't have a write-ahead log", NULL},
    {IBCW_JOURNAL_ENDED, "IBCW_JOURNAL_ENDED", "a commit failed before: close the journal, and open it again", NULL},
    {IBCW_JOURNAL_WAITS, "IBCW_JOURNAL_WAITS", "memory was refused, and the entry waits for a commit", NULL},
    {IBCW_JOURNAL_OLD_PLACE, "IBCW_JOURNAL_OLD_PLACE", "the place of the log isn't above the last one that is kept", NULL},
    {IBCW_JOURNAL_NO_ORDER, "IBCW_JOURNAL_NO_ORDER", "the entries have no order: threads asked the ledgers at the same time", NULL},
};

static const fault_kind *kind_of_fault(uint32_t number)
{
    size_t k;
    for (k = 0; k < sizeof fault_kinds / sizeof fault_kinds[0]; k++)
        if (fault_kinds[k].number == number) return &fault_kinds[k];
    return NULL;
}

const char *ibcw_fault_name(uint32_t number)
{
    const fault_kind *kind = kind_of_fault(number);
    return kind == NULL ? "Unknown" : kind->name;
}

/* Notes a fault at a place. Answers its number. */
static uint32_t fail_at(ibcw_journal *journal, uint32_t number, int64_t place)
{
    const fault_kind *kind = kind_of_fault(number);
    ibcw_fault *fault = &journal->fault;
    fault->number = number;
    fault->place = place;
    if (kind == NULL)
        snprintf(fault->text, sizeof fault->text, "%s", ibcw_refusal_text(number));
    else if (kind->behind == NULL)
        snprintf(fault->text, sizeof fault->text, "%s", kind->text);
    else
        snprintf(fault->text, sizeof fault->text, "%s%lld%s", kind->text, (long long)place, kind->behind);
    return number;
}

static uint32_t fail(ibcw_journal *journal, uint32_t number) { return fail_at(journal, number, 0); }

/* The answer of a call of the library, whose refusal is noted. */
static uint32_t told_by(ibcw_journal *journal, uint32_t answer) { return answer == IBCW_DONE ? answer : fail(journal, answer); }

/* The number of a code of sqlite3's. */
static uint32_t number_of(int code)
{
    switch (code & 0xff) {
    case SQLITE_NOMEM: return IBCW_NO_MEMORY;
    case SQLITE_BUSY:
    case SQLITE_LOCKED: return IBCW_JOURNAL_HELD;
    case SQLITE_NOTADB: return IBCW_JOURNAL_NO_DATABASE;
    case SQLITE_CORRUPT: return IBCW_JOURNAL_BROKEN;
    case SQLITE_CANTOPEN: return IBCW_JOURNAL_NOT_OPENED;
    case SQLITE_READONLY: return IBCW_JOURNAL_READ_ONLY;
    case SQLITE_FULL: return IBCW_JOURNAL_DISK_FULL;
    default: return IBCW_JOURNAL_FAILED;
    }
}

static int is_well(int code) { return code == SQLITE_OK || code == SQLITE_ROW || code == SQLITE_DONE; }

/* The answer of a call of sqlite3. What is wrong is noted with its text. */
static uint32_t said_by(ibcw_journal *journal, int code)
{
    if (is_well(code)) return IBCW_DONE;
    fail(journal, number_of(code));
    snprintf(journal->fault.text, sizeof journal->fault.text, "%s", sqlite3_errstr(code & 0xff));
    return journal->fault.number;
}

/* ---- the file */

static int run(sqlite3 *file, const char *sql) { return sqlite3_exec(file, sql, NULL, NULL, NULL); }

/* Whether the log is left beside the file, when it is closed, as it was. Else it is put into the file, and removed. */
static void leave_log(sqlite3 *file, int is_left) { sqlite3_db_config(file, SQLITE_DBCONFIG_NO_CKPT_ON_CLOSE, is_left, (int *)NULL); }

static void disconnect(ibcw_journal *journal)
{
    sqlite3_finalize(journal->begin);
    sqlite3_finalize(journal->insert);
    sqlite3_finalize(journal->commit);
    sqlite3_close(journal->file);
    journal->begin = journal->insert = journal->commit = NULL;
    journal->file = NULL;
}

static uint32_t connect_to(ibcw_journal *journal, const char *path)
{
    int code = sqlite3_open_v2(path, &journal->file, SQLITE_OPEN_READWRITE | SQLITE_OPEN_NOMUTEX | SQLITE_OPEN_PRIVATECACHE, NULL);
    if (code != SQLITE_OK) disconnect(journal);
    return said_by(journal, code);
}

/* The length of a file, 0 where there is none. */
static int64_t length_of(const char *path)
{
    struct stat found;
    return stat(path, &found) == 0 ? (int64_t)found.st_size : 0;
}

/* Locks the file against all others, until it is closed. Each commit syncs the log, as the node's do. Where the file is empty (which a file of one byte is
   to sqlite3) beside its log, sqlite3 would take that for one that is done with. A file that isn't taken stays as it was, and so does its log. */
static uint32_t hold(ibcw_journal *journal)
{
    const char *path = sqlite3_db_filename(journal->file, "main");
    journal->log_size = length_of(sqlite3_filename_wal(path));
    if (journal->log_size > EMPTY_LOG && length_of(path) <= 1) return fail(journal, IBCW_JOURNAL_NONE);
    leave_log(journal->file, journal->log_size > 0);
    if (sqlite3_db_readonly(journal->file, "main") != 0) return said_by(journal, SQLITE_READONLY);
    return said_by(journal, run(journal->file, "PRAGMA locking_mode=EXCLUSIVE; PRAGMA synchronous=FULL; PRAGMA mmap_size=0; PRAGMA trusted_schema=OFF; "
                                               "BEGIN EXCLUSIVE; ROLLBACK"));
}

/* Makes a file where there is none, and gives it a write-ahead log. It has no lock of its own yet: under one sqlite3 would leave a file FILE-journal behind. */
static uint32_t give_log(ibcw_journal *journal, const char *path)
{
    sqlite3 *file = NULL;
    uint32_t answer;
    int code = sqlite3_open_v2(path, &file, SQLITE_OPEN_READWRITE | SQLITE_OPEN_CREATE | SQLITE_OPEN_NOMUTEX | SQLITE_OPEN_PRIVATECACHE, NULL);
    if (code == SQLITE_OK)
        code = run(file, "PRAGMA page_size=4096; PRAGMA encoding='UTF-8'; PRAGMA auto_vacuum=NONE; PRAGMA synchronous=FULL; PRAGMA journal_mode=WAL");
    answer = said_by(journal, code);
    sqlite3_close(file);
    return answer;
}

/* The first column of the first row that a query gives, as a text in a place of 8 bytes. */
static uint32_t ask_word(ibcw_journal *journal, const char *sql, char word[8])
{
    sqlite3_stmt *query = NULL;
    int code = sqlite3_prepare_v2(journal->file, sql, -1, &query, NULL);
    word[0] = 0;
    if (code == SQLITE_OK) code = sqlite3_step(query);
    if (code == SQLITE_ROW) {
        const char *text = (const char *)sqlite3_column_text(query, 0);
        snprintf(word, 8, "%s", text == NULL ? "" : text);
    }
    sqlite3_finalize(query);
    return said_by(journal, code);
}

/* ---- what a file holds */

typedef enum { LOOKS_EMPTY, LOOKS_LIKE_JOURNAL, LOOKS_OTHER } looks;

/* Whether a row of the schema is a table that was made so. */
static int is_table(sqlite3_stmt *row, const char *made)
{
    const char *kind = (const char *)sqlite3_column_text(row, 0), *sql = (const char *)sqlite3_column_text(row, 1);
    return kind != NULL && sql != NULL && strcmp(kind, "table") == 0 && strcmp(sql, made) == 0;
}

static uint32_t look(ibcw_journal *journal, looks *found)
{
    static const char *const tables[] = {MAKE_META, MAKE_ENTRIES};
    sqlite3_stmt *query = NULL;
    int code = sqlite3_prepare_v2(journal->file, "SELECT type, sql FROM sqlite_schema ORDER BY rowid", -1, &query, NULL), is_journal = 1, rows = 0;
    if (code == SQLITE_OK)
        for (; (code = sqlite3_step(query)) == SQLITE_ROW; rows++) is_journal = is_journal && rows < 2 && is_table(query, tables[rows]);
    sqlite3_finalize(query);
    *found = rows == 0 ? LOOKS_EMPTY : is_journal && rows == 2 ? LOOKS_LIKE_JOURNAL : LOOKS_OTHER;
    return said_by(journal, code);
}

/* What is wrong with a file that has other tables: that it is of another format, where it tells one. */
static uint32_t fault_of_others(ibcw_journal *journal)
{
    sqlite3_stmt *query = NULL;
    int64_t format = FORMAT;
    int code = sqlite3_prepare_v2(journal->file, "SELECT format FROM meta", -1, &query, NULL);
    if (code == SQLITE_OK) code = sqlite3_step(query);
    if (code == SQLITE_ROW && sqlite3_column_type(query, 0) == SQLITE_INTEGER) format = sqlite3_column_int64(query, 0);
    sqlite3_finalize(query);
    if (!is_well(code) && (code & 0xff) != SQLITE_ERROR) return said_by(journal, code);
    return format == FORMAT ? fail(journal, IBCW_JOURNAL_NONE) : fail_at(journal, IBCW_JOURNAL_OTHER_FORMAT, format);
}

/* Keeps the text of the genesis. */
static uint32_t keep_genesis(ibcw_journal *journal, const void *text, size_t size)
{
    char *kept = (char *)malloc(size + 1);
    if (kept == NULL) return fail(journal, IBCW_NO_MEMORY);
    if (size > 0) memcpy(kept, text, size);
    kept[size] = 0;
    free(journal->genesis);
    journal->genesis = kept;
    journal->genesis_size = size;
    return IBCW_DONE;
}

/* Reads how a journal began: its format, and the text of its genesis, which is kept. */
static uint32_t read_beginning(ibcw_journal *journal)
{
    sqlite3_stmt *query = NULL;
    int code = sqlite3_prepare_v2(journal->file, "SELECT format, genesis FROM meta", -1, &query, NULL);
    int64_t format = FORMAT;
    uint32_t answer = IBCW_DONE;
    int rows = 0;
    if (code == SQLITE_OK) {
        for (; answer == IBCW_DONE && (code = sqlite3_step(query)) == SQLITE_ROW; rows++) {
            const void *text = sqlite3_column_blob(query, 1);
            format = sqlite3_column_int64(query, 0);
            answer = keep_genesis(journal, text, (size_t)sqlite3_column_bytes(query, 1));
        }
    }
    sqlite3_finalize(query);
    if (answer == IBCW_DONE) answer = said_by(journal, code);
    if (answer != IBCW_DONE) return answer;
    if (rows != 1) return fail(journal, IBCW_JOURNAL_BEGINNINGS);
    return format == FORMAT ? (uint32_t)IBCW_DONE : fail_at(journal, IBCW_JOURNAL_OTHER_FORMAT, format);
}

/* ---- the world */

/* Makes the ledgers of the genesis that is kept, as they stand behind these entries. The entries are gone then. */
static uint32_t make_world(ibcw_journal *journal, ibcw_entries *entries)
{
    ibcw_genesis genesis = IBCW_HANDLE_INIT;
    uint8_t due[IBCW_ANSWER_ROOM];
    uint64_t place = 0;
    size_t size = 0;
    uint32_t answer = ibcw_read_genesis(journal->genesis, journal->genesis_size, &genesis);
    if (answer == IBCW_DONE) answer = ibcw_make_replayed(&genesis, entries, &journal->world, &place, due, sizeof due, &size);
    ibcw_free(&genesis.handle);
    switch (answer) {
    case IBCW_BAD_MESSAGE: return fail(journal, IBCW_JOURNAL_BAD_GENESIS);
    case IBCW_OTHER_ANSWER:
    case IBCW_UNKNOWN_CHAIN: return fail_at(journal, IBCW_JOURNAL_OTHER_ANSWER, (int64_t)place);
    default: return told_by(journal, answer);
    }
}

/* Makes the ledgers of the genesis in the beginning. */
static uint32_t make_first_world(ibcw_journal *journal)
{
    ibcw_entries none = IBCW_HANDLE_INIT;
    uint32_t answer = told_by(journal, ibcw_make_entries(&none));
    if (answer == IBCW_DONE) answer = make_world(journal, &none);
    ibcw_free(&none.handle);
    return answer;
}

/* Takes the ledgers out of their world. */
static uint32_t take_ledgers(ibcw_journal *journal)
{
    uint32_t answer = IBCW_DONE;
    for (journal->chains = 0; answer == IBCW_DONE && journal->chains < IBCW_MOST_CHAINS; journal->chains++) {
        answer = ibcw_take_ledger(&journal->world, &journal->ledgers[journal->chains]);
        if (answer == IBCW_NOTHING_THERE) return IBCW_DONE;
    }
    return told_by(journal, answer);
}

/* ---- reading */

/* A row of the table of entries. Its bytes are the query's, up to the next row. */
typedef struct {
    uint64_t place;
    uint32_t chain, kind, log_place;
    ibcw_bytes event, answer, digest;
} row;

static ibcw_bytes bytes_in(sqlite3_stmt *query, int column)
{
    const uint8_t *bytes = (const uint8_t *)sqlite3_column_blob(query, column);
    return ibcw_bytes_of(bytes, (size_t)sqlite3_column_bytes(query, column));
}

/* Reads a number of 32 bits. */
static int read_number(sqlite3_stmt *query, int column, uint32_t *number)
{
    int64_t found = sqlite3_column_int64(query, column);
    *number = (uint32_t)found;
    return found >= 0 && (uint64_t)found < TOO_MANY;
}

static int read_row(sqlite3_stmt *query, row *of)
{
    of->place = (uint64_t)sqlite3_column_int64(query, 0);
    of->event = bytes_in(query, 4);
    of->answer = bytes_in(query, 5);
    of->digest = bytes_in(query, 6);
    return read_number(query, 1, &of->chain) && read_number(query, 2, &of->kind) && read_number(query, 3, &of->log_place);
}

/* The digest of an entry behind the last one. */
static uint32_t next_digest(const ibcw_journal_end *end, const row *of, uint8_t digest[IBCW_DIGEST_SIZE])
{
    size_t size = 0;
    return ibcw_next_digest(end->digest, IBCW_DIGEST_SIZE, of->chain, of->kind, of->log_place, of->event.data, of->event.size, of->answer.data,
                            of->answer.size, digest, IBCW_DIGEST_SIZE, &size);
}

/* Goes on behind an entry that is in the file, or will be once that is committed. */
static void go_behind(reach *of, const row *entry, const uint8_t digest[IBCW_DIGEST_SIZE])
{
    ibcw_waiting told = ibcw_waiting_of(entry->chain, entry->kind, entry->event.data, entry->event.size, entry->answer.data, entry->answer.size, 0);
    of->end.entries++;
    if (entry->log_place > 0) of->end.log_place = entry->log_place;
    memcpy(of->end.digest, digest, IBCW_DIGEST_SIZE);
    if (entry->chain >= IBCW_MOST_CHAINS) return;
    of->stored[entry->chain]++;
    if (told.is_block) of->heights[entry->chain] = told.height;
}

/* Takes the entry of a row to the others, where it is the one that was put there. */
static uint32_t take_row(ibcw_journal *journal, sqlite3_stmt *query, ibcw_entries *entries)
{
    row of;
    uint8_t due[IBCW_DIGEST_SIZE];
    uint64_t here = journal->reached.end.entries;
    int has_numbers = read_row(query, &of);
    uint32_t answer;
    if (of.place != here) return fail_at(journal, IBCW_JOURNAL_GAP, (int64_t)here);
    if (here + 1 == TOO_MANY) return fail(journal, IBCW_JOURNAL_FULL);
    if (!has_numbers) return fail_at(journal, IBCW_JOURNAL_NO_ENTRY, (int64_t)here);
    answer = told_by(journal, next_digest(&journal->reached.end, &of, due));
    if (answer != IBCW_DONE) return answer;
    if (of.digest.size != sizeof due || memcmp(of.digest.data, due, sizeof due) != 0) return fail_at(journal, IBCW_JOURNAL_DAMAGED, (int64_t)here);
    answer = ibcw_add_entry(entries, of.chain, of.kind, of.event.data, of.event.size, of.answer.data, of.answer.size);
    if (answer == IBCW_BAD_MESSAGE) return fail_at(journal, IBCW_JOURNAL_NO_ENTRY, (int64_t)here);
    if (answer == IBCW_DONE) go_behind(&journal->reached, &of, due);
    return told_by(journal, answer);
}

/* Takes the entries of the file, up to its end, or to the first that can't be taken. */
static uint32_t take_rows(ibcw_journal *journal, ibcw_entries *entries)
{
    static const char *const all = "SELECT place, chain, kind, log_place, event, answer, digest FROM entries WHERE place >= 0 ORDER BY place";
    sqlite3_stmt *query = NULL;
    char early[8];
    uint32_t answer = IBCW_DONE;
    int code = sqlite3_prepare_v2(journal->file, all, -1, &query, NULL);
    if (code == SQLITE_OK)
        while (answer == IBCW_DONE && (code = sqlite3_step(query)) == SQLITE_ROW) answer = take_row(journal, query, entries);
    sqlite3_finalize(query);
    if (answer == IBCW_DONE) answer = said_by(journal, code);
    if (answer == IBCW_DONE) answer = ask_word(journal, "SELECT 'early' FROM entries WHERE place < 0 LIMIT 1", early);
    if (answer == IBCW_DONE && early[0] != 0) answer = fail(journal, IBCW_JOURNAL_EARLY);
    return answer;
}

/* Makes the world of the file's entries. Of several faults the one at the first place is told: what was read is replayed too, where reading came to a fault. */
static uint32_t replay(ibcw_journal *journal)
{
    ibcw_entries entries = IBCW_HANDLE_INIT;
    ibcw_fault met;
    uint32_t read, answer = told_by(journal, ibcw_make_entries(&entries));
    if (answer != IBCW_DONE) return answer;
    read = take_rows(journal, &entries);
    met = journal->fault;
    answer = read == IBCW_NO_MEMORY ? read : make_world(journal, &entries);
    ibcw_free(&entries.handle);
    if (answer != IBCW_DONE || read == IBCW_DONE) return answer;
    journal->fault = met;
    return read;
}

/* ---- opening */

/* The digest of the beginning, and no entry. */
static uint32_t begin_reach(ibcw_journal *journal)
{
    size_t size = 0;
    memset(&journal->reached, 0, sizeof journal->reached);
    return told_by(journal, ibcw_first_digest((const uint8_t *)journal->genesis, journal->genesis_size, journal->reached.end.digest, IBCW_DIGEST_SIZE, &size));
}

static uint32_t put_beginning(ibcw_journal *journal)
{
    sqlite3_stmt *insert = NULL;
    int code = sqlite3_prepare_v2(journal->file, "INSERT INTO meta(format, genesis) VALUES (?1, ?2)", -1, &insert, NULL);
    if (code == SQLITE_OK) code = sqlite3_bind_int(insert, 1, FORMAT);
    if (code == SQLITE_OK) code = sqlite3_bind_blob64(insert, 2, journal->genesis, journal->genesis_size, SQLITE_STATIC);
    if (code == SQLITE_OK) code = sqlite3_step(insert);
    sqlite3_finalize(insert);
    return said_by(journal, code);
}

/* Makes the tables, in one transaction, and puts them into the file itself: so a log that is damaged later never makes the file look new. */
static uint32_t make_tables(ibcw_journal *journal)
{
    uint32_t answer = said_by(journal, run(journal->file, "BEGIN; " MAKE_META "; " MAKE_ENTRIES));
    if (answer == IBCW_DONE) answer = put_beginning(journal);
    if (answer == IBCW_DONE) answer = said_by(journal, run(journal->file, "COMMIT"));
    if (answer == IBCW_DONE) answer = said_by(journal, sqlite3_wal_checkpoint_v2(journal->file, "main", SQLITE_CHECKPOINT_TRUNCATE, NULL, NULL));
    return answer;
}

/* A file with no table is new, where a world begins with the genesis that is given. A log beside it is one of which making the tables came to no end: one
   that is longer than that is a damaged one, with entries of a journal. */
static uint32_t judge_new(ibcw_journal *journal, const char *genesis, size_t size)
{
    int64_t longest = LOG_HEAD + (int64_t)PAGE_IN_LOG * (int64_t)(MOST_FIRST_PAGES + size / LEAST_IN_PAGE);
    uint32_t answer;
    if (journal->log_size > longest) return fail(journal, IBCW_JOURNAL_NONE);
    if (genesis == NULL) return fail(journal, IBCW_JOURNAL_NEW);
    answer = keep_genesis(journal, genesis, size);
    return answer == IBCW_DONE ? make_first_world(journal) : answer;
}

/* Looks at a file that is held: it is new, or it is a journal that may be gone on with. */
static uint32_t judge(ibcw_journal *journal, const char *genesis, size_t size, looks *found)
{
    char sound[8];
    uint32_t answer = look(journal, found);
    if (answer != IBCW_DONE) return answer;
    if (*found == LOOKS_OTHER) return fault_of_others(journal);
    if (*found == LOOKS_EMPTY) return judge_new(journal, genesis, size);
    answer = ask_word(journal, "PRAGMA quick_check(1)", sound);
    if (answer == IBCW_DONE && strcmp(sound, "ok") != 0) answer = fail(journal, IBCW_JOURNAL_BROKEN);
    if (answer == IBCW_DONE) answer = read_beginning(journal);
    if (answer != IBCW_DONE || genesis == NULL) return answer;
    if (size != journal->genesis_size || memcmp(genesis, journal->genesis, size) != 0) return fail(journal, IBCW_JOURNAL_OTHER_GENESIS);
    return answer;
}

/* Opens a file, holds it, and looks at it. One without a write-ahead log is given one first, and held again. */
static uint32_t open_and_judge(ibcw_journal *journal, const char *path, const char *genesis, size_t size, looks *found)
{
    char mode[8] = "";
    int turn;
    uint32_t answer = IBCW_DONE;
    for (turn = 0; turn < 2; turn++) {
        answer = connect_to(journal, path);
        if (answer == IBCW_DONE) answer = hold(journal);
        if (answer == IBCW_DONE) answer = judge(journal, genesis, size, found);
        if (answer == IBCW_DONE) answer = ask_word(journal, "PRAGMA journal_mode", mode);
        if (answer != IBCW_DONE || strcmp(mode, "wal") == 0) return answer;
        disconnect(journal);
        ibcw_free(&journal->world.handle);
        answer = give_log(journal, path);
        if (answer != IBCW_DONE) return answer;
    }
    return fail(journal, IBCW_JOURNAL_FAILED);
}

/* Makes a file where there is none, once it is known that a world begins with the genesis. A log without its file is none of a new one. */
static uint32_t make_file(ibcw_journal *journal, const char *path, const char *log, const char *genesis, size_t size)
{
    uint32_t answer;
    if (genesis == NULL) return fail(journal, IBCW_JOURNAL_NO_FILE);
    if (length_of(log) > EMPTY_LOG) return fail(journal, IBCW_JOURNAL_NONE);
    answer = keep_genesis(journal, genesis, size);
    if (answer == IBCW_DONE) answer = make_first_world(journal);
    ibcw_free(&journal->world.handle);
    return answer == IBCW_DONE ? give_log(journal, path) : answer;
}

static int is_missing(const char *path)
{
    struct stat found;
    return stat(path, &found) != 0 && errno == ENOENT;
}

static uint32_t prepare(ibcw_journal *journal, const char *sql, sqlite3_stmt **statement)
{
    return said_by(journal, sqlite3_prepare_v3(journal->file, sql, -1, SQLITE_PREPARE_PERSISTENT, statement, NULL));
}

static uint32_t prepare_commits(ibcw_journal *journal)
{
    uint32_t answer = prepare(journal, "BEGIN", &journal->begin);
    if (answer == IBCW_DONE)
        answer = prepare(journal,
                         "INSERT INTO entries(place, chain, kind, log_place, event, answer, digest) VALUES (?1, ?2, ?3, ?4, ?5, ?6, ?7)",
                         &journal->insert);
    return answer == IBCW_DONE ? prepare(journal, "COMMIT", &journal->commit) : answer;
}

static uint32_t open_at(ibcw_journal *journal, const char *path, const char *log, const char *genesis, size_t size)
{
    looks found = LOOKS_OTHER;
    uint32_t answer = IBCW_DONE;
    if (is_missing(path)) answer = make_file(journal, path, log, genesis, size);
    if (answer == IBCW_DONE) answer = open_and_judge(journal, path, genesis, size, &found);
    if (answer == IBCW_DONE) answer = begin_reach(journal);
    if (answer == IBCW_DONE) answer = found == LOOKS_EMPTY ? make_tables(journal) : replay(journal);
    if (answer == IBCW_DONE) answer = take_ledgers(journal);
    if (answer == IBCW_DONE) answer = prepare_commits(journal);
    if (answer != IBCW_DONE) return answer;
    journal->window = ibcw_window_in(journal->genesis, journal->genesis_size);
    leave_log(journal->file, 0);
    memset(&journal->fault, 0, sizeof journal->fault);
    return answer;
}

/* A path behind a folder, so that sqlite3 takes no file's name for another thing, as ":memory:" or "file:NAME?mode=ro". */
static char *path_of(const char *file, const char *behind)
{
    size_t size = strlen(file) + strlen(behind) + 3;
    char *path = (char *)malloc(size);
    if (path != NULL) snprintf(path, size, "%s%s%s", file[0] == '/' ? "" : "./", file, behind);
    return path;
}

uint32_t ibcw_open_journal(const char *file, const char *genesis, size_t genesis_size, ibcw_journal **journal, ibcw_fault *fault)
{
    ibcw_journal none, *made = (ibcw_journal *)calloc(1, sizeof *made), *told = made == NULL ? &none : made;
    char *path = path_of(file, ""), *log = path_of(file, "-wal");
    uint32_t answer;
    if (made == NULL || path == NULL || log == NULL)
        answer = fail(told, IBCW_NO_MEMORY);
    else
        answer = open_at(made, path, log, genesis, genesis_size);
    free(path);
    free(log);
    if (fault != NULL) *fault = told->fault;
    *journal = made;
    if (answer == IBCW_DONE) return answer;
    ibcw_close_journal(made);
    *journal = NULL;
    return answer;
}

void ibcw_close_journal(ibcw_journal *journal)
{
    size_t chain;
    if (journal == NULL) return;
    disconnect(journal);
    for (chain = 0; chain < IBCW_MOST_CHAINS; chain++) ibcw_free(&journal->ledgers[chain].handle);
    ibcw_free(&journal->world.handle);
    free(journal->genesis);
    free(journal->event);
    free(journal);
}

/* ---- what a journal tells */

ibcw_ledger *ibcw_journal_ledgers(ibcw_journal *journal, size_t *count)
{
    *count = journal->chains;
    return journal->ledgers;
}

const char *ibcw_journal_genesis(const ibcw_journal *journal, size_t *size)
{
    *size = journal->genesis_size;
    return journal->genesis;
}

void ibcw_journal_told(const ibcw_journal *journal, ibcw_journal_end *end) { *end = journal->reached.end; }

const ibcw_fault *ibcw_journal_fault(const ibcw_journal *journal) { return &journal->fault; }

/* ---- what waits */

/* An entry as it is stored. The bytes of its event are the journal's, up to the next one. */
typedef struct {
    ibcw_entry_numbers numbers;
    size_t event_size, answer_size;
    uint8_t answer[IBCW_ANSWER_ROOM];
} stored_entry;

static uint32_t ask_stored(ibcw_journal *journal, size_t chain, uint64_t index, stored_entry *entry)
{
    return ibcw_stored(&journal->ledgers[chain], index, &entry->numbers, journal->event, journal->event_room, &entry->event_size, entry->answer,
                       sizeof entry->answer, &entry->answer_size);
}

/* Reads what is stored of an entry, with as much room as its event takes. */
static uint32_t read_stored(ibcw_journal *journal, size_t chain, uint64_t index, stored_entry *entry)
{
    uint32_t answer = ask_stored(journal, chain, index, entry);
    if (answer == IBCW_TOO_SHORT) {
        uint8_t *larger = (uint8_t *)realloc(journal->event, entry->event_size);
        if (larger == NULL) return fail(journal, IBCW_NO_MEMORY);
        journal->event = larger;
        journal->event_room = entry->event_size;
        answer = ask_stored(journal, chain, index, entry);
    }
    if (answer == IBCW_DONE && entry->numbers.chain != chain) answer = IBCW_OTHER_WORLD;
    return told_by(journal, answer);
}

/* What waits: how many entries of each chain, of how many chains, and all together. */
typedef struct {
    uint64_t counts[IBCW_MOST_CHAINS], all;
    size_t chains;
    uint8_t last; /* the last chain of which one waits */
} crowd;

static uint32_t count_waiting(ibcw_journal *journal, crowd *of)
{
    size_t chain;
    memset(of, 0, sizeof *of);
    for (chain = 0; chain < journal->chains; chain++) {
        uint64_t length = 0, stored = journal->reached.stored[chain];
        uint32_t answer = ibcw_length(&journal->ledgers[chain].handle, &length);
        if (answer == IBCW_DONE && length < stored) answer = IBCW_OTHER_WORLD;
        if (answer != IBCW_DONE) return fail(journal, answer);
        of->counts[chain] = length - stored;
        of->all += length - stored;
        if (length == stored) continue;
        of->last = (uint8_t)chain;
        of->chains++;
    }
    return IBCW_DONE;
}

static uint32_t read_waiting(ibcw_journal *journal, const crowd *of, ibcw_waiting *waiting)
{
    stored_entry entry;
    size_t chain;
    uint64_t k;
    for (chain = 0; chain < journal->chains; chain++) {
        for (k = 0; k < of->counts[chain]; k++) {
            uint32_t answer = read_stored(journal, chain, journal->reached.stored[chain] + k, &entry);
            if (answer != IBCW_DONE) return answer;
            *waiting++ = ibcw_waiting_of(entry.numbers.chain, entry.numbers.kind, journal->event, entry.event_size, entry.answer, entry.answer_size,
                                         journal->window);
        }
    }
    return IBCW_DONE;
}

/* Finds the order in which entries are put in: whose next one comes. Those of one chain alone stand in it already. */
static uint32_t find_order(ibcw_journal *journal, const crowd *of, uint8_t *order)
{
    ibcw_waiting *waiting;
    uint32_t answer;
    if (of->chains == 1) {
        memset(order, of->last, (size_t)of->all);
        return IBCW_DONE;
    }
    waiting = (ibcw_waiting *)calloc((size_t)of->all, sizeof *waiting);
    if (waiting == NULL) return fail(journal, IBCW_NO_MEMORY);
    answer = read_waiting(journal, of, waiting);
    if (answer == IBCW_DONE && !ibcw_order_waiting(waiting, of->counts, journal->reached.heights, order)) answer = fail(journal, IBCW_JOURNAL_NO_ORDER);
    free(waiting);
    return answer;
}

/* ---- committing */

/* Ends the journal, since sqlite3 failed: what it has of a commit isn't known before it is opened again. */
static uint32_t end_by(ibcw_journal *journal, int code)
{
    said_by(journal, code);
    if (!sqlite3_get_autocommit(journal->file)) run(journal->file, "ROLLBACK");
    leave_log(journal->file, 1);
    journal->has_ended = 1;
    if (journal->fault.number == IBCW_NO_MEMORY) journal->fault.number = IBCW_JOURNAL_FAILED;
    return journal->fault.number;
}

/* Does a statement that gives no rows. */
static uint32_t perform(ibcw_journal *journal, sqlite3_stmt *statement)
{
    int code = sqlite3_step(statement);
    sqlite3_reset(statement);
    return is_well(code) ? (uint32_t)IBCW_DONE : end_by(journal, code);
}

static int bind_bytes(sqlite3_stmt *insert, int at, ibcw_bytes bytes)
{
    return bytes.size == 0 ? sqlite3_bind_zeroblob(insert, at, 0) : sqlite3_bind_blob64(insert, at, bytes.data, bytes.size, SQLITE_STATIC);
}

static uint32_t insert_row(ibcw_journal *journal, const row *of)
{
    sqlite3_stmt *insert = journal->insert;
    int code = sqlite3_bind_int64(insert, 1, (sqlite3_int64)of->place);
    if (code == SQLITE_OK) code = sqlite3_bind_int64(insert, 2, of->chain);
    if (code == SQLITE_OK) code = sqlite3_bind_int64(insert, 3, of->kind);
    if (code == SQLITE_OK) code = sqlite3_bind_int64(insert, 4, of->log_place);
    if (code == SQLITE_OK) code = bind_bytes(insert, 5, of->event);
    if (code == SQLITE_OK) code = bind_bytes(insert, 6, of->answer);
    if (code == SQLITE_OK) code = bind_bytes(insert, 7, of->digest);
    return code == SQLITE_OK ? perform(journal, insert) : end_by(journal, code);
}

/* Puts in the next entry of a chain. */
static uint32_t put_next(ibcw_journal *journal, reach *of, size_t chain, uint32_t log_place)
{
    stored_entry entry;
    uint8_t digest[IBCW_DIGEST_SIZE];
    row put;
    uint32_t answer = read_stored(journal, chain, of->stored[chain], &entry);
    if (answer != IBCW_DONE) return answer;
    put.place = of->end.entries;
    put.chain = entry.numbers.chain;
    put.kind = entry.numbers.kind;
    put.log_place = log_place;
    put.event = ibcw_bytes_of(journal->event, entry.event_size);
    put.answer = ibcw_bytes_of(entry.answer, entry.answer_size);
    put.digest = ibcw_bytes_of(digest, sizeof digest);
    answer = told_by(journal, next_digest(&of->end, &put, digest));
    if (answer == IBCW_DONE) answer = insert_row(journal, &put);
    if (answer == IBCW_DONE) go_behind(of, &put, digest);
    return answer;
}

/* Puts entries in, in one transaction. What the library refuses takes all of it back, and the journal goes on. */
static uint32_t put_all(ibcw_journal *journal, const uint8_t *order, uint64_t count, uint32_t log_place)
{
    reach behind = journal->reached;
    uint64_t k;
    int code;
    uint32_t answer = perform(journal, journal->begin);
    for (k = 0; answer == IBCW_DONE && k < count; k++) answer = put_next(journal, &behind, order[k], log_place);
    if (answer == IBCW_DONE) answer = perform(journal, journal->commit);
    if (answer == IBCW_DONE) {
        journal->reached = behind;
        return answer;
    }
    if (journal->has_ended) return answer;
    code = run(journal->file, "ROLLBACK");
    return code == SQLITE_OK ? answer : end_by(journal, code);
}

uint32_t ibcw_commit(ibcw_journal *journal, uint32_t log_place)
{
    crowd waiting;
    uint8_t *order;
    uint32_t answer;
    if (journal->has_ended) return fail(journal, IBCW_JOURNAL_ENDED);
    answer = count_waiting(journal, &waiting);
    if (answer != IBCW_DONE || waiting.all == 0) return answer;
    if (log_place > 0 && log_place <= journal->reached.end.log_place) return fail(journal, IBCW_JOURNAL_OLD_PLACE);
    if (waiting.all >= TOO_MANY - journal->reached.end.entries) return fail(journal, IBCW_JOURNAL_FULL);
    order = (uint8_t *)malloc((size_t)waiting.all);
    if (order == NULL) return fail(journal, IBCW_NO_MEMORY);
    answer = find_order(journal, &waiting, order);
    if (answer == IBCW_DONE) answer = put_all(journal, order, waiting.all, log_place);
    free(order);
    return answer;
}

/* ---- asking durably */

/* Whether a chain may be asked. */
static uint32_t may_ask(ibcw_journal *journal, size_t chain)
{
    if (journal->has_ended) return fail(journal, IBCW_JOURNAL_ENDED);
    return chain < journal->chains ? (uint32_t)IBCW_DONE : fail(journal, IBCW_NOTHING_THERE);
}

/* Whether a ledger that answers so has a new entry. */
static int has_entry(uint32_t answer) { return answer != IBCW_NO_MEMORY && answer < IBCW_EMPTY; }

/* Puts in the entry whose answer this is. */
static uint32_t put_answered(ibcw_journal *journal, uint32_t answer)
{
    uint32_t put;
    if (!has_entry(answer)) return fail(journal, answer);
    put = ibcw_commit(journal, 0);
    return put == IBCW_DONE || put >= IBCW_JOURNAL_NO_FILE ? put : fail(journal, IBCW_JOURNAL_WAITS);
}

/* Where a reply is told. */
typedef struct {
    ibcw_told *told;
    uint8_t *bytes;
    size_t room, *size;
} reply_room;

/* Tells that there is no reply, but this number. */
static uint32_t tell_none(const reply_room *to, uint32_t answer)
{
    to->told->kind = IBCW_TOLD_REFUSAL;
    to->told->number = answer;
    *to->size = 0;
    return answer;
}

/* Tells a reply, once its entry is in the file. */
static uint32_t tell(ibcw_journal *journal, uint32_t answer, const ibcw_replied *reply, const reply_room *to)
{
    uint32_t put = put_answered(journal, answer);
    if (put != IBCW_DONE) return tell_none(to, put);
    *to->told = reply->told;
    *to->size = reply->size;
    if (reply->size > 0 && reply->size <= to->room) memcpy(to->bytes, reply->bytes, reply->size);
    return answer;
}

uint32_t ibcw_apply_durably(ibcw_journal *journal, size_t chain, const uint8_t *message, size_t message_size, ibcw_told *told, uint8_t *bytes,
                            size_t room, size_t *size)
{
    reply_room to = {told, bytes, room, size};
    ibcw_replied reply;
    uint32_t answer = may_ask(journal, chain);
    if (answer != IBCW_DONE) return tell_none(&to, answer);
    answer = ibcw_apply(&journal->ledgers[chain], message, message_size, &reply.told, reply.bytes, sizeof reply.bytes, &reply.size);
    return tell(journal, answer, &reply, &to);
}

uint32_t ibcw_end_block_durably(ibcw_journal *journal, size_t chain, uint64_t next_time, ibcw_told *told, uint8_t *bytes, size_t room, size_t *size)
{
    reply_room to = {told, bytes, room, size};
    ibcw_replied reply;
    uint32_t answer = may_ask(journal, chain);
    if (answer != IBCW_DONE) return tell_none(&to, answer);
    answer = ibcw_end_block(&journal->ledgers[chain], next_time, &reply.told, reply.bytes, sizeof reply.bytes, &reply.size);
    return tell(journal, answer, &reply, &to);
}

/* ---- audits */

uint32_t ibcw_audit_journal(ibcw_journal *journal, ibcw_audit *audit)
{
    size_t joined = 0, chain;
    uint32_t answer = IBCW_DONE;
    while (answer == IBCW_DONE && joined < journal->chains) {
        answer = ibcw_join_ledger(&journal->world, &journal->ledgers[joined]);
        if (answer == IBCW_DONE) joined++;
    }
    if (answer == IBCW_DONE) answer = ibcw_make_audit(&journal->world, audit);
    for (chain = 0; chain < joined; chain++) {
        uint32_t taken = ibcw_take_ledger(&journal->world, &journal->ledgers[chain]);
        if (taken == IBCW_DONE) continue;
        journal->has_ended = 1;
        return fail(journal, taken);
    }
    return told_by(journal, answer);
}
