/* A journal of the library's: what it says of files that aren't whole, or none of its own; what it keeps where programs are ended by SIGKILL at random
   moments, where the disk is full, and where each allocation is refused in turn; and in which order it puts in what several ledgers were asked.

       journal faults FOLDER         each fault of ibcworld_journal.h that a file can have, and that the file stays as it was
       journal harmed FOLDER N SEED  so many files and logs that are cut, or of which a byte is changed
       journal texts FILE ..         says of each text whether a world begins so
       journal order FOLDER          ledgers that were asked by turns, and put in by one commit
       journal kills FOLDER N SEED   so many programs that are ended by SIGKILL
       journal memory FOLDER         each allocation of an opening and of a commit is refused, the library's and sqlite3's
       journal disk FOLDER           commits that fail: by a limit, and for want of room where FOLDER is a small disk
       journal go FILE N SEED [kill] goes on with a journal by so many events, prints how many entries there are, and ends well, or by SIGKILL
       journal genesis               prints the text of the genesis

   FOLDER is empty. Link it with sqlite3 and -Wl,--wrap=malloc,--wrap=realloc,--wrap=calloc. */
#define _GNU_SOURCE

#include "ibcworld_journal.h"
#include "ibcworld_messages.h"

#include "../../bindings/c/journal.h"

#include <sqlite3.h>
#include <stdio.h>
#include <sys/resource.h>
#include <sys/stat.h>
#include <sys/types.h>
#include <sys/wait.h>
#include <time.h>
#include <unistd.h>

#include <signal.h>

enum { TIME = 100, NAME = 512 };

static const char *const GENESIS =
    "{\"capacity\": 1000000, \"window\": 3, \"chains\": [{\"name\": \"a\", \"time\": 100, \"balances\": [[\"alice\", \"atom\", \"1000000\"]]},\n"
    " {\"name\": \"b\", \"time\": 100, \"balances\": []}], \"steps\": []}\n";

static const char *const GENESIS_OF_THREE =
    "{\"capacity\": 1000000, \"window\": 2, \"chains\": [{\"name\": \"a\", \"time\": 100, \"balances\": []}, {\"name\": \"b\", \"time\": 100, \"balances\": []},"
    " {\"name\": \"c\", \"time\": 100, \"balances\": [[\"alice\", \"atom\", \"5\"]]}], \"steps\": []}";

static int done;

/* How many chains are asked. */
static size_t chains = 2;

static void stop(const char *what, const char *why)
{
    fprintf(stderr, "%s: %s\n", what, why);
    exit(1);
}

static void want_true(int is_so, const char *what)
{
    if (!is_so) stop(what, "it isn't so");
}

static const char *name_of(uint32_t number) { return number > 200 ? ibcw_fault_name(number) : ibcw_refusal_name(number); }

static void want(uint32_t answer, uint32_t wanted, const char *what)
{
    if (answer != wanted) {
        fprintf(stderr, "%s: %s in place of %s\n", what, name_of(answer), name_of(wanted));
        exit(1);
    }
}

/* A thing was tried, and answered as it should be. */
static void tried(const char *what, const char *told) { printf("%d: %s: %s\n", ++done, what, told); }

/* ---- allocations that are refused */

void *__real_malloc(size_t size);
void *__real_realloc(void *old, size_t size);
void *__real_calloc(size_t count, size_t size);
void *__wrap_malloc(size_t size);
void *__wrap_realloc(void *old, size_t size);
void *__wrap_calloc(size_t count, size_t size);

/* How many allocations are granted before one is refused, or -1; of the library and of this program, and of sqlite3. */
static long granted = -1, granted_to_sqlite = -1;

static int is_refused(long *left)
{
    if (*left < 0) return 0;
    return (*left)-- == 0;
}

void *__wrap_malloc(size_t size) { return is_refused(&granted) ? NULL : __real_malloc(size); }

void *__wrap_realloc(void *old, size_t size) { return is_refused(&granted) ? NULL : __real_realloc(old, size); }

void *__wrap_calloc(size_t count, size_t size) { return is_refused(&granted) ? NULL : __real_calloc(count, size); }

static sqlite3_mem_methods real_memory;

static void *sqlite_malloc(int size) { return is_refused(&granted_to_sqlite) ? NULL : real_memory.xMalloc(size); }

static void *sqlite_realloc(void *old, int size) { return is_refused(&granted_to_sqlite) ? NULL : real_memory.xRealloc(old, size); }

static void watch_sqlite(void)
{
    sqlite3_mem_methods watched;
    want_true(sqlite3_config(SQLITE_CONFIG_GETMALLOC, &real_memory) == SQLITE_OK, "sqlite3's memory");
    watched = real_memory;
    watched.xMalloc = sqlite_malloc;
    watched.xRealloc = sqlite_realloc;
    want_true(sqlite3_config(SQLITE_CONFIG_MALLOC, &watched) == SQLITE_OK, "sqlite3's memory is watched");
}

/* ---- files */

static char *join(char *place, const char *folder, const char *name)
{
    want_true(snprintf(place, NAME, "%s/%s", folder, name) < NAME, "a name that has room");
    return place;
}

/* A file's name with an ending. */
static char *behind(char *place, const char *path, const char *ending)
{
    want_true(snprintf(place, NAME, "%s%s", path, ending) < NAME, "a name that has room");
    return place;
}

static void write_file(const char *path, const char *text, size_t size)
{
    FILE *file = fopen(path, "wb");
    want_true(file != NULL && fwrite(text, 1, size, file) == size && fclose(file) == 0, "a file is written");
}

/* The bytes of a file, and their number; -1 where there is none. */
static char *read_file(const char *path, long *size)
{
    struct stat found;
    FILE *file;
    char *bytes;
    *size = -1;
    if (stat(path, &found) != 0 || !S_ISREG(found.st_mode)) return NULL;
    *size = (long)found.st_size;
    file = fopen(path, "rb");
    bytes = (char *)malloc((size_t)*size + 1);
    want_true(file != NULL && bytes != NULL && fread(bytes, 1, (size_t)*size, file) == (size_t)*size, "a file is read");
    fclose(file);
    return bytes;
}

/* A copy of a journal and of its log. */
static void copy_files(const char *from, const char *to)
{
    static const char *const endings[] = {"", "-wal", "-journal"};
    char source[NAME], target[NAME];
    long size;
    int k;
    for (k = 0; k < 3; k++) {
        char *bytes;
        unlink(behind(target, to, endings[k]));
        bytes = read_file(behind(source, from, endings[k]), &size);
        if (bytes != NULL) write_file(target, bytes, (size_t)size);
        free(bytes);
    }
}

/* Has sqlite3 change a file. */
static void change(const char *path, const char *sql)
{
    sqlite3 *file = NULL;
    char *why = NULL;
    want_true(sqlite3_open(path, &file) == SQLITE_OK, "a file is opened");
    if (sqlite3_exec(file, sql, NULL, NULL, &why) != SQLITE_OK) stop(sql, why);
    sqlite3_close(file);
}

/* ---- asking */

static ibcw_journal *open_well(const char *path, const char *genesis)
{
    ibcw_journal *journal = NULL;
    ibcw_fault fault;
    uint32_t answer = ibcw_open_journal(path, genesis, genesis == NULL ? 0 : strlen(genesis), &journal, &fault);
    if (answer != IBCW_DONE) stop(path, fault.text);
    want_true(fault.number == IBCW_DONE && fault.text[0] == 0, "no fault");
    return journal;
}

static uint64_t entries_of(const ibcw_journal *journal)
{
    ibcw_journal_end end;
    ibcw_journal_told(journal, &end);
    return end.entries;
}

/* An event: the end of a block, or a message. */
typedef struct {
    size_t chain;
    int is_block;
    uint64_t time;
    uint8_t bytes[256];
    size_t size;
} event;

static void spell(event *of, const ibcw_message *message)
{
    of->is_block = 0;
    want(ibcw_write_message(message, of->bytes, sizeof of->bytes, &of->size), IBCW_DONE, "a message is spelled");
}

static uint64_t drawn;

/* A number below another (Steele, Lea and Flood, "SplitMix"). */
static uint64_t draw(uint64_t below)
{
    uint64_t number = drawn += 0x9e3779b97f4a7c15u;
    number = (number ^ number >> 30) * 0xbf58476d1ce4e5b9u;
    number = (number ^ number >> 27) * 0x94d049bb133111ebu;
    return (number ^ number >> 31) % below;
}

/* An event that is drawn: a block, which may have an earlier time; a client, or one of a chain that isn't there; an update with a height that is gone, there
   or to come, by a root that is mostly wrong; or a transfer over no channel. */
static event drawn_event(void)
{
    static const uint8_t root[32];
    event of;
    ibcw_message message;
    size_t other;
    of.chain = draw(chains);
    other = (of.chain + 1 + draw(chains - 1)) % chains;
    of.time = draw(20) == 0 ? TIME - 1 : TIME;
    of.is_block = 1;
    switch (draw(4)) {
    case 0:
        message = ibcw_message_of(IBCW_CREATE_CLIENT);
        message.chain = (uint8_t)(draw(10) == 0 ? 7 : other);
        break;
    case 1:
        message = ibcw_message_of(IBCW_UPDATE_CLIENT);
        message.client = ibcw_text(draw(2) == 0 ? "inprocess-0" : "inprocess-1");
        message.chain = (uint8_t)other;
        message.header_height = 1 + draw(12);
        message.header_time = TIME;
        message.root = ibcw_bytes_of(root, sizeof root);
        break;
    case 2:
        message = ibcw_message_of(IBCW_TRANSFER);
        message.channel = ibcw_text("channel-0");
        message.user = ibcw_text("alice");
        message.denom = ibcw_text("atom");
        message.amount.low = 1 + draw(3);
        message.receiver = ibcw_text("bob");
        message.timeout_height = 1000;
        break;
    default: return of;
    }
    spell(&of, &message);
    return of;
}

static uint32_t ask_durably(ibcw_journal *journal, const event *of, ibcw_replied *reply)
{
    if (of->is_block)
        return ibcw_end_block_durably(journal, of->chain, of->time, &reply->told, reply->bytes, sizeof reply->bytes, &reply->size);
    return ibcw_apply_durably(journal, of->chain, of->bytes, of->size, &reply->told, reply->bytes, sizeof reply->bytes, &reply->size);
}

static uint32_t ask(ibcw_ledger *ledgers, const event *of, ibcw_replied *reply)
{
    if (of->is_block) return ibcw_end_block(&ledgers[of->chain], of->time, &reply->told, reply->bytes, sizeof reply->bytes, &reply->size);
    return ibcw_apply(&ledgers[of->chain], of->bytes, of->size, &reply->told, reply->bytes, sizeof reply->bytes, &reply->size);
}

/* Asks durably for so many events, each of which is answered by its ledger. */
static void go_on(ibcw_journal *journal, int count)
{
    ibcw_replied reply;
    int k;
    for (k = 0; k < count; k++) {
        event of = drawn_event();
        uint32_t answer = ask_durably(journal, &of, &reply);
        want_true(answer < IBCW_EMPTY && answer != IBCW_NO_MEMORY, "a ledger's own answer");
        want_true(answer == (reply.told.kind == IBCW_TOLD_REFUSAL ? reply.told.number : 0), "the reply that is told");
    }
}

static uint64_t length_of(ibcw_ledger *ledger)
{
    uint64_t length = 0;
    want(ibcw_length(&ledger->handle, &length), IBCW_DONE, "a length");
    return length;
}

static int is_same_reply(const ibcw_replied *one, const ibcw_replied *other)
{
    return one->told.kind == other->told.kind && one->told.number == other->told.number && one->size == other->size &&
           memcmp(one->bytes, other->bytes, one->size) == 0;
}

/* Two journals have the same entries: their last digests tell. Their ledgers answered the same. */
static void want_same(ibcw_journal *one, ibcw_journal *other)
{
    ibcw_journal_end ends[2];
    size_t count = 0, chain;
    ibcw_ledger *ledgers = ibcw_journal_ledgers(one, &count), *others = ibcw_journal_ledgers(other, &count);
    ibcw_journal_told(one, &ends[0]);
    ibcw_journal_told(other, &ends[1]);
    want_true(ends[0].entries == ends[1].entries && memcmp(ends[0].digest, ends[1].digest, 32) == 0, "the same entries");
    for (chain = 0; chain < count; chain++) {
        uint64_t length = length_of(&ledgers[chain]), k;
        want_true(length == length_of(&others[chain]), "histories of one length");
        for (k = 0; k < length; k++) {
            ibcw_replied reply, again;
            want(ibcw_reply(&ledgers[chain], k, &reply.told, reply.bytes, sizeof reply.bytes, &reply.size), IBCW_DONE, "a reply");
            want(ibcw_reply(&others[chain], k, &again.told, again.bytes, sizeof again.bytes, &again.size), IBCW_DONE, "a reply again");
            want_true(is_same_reply(&reply, &again), "the same replies");
        }
    }
}

/* ---- faults */

/* A journal is refused so, with this text, and the files stay as they were. */
static void refused(const char *path, const char *genesis, uint32_t wanted, const char *text, const char *what)
{
    static const char *const endings[] = {"", "-wal"};
    ibcw_journal *journal = NULL;
    ibcw_fault fault;
    char *before[2], *after[2], name[NAME];
    long sizes[2], size;
    int k;
    for (k = 0; k < 2; k++) before[k] = read_file(behind(name, path, endings[k]), &sizes[k]);
    want(ibcw_open_journal(path, genesis, genesis == NULL ? 0 : strlen(genesis), &journal, &fault), wanted, what);
    want_true(journal == NULL && fault.number == wanted, "no journal");
    if (strcmp(fault.text, text) != 0) stop(what, fault.text);
    for (k = 0; k < 2; k++) {
        after[k] = read_file(behind(name, path, endings[k]), &size);
        want_true(size == sizes[k] && (size <= 0 || memcmp(before[k], after[k], (size_t)size) == 0), what);
        free(before[k]);
        free(after[k]);
    }
    tried(what, fault.text);
}

/* Changes a copy of a journal by sqlite3, and sees it refused. */
static void changed(const char *whole, const char *copy, const char *sql, uint32_t wanted, const char *text, const char *what)
{
    copy_files(whole, copy);
    change(copy, sql);
    refused(copy, NULL, wanted, text, what);
}

/* Gives all entries of a file the digests that are due to them. */
static void digest_anew(const char *path)
{
    sqlite3 *file = NULL;
    sqlite3_stmt *query = NULL, *update = NULL;
    uint8_t digest[32];
    size_t size = 0;
    want_true(sqlite3_open(path, &file) == SQLITE_OK, "a file is opened");
    want_true(sqlite3_prepare_v2(file, "SELECT genesis FROM meta", -1, &query, NULL) == SQLITE_OK && sqlite3_step(query) == SQLITE_ROW, "a genesis");
    want(ibcw_first_digest((const uint8_t *)sqlite3_column_blob(query, 0), (size_t)sqlite3_column_bytes(query, 0), digest, 32, &size), IBCW_DONE, "a digest");
    sqlite3_finalize(query);
    want_true(sqlite3_prepare_v2(file, "SELECT place, chain, kind, log_place, event, answer FROM entries ORDER BY place", -1, &query, NULL) == SQLITE_OK, "entries");
    want_true(sqlite3_prepare_v2(file, "UPDATE entries SET digest = ?1 WHERE place = ?2", -1, &update, NULL) == SQLITE_OK, "an update");
    while (sqlite3_step(query) == SQLITE_ROW) {
        uint8_t next[32];
        want(ibcw_next_digest(digest, 32, (uint32_t)sqlite3_column_int64(query, 1), (uint32_t)sqlite3_column_int64(query, 2),
                              (uint32_t)sqlite3_column_int64(query, 3), (const uint8_t *)sqlite3_column_blob(query, 4), (size_t)sqlite3_column_bytes(query, 4),
                              (const uint8_t *)sqlite3_column_blob(query, 5), (size_t)sqlite3_column_bytes(query, 5), next, 32, &size),
             IBCW_DONE, "a digest");
        memcpy(digest, next, 32);
        sqlite3_bind_blob(update, 1, digest, 32, SQLITE_STATIC);
        sqlite3_bind_int64(update, 2, sqlite3_column_int64(query, 0));
        want_true(sqlite3_step(update) == SQLITE_DONE, "a digest is put in");
        sqlite3_reset(update);
    }
    sqlite3_finalize(update);
    sqlite3_finalize(query);
    want_true(sqlite3_close(file) == SQLITE_OK, "a file is closed");
}

static void changed_anew(const char *whole, const char *copy, const char *sql, uint32_t wanted, const char *text, const char *what)
{
    copy_files(whole, copy);
    change(copy, sql);
    digest_anew(copy);
    refused(copy, NULL, wanted, text, what);
}

static void faults_of_entries(const char *whole, const char *copy)
{
    changed(whole, copy, "UPDATE entries SET answer = x'010100' WHERE place = 7", IBCW_JOURNAL_DAMAGED, "the entry at place 7 is damaged", "a changed answer");
    changed(whole, copy, "UPDATE entries SET log_place = 3 WHERE place = 4", IBCW_JOURNAL_DAMAGED, "the entry at place 4 is damaged", "a changed place of a log");
    changed(whole, copy, "UPDATE entries SET digest = x'' WHERE place = 5", IBCW_JOURNAL_DAMAGED, "the entry at place 5 is damaged", "no digest");
    changed(whole, copy, "DELETE FROM entries WHERE place = 11", IBCW_JOURNAL_GAP, "there is no entry at place 11, and there are some behind it", "a missing entry");
    changed(whole, copy, "INSERT INTO entries VALUES (-1, 0, 0, 0, x'', x'', x'')", IBCW_JOURNAL_EARLY, "there is an entry before place 0", "an early entry");
    changed(whole, copy, "UPDATE entries SET chain = 4294967296 WHERE place = 3", IBCW_JOURNAL_NO_ENTRY, "no entry stands at place 3", "a number that is too large");
    changed_anew(whole, copy, "UPDATE entries SET chain = 256 WHERE place = 3", IBCW_JOURNAL_NO_ENTRY, "no entry stands at place 3", "a chain that is no byte");
    changed_anew(whole, copy, "UPDATE entries SET kind = 2 WHERE place = 6", IBCW_JOURNAL_NO_ENTRY, "no entry stands at place 6", "an unknown kind");
    changed_anew(whole, copy, "UPDATE entries SET event = x'63' WHERE place = 8", IBCW_JOURNAL_NO_ENTRY, "no entry stands at place 8", "an event that is none");
    changed_anew(whole, copy, "UPDATE entries SET answer = x'021f00' WHERE place = 9", IBCW_JOURNAL_OTHER_ANSWER, "another answer is due at place 9", "another answer");
    changed_anew(whole, copy, "UPDATE entries SET chain = 7 WHERE place = 10", IBCW_JOURNAL_OTHER_ANSWER, "another answer is due at place 10", "another chain");
    changed_anew(whole, copy, "UPDATE entries SET answer = x'021f00' WHERE place = 9; DELETE FROM entries WHERE place = 20", IBCW_JOURNAL_OTHER_ANSWER,
                 "another answer is due at place 9", "another answer before a missing entry");
}

static void faults_of_tables(const char *whole, const char *copy)
{
    static const char *const gone = "DROP TABLE entries; DROP TABLE meta;";
    char sql[256];
    changed(whole, copy, "UPDATE meta SET format = 2", IBCW_JOURNAL_OTHER_FORMAT, "the journal is of format 2", "a later format");
    changed(whole, copy, "DELETE FROM meta", IBCW_JOURNAL_BEGINNINGS, "the journal hasn't one beginning", "no beginning");
    changed(whole, copy, "INSERT INTO meta VALUES (3, x'')", IBCW_JOURNAL_BEGINNINGS, "the journal hasn't one beginning", "two beginnings");
    changed(whole, copy, "CREATE INDEX by_chain ON entries(chain)", IBCW_JOURNAL_NONE, "the file is no journal", "a further index");
    changed(whole, copy, "ALTER TABLE entries ADD COLUMN more BLOB", IBCW_JOURNAL_NONE, "the file is no journal", "a further column");
    snprintf(sql, sizeof sql, "%s CREATE TABLE meta(format INTEGER); INSERT INTO meta VALUES (7)", gone);
    changed(whole, copy, sql, IBCW_JOURNAL_OTHER_FORMAT, "the journal is of format 7", "tables of a format to come");
    snprintf(sql, sizeof sql, "%s CREATE TABLE meta(format TEXT); INSERT INTO meta VALUES ('x')", gone);
    changed(whole, copy, sql, IBCW_JOURNAL_NONE, "the file is no journal", "a format that is no number");
    snprintf(sql, sizeof sql, "%s CREATE TABLE notes(text TEXT)", gone);
    changed(whole, copy, sql, IBCW_JOURNAL_NONE, "the file is no journal", "another database");
    changed(whole, copy, "PRAGMA journal_mode=DELETE; CREATE TABLE notes(text TEXT)", IBCW_JOURNAL_NONE, "the file is no journal", "one with a rollback journal");
    changed(whole, copy, gone, IBCW_JOURNAL_NEW, "the file is new: give a genesis", "no table");
    changed_anew(whole, copy, "UPDATE meta SET genesis = x'7b7d'", IBCW_JOURNAL_BAD_GENESIS, "no world begins with the genesis", "a genesis that is none");
}

/* A file whose bytes are gone, or other ones. `log` is one of which nothing is in the file yet. */
static void faults_of_bytes(const char *whole, const char *log, const char *copy)
{
    char name[NAME];
    long size;
    char *bytes = read_file(whole, &size);
    write_file(copy, bytes, (size_t)size / 2 + 100);
    unlink(behind(name, copy, "-wal"));
    refused(copy, NULL, IBCW_JOURNAL_BROKEN, "database disk image is malformed", "half a file");
    write_file(copy, bytes, 1);
    refused(copy, NULL, IBCW_JOURNAL_NEW, "the file is new: give a genesis", "a byte, which is none to sqlite3");
    write_file(copy, bytes, 2);
    refused(copy, GENESIS, IBCW_JOURNAL_NO_DATABASE, "file is not a database", "two bytes");
    memset(bytes, 'x', 16);
    write_file(copy, bytes, (size_t)size);
    refused(copy, GENESIS, IBCW_JOURNAL_NO_DATABASE, "file is not a database", "a file of another kind");
    free(bytes);
    copy_files(log, copy);
    write_file(copy, "", 0);
    refused(copy, GENESIS, IBCW_JOURNAL_NONE, "the file is no journal", "an empty file beside its log");
    write_file(copy, "S", 1);
    refused(copy, GENESIS, IBCW_JOURNAL_NONE, "the file is no journal", "a byte beside its log");
    unlink(copy);
    refused(copy, GENESIS, IBCW_JOURNAL_NONE, "the file is no journal", "a log without its file");
    bytes = read_file(name, &size);
    unlink(name);
    change(copy, "PRAGMA journal_mode=WAL");
    bytes[0] = 0;
    write_file(name, bytes, (size_t)size);
    free(bytes);
    refused(copy, GENESIS, IBCW_JOURNAL_NONE, "the file is no journal", "a file without tables beside a damaged log");
    unlink(copy);
    unlink(name);
    refused(copy, NULL, IBCW_JOURNAL_NO_FILE, "there is no such file", "no file");
    refused(copy, "{}", IBCW_JOURNAL_BAD_GENESIS, "no world begins with the genesis", "a new file without a world");
    write_file(copy, "", 0);
    refused(copy, NULL, IBCW_JOURNAL_NEW, "the file is new: give a genesis", "an empty file");
    refused(copy, "{}", IBCW_JOURNAL_BAD_GENESIS, "no world begins with the genesis", "an empty file without a world");
}

/* Where the file is held, is a folder, or can't be written. */
static void faults_of_places(const char *folder, const char *whole)
{
    char name[NAME];
    ibcw_journal *journal = open_well(whole, NULL);
    pid_t child;
    int status = 0;
    refused(whole, NULL, IBCW_JOURNAL_HELD, "database is locked", "a journal that is open");
    child = fork();
    if (child == 0) {
        ibcw_journal *other = NULL;
        ibcw_fault fault;
        _exit(ibcw_open_journal(whole, NULL, 0, &other, &fault) == IBCW_JOURNAL_HELD ? 0 : 1);
    }
    want_true(waitpid(child, &status, 0) == child && status == 0, "another process is refused");
    tried("another process", "database is locked");
    ibcw_close_journal(journal);
    refused(folder, GENESIS, IBCW_JOURNAL_NOT_OPENED, "unable to open database file", "a folder");
    refused(join(name, folder, "nowhere/world.db"), GENESIS, IBCW_JOURNAL_NOT_OPENED, "unable to open database file", "a folder that isn't there");
    refused("", GENESIS, IBCW_JOURNAL_NOT_OPENED, "unable to open database file", "no name");
}

/* Tries a file that can't be written, as another user than root. */
static void fault_of_readers(const char *whole)
{
    int status = 0;
    pid_t child;
    want_true(chmod(whole, 0444) == 0, "a file that can't be written");
    child = fork();
    if (child == 0) {
        if (getuid() == 0 && setuid(65534) != 0) _exit(1);
        refused(whole, NULL, IBCW_JOURNAL_READ_ONLY, "attempt to write a readonly database", "a file that can't be written");
        fflush(stdout);
        _exit(0);
    }
    want_true(waitpid(child, &status, 0) == child && status == 0, "a file that can't be written is refused");
    done++;
    want_true(chmod(whole, 0644) == 0, "a file that can be written");
}

/* What is made is opened again, and goes on. */
static void whole_journals(const char *whole, const char *log, const char *copy)
{
    ibcw_journal *journal = open_well(whole, GENESIS), *other;
    ibcw_journal_end end;
    size_t size = 0;
    want_true(strcmp(ibcw_journal_genesis(journal, &size), GENESIS) == 0 && size == strlen(GENESIS), "the text of the genesis");
    go_on(journal, 200);
    copy_files(whole, log);
    copy_files(whole, copy);
    ibcw_journal_told(journal, &end);
    want_true(end.entries == 200 && end.log_place == 0, "200 entries");
    other = open_well(copy, NULL);
    want_same(journal, other);
    ibcw_close_journal(other);
    ibcw_close_journal(journal);
    tried("a copy with its log", "opened");
    copy_files(whole, copy);
    journal = open_well(copy, GENESIS);
    go_on(journal, 20);
    want_true(entries_of(journal) == 220, "220 entries");
    ibcw_close_journal(journal);
    tried("a journal that goes on", "opened");
    change(copy, "PRAGMA journal_mode=DELETE");
    journal = open_well(copy, GENESIS);
    go_on(journal, 1);
    ibcw_close_journal(journal);
    tried("a journal that was given a rollback journal", "opened");
}

static void try_faults(const char *folder)
{
    char whole[NAME], log[NAME], copy[NAME];
    join(whole, folder, "whole.db");
    join(log, folder, "log.db");
    join(copy, folder, "copy.db");
    whole_journals(whole, log, copy);
    refused(whole, "{ }", IBCW_JOURNAL_OTHER_GENESIS, "the journal began with another genesis", "another genesis");
    faults_of_entries(whole, copy);
    faults_of_tables(whole, copy);
    faults_of_bytes(whole, log, copy);
    faults_of_places(folder, whole);
    fault_of_readers(whole);
    printf("%d things of files\n", done);
}

/* ---- files that are harmed */

/* The digests of all entries, by their places. */
static uint8_t (*digests_of(ibcw_journal *journal, const char *path, uint64_t *count))[32]
{
    sqlite3 *file = NULL;
    sqlite3_stmt *query = NULL;
    uint8_t(*digests)[32];
    uint64_t k = 0;
    *count = entries_of(journal);
    digests = (uint8_t(*)[32])malloc((size_t)*count * 32);
    want_true(digests != NULL && sqlite3_open(path, &file) == SQLITE_OK, "a file is opened");
    want_true(sqlite3_prepare_v2(file, "SELECT digest FROM entries ORDER BY place", -1, &query, NULL) == SQLITE_OK, "digests");
    for (; sqlite3_step(query) == SQLITE_ROW && k < *count; k++) memcpy(digests[k], sqlite3_column_blob(query, 0), 32);
    want_true(k == *count, "all digests");
    sqlite3_finalize(query);
    sqlite3_close(file);
    return digests;
}

/* Cuts a file, or changes a byte of it. */
static void harm(const char *path)
{
    long size = 0;
    char *bytes = read_file(path, &size);
    if (size <= 0) stop(path, "there is nothing to be harmed");
    if (draw(2) == 0) {
        size = (long)draw((uint64_t)size);
    } else {
        long at = (long)draw((uint64_t)size);
        bytes[at] = (char)(bytes[at] ^ (char)(1 << draw(8)));
    }
    write_file(path, bytes, (size_t)size);
    free(bytes);
}

/* A harmed journal is refused with a fault of files, or has its entries; or a beginning of them, where its log was harmed. Answers whether it was opened. */
static int judge_harmed(const char *path, uint8_t (*digests)[32], uint64_t count, int is_log)
{
    ibcw_journal *journal = NULL;
    ibcw_journal_end end;
    ibcw_fault fault;
    uint32_t answer = ibcw_open_journal(path, GENESIS, strlen(GENESIS), &journal, &fault);
    if (answer != IBCW_DONE) {
        want_true(journal == NULL && answer >= IBCW_JOURNAL_NO_FILE && answer <= IBCW_JOURNAL_FAILED && fault.text[0] != 0, "a fault of a file");
        return 0;
    }
    ibcw_journal_told(journal, &end);
    want_true(is_log ? end.entries <= count : end.entries == count, "no entry more, and none less of a file");
    want_true(end.entries == 0 || memcmp(end.digest, digests[end.entries - 1], 32) == 0, "the entries that were there");
    ibcw_close_journal(journal);
    return 1;
}

static void try_harms(const char *folder, int count)
{
    char whole[NAME], log[NAME], copy[NAME], name[NAME];
    ibcw_journal *journal = open_well(join(whole, folder, "whole.db"), GENESIS);
    uint8_t(*digests)[32];
    uint64_t entries;
    int opened[3] = {0, 0, 0}, k;
    join(copy, folder, "copy.db");
    go_on(journal, 400);
    copy_files(whole, join(log, folder, "log.db"));
    copy_files(whole, copy);
    digests = digests_of(journal, copy, &entries);
    ibcw_close_journal(journal);
    for (k = 0; k < count; k++) {
        int which = k % 3;
        copy_files(which == 0 ? whole : log, copy);
        harm(which == 2 ? behind(name, copy, "-wal") : copy);
        opened[which] += judge_harmed(copy, digests, entries, which == 2);
    }
    free(digests);
    printf("of %d harmed journals %d, %d and %d were opened: files, files beside a log, and logs\n", count, opened[0], opened[1], opened[2]);
}

/* ---- texts of a genesis */

/* Whether a world begins with a text. */
static int begins_world(const char *text, size_t size)
{
    ibcw_genesis genesis = IBCW_HANDLE_INIT;
    ibcw_ledgers ledgers = IBCW_HANDLE_INIT;
    uint32_t answer = ibcw_read_genesis(text, size, &genesis);
    if (answer == IBCW_DONE) answer = ibcw_make_ledgers(&genesis, &ledgers);
    want_true(answer == IBCW_DONE || answer == IBCW_BAD_MESSAGE, "a text is taken, or it is none");
    ibcw_free(&genesis.handle);
    ibcw_free(&ledgers.handle);
    return answer == IBCW_DONE;
}

static void judge_texts(char **paths, int count)
{
    int k;
    for (k = 0; k < count; k++) {
        long size = 0;
        char *text = read_file(paths[k], &size);
        want_true(text != NULL, "a text is there");
        puts(begins_world(text, (size_t)size) ? "a world" : "none");
        free(text);
    }
}

/* ---- the order of entries */

/* No order has an update that looked at heights which aren't published, or at a height that was gone too early. */
static void try_no_order(void)
{
    ibcw_waiting waiting[3] = {{0, IBCW_SEES_NONE, 0, 0, 0}, {0, 1, 0, 0, 5}, {1, IBCW_SEES_NONE, 0, 1, 5}};
    const uint64_t counts[IBCW_MOST_CHAINS] = {2, 1}, heights[IBCW_MOST_CHAINS] = {0, 4};
    uint8_t order[3];
    want_true(ibcw_order_waiting(waiting, counts, heights, order) && order[0] == 0 && order[1] == 1 && order[2] == 0, "a block before what looks at it");
    waiting[1].height = 4;
    want_true(ibcw_order_waiting(waiting, counts, heights, order) && order[0] == 0 && order[1] == 0 && order[2] == 1, "a block behind what looks before it");
    waiting[1].is_late = 1;
    want_true(!ibcw_order_waiting(waiting, counts, heights, order), "a height that was gone too early");
    waiting[1].is_late = 0;
    waiting[1].height = 6;
    want_true(!ibcw_order_waiting(waiting, counts, heights, order), "a height that isn't published");
    tried("looks that threads had", "no order");
}

/* What is refused and changes nothing. */
static void try_refused_commits(ibcw_journal *journal)
{
    size_t count = 0;
    ibcw_ledger *ledgers = ibcw_journal_ledgers(journal, &count), held;
    ibcw_replied reply;
    uint64_t entries = entries_of(journal);
    event of = drawn_event();
    of.chain = 2;
    want(ask_durably(journal, &of, &reply), IBCW_NOTHING_THERE, "a chain that isn't there");
    want_true(reply.told.kind == IBCW_TOLD_REFUSAL && reply.told.number == IBCW_NOTHING_THERE && reply.size == 0, "no reply");
    want(ibcw_apply_durably(journal, 0, (const uint8_t *)"c", 1, &reply.told, reply.bytes, sizeof reply.bytes, &reply.size), IBCW_NO_MESSAGE, "no message");
    of.chain = 1;
    ask(ledgers, &of, &reply);
    want(ibcw_commit(journal, 7), IBCW_JOURNAL_OLD_PLACE, "a place of a log that was");
    held = ledgers[0];
    ledgers[0] = ledgers[1];
    ledgers[1] = held;
    want(ibcw_commit(journal, 0), IBCW_OTHER_WORLD, "ledgers that stand elsewhere");
    ledgers[1] = ledgers[0];
    ledgers[0] = held;
    held = ledgers[1];
    ledgers[1].handle.at = NULL;
    want(ibcw_commit(journal, 0), IBCW_EMPTY, "a ledger that is gone");
    ledgers[1] = held;
    want_true(entries_of(journal) == entries, "as many entries");
    want(ibcw_commit(journal, 0), IBCW_DONE, "what waits");
    want_true(entries_of(journal) == entries + 1, "an entry more");
    tried("commits that are refused", "nothing has changed");
}

/* Asks all ledgers by turns for so many events, and commits now and then. What waits at the end is put in by a place of a log. */
static void ask_by_turns(ibcw_journal *journal, int events)
{
    size_t count = 0;
    ibcw_ledger *ledgers = ibcw_journal_ledgers(journal, &count);
    uint64_t waiting = 0;
    int k;
    want_true(count == chains, "all ledgers");
    for (k = 0; k < events; k++) {
        ibcw_replied reply;
        event of = drawn_event();
        want_true(ask(ledgers, &of, &reply) < IBCW_EMPTY, "a ledger's answer");
        waiting++;
        if (draw(25) > 0) continue;
        want(ibcw_commit(journal, 0), IBCW_DONE, "a commit");
        waiting = 0;
    }
    want_true(entries_of(journal) == (uint64_t)events - waiting, "all that was committed");
    want(ibcw_commit(journal, 8), IBCW_DONE, "the last commit");
    want(ibcw_commit(journal, 3), IBCW_DONE, "a commit of nothing");
    want_true(entries_of(journal) == (uint64_t)events, "all events");
}

/* A copy of a journal is the same world. */
static void want_again(ibcw_journal *journal, const char *path, const char *copy)
{
    ibcw_journal *again;
    copy_files(path, copy);
    again = open_well(copy, NULL);
    want_same(journal, again);
    ibcw_close_journal(again);
    ibcw_close_journal(journal);
}

static void try_order(const char *folder)
{
    char path[NAME], copy[NAME];
    ibcw_journal *journal = open_well(join(path, folder, "order.db"), GENESIS);
    ibcw_journal_end end;
    ask_by_turns(journal, 3000);
    try_refused_commits(journal);
    ibcw_journal_told(journal, &end);
    want_true(end.entries == 3001 && end.log_place == 8, "the end");
    want_again(journal, path, join(copy, folder, "again.db"));
    tried("two ledgers that were asked by turns", "replayed");
    chains = 3;
    journal = open_well(join(path, folder, "three.db"), GENESIS_OF_THREE);
    ask_by_turns(journal, 3000);
    want_again(journal, path, join(copy, folder, "three-again.db"));
    tried("three ledgers that were asked by turns", "replayed");
    try_no_order();
    printf("%d things of an order\n", done);
}

/* ---- programs that are ended */

/* What a program tells of an entry, once it is answered. */
typedef struct {
    uint64_t place;
    size_t chain;
    uint64_t index;
    ibcw_replied reply;
} answered;

/* Asks until it is ended, and tells each answer. Some are told together, behind one commit. */
static void ask_until_ended(const char *path, int to)
{
    ibcw_journal *journal = open_well(path, GENESIS);
    size_t count = 0;
    ibcw_ledger *ledgers = ibcw_journal_ledgers(journal, &count);
    for (;;) {
        answered told[4];
        int k, many = (int)draw(4);
        memset(told, 0, sizeof told);
        for (k = 0; k <= many; k++) {
            event of = drawn_event();
            uint32_t answer = many == 0 ? ask_durably(journal, &of, &told[k].reply) : ask(ledgers, &of, &told[k].reply);
            if (answer >= IBCW_EMPTY) _exit(9);
            told[k].chain = of.chain;
            told[k].index = length_of(&ledgers[of.chain]) - 1;
        }
        if (many > 0 && ibcw_commit(journal, 0) != IBCW_DONE) _exit(8);
        told[0].place = entries_of(journal);
        for (k = 0; k <= many; k++)
            if (write(to, &told[k], sizeof told[k]) != (ssize_t)sizeof told[k]) _exit(7);
    }
}

/* Each answer that was told is in the journal. Answers how many were told. */
static uint64_t want_told(ibcw_journal *journal, int from)
{
    size_t count = 0;
    ibcw_ledger *ledgers = ibcw_journal_ledgers(journal, &count);
    uint64_t told = 0, entries = entries_of(journal);
    answered of;
    while (read(from, &of, sizeof of) == (ssize_t)sizeof of) {
        ibcw_replied reply;
        want(ibcw_reply(&ledgers[of.chain], of.index, &reply.told, reply.bytes, sizeof reply.bytes, &reply.size), IBCW_DONE, "an entry that was told");
        want_true(is_same_reply(&reply, &of.reply), "the answer that was told");
        want_true(of.place <= entries, "the place that was told");
        told++;
    }
    return told;
}

/* A program is ended within so many thousandths of a second: while it makes the file, opens it, or asks. */
static uint64_t kill_one(const char *path, uint64_t within)
{
    const struct timespec moment = {0, (long)draw(within * 1000000)};
    int ends[2], status = 0;
    uint64_t told;
    ibcw_journal *journal;
    pid_t child;
    want_true(pipe(ends) == 0, "a pipe");
    child = fork();
    want_true(child >= 0, "a process");
    if (child == 0) {
        close(ends[0]);
        ask_until_ended(path, ends[1]);
    }
    close(ends[1]);
    nanosleep(&moment, NULL);
    kill(child, SIGKILL);
    want_true(waitpid(child, &status, 0) == child && WIFSIGNALED(status), "a program that is ended");
    journal = open_well(path, GENESIS);
    told = want_told(journal, ends[0]);
    close(ends[0]);
    ibcw_close_journal(journal);
    return told;
}

static void try_kills(const char *folder, int count)
{
    char path[NAME], name[32];
    uint64_t told = 0;
    int k;
    for (k = 0; k < count; k++) {
        snprintf(name, sizeof name, "killed-%d.db", k / 8);
        told += kill_one(join(path, folder, name), k % 8 < 3 ? 20 : 200);
    }
    want_true(told > 0, "answers that were told");
    printf("%d programs were ended, and %llu answers are kept\n", count, (unsigned long long)told);
}

/* ---- memory that is refused */

/* Opens a journal again and again, each time with the next allocation refused, until none is. */
static uint64_t open_with_refusals(const char *path, long *left, const char *what)
{
    long n;
    for (n = 0;; n++) {
        ibcw_journal *journal = NULL;
        ibcw_fault fault;
        uint32_t answer;
        uint64_t entries;
        *left = n;
        answer = ibcw_open_journal(path, GENESIS, strlen(GENESIS), &journal, &fault);
        *left = -1;
        if (answer != IBCW_DONE) {
            want(answer, IBCW_NO_MEMORY, what);
            want_true(journal == NULL, "no journal");
            continue;
        }
        entries = entries_of(journal);
        ibcw_close_journal(journal);
        if (n > 100000) stop(what, "no end of allocations");
        tried(what, "each allocation was refused");
        return entries;
    }
}

/* Asks with the next allocation of the library's refused, until none is. What waits is put in by another commit. */
static void ask_with_refusals(ibcw_journal *journal, const event *of)
{
    ibcw_replied reply;
    long n, waits = 0, none = 0;
    uint64_t entries = entries_of(journal);
    uint32_t answer;
    for (n = 0;; n++) {
        granted = n;
        answer = ask_durably(journal, of, &reply);
        granted = -1;
        if (answer != IBCW_NO_MEMORY && answer != IBCW_JOURNAL_WAITS) break;
        want_true(reply.told.kind == IBCW_TOLD_REFUSAL && reply.told.number == answer && reply.size == 0, "no reply");
        want_true(entries_of(journal) == entries, "as many entries");
        if (answer == IBCW_NO_MEMORY) {
            none++;
            continue;
        }
        waits++;
        want(ibcw_commit(journal, 0), IBCW_DONE, "what waits");
        want_true(entries_of(journal) == ++entries, "an entry more");
    }
    want_true(answer < IBCW_EMPTY && waits > 0 && none > 0 && entries_of(journal) == entries + 1, "an answer in the end");
    tried("an answer", "each allocation was refused");
}

/* The same of a commit of what two ledgers were asked. */
static void commit_with_refusals(ibcw_journal *journal)
{
    size_t count = 0;
    ibcw_ledger *ledgers = ibcw_journal_ledgers(journal, &count);
    uint64_t entries = entries_of(journal);
    ibcw_replied reply;
    long n;
    uint32_t answer;
    for (n = 0; n < 40; n++) {
        event of = drawn_event();
        want_true(ask(ledgers, &of, &reply) < IBCW_EMPTY, "a ledger's answer");
    }
    for (n = 0;; n++) {
        granted = n;
        answer = ibcw_commit(journal, 0);
        granted = -1;
        if (answer != IBCW_NO_MEMORY) break;
        want_true(entries_of(journal) == entries, "as many entries");
    }
    want(answer, IBCW_DONE, "a commit");
    want_true(n > 2 && entries_of(journal) == entries + 40, "all entries");
    tried("a commit", "each allocation was refused");
}

/* Where sqlite3's memory is refused, the journal ends, and has the entry or not. */
static void ask_with_sqlite_refusals(const char *path)
{
    long n;
    uint32_t answer = IBCW_JOURNAL_FAILED;
    for (n = 0; answer == IBCW_JOURNAL_FAILED; n++) {
        ibcw_journal *journal = open_well(path, GENESIS);
        uint64_t entries = entries_of(journal);
        ibcw_replied reply;
        event of = drawn_event();
        granted_to_sqlite = n;
        answer = ask_durably(journal, &of, &reply);
        granted_to_sqlite = -1;
        if (answer == IBCW_JOURNAL_FAILED) {
            want_true(strcmp(ibcw_journal_fault(journal)->text, "out of memory") == 0, "sqlite3's text");
            want(ask_durably(journal, &of, &reply), IBCW_JOURNAL_ENDED, "a journal that has ended");
            want(ibcw_commit(journal, 0), IBCW_JOURNAL_ENDED, "a commit of one that has ended");
        } else {
            want_true(answer < IBCW_EMPTY, "an answer");
        }
        ibcw_close_journal(journal);
        journal = open_well(path, GENESIS);
        want_true(entries_of(journal) == entries + 1 || (answer == IBCW_JOURNAL_FAILED && entries_of(journal) == entries), "the entry or not");
        ibcw_close_journal(journal);
    }
    want_true(n > 1, "memory of sqlite3's");
    tried("an answer", "each allocation of sqlite3's was refused");
}

static void try_memory(const char *folder)
{
    char path[NAME];
    ibcw_journal *journal;
    event of;
    want_true(open_with_refusals(join(path, folder, "memory.db"), &granted, "a new journal") == 0, "no entry");
    journal = open_well(path, NULL);
    go_on(journal, 30);
    of = drawn_event();
    ask_with_refusals(journal, &of);
    commit_with_refusals(journal);
    ibcw_close_journal(journal);
    want_true(open_with_refusals(path, &granted, "a journal") > 70, "all entries");
    ask_with_sqlite_refusals(path);
    open_with_refusals(path, &granted_to_sqlite, "a journal by sqlite3");
    open_with_refusals(join(path, folder, "memory-2.db"), &granted_to_sqlite, "a new journal by sqlite3");
    printf("%d things of memory\n", done);
}

/* ---- commits that fail */

/* Goes on until a commit fails, so. */
static void go_on_until(ibcw_journal *journal, uint32_t first, uint32_t second, const char *what)
{
    uint64_t entries;
    ibcw_replied reply;
    uint32_t answer;
    do {
        event of = drawn_event();
        entries = entries_of(journal);
        answer = ask_durably(journal, &of, &reply);
        if (answer >= IBCW_EMPTY) {
            want_true(reply.told.kind == IBCW_TOLD_REFUSAL && reply.told.number == answer && reply.size == 0, "no reply");
            want(ask_durably(journal, &of, &reply), IBCW_JOURNAL_ENDED, "a journal that has ended");
        }
    } while (answer < IBCW_EMPTY);
    want_true(answer == first || answer == second, ibcw_journal_fault(journal)->text);
    want_true(entries_of(journal) == entries, "no entry more");
    tried(what, name_of(answer));
}

/* Where files may be no longer than they are, or a little more. */
static void try_limit(const char *path)
{
    struct rlimit limit, all;
    ibcw_journal *journal = open_well(path, GENESIS);
    uint64_t entries;
    char name[NAME];
    struct stat found;
    go_on(journal, 10);
    want_true(getrlimit(RLIMIT_FSIZE, &all) == 0, "a limit");
    want_true(stat(behind(name, path, "-wal"), &found) == 0, "a log");
    limit = all;
    limit.rlim_cur = (rlim_t)found.st_size + 10000;
    signal(SIGXFSZ, SIG_IGN);
    want_true(setrlimit(RLIMIT_FSIZE, &limit) == 0, "a limit is set");
    go_on_until(journal, IBCW_JOURNAL_FAILED, IBCW_JOURNAL_DISK_FULL, "a limit");
    want_true(setrlimit(RLIMIT_FSIZE, &all) == 0, "a limit is lifted");
    entries = entries_of(journal);
    ibcw_close_journal(journal);
    journal = open_well(path, NULL);
    want_true(entries_of(journal) == entries || entries_of(journal) == entries + 1, "what was told");
    go_on(journal, 10);
    ibcw_close_journal(journal);
}

static int is_small(const char *folder)
{
    char path[NAME];
    FILE *file = fopen(join(path, folder, "filler"), "wb");
    static const char block[4096];
    int k, is_full = 0;
    want_true(file != NULL, "a file");
    for (k = 0; k < 1024 && !is_full; k++) is_full = fwrite(block, 1, sizeof block, file) < sizeof block || fflush(file) != 0;
    fclose(file);
    unlink(path);
    return is_full;
}

/* Where there is no room. */
static void try_full(const char *path, const char *filler)
{
    ibcw_journal *journal;
    uint64_t entries;
    static char block[65536];
    write_file(filler, block, sizeof block);
    journal = open_well(path, GENESIS);
    go_on_until(journal, IBCW_JOURNAL_DISK_FULL, IBCW_JOURNAL_DISK_FULL, "a full disk");
    entries = entries_of(journal);
    ibcw_close_journal(journal);
    unlink(filler);
    journal = open_well(path, NULL);
    want_true(entries_of(journal) == entries || entries_of(journal) == entries + 1, "what was told");
    go_on(journal, 3);
    ibcw_close_journal(journal);
}

static void try_disk(const char *folder)
{
    char path[NAME], filler[NAME];
    try_limit(join(path, folder, "limit.db"));
    unlink(path);
    if (is_small(folder)) try_full(join(path, folder, "full.db"), join(filler, folder, "filler"));
    printf("%d failed commits\n", done);
}

/* ---- beside other programs */

/* Goes on with a journal. */
static void go(const char *path, int count, int is_killed)
{
    ibcw_journal *journal = open_well(path, GENESIS);
    go_on(journal, count);
    printf("%llu entries\n", (unsigned long long)entries_of(journal));
    if (is_killed) raise(SIGKILL);
    ibcw_close_journal(journal);
}

int main(int count, char **words)
{
    const char *part = count > 1 ? words[1] : "";
    setvbuf(stdout, NULL, _IOLBF, 0);
    watch_sqlite();
    if (count >= 5) drawn = strtoull(words[4], NULL, 10);
    if (count == 3 && strcmp(part, "faults") == 0)
        try_faults(words[2]);
    else if (count == 5 && strcmp(part, "harmed") == 0)
        try_harms(words[2], atoi(words[3]));
    else if (count > 2 && strcmp(part, "texts") == 0)
        judge_texts(words + 2, count - 2);
    else if (count == 3 && strcmp(part, "order") == 0)
        try_order(words[2]);
    else if (count == 5 && strcmp(part, "kills") == 0)
        try_kills(words[2], atoi(words[3]));
    else if (count == 3 && strcmp(part, "memory") == 0)
        try_memory(words[2]);
    else if (count == 3 && strcmp(part, "disk") == 0)
        try_disk(words[2]);
    else if (count >= 5 && strcmp(part, "go") == 0)
        go(words[2], atoi(words[3]), count > 5);
    else if (strcmp(part, "genesis") == 0)
        fputs(GENESIS, stdout);
    else
        stop(part, "no part of the test");
    return 0;
}
