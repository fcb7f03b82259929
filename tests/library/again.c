/* A world is its log: what ibcw_event and ibcw_reply tell of two ledgers is kept as bytes, and a second world of the same genesis is asked for it again. Each ledger's
   events go in their order, an update once the other chain has published as many heights as it had when it was seen, and a block once all have seen what they
   saw before it. Each answer is the one that was kept, with the same roots, and both audits tell the same. What a journal keeps of the second world, in the
   order in which it was asked, makes a third one. */
#include "ibcworld_messages.h"

#include <stdio.h>

enum { TIME = 100, CHAINS = 2 };

static void want(uint32_t answer, uint32_t wanted, const char *what)
{
    if (answer != wanted) {
        fprintf(stderr, "%s: %s in place of %s\n", what, ibcw_refusal_name(answer), ibcw_refusal_name(wanted));
        exit(1);
    }
}

static void want_true(int is_so, const char *what)
{
    if (!is_so) {
        fprintf(stderr, "%s\n", what);
        exit(1);
    }
}

static void *room(size_t size)
{
    void *place = malloc(size > 0 ? size : 1);
    want_true(place != NULL, "memory");
    return place;
}

/* ---- a world of two chains */

typedef struct {
    ibcw_genesis genesis;
    ibcw_ledgers rest;
    ibcw_ledger chains[CHAINS];
} world;

static world begin(void)
{
    world w = {IBCW_HANDLE_INIT, IBCW_HANDLE_INIT, {IBCW_HANDLE_INIT, IBCW_HANDLE_INIT}};
    int k;
    want(ibcw_make_genesis(&w.genesis, 64, 3), IBCW_DONE, "a genesis");
    want(ibcw_add_chain(&w.genesis, TIME), IBCW_DONE, "a chain");
    want(ibcw_add_balance(&w.genesis, (const uint8_t *)"alice", 5, (const uint8_t *)"atom", 4, 0, 1000), IBCW_DONE, "a balance");
    want(ibcw_add_chain(&w.genesis, TIME), IBCW_DONE, "a chain");
    want(ibcw_make_ledgers(&w.genesis, &w.rest), IBCW_DONE, "ledgers");
    for (k = 0; k < CHAINS; k++) want(ibcw_take_ledger(&w.rest, &w.chains[k]), IBCW_DONE, "a ledger");
    return w;
}

static void end(world *w)
{
    int k;
    for (k = 0; k < CHAINS; k++) ibcw_free(&w->chains[k].handle);
    ibcw_free(&w->rest.handle);
    ibcw_free(&w->genesis.handle);
}

/* A channel is opened, tokens go over it, and some messages are refused: before and behind what they ask for. */
static void play(world *w)
{
    ibcw_opened of_x, of_y;
    ibcw_opening what = {{NULL, 0}, IBCW_UNORDERED, {NULL, 0}, TIME};
    ibcw_relayed relayed = {0, 0, 0};
    ibcw_replied reply;
    uint8_t root[32] = {0};
    ibcw_message update = ibcw_message_of(IBCW_UPDATE_CLIENT), message = ibcw_message_of(IBCW_TRANSFER);
    int turn;
    what.port = ibcw_text("transfer");
    what.version = ibcw_text("ics20-1");
    want(ibcw_open(&w->chains[0], &of_x, &w->chains[1], &of_y, &what), IBCW_DONE, "a channel");
    message.channel = ibcw_text("channel-0");
    message.user = ibcw_text("alice");
    message.denom = ibcw_text("atom");
    message.receiver = ibcw_text("bob");
    message.timeout_height = 60;
    for (turn = 1; turn <= 3; turn++) {
        message.amount.low = turn == 3 ? 2000 : (uint64_t)turn;
        want(ibcw_send(&w->chains[0], &message, &reply), turn == 3 ? IBCW_POOR : IBCW_DONE, "a transfer");
        want(ibcw_relay(&w->chains[0], &w->chains[1], TIME, &relayed), IBCW_DONE, "a turn");
        want(ibcw_end(&w->chains[0], TIME - 1, &reply), IBCW_TIME_BACK, "a block of an earlier time");
    }
    update.client = ibcw_text(of_y.client);
    update.chain = 0;
    update.header_height = 1;
    update.root = ibcw_bytes_of(root, sizeof root);
    want(ibcw_send(&w->chains[1], &update, &reply), IBCW_PRUNED, "an update with a height that is gone");
    update.header_height = 60;
    want(ibcw_send(&w->chains[1], &update, &reply), IBCW_NOT_PUBLISHED, "an update with a height to come");
    want_true(relayed.refused == 0, "a relayer's messages");
}

/* ---- what is kept */

typedef struct {
    ibcw_asked asked;
    uint8_t *message;
    size_t size;
    ibcw_replied reply;
} entry;

typedef struct {
    entry *entries;
    uint64_t count, done, published;
} history;

static void keep_entry(ibcw_ledger *ledger, uint64_t index, entry *kept)
{
    uint32_t answer = ibcw_event(ledger, index, &kept->asked, NULL, 0, &kept->size);
    want_true(answer == IBCW_TOO_SHORT || (answer == IBCW_DONE && kept->size == 0), "the room for an event");
    kept->message = (uint8_t *)room(kept->size);
    want(ibcw_event(ledger, index, &kept->asked, kept->message, kept->size, &kept->size), IBCW_DONE, "an event");
    want(ibcw_reply(ledger, index, &kept->reply.told, kept->reply.bytes, sizeof kept->reply.bytes, &kept->reply.size), IBCW_DONE, "a reply");
}

static history kept_of(ibcw_ledger *ledger)
{
    history kept = {NULL, 0, 0, 0};
    uint64_t k;
    want(ibcw_length(&ledger->handle, &kept.count), IBCW_DONE, "a length");
    kept.entries = (entry *)room((size_t)kept.count * sizeof(entry));
    for (k = 0; k < kept.count; k++) keep_entry(ledger, k, &kept.entries[k]);
    return kept;
}

static void free_history(history *kept)
{
    uint64_t k;
    for (k = 0; k < kept->count; k++) free(kept->entries[k].message);
    free(kept->entries);
}

/* ---- what is asked again */

/* Whether an entry is an update that looked at the other chain. */
static int has_looked(const entry *of)
{
    int is_early = of->reply.told.kind == IBCW_TOLD_REFUSAL && of->reply.told.number == IBCW_NOT_PUBLISHED;
    return of->asked.kind == IBCW_UPDATE_CLIENT && (of->asked.published > 0 || is_early);
}

/* Whether the other chain has still to see that so many heights are published, and no more. */
static int is_to_be_seen(const history *other, uint64_t published)
{
    uint64_t k;
    for (k = other->done; k < other->count; k++)
        if (has_looked(&other->entries[k])) return other->entries[k].asked.published <= published;
    return 0;
}

static int is_due(const history *own, const history *other)
{
    const entry *next = &own->entries[own->done];
    if (own->done == own->count) return 0;
    if (has_looked(next)) return other->published == next->asked.published;
    return next->reply.told.kind != IBCW_TOLD_BLOCK || !is_to_be_seen(other, own->published);
}

/* What a journal keeps of the last entry of a ledger. */
static void keep_last(ibcw_entries *journal, ibcw_ledger *ledger)
{
    ibcw_entry_numbers numbers;
    uint8_t answer[IBCW_ANSWER_ROOM], *event;
    size_t event_size = 0, answer_size = 0;
    uint64_t count = 0;
    want(ibcw_length(&ledger->handle, &count), IBCW_DONE, "a length");
    want(ibcw_stored(ledger, count - 1, &numbers, NULL, 0, &event_size, answer, sizeof answer, &answer_size), IBCW_TOO_SHORT, "the room for an event");
    event = (uint8_t *)room(event_size);
    want(ibcw_stored(ledger, count - 1, &numbers, event, event_size, &event_size, answer, sizeof answer, &answer_size), IBCW_DONE, "a stored entry");
    want(ibcw_add_entry(journal, numbers.chain, numbers.kind, event, event_size, answer, answer_size), IBCW_DONE, "an entry of a journal");
    free(event);
}

static void ask_again(ibcw_ledger *ledger, history *own)
{
    const entry *next = &own->entries[own->done++];
    ibcw_replied reply;
    uint32_t answer;
    if (next->asked.kind == IBCW_ASKED_BLOCK)
        answer = ibcw_end(ledger, next->asked.next_time, &reply);
    else
        answer = ibcw_apply(ledger, next->message, next->size, &reply.told, reply.bytes, sizeof reply.bytes, &reply.size);
    want_true(answer == (next->reply.told.kind == IBCW_TOLD_REFUSAL ? (uint32_t)next->reply.told.number : (uint32_t)IBCW_DONE), "an answer again");
    want_true(reply.told.kind == next->reply.told.kind && reply.told.number == next->reply.told.number && reply.size == next->reply.size &&
                  memcmp(reply.bytes, next->reply.bytes, reply.size) == 0,
              "a reply again");
    if (reply.told.kind == IBCW_TOLD_BLOCK) own->published++;
}

static void ask_all_again(world *w, history kept[CHAINS], ibcw_entries *journal)
{
    int is_going = 1, k;
    while (is_going) {
        is_going = 0;
        for (k = 0; k < CHAINS; k++) {
            while (is_due(&kept[k], &kept[1 - k])) {
                ask_again(&w->chains[k], &kept[k]);
                keep_last(journal, &w->chains[k]);
                is_going = 1;
            }
        }
    }
    for (k = 0; k < CHAINS; k++) want_true(kept[k].done == kept[k].count, "a history to its end");
}

/* ---- what the audits tell */

static void audit_of(world *w, ibcw_audit *audit)
{
    int k;
    for (k = 0; k < CHAINS; k++) want(ibcw_join_ledger(&w->rest, &w->chains[k]), IBCW_DONE, "a ledger joins");
    want(ibcw_make_audit(&w->rest, audit), IBCW_DONE, "an audit");
}

static void want_same_holdings(ibcw_audit *one, ibcw_audit *other, uint64_t chain)
{
    ibcw_held held, again;
    uint64_t count = 0, again_count = 0, k;
    want(ibcw_holding_count(&one->handle, chain, &count), IBCW_DONE, "how many holdings");
    want(ibcw_holding_count(&other->handle, chain, &again_count), IBCW_DONE, "how many holdings again");
    want_true(count == again_count && count > 0, "as many holdings again");
    for (k = 0; k < count; k++) {
        want(ibcw_read_holding(&one->handle, chain, k, &held), IBCW_DONE, "a holding");
        want(ibcw_read_holding(&other->handle, chain, k, &again), IBCW_DONE, "a holding again");
        want_true(held.is_escrow == again.is_escrow && strcmp(held.owner, again.owner) == 0, "who holds it again");
        want_true(strcmp(held.denom, again.denom) == 0, "what is held again");
        want_true(held.amount.high == again.amount.high && held.amount.low == again.amount.low, "how much is held again");
    }
}

static void want_holding(ibcw_audit *audit, uint64_t chain, uint64_t index, int is_escrow, const char *owner, const char *denom, uint64_t amount)
{
    ibcw_held held;
    want(ibcw_read_holding(&audit->handle, chain, index, &held), IBCW_DONE, "a holding");
    want_true(held.is_escrow == is_escrow && strcmp(held.owner, owner) == 0 && strcmp(held.denom, denom) == 0, "who holds what");
    want_true(held.amount.high == 0 && held.amount.low == amount, "how much is held");
}

/* The audit of the ledgers that what a journal keeps makes. */
static void replay(ibcw_genesis *genesis, ibcw_entries *journal, ibcw_audit *audit)
{
    ibcw_ledgers ledgers = IBCW_HANDLE_INIT;
    uint8_t due[IBCW_ANSWER_ROOM];
    uint64_t place = 0;
    size_t size = 0;
    want(ibcw_make_replayed(genesis, journal, &ledgers, &place, due, sizeof due, &size), IBCW_DONE, "a replay");
    want(ibcw_free(&journal->handle), IBCW_EMPTY, "entries that were given up");
    want(ibcw_make_audit(&ledgers, audit), IBCW_DONE, "an audit of a replay");
    ibcw_free(&ledgers.handle);
}

int main(void)
{
    world w = begin(), again = begin();
    ibcw_audit audit = IBCW_HANDLE_INIT, other = IBCW_HANDLE_INIT, third = IBCW_HANDLE_INIT;
    ibcw_entries journal = IBCW_HANDLE_INIT;
    history kept[CHAINS];
    uint64_t entries = 0;
    int k;
    play(&w);
    for (k = 0; k < CHAINS; k++) kept[k] = kept_of(&w.chains[k]);
    want(ibcw_make_entries(&journal), IBCW_DONE, "a list of entries");
    ask_all_again(&again, kept, &journal);
    audit_of(&w, &audit);
    audit_of(&again, &other);
    replay(&again.genesis, &journal, &third);
    want_holding(&audit, 0, 0, 0, "alice", "atom", 997);
    want_holding(&audit, 0, 1, 1, "channel-0", "atom", 3);
    want_holding(&audit, 1, 0, 0, "bob", "transfer/channel-0/atom", 3);
    for (k = 0; k < CHAINS; k++) {
        want_same_holdings(&audit, &other, (uint64_t)k);
        want_same_holdings(&audit, &third, (uint64_t)k);
        entries += kept[k].count;
        free_history(&kept[k]);
    }
    ibcw_free(&audit.handle);
    ibcw_free(&other.handle);
    ibcw_free(&third.handle);
    end(&w);
    end(&again);
    want_true(entries > 30, "as many entries as a channel and three turns have");
    puts("a world is made again of its log");
    return 0;
}
