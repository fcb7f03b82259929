/* Messages with a few bytes changed, cut or doubled, as many as the first word says, and none brings a report of a sanitizer. A twin of each world is told what was taken,
   and never what was refused. Behind each refusal both end a block, and the two roots are the same: so it changed nothing that the chain proves. What accounts hold is
   compared with the twin too, and tokens stay as many as there were.
   It prints how many messages were tried, how many were taken, and how many were no message. */
#include "ibcworld_messages.h"

#include <stdio.h>

enum { TIME = 100, ROOM = 70000, SUPPLY = 1000000 };

/* A world has so many tries. Behind so many of them holdings are compared, and behind so many packets go to and fro and are what is changed from then on. No chain
   has more heights than HEIGHTS, of which it keeps the last WINDOW. */
enum { OF_WORLD = 10000, OF_LOOK = 500, OF_ROUND = 2500, HEIGHTS = 20000, WINDOW = 4096 };

typedef struct {
    uint8_t data[ROOM];
    size_t size;
} text;

enum { MOST = 64 };

static text *seeds[MOST];
static uint64_t count, next;

static long taken, none;

static void want(uint32_t answer, uint32_t wanted, const char *what)
{
    if (answer != wanted) {
        fprintf(stderr, "%s: %s in place of %s\n", what, ibcw_refusal_text(answer), ibcw_refusal_text(wanted));
        exit(1);
    }
}

static void want_true(int is_so, const char *what)
{
    if (!is_so) {
        fprintf(stderr, "%s\n", what);
        exit(1);
    }
}

/* Marsaglia's xorshift. */
static uint64_t drawn(void)
{
    static uint64_t state = 88172645463325252ull;
    state ^= state << 13;
    state ^= state >> 7;
    state ^= state << 17;
    return state;
}

/* ---- two worlds that begin alike */

/* Two chains, of which the first has tokens. */
typedef struct {
    ibcw_ledgers rest;
    ibcw_ledger chains[2];
} world;

static world begin(void)
{
    world w = {IBCW_HANDLE_INIT, {IBCW_HANDLE_INIT, IBCW_HANDLE_INIT}};
    ibcw_genesis genesis = IBCW_HANDLE_INIT;
    want(ibcw_make_genesis(&genesis, HEIGHTS, WINDOW), IBCW_DONE, "a genesis");
    want(ibcw_add_chain(&genesis, TIME), IBCW_DONE, "a chain");
    want(ibcw_add_balance(&genesis, (const uint8_t *)"alice", 5, (const uint8_t *)"atom", 4, 0, SUPPLY), IBCW_DONE, "a balance");
    want(ibcw_add_chain(&genesis, TIME), IBCW_DONE, "a chain");
    want(ibcw_make_ledgers(&genesis, &w.rest), IBCW_DONE, "ledgers");
    want(ibcw_take_ledger(&w.rest, &w.chains[0]), IBCW_DONE, "a ledger");
    want(ibcw_take_ledger(&w.rest, &w.chains[1]), IBCW_DONE, "a ledger");
    ibcw_free(&genesis.handle);
    return w;
}

static void open_channel(world *w)
{
    ibcw_opened of_x, of_y;
    ibcw_opening what = {{NULL, 0}, IBCW_UNORDERED, {NULL, 0}, TIME};
    what.port = ibcw_text("transfer");
    what.version = ibcw_text("ics20-1");
    want(ibcw_open(&w->chains[0], &of_x, &w->chains[1], &of_y, &what), IBCW_DONE, "a channel");
}

/* A transfer goes there, and its acknowledgement comes back; none where changed transfers have left too little. */
static void send_and_relay(world *w)
{
    ibcw_replied reply;
    ibcw_relayed relayed = {0, 0, 0};
    ibcw_message message = ibcw_message_of(IBCW_TRANSFER);
    uint32_t sent;
    int k;
    message.channel = ibcw_text("channel-0");
    message.user = ibcw_text("alice");
    message.denom = ibcw_text("atom");
    message.receiver = ibcw_text("bob");
    message.amount.low = 10;
    message.timeout_height = HEIGHTS;
    sent = ibcw_send(&w->chains[0], &message, &reply);
    want_true(sent == IBCW_DONE || sent == IBCW_POOR, "a transfer");
    for (k = 0; k < 2; k++) want(ibcw_relay(&w->chains[0], &w->chains[1], TIME, &relayed), IBCW_DONE, "a turn");
}

static uint64_t length_of(ibcw_handle *handle)
{
    uint64_t length = 0;
    want(ibcw_length(handle, &length), IBCW_DONE, "a length");
    return length;
}

/* ---- what is changed */

static void keep_seed(text *seed)
{
    if (count < MOST) {
        seeds[count++] = seed;
    } else {
        free(seeds[next]);
        seeds[next] = seed;
    }
    next = (next + 1) % MOST;
}

/* The last messages of a ledger's history that were taken. */
static void take_seeds(ibcw_ledger *ledger, uint64_t most)
{
    uint64_t k;
    ibcw_asked asked;
    ibcw_told told;
    size_t size;
    for (k = length_of(&ledger->handle); k > 0 && most > 0; k--) {
        text *seed;
        uint32_t told_all = ibcw_reply(ledger, k - 1, &told, NULL, 0, &size);
        want_true(told_all == IBCW_DONE || told_all == IBCW_TOO_SHORT, "a reply");
        if (told.kind == IBCW_TOLD_REFUSAL || told.kind == IBCW_TOLD_BLOCK) continue;
        seed = (text *)malloc(sizeof *seed);
        want_true(seed != NULL, "memory");
        want(ibcw_event(ledger, k - 1, &asked, seed->data, ROOM, &seed->size), IBCW_DONE, "an event");
        keep_seed(seed);
        most--;
    }
}

/* Mostly one byte or a few are changed; one time in ten the message is cut, or has a byte more. */
static void mutate(text *message)
{
    const text *seed = seeds[drawn() % count];
    uint64_t changes = drawn() % 2 == 0 ? 1 : 1 + drawn() % 4;
    memcpy(message->data, seed->data, seed->size);
    message->size = seed->size;
    if (drawn() % 20 == 0) message->size = (size_t)(drawn() % message->size);
    if (drawn() % 20 == 0 && message->size < ROOM) message->data[message->size++] = (uint8_t)drawn();
    while (changes-- > 0 && message->size > 1) {
        size_t at = (size_t)(drawn() % message->size);
        switch (drawn() % 3) {
        case 0: message->data[at] ^= (uint8_t)(1 << drawn() % 8); break;
        case 1: message->data[at] = (uint8_t)drawn(); break;
        default: message->data[at] = seeds[drawn() % count]->data[at % 32]; break;
        }
    }
}

/* ---- a world and its twin */

static void want_same(const ibcw_replied *one, const ibcw_replied *other, const char *what)
{
    want_true(one->told.kind == other->told.kind && one->told.number == other->told.number && one->size == other->size &&
                  memcmp(one->bytes, other->bytes, one->size) == 0,
              what);
}

static uint32_t ask(ibcw_ledger *ledger, const text *message, ibcw_replied *reply)
{
    return ibcw_apply(ledger, message->data, message->size, &reply->told, reply->bytes, sizeof reply->bytes, &reply->size);
}

/* A ledger and its twin end their blocks: the height and the root are the same. */
static void end_blocks(ibcw_ledger *ledger, ibcw_ledger *twin)
{
    ibcw_replied reply, again;
    want(ibcw_end(ledger, TIME, &reply), IBCW_DONE, "a block");
    want(ibcw_end(twin, TIME, &again), IBCW_DONE, "a block");
    want_same(&reply, &again, "a root that a refusal changed");
}

/* A ledger is asked, and its twin where it took the message. An entry is made of each message, taken or not. Behind a refusal the roots are compared. */
static void try_message(ibcw_ledger *ledger, ibcw_ledger *twin, const text *message)
{
    ibcw_replied reply, again;
    uint8_t tag = 0;
    uint64_t before = length_of(&ledger->handle);
    uint32_t answer = ask(ledger, message, &reply);
    int is_none = answer == IBCW_NO_MESSAGE;
    want_true((ibcw_message_tag(message->data, message->size, &tag) == IBCW_NO_MESSAGE) == is_none, "a message or none");
    want_true(length_of(&ledger->handle) == before + !is_none, "an entry of each message");
    none += is_none;
    if (answer != IBCW_DONE) {
        end_blocks(ledger, twin);
        return;
    }
    taken++;
    want(ask(twin, message, &again), IBCW_DONE, "what the twin takes");
    want_same(&reply, &again, "what the twin answers");
}

/* The accounts of a ledger and of its twin hold the same. */
static void want_same_holdings(ibcw_ledger *ledger, ibcw_ledger *twin)
{
    ibcw_balances one = IBCW_HANDLE_INIT, other = IBCW_HANDLE_INIT;
    uint64_t length, k;
    want(ibcw_make_balances(ledger, &one), IBCW_DONE, "what accounts hold");
    want(ibcw_make_balances(twin, &other), IBCW_DONE, "what accounts hold");
    length = length_of(&one.handle);
    want_true(length_of(&other.handle) == length, "as many holdings");
    for (k = 0; k < length; k++) {
        ibcw_held here, there;
        want(ibcw_read_holding(&one.handle, 0, k, &here), IBCW_DONE, "a holding");
        want(ibcw_read_holding(&other.handle, 0, k, &there), IBCW_DONE, "a holding");
        want_true(here.is_escrow == there.is_escrow && strcmp(here.owner, there.owner) == 0, "whose it is");
        want_true(strcmp(here.denom, there.denom) == 0, "of what it is");
        want_true(here.amount.high == there.amount.high && here.amount.low == there.amount.low, "how much it is");
    }
    ibcw_free(&one.handle);
    ibcw_free(&other.handle);
}

/* Both worlds end their blocks and hold the same. */
static void compare(world *w, world *twin)
{
    int k;
    for (k = 0; k < 2; k++) {
        end_blocks(&w->chains[k], &twin->chains[k]);
        want_same_holdings(&w->chains[k], &twin->chains[k]);
    }
}

static void play_round(world *w, world *twin)
{
    send_and_relay(w);
    send_and_relay(twin);
    compare(w, twin);
    take_seeds(&w->chains[0], 8);
    take_seeds(&w->chains[1], 8);
}

/* ---- what the audit tells */

/* How much the accounts of a chain hold of a denomination, of which less than 2^64 is held. */
static uint64_t held_of(ibcw_audit *audit, uint64_t chain, const char *denom)
{
    ibcw_held it;
    uint64_t held = 0, k;
    uint32_t answer;
    for (k = 0;; k++) {
        answer = ibcw_read_holding(&audit->handle, chain, k, &it);
        if (answer != IBCW_DONE) break;
        if (strcmp(it.denom, denom) == 0) held += it.amount.low;
    }
    want(answer, IBCW_NOTHING_THERE, "the end of the holdings");
    return held;
}

/* The world's ledgers are joined and audited: all tokens of its genesis are there. */
static void end_world(world *w)
{
    ibcw_audit audit = IBCW_HANDLE_INIT;
    want(ibcw_join_ledger(&w->rest, &w->chains[1]), IBCW_DONE, "a ledger joins");
    want(ibcw_join_ledger(&w->rest, &w->chains[0]), IBCW_DONE, "a ledger joins");
    want(ibcw_make_audit(&w->rest, &audit), IBCW_DONE, "an audit");
    want_true(held_of(&audit, 0, "atom") == SUPPLY, "as many tokens as there were");
    want_true(held_of(&audit, 1, "transfer/channel-0/atom") <= SUPPLY, "no more vouchers than tokens");
    ibcw_free(&audit.handle);
    ibcw_free(&w->rest.handle);
}

static void try_in_new_worlds(long tries)
{
    static text message;
    world w = begin(), twin = begin();
    long k;
    open_channel(&w);
    open_channel(&twin);
    take_seeds(&w.chains[0], 16);
    take_seeds(&w.chains[1], 16);
    for (k = 0; k < tries; k++) {
        int side = (int)(drawn() % 2);
        if (k % OF_ROUND == 0) play_round(&w, &twin);
        mutate(&message);
        try_message(&w.chains[side], &twin.chains[side], &message);
        if (k % OF_LOOK == OF_LOOK - 1) compare(&w, &twin);
    }
    compare(&w, &twin);
    end_world(&w);
    end_world(&twin);
}

int main(int words, char **word)
{
    long tries = words > 1 ? atol(word[1]) : 1000, left;
    uint64_t k;
    for (left = tries; left > 0; left -= OF_WORLD) try_in_new_worlds(left < OF_WORLD ? left : OF_WORLD);
    printf("%ld messages, %ld taken, %ld no message\n", tries, taken, none);
    for (k = 0; k < count; k++) free(seeds[k]);
    return 0;
}
