/* What a hostile or careless program may do without harm: each line that it prints is one such thing, with its number. None brings a report of a sanitizer, and each is
   answered with the number that include/ibcworld.h says. */
#include "ibcworld_messages.h"

#include <stdio.h>

enum { TIME = 100, ROOM = 70000 };

static int done;

/* A thing is tried, and answered so. */
static void tried(uint32_t answer, uint32_t wanted, const char *what)
{
    if (answer != wanted) {
        fprintf(stderr, "%s: %s in place of %s\n", what, ibcw_refusal_name(answer), ibcw_refusal_name(wanted));
        exit(1);
    }
    printf("%d: %s: %s\n", ++done, what, ibcw_refusal_name(answer));
}

static void want(uint32_t answer, const char *what)
{
    if (answer != IBCW_DONE) {
        fprintf(stderr, "%s: %s\n", what, ibcw_refusal_text(answer));
        exit(1);
    }
}

static const uint8_t *bytes(const char *text) { return (const uint8_t *)text; }

/* ---- worlds */

typedef struct {
    ibcw_genesis genesis;
    ibcw_ledgers rest;
    ibcw_ledger x, y;
} world;

static world begin(void)
{
    world w = {IBCW_HANDLE_INIT, IBCW_HANDLE_INIT, IBCW_HANDLE_INIT, IBCW_HANDLE_INIT};
    want(ibcw_make_genesis(&w.genesis, 64, 64), "a genesis");
    want(ibcw_add_chain(&w.genesis, TIME), "a chain");
    want(ibcw_add_balance(&w.genesis, bytes("alice"), 5, bytes("atom"), 4, 0, 1000), "a balance");
    want(ibcw_add_chain(&w.genesis, TIME), "a chain");
    want(ibcw_make_ledgers(&w.genesis, &w.rest), "ledgers");
    want(ibcw_take_ledger(&w.rest, &w.x), "a ledger");
    want(ibcw_take_ledger(&w.rest, &w.y), "a ledger");
    return w;
}

static void end(world *w)
{
    ibcw_free(&w->genesis.handle);
    ibcw_free(&w->rest.handle);
    ibcw_free(&w->x.handle);
    ibcw_free(&w->y.handle);
}

static void open_and_pay(world *w, uint64_t amount)
{
    ibcw_opened of_x, of_y;
    ibcw_opening what = {{NULL, 0}, IBCW_UNORDERED, {NULL, 0}, TIME};
    ibcw_relayed relayed = {0, 0, 0};
    ibcw_replied reply;
    ibcw_message message = ibcw_message_of(IBCW_TRANSFER);
    what.port = ibcw_text("transfer");
    what.version = ibcw_text("ics20-1");
    want(ibcw_open(&w->x, &of_x, &w->y, &of_y, &what), "a channel");
    message.channel = ibcw_text("channel-0");
    message.user = ibcw_text("alice");
    message.denom = ibcw_text("atom");
    message.receiver = ibcw_text("bob");
    message.amount.low = amount;
    message.timeout_height = 60;
    want(ibcw_send(&w->x, &message, &reply), "a transfer");
    want(ibcw_relay(&w->x, &w->y, TIME, &relayed), "a turn");
}

/* A world in which nothing was paid, and one in which bob was: with a chain of each, alice has all and bob has it too. */
static void join_crosswise(void)
{
    world one = begin(), other = begin();
    ibcw_audit audit = IBCW_HANDLE_INIT;
    uint64_t length = 0;
    open_and_pay(&other, 500);
    tried(ibcw_join_ledger(&one.rest, &other.y), IBCW_OTHER_WORLD, "a ledger is joined to those of another world");
    want(ibcw_join_ledger(&one.rest, &one.x), "a ledger joins");
    tried(ibcw_join_ledger(&one.rest, &other.y), IBCW_OTHER_WORLD, "two halves of two worlds are joined");
    tried(ibcw_make_audit(&one.rest, &audit), IBCW_BAD_MESSAGE, "a world is audited without one of its chains");
    tried(ibcw_take_ledger(&one.rest, &one.x), IBCW_DONE, "the ledgers are there behind an audit that was refused");
    want(ibcw_join_ledger(&one.rest, &one.x), "a ledger joins");
    tried(ibcw_join_ledger(&one.rest, &one.x), IBCW_EMPTY, "a ledger is joined twice");
    want(ibcw_join_ledger(&one.rest, &one.y), "a ledger joins");
    tried(ibcw_make_audit(&one.rest, &audit), IBCW_DONE, "a world is audited with all its chains");
    tried(ibcw_make_audit(&one.rest, &audit), IBCW_FULL, "an audit is put over another");
    ibcw_free(&audit.handle);
    tried(ibcw_make_audit(&one.rest, &audit), IBCW_DONE, "a world is audited again");
    tried(ibcw_holding(&audit.handle, 2, 0, NULL, 0, (size_t[]){0}), IBCW_UNKNOWN_CHAIN, "a holding of a chain that isn't there");
    tried(ibcw_holding(&audit.handle, UINT64_MAX, UINT64_MAX, NULL, 0, (size_t[]){0}), IBCW_UNKNOWN_CHAIN, "a holding at the largest numbers");
    tried(ibcw_holding(&audit.handle, 1, UINT64_MAX, NULL, 0, (size_t[]){0}), IBCW_NOTHING_THERE, "the last holding of all of a chain");
    tried(ibcw_holding_count(&audit.handle, 99, &length), IBCW_UNKNOWN_CHAIN, "how many holdings a chain has that isn't there");
    tried(ibcw_note_channel_count(&audit.handle, 99, &length), IBCW_UNKNOWN_CHAIN, "how many channels of notes a chain has that isn't there");
    tried(ibcw_length(&audit.handle, &length), IBCW_DONE, "an audit tells how many chains it has");
    want(length != 2, "two chains");
    ibcw_free(&audit.handle);
    end(&one);
    end(&other);
}

/* A world that the program numbers itself, as the header lets it, and one of the library's. */
static void join_numbered(void)
{
    world w = begin();
    ibcw_ledgers numbered = IBCW_HANDLE_INIT;
    ibcw_ledger first = IBCW_HANDLE_INIT;
    want(ibcw_make_numbered_ledgers(&w.genesis, (uint64_t)1 << 63, &numbered), "ledgers");
    want(ibcw_take_ledger(&numbered, &first), "a ledger");
    tried(ibcw_join_ledger(&w.rest, &first), IBCW_OTHER_WORLD, "a ledger of a world that the program numbered");
    tried(ibcw_join_ledger(&numbered, &w.x), IBCW_OTHER_WORLD, "a ledger is joined to those of such a world");
    tried(ibcw_join_ledger(&numbered, &first), IBCW_DONE, "its own ledger is joined to them");
    ibcw_free(&numbered.handle);
    end(&w);
}

/* No world begins so. */
static void begin_wrongly(void)
{
    static const struct {
        uint64_t capacity, window;
        int chains, balances;
        const char *what;
    } wrong[] = {
        {64, 64, 0, 0, "a world of no chain"},
        {64, 64, 1, 0, "a world of one chain"},
        {64, 64, 9, 0, "a world of nine chains"},
        {0, 0, 2, 0, "a world without heights"},
        {1000001, 64, 2, 0, "a world with too many heights"},
        {8, 9, 2, 0, "a window over more heights than there are"},
        {5000, 4097, 2, 0, "a window that is too long"},
        {UINT64_MAX, UINT64_MAX, 2, 0, "the largest capacity and window"},
        {64, 64, 2, 2, "a user who holds the same denomination twice"},
    };
    size_t k;
    int n;
    for (k = 0; k < sizeof wrong / sizeof wrong[0]; k++) {
        ibcw_genesis genesis = IBCW_HANDLE_INIT;
        ibcw_ledgers ledgers = IBCW_HANDLE_INIT;
        want(ibcw_make_genesis(&genesis, wrong[k].capacity, wrong[k].window), "a genesis");
        for (n = 0; n < wrong[k].chains; n++) want(ibcw_add_chain(&genesis, TIME), "a chain");
        for (n = 0; n < wrong[k].balances; n++)
            want(ibcw_add_balance(&genesis, bytes("a"), 1, bytes("b"), 1, UINT64_MAX, UINT64_MAX), "a balance");
        tried(ibcw_make_ledgers(&genesis, &ledgers), IBCW_BAD_MESSAGE, wrong[k].what);
        ibcw_free(&genesis.handle);
    }
}

static void add_wrongly(void)
{
    ibcw_genesis genesis = IBCW_HANDLE_INIT;
    ibcw_ledgers ledgers = IBCW_HANDLE_INIT;
    want(ibcw_make_genesis(&genesis, 64, 64), "a genesis");
    tried(ibcw_add_balance(&genesis, bytes("a"), 1, bytes("b"), 1, 0, 1), IBCW_NOTHING_THERE, "a balance before any chain");
    want(ibcw_add_chain(&genesis, TIME), "a chain");
    tried(ibcw_add_balance(&genesis, NULL, 0, NULL, 0, 0, 1), IBCW_BAD_NAME, "a balance of no user");
    tried(ibcw_add_balance(&genesis, bytes("a\0b"), 3, bytes("b"), 1, 0, 1), IBCW_BAD_NAME, "a user with a zero within");
    want(ibcw_add_chain(&genesis, TIME), "a chain");
    want(ibcw_add_balance(&genesis, bytes("a"), 1, bytes("b"), 1, UINT64_MAX, UINT64_MAX), "a balance");
    want(ibcw_add_balance(&genesis, bytes("c"), 1, bytes("b"), 1, 0, 1), "a balance");
    tried(ibcw_make_ledgers(&genesis, &ledgers), IBCW_BAD_MESSAGE, "more than 2^128 - 1 of a denomination");
    ibcw_free(&genesis.handle);
}

/* ---- handles */

static void misuse_handles(void)
{
    world w = begin();
    ibcw_view view = IBCW_HANDLE_INIT;
    ibcw_plan plan = IBCW_HANDLE_INIT;
    ibcw_replied reply;
    uint64_t number = 77;
    tried(ibcw_free(&view.handle), IBCW_EMPTY, "an empty handle is freed");
    want(ibcw_make_view(&w.x, &view), "a view");
    tried(ibcw_make_view(&w.x, &view), IBCW_FULL, "a view is put over another");
    tried(ibcw_make_view(&w.x, (ibcw_view *)(void *)&w.y), IBCW_FULL, "a view is put over a ledger");
    tried(ibcw_length(&view.handle, &number), IBCW_OTHER_KIND, "the length of a view");
    tried(ibcw_end((ibcw_ledger *)(void *)&view, TIME, &reply), IBCW_OTHER_KIND, "a view is told to end its block");
    tried(ibcw_make_plan(&view, (ibcw_view *)(void *)&w.x, &plan), IBCW_OTHER_KIND, "a plan for a ledger in place of a view");
    tried(ibcw_make_ledgers((ibcw_genesis *)(void *)&w.x, &w.rest), IBCW_FULL, "ledgers are put over others");
    tried(ibcw_take_ledger(&w.rest, &w.x), IBCW_FULL, "a ledger is put over another");
    tried(ibcw_free(&view.handle), IBCW_DONE, "a handle is freed");
    tried(ibcw_free(&view.handle), IBCW_EMPTY, "a handle is freed twice");
    tried(ibcw_view_heights(&view, &(ibcw_heights){0, 0, 0, 0}), IBCW_EMPTY, "a freed view is asked");
    want(number != 77, "what isn't told");
    end(&w);
}

/* ---- bytes */

/* A message of a kind whose last field is a proof, with so many bytes of it. */
static size_t with_proof(uint8_t *place, uint8_t tag, const uint8_t *proof, size_t size, const uint8_t *second, size_t second_size)
{
    size_t written = 0;
    ibcw_message message = ibcw_message_of(tag);
    message.connection = message.peer_connection = ibcw_text("connection-0");
    message.client = message.peer_client = ibcw_text("inprocess-0");
    message.height = 1;
    message.proof = ibcw_bytes_of(proof, size);
    message.proof_client = message.proof_close = ibcw_bytes_of(second, second_size);
    want(ibcw_write_message(&message, place, ROOM, &written), "a message");
    return written;
}

static void misuse_bytes(world *w)
{
    static uint8_t place[ROOM], long_text[65536];
    ibcw_told told;
    ibcw_message note = ibcw_message_of(IBCW_SEND_NOTE);
    uint8_t tag = 0;
    size_t size = 77, k;
    tried(ibcw_apply(&w->x, NULL, 0, &told, NULL, 0, &size), IBCW_NO_MESSAGE, "no bytes are applied");
    for (k = 0; k < sizeof long_text; k++) long_text[k] = 255;
    tried(ibcw_apply(&w->x, long_text, sizeof long_text, &told, NULL, 0, &size), IBCW_NO_MESSAGE, "65,536 bytes of 255 are applied");
    note.note = ibcw_bytes_of(long_text, sizeof long_text);
    tried(ibcw_write_message(&note, place, ROOM, &size), IBCW_TOO_LARGE, "a text of 65,536 bytes is spelled");
    tried(ibcw_write_message(&(ibcw_message){.tag = 20}, place, ROOM, &size), IBCW_BAD_MESSAGE, "a message of no kind is spelled");
    tried(ibcw_query(&w->x, long_text, sizeof long_text, NULL, 0, &size), IBCW_BAD_NAME, "a path that is no text");
    tried(ibcw_packet(&w->x, bytes("note"), 4, bytes("channel-0"), 9, UINT64_MAX, NULL, 0, &size), IBCW_NOTHING_THERE, "the packet of the last sequence");
    tried(ibcw_packet_part(long_text, 9, UINT64_MAX, NULL, 0, &size), IBCW_BAD_MESSAGE, "the last part of no packet");
    tried(ibcw_reply(&w->x, UINT64_MAX, &told, NULL, 0, &size), IBCW_NOTHING_THERE, "the last entry of all");
    tried(ibcw_prove(&w->x, UINT64_MAX, bytes("nextClientSequence"), 18, NULL, 0, &size), IBCW_NO_CONSENSUS, "a proof of the last height of all");
    want(size != 77, "what isn't told");
    tried(ibcw_message_tag(bytes("\x01\x01"), 2, &tag), IBCW_DONE, "the shortest message");
}

/* Proofs are judged before a ledger is asked, which would keep them. */
static void screen(world *w)
{
    static uint8_t place[ROOM], zeros[60000], proof[IBCW_LONGEST_PROOF], told[IBCW_LONGEST_PROOF];
    ibcw_view view = IBCW_HANDLE_INIT;
    size_t size = 0, written, told_size = 0;
    uint64_t height = 0;
    want(ibcw_make_view(&w->x, &view), "a view");
    want(ibcw_view_proof(&view, bytes("connections/connection-9"), 24, proof, sizeof proof, &size), "a proof");
    written = with_proof(place, IBCW_CONN_OPEN_CONFIRM, zeros, sizeof zeros, NULL, 0);
    tried(ibcw_screen_message(place, written), IBCW_BAD_PROOF, "a proof of 60,000 bytes");
    written = with_proof(place, IBCW_CONN_OPEN_CONFIRM, NULL, 0, NULL, 0);
    tried(ibcw_screen_message(place, written), IBCW_BAD_PROOF, "a proof of no bytes");
    written = with_proof(place, IBCW_CONN_OPEN_ACK, proof, size, zeros, 1);
    tried(ibcw_screen_message(place, written), IBCW_BAD_PROOF, "a second proof that is none");
    written = with_proof(place, IBCW_CONN_OPEN_ACK, proof, size, proof, size);
    tried(ibcw_screen_message(place, written), IBCW_DONE, "two proofs");
    want(ibcw_message_proof(place, written, 1, &height, told, sizeof told, &told_size), "a second proof");
    want(told_size != size || memcmp(told, proof, size) != 0, "the second proof's bytes");
    tried(ibcw_message_proof(place, written, 2, &height, told, sizeof told, &told_size), IBCW_NOTHING_THERE, "a third proof");
    tried(ibcw_screen_message(place, written - 1), IBCW_NO_MESSAGE, "a message without its last byte");
    tried(ibcw_screen_message(bytes("\x01\x01"), 2), IBCW_DONE, "a message without proofs");
    ibcw_free(&view.handle);
}

int main(void)
{
    world w;
    join_crosswise();
    join_numbered();
    begin_wrongly();
    add_wrongly();
    misuse_handles();
    w = begin();
    open_and_pay(&w, 5);
    misuse_bytes(&w);
    screen(&w);
    end(&w);
    printf("%d hostile things, no harm\n", done);
    return 0;
}
