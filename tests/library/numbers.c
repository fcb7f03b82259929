/* Each number of include/ibcworld.h is met once, at least: what the core refuses, wrong use of the calls, and want of memory: of each
   message and block, and of most other calls, each allocation is refused in turn. Where a call is refused, the ledger's history is as
   long as the header says. What it was asked is read back from it, bytes and all, once at least of each kind of message. One number has no call here: IBCW_NUMBER_FULL is answered where a number has reached 2^64 - 1, which as many
   messages would have to count up to.

   Link it with -Wl,--wrap=malloc,--wrap=realloc. */
#include "messages.h"

enum { TIME = 100 };

static int met[128];

/* The kinds of events that were read back: those of messages by their tags, and the end of a block. */
enum { EVENTS = 20 };

static int read_back[EVENTS];

/* ---- allocations that are refused */

void *__real_malloc(size_t size);
void *__real_realloc(void *old, size_t size);
void *__wrap_malloc(size_t size);
void *__wrap_realloc(void *old, size_t size);

/* How many allocations are granted before one is refused, or -1. */
static long granted = -1;
static int refused, refusals;

static int is_refused(void)
{
    if (granted < 0) return 0;
    if (granted-- > 0) return 0;
    refused = 1;
    refusals++;
    return 1;
}

void *__wrap_malloc(size_t size) { return is_refused() ? NULL : __real_malloc(size); }

void *__wrap_realloc(void *old, size_t size) { return is_refused() ? NULL : __real_realloc(old, size); }

/* Makes a call again and again, each time with the next of its allocations refused, until it is answered otherwise than by want of memory: where
   none was refused, or it did without. Want of memory is answered only where an allocation was refused. */
#define WITH_REFUSALS(answer, call, what)                                   \
    do {                                                                    \
        for (long n = 0;; n++) {                                            \
            granted = n;                                                    \
            refused = 0;                                                    \
            answer = call;                                                  \
            granted = -1;                                                   \
            if (answer != IBCW_NO_MEMORY) break;                            \
            want((uint32_t)refused, 1, what ": want of memory from within"); \
            met[IBCW_NO_MEMORY] = 1;                                        \
        }                                                                   \
    } while (0)

/* A call answers this. */
static void meet(uint32_t answer, uint32_t wanted, const char *what)
{
    want(answer, wanted, what);
    met[answer] = 1;
}

static uint64_t length_of(ibcw_handle *handle)
{
    uint64_t count = 0;
    want(ibcw_length(handle, &count), IBCW_DONE, "length");
    return count;
}

/* Applies bytes. What the reply tells is what the history's last entry tells, where there is one more. */
static uint32_t apply(ibcw_handle *ledger, const uint8_t *message, size_t message_size)
{
    uint8_t bytes[IBCW_REPLY_ROOM], again[IBCW_REPLY_ROOM];
    ibcw_told told = {77, 77}, last = {88, 88};
    size_t size = 77, last_size = 88;
    long held = granted;
    uint64_t before, after;
    uint32_t answer;
    granted = -1;
    before = length_of(ledger);
    granted = held;
    answer = ibcw_apply(ledger, message, message_size, &told, bytes, sizeof bytes, &size);
    held = granted;
    granted = -1;
    after = length_of(ledger);
    if (after == before) {
        int is_reply = answer == IBCW_NO_MEMORY && told.kind == IBCW_TOLD_REFUSAL && told.number == IBCW_NO_MEMORY && size == 0;
        want(is_reply || (told.kind == 77 && told.number == 77 && size == 77), 1, "what isn't told");
    } else {
        want(ibcw_reply(ledger, before, &last, again, sizeof again, &last_size), IBCW_DONE, "the last reply");
        want(told.kind == last.kind && told.number == last.number && size == last_size && memcmp(bytes, again, size) == 0, 1,
             "the reply that is told is the history's last");
    }
    granted = held;
    return answer;
}

static uint32_t block(ibcw_handle *ledger, uint64_t next_time)
{
    uint8_t root[32];
    ibcw_told told = {77, 77};
    size_t size = 77;
    uint32_t answer = ibcw_end_block(ledger, next_time, &told, root, sizeof root, &size);
    want(answer != IBCW_DONE || (told.kind == IBCW_TOLD_BLOCK && size == 32), 1, "a block's reply");
    return answer;
}

/* The ledger answers the message so. The reply is the last of its history, or the bytes are no message and it has no reply. */
static void answer(ibcw_handle *ledger, const text *message, uint32_t wanted, const char *what)
{
    uint8_t tag = 0;
    size_t size = 0;
    ibcw_told told = {77, 77};
    uint32_t found;
    uint64_t before = length_of(ledger);
    uint64_t adds = ibcw_message_tag(message->data, message->size, &tag) == IBCW_DONE;
    WITH_REFUSALS(found, apply(ledger, message->data, message->size), "a message");
    meet(found, wanted, what);
    want((uint32_t)(length_of(ledger) - before), (uint32_t)adds, what);
    if (adds) {
        want_event(ledger, before, message);
        read_back[tag] = 1;
    }
    if (adds && wanted != IBCW_DONE) {
        want(ibcw_reply(ledger, before, &told, NULL, 0, &size), IBCW_DONE, what);
        want((uint32_t)told.kind, IBCW_TOLD_REFUSAL, what);
        want((uint32_t)told.number, wanted, what);
    }
}

static void end_block(ibcw_handle *ledger)
{
    uint32_t found;
    uint64_t before = length_of(ledger);
    WITH_REFUSALS(found, block(ledger, TIME), "a block");
    want(found, IBCW_DONE, "a block");
    want((uint32_t)(length_of(ledger) - before), 1, "a block");
    want_block(ledger, before, TIME);
    read_back[IBCW_ASKED_BLOCK] = 1;
}

/* ---- a world of two chains */

typedef struct {
    ibcw_handle genesis, ledgers, x, y;
} world;

static void add_balance(ibcw_handle *genesis, const char *user, const char *denom, uint64_t amount)
{
    want(ibcw_add_balance(genesis, bytes(user), strlen(user), bytes(denom), strlen(denom), 0, amount), IBCW_DONE,
         "a balance");
}

static world begin_world(uint64_t capacity, uint64_t window)
{
    uint32_t found;
    world w = {{0}, {0}, {0}, {0}};
    want(ibcw_make_genesis(&w.genesis, capacity, window), IBCW_DONE, "a genesis");
    want(ibcw_add_chain(&w.genesis, TIME), IBCW_DONE, "a chain");
    add_balance(&w.genesis, "alice", "atom", 1000);
    want(ibcw_add_chain(&w.genesis, TIME), IBCW_DONE, "a chain");
    WITH_REFUSALS(found, ibcw_make_ledgers(&w.genesis, &w.ledgers), "ledgers");
    want(found, IBCW_DONE, "ledgers");
    WITH_REFUSALS(found, ibcw_take_ledger(&w.ledgers, &w.x), "a ledger");
    want(found, IBCW_DONE, "a ledger");
    want(ibcw_take_ledger(&w.ledgers, &w.y), IBCW_DONE, "a ledger");
    return w;
}

static void free_all(ibcw_handle *handles[], int count)
{
    for (int k = 0; k < count; k++) want(ibcw_free(handles[k]), IBCW_DONE, "free");
}

static void free_world(world *w)
{
    ibcw_handle *handles[] = {&w->genesis, &w->ledgers, &w->x, &w->y};
    free_all(handles, 4);
}

static void update(ibcw_handle *at, ibcw_handle *of)
{
    static text message;
    update_client(&message, of);
    answer(at, &message, IBCW_DONE, "an update");
}

/* ---- clients and connections */

static void refuse_clients(world *w)
{
    static text message;
    create_client(&message, 7);
    answer(&w->x, &message, IBCW_UNKNOWN_CHAIN, "a client of no chain");
    create_client(&message, 0);
    answer(&w->x, &message, IBCW_OWN_CHAIN, "a client of the chain itself");
    end_block(&w->y);
    update_client(&message, &w->y);
    answer(&w->x, &message, IBCW_UNKNOWN_CLIENT, "an update of no client");
    create_client(&message, 1);
    answer(&w->x, &message, IBCW_DONE, "a client");
    create_client(&message, 0);
    answer(&w->y, &message, IBCW_DONE, "a client");
    update_client(&message, &w->y);
    message.data[message.size - 1] ^= 1;
    answer(&w->x, &message, IBCW_WRONG_HEADER, "an update with another root");
    message.data[message.size - 48] = 1;
    answer(&w->x, &message, IBCW_NOT_PUBLISHED, "an update with a height that isn't there");
}

static void open_connection(world *w)
{
    static text message;
    end_block(&w->y);
    conn_open_init(&message);
    answer(&w->x, &message, IBCW_DONE, "a connection begins");
    end_block(&w->x);

    conn_open_try(&message, &w->x);
    answer(&w->y, &message, IBCW_NO_CONSENSUS, "a height of which the client wasn't told");
    update(&w->y, &w->x);
    begin(&message, 4);
    put_name(&message, CLIENT);
    put_name(&message, CLIENT);
    put_name(&message, CONNECTION);
    put_number(&message, 0, 1);
    put_number(&message, 1, 8);
    put_proved(&message, &w->x, CONNECTION_END);
    put_proof(&message, &w->x, CLIENT_STATE);
    answer(&w->y, &message, IBCW_WRONG_SELF_CLIENT, "a claim of a client of another chain");
    conn_open_try(&message, &w->x);
    answer(&w->y, &message, IBCW_DONE, "a connection is tried");
    end_block(&w->y);

    update(&w->x, &w->y);
    conn_open_ack(&message, &w->y);
    answer(&w->x, &message, IBCW_DONE, "a connection opens");
    answer(&w->x, &message, IBCW_WRONG_STATE, "a connection opens again");
    end_block(&w->x);

    update(&w->y, &w->x);
    conn_open_confirm(&message, &w->x);
    answer(&w->y, &message, IBCW_DONE, "a connection is confirmed");
}

/* ---- channels */

static void refuse_channels(world *w)
{
    static text message;
    chan_open_init(&message, "transfer", UNORDERED, "connection-7", "ics20-1");
    answer(&w->x, &message, IBCW_UNKNOWN_CONNECTION, "a channel over no connection");
    chan_open_init(&message, "elsewhere", UNORDERED, CONNECTION, "ics20-1");
    answer(&w->x, &message, IBCW_UNKNOWN_PORT, "a channel of no port");
    chan_open_init(&message, "transfer", ORDERED, CONNECTION, "ics20-1");
    answer(&w->x, &message, IBCW_WRONG_ORDER, "an ordered channel of tokens");
    chan_open_init(&message, "transfer", UNORDERED, CONNECTION, "ics20-9");
    answer(&w->x, &message, IBCW_WRONG_VERSION, "a version that isn't there");
}

static void open_channel(world *w, const char *port, uint8_t order, const char *version, const char *channel)
{
    static text message;
    chan_open_init(&message, port, order, CONNECTION, version);
    answer(&w->x, &message, IBCW_DONE, "a channel begins");
    end_block(&w->x);
    update(&w->y, &w->x);
    chan_open_try(&message, port, order, version, &w->x, channel);
    answer(&w->y, &message, IBCW_DONE, "a channel is tried");
    end_block(&w->y);
    update(&w->x, &w->y);
    chan_open_ack(&message, port, channel, &w->y);
    answer(&w->x, &message, IBCW_DONE, "a channel opens");
    end_block(&w->x);
    update(&w->y, &w->x);
    chan_open_confirm(&message, port, channel, &w->x);
    answer(&w->y, &message, IBCW_DONE, "a channel is confirmed");
}

/* ---- the data of packets of tokens, taken apart */

static void want_data_part(const text *data, uint64_t part, const char *wanted)
{
    static text found;
    uint32_t answer;
    WITH_REFUSALS(answer, ibcw_data_part(data->data, data->size, part, found.data, ROOM, &found.size), "a part of data");
    want(answer, IBCW_DONE, "a part of data");
    want((uint32_t)found.size, (uint32_t)strlen(wanted), "the size of a part of data");
    want((uint32_t)memcmp(found.data, wanted, found.size), 0, "the bytes of a part of data");
}

static void want_token(const text *data, uint64_t index, uint64_t high, uint64_t low, const char *denom)
{
    static text found;
    ibcw_amount amount = {7, 7};
    uint32_t answer;
    WITH_REFUSALS(answer, ibcw_data_token(data->data, data->size, index, &amount, found.data, ROOM, &found.size), "a token");
    want(answer, IBCW_DONE, "a token");
    want(amount.high == high && amount.low == low, 1, "the amount of a token");
    want((uint32_t)found.size, (uint32_t)strlen(denom), "the size of a denomination");
    want((uint32_t)memcmp(found.data, denom, found.size), 0, "the bytes of a denomination");
    amount.high = amount.low = 7;
    meet(ibcw_data_token(data->data, data->size, index, &amount, NULL, 0, &found.size), IBCW_TOO_SHORT, "a denomination with no room");
    want(amount.high == high && amount.low == low && found.size == strlen(denom), 1, "what is told of a denomination with no room");
}

/* The data says this, and has so many tokens. */
static void want_data(const text *data, const char *sender, const char *receiver, const char *memo, const char *version, uint64_t tokens)
{
    uint64_t count = 77;
    uint32_t answer;
    size_t size = 77;
    ibcw_amount amount = {7, 7};
    WITH_REFUSALS(answer, ibcw_data_count(data->data, data->size, &count), "how many tokens");
    want(answer, IBCW_DONE, "how many tokens");
    want((uint32_t)count, (uint32_t)tokens, "how many tokens");
    want_data_part(data, IBCW_SENDER, sender);
    want_data_part(data, IBCW_RECEIVER, receiver);
    want_data_part(data, IBCW_MEMO, memo);
    want_data_part(data, IBCW_TOKENS_VERSION, version);
    meet(ibcw_data_part(data->data, data->size, 0, NULL, 0, &size), IBCW_NOTHING_THERE, "a part 0 of data");
    meet(ibcw_data_part(data->data, data->size, 5, NULL, 0, &size), IBCW_NOTHING_THERE, "a fifth part of data");
    meet(ibcw_data_token(data->data, data->size, tokens, &amount, NULL, 0, &size), IBCW_NOTHING_THERE, "a token more");
    meet(ibcw_data_token(data->data, data->size, UINT64_MAX, &amount, NULL, 0, &size), IBCW_NOTHING_THERE, "the last token of all");
    want(size == 77 && amount.high == 7 && amount.low == 7, 1, "what isn't told of data");
}

static void put_data(text *out, const char *data)
{
    out->size = 0;
    put_bytes(out, data, strlen(data));
}

/* Bytes that are no data of tokens: by each call they are told as such, whatever growth is refused, and nothing is told. */
static void refuse_data(const char *bytes_of_none)
{
    static text none;
    uint64_t count = 77;
    size_t size = 77;
    ibcw_amount amount = {7, 7};
    uint32_t answer;
    put_data(&none, bytes_of_none);
    WITH_REFUSALS(answer, ibcw_data_count(none.data, none.size, &count), "how many tokens of none");
    meet(answer, IBCW_NO_DATA, bytes_of_none);
    WITH_REFUSALS(answer, ibcw_data_part(none.data, none.size, IBCW_SENDER, NULL, 0, &size), "a part of none");
    meet(answer, IBCW_NO_DATA, bytes_of_none);
    WITH_REFUSALS(answer, ibcw_data_token(none.data, none.size, 0, &amount, NULL, 0, &size), "a token of none");
    meet(answer, IBCW_NO_DATA, bytes_of_none);
    want(count == 77 && size == 77 && amount.high == 7 && amount.low == 7, 1, "what isn't told of none");
}

#define PARTIES "\"receiver\":\"bob\",\"sender\":\"alice\""

static void take_data_apart(void)
{
    static const char *const none[] = {
        "",
        "{}",
        "three",
        "{\"amount\":\"5\",\"denom\":\"atom\"," PARTIES,
        "{\"amount\":\"5\",\"denom\":\"atom\"," PARTIES "} ",
        "{\"amount\": \"5\",\"denom\":\"atom\"," PARTIES "}",
        "{\"amount\":5,\"denom\":\"atom\"," PARTIES "}",
        "{\"amount\":\"0\",\"denom\":\"atom\"," PARTIES "}",
        "{\"amount\":\"05\",\"denom\":\"atom\"," PARTIES "}",
        "{\"amount\":\"+5\",\"denom\":\"atom\"," PARTIES "}",
        "{\"amount\":\"340282366920938463463374607431768211456\",\"denom\":\"atom\"," PARTIES "}",
        "{\"denom\":\"atom\",\"amount\":\"5\"," PARTIES "}",
        "{\"amount\":\"5\",\"denom\":\"a//b\"," PARTIES "}",
        "{\"amount\":\"5\",\"denom\":\"atom\",\"memo\":\"\"," PARTIES "}",
        "{\"amount\":\"5\",\"denom\":\"atom\",\"receiver\":\"bob\",\"sender\":\"\"}",
        "{\"amount\":\"5\",\"denom\":\"atom\",\"receiver\":\"bob\",\"sender\":\"al/ice\"}",
        "{" PARTIES ",\"tokens\":[]}",
        "{" PARTIES ",\"tokens\":[{\"amount\":\"5\",\"denom\":\"gold\"},{\"amount\":\"5\",\"denom\":\"atom\"}]}",
        "{" PARTIES ",\"tokens\":[{\"amount\":\"5\",\"denom\":\"atom\"},{\"amount\":\"5\",\"denom\":\"atom\"}]}",
    };
    static text data;
    uint64_t count = 77;
    size_t k;
    put_data(&data, "{\"amount\":\"340282366920938463463374607431768211455\",\"denom\":\"transfer/channel-0/atom\",\"memo\":\"for the ferry\"," PARTIES "}");
    want_data(&data, "alice", "bob", "for the ferry", "ics20-1", 1);
    want_token(&data, 0, UINT64_MAX, UINT64_MAX, "transfer/channel-0/atom");
    put_data(&data, "{" PARTIES ",\"tokens\":[{\"amount\":\"5\",\"denom\":\"atom\"},{\"amount\":\"18446744073709551616\",\"denom\":\"gold\"}]}");
    want_data(&data, "alice", "bob", "", "ics20-own-2", 2);
    want_token(&data, 0, 0, 5, "atom");
    want_token(&data, 1, 1, 0, "gold");
    for (k = 0; k < sizeof none / sizeof none[0]; k++) refuse_data(none[k]);
    want(ibcw_data_count(NULL, 0, &count), IBCW_NO_DATA, "no bytes as data");
}

/* What a packet of tokens that comes says, by its own bytes. */
static void want_tokens_of(const text *message)
{
    static text packet, data;
    want(ibcw_message_packet(message->data, message->size, packet.data, ROOM, &packet.size), IBCW_DONE, "a carried packet");
    want(ibcw_packet_part(packet.data, packet.size, IBCW_DATA, data.data, ROOM, &data.size), IBCW_DONE, "the data of a packet");
    want_data(&data, "alice", "bob", "", "ics20-1", 1);
    want_token(&data, 0, 0, 5, "atom");
}

/* ---- packets */

/* Both chains end a block, and the plan of what `to` is owed from `from` is made. */
static ibcw_handle plan_of(ibcw_handle *from, ibcw_handle *to)
{
    uint32_t found;
    ibcw_handle a, b, plan = {0};
    end_block(from);
    end_block(to);
    a = view_of(from);
    b = view_of(to);
    WITH_REFUSALS(found, ibcw_make_plan(&a, &b, &plan), "a plan");
    want(found, IBCW_DONE, "a plan");
    want(ibcw_free(&a), IBCW_DONE, "free");
    want(ibcw_free(&b), IBCW_DONE, "free");
    return plan;
}

static void planned(ibcw_handle *plan, uint64_t index, text *out)
{
    want(ibcw_plan_message(plan, index, out->data, ROOM, &out->size), IBCW_DONE, "a planned message");
}

/* The first of the plan's messages, an update, is applied, and the message behind it read. */
static void first_owed(ibcw_handle *from, ibcw_handle *to, text *out)
{
    ibcw_handle plan = plan_of(from, to);
    planned(&plan, 0, out);
    answer(to, out, IBCW_DONE, "a planned update");
    planned(&plan, 1, out);
    want(ibcw_free(&plan), IBCW_DONE, "free");
}

static void refuse_sending(world *w)
{
    static const char *const denoms[] = {"atom", "gold"};
    static text message;
    transfer(&message, "channel-9", "alice", "atom", 1, "bob", "", 1000);
    answer(&w->x, &message, IBCW_UNKNOWN_CHANNEL, "a transfer over no channel");
    transfer(&message, "channel-0", "alice", "atom", 1, "bob", "", 0);
    answer(&w->x, &message, IBCW_NO_TIMEOUT, "a transfer without a timeout");
    transfer(&message, "channel-0", "alice", "atom", 0, "bob", "", 1000);
    answer(&w->x, &message, IBCW_TOO_LARGE, "a transfer of nothing");
    transfer(&message, "channel-0", "alice", "atom", 1001, "bob", "", 1000);
    answer(&w->x, &message, IBCW_POOR, "a transfer of more than one holds");
    transfer_many(&message, "channel-0", "alice", denoms, 2, 1, "bob", "", 1000);
    answer(&w->x, &message, IBCW_WRONG_VERSION, "several tokens over a channel whose packets have one");
    chan_close_init(&message, "transfer", "channel-0");
    answer(&w->x, &message, IBCW_CLOSE_REFUSED, "a channel of tokens is closed");
}

/* The end of the text is another: a packet's proof, or the channel that it came from. */
static void refuse_packets(world *w)
{
    static text message, other;
    transfer(&message, "channel-0", "alice", "atom", 5, "bob", "", 1000);
    answer(&w->x, &message, IBCW_DONE, "a transfer");
    first_owed(&w->x, &w->y, &message);
    want_tokens_of(&message);
    other = message;
    other.data[other.size - 1] ^= 1;
    answer(&w->y, &other, IBCW_BAD_PROOF, "a packet with another proof");
    other = message;
    other.data[45] = '9';
    answer(&w->y, &other, IBCW_WRONG_PEER, "a packet from another channel");
    answer(&w->y, &message, IBCW_DONE, "a packet");
    answer(&w->y, &message, IBCW_ALREADY_RECEIVED, "a packet again");
    first_owed(&w->y, &w->x, &message);
    answer(&w->x, &message, IBCW_DONE, "an acknowledgement");
    answer(&w->x, &message, IBCW_NO_COMMITMENT, "an acknowledgement again");
}

/* A timeout of the packet that the message brings, with the proof that it has no receipt. */
static void timeout_of(text *out, const text *received, ibcw_handle *peer, uint64_t sequence)
{
    static text proof;
    char receipt[128];
    uint64_t height = 0;
    want(ibcw_message_proof(received->data, received->size, 0, &height, proof.data, ROOM, &proof.size), IBCW_DONE,
         "a packet's proof");
    snprintf(receipt, sizeof receipt, "receipts/ports/transfer/channels/channel-0/sequences/%llu",
             (unsigned long long)sequence);
    begin(out, 17);
    put_bytes(out, received->data + 1, received->size - 1 - 8 - 2 - proof.size);
    put_number(out, 0, 8);
    put_proved(out, peer, receipt);
}

static void refuse_timeouts(world *w)
{
    static text message, timeout;
    transfer(&message, "channel-0", "alice", "atom", 5, "bob", "", height_of(&w->y) + 3);
    answer(&w->x, &message, IBCW_DONE, "a transfer");
    first_owed(&w->x, &w->y, &message);
    update(&w->x, &w->y);
    timeout_of(&timeout, &message, &w->y, 2);
    answer(&w->x, &timeout, IBCW_NOT_TIMED_OUT, "a timeout too early");
    end_block(&w->y);
    end_block(&w->y);
    answer(&w->y, &message, IBCW_TIMEOUT_PASSED, "a packet too late");
    update(&w->x, &w->y);
    timeout_of(&timeout, &message, &w->y, 2);
    answer(&w->x, &timeout, IBCW_DONE, "a timeout");
    timeout.data[0] = 18;
    put_proof(&timeout, &w->y, channel_end("transfer", "channel-0"));
    answer(&w->x, &timeout, IBCW_NO_COMMITMENT, "a timeout again, as on a closed channel");
}

/* ---- notes */

static void want_note(ibcw_handle *notes, uint64_t chain, uint64_t index, const char *wanted)
{
    static text note;
    uint32_t found;
    WITH_REFUSALS(found, ibcw_note(notes, chain, 0, index, note.data, ROOM, &note.size), "a note");
    want(found, IBCW_DONE, "a note");
    want((uint32_t)note.size, (uint32_t)strlen(wanted), "the size of a note");
    want((uint32_t)memcmp(note.data, wanted, note.size), 0, "the bytes of a note");
}

/* So many notes came over channel-1, 2 or 3. */
static void want_notes(ibcw_handle *notes, uint64_t chain, uint64_t wanted)
{
    static text name;
    uint64_t count = 0;
    want(ibcw_note_channel(notes, chain, 0, name.data, ROOM, &name.size), IBCW_DONE, "a channel of notes");
    want((uint32_t)memcmp(name.data, "channel-1", 9), 0, "the name of a channel");
    want(ibcw_note_count(notes, chain, 0, &count), IBCW_DONE, "how many notes");
    want((uint32_t)count, (uint32_t)wanted, "how many notes");
    want_note(notes, chain, 0, "one");
    want_note(notes, chain, 1, "two");
    if (wanted == 3) want_note(notes, chain, 2, "three");
    meet(ibcw_note(notes, chain, 0, wanted, name.data, ROOM, &name.size), IBCW_NOTHING_THERE, "a note more");
    want(ibcw_note_channel(notes, chain, 1, name.data, ROOM, &name.size), IBCW_NOTHING_THERE, "a second channel");
    want(ibcw_note_count(notes, chain, 1, &count), IBCW_NOTHING_THERE, "a second channel");
}

static void refuse_notes(world *w)
{
    static text message;
    uint32_t found;
    ibcw_handle plan, notes = {0};
    send_note(&message, "channel-1", "", 1000);
    answer(&w->x, &message, IBCW_TOO_LARGE, "a note of no bytes");
    send_note(&message, "channel-1", "one", 1000);
    answer(&w->x, &message, IBCW_DONE, "a note");
    send_note(&message, "channel-1", "two", 1000);
    answer(&w->x, &message, IBCW_DONE, "a note");
    plan = plan_of(&w->x, &w->y);
    planned(&plan, 0, &message);
    answer(&w->y, &message, IBCW_DONE, "a planned update");
    planned(&plan, 2, &message);
    answer(&w->y, &message, IBCW_OUT_OF_ORDER, "the second note first");
    planned(&plan, 1, &message);
    answer(&w->y, &message, IBCW_DONE, "the first note");
    planned(&plan, 2, &message);
    answer(&w->y, &message, IBCW_DONE, "the second note");
    want(ibcw_free(&plan), IBCW_DONE, "free");
    WITH_REFUSALS(found, ibcw_make_notes(&w->y, &notes), "notes");
    want(found, IBCW_DONE, "notes");
    want((uint32_t)length_of(&notes), 1, "how many channels");
    want_notes(&notes, 7, 2);
    want(ibcw_free(&notes), IBCW_DONE, "free");
}

static void close_notes(world *w)
{
    static text message;
    chan_close_init(&message, "note", "channel-1");
    answer(&w->x, &message, IBCW_DONE, "a channel of notes is closed");
    end_block(&w->x);
    update(&w->y, &w->x);
    chan_close_confirm(&message, "note", "channel-1", &w->x);
    answer(&w->y, &message, IBCW_DONE, "a channel of notes is closed at the other end");
}

/* ---- blocks, and windows of heights */

/* The root of the height that the ledger committed last, by the reply of its history. */
static uint64_t last_root(ibcw_handle *ledger, uint8_t root[32])
{
    size_t size = 0;
    ibcw_told told = {77, 77};
    want(ibcw_reply(ledger, length_of(ledger) - 1, &told, root, 32, &size), IBCW_DONE, "a block's reply");
    want((uint32_t)told.kind, IBCW_TOLD_BLOCK, "a block's reply");
    return told.number;
}

/* The proof tells that it shows the absence of this path, and no value. */
static void want_told_absence(const text *proof, const char *path)
{
    static text key;
    uint8_t kind = 0;
    uint32_t found;
    size_t size = 77;
    want(ibcw_proof_kind(proof->data, proof->size, &kind), IBCW_DONE, "the kind of a proof of absence");
    want(kind, IBCW_ABSENT, "the kind of a proof of absence");
    WITH_REFUSALS(found, ibcw_proof_key(proof->data, proof->size, key.data, ROOM, &key.size), "the key of a proof of absence");
    want(found, IBCW_DONE, "the key of a proof of absence");
    want((uint32_t)key.size, (uint32_t)strlen(path), "the size of a key");
    want((uint32_t)memcmp(key.data, path, key.size), 0, "the bytes of a key");
    want(ibcw_proof_value(proof->data, proof->size, NULL, 0, &size), IBCW_NOTHING_THERE, "the value of a proof of absence");
}

/* Proofs at a height show under its root how many clients there are, and that a connection isn't there. */
static void prove_there(ibcw_handle *ledger, uint64_t height, const uint8_t root[32], uint8_t clients)
{
    static text proof;
    uint32_t found;
    uint8_t count[8] = {0, 0, 0, 0, 0, 0, 0, clients};
    WITH_REFUSALS(found, ibcw_prove(ledger, height, bytes("nextClientSequence"), 18, proof.data, ROOM, &proof.size), "a proof");
    want(found, IBCW_DONE, "a proof of a height");
    want(ibcw_verify_present(root, 32, bytes("nextClientSequence"), 18, count, 8, proof.data, proof.size), IBCW_DONE,
         "a proof of a height");
    want(ibcw_prove(ledger, height, bytes("clients"), 7, proof.data, ROOM, &proof.size), IBCW_BAD_NAME, "a path of no key");
    want(ibcw_prove(ledger, height, bytes("connections/connection-7"), 24, proof.data, ROOM, &proof.size), IBCW_DONE,
         "a proof of absence");
    want(ibcw_verify_absent(root, 32, bytes("connections/connection-7"), 24, proof.data, proof.size), IBCW_DONE,
         "a proof of absence");
    want_told_absence(&proof, "connections/connection-7");
}

/* Proofs are of the heights in the window alone, whatever was committed since. */
static void prove_heights(void)
{
    static text message;
    static uint8_t roots[4][32];
    size_t size = 77;
    world w = begin_world(8, 2);
    create_client(&message, 1);
    meet(ibcw_prove(&w.x, 0, bytes("nextClientSequence"), 18, NULL, 0, &size), IBCW_NO_CONSENSUS, "a proof of height 0");
    for (int n = 1; n <= 3; n++) {
        meet(ibcw_prove(&w.x, (uint64_t)n, bytes("nextClientSequence"), 18, NULL, 0, &size), IBCW_NO_CONSENSUS, "a height to come");
        end_block(&w.x);
        want((uint32_t)last_root(&w.x, roots[n]), (uint32_t)n, "a height");
        answer(&w.x, &message, IBCW_DONE, "a client");
    }
    meet(ibcw_prove(&w.x, 1, bytes("nextClientSequence"), 18, NULL, 0, &size), IBCW_NO_CONSENSUS, "a height that is gone");
    want((uint32_t)size, 77, "what isn't told");
    meet(ibcw_prove(&w.x, 2, bytes("nextClientSequence"), 18, NULL, 0, &size), IBCW_TOO_SHORT, "a proof with no room");
    prove_there(&w.x, 2, roots[2], 1);
    prove_there(&w.x, 3, roots[3], 2);
    free_world(&w);
}

static void refuse_blocks(void)
{
    static text message, old;
    world w = begin_world(2, 1);
    meet(block(&w.x, TIME - 1), IBCW_TIME_BACK, "a block of an earlier time");
    create_client(&message, 1);
    answer(&w.x, &message, IBCW_DONE, "a client");
    end_block(&w.y);
    update_client(&old, &w.y);
    end_block(&w.y);
    answer(&w.x, &old, IBCW_PRUNED, "an update with a height that is gone");
    meet(block(&w.y, TIME), IBCW_TABLE_FULL, "a block more than may be");
    free_world(&w);
}

/* ---- texts that are none, and handles */

static void refuse_texts(world *w)
{
    static text message = {{200, 1, 2, 3}, 4};
    ibcw_amount amount = {7, 7};
    uint8_t kind = 9, tag = 9;
    uint32_t found;
    size_t size = 77;
    answer(&w->x, &message, IBCW_NO_MESSAGE, "bytes of no message");
    want(apply(&w->x, NULL, 0), IBCW_NO_MESSAGE, "no bytes");
    want(ibcw_message_tag(NULL, 0, &tag), IBCW_NO_MESSAGE, "the tag of no bytes");
    want(ibcw_proof_kind(NULL, 0, &kind), IBCW_BAD_MESSAGE, "the kind of no bytes");
    want(ibcw_proof_key(message.data, message.size, NULL, 0, &size), IBCW_BAD_MESSAGE, "the key of no proof");
    want(ibcw_proof_value(message.data, message.size, NULL, 0, &size), IBCW_BAD_MESSAGE, "the value of no proof");
    meet(ibcw_query(&w->x, bytes("clients"), 7, NULL, 0, &size), IBCW_BAD_NAME, "a path of no key");
    want(ibcw_query(&w->x, bytes("\xff\xfe"), 2, NULL, 0, &size), IBCW_BAD_NAME, "a path that is no text");
    WITH_REFUSALS(found, ibcw_query(&w->x, bytes("nextClientSequence"), 18, NULL, 0, &size), "a value");
    meet(found, IBCW_TOO_SHORT, "a value with no room");
    want((uint32_t)size, 8, "the room that a value needs");
    want(ibcw_balance(&w->x, bytes("al/ice"), 6, bytes("atom"), 4, &amount), IBCW_BAD_NAME, "a user of no name");
    want(ibcw_balance(&w->x, bytes("alice"), 5, bytes("a//b"), 4, &amount), IBCW_BAD_NAME, "no denomination");
    want(ibcw_balance(&w->x, NULL, 0, NULL, 0, &amount), IBCW_BAD_NAME, "no name");
    want(ibcw_add_balance(&w->genesis, NULL, 0, bytes("atom"), 4, 0, 1), IBCW_BAD_NAME, "no user");
    want((uint32_t)(kind + tag + amount.high + amount.low), 32, "what isn't told");
}

/* Every kind of value that a handle may hold, and none. */
enum { GENESIS, LEDGERS, LEDGER, VIEW, PLAN, BALANCES, NOTES, AUDIT, ENTRIES, NOTHING, KINDS };

/* The calls that ask a value of a handle, and of which kinds. They are tried with values of every other kind. */
typedef struct {
    const char *name;
    uint32_t (*call)(ibcw_handle *handle);
    unsigned takes;
} asking;

enum { OF_LISTS = 1 << LEDGER | 1 << PLAN | 1 << BALANCES | 1 << NOTES | 1 << AUDIT | 1 << ENTRIES, OF_HOLDINGS = 1 << BALANCES | 1 << AUDIT, OF_NOTES = 1 << NOTES | 1 << AUDIT };

static uint64_t number;
static size_t written;
static ibcw_handle made;

static uint32_t ask_add_chain(ibcw_handle *h) { return ibcw_add_chain(h, TIME); }
static uint32_t ask_add_balance(ibcw_handle *h) { return ibcw_add_balance(h, bytes("a"), 1, bytes("b"), 1, 0, 1); }
static uint32_t ask_make_ledgers(ibcw_handle *h) { return ibcw_make_ledgers(h, &made); }
static uint32_t ask_take_ledger(ibcw_handle *h) { return ibcw_take_ledger(h, &made); }
static uint32_t ask_make_audit(ibcw_handle *h) { return ibcw_make_audit(h, &made); }
static uint32_t ask_make_numbered_ledgers(ibcw_handle *h) { return ibcw_make_numbered_ledgers(h, 9, &made); }
static uint32_t ask_apply(ibcw_handle *h)
{
    ibcw_told told = {77, 77};
    return ibcw_apply(h, bytes("?"), 1, &told, NULL, 0, &written);
}
static uint32_t ask_end_block(ibcw_handle *h)
{
    ibcw_told told = {77, 77};
    return ibcw_end_block(h, TIME, &told, NULL, 0, &written);
}
static uint32_t ask_escrow(ibcw_handle *h)
{
    ibcw_amount amount;
    return ibcw_escrow(h, bytes("channel-0"), 9, bytes("b"), 1, &amount);
}
static uint32_t ask_supply(ibcw_handle *h)
{
    ibcw_amount amount;
    return ibcw_supply(h, bytes("b"), 1, &amount);
}
static uint32_t ask_packet(ibcw_handle *h) { return ibcw_packet(h, bytes("note"), 4, bytes("channel-0"), 9, 1, NULL, 0, &written); }
static uint32_t ask_ack(ibcw_handle *h) { return ibcw_ack(h, bytes("note"), 4, bytes("channel-0"), 9, 1, NULL, 0, &written); }
static uint32_t ask_length(ibcw_handle *h) { return ibcw_length(h, &number); }
static uint32_t ask_event(ibcw_handle *h)
{
    ibcw_asked asked;
    return ibcw_event(h, 0, &asked, NULL, 0, &written);
}
static uint32_t ask_reply(ibcw_handle *h)
{
    ibcw_told told;
    return ibcw_reply(h, 0, &told, NULL, 0, &written);
}
static uint32_t ask_query(ibcw_handle *h) { return ibcw_query(h, bytes("nextClientSequence"), 18, NULL, 0, &written); }
static uint32_t ask_prove(ibcw_handle *h) { return ibcw_prove(h, 1, bytes("connections/c"), 13, NULL, 0, &written); }
static uint32_t ask_balance(ibcw_handle *h)
{
    ibcw_amount amount;
    return ibcw_balance(h, bytes("a"), 1, bytes("b"), 1, &amount);
}
static uint32_t ask_make_balances(ibcw_handle *h) { return ibcw_make_balances(h, &made); }
static uint32_t ask_holding_count(ibcw_handle *h) { return ibcw_holding_count(h, 0, &number); }
static uint32_t ask_note_channel_count(ibcw_handle *h) { return ibcw_note_channel_count(h, 0, &number); }
static uint32_t ask_share_view(ibcw_handle *h) { return ibcw_share_view(h, &made); }
static uint32_t ask_holding(ibcw_handle *h) { return ibcw_holding(h, 0, 0, NULL, 0, &written); }
static uint32_t ask_holding_amount(ibcw_handle *h)
{
    ibcw_amount amount;
    return ibcw_holding_amount(h, 0, 0, &amount);
}
static uint32_t ask_make_notes(ibcw_handle *h) { return ibcw_make_notes(h, &made); }
static uint32_t ask_note_channel(ibcw_handle *h) { return ibcw_note_channel(h, 1, 0, NULL, 0, &written); }
static uint32_t ask_note_count(ibcw_handle *h) { return ibcw_note_count(h, 1, 0, &number); }
static uint32_t ask_note(ibcw_handle *h) { return ibcw_note(h, 1, 0, 0, NULL, 0, &written); }
static uint32_t ask_make_view(ibcw_handle *h) { return ibcw_make_view(h, &made); }
static uint32_t ask_view_heights(ibcw_handle *h)
{
    ibcw_heights heights;
    return ibcw_view_heights(h, &heights);
}
static uint32_t ask_view_root(ibcw_handle *h) { return ibcw_view_root(h, NULL, 0, &written); }
static uint32_t ask_view_proof(ibcw_handle *h) { return ibcw_view_proof(h, bytes("connections/c"), 13, NULL, 0, &written); }
static uint32_t ask_stored(ibcw_handle *h)
{
    ibcw_entry_numbers numbers;
    return ibcw_stored(h, 0, &numbers, NULL, 0, &written, NULL, 0, &written);
}
static uint32_t ask_add_entry(ibcw_handle *h) { return ibcw_add_entry(h, 0, 1, bytes("?"), 1, bytes("?"), 1); }
static uint32_t ask_plan_message(ibcw_handle *h) { return ibcw_plan_message(h, 0, NULL, 0, &written); }

static const asking CALLS[] = {
    {"ibcw_add_chain", ask_add_chain, 1 << GENESIS},
    {"ibcw_add_balance", ask_add_balance, 1 << GENESIS},
    {"ibcw_make_ledgers", ask_make_ledgers, 1 << GENESIS},
    {"ibcw_take_ledger", ask_take_ledger, 1 << LEDGERS},
    {"ibcw_make_audit", ask_make_audit, 1 << LEDGERS},
    {"ibcw_make_numbered_ledgers", ask_make_numbered_ledgers, 1 << GENESIS},
    {"ibcw_apply", ask_apply, 1 << LEDGER},
    {"ibcw_end_block", ask_end_block, 1 << LEDGER},
    {"ibcw_length", ask_length, OF_LISTS},
    {"ibcw_event", ask_event, 1 << LEDGER},
    {"ibcw_reply", ask_reply, 1 << LEDGER},
    {"ibcw_query", ask_query, 1 << LEDGER},
    {"ibcw_prove", ask_prove, 1 << LEDGER},
    {"ibcw_balance", ask_balance, 1 << LEDGER},
    {"ibcw_escrow", ask_escrow, 1 << LEDGER},
    {"ibcw_supply", ask_supply, 1 << LEDGER},
    {"ibcw_packet", ask_packet, 1 << LEDGER},
    {"ibcw_ack", ask_ack, 1 << LEDGER},
    {"ibcw_make_balances", ask_make_balances, 1 << LEDGER},
    {"ibcw_holding_count", ask_holding_count, OF_HOLDINGS},
    {"ibcw_holding", ask_holding, OF_HOLDINGS},
    {"ibcw_holding_amount", ask_holding_amount, OF_HOLDINGS},
    {"ibcw_make_notes", ask_make_notes, 1 << LEDGER},
    {"ibcw_note_channel_count", ask_note_channel_count, OF_NOTES},
    {"ibcw_note_channel", ask_note_channel, OF_NOTES},
    {"ibcw_note_count", ask_note_count, OF_NOTES},
    {"ibcw_note", ask_note, OF_NOTES},
    {"ibcw_make_view", ask_make_view, 1 << LEDGER},
    {"ibcw_share_view", ask_share_view, 1 << VIEW},
    {"ibcw_view_heights", ask_view_heights, 1 << VIEW},
    {"ibcw_view_root", ask_view_root, 1 << VIEW},
    {"ibcw_view_proof", ask_view_proof, 1 << VIEW},
    {"ibcw_plan_message", ask_plan_message, 1 << PLAN},
    {"ibcw_stored", ask_stored, 1 << LEDGER},
    {"ibcw_add_entry", ask_add_entry, 1 << ENTRIES},
};

/* Of two handles, one is of the wrong kind, or empty. */
static void refuse_pairs(ibcw_handle *values[KINDS], ibcw_handle *ledger, int k, uint32_t why)
{
    ibcw_handle plan = {0};
    ibcw_channel_totals told;
    uint64_t place = 77;
    size_t size = 77;
    if (k != GENESIS && k != ENTRIES) {
        meet(ibcw_make_replayed(values[k], values[ENTRIES], &plan, &place, NULL, 0, &size), why, "ibcw_make_replayed");
        meet(ibcw_make_replayed(values[GENESIS], values[k], &plan, &place, NULL, 0, &size), why, "ibcw_make_replayed");
        meet(ibcw_make_numbered_replayed(values[GENESIS], 9, values[k], &plan, &place, NULL, 0, &size), why, "ibcw_make_numbered_replayed");
    }
    want(place == 77 && size == 77, 1, "what isn't told of no entries");
    if (k != VIEW) {
        meet(ibcw_make_plan(values[k], values[VIEW], &plan), why, "ibcw_make_plan");
        meet(ibcw_make_plan(values[VIEW], values[k], &plan), why, "ibcw_make_plan");
    }
    if (k != LEDGER) {
        meet(ibcw_totals(values[k], ledger, bytes("channel-0"), 9, bytes("b"), 1, &told), why, "ibcw_totals");
        meet(ibcw_totals(ledger, values[k], bytes("channel-0"), 9, bytes("b"), 1, &told), why, "ibcw_totals");
    }
    if (k != LEDGERS) meet(ibcw_join_ledger(values[k], ledger), why, "ibcw_join_ledger");
    if (k != LEDGER && k != LEDGERS) meet(ibcw_join_ledger(values[LEDGERS], values[k]), why, "ibcw_join_ledger");
}

/* Each call is refused by each handle that holds a value of another kind, and by an empty one. */
static void refuse_kinds(ibcw_handle *values[KINDS], ibcw_handle *ledger)
{
    for (int k = 0; k < KINDS; k++) {
        uint32_t why = k == NOTHING ? IBCW_EMPTY : IBCW_OTHER_KIND;
        for (size_t n = 0; n < sizeof CALLS / sizeof CALLS[0]; n++)
            if (!(CALLS[n].takes >> k & 1)) meet(CALLS[n].call(values[k]), why, CALLS[n].name);
        refuse_pairs(values, ledger, k, why);
    }
}

/* Nothing is put into a handle that holds something. */
static void refuse_full(ibcw_handle *values[KINDS])
{
    uint64_t place = 77;
    size_t size = 77;
    ibcw_handle a = view_of(values[LEDGER]);
    meet(ibcw_make_entries(values[VIEW]), IBCW_FULL, "ibcw_make_entries");
    meet(ibcw_make_replayed(values[GENESIS], values[ENTRIES], values[VIEW], &place, NULL, 0, &size), IBCW_FULL, "ibcw_make_replayed");
    want(place == 77 && size == 77, 1, "what isn't told over another value");
    meet(ibcw_make_genesis(values[VIEW], 1, 1), IBCW_FULL, "ibcw_make_genesis");
    meet(ibcw_make_ledgers(values[GENESIS], values[VIEW]), IBCW_FULL, "ibcw_make_ledgers");
    meet(ibcw_take_ledger(values[LEDGERS], values[VIEW]), IBCW_FULL, "ibcw_take_ledger");
    meet(ibcw_make_audit(values[LEDGERS], values[VIEW]), IBCW_FULL, "ibcw_make_audit");
    meet(ibcw_make_view(values[LEDGER], values[VIEW]), IBCW_FULL, "ibcw_make_view");
    meet(ibcw_make_plan(values[VIEW], &a, values[PLAN]), IBCW_FULL, "ibcw_make_plan");
    meet(ibcw_make_balances(values[LEDGER], values[VIEW]), IBCW_FULL, "ibcw_make_balances");
    meet(ibcw_make_notes(values[LEDGER], values[VIEW]), IBCW_FULL, "ibcw_make_notes");
    want(ibcw_free(&a), IBCW_DONE, "free");
}

/* The ledgers of a world are audited, with each allocation refused in turn, and stay: they are taken out again, go on, and are audited again. A ledger of
   another world isn't taken. Without a chain there is no audit, and the ledgers stay then too. */
static void audit_again(world *w, world *other, ibcw_handle *audit)
{
    uint32_t found;
    ibcw_handle nothing = {0};
    uint64_t x, y;
    meet(ibcw_join_ledger(&w->ledgers, &other->y), IBCW_OTHER_WORLD, "a ledger of another world");
    want(ibcw_join_ledger(&w->ledgers, &w->y), IBCW_DONE, "a ledger joins");
    want(ibcw_join_ledger(&w->ledgers, &w->y), IBCW_EMPTY, "a ledger that has joined");
    meet(ibcw_make_audit(&w->ledgers, &nothing), IBCW_BAD_MESSAGE, "an audit without a chain");
    x = length_of(&w->x);
    want(ibcw_join_ledger(&w->ledgers, &w->x), IBCW_DONE, "a ledger joins");
    WITH_REFUSALS(found, ibcw_make_audit(&w->ledgers, audit), "an audit");
    want(found, IBCW_DONE, "an audit");
    want((uint32_t)length_of(audit), 2, "how many chains an audit has");
    want(ibcw_free(audit), IBCW_DONE, "free");
    want(ibcw_take_ledger(&w->ledgers, &w->y), IBCW_DONE, "a ledger behind an audit");
    want(ibcw_take_ledger(&w->ledgers, &w->x), IBCW_DONE, "a ledger behind an audit");
    want((uint32_t)length_of(&w->x), (uint32_t)x, "a history behind an audit");
    y = length_of(&w->y);
    end_block(&w->y);
    want((uint32_t)length_of(&w->y), (uint32_t)y + 1, "a history behind an audit");
    want(ibcw_join_ledger(&w->ledgers, &w->x), IBCW_DONE, "a ledger joins");
    want(ibcw_join_ledger(&w->ledgers, &w->y), IBCW_DONE, "a ledger joins");
    want(ibcw_make_audit(&w->ledgers, audit), IBCW_DONE, "an audit again");
}

/* How many holdings and channels of notes an audit has at each of two chains, and a list of balances at any. A third chain isn't there. */
static void want_counts(ibcw_handle *audit, ibcw_handle *balances)
{
    uint64_t count = 77, chain;
    size_t size = 77;
    ibcw_amount amount = {7, 7};
    for (chain = 0; chain < 2; chain++) {
        meet(ibcw_holding_count(audit, chain, &count), IBCW_DONE, "how many holdings");
        want(ibcw_holding_amount(audit, chain, count - 1, &amount), IBCW_DONE, "the last holding of a chain");
        meet(ibcw_holding(audit, chain, count, NULL, 0, &size), IBCW_NOTHING_THERE, "a holding more");
        want(ibcw_note_channel_count(audit, chain, &count), IBCW_DONE, "how many channels of notes");
        want((uint32_t)count, (uint32_t)chain, "how many channels of notes");
    }
    want(ibcw_holding_count(balances, 99, &count), IBCW_DONE, "how many holdings of a list");
    want((uint32_t)count, (uint32_t)length_of(balances), "how many holdings of a list");
    count = 77;
    meet(ibcw_holding_count(audit, 2, &count), IBCW_UNKNOWN_CHAIN, "how many holdings of a chain that isn't there");
    meet(ibcw_note_channel_count(audit, 2, &count), IBCW_UNKNOWN_CHAIN, "how many channels of a chain that isn't there");
    meet(ibcw_holding(audit, 2, 0, NULL, 0, &size), IBCW_UNKNOWN_CHAIN, "a holding of a chain that isn't there");
    meet(ibcw_holding_amount(audit, 2, 0, &amount), IBCW_UNKNOWN_CHAIN, "an amount at a chain that isn't there");
    meet(ibcw_note_channel(audit, 2, 0, NULL, 0, &size), IBCW_UNKNOWN_CHAIN, "a channel of a chain that isn't there");
    meet(ibcw_note_count(audit, 2, 0, &count), IBCW_UNKNOWN_CHAIN, "notes of a chain that isn't there");
    meet(ibcw_note(audit, 2, 0, 0, NULL, 0, &size), IBCW_UNKNOWN_CHAIN, "a note of a chain that isn't there");
    want(count == 77 && size == 77, 1, "what isn't told of a chain that isn't there");
}

/* A view behind a second handle is the same, and is there when the first is freed. */
static void share_views(ibcw_handle *ledger)
{
    uint8_t root[32], again[32];
    uint32_t found;
    size_t size = 0;
    ibcw_handle view = view_of(ledger), other = {0};
    want(ibcw_view_root(&view, root, 32, &size), IBCW_DONE, "a root");
    WITH_REFUSALS(found, ibcw_share_view(&view, &other), "a shared view");
    want(found, IBCW_DONE, "a shared view");
    meet(ibcw_share_view(&view, &other), IBCW_FULL, "a shared view over another");
    want(ibcw_free(&view), IBCW_DONE, "free");
    want(ibcw_view_root(&other, again, 32, &size), IBCW_DONE, "the root of a shared view");
    want((uint32_t)memcmp(root, again, 32), 0, "the root of a shared view");
    want(ibcw_free(&other), IBCW_DONE, "free");
}

static void refuse_handles(world *w)
{
    uint32_t found;
    world other = begin_world(8, 8);
    ibcw_handle view = view_of(&w->x), plan = plan_of(&w->x, &w->y);
    ibcw_handle balances = {0}, notes = {0}, audit = {0}, entries = {0}, nothing = {0};
    ibcw_handle *values[KINDS] = {&w->genesis, &other.ledgers, &other.x, &view, &plan, &balances, &notes, &audit, &entries, &nothing};
    ibcw_handle *rest[] = {&w->genesis, &w->ledgers, &view, &plan, &balances, &notes, &audit, &entries};
    WITH_REFUSALS(found, ibcw_make_entries(&entries), "a list of entries");
    want(found, IBCW_DONE, "a list of entries");
    WITH_REFUSALS(found, ibcw_make_balances(&w->x, &balances), "balances");
    want(found, IBCW_DONE, "balances");
    want(ibcw_make_notes(&w->y, &notes), IBCW_DONE, "notes");
    share_views(&w->x);
    audit_again(w, &other, &audit);
    want_notes(&audit, 1, 3);
    want_counts(&audit, &balances);
    refuse_kinds(values, &other.y);
    refuse_full(values);
    want(ibcw_make_audit(&other.ledgers, &nothing), IBCW_BAD_MESSAGE, "an audit of no ledgers");
    want(ibcw_free(&other.ledgers), IBCW_DONE, "free");
    want(ibcw_make_ledgers(&other.genesis, &other.ledgers), IBCW_DONE, "ledgers");
    free_world(&other);
    free_all(rest, 8);
    want(ibcw_free(&nothing), IBCW_EMPTY, "free of an empty handle");
}

/* ---- packets, taken apart */

static void want_part(const text *packet, uint64_t part, const char *wanted)
{
    static text found;
    uint32_t answer;
    WITH_REFUSALS(answer, ibcw_packet_part(packet->data, packet->size, part, found.data, ROOM, &found.size), "a part");
    want(answer, IBCW_DONE, "a part of a packet");
    want((uint32_t)found.size, (uint32_t)strlen(wanted), "the size of a part");
    want((uint32_t)memcmp(found.data, wanted, found.size), 0, "the bytes of a part");
}

/* The bytes are of this packet of notes. */
static void want_packet(const text *packet, uint64_t sequence, const char *note)
{
    ibcw_packet_numbers_told numbers = {77, 77, 77};
    uint32_t answer;
    size_t size = 77;
    WITH_REFUSALS(answer, ibcw_packet_numbers(packet->data, packet->size, &numbers), "a packet's numbers");
    want(answer, IBCW_DONE, "a packet's numbers");
    want((uint32_t)numbers.sequence, (uint32_t)sequence, "a packet's sequence");
    want((uint32_t)numbers.timeout_height, 1000, "a packet's timeout");
    want((uint32_t)numbers.timeout_time, 0, "a packet's timeout");
    want_part(packet, IBCW_SOURCE_PORT, "note");
    want_part(packet, IBCW_SOURCE_CHANNEL, "channel-1");
    want_part(packet, IBCW_DESTINATION_PORT, "note");
    want_part(packet, IBCW_DESTINATION_CHANNEL, "channel-1");
    want_part(packet, IBCW_DATA, note);
    want(ibcw_packet_part(packet->data, packet->size, 6, NULL, 0, &size), IBCW_NOTHING_THERE, "a sixth part");
    want(ibcw_packet_part(packet->data, packet->size, 0, NULL, 0, &size), IBCW_NOTHING_THERE, "a part 0");
    want(ibcw_packet_part(packet->data, packet->size - 1, 1, NULL, 0, &size), IBCW_BAD_MESSAGE, "a part of no packet");
    want(ibcw_packet_numbers(packet->data, packet->size - 1, &numbers), IBCW_BAD_MESSAGE, "numbers of no packet");
    want((uint32_t)size, 77, "what isn't told");
}

/* A channel of notes is opened, a note goes over it and is acknowledged: the packet and the acknowledgement are read from messages and from
   ledgers, whether the commitment stands or not. */
static void take_packets_apart(world *w)
{
    static text message, packet, again, ack, written_ack;
    uint32_t found;
    send_note(&message, "channel-1", "three", 1000);
    answer(&w->x, &message, IBCW_DONE, "a note");
    first_owed(&w->x, &w->y, &message);
    WITH_REFUSALS(found, ibcw_message_packet(message.data, message.size, packet.data, ROOM, &packet.size), "a carried packet");
    want(found, IBCW_DONE, "a carried packet");
    want_packet(&packet, 3, "three");
    want(ibcw_message_ack(message.data, message.size, NULL, 0, &ack.size), IBCW_NOTHING_THERE, "an acknowledgement of a packet that comes");
    answer(&w->y, &message, IBCW_DONE, "a note comes");
    first_owed(&w->y, &w->x, &message);
    WITH_REFUSALS(found, ibcw_message_ack(message.data, message.size, ack.data, ROOM, &ack.size), "a carried acknowledgement");
    want(found, IBCW_DONE, "a carried acknowledgement");
    answer(&w->x, &message, IBCW_DONE, "an acknowledgement");
    WITH_REFUSALS(found, ibcw_packet(&w->x, bytes("note"), 4, bytes("channel-1"), 9, 3, again.data, ROOM, &again.size), "a sent packet");
    want(found, IBCW_DONE, "a sent packet");
    want((uint32_t)again.size, (uint32_t)packet.size, "the size of a sent packet");
    want((uint32_t)memcmp(again.data, packet.data, again.size), 0, "the bytes of a sent packet");
    WITH_REFUSALS(found, ibcw_ack(&w->y, bytes("note"), 4, bytes("channel-1"), 9, 3, written_ack.data, ROOM, &written_ack.size), "a written acknowledgement");
    want(found, IBCW_DONE, "a written acknowledgement");
    want((uint32_t)written_ack.size, (uint32_t)ack.size, "the size of an acknowledgement");
    want((uint32_t)memcmp(written_ack.data, ack.data, ack.size), 0, "the bytes of an acknowledgement");
    meet(ibcw_packet(&w->x, bytes("note"), 4, bytes("channel-1"), 9, 4, NULL, 0, &again.size), IBCW_NOTHING_THERE, "a packet to come");
    meet(ibcw_packet(&w->x, bytes("n"), 1, bytes("channel-1"), 9, 1, NULL, 0, &again.size), IBCW_BAD_NAME, "a packet of no port");
    meet(ibcw_ack(&w->x, bytes("note"), 4, bytes("channel-1"), 9, 3, NULL, 0, &again.size), IBCW_NOTHING_THERE, "an acknowledgement at the sender");
    meet(ibcw_ack(&w->x, bytes("note"), 4, bytes("x"), 1, 3, NULL, 0, &again.size), IBCW_BAD_NAME, "an acknowledgement of no channel");
    meet(ibcw_message_packet(packet.data, packet.size, NULL, 0, &again.size), IBCW_NO_MESSAGE, "a packet's bytes as a message");
    meet(ibcw_message_ack(packet.data, packet.size, NULL, 0, &again.size), IBCW_NO_MESSAGE, "a packet's bytes as a message");
    create_client(&message, 1);
    meet(ibcw_message_packet(message.data, message.size, NULL, 0, &again.size), IBCW_NOTHING_THERE, "a packet of a message that has none");
}

static void want_escrow(ibcw_handle *ledger, const char *denom, uint64_t wanted)
{
    ibcw_amount amount = {7, 7};
    uint32_t found;
    WITH_REFUSALS(found, ibcw_escrow(ledger, bytes("channel-0"), 9, bytes(denom), strlen(denom), &amount), "an escrow account");
    want(found, IBCW_DONE, "an escrow account");
    want((uint32_t)(amount.high + amount.low), (uint32_t)wanted, "what an escrow account holds");
    meet(ibcw_escrow(ledger, bytes("channel"), 7, bytes(denom), strlen(denom), &amount), IBCW_BAD_NAME, "an escrow account of no channel");
}

static void want_supply(ibcw_handle *ledger, const char *denom, uint64_t wanted)
{
    ibcw_amount amount = {7, 7};
    uint32_t found;
    WITH_REFUSALS(found, ibcw_supply(ledger, bytes(denom), strlen(denom), &amount), "a supply");
    want(found, IBCW_DONE, "a supply");
    want((uint32_t)(amount.high + amount.low), (uint32_t)wanted, "how much all accounts hold");
    amount.low = 7;
    meet(ibcw_supply(ledger, bytes("a//b"), 4, &amount), IBCW_BAD_NAME, "a supply of no denomination");
    want((uint32_t)amount.low, 7, "what isn't told of no denomination");
}

static void want_totals(world *w, uint64_t escrow, uint64_t vouchers)
{
    ibcw_amount other = {7, 7};
    ibcw_channel_totals told = {other, other, other, other};
    uint32_t found;
    WITH_REFUSALS(found, ibcw_totals(&w->x, &w->y, bytes("channel-0"), 9, bytes("atom"), 4, &told), "totals");
    want(found, IBCW_DONE, "totals");
    want((uint32_t)(told.escrow.high + told.escrow.low), (uint32_t)escrow, "the escrow of a channel");
    want((uint32_t)(told.vouchers.high + told.vouchers.low), (uint32_t)vouchers, "the vouchers of a channel");
    want((uint32_t)(told.out.high + told.out.low + told.back.high + told.back.low), 0, "what is under way");
    meet(ibcw_totals(&w->x, &w->y, bytes("channel"), 7, bytes("atom"), 4, &told), IBCW_BAD_NAME, "the totals of no channel");
    meet(ibcw_totals(&w->x, &w->y, bytes("channel-9"), 9, bytes("atom"), 4, &told), IBCW_UNKNOWN_CHANNEL, "the totals of a channel that isn't there");
}

/* ---- what a journal keeps */

enum { MOST_EVENT = 400 };

/* What a journal keeps of an entry. */
typedef struct {
    ibcw_entry_numbers numbers;
    uint8_t event[MOST_EVENT], answer[IBCW_ANSWER_ROOM];
    size_t event_size, answer_size;
} stored;

static uint32_t store(ibcw_handle *ledger, uint64_t index, size_t event_room, size_t answer_room, stored *kept)
{
    return ibcw_stored(ledger, index, &kept->numbers, kept->event, event_room, &kept->event_size, kept->answer, answer_room, &kept->answer_size);
}

/* What is kept of the last entry of a ledger. Where one place has no room, the numbers and both sizes are told, and the other place is written. */
static void store_last(ibcw_handle *ledger, stored *kept)
{
    stored short_of_event, short_of_answer;
    uint32_t found;
    uint64_t last = length_of(ledger) - 1;
    memset(kept, 7, sizeof *kept);
    memset(&short_of_event, 7, sizeof short_of_event);
    memset(&short_of_answer, 7, sizeof short_of_answer);
    WITH_REFUSALS(found, store(ledger, last, MOST_EVENT, IBCW_ANSWER_ROOM, kept), "a stored entry");
    want(found, IBCW_DONE, "a stored entry");
    meet(store(ledger, last, kept->event_size - 1, IBCW_ANSWER_ROOM, &short_of_event), IBCW_TOO_SHORT, "an event with no room");
    meet(store(ledger, last, MOST_EVENT, kept->answer_size - 1, &short_of_answer), IBCW_TOO_SHORT, "an answer with no room");
    want(short_of_event.event[0] == 7 && short_of_answer.answer[0] == 7, 1, "a place that is too short stays");
    memcpy(short_of_event.event, kept->event, sizeof kept->event);
    memcpy(short_of_answer.answer, kept->answer, sizeof kept->answer);
    want((uint32_t)memcmp(&short_of_event, kept, sizeof *kept), 0, "what is told where the event has no room");
    want((uint32_t)memcmp(&short_of_answer, kept, sizeof *kept), 0, "what is told where the answer has no room");
    meet(store(ledger, last + 1, MOST_EVENT, IBCW_ANSWER_ROOM, &short_of_event), IBCW_NOTHING_THERE, "an entry to come");
    want((uint32_t)memcmp(&short_of_event, kept, sizeof *kept), 0, "what isn't told of an entry to come");
}

static uint32_t add_stored(ibcw_handle *entries, const stored *kept)
{
    return ibcw_add_entry(entries, kept->numbers.chain, kept->numbers.kind, kept->event, kept->event_size, kept->answer, kept->answer_size);
}

static ibcw_handle entries_of(const stored *kept, size_t count)
{
    ibcw_handle entries = {0};
    uint32_t found;
    want(ibcw_make_entries(&entries), IBCW_DONE, "a list of entries");
    for (size_t k = 0; k < count; k++) {
        WITH_REFUSALS(found, add_stored(&entries, &kept[k]), "an entry of a list");
        want(found, IBCW_DONE, "an entry of a list");
        want((uint32_t)length_of(&entries), (uint32_t)k + 1, "how many entries a list has");
    }
    return entries;
}

/* Bytes and numbers that are kept of no entry. */
static void refuse_entries(const stored *kept)
{
    stored other[5] = {*kept, *kept, *kept, *kept, *kept};
    ibcw_handle entries = {0};
    want(ibcw_make_entries(&entries), IBCW_DONE, "a list of entries");
    other[0].numbers.chain += 256;
    other[1].numbers.kind = 2;
    other[2].event_size--;
    other[3].answer_size++;
    other[4].answer[0] = 3;
    for (int k = 0; k < 5; k++) meet(add_stored(&entries, &other[k]), IBCW_BAD_MESSAGE, "what is kept of no entry");
    want(ibcw_add_entry(&entries, 0, 0, NULL, 0, NULL, 0), IBCW_BAD_MESSAGE, "no bytes as an entry");
    want((uint32_t)length_of(&entries), 0, "a list that is as it was");
    want(ibcw_free(&entries), IBCW_DONE, "free");
}

/* The replay of what is kept, with each of its allocations refused in turn: the entries are given up each time. */
static uint32_t replay(ibcw_handle *genesis, const stored *kept, size_t count, ibcw_handle *ledgers, uint64_t *place, uint8_t *due, size_t *size)
{
    uint32_t found = IBCW_NO_MEMORY;
    for (long n = 0; found == IBCW_NO_MEMORY; n++) {
        ibcw_handle entries = entries_of(kept, count);
        granted = n;
        refused = 0;
        found = ibcw_make_replayed(genesis, &entries, ledgers, place, due, IBCW_ANSWER_ROOM, size);
        granted = -1;
        want(found != IBCW_NO_MEMORY || refused, 1, "a replay: want of memory from within");
        want(found != IBCW_NO_MEMORY || (*place == 77 && *size == 77), 1, "what isn't told for want of memory");
        want(ibcw_free(&entries), IBCW_EMPTY, "entries that were given up");
    }
    return found;
}

/* An answer that isn't due, an event for a chain that isn't there, and a genesis that isn't allowed. */
static void refuse_replays(world *w, const stored *kept, size_t count)
{
    static stored other[8];
    ibcw_handle genesis = {0}, ledgers = {0};
    uint8_t due[IBCW_ANSWER_ROOM];
    uint64_t place = 77;
    size_t size = 77;
    memcpy(other, kept, count * sizeof *kept);
    other[1].answer[1]--;
    meet(replay(&w->genesis, other, count, &ledgers, &place, due, &size), IBCW_OTHER_ANSWER, "an answer that isn't due");
    want(place == 1 && size == kept[1].answer_size && memcmp(due, kept[1].answer, size) == 0, 1, "what is due");
    other[1] = kept[1];
    other[count - 1].numbers.chain = 2;
    place = size = 77;
    meet(replay(&w->genesis, other, count, &ledgers, &place, due, &size), IBCW_UNKNOWN_CHAIN, "an event for a chain that isn't there");
    want(place == count - 1 && size == 77, 1, "the place of an event for a chain that isn't there");
    place = 77;
    want(ibcw_make_genesis(&genesis, 8, 8), IBCW_DONE, "a genesis");
    meet(replay(&genesis, kept, count, &ledgers, &place, due, &size), IBCW_BAD_MESSAGE, "a genesis with no chains");
    want(place == 77 && size == 77, 1, "what isn't told of a genesis with no chains");
    want(ibcw_free(&genesis), IBCW_DONE, "free");
    want(ibcw_free(&ledgers), IBCW_EMPTY, "ledgers that weren't made");
}

/* The ledgers of a replay have the same entries, and go on. */
static void want_again(ibcw_handle *ledgers, const stored *kept, size_t count)
{
    ibcw_handle chains[2] = {{0}, {0}};
    static stored again;
    uint64_t next[2] = {0, 0};
    for (int k = 0; k < 2; k++) want(ibcw_take_ledger(ledgers, &chains[k]), IBCW_DONE, "a ledger of a replay");
    for (size_t k = 0; k < count; k++) {
        uint32_t chain = kept[k].numbers.chain;
        memset(&again, 7, sizeof again);
        want(store(&chains[chain], next[chain]++, MOST_EVENT, IBCW_ANSWER_ROOM, &again), IBCW_DONE, "an entry of a replay");
        want((uint32_t)memcmp(&again, &kept[k], sizeof again), 0, "an entry of a replay");
    }
    for (int k = 0; k < 2; k++) {
        want((uint32_t)length_of(&chains[k]), (uint32_t)next[k], "how many entries a ledger of a replay has");
        end_block(&chains[k]);
        want(ibcw_free(&chains[k]), IBCW_DONE, "free");
    }
}

static void want_digest(const uint8_t *digest, const char *wanted)
{
    char hex[2 * IBCW_DIGEST_SIZE + 1];
    for (int k = 0; k < IBCW_DIGEST_SIZE; k++) sprintf(hex + 2 * k, "%02x", digest[k]);
    want((uint32_t)strcmp(hex, wanted), 0, "a digest of a journal");
}

/* The digests of a beginning and of an entry behind it. */
static void digest_entries(void)
{
    static const uint8_t event[] = {1, 1}, reply[] = {1, 1, 0};
    uint8_t first[IBCW_DIGEST_SIZE], next[IBCW_DIGEST_SIZE];
    uint32_t found;
    size_t size = 77;
    want(ibcw_first_digest(bytes("{}"), 2, first, sizeof first, &size), IBCW_DONE, "the first digest");
    want((uint32_t)size, IBCW_DIGEST_SIZE, "the size of the first digest");
    want_digest(first, "a4f0b91f517f6c4b2f74346188fe6c2165394fa2c43b94da413f525f3ae2b7cb");
    meet(ibcw_first_digest(bytes("{}"), 2, next, 31, &size), IBCW_TOO_SHORT, "the first digest with no room");
    WITH_REFUSALS(found, ibcw_next_digest(first, sizeof first, 0, 1, 5, event, sizeof event, reply, sizeof reply, next, sizeof next, &size), "a digest");
    want(found, IBCW_DONE, "a digest");
    want_digest(next, "1f0683e33317dde7702de389cb669b4c68d289a84f7e2c2431fa181052985d8a");
    size = 77;
    meet(ibcw_next_digest(first, 31, 0, 1, 5, NULL, 0, NULL, 0, next, sizeof next, &size), IBCW_BAD_MESSAGE, "a digest behind none");
    want((uint32_t)size, 77, "what isn't told of a digest behind none");
    meet(ibcw_next_digest(first, 32, 0, 1, 5, NULL, 0, NULL, 0, NULL, 0, &size), IBCW_TOO_SHORT, "a digest with no room");
    want((uint32_t)size, IBCW_DIGEST_SIZE, "the size of a digest");
}

/* What a journal keeps of two ledgers makes them again. */
static void keep_entries(void)
{
    static text message;
    static stored kept[5];
    uint8_t due[IBCW_ANSWER_ROOM];
    uint64_t place = 77;
    size_t size = 77;
    ibcw_handle ledgers = {0}, entries;
    world w = begin_world(8, 8);
    create_client(&message, 1);
    answer(&w.x, &message, IBCW_DONE, "a client");
    store_last(&w.x, &kept[0]);
    create_client(&message, 0);
    answer(&w.x, &message, IBCW_OWN_CHAIN, "a client of the chain itself");
    store_last(&w.x, &kept[1]);
    end_block(&w.y);
    store_last(&w.y, &kept[2]);
    update(&w.x, &w.y);
    store_last(&w.x, &kept[3]);
    end_block(&w.x);
    store_last(&w.x, &kept[4]);
    refuse_entries(&kept[0]);
    refuse_replays(&w, kept, 5);
    want(replay(&w.genesis, kept, 5, &ledgers, &place, due, &size), IBCW_DONE, "a replay");
    want(place == 77 && size == 77, 1, "what isn't told of a replay");
    meet(ibcw_join_ledger(&ledgers, &w.x), IBCW_OTHER_WORLD, "a ledger of the world before");
    want_again(&ledgers, kept, 5);
    want(ibcw_free(&ledgers), IBCW_DONE, "free");
    entries = entries_of(kept, 5);
    want(ibcw_make_numbered_replayed(&w.genesis, UINT64_MAX, &entries, &ledgers, &place, due, sizeof due, &size), IBCW_DONE, "a numbered replay");
    want_again(&ledgers, kept, 5);
    want(ibcw_free(&ledgers), IBCW_DONE, "free");
    free_world(&w);
}

int main(void)
{
    int count = 0;
    world w;
    want(ibcw_version(), IBCWORLD_VERSION, "the version of the archive");
    w = begin_world(64, 64);
    refuse_clients(&w);
    open_connection(&w);
    refuse_channels(&w);
    open_channel(&w, "transfer", UNORDERED, "ics20-1", "channel-0");
    open_channel(&w, "note", ORDERED, "note-1", "channel-1");
    refuse_sending(&w);
    refuse_packets(&w);
    want_escrow(&w.x, "atom", 5);
    want_escrow(&w.y, "atom", 0);
    want_totals(&w, 5, 5);
    want_supply(&w.x, "atom", 1000);
    want_supply(&w.y, "transfer/channel-0/atom", 5);
    want_supply(&w.y, "atom", 0);
    refuse_timeouts(&w);
    refuse_notes(&w);
    take_packets_apart(&w);
    take_data_apart();
    close_notes(&w);
    refuse_blocks();
    prove_heights();
    keep_entries();
    digest_entries();
    refuse_texts(&w);
    refuse_handles(&w);
    for (int n = IBCW_NO_MEMORY; n <= IBCW_OTHER_ANSWER; n++) {
        int is_number = n <= IBCW_PRUNED || n >= IBCW_EMPTY;
        if (is_number && n != IBCW_NUMBER_FULL) want((uint32_t)met[n], 1, "a number is met");
        count += met[n];
    }
    for (int k = 0; k < EVENTS; k++) want((uint32_t)read_back[k], 1, "a kind of event is read back");
    printf("%d numbers are met, and %d allocations were refused\n", count, refusals);
    printf("%d kinds of events are read back\n", EVENTS);
    return 0;
}
