/* Tokens go to another chain and partly home again, brought by a relayer: the script examples/relay.json, call by call. It prints
   the program's lines for that script, one chain behind the other. On the way a forged proof is refused, and what a verifier with no
   ledger says is compared. Each message that was applied is read back from the history, field by field. */
#include "ibcworld_messages.h"

#include <stdio.h>

enum { TIME = 100, ROOM = 70000 };

typedef struct {
    const char *name;
    ibcw_ledger ledger;
} chain;

typedef struct {
    uint8_t data[ROOM];
    size_t size;
} text;

static const char *const KINDS[] = {"",
                                    "CreateClient",
                                    "UpdateClient",
                                    "ConnOpenInit",
                                    "ConnOpenTry",
                                    "ConnOpenAck",
                                    "ConnOpenConfirm",
                                    "ChanOpenInit",
                                    "ChanOpenTry",
                                    "ChanOpenAck",
                                    "ChanOpenConfirm",
                                    "ChanCloseInit",
                                    "ChanCloseConfirm",
                                    "Transfer",
                                    "SendNote",
                                    "RecvPacket",
                                    "AckPacket",
                                    "Timeout",
                                    "TimeoutOnClose",
                                    "TransferMany"};

/* Ends the program where a call answers something else than it has to. */
static void want(uint32_t answer, uint32_t wanted, const char *what)
{
    if (answer != wanted) {
        fprintf(stderr, "%s: %s in place of %s\n", what, ibcw_refusal_text(answer), ibcw_refusal_text(wanted));
        exit(1);
    }
}

/* ---- lines: a ledger's history is what the program prints */

static void print_entry(chain *at, uint64_t index)
{
    static text bytes;
    ibcw_asked asked;
    ibcw_told told;
    want(ibcw_event(&at->ledger, index, &asked, bytes.data, ROOM, &bytes.size), IBCW_DONE, "an event");
    printf("%s %s", at->name, asked.kind == IBCW_ASKED_BLOCK ? "Block" : KINDS[asked.kind]);
    want(ibcw_reply(&at->ledger, index, &told, bytes.data, ROOM, &bytes.size), IBCW_DONE, "a reply");
    if (told.kind == IBCW_TOLD_REFUSAL)
        printf(" no %llu", (unsigned long long)told.number);
    else if (told.kind == IBCW_TOLD_SENT || told.kind == IBCW_TOLD_BLOCK)
        printf(" ok %llu", (unsigned long long)told.number);
    else if (told.kind == IBCW_TOLD_NOTHING)
        printf(" ok");
    else
        printf(" ok %.*s", (int)bytes.size, (const char *)bytes.data);
    putchar('\n');
}

/* Each message that is there was read, field by field, and written again: the same bytes. */
static void read_back(chain *at, uint64_t index)
{
    static text bytes, again;
    static ibcw_message message;
    ibcw_asked asked;
    want(ibcw_event(&at->ledger, index, &asked, bytes.data, ROOM, &bytes.size), IBCW_DONE, "an event");
    if (asked.kind == IBCW_ASKED_BLOCK) return;
    want(ibcw_read_message(bytes.data, bytes.size, &message), IBCW_DONE, "a message");
    want(ibcw_write_message(&message, again.data, ROOM, &again.size), IBCW_DONE, "a message");
    want(again.size == bytes.size && memcmp(again.data, bytes.data, bytes.size) == 0, 1, "a message that is written again");
}

/* What a chain was asked and answered. Forged messages are left out, since the script has none. */
static void print_history(chain *at)
{
    uint64_t count = 0, k;
    ibcw_told told;
    size_t size;
    want(ibcw_length(&at->ledger.handle, &count), IBCW_DONE, "length");
    for (k = 0; k < count; k++) {
        uint32_t answer = ibcw_reply(&at->ledger, k, &told, NULL, 0, &size);
        want(answer == IBCW_DONE || answer == IBCW_TOO_SHORT, 1, "a reply");
        read_back(at, k);
        if (told.kind != IBCW_TOLD_REFUSAL || told.number != IBCW_BAD_PROOF) print_entry(at, k);
    }
}

static void end_block(chain *at)
{
    ibcw_replied reply;
    want(ibcw_end(&at->ledger, TIME, &reply), IBCW_DONE, "a block");
}

/* ---- a verifier with no ledger */

/* What a packet's message carries: a proof at a height of the chain that sent it, of what it says itself. */
static void judge(const text *message, chain *from)
{
    static text proof, key, value;
    uint8_t root[32], kind = 0;
    uint64_t height = 0;
    size_t size = 0;
    ibcw_heights heights;
    ibcw_view view = IBCW_HANDLE_INIT;
    ibcw_bytes at, known, shown, told;
    want(ibcw_make_view(&from->ledger, &view), IBCW_DONE, "a view");
    want(ibcw_view_root(&view, root, sizeof root, &size), IBCW_DONE, "a root");
    want(ibcw_view_heights(&view, &heights), IBCW_DONE, "heights");
    ibcw_free(&view.handle);
    want(ibcw_message_proof(message->data, message->size, 0, &height, proof.data, ROOM, &proof.size), IBCW_DONE,
         "a packet's proof");
    want((uint32_t)height, (uint32_t)heights.height, "the height of a packet's proof");
    want(ibcw_message_proof(message->data, message->size, 1, &height, proof.data, 0, &size), IBCW_NOTHING_THERE,
         "a second proof of a packet");
    want(ibcw_proof_kind(proof.data, proof.size, &kind), IBCW_DONE, "a proof's kind");
    want(kind, IBCW_PRESENT, "a proof's kind");
    want(ibcw_proof_key(proof.data, proof.size, key.data, ROOM, &key.size), IBCW_DONE, "a proof's key");
    want(ibcw_proof_value(proof.data, proof.size, value.data, ROOM, &value.size), IBCW_DONE, "a proof's value");
    at = ibcw_bytes_of(root, 32);
    known = ibcw_bytes_of(key.data, key.size);
    shown = ibcw_bytes_of(value.data, value.size);
    told = ibcw_bytes_of(proof.data, proof.size);
    want((uint32_t)ibcw_is_present(at, known, shown, told), 1, "a true proof");
    want((uint32_t)ibcw_is_absent(at, known, told), 0, "a proof of presence as one of absence");
    value.data[0] ^= 1;
    want((uint32_t)ibcw_is_present(at, known, shown, told), 0, "a proof of another value");
}

/* The last byte of a packet's proof is changed: the ledger refuses the message. */
static void try_forged(chain *to, const text *message)
{
    static text forged;
    ibcw_replied reply;
    forged = *message;
    forged.data[forged.size - 1] ^= 1;
    want(ibcw_apply(&to->ledger, forged.data, forged.size, &reply.told, reply.bytes, sizeof reply.bytes, &reply.size), IBCW_BAD_PROOF,
         "a forged proof");
}

/* ---- a relayer that looks at what it brings. ibcw_relay is one that doesn't. */

static void send_plan(ibcw_plan *plan, chain *from, chain *to)
{
    static text message;
    uint64_t count = 0, k;
    ibcw_replied reply;
    want(ibcw_length(&plan->handle, &count), IBCW_DONE, "length");
    for (k = 0; k < count; k++) {
        want(ibcw_plan_message(plan, k, message.data, ROOM, &message.size), IBCW_DONE, "a planned message");
        if (message.data[0] == IBCW_RECV_PACKET) {
            judge(&message, from);
            try_forged(to, &message);
        }
        want(ibcw_apply(&to->ledger, message.data, message.size, &reply.told, reply.bytes, sizeof reply.bytes, &reply.size), IBCW_DONE,
             "a planned message");
    }
    ibcw_free(&plan->handle);
}

static void relay(chain *x, chain *y)
{
    ibcw_view from_x = IBCW_HANDLE_INIT, from_y = IBCW_HANDLE_INIT;
    ibcw_plan to_y = IBCW_HANDLE_INIT, to_x = IBCW_HANDLE_INIT;
    end_block(x);
    end_block(y);
    want(ibcw_make_view(&x->ledger, &from_x), IBCW_DONE, "a view");
    want(ibcw_make_view(&y->ledger, &from_y), IBCW_DONE, "a view");
    want(ibcw_make_plan(&from_x, &from_y, &to_y), IBCW_DONE, "a plan");
    want(ibcw_make_plan(&from_y, &from_x, &to_x), IBCW_DONE, "a plan");
    ibcw_free(&from_x.handle);
    ibcw_free(&from_y.handle);
    send_plan(&to_y, x, y);
    send_plan(&to_x, y, x);
}

/* ---- the whole */

/* A message of a kind, and two turns of a relayer behind it. */
static void transfer(chain *from, chain *to, const char *user, const char *denom, uint64_t amount, const char *receiver, const char *memo)
{
    ibcw_replied reply;
    ibcw_message message = ibcw_message_of(IBCW_TRANSFER);
    int turn;
    message.channel = ibcw_text("channel-0");
    message.user = ibcw_text(user);
    message.denom = ibcw_text(denom);
    message.amount.low = amount;
    message.receiver = ibcw_text(receiver);
    message.memo = ibcw_text(memo);
    message.timeout_height = 1000;
    want(ibcw_send(&from->ledger, &message, &reply), IBCW_DONE, "a transfer");
    want((uint32_t)reply.told.number, 1, "the sequence of a packet");
    for (turn = 0; turn < 2; turn++) {
        if (from->name[0] == 'h')
            relay(from, to);
        else
            relay(to, from);
    }
}

static void print_balances(ibcw_audit *audit, const char *name, uint64_t number)
{
    static text holding;
    ibcw_amount amount;
    uint64_t count = 0, k;
    want(ibcw_holding_count(&audit->handle, number, &count), IBCW_DONE, "how many holdings");
    for (k = 0; k < count; k++) {
        want(ibcw_holding(&audit->handle, number, k, holding.data, ROOM, &holding.size), IBCW_DONE, "a holding");
        want(ibcw_holding_amount(&audit->handle, number, k, &amount), IBCW_DONE, "an amount");
        printf("balance %s %.*s %llu\n", name, (int)holding.size, (const char *)holding.data,
               (unsigned long long)amount.low);
    }
}

/* The channel is opened by the same steps as the program's `open`. */
static void open_channel(chain *x, chain *y)
{
    ibcw_opened of_x, of_y;
    ibcw_opening what;
    what.port = ibcw_text("transfer");
    what.order = IBCW_UNORDERED;
    what.version = ibcw_text("ics20-1");
    what.time = TIME;
    want(ibcw_open(&x->ledger, &of_x, &y->ledger, &of_y, &what), IBCW_DONE, "a channel");
    want((uint32_t)strcmp(of_x.channel, "channel-0"), 0, "the name of a channel");
}

int main(void)
{
    chain harbour = {"harbour", IBCW_HANDLE_INIT}, island = {"island", IBCW_HANDLE_INIT};
    ibcw_bytes alice = ibcw_text("alice"), atom = ibcw_text("atom");
    ibcw_genesis genesis = IBCW_HANDLE_INIT;
    ibcw_ledgers ledgers = IBCW_HANDLE_INIT;
    ibcw_audit audit = IBCW_HANDLE_INIT;
    want(ibcw_version() / 10000, IBCWORLD_VERSION / 10000, "the version of the archive");
    want(ibcw_make_genesis(&genesis, 64, 64), IBCW_DONE, "a genesis");
    want(ibcw_add_chain(&genesis, TIME), IBCW_DONE, "a chain");
    want(ibcw_add_balance(&genesis, alice.data, alice.size, atom.data, atom.size, 0, 1000), IBCW_DONE, "a balance");
    want(ibcw_add_chain(&genesis, TIME), IBCW_DONE, "a chain");
    want(ibcw_make_ledgers(&genesis, &ledgers), IBCW_DONE, "ledgers");
    want(ibcw_take_ledger(&ledgers, &harbour.ledger), IBCW_DONE, "a ledger");
    want(ibcw_take_ledger(&ledgers, &island.ledger), IBCW_DONE, "a ledger");

    open_channel(&harbour, &island);
    transfer(&harbour, &island, "alice", "atom", 100, "bob", "for the ferry");
    transfer(&island, &harbour, "bob", "transfer/channel-0/atom", 40, "alice", "");

    print_history(&harbour);
    print_history(&island);
    want(ibcw_join_ledger(&ledgers, &island.ledger), IBCW_DONE, "a ledger joins");
    want(ibcw_join_ledger(&ledgers, &harbour.ledger), IBCW_DONE, "a ledger joins");
    want(ibcw_make_audit(&ledgers, &audit), IBCW_DONE, "an audit");
    print_balances(&audit, harbour.name, 0);
    print_balances(&audit, island.name, 1);
    ibcw_free(&audit.handle);
    ibcw_free(&ledgers.handle);
    ibcw_free(&genesis.handle);
    return 0;
}
