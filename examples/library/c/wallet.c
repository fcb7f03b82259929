/* What a wallet shows of tokens that came: two chains, two transfers over a channel, and then a line for each packet of tokens that the second chain took,
   read from its history. A packet that the chain refused is passed over, and of one whose receiver it refused the line says that it goes back. */
#include "ibcworld_messages.h"

#include <stdio.h>

enum { TIME = 100, ROOM = 70000 };

/* Ends the program where a call is refused. */
static void want(uint32_t answer, const char *what)
{
    if (answer != IBCW_DONE) {
        fprintf(stderr, "%s: %s\n", what, ibcw_refusal_text(answer));
        exit(1);
    }
}

static void send_tokens(ibcw_ledger *ledger, uint64_t amount, const char *receiver, const char *memo)
{
    ibcw_replied reply;
    ibcw_message message = ibcw_message_of(IBCW_TRANSFER);
    message.channel = ibcw_text("channel-0");
    message.user = ibcw_text("alice");
    message.denom = ibcw_text("atom");
    message.amount.low = amount;
    message.receiver = ibcw_text(receiver);
    message.memo = ibcw_text(memo);
    message.timeout_height = 1000;
    want(ibcw_send(ledger, &message, &reply), "a transfer");
}

/* ---- what came */

static void print_data(const ibcw_packet_fields *packet, int is_taken)
{
    static ibcw_token_data told;
    char denom[512];
    uint64_t k;
    want(ibcw_read_token_data(packet->data.data, packet->data.size, &told), "the data of a packet");
    for (k = 0; k < told.token_count; k++) {
        want(ibcw_denom_received(packet, told.tokens[k].denom, denom, sizeof denom), "a denomination");
        printf("%s sends %llu %s to %s%s%s%s\n", told.sender, (unsigned long long)told.tokens[k].amount.low, denom, told.receiver,
               told.memo[0] ? ": " : "", told.memo, is_taken ? "" : " (it goes back)");
    }
}

/* The entry at an index of the history, where it is a packet of tokens that came. */
static void print_entry(ibcw_ledger *ledger, uint64_t index)
{
    static uint8_t bytes[ROOM];
    static ibcw_message message;
    ibcw_asked asked;
    ibcw_replied reply;
    size_t size = 0;
    want(ibcw_event(ledger, index, &asked, bytes, sizeof bytes, &size), "an event");
    if (asked.kind != IBCW_RECV_PACKET) return;
    want(ibcw_reply(ledger, index, &reply.told, reply.bytes, sizeof reply.bytes, &reply.size), "a reply");
    want(ibcw_read_message(bytes, size, &message), "a message");
    if (reply.told.kind == IBCW_TOLD_ACK && ibcw_is_text(message.packet.destination_port, "transfer"))
        print_data(&message.packet, ibcw_is_text(ibcw_bytes_of(reply.bytes, reply.size), "{\"result\":\"AQ==\"}"));
}

static void print_received(ibcw_ledger *ledger)
{
    uint64_t count = 0, k;
    want(ibcw_length(&ledger->handle, &count), "a length");
    for (k = 0; k < count; k++) print_entry(ledger, k);
}

int main(void)
{
    ibcw_bytes alice = ibcw_text("alice"), atom = ibcw_text("atom");
    ibcw_genesis genesis = IBCW_HANDLE_INIT;
    ibcw_ledgers ledgers = IBCW_HANDLE_INIT;
    ibcw_ledger harbour = IBCW_HANDLE_INIT, island = IBCW_HANDLE_INIT;
    ibcw_opened of_harbour, of_island;
    ibcw_opening what = {{NULL, 0}, IBCW_UNORDERED, {NULL, 0}, TIME};
    ibcw_relayed relayed = {0, 0, 0};
    what.port = ibcw_text("transfer");
    what.version = ibcw_text("ics20-1");
    want(ibcw_make_genesis(&genesis, 64, 64), "a genesis");
    want(ibcw_add_chain(&genesis, TIME), "a chain");
    want(ibcw_add_balance(&genesis, alice.data, alice.size, atom.data, atom.size, 0, 1000), "a balance");
    want(ibcw_add_chain(&genesis, TIME), "a chain");
    want(ibcw_make_ledgers(&genesis, &ledgers), "ledgers");
    want(ibcw_take_ledger(&ledgers, &harbour), "a ledger");
    want(ibcw_take_ledger(&ledgers, &island), "a ledger");

    want(ibcw_open(&harbour, &of_harbour, &island, &of_island, &what), "a channel");
    send_tokens(&harbour, 100, "bob", "for the ferry");
    send_tokens(&harbour, 20, "Bob of the island", "");
    want(ibcw_relay(&harbour, &island, TIME, &relayed), "a turn");
    print_received(&island);
    ibcw_free(&harbour.handle);
    ibcw_free(&island.handle);
    ibcw_free(&ledgers.handle);
    ibcw_free(&genesis.handle);
    return 0;
}
