/* Each kind of message is written from a struct and read back, field by field, and so is a packet. Bytes that are cut anywhere, or have one more, are none. A place
   that is too short stays as it is, and tells how much room is needed. */
#include "ibcworld_messages.h"

#include <stdio.h>

enum { ROOM = 4096, KINDS = 19 };

static void want(uint32_t answer, uint32_t wanted, const char *what, unsigned tag)
{
    if (answer != wanted) {
        fprintf(stderr, "%s of kind %u: %s in place of %s\n", what, tag, ibcw_refusal_name(answer), ibcw_refusal_name(wanted));
        exit(1);
    }
}

static void want_true(int is_so, const char *what, unsigned tag)
{
    if (!is_so) {
        fprintf(stderr, "%s of kind %u\n", what, tag);
        exit(1);
    }
}

/* ---- what is written */

static ibcw_packet_fields packet_fields(void)
{
    ibcw_packet_fields packet;
    packet.sequence = 0x0102030405060708u;
    packet.timeout_height = 9;
    packet.timeout_time = UINT64_MAX;
    packet.source_port = ibcw_text("transfer");
    packet.source_channel = ibcw_text("channel-11");
    packet.destination_port = ibcw_text("note");
    packet.destination_channel = ibcw_text("channel-12");
    packet.data = ibcw_bytes_of((const uint8_t *)"\0\377{}", 4);
    return packet;
}

static ibcw_amount amount_of(uint64_t high, uint64_t low)
{
    ibcw_amount amount;
    amount.high = high;
    amount.low = low;
    return amount;
}

/* A message of a kind, each of whose fields is another, also those that the kind hasn't. */
static ibcw_message message_fields(uint8_t tag)
{
    static const uint8_t root[32] = {1, 2, 3, 255};
    ibcw_message message = ibcw_message_of(tag);
    message.chain = 7;
    message.order = IBCW_ORDERED;
    message.token_count = 2;
    message.header_height = 21;
    message.header_time = 22;
    message.latest = 23;
    message.height = 24;
    message.next_recv = 25;
    message.timeout_height = 26;
    message.timeout_time = 27;
    message.amount = amount_of(28, 29);
    message.root = ibcw_bytes_of(root, sizeof root);
    message.client = ibcw_text("inprocess-1");
    message.peer_client = ibcw_text("inprocess-2");
    message.connection = ibcw_text("connection-3");
    message.peer_connection = ibcw_text("connection-4");
    message.port = ibcw_text("transfer");
    message.peer_port = ibcw_text("note");
    message.channel = ibcw_text("channel-5");
    message.peer_channel = ibcw_text("channel-6");
    message.version = ibcw_text("ics20-1");
    message.user = ibcw_text("alice");
    message.denom = ibcw_text("transfer/channel-5/atom");
    message.receiver = ibcw_text("Bob of the island");
    message.memo = ibcw_text("for the ferry");
    message.note = ibcw_bytes_of((const uint8_t *)"\0one", 4);
    message.ack = ibcw_text("{\"result\":\"AQ==\"}");
    message.proof = ibcw_text("p");
    message.proof_client = ibcw_text("pc");
    message.proof_close = ibcw_text("pcl");
    message.packet = packet_fields();
    message.tokens[0].denom = ibcw_text("atom");
    message.tokens[0].amount = amount_of(0, 1);
    message.tokens[1].denom = ibcw_text("gold");
    message.tokens[1].amount = amount_of(1, 0);
    return message;
}

/* ---- what is read */

static int same_bytes(ibcw_bytes a, ibcw_bytes b) { return a.size == b.size && (a.size == 0 || memcmp(a.data, b.data, a.size) == 0); }

static int same_amount(ibcw_amount a, ibcw_amount b) { return a.high == b.high && a.low == b.low; }

static int same_plain(char form, const uint8_t *a, const uint8_t *b)
{
    switch (form) {
    case 'b': return *a == *b;
    case 'n': return *(const uint64_t *)(const void *)a == *(const uint64_t *)(const void *)b;
    case 'a': return same_amount(*(const ibcw_amount *)(const void *)a, *(const ibcw_amount *)(const void *)b);
    default: return same_bytes(*(const ibcw_bytes *)(const void *)a, *(const ibcw_bytes *)(const void *)b);
    }
}

static int same_packet(const ibcw_packet_fields *a, const ibcw_packet_fields *b)
{
    const ibcw_field *field;
    for (field = ibcw_fields_of_packet(); field->form != 0; field++)
        if (!same_plain(field->form, (const uint8_t *)a + field->offset, (const uint8_t *)b + field->offset)) return 0;
    return 1;
}

static int same_tokens(const ibcw_message *a, const ibcw_message *b)
{
    int k;
    if (a->token_count != b->token_count) return 0;
    for (k = 0; k < a->token_count; k++)
        if (!same_bytes(a->tokens[k].denom, b->tokens[k].denom) || !same_amount(a->tokens[k].amount, b->tokens[k].amount)) return 0;
    return 1;
}

/* The fields that the kind has are those that were written. */
static int same_message(const ibcw_message *a, const ibcw_message *b)
{
    const ibcw_field *field;
    for (field = ibcw_fields_of(a->tag); field->form != 0; field++) {
        int is_same = field->form == 'p'   ? same_packet(&a->packet, &b->packet)
                      : field->form == 'm' ? same_tokens(a, b)
                                           : same_plain(field->form, (const uint8_t *)a + field->offset, (const uint8_t *)b + field->offset);
        if (!is_same) return 0;
    }
    return 1;
}

static void try_kind(uint8_t tag)
{
    static ibcw_message written, read;
    uint8_t place[ROOM], told = 0;
    size_t size = 0, again = 0, cut;
    written = message_fields(tag);
    memset(place, 77, sizeof place);
    want(ibcw_write_message(&written, NULL, 0, &size), IBCW_TOO_SHORT, "the room for a message", tag);
    want(ibcw_write_message(&written, place, size - 1, &again), IBCW_TOO_SHORT, "a place that is one byte too short", tag);
    want_true(again == size && place[size - 1] == 77, "what a place that is too short tells", tag);
    want(ibcw_write_message(&written, place, sizeof place, &again), IBCW_DONE, "a message", tag);
    want_true(again == size && place[size] == 77, "the size of a message", tag);
    want(ibcw_message_tag(place, size, &told), IBCW_DONE, "the library's word", tag);
    want_true(told == tag && place[0] == tag, "the tag of a message", tag);
    want(ibcw_read_message(place, size, &read), IBCW_DONE, "a message that is read", tag);
    want_true(read.tag == tag && same_message(&written, &read), "a message that is read back", tag);
    for (cut = 0; cut < size; cut++) want(ibcw_read_message(place, cut, &read), IBCW_NO_MESSAGE, "a message that is cut", tag);
    want(ibcw_read_message(place, size + 1, &read), IBCW_NO_MESSAGE, "a message with a byte more", tag);
}

static void try_packet(void)
{
    ibcw_packet_fields written = packet_fields(), read;
    ibcw_packet_numbers_told numbers = {77, 77, 77};
    uint8_t place[ROOM];
    size_t size = 0, again = 0, cut;
    memset(place, 77, sizeof place);
    want(ibcw_write_packet(&written, NULL, 0, &size), IBCW_TOO_SHORT, "the room for a packet", 0);
    want(ibcw_write_packet(&written, place, sizeof place, &again), IBCW_DONE, "a packet", 0);
    want_true(again == size && place[size] == 77, "the size of a packet", 0);
    want(ibcw_packet_numbers(place, size, &numbers), IBCW_DONE, "the library's word of a packet", 0);
    want_true(numbers.sequence == written.sequence && numbers.timeout_height == 9 && numbers.timeout_time == UINT64_MAX, "the numbers of a packet", 0);
    want(ibcw_read_packet(place, size, &read), IBCW_DONE, "a packet that is read", 0);
    want_true(same_packet(&written, &read), "a packet that is read back", 0);
    for (cut = 0; cut < size; cut++) want(ibcw_read_packet(place, cut, &read), IBCW_BAD_MESSAGE, "a packet that is cut", 0);
    want(ibcw_read_packet(place, size + 1, &read), IBCW_BAD_MESSAGE, "a packet with a byte more", 0);
}

/* The denomination that the receiving chain has, of a token that comes and of one that comes home. */
static void try_denominations(void)
{
    static const char *const denoms[][2] = {
        {"atom", "note/channel-12/atom"},
        {"transfer/channel-11/atom", "atom"},
        {"transfer/channel-11/transfer/channel-11/atom", "transfer/channel-11/atom"},
        {"transfer/channel-1/atom", "note/channel-12/transfer/channel-1/atom"},
    };
    ibcw_packet_fields packet = packet_fields();
    char place[64];
    size_t k;
    for (k = 0; k < sizeof denoms / sizeof denoms[0]; k++) {
        want(ibcw_denom_received(&packet, denoms[k][0], place, sizeof place), IBCW_DONE, "a denomination", 0);
        want_true(strcmp(place, denoms[k][1]) == 0, "the denomination that the receiving chain has", 0);
        want(ibcw_denom_received(&packet, denoms[k][0], place, strlen(denoms[k][1])), IBCW_TOO_SHORT, "a denomination with too little room", 0);
        want(ibcw_denom_received(&packet, denoms[k][0], place, strlen(denoms[k][1]) + 1), IBCW_DONE, "a denomination with just the room", 0);
    }
    want(ibcw_denom_received(&packet, "atom", place, 0), IBCW_TOO_SHORT, "a denomination with no room", 0);
}

int main(void)
{
    uint8_t tag;
    for (tag = 1; tag <= KINDS; tag++) try_kind(tag);
    want_true(ibcw_fields_of(0)->form == 0 && ibcw_fields_of(KINDS + 1)->form == 0, "the fields of no kind", 0);
    try_packet();
    try_denominations();
    printf("%d kinds of messages and a packet are written and read back\n", KINDS);
    return 0;
}
