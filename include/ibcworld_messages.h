/* Messages as structs, and as the bytes that ibcw_apply takes, and what the numbers of refusals mean. Helpers over the calls of ibcworld.h: a
   handshake between two ledgers (ibcw_open), a message to one (ibcw_send), and a relayer's turn between two (ibcw_relay). All of it is C over those
   calls, in this header. No proof covers it, and the library judges what it spells. examples/library/c/wallet.c is a short program by it. */
#ifndef IBCWORLD_MESSAGES_H
#define IBCWORLD_MESSAGES_H

#include "ibcworld.h"

#include <stdlib.h>
#include <string.h>

/* ---- what numbers mean */

typedef struct {
    uint32_t number;
    const char *name;
    const char *text;
} ibcw_meaning;

/* The meaning of an answer's number, or of none with the name "Unknown". */
static inline ibcw_meaning ibcw_meaning_of(uint32_t number)
{
    static const ibcw_meaning meanings[] = {
        {0, "Done", "it is done"},
        {1, "NoMemory", "memory was refused"},
        {2, "BadName", "a text is no name of its kind"},
        {3, "UnknownChain", "there is no such chain"},
        {4, "OwnChain", "a client of the chain itself"},
        {5, "UnknownClient", "there is no such client"},
        {6, "NotPublished", "the height isn't published yet"},
        {7, "WrongHeader", "the header isn't the one that was published"},
        {8, "UnknownConnection", "there is no such connection"},
        {9, "WrongState", "an end isn't in the state that the message asks for"},
        {10, "WrongPeer", "the packet's other end isn't the channel's peer"},
        {11, "NoConsensus", "the client doesn't know the height, or the height isn't committed"},
        {12, "BadProof", "a proof doesn't show what the message says"},
        {13, "WrongSelfClient", "the claimed state of the peer's client doesn't name this chain"},
        {14, "UnknownPort", "there is no application on the port"},
        {15, "UnknownChannel", "there is no such channel"},
        {16, "WrongOrder", "the application doesn't take this order"},
        {17, "WrongVersion", "the application doesn't take this version, or the channel has another one"},
        {18, "NoTimeout", "both timeouts of a packet are 0"},
        {19, "TimeoutPassed", "a timeout of the packet has passed"},
        {20, "AlreadyReceived", "the packet was received before"},
        {21, "OutOfOrder", "the packet isn't the next one of an ordered channel"},
        {22, "NoCommitment", "no commitment of the packet stands"},
        {23, "NotTimedOut", "no timeout of the packet has passed at the proved height"},
        {24, "TooLarge", "an amount or a text is too large, or is empty"},
        {25, "Poor", "an account holds too little"},
        {26, "CloseRefused", "the application doesn't let its channels be closed"},
        {27, "TimeBack", "a block's time lies before the working time"},
        {28, "TableFull", "the chain has published as many heights as it may"},
        {29, "NumberFull", "a number has reached its end, 2^64 - 1"},
        {30, "BadMessage", "a message, a genesis or bytes are not of their form"},
        {31, "Pruned", "the height is published, and gone from the window of heights that are kept"},
        {101, "Empty", "the handle holds nothing"},
        {102, "Full", "the handle holds something already"},
        {103, "OtherKind", "the handle holds a value of another kind"},
        {104, "TooShort", "the place is too short for the bytes"},
        {105, "NothingThere", "there is nothing there"},
        {106, "OtherWorld", "the ledger is of another world"},
        {107, "NoMessage", "the bytes spell no message"},
        {108, "NoData", "the bytes spell no data of tokens"},
        {109, "OtherAnswer", "another answer is due than the stored one"},
    };
    static const ibcw_meaning unknown = {0, "Unknown", "no call answers with this number"};
    size_t k;
    for (k = 0; k < sizeof meanings / sizeof meanings[0]; k++)
        if (meanings[k].number == number) return meanings[k];
    return unknown;
}

/* The name of an answer's number, as "BadProof". */
static inline const char *ibcw_refusal_name(uint32_t number) { return ibcw_meaning_of(number).name; }

/* The number's meaning in a sentence. */
static inline const char *ibcw_refusal_text(uint32_t number) { return ibcw_meaning_of(number).text; }

/* ---- texts */

/* Bytes of somebody else's: a pointer and their number. */
typedef struct {
    const uint8_t *data;
    size_t size;
} ibcw_bytes;

/* The bytes of a text that ends with 0. */
static inline ibcw_bytes ibcw_text(const char *text)
{
    ibcw_bytes bytes;
    bytes.data = (const uint8_t *)text;
    bytes.size = strlen(text);
    return bytes;
}

static inline ibcw_bytes ibcw_bytes_of(const uint8_t *data, size_t size)
{
    ibcw_bytes bytes;
    bytes.data = data;
    bytes.size = size;
    return bytes;
}

/* Whether bytes are those of a text. */
static inline int ibcw_is_text(ibcw_bytes bytes, const char *text)
{
    size_t size = strlen(text);
    return bytes.size == size && (size == 0 || memcmp(bytes.data, text, size) == 0);
}

/* ---- the fields of messages. Amounts are high * 2^64 + low; a timeout of 0 is none. */

enum {
    IBCW_CREATE_CLIENT = 1,
    IBCW_UPDATE_CLIENT = 2,
    IBCW_CONN_OPEN_INIT = 3,
    IBCW_CONN_OPEN_TRY = 4,
    IBCW_CONN_OPEN_ACK = 5,
    IBCW_CONN_OPEN_CONFIRM = 6,
    IBCW_CHAN_OPEN_INIT = 7,
    IBCW_CHAN_OPEN_TRY = 8,
    IBCW_CHAN_OPEN_ACK = 9,
    IBCW_CHAN_OPEN_CONFIRM = 10,
    IBCW_CHAN_CLOSE_INIT = 11,
    IBCW_CHAN_CLOSE_CONFIRM = 12,
    IBCW_TRANSFER = 13,
    IBCW_SEND_NOTE = 14,
    IBCW_RECV_PACKET = 15,
    IBCW_ACK_PACKET = 16,
    IBCW_TIMEOUT = 17,
    IBCW_TIMEOUT_ON_CLOSE = 18,
    IBCW_TRANSFER_MANY = 19
};

enum {
    IBCW_UNORDERED = 1,
    IBCW_ORDERED = 2
};

enum {
    IBCW_MOST_TOKENS = 8
};

typedef struct {
    uint64_t sequence, timeout_height, timeout_time;
    ibcw_bytes source_port, source_channel, destination_port, destination_channel, data;
} ibcw_packet_fields;

typedef struct {
    ibcw_bytes denom;
    ibcw_amount amount;
} ibcw_token;

/* A message of the kind that its tag says. Fields that the kind hasn't are not looked at. Which fields a kind has stands in docs/LIBRARY.md. What begins
   with `peer_` is what the other chain calls its client, connection, port or channel. */
typedef struct {
    uint8_t tag;
    uint8_t chain;         /* CreateClient; the header's of UpdateClient; the claimed state's of ConnOpenTry and ConnOpenAck */
    uint8_t order;         /* IBCW_UNORDERED or IBCW_ORDERED */
    uint8_t token_count;   /* of TransferMany, 1 to IBCW_MOST_TOKENS */
    uint64_t header_height, header_time;
    uint64_t latest;       /* the latest height of the claimed state */
    uint64_t height;       /* at which the proofs are */
    uint64_t next_recv;
    uint64_t timeout_height, timeout_time;
    ibcw_amount amount;
    ibcw_bytes root;       /* 32 bytes */
    ibcw_bytes client, peer_client, connection, peer_connection, port, peer_port, channel, peer_channel, version;
    ibcw_bytes user, denom, receiver, memo, note, ack;
    ibcw_bytes proof;      /* of the end, of the packet or of its absence */
    ibcw_bytes proof_client, proof_close;
    ibcw_packet_fields packet;
    ibcw_token tokens[IBCW_MOST_TOKENS];
} ibcw_message;

/* A message of a kind, whose other fields are 0. */
static inline ibcw_message ibcw_message_of(uint8_t tag)
{
    ibcw_message message;
    memset(&message, 0, sizeof message);
    message.tag = tag;
    return message;
}

/* ---- how messages are spelled: a letter for each field, in order */

typedef struct {
    char form;     /* b: a byte; n: a number of 8 bytes; a: an amount of 16; r: a root of 32; t: a text behind its length; p: a packet; m: tokens */
    size_t offset; /* where the field is in the struct */
} ibcw_field;

#define IBCW_AT(member) offsetof(ibcw_message, member)
#define IBCW_OF_PACKET(member) offsetof(ibcw_packet_fields, member)

/* The fields of a kind, ended by a form of 0; or none where no kind has the tag. */
static inline const ibcw_field *ibcw_fields_of(uint8_t tag)
{
    static const ibcw_field none[] = {{0, 0}};
    static const ibcw_field kinds[][12] = {
        {{0, 0}},
        {{'b', IBCW_AT(chain)}, {0, 0}},
        {{'t', IBCW_AT(client)}, {'b', IBCW_AT(chain)}, {'n', IBCW_AT(header_height)}, {'n', IBCW_AT(header_time)}, {'r', IBCW_AT(root)}, {0, 0}},
        {{'t', IBCW_AT(client)}, {'t', IBCW_AT(peer_client)}, {0, 0}},
        {{'t', IBCW_AT(client)}, {'t', IBCW_AT(peer_client)}, {'t', IBCW_AT(peer_connection)}, {'b', IBCW_AT(chain)}, {'n', IBCW_AT(latest)},
         {'n', IBCW_AT(height)}, {'t', IBCW_AT(proof)}, {'t', IBCW_AT(proof_client)}, {0, 0}},
        {{'t', IBCW_AT(connection)}, {'t', IBCW_AT(peer_connection)}, {'b', IBCW_AT(chain)}, {'n', IBCW_AT(latest)}, {'n', IBCW_AT(height)},
         {'t', IBCW_AT(proof)}, {'t', IBCW_AT(proof_client)}, {0, 0}},
        {{'t', IBCW_AT(connection)}, {'n', IBCW_AT(height)}, {'t', IBCW_AT(proof)}, {0, 0}},
        {{'t', IBCW_AT(port)}, {'b', IBCW_AT(order)}, {'t', IBCW_AT(connection)}, {'t', IBCW_AT(peer_port)}, {'t', IBCW_AT(version)}, {0, 0}},
        {{'t', IBCW_AT(port)}, {'b', IBCW_AT(order)}, {'t', IBCW_AT(connection)}, {'t', IBCW_AT(peer_port)}, {'t', IBCW_AT(peer_channel)},
         {'t', IBCW_AT(version)}, {'n', IBCW_AT(height)}, {'t', IBCW_AT(proof)}, {0, 0}},
        {{'t', IBCW_AT(port)}, {'t', IBCW_AT(channel)}, {'t', IBCW_AT(peer_channel)}, {'n', IBCW_AT(height)}, {'t', IBCW_AT(proof)}, {0, 0}},
        {{'t', IBCW_AT(port)}, {'t', IBCW_AT(channel)}, {'n', IBCW_AT(height)}, {'t', IBCW_AT(proof)}, {0, 0}},
        {{'t', IBCW_AT(port)}, {'t', IBCW_AT(channel)}, {0, 0}},
        {{'t', IBCW_AT(port)}, {'t', IBCW_AT(channel)}, {'n', IBCW_AT(height)}, {'t', IBCW_AT(proof)}, {0, 0}},
        {{'t', IBCW_AT(channel)}, {'t', IBCW_AT(user)}, {'t', IBCW_AT(denom)}, {'a', IBCW_AT(amount)}, {'t', IBCW_AT(receiver)}, {'t', IBCW_AT(memo)},
         {'n', IBCW_AT(timeout_height)}, {'n', IBCW_AT(timeout_time)}, {0, 0}},
        {{'t', IBCW_AT(channel)}, {'t', IBCW_AT(note)}, {'n', IBCW_AT(timeout_height)}, {'n', IBCW_AT(timeout_time)}, {0, 0}},
        {{'p', IBCW_AT(packet)}, {'n', IBCW_AT(height)}, {'t', IBCW_AT(proof)}, {0, 0}},
        {{'p', IBCW_AT(packet)}, {'t', IBCW_AT(ack)}, {'n', IBCW_AT(height)}, {'t', IBCW_AT(proof)}, {0, 0}},
        {{'p', IBCW_AT(packet)}, {'n', IBCW_AT(next_recv)}, {'n', IBCW_AT(height)}, {'t', IBCW_AT(proof)}, {0, 0}},
        {{'p', IBCW_AT(packet)}, {'n', IBCW_AT(next_recv)}, {'n', IBCW_AT(height)}, {'t', IBCW_AT(proof)}, {'t', IBCW_AT(proof_close)}, {0, 0}},
        {{'t', IBCW_AT(channel)}, {'t', IBCW_AT(user)}, {'m', IBCW_AT(tokens)}, {'t', IBCW_AT(receiver)}, {'t', IBCW_AT(memo)},
         {'n', IBCW_AT(timeout_height)}, {'n', IBCW_AT(timeout_time)}, {0, 0}},
    };
    return tag < sizeof kinds / sizeof kinds[0] ? kinds[tag] : none;
}

/* The fields of a packet. */
static inline const ibcw_field *ibcw_fields_of_packet(void)
{
    static const ibcw_field fields[] = {
        {'n', IBCW_OF_PACKET(sequence)},         {'n', IBCW_OF_PACKET(timeout_height)}, {'n', IBCW_OF_PACKET(timeout_time)},
        {'t', IBCW_OF_PACKET(source_port)},      {'t', IBCW_OF_PACKET(source_channel)}, {'t', IBCW_OF_PACKET(destination_port)},
        {'t', IBCW_OF_PACKET(destination_channel)}, {'t', IBCW_OF_PACKET(data)},        {0, 0},
    };
    return fields;
}

/* ---- writing */

/* Where bytes are written: what doesn't find room is counted, and not written. */
typedef struct {
    uint8_t *place;
    size_t room, size;
    uint32_t refused;
} ibcw_writer;

static inline void ibcw_put(ibcw_writer *to, const void *bytes, size_t size)
{
    if (size <= to->room && to->size <= to->room - size && size > 0) memcpy(to->place + to->size, bytes, size);
    to->size += size;
}

static inline void ibcw_put_number(ibcw_writer *to, uint64_t number, int count)
{
    uint8_t bytes[8];
    int k;
    for (k = 0; k < count; k++) bytes[k] = (uint8_t)(number >> (8 * (count - 1 - k)));
    ibcw_put(to, bytes, (size_t)count);
}

static inline void ibcw_put_text(ibcw_writer *to, ibcw_bytes text)
{
    if (text.size > 65535) {
        to->refused = IBCW_TOO_LARGE;
        return;
    }
    ibcw_put_number(to, text.size, 2);
    ibcw_put(to, text.data, text.size);
}

static inline void ibcw_put_amount(ibcw_writer *to, ibcw_amount amount)
{
    ibcw_put_number(to, amount.high, 8);
    ibcw_put_number(to, amount.low, 8);
}

static inline void ibcw_put_tokens(ibcw_writer *to, const ibcw_token *tokens, uint8_t count)
{
    uint8_t k;
    if (count > IBCW_MOST_TOKENS) {
        to->refused = IBCW_TOO_LARGE;
        return;
    }
    ibcw_put_number(to, count, 1);
    for (k = 0; k < count; k++) {
        ibcw_put_text(to, tokens[k].denom);
        ibcw_put_amount(to, tokens[k].amount);
    }
}

/* One field of a number or a text. */
static inline void ibcw_put_plain(ibcw_writer *to, char form, const uint8_t *at)
{
    switch (form) {
    case 'b': ibcw_put(to, at, 1); break;
    case 'n': ibcw_put_number(to, *(const uint64_t *)(const void *)at, 8); break;
    case 'a': ibcw_put_amount(to, *(const ibcw_amount *)(const void *)at); break;
    default: ibcw_put_text(to, *(const ibcw_bytes *)(const void *)at); break;
    }
}

static inline void ibcw_put_root(ibcw_writer *to, ibcw_bytes root)
{
    if (root.size != 32) {
        to->refused = IBCW_BAD_MESSAGE;
        return;
    }
    ibcw_put(to, root.data, root.size);
}

static inline void ibcw_put_packet(ibcw_writer *to, const ibcw_packet_fields *packet)
{
    const ibcw_field *field;
    for (field = ibcw_fields_of_packet(); field->form != 0; field++)
        ibcw_put_plain(to, field->form, (const uint8_t *)packet + field->offset);
}

/* What a writer came to: *size is how many bytes there are, also where the place is too short. */
static inline uint32_t ibcw_written(const ibcw_writer *to, size_t *size)
{
    if (to->refused != IBCW_DONE) return to->refused;
    *size = to->size;
    return to->size <= to->room ? (uint32_t)IBCW_DONE : (uint32_t)IBCW_TOO_SHORT;
}

/* Spells a message into a place, and tells how many bytes it has. IBCW_TOO_SHORT, and then *size is told. IBCW_TOO_LARGE where a text has more
   than 65,535 bytes, or there are more than IBCW_MOST_TOKENS tokens: nothing is ever cut. IBCW_BAD_MESSAGE where no kind has the tag, or a root
   hasn't 32 bytes. Whether it is a message is for the library to say (ibcw_message_tag). */
static inline uint32_t ibcw_write_message(const ibcw_message *message, uint8_t *place, size_t room, size_t *size)
{
    const ibcw_field *field = ibcw_fields_of(message->tag);
    ibcw_writer to;
    to.place = place;
    to.room = room;
    to.size = 0;
    to.refused = IBCW_DONE;
    if (field->form == 0) return IBCW_BAD_MESSAGE;
    ibcw_put(&to, &message->tag, 1);
    for (; field->form != 0; field++) {
        const uint8_t *at = (const uint8_t *)message + field->offset;
        switch (field->form) {
        case 'r': ibcw_put_root(&to, *(const ibcw_bytes *)(const void *)at); break;
        case 'p': ibcw_put_packet(&to, (const ibcw_packet_fields *)(const void *)at); break;
        case 'm': ibcw_put_tokens(&to, message->tokens, message->token_count); break;
        default: ibcw_put_plain(&to, field->form, at); break;
        }
    }
    return ibcw_written(&to, size);
}

/* Spells a packet into a place, as ibcw_packet writes it. Answers as ibcw_write_message. */
static inline uint32_t ibcw_write_packet(const ibcw_packet_fields *packet, uint8_t *place, size_t room, size_t *size)
{
    ibcw_writer to;
    to.place = place;
    to.room = room;
    to.size = 0;
    to.refused = IBCW_DONE;
    ibcw_put_packet(&to, packet);
    return ibcw_written(&to, size);
}

/* ---- reading */

/* Bytes that are read from their front. */
typedef struct {
    const uint8_t *at;
    size_t left;
    int is_short;
} ibcw_reader;

static inline ibcw_bytes ibcw_take_bytes(ibcw_reader *from, size_t size)
{
    ibcw_bytes bytes;
    bytes.data = from->at;
    bytes.size = size;
    if (size > from->left) {
        from->is_short = 1;
        bytes.size = 0;
        return bytes;
    }
    if (size > 0) from->at += size;
    from->left -= size;
    return bytes;
}

static inline uint64_t ibcw_take_number(ibcw_reader *from, size_t count)
{
    uint64_t number = 0;
    ibcw_bytes bytes = ibcw_take_bytes(from, count);
    size_t k;
    for (k = 0; k < bytes.size; k++) number = number << 8 | bytes.data[k];
    return number;
}

static inline ibcw_bytes ibcw_take_text(ibcw_reader *from)
{
    size_t size = (size_t)ibcw_take_number(from, 2);
    return ibcw_take_bytes(from, size);
}

static inline ibcw_amount ibcw_take_amount(ibcw_reader *from)
{
    ibcw_amount amount;
    amount.high = ibcw_take_number(from, 8);
    amount.low = ibcw_take_number(from, 8);
    return amount;
}

static inline void ibcw_take_tokens(ibcw_reader *from, ibcw_message *message)
{
    uint8_t k;
    message->token_count = (uint8_t)ibcw_take_number(from, 1);
    if (message->token_count > IBCW_MOST_TOKENS) {
        from->is_short = 1;
        return;
    }
    for (k = 0; k < message->token_count; k++) {
        message->tokens[k].denom = ibcw_take_text(from);
        message->tokens[k].amount = ibcw_take_amount(from);
    }
}

static inline void ibcw_take_plain(ibcw_reader *from, char form, uint8_t *at)
{
    switch (form) {
    case 'b': *at = (uint8_t)ibcw_take_number(from, 1); break;
    case 'n': *(uint64_t *)(void *)at = ibcw_take_number(from, 8); break;
    case 'a': *(ibcw_amount *)(void *)at = ibcw_take_amount(from); break;
    case 'r': *(ibcw_bytes *)(void *)at = ibcw_take_bytes(from, 32); break;
    default: *(ibcw_bytes *)(void *)at = ibcw_take_text(from); break;
    }
}

static inline void ibcw_take_packet(ibcw_reader *from, ibcw_packet_fields *packet)
{
    const ibcw_field *field;
    for (field = ibcw_fields_of_packet(); field->form != 0; field++)
        ibcw_take_plain(from, field->form, (uint8_t *)packet + field->offset);
}

/* Reads the fields of the message that the bytes spell. Texts point into the bytes. IBCW_NO_MESSAGE where they spell none, as the library says
   (ibcw_message_tag); then nothing is read. */
static inline uint32_t ibcw_read_message(const uint8_t *bytes, size_t size, ibcw_message *message)
{
    uint8_t tag = 0;
    const ibcw_field *field;
    ibcw_reader from;
    uint32_t answer = ibcw_message_tag(bytes, size, &tag);
    if (answer != IBCW_DONE) return answer;
    *message = ibcw_message_of(tag);
    from.at = bytes + 1;
    from.left = size - 1;
    from.is_short = 0;
    for (field = ibcw_fields_of(tag); field->form != 0; field++) {
        uint8_t *at = (uint8_t *)message + field->offset;
        if (field->form == 'p')
            ibcw_take_packet(&from, &message->packet);
        else if (field->form == 'm')
            ibcw_take_tokens(&from, message);
        else
            ibcw_take_plain(&from, field->form, at);
    }
    return from.is_short || from.left > 0 ? (uint32_t)IBCW_NO_MESSAGE : (uint32_t)IBCW_DONE;
}

/* Reads the fields of the packet that the bytes spell. Texts point into the bytes. IBCW_BAD_MESSAGE where they spell none, as the library says. */
static inline uint32_t ibcw_read_packet(const uint8_t *bytes, size_t size, ibcw_packet_fields *packet)
{
    ibcw_packet_numbers_told numbers;
    ibcw_reader from;
    uint32_t answer = ibcw_packet_numbers(bytes, size, &numbers);
    if (answer != IBCW_DONE) return answer;
    from.at = bytes;
    from.left = size;
    from.is_short = 0;
    ibcw_take_packet(&from, packet);
    return from.is_short || from.left > 0 ? (uint32_t)IBCW_BAD_MESSAGE : (uint32_t)IBCW_DONE;
}

/* ---- the data of packets of tokens */

/* A token, with a 0 behind its denomination. */
typedef struct {
    char denom[257];
    ibcw_amount amount;
} ibcw_told_token;

/* What the data of a packet of tokens says (ICS 20), each text with a 0 behind it: none has one within. */
typedef struct {
    char version[33], sender[33], receiver[65];
    char memo[257];       /* empty where there is none */
    uint64_t token_count; /* 1 to IBCW_MOST_TOKENS */
    ibcw_told_token tokens[IBCW_MOST_TOKENS];
} ibcw_token_data;

static inline uint32_t ibcw_read_data_part(const uint8_t *data, size_t data_size, uint64_t part, char *text, size_t room)
{
    size_t size = 0;
    uint32_t answer = ibcw_data_part(data, data_size, part, (uint8_t *)text, room - 1, &size);
    if (answer == IBCW_DONE) text[size] = 0;
    return answer;
}

static inline uint32_t ibcw_read_data_token(const uint8_t *data, size_t data_size, uint64_t index, ibcw_told_token *token)
{
    size_t size = 0;
    uint32_t answer =
        ibcw_data_token(data, data_size, index, &token->amount, (uint8_t *)token->denom, sizeof token->denom - 1, &size);
    if (answer == IBCW_DONE) token->denom[size] = 0;
    return answer;
}

/* Reads all that the bytes say, by ibcw_data_part, ibcw_data_count and ibcw_data_token. IBCW_NO_DATA exactly where they spell no data of tokens;
   IBCW_NO_MEMORY. */
IBCW_MUST_USE static inline uint32_t ibcw_read_token_data(const uint8_t *data, size_t data_size, ibcw_token_data *told)
{
    uint64_t k;
    uint32_t answer = ibcw_data_count(data, data_size, &told->token_count);
    if (answer == IBCW_DONE) answer = ibcw_read_data_part(data, data_size, IBCW_TOKENS_VERSION, told->version, sizeof told->version);
    if (answer == IBCW_DONE) answer = ibcw_read_data_part(data, data_size, IBCW_SENDER, told->sender, sizeof told->sender);
    if (answer == IBCW_DONE) answer = ibcw_read_data_part(data, data_size, IBCW_RECEIVER, told->receiver, sizeof told->receiver);
    if (answer == IBCW_DONE) answer = ibcw_read_data_part(data, data_size, IBCW_MEMO, told->memo, sizeof told->memo);
    for (k = 0; answer == IBCW_DONE && k < told->token_count; k++) answer = ibcw_read_data_token(data, data_size, k, &told->tokens[k]);
    return answer;
}

/* Puts a text into a place that ends with 0, behind what stands there. */
static inline uint32_t ibcw_put_behind(char *place, size_t room, ibcw_bytes text)
{
    size_t size = strlen(place);
    if (text.size >= room - size) return IBCW_TOO_SHORT;
    memcpy(place + size, text.data, text.size);
    place[size + text.size] = 0;
    return IBCW_DONE;
}

/* What stands before a denomination that went over an end: its port and its channel, each with a slash behind it. */
static inline uint32_t ibcw_hop_of(ibcw_bytes port, ibcw_bytes channel, char *hop, size_t room)
{
    uint32_t answer;
    hop[0] = 0;
    answer = ibcw_put_behind(hop, room, port);
    if (answer == IBCW_DONE) answer = ibcw_put_behind(hop, room, ibcw_text("/"));
    if (answer == IBCW_DONE) answer = ibcw_put_behind(hop, room, channel);
    return answer == IBCW_DONE ? ibcw_put_behind(hop, room, ibcw_text("/")) : answer;
}

/* Writes the denomination that the receiving chain has for one of a packet's, with a 0 behind it (ICS 20, "onRecvPacket"). A token that comes home over this
   channel loses the hop of the end that the packet left. Any other gets the hop of the end that it goes to. IBCW_TOO_SHORT. */
IBCW_MUST_USE static inline uint32_t ibcw_denom_received(const ibcw_packet_fields *packet, const char *denom, char *place, size_t room)
{
    char left[320];
    size_t size;
    uint32_t answer = ibcw_hop_of(packet->source_port, packet->source_channel, left, sizeof left);
    if (answer != IBCW_DONE || room == 0) return IBCW_TOO_SHORT;
    size = strlen(left);
    place[0] = 0;
    if (strncmp(denom, left, size) == 0) return ibcw_put_behind(place, room, ibcw_text(denom + size));
    answer = ibcw_hop_of(packet->destination_port, packet->destination_channel, place, room);
    return answer == IBCW_DONE ? ibcw_put_behind(place, room, ibcw_text(denom)) : answer;
}

/* ---- what accounts hold */

/* Who holds how much of what: a user, or the escrow account of a channel of port transfer. Each text has a 0 behind it. */
typedef struct {
    int is_escrow;
    char owner[72]; /* the user, or the channel */
    char denom[257];
    ibcw_amount amount;
} ibcw_held;

/* Reads a holding of a list of balances or an audit, by ibcw_holding and ibcw_holding_amount. Answers as these. */
IBCW_MUST_USE static inline uint32_t ibcw_read_holding(ibcw_handle *balances, uint64_t chain, uint64_t index, ibcw_held *held)
{
    static const char escrow[] = "escrow/transfer/";
    char text[sizeof escrow + sizeof held->owner + sizeof held->denom];
    size_t size = 0, front = sizeof escrow - 1, owner = 0;
    uint32_t answer = ibcw_holding(balances, chain, index, (uint8_t *)text, sizeof text, &size);
    if (answer == IBCW_DONE) answer = ibcw_holding_amount(balances, chain, index, &held->amount);
    if (answer != IBCW_DONE) return answer;
    held->is_escrow = size > front && memcmp(text, escrow, front) == 0;
    if (!held->is_escrow) front = 0;
    while (front + owner < size && text[front + owner] != ' ') owner++;
    size -= front + owner;
    if (size == 0 || owner >= sizeof held->owner || size > sizeof held->denom) return IBCW_TOO_SHORT;
    memcpy(held->owner, text + front, owner);
    held->owner[owner] = 0;
    memcpy(held->denom, text + front + owner + 1, size - 1);
    held->denom[size - 1] = 0;
    return IBCW_DONE;
}

/* ---- messages of strangers */

/* Whether the bytes spell a message whose proofs are proofs, whatever they show. A ledger keeps each message that it refuses, whole and for ever, so who takes
   messages from strangers asks this first. IBCW_NO_MESSAGE where they spell none; IBCW_BAD_PROOF where a proof that it carries is none, as one
   of more than IBCW_LONGEST_PROOF bytes; IBCW_NO_MEMORY. */
IBCW_MUST_USE static inline uint32_t ibcw_screen_message(const uint8_t *message, size_t message_size)
{
    uint8_t proof[IBCW_LONGEST_PROOF], kind;
    uint64_t index, height;
    size_t size;
    for (index = 0; index < 2; index++) {
        uint32_t answer = ibcw_message_proof(message, message_size, index, &height, proof, sizeof proof, &size);
        if (answer == IBCW_NOTHING_THERE) return IBCW_DONE;
        if (answer == IBCW_DONE) answer = ibcw_proof_kind(proof, size, &kind);
        if (answer == IBCW_TOO_SHORT || answer == IBCW_BAD_MESSAGE) return IBCW_BAD_PROOF;
        if (answer != IBCW_DONE) return answer;
    }
    return IBCW_DONE;
}

/* ---- truth values of a verifier */

/* Whether the proof shows under the root that the key has the value: 1, or 0, also where memory ran out. */
static inline int ibcw_is_present(ibcw_bytes root, ibcw_bytes key, ibcw_bytes value, ibcw_bytes proof)
{
    return ibcw_verify_present(root.data, root.size, key.data, key.size, value.data, value.size, proof.data, proof.size) == IBCW_DONE;
}

/* Whether the proof shows under the root that the key isn't there: 1, or 0, also where memory ran out. */
static inline int ibcw_is_absent(ibcw_bytes root, ibcw_bytes key, ibcw_bytes proof)
{
    return ibcw_verify_absent(root.data, root.size, key.data, key.size, proof.data, proof.size) == IBCW_DONE;
}

/* ---- asking ledgers */

/* What a ledger replied: what ibcw_apply tells, with the bytes that go with it. */
typedef struct {
    ibcw_told told;
    size_t size;
    uint8_t bytes[IBCW_REPLY_ROOM];
} ibcw_replied;

/* Applies a message, which is spelled on the way. Answers as ibcw_write_message and ibcw_apply. */
IBCW_MUST_USE static inline uint32_t ibcw_send(ibcw_ledger *ledger, const ibcw_message *message, ibcw_replied *reply)
{
    size_t size = 0;
    uint8_t *place;
    uint32_t answer = ibcw_write_message(message, NULL, 0, &size);
    if (answer != IBCW_TOO_SHORT) return answer;
    place = (uint8_t *)malloc(size);
    if (place == NULL) return IBCW_NO_MEMORY;
    answer = ibcw_write_message(message, place, size, &size);
    if (answer == IBCW_DONE)
        answer = ibcw_apply(ledger, place, size, &reply->told, reply->bytes, sizeof reply->bytes, &reply->size);
    free(place);
    return answer;
}

/* Ends a block. Answers as ibcw_end_block. */
IBCW_MUST_USE static inline uint32_t ibcw_end(ibcw_ledger *ledger, uint64_t next_time, ibcw_replied *reply)
{
    return ibcw_end_block(ledger, next_time, &reply->told, reply->bytes, sizeof reply->bytes, &reply->size);
}

/* ---- a handshake between two ledgers */

/* What is opened: a channel of these ports, order and version, over new clients and a new connection. Both chains' blocks end with the time. */
typedef struct {
    ibcw_bytes port;      /* of both ends */
    uint8_t order;
    ibcw_bytes version;
    uint64_t time;
} ibcw_opening;

/* The names that a chain gave, each with a 0 behind it. */
typedef struct {
    char client[72], connection[72], channel[72];
} ibcw_opened;

/* A proof, or the value of a key, that is freed by its owner. */
typedef struct {
    uint8_t *data;
    size_t size;
} ibcw_owned;

static inline ibcw_bytes ibcw_lent(const ibcw_owned *owned) { return ibcw_bytes_of(owned->data, owned->size); }

static inline uint32_t ibcw_keep_name(const ibcw_replied *reply, char *name, size_t room)
{
    if (reply->size + 1 > room) return IBCW_TOO_SHORT;
    memcpy(name, reply->bytes, reply->size);
    name[reply->size] = 0;
    return IBCW_DONE;
}

static inline uint32_t ibcw_ask_proof(ibcw_view *view, const char *path, ibcw_owned *proof)
{
    ibcw_bytes key = ibcw_text(path);
    uint32_t answer = ibcw_view_proof(view, key.data, key.size, NULL, 0, &proof->size);
    if (answer != IBCW_TOO_SHORT) return answer;
    proof->data = (uint8_t *)malloc(proof->size);
    if (proof->data == NULL) return IBCW_NO_MEMORY;
    return ibcw_view_proof(view, key.data, key.size, proof->data, proof->size, &proof->size);
}

/* Writes texts behind one another, ended by 0. */
static inline uint32_t ibcw_join_texts(char *place, size_t room, const char *const *texts, int count)
{
    size_t size = 0;
    int k;
    for (k = 0; k < count; k++) {
        size_t more = strlen(texts[k]);
        if (size + more + 1 > room) return IBCW_TOO_SHORT;
        memcpy(place + size, texts[k], more);
        size += more;
    }
    place[size] = 0;
    return IBCW_DONE;
}

/* Tells a ledger's client of the last committed height of the chain of a view. */
IBCW_MUST_USE static inline uint32_t ibcw_update(ibcw_ledger *ledger, const char *client, ibcw_view *of)
{
    uint8_t root[32];
    size_t size = 0;
    ibcw_heights heights;
    ibcw_replied reply;
    ibcw_message message = ibcw_message_of(IBCW_UPDATE_CLIENT);
    uint32_t answer = ibcw_view_heights(of, &heights);
    if (answer == IBCW_DONE) answer = ibcw_view_root(of, root, sizeof root, &size);
    if (answer != IBCW_DONE) return answer;
    message.client = ibcw_text(client);
    message.chain = (uint8_t)heights.chain;
    message.header_height = heights.height;
    message.header_time = heights.time;
    message.root = ibcw_bytes_of(root, size);
    return ibcw_send(ledger, &message, &reply);
}

/* The path of a connection's end, or of a channel's. */
static inline uint32_t ibcw_end_path(const ibcw_message *step, const ibcw_opened *peer, const ibcw_opening *what, char *path, size_t room)
{
    char port[136];
    const char *of_connection[2], *of_channel[4];
    of_connection[0] = "connections/";
    of_connection[1] = peer->connection;
    if (step->tag <= IBCW_CONN_OPEN_CONFIRM) return ibcw_join_texts(path, room, of_connection, 2);
    if (what->port.size + 1 > sizeof port) return IBCW_TOO_SHORT;
    memcpy(port, what->port.data, what->port.size);
    port[what->port.size] = 0;
    of_channel[0] = "channelEnds/ports/";
    of_channel[1] = port;
    of_channel[2] = "/channels/";
    of_channel[3] = peer->channel;
    return ibcw_join_texts(path, room, of_channel, 4);
}

/* The claimed state of the peer's client, and its proof (ICS 3). */
static inline uint32_t ibcw_claim(ibcw_ledger *from, ibcw_view *view, const ibcw_opened *peer, ibcw_message *step, ibcw_owned *proof)
{
    char path[160];
    uint8_t state[9];
    size_t size = 0;
    ibcw_reader of;
    const char *texts[3];
    uint32_t answer;
    texts[0] = "clients/";
    texts[1] = peer->client;
    texts[2] = "/clientState";
    answer = ibcw_join_texts(path, sizeof path, texts, 3);
    if (answer == IBCW_DONE) answer = ibcw_query(from, (const uint8_t *)path, strlen(path), state, sizeof state, &size);
    if (answer == IBCW_DONE) answer = ibcw_ask_proof(view, path, proof);
    if (answer != IBCW_DONE) return answer;
    of.at = state;
    of.left = size;
    of.is_short = 0;
    step->chain = (uint8_t)ibcw_take_number(&of, 1);
    step->latest = ibcw_take_number(&of, 8);
    step->proof_client = ibcw_lent(proof);
    return IBCW_DONE;
}

/* Sends a step of a handshake that needs the other chain's word: `from` has ended its block, of which `to` is told first. */
IBCW_MUST_USE static inline uint32_t ibcw_proved_step(ibcw_ledger *to, ibcw_ledger *from, const ibcw_opened *peer, const ibcw_opening *what,
                                                      ibcw_message *step, ibcw_replied *reply)
{
    char path[320];
    ibcw_view view = IBCW_HANDLE_INIT;
    ibcw_heights heights;
    ibcw_owned proof = {NULL, 0}, claim = {NULL, 0};
    uint32_t answer = ibcw_make_view(from, &view);
    if (answer != IBCW_DONE) return answer;
    answer = ibcw_view_heights(&view, &heights);
    if (answer == IBCW_DONE) answer = ibcw_end_path(step, peer, what, path, sizeof path);
    if (answer == IBCW_DONE) answer = ibcw_ask_proof(&view, path, &proof);
    if (answer == IBCW_DONE && (step->tag == IBCW_CONN_OPEN_TRY || step->tag == IBCW_CONN_OPEN_ACK))
        answer = ibcw_claim(from, &view, peer, step, &claim);
    step->height = heights.height;
    step->proof = ibcw_lent(&proof);
    if (answer == IBCW_DONE) answer = ibcw_send(to, step, reply);
    free(proof.data);
    free(claim.data);
    ibcw_free(&view.handle);
    return answer;
}

/* Ends the block of a chain, and tells the other's client of it. */
IBCW_MUST_USE static inline uint32_t ibcw_end_and_tell(ibcw_ledger *of, ibcw_ledger *at, const ibcw_opened *own, uint64_t time)
{
    ibcw_replied reply;
    ibcw_view view = IBCW_HANDLE_INIT;
    uint32_t answer = ibcw_end(of, time, &reply);
    if (answer == IBCW_DONE) answer = ibcw_make_view(of, &view);
    if (answer != IBCW_DONE) return answer;
    answer = ibcw_update(at, own->client, &view);
    ibcw_free(&view.handle);
    return answer;
}

/* A client of the chain of the other ledger, whose number is its place in the genesis. */
IBCW_MUST_USE static inline uint32_t ibcw_open_client(ibcw_ledger *ledger, ibcw_ledger *of, ibcw_opened *names)
{
    ibcw_replied reply;
    ibcw_heights heights;
    ibcw_view view = IBCW_HANDLE_INIT;
    ibcw_message message = ibcw_message_of(IBCW_CREATE_CLIENT);
    uint32_t answer = ibcw_make_view(of, &view);
    if (answer != IBCW_DONE) return answer;
    answer = ibcw_view_heights(&view, &heights);
    ibcw_free(&view.handle);
    message.chain = (uint8_t)heights.chain;
    if (answer == IBCW_DONE) answer = ibcw_send(ledger, &message, &reply);
    return answer == IBCW_DONE ? ibcw_keep_name(&reply, names->client, sizeof names->client) : answer;
}

/* Begins a connection and answers it (ICS 3, "Opening handshake"); y's block is ended, of which x's client is told. */
IBCW_MUST_USE static inline uint32_t ibcw_begin_connection(ibcw_ledger *x, ibcw_opened *of_x, ibcw_ledger *y, ibcw_opened *of_y, const ibcw_opening *what)
{
    ibcw_replied reply;
    ibcw_message step = ibcw_message_of(IBCW_CONN_OPEN_INIT);
    uint32_t answer;
    step.client = ibcw_text(of_x->client);
    step.peer_client = ibcw_text(of_y->client);
    answer = ibcw_send(x, &step, &reply);
    if (answer == IBCW_DONE) answer = ibcw_keep_name(&reply, of_x->connection, sizeof of_x->connection);
    if (answer == IBCW_DONE) answer = ibcw_end_and_tell(x, y, of_y, what->time);
    if (answer != IBCW_DONE) return answer;

    step = ibcw_message_of(IBCW_CONN_OPEN_TRY);
    step.client = ibcw_text(of_y->client);
    step.peer_client = ibcw_text(of_x->client);
    step.peer_connection = ibcw_text(of_x->connection);
    answer = ibcw_proved_step(y, x, of_x, what, &step, &reply);
    if (answer == IBCW_DONE) answer = ibcw_keep_name(&reply, of_y->connection, sizeof of_y->connection);
    return answer == IBCW_DONE ? ibcw_end_and_tell(y, x, of_x, what->time) : answer;
}

/* Ends the connection's handshake, and begins the channel (ICS 4, "Channel lifecycle management") and answers it. */
IBCW_MUST_USE static inline uint32_t ibcw_begin_channel(ibcw_ledger *x, ibcw_opened *of_x, ibcw_ledger *y, ibcw_opened *of_y, const ibcw_opening *what)
{
    ibcw_replied reply;
    ibcw_message step = ibcw_message_of(IBCW_CONN_OPEN_ACK);
    uint32_t answer;
    step.connection = ibcw_text(of_x->connection);
    step.peer_connection = ibcw_text(of_y->connection);
    answer = ibcw_proved_step(x, y, of_y, what, &step, &reply);
    if (answer != IBCW_DONE) return answer;
    step = ibcw_message_of(IBCW_CHAN_OPEN_INIT);
    step.port = step.peer_port = what->port;
    step.order = what->order;
    step.version = what->version;
    step.connection = ibcw_text(of_x->connection);
    answer = ibcw_send(x, &step, &reply);
    if (answer == IBCW_DONE) answer = ibcw_keep_name(&reply, of_x->channel, sizeof of_x->channel);
    if (answer == IBCW_DONE) answer = ibcw_end_and_tell(x, y, of_y, what->time);
    if (answer != IBCW_DONE) return answer;

    step = ibcw_message_of(IBCW_CONN_OPEN_CONFIRM);
    step.connection = ibcw_text(of_y->connection);
    answer = ibcw_proved_step(y, x, of_x, what, &step, &reply);
    if (answer != IBCW_DONE) return answer;
    step = ibcw_message_of(IBCW_CHAN_OPEN_TRY);
    step.port = step.peer_port = what->port;
    step.order = what->order;
    step.version = what->version;
    step.connection = ibcw_text(of_y->connection);
    step.peer_channel = ibcw_text(of_x->channel);
    answer = ibcw_proved_step(y, x, of_x, what, &step, &reply);
    if (answer == IBCW_DONE) answer = ibcw_keep_name(&reply, of_y->channel, sizeof of_y->channel);
    return answer == IBCW_DONE ? ibcw_end_and_tell(y, x, of_x, what->time) : answer;
}

/* Ends the channel's handshake. The last step is sent, and not committed yet. */
IBCW_MUST_USE static inline uint32_t ibcw_end_channel(ibcw_ledger *x, ibcw_opened *of_x, ibcw_ledger *y, ibcw_opened *of_y, const ibcw_opening *what)
{
    ibcw_replied reply;
    ibcw_message step = ibcw_message_of(IBCW_CHAN_OPEN_ACK);
    uint32_t answer;
    step.port = what->port;
    step.channel = ibcw_text(of_x->channel);
    step.peer_channel = ibcw_text(of_y->channel);
    answer = ibcw_proved_step(x, y, of_y, what, &step, &reply);
    if (answer == IBCW_DONE) answer = ibcw_end_and_tell(x, y, of_y, what->time);
    if (answer != IBCW_DONE) return answer;
    step.tag = IBCW_CHAN_OPEN_CONFIRM;
    step.channel = ibcw_text(of_y->channel);
    return ibcw_proved_step(y, x, of_x, what, &step, &reply);
}

/* Makes clients, a connection and a channel between two ledgers of one world, by the twenty steps of the program's `open`. Tells the names that
   each gave. The channel is open then on both sides, and y's last step stands in its working block. Answers with the first refusal; what was
   done before it stays done. */
IBCW_MUST_USE static inline uint32_t ibcw_open(ibcw_ledger *x, ibcw_opened *of_x, ibcw_ledger *y, ibcw_opened *of_y, const ibcw_opening *what)
{
    uint32_t answer = ibcw_open_client(x, y, of_x);
    if (answer == IBCW_DONE) answer = ibcw_open_client(y, x, of_y);
    if (answer == IBCW_DONE) answer = ibcw_begin_connection(x, of_x, y, of_y, what);
    if (answer == IBCW_DONE) answer = ibcw_begin_channel(x, of_x, y, of_y, what);
    if (answer == IBCW_DONE) answer = ibcw_end_channel(x, of_x, y, of_y, what);
    return answer;
}

/* ---- a relayer */

/* What a turn came to: how many messages were taken, and how many refused, with the number of the last refusal. */
typedef struct {
    uint64_t taken, refused;
    uint32_t last;
} ibcw_relayed;

/* Sends a plan's messages to a ledger, whatever it answers to each. */
IBCW_MUST_USE static inline uint32_t ibcw_send_plan(ibcw_plan *plan, ibcw_ledger *to, ibcw_relayed *relayed)
{
    uint64_t count = 0, k;
    uint8_t *place = NULL;
    size_t room = 0, size = 0;
    ibcw_replied reply;
    uint32_t answer = ibcw_length(&plan->handle, &count);
    for (k = 0; answer == IBCW_DONE && k < count; k++) {
        answer = ibcw_plan_message(plan, k, place, room, &size);
        if (answer == IBCW_TOO_SHORT) {
            uint8_t *larger = (uint8_t *)realloc(place, size);
            answer = IBCW_NO_MEMORY;
            if (larger == NULL) break;
            place = larger;
            room = size;
            answer = ibcw_plan_message(plan, k, place, room, &size);
        }
        if (answer != IBCW_DONE) break;
        answer = ibcw_apply(to, place, size, &reply.told, reply.bytes, sizeof reply.bytes, &reply.size);
        if (answer == IBCW_NO_MEMORY) break;
        if (answer == IBCW_DONE) {
            relayed->taken++;
        } else {
            relayed->refused++;
            relayed->last = answer;
        }
        answer = IBCW_DONE;
    }
    free(place);
    return answer;
}

/* A relayer's turn between two ledgers (ICS 18): both chains end their blocks, and each is sent what it is owed that the other proves. What was
   taken and refused is added to *relayed. Answers with a refusal of a block, or IBCW_NO_MEMORY. */
IBCW_MUST_USE static inline uint32_t ibcw_relay(ibcw_ledger *x, ibcw_ledger *y, uint64_t time, ibcw_relayed *relayed)
{
    ibcw_replied reply;
    ibcw_view of_x = IBCW_HANDLE_INIT, of_y = IBCW_HANDLE_INIT;
    ibcw_plan to_x = IBCW_HANDLE_INIT, to_y = IBCW_HANDLE_INIT;
    uint32_t answer = ibcw_end(x, time, &reply);
    if (answer == IBCW_DONE) answer = ibcw_end(y, time, &reply);
    if (answer == IBCW_DONE) answer = ibcw_make_view(x, &of_x);
    if (answer == IBCW_DONE) answer = ibcw_make_view(y, &of_y);
    if (answer == IBCW_DONE) answer = ibcw_make_plan(&of_x, &of_y, &to_y);
    if (answer == IBCW_DONE) answer = ibcw_make_plan(&of_y, &of_x, &to_x);
    if (answer == IBCW_DONE) answer = ibcw_send_plan(&to_y, y, relayed);
    if (answer == IBCW_DONE) answer = ibcw_send_plan(&to_x, x, relayed);
    ibcw_free(&of_x.handle);
    ibcw_free(&of_y.handle);
    ibcw_free(&to_x.handle);
    ibcw_free(&to_y.handle);
    return answer;
}

#endif
