/* Messages field by field, as docs/LIBRARY.md spells them: each of these functions spells one into a place, so that tests can spell what is none. What a
   message brings from another chain, as heights, roots and proofs, is read from that chain's ledger. */
#ifndef MESSAGES_H
#define MESSAGES_H

#include "untyped.h"

#include <stdio.h>
#include <stdlib.h>
#include <string.h>

enum { ROOM = 70000 };

enum { UNORDERED = 1, ORDERED = 2 };

typedef struct {
    uint8_t data[ROOM];
    size_t size;
} text;

#define CLIENT "inprocess-0"
#define CLIENT_STATE "clients/inprocess-0/clientState"
#define CONNECTION "connection-0"
#define CONNECTION_END "connections/connection-0"

/* Ends the program where a call answers something else than it has to. */
static inline void want(uint32_t answer, uint32_t wanted, const char *what)
{
    if (answer != wanted) {
        fprintf(stderr, "%s: %u in place of %u\n", what, (unsigned)answer, (unsigned)wanted);
        exit(1);
    }
}

/* ---- what a ledger was asked, read back from its history */

/* The entry is of this message, of the kind that its first byte tells. */
static inline void want_event(ibcw_handle *ledger, uint64_t index, const text *message)
{
    static text event;
    ibcw_asked asked = {77, 77, 77};
    memset(&event, 0, sizeof event);
    want(ibcw_event(ledger, index, &asked, event.data, ROOM, &event.size), IBCW_DONE, "an event");
    want((uint32_t)asked.kind, message->data[0], "the kind of an event");
    want((uint32_t)asked.next_time, 0, "the next time of an event");
    want(message->data[0] == 2 || asked.published == 0, 1, "what an event that is no update read");
    want((uint32_t)event.size, (uint32_t)message->size, "the size of an event");
    want((uint32_t)memcmp(event.data, message->data, event.size), 0, "the bytes of an event");
}

/* The entry is of the end of a block, and the next one has this time. */
static inline void want_block(ibcw_handle *ledger, uint64_t index, uint64_t next_time)
{
    size_t size = 77;
    ibcw_asked asked = {77, 77, 77};
    want(ibcw_event(ledger, index, &asked, NULL, 0, &size), IBCW_DONE, "an event");
    want((uint32_t)asked.kind, IBCW_ASKED_BLOCK, "the kind of an event");
    want((uint32_t)asked.next_time, (uint32_t)next_time, "the next time of an event");
    want((uint32_t)asked.published, 0, "what a block read");
    want((uint32_t)size, 0, "the size of an event");
}

/* ---- fields */

static inline void put_bytes(text *out, const void *bytes, size_t size)
{
    if (size > ROOM - out->size) {
        fputs("a message is too long\n", stderr);
        exit(1);
    }
    memcpy(out->data + out->size, bytes, size);
    out->size += size;
}

static inline void put_number(text *out, uint64_t number, int bytes)
{
    for (int k = bytes - 1; k >= 0; k--) {
        uint8_t byte = (uint8_t)(number >> (8 * k));
        put_bytes(out, &byte, 1);
    }
}

static inline void put_counted(text *out, const void *bytes, size_t size)
{
    put_number(out, size, 2);
    put_bytes(out, bytes, size);
}

static inline void put_name(text *out, const char *name) { put_counted(out, name, strlen(name)); }

static inline void put_text(text *out, const text *bytes) { put_counted(out, bytes->data, bytes->size); }

static inline void begin(text *out, uint8_t tag)
{
    out->size = 0;
    put_number(out, tag, 1);
}

static inline const uint8_t *bytes(const char *text) { return (const uint8_t *)text; }

/* ---- what messages bring from another chain */

static inline ibcw_handle view_of(ibcw_handle *ledger)
{
    ibcw_handle view = {0};
    want(ibcw_make_view(ledger, &view), IBCW_DONE, "a view");
    return view;
}

static inline uint64_t height_of(ibcw_handle *ledger)
{
    ibcw_heights heights;
    ibcw_handle view = view_of(ledger);
    want(ibcw_view_heights(&view, &heights), IBCW_DONE, "heights");
    want(ibcw_free(&view), IBCW_DONE, "free");
    return heights.height;
}

/* A proof of what the chain has at a path at its last committed height. */
static inline void put_proof(text *out, ibcw_handle *from, const char *path)
{
    static text proof;
    ibcw_handle view = view_of(from);
    want(ibcw_view_proof(&view, bytes(path), strlen(path), proof.data, ROOM, &proof.size), IBCW_DONE, "a proof");
    want(ibcw_free(&view), IBCW_DONE, "free");
    put_text(out, &proof);
}

/* That height, and a proof of what the chain has there. */
static inline void put_proved(text *out, ibcw_handle *from, const char *path)
{
    put_number(out, height_of(from), 8);
    put_proof(out, from, path);
}

/* The state of the chain's own client, as it claims it. */
static inline void put_claim(text *out, ibcw_handle *from)
{
    static text state;
    want(ibcw_query(from, bytes(CLIENT_STATE), strlen(CLIENT_STATE), state.data, ROOM, &state.size), IBCW_DONE,
         "a client's state");
    put_bytes(out, state.data, state.size);
}

/* ---- clients (ICS 2) */

static inline void create_client(text *out, uint8_t chain)
{
    begin(out, 1);
    put_number(out, chain, 1);
}

static inline void update_client(text *out, ibcw_handle *of)
{
    uint8_t root[32];
    size_t size = 0;
    ibcw_heights heights;
    ibcw_handle view = view_of(of);
    want(ibcw_view_heights(&view, &heights), IBCW_DONE, "heights");
    want(ibcw_view_root(&view, root, sizeof root, &size), IBCW_DONE, "a root");
    want(ibcw_free(&view), IBCW_DONE, "free");
    begin(out, 2);
    put_name(out, CLIENT);
    put_number(out, heights.chain, 1);
    put_number(out, heights.height, 8);
    put_number(out, heights.time, 8);
    put_bytes(out, root, size);
}

/* ---- connections (ICS 3): the first of each chain, over its first client */

static inline void conn_open_init(text *out)
{
    begin(out, 3);
    put_name(out, CLIENT);
    put_name(out, CLIENT);
}

/* The claim, the height and both proofs. */
static inline void put_opening(text *out, ibcw_handle *from)
{
    put_claim(out, from);
    put_proved(out, from, CONNECTION_END);
    put_proof(out, from, CLIENT_STATE);
}

static inline void conn_open_try(text *out, ibcw_handle *from)
{
    begin(out, 4);
    put_name(out, CLIENT);
    put_name(out, CLIENT);
    put_name(out, CONNECTION);
    put_opening(out, from);
}

static inline void conn_open_ack(text *out, ibcw_handle *from)
{
    begin(out, 5);
    put_name(out, CONNECTION);
    put_name(out, CONNECTION);
    put_opening(out, from);
}

static inline void conn_open_confirm(text *out, ibcw_handle *from)
{
    begin(out, 6);
    put_name(out, CONNECTION);
    put_proved(out, from, CONNECTION_END);
}

/* ---- channels (ICS 4), between the same port of both chains, over the first connection */

static inline void chan_open_init(text *out, const char *port, uint8_t order, const char *connection, const char *version)
{
    begin(out, 7);
    put_name(out, port);
    put_number(out, order, 1);
    put_name(out, connection);
    put_name(out, port);
    put_name(out, version);
}

/* The path of a channel's end, until the next call. */
static inline const char *channel_end(const char *port, const char *channel)
{
    static char path[256];
    snprintf(path, sizeof path, "channelEnds/ports/%s/channels/%s", port, channel);
    return path;
}

static inline void chan_open_try(text *out, const char *port, uint8_t order, const char *version, ibcw_handle *from,
                                 const char *channel)
{
    begin(out, 8);
    put_name(out, port);
    put_number(out, order, 1);
    put_name(out, CONNECTION);
    put_name(out, port);
    put_name(out, channel);
    put_name(out, version);
    put_proved(out, from, channel_end(port, channel));
}

static inline void chan_open_ack(text *out, const char *port, const char *channel, ibcw_handle *from)
{
    begin(out, 9);
    put_name(out, port);
    put_name(out, channel);
    put_name(out, channel);
    put_proved(out, from, channel_end(port, channel));
}

static inline void chan_open_confirm(text *out, const char *port, const char *channel, ibcw_handle *from)
{
    begin(out, 10);
    put_name(out, port);
    put_name(out, channel);
    put_proved(out, from, channel_end(port, channel));
}

static inline void chan_close_init(text *out, const char *port, const char *channel)
{
    begin(out, 11);
    put_name(out, port);
    put_name(out, channel);
}

static inline void chan_close_confirm(text *out, const char *port, const char *channel, ibcw_handle *from)
{
    begin(out, 12);
    put_name(out, port);
    put_name(out, channel);
    put_proved(out, from, channel_end(port, channel));
}

/* ---- what users send (ICS 20, and notes). A timeout of 0 is none. */

static inline void put_timeouts(text *out, uint64_t height, uint64_t time)
{
    put_number(out, height, 8);
    put_number(out, time, 8);
}

static inline void transfer(text *out, const char *channel, const char *user, const char *denom, uint64_t amount,
                            const char *receiver, const char *memo, uint64_t timeout_height)
{
    begin(out, 13);
    put_name(out, channel);
    put_name(out, user);
    put_name(out, denom);
    put_number(out, 0, 8);
    put_number(out, amount, 8);
    put_name(out, receiver);
    put_name(out, memo);
    put_timeouts(out, timeout_height, 0);
}

/* So much of each of several denominations, which rise in byte order. */
static inline void transfer_many(text *out, const char *channel, const char *user, const char *const denoms[], int count,
                                 uint64_t amount, const char *receiver, const char *memo, uint64_t timeout_height)
{
    begin(out, 19);
    put_name(out, channel);
    put_name(out, user);
    put_number(out, (uint64_t)count, 1);
    for (int k = 0; k < count; k++) {
        put_name(out, denoms[k]);
        put_number(out, 0, 8);
        put_number(out, amount, 8);
    }
    put_name(out, receiver);
    put_name(out, memo);
    put_timeouts(out, timeout_height, 0);
}

static inline void send_note(text *out, const char *channel, const char *note, uint64_t timeout_height)
{
    begin(out, 14);
    put_name(out, channel);
    put_name(out, note);
    put_timeouts(out, timeout_height, 0);
}

#endif
