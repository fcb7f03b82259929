/* What a channel has of a denomination, by the ledgers of its two ends: while tokens go to the other chain and home again, where they are refunded, and where
   nothing is told. The escrow is always the vouchers and what is under way. */
#include "ibcworld_messages.h"

#include <stdio.h>

enum { TIME = 100, CHAINS = 3 };

static void want(uint32_t answer, uint32_t wanted, const char *what)
{
    if (answer != wanted) {
        fprintf(stderr, "%s: %s in place of %s\n", what, ibcw_refusal_name(answer), ibcw_refusal_name(wanted));
        exit(1);
    }
}

/* ---- a world of three chains, with a channel between the first two */

typedef struct {
    ibcw_genesis genesis;
    ibcw_ledgers rest;
    ibcw_ledger chains[CHAINS];
} world;

static world begin(void)
{
    static const uint8_t alice[] = "alice", atom[] = "atom";
    world w = {IBCW_HANDLE_INIT, IBCW_HANDLE_INIT, {IBCW_HANDLE_INIT, IBCW_HANDLE_INIT, IBCW_HANDLE_INIT}};
    ibcw_opened of_x, of_y;
    ibcw_opening what = {{NULL, 0}, IBCW_UNORDERED, {NULL, 0}, TIME};
    int k;
    want(ibcw_make_genesis(&w.genesis, 64, 64), IBCW_DONE, "a genesis");
    want(ibcw_add_chain(&w.genesis, TIME), IBCW_DONE, "a chain");
    want(ibcw_add_balance(&w.genesis, alice, 5, atom, 4, 1, 0), IBCW_DONE, "a balance");
    for (k = 1; k < CHAINS; k++) want(ibcw_add_chain(&w.genesis, TIME), IBCW_DONE, "a chain");
    want(ibcw_make_ledgers(&w.genesis, &w.rest), IBCW_DONE, "ledgers");
    for (k = 0; k < CHAINS; k++) want(ibcw_take_ledger(&w.rest, &w.chains[k]), IBCW_DONE, "a ledger");
    what.port = ibcw_text("transfer");
    what.version = ibcw_text("ics20-1");
    want(ibcw_open(&w.chains[0], &of_x, &w.chains[1], &of_y, &what), IBCW_DONE, "a channel");
    return w;
}

static void end(world *w)
{
    int k;
    for (k = 0; k < CHAINS; k++) ibcw_free(&w->chains[k].handle);
    ibcw_free(&w->rest.handle);
    ibcw_free(&w->genesis.handle);
}

static void send(ibcw_ledger *from, const char *user, const char *denom, uint64_t amount, const char *receiver)
{
    ibcw_replied reply;
    ibcw_message message = ibcw_message_of(IBCW_TRANSFER);
    message.channel = ibcw_text("channel-0");
    message.user = ibcw_text(user);
    message.denom = ibcw_text(denom);
    message.amount.low = amount;
    message.receiver = ibcw_text(receiver);
    message.timeout_height = 60;
    want(ibcw_send(from, &message, &reply), IBCW_DONE, "a transfer");
}

static void relay(world *w)
{
    ibcw_relayed relayed = {0, 0, 0};
    want(ibcw_relay(&w->chains[0], &w->chains[1], TIME, &relayed), IBCW_DONE, "a turn");
    want((uint32_t)relayed.refused, 0, "what a turn was refused");
}

/* ---- totals */

static uint32_t ask(ibcw_ledger *ledger, ibcw_ledger *peer, const char *channel, const char *denom, ibcw_channel_totals *told)
{
    ibcw_bytes of = ibcw_text(channel), what = ibcw_text(denom);
    return ibcw_totals(ledger, peer, of.data, of.size, what.data, what.size, told);
}

static int is_amount(ibcw_amount amount, uint64_t wanted) { return amount.high == 0 && amount.low == wanted; }

static void want_totals(world *w, uint64_t escrow, uint64_t vouchers, uint64_t out, uint64_t back, const char *what)
{
    ibcw_amount other = {7, 7};
    ibcw_channel_totals told = {other, other, other, other};
    want(ask(&w->chains[0], &w->chains[1], "channel-0", "atom", &told), IBCW_DONE, what);
    if (!is_amount(told.escrow, escrow) || !is_amount(told.vouchers, vouchers) || !is_amount(told.out, out) || !is_amount(told.back, back)
        || escrow != vouchers + out + back) {
        fprintf(stderr, "%s: escrow %d, vouchers %d, out %d, back %d\n", what, (int)told.escrow.low, (int)told.vouchers.low,
                (int)told.out.low, (int)told.back.low);
        exit(1);
    }
}

static void go_there_and_back(world *w)
{
    want_totals(w, 0, 0, 0, 0, "before a transfer");
    send(&w->chains[0], "alice", "atom", 100, "bob");
    want_totals(w, 100, 0, 100, 0, "a transfer under way");
    relay(w);
    want_totals(w, 100, 100, 0, 0, "a transfer that came");
    relay(w);
    want_totals(w, 100, 100, 0, 0, "a transfer that was acknowledged");
    send(&w->chains[1], "bob", "transfer/channel-0/atom", 40, "alice");
    want_totals(w, 100, 60, 0, 40, "vouchers under way home");
    relay(w);
    want_totals(w, 60, 60, 0, 0, "vouchers that came home");
    relay(w);
    want_totals(w, 60, 60, 0, 0, "vouchers whose way home was acknowledged");
}

static void be_refunded(world *w)
{
    send(&w->chains[0], "alice", "atom", 5, "b-b");
    want_totals(w, 65, 60, 5, 0, "a transfer to nobody");
    relay(w);
    want_totals(w, 65, 60, 5, 0, "a transfer that wasn't taken");
    relay(w);
    want_totals(w, 60, 60, 0, 0, "a transfer that was refunded");
}

/* ---- what is told of none */

static void refuse(ibcw_ledger *ledger, ibcw_ledger *peer, const char *channel, const char *denom, uint32_t wanted, const char *what)
{
    ibcw_amount other = {7, 7};
    ibcw_channel_totals told = {other, other, other, other}, old = told;
    want(ask(ledger, peer, channel, denom, &told), wanted, what);
    if (memcmp(&told, &old, sizeof told) != 0) {
        fprintf(stderr, "%s: totals are told\n", what);
        exit(1);
    }
}

static void refuse_others(world *w, world *other)
{
    ibcw_ledger *x = &w->chains[0], *y = &w->chains[1], *z = &w->chains[2], nothing = IBCW_HANDLE_INIT;
    refuse(&nothing, y, "channel-0", "atom", IBCW_EMPTY, "the totals of no ledger");
    refuse(x, &nothing, "channel-0", "atom", IBCW_EMPTY, "the totals with no peer");
    refuse(x, &other->chains[1], "channel-0", "atom", IBCW_OTHER_WORLD, "a peer of another world");
    refuse(x, &other->chains[1], "channel", "atom", IBCW_OTHER_WORLD, "a peer of another world, and no name");
    refuse(x, y, "channel", "atom", IBCW_BAD_NAME, "no channel's name");
    refuse(x, y, "channel-0", "a//b", IBCW_BAD_NAME, "no denomination");
    refuse(x, y, "channel-9", "atom", IBCW_UNKNOWN_CHANNEL, "a channel that isn't there");
    refuse(z, x, "channel-0", "atom", IBCW_UNKNOWN_CHANNEL, "a channel of the third chain");
    refuse(y, x, "channel-0", "transfer/channel-0/atom", IBCW_BAD_MESSAGE, "a denomination that came over the end");
    refuse(y, z, "channel-0", "transfer/channel-0/atom", IBCW_BAD_MESSAGE, "a denomination that came over the end, and the third chain");
    refuse(x, z, "channel-0", "atom", IBCW_WRONG_PEER, "the third chain as a peer");
}

/* An end that isn't open yet. */
static void refuse_beginning(world *w)
{
    ibcw_replied reply;
    ibcw_message step = ibcw_message_of(IBCW_CHAN_OPEN_INIT);
    step.port = step.peer_port = ibcw_text("transfer");
    step.order = IBCW_UNORDERED;
    step.version = ibcw_text("ics20-1");
    step.connection = ibcw_text("connection-0");
    want(ibcw_send(&w->chains[0], &step, &reply), IBCW_DONE, "a channel begins");
    refuse(&w->chains[0], &w->chains[1], "channel-1", "atom", IBCW_WRONG_STATE, "a channel that isn't open");
    refuse(&w->chains[0], &w->chains[2], "channel-1", "atom", IBCW_WRONG_STATE, "a channel that isn't open, and the third chain");
}

int main(void)
{
    world w = begin(), other = begin();
    go_there_and_back(&w);
    be_refunded(&w);
    refuse_others(&w, &other);
    refuse_beginning(&w);
    end(&w);
    end(&other);
    puts("an escrow is its vouchers and what is under way");
    return 0;
}
