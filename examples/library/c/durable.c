/* A wallet that survives a crash: deposits come over a channel, and each is credited once its entry is on the disk. Called again with the same file, it goes
   on where it was, also where it was ended by any signal or by a power cut.

       durable FILE COUNT         waits for so many deposits more, and ends
       durable FILE COUNT kill    the same, and is ended by SIGKILL when the last one was taken, and not yet committed

   What is credited is read from the ledger's history: no book of the wallet's own has to fit the journal. */
#include "ibcworld_journal.h"
#include "ibcworld_messages.h"

#include <signal.h>
#include <stdio.h>

enum { TIME = 100, ROOM = 70000 };

static const char genesis[] =
    "{\"capacity\": 1000000, \"window\": 64, \"chains\": ["
    "{\"name\": \"harbour\", \"time\": 100, \"balances\": [[\"alice\", \"atom\", \"1000000\"]]}, "
    "{\"name\": \"island\", \"time\": 100, \"balances\": []}], \"steps\": []}";

static ibcw_journal *journal;

/* Ends the program where a call is refused. What was told is in the journal. */
static void want(uint32_t answer, const char *what)
{
    if (answer == IBCW_DONE) return;
    fprintf(stderr, "%s: %s\n", what, answer > 200 ? ibcw_journal_fault(journal)->text : ibcw_refusal_text(answer));
    exit(1);
}

/* ---- what came */

/* How much the entry at an index of the history credits: what a packet of tokens brought to the wallet. */
static uint64_t credit_of(ibcw_ledger *island, uint64_t index)
{
    static uint8_t bytes[ROOM];
    static ibcw_message message;
    static ibcw_token_data data;
    ibcw_asked asked;
    ibcw_replied reply;
    size_t size = 0;
    want(ibcw_event(island, index, &asked, bytes, sizeof bytes, &size), "an event");
    if (asked.kind != IBCW_RECV_PACKET) return 0;
    want(ibcw_reply(island, index, &reply.told, reply.bytes, sizeof reply.bytes, &reply.size), "a reply");
    if (!ibcw_is_text(ibcw_bytes_of(reply.bytes, reply.size), "{\"result\":\"AQ==\"}")) return 0;
    want(ibcw_read_message(bytes, size, &message), "a message");
    want(ibcw_read_token_data(message.packet.data.data, message.packet.data.size, &data), "the data of a packet");
    return strcmp(data.receiver, "wallet") == 0 ? data.tokens[0].amount.low : 0;
}

/* Tells the credits from an entry on, and counts them. Answers where the history ends. */
static uint64_t tell_credits(ibcw_ledger *island, uint64_t from, uint64_t *credits)
{
    uint64_t end = 0;
    want(ibcw_length(&island->handle, &end), "a length");
    for (; from < end; from++) {
        uint64_t amount = credit_of(island, from);
        if (amount > 0) printf("deposit %llu: %llu atom\n", (unsigned long long)++*credits, (unsigned long long)amount);
    }
    return end;
}

/* ---- what happens */

static void open_channel(ibcw_ledger *harbour, ibcw_ledger *island)
{
    ibcw_opened of_harbour, of_island;
    ibcw_opening what = {{NULL, 0}, IBCW_UNORDERED, {NULL, 0}, TIME};
    what.port = ibcw_text("transfer");
    what.version = ibcw_text("ics20-1");
    want(ibcw_open(harbour, &of_harbour, island, &of_island, &what), "a channel");
    want(ibcw_commit(journal, 0), "a commit");
    puts("the channel is open");
}

/* Alice sends tokens to the wallet, and a relayer brings them. */
static void deposit(ibcw_ledger *harbour, ibcw_ledger *island, uint64_t amount)
{
    ibcw_replied reply;
    ibcw_relayed relayed = {0, 0, 0};
    ibcw_message message = ibcw_message_of(IBCW_TRANSFER);
    message.channel = ibcw_text("channel-0");
    message.user = ibcw_text("alice");
    message.denom = ibcw_text("atom");
    message.amount.low = amount;
    message.receiver = ibcw_text("wallet");
    message.timeout_height = 1000000;
    want(ibcw_send(harbour, &message, &reply), "a transfer");
    want(ibcw_relay(harbour, island, TIME, &relayed), "a turn");
}

int main(int count, char **words)
{
    ibcw_fault fault;
    ibcw_ledger *ledgers;
    ibcw_journal_end end;
    size_t chains;
    uint64_t told = 0, credits = 0, wanted;
    if (count < 3) return 2;
    setvbuf(stdout, NULL, _IOLBF, 0);
    if (ibcw_open_journal(words[1], genesis, sizeof genesis - 1, &journal, &fault) != IBCW_DONE) {
        fprintf(stderr, "%s: %s\n", words[1], fault.text);
        return 1;
    }
    ledgers = ibcw_journal_ledgers(journal, &chains);
    ibcw_journal_told(journal, &end);
    if (end.entries == 0) open_channel(&ledgers[0], &ledgers[1]);
    told = tell_credits(&ledgers[1], 0, &credits);
    for (wanted = credits + strtoull(words[2], NULL, 10); credits < wanted;) {
        deposit(&ledgers[0], &ledgers[1], 10 + credits);
        if (count > 3 && credits + 1 == wanted) raise(SIGKILL);
        want(ibcw_commit(journal, 0), "a commit");
        told = tell_credits(&ledgers[1], told, &credits);
    }
    ibcw_close_journal(journal);
    return 0;
}
