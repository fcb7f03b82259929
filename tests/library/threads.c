/* Eight chains, each driven by a thread of its own, that is told of the next chain's heights by views that others make: under a checker of races. Then eight threads read
   one view at the same time, each by a handle of its own, and the main thread audits the chains, twice. */
#include "ibcworld_messages.h"

#include <pthread.h>
#include <stdio.h>

enum { CHAINS = 8, TURNS = 6, TIME = 100 };

typedef struct {
    ibcw_ledger ledger;
    ibcw_view views[TURNS];
    int made;
    pthread_mutex_t lock;
    int number;
} chain;

static chain chains[CHAINS];

static void want(uint32_t answer, uint32_t wanted, const char *what)
{
    if (answer != wanted) {
        fprintf(stderr, "%s: %s in place of %s\n", what, ibcw_refusal_text(answer), ibcw_refusal_text(wanted));
        exit(1);
    }
}

/* The latest view that the chain has shown is read under its lock: its header, or nothing. */
static int header_of(chain *of, ibcw_message *update, uint8_t root[32])
{
    size_t size = 0;
    ibcw_heights heights;
    int there;
    pthread_mutex_lock(&of->lock);
    there = of->made > 0;
    if (there) {
        want(ibcw_view_heights(&of->views[of->made - 1], &heights), IBCW_DONE, "heights");
        want(ibcw_view_root(&of->views[of->made - 1], root, 32, &size), IBCW_DONE, "a root");
        update->chain = (uint8_t)heights.chain;
        update->header_height = heights.height;
        update->header_time = heights.time;
        update->root = ibcw_bytes_of(root, size);
    }
    pthread_mutex_unlock(&of->lock);
    return there;
}

static void *drive(void *given)
{
    chain *own = (chain *)given;
    chain *next = &chains[(own->number + 1) % CHAINS];
    ibcw_replied reply;
    ibcw_message message = ibcw_message_of(IBCW_CREATE_CLIENT);
    uint8_t root[32];
    int turn;
    message.chain = (uint8_t)next->number;
    want(ibcw_send(&own->ledger, &message, &reply), IBCW_DONE, "a client");
    for (turn = 0; turn < TURNS; turn++) {
        want(ibcw_end(&own->ledger, TIME, &reply), IBCW_DONE, "a block");
        pthread_mutex_lock(&own->lock);
        want(ibcw_make_view(&own->ledger, &own->views[turn]), IBCW_DONE, "a view");
        own->made = turn + 1;
        pthread_mutex_unlock(&own->lock);
        message = ibcw_message_of(IBCW_UPDATE_CLIENT);
        message.client = ibcw_text("inprocess-0");
        if (header_of(next, &message, root)) want(ibcw_send(&own->ledger, &message, &reply), IBCW_DONE, "an update");
    }
    return NULL;
}

/* ---- one view, read by all at the same time */

static ibcw_view shared[CHAINS], peer[CHAINS];

static void *read_view(void *given)
{
    ibcw_view *own = (ibcw_view *)given, *other = &peer[own - shared];
    static const char path[] = "nextClientSequence";
    uint8_t proof[IBCW_LONGEST_PROOF], root[32], value[8] = {0, 0, 0, 0, 0, 0, 0, 1};
    size_t size = 0, root_size = 0;
    ibcw_plan plan = IBCW_HANDLE_INIT;
    ibcw_view again = IBCW_HANDLE_INIT;
    int turn;
    for (turn = 0; turn < TURNS; turn++) {
        want(ibcw_view_root(own, root, sizeof root, &root_size), IBCW_DONE, "a root");
        want(ibcw_view_proof(own, (const uint8_t *)path, strlen(path), proof, sizeof proof, &size), IBCW_DONE, "a proof");
        want(ibcw_verify_present(root, root_size, (const uint8_t *)path, strlen(path), value, sizeof value, proof, size), IBCW_DONE, "a true proof");
        want(ibcw_make_plan(own, other, &plan), IBCW_DONE, "a plan");
        want(ibcw_share_view(own, &again), IBCW_DONE, "a view that is shared again");
        ibcw_free(&plan.handle);
        ibcw_free(&again.handle);
    }
    ibcw_free(&own->handle);
    ibcw_free(&other->handle);
    return NULL;
}

/* The views of the first two chains go to each thread, by handles of its own. */
static void read_together(void)
{
    pthread_t threads[CHAINS];
    int k;
    want(ibcw_make_view(&chains[0].ledger, &shared[0]), IBCW_DONE, "a view");
    want(ibcw_make_view(&chains[1].ledger, &peer[0]), IBCW_DONE, "a view");
    for (k = 1; k < CHAINS; k++) {
        want(ibcw_share_view(&shared[0], &shared[k]), IBCW_DONE, "a shared view");
        want(ibcw_share_view(&peer[0], &peer[k]), IBCW_DONE, "a shared view");
    }
    for (k = 0; k < CHAINS; k++)
        if (pthread_create(&threads[k], NULL, read_view, &shared[k]) != 0) exit(1);
    for (k = 0; k < CHAINS; k++) pthread_join(threads[k], NULL);
}

int main(void)
{
    pthread_t threads[CHAINS];
    ibcw_genesis genesis = IBCW_HANDLE_INIT;
    ibcw_ledgers ledgers = IBCW_HANDLE_INIT;
    ibcw_audit audit = IBCW_HANDLE_INIT;
    int k, turn;
    want(ibcw_make_genesis(&genesis, 64, 64), IBCW_DONE, "a genesis");
    for (k = 0; k < CHAINS; k++) want(ibcw_add_chain(&genesis, TIME), IBCW_DONE, "a chain");
    want(ibcw_make_ledgers(&genesis, &ledgers), IBCW_DONE, "ledgers");
    for (k = 0; k < CHAINS; k++) {
        chains[k].number = k;
        pthread_mutex_init(&chains[k].lock, NULL);
        want(ibcw_take_ledger(&ledgers, &chains[k].ledger), IBCW_DONE, "a ledger");
    }
    for (k = 0; k < CHAINS; k++)
        if (pthread_create(&threads[k], NULL, drive, &chains[k]) != 0) return 1;
    for (k = 0; k < CHAINS; k++) pthread_join(threads[k], NULL);
    read_together();
    for (k = 0; k < CHAINS; k++) {
        for (turn = 0; turn < TURNS; turn++) ibcw_free(&chains[k].views[turn].handle);
        want(ibcw_join_ledger(&ledgers, &chains[(k + 3) % CHAINS].ledger), IBCW_DONE, "a ledger joins");
    }
    want(ibcw_make_audit(&ledgers, &audit), IBCW_DONE, "an audit");
    ibcw_free(&audit.handle);
    want(ibcw_make_audit(&ledgers, &audit), IBCW_DONE, "an audit again");
    ibcw_free(&audit.handle);
    ibcw_free(&ledgers.handle);
    ibcw_free(&genesis.handle);
    puts("eight threads, and two audits");
    return 0;
}
