/* A program of two shared objects, each with an archive of the library of its own, and so with a counter of worlds of its own: their worlds are told apart. With COPY defined
   it is such an object, whose one function gives its calls; without, the program. */
#include "ibcworld.h"

#include <stdio.h>
#include <stdlib.h>

typedef struct {
    uint32_t (*make_genesis)(ibcw_genesis *, uint64_t, uint64_t);
    uint32_t (*add_chain)(ibcw_genesis *, uint64_t);
    uint32_t (*make_ledgers)(ibcw_genesis *, ibcw_ledgers *);
    uint32_t (*take_ledger)(ibcw_ledgers *, ibcw_ledger *);
    uint32_t (*join_ledger)(ibcw_ledgers *, ibcw_ledger *);
    uint32_t (*make_audit)(ibcw_ledgers *, ibcw_audit *);
    uint32_t (*free)(ibcw_handle *);
} copy_calls;

copy_calls copy_one(void);
copy_calls copy_other(void);

#ifdef COPY
copy_calls COPY(void)
{
    copy_calls calls = {ibcw_make_genesis, ibcw_add_chain, ibcw_make_ledgers, ibcw_take_ledger, ibcw_join_ledger, ibcw_make_audit, ibcw_free};
    return calls;
}
#else
static void want(uint32_t answer, uint32_t wanted, const char *what)
{
    if (answer != wanted) {
        fprintf(stderr, "%s: %u in place of %u\n", what, (unsigned)answer, (unsigned)wanted);
        exit(1);
    }
}

/* Two ledgers of a world, and those that are left. */
typedef struct {
    ibcw_ledgers rest;
    ibcw_ledger x, y;
} world;

static world begin(const copy_calls *by)
{
    world w = {IBCW_HANDLE_INIT, IBCW_HANDLE_INIT, IBCW_HANDLE_INIT};
    ibcw_genesis genesis = IBCW_HANDLE_INIT;
    want(by->make_genesis(&genesis, 8, 8), IBCW_DONE, "a genesis");
    want(by->add_chain(&genesis, 1), IBCW_DONE, "a chain");
    want(by->add_chain(&genesis, 1), IBCW_DONE, "a chain");
    want(by->make_ledgers(&genesis, &w.rest), IBCW_DONE, "ledgers");
    want(by->take_ledger(&w.rest, &w.x), IBCW_DONE, "a ledger");
    want(by->take_ledger(&w.rest, &w.y), IBCW_DONE, "a ledger");
    want(by->free(&genesis.handle), IBCW_DONE, "free");
    return w;
}

int main(void)
{
    copy_calls one = copy_one(), other = copy_other();
    world a = begin(&one), b = begin(&other);
    ibcw_audit audit = IBCW_HANDLE_INIT;
    if (one.make_ledgers == other.make_ledgers) return 1;
    want(one.join_ledger(&a.rest, &b.y), IBCW_OTHER_WORLD, "a ledger of the other copy's world");
    want(other.join_ledger(&b.rest, &a.x), IBCW_OTHER_WORLD, "a ledger of the first copy's world");
    want(other.join_ledger(&a.rest, &a.x), IBCW_DONE, "a ledger of the same world, by the other copy's call");
    want(one.join_ledger(&a.rest, &a.y), IBCW_DONE, "a ledger of the same world");
    want(one.make_audit(&a.rest, &audit), IBCW_DONE, "an audit");
    want(one.free(&audit.handle), IBCW_DONE, "free");
    want(one.free(&a.rest.handle), IBCW_DONE, "free");
    want(other.free(&b.x.handle), IBCW_DONE, "free");
    want(other.free(&b.y.handle), IBCW_DONE, "free");
    want(other.free(&b.rest.handle), IBCW_DONE, "free");
    puts("worlds of two copies are told apart");
    return 0;
}
#endif
