/* Loses the handle of a world's ledgers with all that it holds, and ends well: the run has to fail for that alone, under a checker of leaks. */
#include "ibcworld.h"

#include <string.h>

static void lose(void)
{
    ibcw_genesis genesis = IBCW_HANDLE_INIT;
    ibcw_ledgers ledgers = IBCW_HANDLE_INIT;
    uint32_t answer = ibcw_make_genesis(&genesis, 64, 64);
    answer |= ibcw_add_chain(&genesis, 100);
    answer |= ibcw_add_chain(&genesis, 100);
    answer |= ibcw_make_ledgers(&genesis, &ledgers);
    if (answer != IBCW_DONE) return;
    ibcw_free(&genesis.handle);
    memset(&ledgers, 0, sizeof ledgers);
}

/* What stood on the stack is written over, so that nothing there points to what was lost. */
static void overwrite(void)
{
    volatile unsigned char place[65536];
    for (size_t k = 0; k < sizeof place; k++) place[k] = 0;
}

int main(void)
{
    lose();
    overwrite();
    return 0;
}
