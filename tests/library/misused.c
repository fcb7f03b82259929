/* What a careless program does. A compiler warns of each line that has a number: tools/build_library looks for these warnings, and never runs this. */
#include "ibcworld.h"

uint32_t misuse(ibcw_ledger *ledger, ibcw_view *view);

uint32_t misuse(ibcw_ledger *ledger, ibcw_view *view)
{
    uint64_t count = 0;
    ibcw_told told;
    size_t size;
    ibcw_length(&ledger->handle, &count);                       /* 1: the answer is dropped */
    ibcw_verify_absent(NULL, 0, NULL, 0, NULL, 0);              /* 2: the answer is dropped */
    if (ibcw_length(&ledger->handle, NULL)) return 1;           /* 3: a null pointer to a number */
    if (ibcw_make_view(NULL, view)) return 1;                   /* 4: a null pointer to a handle */
    return ibcw_end_block(view, 1, &told, NULL, 0, &size);      /* 5: a view in place of a ledger */
}
