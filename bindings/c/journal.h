/* What the parts of the journal share with one another: the text of a genesis (genesis.c), the order of entries (order.c) and the file (journal.c). */
#ifndef IBCWORLD_JOURNAL_PARTS_H
#define IBCWORLD_JOURNAL_PARTS_H

#include <stddef.h>
#include <stdint.h>

enum {
    IBCW_MOST_CHAINS = 8,
    IBCW_SEES_NONE = 255 /* the number of no chain */
};

/* How many of its last heights a chain keeps, by a text that ibcw_read_genesis has read. */
uint64_t ibcw_window_in(const char *text, size_t size);

/* What an entry that waits has to do with other chains. */
typedef struct {
    uint8_t chain;   /* whose entry it is */
    uint8_t seen;    /* at which chain it looked, as an update of a client does; else IBCW_SEES_NONE */
    uint8_t is_late; /* whether the height was gone that the window still has at so many published ones: threads did that */
    uint8_t is_block;
    uint64_t height; /* how many heights that chain had published; of a block that was accepted, its own height */
} ibcw_waiting;

/* Reads that of the bytes that are stored. The window is how many heights a chain keeps. */
ibcw_waiting ibcw_waiting_of(uint32_t chain, uint32_t kind, const uint8_t *event, size_t event_size, const uint8_t *answer, size_t answer_size,
                             uint64_t window);

/* Puts entries into an order in which each ledger would answer so again: those of a chain as they stand, an update of a client where the other chain has
   published just as many heights. `waiting` has those of the first chain, then those of the next, `counts` of them each; `heights` is how many each chain
   had published before. `order` gets the numbers of the chains whose next entry comes. Tells whether there is such an order. */
int ibcw_order_waiting(const ibcw_waiting *waiting, const uint64_t counts[IBCW_MOST_CHAINS], const uint64_t heights[IBCW_MOST_CHAINS], uint8_t *order);

#endif
