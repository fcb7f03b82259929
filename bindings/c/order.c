/* The order of the entries of several ledgers (journal.h). Only an update of a client depends on another chain: on how many heights that chain has
   published. So it comes behind the block of the last of them, and before the block of the next. */
#include "journal.h"

enum {
    UPDATE_CLIENT = 2, /* the tag of the message */
    BLOCK_EFFECT = 7,  /* the tag of what a block's reply gives */
    LOOKED = 12,       /* so many bytes the answer to an update of a client has that looked: reply, 1, height, row */
    GONE = 1           /* the row of the header's height was gone */
};

static uint64_t number_at(const uint8_t *bytes)
{
    uint64_t number = 0;
    int k;
    for (k = 0; k < 8; k++) number = number << 8 | bytes[k];
    return number;
}

/* What an update of a client saw. The event is the tag, the client behind its length, and the header: its chain and its height come first. */
static void read_look(ibcw_waiting *of, const uint8_t *event, size_t event_size, const uint8_t *answer, uint64_t window)
{
    size_t client = event_size < 3 ? 0 : (size_t)event[1] << 8 | event[2];
    if (event_size < 3 + client + 9) return;
    of->seen = event[3 + client];
    of->height = number_at(answer + 3);
    of->is_late = answer[11] == GONE && number_at(event + 4 + client) + window > of->height;
}

ibcw_waiting ibcw_waiting_of(uint32_t chain, uint32_t kind, const uint8_t *event, size_t event_size, const uint8_t *answer, size_t answer_size,
                             uint64_t window)
{
    ibcw_waiting of = {(uint8_t)chain, IBCW_SEES_NONE, 0, 0, 0};
    if (kind == 1 && event_size > 0 && event[0] == UPDATE_CLIENT && answer_size == LOOKED) read_look(&of, event, event_size, answer, window);
    if (kind == 0 && answer_size >= 10 && answer[0] == 1 && answer[1] == BLOCK_EFFECT) {
        of.is_block = 1;
        of.height = number_at(answer + 2);
    }
    return of;
}

/* How far the entries of each chain have come, and of each chain the next one that looks at each other. */
typedef struct {
    const ibcw_waiting *next[IBCW_MOST_CHAINS], *end[IBCW_MOST_CHAINS];
    const ibcw_waiting *looks[IBCW_MOST_CHAINS][IBCW_MOST_CHAINS];
    uint64_t heights[IBCW_MOST_CHAINS];
} course;

static void begin(course *of, const ibcw_waiting *waiting, const uint64_t *counts, const uint64_t *heights)
{
    int chain, other;
    for (chain = 0; chain < IBCW_MOST_CHAINS; chain++) {
        of->next[chain] = waiting;
        for (other = 0; other < IBCW_MOST_CHAINS; other++) of->looks[chain][other] = waiting;
        waiting += counts[chain];
        of->end[chain] = waiting;
        of->heights[chain] = heights[chain];
    }
}

/* Whether a chain has still to look at another one at so many heights, or at fewer. */
static int is_to_look(course *of, int chain, int other, uint64_t height)
{
    const ibcw_waiting *at = of->looks[chain][other];
    if (at < of->next[chain]) at = of->next[chain];
    while (at < of->end[chain] && at->seen != other) at++;
    of->looks[chain][other] = at;
    return at < of->end[chain] && at->height <= height;
}

/* Whether the next entry of a chain may come now. */
static int is_due(course *of, int chain)
{
    const ibcw_waiting *at = of->next[chain];
    int other;
    if (at == of->end[chain]) return 0;
    if (at->seen != IBCW_SEES_NONE) return at->seen < IBCW_MOST_CHAINS && !at->is_late && of->heights[at->seen] == at->height;
    for (other = 0; at->is_block && other < IBCW_MOST_CHAINS; other++)
        if (is_to_look(of, other, chain, of->heights[chain])) return 0;
    return 1;
}

int ibcw_order_waiting(const ibcw_waiting *waiting, const uint64_t counts[IBCW_MOST_CHAINS], const uint64_t heights[IBCW_MOST_CHAINS], uint8_t *order)
{
    course of;
    int is_going = 1, chain;
    begin(&of, waiting, counts, heights);
    while (is_going) {
        is_going = 0;
        for (chain = 0; chain < IBCW_MOST_CHAINS; chain++) {
            for (; is_due(&of, chain); of.next[chain]++, is_going = 1) {
                if (of.next[chain]->is_block) of.heights[chain] = of.next[chain]->height;
                *order++ = (uint8_t)chain;
            }
        }
    }
    for (chain = 0; chain < IBCW_MOST_CHAINS; chain++)
        if (of.next[chain] < of.end[chain]) return 0;
    return 1;
}
