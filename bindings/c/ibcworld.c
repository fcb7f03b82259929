/* What of ibcworld.h is no call of the proved library: worlds get numbers here, by which the library tells them apart. */
#include "ibcworld.h"

/* A number that is far from those of neighbours (Steele, Lea and Flood, "SplitMix"). */
static uint64_t scattered(uint64_t number)
{
    number += 0x9e3779b97f4a7c15u;
    number = (number ^ number >> 30) * 0xbf58476d1ce4e5b9u;
    number = (number ^ number >> 27) * 0x94d049bb133111ebu;
    return number ^ number >> 31;
}

/* Numbers count up, and stay below those that callers may give (2^63). An archive that is linked into two objects of one program has two counters: each
   counts from where its own address leads, so that their numbers are far apart. */
static uint64_t next_number(void)
{
    static uint64_t last = 0;
    uint64_t first = scattered((uint64_t)(uintptr_t)&last);
    return (first + __atomic_add_fetch(&last, 1, __ATOMIC_RELAXED)) & 0x7fffffffffffffffu;
}

uint32_t ibcw_make_ledgers(ibcw_genesis *genesis, ibcw_ledgers *ledgers)
{
    return ibcw_make_numbered_ledgers(genesis, next_number(), ledgers);
}

uint32_t ibcw_make_replayed(ibcw_genesis *genesis, ibcw_entries *entries, ibcw_ledgers *ledgers, uint64_t *place,
                            uint8_t *due, size_t room, size_t *size)
{
    return ibcw_make_numbered_replayed(genesis, next_number(), entries, ledgers, place, due, room, size);
}
