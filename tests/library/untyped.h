/* The calls by handles of any kind: the tests also ask with handles of wrong kinds, as a program in another language may. */
#ifndef UNTYPED_H
#define UNTYPED_H

#include "ibcworld.h"

#define ibcw_make_genesis(h, ...) ibcw_make_genesis((ibcw_genesis *)(void *)(h), __VA_ARGS__)
#define ibcw_add_chain(h, ...) ibcw_add_chain((ibcw_genesis *)(void *)(h), __VA_ARGS__)
#define ibcw_add_balance(h, ...) ibcw_add_balance((ibcw_genesis *)(void *)(h), __VA_ARGS__)
#define ibcw_make_ledgers(h, made) ibcw_make_ledgers((ibcw_genesis *)(void *)(h), (ibcw_ledgers *)(void *)(made))
#define ibcw_make_numbered_ledgers(h, number, made) ibcw_make_numbered_ledgers((ibcw_genesis *)(void *)(h), number, (ibcw_ledgers *)(void *)(made))
#define ibcw_take_ledger(h, made) ibcw_take_ledger((ibcw_ledgers *)(void *)(h), (ibcw_ledger *)(void *)(made))
#define ibcw_join_ledger(h, ledger) ibcw_join_ledger((ibcw_ledgers *)(void *)(h), (ibcw_ledger *)(void *)(ledger))
#define ibcw_make_audit(h, made) ibcw_make_audit((ibcw_ledgers *)(void *)(h), (ibcw_audit *)(void *)(made))
#define ibcw_make_entries(h) ibcw_make_entries((ibcw_entries *)(void *)(h))
#define ibcw_add_entry(h, ...) ibcw_add_entry((ibcw_entries *)(void *)(h), __VA_ARGS__)
#define ibcw_make_replayed(h, entries, made, ...) \
    ibcw_make_replayed((ibcw_genesis *)(void *)(h), (ibcw_entries *)(void *)(entries), (ibcw_ledgers *)(void *)(made), __VA_ARGS__)
#define ibcw_make_numbered_replayed(h, number, entries, made, ...) \
    ibcw_make_numbered_replayed((ibcw_genesis *)(void *)(h), number, (ibcw_entries *)(void *)(entries), (ibcw_ledgers *)(void *)(made), __VA_ARGS__)
#define ibcw_stored(h, ...) ibcw_stored((ibcw_ledger *)(void *)(h), __VA_ARGS__)
#define ibcw_apply(h, ...) ibcw_apply((ibcw_ledger *)(void *)(h), __VA_ARGS__)
#define ibcw_end_block(h, ...) ibcw_end_block((ibcw_ledger *)(void *)(h), __VA_ARGS__)
#define ibcw_event(h, ...) ibcw_event((ibcw_ledger *)(void *)(h), __VA_ARGS__)
#define ibcw_reply(h, ...) ibcw_reply((ibcw_ledger *)(void *)(h), __VA_ARGS__)
#define ibcw_query(h, ...) ibcw_query((ibcw_ledger *)(void *)(h), __VA_ARGS__)
#define ibcw_prove(h, ...) ibcw_prove((ibcw_ledger *)(void *)(h), __VA_ARGS__)
#define ibcw_balance(h, ...) ibcw_balance((ibcw_ledger *)(void *)(h), __VA_ARGS__)
#define ibcw_escrow(h, ...) ibcw_escrow((ibcw_ledger *)(void *)(h), __VA_ARGS__)
#define ibcw_supply(h, ...) ibcw_supply((ibcw_ledger *)(void *)(h), __VA_ARGS__)
#define ibcw_totals(h, peer, ...) ibcw_totals((ibcw_ledger *)(void *)(h), (ibcw_ledger *)(void *)(peer), __VA_ARGS__)
#define ibcw_packet(h, ...) ibcw_packet((ibcw_ledger *)(void *)(h), __VA_ARGS__)
#define ibcw_ack(h, ...) ibcw_ack((ibcw_ledger *)(void *)(h), __VA_ARGS__)
#define ibcw_make_balances(h, made) ibcw_make_balances((ibcw_ledger *)(void *)(h), (ibcw_balances *)(void *)(made))
#define ibcw_make_notes(h, made) ibcw_make_notes((ibcw_ledger *)(void *)(h), (ibcw_notes *)(void *)(made))
#define ibcw_make_view(h, made) ibcw_make_view((ibcw_ledger *)(void *)(h), (ibcw_view *)(void *)(made))
#define ibcw_share_view(h, made) ibcw_share_view((ibcw_view *)(void *)(h), (ibcw_view *)(void *)(made))
#define ibcw_view_heights(h, ...) ibcw_view_heights((ibcw_view *)(void *)(h), __VA_ARGS__)
#define ibcw_view_root(h, ...) ibcw_view_root((ibcw_view *)(void *)(h), __VA_ARGS__)
#define ibcw_view_proof(h, ...) ibcw_view_proof((ibcw_view *)(void *)(h), __VA_ARGS__)
#define ibcw_make_plan(h, to, made) ibcw_make_plan((ibcw_view *)(void *)(h), (ibcw_view *)(void *)(to), (ibcw_plan *)(void *)(made))
#define ibcw_plan_message(h, ...) ibcw_plan_message((ibcw_plan *)(void *)(h), __VA_ARGS__)

#endif
