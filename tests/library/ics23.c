/* Proofs in the form of ICS 23 and back: each is the same again, bytes that are changed are refused or are the one form of another proof, and the
   library's word of a proof stays. With a folder, it writes the root there, and of each proof its form, its key, and its value where there is one:
   0.ics23, 0.key, 0.value, and so on. */
#include "ibcworld_messages.h"

#include <stdio.h>

enum { TIME = 100, ROOM = 40000 };

typedef struct {
    uint8_t data[ROOM];
    size_t size;
} text;

static void want(uint32_t answer, uint32_t wanted, const char *what)
{
    if (answer != wanted) {
        fprintf(stderr, "%s: %s in place of %s\n", what, ibcw_refusal_text(answer), ibcw_refusal_text(wanted));
        exit(1);
    }
}

static int is_same(const text *a, const text *b) { return a->size == b->size && memcmp(a->data, b->data, a->size) == 0; }

/* Bytes that are a form spell one proof, whose form they are. */
static int is_form(const text *form)
{
    static text proof, again;
    uint32_t answer = ibcw_proof_of_ics23(form->data, form->size, proof.data, ROOM, &proof.size);
    if (answer == IBCW_BAD_MESSAGE) return 0;
    want(answer, IBCW_DONE, "a proof of a form");
    want(ibcw_proof_to_ics23(proof.data, proof.size, again.data, ROOM, &again.size), IBCW_DONE, "a form again");
    want((uint32_t)is_same(form, &again), 1, "the form of a form's proof");
    return 1;
}

static void try_changed(const text *form)
{
    static text changed;
    size_t at;
    int bit, taken = 0;
    for (at = 0; at < form->size; at++) {
        for (bit = 0; bit < 8; bit++) {
            changed = *form;
            changed.data[at] ^= (uint8_t)(1 << bit);
            taken += is_form(&changed);
        }
        changed = *form;
        changed.size = at;
        want((uint32_t)is_form(&changed), 0, "a form that is cut");
    }
    changed = *form;
    changed.data[changed.size++] = 0;
    want((uint32_t)is_form(&changed), 0, "a form with a byte more");
    want((uint32_t)(taken < (int)form->size * 8), 1, "some changes are refused");
}

static void write_file(const char *folder, const char *name, ibcw_bytes bytes)
{
    char path[4096];
    FILE *file;
    snprintf(path, sizeof path, "%s/%s", folder, name);
    file = fopen(path, "wb");
    if (file == NULL || fwrite(bytes.data, 1, bytes.size, file) != bytes.size || fclose(file) != 0) exit(1);
}

static void write_form(const char *folder, int number, const text *proof, const text *form, ibcw_bytes key)
{
    static text value;
    char name[32];
    uint32_t answer = ibcw_proof_value(proof->data, proof->size, value.data, ROOM, &value.size);
    snprintf(name, sizeof name, "%d.ics23", number);
    write_file(folder, name, ibcw_bytes_of(form->data, form->size));
    snprintf(name, sizeof name, "%d.key", number);
    write_file(folder, name, key);
    snprintf(name, sizeof name, "%d.value", number);
    if (answer == IBCW_DONE) write_file(folder, name, ibcw_bytes_of(value.data, value.size));
    want(answer == IBCW_NOTHING_THERE ? (uint32_t)IBCW_DONE : answer, IBCW_DONE, "a proof's value");
}

static void begin(ibcw_ledger *ledger)
{
    ibcw_genesis genesis = IBCW_HANDLE_INIT;
    ibcw_ledgers ledgers = IBCW_HANDLE_INIT;
    ibcw_message message = ibcw_message_of(IBCW_CREATE_CLIENT);
    ibcw_replied reply;
    int k;
    want(ibcw_make_genesis(&genesis, 64, 64), IBCW_DONE, "a genesis");
    want(ibcw_add_chain(&genesis, TIME), IBCW_DONE, "a chain");
    want(ibcw_add_chain(&genesis, TIME), IBCW_DONE, "a chain");
    want(ibcw_make_ledgers(&genesis, &ledgers), IBCW_DONE, "ledgers");
    want(ibcw_take_ledger(&ledgers, ledger), IBCW_DONE, "a ledger");
    message.chain = 1;
    for (k = 0; k < 9; k++) want(ibcw_send(ledger, &message, &reply), IBCW_DONE, "a client");
    want(ibcw_end(ledger, TIME, &reply), IBCW_DONE, "a block");
    ibcw_free(&ledgers.handle);
    ibcw_free(&genesis.handle);
}

int main(int words, char **word)
{
    static const char *const paths[] = {"clients/inprocess-0/clientState", "clients/inprocess-8/clientState", "nextClientSequence", "connections/connection-7",
                                        "channelEnds/ports/note/channels/channel-0", "clients/inprocess-9/clientState", "receipts/ports/note/channels/channel-1/sequences/1"};
    static text proof, form, again;
    ibcw_ledger ledger = IBCW_HANDLE_INIT;
    ibcw_view view = IBCW_HANDLE_INIT;
    uint8_t root[32], kind;
    size_t size = 0;
    int k, absent = 0;
    begin(&ledger);
    want(ibcw_make_view(&ledger, &view), IBCW_DONE, "a view");
    want(ibcw_view_root(&view, root, sizeof root, &size), IBCW_DONE, "a root");
    for (k = 0; k < (int)(sizeof paths / sizeof paths[0]); k++) {
        ibcw_bytes key = ibcw_text(paths[k]);
        want(ibcw_view_proof(&view, key.data, key.size, proof.data, ROOM, &proof.size), IBCW_DONE, "a proof");
        want(ibcw_proof_to_ics23(proof.data, proof.size, NULL, 0, &form.size), IBCW_TOO_SHORT, "a form with no room");
        want(ibcw_proof_to_ics23(proof.data, proof.size, form.data, form.size, &form.size), IBCW_DONE, "a form");
        want(ibcw_proof_of_ics23(form.data, form.size, again.data, ROOM, &again.size), IBCW_DONE, "a proof of a form");
        want((uint32_t)is_same(&proof, &again), 1, "a proof there and back");
        want(ibcw_proof_kind(again.data, again.size, &kind), IBCW_DONE, "a kind");
        if (kind == IBCW_ABSENT) {
            absent++;
            want((uint32_t)ibcw_is_absent(ibcw_bytes_of(root, 32), key, ibcw_bytes_of(again.data, again.size)), 1, "a proof of absence");
        }
        try_changed(&form);
        if (words > 1) write_form(word[1], k, &proof, &form, key);
    }
    if (words > 1) write_file(word[1], "root", ibcw_bytes_of(root, sizeof root));
    want(ibcw_proof_to_ics23(root, 32, form.data, ROOM, &form.size), IBCW_BAD_MESSAGE, "a form of no proof");
    want(ibcw_proof_of_ics23(NULL, 0, form.data, ROOM, &form.size), IBCW_BAD_MESSAGE, "a proof of no bytes");
    ibcw_free(&view.handle);
    ibcw_free(&ledger.handle);
    printf("%d proofs there and back, %d of absence\n", k, absent);
    return 0;
}
