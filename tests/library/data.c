/* The data of packets of tokens with a few bytes changed, as many texts as the first word says: each that is data is written again from what the calls tell of it, and is
   the same text, since data has one spelling; of each that is none every call says so. It prints how many texts were tried, and how many were data. */
#include "ibcworld_messages.h"

#include <stdio.h>

enum { ROOM = 4096 };

__extension__ typedef unsigned __int128 wide;

typedef struct {
    char data[ROOM];
    size_t size;
} text;

static const char *const seeds[] = {
    "{\"amount\":\"5\",\"denom\":\"atom\",\"receiver\":\"bob\",\"sender\":\"alice\"}",
    "{\"amount\":\"340282366920938463463374607431768211455\",\"denom\":\"transfer/channel-0/atom\",\"memo\":\"for the ferry\",\"receiver\":\"Bob of the island\",\"sender\":\"alice\"}",
    "{\"receiver\":\"bob\",\"sender\":\"alice\",\"tokens\":[{\"amount\":\"5\",\"denom\":\"atom\"}]}",
    "{\"memo\":\"m\",\"receiver\":\"bob\",\"sender\":\"alice\",\"tokens\":[{\"amount\":\"5\",\"denom\":\"atom\"},{\"amount\":\"18446744073709551616\",\"denom\":\"gold\"},{\"amount\":\"1\",\"denom\":\"transfer/channel-0/atom\"}]}",
};

static void want_true(int is_so, const char *what, const text *of)
{
    if (!is_so) {
        fprintf(stderr, "%s: %.*s\n", what, (int)of->size, of->data);
        exit(1);
    }
}

/* Marsaglia's xorshift. */
static uint64_t drawn(void)
{
    static uint64_t state = 88172645463325252ull;
    state ^= state << 13;
    state ^= state >> 7;
    state ^= state << 17;
    return state;
}

/* Mostly a byte or a few become another that such texts have; now and then one is doubled, one is left out, or the text is cut. */
static void mutate(text *out)
{
    static const char letters[] = "0123456789\"{}[],:/-amountdenomreceiversendertokens \\.\n\200";
    const char *seed = seeds[drawn() % (sizeof seeds / sizeof seeds[0])];
    uint64_t changes = drawn() % 4;
    out->size = strlen(seed);
    memcpy(out->data, seed, out->size);
    while (changes-- > 0 && out->size > 1) {
        size_t at = (size_t)(drawn() % out->size);
        switch (drawn() % 8) {
        case 0: memmove(out->data + at + 1, out->data + at, out->size++ - at); break;
        case 1: memmove(out->data + at, out->data + at + 1, --out->size - at); break;
        case 2: if (drawn() % 4 == 0) out->size = at; break;
        default: out->data[at] = letters[drawn() % (sizeof letters - 1)]; break;
        }
    }
}

/* ---- written again */

static void put(text *out, const char *bytes)
{
    size_t size = strlen(bytes);
    memcpy(out->data + out->size, bytes, size);
    out->size += size;
}

static void put_member(text *out, const char *name, const char *value)
{
    put(out, "\"");
    put(out, name);
    put(out, "\":\"");
    put(out, value);
    put(out, "\"");
}

static void put_token(text *out, const ibcw_told_token *token)
{
    char digits[40];
    int at = sizeof digits - 1;
    wide amount = (wide)token->amount.high << 64 | token->amount.low;
    digits[at] = 0;
    for (; amount > 0; amount /= 10) digits[--at] = (char)('0' + (int)(amount % 10));
    put_member(out, "amount", digits + at);
    put(out, ",");
    put_member(out, "denom", token->denom);
}

static void put_parties(text *out, const ibcw_token_data *told)
{
    if (told->memo[0] != 0) {
        put_member(out, "memo", told->memo);
        put(out, ",");
    }
    put_member(out, "receiver", told->receiver);
    put(out, ",");
    put_member(out, "sender", told->sender);
}

static void write_again(text *out, const ibcw_token_data *told)
{
    uint64_t k;
    out->size = 0;
    put(out, "{");
    if (strcmp(told->version, "ics20-1") == 0) {
        put_token(out, &told->tokens[0]);
        put(out, ",");
        put_parties(out, told);
    } else {
        put_parties(out, told);
        put(out, ",\"tokens\":[");
        for (k = 0; k < told->token_count; k++) {
            put(out, k == 0 ? "{" : ",{");
            put_token(out, &told->tokens[k]);
            put(out, "}");
        }
        put(out, "]");
    }
    put(out, "}");
}

/* ---- one text */

static int try_text(const text *data)
{
    static ibcw_token_data told;
    static text again;
    const uint8_t *bytes = (const uint8_t *)data->data;
    ibcw_amount amount;
    size_t size = 0;
    uint32_t answer = ibcw_read_token_data(bytes, data->size, &told);
    if (answer == IBCW_NO_DATA) {
        want_true(ibcw_data_part(bytes, data->size, IBCW_MEMO, NULL, 0, &size) == IBCW_NO_DATA, "a part of no data", data);
        want_true(ibcw_data_token(bytes, data->size, 0, &amount, NULL, 0, &size) == IBCW_NO_DATA, "a token of no data", data);
        return 0;
    }
    want_true(answer == IBCW_DONE, "an answer", data);
    want_true(strcmp(told.version, "ics20-1") == 0 ? told.token_count == 1 : strcmp(told.version, "ics20-own-2") == 0, "a version", data);
    write_again(&again, &told);
    want_true(again.size == data->size && memcmp(again.data, data->data, again.size) == 0, "data that has two spellings", data);
    return 1;
}

int main(int words, char **word)
{
    static text data;
    long tries = words > 1 ? atol(word[1]) : 1000, k, taken = 0;
    for (k = 0; k < tries; k++) {
        mutate(&data);
        taken += try_text(&data);
    }
    if (taken < tries / 10 || taken > tries * 9 / 10) return 1;
    printf("%ld texts, %ld data\n", tries, taken);
    return 0;
}
