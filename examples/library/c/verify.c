/* A verifier with no ledger: verify ROOT PATH PROOF [VALUE]
   ROOT, PROOF and VALUE are hexadecimal digits, as the program prints roots and proofs. It tells whether the proof shows that the key
   with this path has the value under the root, or, with no value, that the key isn't there. */
#include "ibcworld.h"

#include <stdio.h>
#include <string.h>

enum { ROOM = 65536 };

typedef struct {
    uint8_t data[ROOM];
    size_t size;
} text;

static int digit(char c)
{
    const char *digits = "0123456789abcdef";
    const char *found = c == '\0' ? NULL : strchr(digits, c);
    return found == NULL ? -1 : (int)(found - digits);
}

static int read_hex(const char *from, text *out)
{
    size_t digits = strlen(from);
    if (digits % 2 != 0 || digits / 2 > ROOM) return 0;
    for (out->size = 0; out->size < digits / 2; out->size++) {
        int high = digit(from[2 * out->size]), low = digit(from[2 * out->size + 1]);
        if (high < 0 || low < 0) return 0;
        out->data[out->size] = (uint8_t)(16 * high + low);
    }
    return 1;
}

int main(int count, char **words)
{
    static text root, proof, value;
    uint32_t answer;
    if (count < 4 || count > 5 || !read_hex(words[1], &root) || !read_hex(words[3], &proof) ||
        (count == 5 && !read_hex(words[4], &value))) {
        fputs("usage: verify ROOT PATH PROOF [VALUE]\n", stderr);
        return 2;
    }
    if (count == 5)
        answer = ibcw_verify_present(root.data, root.size, (const uint8_t *)words[2], strlen(words[2]),
                                     value.data, value.size, proof.data, proof.size);
    else
        answer = ibcw_verify_absent(root.data, root.size, (const uint8_t *)words[2], strlen(words[2]),
                                    proof.data, proof.size);
    if (answer == IBCW_DONE)
        puts(count == 5 ? "the key has the value" : "the key isn't there");
    else
        printf("refused: %u\n", (unsigned)answer);
    return answer == IBCW_DONE ? 0 : 1;
}
