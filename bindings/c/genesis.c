/* A genesis from its text, a script with no steps (docs/SCRIPTS.md, "The form of a script"): the one part of a script that the library reads. First the
   whole text is passed over as JSON (RFC 8259). Then members are looked for in it, of which the last counts where a name stands twice. */
#include "ibcworld_journal.h"

#include "journal.h"

#include <string.h>

enum {
    MOST_BYTES = 1048576,
    MOST_NESTED = 127,
    USUAL_WINDOW = 4096,
    CHAIN_NAME = 16,
    ROOM = 65, /* no name of a chain, a user, a base denomination or a member, and no amount, has more than 64 bytes */
    TOO_LONG = ROOM
};

/* What is left of a text. */
typedef struct {
    const char *at, *end;
} rest;

static int is_at_end(const rest *of) { return of->at == of->end; }

/* The next byte, or 0 at the end. */
static unsigned char ahead(const rest *of) { return is_at_end(of) ? 0 : (unsigned char)*of->at; }

static int is_digit(unsigned char byte) { return byte >= '0' && byte <= '9'; }

static void pass_blanks(rest *of)
{
    while (!is_at_end(of) && (*of->at == ' ' || *of->at == '\t' || *of->at == '\n' || *of->at == '\r')) of->at++;
}

/* Passes over a byte, where it is the next one. */
static int pass(rest *of, char byte)
{
    if (is_at_end(of) || *of->at != byte) return 0;
    of->at++;
    return 1;
}

/* The same behind blanks. */
static int pass_mark(rest *of, char byte)
{
    pass_blanks(of);
    return pass(of, byte);
}

static int pass_word(rest *of, const char *word)
{
    size_t size = strlen(word);
    if ((size_t)(of->end - of->at) < size || memcmp(of->at, word, size) != 0) return 0;
    of->at += size;
    return 1;
}

/* ---- strings */

/* The value of a hexadecimal digit, or 16. */
static unsigned hex_of(unsigned char digit)
{
    if (is_digit(digit)) return digit - (unsigned)'0';
    if (digit >= 'a' && digit <= 'f') return digit - (unsigned)'a' + 10;
    if (digit >= 'A' && digit <= 'F') return digit - (unsigned)'A' + 10;
    return 16;
}

/* Reads the four digits of an escape. */
static int read_unit(rest *of, unsigned *unit)
{
    int k;
    *unit = 0;
    for (k = 0; k < 4; k++) {
        unsigned digit = hex_of(ahead(of));
        if (digit == 16) return 0;
        *unit = *unit << 4 | digit;
        of->at++;
    }
    return 1;
}

/* Reads what stands behind `\u`. A surrogate stands only in a pair. */
static int read_code(rest *of, unsigned *code)
{
    unsigned low = 0;
    if (!read_unit(of, code) || (*code >= 0xdc00 && *code < 0xe000)) return 0;
    if (*code < 0xd800 || *code >= 0xe000) return 1;
    if (!pass(of, '\\') || !pass(of, 'u') || !read_unit(of, &low) || low < 0xdc00 || low >= 0xe000) return 0;
    *code = 0x10000 + ((*code - 0xd800) << 10) + (low - 0xdc00);
    return 1;
}

/* Reads what stands behind a backslash. */
static int read_escape(rest *of, unsigned *code)
{
    static const char letters[] = "\"\\/bfnrt", meant[] = "\"\\/\b\f\n\r\t";
    const char *found;
    if (is_at_end(of)) return 0;
    if (pass(of, 'u')) return read_code(of, code);
    found = *of->at == 0 ? NULL : strchr(letters, *of->at);
    if (found == NULL) return 0;
    *code = (unsigned char)meant[found - letters];
    of->at++;
    return 1;
}

/* Reads a sequence of UTF-8 (RFC 3629). */
static int read_sequence(rest *of, unsigned *code)
{
    unsigned char first = ahead(of);
    int more = first < 0x80 ? 0 : first < 0xc2 ? -1 : first < 0xe0 ? 1 : first < 0xf0 ? 2 : first < 0xf5 ? 3 : -1;
    int k;
    if (more < 0 || of->end - of->at <= more) return 0;
    *code = more == 0 ? first : first & (0x3fu >> more);
    for (k = 1; k <= more; k++) {
        unsigned char next = (unsigned char)of->at[k];
        if ((next & 0xc0) != 0x80) return 0;
        *code = *code << 6 | (next & 0x3fu);
    }
    of->at += more + 1;
    if ((more == 2 && *code < 0x800) || (more == 3 && (*code < 0x10000 || *code > 0x10ffff))) return 0;
    return *code < 0xd800 || *code >= 0xe000;
}

/* Reads a character of a string. */
static int read_character(rest *of, unsigned *code)
{
    if (is_at_end(of) || ahead(of) < ' ') return 0;
    return pass(of, '\\') ? read_escape(of, code) : read_sequence(of, code);
}

/* Reads a string into a place of ROOM bytes. *size is its length; or TOO_LONG, where it has more or is no ASCII. */
static int read_string(rest *of, char *place, size_t *size)
{
    unsigned code = 0;
    *size = 0;
    if (!pass(of, '"')) return 0;
    while (!pass(of, '"')) {
        if (!read_character(of, &code)) return 0;
        if (code > 127 || *size + 1 >= TOO_LONG) *size = TOO_LONG;
        if (*size < TOO_LONG) place[(*size)++] = (char)code;
    }
    return 1;
}

/* ---- numbers */

/* What a number is made of. */
typedef struct {
    const char *digits; /* the first of the whole part and behind it, without leading zeros */
    long scale;         /* the number is 0.DIGITS times 10 to this */
    int is_whole;       /* whether it has neither a fraction nor an exponent */
} number_parts;

/* Passes over digits, of which there has to be one. */
static int pass_digits(rest *of)
{
    const char *from = of->at;
    while (is_digit(ahead(of))) of->at++;
    return of->at > from;
}

/* Reads an exponent, which is cut where it is larger than any number of a text. */
static int read_exponent(rest *of, long *exponent)
{
    int is_negative = pass(of, '-');
    const char *from;
    if (!is_negative) pass(of, '+');
    from = of->at;
    if (!pass_digits(of)) return 0;
    *exponent = 0;
    for (; from < of->at; from++)
        if (*exponent < 100000000) *exponent = *exponent * 10 + (*from - '0');
    if (is_negative) *exponent = -*exponent;
    return 1;
}

/* Passes over a number, and tells its parts. */
static int read_number(rest *of, number_parts *parts)
{
    long exponent = 0;
    const char *whole;
    pass(of, '-');
    whole = of->at;
    if (!pass(of, '0') && !pass_digits(of)) return 0;
    parts->scale = (long)(of->at - whole);
    parts->is_whole = 1;
    parts->digits = whole;
    if (pass(of, '.')) {
        parts->is_whole = 0;
        if (!pass_digits(of)) return 0;
    }
    while (parts->digits < of->at && (*parts->digits == '0' || *parts->digits == '.'))
        if (*parts->digits++ == '0') parts->scale--;
    if (pass(of, 'e') || pass(of, 'E')) {
        parts->is_whole = 0;
        if (!read_exponent(of, &exponent)) return 0;
    }
    parts->scale += exponent;
    return 1;
}

/* Whether a double holds a number of these parts (IEEE 754): it is below 2^1024 - 2^970, which are these 309 digits. */
static int is_finite(const number_parts *parts, const char *end)
{
    static const char least[] = "1797693134862315807937289714053034150799341327100378269361737789804449682927647509466490179775872070963"
                                "3028641669288791094655554785194040263065748867150582068190890200070838367627385484581771153176447573027"
                                "0069855571366959622842914819860834936475292719074168444365510704342711559699508093042880177904174497792";
    const char *digit = parts->digits, *other;
    if (parts->scale != 309) return parts->scale < 309 || digit == end || !is_digit((unsigned char)*digit);
    for (other = least; *other != 0; other++) {
        char own = '0';
        if (digit < end && *digit == '.') digit++;
        if (digit < end && is_digit((unsigned char)*digit)) own = *digit++;
        if (own != *other) return own < *other;
    }
    return 0;
}

static int pass_number(rest *of)
{
    number_parts parts;
    return read_number(of, &parts) && is_finite(&parts, of->at);
}

/* ---- values */

static int pass_value(rest *of, int nested);

static int pass_string(rest *of)
{
    char place[ROOM];
    size_t size;
    return read_string(of, place, &size);
}

/* Passes over a member of an object, or over an item of an array. */
static int pass_part(rest *of, int is_member, int nested)
{
    pass_blanks(of);
    if (is_member && !(pass_string(of) && pass_mark(of, ':'))) return 0;
    return pass_value(of, nested);
}

/* Passes over the parts of an object or an array, whose first bracket is passed. */
static int pass_parts(rest *of, char closing, int nested)
{
    if (nested >= MOST_NESTED) return 0;
    if (pass_mark(of, closing)) return 1;
    do {
        if (!pass_part(of, closing == '}', nested + 1)) return 0;
    } while (pass_mark(of, ','));
    return pass(of, closing);
}

/* Passes over a value, with so many objects and arrays around it. */
static int pass_value(rest *of, int nested)
{
    pass_blanks(of);
    switch (ahead(of)) {
    case '{': of->at++; return pass_parts(of, '}', nested);
    case '[': of->at++; return pass_parts(of, ']', nested);
    case '"': return pass_string(of);
    case 't': return pass_word(of, "true");
    case 'f': return pass_word(of, "false");
    case 'n': return pass_word(of, "null");
    default: return pass_number(of);
    }
}

static int is_json(rest text)
{
    if (!pass_value(&text, 0)) return 0;
    pass_blanks(&text);
    return is_at_end(&text);
}

/* ---- looking into a text that is JSON */

/* Goes to the next part of an object or an array, whose first bracket is passed. Tells whether there is one. */
static int next_part(rest *of)
{
    pass_blanks(of);
    if (pass(of, '}') || pass(of, ']')) return 0;
    pass(of, ',');
    pass_blanks(of);
    return 1;
}

static int is_text(const char *place, size_t size, const char *text) { return size == strlen(text) && memcmp(place, text, size) == 0; }

/* Reads the name of a member, and goes to its value. */
static void read_name(rest *of, char *place, size_t *size)
{
    read_string(of, place, size);
    pass_mark(of, ':');
    pass_blanks(of);
}

/* Whether a value is an object whose members all have one of the names. */
static int has_only(rest object, const char *const *names, int count)
{
    char place[ROOM];
    size_t size;
    int k;
    if (!pass(&object, '{')) return 0;
    while (next_part(&object)) {
        read_name(&object, place, &size);
        for (k = 0; k < count && !is_text(place, size, names[k]); k++) continue;
        if (k == count) return 0;
        pass_value(&object, 0);
    }
    return 1;
}

/* The value of the object's last member with a name. */
static int find(rest object, const char *name, rest *value)
{
    char place[ROOM];
    size_t size;
    int is_found = 0;
    pass(&object, '{');
    while (next_part(&object)) {
        read_name(&object, place, &size);
        if (is_text(place, size, name)) {
            *value = object;
            is_found = 1;
        }
        pass_value(&object, 0);
    }
    return is_found;
}

/* The number, below 2^64, that a member is. */
static int find_number(rest object, const char *name, uint64_t *number)
{
    number_parts parts;
    rest value;
    const char *digit;
    if (!find(object, name, &value) || !is_digit(ahead(&value))) return 0;
    digit = value.at;
    if (!read_number(&value, &parts) || !parts.is_whole) return 0;
    for (*number = 0; digit < value.at; digit++) {
        uint64_t next = (uint64_t)(*digit - '0');
        if (*number > (UINT64_MAX - next) / 10) return 0;
        *number = *number * 10 + next;
    }
    return 1;
}

/* The items of a member, a list, whose first bracket is passed. */
static int find_list(rest object, const char *name, rest *items) { return find(object, name, items) && pass(items, '['); }

/* ---- a genesis */

/* The name of a chain: 1 to 16 lower-case letters and digits. */
static int is_chain_name(const char *name, size_t size)
{
    size_t k;
    if (size == 0 || size > CHAIN_NAME) return 0;
    for (k = 0; k < size; k++)
        if (!is_digit((unsigned char)name[k]) && !(name[k] >= 'a' && name[k] <= 'z')) return 0;
    return 1;
}

/* The amount, below 2^128, that a text writes in decimal digits without leading zeros. */
static int read_amount(const char *text, size_t size, uint64_t *high, uint64_t *low)
{
    uint64_t parts[4] = {0, 0, 0, 0}, carry;
    size_t k, part;
    if (size == 0 || size >= TOO_LONG || (text[0] == '0' && size > 1)) return 0;
    for (k = 0; k < size; k++) {
        if (!is_digit((unsigned char)text[k])) return 0;
        carry = (uint64_t)(text[k] - '0');
        for (part = 0; part < 4; part++) {
            carry += parts[part] * 10;
            parts[part] = carry & 0xffffffffu;
            carry >>= 32;
        }
        if (carry > 0) return 0;
    }
    *high = parts[3] << 32 | parts[2];
    *low = parts[1] << 32 | parts[0];
    return 1;
}

/* Why the library refuses a part of a genesis: for want of memory, or since it is none. */
static uint32_t refused(uint32_t answer) { return answer == IBCW_DONE || answer == IBCW_NO_MEMORY ? answer : (uint32_t)IBCW_BAD_MESSAGE; }

/* Adds a balance: [user, denomination, amount], all three texts. */
static uint32_t add_balance(rest balance, ibcw_genesis *genesis)
{
    char texts[3][ROOM];
    size_t sizes[3], k;
    uint64_t high = 0, low = 0;
    if (!pass(&balance, '[')) return IBCW_BAD_MESSAGE;
    for (k = 0; k < 3; k++)
        if (!next_part(&balance) || !read_string(&balance, texts[k], &sizes[k]) || sizes[k] == TOO_LONG) return IBCW_BAD_MESSAGE;
    if (next_part(&balance) || !read_amount(texts[2], sizes[2], &high, &low)) return IBCW_BAD_MESSAGE;
    return refused(ibcw_add_balance(genesis, (const uint8_t *)texts[0], sizes[0], (const uint8_t *)texts[1], sizes[1], high, low));
}

/* Adds a chain, whose name isn't one of those before it. */
static uint32_t add_chain(rest chain, char names[][ROOM], size_t count, ibcw_genesis *genesis)
{
    static const char *const members[] = {"name", "time", "balances"};
    uint64_t time = 0;
    rest name, balances;
    size_t size = 0, k;
    uint32_t answer;
    if (!has_only(chain, members, 3) || !find_number(chain, "time", &time) || !find_list(chain, "balances", &balances)) return IBCW_BAD_MESSAGE;
    if (!find(chain, "name", &name) || !read_string(&name, names[count], &size) || !is_chain_name(names[count], size)) return IBCW_BAD_MESSAGE;
    names[count][size] = 0;
    for (k = 0; k < count; k++)
        if (strcmp(names[k], names[count]) == 0) return IBCW_BAD_MESSAGE;
    answer = refused(ibcw_add_chain(genesis, time));
    while (answer == IBCW_DONE && next_part(&balances)) {
        answer = add_balance(balances, genesis);
        pass_value(&balances, 0);
    }
    return answer;
}

static uint32_t add_chains(rest chains, ibcw_genesis *genesis)
{
    char names[IBCW_MOST_CHAINS][ROOM];
    size_t count = 0;
    uint32_t answer = IBCW_DONE;
    while (answer == IBCW_DONE && next_part(&chains)) {
        if (count == IBCW_MOST_CHAINS) return IBCW_BAD_MESSAGE;
        answer = add_chain(chains, names, count++, genesis);
        pass_value(&chains, 0);
    }
    return answer;
}

/* How many heights a chain may publish, and how many of its last ones it keeps. */
static int read_numbers(rest script, uint64_t *capacity, uint64_t *window)
{
    rest value;
    if (!find_number(script, "capacity", capacity)) return 0;
    *window = USUAL_WINDOW;
    if (*capacity < *window) *window = *capacity;
    return !find(script, "window", &value) || find_number(script, "window", window);
}

static rest begin(const char *text, size_t size)
{
    rest of;
    of.at = text;
    of.end = size == 0 ? text : text + size;
    pass_blanks(&of);
    return of;
}

uint64_t ibcw_window_in(const char *text, size_t size)
{
    uint64_t capacity = 0, window = 0;
    return read_numbers(begin(text, size), &capacity, &window) ? window : 0;
}

uint32_t ibcw_read_genesis(const char *text, size_t size, ibcw_genesis *genesis)
{
    static const char *const members[] = {"capacity", "window", "chains", "steps"};
    uint64_t capacity = 0, window = 0, count;
    rest script = begin(text, size), chains, steps;
    uint32_t answer;
    if (ibcw_length(&genesis->handle, &count) != IBCW_EMPTY) return IBCW_FULL;
    if (size > MOST_BYTES || !is_json(script) || !has_only(script, members, 4) || !read_numbers(script, &capacity, &window)) return IBCW_BAD_MESSAGE;
    if (!find_list(script, "steps", &steps) || next_part(&steps) || !find_list(script, "chains", &chains)) return IBCW_BAD_MESSAGE;
    answer = ibcw_make_genesis(genesis, capacity, window);
    if (answer != IBCW_DONE) return answer;
    answer = add_chains(chains, genesis);
    if (answer != IBCW_DONE) ibcw_free(&genesis->handle);
    return answer;
}
