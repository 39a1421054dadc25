/*
 * How much stack each function of mschap.h takes, in bytes below its return address: a line
 * `NAME OCTETS` for each, the most over all inputs that are tried here. After that the same calls
 * are made on a stack of MSCHAP_STACK_SIZE bytes, and from a thread with the smallest stack that
 * there is: the program dies where that is too little. tests/stack.sh compiles and runs it, and
 * compares the lines with what the header says of each function. Exit status 1 where a call is not
 * answered as it should be.
 *
 * A call is measured on a stack of its own that was painted: what is no longer paint was touched.
 * The same call is made to a function that does nothing too: what that touches is the caller's.
 */
#define _XOPEN_SOURCE 700 /* ucontext, which C99 alone hides */
#define _DEFAULT_SOURCE   /* MAP_ANONYMOUS */

#include <limits.h>
#include <mschap.h>
#include <pthread.h>
#include <stdio.h>
#include <string.h>
#include <sys/mman.h>
#include <ucontext.h>

#define PAINTED 131072
#define PAGE 4096
#define DRAWN 500 /* how many inputs are drawn of a kind */
#define ANY 1000  /* expected: no certain answer */
#define LENGTH(array) (sizeof(array) / sizeof *(array))

/* ---- the arguments: each call works on a copy of them */

#define BUFFERS 5
#define LARGEST MSCHAP_LIST_SIZE(MSCHAP_LIST_PLACES)

struct buffer {
    uint8_t octets[LARGEST];
    size_t size;
};

static struct buffer given[BUFFERS], passed[BUFFERS];
static uint32_t terms, flags, call;
static uint64_t reason;
static size_t length;
static uint32_t drawn;

static uint8_t draw(void)
{
    drawn = drawn * 1664525 + 1013904223;
    return (uint8_t)(drawn >> 24);
}

static uint8_t *give(int i, size_t size)
{
    given[i].size = size;
    for (size_t k = 0; k < size; k++)
        given[i].octets[k] = draw();
    return given[i].octets;
}

static void copy_given(void)
{
    for (int i = 0; i < BUFFERS; i++) {
        passed[i].size = given[i].size;
        memcpy(passed[i].octets, given[i].octets, given[i].size);
    }
}

/* ---- a function, with a call of it that takes the arguments and leaves its answer */

typedef void function(void);

struct measured {
    const char *name;
    function *itself, *call;
    size_t caller, most; /* bytes */
};

static function *volatile callee; /* the function itself, or the one that does nothing */
static size_t answer;

static void nothing(void)
{
}

#define BUFFER(i) (void *)passed[i].octets, passed[i].size
#define CALL(name, ...)                                    \
    static void call_##name(void)                          \
    {                                                      \
        answer = ((__typeof__(&name))callee)(__VA_ARGS__); \
    }                                                      \
    static struct measured of_##name = {#name, (function *)name, call_##name, 0, 0};

/* ---- the ways to make a call: measured, with the stack that a caller is to provide, and here */

static struct measured *all[64];
static size_t count;
static uint64_t painted[PAINTED / sizeof(uint64_t)];
static uint8_t *provided;
static ucontext_t here, there;

/* Apart from the counting, since getcontext may return twice and a local might then be lost. */
static void visit(function *call, void *stack, size_t size)
{
    getcontext(&there);
    there.uc_stack.ss_sp = stack;
    there.uc_stack.ss_size = size;
    there.uc_link = &here;
    makecontext(&there, call, 0);
    swapcontext(&here, &there);
}

static size_t touched(struct measured *m, function *f)
{
    /* two paints, since a call may happen to write one of them */
    static const uint8_t paints[] = {0x5a, 0xa5};
    const uint8_t *octets = (const uint8_t *)painted;
    size_t most = 0;
    for (int p = 0; p < 2; p++) {
        uint64_t eight = paints[p] * (UINT64_MAX / 255);
        size_t clean = 0;
        memset(painted, paints[p], sizeof painted);
        copy_given();
        callee = f;
        visit(m->call, painted, sizeof painted);
        while (clean < LENGTH(painted) && painted[clean] == eight)
            clean++;
        clean *= sizeof eight;
        while (clean < PAINTED && octets[clean] == paints[p])
            clean++;
        if (PAINTED - clean > most)
            most = PAINTED - clean;
    }
    return most;
}

static void measure(struct measured *m)
{
    size_t most;
    if (m->caller == 0) {
        m->caller = touched(m, nothing);
        all[count++] = m;
    }
    most = touched(m, m->itself) - m->caller;
    if (most > m->most)
        m->most = most;
}

static void call_on_provided(struct measured *m)
{
    copy_given();
    callee = m->itself;
    visit(m->call, provided, MSCHAP_STACK_SIZE);
}

static void call_here(struct measured *m)
{
    copy_given();
    callee = m->itself;
    m->call();
}

static void (*make)(struct measured *);
static int wrong;

static void try(struct measured *m, size_t expected)
{
    make(m);
    if (expected != ANY && answer != expected) {
        printf("stack: %s answers %zu and not %zu\n", m->name, answer, expected);
        wrong = 1;
    }
}

#define TRY(name, expected) try(&of_##name, expected)

/* ---- ciphers and hashes */

CALL(mschap_version, )
CALL(mschap_md4, BUFFER(0), BUFFER(1))
CALL(mschap_rc4, BUFFER(0), BUFFER(1))
CALL(mschap_des_encrypt, BUFFER(0), BUFFER(1))
CALL(mschap_des_decrypt, BUFFER(0), BUFFER(1))
CALL(mschap_challenge_response, BUFFER(0), BUFFER(1), BUFFER(2))

static void try_ciphers(void)
{
    static const size_t keys[] = {0, 1, 7, 16, 255, 256, 257}, streams[] = {0, 1, 516, 4096};
    TRY(mschap_version, MSCHAP_VERSION);
    for (size_t n = 0; n <= 4097; n++) {
        give(0, n);
        give(1, MSCHAP_DIGEST_SIZE);
        TRY(mschap_md4, n > 4096 ? MSCHAP_INPUT : MSCHAP_OK);
    }
    for (size_t k = 0; k < LENGTH(keys); k++)
        for (size_t s = 0; s < LENGTH(streams); s++) {
            give(0, keys[k]);
            give(1, streams[s]);
            TRY(mschap_rc4, keys[k] == 0 || keys[k] > 256 ? MSCHAP_INPUT : MSCHAP_OK);
        }
    for (int k = 0; k < DRAWN; k++) {
        give(0, MSCHAP_KEY_SIZE);
        give(1, MSCHAP_BLOCK_SIZE);
        TRY(mschap_des_encrypt, MSCHAP_OK);
        TRY(mschap_des_decrypt, MSCHAP_OK);
        give(0, MSCHAP_HASH_SIZE);
        give(2, MSCHAP_RESPONSE_SIZE);
        TRY(mschap_challenge_response, MSCHAP_OK);
    }
}

/* ---- passwords: a value has its kind, its version and its size, and bytes 0 behind its end */

CALL(mschap_make_password, BUFFER(0), BUFFER(1))
CALL(mschap_make_password_utf16, BUFFER(0), BUFFER(1))
CALL(mschap_read_password, BUFFER(0), BUFFER(1), &length)
CALL(mschap_nt_hash, BUFFER(0), BUFFER(1))
CALL(mschap_lm_hash, BUFFER(0), BUFFER(1))

static uint8_t *give_password(int i, const uint8_t *characters, size_t size)
{
    uint8_t *password = give(i, MSCHAP_PASSWORD_SIZE);
    memset(password, 0, MSCHAP_PASSWORD_SIZE);
    password[0] = 'W';
    password[1] = MSCHAP_PASSWORD_LAYOUT;
    password[2] = (uint8_t)(size >> 8);
    password[3] = (uint8_t)size;
    memcpy(password + 4, characters, size);
    return password;
}

/* A password of drawn bytes. */
static uint8_t *give_drawn_password(int i, size_t size)
{
    uint8_t characters[MSCHAP_NT_PASSWORD_MAX];
    for (size_t k = 0; k < size; k++)
        characters[k] = draw();
    return give_password(i, characters, size);
}

/* A text of copies of a piece, and in the end perhaps another: what it is made of and read into. */
static void try_text(const char *piece, size_t copies, const char *end, size_t expected)
{
    size_t size = strlen(piece) * copies;
    give(0, size + strlen(end));
    for (size_t k = 0; k < size; k++)
        given[0].octets[k] = (uint8_t)piece[k % strlen(piece)];
    memcpy(given[0].octets + size, end, strlen(end));
    give(1, MSCHAP_PASSWORD_SIZE);
    TRY(mschap_make_password, expected);
    if (expected != MSCHAP_OK)
        return;
    memcpy(given[0].octets, passed[1].octets, MSCHAP_PASSWORD_SIZE);
    given[0].size = MSCHAP_PASSWORD_SIZE;
    size += strlen(end);
    for (size_t room = size < 2 ? 0 : size - 2; room <= size + 2; room++) {
        give(1, room);
        TRY(mschap_read_password, room < size ? MSCHAP_ROOM : MSCHAP_OK);
    }
}

static void try_passwords(void)
{
    /* of one to four bytes each, two characters of 16 bits in the last, and all of them in turn */
    static const struct { const char *piece; size_t most; } pieces[] = {
        {"a", 256}, {"\xc3\xa4", 256}, {"\xe2\x82\xac", 256}, {"\xf0\x9f\x94\x91", 128},
        {"a\xc3\xa4\xe2\x82\xac\xf0\x9f\x94\x91", 51},
    };
    static const char *const malformed[] = {
        "\x80", "\xc0\x80", "\xc3", "\xe2\x82", "\xe0\x80\x80", "\xed\xa0\x80", "\xf0\x9f\x94",
        "\xf4\x90\x80\x80", "\xff", "\xf0\x9f\x94\xff",
    };
    for (size_t p = 0; p < LENGTH(pieces); p++)
        for (size_t n = 0; n <= pieces[p].most; n++) {
            try_text(pieces[p].piece, n, "", MSCHAP_OK);
            for (size_t m = 0; m < LENGTH(malformed); m++)
                try_text(pieces[p].piece, n, malformed[m], MSCHAP_MALFORMED);
        }
    for (size_t p = 0; p < LENGTH(pieces); p++) {
        try_text(pieces[p].piece, 300, "", MSCHAP_INPUT);
        try_text(pieces[p].piece, 2000, "", MSCHAP_INPUT);
    }
    for (size_t n = 0; n <= 514; n++) {
        give(0, n);
        give(1, MSCHAP_PASSWORD_SIZE);
        TRY(mschap_make_password_utf16, n % 2 || n > 512 ? MSCHAP_INPUT : MSCHAP_OK);
        give(1, MSCHAP_HASH_SIZE);
        TRY(mschap_lm_hash, n > 14 ? MSCHAP_INPUT : MSCHAP_OK);
        if (n > 512)
            continue;
        give_drawn_password(0, n);
        TRY(mschap_nt_hash, n % 2 ? MSCHAP_BAD_ARGUMENT : MSCHAP_OK);
        give(1, MSCHAP_TEXT_MAX);
        TRY(mschap_read_password, n % 2 ? MSCHAP_BAD_ARGUMENT : ANY);
        give_drawn_password(0, n)[n < 512 ? 515 : 0] ^= 1; /* no value */
        TRY(mschap_nt_hash, MSCHAP_BAD_ARGUMENT);
        TRY(mschap_read_password, MSCHAP_BAD_ARGUMENT);
    }
}

/* ---- records: kind, version, whether there is an account, the account, and the round keys of the
        NT hash and of the LM hash */

#define FOUND 2
#define NT 3
#define LM 20
#define FLAGS 37
#define FAILURES 41
#define ROUND_KEYS 42
#define ACCOUNT_SIZE (ROUND_KEYS - NT)

static uint32_t failures, which; /* which: of the hashes */

CALL(mschap_make_record, flags, BUFFER(0), BUFFER(1), BUFFER(2))
CALL(mschap_read_record, BUFFER(0), &flags, BUFFER(1), BUFFER(2))
CALL(mschap_record_failures, BUFFER(0))
CALL(mschap_set_failures, BUFFER(0), failures)
CALL(mschap_record_response, BUFFER(0), which, BUFFER(1), BUFFER(2))

/* The round keys of the record that is given, whosever they are: drawn, or of one byte. */
static void give_round_keys(int i, int kind)
{
    static const uint8_t bytes[] = {0, 255, 0x55};
    for (size_t k = ROUND_KEYS; k < MSCHAP_RECORD_SIZE; k++)
        given[i].octets[k] = kind < 3 ? bytes[kind] : draw();
}

/* Both responses of the record that is given, and what is no hash; its flags are f. */
static void try_record_responses(uint32_t f)
{
    for (which = 0; which <= 8; which++) {
        const int is_one = which == MSCHAP_HAS_NT_HASH || which == MSCHAP_HAS_LM_HASH;
        give(1, MSCHAP_CHALLENGE_SIZE);
        give(2, MSCHAP_RESPONSE_SIZE);
        if (!is_one) {
            TRY(mschap_record_response, MSCHAP_BAD_ARGUMENT);
            continue;
        }
        TRY(mschap_record_response, f & which ? MSCHAP_OK : MSCHAP_NO_RECORD);
        given[2].size--;
        TRY(mschap_record_response, MSCHAP_BAD_ARGUMENT);
        given[2].size++;
        given[1].size--;
        TRY(mschap_record_response, MSCHAP_BAD_ARGUMENT);
    }
}

static void try_records(void)
{
    for (uint32_t f = 0; f < 256; f++) {
        give(0, f & MSCHAP_HAS_NT_HASH ? MSCHAP_HASH_SIZE : 0);
        give(1, f & MSCHAP_HAS_LM_HASH ? MSCHAP_HASH_SIZE : 0);
        give(2, MSCHAP_RECORD_SIZE);
        flags = f;
        TRY(mschap_make_record, f < 128 ? MSCHAP_OK : MSCHAP_BAD_ARGUMENT);
        given[0] = passed[2];
        if (f >= 128)
            give(0, MSCHAP_RECORD_SIZE);
        give(1, MSCHAP_HASH_SIZE);
        give(2, MSCHAP_HASH_SIZE);
        TRY(mschap_read_record, f < 128 ? MSCHAP_OK : ANY);
        for (int kind = 0; kind < 8 && f < 128; kind++) {
            try_record_responses(f);
            give_round_keys(0, kind);
        }
        give(1, MSCHAP_HASH_SIZE);
        give(2, MSCHAP_HASH_SIZE);
        for (failures = 0; failures <= 256 && f < 128; failures += f == 7 ? 1 : 64) {
            const int fits = failures < 256;
            TRY(mschap_set_failures, fits ? MSCHAP_OK : MSCHAP_BAD_ARGUMENT);
            given[0].octets[FAILURES] = (uint8_t)failures;
            TRY(mschap_record_failures, fits ? failures : 0);
        }
        given[0].octets[FOUND] = 2; /* no value */
        failures = f;
        which = MSCHAP_HAS_NT_HASH;
        TRY(mschap_record_failures, MSCHAP_INVALID);
        TRY(mschap_set_failures, MSCHAP_BAD_ARGUMENT);
        give(1, MSCHAP_CHALLENGE_SIZE);
        give(2, MSCHAP_RESPONSE_SIZE);
        TRY(mschap_record_response, MSCHAP_BAD_ARGUMENT);
        given[0].size--;
        TRY(mschap_record_failures, MSCHAP_INVALID);
        TRY(mschap_set_failures, MSCHAP_BAD_ARGUMENT);
    }
}

/* ---- account files: the arguments are file, name and record */

static uint32_t now, max_age;
static uint64_t counts[5];

CALL(mschap_find_account, BUFFER(0), BUFFER(1), now, max_age, BUFFER(2), &length)
CALL(mschap_write_account, BUFFER(0), BUFFER(1), BUFFER(2), now, &length)
CALL(mschap_count_accounts, BUFFER(0), now, max_age, &counts[0], &counts[1], &counts[2],
     &counts[3], &counts[4])

#define NAMED 0 /* the fields of a line that are not always the same */
#define LM_HASH 2
#define NT_HASH 3
#define LINE_FLAGS 4
#define CHANGED 5

static const char *fields[] = {"", "4294967295", "XXXXXXXXXXXXXXXXXXXXXXXXXXXXXXXX",
                               "FC156AF7EDCD6C0EDDE3337D427F4EAC", "[U          ]",
                               "LCT-6AFA674D"};

static void add_text(const char *text, size_t size)
{
    memcpy(given[0].octets + given[0].size, text, size);
    given[0].size += size;
}

/* A line with a name of n bytes, and the fields as they are. */
static void add_line(char letter, size_t n)
{
    memset(given[0].octets + given[0].size, letter, n);
    given[0].size += n;
    for (size_t f = 0; f < LENGTH(fields); f++) {
        if (f != NAMED)
            add_text(fields[f], strlen(fields[f]));
        add_text(":", 1);
    }
    add_text("\n", 1);
}

/* The record to be written: with both hashes, one of them or none, or of nobody. */
static void give_account(int found, int has_nt, int has_lm)
{
    uint8_t *record = give(2, MSCHAP_RECORD_SIZE);
    record[0] = 'R';
    record[1] = MSCHAP_RECORD_LAYOUT;
    record[FOUND] = (uint8_t)found;
    record[NT] = (uint8_t)has_nt;
    record[LM] = (uint8_t)has_lm;
    memset(record + FLAGS, 1, 4);
}

static void try_file(size_t found, size_t written)
{
    give_account(1, draw() % 2, draw() % 2);
    TRY(mschap_find_account, found);
    TRY(mschap_write_account, written);
    TRY(mschap_count_accounts, MSCHAP_OK);
}

/* A name on one line of three, on none and on two. */
static void try_account(size_t n)
{
    const size_t bad = n == 0 || n > MSCHAP_NAME_MAX ? MSCHAP_BAD_LINE : 0;
    give(0, 0);
    add_line('a', n);
    add_line('b', 3);
    add_line('c', 256);
    memset(give(1, n), 'a', n);
    try_file(bad, bad);
    if (n > 0)
        given[1].octets[n - 1] = 'b'; /* the same but for its end */
    try_file(bad, bad ? bad : MSCHAP_NO_ACCOUNT);
    if (n > 0)
        given[1].octets[n - 1] = 'a';
    add_line('a', n);
    try_file(bad ? bad : MSCHAP_DOUBLED_NAME, bad ? bad : MSCHAP_DOUBLED_NAME);
    add_text("junk", 4);
    try_file(MSCHAP_BAD_LINE, MSCHAP_BAD_LINE);
}

/* Each byte of a line in turn is another one, or the line ends there. */
static void try_damaged(size_t n)
{
    static const uint8_t others[] = {':', '\n', '#', 'X', 'x', 'N', '*', ' ', 0, 255};
    size_t size;
    give(0, 0);
    add_line('a', n);
    add_line('b', n);
    size = given[0].size;
    memset(give(1, n), 'b', n);
    for (size_t i = 0; i < size; i++) {
        uint8_t kept = given[0].octets[i];
        for (size_t k = 0; k < LENGTH(others); k++) {
            given[0].octets[i] = others[k];
            try_file(ANY, ANY);
        }
        given[0].octets[i] = kept;
        given[0].size = i;
        try_file(ANY, ANY);
        given[0].size = size;
    }
}

/* As many copies of a text as there is room for. */
static void try_copies(const char *text)
{
    give(0, 0);
    while (given[0].size + strlen(text) <= LARGEST)
        add_text(text, strlen(text));
    try_file(ANY, ANY);
}

static void try_accounts(void)
{
    static const char *const hashes[] = {
        "XXXXXXXXXXXXXXXXXXXXXXXXXXXXXXXX", "NO PASSWORDXXXXXXXXXXXXXXXXXXXXX",
        "0123456789ABCDEFabcdef0123456789", "FFFFFFFFFFFFFFFFFFFFFFFFFFFFFFFF",
        "********************************",
    };
    static const char *const marks[] = {"[U          ]", "[DX         ]", "[          D]"};
    static const char *const changes[] = {"LCT-00000000", "LCT-00000001", "LCT-ffffffff"};
    static const char *const copies[] = {
        "\n", "#\n", ":", "a", "::::::\n", "#", "X", "a:1:XXXXXXXXXXXXXXXXXXXXXXXXXXXXXXXX:",
        "a:1:XXXXXXXXXXXXXXXXXXXXXXXXXXXXXXXX:FC156AF7EDCD6C0EDDE3337D427F4EAC:[DX         ]:"
        "LCT-00000001:\n",
    };
    now = 1794795342;
    max_age = 7776000;
    for (size_t n = 0; n <= MSCHAP_NAME_MAX + 1; n++)
        try_account(n);
    for (size_t lm = 0; lm < LENGTH(hashes); lm++)
        for (size_t nt = 0; nt < LENGTH(hashes); nt++)
            for (size_t m = 0; m < LENGTH(marks); m++) {
                size_t bad = hashes[lm][0] == '*' || hashes[nt][0] == '*' ? MSCHAP_BAD_LINE : 0;
                fields[LM_HASH] = hashes[lm];
                fields[NT_HASH] = hashes[nt];
                fields[LINE_FLAGS] = marks[m];
                fields[CHANGED] = changes[(lm + nt) % LENGTH(changes)];
                give(0, 0);
                add_line('a', 12);
                memset(give(1, 12), 'a', 12);
                try_file(bad, bad);
                for (int kind = 0; kind < 8; kind++) {
                    int found = kind & 1;
                    give_account(found, kind >> 1 & 1, kind >> 2);
                    TRY(mschap_write_account, found ? bad : MSCHAP_NO_RECORD);
                }
                given[2].octets[NT] = 2; /* no value */
                TRY(mschap_write_account, MSCHAP_BAD_ARGUMENT);
                given[2].size--;
                TRY(mschap_find_account, MSCHAP_BAD_ARGUMENT);
            }
    fields[LM_HASH] = hashes[0];
    fields[NT_HASH] = hashes[2];
    try_damaged(1);
    try_damaged(12);
    for (size_t c = 0; c < LENGTH(copies); c++)
        for (size_t n = 0; n <= 1; n++) {
            memset(give(1, n), 'a', n);
            try_copies(copies[c]);
        }
    for (int k = 0; k < DRAWN; k++) {
        give(1, draw());
        give(0, draw() * 128u);
        for (size_t i = 0; i < given[0].size && k % 2; i++)
            given[0].octets[i] = (uint8_t)":\n#XDLCT-09afAF[] "[draw() % 19];
        try_file(ANY, ANY);
    }
}

/* ---- openings */

CALL(mschap_make_list, BUFFER(1))
CALL(mschap_list_used, BUFFER(1))
CALL(mschap_open, 7, terms, BUFFER(0), BUFFER(1), BUFFER(2), BUFFER(3))

#define PLACES 4 /* where they begin in a list */

/* A list with so many places and so many of them used. Alike: all entries end as the challenge. */
static uint8_t *give_list(size_t places, size_t used, int alike)
{
    const uint8_t *challenge = give(0, MSCHAP_CHALLENGE_SIZE);
    uint8_t *list = give(1, MSCHAP_LIST_SIZE(places));
    list[0] = 'L';
    list[1] = MSCHAP_LIST_LAYOUT;
    list[2] = (uint8_t)(used >> 8);
    list[3] = (uint8_t)used;
    for (size_t i = 0; alike && i < used; i++)
        list[PLACES + 8 * i + 7] = challenge[7];
    give(2, MSCHAP_CONVERSATION_SIZE);
    give(3, MSCHAP_REPLY_SIZE);
    return list;
}

static void try_opening(size_t places, size_t used, uint32_t chosen, size_t spent, int alike)
{
    size_t expected = MSCHAP_OK;
    if (spent > 8)
        expected = MSCHAP_RETRIES_RANGE;
    else if (places - used < spent)
        expected = MSCHAP_LIST_FULL;
    give_list(places, used, alike);
    terms = MSCHAP_TERMS | MSCHAP_LIMIT(1 + used % 255) | chosen;
    if (!alike)
        terms |= used % 2 ? MSCHAP_LM_ALLOWED : MSCHAP_LM_REFUSED;
    TRY(mschap_open, expected);
    TRY(mschap_list_used, used);
    TRY(mschap_make_list, MSCHAP_OK);
}

static void try_openings(void)
{
    static const size_t places[] = {0, 1, 3, 8, 100, MSCHAP_LIST_PLACES};
    static const size_t last = PLACES + 8 * 3999; /* of a place */
    uint8_t *list;
    for (size_t p = 0; p < LENGTH(places); p++)
        for (size_t quarters = 0; quarters <= 4; quarters++)
            for (int alike = 0; alike < 2; alike++) {
                size_t used = places[p] * quarters / 4;
                for (uint32_t r = 0; r <= 8; r++)
                    try_opening(places[p], used, MSCHAP_RETRIES(r), r + 1, alike);
                try_opening(places[p], used, 0, 3, alike);
            }
    /* the last successor of the challenge is the last entry */
    terms = MSCHAP_TERMS | MSCHAP_LIMIT(255) | MSCHAP_RETRIES(7);
    list = give_list(MSCHAP_LIST_PLACES, 4000, 0);
    memcpy(list + last, given[0].octets, MSCHAP_CHALLENGE_SIZE);
    list[last] = (uint8_t)(given[0].octets[0] + 7 * 23);
    TRY(mschap_open, MSCHAP_SPENT);
    list[2] = 255; /* more places used than there are */
    TRY(mschap_open, MSCHAP_LIST);
    TRY(mschap_list_used, MSCHAP_INVALID);
    given[1].size--;
    TRY(mschap_make_list, MSCHAP_LIST);
    given[3].size = MSCHAP_REPLY_SIZE - 1;
    TRY(mschap_open, MSCHAP_REPLY_ROOM);
    terms = MSCHAP_TERMS | MSCHAP_LIMIT(0) | MSCHAP_RETRIES(8);
    TRY(mschap_open, MSCHAP_NO_LIMIT);
    list[0] = 0;
    TRY(mschap_open, MSCHAP_BAD_ARGUMENT);
    TRY(mschap_list_used, MSCHAP_INVALID);
}

/* ---- steps: the arguments are conversation, packet, record, reply and answer */

CALL(mschap_step, BUFFER(0), BUFFER(1), BUFFER(2), BUFFER(3), BUFFER(4))
CALL(mschap_answer_reason, BUFFER(0))
CALL(mschap_answer_repeated, BUFFER(0))
CALL(mschap_answer_fault, BUFFER(0))
CALL(mschap_answer_record, BUFFER(0), BUFFER(1))
CALL(mschap_conversation_awaits, BUFFER(0))
CALL(mschap_conversation_identifier, BUFFER(0))
CALL(mschap_conversation_retries, BUFFER(0))
CALL(mschap_packet_length, BUFFER(0))
CALL(mschap_account_offset, BUFFER(0))
CALL(mschap_account_length, BUFFER(0))
CALL(mschap_domain_offset, BUFFER(0))
CALL(mschap_domain_length, BUFFER(0))

static const uint8_t text[] = {'C', 'L', 'I', 'E', 'N', 'T'};
static mschap_nthash nt;
static mschap_lmhash lan;
static mschap_record made; /* of both, with their round keys */
static uint8_t challenge[MSCHAP_CHALLENGE_SIZE];

/* A conversation, behind its kind and version: the awaited code, LM, limit, the version of its
   change, identifier, retries, the challenge, the account that is kept, which is as in a record
   from NT on but without its round keys, and the last answer: whether there is one, code,
   identifier, which reply (0: Success, 1: Failure, 2: with a retry) and the reason in two bytes. */
#define AWAITED 2
#define LM_ALLOWED 3
#define LIMIT 4
#define CHANGE 5
#define RETRIES 7
#define CHALLENGE 8
#define KEPT 16
#define KEPT_LM (KEPT + LM - NT)
#define ANSWERED 55
#define REPLY 58

/* A conversation that awaits a packet of that code with identifier 7, LM allowed, the limit 5 and 2
   retries left, and a record with both hashes, no flag and no failure. */
static void give_step(uint8_t code)
{
    const uint8_t version = code == MSCHAP_AWAITS_CHANGE_1 ? 1 : 2;
    const uint8_t front[] = {'C', MSCHAP_CONVERSATION_LAYOUT, code, 1, 5, version, 7, 2};
    uint8_t *conversation = give(0, MSCHAP_CONVERSATION_SIZE);
    uint8_t *record = give(2, MSCHAP_RECORD_SIZE);
    memcpy(record, &made, sizeof made);
    memset(conversation, 0, MSCHAP_CONVERSATION_SIZE);
    memcpy(conversation, front, sizeof front);
    memcpy(conversation + CHALLENGE, challenge, sizeof challenge);
    if (code == MSCHAP_AWAITS_CHANGE || code == MSCHAP_AWAITS_CHANGE_1)
        memcpy(conversation + KEPT, record + NT, ACCOUNT_SIZE);
    give(3, MSCHAP_REPLY_SIZE);
    give(4, MSCHAP_ANSWER_SIZE);
}

/* A step that is answered with a packet of that code. */
static void try_step(uint8_t code)
{
    TRY(mschap_step, MSCHAP_OK);
    if (passed[3].octets[0] != code) {
        printf("stack: a step writes code %d and not %d\n", passed[3].octets[0], code);
        wrong = 1;
    }
}

/* The front of a packet with identifier 7. */
static uint8_t *give_packet(int i, uint8_t code, size_t size)
{
    uint8_t *packet = give(i, size);
    packet[0] = code;
    packet[1] = 7;
    packet[2] = (uint8_t)(size >> 8);
    packet[3] = (uint8_t)size;
    return packet;
}

/* A valid Response with a name of n bytes, and a backslash at a place of it or, at n, none. */
static uint8_t *give_response(int i, size_t n, size_t backslash)
{
    uint8_t *packet = give_packet(i, 2, 54 + n);
    packet[4] = 49;
    mschap_challenge_response(lan.bytes, sizeof lan, challenge, sizeof challenge, packet + 5, 24);
    mschap_challenge_response(nt.bytes, sizeof nt, challenge, sizeof challenge, packet + 29, 24);
    packet[53] = 1;
    memset(packet + 54, 'u', n);
    if (backslash < n)
        packet[54 + backslash] = '\\';
    return packet;
}

/* A change to a password of that size, whose block tells a size. */
static uint8_t *give_change(size_t size, size_t told)
{
    uint8_t *packet = give_packet(1, 6, MSCHAP_CHANGE_PACKET), *block = packet + 4;
    mschap_password password;
    mschap_nthash hash;
    mschap_rc4_key key;
    mschap_make_password_utf16(block + 512 - size, size, &password, sizeof password);
    mschap_nt_hash(&password, sizeof password, &hash, sizeof hash);
    block[512] = (uint8_t)told;
    block[513] = (uint8_t)(told >> 8);
    block[514] = block[515] = 0;
    memcpy(&key, &nt, sizeof nt);
    mschap_rc4(&key, sizeof nt, block, 516);
    memcpy(packet + 520, &nt, sizeof nt);
    mschap_des_encrypt(hash.bytes, 7, packet + 520, 8);
    mschap_des_encrypt(hash.bytes + 7, 7, packet + 528, 8);
    mschap_challenge_response(hash.bytes, sizeof hash, challenge, sizeof challenge,
                              packet + 1092, 24);
    packet[1116] = 0;
    packet[1117] = 1;
    return packet;
}

/* A hash under the challenge, 16 bytes at a place: two blocks under its first seven bytes. */
static void put_under_challenge(const uint8_t *hash, uint8_t *to)
{
    memcpy(to, hash, MSCHAP_HASH_SIZE);
    mschap_des_encrypt(challenge, MSCHAP_KEY_SIZE, to, MSCHAP_BLOCK_SIZE);
    mschap_des_encrypt(challenge, MSCHAP_KEY_SIZE, to + 8, MSCHAP_BLOCK_SIZE);
}

/* A version 1 change by the right old hashes to drawn ones, with a length and bit 0 of the
   flags. */
static uint8_t *give_change_1(size_t size, uint8_t bit)
{
    uint8_t *packet = give_packet(1, 5, MSCHAP_CHANGE_1_PACKET);
    put_under_challenge(lan.bytes, packet + 4);
    put_under_challenge(nt.bytes, packet + 36);
    packet[68] = (uint8_t)(size >> 8);
    packet[69] = (uint8_t)size;
    packet[70] = 0;
    packet[71] = bit;
    return packet;
}

/* Each version 1 change that is accepted, and each fault: the bit, the length, what LM allows, and
   what is wrong or missing. */
static void try_judged_1(size_t size)
{
    for (uint8_t bit = 0; bit < 2; bit++) {
        give_step(5);
        give_change_1(size, bit);
        try_step(bit || size <= 14 ? 3 : 4);
        given[1].octets[bit ? 36 : 4] ^= 1; /* the old hash is wrong */
        try_step(4);
        given[0].octets[bit ? KEPT : KEPT_LM] = 0; /* the kept record has no such hash */
        try_step(4);
        give_step(5);
        give_change_1(size, bit);
        given[0].octets[LM_ALLOWED] = 0;
        try_step(bit ? 3 : 4);
        given[0].octets[bit ? KEPT_LM : KEPT] = 0; /* the other hash is missing */
        try_step(bit ? 3 : 4);
    }
}

static void try_judged(void)
{
    for (size_t n = 1; n <= 256; n++) {
        give_step(2);
        give_response(1, n, n / 2);
        try_step(3);
        given[2].octets[FLAGS + 3] = 1; /* the password has expired */
        try_step(4);
        given[1].octets[29] ^= 1; /* the NT response is wrong */
        try_step(4);
        given[1].octets[53] = 0; /* the LM response counts */
        try_step(4);
        given[2].octets[FLAGS + 3] = 0;
        try_step(3);
        given[0].octets[LM_ALLOWED] = 0; /* but is not allowed */
        try_step(4);
        given[0].octets[RETRIES] = 0; /* no retry */
        try_step(4);
        given[2].octets[FOUND] = 0; /* no record */
        try_step(4);
        give_step(2);
        give_response(1, n, n / 2);
        for (unsigned count = 0; count < 256; count += n == 1 ? 1 : 51) {
            given[2].octets[FAILURES] = (uint8_t)count;
            given[0].octets[LIMIT] = (uint8_t)n;
            try_step(count < (uint8_t)n ? 3 : 4);
        }
        given[1].octets[29] ^= 1;
        try_step(4);
        give_step(2);
        give_response(1, n, n / 2);
        give_round_keys(2, (int)n % 4); /* not those of the hash: another response is right */
        try_step(4);
        mschap_record_response((mschap_record *)given[2].octets, MSCHAP_RECORD_SIZE,
                               MSCHAP_HAS_NT_HASH, challenge, sizeof challenge,
                               given[1].octets + 29, 24);
        try_step(3);
    }
    for (size_t n = 0; n <= 512; n += 2) {
        give_step(6);
        give_change(n, n);
        try_step(3);
        give_change(n, n + 1);
        try_step(4);
        give_change(n, n + 514);
        try_step(4);
        given[0].octets[KEPT] = 0; /* the kept record has no NT hash */
        try_step(4);
    }
    for (size_t n = 0; n <= 32; n++)
        try_judged_1(n);
    for (size_t n = 256; n <= 65535; n += 257)
        try_judged_1(n);
    for (int k = 0; k < 2 * DRAWN; k++) { /* with a few other bytes, and other flags */
        size_t n = draw();
        uint8_t *packet;
        give_step(k % 2 ? 2 : k % 4 ? 6 : 5);
        packet = k % 2 ? give_response(1, n + 1, draw()) : k % 4 ? give_change(2 * n, 2 * n)
            : give_change_1(n % 30, k % 8 == 0);
        for (int others = draw() % 4; others > 0; others--)
            packet[(draw() * 256u + draw()) % given[1].size] = draw();
        for (int flag = FLAGS; flag < FAILURES; flag++)
            given[2].octets[flag] = draw() % 2;
        if (k % 3 == 0)
            give_round_keys(2, draw() % 4);
        given[2].octets[FAILURES] = draw();
        given[0].octets[LIMIT] = draw();
        TRY(mschap_step, ANY);
    }
}

/* Each reply again, to packets of each size, whatever is awaited. */
static void try_repeated(void)
{
    static const uint8_t replies[][3] = {
        {0, 0, 0}, {1, 691 >> 8, 691 & 255}, {2, 691 >> 8, 691 & 255}, {1, 255, 255},
    };
    static const uint8_t awaited[] = {
        MSCHAP_AWAITS_NOTHING, MSCHAP_AWAITS_RESPONSE, MSCHAP_AWAITS_CHANGE,
        MSCHAP_AWAITS_CHANGE_1,
    };
    for (size_t r = 0; r < LENGTH(replies); r++)
        for (size_t a = 0; a < LENGTH(awaited); a++)
            for (size_t n = 4; n <= MSCHAP_CHANGE_PACKET; n++) {
                const uint8_t last[] = {1, (uint8_t)(n % 2 ? 2 : n % 4 ? 6 : 5), 7};
                give_step(awaited[a]);
                memcpy(given[0].octets + ANSWERED, last, sizeof last);
                memcpy(given[0].octets + REPLY, replies[r], sizeof replies[r]);
                give_packet(1, last[1], n);
                try_step(replies[r][0] == 0 ? 3 : 4);
            }
}

/* In an answer, behind its kind and version: whether it is a repeat, the reason in two bytes, the
   fault, and the record. */
#define FAULT 5

/* What tells something of a conversation or an answer, in the place of the first buffer. */
static void try_told(const struct buffer *value, int valid)
{
    given[0] = *value;
    give(1, MSCHAP_RECORD_SIZE);
    if (value->size == MSCHAP_ANSWER_SIZE) {
        TRY(mschap_answer_reason, valid ? ANY : MSCHAP_INVALID);
        TRY(mschap_answer_repeated, valid ? ANY : MSCHAP_INVALID);
        TRY(mschap_answer_fault, valid ? value->octets[FAULT] : MSCHAP_INVALID);
        TRY(mschap_answer_record, valid ? ANY : MSCHAP_BAD_ARGUMENT);
        return;
    }
    TRY(mschap_conversation_awaits, valid ? ANY : MSCHAP_INVALID);
    TRY(mschap_conversation_identifier, valid ? ANY : MSCHAP_INVALID);
    TRY(mschap_conversation_retries, valid ? ANY : MSCHAP_INVALID);
}

/* The answers of a judged Response and of an accepted change of either version, with each fault,
   and their conversations, before and after; and these with a byte that no value has: another
   fault, the version of another layout. */
static void try_values(void)
{
    static struct buffer values[9];
    for (int kind = 0; kind < 3; kind++) {
        static const uint8_t awaited[] = {
            MSCHAP_AWAITS_RESPONSE, MSCHAP_AWAITS_CHANGE, MSCHAP_AWAITS_CHANGE_1,
        };
        give_step(awaited[kind]);
        if (kind == 0)
            give_response(1, 8, 3);
        else if (kind == 1)
            give_change(12, 12);
        else
            give_change_1(12, 1);
        TRY(mschap_step, MSCHAP_OK);
        values[3 * kind] = passed[0];
        values[3 * kind + 1] = passed[4];
        values[3 * kind + 2] = given[0];
    }
    for (size_t v = 0; v < LENGTH(values); v++) {
        try_told(&values[v], 1);
        for (uint8_t fault = 0; fault < 12 && values[v].octets[0] == 'A'; fault++) {
            values[v].octets[FAULT] = fault;
            try_told(&values[v], fault <= MSCHAP_FAULT_HASH_WRONG);
        }
        for (uint8_t n = 0; n < 4 && values[v].octets[0] == 'C'; n++) {
            const uint8_t version = values[v].octets[CHANGE], code = values[v].octets[AWAITED];
            const int ends = code == MSCHAP_AWAITS_NOTHING || code == MSCHAP_AWAITS_RESPONSE;
            values[v].octets[CHANGE] = n; /* 1 and 2 alone, and while a change is awaited its own */
            try_told(&values[v], n == version || (ends && (n == 1 || n == 2)));
            values[v].octets[CHANGE] = version;
        }
        if (values[v].octets[0] == 'A')
            values[v].octets[FAULT] = MSCHAP_FAULT_NONE;
        values[v].octets[1] ^= 1;
        try_told(&values[v], 0);
        values[v].octets[0] = 0;
        try_told(&values[v], 0);
        values[v].size--;
        try_told(&values[v], 0);
    }
}

static void try_refused(void)
{
    for (uint16_t flags_told = 2; flags_told != 0; flags_told = (uint16_t)(flags_told << 1)) {
        give_step(5);
        give_change_1(14, 1)[70] |= (uint8_t)(flags_told >> 8);
        given[1].octets[71] |= (uint8_t)flags_told;
        TRY(mschap_step, MSCHAP_FLAGS);
    }
    given[1].octets[3] = 71;
    TRY(mschap_step, MSCHAP_SIZE);
    given[1].octets[0] = 6;
    TRY(mschap_step, MSCHAP_CODE);
    give_step(6);
    give_change_1(14, 1);
    TRY(mschap_step, MSCHAP_CODE);
    give_step(2);
    give_response(1, 256, 0)[53] = 2;
    TRY(mschap_step, MSCHAP_FLAGS);
    given[1].octets[4] = 48;
    TRY(mschap_step, MSCHAP_SIZE);
    given[1].octets[1] = 8;
    TRY(mschap_step, MSCHAP_IDENTIFIER);
    given[1].octets[0] = 3;
    TRY(mschap_step, MSCHAP_CODE);
    given[0].octets[AWAITED] = MSCHAP_AWAITS_NOTHING;
    TRY(mschap_step, MSCHAP_ENDED);
    given[1].size = 3;
    TRY(mschap_step, MSCHAP_FRAME);
    given[3].size = MSCHAP_REPLY_SIZE - 1;
    TRY(mschap_step, MSCHAP_REPLY_ROOM);
    given[2].octets[FOUND] = 2;
    TRY(mschap_step, MSCHAP_BAD_ARGUMENT);
}

static void try_names(void)
{
    for (size_t n = 1; n <= 257; n++)
        for (size_t quarters = 0; quarters <= 4; quarters++) {
            size_t at = n * quarters / 4, account = at < n ? at + 1 : 0;
            give_response(0, n, at);
            TRY(mschap_packet_length, 54 + n);
            TRY(mschap_account_offset, n > 256 ? 0 : 54 + account);
            TRY(mschap_account_length, n > 256 ? 0 : n - account);
            TRY(mschap_domain_offset, n > 256 || at == n ? 0 : 54);
            TRY(mschap_domain_length, n > 256 || at == n ? 0 : at);
        }
}

static void try_steps(void)
{
    mschap_password password;
    mschap_make_password(text, sizeof text, &password, sizeof password);
    mschap_nt_hash(&password, sizeof password, &nt, sizeof nt);
    mschap_lm_hash(text, sizeof text, &lan, sizeof lan);
    mschap_make_record(MSCHAP_FOUND | MSCHAP_HAS_NT_HASH | MSCHAP_HAS_LM_HASH, &nt, sizeof nt,
                       &lan, sizeof lan, &made, sizeof made);
    for (size_t i = 0; i < sizeof challenge; i++)
        challenge[i] = draw();
    try_judged();
    try_repeated();
    try_values();
    try_refused();
    try_names();
}

/* ---- the peer: its functions are called by what stands from here to try_peer, and nowhere else */

CALL(mschap_read_challenge, BUFFER(0), BUFFER(1))
CALL(mschap_read_reply, BUFFER(2), BUFFER(0), &call, &reason)
CALL(mschap_write_response, BUFFER(0), BUFFER(1), BUFFER(2), BUFFER(3))
CALL(mschap_write_change, BUFFER(0), BUFFER(1), BUFFER(2), BUFFER(3), BUFFER(4))
CALL(mschap_write_change_1, BUFFER(0), BUFFER(1), BUFFER(2), BUFFER(3))

/* It sent a packet with the identifier 7. */
static void give_peer(size_t i)
{
    static const uint8_t front[] = {'P', MSCHAP_PEER_LAYOUT, 1, 7};
    memcpy(give(i, MSCHAP_PEER_SIZE), front, sizeof front);
}

static void try_reply(uint8_t code, const char *data, size_t size, size_t expected)
{
    memcpy(give_packet(0, code, 4 + size) + 4, data, size);
    give_peer(2);
    TRY(mschap_read_reply, expected);
}

static void try_challenge(size_t size, size_t expected)
{
    give_packet(0, 1, 4 + size)[4] = 8;
    give(1, MSCHAP_PEER_SIZE);
    TRY(mschap_read_challenge, expected);
}

static void try_write_response(size_t password_size, size_t name_size, size_t expected)
{
    give_peer(0);
    give_drawn_password(1, password_size);
    give(2, name_size);
    give(3, MSCHAP_RESPONSE_PACKET);
    TRY(mschap_write_response, expected);
}

static void try_write_change(size_t old_size, size_t new_size, size_t room, size_t expected)
{
    give_peer(0);
    give_drawn_password(1, old_size);
    give_drawn_password(2, new_size);
    give(3, MSCHAP_FILLER_SIZE);
    give(4, room);
    TRY(mschap_write_change, expected);
}

static void try_write_change_1(size_t old_size, size_t new_size, size_t room, size_t expected)
{
    give_peer(0);
    give_drawn_password(1, old_size);
    give_drawn_password(2, new_size);
    give(3, room);
    TRY(mschap_write_change_1, expected);
}

static void try_peer(void)
{
    for (size_t n = 1; n <= 256; n++)
        try_challenge(n, n < 9 ? MSCHAP_READING : MSCHAP_OK);
    for (size_t n = 0; n <= 256; n++) {
        try_write_response(2 * n, n, n == 0 ? MSCHAP_NAME : MSCHAP_OK);
        given[3].size = 53;
        TRY(mschap_write_response, n == 0 ? MSCHAP_NAME : MSCHAP_ROOM);
        given[1].octets[1] = 0; /* no value */
        TRY(mschap_write_response, MSCHAP_BAD_ARGUMENT);
        try_write_change(2 * n, 512 - 2 * n, MSCHAP_CHANGE_PACKET, MSCHAP_OK);
        try_write_change(512, 2 * n, MSCHAP_CHANGE_PACKET - 1, MSCHAP_ROOM);
        given[2].octets[1] = 0;
        TRY(mschap_write_change, MSCHAP_BAD_ARGUMENT);
        try_write_change_1(2 * n, 512 - 2 * n, MSCHAP_CHANGE_1_PACKET, MSCHAP_OK);
        try_write_change_1(512, 2 * n, MSCHAP_CHANGE_1_PACKET - 1, MSCHAP_ROOM);
        given[2].octets[1] = 0;
        TRY(mschap_write_change_1, MSCHAP_BAD_ARGUMENT);
    }
    for (size_t n = 1; n < 512; n += 2) { /* an odd number of bytes, which no password has */
        try_write_response(n, 256, MSCHAP_BAD_ARGUMENT);
        try_write_change(n, 512, MSCHAP_CHANGE_PACKET, MSCHAP_BAD_ARGUMENT);
        try_write_change(512, n, MSCHAP_CHANGE_PACKET, MSCHAP_BAD_ARGUMENT);
        try_write_change_1(n, 512, MSCHAP_CHANGE_1_PACKET, MSCHAP_BAD_ARGUMENT);
        try_write_change_1(512, n, MSCHAP_CHANGE_1_PACKET, MSCHAP_BAD_ARGUMENT);
    }
}

/* ---- the messages of a Failure */

#define MESSAGE 256 /* bytes, the most that are read */

static size_t add(char *message, size_t n, const char *word)
{
    memcpy(message + n, word, strlen(word));
    return n + strlen(word);
}

/* The four fields in an order, with as much text before one of them, or behind all, as there is
   room for: copies of a piece. */
static void try_fields(const int *order, int place, const char *piece)
{
    static const char *const fields[] = {"E=9999999999 ", "R=1 ", "V=9999999999 ",
                                         "C=0123456789abcdef "};
    char message[MESSAGE];
    size_t n = 0, text = MESSAGE;
    for (int k = 0; k < 4; k++)
        text -= strlen(fields[k]);
    for (int k = 0; k < 5; k++) {
        if (k == place) {
            for (size_t i = 0; i + 1 < text; i++)
                message[n++] = piece[i % strlen(piece)];
            message[n++] = ' ';
        }
        if (k < 4)
            n = add(message, n, fields[order[k]]);
    }
    try_reply(4, message, n, MSCHAP_OK);
}

static void try_messages(void)
{
    /* text: none of these has a field E, wherever it is cut */
    static const char *const pieces[] = {
        " ", "x", "E", "=", "E=", "E= ", "E=a ", "x ", "R= ", "R=2 ", "V=1x", "C=0 ", "C=0g",
        "R=1 ", "V=1 ", "\xff", "R=1 V=1 C=0123456789abcdef ",
    };
    static const char *const words[] = {
        "E=691", "R=1", "V=2", "C=0123456789ABCDEF", "C=0123456789ABCDEG", "E=", "R=2", "V=",
        "C=01", "E=1x", "x", "", "=", "E",
    };
    char message[MESSAGE + 1];
    for (size_t p = 0; p < LENGTH(pieces); p++) {
        for (int order = 0; order < 256; order++) {
            int o[] = {order & 3, order >> 2 & 3, order >> 4 & 3, order >> 6};
            if ((1 << o[0] | 1 << o[1] | 1 << o[2] | 1 << o[3]) == 15)
                for (int place = 0; place < 5; place++)
                    try_fields(o, place, pieces[p]);
        }
        for (size_t n = 0; n <= MESSAGE + 1; n++) {
            for (size_t i = 0; i < n; i++)
                message[i] = pieces[p][i % strlen(pieces[p])];
            try_reply(4, message, n, MSCHAP_READING);
        }
    }
    for (int k = 0; k < DRAWN; k++) {
        size_t n = 0;
        const char *word = "";
        while (n + strlen(word) < MESSAGE) {
            n = add(message, n, word);
            message[n++] = ' ';
            word = words[draw() % LENGTH(words)];
        }
        try_reply(4, message, n, ANY);
        for (n = 0; n < MESSAGE; n++)
            message[n] = k % 2 ? (char)draw() : " =ERVC019af"[draw() % 11];
        try_reply(4, message, n, ANY);
    }
    try_reply(3, "", 0, MSCHAP_OK);
    try_reply(1, "", 0, MSCHAP_READING);
}

static void *try_all(void *unused)
{
    drawn = 2433;
    try_ciphers();
    try_passwords();
    try_records();
    try_accounts();
    try_openings();
    try_steps();
    try_peer();
    try_messages();
    return unused;
}

int main(void)
{
    pthread_attr_t smallest;
    pthread_t thread;

    make = measure;
    try_all(NULL);
    for (size_t i = 0; i < count; i++)
        printf("%s %zu\n", all[i]->name, all[i]->most);
    fflush(stdout);

    /* below it a page that nobody may touch */
    provided = mmap(NULL, PAGE + MSCHAP_STACK_SIZE, PROT_READ | PROT_WRITE,
                    MAP_PRIVATE | MAP_ANONYMOUS, -1, 0);
    if (provided == MAP_FAILED || mprotect(provided, PAGE, PROT_NONE)) {
        printf("stack: no memory for a stack\n");
        return 1;
    }
    provided += PAGE;
    make = call_on_provided;
    try_all(NULL);

    make = call_here;
    pthread_attr_init(&smallest);
    if (pthread_attr_setstacksize(&smallest, PTHREAD_STACK_MIN)
        || pthread_create(&thread, &smallest, try_all, NULL)) {
        printf("stack: no thread with a stack of %ld octets\n", (long)PTHREAD_STACK_MIN);
        return 1;
    }
    pthread_join(thread, NULL);
    return wrong;
}
