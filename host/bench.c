/*
 * How long the library takes, next to OpenSSL's libcrypto where its headers are installed
 * (HAVE_OPENSSL): medians of interleaved batches. Exit status 1 where the two do not give the same
 * bytes, or a call is not answered as it should be. tests/bench.sh compiles and runs it.
 *
 *     bench FILE [WHAT COMMAND EMPTY] ..
 *
 * FILE is where an account file is written, which COMMAND counts as the library does, and prints
 * the five numbers in a line. EMPTY is the command of a program that does nothing: its time is
 * taken off.
 */
#define _XOPEN_SOURCE 700 /* clock_gettime and popen, which C11 alone hides */

#include <mschap.h>
#include <stdio.h>
#include <stdlib.h>
#include <string.h>
#include <time.h>

#ifdef HAVE_OPENSSL
#include <openssl/crypto.h>
#include <openssl/des.h>
#include <openssl/md4.h>
#include <openssl/rc4.h>
#endif

#define ROUNDS 201
/* well under the slice of a scheduler: few batches are broken into; the median leaves them out */
#define BATCH_NS 2.5e5
#define CHAINED 100 /* calls in a row for the comparison of bytes */
#define LONGEST 4096
#define STREAM 516
#define PASSWORD 20
#define RETRIES 2 /* of an opening */
#define SPENT (RETRIES + 1) /* the challenges that it spends */
#define MOST_FAILURES 10 /* its limit */
#define HALF (MSCHAP_LIST_PLACES / 2)
#define NEARLY (MSCHAP_LIST_PLACES - SPENT) /* used places that leave room for one opening */
#define FEW 8
#define MESSAGE 256 /* bytes, the longest that is read */
#define ACCOUNTS 10000 /* in the account file */
#define LINE_MOST 128 /* bytes of a line, at least */
#define PRESENT 1794795342u /* the time that the accounts are looked up at */
#define MAX_AGE (90 * 24 * 3600)
#define RUNS 9 /* of what is compared over the account file */
#define RUN_NS 2e7
#define COMMANDS 4 /* at most */

/* Where the layouts have what follows from call to call: to set it there takes no time that a
   caller would not take. */
#define IDENTIFIER 6 /* in a conversation */
#define USED 2       /* in a list: two bytes, the most significant first */
#define PLACES 4     /* in a list */
#define SENT 2       /* in a peer: whether a packet was sent, and its identifier */
#define CHARACTERS 4 /* in a password */
#define LAST_KEYS (42 + 46 * 8) /* in a record: the last two round keys of the NT hash */

/* What a batch works on. Every call takes its input from the output of the call before: so none can
   be dropped, no two can overlap, and one wrong byte shows in all that follows. */
struct work {
    uint8_t octets[LONGEST];
    uint8_t key[16];
    uint8_t challenge[8];
    uint32_t wrong; /* not 0 once an answer was not the expected one */
};

/* A packet to be judged, with the conversation that awaits it. */
struct judged {
    mschap_conversation conversation;
    uint8_t packet[MSCHAP_CHANGE_PACKET];
    size_t size;
    mschap_record record;
    uint8_t code; /* of the reply that is expected */
    uint8_t reply[MSCHAP_REPLY_SIZE];
    mschap_answer answer;
};

static struct judged response, wrong_response, unknown, locked, change, change_1, change_both;
/* A packet that is a repeat, and one that is refused. */
static struct judged repeat, refused;

/* An opening, with the list that is passed to it. */
struct opening {
    uint8_t challenge[MSCHAP_CHALLENGE_SIZE];
    uint8_t list[MSCHAP_LIST_SIZE(MSCHAP_LIST_PLACES)];
    size_t places; /* how many of them are passed */
    size_t used;
    uint32_t answer; /* the one that is expected */
    mschap_conversation conversation;
    uint8_t reply[MSCHAP_REPLY_SIZE];
};

static struct opening empty, half, nearly, full, alike, few;

/* A record whose NT hash is the key of the work that begins: it keeps the round keys of it. */
static mschap_record kept;

typedef void batch(struct work *w, long calls);

/* The challenge of the next call by kept schedules, of all three blocks of this one's response. */
static void next_challenge(struct work *w, const uint8_t *out)
{
    uint64_t block[3];
    memcpy(block, out, sizeof block);
    block[0] ^= block[1] ^ block[2];
    memcpy(w->challenge, block, sizeof w->challenge);
}

/* ---- ours */

static void our_md4(struct work *w, long calls)
{
    mschap_digest digest;
    while (calls-- > 0) {
        w->wrong |= mschap_md4(w->octets, LONGEST, &digest, sizeof digest);
        memcpy(w->octets, &digest, sizeof digest);
    }
}

static void our_des(struct work *w, long calls)
{
    while (calls-- > 0) {
        w->wrong |= mschap_des_encrypt(w->key, 7, w->challenge, 8);
        memcpy(w->key, w->challenge + 1, 7);
    }
}

static void our_rc4(struct work *w, long calls)
{
    mschap_rc4_key key;
    memcpy(&key, w->key, sizeof w->key);
    while (calls-- > 0) {
        w->wrong |= mschap_rc4(&key, sizeof w->key, w->octets, STREAM);
        memcpy(&key, w->octets, sizeof w->key);
    }
    memcpy(w->key, &key, sizeof w->key);
}

static void our_answer(struct work *w, long calls)
{
    uint8_t out[24];
    while (calls-- > 0) {
        w->wrong |= mschap_challenge_response(w->key, sizeof w->key, w->challenge, 8, out,
                                              sizeof out);
        memcpy(w->key, out, 16);
        memcpy(w->challenge, out + 16, 8);
    }
}

static void our_kept(struct work *w, long calls)
{
    uint8_t out[24];
    while (calls-- > 0) {
        w->wrong |= mschap_record_response(&kept, sizeof kept, MSCHAP_HAS_NT_HASH,
                                           w->challenge, 8, out, sizeof out);
        next_challenge(w, out);
    }
}

/* The round keys of a hash, made into a record; the next hash is from the third schedule. */
static void our_record(struct work *w, long calls)
{
    mschap_nthash hash;
    mschap_record record;
    memcpy(&hash, w->key, sizeof hash);
    while (calls-- > 0) {
        w->wrong |= mschap_make_record(MSCHAP_FOUND | MSCHAP_HAS_NT_HASH, &hash, sizeof hash,
                                       NULL, 0, &record, sizeof record);
        memcpy(&hash, record.bytes + LAST_KEYS, sizeof hash);
    }
    memcpy(w->key, &hash, sizeof hash);
}

static void our_hash_and_answer(struct work *w, long calls)
{
    mschap_password password;
    mschap_nthash hash;
    uint8_t out[24];
    w->wrong |= mschap_make_password_utf16(w->octets, PASSWORD, &password, sizeof password);
    while (calls-- > 0) {
        w->wrong |= mschap_nt_hash(&password, sizeof password, &hash, sizeof hash);
        w->wrong |= mschap_challenge_response(hash.bytes, sizeof hash, w->challenge, 8, out,
                                              sizeof out);
        memcpy(password.bytes + CHARACTERS, out, 16);
        memcpy(w->challenge, out + 16, 8);
    }
    memcpy(w->octets, password.bytes + CHARACTERS, 16);
}

/* A judged packet ends or changes its conversation, so each call starts from a copy. The identifier
   is the reply's plus 1: it is the one part of the input that may follow the output while the
   verdict stays the same. */
static void judge(struct judged *j, struct work *w, long calls)
{
    mschap_conversation conversation;
    while (calls-- > 0) {
        conversation = j->conversation;
        conversation.bytes[IDENTIFIER] = j->packet[1] = (uint8_t)(j->reply[1] + 1);
        w->wrong |= mschap_step(&conversation, sizeof conversation, j->packet, j->size,
                                &j->record, sizeof j->record, j->reply, sizeof j->reply,
                                &j->answer, sizeof j->answer);
        w->wrong |= j->reply[0] != j->code;
    }
}

static void our_response(struct work *w, long calls)
{
    judge(&response, w, calls);
}

static void our_wrong_response(struct work *w, long calls)
{
    judge(&wrong_response, w, calls);
}

static void our_unknown(struct work *w, long calls)
{
    judge(&unknown, w, calls);
}

static void our_locked(struct work *w, long calls)
{
    judge(&locked, w, calls);
}

static void our_change(struct work *w, long calls)
{
    judge(&change, w, calls);
}

static void our_change_1(struct work *w, long calls)
{
    judge(&change_1, w, calls);
}

static void our_change_both(struct work *w, long calls)
{
    judge(&change_both, w, calls);
}

/* Neither changes its conversation. The size in the packet, by which neither is judged, follows
   from the call before. */
static void answer_again(struct judged *j, struct work *w, long calls, uint32_t answer)
{
    while (calls-- > 0) {
        j->packet[4] = j->reply[1];
        w->wrong |= mschap_step(&j->conversation, sizeof j->conversation, j->packet, j->size,
                                &j->record, sizeof j->record, j->reply, sizeof j->reply,
                                &j->answer, sizeof j->answer) != answer;
        w->wrong |= j->reply[0] != j->code;
    }
}

static void our_repeat(struct work *w, long calls)
{
    answer_again(&repeat, w, calls, MSCHAP_OK);
}

static void our_refused(struct work *w, long calls)
{
    answer_again(&refused, w, calls, MSCHAP_IDENTIFIER);
}

static void set_used(uint8_t *list, size_t used)
{
    list[USED] = (uint8_t)(used >> 8);
    list[USED + 1] = (uint8_t)used;
}

/* Every call finds as many used places as the first: what an accepted opening adds is taken back.
   Its identifier follows from the call before. */
static void open_again(struct opening *o, struct work *w, long calls)
{
    uint32_t answer = 0;
    while (calls-- > 0) {
        size_t used;
        answer = mschap_open((uint8_t)(o->reply[1] + 1 + answer),
                             MSCHAP_TERMS | MSCHAP_LIMIT(MOST_FAILURES) | MSCHAP_RETRIES(RETRIES)
                                 | MSCHAP_LM_ALLOWED,
                             o->challenge, sizeof o->challenge,
                             o->list, MSCHAP_LIST_SIZE(o->places),
                             &o->conversation, sizeof o->conversation, o->reply, sizeof o->reply);
        used = (size_t)o->list[USED] * 256 + o->list[USED + 1];
        w->wrong |= answer != o->answer;
        w->wrong |= used != o->used + (answer == MSCHAP_OK ? SPENT : 0);
        set_used(o->list, o->used);
    }
}

static void open_empty(struct work *w, long calls)
{
    open_again(&empty, w, calls);
}

static void open_half(struct work *w, long calls)
{
    open_again(&half, w, calls);
}

static void open_nearly(struct work *w, long calls)
{
    open_again(&nearly, w, calls);
}

static void open_full(struct work *w, long calls)
{
    open_again(&full, w, calls);
}

static void open_alike(struct work *w, long calls)
{
    open_again(&alike, w, calls);
}

static void open_few(struct work *w, long calls)
{
    open_again(&few, w, calls);
}

/* A Failure with the message of our authenticator and, up to the most that is read, other words.
   Its identifier follows from the field E that was read before. */
static void read_failure(struct work *w, long calls)
{
    static uint8_t packet[4 + MESSAGE] = {4, 7, (4 + MESSAGE) >> 8, (4 + MESSAGE) & 255};
    mschap_peer peer = {{'P', MSCHAP_PEER_LAYOUT, 1}};
    uint32_t call;
    uint64_t reason = 0;
    for (size_t i = 0; i < MESSAGE; i++)
        packet[4 + i] = (uint8_t)"words "[i % 6];
    memcpy(packet + 4, "E=691 R=1 V=2 ", 14);
    while (calls-- > 0) {
        peer.bytes[SENT + 1] = packet[1];
        w->wrong |= mschap_read_reply(&peer, sizeof peer, packet, sizeof packet, &call, &reason);
        w->wrong |= reason >> 8 != 691 >> 8;
        packet[1] = (uint8_t)(packet[1] + reason);
    }
}

/* A text as people type it, with a letter of two bytes and a character of four; its first letter
   follows from the password before. */
static void make_password(struct work *w, long calls)
{
    uint8_t text[] = {'c', 'l', 'i', 'e', 'n', 't', 0xc3, 0xa4, 0xf0, 0x9f, 0x94, 0x91, 's'};
    mschap_password password;
    while (calls-- > 0) {
        w->wrong |= mschap_make_password(text, sizeof text, &password, sizeof password);
        w->wrong |= password.bytes[CHARACTERS] != text[0];
        text[0] = (uint8_t)('a' + password.bytes[CHARACTERS] % 20);
    }
}

/* ---- OpenSSL's */

#ifdef HAVE_OPENSSL

static void their_md4(struct work *w, long calls)
{
    uint8_t digest[16];
    while (calls-- > 0) {
        MD4(w->octets, LONGEST, digest);
        memcpy(w->octets, digest, sizeof digest);
    }
}

/* libcrypto takes a key of 8 bytes, with a parity bit in each that it ignores: spreading the 7 is
   part of what a caller pays. */
static void their_schedule(const uint8_t *key, DES_key_schedule *schedule)
{
    DES_cblock spread;
    spread[0] = key[0];
    for (int i = 1; i < 7; i++)
        spread[i] = (uint8_t)(key[i - 1] << (8 - i) | key[i] >> i);
    spread[7] = (uint8_t)(key[6] << 1);
    DES_set_key_unchecked(&spread, schedule);
}

static void their_block(const uint8_t *key, uint8_t *block, uint8_t *out)
{
    DES_key_schedule schedule;
    their_schedule(key, &schedule);
    DES_ecb_encrypt((const_DES_cblock *)block, (DES_cblock *)out, &schedule, DES_ENCRYPT);
}

static void their_des(struct work *w, long calls)
{
    uint8_t out[8];
    while (calls-- > 0) {
        their_block(w->key, w->challenge, out);
        memcpy(w->key, out + 1, 7);
        memcpy(w->challenge, out, 8);
    }
}

static void their_rc4(struct work *w, long calls)
{
    RC4_KEY stream;
    while (calls-- > 0) {
        RC4_set_key(&stream, sizeof w->key, w->key);
        RC4(&stream, STREAM, w->octets, w->octets);
        memcpy(w->key, w->octets, sizeof w->key);
    }
}

static void their_three(const uint8_t *hash, uint8_t *challenge, uint8_t *out)
{
    uint8_t keys[21] = {0};
    memcpy(keys, hash, 16);
    for (int i = 0; i < 3; i++)
        their_block(keys + 7 * i, challenge, out + 8 * i);
}

/* The same with its schedules kept: made once, of the key of the work that begins. */
static DES_key_schedule their_schedules[3];

static void their_kept(struct work *w, long calls)
{
    uint8_t out[24];
    while (calls-- > 0) {
        for (int i = 0; i < 3; i++)
            DES_ecb_encrypt(&w->challenge, (DES_cblock *)(out + 8 * i), &their_schedules[i],
                            DES_ENCRYPT);
        next_challenge(w, out);
    }
}

static void their_answer(struct work *w, long calls)
{
    uint8_t out[24];
    while (calls-- > 0) {
        their_three(w->key, w->challenge, out);
        memcpy(w->key, out, 16);
        memcpy(w->challenge, out + 16, 8);
    }
}

static void their_hash_and_answer(struct work *w, long calls)
{
    uint8_t hash[16], out[24];
    while (calls-- > 0) {
        MD4(w->octets, PASSWORD, hash);
        their_three(hash, w->challenge, out);
        memcpy(w->octets, out, 16);
        memcpy(w->challenge, out + 16, 8);
    }
}

#define THEIRS(function) function
#else
#define THEIRS(function) NULL
#endif

/* ---- what is measured */

#define OURS 0
#define OPENSSL 1

static struct line {
    const char *what;
    batch *run[2]; /* NULL where OpenSSL has no such thing */
    long calls[2];
    double ns[2][ROUNDS];
} lines[] = {
    {.what = "MD4 of 4,096 octets", .run = {our_md4, THEIRS(their_md4)}},
    {.what = "DES block, fresh key", .run = {our_des, THEIRS(their_des)}},
    {.what = "RC4 key and 516 octets", .run = {our_rc4, THEIRS(their_rc4)}},
    {.what = "challenge response", .run = {our_answer, THEIRS(their_answer)}},
    {.what = "NT hash, challenge response", .run = {our_hash_and_answer,
                                                    THEIRS(their_hash_and_answer)}},
    {.what = "response by kept schedules", .run = {our_kept, THEIRS(their_kept)}},
    {.what = "judged Response", .run = {our_response, NULL}},
    {.what = "judged Response, wrong", .run = {our_wrong_response, NULL}},
    {.what = "judged Response, no record", .run = {our_unknown, NULL}},
    {.what = "judged Response, locked", .run = {our_locked, NULL}},
    {.what = "judged change", .run = {our_change, NULL}},
    {.what = "judged version 1 change", .run = {our_change_1, NULL}},
    {.what = "the same with an LM hash", .run = {our_change_both, NULL}},
    {.what = "repeated Response", .run = {our_repeat, NULL}},
    {.what = "refused Response", .run = {our_refused, NULL}},
    {.what = "opening, none used", .run = {open_empty, NULL}},
    {.what = "opening, 2,048 used", .run = {open_half, NULL}},
    {.what = "opening, 4,093 used", .run = {open_nearly, NULL}},
    {.what = "opening, full: refused", .run = {open_full, NULL}},
    {.what = "opening, 4,093, all end alike", .run = {open_alike, NULL}},
    {.what = "opening, none of 8 used", .run = {open_few, NULL}},
    {.what = "message of 256 octets, read", .run = {read_failure, NULL}},
    {.what = "password of 13 octets UTF-8", .run = {make_password, NULL}},
    {.what = "record of an NT hash", .run = {our_record, NULL}},
};

#define LINES (sizeof lines / sizeof lines[0])
#define ANSWER 3
#define HASH_AND_ANSWER 4
#define KEPT 5
#define RESPONSE 6
#define OPEN_EMPTY 15
#define OPEN_NEARLY 17
#define OPEN_ALIKE 19
#define OPEN_FEW 20
/* What is aimed at: the response by kept schedules over OpenSSL's with its own kept, and a judged
   Response over OpenSSL's challenge response, which makes three schedules. */
#define KEPT_AIM 0.75
#define RESPONSE_AIM 0.5

static void begin(struct work *w)
{
    uint32_t x = 2433;
    memset(w, 0, sizeof *w);
    for (size_t i = 0; i < LONGEST; i++) {
        x = x * 1664525 + 1013904223;
        w->octets[i] = (uint8_t)(x >> 24);
    }
    memcpy(w->key, w->octets + 1000, sizeof w->key);
    memcpy(w->challenge, w->octets + 2000, sizeof w->challenge);
}

static double now_ns(void)
{
    struct timespec t;
    clock_gettime(CLOCK_MONOTONIC, &t);
    return (double)t.tv_sec * 1e9 + (double)t.tv_nsec;
}

static double timed(batch *run, struct work *w, long calls)
{
    double start = now_ns();
    run(w, calls);
    return now_ns() - start;
}

/* Calls that make a batch of about BATCH_NS; finding them warms the caches as well. */
static long sized(batch *run, struct work *w)
{
    long calls = 1;
    double ns;
    while ((ns = timed(run, w, calls)) < BATCH_NS / 2)
        calls *= 2;
    calls = (long)((double)calls * BATCH_NS / ns);
    return calls > 0 ? calls : 1;
}

static int ascending(const void *a, const void *b)
{
    double x = *(const double *)a, y = *(const double *)b;
    return (x > y) - (x < y);
}

static double median(double *ns)
{
    qsort(ns, ROUNDS, sizeof *ns, ascending);
    return ns[ROUNDS / 2];
}

/* The same up to a version 1 change, in a conversation that is opened for it, from the record that
   has expired; and to one that gives an LM hash too, since the length that it tells is 14. */
static uint32_t prepare_change_1(const struct work *w, const mschap_password *password,
                                 const mschap_new_password *next)
{
    static const uint8_t name[] = {'U', 's', 'e', 'r'};
    static uint8_t list[MSCHAP_LIST_SIZE(SPENT)];
    uint8_t answered[MSCHAP_RESPONSE_PACKET];
    mschap_peer peer;
    uint32_t wrong = 0, call;
    uint64_t reason;
    change_1 = change;
    wrong |= mschap_make_list(list, sizeof list);
    wrong |= mschap_open(7, MSCHAP_TERMS | MSCHAP_LIMIT(MOST_FAILURES) | MSCHAP_RETRIES(RETRIES)
                                | MSCHAP_LM_REFUSED | MSCHAP_CHANGE_1,
                         w->challenge, 8, list, sizeof list,
                         &change_1.conversation, sizeof change_1.conversation,
                         change_1.reply, sizeof change_1.reply);
    wrong |= mschap_read_challenge(change_1.reply, sizeof change_1.reply, &peer, sizeof peer);
    wrong |= mschap_write_response(&peer, sizeof peer, password, sizeof *password,
                                   name, sizeof name, answered, sizeof answered);
    wrong |= mschap_step(&change_1.conversation, sizeof change_1.conversation,
                         answered, mschap_packet_length(answered, sizeof answered),
                         &change_1.record, sizeof change_1.record, change_1.reply,
                         sizeof change_1.reply, &change_1.answer, sizeof change_1.answer);
    wrong |= mschap_conversation_awaits(&change_1.conversation, sizeof change_1.conversation)
             != MSCHAP_AWAITS_CHANGE_1;
    wrong |= mschap_read_reply(&peer, sizeof peer, change_1.reply, sizeof change_1.reply, &call,
                               &reason);
    wrong |= call != MSCHAP_CALL_CHANGE_1;
    wrong |= mschap_write_change_1(&peer, sizeof peer, password, sizeof *password,
                                   next, sizeof *next, change_1.packet, sizeof change_1.packet);
    change_1.size = MSCHAP_CHANGE_1_PACKET;
    change_both = change_1;
    change_both.packet[68] = 0;
    change_both.packet[69] = 14;
    return wrong;
}

/* A conversation up to each of the packets, by the library's own peer. Returns 0 where all could be
   made. */
static uint32_t prepare(const struct work *w)
{
    static const uint8_t text[] = "clientPass", renewed[] = "newer";
    static const uint8_t name[] = {'D', 'O', 'M', '\\', 'U', 's', 'e', 'r'};
    static uint8_t list[MSCHAP_LIST_SIZE(SPENT)];
    const uint32_t flags = MSCHAP_FOUND | MSCHAP_HAS_NT_HASH;
    mschap_password password;
    mschap_new_password next;
    mschap_nthash hash;
    mschap_peer peer;
    uint32_t wrong = 0, call;
    uint64_t reason;

    wrong |= mschap_make_password(text, sizeof text - 1, &password, sizeof password);
    wrong |= mschap_make_password(renewed, sizeof renewed - 1,
                                  &next.password, sizeof next.password);
    wrong |= mschap_nt_hash(&password, sizeof password, &hash, sizeof hash);
    wrong |= mschap_make_record(flags, &hash, sizeof hash, NULL, 0, &response.record,
                                sizeof response.record);
    wrong |= mschap_make_list(list, sizeof list);
    wrong |= mschap_open(7, MSCHAP_TERMS | MSCHAP_LIMIT(MOST_FAILURES) | MSCHAP_RETRIES(RETRIES)
                                | MSCHAP_LM_REFUSED,
                         w->challenge, 8, list, sizeof list,
                         &response.conversation, sizeof response.conversation,
                         response.reply, sizeof response.reply);
    wrong |= mschap_read_challenge(response.reply, sizeof response.reply, &peer, sizeof peer);
    wrong |= mschap_write_response(&peer, sizeof peer, &password, sizeof password,
                                   name, sizeof name, response.packet, sizeof response.packet);
    response.size = mschap_packet_length(response.packet, sizeof response.packet);
    response.code = 3;

    /* the same with a wrong NT response, with no record, and the right one for a locked account */
    wrong_response = response;
    wrong_response.packet[29] ^= 1;
    wrong_response.code = 4;
    unknown = response;
    wrong |= mschap_make_record(0, NULL, 0, NULL, 0, &unknown.record, sizeof unknown.record);
    unknown.code = 4;
    locked = response;
    wrong |= mschap_set_failures(&locked.record, sizeof locked.record, MOST_FAILURES);
    locked.code = 4;

    /* the same once it was answered, and under another identifier than the awaited one */
    repeat = response;
    wrong |= mschap_step(&repeat.conversation, sizeof repeat.conversation,
                         repeat.packet, repeat.size, &repeat.record, sizeof repeat.record,
                         repeat.reply, sizeof repeat.reply, &repeat.answer, sizeof repeat.answer);
    refused = response;
    refused.packet[1]++;
    refused.code = refused.reply[0];

    /* the same Response where the password has expired: then a change is awaited */
    change = response;
    wrong |= mschap_make_record(flags | MSCHAP_EXPIRED, &hash, sizeof hash, NULL, 0,
                                &change.record, sizeof change.record);
    wrong |= mschap_step(&change.conversation, sizeof change.conversation,
                         response.packet, response.size, &change.record, sizeof change.record,
                         change.reply, sizeof change.reply, &change.answer, sizeof change.answer);
    wrong |= mschap_conversation_awaits(&change.conversation, sizeof change.conversation)
             != MSCHAP_AWAITS_CHANGE;
    wrong |= mschap_read_reply(&peer, sizeof peer, change.reply, sizeof change.reply, &call,
                               &reason);
    wrong |= call != MSCHAP_CALL_CHANGE;
    wrong |= mschap_write_change(&peer, sizeof peer, &password, sizeof password, &next, sizeof next,
                                 w->octets, MSCHAP_FILLER_SIZE,
                                 change.packet, sizeof change.packet);
    change.size = sizeof change.packet;
    return wrong | prepare_change_1(w, &password, &next);
}

/* The schedules that are kept, of both sides. Returns 0 where ours could be made. */
static uint32_t keep_schedules(const struct work *w)
{
    mschap_nthash hash;
    memcpy(&hash, w->key, sizeof hash);
#ifdef HAVE_OPENSSL
    uint8_t keys[21] = {0};
    memcpy(keys, w->key, 16);
    for (int i = 0; i < 3; i++)
        their_schedule(keys + 7 * i, &their_schedules[i]);
#endif
    return mschap_make_record(MSCHAP_FOUND | MSCHAP_HAS_NT_HASH, &hash, sizeof hash, NULL, 0,
                              &kept, sizeof kept);
}

/* A list with that many places, of which the first are used: by drawn bytes, or by drawn bytes that
   all end as the challenge does. */
static void fill(struct opening *o, const struct work *w, size_t places, size_t used, int one_end,
                 uint32_t answer)
{
    uint32_t x = 1994; /* not as in begin, where the challenge is from */
    memcpy(o->challenge, w->challenge, sizeof o->challenge);
    for (size_t i = 0; i < sizeof o->list - PLACES; i++) {
        x = x * 1664525 + 1013904223;
        o->list[PLACES + i] = one_end && i % 8 == 7 ? o->challenge[7] : (uint8_t)(x >> 24);
    }
    o->places = places;
    o->used = used;
    mschap_make_list(o->list, MSCHAP_LIST_SIZE(places));
    set_used(o->list, used);
    o->answer = answer;
}

/* ---- the account file */

static uint8_t file[ACCOUNTS * LINE_MOST];
static size_t file_size, last_line;
static char last_name[16];
/* lines, bad ones, disabled, expired, with no NT hash: as the file was made */
static uint64_t made[5];

static uint32_t draw_below(uint32_t limit)
{
    static uint32_t drawn = 5;
    drawn = drawn * 1664525 + 1013904223;
    return (uint32_t)((uint64_t)drawn * limit >> 32);
}

/* Lines as Samba writes them: names of 3 to 12 letters, no two the same, and no LM hash. One in 50
   has no NT hash either, one in 20 is disabled, one in 10 never expires, and half of the passwords
   are too old. */
static void make_file(void)
{
    for (uint32_t i = 0; i < ACCOUNTS; i++) {
        char name[16], nt[33] = "XXXXXXXXXXXXXXXXXXXXXXXXXXXXXXXX", flags[12] = "U          ";
        uint32_t size = draw_below(10), age = draw_below(2 * MAX_AGE);
        int has_nt = draw_below(50) > 0, disabled = draw_below(20) == 0;
        int never = draw_below(10) == 0;
        for (uint32_t k = 0; k < size; k++)
            name[k] = (char)('a' + draw_below(26));
        sprintf(name + size, "%c%c%c", (char)('a' + i / 676), (char)('a' + i / 26 % 26),
                (char)('a' + i % 26));
        for (int k = 0; k < 32 && has_nt; k++)
            nt[k] = "0123456789ABCDEF"[draw_below(16)];
        if (disabled)
            memcpy(flags, "DU", 2);
        if (never)
            flags[2] = 'X';
        strcpy(last_name, name);
        last_line = file_size;
        file_size += (size_t)sprintf((char *)file + file_size,
                                     "%s:%u:XXXXXXXXXXXXXXXXXXXXXXXXXXXXXXXX:%s:[%s]:LCT-%08X:\n",
                                     name, 1000 + i, nt, flags, PRESENT - age);
        made[0]++;
        made[2] += disabled;
        made[3] += !never && age > MAX_AGE;
        made[4] += !has_nt;
    }
}

/* The time follows from the call before, and changes no answer. */
static void look_up(const char *name, size_t at, uint32_t found, struct work *w, long calls)
{
    mschap_record record;
    mschap_nthash nt;
    mschap_lmhash lm;
    size_t offset = 0;
    uint32_t flags = 0;
    while (calls-- > 0) {
        w->wrong |= mschap_find_account(file, file_size, (const uint8_t *)name, strlen(name),
                                        PRESENT + (offset == 1), MAX_AGE,
                                        &record, sizeof record, &offset);
        w->wrong |= mschap_read_record(&record, sizeof record, &flags, &nt, sizeof nt,
                                       &lm, sizeof lm);
        w->wrong |= offset != at || (flags & MSCHAP_FOUND) != found;
    }
}

static void find_last(struct work *w, long calls)
{
    look_up(last_name, last_line, MSCHAP_FOUND, w, calls);
}

static void find_none(struct work *w, long calls)
{
    look_up("nobody77", 0, 0, w, calls);
}

static void count_all(struct work *w, long calls)
{
    uint64_t lines = 0, bad, disabled, expired, no_nt;
    while (calls-- > 0) {
        w->wrong |= mschap_count_accounts(file, file_size, PRESENT + (lines == 1), MAX_AGE,
                                          &lines, &bad, &disabled, &expired, &no_nt);
        w->wrong |= lines != made[0] || bad != made[1] || disabled != made[2]
                    || expired != made[3] || no_nt != made[4];
    }
}

static const struct { const char *what; batch *run; } passes[] = {
    {"find_account, the last name", find_last},
    {"find_account, no such name", find_none},
    {"count_accounts", count_all},
};

#define PASSES (sizeof passes / sizeof passes[0])

/* The time of a command, from its start to its end, and whether it prints the counts. */
static double command_ns(const char *command, int counts, uint32_t *wrong)
{
    char printed[128] = "", expected[128] = "";
    double start = now_ns(), ns;
    FILE *from = popen(command, "r");
    if (from == NULL) {
        *wrong = 1;
        return 0;
    }
    printed[fread(printed, 1, sizeof printed - 1, from)] = '\0';
    *wrong |= pclose(from) != 0;
    ns = now_ns() - start;
    if (counts)
        sprintf(expected, "%u %u %u %u %u\n", (unsigned)made[0], (unsigned)made[1],
                (unsigned)made[2], (unsigned)made[3], (unsigned)made[4]);
    *wrong |= strcmp(printed, expected) != 0;
    return ns;
}

static double an_octet(double *ns)
{
    qsort(ns, RUNS, sizeof *ns, ascending);
    return ns[RUNS / 2] / (double)file_size;
}

/* Runs of ours and of the commands, in turn. Returns 0 where all is as it should be. */
static uint32_t over_the_file(const char *path, char **commands, int count)
{
    static double ours[PASSES][RUNS], theirs[COMMANDS][RUNS];
    static struct work w;
    long calls[PASSES];
    double ns = 0;
    FILE *to = fopen(path, "w");
    if (to == NULL || fwrite(file, 1, file_size, to) != file_size || fclose(to) != 0)
        return 1;
    for (size_t p = 0; p < PASSES; p++)
        calls[p] = 1 + (long)(RUN_NS / timed(passes[p].run, &w, 1));
    for (int run = 0; run < RUNS; run++) {
        for (size_t p = 0; p < PASSES; p++)
            ours[p][run] = timed(passes[p].run, &w, calls[p]) / (double)calls[p];
        for (int c = 0; c < count; c++)
            theirs[c][run] = command_ns(commands[3 * c + 1], 1, &w.wrong)
                             - command_ns(commands[3 * c + 2], 0, &w.wrong);
    }
    printf("\naccount file of %d accounts, %lu octets: medians of %d runs in turn\n\n",
           ACCOUNTS, (unsigned long)file_size, RUNS);
    printf("%-30s%14s%10s\n", "", "ns an octet", "ratio");
    for (size_t p = 0; p < PASSES; p++) {
        ns = an_octet(ours[p]); /* at last that of the count */
        printf("%-30s%14.2f%10s\n", passes[p].what, ns, "-");
    }
    for (int c = 0; c < count; c++) {
        double their_ns = an_octet(theirs[c]);
        printf("%-30s%14.2f%10.3f\n", commands[3 * c], their_ns, ns / their_ns);
    }
    if (count > 0)
        printf("\nthe others: the whole program that counts the same, less one that does nothing;"
               " ratio of\ncount_accounts to it\n");
    return w.wrong;
}

#ifdef HAVE_OPENSSL
static void aimed(const char *what, double ours, double theirs, double aim)
{
    double ratio = ours / theirs;
    printf("%-30s%12.0f%12.0f%10.2f%10.2f%s\n", what, ours, theirs, ratio, aim,
           ratio > aim ? "  missed" : "");
}
#endif

int main(int argc, char **argv)
{
    static struct work ours, theirs;
    struct work *works[2] = {&ours, &theirs};
    double ns[LINES][2];
    uint32_t x = 1320;

    if (argc < 2 || argc > 2 + 3 * COMMANDS || (argc - 2) % 3 != 0) {
        printf("usage: bench FILE [WHAT COMMAND EMPTY] ..\n");
        return 1;
    }
    make_file();
    begin(&ours);
    if (prepare(&ours) || keep_schedules(&ours)) {
        printf("the packets to be judged could not be made\n");
        return 1;
    }
    fill(&empty, &ours, MSCHAP_LIST_PLACES, 0, 0, MSCHAP_OK);
    fill(&half, &ours, MSCHAP_LIST_PLACES, HALF, 0, MSCHAP_OK);
    fill(&nearly, &ours, MSCHAP_LIST_PLACES, NEARLY, 0, MSCHAP_OK);
    fill(&full, &ours, MSCHAP_LIST_PLACES, MSCHAP_LIST_PLACES, 0, MSCHAP_LIST_FULL);
    fill(&alike, &ours, MSCHAP_LIST_PLACES, NEARLY, 1, MSCHAP_OK);
    fill(&few, &ours, FEW, 0, 0, MSCHAP_OK);

    for (size_t i = 0; i < LINES; i++) {
        begin(&ours);
        lines[i].run[OURS](&ours, CHAINED);
        if (ours.wrong) {
            printf("%s: an answer is not the expected one\n", lines[i].what);
            return 1;
        }
        if (lines[i].run[OPENSSL]) {
            begin(&theirs);
            lines[i].run[OPENSSL](&theirs, CHAINED);
            if (memcmp(&ours, &theirs, sizeof ours)) {
                printf("%s: ours and OpenSSL's are not the same octets\n", lines[i].what);
                return 1;
            }
        }
    }

    for (size_t i = 0; i < LINES; i++)
        for (int side = 0; side < 2; side++)
            if (lines[i].run[side])
                lines[i].calls[side] = sized(lines[i].run[side], works[side]);

    /* Every round runs every line once, ours first in one round and OpenSSL's first in the next: a
       busy while hits all alike. The line that comes first changes irregularly, so that no line
       keeps step with the slices of the scheduler. */
    for (int round = 0; round < ROUNDS; round++) {
        x = x * 1664525 + 1013904223;
        for (size_t i = 0; i < LINES; i++)
            for (int turn = 0; turn < 2; turn++) {
                struct line *l = &lines[((x >> 16) + i) % LINES];
                int side = turn ^ (round & 1);
                if (l->run[side])
                    l->ns[side][round] = timed(l->run[side], works[side],
                                               l->calls[side]) / (double)l->calls[side];
            }
    }
    if (ours.wrong) {
        printf("an answer is not the expected one, while timed\n");
        return 1;
    }

#ifdef HAVE_OPENSSL
    printf("OpenSSL: %s; the same octets as ours\n", OpenSSL_version(OPENSSL_VERSION));
#else
    printf("OpenSSL: not installed\n");
#endif
    printf("medians of %d interleaved batches, nanoseconds a call\n\n", ROUNDS);
    printf("%-30s%12s%12s%10s\n", "", "ours", "OpenSSL", "ratio");
    for (size_t i = 0; i < LINES; i++) {
        ns[i][OURS] = median(lines[i].ns[OURS]);
        printf("%-30s%12.0f", lines[i].what, ns[i][OURS]);
        if (lines[i].run[OPENSSL]) {
            ns[i][OPENSSL] = median(lines[i].ns[OPENSSL]);
            printf("%12.0f%10.2f\n", ns[i][OPENSSL], ns[i][OURS] / ns[i][OPENSSL]);
        } else {
            printf("%12s%10s\n", "-", "-");
        }
    }
    printf("\njudged Response / (challenge response + NT hash): %.2f\n",
           ns[RESPONSE][OURS] / ns[HASH_AND_ANSWER][OURS]);
    /* The record holds the hash with its schedules, so a step has only three blocks to work out:
       this is what judging adds to them. */
    printf("judged Response / challenge response: %.2f\n", ns[RESPONSE][OURS] / ns[ANSWER][OURS]);
    printf("judged Response / response by kept schedules: %.2f\n",
           ns[RESPONSE][OURS] / ns[KEPT][OURS]);
#ifdef HAVE_OPENSSL
    printf("\n%-30s%12s%12s%10s%10s\n", "", "ours", "OpenSSL", "ratio", "at most");
    aimed("by kept schedules, both", ns[KEPT][OURS], ns[KEPT][OPENSSL], KEPT_AIM);
    aimed("judged / challenge response", ns[RESPONSE][OURS], ns[ANSWER][OPENSSL], RESPONSE_AIM);
    printf("OpenSSL's challenge response (three schedules made) / by kept schedules: %.2f\n\n",
           ns[ANSWER][OPENSSL] / ns[KEPT][OPENSSL]);
#endif
    printf("opening, for each used place: %.2f ns; %.2f ns where all end as the challenge does\n",
           (ns[OPEN_NEARLY][OURS] - ns[OPEN_EMPTY][OURS]) / NEARLY,
               (ns[OPEN_ALIKE][OURS] - ns[OPEN_EMPTY][OURS]) / NEARLY);
    /* Unused places are not looked at, so their number must not matter. */
    printf("opening, none of 4,096 used / none of 8 used: %.2f\n",
           ns[OPEN_EMPTY][OURS] / ns[OPEN_FEW][OURS]);

    if (over_the_file(argv[1], argv + 2, (argc - 2) / 3)) {
        printf("an answer over the account file is not the expected one\n");
        return 1;
    }
    return 0;
}
