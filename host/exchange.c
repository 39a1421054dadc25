/*
 * Two arguments of a call are exchanged: a buffer goes with its size. tests/exchange.sh makes
 * calls.h from the header's declarations and compiles this file once for each pair that a compiler
 * lets pass: FUNCTION is the function's number, PAIR that of the pair. Here are the arguments, all
 * valid but for the exchange, in memory that may be written. Exit status 1 if the call is not
 * refused or a byte is changed (other than the header says), 3 if there was nothing to exchange.
 */
#include <mschap.h>
#include <stdio.h>
#include <string.h>

#define GROUPS 8
#define LARGE 4096 /* bytes of memory for each buffer, so that the size of any other one fits */
#define FILL 0xa5

/* Of each argument: its memory and its size, or its number. */
static union { uint8_t bytes[LARGE]; uint64_t aligned; } memory[GROUPS];
static size_t size[GROUPS];
static uint32_t number[GROUPS];
static int offset_at; /* which argument is the offset of a bad line; 0 if none is */

#include "calls.h"

static uint8_t *give(int i, size_t bytes)
{
    size[i] = bytes;
    return memory[i].bytes;
}

static void give_password(int i, const char *text)
{
    mschap_make_password((const uint8_t *)text, strlen(text), (mschap_password *)give(i, 0),
                         MSCHAP_PASSWORD_SIZE);
    size[i] = MSCHAP_PASSWORD_SIZE;
}

static void give_record(int i)
{
    mschap_password password;
    mschap_nthash hash;
    mschap_make_password((const uint8_t *)"password", 8, &password, sizeof password);
    mschap_nt_hash(&password, sizeof password, &hash, sizeof hash);
    mschap_make_record(MSCHAP_FOUND | MSCHAP_HAS_NT_HASH | MSCHAP_EXPIRED, &hash, sizeof hash,
                       NULL, 0, (mschap_record *)give(i, 0), MSCHAP_RECORD_SIZE);
    size[i] = MSCHAP_RECORD_SIZE;
}

static void give_list(int i)
{
    mschap_make_list(give(i, MSCHAP_LIST_SIZE(8)), MSCHAP_LIST_SIZE(8));
}

/* A conversation that was opened, its Challenge, the Response of a peer and the reply to it; and
   the answer of the step that accepted a change. */
static struct {
    mschap_conversation conversation;
    uint8_t challenge[MSCHAP_REPLY_SIZE], response[MSCHAP_RESPONSE_PACKET];
    uint8_t reply[MSCHAP_REPLY_SIZE];
    mschap_answer accepted;
    mschap_peer asked, answered; /* before and after its Response */
    size_t challenge_size, response_size, reply_size;
} made;

static void make_all(void)
{
    static const uint8_t challenge[MSCHAP_CHALLENGE_SIZE] = {1, 2, 3, 4, 5, 6, 7, 8};
    static uint8_t change[MSCHAP_CHANGE_PACKET], last[MSCHAP_REPLY_SIZE];
    mschap_conversation next;
    mschap_peer peer;
    uint32_t call;
    uint64_t reason;
    give_list(0);
    give_password(1, "password");
    give_record(2);
    give_password(3, "another");
    give(4, MSCHAP_FILLER_SIZE);
    mschap_open(7, MSCHAP_TERMS | MSCHAP_LIMIT(5), challenge, sizeof challenge,
                memory[0].bytes, size[0], &made.conversation, sizeof made.conversation,
                made.challenge, sizeof made.challenge);
    made.challenge_size = mschap_packet_length(made.challenge, sizeof made.challenge);
    mschap_read_challenge(made.challenge, made.challenge_size, &made.asked, sizeof made.asked);
    made.answered = made.asked;
    mschap_write_response(&made.answered, sizeof made.answered,
                          (mschap_password *)memory[1].bytes, size[1],
                          (const uint8_t *)"User", 4, made.response, sizeof made.response);
    made.response_size = mschap_packet_length(made.response, sizeof made.response);
    next = made.conversation;
    mschap_step(&next, sizeof next, made.response, made.response_size,
                (mschap_record *)memory[2].bytes, size[2], made.reply, sizeof made.reply,
                &made.accepted, sizeof made.accepted);
    made.reply_size = mschap_packet_length(made.reply, sizeof made.reply);
    peer = made.answered;
    mschap_read_reply(&peer, sizeof peer, made.reply, made.reply_size, &call, &reason);
    mschap_write_change(&peer, sizeof peer, (mschap_password *)memory[1].bytes, size[1],
                        (mschap_new_password *)memory[3].bytes, size[3],
                        memory[4].bytes, size[4], change, sizeof change);
    mschap_step(&next, sizeof next, change, sizeof change,
                (mschap_record *)memory[2].bytes, size[2], last, sizeof last,
                &made.accepted, sizeof made.accepted);
}

static void put(int i, const void *bytes, size_t count)
{
    memcpy(give(i, count), bytes, count);
}

static int named(const char *name)
{
    return strcmp(NAME, name) == 0;
}

/* A buffer that is only written, with what may be there: one byte throughout, or an old packet. */
static void give_out(int i, size_t bytes, int turn)
{
    memset(give(i, bytes), turn % 3 == 0 ? FILL : 0, LARGE);
    if (turn % 3 == 2)
        memcpy(give(i, bytes), made.challenge, made.challenge_size);
}

/* The valid arguments of each function, in the order of its declaration. In the first three turns a
   buffer to be written has the size that the header names. In the others it may be larger: then
   sizes that are exchanged alone are no longer wrong. */
static int give_all(int turn)
{
    static const uint32_t identifiers[] = {0, 7, 255};
    static const uint32_t terms[] = {
        MSCHAP_TERMS | MSCHAP_LIMIT(1), MSCHAP_TERMS | MSCHAP_LIMIT(255) | MSCHAP_RETRIES(7),
        MSCHAP_TERMS | MSCHAP_LIMIT(5) | MSCHAP_RETRIES(0) | MSCHAP_LM_REFUSED | MSCHAP_CHANGE_1,
    };
    static const uint32_t failures[] = {0, 42, 255};
    const size_t hash = MSCHAP_HASH_SIZE;
    static const uint8_t file[] =
        "#\nUser:1001:XXXXXXXXXXXXXXXXXXXXXXXXXXXXXXXX:FC156AF7EDCD6C0EDDE3337D427F4EAC:"
        "[U          ]:LCT-6AFA674D:\n";
    memset(memory, FILL, sizeof memory);
    if (named("mschap_make_password") || named("mschap_make_password_utf16")) {
        put(0, "password", 8);
        give_out(1, MSCHAP_PASSWORD_SIZE, turn);
    } else if (named("mschap_read_password")) {
        give_password(0, "password");
        give_out(1, MSCHAP_TEXT_MAX, turn);
    } else if (named("mschap_nt_hash")) {
        give_password(0, "password");
        give_out(1, hash, turn);
    } else if (named("mschap_lm_hash") || named("mschap_md4")) {
        put(0, "password", 8);
        give_out(1, hash, turn);
    } else if (named("mschap_make_record")) {
        number[0] = MSCHAP_FOUND | MSCHAP_HAS_NT_HASH | MSCHAP_HAS_LM_HASH;
        give(1, hash);
        give(2, hash);
        give_out(3, MSCHAP_RECORD_SIZE, turn);
    } else if (named("mschap_read_record")) {
        give_record(0);
        give_out(2, hash, turn);
        give_out(3, hash, turn);
    } else if (named("mschap_set_failures")) {
        give_record(0);
        number[1] = failures[turn % 3];
    } else if (named("mschap_record_response")) {
        give_record(0);
        number[1] = MSCHAP_HAS_NT_HASH;
        put(2, "12345678", MSCHAP_CHALLENGE_SIZE);
        give_out(3, MSCHAP_RESPONSE_SIZE, turn);
    } else if (named("mschap_find_account")) {
        put(0, file, sizeof file - 1);
        put(1, "User", 4);
        number[2] = 1794795342;
        number[3] = 7776000;
        give_out(4, MSCHAP_RECORD_SIZE, turn);
        offset_at = 5;
    } else if (named("mschap_write_account")) {
        put(0, file, sizeof file - 1);
        put(1, "User", 4);
        give_record(2);
        number[3] = 1794795342;
        offset_at = 4;
    } else if (named("mschap_count_accounts")) {
        put(0, file, sizeof file - 1);
        number[1] = 1794795342;
        number[2] = 7776000;
    } else if (named("mschap_open")) {
        number[0] = identifiers[turn % 3];
        number[1] = terms[turn % 3];
        put(2, "12345678", MSCHAP_CHALLENGE_SIZE);
        give_list(3);
        give_out(4, MSCHAP_CONVERSATION_SIZE, turn);
        give_out(5, turn < 3 ? MSCHAP_REPLY_SIZE : MSCHAP_RESPONSE_PACKET, turn);
    } else if (named("mschap_step")) {
        put(0, &made.conversation, sizeof made.conversation);
        put(1, made.response, made.response_size);
        give_record(2);
        give_out(3, turn < 3 ? MSCHAP_REPLY_SIZE : MSCHAP_RESPONSE_PACKET, turn);
        give_out(4, MSCHAP_ANSWER_SIZE, turn);
    } else if (named("mschap_answer_record")) {
        put(0, &made.accepted, sizeof made.accepted);
        give_out(1, MSCHAP_RECORD_SIZE, turn);
    } else if (named("mschap_read_challenge")) {
        put(0, made.challenge, made.challenge_size);
        give_out(1, MSCHAP_PEER_SIZE, turn);
    } else if (named("mschap_read_reply")) {
        put(0, &made.answered, sizeof made.answered);
        put(1, made.reply, made.reply_size);
    } else if (named("mschap_write_response")) {
        put(0, &made.asked, sizeof made.asked);
        give_password(1, "password");
        put(2, "User", 4);
        give_out(3, turn < 3 ? 54 + 4 : MSCHAP_RESPONSE_PACKET, turn);
    } else if (named("mschap_write_change")) {
        put(0, &made.asked, sizeof made.asked);
        give_password(1, "password");
        give_password(2, "another");
        give(3, MSCHAP_FILLER_SIZE);
        give_out(4, turn < 3 ? MSCHAP_CHANGE_PACKET : LARGE, turn);
    } else if (named("mschap_write_change_1")) {
        put(0, &made.asked, sizeof made.asked);
        give_password(1, "password");
        give_password(2, "another");
        give_out(3, turn < 3 ? MSCHAP_CHANGE_1_PACKET : LARGE, turn);
    } else if (named("mschap_rc4")) {
        give(0, hash);
        give_out(1, 516, turn); /* a block as in a change */
    } else if (named("mschap_des_encrypt") || named("mschap_des_decrypt")) {
        give(0, MSCHAP_KEY_SIZE);
        give_out(1, MSCHAP_BLOCK_SIZE, turn);
    } else if (named("mschap_challenge_response")) {
        give(0, hash);
        give(1, MSCHAP_CHALLENGE_SIZE);
        give_out(2, MSCHAP_RESPONSE_SIZE, turn);
    } else {
        return 0;
    }
    return 1;
}

int main(void)
{
    static uint8_t before[sizeof memory];
    int turn, tried = 0;
    uint32_t answer;

    make_all();
    for (turn = 0; turn < TURNS; turn++) {
        if (!give_all(turn)) {
            printf("exchange: host/exchange.c has no arguments for %s\n", NAME);
            return 1;
        }
        take();
        answer = right();
        if (answer != MSCHAP_OK) {
            printf("exchange: %s refuses valid arguments with %u\n", NAME, (unsigned)answer);
            return 1;
        }
        give_all(turn);
        take();
        if (!differs())
            continue; /* the two sizes are the same */
        tried = 1;
        memcpy(before, memory, sizeof memory);
        answer = exchanged();
        if (answer == MSCHAP_OK) {
            printf("exchange: %s, %s: accepted\n", NAME, WHAT);
            return 1;
        }
        if (offset_at && (answer == MSCHAP_BAD_LINE || answer == MSCHAP_DOUBLED_NAME))
            memcpy(&memory[offset_at], before + offset_at * sizeof *memory, sizeof(size_t));
        if (memcmp(before, memory, sizeof memory) != 0) {
            printf("exchange: %s, %s: refused with %u, and memory is changed\n", NAME, WHAT,
                   (unsigned)answer);
            return 1;
        }
    }
    return tried || PAIR == 0 ? 0 : 3;
}
