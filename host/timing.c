/*
 * Calls mschap_step once for each way in which a Response is not valid, at the first, the second
 * and the last try, and for each fault of a change of either version, and prints a line for each
 * call: R of the reply or its reason, and the way. The time is not to tell which way it was, so
 * tests/timing.sh counts the instructions of each call. Exit status 1 where a call does not draw
 * its reply.
 * Neither is it to tell the round keys: so a record carries those of its hashes, another's, and
 * bytes that are no schedule's.
 *
 * With another function's name for its argument it calls that one instead: mschap_find_account with
 * names that are in a file and names that are not, as the time is not to tell where a name is, nor
 * how much of a name is right; those through which the count of failures and the round keys go,
 * with different ones, as the time is to tell neither; and the two that make round keys or answer
 * by them, mschap_make_record and mschap_record_response, with different hashes.
 */
#include <mschap.h>
#include <stdio.h>
#include <string.h>

#define PACKET 62 /* 54 bytes and the name */
#define FLAG 53
#define LM_RESPONSE 5
#define NT_RESPONSE 29

/* The layouts: this test sets single bytes, so that calls differ in nothing else. A value begins
   with its kind and version; then a record has: */
#define FOUND 2
#define NT 3
#define LM 20
#define FLAGS 37
#define FAILURES 41
#define ACCOUNT_SIZE 39 /* from NT on, without the round keys */
#define NT_KEYS 42
#define LM_KEYS 426
#define KEYS_SIZE 384 /* of one hash */

/* and a conversation: */
#define AWAITED 2
#define LM_ALLOWED 3
#define LIMIT 4
#define CHANGE 5 /* the version of its change */
#define IDENTIFIER 6
#define RETRIES 7
#define CHALLENGE 8
#define KEPT 16 /* the account, as a record has it from NT on, without round keys */

/* and a change: the last four octets of the block, the old hash under the new one, and so on */
#define LENGTH 516
#define OLD_UNDER_NEW 520
#define CHANGE_NT_RESPONSE 1092
#define CHANGE_FLAGS 1116

/* and a version 1 change: the old hashes under the challenge, the password's length, the flags */
#define OLD_LM 4
#define OLD_NT 36
#define PASSWORD_LENGTH 68
#define CHANGE_1_FLAGS 70

/* Every call works on these same bytes, so that no call differs from another by alignment. */
static mschap_conversation talk;
static mschap_record found;
static uint8_t *const conversation = talk.bytes, *const record = found.bytes;
static uint8_t packet[PACKET], right_change[MSCHAP_CHANGE_PACKET], change[MSCHAP_CHANGE_PACKET];
static uint8_t right_change_1[MSCHAP_CHANGE_1_PACKET], change_1[MSCHAP_CHANGE_1_PACKET];
static uint8_t reply[MSCHAP_REPLY_SIZE];
static mschap_answer answer;

/* A user with both hashes, and the right responses of each. */
static const uint8_t challenge[MSCHAP_CHALLENGE_SIZE] =
    {0x10, 0x2d, 0xb5, 0xdf, 0x08, 0x5d, 0x30, 0x41};
static mschap_nthash nt_hash;
static mschap_lmhash lm_hash;
static uint8_t nt_right[MSCHAP_RESPONSE_SIZE], lm_right[MSCHAP_RESPONSE_SIZE];

/* That user's record, and another's, for its round keys. */
static mschap_record own, another;

static uint8_t retries;
static int failed;

static const uint8_t success[] = {3, 7, 0, 4};
static const uint8_t again[] = "\4\7\0\21E=691 R=1 V=2";
static const uint8_t no_more[] = "\4\7\0\21E=691 R=0 V=2";
static const uint8_t expired[] = "\4\7\0\21E=648 R=0 V=2";
static const uint8_t not_changed[] = "\4\10\0\21E=709 R=0 V=2";
static const uint8_t expired_1[] = "\4\7\0\21E=648 R=0 V=1";
static const uint8_t not_changed_1[] = "\4\10\0\21E=709 R=0 V=1";

/* The record of no account, of bytes 0 behind its kind and version. */
static void nobody(void)
{
    memset(&found, 0, sizeof found);
    record[0] = 'R';
    record[1] = MSCHAP_RECORD_LAYOUT;
}

/* A record that was found, with both hashes and no failure; a packet with both responses right,
   which is judged by the NT one; LM is allowed, and the limit is 5. Each way changes a part of
   this. */
static void rightful(void)
{
    static const uint8_t head[] = {2, 7, 0, PACKET, 49};
    static const uint8_t name[] = {'D', 'O', 'M', '\\', 'U', 's', 'e', 'r'};
    memset(&talk, 0, sizeof talk);
    conversation[0] = 'C';
    conversation[1] = MSCHAP_CONVERSATION_LAYOUT;
    conversation[AWAITED] = MSCHAP_AWAITS_RESPONSE;
    conversation[LM_ALLOWED] = 1;
    conversation[LIMIT] = 5;
    conversation[CHANGE] = 2;
    conversation[IDENTIFIER] = 7;
    conversation[RETRIES] = retries;
    memcpy(conversation + CHALLENGE, challenge, sizeof challenge);
    found = own;
    memcpy(packet, head, sizeof head);
    memcpy(packet + LM_RESPONSE, lm_right, sizeof lm_right);
    memcpy(packet + NT_RESPONSE, nt_right, sizeof nt_right);
    packet[FLAG] = 1;
    memcpy(packet + 54, name, sizeof name);
    memset(reply, 0, sizeof reply);
    memset(&answer, 0, sizeof answer);
}

/* The count of failures that the step gives back; MSCHAP_INVALID where there is no record. */
static uint32_t failures_after(void)
{
    mschap_record after;
    if (mschap_answer_record(&answer, sizeof answer, &after, sizeof after) != MSCHAP_OK)
        return MSCHAP_INVALID;
    return mschap_record_failures(&after, sizeof after);
}

/* One step, of an account that has failed so often then. */
static void judged(const char *way, uint32_t after, const char *group, const uint8_t *expected,
                   size_t size)
{
    uint32_t number = mschap_step(&talk, sizeof talk, packet, sizeof packet,
                                  &found, sizeof found, reply, sizeof reply,
                                  &answer, sizeof answer);
    if (number != MSCHAP_OK || memcmp(reply, expected, size) != 0) {
        fprintf(stderr, "timing: %s: another reply than %s\n", way, group);
        failed = 1;
    }
    if (failures_after() != after) {
        fprintf(stderr, "timing: %s: another count than %u\n", way, (unsigned)after);
        failed = 1;
    }
    printf("%s %s\n", group, way);
    rightful();
}

static void valid(const char *way)
{
    judged(way, 0, "Success", success, sizeof success);
}

static void not_valid(const char *way, uint32_t after)
{
    if (retries > 0)
        judged(way, after, "R=1", again, MSCHAP_REPLY_SIZE);
    else
        judged(way, after, "R=0", no_more, MSCHAP_REPLY_SIZE);
}

static void invalid(const char *way)
{
    uint32_t count = record[FAILURES];
    if (record[FOUND] == 0)
        not_valid(way, MSCHAP_INVALID);
    else
        not_valid(way, count < 255 ? count + 1 : count);
}

/* A Response that is right for an account which is locked: the count stays, and tells it. */
static void right_but_locked(const char *way)
{
    not_valid(way, record[FAILURES]);
}

/* Without a hash, the bytes that stand beside the flag stay, its round keys too: they are to have
   no effect. */
static void without(size_t hash)
{
    record[hash] = 0;
}

static void all_ways(void)
{
    rightful();
    valid("the NT response right");
    packet[FLAG] = 0;
    valid("the LM response right, flag 0");
    without(NT);
    valid("the LM response right, flag 1 and no NT hash");

    packet[NT_RESPONSE] ^= 1;
    invalid("a wrong NT response, in its first octet");
    packet[NT_RESPONSE + 23] ^= 0x80;
    invalid("a wrong NT response, in its last octet");
    memset(packet + NT_RESPONSE, 0, MSCHAP_RESPONSE_SIZE);
    invalid("a wrong NT response, octets 0");
    packet[NT_RESPONSE] ^= 1;
    without(LM);
    invalid("a wrong NT response, no LM hash");
    packet[NT_RESPONSE] ^= 1;
    conversation[LM_ALLOWED] = 0;
    invalid("a wrong NT response, LM off");
    packet[NT_RESPONSE] ^= 1;
    memset(record + FLAGS, 1, 4);
    invalid("a wrong NT response, every flag set");
    packet[FLAG] = 0;
    packet[LM_RESPONSE] ^= 1;
    invalid("a wrong LM response, flag 0");
    without(NT);
    packet[LM_RESPONSE] ^= 1;
    invalid("a wrong LM response, flag 1 and no NT hash");

    nobody();
    invalid("no record, octets 0");
    nobody();
    packet[FLAG] = 0;
    invalid("no record, octets 0, flag 0");
    record[FOUND] = 0;
    invalid("no record, an account's octets, NT response right for them");
    record[FOUND] = 0;
    packet[FLAG] = 0;
    invalid("no record, an account's octets, LM response right for them");
    record[FOUND] = 0;
    memset(record + FLAGS, 1, 4);
    conversation[LM_ALLOWED] = 0;
    invalid("no record, an account's octets, every flag set, LM off");

    memset(record + NT, 0, ACCOUNT_SIZE);
    invalid("no hash, octets 0, flag 1");
    memset(record + NT, 0, ACCOUNT_SIZE);
    packet[FLAG] = 0;
    invalid("no hash, octets 0, flag 0");
    without(NT);
    without(LM);
    invalid("no hash, a hash's octets beside the flag, flag 1");
    without(NT);
    without(LM);
    packet[FLAG] = 0;
    invalid("no hash, a hash's octets beside the flag, flag 0");
    without(LM);
    packet[FLAG] = 0;
    invalid("no LM hash, flag 0");

    conversation[LM_ALLOWED] = 0;
    packet[FLAG] = 0;
    invalid("LM off, flag 0");
    conversation[LM_ALLOWED] = 0;
    packet[FLAG] = 0;
    without(LM);
    invalid("LM off, flag 0, no LM hash");
    conversation[LM_ALLOWED] = 0;
    without(NT);
    invalid("LM off, flag 1 and no NT hash");
}

static void counted(uint8_t limit, uint8_t count)
{
    conversation[LIMIT] = limit;
    record[FAILURES] = count;
}

/* Counts below the limit, at it and over it: a locked account takes what an unknown one takes,
   whatever its Response says. */
static void all_counts(void)
{
    static const uint8_t below[][2] = {{5, 3}, {5, 4}, {1, 0}, {255, 254}};
    static const uint8_t locked[][2] = {{5, 5}, {5, 6}, {5, 254}, {5, 255}, {1, 1}, {255, 255}};
    char way[128];
    size_t i;
    rightful();
    for (i = 0; i < sizeof below / sizeof *below; i++) {
        const uint8_t limit = below[i][0], count = below[i][1];
        sprintf(way, "limit %u, count %u", limit, count);
        counted(limit, count);
        valid(way);
        counted(limit, count);
        packet[FLAG] = 0;
        valid(way);
        counted(limit, count);
        packet[NT_RESPONSE] ^= 1;
        invalid(way);
        counted(limit, count);
        conversation[LM_ALLOWED] = packet[FLAG] = 0;
        invalid(way);
    }
    for (i = 0; i < sizeof locked / sizeof *locked; i++) {
        const uint8_t limit = locked[i][0], count = locked[i][1];
        sprintf(way, "locked, limit %u, count %u", limit, count);
        counted(limit, count);
        right_but_locked(way);
        counted(limit, count);
        memset(record + FLAGS, 1, 4);
        right_but_locked(way);
        counted(limit, count);
        packet[FLAG] = 0;
        right_but_locked(way);
        counted(limit, count);
        without(NT);
        right_but_locked(way);
        counted(limit, count);
        packet[NT_RESPONSE] ^= 1;
        invalid(way);
        counted(limit, count);
        memset(packet + NT_RESPONSE, 0, MSCHAP_RESPONSE_SIZE);
        invalid(way);
        counted(limit, count);
        packet[FLAG] = 0;
        packet[LM_RESPONSE + 23] ^= 0x80;
        invalid(way);
        counted(limit, count);
        conversation[LM_ALLOWED] = packet[FLAG] = 0;
        invalid(way);
        counted(limit, count);
        without(NT);
        without(LM);
        invalid(way);
        sprintf(way, "no record, octets of an account with limit %u, count %u", limit, count);
        counted(limit, count);
        record[FOUND] = 0;
        invalid(way);
        counted(limit, count);
        record[FOUND] = 0;
        packet[NT_RESPONSE] ^= 1;
        invalid(way);
    }
}

/* Other round keys than those of the hashes: another's, and what no hash has. */
static const char *const carried[] = {"its own", "another's", "zeros", "ones", "a pattern"};
#define CARRIED (sizeof carried / sizeof *carried)

static void carry(size_t kind)
{
    static const uint8_t bytes[] = {0, 0xff, 0x5a};
    if (kind == 1)
        memcpy(record + NT_KEYS, another.bytes + NT_KEYS, 2 * KEYS_SIZE);
    else if (kind > 1)
        memset(record + NT_KEYS, bytes[kind - 2], 2 * KEYS_SIZE);
}

/* Both responses are right by the round keys that the record carries. */
static void answer_by_carried(void)
{
    failed |= mschap_record_response(&found, sizeof found, MSCHAP_HAS_NT_HASH,
                                     challenge, sizeof challenge,
                                     packet + NT_RESPONSE, MSCHAP_RESPONSE_SIZE) != MSCHAP_OK;
    failed |= mschap_record_response(&found, sizeof found, MSCHAP_HAS_LM_HASH,
                                     challenge, sizeof challenge,
                                     packet + LM_RESPONSE, MSCHAP_RESPONSE_SIZE) != MSCHAP_OK;
}

/* A record is judged by the round keys that it carries: the response that is right by them is
   valid, the one that is right by the hash is not. */
static void all_carried(void)
{
    char way[128];
    rightful();
    for (size_t kind = 0; kind < CARRIED; kind++) {
        sprintf(way, "round keys: %s, right by them", carried[kind]);
        carry(kind);
        answer_by_carried();
        valid(way);
        carry(kind);
        answer_by_carried();
        packet[FLAG] = 0;
        valid(way);
        carry(kind);
        answer_by_carried();
        without(NT);
        valid(way);
        sprintf(way, "round keys: %s, right by them but for a bit", carried[kind]);
        carry(kind);
        answer_by_carried();
        packet[NT_RESPONSE] ^= 1;
        invalid(way);
        carry(kind);
        answer_by_carried();
        packet[FLAG] = 0;
        packet[LM_RESPONSE + 23] ^= 0x80;
        invalid(way);
        sprintf(way, "round keys: %s, right by them but locked", carried[kind]);
        carry(kind);
        answer_by_carried();
        counted(5, 5);
        right_but_locked(way);
        sprintf(way, "round keys: %s, right by them but no record", carried[kind]);
        carry(kind);
        answer_by_carried();
        record[FOUND] = 0;
        invalid(way);
        sprintf(way, "round keys: %s, right by them but no hash", carried[kind]);
        carry(kind);
        answer_by_carried();
        without(NT);
        without(LM);
        invalid(way);
        sprintf(way, "round keys: %s, right by them but LM off", carried[kind]);
        carry(kind);
        answer_by_carried();
        conversation[LM_ALLOWED] = packet[FLAG] = 0;
        invalid(way);
        if (kind == 0)
            continue;
        sprintf(way, "round keys: %s, right by the hash", carried[kind]);
        carry(kind);
        invalid(way);
        carry(kind);
        packet[FLAG] = 0;
        invalid(way);
        carry(kind);
        without(NT);
        invalid(way);
    }
}

/* A conversation that has kept the user's record, and the right change. */
static void awaiting_change(void)
{
    rightful();
    conversation[AWAITED] = MSCHAP_AWAITS_CHANGE;
    conversation[IDENTIFIER] = 8;
    memcpy(conversation + KEPT, record + NT, ACCOUNT_SIZE);
    nobody();
    memcpy(change, right_change, sizeof change);
}

static void not_accepted(uint32_t fault)
{
    uint32_t number = mschap_step(&talk, sizeof talk, change, sizeof change,
                                  &found, sizeof found, reply, sizeof reply,
                                  &answer, sizeof answer);
    if (number != MSCHAP_OK || memcmp(reply, not_changed, MSCHAP_REPLY_SIZE) != 0
        || mschap_answer_fault(&answer, sizeof answer) != fault) {
        fprintf(stderr, "timing: another answer than 709 and fault %u\n", (unsigned)fault);
        failed = 1;
    }
    printf("709 %s\n", mschap_fault_text(fault));
    awaiting_change();
}

/* The new password is empty, since the time of its hash tells its length: where the block holds
   none, that of an empty one is made in its place. */
static void all_faults(void)
{
    awaiting_change();
    conversation[KEPT] = 0;
    not_accepted(MSCHAP_FAULT_NO_NT_HASH);
    memset(conversation + KEPT, 0, ACCOUNT_SIZE);
    not_accepted(MSCHAP_FAULT_NO_NT_HASH);
    change[CHANGE_FLAGS + 1] = 0;
    not_accepted(MSCHAP_FAULT_NO_NT_RESPONSE);
    change[LENGTH] ^= 2; /* 514 */
    change[LENGTH + 1] ^= 2;
    not_accepted(MSCHAP_FAULT_LENGTH_OVER);
    change[LENGTH + 3] ^= 0x80;
    not_accepted(MSCHAP_FAULT_LENGTH_OVER);
    change[LENGTH] ^= 7;
    not_accepted(MSCHAP_FAULT_LENGTH_ODD);
    change[OLD_UNDER_NEW] ^= 1;
    not_accepted(MSCHAP_FAULT_OLD_HASH_WRONG);
    change[OLD_UNDER_NEW + 15] ^= 0x80;
    change[CHANGE_NT_RESPONSE] ^= 1;
    not_accepted(MSCHAP_FAULT_OLD_HASH_WRONG);
    change[CHANGE_NT_RESPONSE] ^= 1;
    not_accepted(MSCHAP_FAULT_RESPONSE_WRONG);
    change[CHANGE_NT_RESPONSE + 23] ^= 0x80;
    not_accepted(MSCHAP_FAULT_RESPONSE_WRONG);
}

/* The same with a version 1 change, by the NT hash or by the LM hash. */
static void awaiting_change_1(void)
{
    awaiting_change();
    conversation[CHANGE] = 1;
    conversation[AWAITED] = MSCHAP_AWAITS_CHANGE_1;
    memcpy(change_1, right_change_1, sizeof change_1);
}

static void awaiting_change_lm(void)
{
    awaiting_change_1();
    change_1[PASSWORD_LENGTH] = 0;
    change_1[PASSWORD_LENGTH + 1] = 14;
    change_1[CHANGE_1_FLAGS + 1] = 0;
}

static void not_accepted_1(const char *group, uint32_t fault)
{
    uint32_t number = mschap_step(&talk, sizeof talk, change_1, sizeof change_1,
                                  &found, sizeof found, reply, sizeof reply,
                                  &answer, sizeof answer);
    if (number != MSCHAP_OK || memcmp(reply, not_changed_1, MSCHAP_REPLY_SIZE) != 0
        || mschap_answer_fault(&answer, sizeof answer) != fault) {
        fprintf(stderr, "timing: another answer than 709 and fault %u\n", (unsigned)fault);
        failed = 1;
    }
    printf("%s %s\n", group, mschap_fault_text(fault));
}

/* Which way a version 1 change is judged is told by its bit 0 and its length, which are sent in
   clear; on either way the time is not to tell the fault. */
static void all_faults_1(void)
{
    static const char by_nt[] = "709-NT", by_lm[] = "709-LM";
    awaiting_change_1();
    conversation[KEPT] = 0;
    not_accepted_1(by_nt, MSCHAP_FAULT_HASH_ABSENT);
    awaiting_change_1();
    memset(conversation + KEPT, 0, ACCOUNT_SIZE);
    not_accepted_1(by_nt, MSCHAP_FAULT_HASH_ABSENT);
    awaiting_change_1();
    conversation[KEPT] = 0;
    conversation[LM_ALLOWED] = 0;
    not_accepted_1(by_nt, MSCHAP_FAULT_HASH_ABSENT);
    awaiting_change_1();
    change_1[OLD_NT] ^= 1;
    not_accepted_1(by_nt, MSCHAP_FAULT_HASH_WRONG);
    awaiting_change_1();
    change_1[OLD_NT + 15] ^= 0x80;
    not_accepted_1(by_nt, MSCHAP_FAULT_HASH_WRONG);
    awaiting_change_1();
    memset(change_1 + OLD_NT, 0x55, MSCHAP_HASH_SIZE);
    not_accepted_1(by_nt, MSCHAP_FAULT_HASH_WRONG);

    awaiting_change_lm();
    conversation[LM_ALLOWED] = 0;
    not_accepted_1(by_lm, MSCHAP_FAULT_LM_NOT_ALLOWED);
    awaiting_change_lm();
    conversation[LM_ALLOWED] = 0;
    conversation[KEPT + LM - NT] = 0;
    not_accepted_1(by_lm, MSCHAP_FAULT_LM_NOT_ALLOWED);
    awaiting_change_lm();
    change_1[PASSWORD_LENGTH + 1] = 15;
    not_accepted_1(by_lm, MSCHAP_FAULT_LENGTH_OVER_LM);
    awaiting_change_lm();
    conversation[KEPT + LM - NT] = 0;
    not_accepted_1(by_lm, MSCHAP_FAULT_HASH_ABSENT);
    awaiting_change_lm();
    change_1[OLD_LM] ^= 1;
    not_accepted_1(by_lm, MSCHAP_FAULT_HASH_WRONG);
    awaiting_change_lm();
    change_1[OLD_LM + 15] ^= 0x80;
    not_accepted_1(by_lm, MSCHAP_FAULT_HASH_WRONG);
}

static const uint8_t file[] =
    "anna0001:1001:XXXXXXXXXXXXXXXXXXXXXXXXXXXXXXXX:FC156AF7EDCD6C0EDDE3337D427F4EAC:"
    "[U          ]:LCT-6AFA674D:\n"
    "anna0002:1002:XXXXXXXXXXXXXXXXXXXXXXXXXXXXXXXX:FC156AF7EDCD6C0EDDE3337D427F4EAC:"
    "[U          ]:LCT-6AFA674D:\n"
    "# a comment\n"
    "otto0003:1003:XXXXXXXXXXXXXXXXXXXXXXXXXXXXXXXX:FC156AF7EDCD6C0EDDE3337D427F4EAC:"
    "[U          ]:LCT-6AFA674D:\n"
    "zora0004:1004:XXXXXXXXXXXXXXXXXXXXXXXXXXXXXXXX:FC156AF7EDCD6C0EDDE3337D427F4EAC:"
    "[U          ]:LCT-6AFA674D:\n";

static void looked_up(const char *name, const char *group, const char *way)
{
    mschap_nthash nt;
    mschap_lmhash lm;
    size_t offset;
    uint32_t flags = 0, number;
    number = mschap_find_account(file, sizeof file - 1, (const uint8_t *)name, strlen(name),
                                 1794795342, 7776000, &found, sizeof found, &offset);
    number |= mschap_read_record(&found, sizeof found, &flags, &nt, sizeof nt, &lm, sizeof lm);
    if (number != MSCHAP_OK || (flags & MSCHAP_FOUND) != (group[0] == 'f')) {
        fprintf(stderr, "timing: a lookup, %s: another record than %s\n", way, group);
        failed = 1;
    }
    printf("%s %s\n", group, way);
}

/* Names of one length: a shorter or longer one takes less, as it is compared with none. */
static void all_lookups(void)
{
    looked_up("anna0001", "found", "on the first line");
    looked_up("anna0002", "found", "on the second line");
    looked_up("otto0003", "found", "behind a comment");
    looked_up("zora0004", "found", "on the last line");
    looked_up("xxxxxxxx", "none", "no letter right");
    looked_up("anna0003", "none", "all but the last letter right");
    looked_up("bnna0001", "none", "all but the first letter right");
    looked_up("annaxxxx", "none", "the first half right");
    looked_up("#a comme", "none", "as a comment");
}

static const uint8_t counts[] = {0, 1, 4, 5, 6, 254, 255};

/* The record of a judged Response is handed out, its count told, and another one set. */
static void with_count(const char *function, uint8_t count, size_t kind)
{
    mschap_record after;
    uint32_t number, told;
    size_t k;
    rightful();
    record[FAILURES] = count;
    carry(kind);
    if (strcmp(function, "mschap_answer_record") == 0) {
        answer_by_carried();
        failed |= mschap_step(&talk, sizeof talk, packet, sizeof packet, &found, sizeof found,
                              reply, sizeof reply, &answer, sizeof answer) != MSCHAP_OK;
        number = mschap_answer_record(&answer, sizeof answer, &after, sizeof after);
        told = after.bytes[FAILURES];
        failed |= number != MSCHAP_OK || told != (count < 5 ? 0 : count);
        record[FAILURES] = after.bytes[FAILURES];
        failed |= memcmp(&after, &found, sizeof found) != 0;
        printf("handed count %u, round keys %s\n", count, carried[kind]);
    } else if (strcmp(function, "mschap_record_failures") == 0) {
        failed |= mschap_record_failures(&found, sizeof found) != count;
        printf("told count %u, round keys %s\n", count, carried[kind]);
    } else {
        for (k = 0; k < sizeof counts; k++) {
            after = found;
            after.bytes[FAILURES] = counts[k];
            number = mschap_set_failures(&found, sizeof found, counts[k]);
            failed |= number != MSCHAP_OK || memcmp(&after, &found, sizeof found) != 0;
            printf("set count %u, round keys %s\n", counts[k], carried[kind]);
        }
    }
}

/* The response of a record by each of its hashes, which may be two groups: what differs between NT
   and LM is no secret. */
static void responses(size_t kind)
{
    static const uint32_t hashes[] = {MSCHAP_HAS_NT_HASH, MSCHAP_HAS_LM_HASH};
    uint8_t response[MSCHAP_RESPONSE_SIZE];
    size_t i;
    rightful();
    carry(kind);
    for (i = 0; i < 2; i++) {
        failed |= mschap_record_response(&found, sizeof found, hashes[i],
                                         challenge, sizeof challenge,
                                         response, sizeof response) != MSCHAP_OK;
        failed |= kind == 0 && memcmp(response, i ? lm_right : nt_right, sizeof response) != 0;
        printf("%s round keys %s\n", i ? "by-LM" : "by-NT", carried[kind]);
    }
}

static void make_found(const mschap_nthash *nt, const mschap_lmhash *lm)
{
    failed |= mschap_make_record(MSCHAP_FOUND | MSCHAP_HAS_NT_HASH | MSCHAP_HAS_LM_HASH,
                                 nt, sizeof *nt, lm, sizeof *lm, &found, sizeof found)
              != MSCHAP_OK;
}

/* A record made of both hashes, of bytes that may be any. */
static void records_made(size_t kind)
{
    static const uint8_t bytes[] = {0, 0xff, 0x5a};
    mschap_nthash nt = nt_hash;
    mschap_lmhash lm = lm_hash;
    if (kind == 1) {
        memcpy(&nt, another.bytes + NT + 1, sizeof nt);
        memcpy(&lm, another.bytes + LM + 1, sizeof lm);
    } else if (kind > 1) {
        memset(&nt, bytes[kind - 2], sizeof nt);
        memset(&lm, bytes[kind - 2], sizeof lm);
    }
    make_found(&nt, &lm);
    failed |= kind < 2 && memcmp(&found, kind ? &another : &own, sizeof found) != 0;
    printf("made hashes: %s\n", carried[kind]);
}

static void all_records(const char *function)
{
    size_t i, kind;
    for (kind = 0; kind < CARRIED; kind++) {
        if (strcmp(function, "mschap_record_response") == 0)
            responses(kind);
        else if (strcmp(function, "mschap_make_record") == 0)
            records_made(kind);
        else
            for (i = 0; i < sizeof counts; i++)
                with_count(function, counts[i], kind);
    }
    if (failed)
        fprintf(stderr, "timing: %s answers otherwise\n", function);
}

/* The record of a text's two hashes. Where the calls that make one are counted, it has a line of
   its own group: a large copy takes other instructions where the stack is aligned otherwise. */
static int makes;

static void make_record(const uint8_t *text, size_t size, mschap_record *made)
{
    mschap_password password;
    failed |= mschap_make_password(text, size, &password, sizeof password) != MSCHAP_OK;
    failed |= mschap_nt_hash(&password, sizeof password, &nt_hash, sizeof nt_hash) != MSCHAP_OK;
    failed |= mschap_lm_hash(text, size, &lm_hash, sizeof lm_hash) != MSCHAP_OK;
    make_found(&nt_hash, &lm_hash);
    *made = found;
    if (makes)
        printf("prepared hashes of a password\n");
}

/* Both changes from the password to an empty one, as our peer writes them. The version 1 change has
   no LM hash: here it gets the user's, under the challenge. */
static void write_right_changes(const mschap_password *password)
{
    static const uint8_t filler[MSCHAP_FILLER_SIZE];
    uint8_t asked[13] = {1, 7, 0, 13, MSCHAP_CHALLENGE_SIZE};
    mschap_peer peer, other;
    int half;
    mschap_new_password empty;
    uint32_t call;
    uint64_t reason;
    memcpy(asked + 5, challenge, sizeof challenge);
    failed |= mschap_make_password(NULL, 0, &empty.password, sizeof empty.password) != MSCHAP_OK;
    failed |= mschap_read_challenge(asked, sizeof asked, &peer, sizeof peer) != MSCHAP_OK;
    failed |= mschap_write_response(&peer, sizeof peer, password, sizeof *password, asked, 1,
                                    packet, sizeof packet) != MSCHAP_OK;
    other = peer;
    failed |= mschap_read_reply(&other, sizeof other, expired_1, MSCHAP_REPLY_SIZE, &call, &reason)
              != MSCHAP_OK;
    failed |= mschap_write_change_1(&other, sizeof other, password, sizeof *password,
                                    &empty, sizeof empty, right_change_1, sizeof right_change_1)
              != MSCHAP_OK;
    memcpy(right_change_1 + OLD_LM, lm_hash.bytes, sizeof lm_hash);
    for (half = 0; half < 2; half++)
        failed |= mschap_des_encrypt(challenge, MSCHAP_KEY_SIZE,
                                     right_change_1 + OLD_LM + 8 * half, MSCHAP_BLOCK_SIZE)
                  != MSCHAP_OK;
    failed |= mschap_read_reply(&peer, sizeof peer, expired, MSCHAP_REPLY_SIZE, &call, &reason)
              != MSCHAP_OK;
    failed |= mschap_write_change(&peer, sizeof peer, password, sizeof *password,
                                  &empty, sizeof empty, filler, sizeof filler,
                                  right_change, sizeof right_change) != MSCHAP_OK;
}

int main(int argc, char **argv)
{
    static const uint8_t text[] = {'M', 'y', 'P', 'w'}, others[] = {'c', 'l', 'i', 'e', 'n', 't'};
    static const uint8_t tries[] = {2, 1, 0}; /* retries left: the first try to the last */
    mschap_password password;
    size_t i;

    if (argc == 2 && strcmp(argv[1], "mschap_find_account") == 0) {
        all_lookups();
        return failed;
    }
    failed |= mschap_make_password(text, sizeof text, &password, sizeof password) != MSCHAP_OK;
    makes = argc == 2 && strcmp(argv[1], "mschap_make_record") == 0;
    make_record(others, sizeof others, &another);
    make_record(text, sizeof text, &own);
    failed |= mschap_challenge_response(nt_hash.bytes, sizeof nt_hash, challenge, sizeof challenge,
                                        nt_right, sizeof nt_right) != MSCHAP_OK;
    failed |= mschap_challenge_response(lm_hash.bytes, sizeof lm_hash, challenge, sizeof challenge,
                                        lm_right, sizeof lm_right) != MSCHAP_OK;
    if (argc == 2 && strcmp(argv[1], "mschap_step") != 0) {
        all_records(argv[1]);
        return failed;
    }
    for (i = 0; i < sizeof tries; i++) {
        retries = tries[i];
        all_ways();
        all_counts();
        all_carried();
    }
    write_right_changes(&password);
    all_faults();
    all_faults_1();
    return failed;
}
