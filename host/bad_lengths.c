/*
 * Bad lengths at the C interface, and null pointers with length 0: each function of mschap.h is
 * called with the right sizes, and then with each of its buffers passed as NULL and 0, with one
 * byte less and with one more. What it returns is in the table. Where that is not MSCHAP_OK, every
 * buffer must be unchanged, and so must be the numbers whose pointers have no size, but for the
 * offset of a line for which an account file is refused. Each buffer has its own memory of exactly
 * its size, so that valgrind sees any byte that is touched beyond it.
 */
#include <mschap.h>
#include <stdio.h>
#include <stdlib.h>
#include <string.h>

struct argument {
    void *at;
    size_t size;
};

#define BUFFER(i) r[i].at, r[i].size
#define WRONG 999 /* a number was changed by a call that was refused, or is not the right one */

/* What is read into numbers, and what is there before. */
#define BEFORE 0x5a5a
static uint32_t flags, call;
static uint64_t reason;
static size_t length, offset;

static void before(void)
{
    flags = call = BEFORE;
    reason = length = offset = BEFORE;
}

/* Refused: the number is as it was. Else it is the right one. */
static size_t checked(uint32_t number, uint64_t is, uint64_t right)
{
    return is == (number == MSCHAP_OK ? right : BEFORE) ? number : WRONG;
}

static size_t version(struct argument *r) { (void)r; return mschap_version(); }
static size_t make_password(struct argument *r)
{
    return mschap_make_password(BUFFER(0), BUFFER(1));
}
static size_t make_password_utf16(struct argument *r)
{
    return mschap_make_password_utf16(BUFFER(0), BUFFER(1));
}
static size_t read_password(struct argument *r)
{
    before();
    uint32_t number = mschap_read_password(BUFFER(0), BUFFER(1), &length);
    return checked(number, length, 3);
}
static size_t nt_hash(struct argument *r) { return mschap_nt_hash(BUFFER(0), BUFFER(1)); }
static size_t lm_hash(struct argument *r) { return mschap_lm_hash(BUFFER(0), BUFFER(1)); }
#define BOTH (MSCHAP_FOUND | MSCHAP_HAS_NT_HASH | MSCHAP_HAS_LM_HASH)
static size_t make_record(struct argument *r)
{
    return mschap_make_record(BOTH, BUFFER(0), BUFFER(1), BUFFER(2));
}
static size_t make_record_nt(struct argument *r)
{
    return mschap_make_record(MSCHAP_HAS_NT_HASH | MSCHAP_EXPIRED, BUFFER(0), NULL, 0, BUFFER(1));
}
static size_t make_record_bare(struct argument *r)
{
    return mschap_make_record(MSCHAP_FOUND, NULL, 0, NULL, 0, BUFFER(0));
}
static size_t make_record_bits(struct argument *r)
{
    return mschap_make_record(BOTH | 0x80, BUFFER(0), BUFFER(1), BUFFER(2));
}
static size_t read_record(struct argument *r)
{
    before();
    uint32_t number = mschap_read_record(BUFFER(0), &flags, BUFFER(1), BUFFER(2));
    return checked(number, flags, BOTH);
}
static size_t record_failures(struct argument *r) { return mschap_record_failures(BUFFER(0)); }
static size_t set_failures(struct argument *r) { return mschap_set_failures(BUFFER(0), 255); }
static size_t set_failures_over(struct argument *r) { return mschap_set_failures(BUFFER(0), 256); }
static size_t record_response(struct argument *r)
{
    return mschap_record_response(BUFFER(0), MSCHAP_HAS_NT_HASH, BUFFER(1), BUFFER(2));
}
static size_t record_response_lm(struct argument *r)
{
    return mschap_record_response(BUFFER(0), MSCHAP_HAS_LM_HASH, BUFFER(1), BUFFER(2));
}
/* Another hash than one of the two: each number that is not theirs is refused. */
static size_t record_response_other(struct argument *r)
{
    static const uint32_t others[] = {
        0, 1, 3, 5, 7, 8, MSCHAP_HAS_NT_HASH | MSCHAP_HAS_LM_HASH, MSCHAP_EXPIRED, 0x102, 0x10002,
        0x80000004, 0xffffffff,
    };
    size_t i;
    for (i = 0; i < sizeof others / sizeof *others; i++)
        if (mschap_record_response(BUFFER(0), others[i], BUFFER(1), BUFFER(2))
            != MSCHAP_BAD_ARGUMENT)
            return WRONG;
    return MSCHAP_BAD_ARGUMENT;
}
#define ACCOUNT \
    "b:1:XXXXXXXXXXXXXXXXXXXXXXXXXXXXXXXX:FC156AF7EDCD6C0EDDE3337D427F4EAC:[U          ]:" \
    "LCT-00000001:"
/* The line of the account is the first. What is malformed, if anything, is the last of them. */
static size_t placed(uint32_t number, size_t last)
{
    if (number == MSCHAP_BAD_LINE || number == MSCHAP_DOUBLED_NAME)
        return offset == (number == MSCHAP_BAD_LINE ? last : 0) ? number : WRONG;
    return checked(number, offset, 0);
}
static size_t find_account(struct argument *r)
{
    before();
    return placed(mschap_find_account(BUFFER(0), BUFFER(1), 5, 5, BUFFER(2), &offset), 0);
}
static size_t find_account_two(struct argument *r)
{
    before();
    return placed(mschap_find_account(BUFFER(0), BUFFER(1), 5, 5, BUFFER(2), &offset),
                  sizeof ACCOUNT);
}
static size_t write_account(struct argument *r)
{
    before();
    return placed(mschap_write_account(BUFFER(0), BUFFER(1), BUFFER(2), 5, &offset), 0);
}
static size_t write_account_two(struct argument *r)
{
    before();
    return placed(mschap_write_account(BUFFER(0), BUFFER(1), BUFFER(2), 5, &offset),
                  sizeof ACCOUNT);
}
/* Returns the five counts as digits: of lines, of bad ones, and so on. */
static size_t count_accounts(struct argument *r)
{
    uint64_t lines = 9, bad = 9, disabled = 9, expired = 9, no_nt = 9;
    uint32_t number = mschap_count_accounts(BUFFER(0), 7, 5, &lines, &bad, &disabled, &expired,
                                            &no_nt);
    if (number != MSCHAP_OK)
        return number;
    return lines * 10000 + bad * 1000 + disabled * 100 + expired * 10 + no_nt;
}
static size_t make_list(struct argument *r) { return mschap_make_list(BUFFER(0)); }
static size_t list_used(struct argument *r) { return mschap_list_used(BUFFER(0)); }
#define LIMITED (MSCHAP_TERMS | MSCHAP_LIMIT(5))
static size_t opening(struct argument *r)
{
    return mschap_open(7, LIMITED | MSCHAP_RETRIES(2) | MSCHAP_LM_ALLOWED, BUFFER(0), BUFFER(1),
                       BUFFER(2), BUFFER(3));
}
static size_t opening_retries(struct argument *r)
{
    return mschap_open(7, LIMITED | MSCHAP_RETRIES(8), BUFFER(0), BUFFER(1), BUFFER(2), BUFFER(3));
}
static size_t opening_terms(struct argument *r)
{
    return mschap_open(7, MSCHAP_LIMIT(5) | MSCHAP_RETRIES(2), BUFFER(0), BUFFER(1), BUFFER(2),
                       BUFFER(3));
}
/* Both changes, or a bit that says nothing: each of these is refused. */
static size_t opening_changes(struct argument *r)
{
    static const uint32_t others[] = {
        MSCHAP_CHANGE_1 | MSCHAP_CHANGE_2, MSCHAP_LM_ALLOWED | MSCHAP_LM_REFUSED | MSCHAP_CHANGE_1,
        0x1000, 0x2000, 0x4000, 0x8000, MSCHAP_CHANGE_1 | 0x1000, MSCHAP_CHANGE_2 | 0x8000,
    };
    size_t i;
    for (i = 0; i < sizeof others / sizeof *others; i++)
        if (mschap_open(7, LIMITED | others[i], BUFFER(0), BUFFER(1), BUFFER(2), BUFFER(3))
            != MSCHAP_BAD_ARGUMENT)
            return WRONG;
    return MSCHAP_BAD_ARGUMENT;
}
static size_t opening_change_1(struct argument *r)
{
    return mschap_open(7, LIMITED | MSCHAP_CHANGE_1, BUFFER(0), BUFFER(1), BUFFER(2), BUFFER(3));
}
static size_t opening_change_2(struct argument *r)
{
    return mschap_open(7, LIMITED | MSCHAP_LM_REFUSED | MSCHAP_CHANGE_2, BUFFER(0), BUFFER(1),
                       BUFFER(2), BUFFER(3));
}
static size_t opening_identifier(struct argument *r)
{
    return mschap_open(256, LIMITED, BUFFER(0), BUFFER(1), BUFFER(2), BUFFER(3));
}
/* with no limit, and 8 retries: the limit comes first */
static size_t opening_unlimited(struct argument *r)
{
    return mschap_open(7, MSCHAP_TERMS | MSCHAP_LIMIT(256) | MSCHAP_RETRIES(8), BUFFER(0),
                       BUFFER(1), BUFFER(2), BUFFER(3));
}
static size_t step(struct argument *r)
{
    return mschap_step(BUFFER(0), BUFFER(1), BUFFER(2), BUFFER(3), BUFFER(4));
}
static size_t answer_reason(struct argument *r) { return mschap_answer_reason(BUFFER(0)); }
static size_t answer_repeated(struct argument *r) { return mschap_answer_repeated(BUFFER(0)); }
static size_t answer_fault(struct argument *r) { return mschap_answer_fault(BUFFER(0)); }
static size_t answer_record(struct argument *r)
{
    return mschap_answer_record(BUFFER(0), BUFFER(1));
}
static size_t awaits(struct argument *r) { return mschap_conversation_awaits(BUFFER(0)); }
static size_t identifier(struct argument *r) { return mschap_conversation_identifier(BUFFER(0)); }
static size_t retries(struct argument *r) { return mschap_conversation_retries(BUFFER(0)); }
static size_t packet_length(struct argument *r) { return mschap_packet_length(BUFFER(0)); }
static size_t account_offset(struct argument *r) { return mschap_account_offset(BUFFER(0)); }
static size_t account_length(struct argument *r) { return mschap_account_length(BUFFER(0)); }
static size_t domain_offset(struct argument *r) { return mschap_domain_offset(BUFFER(0)); }
static size_t domain_length(struct argument *r) { return mschap_domain_length(BUFFER(0)); }
static size_t read_challenge(struct argument *r)
{
    return mschap_read_challenge(BUFFER(0), BUFFER(1));
}
static size_t read_reply(struct argument *r)
{
    before();
    uint32_t number = mschap_read_reply(BUFFER(0), BUFFER(1), &call, &reason);
    if (checked(number, call, MSCHAP_CALL_RESPONSE) == WRONG)
        return WRONG;
    return checked(number, reason, MSCHAP_E_AUTHENTICATION_FAILURE);
}
static size_t write_response(struct argument *r)
{
    return mschap_write_response(BUFFER(0), BUFFER(1), BUFFER(2), BUFFER(3));
}
static size_t write_change(struct argument *r)
{
    return mschap_write_change(BUFFER(0), BUFFER(1), BUFFER(2), BUFFER(3), BUFFER(4));
}
static size_t write_change_1(struct argument *r)
{
    return mschap_write_change_1(BUFFER(0), BUFFER(1), BUFFER(2), BUFFER(3));
}
static size_t md4(struct argument *r) { return mschap_md4(BUFFER(0), BUFFER(1)); }
static size_t rc4(struct argument *r) { return mschap_rc4(BUFFER(0), BUFFER(1)); }
static size_t des_encrypt(struct argument *r) { return mschap_des_encrypt(BUFFER(0), BUFFER(1)); }
static size_t des_decrypt(struct argument *r) { return mschap_des_decrypt(BUFFER(0), BUFFER(1)); }
static size_t challenge_response(struct argument *r)
{
    return mschap_challenge_response(BUFFER(0), BUFFER(1), BUFFER(2));
}

/* What buffers hold, with a byte more for the call that passes one more. The values begin with
   their kind and its version. */
static const uint8_t zeros[517];
static const uint8_t text[5] = {'a', 0xc3, 0xa4, 'b'}; /* a, a with two dots, b */
static const uint8_t password[517] = {'W', 1, 0, 4, 'a', 0, 0xe4, 0};
static const uint8_t unpaired[517] = {'W', 1, 0, 2, 0, 0xd8};
static const uint8_t record[811] = {'R', 3, 1, 1, [20] = 1, [41] = 3}; /* 3 failures */
static const uint8_t nobody[811] = {'R', 3};
static const uint8_t nt_alone[811] = {'R', 3, 1, 1};
static const uint8_t lm_alone[811] = {'R', 3, 1, [20] = 1};
/* as 0.7.0 stored it, and with that version but the size of now */
static const uint8_t outdated[43] = {'R', 2, 1, 1, [20] = 1, [41] = 3};
static const uint8_t half_way[811] = {'R', 2, 1, 1, [20] = 1, [41] = 3};
static const uint8_t one_line[98] = ACCOUNT, two_lines[196] = ACCOUNT "\n" ACCOUNT;
static const uint8_t name[2] = {'b', 'x'};
static const uint8_t none_used[29] = {'L', 1, 0, 0};
static const uint8_t one_used[37] = {'L', 1, 0, 1}; /* by the challenge of bytes 0 */
/* it awaits a Response, identifier 7, and its limit is 5 */
static const uint8_t opened[62] = {'C', 4, 2, 1, 5, 2, 7, 2};
/* it awaits a version 1 change; and one that awaits it by the terms of version 2, or the other way
   round, or by terms of no version, which no conversation does */
static const uint8_t awaiting[62] = {'C', 4, 5, 1, 5, 1, 7, 2};
static const uint8_t crossed[62] = {'C', 4, 5, 1, 5, 2, 7, 2};
static const uint8_t crossed_back[62] = {'C', 4, 6, 1, 5, 1, 7, 2};
static const uint8_t unversioned[62] = {'C', 4, 2, 1, 5, 3, 7, 2};
/* as 0.8.0 stored it, and with that version but the size of now */
static const uint8_t outdated_talk[61] = {'C', 3, 2, 1, 5, 7, 2};
static const uint8_t half_way_talk[62] = {'C', 3, 2, 1, 5, 2, 7, 2};
/* it has ended, and answered a Response, identifier 7, with a Failure, R=0 */
static const uint8_t ended[62] = {'C', 4, 0, 1, 5, 2, 7, [55] = 1, 2, 7, 1, 691 >> 8, 691 & 255};
static const uint8_t failed[815] = {'A', 5, 0, 691 >> 8, 691 & 255};
static const uint8_t counted[815] = {'A', 5, 0, 691 >> 8, 691 & 255, 0, 1, [45] = 4};
static const uint8_t repeated[815] = {'A', 5, 1, 691 >> 8, 691 & 255};
static const uint8_t changed[815] = {'A', 5, 0, 0, 0, 0, 1};
/* a change with another old hash under its new one */
static const uint8_t spoiled[815] = {'A', 5, 0, 709 >> 8, 709 & 255, 5};
/* a version 1 change with another old hash, and the number of no fault */
static const uint8_t spoiled_1[815] = {'A', 5, 0, 709 >> 8, 709 & 255, 10};
static const uint8_t faultless[815] = {'A', 5, 0, 709 >> 8, 709 & 255, 11};
static const uint8_t peer[22] = {'P', 1, 1, 7, [12] = 8}; /* it sent a packet, identifier 7 */
static const uint8_t response[63] = {2, 7, 0, 62, 49, [53] = 1, 'D', 'O', 'M', '\\', 'U', 's', 'e',
                                     'r'};
static const uint8_t challenge[14] = {1, 7, 0, 13, 8};
static const uint8_t failure[18] = {4, 7, 0, 17, 'E', '=', '6', '9', '1', ' ', 'R', '=', '1', ' ',
                                    'V', '=', '2'};
#define FILL 0xa5 /* what is in a buffer that is only written */

#define BAD MSCHAP_BAD_ARGUMENT
#define NOT MSCHAP_INVALID
/* the answers for a buffer of a fixed size, and for a value that a function tells something of */
#define FIXED BAD, BAD, BAD
#define TOLD NOT, NOT, NOT

struct buffer {
    const uint8_t *holds; /* NULL: bytes FILL */
    size_t size;
    size_t null, less, more; /* the answers for NULL and 0, for one less and for one more */
};

static const struct function {
    const char *name;
    size_t (*call)(struct argument *);
    size_t right, none; /* the answers for the right sizes, and for NULL and 0 in every buffer */
    struct buffer buffers[5];
} functions[] = {
    {"version", version, MSCHAP_VERSION, MSCHAP_VERSION, {{NULL, 0, 0, 0, 0}}},
    {"make_password", make_password, 0, BAD, {{text, 3, 0, 101, 0}, {NULL, 516, FIXED}}},
    {"make_password_utf16", make_password_utf16, 0, BAD, {{zeros, 2, 0, 8, 8}, {NULL, 516, FIXED}}},
    {"read_password", read_password, 0, BAD, {{password, 516, FIXED}, {NULL, 3, 9, 9, 0}}},
    {"read_password, a surrogate", read_password, 101, BAD,
     {{unpaired, 516, FIXED}, {NULL, 3, 101, 101, 101}}},
    {"nt_hash", nt_hash, 0, BAD, {{password, 516, FIXED}, {NULL, 16, FIXED}}},
    {"lm_hash", lm_hash, 0, BAD, {{zeros, 14, 0, 0, 8}, {NULL, 16, FIXED}}},
    {"make_record", make_record, 0, BAD,
     {{zeros, 16, FIXED}, {zeros, 16, FIXED}, {NULL, 810, FIXED}}},
    {"make_record, NT", make_record_nt, 0, BAD, {{zeros, 16, FIXED}, {NULL, 810, FIXED}}},
    {"make_record, no hash", make_record_bare, 0, BAD, {{NULL, 810, FIXED}}},
    {"make_record, other bits", make_record_bits, BAD, BAD,
     {{zeros, 16, FIXED}, {zeros, 16, FIXED}, {NULL, 810, FIXED}}},
    {"read_record", read_record, 0, BAD,
     {{record, 810, FIXED}, {NULL, 16, FIXED}, {NULL, 16, FIXED}}},
    {"record_failures", record_failures, 3, NOT, {{record, 810, TOLD}}},
    {"record_failures, nobody", record_failures, 0, NOT, {{nobody, 810, TOLD}}},
    {"set_failures", set_failures, 0, BAD, {{record, 810, FIXED}}},
    {"set_failures, nobody", set_failures, 0, BAD, {{nobody, 810, FIXED}}},
    {"set_failures, 256", set_failures_over, BAD, BAD, {{record, 810, FIXED}}},
    {"record_response", record_response, 0, BAD,
     {{record, 810, FIXED}, {zeros, 8, FIXED}, {NULL, 24, FIXED}}},
    {"record_response, LM", record_response_lm, 0, BAD,
     {{record, 810, FIXED}, {zeros, 8, FIXED}, {NULL, 24, FIXED}}},
    {"record_response, no NT", record_response, 102, BAD,
     {{lm_alone, 810, FIXED}, {zeros, 8, FIXED}, {NULL, 24, FIXED}}},
    {"record_response, no LM", record_response_lm, 102, BAD,
     {{nt_alone, 810, FIXED}, {zeros, 8, FIXED}, {NULL, 24, FIXED}}},
    {"record_response, nobody", record_response, 102, BAD,
     {{nobody, 810, FIXED}, {zeros, 8, FIXED}, {NULL, 24, FIXED}}},
    {"record_response, other", record_response_other, BAD, BAD,
     {{record, 810, FIXED}, {zeros, 8, FIXED}, {NULL, 24, FIXED}}},
    /* a record of before is refused, whatever its size */
    {"read_record, of 0.7.0", read_record, BAD, BAD,
     {{outdated, 42, FIXED}, {NULL, 16, FIXED}, {NULL, 16, FIXED}}},
    {"read_record, half way", read_record, BAD, BAD,
     {{half_way, 810, FIXED}, {NULL, 16, FIXED}, {NULL, 16, FIXED}}},
    {"record_failures, of 0.7.0", record_failures, NOT, NOT, {{outdated, 42, TOLD}}},
    {"set_failures, of 0.7.0", set_failures, BAD, BAD, {{outdated, 42, FIXED}}},
    {"record_response, of 0.7.0", record_response, BAD, BAD,
     {{outdated, 42, FIXED}, {zeros, 8, FIXED}, {NULL, 24, FIXED}}},
    {"step, of 0.7.0", step, BAD, BAD,
     {{opened, 61, FIXED}, {response, 62, FIXED}, {outdated, 42, FIXED}, {NULL, 17, FIXED},
     {NULL, 814, FIXED}}},
    /* a byte less is the colon behind the sixth field of the last line */
    {"find_account", find_account, 0, BAD,
     {{one_line, 97, 0, 14, 0}, {name, 1, 0, 0, 0}, {NULL, 810, FIXED}}},
    {"find_account, doubled", find_account_two, 15, BAD,
     {{two_lines, 195, 0, 14, 15}, {name, 1, 0, 0, 0}, {NULL, 810, FIXED}}},
    {"write_account", write_account, 0, BAD,
     {{one_line, 97, 103, 14, 0}, {name, 1, 103, 103, 103}, {record, 810, FIXED}}},
    {"write_account, doubled", write_account_two, 15, BAD,
     {{two_lines, 195, 103, 14, 15}, {name, 1, 103, 103, 103}, {record, 810, FIXED}}},
    {"write_account, nobody", write_account, 102, BAD,
     {{one_line, 97, 102, 102, 102}, {name, 1, 102, 102, 102}, {nobody, 810, FIXED}}},
    {"count_accounts", count_accounts, 20020, 0, {{two_lines, 195, 0, 21010, 20020}}},
    {"make_list", make_list, 0, 24, {{NULL, 28, 24, 24, 24}}},
    {"list_used", list_used, 1, NOT, {{one_used, 36, TOLD}}},
    /* no place used, and three to be used */
    {"open", opening, 0, BAD,
     {{zeros, 8, FIXED}, {none_used, 28, BAD, 24, 24}, {NULL, 61, FIXED}, {NULL, 17, 2, 2, 0}}},
    {"open, version 1 changes", opening_change_1, 0, BAD,
     {{zeros, 8, FIXED}, {none_used, 28, BAD, 24, 24}, {NULL, 61, FIXED}, {NULL, 17, 2, 2, 0}}},
    {"open, version 2 changes", opening_change_2, 0, BAD,
     {{zeros, 8, FIXED}, {none_used, 28, BAD, 24, 24}, {NULL, 61, FIXED}, {NULL, 17, 2, 2, 0}}},
    /* one place used, by the same challenge */
    {"open, spent", opening, 16, BAD,
     {{zeros, 8, FIXED}, {one_used, 36, BAD, 24, 24}, {NULL, 61, FIXED}, {NULL, 17, 2, 2, 16}}},
    {"open, 8 retries", opening_retries, 13, BAD,
     {{zeros, 8, FIXED}, {none_used, 28, BAD, 13, 13}, {NULL, 61, FIXED}, {NULL, 17, 13, 13, 13}}},
    {"open, no limit", opening_unlimited, 18, BAD,
     {{zeros, 8, FIXED}, {none_used, 28, BAD, 18, 18}, {NULL, 61, FIXED}, {NULL, 17, 18, 18, 18}}},
    {"open, no terms", opening_terms, BAD, BAD,
     {{zeros, 8, FIXED}, {none_used, 28, FIXED}, {NULL, 61, FIXED}, {NULL, 17, FIXED}}},
    {"open, other changes", opening_changes, BAD, BAD,
     {{zeros, 8, FIXED}, {none_used, 28, FIXED}, {NULL, 61, FIXED}, {NULL, 17, FIXED}}},
    {"open, identifier 256", opening_identifier, BAD, BAD,
     {{zeros, 8, FIXED}, {none_used, 28, FIXED}, {NULL, 61, FIXED}, {NULL, 17, FIXED}}},
    {"step", step, 0, BAD,
     {{opened, 61, FIXED}, {response, 62, 3, 3, 0}, {nobody, 810, FIXED}, {NULL, 17, 2, 2, 0},
     {NULL, 814, FIXED}}},
    {"step, a repeat", step, 0, BAD,
     {{ended, 61, FIXED}, {response, 62, 3, 3, 0}, {nobody, 810, FIXED}, {NULL, 17, 2, 2, 0},
     {NULL, 814, FIXED}}},
    {"step, ended", step, 1, BAD,
     {{ended, 61, FIXED}, {challenge, 13, 3, 3, 1}, {nobody, 810, FIXED}, {NULL, 17, 2, 2, 1},
     {NULL, 814, FIXED}}},
    {"answer_reason", answer_reason, 691, NOT, {{failed, 814, TOLD}}},
    {"answer_repeated", answer_repeated, 1, NOT, {{repeated, 814, TOLD}}},
    {"answer_repeated, judged", answer_repeated, 0, NOT, {{failed, 814, TOLD}}},
    {"answer_fault", answer_fault, MSCHAP_FAULT_OLD_HASH_WRONG, NOT, {{spoiled, 814, TOLD}}},
    {"answer_fault, version 1", answer_fault, MSCHAP_FAULT_HASH_WRONG, NOT,
     {{spoiled_1, 814, TOLD}}},
    {"answer_fault, 11", answer_fault, NOT, NOT, {{faultless, 814, TOLD}}},
    {"answer_fault, none", answer_fault, 0, NOT, {{changed, 814, TOLD}}},
    {"answer_record", answer_record, 0, BAD, {{changed, 814, FIXED}, {NULL, 810, FIXED}}},
    {"answer_record, counted", answer_record, 0, BAD,
     {{counted, 814, FIXED}, {NULL, 810, FIXED}}},
    {"answer_record, none", answer_record, 102, BAD, {{failed, 814, FIXED}, {NULL, 810, FIXED}}},
    {"answer_record, a repeat", answer_record, 102, BAD,
     {{repeated, 814, FIXED}, {NULL, 810, FIXED}}},
    {"conversation_awaits", awaits, 2, NOT, {{opened, 61, TOLD}}},
    {"conversation_awaits, ended", awaits, 0, NOT, {{ended, 61, TOLD}}},
    {"conversation_awaits, version 1", awaits, MSCHAP_AWAITS_CHANGE_1, NOT, {{awaiting, 61, TOLD}}},
    {"conversation_awaits, code 5 by version 2", awaits, NOT, NOT, {{crossed, 61, TOLD}}},
    {"conversation_awaits, code 6 by version 1", awaits, NOT, NOT, {{crossed_back, 61, TOLD}}},
    {"conversation_awaits, version 3", awaits, NOT, NOT, {{unversioned, 61, TOLD}}},
    {"conversation_awaits, of 0.8.0", awaits, NOT, NOT, {{outdated_talk, 60, TOLD}}},
    {"conversation_awaits, half way", awaits, NOT, NOT, {{half_way_talk, 61, TOLD}}},
    {"step, a conversation of 0.8.0", step, BAD, BAD,
     {{outdated_talk, 60, FIXED}, {response, 62, FIXED}, {nobody, 810, FIXED}, {NULL, 17, FIXED},
     {NULL, 814, FIXED}}},
    {"conversation_identifier", identifier, 7, NOT, {{opened, 61, TOLD}}},
    {"conversation_retries", retries, 2, NOT, {{opened, 61, TOLD}}},
    {"packet_length", packet_length, 62, 0, {{response, 62, 0, 0, 62}}},
    {"account_offset", account_offset, 58, 0, {{response, 62, 0, 0, 58}}},
    {"account_length", account_length, 4, 0, {{response, 62, 0, 0, 4}}},
    {"domain_offset", domain_offset, 54, 0, {{response, 62, 0, 0, 54}}},
    {"domain_length", domain_length, 3, 0, {{response, 62, 0, 0, 3}}},
    {"read_challenge", read_challenge, 0, BAD, {{challenge, 13, 3, 3, 0}, {NULL, 21, FIXED}}},
    {"read_reply", read_reply, 0, BAD, {{peer, 21, FIXED}, {failure, 17, 3, 3, 0}}},
    /* a name of one byte more has too little room */
    {"write_response", write_response, 0, BAD,
     {{peer, 21, FIXED}, {password, 516, FIXED}, {zeros, 8, 10, 0, 9}, {NULL, 62, 9, 9, 0}}},
    {"write_change", write_change, 0, BAD,
     {{peer, 21, FIXED}, {password, 516, FIXED}, {unpaired, 516, FIXED}, {zeros, 512, 12, 12, 12},
     {NULL, 1118, 9, 9, 0}}},
    {"write_change_1", write_change_1, 0, BAD,
     {{peer, 21, FIXED}, {password, 516, FIXED}, {unpaired, 516, FIXED}, {NULL, 72, 9, 9, 0}}},
    {"md4", md4, 0, BAD, {{zeros, 3, 0, 0, 0}, {NULL, 16, FIXED}}},
    {"rc4", rc4, 0, 8, {{zeros, 5, 8, 0, 0}, {NULL, 3, 0, 0, 0}}},
    {"des_encrypt", des_encrypt, 0, BAD, {{zeros, 7, FIXED}, {NULL, 8, FIXED}}},
    {"des_decrypt", des_decrypt, 0, BAD, {{zeros, 7, FIXED}, {NULL, 8, FIXED}}},
    {"challenge_response", challenge_response, 0, BAD,
     {{zeros, 16, FIXED}, {zeros, 8, FIXED}, {NULL, 24, FIXED}}},
};

/* the digest or hash of no bytes, and of the password of no characters */
static const uint8_t empty[516] = {'W', 1};
static const struct known {
    const char *name;
    size_t (*call)(struct argument *);
    const uint8_t *holds;
    size_t size;
    uint8_t digest[16];
} knowns[] = {
    {"md4", md4, NULL, 0,
     {0x31, 0xd6, 0xcf, 0xe0, 0xd1, 0x6a, 0xe9, 0x31, 0xb7, 0x3c, 0x59, 0xd7, 0xe0, 0xc0, 0x89,
     0xc0}},
    {"nt_hash", nt_hash, empty, sizeof empty,
     {0x31, 0xd6, 0xcf, 0xe0, 0xd1, 0x6a, 0xe9, 0x31, 0xb7, 0x3c, 0x59, 0xd7, 0xe0, 0xc0, 0x89,
     0xc0}},
    {"lm_hash", lm_hash, NULL, 0,
     {0xaa, 0xd3, 0xb4, 0x35, 0xb5, 0x14, 0x04, 0xee, 0xaa, 0xd3, 0xb4, 0x35, 0xb5, 0x14, 0x04,
     0xee}},
};

static unsigned calls;

static uint8_t held(const struct buffer *buffer, size_t i)
{
    return buffer->holds ? buffer->holds[i] : FILL;
}

/* One call with these sizes; what and which say how they differ from the right ones. */
static void expect(const struct function *f, const size_t *sizes, size_t answer, const char *what,
                   unsigned which)
{
    struct argument r[5];
    size_t got, i, j;

    for (i = 0; i < 5; i++) {
        r[i].size = sizes[i];
        r[i].at = sizes[i] ? malloc(sizes[i]) : NULL;
        for (j = 0; j < sizes[i]; j++)
            ((uint8_t *)r[i].at)[j] = held(&f->buffers[i], j);
    }
    got = f->call(r);
    calls++;
    if (got != answer) {
        printf("bad_lengths: %s, buffer %u, %s: the answer is %lu and not %lu\n", f->name, which,
               what, (unsigned long)got, (unsigned long)answer);
        exit(1);
    }
    for (i = 0; i < 5; i++) {
        for (j = 0; answer != 0 && j < sizes[i]; j++)
            if (((uint8_t *)r[i].at)[j] != held(&f->buffers[i], j)) {
                printf("bad_lengths: %s, buffer %u, %s: buffer %u was changed\n", f->name, which,
                       what, (unsigned)i);
                exit(1);
            }
        free(r[i].at);
    }
}

int main(void)
{
    static const size_t none[5];
    size_t sizes[5], k;
    unsigned i;

    for (k = 0; k < sizeof functions / sizeof *functions; k++) {
        const struct function *f = &functions[k];
        for (i = 0; i < 5; i++)
            sizes[i] = f->buffers[i].size;
        expect(f, sizes, f->right, "all of the right size", 0);
        expect(f, none, f->none, "all of them NULL and 0", 0);
        for (i = 0; i < 5 && f->buffers[i].size; i++) {
            sizes[i] = 0;
            expect(f, sizes, f->buffers[i].null, "NULL and 0", i);
            sizes[i] = f->buffers[i].size - 1;
            expect(f, sizes, f->buffers[i].less, "one less", i);
            sizes[i] = f->buffers[i].size + 1;
            expect(f, sizes, f->buffers[i].more, "one more", i);
            sizes[i] = f->buffers[i].size;
        }
    }
    for (k = 0; k < sizeof knowns / sizeof *knowns; k++) {
        uint8_t digest[16] = {0}, given[sizeof empty];
        struct argument r[2] = {{NULL, 0}, {digest, 16}};
        if (knowns[k].size) {
            memcpy(given, knowns[k].holds, knowns[k].size);
            r[0].at = given;
            r[0].size = knowns[k].size;
        }
        calls++;
        if (knowns[k].call(r) != 0 || memcmp(digest, knowns[k].digest, 16) != 0) {
            printf("bad_lengths: %s of nothing has another digest\n", knowns[k].name);
            return 1;
        }
    }
    printf("bad_lengths: %u calls answered as they should\n", calls);
    return 0;
}
