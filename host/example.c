/*
 * A conversation over libmschap.a in one program: an authenticator opens it, a peer answers with a
 * mistyped password and then with the right one, which has expired, and changes it. Twice it misses
 * the reply and sends the same packet again. In a second conversation the new password has expired
 * too, and the change is made with a mistyped old one: the peer is told 709 alone, and the
 * authenticator what is wrong. Then somebody guesses until the account is locked, hangs up and
 * calls back: the right password fails then too, until the account is unlocked. Another
 * authenticator tries to open with the first challenge again, and is refused. At the end the list
 * is made empty, and a handset that knows only version 1 changes makes one, in a conversation that
 * is opened for it. The challenges are fixed, so that it prints the same each time; examples/ has
 * the two ends as programs of their own, which draw them.
 *
 *     cc host/example.c $(pkg-config --cflags --libs mschap)
 */
#include <mschap.h>
#include <stdio.h>
#include <stdlib.h>

static void show(const char *what, const uint8_t *bytes, size_t size)
{
    printf("%-28s", what);
    while (size-- > 0)
        printf("%02x", *bytes++);
    printf("\n");
}

static void check(const char *what, uint32_t number)
{
    if (number == MSCHAP_OK)
        return;
    printf("%s: refused with %u\n", what, (unsigned)number);
    exit(1);
}

static void make_password(const char *text, size_t size, mschap_password *password)
{
    check("make_password",
          mschap_make_password((const uint8_t *)text, size, password, sizeof *password));
}

static mschap_conversation talk;
static mschap_record record;
static mschap_answer answer;
static mschap_peer peer;
static uint8_t packet[MSCHAP_CHANGE_PACKET], reply[MSCHAP_REPLY_SIZE];

/* how many invalid Responses in a row lock the account: few, so that the example is short */
#define MOST_FAILURES 3
#define TERMS (MSCHAP_TERMS | MSCHAP_LIMIT(MOST_FAILURES) | MSCHAP_LM_REFUSED)

static uint8_t list[MSCHAP_LIST_SIZE(16)];

/* The authenticator opens a conversation, and the peer reads the Challenge. */
static void open_with(uint8_t identifier, uint32_t terms, const uint8_t *challenge)
{
    size_t size;
    check("open", mschap_open(identifier, terms, challenge, MSCHAP_CHALLENGE_SIZE,
                              list, sizeof list, &talk, sizeof talk, reply, sizeof reply));
    size = mschap_packet_length(reply, sizeof reply);
    show("Challenge", reply, size);
    check("read_challenge", mschap_read_challenge(reply, size, &peer, sizeof peer));
}

/* The authenticator answers the packet, and the peer reads the reply. Returns what it calls for.
   The record that the step gives takes the place of the one before: after each Response with its
   count of failures. Neither that nor what is wrong with a change is told by the reply. */
static uint32_t step(const char *what)
{
    uint32_t call, fault;
    uint64_t reason;
    size_t size = mschap_packet_length(packet, sizeof packet);
    if (size > MSCHAP_RESPONSE_PACKET)
        printf("%-28s%u bytes\n", what, (unsigned)size);
    else
        show(what, packet, size);
    check("step", mschap_step(&talk, sizeof talk, packet, size, &record, sizeof record,
                              reply, sizeof reply, &answer, sizeof answer));
    size = mschap_packet_length(reply, sizeof reply);
    show("reply", reply, size);
    printf("%-28s%u, awaited %u, retries left %u%s\n", "the authenticator: reason",
           (unsigned)mschap_answer_reason(&answer, sizeof answer),
           (unsigned)mschap_conversation_awaits(&talk, sizeof talk),
           (unsigned)mschap_conversation_retries(&talk, sizeof talk),
           mschap_answer_repeated(&answer, sizeof answer) ? ", again" : "");
    if (mschap_answer_record(&answer, sizeof answer, &record, sizeof record) == MSCHAP_OK)
        printf("%-28s%u\n", "the record: failures",
               (unsigned)mschap_record_failures(&record, sizeof record));
    fault = mschap_answer_fault(&answer, sizeof answer);
    if (fault != MSCHAP_FAULT_NONE)
        printf("%-28s%u, %s\n", "the authenticator: fault", (unsigned)fault,
               mschap_fault_text(fault));
    check("read_reply", mschap_read_reply(&peer, sizeof peer, reply, size, &call, &reason));
    printf("%-28s%u, calls for %u\n", "the peer: reason", (unsigned)reason, (unsigned)call);
    return call;
}

/* The peer answers with a password, and the authenticator judges it. */
static uint32_t respond(const char *what, const mschap_password *password)
{
    static const uint8_t name[] = {'D', 'O', 'M', '\\', 'U', 's', 'e', 'r'};
    check("write_response",
          mschap_write_response(&peer, sizeof peer, password, sizeof *password,
                                name, sizeof name, packet, sizeof packet));
    return step(what);
}

int main(void)
{
    /* an example only: a real one is unpredictable, from a CSPRNG, and so is a filler */
    static const uint8_t challenge[MSCHAP_CHALLENGE_SIZE] = {0x10, 0x2d, 0xb5, 0xdf,
                                                             0x08, 0x5d, 0x30, 0x41};
    static const uint8_t another[MSCHAP_CHALLENGE_SIZE] = {0x21, 0x02, 0x99, 0x01,
                                                           0x44, 0x6a, 0xf3, 0x70};
    static const uint8_t third[MSCHAP_CHALLENGE_SIZE] = {0x5c, 0x77, 0x10, 0xe8,
                                                         0x3b, 0xd2, 0x06, 0x9f};
    static const uint8_t fourth[MSCHAP_CHALLENGE_SIZE] = {0xa1, 0x3e, 0x52, 0x4b,
                                                          0x90, 0x18, 0xcd, 0x64};
    static const uint8_t filler[MSCHAP_FILLER_SIZE];
    static const uint8_t stray[] = {6, 200, 0, 4}; /* a change with another identifier */
    mschap_password password, mistyped;
    mschap_new_password renewed;
    mschap_nthash hash;
    mschap_lmhash lm_hash;
    uint32_t flags;
    int guess;

    /* the account: its password has expired */
    make_password("clientPass", 10, &password);
    make_password("client", 6, &mistyped);
    make_password("p\xc3\xa4ssword", 9, &renewed.password);
    check("nt_hash", mschap_nt_hash(&password, sizeof password, &hash, sizeof hash));
    show("NT hash", hash.bytes, sizeof hash);
    check("make_record", mschap_make_record(MSCHAP_FOUND | MSCHAP_HAS_NT_HASH | MSCHAP_EXPIRED,
                                            &hash, sizeof hash, NULL, 0, &record, sizeof record));

    check("make_list", mschap_make_list(list, sizeof list));
    open_with(7, TERMS, challenge);
    if (respond("Response, mistyped", &mistyped) != MSCHAP_CALL_RESPONSE)
        return 1;
    printf("%-28s%.*s\n", "its account", (int)mschap_account_length(packet, sizeof packet),
           (const char *)packet + mschap_account_offset(packet, sizeof packet));
    if (respond("Response, expired", &password) != MSCHAP_CALL_CHANGE)
        return 1;
    /* the peer missed the reply: it gets the same one again, and nothing is judged */
    if (step("the same Response again") != MSCHAP_CALL_CHANGE)
        return 1;
    /* a packet that is refused gets no reply, and changes nothing */
    printf("%-28s%u\n", "a stray packet",
           (unsigned)mschap_step(&talk, sizeof talk, stray, sizeof stray, &record, sizeof record,
                                 reply, sizeof reply, &answer, sizeof answer));

    check("write_change",
          mschap_write_change(&peer, sizeof peer, &password, sizeof password,
                              &renewed, sizeof renewed, filler, sizeof filler,
                              packet, sizeof packet));
    if (step("change") != MSCHAP_CALL_NONE)
        return 1;
    check("read_record", mschap_read_record(&record, sizeof record, &flags, &hash, sizeof hash,
                                            &lm_hash, sizeof lm_hash));
    show("the new NT hash", hash.bytes, sizeof hash);
    /* the peer missed Success: it gets it again, and there is no record to be stored again */
    if (step("the same change again") != MSCHAP_CALL_NONE)
        return 1;
    printf("%-28s%u\n", "its record",
           (unsigned)mschap_answer_record(&answer, sizeof answer, &record, sizeof record));

    /* the new password has expired too, and its change is made with a mistyped old one */
    check("make_record", mschap_make_record(flags | MSCHAP_EXPIRED, &hash, sizeof hash, NULL, 0,
                                            &record, sizeof record));
    open_with(8, TERMS, another);
    if (respond("Response, expired", &renewed.password) != MSCHAP_CALL_CHANGE)
        return 1;
    check("write_change",
          mschap_write_change(&peer, sizeof peer, &mistyped, sizeof mistyped,
                              &renewed, sizeof renewed, filler, sizeof filler,
                              packet, sizeof packet));
    if (step("change, mistyped") != MSCHAP_CALL_END)
        return 1;
    /* of a repeat nothing is told: it is not judged */
    if (step("the same change again") != MSCHAP_CALL_END)
        return 1;

    /* somebody guesses, until the account is locked; hangs up, calls back, and hits upon the right
       password: it fails, and leaves the count as it is */
    check("make_record", mschap_make_record(flags, &hash, sizeof hash, NULL, 0,
                                            &record, sizeof record));
    open_with(9, TERMS, third);
    for (guess = 1; guess < MOST_FAILURES; guess++)
        if (respond("Response, a wrong guess", &password) != MSCHAP_CALL_RESPONSE)
            return 1;
    if (respond("Response, a wrong guess", &mistyped) != MSCHAP_CALL_END)
        return 1;
    open_with(10, TERMS, fourth);
    if (respond("Response, right but locked", &renewed.password) != MSCHAP_CALL_RESPONSE)
        return 1;
    /* whoever keeps the accounts unlocks this one */
    check("set_failures", mschap_set_failures(&record, sizeof record, 0));
    if (respond("Response, unlocked", &renewed.password) != MSCHAP_CALL_NONE)
        return 1;

    /* another authenticator, which shares the same list */
    printf("%-28s%u\n", "the same challenge again",
           (unsigned)mschap_open(11, TERMS, challenge, sizeof challenge, list, sizeof list,
                                 &talk, sizeof talk, reply, sizeof reply));
    printf("%-28s%u of 16\n", "places used", (unsigned)mschap_list_used(list, sizeof list));

    /* a handset that knows only version 1 changes: who listens can decrypt both hashes */
    make_password("MyPw", 4, &password);
    make_password("clientPass", 10, &renewed.password);
    check("nt_hash", mschap_nt_hash(&password, sizeof password, &hash, sizeof hash));
    check("make_record", mschap_make_record(MSCHAP_FOUND | MSCHAP_HAS_NT_HASH | MSCHAP_EXPIRED,
                                            &hash, sizeof hash, NULL, 0, &record, sizeof record));
    check("make_list", mschap_make_list(list, sizeof list));
    open_with(8, TERMS | MSCHAP_CHANGE_1, challenge);
    if (respond("Response, expired", &password) != MSCHAP_CALL_CHANGE_1)
        return 1;
    check("write_change_1",
          mschap_write_change_1(&peer, sizeof peer, &password, sizeof password,
                                &renewed, sizeof renewed, packet, sizeof packet));
    if (step("version 1 change") != MSCHAP_CALL_NONE)
        return 1;
    check("read_record", mschap_read_record(&record, sizeof record, &flags, &hash, sizeof hash,
                                            &lm_hash, sizeof lm_hash));
    show("the new NT hash", hash.bytes, sizeof hash);
    return 0;
}
