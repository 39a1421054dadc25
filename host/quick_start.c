/*
 * The quick start of mschap.h at work. tests/host.sh puts its lines into the function quick_start;
 * here is what they leave to a program, in memory, and a peer that tries passwords and changes one
 * that has expired. Exit status 1 if somebody is let in who should not be, or the other way round;
 * if a guesser is not stopped; if the account file or a count is not what it should be; or if a
 * reply is sent before both are stored.
 */
#include <mschap.h>
#include <setjmp.h>
#include <stdio.h>
#include <string.h>

#define LIMIT 10 /* as in the quick start */
#define LINE(name, flags, change) \
    name ":1001:XXXXXXXXXXXXXXXXXXXXXXXXXXXXXXXX:FC156AF7EDCD6C0EDDE3337D427F4EAC:[" flags "]:" \
    change ":\n" /* the password is MyPw */
#define OLD LINE("bob", "U          ", "LCT-00000001")
#define ANN LINE("ann", "UX         ", "LCT-00000001")

void quick_start(void);
size_t receive(uint8_t *into);
void send(const uint8_t *bytes, size_t bytes_size);
void lock_and_read(uint8_t **bytes, size_t *bytes_size);
void store_and_unlock(const uint8_t *bytes, size_t bytes_size);
uint32_t count_of(const uint8_t *owner, size_t owner_size);
void keep_count(const uint8_t *owner, size_t owner_size, uint32_t count);
void hang_up(void);
void note(const char *words);
void decide(int in);

uint8_t *file;
size_t file_size;
uint32_t max_age = 90 * 24 * 3600;
uint8_t packet[MSCHAP_CHANGE_PACKET];

/* What is on disk: the account file, and the counts of bob and ann. */
static char stored[] = OLD ANN;
static uint32_t counts[2];
static int is_locked, kept, played, failed;

/* The peer: what it answers with in turn, what its reply calls for, and what others do to the files
   before its change comes. */
static const char *const *tries;
static const char *name, *last;
static mschap_peer peer;
static uint32_t call;
static int is_open;
static void (*meanwhile)(void);

/* How a conversation ends: let in, turned away, hung up by the quick start or by the peer. */
enum end { IN = 1, AWAY, HUNG_UP, LEFT };
static enum end end;
static jmp_buf hung_up;

static void check(int is_so, const char *words)
{
    if (!is_so) {
        printf("quick_start: %s\n", words);
        failed = 1;
    }
}

static void make_password(const char *text, mschap_password *password)
{
    mschap_make_password((const uint8_t *)text, strlen(text), password, sizeof *password);
}

size_t receive(uint8_t *into)
{
    static const uint8_t filler[MSCHAP_FILLER_SIZE];
    mschap_password password;
    mschap_new_password renewed;
    if (call == MSCHAP_CALL_RESPONSE && *tries != NULL) {
        last = *tries++;
        make_password(last, &password);
        mschap_write_response(&peer, sizeof peer, &password, sizeof password,
                              (const uint8_t *)name, strlen(name), into, MSCHAP_CHANGE_PACKET);
        return mschap_packet_length(into, MSCHAP_CHANGE_PACKET);
    }
    if (call == MSCHAP_CALL_CHANGE) {
        if (meanwhile != NULL)
            meanwhile();
        make_password(last, &password);
        make_password("renewed", &renewed.password);
        mschap_write_change(&peer, sizeof peer, &password, sizeof password,
                            &renewed, sizeof renewed, filler, sizeof filler,
                            into, MSCHAP_CHANGE_PACKET);
        return MSCHAP_CHANGE_PACKET;
    }
    return 0;
}

void send(const uint8_t *bytes, size_t bytes_size)
{
    uint64_t reason;
    check(!is_locked, "a reply is sent before the lock is released");
    if (is_open) {
        mschap_read_reply(&peer, sizeof peer, bytes, bytes_size, &call, &reason);
        return;
    }
    is_open = mschap_read_challenge(bytes, bytes_size, &peer, sizeof peer) == MSCHAP_OK;
    call = MSCHAP_CALL_RESPONSE;
}

void lock_and_read(uint8_t **bytes, size_t *bytes_size)
{
    static uint8_t read[sizeof stored];
    check(!is_locked, "the lock is taken twice");
    is_locked = 1;
    memcpy(read, stored, sizeof read);
    *bytes = read;
    *bytes_size = sizeof stored - 1;
}

void store_and_unlock(const uint8_t *bytes, size_t bytes_size)
{
    check(is_locked, "something is stored without the lock");
    check(bytes_size == sizeof stored - 1, "another size of the account file is stored");
    memcpy(stored, bytes, bytes_size);
    is_locked = 0;
}

static uint32_t *count(const uint8_t *owner, size_t owner_size)
{
    check(is_locked, "a count is looked at without the lock");
    if (owner_size == 3 && memcmp(owner, "bob", 3) == 0)
        return &counts[0];
    return owner_size == 3 && memcmp(owner, "ann", 3) == 0 ? &counts[1] : NULL;
}

uint32_t count_of(const uint8_t *owner, size_t owner_size)
{
    uint32_t *of = count(owner, owner_size);
    return of == NULL ? 0 : *of;
}

void keep_count(const uint8_t *owner, size_t owner_size, uint32_t n)
{
    uint32_t *of = count(owner, owner_size);
    check(of != NULL, "a count of no account is kept");
    if (of != NULL)
        *of = n;
    kept++;
}

void hang_up(void)
{
    is_locked = 0;
    end = HUNG_UP;
    longjmp(hung_up, 1);
}

void note(const char *words)
{
    (void)words;
}

void decide(int in)
{
    end = in ? IN : AWAY;
}

/* A conversation: who calls, and how it is to end; and the count of bob, and how many counts were
   kept, after it. */
static void play(const char *caller, const char *const *passwords, enum end expected, uint32_t bob,
                 int keeps)
{
    char words[128];
    name = caller;
    tries = passwords;
    is_open = kept = 0;
    end = LEFT;
    if (setjmp(hung_up) == 0)
        quick_start();
    sprintf(words, "%s, %s: it ends with %d and not %d", caller, *passwords, end, expected);
    check(end == expected, words);
    sprintf(words, "%s, %s: the count is %u and not %u", caller, *passwords, (unsigned)counts[0],
            (unsigned)bob);
    check(counts[0] == bob, words);
    check(kept == keeps, "another number of counts is kept");
    played++;
}

static void others_fail(void)
{
    counts[0] = 7;
}

/* An administrator disables the account. */
static void others_write(void)
{
    stored[strchr(stored, '[') + 1 - stored] = 'D';
}

int main(void)
{
    static const char *const right[] = {"MyPw", NULL}, *const renewed[] = {"renewed", NULL};
    static const char *const typo[] = {"mypw", "MyPw", NULL}, *const one[] = {"a", NULL};
    static const char *const three[] = {"a", "b", "c", NULL};
    char before[sizeof stored];
    int i;

    /* mistyped, then right, and it has expired: others fail before the change, which is accepted */
    meanwhile = others_fail;
    play("DOM\\bob", typo, IN, 0, 3);
    check(strstr(stored, OLD) == NULL && strstr(stored, "\n" ANN) != NULL,
          "the new password is not written, or another line is");
    memcpy(before, stored, sizeof before);
    meanwhile = NULL;
    play("bob", renewed, IN, 0, 1);
    /* a guesser calls again and again */
    play("bob", three, AWAY, 3, 3);
    play("other\\bob", three, AWAY, 6, 3);
    play("bob", three, AWAY, 9, 3);
    play("bob", renewed, IN, 0, 1);
    for (i = 1; i <= LIMIT; i++)
        play("bob", one, LEFT, (uint32_t)i, 1);
    play("bob", renewed, LEFT, LIMIT, 1);
    play("DOM\\bob", renewed, LEFT, LIMIT, 1);
    play("bob", one, LEFT, LIMIT + 1, 1);
    /* nobody else is locked, and a name that there is not has no count */
    play("ann", right, IN, LIMIT + 1, 1);
    play("nobody", three, AWAY, LIMIT + 1, 0);
    counts[0] = 0; /* unlocked */
    play("bob", renewed, IN, 0, 1);
    check(memcmp(before, stored, sizeof before) == 0, "a count changes the account file");

    /* what others wrote after the Response stays */
    memcpy(stored, OLD, sizeof OLD - 1);
    meanwhile = others_write;
    play("bob", right, HUNG_UP, 0, 1);
    check(strstr(stored, LINE("bob", "D          ", "LCT-00000001")) == stored,
          "a change undoes what others wrote");
    /* a damaged file serves nobody */
    meanwhile = NULL;
    stored[0] = ':';
    play("ann", right, HUNG_UP, 0, 0);
    if (!failed)
        printf("quick_start: %d conversations end as they should\n", played);
    return failed;
}
