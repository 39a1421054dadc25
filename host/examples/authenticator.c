/*
 * An authenticator: it talks to one peer (peer.c) over standard input and output, and says on
 * standard error what happens. What has to outlast it is in files of a folder: `issued`, the list
 * of issued challenges; `smbpasswd`, the accounts in the layout of Samba's smbpasswd(5); and, as
 * that has no place for it, `failures`: how many Responses in a row have failed for an account. So
 * a guesser who hangs up and calls back is stopped, though this program is started for each call.
 *
 *     authenticator FOLDER NAME PASSWORD    gives an account a password of long ago, which must be
 *                                           changed (unless its line has the flag X), and unlocks
 *                                           it; makes it, if there is none of that name
 *     authenticator FOLDER NAME             unlocks an account
 *     authenticator FOLDER                  lets a peer in, or not: exit status 0 or 1
 *
 * Samba's own programs must not write the file meanwhile. A real program does not take a password
 * from the command line, where others can see it.
 */
#define _XOPEN_SOURCE 700 /* POSIX, with lockf */

#include "pipe.h"
#include <errno.h>
#include <string.h>
#include <sys/stat.h>
#include <time.h>

#define OPENINGS 100 /* that the list has room for, with the default of 2 retries */
static uint8_t list[MSCHAP_LIST_SIZE(3 * OPENINGS)];

#define ACCOUNTS "smbpasswd"
#define MAX_AGE (90 * 24 * 3600) /* seconds: an older password must be changed */
#define LONG_AGO 1               /* a time that is longer ago; one of 0 would never expire */
#define FIRST_UID 1001

/* Which change of an expired password is awaited. For handsets that know only code 5 compile with
   -DCHANGE=MSCHAP_CHANGE_1, and run it where nobody else listens (see VERSION 1 CHANGES in
   mschap.h). */
#ifndef CHANGE
#define CHANGE MSCHAP_CHANGE_2
#endif

#define COUNTS "failures"
#define LIMIT 10 /* so many failures in a row lock an account */
#define DIGITS 3 /* of a count */
#define HEAD 4   /* bytes of its line before the name: the digits and a space */

/* A file's whole bytes. Returns 0 if there is no such file. */
static int load(const char *path, void *bytes, size_t size)
{
    uint8_t more;
    int from = open(path, O_RDONLY);
    if (from < 0)
        return 0;
    if (!read_all(from, bytes, size) || read(from, &more, 1) != 0)
        die("a file of another size than was stored");
    close(from);
    return 1;
}

/* Whether there is a file of that name, and its status. A symbolic link is refused: `store` would
   replace the link, and leave the file that it points to as it was. */
static int exists(const char *path, struct stat *status)
{
    if (lstat(path, status) != 0) {
        if (errno != ENOENT)
            die("the folder cannot be read");
        return 0;
    }
    if (S_ISLNK(status->st_mode)) {
        fprintf(stderr, "%s is a symbolic link: give the folder of the file itself\n", path);
        exit(2);
    }
    return 1;
}

/* Stores bytes so that a crash leaves the old file or the new one, and nothing between. The new one
   has the owner, group and mode of the old one before any byte is in it, so that nobody can read it
   who could not read the old one. */
static void store(const char *path, const void *bytes, size_t size)
{
    static const char fresh[] = "new";
    struct stat old;
    int replaces = exists(path, &old), folder = open(".", O_RDONLY), to;
    unlink(fresh); /* if a crash left one, others may be able to read it, or have it open */
    to = open(fresh, O_WRONLY | O_CREAT | O_EXCL | O_NOFOLLOW, 0600);
    if (to >= 0 && replaces
        && (fchown(to, old.st_uid, old.st_gid) != 0 || fchmod(to, old.st_mode & 07777) != 0)) {
        unlink(fresh);
        die("a new file cannot be given to the owner of the old one: nothing is stored");
    }
    if (to < 0 || !write_all(to, bytes, size) || fsync(to) != 0 || close(to) != 0
        || rename(fresh, path) != 0 || folder < 0 || fsync(folder) != 0)
        die("the folder cannot be written");
    close(folder);
}

/* All authenticators of the folder change its files one at a time: so there is a lock, on a file of
   its own. To close it is to release it. It is held from the lookup of an account until what the
   step gives is stored: two steps with the same count would count one failure. */
static int take_lock(void)
{
    int lock = open("lock", O_RDWR | O_CREAT, 0600);
    if (lock < 0 || lockf(lock, F_LOCK, 0) != 0)
        die("the folder cannot be locked");
    return lock;
}

/* The bytes of a file, as it was read last. */
struct bytes {
    uint8_t *at;
    size_t size;
};
static struct bytes accounts, counts;

/* Makes it longer by so many bytes, which are to be filled, and returns the first of them. Behind
   them there is room for a terminator. */
static uint8_t *extend(struct bytes *bytes, size_t more)
{
    size_t size = bytes->size;
    bytes->size += more;
    bytes->at = realloc(bytes->at, bytes->size + sizeof "");
    if (bytes->at == NULL)
        die("no memory");
    return bytes->at + size;
}

/* Reads it. Unless it has to be there, a file that is missing counts as an empty one. */
static void read_file(const char *path, int required, struct bytes *bytes)
{
    struct stat status;
    int from;
    bytes->size = 0;
    if (!exists(path, &status) && !required)
        return;
    from = open(path, O_RDONLY);
    if (from < 0 || fstat(from, &status) != 0
        || !read_all(from, extend(bytes, (size_t)status.st_size), (size_t)status.st_size)) {
        fprintf(stderr, "%s cannot be read\n", path);
        exit(2);
    }
    close(from);
}

/* Serves nobody by a file that is damaged: the offset tells where it is to be corrected. */
static void die_of_file(uint32_t number, size_t offset)
{
    if (number == MSCHAP_BAD_LINE)
        fprintf(stderr, ACCOUNTS ": a malformed line at offset %zu\n", offset);
    else if (number == MSCHAP_DOUBLED_NAME)
        fprintf(stderr, ACCOUNTS ": the name is on two lines, first at offset %zu\n", offset);
    else
        fprintf(stderr, ACCOUNTS ": the account cannot be written\n");
    exit(2);
}

/* Whose Response it was: a change has no name. */
static uint8_t name[MSCHAP_NAME_MAX];
static size_t name_size;

static void set_name(const void *bytes, size_t size)
{
    if (size > sizeof name)
        die("a name that no account has");
    memcpy(name, bytes, size);
    name_size = size;
}

/* The line of that name among the counts: digits, a space and the name. NULL, if it has not failed.
   A line of another form serves nobody: it could be this one. */
static uint8_t *find_count(void)
{
    uint8_t *found = NULL, *line, *end;
    size_t at = 0;
    while (at < counts.size) {
        line = counts.at + at;
        end = memchr(line, '\n', counts.size - at);
        if (end == NULL || strspn((char *)line, "0123456789") != DIGITS || line[DIGITS] != ' ')
            die(COUNTS ": a malformed line");
        if ((size_t)(end - line) == HEAD + name_size && memcmp(line + HEAD, name, name_size) == 0)
            found = line;
        at = (size_t)(++end - counts.at);
    }
    return found;
}

/* Sets it; an account that has not failed needs none. */
static void set_count(uint32_t failures)
{
    char digits[sizeof "4294967295"];
    uint8_t *line = find_count();
    if (line == NULL && failures > 0) {
        line = extend(&counts, HEAD + name_size + sizeof *line);
        line[DIGITS] = ' ';
        memcpy(line + HEAD, name, name_size);
        line[HEAD + name_size] = '\n';
    }
    if (line != NULL) {
        sprintf(digits, "%0*u", DIGITS, (unsigned)failures);
        memcpy(line, digits, DIGITS);
    }
}

/* What the file says of the name now; as it has no count, that is 0. */
static void look_up(mschap_record *record)
{
    size_t offset;
    uint32_t number;
    read_file(ACCOUNTS, 1, &accounts);
    number = mschap_find_account(accounts.at, accounts.size, name, name_size,
                                 (uint32_t)time(NULL), MAX_AGE, record, sizeof *record, &offset);
    if (number != MSCHAP_OK)
        die_of_file(number, offset);
}

/* What the lookup of the name in a Response finds, without the domain before its backslash, and how
   often it has failed. */
static void look_up_response(const uint8_t *packet, size_t size, mschap_record *record)
{
    const uint8_t *line;
    set_name(packet + mschap_account_offset(packet, size), mschap_account_length(packet, size));
    look_up(record);
    line = find_count();
    if (line != NULL
        && mschap_set_failures(record, sizeof *record,
                               (uint32_t)strtoul((const char *)line, NULL, 10)) != MSCHAP_OK)
        die(COUNTS ": a count over 255");
}

/* Writes a changed record into the file. It is read again, since other accounts may have changed
   after the lookup; and if this one has, as by an administrator who reset the password, that stays,
   and the peer is told nothing. An account that had expired has still: time only grows. Neither
   record has a failure: a change follows a valid Response. */
static void write_back(const mschap_record *record, const mschap_record *changed)
{
    mschap_record present;
    size_t offset;
    uint32_t number;
    look_up(&present);
    if (memcmp(&present, record, sizeof present) != 0)
        die("the account was changed after its Response: the new password is not stored");
    number = mschap_write_account(accounts.at, accounts.size, name, name_size,
                                  changed, sizeof *changed, (uint32_t)time(NULL), &offset);
    if (number != MSCHAP_OK)
        die_of_file(number, offset);
    store(ACCOUNTS, accounts.at, accounts.size);
}

/* Stores what a step gives: after a Response its count alone, after an accepted change the record
   with the new password. Returns whether the account is locked.
   The counts are stored also where they are as they were, and where there is no such account: a
   right guess at a locked account leaves its count, and the time is not to tell it. */
static int keep(uint32_t awaited, const mschap_answer *answer, mschap_record *record)
{
    mschap_record after;
    uint32_t failures = 0;
    if (mschap_answer_repeated(answer, sizeof *answer))
        return 0;
    if (mschap_answer_record(answer, sizeof *answer, &after, sizeof after) == MSCHAP_OK) {
        if (awaited != MSCHAP_AWAITS_RESPONSE)
            write_back(record, &after);
        failures = mschap_record_failures(&after, sizeof after);
        set_count(failures);
        *record = after;
    }
    store(COUNTS, counts.at, counts.size);
    return failures >= LIMIT;
}

/* For the keeper of the accounts: nothing else unlocks one but a new password. */
static void unlock(const char *owner)
{
    int lock = take_lock();
    set_name(owner, strlen(owner));
    read_file(COUNTS, 0, &counts);
    if (find_count() == NULL)
        die("no account of that name has failed");
    set_count(0);
    store(COUNTS, counts.at, counts.size);
    close(lock);
}

/* A line for an account behind the others, with neither a hash nor a last change yet, and without
   the flag X. The uid, which nothing here reads, counts up. */
static void append_line(const char *owner)
{
    static const char format[] = "%s%s:%lu:%s:%s:[U          ]:LCT-00000000:\n";
    static const char none[] = "XXXXXXXXXXXXXXXXXXXXXXXXXXXXXXXX";
    const int is_ended = accounts.size == 0 || accounts.at[accounts.size - 1] == '\n';
    const char *end = is_ended ? "" : "\n";
    uint64_t lines, bad, disabled, expired, no_nt;
    unsigned long uid;
    int size;
    mschap_count_accounts(accounts.at, accounts.size, LONG_AGO, MAX_AGE,
                          &lines, &bad, &disabled, &expired, &no_nt);
    uid = FIRST_UID + (unsigned long)lines;
    size = snprintf(NULL, 0, format, end, owner, uid, none, none);
    if (size < 0)
        die("a name that no line can have");
    sprintf((char *)extend(&accounts, (size_t)size), format, end, owner, uid, none, none);
}

static void add_account(const char *owner, const char *text)
{
    mschap_password password;
    mschap_nthash hash;
    mschap_record record;
    size_t offset;
    uint32_t number;
    int lock = take_lock();
    set_name(owner, strlen(owner));
    make_password(text, &password);
    if (mschap_nt_hash(&password, sizeof password, &hash, sizeof hash) != MSCHAP_OK
        || mschap_make_record(MSCHAP_FOUND | MSCHAP_HAS_NT_HASH, &hash, sizeof hash, NULL, 0,
                              &record, sizeof record) != MSCHAP_OK)
        die("no such account can be made");
    read_file(ACCOUNTS, 0, &accounts);
    read_file(COUNTS, 0, &counts);
    number = mschap_write_account(accounts.at, accounts.size, name, name_size,
                                  &record, sizeof record, LONG_AGO, &offset);
    if (number == MSCHAP_NO_ACCOUNT) {
        append_line(owner);
        if (mschap_write_account(accounts.at, accounts.size, name, name_size,
                                 &record, sizeof record, LONG_AGO, &offset) != MSCHAP_OK)
            die("a name that no line can have");
    } else if (number != MSCHAP_OK) {
        die_of_file(number, offset);
    }
    set_count(mschap_record_failures(&record, sizeof record)); /* 0, in a record newly made */
    store(ACCOUNTS, accounts.at, accounts.size);
    store(COUNTS, counts.at, counts.size);
    close(lock);
}

/* Opens a conversation, and stores the list before anything is sent. All authenticators that know
   these accounts use this list. */
static void open_conversation(mschap_conversation *talk, uint8_t *reply, size_t reply_size)
{
    uint8_t challenge[MSCHAP_CHALLENGE_SIZE], identifier;
    uint32_t number;
    int lock = take_lock();
    if (!load("issued", list, sizeof list))
        mschap_make_list(list, sizeof list);
    draw(&identifier, sizeof identifier);
    do {
        draw(challenge, sizeof challenge);
        /* Phones that answer by LM alone would need | MSCHAP_LM_ALLOWED, and accounts with an LM
           hash: those in a file of Samba may have one, those added here have none. */
        number = mschap_open(identifier, MSCHAP_TERMS | MSCHAP_LIMIT(LIMIT) | CHANGE,
                             challenge, sizeof challenge, list, sizeof list,
                             talk, sizeof *talk, reply, reply_size);
    } while (number == MSCHAP_SPENT);
    if (number == MSCHAP_LIST_FULL)
        die("the list is full: change the passwords, and remove it");
    if (number != MSCHAP_OK)
        die("the list is none that this library has made");
    store("issued", list, sizeof list);
    close(lock);
    fprintf(stderr, "places used: %u\n", (unsigned)mschap_list_used(list, sizeof list));
}

int main(int argc, char **argv)
{
    mschap_conversation talk;
    mschap_record record;
    mschap_answer answer;
    uint8_t packet[MSCHAP_CHANGE_PACKET], reply[MSCHAP_REPLY_SIZE];
    uint32_t awaited, number, fault;
    size_t size;
    int lock, locked;

    if (argc < 2 || argc > 4 || chdir(argv[1]) != 0)
        die("usage: authenticator FOLDER [NAME [PASSWORD]]");
    if (argc == 4)
        add_account(argv[2], argv[3]);
    if (argc == 3)
        unlock(argv[2]);
    if (argc > 2)
        return 0;
    open_conversation(&talk, reply, sizeof reply);
    send_packet(reply, sizeof reply);
    /* Every packet, as long as the link is up, also when nothing is awaited: a peer that missed the
       last reply sends its packet again, and gets the same reply again. */
    while ((size = receive_packet(packet, sizeof packet)) > 0) {
        lock = take_lock();
        read_file(COUNTS, 0, &counts);
        /* A change has no name: it is for the account that was looked up for the last Response. */
        awaited = mschap_conversation_awaits(&talk, sizeof talk);
        if (awaited == MSCHAP_AWAITS_RESPONSE)
            look_up_response(packet, size, &record);
        number = mschap_step(&talk, sizeof talk, packet, size, &record, sizeof record,
                             reply, sizeof reply, &answer, sizeof answer);
        if (number != MSCHAP_OK) {
            close(lock);
            fprintf(stderr, "refused: %u\n", (unsigned)number);
            continue;
        }
        /* Count and password are stored before the peer hears of them. */
        locked = keep(awaited, &answer, &record);
        close(lock);
        send_packet(reply, sizeof reply);
        fprintf(stderr, "reason: %u%s\n", (unsigned)mschap_answer_reason(&answer, sizeof answer),
                mschap_answer_repeated(&answer, sizeof answer) ? ", again" : "");
        /* That it is locked is for the log alone; the count itself is a secret. */
        if (locked)
            fprintf(stderr, "the account is locked\n");
        /* What is wrong with a change is for the log alone: the peer is told no more than 709. */
        fault = mschap_answer_fault(&answer, sizeof answer);
        if (fault != MSCHAP_FAULT_NONE)
            fprintf(stderr, "fault: %u, %s\n", (unsigned)fault, mschap_fault_text(fault));
    }
    /* A real program lets the peer in as soon as nothing is awaited. This one tells it in the end:
       after the last judgement there are only repeats of it, so the reason is still the same. */
    if (mschap_conversation_awaits(&talk, sizeof talk) != MSCHAP_AWAITS_NOTHING)
        die("the other end has hung up");
    return mschap_answer_reason(&answer, sizeof answer) == MSCHAP_SUCCESS ? 0 : 1;
}
