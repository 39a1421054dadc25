/*
 * A peer: it talks to an authenticator (authenticator.c) over standard input and output, and says
 * on standard error what happens. Exit status 0 if it is let in, 1 if not.
 *
 *     peer NAME NEW PASSWORD ..    answers with each PASSWORD in turn, as a user who mistypes it;
 *                                  where it has expired, changes it to NEW, by the version 1 or 2
 *                                  change that is called for
 *     peer --lossy NAME NEW ..     the same on a bad line, which loses the first reply to each
 *                                  packet: the packet is sent again
 *     peer --old OLD NAME NEW ..   the same by a user who types OLD for the old password in the
 *                                  change; behind --lossy, if both are given
 *
 * A real program does not take a password from the command line, where others can see it.
 */
#define _POSIX_C_SOURCE 200809L

#include "pipe.h"
#include <string.h>

static mschap_peer peer;
static int lossy;

/* Reads the reply to what was sent last. A packet that is refused is passed over: it may be an old
   one that was late. */
static uint32_t await_reply(void)
{
    uint8_t packet[MSCHAP_REPLY_SIZE];
    uint32_t number, call;
    uint64_t reason;
    do {
        size_t size = receive_packet(packet, sizeof packet);
        if (size == 0)
            die("the other end has hung up");
        number = mschap_read_reply(&peer, sizeof peer, packet, size, &call, &reason);
    } while (number != MSCHAP_OK);
    fprintf(stderr, "reason: %lu\n", (unsigned long)reason);
    return call;
}

/* Sends a packet, and reads the reply to it. Where no reply comes, the same bytes are sent again (a
   real program waits for some seconds): the authenticator gives the same reply again, and judges
   nothing twice. */
static uint32_t exchange(const uint8_t *packet, size_t packet_size)
{
    uint8_t lost[MSCHAP_REPLY_SIZE];
    send_packet(packet, packet_size);
    if (lossy && receive_packet(lost, sizeof lost) > 0) {
        fprintf(stderr, "no reply: sent again\n");
        send_packet(packet, packet_size);
    }
    return await_reply();
}

static uint32_t respond(const char *name, const mschap_password *password)
{
    uint8_t packet[MSCHAP_RESPONSE_PACKET];
    if (mschap_write_response(&peer, sizeof peer, password, sizeof *password,
                              (const uint8_t *)name, strlen(name),
                              packet, sizeof packet) != MSCHAP_OK)
        die("a name that is empty or too long");
    return exchange(packet, sizeof packet);
}

/* Whoever listens decrypts both hashes from this one: a program that may be used where others do
   hangs up instead. */
static uint32_t change_1(const mschap_password *password, const char *text)
{
    uint8_t packet[MSCHAP_CHANGE_1_PACKET];
    mschap_new_password renewed;
    make_password(text, &renewed.password);
    if (mschap_write_change_1(&peer, sizeof peer, password, sizeof *password,
                              &renewed, sizeof renewed, packet, sizeof packet) != MSCHAP_OK)
        die("the change cannot be written");
    return exchange(packet, sizeof packet);
}

static uint32_t change(const mschap_password *password, const char *text)
{
    uint8_t packet[MSCHAP_CHANGE_PACKET], filler[MSCHAP_FILLER_SIZE];
    mschap_new_password renewed;
    make_password(text, &renewed.password);
    draw(filler, sizeof filler);
    if (mschap_write_change(&peer, sizeof peer, password, sizeof *password,
                            &renewed, sizeof renewed, filler, sizeof filler,
                            packet, sizeof packet) != MSCHAP_OK)
        die("the change cannot be written");
    return exchange(packet, sizeof packet);
}

int main(int argc, char **argv)
{
    uint8_t packet[MSCHAP_REPLY_SIZE];
    mschap_password password;
    uint32_t call = MSCHAP_CALL_RESPONSE;
    const char *old = NULL;
    size_t size;
    int next = 3;

    if (argc > 1 && strcmp(argv[1], "--lossy") == 0) {
        lossy = 1;
        argc--;
        argv++;
    }
    if (argc > 2 && strcmp(argv[1], "--old") == 0) {
        old = argv[2];
        argc -= 2;
        argv += 2;
    }
    if (argc < 4)
        die("usage: peer [--lossy] [--old OLD] NAME NEW PASSWORD ..");
    size = receive_packet(packet, sizeof packet);
    if (mschap_read_challenge(packet, size, &peer, sizeof peer) != MSCHAP_OK)
        die("no Challenge");
    while (call == MSCHAP_CALL_RESPONSE && next < argc) {
        make_password(argv[next++], &password);
        call = respond(argv[1], &password);
    }
    if (call == MSCHAP_CALL_CHANGE || call == MSCHAP_CALL_CHANGE_1) {
        fprintf(stderr, "the password has expired, and is changed\n");
        if (old != NULL)
            make_password(old, &password);
        call = call == MSCHAP_CALL_CHANGE ? change(&password, argv[2])
                                          : change_1(&password, argv[2]);
    }
    fprintf(stderr, call == MSCHAP_CALL_NONE ? "in\n" : "not let in\n");
    return call == MSCHAP_CALL_NONE ? 0 : 1;
}
