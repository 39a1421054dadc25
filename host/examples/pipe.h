/*
 * What both example programs need beside the library: packets over a pipe, and random bytes. Where
 * a packet ends on a line is not MS-CHAP's to say (PPP says it), so here each is sent behind its
 * length in two bytes.
 */
#include <fcntl.h>
#include <mschap.h>
#include <stdio.h>
#include <stdlib.h>
#include <unistd.h>

static void die(const char *why)
{
    fprintf(stderr, "%s\n", why);
    exit(2);
}

/* All of the bytes, or none at the end of the pipe. */
static int read_all(int from, uint8_t *bytes, size_t size)
{
    while (size > 0) {
        ssize_t got = read(from, bytes, size);
        if (got <= 0)
            return 0;
        bytes += got;
        size -= (size_t)got;
    }
    return 1;
}

static int write_all(int to, const uint8_t *bytes, size_t size)
{
    while (size > 0) {
        ssize_t put = write(to, bytes, size);
        if (put <= 0)
            return 0;
        bytes += put;
        size -= (size_t)put;
    }
    return 1;
}

/* Sends the packet that the library wrote at the front of a buffer. */
static void send_packet(const uint8_t *buffer, size_t buffer_size)
{
    size_t size = mschap_packet_length(buffer, buffer_size);
    const uint8_t head[] = {(uint8_t)(size >> 8), (uint8_t)size};
    if (!write_all(STDOUT_FILENO, head, sizeof head) || !write_all(STDOUT_FILENO, buffer, size))
        die("the other end does not read");
}

/* Receives a packet, and returns its size; 0 if the other end has hung up. */
static size_t receive_packet(uint8_t *packet, size_t room)
{
    uint8_t head[2];
    size_t size;
    if (!read_all(STDIN_FILENO, head, sizeof head))
        return 0;
    size = (size_t)head[0] << 8 | head[1];
    if (size == 0 || size > room || !read_all(STDIN_FILENO, packet, size))
        die("the other end sends too much, or too little");
    return size;
}

/* Bytes that nobody can predict, from the system. */
static void draw(uint8_t *bytes, size_t size)
{
    int source = open("/dev/urandom", O_RDONLY);
    if (source < 0 || !read_all(source, bytes, size))
        die("no random bytes");
    close(source);
}

/* The password of a text in UTF-8, with no terminator. */
static void make_password(const char *text, mschap_password *password)
{
    size_t size = 0;
    while (text[size] != '\0')
        size++;
    if (mschap_make_password((const uint8_t *)text, size, password, sizeof *password) != MSCHAP_OK)
        die("a password that is not UTF-8, or too long");
}
