/* A client of one session, whose descriptor 0 is the server's socket:
 *
 *     lengths alone|streams LAST
 *
 * `alone`: for each length from 1 to LAST a piece of so many bytes is sent, and nothing more before
 * the server has read it: a WRITE, whose reply is waited for, or a part of one, where that is
 * shorter. And for each length that a reply of DATA has, one of so many bytes is asked for.
 * `streams`: requests are sent in pieces of 1 byte, of 2, and so on to LAST, and replies are read
 * by reads of 1 byte, of 2, and so on, each way as fast as it goes.
 * Each reply is compared. */
#include "version.h"

#include <errno.h>
#include <pthread.h>
#include <sched.h>
#include <stdint.h>
#include <stdio.h>
#include <stdlib.h>
#include <string.h>
#include <sys/ioctl.h>
#include <sys/socket.h>
#include <sys/time.h>
#include <unistd.h>

enum { LINE = 0, PATTERN = 1 << 17, SHIFTS = 4093, SECONDS = 30 };

/* How many bytes a READ has, what a WRITE has before its data and DATA before its own, and OK's
 * STATUS has; and how many a WRITE has that comes in two pieces. */
enum { READ = 33, HEAD = 33, DATA = 13, OK = 28, SHORT = 60 };

static uint8_t pattern[PATTERN + SHIFTS];

static void stop(const char *why, long at)
{
    fprintf(stderr, "lengths: %s at %ld: %s\n", why, at, strerror(errno));
    exit(1);
}

static void put_u32(uint8_t *at, uint64_t number)
{
    for (int i = 0; i < 4; i++)
        at[i] = (uint8_t)(number >> (24 - 8 * i));
}

/* Bytes that look drawn, so that a lost one shows. */
static void fill_pattern(void)
{
    uint64_t state = 1;
    for (size_t i = 0; i < sizeof pattern; i++) {
        state = state * 6364136223846793005u + 1442695040888963407u;
        pattern[i] = (uint8_t)(state >> 33);
    }
}

/* The front of a READ or a WRITE of the file, under an id: its handle is that of the first call,
 * its offset 0. */
static void put_front(uint8_t *at, uint32_t length, uint8_t kind, uint32_t id, uint32_t count)
{
    static const uint8_t handle[] = {0, 0, 0, 8, 0, 0, 0, 0, 0, 0, 0, 1, 0, 0, 0, 0, 0, 0, 0, 0};
    put_u32(at, length);
    at[4] = kind;
    put_u32(at + 5, id);
    memcpy(at + 9, handle, sizeof handle);
    put_u32(at + 29, count);
}

/* A WRITE of so many bytes of the pattern, from a shift on. Gives its length. */
static size_t put_write(uint8_t *at, uint32_t id, uint32_t count)
{
    put_front(at, HEAD - 4 + count, 6, id, count);
    memcpy(at + HEAD, pattern + id % SHIFTS, count);
    return HEAD + count;
}

static size_t put_read(uint8_t *at, uint32_t id, uint32_t count)
{
    put_front(at, READ - 4, 5, id, count);
    return READ;
}

static size_t put_ok(uint8_t *at, uint32_t id)
{
    static const uint8_t rest[] = "\0\0\0\0\0\0\0\7Success\0\0\0";
    put_u32(at, OK - 4);
    at[4] = 101;
    put_u32(at + 5, id);
    memcpy(at + 9, rest, sizeof rest);
    return OK;
}

/* What a READ of so many bytes is answered, of a WRITE under this id. */
static size_t put_data(uint8_t *at, uint32_t id, uint32_t written, uint32_t count)
{
    put_u32(at, DATA - 4 + count);
    at[4] = 103;
    put_u32(at + 5, id);
    put_u32(at + 9, count);
    memcpy(at + DATA, pattern + written % SHIFTS, count);
    return DATA + count;
}

static void send_all(const uint8_t *bytes, size_t count, long at)
{
    while (count > 0) {
        ssize_t n = send(LINE, bytes, count, MSG_NOSIGNAL);
        if (n <= 0)
            stop("the server takes nothing", at);
        bytes += n;
        count -= (size_t)n;
    }
}

/* Waits until the server has read all that it was sent. */
static void wait_until_read(long at)
{
    int waits = 1;
    while (ioctl(LINE, TIOCOUTQ, &waits) == 0 && waits > 0)
        sched_yield();
    if (waits != 0)
        stop("it can't be told what was read", at);
}

static void receive(const uint8_t *wanted, size_t count, long at)
{
    static uint8_t got[PATTERN];
    size_t have = 0;
    while (have < count) {
        ssize_t n = recv(LINE, got + have, count - have, 0);
        if (n <= 0)
            stop("no reply", at);
        have += (size_t)n;
    }
    if (memcmp(got, wanted, count) != 0)
        stop("another reply", at);
}

/* The program ends where it waits for so many seconds. */
static void limit(void)
{
    const struct timeval most = {.tv_sec = SECONDS};
    if (setsockopt(LINE, SOL_SOCKET, SO_RCVTIMEO, &most, sizeof most) != 0
        || setsockopt(LINE, SOL_SOCKET, SO_SNDTIMEO, &most, sizeof most) != 0)
        stop("no limit", 0);
}

/* Begins the session, and opens the file, by its first call. */
static void begin(void)
{
    static const uint8_t first[] = {0, 0, 0, 5, 1, 0, 0, 0, 3, 0, 0, 0, 19, 3,    0, 0,
                                    0, 0, 0, 0, 0, 2, '/', 'f', 0, 0, 0, 0x0b, 0, 0, 0, 0};
    static const uint8_t handle[] = {0, 0, 0, 17, 102, 0, 0, 0, 0, 0, 0,
                                     0, 8, 0, 0,  0,   0, 0, 0, 0, 1};
    uint8_t version[VERSION];
    send_all(first, sizeof first, 0);
    for (size_t have = 0; have < VERSION;) {
        ssize_t n = recv(LINE, version + have, VERSION - have, 0);
        if (n <= 0)
            stop("no VERSION", 0);
        have += (size_t)n;
    }
    receive(handle, sizeof handle, 0);
}

static uint8_t request[PATTERN], reply[PATTERN];

/* A WRITE comes in two pieces, the first of so many bytes. */
static void in_two(uint32_t length)
{
    uint32_t id = 2 * length;
    put_write(request, id, SHORT - HEAD);
    send_all(request, length, length);
    wait_until_read(length);
    send_all(request + length, SHORT - length, length);
    receive(reply, put_ok(reply, id), length);
}

/* A WRITE of so many bytes in all comes in one piece, and is answered. Then what it wrote is
 * read. */
static void in_one(uint32_t length)
{
    uint32_t id = 2 * length, count = length - HEAD;
    send_all(request, put_write(request, id, count), length);
    receive(reply, put_ok(reply, id), length);
    send_all(request, put_read(request, id + 1, count), length);
    receive(reply, put_data(reply, id + 1, id, count), length);
}

/* How many bytes the WRITE and the READ under ids 2 k and 2 k + 1 are of. */
static uint32_t count_of(uint32_t k)
{
    return 1 + k * 997 % 65521;
}

/* Requests, or their replies, as they stand one behind the other: of the last two of them the
 * bytes, of which those before `at` were taken. */
struct stream {
    uint8_t bytes[2 * PATTERN];
    size_t at, count;
    uint32_t last;
    int is_replies;
};

/* Puts the next WRITE and READ, or their replies, behind what is left. */
static void go_on(struct stream *stream)
{
    uint32_t k = ++stream->last, id = 2 * k, count = count_of(k);
    stream->at = stream->count = 0;
    if (stream->is_replies) {
        stream->count = put_ok(stream->bytes, id);
        stream->count += put_data(stream->bytes + stream->count, id + 1, id, count);
    } else {
        stream->count = put_write(stream->bytes, id, count);
        stream->count += put_read(stream->bytes + stream->count, id + 1, count);
    }
}

/* The next bytes of a stream. */
static void take(struct stream *stream, uint8_t *to, size_t count)
{
    while (count > 0) {
        size_t some = stream->count - stream->at;
        if (some == 0) {
            go_on(stream);
            continue;
        }
        some = some < count ? some : count;
        memcpy(to, stream->bytes + stream->at, some);
        stream->at += some;
        to += some;
        count -= some;
    }
}

static uint32_t last, asked;

/* Sends pieces of each length, and what the last request lacks. */
static void *send_stream(void *none)
{
    static struct stream requests;
    static uint8_t piece[PATTERN];
    for (uint32_t length = 1; length <= last; length++) {
        take(&requests, piece, length);
        send_all(piece, length, length);
    }
    send_all(requests.bytes + requests.at, requests.count - requests.at, last);
    asked = requests.last;
    shutdown(LINE, SHUT_WR);
    return none;
}

/* Reads by each length again and again, to the end. Gives how many requests were answered. */
static uint32_t receive_stream(void)
{
    static struct stream replies = {.is_replies = 1};
    static uint8_t got[PATTERN], wanted[PATTERN];
    for (uint32_t length = 1;; length = length % last + 1) {
        ssize_t n = recv(LINE, got, length, 0);
        if (n < 0)
            stop("no reply", replies.last);
        if (n == 0)
            break;
        take(&replies, wanted, (size_t)n);
        if (memcmp(got, wanted, (size_t)n) != 0)
            stop("another reply", replies.last);
    }
    if (replies.at != replies.count)
        stop("the server ended", replies.last);
    return replies.last;
}

int main(int count, char **words)
{
    pthread_t sender;
    if (count != 3)
        return 2;
    last = (uint32_t)atol(words[2]);
    limit();
    fill_pattern();
    begin();
    if (strcmp(words[1], "alone") == 0) {
        /* A reply is shorter than the WRITE of its bytes. */
        for (uint32_t length = 1; length <= last + HEAD - DATA; length++) {
            alarm(2 * SECONDS);
            if (length <= HEAD)
                in_two(length);
            else
                in_one(length);
        }
        return 0;
    }
    if (pthread_create(&sender, NULL, send_stream, NULL) != 0)
        return 2;
    uint32_t answered = receive_stream();
    pthread_join(sender, NULL);
    if (answered != asked)
        stop("the server ended", answered);
    return 0;
}
