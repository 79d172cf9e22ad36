/* Both ends of a bridge, to which many small pieces are given:
 *
 *     pieces INPUT OUTPUT PEER COUNT
 *
 * By descriptors: a pipe to the bridge's input, which keeps pieces apart, its output, and the
 * socket behind it. COUNT pieces of 1 to 7 bytes go each way: of those that the socket is given,
 * each once the one before it was read. All bytes are compared. */
#include <errno.h>
#include <pthread.h>
#include <sched.h>
#include <stdint.h>
#include <stdio.h>
#include <stdlib.h>
#include <string.h>
#include <sys/ioctl.h>
#include <sys/socket.h>
#include <unistd.h>

enum { ROOM = 1 << 16 };

static int input, output, peer;
static long count;

static void stop(const char *why, long at)
{
    fprintf(stderr, "pieces: %s at %ld: %s\n", why, at, strerror(errno));
    exit(1);
}

/* The next byte of one way's bytes, which look drawn. */
static uint8_t next(uint64_t *state)
{
    *state = *state * 6364136223846793005u + 1442695040888963407u;
    return (uint8_t)(*state >> 33);
}

static size_t length_of(long piece)
{
    return 1 + (size_t)piece % 7;
}

/* Waits until the bridge has read all that the socket was given. */
static void wait_until_read(long piece)
{
    int waits = 1;
    while (ioctl(peer, TIOCOUTQ, &waits) == 0 && waits > 0)
        sched_yield();
    if (waits != 0)
        stop("it can't be told what was read", piece);
}

/* Gives all pieces to one end, and ends it. */
static void *give(void *end)
{
    int line = *(const int *)end;
    uint64_t state = (uint64_t)line;
    uint8_t bytes[8];
    for (long piece = 0; piece < count; piece++) {
        size_t length = length_of(piece);
        for (size_t i = 0; i < length; i++)
            bytes[i] = next(&state);
        if (write(line, bytes, length) != (ssize_t)length)
            stop("a piece isn't taken", piece);
        if (line == peer)
            wait_until_read(piece);
    }
    if (line == peer)
        shutdown(peer, SHUT_WR);
    else
        close(input);
    return NULL;
}

/* Compares all that comes at one end with what is given to the other. */
static void compare(int line, int other)
{
    static _Thread_local uint8_t got[ROOM];
    uint64_t state = (uint64_t)other;
    long bytes = 0, wanted = 0;
    for (long piece = 0; piece < count; piece++)
        wanted += (long)length_of(piece);
    for (;;) {
        ssize_t n = read(line, got, ROOM);
        if (n < 0)
            stop("nothing comes", bytes);
        if (n == 0)
            break;
        for (ssize_t i = 0; i < n; i++)
            if (got[i] != next(&state))
                stop("another byte", bytes + i);
        bytes += n;
    }
    if (bytes != wanted)
        stop("the end", bytes);
}

static void *compare_up(void *none)
{
    compare(peer, input);
    return none;
}

int main(int words, char **word)
{
    pthread_t up, down, compares;
    if (words != 5)
        return 2;
    input = atoi(word[1]);
    output = atoi(word[2]);
    peer = atoi(word[3]);
    count = atol(word[4]);
    if (pthread_create(&compares, NULL, compare_up, NULL) != 0
        || pthread_create(&up, NULL, give, &input) != 0
        || pthread_create(&down, NULL, give, &peer) != 0)
        return 2;
    compare(output, peer);
    pthread_join(up, NULL);
    pthread_join(down, NULL);
    pthread_join(compares, NULL);
    return 0;
}
