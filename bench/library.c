/* COUNT STATs by the calls of lucernetick.h, of a directory four deep, each fed, settled, looked at
 * and sent. Prints the processor time of one in nanoseconds. */
#include "lucernetick.h"
#include "../tests/c/version.h"

#include <stdio.h>
#include <stdlib.h>
#include <string.h>
#include <time.h>

enum { MOMENT = 100, DEPTH = 4, ROOM = 256, REPLIES = 100, REPLY = 41 };

static lt_engine *engine;
static uint64_t session;
static uint8_t room[ROOM];

static void stop(const char *why)
{
    fprintf(stderr, "library: %s\n", why);
    exit(1);
}

/* Feeds one packet, and takes its reply, of so many bytes. */
static void ask(const uint8_t *packet, size_t length, int64_t reply)
{
    if (lt_feed(engine, session, packet, length) != 0)
        stop("refused");
    if (lt_settle(engine, session, MOMENT, REPLIES, NULL) != LT_TURN_IDLE)
        stop("not idle");
    if (lt_output(engine, session, room, sizeof room) != reply)
        stop("another reply");
    if (lt_sent(engine, session, (size_t)reply) != 0)
        stop("not sent");
}

/* A packet of this type under the id 7, for the path of so many names; answers its length. */
static size_t packet_of(uint8_t *packet, uint8_t type, int names, int flags)
{
    size_t path = (size_t)names * 5, length = 4 + 1 + 4 + 4 + path + (flags ? 4 : 0);
    memset(packet, 0, length);
    packet[3] = (uint8_t)(length - 4);
    packet[4] = type;
    packet[8] = 7;
    packet[12] = (uint8_t)path;
    for (int i = 0; i < names; i++)
        memcpy(packet + 13 + 5 * i, "/name", 5);
    return length;
}

int main(int count, char **words)
{
    static const uint8_t init[] = {0, 0, 0, 5, 1, 0, 0, 0, 3};
    uint8_t packet[ROOM];
    long stats = count > 1 ? atol(words[1]) : 1000000;
    struct timespec begin, end;
    engine = lt_new();
    session = (uint64_t)lt_open(engine);
    ask(init, sizeof init, VERSION);
    for (int names = 1; names <= DEPTH; names++)
        ask(packet, packet_of(packet, 14, names, 1), 28);
    size_t length = packet_of(packet, 17, DEPTH, 0);
    clock_gettime(CLOCK_PROCESS_CPUTIME_ID, &begin);
    for (long i = 0; i < stats; i++)
        ask(packet, length, REPLY);
    clock_gettime(CLOCK_PROCESS_CPUTIME_ID, &end);
    double spent =
        (double)(end.tv_sec - begin.tv_sec) * 1e9 + (double)(end.tv_nsec - begin.tv_nsec);
    printf("%ld STATs, %.0f ns each\n", stats, spent / (double)stats);
    lt_free(engine);
    return 0;
}
