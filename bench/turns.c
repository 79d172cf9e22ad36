/* How long each turn of a WRITE takes, by the calls of lucernetick.h, for writes of several
 * lengths: each is written COUNT times over the same file, and its turns are timed one by one.
 * Prints, of each length, the blocks, and the medians of the turn that reads the packet, of the
 * WRITE's first step, and of the longest of its later ones, in nanoseconds. */
#include "lucernetick.h"
#include "../tests/c/version.h"

#include <stdio.h>
#include <stdlib.h>
#include <string.h>
#include <time.h>

enum { MOMENT = 100, MOST = 261120, HEAD = 33, TURNS = 80, COUNT = 1000 };

static lt_engine *engine;
static uint64_t session;

static void stop(const char *why)
{
    fprintf(stderr, "turns: %s\n", why);
    exit(1);
}

static void put_u32(uint8_t *at, uint32_t number)
{
    for (int i = 0; i < 4; i++)
        at[i] = (uint8_t)(number >> (24 - 8 * i));
}

static double now(void)
{
    struct timespec moment;
    clock_gettime(CLOCK_MONOTONIC, &moment);
    return (double)moment.tv_sec * 1e9 + (double)moment.tv_nsec;
}

static void feed(const uint8_t *bytes, size_t length)
{
    if (lt_feed(engine, session, bytes, length) != 0)
        stop("refused");
}

/* Drops what was answered, which is so long. */
static void drop(int64_t length)
{
    if (lt_output(engine, session, NULL, 0) != length
        || lt_sent(engine, session, (size_t)length) != 0)
        stop("another reply");
}

/* Asks for one thing, whose answer is so long. */
static void ask(const uint8_t *bytes, size_t length, int64_t reply)
{
    feed(bytes, length);
    if (lt_settle(engine, session, MOMENT, 2, NULL) != LT_TURN_IDLE)
        stop("not idle");
    drop(reply);
}

/* The file /f, opened to be written and made; its handle is the number of this first call. */
static void open_file(void)
{
    static const uint8_t init[] = {0, 0, 0, 5, 1, 0, 0, 0, 3};
    static const uint8_t open[] = {0, 0,   0,   19, 3, 0, 0,  0, 7, 0, 0, 0,
                                   2, '/', 'f', 0,  0, 0, 10, 0, 0, 0, 0};
    ask(init, sizeof init, VERSION);
    ask(open, sizeof open, 21);
}

static int by_size(const void *one, const void *other)
{
    double a = *(const double *)one, b = *(const double *)other;
    return (a > b) - (a < b);
}

static double median(double *times)
{
    qsort(times, COUNT, sizeof *times, by_size);
    return times[COUNT / 2];
}

/* Turns once, and answers how long it took; `*did` is what the turn did. */
static double turn(int64_t *did)
{
    double begin = now();
    *did = lt_turn(engine, session, MOMENT);
    return now() - begin;
}

static void measure(uint8_t *packet, uint32_t length)
{
    static double reading[COUNT], first[COUNT], later[COUNT];
    int turns = 0;
    put_u32(packet, length + HEAD - 4);
    put_u32(packet + HEAD - 4, length);
    for (int i = 0; i < COUNT; i++) {
        int64_t did;
        feed(packet, HEAD + length);
        reading[i] = turn(&did);
        if (did != LT_TURN_BEGUN)
            stop("no call began");
        first[i] = turn(&did);
        later[i] = 0;
        for (turns = 1; did == LT_TURN_MOVED; turns++) {
            double took = turn(&did);
            later[i] = took > later[i] ? took : later[i];
        }
        if (did != LT_TURN_DECIDED || turn(&did) < 0 || did != LT_TURN_WROTE)
            stop("not answered");
        drop(28);
    }
    printf("| %u | %d | %.0f | %.0f | %.0f |\n", length, turns, median(reading), median(first),
           median(later));
}

int main(void)
{
    static const uint32_t lengths[] = {4096, 32768, 65536, 131072, MOST};
    static const uint8_t head[] = {0, 0, 0, 0, 6, 0, 0, 0, 7, 0, 0, 0, 8, 0, 0, 0, 0, 0, 0, 0, 1};
    uint8_t *packet = calloc(1, HEAD + MOST);
    engine = lt_new();
    if (!packet || !engine)
        stop("out of memory");
    session = (uint64_t)lt_open(engine);
    open_file();
    memcpy(packet, head, sizeof head);
    printf("| Bytes | Steps | Reads the packet | First step | Longest later step |\n");
    printf("|---|---|---|---|---|\n");
    for (size_t i = 0; i < sizeof lengths / sizeof *lengths; i++)
        measure(packet, lengths[i]);
    lt_free(engine);
    free(packet);
    return 0;
}
