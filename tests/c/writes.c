/* That of the steps of a WRITE the first alone takes memory: WRITEs of drawn lengths at drawn
 * places of a file are made turn by turn, and what each turn takes by malloc and realloc, which the
 * linker wraps, is counted. Prints how many later steps there were, and stops at one that took
 * memory. */
#include "lucernetick.h"
#include "version.h"

#include <stdio.h>
#include <stdlib.h>
#include <string.h>

enum { MOMENT = 100, MOST = 261120, SIZE = 1 << 20, HEAD = 33, WRITES = 2000 };
enum { HANDLE = 21, OK = 28 };

void *__real_malloc(size_t size);
void *__real_realloc(void *block, size_t size);
void *__wrap_malloc(size_t size);
void *__wrap_realloc(void *block, size_t size);

static size_t taken;

void *__wrap_malloc(size_t size)
{
    taken++;
    return __real_malloc(size);
}

void *__wrap_realloc(void *block, size_t size)
{
    taken++;
    return __real_realloc(block, size);
}

static lt_engine *engine;
static uint64_t session;

static void stop(const char *why)
{
    fprintf(stderr, "writes: %s\n", why);
    exit(1);
}

static void same(const char *what, int64_t got, int64_t wanted)
{
    if (got != wanted) {
        fprintf(stderr, "writes: %s: wanted %lld, got %lld\n", what, (long long)wanted,
                (long long)got);
        exit(1);
    }
}

static void put_u32(uint8_t *at, uint32_t number)
{
    for (int i = 0; i < 4; i++)
        at[i] = (uint8_t)(number >> (24 - 8 * i));
}

/* A number below a bound that looks drawn. */
static uint32_t drawn(uint32_t bound)
{
    static uint64_t state = 1;
    state = state * 6364136223846793005u + 1442695040888963407u;
    return (uint32_t)((state >> 33) % bound);
}

static void drop(int64_t length)
{
    same("a reply's length", lt_output(engine, session, NULL, 0), length);
    same("sent", lt_sent(engine, session, (size_t)length), 0);
}

/* Asks for one thing, whose reply is so long. */
static void ask(const uint8_t *bytes, size_t length, int64_t reply)
{
    same("fed", lt_feed(engine, session, bytes, length), 0);
    same("settled", lt_settle(engine, session, MOMENT, 2, NULL), LT_TURN_IDLE);
    drop(reply);
}

/* The file /f, opened to be written and made; its handle is the number of this first call. */
static void open_file(void)
{
    static const uint8_t init[] = {0, 0, 0, 5, 1, 0, 0, 0, 3};
    static const uint8_t open[] = {
        0, 0, 0, 19, 3, 0, 0, 0, 7, 0, 0, 0, 2, '/', 'f', 0, 0, 0, 10, 0, 0, 0, 0,
    };
    ask(init, sizeof init, VERSION);
    ask(open, sizeof open, HANDLE);
}

/* One WRITE, by turns: how many steps it made after its first. */
static size_t write_one(uint8_t *packet, uint32_t offset, uint32_t length)
{
    put_u32(packet, length + HEAD - 4);
    put_u32(packet + HEAD - 8, offset);
    put_u32(packet + HEAD - 4, length);
    same("fed", lt_feed(engine, session, packet, HEAD + length), 0);
    same("begun", lt_turn(engine, session, MOMENT), LT_TURN_BEGUN);
    int64_t did = lt_turn(engine, session, MOMENT);
    size_t steps = 0;
    while (did == LT_TURN_MOVED) {
        size_t before = taken;
        did = lt_turn(engine, session, MOMENT);
        same("taken in a later step", (int64_t)(taken - before), 0);
        steps++;
    }
    same("decided", did, LT_TURN_DECIDED);
    same("wrote", lt_turn(engine, session, MOMENT), LT_TURN_WROTE);
    drop(OK);
    return steps;
}

int main(void)
{
    static const uint8_t head[] = {0, 0, 0, 0, 6, 0, 0, 0, 7, 0, 0, 0, 8, 0, 0, 0, 0, 0, 0, 0, 1};
    uint8_t *packet = calloc(1, HEAD + MOST);
    engine = lt_new();
    if (!packet || !engine)
        stop("out of memory");
    session = (uint64_t)lt_open(engine);
    open_file();
    memcpy(packet, head, sizeof head);
    size_t before = taken, later = 0;
    for (int i = 0; i < WRITES; i++) {
        uint32_t unit = i % 2 ? 4096 : 1;
        later += write_one(packet, drawn(SIZE / unit) * unit, 1 + drawn(MOST));
    }
    if (taken == before || later < WRITES)
        stop("nothing was counted");
    lt_free(engine);
    free(packet);
    printf("writes: %zu later steps took no memory\n", later);
    return 0;
}
