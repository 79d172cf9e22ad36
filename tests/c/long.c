/* Long runs of the library, one by each word:
 *
 *     long keeps|engines|sessions|calls|handles|moments|files|packets|names|depth|idle|writes|
 *          large
 *
 * What a run is answered is compared with what docs/PROTOCOL.md says. It stops at the first other
 * answer. */
#include "lucernetick.h"
#include "version.h"

#include <malloc.h>
#include <stdio.h>
#include <stdlib.h>
#include <string.h>
#include <sys/mman.h>
#include <sys/resource.h>

enum { MOMENT = 100, DAY = 86400, ROOM = 1 << 20, MOST = 262144 };

/* The lengths of some replies. */
enum { OK = 28, ATTRS = 41, HANDLE = 21 };

static lt_engine *engine;
static uint64_t session;
static uint8_t room[ROOM], bytes[MOST + 8];

static void same(const char *what, uint64_t at, int64_t got, int64_t wanted)
{
    if (got == wanted)
        return;
    fprintf(stderr, "long: %s, at %llu: wanted %lld, got %lld\n", what, (unsigned long long)at,
            (long long)wanted, (long long)got);
    exit(1);
}

static void put_u32(uint8_t *at, uint64_t number)
{
    for (int i = 0; i < 4; i++)
        at[i] = (uint8_t)(number >> (24 - 8 * i));
}

static int64_t u32_at(const uint8_t *at)
{
    return (int64_t)at[0] << 24 | at[1] << 16 | at[2] << 8 | at[3];
}

/* INIT; STAT of / under the id 1; MKDIR and RMDIR of /a under the ids 2 and 3. */
static const uint8_t INIT[] = {0, 0, 0, 5, 1, 0, 0, 0, 3};
static const uint8_t STAT[] = {0, 0, 0, 10, 17, 0, 0, 0, 1, 0, 0, 0, 1, '/'};
static const uint8_t MKDIR[] = {0, 0, 0, 15, 14, 0, 0, 0, 2, 0, 0, 0, 2, '/', 'a', 0, 0, 0, 0};
static const uint8_t RMDIR[] = {0, 0, 0, 11, 15, 0, 0, 0, 3, 0, 0, 0, 2, '/', 'a'};

/* What waits for the session, so many bytes, is sent. */
static const uint8_t *answered(uint64_t at, int64_t wanted)
{
    same("so many bytes", at, lt_output(engine, session, room, sizeof room), wanted);
    same("they are sent", at, lt_sent(engine, session, (size_t)wanted), 0);
    return room;
}

/* Feeds the session whole packets at a moment, and takes what they are answered, which must have so
 * many bytes. */
static const uint8_t *ask(uint64_t at, uint32_t moment, const uint8_t *packets, size_t length,
                          int64_t wanted)
{
    const uint64_t all = UINT64_MAX;
    same("bytes are taken", at, lt_feed(engine, session, packets, length), 0);
    same("all are answered", at, lt_settle(engine, session, moment, all, NULL), LT_TURN_IDLE);
    return answered(at, wanted);
}

/* The same by single turns. */
static const uint8_t *ask_by_turns(uint64_t at, uint32_t moment, const uint8_t *packets,
                                   size_t length, int64_t wanted)
{
    int64_t did = LT_TURN_WROTE;
    same("bytes are taken", at, lt_feed(engine, session, packets, length), 0);
    while (did >= LT_TURN_WROTE && did <= LT_TURN_DECIDED)
        did = lt_turn(engine, session, moment);
    same("all are answered", at, did, LT_TURN_IDLE);
    return answered(at, wanted);
}

/* A status OK for this id. */
static void is_ok(uint64_t at, const uint8_t *reply, uint8_t id)
{
    uint8_t ok[OK] = {0, 0, 0, 24, 101, 0,   0,   0,   id,  0,   0,   0,
                      0, 0, 0, 0,  7,   'S', 'u', 'c', 'c', 'e', 's', 's'};
    same("OK", at, memcmp(reply, ok, OK), 0);
}

/* The attributes of the root where it was changed at a moment, for an id. */
static void is_root(uint64_t at, const uint8_t *reply, uint32_t id, uint64_t moment)
{
    uint8_t wanted[ATTRS] = {0, 0, 0, 37, 105, [12] = 15, [31] = 0x41, [32] = 0xed};
    put_u32(wanted + 5, id);
    put_u32(wanted + 37, moment);
    same("the root's attributes", at, memcmp(reply, wanted, ATTRS), 0);
}

static void begin(uint64_t keep)
{
    engine = lt_new_keeping(keep);
    same("an engine", keep, engine != NULL, 1);
    session = (uint64_t)lt_open(engine);
    same("its first session", keep, (int64_t)session, 1);
    ask(keep, MOMENT, INIT, sizeof INIT, VERSION);
}

/* MKDIR and RMDIR, again and again, so many calls. All are at the moment `MOMENT`. */
static void make_and_remove(uint64_t calls)
{
    for (uint64_t call = 1; call < calls; call += 2) {
        is_ok(call, ask(call, MOMENT, MKDIR, sizeof MKDIR, OK), 2);
        is_ok(call + 1, ask(call + 1, MOMENT, RMDIR, sizeof RMDIR, OK), 3);
    }
}

/* The records of the last calls are kept, and no others, in the order of their numbers. */
static void last_are_kept(uint64_t keep, uint64_t calls)
{
    lt_call call;
    for (uint64_t at = 0; at < keep; at++) {
        uint64_t number = calls - keep + 1 + at;
        same("how many are kept", at, lt_calls(engine, at, &call), (int64_t)keep);
        same("a record's number", at, (int64_t)call.number, (int64_t)number);
        same("its kind", at, call.kind, number % 2 == 1 ? LT_KIND_MKDIR : LT_KIND_RMDIR);
        same("its path", at, call.path.length == 2 && memcmp(call.path.at, "/a", 2) == 0, 1);
        same("its answer", at, call.answer, LT_ANSWER_STATUS);
        same("its status", at, call.status, 0);
    }
}

/* Each power of two is a number of records to keep, and a million. */
static void keeps(void)
{
    for (int i = 0; i <= 20; i++) {
        uint64_t keep = i < 20 ? (uint64_t)1 << i : 1000000;
        begin(keep);
        make_and_remove(keep + 50 + keep % 2);
        last_are_kept(keep, keep + 50 + keep % 2);
        lt_free(engine);
    }
}

/* An engine for each number of records to keep, up to 100,000. */
static void engines(void)
{
    for (uint64_t keep = 1; keep <= 100000; keep++) {
        begin(keep);
        make_and_remove(2);
        lt_free(engine);
    }
}

/* More than a million sessions on one engine. */
static void sessions(void)
{
    begin(1);
    make_and_remove(2);
    for (uint64_t number = 2; number <= 1000100; number++) {
        session = (uint64_t)lt_open(engine);
        same("a session's number", number, (int64_t)session, (int64_t)number);
        ask(number, MOMENT, INIT, sizeof INIT, VERSION);
        is_root(number, ask(number, MOMENT, STAT, sizeof STAT, ATTRS), 1, MOMENT);
        same("it is closed", number, lt_close(engine, session), 0);
        same("it ends", number, lt_turn(engine, session, MOMENT), LT_TURN_ENDED + LT_CAUSE_CLOSED);
    }
    lt_free(engine);
}

/* Opens /f, under the id 4. The call's number is seen by its handle. */
static void open_file(uint64_t number)
{
    static const uint8_t OPEN[] = {0, 0,   0,   19, 3, 0, 0,    0, 4, 0, 0, 0,
                                   2, '/', 'f', 0,  0, 0, 0x0b, 0, 0, 0, 0};
    const uint8_t *reply = ask(number, MOMENT, OPEN, sizeof OPEN, HANDLE);
    same("a handle", number, reply[4], 102);
    same("its front", number, u32_at(reply + 13), 0);
    same("its number", number, u32_at(reply + 17), (int64_t)number);
}

enum { MANY = 3000100 };

/* More than three million calls of one session. */
static void calls(void)
{
    begin(1);
    make_and_remove(MANY);
    open_file(MANY + 1);
    lt_free(engine);
}

/* As many by a handle, which are answered at once: FSTATs, under the id 5, of an empty file. */
static void handles(void)
{
    static const uint8_t FSTAT[] = {0, 0, 0, 17, 8, 0, 0, 0, 5, 0, 0, 0, 8, 0, 0, 0, 0, 0, 0, 0, 1};
    static const uint8_t told[ATTRS] = {0,    0, 0, 37, 105, 0, 0, 0, 5, [12] = 15, [31] = 0x81,
                                        0xa4, 0, 0, 0,  100, 0, 0, 0, 100};
    begin(1);
    open_file(1);
    for (uint64_t call = 2; call <= MANY; call++) {
        const uint8_t *reply = ask(call, MOMENT, FSTAT, sizeof FSTAT, ATTRS);
        same("the file's attributes", call, memcmp(reply, told, ATTRS), 0);
    }
    open_file(MANY + 1);
    lt_free(engine);
}

/* A directory is made at each second of a day, and the seconds are of different days. */
static void moments(void)
{
    begin(1);
    for (uint32_t second = 0; second < DAY; second++) {
        uint32_t moment = second + DAY * (second % 20000);
        is_ok(second, ask_by_turns(second, moment, MKDIR, sizeof MKDIR, OK), 2);
        is_root(second, ask(second, moment, STAT, sizeof STAT, ATTRS), 1, moment);
        is_ok(second, ask(second, moment, RMDIR, sizeof RMDIR, OK), 3);
    }
    lt_free(engine);
}

static void fill(void)
{
    uint64_t state = 1;
    for (size_t i = 0; i < sizeof bytes; i++) {
        state = state * 6364136223846793005u + 1442695040888963407u;
        bytes[i] = (uint8_t)(state >> 33);
    }
}

/* A file of each length to 70,000, written and read. */
static void files(void)
{
    const lt_bytes path = {(const uint8_t *)"/f", 2};
    lt_tree *tree;
    fill();
    engine = lt_new();
    for (size_t length = 0; length <= 70000; length++) {
        const lt_bytes contents = {bytes + length % 4093, length};
        same("a file is written", length, lt_write_file(engine, path, contents, MOMENT, NULL), 0);
        same("a tree", length, lt_tree_of(engine, &tree), 0);
        same("its bytes", length, lt_tree_read(tree, 1, 0, room, sizeof room), (int64_t)length);
        same("they are", length, memcmp(room, contents.at, length), 0);
        lt_tree_free(tree);
    }
    lt_free(engine);
}

/* A STAT whose path other bytes follow, of each length that a packet may have. */
static void packets(void)
{
    begin(1);
    memcpy(bytes, STAT, sizeof STAT);
    for (uint32_t length = sizeof STAT - 4; length <= MOST; length++) {
        put_u32(bytes, length);
        put_u32(bytes + 5, length);
        is_root(length, ask(length, MOMENT, bytes, length + 4, ATTRS), length, 0);
    }
    lt_free(engine);
}

/* The path of one of many directories. */
static lt_bytes name_of(uint32_t number)
{
    static char path[16];
    return (lt_bytes){(const uint8_t *)path, (size_t)snprintf(path, sizeof path, "/%06u", number)};
}

/* A tree of 100,100 names, whole, after each is made. */
static void names(void)
{
    const uint32_t count = 100100;
    lt_tree *tree;
    lt_leaf leaf;
    engine = lt_new();
    for (uint32_t i = 0; i < count; i++)
        same("a directory", i, lt_make_directory(engine, name_of(i), MOMENT, NULL), 0);
    same("a tree", count, lt_tree_of(engine, &tree), 0);
    for (uint32_t i = 0; i < count; i++) {
        lt_bytes path = name_of(i);
        same("how many leaves", i, lt_tree_leaf(tree, i + 1, &leaf), count + 1);
        same("a leaf's length", i, (int64_t)leaf.path.length, (int64_t)path.length);
        same("a leaf's path", i, memcmp(leaf.path.at, path.at, path.length), 0);
    }
    lt_tree_free(tree);
    lt_free(engine);
}

/* Makes HALF directories, each below another, all of this name. */
enum { HALF = 2000 };
static lt_bytes make_deep(uint8_t *path, char name)
{
    for (size_t i = 0; i < HALF; i++) {
        path[2 * i] = '/';
        path[2 * i + 1] = (uint8_t)name;
    }
    const lt_bytes whole = {path, 2 * HALF};
    same("directories", HALF, lt_make_directory(engine, whole, MOMENT, NULL), 0);
    return whole;
}

/* 4,000 directories, each below another: a rename moves the one half below the other. The longest
 * path is longer than one that a request may have. */
static void depth(void)
{
    static uint8_t old[2 * HALF], new[2 * HALF], request[32 + 2 * HALF];
    lt_tree *tree;
    lt_leaf leaf;
    begin(1);
    make_deep(old, 'a');
    const lt_bytes below = make_deep(new, 'b');
    const size_t length = below.length + 2;
    put_u32(request, 5 + 4 + 2 + 4 + length);
    request[4] = 18;
    put_u32(request + 5, 6);
    put_u32(request + 9, 2);
    memcpy(request + 13, "/a", 2);
    put_u32(request + 15, length);
    memcpy(request + 19, below.at, below.length);
    memcpy(request + 19 + below.length, "/a", 2);
    is_ok(HALF, ask(HALF, MOMENT, request, 19 + length, OK), 6);
    same("a tree", HALF, lt_tree_of(engine, &tree), 0);
    same("how many leaves", HALF, lt_tree_leaf(tree, 2 * HALF, &leaf), 2 * HALF + 1);
    same("the longest path", HALF, (int64_t)leaf.path.length, 4 * HALF);
    same("its first half", HALF, memcmp(leaf.path.at, new, 2 * HALF), 0);
    same("its second half", HALF, memcmp(leaf.path.at + 2 * HALF, old, 2 * HALF), 0);
    lt_tree_free(tree);
    lt_free(engine);
}

/* How many bytes are allocated. */
static int64_t held(void)
{
    const struct mallinfo2 info = mallinfo2();
    return (int64_t)(info.uordblks + info.hblkhd);
}

/* Sessions that were sent large replies hold no memory for them once they are idle. */
static void idle(void)
{
    enum { DATA = 261120, SESSIONS = 200, MOST_EACH = 8192 };
    uint8_t request[] = {0, 0, 0, 29, 5, 0, 0, 0, 7, 0, 0, 0, 8, 0, 0, 0, 0,
                         0, 0, 0, 0, 0, 0, 0, 0, 0, 0, 0, 0, 0, 3, 0xfc, 0};
    const lt_bytes path = {(const uint8_t *)"/f", 2}, contents = {bytes, DATA};
    fill();
    begin(1);
    same("a file", 0, lt_write_file(engine, path, contents, MOMENT, NULL), 0);
    const int64_t before = held();
    for (uint32_t at = 1; at <= SESSIONS; at++) {
        static const uint8_t OPEN[] = {0, 0, 0,   19,  3, 0, 0, 0, 4, 0, 0, 0,
                                       2, '/', 'f', 0, 0, 0, 1, 0, 0, 0, 0};
        session = (uint64_t)lt_open(engine);
        ask(at, MOMENT, INIT, sizeof INIT, VERSION);
        const uint8_t *opened = ask(at, MOMENT, OPEN, sizeof OPEN, HANDLE);
        memcpy(request + 13, opened + 13, 8);
        const uint8_t *reply = ask(at, MOMENT, request, sizeof request, 13 + DATA);
        same("the file's bytes", at, memcmp(reply + 13, bytes, DATA), 0);
        same("few bytes are held", at, held() - before < (int64_t)at * MOST_EACH + DATA, 1);
    }
    lt_free(engine);
}

/* A WRITE of `length` bytes, under the id 6, by the handle 1. */
static void write_at(uint64_t offset, uint32_t length)
{
    static uint8_t request[33 + MOST] = {[4] = 6, [8] = 6, [12] = 8, [20] = 1};
    put_u32(request, 29 + length);
    put_u32(request + 21, (uint32_t)(offset >> 32));
    put_u32(request + 25, (uint32_t)offset);
    put_u32(request + 29, length);
    memcpy(request + 33, bytes, length);
    is_ok(offset, ask(offset, MOMENT, request, 33 + length, OK), 6);
}

/* Long WRITEs hold little more memory than their bytes, wherever in a block they begin. */
static void writes(void)
{
    enum { WRITES = 50, APART = 1 << 20 };
    static const uint32_t lengths[] = {131072, 196608, 261120};
    static const uint32_t starts[] = {0, 1, 2048, 4095, 4096, 28673, 32767};
    fill();
    for (size_t i = 0; i < 3 * 7; i++) {
        const uint32_t length = lengths[i % 3], start = starts[i / 3];
        begin(1);
        open_file(1);
        const int64_t before = held();
        for (uint64_t at = 0; at < WRITES; at++)
            write_at(at * APART + start, length);
        make_and_remove(2);
        const int64_t all = (int64_t)length * WRITES;
        same("few bytes are held", start, held() - before <= all + all / 10, 1);
        lt_free(engine);
    }
}

/* Contents of more than 4 GiB are not cut: memory runs out for them. */
static void large(void)
{
    const size_t length = ((size_t)1 << 32) + 5;
    const struct rlimit limit = {(rlim_t)1 << 28, (rlim_t)1 << 28};
    const lt_bytes path = {(const uint8_t *)"/f", 2};
    void *zeros = mmap(NULL, length, PROT_READ, MAP_PRIVATE | MAP_ANONYMOUS, -1, 0);
    same("a map of zeros", length, zeros != MAP_FAILED, 1);
    same("a limit for what is written", length, setrlimit(RLIMIT_DATA, &limit), 0);
    engine = lt_new();
    const lt_bytes contents = {zeros, length};
    same("a large file", length, lt_write_file(engine, path, contents, MOMENT, NULL),
         LT_REFUSAL_OUT_OF_MEMORY);
    lt_free(engine);
}

int main(int count, char **words)
{
    static const struct {
        const char *name;
        void (*run)(void);
    } runs[] = {{"keeps", keeps}, {"engines", engines}, {"sessions", sessions},
                {"calls", calls}, {"handles", handles}, {"moments", moments},
                {"files", files}, {"packets", packets}, {"names", names},
                {"depth", depth}, {"idle", idle}, {"writes", writes},
                {"large", large}};
    for (size_t i = 0; count == 2 && i < sizeof runs / sizeof *runs; i++)
        if (strcmp(words[1], runs[i].name) == 0) {
            runs[i].run();
            return 0;
        }
    return 2;
}
