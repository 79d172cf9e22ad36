/* Calls each function of lucernetick.h as a program may, and as it shouldn't, and compares the
 * numbers. Ends with how many were the same, and how many not. */
#include "lucernetick.h"

#include <stdio.h>
#include <string.h>

enum { MOMENT = 100, MANY_ENGINES = 1000, MANY_FILES = 1500, LARGE = 3 << 20 };

/* The most bytes of a path, or of both of a link, in a packet. */
enum { LONGEST = 262080 };

static const size_t TOO_MANY = (size_t)PTRDIFF_MAX + 1;

static int passed, failed;

static void same(const char *name, int64_t got, int64_t wanted)
{
    if (got == wanted) {
        passed++;
        return;
    }
    failed++;
    printf("library: %s: FAILED: wanted %lld, got %lld\n", name, (long long)wanted, (long long)got);
}

/* INIT for version 3; MKDIR of /a under the id 7; STAT of /a under the id 8. */
static const uint8_t INIT[] = {0, 0, 0, 5, 1, 0, 0, 0, 3};
static const uint8_t MKDIR[] = {0, 0, 0, 15, 14, 0, 0, 0, 7, 0, 0, 0, 2, '/', 'a', 0, 0, 0, 0};
static const uint8_t STAT[] = {0, 0, 0, 11, 17, 0, 0, 0, 8, 0, 0, 0, 2, '/', 'a'};

/* The length of VERSION, and that of OK's STATUS. */
enum { VERSION = 153, OK = 28 };

static void texts(void)
{
    const struct { int64_t answer; const char *text; } rows[] = {
        {LT_TURN_IDLE, "no whole packet is unread"},
        {LT_TURN_SPENT, "as many replies as may be were written"},
        {LT_TURN_ENDED + LT_CAUSE_NOT_INIT, "ended: the first packet isn't INIT"},
        {LT_TURN_ENDED + LT_CAUSE_CLOSED, "ended: the session was closed"},
        {LT_REFUSAL_OUT_OF_MEMORY, "out of memory"},
        {LT_REFUSAL_TOO_MANY_SESSIONS, "256 sessions are open"},
        {LT_REFUSAL_BAD_POINTER,
         "the engine was closed, or a pointer is NULL, or a length too large"},
        {LT_REFUSAL_IS_BLOCKED, "the call of another session is in the way"},
        {LT_REFUSAL_STATUS_BASE - 2, "No such file"},
        {LT_REFUSAL_STATUS_BASE - 4, "Failure"},
        {LT_REFUSAL_BAD_KIND, "a rule's kind is not that of a request"},
        {LT_REFUSAL_NO_SUCH_RULE, "no rule of this number was given"},
        {LT_REFUSAL_NO_SUCH_RULE - 1, "an unknown refusal"},
        {LT_REFUSAL_STATUS_BASE - 99, "an unknown refusal"},
        {INT64_MIN, "an unknown refusal"},
        {LT_TURN_ENDED, "an unknown answer"},
        {INT64_MAX, "an unknown answer"},
    };
    for (size_t i = 0; i < sizeof rows / sizeof *rows; i++)
        same(rows[i].text, strcmp(lt_message(rows[i].answer), rows[i].text), 0);
    same("the version", strcmp(lt_version(), LT_VERSION), 0);
}

static void null_pointers(void)
{
    lt_engine *engine = lt_new();
    bool moved = true;
    uint8_t byte = 0;
    int64_t session = lt_open(engine);
    lt_free(NULL);
    same("open without an engine", lt_open(NULL), LT_REFUSAL_BAD_POINTER);
    same("feed without an engine", lt_feed(NULL, 1, &byte, 1), LT_REFUSAL_BAD_POINTER);
    same("turn without an engine", lt_turn(NULL, 1, MOMENT), LT_REFUSAL_BAD_POINTER);
    same("settle without an engine", lt_settle(NULL, 1, MOMENT, 1, &moved), LT_REFUSAL_BAD_POINTER);
    same("which moves nothing", moved, false);
    same("rounds without an engine", lt_run_all(NULL), LT_REFUSAL_BAD_POINTER);
    same("bytes wanted without an engine", lt_wants_bytes(NULL, 1), LT_REFUSAL_BAD_POINTER);
    same("close without an engine", lt_close(NULL, 1), LT_REFUSAL_BAD_POINTER);
    same("output without an engine", lt_output(NULL, 1, &byte, 1), LT_REFUSAL_BAD_POINTER);
    same("sent without an engine", lt_sent(NULL, 1, 0), LT_REFUSAL_BAD_POINTER);
    same("feed without bytes", lt_feed(engine, (uint64_t)session, NULL, 1), LT_REFUSAL_BAD_POINTER);
    same("feed of too many", lt_feed(engine, (uint64_t)session, &byte, SIZE_MAX),
         LT_REFUSAL_BAD_POINTER);
    same("feed of one too many", lt_feed(engine, (uint64_t)session, &byte, TOO_MANY),
         LT_REFUSAL_BAD_POINTER);
    same("output without room", lt_output(engine, (uint64_t)session, NULL, 1),
         LT_REFUSAL_BAD_POINTER);
    same("output of too many", lt_output(engine, (uint64_t)session, &byte, TOO_MANY),
         LT_REFUSAL_BAD_POINTER);
    lt_free(engine);
}

static void unknown_sessions(void)
{
    const uint64_t numbers[] = {0, 2, UINT64_MAX};
    lt_engine *engine = lt_new_keeping(3);
    uint8_t byte = 0;
    same("the first session", lt_open(engine), 1);
    for (size_t i = 0; i < 3; i++) {
        same("feed nobody", lt_feed(engine, numbers[i], &byte, 1), LT_REFUSAL_NO_SUCH_SESSION);
        same("turn of nobody", lt_turn(engine, numbers[i], MOMENT), LT_REFUSAL_NO_SUCH_SESSION);
        same("settle nobody", lt_settle(engine, numbers[i], MOMENT, 1, NULL),
             LT_REFUSAL_NO_SUCH_SESSION);
        same("nobody wants bytes", lt_wants_bytes(engine, numbers[i]), 0);
        same("close nobody", lt_close(engine, numbers[i]), LT_REFUSAL_NO_SUCH_SESSION);
        same("output of nobody", lt_output(engine, numbers[i], &byte, 1),
             LT_REFUSAL_NO_SUCH_SESSION);
        same("sent of nobody", lt_sent(engine, numbers[i], 0), LT_REFUSAL_NO_SUCH_SESSION);
    }
    lt_free(engine);
}

static void lengths_of_zero(void)
{
    lt_engine *engine = lt_new();
    uint8_t byte = 9;
    lt_open(engine);
    same("feed nothing", lt_feed(engine, 1, NULL, 0), 0);
    same("feed no byte", lt_feed(engine, 1, &byte, 0), 0);
    same("a turn with nothing to do", lt_turn(engine, 1, MOMENT), LT_TURN_IDLE);
    same("no turns", lt_settle(engine, 1, MOMENT, 0, NULL), LT_TURN_SPENT);
    same("no turns of nobody", lt_settle(engine, 2, MOMENT, 0, NULL), LT_TURN_SPENT);
    same("nothing waits", lt_output(engine, 1, NULL, 0), 0);
    same("nothing waits for no room", lt_output(engine, 1, &byte, 0), 0);
    same("no byte was written", byte, 9);
    same("nothing was sent", lt_sent(engine, 1, 0), 0);
    same("more was sent than waits", lt_sent(engine, 1, 1), LT_REFUSAL_NOT_SENT);
    lt_free(engine);
}

/* A session waits for bytes where no whole packet is unread and no call is under way. */
static void wants_bytes(void)
{
    lt_engine *engine = lt_new();
    lt_open(engine);
    same("a new session wants bytes", lt_wants_bytes(engine, 1), 1);
    lt_feed(engine, 1, INIT, sizeof INIT - 1);
    same("so it does before its packet is whole", lt_wants_bytes(engine, 1), 1);
    lt_feed(engine, 1, INIT + sizeof INIT - 1, 1);
    same("it wants none where a packet is whole", lt_wants_bytes(engine, 1), 0);
    lt_turn(engine, 1, MOMENT);
    same("and wants some where that was answered", lt_wants_bytes(engine, 1), 1);
    lt_feed(engine, 1, MKDIR, sizeof MKDIR);
    for (int i = 0; i < 3; i++) {
        lt_turn(engine, 1, MOMENT);
        same("none while a call is under way", lt_wants_bytes(engine, 1), 0);
    }
    same("its reply", lt_turn(engine, 1, MOMENT), LT_TURN_WROTE);
    same("then it wants some", lt_wants_bytes(engine, 1), 1);
    lt_close(engine, 1);
    same("none once it has ended", lt_wants_bytes(engine, 1), 0);
    lt_free(engine);
}

static void one_session(void)
{
    lt_engine *engine = lt_new();
    uint8_t room[128];
    lt_open(engine);
    lt_feed(engine, 1, INIT, sizeof INIT);
    lt_feed(engine, 1, MKDIR, sizeof MKDIR);
    same("VERSION", lt_turn(engine, 1, MOMENT), LT_TURN_WROTE);
    same("its length", lt_output(engine, 1, NULL, 0), VERSION);
    same("VERSION was sent", lt_sent(engine, 1, VERSION), 0);
    same("MKDIR begins", lt_turn(engine, 1, MOMENT), LT_TURN_BEGUN);
    same("it takes the root", lt_turn(engine, 1, MOMENT), LT_TURN_MOVED);
    same("it is decided", lt_turn(engine, 1, MOMENT), LT_TURN_DECIDED);
    same("its turns run out", lt_settle(engine, 1, MOMENT, 1, NULL), LT_TURN_SPENT);
    lt_feed(engine, 1, STAT, sizeof STAT);
    same("STAT", lt_settle(engine, 1, MOMENT, 100, NULL), LT_TURN_IDLE);
    same("both replies", lt_output(engine, 1, room, sizeof room), OK + 41);
    same("OK's id", room[8], 7);
    same("ATTRS' moment", room[OK + 40], MOMENT);
    memset(room, 9, sizeof room);
    same("as much as there is room", lt_output(engine, 1, room, 5), OK + 41);
    same("the last byte in the room", room[4], 101);
    same("the first one behind it", room[5], 9);
    lt_free(engine);
}

static void after_the_end(void)
{
    lt_engine *engine = lt_new();
    uint8_t room[8];
    lt_open(engine);
    lt_feed(engine, 1, MKDIR, sizeof MKDIR);
    same("not INIT", lt_turn(engine, 1, MOMENT), LT_TURN_ENDED + LT_CAUSE_NOT_INIT);
    same("a feed after the end", lt_feed(engine, 1, INIT, sizeof INIT), LT_REFUSAL_HAS_ENDED);
    same("a turn after the end", lt_turn(engine, 1, MOMENT), LT_TURN_ENDED + LT_CAUSE_NOT_INIT);
    same("settle after the end", lt_settle(engine, 1, MOMENT, 9, NULL),
         LT_TURN_ENDED + LT_CAUSE_NOT_INIT);
    same("output after the end", lt_output(engine, 1, room, sizeof room), 0);
    same("sent after the end", lt_sent(engine, 1, 1), LT_REFUSAL_NOT_SENT);
    same("close after the end", lt_close(engine, 1), 0);
    same("which it had before", lt_turn(engine, 1, MOMENT), LT_TURN_ENDED + LT_CAUSE_NOT_INIT);
    same("the second session", lt_open(engine), 2);
    same("close", lt_close(engine, 2), 0);
    same("a feed after close", lt_feed(engine, 2, INIT, sizeof INIT), LT_REFUSAL_HAS_ENDED);
    same("a turn after close", lt_turn(engine, 2, MOMENT), LT_TURN_ENDED + LT_CAUSE_CLOSED);
    same("close again", lt_close(engine, 2), 0);
    lt_free(engine);
}

/* Whether a session's turns move anything, and what they come to. */
static void moves(const char *name, lt_engine *engine, uint64_t session, uint64_t most, bool wanted,
                  int64_t answer)
{
    bool moved = !wanted;
    same(name, lt_settle(engine, session, MOMENT, most, &moved), answer);
    same(name, moved, wanted);
}

static void moved(void)
{
    lt_engine *engine = lt_new();
    lt_open(engine);
    lt_open(engine);
    moves("nothing to do", engine, 1, 9, false, LT_TURN_IDLE);
    moves("nobody", engine, 3, 9, false, LT_REFUSAL_NO_SUCH_SESSION);
    lt_feed(engine, 1, INIT, sizeof INIT);
    moves("no reply is asked for", engine, 1, 0, false, LT_TURN_SPENT);
    moves("VERSION alone", engine, 1, 1, true, LT_TURN_SPENT);
    moves("and no more", engine, 1, 1, false, LT_TURN_IDLE);
    lt_feed(engine, 1, MKDIR, sizeof MKDIR);
    lt_feed(engine, 2, INIT, sizeof INIT);
    lt_feed(engine, 2, STAT, sizeof STAT);
    lt_feed(engine, 2, STAT, sizeof STAT);
    same("MKDIR begins", lt_turn(engine, 1, MOMENT), LT_TURN_BEGUN);
    same("it takes the root", lt_turn(engine, 1, MOMENT), LT_TURN_MOVED);
    moves("VERSION, and a call that is blocked", engine, 2, 9, true, LT_TURN_BLOCKED);
    moves("it is blocked still", engine, 2, 9, false, LT_TURN_BLOCKED);
    moves("MKDIR goes on, up to its reply", engine, 1, 9, true, LT_TURN_IDLE);
    moves("the call goes by, up to its reply", engine, 2, 1, true, LT_TURN_SPENT);
    moves("and the next one", engine, 2, 2, true, LT_TURN_IDLE);
    same("VERSION and two replies", lt_output(engine, 2, NULL, 0), VERSION + 2 * 41);
    lt_feed(engine, 1, INIT, sizeof INIT);
    moves("a second INIT", engine, 1, 9, false, LT_TURN_ENDED + LT_CAUSE_SECOND_INIT);
    lt_free(engine);
}

static void blocked(void)
{
    lt_engine *engine = lt_new();
    lt_open(engine);
    lt_open(engine);
    lt_feed(engine, 1, INIT, sizeof INIT);
    lt_feed(engine, 1, MKDIR, sizeof MKDIR);
    lt_feed(engine, 2, INIT, sizeof INIT);
    lt_feed(engine, 2, STAT, sizeof STAT);
    for (int i = 0; i < 3; i++)
        lt_turn(engine, 1, MOMENT);
    same("the other one holds the root", lt_settle(engine, 2, MOMENT, 100, NULL), LT_TURN_BLOCKED);
    same("which goes on", lt_settle(engine, 1, MOMENT, 100, NULL), LT_TURN_IDLE);
    same("and lets it by", lt_settle(engine, 2, MOMENT, 100, NULL), LT_TURN_IDLE);
    lt_free(engine);
}

/* MKDIR of /a/x, /b and /b/y, under the id 7. */
static const uint8_t MAKE_X[] = {0, 0, 0, 17, 14, 0, 0, 0, 7, 0, 0, 0, 4, '/', 'a', '/', 'x',
                                 0, 0, 0, 0};
static const uint8_t MAKE_B[] = {0, 0, 0, 15, 14, 0, 0, 0, 7, 0, 0, 0, 2, '/', 'b', 0, 0, 0, 0};
static const uint8_t MAKE_Y[] = {0, 0, 0, 17, 14, 0, 0, 0, 7, 0, 0, 0, 4, '/', 'b', '/', 'y',
                                 0, 0, 0, 0};

/* RENAME of /a/x to /b/y/x under the id 8, and of /b/y to /a/x/y under the id 9. */
static const uint8_t TO_B[] = {0, 0, 0, 23, 18, 0, 0, 0, 8, 0, 0, 0, 4, '/', 'a', '/', 'x',
                               0, 0, 0, 6, '/', 'b', '/', 'y', '/', 'x'};
static const uint8_t TO_A[] = {0, 0, 0, 23, 18, 0, 0, 0, 9, 0, 0, 0, 4, '/', 'b', '/', 'y',
                               0, 0, 0, 6, '/', 'a', '/', 'x', '/', 'y'};

/* Two sessions, whose renames begin. What was written before is sent. */
static lt_engine *crossing(void)
{
    lt_engine *engine = lt_new();
    lt_open(engine);
    lt_open(engine);
    lt_feed(engine, 1, INIT, sizeof INIT);
    lt_feed(engine, 2, INIT, sizeof INIT);
    lt_feed(engine, 1, MKDIR, sizeof MKDIR);
    lt_feed(engine, 1, MAKE_X, sizeof MAKE_X);
    lt_feed(engine, 1, MAKE_B, sizeof MAKE_B);
    lt_feed(engine, 1, MAKE_Y, sizeof MAKE_Y);
    lt_settle(engine, 1, MOMENT, 100, NULL);
    lt_settle(engine, 2, MOMENT, 100, NULL);
    same("VERSION and four directories", lt_sent(engine, 1, VERSION + 4 * OK), 0);
    same("VERSION", lt_sent(engine, 2, VERSION), 0);
    lt_feed(engine, 1, TO_B, sizeof TO_B);
    lt_feed(engine, 2, TO_A, sizeof TO_A);
    same("the first rename begins", lt_turn(engine, 1, MOMENT), LT_TURN_BEGUN);
    same("the second rename begins", lt_turn(engine, 2, MOMENT), LT_TURN_BEGUN);
    return engine;
}

/* In rounds the first session is ahead: five of them until its rename is decided, in the last of
 * which the other one takes the root, and three more, since /a/x is gone. */
static void rounds(void)
{
    uint8_t room[64];
    lt_engine *engine = crossing();
    same("rounds", lt_run_all(engine), 8);
    same("no round more", lt_run_all(engine), 0);
    same("no reply of the first rename", lt_output(engine, 1, NULL, 0), 0);
    same("no reply of the second rename", lt_output(engine, 2, NULL, 0), 0);
    same("a turn writes the second one's", lt_turn(engine, 2, MOMENT), LT_TURN_WROTE);
    same("a turn writes the first one's", lt_turn(engine, 1, MOMENT), LT_TURN_WROTE);
    same("the first one's length", lt_output(engine, 1, room, sizeof room), OK);
    same("its id", room[8], 8);
    same("it is OK", room[12], 0);
    same("the second one's length", lt_output(engine, 2, room, sizeof room), 33);
    same("its id", room[8], 9);
    same("it is NO_SUCH_FILE", room[12], 2);
    lt_free(engine);
    engine = lt_new_keeping(0);
    same("no round without a session", lt_run_all(engine), 0);
    lt_free(engine);
}

/* The reply of the schedule's second session, after VERSION: the attributes of /a, size 0,
 * nobody's, 0o755, of the moment 100. */
static const uint8_t LOOKED[] = {0, 0, 0, 37, 105, 0, 0, 0, 8, 0, 0, 0, 15, 0, 0, 0, 0, 0, 0, 0, 0,
                                 0, 0, 0, 0, 0, 0, 0, 0, 0, 0, 65, 237, 0, 0, 0, 100, 0, 0, 0, 100};

/* A schedule of two sessions, of which the second one looks at /a before the first one has made it.
 * It compares what the turns did, and leaves what was sent. */
static void schedule(uint8_t first[256], uint8_t second[256])
{
    const uint64_t sessions[] = {1, 2, 2, 1, 1, 2, 1, 2, 2, 2, 1};
    const int64_t did[] = {LT_TURN_WROTE, LT_TURN_WROTE, LT_TURN_BEGUN, LT_TURN_BEGUN,
                           LT_TURN_MOVED, LT_TURN_BLOCKED, LT_TURN_DECIDED, LT_TURN_MOVED,
                           LT_TURN_DECIDED, LT_TURN_WROTE, LT_TURN_WROTE};
    lt_engine *engine = lt_new();
    lt_open(engine);
    lt_open(engine);
    lt_feed(engine, 1, INIT, sizeof INIT);
    lt_feed(engine, 1, MKDIR, sizeof MKDIR);
    lt_feed(engine, 2, INIT, sizeof INIT);
    lt_feed(engine, 2, STAT, sizeof STAT);
    for (size_t i = 0; i < sizeof sessions / sizeof *sessions; i++)
        same("a turn of the schedule", lt_turn(engine, sessions[i], MOMENT), did[i]);
    same("what the first one is sent", lt_output(engine, 1, first, 256), VERSION + OK);
    same("what the second one is sent", lt_output(engine, 2, second, 256), VERSION + 41);
    lt_free(engine);
}

static void replayed(void)
{
    uint8_t first[2][256] = {{0}}, second[2][256] = {{0}};
    schedule(first[0], second[0]);
    schedule(first[1], second[1]);
    same("the first one's bytes again", memcmp(first[0], first[1], 256), 0);
    same("the second one's bytes again", memcmp(second[0], second[1], 256), 0);
    same("the second one's reply", memcmp(second[0] + VERSION, LOOKED, sizeof LOOKED), 0);
}

/* OPEN of /f to write it anew, under the id 9; WRITE of 3 bytes at 5 and READ of all by the handle
 * 3, CLOSE of it; OPENDIR of /, READDIR by the handle 7; SETSTAT of the mode of /a. */
static const uint8_t OPEN[] = {0, 0, 0, 19, 3, 0, 0, 0, 9, 0, 0, 0, 2, '/', 'f',
                               0, 0, 0, 0x1b, 0, 0, 0, 0};
static const uint8_t WRITE[] = {0, 0, 0, 32, 6, 0, 0, 0, 9, 0, 0, 0, 8, 0, 0, 0, 0, 0, 0, 0, 3,
                                0, 0, 0, 0, 0, 0, 0, 5, 0, 0, 0, 3, 'x', 'y', 'z'};
static const uint8_t READ[] = {0, 0, 0, 29, 5, 0, 0, 0, 9, 0, 0, 0, 8, 0, 0, 0, 0, 0, 0, 0, 3,
                               0, 0, 0, 0, 0, 0, 0, 4, 0, 0, 1, 0};
static const uint8_t CLOSE[] = {0, 0, 0, 17, 4, 0, 0, 0, 9, 0, 0, 0, 8, 0, 0, 0, 0, 0, 0, 0, 3};
static const uint8_t OPENDIR[] = {0, 0, 0, 10, 11, 0, 0, 0, 9, 0, 0, 0, 1, '/'};
static const uint8_t READDIR[] = {0, 0, 0, 17, 12, 0, 0, 0, 9, 0, 0, 0, 8, 0, 0, 0, 0, 0, 0, 0, 7};
static const uint8_t SETSTAT[] = {0, 0, 0, 19, 9, 0, 0, 0, 9, 0, 0, 0, 2, '/', 'a',
                                  0, 0, 0, 4, 0, 0, 1, 0xc0};
static const uint8_t RENAME[] = {0, 0, 0, 17, 18, 0, 0, 0, 9, 0, 0, 0, 2, '/', 'f',
                                 0, 0, 0, 2, '/', 'a'};

static int are(lt_bytes bytes, const char *text, size_t length)
{
    return bytes.length == length && memcmp(bytes.at, text, length) == 0;
}

/* The record at a place, of which there are ten; its number, and its kind. */
static lt_call record(lt_engine *engine, uint64_t at, uint64_t number, uint32_t kind)
{
    lt_call call;
    memset(&call, 9, sizeof call);
    same("ten records", lt_calls(engine, at, &call), 10);
    same("its number", (int64_t)call.number, (int64_t)number);
    same("its session", (int64_t)call.session, 1);
    same("its kind", call.kind, kind);
    return call;
}

static void records_of_data(lt_engine *engine)
{
    lt_call call = record(engine, 2, 3, LT_KIND_OPEN);
    same("what OPEN opens", are(call.path, "/f", 2), 1);
    same("OPEN's flags", call.flags, 0x1b);
    same("OPEN's attributes", call.attributes.given, 0);
    same("OPEN's answer", call.answer, LT_ANSWER_HANDLE);
    same("OPEN's handle", (int64_t)call.answer_handle, 3);
    call = record(engine, 3, 4, LT_KIND_WRITE);
    same("WRITE's handle", (int64_t)call.handle, 3);
    same("WRITE's offset", (int64_t)call.offset, 5);
    same("WRITE's length", (int64_t)call.length, 3);
    same("WRITE's bytes", are(call.written, "xyz", 3), 1);
    same("WRITE's path", are(call.path, "", 0), 1);
    call = record(engine, 4, 5, LT_KIND_READ);
    same("READ's offset", (int64_t)call.offset, 4);
    same("READ's length", (int64_t)call.length, 256);
    same("READ's answer", call.answer, LT_ANSWER_DATA);
    same("READ's bytes", are(call.answer_bytes, "\0xyz", 4), 1);
}

static void records_of_paths(lt_engine *engine)
{
    lt_call call = record(engine, 0, 1, LT_KIND_MKDIR);
    same("its moment", call.moment, MOMENT);
    same("what MKDIR makes", are(call.path, "/a", 2), 1);
    same("MKDIR's new path", are(call.new_path, "", 0), 1);
    same("MKDIR's answer", call.answer, LT_ANSWER_STATUS);
    same("MKDIR's status", call.status, 0);
    call = record(engine, 1, 2, LT_KIND_STAT);
    same("STAT's answer", call.answer, LT_ANSWER_ATTRS);
    same("STAT's parts", call.answer_attributes.given, 15);
    same("STAT's permissions", call.answer_attributes.permissions, 040755);
    same("STAT's mtime", call.answer_attributes.mtime, MOMENT);
    call = record(engine, 8, 9, LT_KIND_SETSTAT);
    same("SETSTAT's parts", call.attributes.given, 4);
    same("SETSTAT's permissions", call.attributes.permissions, 0700);
    call = record(engine, 9, 10, LT_KIND_RENAME);
    same("RENAME's old path", are(call.path, "/f", 2), 1);
    same("RENAME's new path", are(call.new_path, "/a", 2), 1);
    same("RENAME's status", call.status, 4);
}

static void records(void)
{
    lt_engine *engine = lt_new_keeping(10);
    lt_call call = {.number = 9};
    lt_open(engine);
    same("no record yet", lt_calls(engine, 0, &call), 0);
    lt_feed(engine, 1, INIT, sizeof INIT);
    lt_feed(engine, 1, MKDIR, sizeof MKDIR);
    lt_feed(engine, 1, STAT, sizeof STAT);
    lt_feed(engine, 1, OPEN, sizeof OPEN);
    lt_feed(engine, 1, WRITE, sizeof WRITE);
    lt_feed(engine, 1, READ, sizeof READ);
    lt_feed(engine, 1, CLOSE, sizeof CLOSE);
    lt_feed(engine, 1, OPENDIR, sizeof OPENDIR);
    lt_feed(engine, 1, READDIR, sizeof READDIR);
    lt_feed(engine, 1, SETSTAT, sizeof SETSTAT);
    lt_feed(engine, 1, RENAME, sizeof RENAME);
    same("ten calls", lt_settle(engine, 1, MOMENT, 100, NULL), LT_TURN_IDLE);
    same("past the last one", lt_calls(engine, 10, &call), 10);
    same("far past it", lt_calls(engine, UINT64_MAX, &call), 10);
    same("which sets nothing", (int64_t)call.number, 9);
    records_of_paths(engine);
    records_of_data(engine);
    call = record(engine, 7, 8, LT_KIND_READDIR);
    same("READDIR's names", call.names, 2);
    same("they are", are(call.answer_bytes, "a\0f", 4), 1);
    lt_close(engine, 1);
    call = record(engine, 9, 0, LT_KIND_LEFT);
    same("the oldest one went", lt_calls(engine, 0, &call), 10);
    same("and the second one is the oldest", (int64_t)call.number, 2);
    same("calls without an engine", lt_calls(NULL, 0, &call), LT_REFUSAL_BAD_POINTER);
    same("calls without a record", lt_calls(engine, 0, NULL), LT_REFUSAL_BAD_POINTER);
    lt_free(engine);
}

static lt_bytes text(const char *bytes)
{
    return (lt_bytes){(const uint8_t *)bytes, strlen(bytes)};
}

/* What a function that makes trees answered, at which request, and at how many bytes of the
 * path. */
static void stops(const char *name, int64_t answer, lt_place place, int64_t wanted, uint32_t kind,
                  size_t length)
{
    same(name, answer, wanted);
    same("by this request", place.kind, kind);
    same("at so many bytes", (int64_t)place.length, (int64_t)length);
}

/* Trees that are made, and refused, each by a session of its own. */
static void made(lt_engine *engine)
{
    lt_place place = {9, 9};
    int64_t answer = lt_make_directory(engine, text("/d//e"), MOMENT, &place);
    stops("a directory", answer, place, 0, 0, 0);
    same("a file", lt_write_file(engine, text("/d/f"), text("contents"), MOMENT, NULL), 0);
    same("an empty one", lt_write_file(engine, text("g"), (lt_bytes){NULL, 0}, MOMENT, NULL), 0);
    same("one more name", lt_link(engine, text("/d/f"), text("/e/h"), MOMENT, NULL), 0);
    answer = lt_make_directory(engine, text("/d/f/x"), MOMENT, &place);
    stops("a directory in a file", answer, place, LT_REFUSAL_STATUS_BASE - 4, LT_KIND_MKDIR, 4);
    answer = lt_write_file(engine, text("/"), text("x"), MOMENT, &place);
    stops("the root", answer, place, LT_REFUSAL_STATUS_BASE - 4, LT_KIND_OPEN, 1);
    answer = lt_link(engine, text("/none"), text("/x"), MOMENT, &place);
    stops("no file", answer, place, LT_REFUSAL_STATUS_BASE - 2, LT_KIND_HARDLINK, 2);
    same("a path without bytes", lt_make_directory(engine, (lt_bytes){NULL, 1}, MOMENT, NULL),
         LT_REFUSAL_BAD_POINTER);
    same("too large a length", lt_make_directory(engine, (lt_bytes){INIT, TOO_MANY}, MOMENT, NULL),
         LT_REFUSAL_BAD_POINTER);
    same("contents without bytes",
         lt_write_file(engine, text("/x"), (lt_bytes){NULL, 1}, MOMENT, NULL),
         LT_REFUSAL_BAD_POINTER);
    same("no engine", lt_link(NULL, text("/g"), text("/x"), MOMENT, NULL), LT_REFUSAL_BAD_POINTER);
}

/* The bytes of a leaf from an offset on are these, and no others follow. */
static void reads(const lt_tree *tree, uint64_t at, uint64_t offset, const char *contents)
{
    uint8_t room[16];
    size_t length = strlen(contents);
    same("how many bytes", lt_tree_read(tree, at, offset, room, sizeof room), (int64_t)length);
    same("its bytes", memcmp(room, contents, length), 0);
}

/* A leaf of a tree at a place, of seven. Its label is the number of the call that made it. */
static void leaf_is(lt_tree *tree, uint64_t at, const char *path, uint64_t label, uint32_t mode,
                    const char *contents)
{
    lt_leaf leaf;
    same(path, lt_tree_leaf(tree, at, &leaf), 7);
    same("its path", are(leaf.path, path, strlen(path)), 1);
    same("its label", (int64_t)leaf.label, (int64_t)label);
    same("its permissions", leaf.attributes.permissions, mode);
    same("its size", (int64_t)leaf.attributes.size, (int64_t)strlen(contents));
    same("its time", leaf.attributes.mtime, MOMENT);
    same("its attributes", leaf.attributes.given, 15);
    reads(tree, at, 0, contents);
}

/* The tree that `made` makes: of its calls the 2nd, 4th and 12th make directories, the 6th and 9th
 * files. */
static void is_as_made(lt_tree *tree)
{
    leaf_is(tree, 0, "/", 0, 040755, "");
    leaf_is(tree, 1, "/d", 2, 040755, "");
    leaf_is(tree, 2, "/d/e", 4, 040755, "");
    leaf_is(tree, 3, "/d/f", 6, 0100644, "contents");
    leaf_is(tree, 4, "/e", 12, 040755, "");
    leaf_is(tree, 5, "/e/h", 6, 0100644, "contents");
    leaf_is(tree, 6, "/g", 9, 0100644, "");
}

/* Leaves of that tree, by one call: it has seven, with 35 bytes in all. */
static void many_at_once(const lt_tree *tree)
{
    lt_leaf leaves[9];
    uint8_t room[64] = {0};
    same("all leaves", lt_tree_leaves(tree, 0, leaves, 9, room, sizeof room), 7);
    same("their bytes", memcmp(room, "//d/d/e/d/fcontents/e/e/hcontents/g", 36), 0);
    same("a path", are(leaves[5].path, "/e/h", 4), 1);
    same("in the room", leaves[5].path.at == room + 21, 1);
    same("its label", (int64_t)leaves[5].label, 6);
    same("its size", (int64_t)leaves[5].attributes.size, 8);
    same("its permissions", leaves[5].attributes.permissions, 0100644);
    same("some of them", lt_tree_leaves(tree, 1, leaves, 3, room, sizeof room), 3);
    same("the first", are(leaves[0].path, "/d", 2), 1);
    same("as there is room", lt_tree_leaves(tree, 0, leaves, 9, room, 19), 4);
    same("too little for the contents", lt_tree_leaves(tree, 0, leaves, 9, room, 18), 3);
    same("too little for the path", lt_tree_leaves(tree, 3, leaves, 9, room, 3), 0);
    same("no room", lt_tree_leaves(tree, 0, leaves, 9, room, 0), 0);
    same("none wanted", lt_tree_leaves(tree, 0, leaves, 0, room, sizeof room), 0);
    same("none further", lt_tree_leaves(tree, 7, leaves, 9, room, sizeof room), 0);
    same("none far behind", lt_tree_leaves(tree, UINT64_MAX, leaves, 9, room, sizeof room), 0);
    same("of no tree", lt_tree_leaves(NULL, 0, leaves, 9, room, 64), LT_REFUSAL_BAD_POINTER);
    same("to nowhere", lt_tree_leaves(tree, 0, NULL, 9, room, 64), LT_REFUSAL_BAD_POINTER);
    same("paths to nowhere", lt_tree_leaves(tree, 0, leaves, 9, NULL, 9), LT_REFUSAL_BAD_POINTER);
    same("too much room", lt_tree_leaves(tree, 0, leaves, 9, room, TOO_MANY),
         LT_REFUSAL_BAD_POINTER);
}

/* What may be asked of a tree beside its leaves, and what may not. */
static void asked(lt_engine *engine, lt_tree *tree)
{
    lt_tree *none = tree;
    lt_leaf leaf;
    uint8_t room[4] = {9, 9, 9, 9};
    same("no further leaf", lt_tree_leaf(tree, 7, &leaf), 7);
    reads(tree, 3, 3, "tents");
    reads(tree, 3, 8, "");
    reads(tree, 3, UINT64_MAX, "");
    reads(tree, 7, 0, "");
    same("as many bytes as there is room", lt_tree_read(tree, 3, 1, room, 3), 3);
    same("are these", memcmp(room, "ont\11", 4), 0);
    same("no room", lt_tree_read(tree, 3, 0, NULL, 0), 0);
    same("no gap in bytes", lt_tree_gap(tree, 3, 0), 0);
    same("none in a directory", lt_tree_gap(tree, 1, 0), 0);
    same("none where no leaf is", lt_tree_gap(tree, UINT64_MAX, 0), 0);
    same("a leaf that isn't told", lt_tree_leaf(tree, 0, NULL), LT_REFUSAL_BAD_POINTER);
    same("a leaf of no tree", lt_tree_leaf(NULL, 0, &leaf), LT_REFUSAL_BAD_POINTER);
    same("bytes of no tree", lt_tree_read(NULL, 0, 0, room, 3), LT_REFUSAL_BAD_POINTER);
    same("bytes to no room", lt_tree_read(tree, 3, 0, NULL, 1), LT_REFUSAL_BAD_POINTER);
    same("too many bytes", lt_tree_read(tree, 3, 0, room, TOO_MANY), LT_REFUSAL_BAD_POINTER);
    same("a gap of no tree", lt_tree_gap(NULL, 0, 0), LT_REFUSAL_BAD_POINTER);
    same("a tree of no engine", lt_tree_of(NULL, &none), LT_REFUSAL_BAD_POINTER);
    same("which is none", none == NULL, 1);
    same("a tree for nobody", lt_tree_of(engine, NULL), LT_REFUSAL_BAD_POINTER);
    lt_tree_free(NULL);
}

/* Paths that a packet has room for, which the server refuses, and longer ones. */
static void long_paths(void)
{
    static uint8_t bytes[LONGEST + 1];
    lt_engine *engine = lt_new();
    lt_place place;
    memset(bytes, 'x', sizeof bytes);
    int64_t answer = lt_make_directory(engine, (lt_bytes){bytes, LONGEST}, MOMENT, &place);
    stops("a long path", answer, place, LT_REFUSAL_STATUS_BASE - 4, LT_KIND_STAT, LONGEST);
    answer = lt_make_directory(engine, (lt_bytes){bytes, LONGEST + 1}, MOMENT, &place);
    stops("a longer one", answer, place, LT_REFUSAL_LONG_PATH, LT_KIND_STAT, LONGEST + 1);
    answer = lt_write_file(engine, (lt_bytes){bytes, LONGEST + 1}, text("x"), MOMENT, &place);
    stops("a longer one of a file", answer, place, LT_REFUSAL_LONG_PATH, LT_KIND_OPEN, LONGEST + 1);
    answer = lt_link(engine, (lt_bytes){bytes, LONGEST - 1}, text("x"), MOMENT, &place);
    stops("two long ones", answer, place, LT_REFUSAL_STATUS_BASE - 4, LT_KIND_HARDLINK, 1);
    answer = lt_link(engine, (lt_bytes){bytes, LONGEST}, text("x"), MOMENT, &place);
    stops("two longer ones", answer, place, LT_REFUSAL_LONG_PATH, LT_KIND_HARDLINK, 1);
    lt_free(engine);
}

/* SETSTAT of /d/f under the id 9: its size is 2^40. */
static const uint8_t GROW[] = {0,   0,   0,   25, 9, 0, 0, 0, 9, 0, 0, 0, 4, '/', 'd',
                               '/', 'f', 0,   0,  0, 1, 0, 0, 1, 0, 0, 0, 0, 0};

/* A file of 2^40 bytes, of which the first five were written. */
static void sparse(lt_engine *engine)
{
    const uint64_t size = (uint64_t)1 << 40;
    lt_tree *tree;
    lt_leaf leaf;
    uint8_t room[9];
    uint64_t session = (uint64_t)lt_open(engine);
    lt_feed(engine, session, INIT, sizeof INIT);
    lt_feed(engine, session, GROW, sizeof GROW);
    same("a file grows", lt_settle(engine, session, MOMENT, 2, NULL), LT_TURN_SPENT);
    same("a tree", lt_tree_of(engine, &tree), 0);
    lt_tree_leaf(tree, 3, &leaf);
    same("its size", (int64_t)leaf.attributes.size, (int64_t)size);
    same("no gap at the front", lt_tree_gap(tree, 3, 0), 0);
    same("a gap behind it", lt_tree_gap(tree, 3, 32768), (int64_t)size - 32768);
    same("and from within it", lt_tree_gap(tree, 3, size - 5), 5);
    same("none at the end", lt_tree_gap(tree, 3, size), 0);
    same("the front", lt_tree_read(tree, 3, 1, room, sizeof room), 9);
    same("ends in zeros", memcmp(room, "ther\0\0\0\0\0", sizeof room), 0);
    same("the end", lt_tree_read(tree, 3, size - 2, room, sizeof room), 2);
    same("is zeros", memcmp(room, "\0\0er\0\0\0\0\0", sizeof room), 0);
    lt_tree_free(tree);
}

/* The path of one of many files, and its contents. */
static lt_bytes one_of_many(int number)
{
    static char path[16];
    snprintf(path, sizeof path, "/d/%04d", number);
    return text(path);
}

/* Many files, and more bytes than many packets have. */
static void large_trees(void)
{
    static uint8_t contents[LARGE], room[LARGE + 1];
    lt_engine *engine = lt_new();
    lt_tree *tree;
    lt_leaf leaf;
    for (size_t i = 0; i < sizeof contents; i++)
        contents[i] = (uint8_t)(i % 251);
    for (int i = 0; i < MANY_FILES; i++)
        same("a file", lt_write_file(engine, one_of_many(i), one_of_many(i), MOMENT, NULL), 0);
    same("a large file",
         lt_write_file(engine, text("/large"), (lt_bytes){contents, LARGE}, MOMENT, NULL), 0);
    same("a tree", lt_tree_of(engine, &tree), 0);
    lt_free(engine);
    for (int i = 0; i < MANY_FILES; i++) {
        lt_bytes path = one_of_many(i);
        same("all leaves", lt_tree_leaf(tree, (uint64_t)i + 2, &leaf), MANY_FILES + 3);
        same("a path", are(leaf.path, (const char *)path.at, path.length), 1);
        reads(tree, (uint64_t)i + 2, 0, (const char *)path.at);
    }
    same("all but the large one's bytes",
         lt_tree_leaves(tree, MANY_FILES + 2, &leaf, 1, room, 6), 1);
    same("which is told", (int64_t)leaf.attributes.size, LARGE);
    same("a large file", lt_tree_read(tree, MANY_FILES + 2, 0, room, sizeof room), LARGE);
    same("its bytes", memcmp(room, contents, LARGE), 0);
    same("from an offset on", lt_tree_read(tree, MANY_FILES + 2, 40000, room, 200000), 200000);
    same("its bytes from there on", memcmp(room, contents + 40000, 200000), 0);
    lt_tree_free(tree);
}

/* A tree, which the engine's further calls change as little as it changes the engine: no session
 * opens, and no call is recorded. It is the tree of the calls that were decided, also where one is
 * half way and holds the root. */
static void trees(void)
{
    lt_engine *engine = lt_new_keeping(0);
    lt_tree *tree;
    lt_call call;
    made(engine);
    int64_t calls = lt_calls(engine, UINT64_MAX, &call);
    uint64_t session = (uint64_t)lt_open(engine);
    lt_feed(engine, session, INIT, sizeof INIT);
    lt_feed(engine, session, MAKE_X, sizeof MAKE_X);
    for (int i = 0; i < 3; i++)
        lt_turn(engine, session, MOMENT);
    same("a tree", lt_tree_of(engine, &tree), 0);
    same("no further session", lt_open(engine), (int64_t)session + 1);
    same("no further call", lt_calls(engine, UINT64_MAX, &call), calls);
    is_as_made(tree);
    same("a file is replaced", lt_write_file(engine, text("/g"), text("other"), MOMENT, NULL),
         LT_REFUSAL_IS_BLOCKED);
    lt_run_all(engine);
    same("and again", lt_write_file(engine, text("/d/f"), text("other"), MOMENT, NULL), 0);
    sparse(engine);
    is_as_made(tree);
    many_at_once(tree);
    asked(engine, tree);
    lt_free(engine);
    is_as_made(tree);
    lt_tree_free(tree);
}

static const lt_bytes NO_PATH;

/* A rule of these words: all that they leave out is any. */
static lt_rule rule_of(uint32_t kind, lt_bytes path, uint64_t pass, uint64_t refuse)
{
    return (lt_rule){.kind = kind, .path = path, .pass = pass, .refuse = refuse, .status = 3};
}

static lt_bytes bytes_of(const char *text)
{
    return (lt_bytes){(const uint8_t *)text, strlen(text)};
}

static void bad_rules(lt_engine *engine)
{
    static char long_name[258] = "/";
    lt_rule rule = rule_of(LT_KIND_ANY, NO_PATH, 0, 1);
    same("no engine for a rule", lt_refuse(NULL, &rule), LT_REFUSAL_BAD_POINTER);
    same("no rule", lt_refuse(engine, NULL), LT_REFUSAL_BAD_POINTER);
    same("no engine with a rule", lt_refused(NULL, 0), LT_REFUSAL_BAD_POINTER);
    rule.path = (lt_bytes){(const uint8_t *)"/a", TOO_MANY};
    same("too long a path of a rule", lt_refuse(engine, &rule), LT_REFUSAL_BAD_POINTER);
    rule.path = (lt_bytes){(const uint8_t *)"/a", 3};
    same("a path with a byte 0", lt_refuse(engine, &rule), LT_REFUSAL_BAD_PATH);
    memset(long_name + 1, 'a', 256);
    rule.path = bytes_of(long_name);
    same("a path with a long name", lt_refuse(engine, &rule), LT_REFUSAL_BAD_PATH);
    for (uint32_t status = 0; status < 12; status++) {
        rule = rule_of(LT_KIND_ANY, NO_PATH, 0, 0);
        rule.status = status;
        bool is = status < 6 || status == 8;
        same("which numbers are codes", lt_refuse(engine, &rule) >= 0, is);
        if (!is)
            same("a number that is no code", lt_refuse(engine, &rule), LT_REFUSAL_BAD_STATUS);
    }
    for (uint32_t kind = 0; kind < 256; kind++) {
        rule = rule_of(kind, NO_PATH, 0, 0);
        bool is = kind == LT_KIND_ANY || (kind >= LT_KIND_OPEN && kind <= LT_KIND_RENAME)
                  || kind == LT_KIND_POSIX_RENAME || kind == LT_KIND_HARDLINK;
        same("which numbers are kinds", lt_refuse(engine, &rule) >= 0, is);
        if (!is)
            same("a number that is no kind", lt_refuse(engine, &rule), LT_REFUSAL_BAD_KIND);
    }
}

/* A rule for MKDIR of /a, given after INIT was answered: the first MKDIR passes, the second and
 * third are refused. */
static void rules(void)
{
    uint8_t room[256];
    lt_engine *engine = lt_new();
    int64_t session = lt_open(engine);
    lt_feed(engine, (uint64_t)session, INIT, sizeof INIT);
    lt_settle(engine, (uint64_t)session, MOMENT, 10, NULL);
    lt_sent(engine, (uint64_t)session, VERSION);
    lt_rule rule = rule_of(LT_KIND_MKDIR, bytes_of("/x/../a"), 1, 2);
    same("no rule yet", lt_refused(engine, 0), LT_REFUSAL_NO_SUCH_RULE);
    same("the first rule's number", lt_refuse(engine, &rule), 0);
    rule.session = (uint64_t)session + 1;
    same("the second rule's number", lt_refuse(engine, &rule), 1);
    for (int i = 0; i < 4; i++)
        lt_feed(engine, (uint64_t)session, MKDIR, sizeof MKDIR);
    lt_feed(engine, (uint64_t)session, STAT, sizeof STAT);
    same("it goes on to its end", lt_settle(engine, (uint64_t)session, MOMENT, 10, NULL),
         LT_TURN_IDLE);
    same("it waits for bytes then", lt_wants_bytes(engine, (uint64_t)session), 1);
    same("how many were refused", lt_refused(engine, 0), 2);
    same("how many the other one refused", lt_refused(engine, 1), 0);
    same("no third rule", lt_refused(engine, 2), LT_REFUSAL_NO_SUCH_RULE);
    /* A STATUS has its text's length more than 21 bytes: "Success" has 7, and "Permission denied"
     * 17. */
    same("what waits up to the last of them",
         lt_output(engine, (uint64_t)session, room, sizeof room), OK + 2 * 38);
    same("the code of the first", room[12], 0);
    same("the code of the second", room[OK + 12], 3);
    same("its id", room[OK + 8], 7);
    same("more than waits there", lt_sent(engine, (uint64_t)session, OK + 2 * 38 + OK + 41 + 1),
         LT_REFUSAL_NOT_SENT);
    same("that was sent", lt_sent(engine, (uint64_t)session, OK + 2 * 38), 0);
    /* "Failure" for the fourth MKDIR, since /a is there, and the attributes of /a: 5 numbers of 4
     * bytes, one of 8, and 13 bytes before them. */
    same("what waits behind them", lt_output(engine, (uint64_t)session, room, sizeof room),
         OK + 41);
    same("the code of the fourth", room[12], 4);
    same("all was sent", lt_sent(engine, (uint64_t)session, OK + 41), 0);
    same("nothing waits", lt_output(engine, (uint64_t)session, room, sizeof room), 0);
    lt_call call;
    same("calls that are recorded", lt_calls(engine, 0, &call), 3);
    bad_rules(engine);
    lt_free(engine);
}

/* STAT of / under the id 9. */
static const uint8_t STAT_ROOT[] = {0, 0, 0, 10, 17, 0, 0, 0, 9, 0, 0, 0, 1, '/'};

/* A rule of an empty path is for the root, and for no other path. */
static void rule_of_the_root(void)
{
    lt_engine *engine = lt_new();
    uint64_t session = (uint64_t)lt_open(engine);
    lt_rule rule = rule_of(LT_KIND_STAT, bytes_of(""), 0, 2);
    same("a rule of an empty path", lt_refuse(engine, &rule), 0);
    lt_feed(engine, session, INIT, sizeof INIT);
    lt_feed(engine, session, STAT, sizeof STAT);
    lt_settle(engine, session, MOMENT, 2, NULL);
    same("another path", lt_refused(engine, 0), 0);
    lt_feed(engine, session, STAT_ROOT, sizeof STAT_ROOT);
    lt_settle(engine, session, MOMENT, 1, NULL);
    same("the root", lt_refused(engine, 0), 1);
    lt_free(engine);
}

static void many_sessions(void)
{
    lt_engine *engine = lt_new();
    lt_place place;
    for (int64_t i = 1; i <= 256; i++)
        same("one of 256", lt_open(engine), i);
    same("one more than 256", lt_open(engine), LT_REFUSAL_TOO_MANY_SESSIONS);
    int64_t answer = lt_make_directory(engine, text("/a"), MOMENT, &place);
    stops("and one for a tree", answer, place, LT_REFUSAL_TOO_MANY_SESSIONS, LT_KIND_INIT, 0);
    lt_free(engine);
}

int main(void)
{
    texts();
    null_pointers();
    unknown_sessions();
    lengths_of_zero();
    wants_bytes();
    after_the_end();
    moved();
    blocked();
    rounds();
    replayed();
    records();
    trees();
    long_paths();
    large_trees();
    rules();
    rule_of_the_root();
    many_sessions();
    for (int i = 0; i < MANY_ENGINES; i++)
        one_session();
    printf("library: %d numbers as wanted, %d others\n", passed, failed);
    return failed == 0 ? 0 : 1;
}
