/* Replays a schedule from standard input by the functions of lucernetick.h, and prints what came of
 * each event, as the program `replay` of crates/ does, but for the records. */
#include "lucernetick.h"

#include <inttypes.h>
#include <stdio.h>
#include <stdlib.h>
#include <string.h>

enum { MOST_BYTES = 1 << 19, MOST_SESSIONS = 256 };

static char line[2 * MOST_BYTES + 100];
static uint8_t bytes[MOST_BYTES];

static void print_state(lt_engine *engine)
{
    for (uint64_t session = 1; session <= MOST_SESSIONS; session++) {
        int64_t waiting = lt_output(engine, session, bytes, sizeof bytes);
        if (waiting < 0)
            continue;
        printf("output %" PRIu64 " ", session);
        for (int64_t i = 0; i < waiting && i < MOST_BYTES; i++)
            printf("%02x", bytes[i]);
        printf("\n");
    }
}

/* The bytes of a text in hexadecimal, up to its end or its line's. */
static size_t read_hex(const char *text)
{
    size_t count = 0;
    unsigned byte;
    while (count < MOST_BYTES && sscanf(text + 2 * count, "%2x", &byte) == 1)
        bytes[count++] = (uint8_t)byte;
    return count;
}

/* Calls what the line says: the library's answer, and the word for it where it is no refusal. */
static int64_t call(lt_engine *engine, const char **word)
{
    static const char *const turns[] = {"Idle", "Wrote", "Begun", "Moved", "Blocked", "Decided"};
    uint64_t session = 0, number = 0;
    int64_t answer;
    int at = 0;
    if (strncmp(line, "open", 4) == 0) {
        *word = "Opened";
        return lt_open(engine);
    }
    if (sscanf(line, "feed %" SCNu64 " %n", &session, &at) == 1 && at > 0) {
        *word = "Fed";
        return lt_feed(engine, session, bytes, read_hex(line + at));
    }
    if (sscanf(line, "close %" SCNu64, &session) == 1) {
        *word = "Closed";
        return lt_close(engine, session);
    }
    if (sscanf(line, "sent %" SCNu64 " %" SCNu64, &session, &number) == 2) {
        *word = "Sent";
        return lt_sent(engine, session, number);
    }
    if (sscanf(line, "turn %" SCNu64 " %" SCNu64, &session, &number) != 2) {
        fprintf(stderr, "no such line: %s", line);
        exit(2);
    }
    answer = lt_turn(engine, session, (uint32_t)number);
    *word = answer < 0 ? NULL : answer <= LT_TURN_DECIDED ? turns[answer] : "Ended";
    return answer;
}

static int64_t try_event(lt_engine *engine)
{
    const char *word = NULL;
    int64_t answer = call(engine, &word);
    if (answer >= 0)
        printf("%s\n", word);
    else if (answer == LT_REFUSAL_OUT_OF_MEMORY)
        printf("refused OutOfMemory\n");
    else
        printf("refused %" PRId64 "\n", answer);
    return answer;
}

static lt_engine *make_engine(void)
{
    lt_engine *engine = lt_new_keeping(0);
    if (engine == NULL) {
        printf("refused OutOfMemory\n");
        engine = lt_new_keeping(0);
    }
    return engine;
}

int main(void)
{
    printf("read\n");
    lt_engine *engine = make_engine();
    if (engine == NULL)
        return 1;
    printf("begun\n");
    while (fgets(line, sizeof line, stdin) != NULL) {
        if (strncmp(line, "state", 5) == 0) {
            print_state(engine);
        } else if (try_event(engine) == LT_REFUSAL_OUT_OF_MEMORY) {
            print_state(engine);
            try_event(engine);
        }
    }
    lt_free(engine);
    printf("end\n");
    return 0;
}
