/* Short sessions at a Unix socket, by many clients at once:
 *
 *     sessions SOCKET COUNT CLIENTS
 *
 * Each makes a directory of its client's own, removes it and goes away. Stops at the first session
 * that is sent anything but its three replies. */
#include "version.h"

#include <errno.h>
#include <stdint.h>
#include <stdio.h>
#include <stdlib.h>
#include <string.h>
#include <sys/socket.h>
#include <sys/time.h>
#include <sys/un.h>
#include <sys/wait.h>
#include <unistd.h>

enum { MOST_CLIENTS = 64, SECONDS = 60 };

/* INIT; MKDIR and RMDIR of /a0, under the ids 1 and 2, in which the name's last byte is the
 * client's. */
static uint8_t asked[] = {0, 0, 0, 5,  1,  0, 0, 0, 3, 0, 0, 0, 16,  14,  0,  0, 0,
                          1, 0, 0, 0,  3,  '/', 'a', '0', 0, 0, 0, 0, 0, 0, 0, 12, 15,
                          0, 0, 0, 2,  0,  0, 0, 3, '/', 'a', '0'};
enum { MADE = 24, REMOVED = sizeof asked - 1 };

/* Two statuses OK, after VERSION. */
static const char answered[] = "\0\0\0\x18\x65\0\0\0\1\0\0\0\0\0\0\0\7Success\0\0\0\0"
                               "\0\0\0\x18\x65\0\0\0\2\0\0\0\0\0\0\0\7Success\0\0\0\0";
enum { ANSWERED = VERSION + sizeof answered - 1 };

static void stop(long session, const char *why)
{
    fprintf(stderr, "sessions: session %ld of a client: %s: %s\n", session, why, strerror(errno));
    exit(1);
}

static void have_session(const struct sockaddr_un *at, long session)
{
    char got[ANSWERED];
    size_t have = 0;
    const struct timeval most = {.tv_sec = SECONDS};
    int line = socket(AF_UNIX, SOCK_STREAM, 0);
    if (line < 0 || setsockopt(line, SOL_SOCKET, SO_RCVTIMEO, &most, sizeof most) != 0
        || connect(line, (const struct sockaddr *)at, sizeof *at) != 0)
        stop(session, "no connection");
    if (send(line, asked, sizeof asked, MSG_NOSIGNAL) != sizeof asked)
        stop(session, "it takes nothing");
    while (have < ANSWERED) {
        ssize_t n = recv(line, got + have, ANSWERED - have, 0);
        if (n <= 0)
            stop(session, n == 0 ? "the server ended it" : "it sends nothing");
        have += (size_t)n;
    }
    if (memcmp(got + VERSION, answered, sizeof answered - 1) != 0)
        stop(session, "other replies");
    close(line);
}

static void be_client(const struct sockaddr_un *at, int client, long count)
{
    asked[MADE] = asked[REMOVED] = (uint8_t)('0' + client);
    for (long session = 1; session <= count; session++) {
        alarm(2 * SECONDS);
        have_session(at, session);
    }
    exit(0);
}

int main(int count, char **words)
{
    struct sockaddr_un at = {.sun_family = AF_UNIX};
    if (count != 4 || strlen(words[1]) >= sizeof at.sun_path)
        return 2;
    strcpy(at.sun_path, words[1]);
    long sessions = atol(words[2]);
    int clients = atoi(words[3]), failed = 0, status;
    if (clients < 1 || clients > MOST_CLIENTS)
        return 2;
    for (int client = 0; client < clients; client++)
        if (fork() == 0)
            be_client(&at, client, sessions / clients + (client < sessions % clients));
    while (wait(&status) > 0)
        failed += status != 0;
    return failed == 0 ? 0 : 1;
}
