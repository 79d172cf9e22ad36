/* A server in C: sessions on one tree, over a Unix socket, by one thread.
 *     serve SOCKET MOMENT
 * Every call begins at this moment, in seconds since 1970. It serves until its standard input ends.
 * While a client is slow to read, it reads on what that client sends, up to 16 MiB, and serves the
 * others. */
#define _POSIX_C_SOURCE 200809L
#include "lucernetick.h"

#include <errno.h>
#include <poll.h>
#include <stdio.h>
#include <stdlib.h>
#include <string.h>
#include <sys/socket.h>
#include <sys/un.h>
#include <unistd.h>

enum { CLIENTS = 64, PIECE = 65536, REPLIES = 256 };

/* How many bytes a client may send ahead, while the replies that it is to be sent wait for it. */
enum { AHEAD = 1 << 24 };

/* What is polled: standard input, the socket that listens, and then the clients' connections. */
enum { INPUT = 0, LISTENER = 1, FIRST = 2 };

/* Bytes that a client sent, of which its session was fed those before `from`. */
struct piece {
    struct piece *next;
    size_t from, to;
    uint8_t bytes[PIECE];
};

struct client {
    uint64_t session;
    struct piece *first, *last;
    size_t ahead; /* how many bytes its session wasn't fed yet */
    int is_closed; /* it sends no more */
    int has_ended; /* its session asks for no more */
};

struct server {
    lt_engine *engine;
    uint32_t moment;
    nfds_t count;
    struct pollfd lines[FIRST + CLIENTS];
    struct client clients[FIRST + CLIENTS];
};

/* Sends what waits to be sent to a client, as far as it takes that without waiting. Answers how
 * much waits then, or a number below 0 where that fails. */
static int64_t send_output(struct server *server, nfds_t at)
{
    static uint8_t room[PIECE];
    uint64_t session = server->clients[at].session;
    int64_t waiting;
    while ((waiting = lt_output(server->engine, session, room, sizeof room)) > 0) {
        size_t count = (uint64_t)waiting < sizeof room ? (size_t)waiting : sizeof room;
        ssize_t sent = send(server->lines[at].fd, room, count, MSG_NOSIGNAL | MSG_DONTWAIT);
        if (sent < 0)
            return errno == EAGAIN ? waiting : -1;
        lt_sent(server->engine, session, (size_t)sent);
    }
    return waiting;
}

/* Reads some of what a client sent, which its session is fed later. Answers whether there was
 * memory for it. */
static int read_ahead(struct server *server, nfds_t at)
{
    struct client *client = &server->clients[at];
    struct piece *last = client->last;
    if (last == NULL || last->to == PIECE) {
        if ((last = malloc(sizeof *last)) == NULL)
            return 0;
        *(client->last != NULL ? &client->last->next : &client->first) = last;
        client->last = last;
        last->next = NULL;
        last->from = last->to = 0;
    }
    ssize_t count = read(server->lines[at].fd, last->bytes + last->to, PIECE - last->to);
    if (count > 0) {
        last->to += (size_t)count;
        client->ahead += (size_t)count;
    } else {
        client->is_closed = 1;
    }
    return 1;
}

/* Feeds a session the next piece of what its client sent. Answers whether there was memory. */
static int feed(struct server *server, struct client *client)
{
    struct piece *first = client->first;
    if (lt_feed(server->engine, client->session, first->bytes + first->from,
                first->to - first->from)
        < 0)
        return 0;
    client->ahead -= first->to - first->from;
    first->from = first->to;
    if (first->to == PIECE || client->ahead == 0) {
        client->first = first->next;
        if (client->last == first)
            client->last = NULL;
        free(first);
    }
    return 1;
}

/* Takes a session's turns, and sends what it wrote, until its client has to read or to send
 * something. Answers whether it goes on. Here no session is ever blocked, since none is left half
 * way in a call. */
static int settle(struct server *server, nfds_t at)
{
    struct client *client = &server->clients[at];
    for (;;) {
        int64_t waiting = send_output(server, at);
        if (waiting != 0 || client->has_ended)
            return waiting > 0;
        int64_t turn = lt_settle(server->engine, client->session, server->moment, REPLIES, NULL);
        client->has_ended = turn != LT_TURN_SPENT && turn != LT_TURN_IDLE;
        if (turn != LT_TURN_IDLE || lt_output(server->engine, client->session, NULL, 0) > 0)
            continue;
        if (client->ahead == 0)
            return !client->is_closed;
        if (!feed(server, client))
            return 0;
    }
}

/* Serves a client that can be read from or sent to. Answers whether it goes on. */
static int serve_client(struct server *server, nfds_t at)
{
    struct pollfd *line = &server->lines[at];
    struct client *client = &server->clients[at];
    if ((line->revents & ~POLLOUT) != 0 && !client->is_closed && !read_ahead(server, at))
        return 0;
    if (!settle(server, at))
        return 0;
    int waits = lt_output(server->engine, client->session, NULL, 0) > 0;
    line->events =
        (short)((waits ? POLLOUT : 0) | (client->ahead < AHEAD && !client->is_closed ? POLLIN : 0));
    return 1;
}

/* Ends a session, whose call is carried out, and its connection. The last client replaces it. */
static void leave(struct server *server, nfds_t at)
{
    struct client *client = &server->clients[at];
    lt_close(server->engine, client->session);
    lt_settle(server->engine, client->session, server->moment, UINT64_MAX, NULL);
    while (client->first != NULL) {
        struct piece *first = client->first;
        client->first = first->next;
        free(first);
    }
    close(server->lines[at].fd);
    server->count--;
    server->lines[at] = server->lines[server->count];
    server->clients[at] = server->clients[server->count];
}

/* Opens a session for a client that connects. */
static void take_client(struct server *server)
{
    int line = accept(server->lines[LISTENER].fd, NULL, NULL);
    if (line < 0)
        return;
    int64_t session =
        server->count < FIRST + CLIENTS ? lt_open(server->engine) : LT_REFUSAL_TOO_MANY_SESSIONS;
    if (session < 0) {
        close(line);
        return;
    }
    server->lines[server->count] = (struct pollfd){.fd = line, .events = POLLIN};
    server->clients[server->count] = (struct client){.session = (uint64_t)session};
    server->count++;
}

/* Listens at a path. Answers the socket, or a number below 0. */
static int listen_at(const char *path)
{
    struct sockaddr_un address = {.sun_family = AF_UNIX};
    int line = socket(AF_UNIX, SOCK_STREAM, 0);
    if (line < 0 || strlen(path) >= sizeof address.sun_path)
        return -1;
    strcpy(address.sun_path, path);
    if (bind(line, (struct sockaddr *)&address, sizeof address) < 0 || listen(line, 16) < 0)
        return -1;
    return line;
}

/* Serves until standard input ends. A client that leaves is replaced by the last one, so they go
 * backwards. */
static void serve(struct server *server)
{
    while (poll(server->lines, server->count, -1) >= 0 && server->lines[INPUT].revents == 0) {
        for (nfds_t at = server->count; at > FIRST; at--) {
            if (server->lines[at - 1].revents != 0 && !serve_client(server, at - 1))
                leave(server, at - 1);
        }
        if (server->lines[LISTENER].revents != 0)
            take_client(server);
    }
}

int main(int count, char **words)
{
    static struct server server;
    int line = count == 3 ? listen_at(words[1]) : -1;
    if (line < 0 || (server.engine = lt_new_keeping(1)) == NULL) {
        fprintf(stderr, "serve: wants SOCKET, a path that isn't there yet, and MOMENT\n");
        return 1;
    }
    server.moment = (uint32_t)strtoul(words[2], NULL, 10);
    server.lines[INPUT] = (struct pollfd){.fd = STDIN_FILENO, .events = POLLIN};
    server.lines[LISTENER] = (struct pollfd){.fd = line, .events = POLLIN};
    server.count = FIRST;
    serve(&server);
    while (server.count > FIRST)
        leave(&server, server.count - 1);
    lt_free(server.engine);
    close(line);
    unlink(words[1]);
    return 0;
}
