/* Lucernetick: an in-memory SFTP server, version 3, as a library.
 *
 * An engine is one file system and any number of sessions, without threads, sockets or a clock. The
 * caller feeds a session the bytes that its client sent, gives it turns, and sends its output to
 * the client. Nothing happens between two calls, so the same calls produce the same bytes each
 * time.
 *
 *     lt_engine *engine = lt_new();
 *     int64_t session = lt_open(engine);
 *     lt_feed(engine, session, request, request_length);
 *     lt_settle(engine, session, moment, 1000, NULL);
 *     int64_t waiting = lt_output(engine, session, room, room_length);
 *     size_t count = (size_t)waiting < room_length ? (size_t)waiting : room_length;
 *     fwrite(room, 1, count, client);
 *     lt_sent(engine, session, count);
 *     lt_free(engine);
 *
 * `make library` builds it, and `cc -Iinclude program.c out/liblucernetick.a` builds a program.
 * After `make install`, `pkg-config --cflags --libs lucernetick` prints the options.
 * tests/c/serve.c is a complete program, a server for many clients, and sftpd-over-ssh adds SSH.
 *
 * Functions return numbers. Negative ones are errors, with the text lt_message.
 *
 * The caller must ensure the following, which nothing checks:
 * - A pointer to an engine is NULL, or was returned by lt_new and not passed to lt_free. The same
 *   holds for a tree with lt_tree_of and lt_tree_free.
 * - A pointer to bytes is NULL, or points to as many bytes as its length says. lt_feed reads them,
 *   lt_output writes them. They are not the engine's own, and nobody changes them during the call.
 * - Each engine and each tree is used by one call at a time, including functions that take a
 *   `const` pointer. A thread other than the one that made it must have received it by a mutex, or
 *   by the start or join of a thread. Different engines and trees may be used by different threads
 *   at the same time, also a tree and the engine that it was taken from.
 * - No call is made by a signal handler, or in the child after fork of a process with threads.
 * - malloc, realloc and free belong to one allocator, and malloc aligns as C requires.
 */
#ifndef LUCERNETICK_H
#define LUCERNETICK_H

#include <stdbool.h>
#include <stddef.h>
#include <stdint.h>

/* The version of this file; lt_version() is that of the library. */
#define LT_VERSION "0.3.0"

#ifdef __cplusplus
extern "C" {
#endif

typedef struct lt_engine lt_engine;

/* Why a call was rejected: all are negative. A rejected call has changed nothing and may be
 * retried. Only lt_make_directory, lt_write_file and lt_link keep what they did before the error.
 * */
enum {
    LT_REFUSAL_OUT_OF_MEMORY = -1,
    LT_REFUSAL_NO_SUCH_SESSION = -2,   /* no session with this number was ever opened */
    LT_REFUSAL_TOO_MANY_SESSIONS = -3, /* 256 sessions are open */
    LT_REFUSAL_HAS_ENDED = -4,         /* the session has ended or was closed, and accepts no more
                                          bytes */
    LT_REFUSAL_NUMBERS_SPENT = -5,     /* 2^63 - 1 sessions were opened */
    LT_REFUSAL_NOT_SENT = -6,          /* fewer bytes are pending */
    LT_REFUSAL_BAD_POINTER = -7,       /* NULL for an engine, a tree or a result; NULL for bytes
                                          with a length other than 0; or a length above
                                          PTRDIFF_MAX */
    /* Only by the functions that write files: */
    LT_REFUSAL_IS_BLOCKED = -8,    /* a call of another session, still in progress, blocks the
                                      request */
    LT_REFUSAL_LONG_PATH = -10,    /* a path, or both of a link, do not fit in a packet: 262080
                                      bytes */
    LT_REFUSAL_NO_REPLY = -11,     /* the reply is not the expected one */
    LT_REFUSAL_STATUS_BASE = -100, /* a request returned an error status:
                                      LT_REFUSAL_STATUS_BASE - its code */
    /* Only by lt_refuse and lt_refused: */
    LT_REFUSAL_BAD_KIND = -12,     /* the kind of a rule is neither LT_KIND_ANY nor a request's */
    LT_REFUSAL_BAD_STATUS = -13,   /* the status of a rule is never sent; valid are 0, 1, 2, 3, 4,
                                      5 and 8 */
    LT_REFUSAL_BAD_PATH = -14,     /* the path of a rule has more than 4096 bytes, a name of more
                                      than 255, or a byte 0 */
    LT_REFUSAL_NO_SUCH_RULE = -15  /* no rule has this number */
};

/* What a turn did. */
enum {
    LT_TURN_IDLE = 0,    /* nothing: no complete packet is buffered */
    LT_TURN_WROTE = 1,   /* it wrote a reply, now in lt_output */
    LT_TURN_BEGUN = 2,   /* it read a request; its call begins with this turn's timestamp */
    LT_TURN_MOVED = 3,   /* the call made one step */
    LT_TURN_BLOCKED = 4, /* a call of another session holds what this call needs, and has to advance
                            first */
    LT_TURN_DECIDED = 5, /* the call is decided; the next turn writes its reply */
    LT_TURN_SPENT = 6,   /* only by lt_settle: the maximum number of replies was written, and the
                            session continues */
    LT_TURN_ENDED = 16   /* the session has ended: the result is LT_TURN_ENDED + one of the causes
                            below */
};

/* Why a session ended: a result of LT_TURN_ENDED + LT_CAUSE_NOT_INIT, and so on. */
enum {
    LT_CAUSE_NOT_INIT = 1,    /* its first packet is not INIT */
    LT_CAUSE_OLD_VERSION = 2, /* its client has a version below 3 */
    LT_CAUSE_SECOND_INIT = 3,
    LT_CAUSE_ZERO_LENGTH = 4, /* a packet of length 0 */
    LT_CAUSE_TOO_LONG = 5,    /* a packet of a length above 262144 */
    LT_CAUSE_NO_ID = 6,       /* a packet that ends before its id, or INIT before its version */
    LT_CAUSE_CLOSED = 7       /* by lt_close */
};

/* The library's version, as LT_VERSION. */
const char *lt_version(void);

/* The text of a result of lt_turn or lt_settle, or of any function's error: a few words in English,
 * such as "256 sessions are open". Do not free it. An unknown number has a text that says so. */
const char *lt_message(int64_t answer);

/* An engine with no session and an empty root. It retains the records of its last 256 calls. NULL:
 * out of memory. */
lt_engine *lt_new(void);

/* As lt_new, but it retains the records of its last `keep` calls, or of all calls if `keep` is 0.
 * Records take memory, including the bytes written and read. They change no result. */
lt_engine *lt_new_keeping(uint64_t keep);

/* Frees an engine with its sessions and its files. NULL: does nothing. */
void lt_free(lt_engine *engine);

/* Opens a session, and returns its number: 1, 2, 3 and so on. */
int64_t lt_open(lt_engine *engine);

/* Appends bytes to the session's input; returns 0. They are copied. If `length` is 0, `bytes` may
 * be NULL. */
int64_t lt_feed(lt_engine *engine, uint64_t session, const uint8_t *bytes, size_t length);

/* The session does one thing: it writes a reply, makes one step of its call, or reads a packet. A
 * call that begins has the timestamp `moment`, in seconds since 1970. Returns what it did:
 * LT_TURN_IDLE to LT_TURN_DECIDED, or LT_TURN_ENDED + a cause. */
int64_t lt_turn(lt_engine *engine, uint64_t session, uint32_t moment);

/* Repeats turns until one returns LT_TURN_IDLE, LT_TURN_BLOCKED, LT_TURN_ENDED + a cause, or an
 * error, and returns that; or LT_TURN_SPENT after `most` replies. An error does not undo earlier
 * turns. If `most` is 0, nothing happens and the result is LT_TURN_SPENT. `*moved` is set to
 * whether any turn returned LT_TURN_WROTE, LT_TURN_BEGUN, LT_TURN_MOVED or LT_TURN_DECIDED; then a
 * blocked session may be able to continue. `moved` may be NULL. */
int64_t lt_settle(lt_engine *engine, uint64_t session, uint32_t moment, uint64_t most, bool *moved);

/* Runs rounds until no call is in progress. In a round every session with a call in progress has
 * one turn, with the timestamp 0, in the order of session numbers. Returns the number of rounds. It
 * is at most the sum, over these calls, of 3, the names in their paths and, for a WRITE, one more
 * than the number of its blocks of 4096 bytes. Later turns write the replies. Out of memory does
 * not stop it: such a call gets that reply. */
int64_t lt_run_all(lt_engine *engine);

/* 1 if the session waits for bytes: no call is in progress, and no complete packet is buffered, so
 * that a turn would return LT_TURN_IDLE. Otherwise 0, also for an ended session and an unknown
 * number. */
int64_t lt_wants_bytes(const lt_engine *engine, uint64_t session);

/* Ends the session's input; returns 0. Further turns finish a call in progress and write its reply.
 * No further packet is read. */
int64_t lt_close(lt_engine *engine, uint64_t session);

/* Copies the first pending output bytes to `room`, at most `length`. Returns how many bytes are
 * pending, which may be more. They stay pending until lt_sent. If `length` is 0, `room` may be
 * NULL. It works for ended sessions too. If a rule (lt_refuse) rejected requests, the bytes up to
 * the last injected status come first, and later output follows once those were sent: 0 means that
 * nothing is pending. */
int64_t lt_output(const lt_engine *engine, uint64_t session, uint8_t *room, size_t length);

/* Discards the first `count` pending bytes, which were sent; returns 0. */
int64_t lt_sent(lt_engine *engine, uint64_t session, size_t count);

/* The request of a call: an lt_call's `kind`. Those below 200 are packet types. LSTAT is recorded
 * as STAT, fsync@openssh.com as FSETSTAT, and lsetstat@openssh.com as SETSTAT. */
enum {
    LT_KIND_LEFT = 0, /* no call: the session ended here */
    LT_KIND_OPEN = 3,
    LT_KIND_CLOSE = 4,
    LT_KIND_READ = 5,
    LT_KIND_WRITE = 6,
    LT_KIND_FSTAT = 8,
    LT_KIND_SETSTAT = 9,
    LT_KIND_FSETSTAT = 10,
    LT_KIND_OPENDIR = 11,
    LT_KIND_READDIR = 12,
    LT_KIND_REMOVE = 13,
    LT_KIND_MKDIR = 14,
    LT_KIND_RMDIR = 15,
    LT_KIND_STAT = 17,
    LT_KIND_RENAME = 18,
    LT_KIND_POSIX_RENAME = 201, /* posix-rename@openssh.com */
    LT_KIND_HARDLINK = 202      /* hardlink@openssh.com */
};

/* The reply to a call: an lt_call's `answer`. Those above 100 are packet types. */
enum {
    LT_ANSWER_NO_MEMORY = 100, /* the status FAILURE, because memory ran out */
    LT_ANSWER_STATUS = 101,
    LT_ANSWER_HANDLE = 102,
    LT_ANSWER_DATA = 103,
    LT_ANSWER_NAMES = 104,
    LT_ANSWER_ATTRS = 105
};

/* Attributes. `given` has the protocol's bits of those present: 1 for the size, 2 for uid and gid,
 * 4 for the permissions, 8 for both times. The others are 0. */
typedef struct lt_attributes {
    uint64_t size;
    uint32_t given;
    uint32_t uid;
    uint32_t gid;
    uint32_t permissions;
    uint32_t atime;
    uint32_t mtime;
} lt_attributes;

/* `length` bytes, not NUL-terminated. If the length is 0, `at` may be NULL. */
typedef struct lt_bytes {
    const uint8_t *at;
    size_t length;
} lt_bytes;

/* The record of a call. Fields that its kind or reply does not have are 0 or empty. */
typedef struct lt_call {
    uint64_t number;  /* calls are 1, 2, 3 and so on as they begin; 0 for LT_KIND_LEFT */
    uint64_t session;
    uint32_t moment;  /* the timestamp at which it began */
    uint32_t kind;
    lt_bytes path;     /* absolute, in normal form; of a rename or a link the old path */
    lt_bytes new_path; /* of a rename or a link */
    uint64_t handle;   /* the number of the call that opened it */
    uint64_t offset;
    uint64_t length;   /* the number of bytes requested or written */
    uint32_t flags;    /* the pflags of OPEN */
    uint32_t answer;
    lt_attributes attributes;
    lt_bytes written; /* by WRITE */
    uint32_t status;  /* the code of LT_ANSWER_STATUS or LT_ANSWER_NO_MEMORY */
    uint32_t names;   /* the number of names of LT_ANSWER_NAMES */
    uint64_t answer_handle;
    lt_attributes answer_attributes;
    lt_bytes answer_bytes; /* of LT_ANSWER_DATA; of LT_ANSWER_NAMES the names, each followed by a
                              byte 0 */
} lt_call;

/* The retained records, in the order in which the calls took effect, the oldest at 0. Returns their
 * number. If `at` is less, `*call` is set to the record at this index. Its bytes belong to the
 * engine, until the next call of any function on it. If all are retained, an index never changes:
 * to watch calls, read those from the last known number on after each lt_turn or lt_settle. */
int64_t lt_calls(lt_engine *engine, uint64_t at, lt_call *call);

/* A rule injects errors: the requests that it rejects get a status in their place, never reach the
 * file system, and are not recorded. Of the matching requests it skips the first `pass`, rejects
 * the next `refuse`, and skips all later ones. */
typedef struct lt_rule {
    uint64_t session; /* 0: all, including later ones */
    uint64_t pass;
    uint64_t refuse;
    lt_bytes path;   /* if `at` is NULL, any. Otherwise a request must name this path, in any
                        spelling; a request by handle names none */
    uint32_t kind;   /* as an lt_call's, but STAT does not include LSTAT; or one of those below */
    uint32_t status; /* the code to send, with its own message; 0, success, simulates lost
                        requests */
} lt_rule;

/* An lt_rule's `kind` that is not an lt_call's. */
enum {
    LT_KIND_ANY = 0,
    LT_KIND_LSTAT = 7,
    LT_KIND_REALPATH = 16
};

/* Adds a rule, which is copied; returns its number: 0, 1, 2 and so on. It applies to each request
 * that no turn has read yet, and never to INIT. If several rules match, the first that rejects the
 * request wins, and later rules do not count it. The rejection is a turn of the session, which
 * returns LT_TURN_WROTE, after the replies to all earlier requests. */
int64_t lt_refuse(lt_engine *engine, const lt_rule *rule);

/* How many requests the rule with this number has rejected so far. */
int64_t lt_refused(const lt_engine *engine, uint64_t number);

/* The request at which a function that writes files stopped. */
typedef struct lt_place {
    uint64_t length; /* the number of bytes of the path it worked on: a prefix of the given path, or
                        all of it */
    uint32_t kind;   /* as an lt_call's, or LT_KIND_INIT; 0 without an error, or if no request was
                        rejected */
} lt_place;

/* An lt_place's `kind` if no session began. */
enum { LT_KIND_INIT = 1 };

/* The functions that write files send requests, one after another, in new sessions that they open
 * and end. These requests are recorded as any others (lt_calls). No other session has a turn
 * meanwhile. They return 0 or an error; `*place` is set to the position of the error, and may be
 * NULL. After LT_REFUSAL_IS_BLOCKED the request stays in progress in its session, and only
 * lt_run_all advances it. Until then it may hold a directory, and the session counts among the 256.
 * The calls have the timestamp `moment`. */

/* Makes this directory and its missing parents. */
int64_t lt_make_directory(lt_engine *engine, lt_bytes path, uint32_t moment, lt_place *place);

/* Makes a file with these contents, or replaces its contents. Makes missing parents. */
int64_t lt_write_file(lt_engine *engine, lt_bytes path, lt_bytes contents, uint32_t moment,
                      lt_place *place);

/* Adds `new_path` to the file at `path` (a hard link). Makes missing parents of the new path. It is
 * rejected if the new path exists. The place's length is of the new path. */
int64_t lt_link(lt_engine *engine, lt_bytes path, lt_bytes new_path, uint32_t moment,
                lt_place *place);

/* A snapshot of all files of an engine. It does not change, whatever happens to the engine, and
 * shares file contents with it: beside the paths it takes little memory. */
typedef struct lt_tree lt_tree;

/* A file or directory, by one of its paths. */
typedef struct lt_leaf {
    lt_bytes path;            /* absolute */
    lt_attributes attributes; /* as a listing shows them: all are given, and the size of a directory
                                 is 0 */
    uint64_t label;           /* the number of the call that made it, 0 for /: paths with one label
                                 name one file */
} lt_leaf;

/* Sets `*tree` to a snapshot of the engine, which lt_tree_free frees; returns 0. It has exactly the
 * effects of the calls that have taken effect, also during other calls. A WRITE that is still
 * copying is included completely. The engine does not change: no session opens and no call is
 * recorded. On an error `*tree` is NULL. */
int64_t lt_tree_of(const lt_engine *engine, lt_tree **tree);

/* The leaves, each path once: / at 0, each directory before its contents, and names in byte order.
 * Returns their number. If `at` is less, `*leaf` is set to the one at this index. Its path belongs
 * to the tree, until the next call of this function on it. */
int64_t lt_tree_leaf(lt_tree *tree, uint64_t at, lt_leaf *leaf);

/* Reads many small files by one call: at most `most` leaves from index `at` on, in order. `leaves`
 * is set as by lt_tree_leaf, except that the paths are copied into `room`, one after another. The
 * contents of a file of at most 32768 bytes follow its path, including the zeros of holes. Returns
 * the number of leaves: all, or as many as fit, so it may be 0 before the end. The other elements
 * are undefined. */
int64_t lt_tree_leaves(const lt_tree *tree, uint64_t at, lt_leaf *leaves, size_t most,
                       uint8_t *room, size_t length);

/* Copies bytes of a leaf from an offset on into `room`, at most `length`. Returns their number: 0
 * at or past the end of a file, for a directory, and for an unknown index. It allocates at most
 * 32768 bytes, and frees them. If memory runs out, some bytes may have been copied. If `length` is
 * 0, `room` may be NULL. */
int64_t lt_tree_read(const lt_tree *tree, uint64_t at, uint64_t offset, uint8_t *room,
                     size_t length);

/* The length of the hole of a leaf at an offset: zeros that take no memory because nothing was
 * written there, and that need not be read. A hole ends at a multiple of 32768 or at the end of the
 * file. At most 2^63 - 1 is returned; a longer hole continues after that. */
int64_t lt_tree_gap(const lt_tree *tree, uint64_t at, uint64_t offset);

/* Frees a tree. NULL: does nothing. */
void lt_tree_free(lt_tree *tree);

#ifdef __cplusplus
}
#endif

#endif
