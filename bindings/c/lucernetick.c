/* Implements lucernetick.h by the functions that the crate `sf_c` exports. It rejects what they
 * cannot check, since a reference is never NULL. */
#include "lucernetick.h"

#include <stdlib.h>

/* The number of records that lt_new retains. */
enum { KEEP = 256 };

/* Files up to this size are read together with their leaf. */
enum { FEW = 32768 };

/* The crate's state of an engine's rules: its box, or NULL. */
struct refusals {
    void *at;
};

/* The crate's engine, a box or NULL; its rules; and a buffer for the bytes of a record, which the
 * crate does not know. */
struct lt_engine {
    void *at;
    struct refusals refusals;
    uint8_t *room;
    size_t capacity;
};

/* The crate's tree, a box or NULL, and a buffer for the text of a path. */
struct lt_tree {
    void *at;
    uint8_t *room;
    size_t capacity;
};

/* A leaf as in the crate's `src/leaves.rt`. */
struct leaf {
    lt_attributes attributes;
    uint64_t label;
    uint64_t path;
};

/* A record as in the crate's `src/record_parts.rt`. */
struct asked {
    lt_attributes attributes;
    uint64_t handle;
    uint64_t offset;
    uint64_t length;
    uint32_t kind;
    uint32_t flags;
};

struct answered {
    lt_attributes attributes;
    uint64_t handle;
    uint64_t names;
    uint32_t kind;
    uint32_t status;
};

struct told {
    uint64_t number;
    uint64_t session;
    struct asked asked;
    struct answered answered;
    uint64_t path;
    uint64_t new_path;
    uint64_t written;
    uint64_t answer;
    uint32_t moment;
};

/* A rule as in the crate's `src/rules.rt`. */
struct rule {
    uint64_t session;
    uint64_t pass;
    uint64_t refuse;
    uint32_t kind;
    uint32_t status;
    bool has_path;
};

/* If an argument is a `const` engine, rules or tree, the crate takes the box out for the call and
 * puts it back. */
int64_t lucernetick_new(lt_engine *engine, struct refusals *refusals, uint64_t keep);
void lucernetick_free(lt_engine *engine, struct refusals *refusals);
int64_t lucernetick_open(lt_engine *engine);
int64_t lucernetick_feed(lt_engine *engine, struct refusals *refusals, uint64_t session,
                         const uint8_t *bytes, size_t length);
int64_t lucernetick_turn(lt_engine *engine, struct refusals *refusals, uint64_t session,
                         uint32_t moment);
int64_t lucernetick_settle(lt_engine *engine, struct refusals *refusals, uint64_t session,
                           uint32_t moment, uint64_t most, bool *moved);
uint64_t lucernetick_run_all(lt_engine *engine);
int64_t lucernetick_close(lt_engine *engine, uint64_t session);
bool lucernetick_wants_bytes(const lt_engine *engine, const struct refusals *refusals,
                             uint64_t session);
int64_t lucernetick_output(const lt_engine *engine, const struct refusals *refusals,
                           uint64_t session, uint8_t *room, size_t length);
int64_t lucernetick_sent(lt_engine *engine, struct refusals *refusals, uint64_t session,
                         size_t count);
int64_t lucernetick_refuse(struct refusals *refusals, const struct rule *rule, const uint8_t *path,
                           size_t length);
int64_t lucernetick_refused(const struct refusals *refusals, uint64_t number);
int64_t lucernetick_call(lt_engine *engine, uint64_t at, struct told *told, uint8_t *room,
                         size_t length);
int64_t lucernetick_make_directory(lt_engine *engine, const uint8_t *path, size_t length,
                                   uint32_t moment, lt_place *at);
int64_t lucernetick_write_file(lt_engine *engine, const uint8_t *path, size_t path_length,
                               const uint8_t *contents, size_t length, uint32_t moment,
                               lt_place *at);
int64_t lucernetick_link(lt_engine *engine, const uint8_t *old_path, size_t old_length,
                         const uint8_t *new_path, size_t new_length, uint32_t moment, lt_place *at);
int64_t lucernetick_tree(const lt_engine *engine, lt_tree *tree);
int64_t lucernetick_tree_leaf(const lt_tree *tree, uint64_t at, struct leaf *leaf, uint8_t *room,
                              size_t length);
int64_t lucernetick_tree_read(const lt_tree *tree, uint64_t at, uint64_t offset, uint8_t *room,
                              size_t length);
int64_t lucernetick_tree_gap(const lt_tree *tree, uint64_t at, uint64_t offset);
void lucernetick_tree_free(lt_tree *tree);

/* Whether the pointer and the length are valid. */
static int are_bytes(const uint8_t *bytes, size_t length)
{
    return length <= PTRDIFF_MAX && (bytes != NULL || length == 0);
}

const char *lt_version(void)
{
    return LT_VERSION;
}

/* The text of a status code. */
static const char *status_text(int64_t code)
{
    switch (code) {
    case 0:
        return "Success";
    case 1:
        return "End of file";
    case 2:
        return "No such file";
    case 3:
        return "Permission denied";
    case 4:
        return "Failure";
    case 5:
        return "Bad message";
    case 8:
        return "Operation unsupported";
    default:
        return "an unknown refusal";
    }
}

static const char *refusal_text(int64_t answer)
{
    if (answer <= LT_REFUSAL_STATUS_BASE)
        return status_text(LT_REFUSAL_STATUS_BASE - answer);
    switch (answer) {
    case LT_REFUSAL_OUT_OF_MEMORY:
        return "out of memory";
    case LT_REFUSAL_NO_SUCH_SESSION:
        return "no session of this number was ever opened";
    case LT_REFUSAL_TOO_MANY_SESSIONS:
        return "256 sessions are open";
    case LT_REFUSAL_HAS_ENDED:
        return "the session has ended, and takes no more bytes";
    case LT_REFUSAL_NUMBERS_SPENT:
        return "all session numbers are spent";
    case LT_REFUSAL_NOT_SENT:
        return "fewer bytes wait to be sent";
    case LT_REFUSAL_BAD_POINTER:
        return "the engine was closed, or a pointer is NULL, or a length too large";
    case LT_REFUSAL_IS_BLOCKED:
        return "the call of another session is in the way";
    case LT_REFUSAL_LONG_PATH:
        return "a path is too long for a packet";
    case LT_REFUSAL_NO_REPLY:
        return "not the reply that was due";
    case LT_REFUSAL_BAD_KIND:
        return "a rule's kind is not that of a request";
    case LT_REFUSAL_BAD_STATUS:
        return "a rule's status is not a code that is sent";
    case LT_REFUSAL_BAD_PATH:
        return "a rule's path is too long, has too long a name, or a byte 0";
    case LT_REFUSAL_NO_SUCH_RULE:
        return "no rule of this number was given";
    default:
        return "an unknown refusal";
    }
}

static const char *ending_text(int64_t cause)
{
    switch (cause) {
    case LT_CAUSE_NOT_INIT:
        return "ended: the first packet isn't INIT";
    case LT_CAUSE_OLD_VERSION:
        return "ended: the client has a version below 3";
    case LT_CAUSE_SECOND_INIT:
        return "ended: a later packet is INIT";
    case LT_CAUSE_ZERO_LENGTH:
        return "ended: a packet of length 0";
    case LT_CAUSE_TOO_LONG:
        return "ended: a packet of a length above 262144";
    case LT_CAUSE_NO_ID:
        return "ended: a packet ends before its id";
    case LT_CAUSE_CLOSED:
        return "ended: the session was closed";
    default:
        return "an unknown answer";
    }
}

static const char *turn_text(int64_t answer)
{
    switch (answer) {
    case LT_TURN_IDLE:
        return "no whole packet is unread";
    case LT_TURN_WROTE:
        return "a reply was written";
    case LT_TURN_BEGUN:
        return "a call has begun";
    case LT_TURN_MOVED:
        return "the call made a step";
    case LT_TURN_BLOCKED:
        return "the call of another session is in the way";
    case LT_TURN_DECIDED:
        return "the call is decided";
    case LT_TURN_SPENT:
        return "as many replies as may be were written";
    default:
        return ending_text(answer - LT_TURN_ENDED);
    }
}

const char *lt_message(int64_t answer)
{
    return answer < 0 ? refusal_text(answer) : turn_text(answer);
}

lt_engine *lt_new(void)
{
    return lt_new_keeping(KEEP);
}

lt_engine *lt_new_keeping(uint64_t keep)
{
    lt_engine *engine = malloc(sizeof *engine);
    if (engine == NULL)
        return NULL;
    *engine = (lt_engine){.at = NULL};
    if (lucernetick_new(engine, &engine->refusals, keep) < 0) {
        free(engine);
        return NULL;
    }
    return engine;
}

void lt_free(lt_engine *engine)
{
    if (engine == NULL)
        return;
    lucernetick_free(engine, &engine->refusals);
    free(engine->room);
    free(engine);
}

int64_t lt_open(lt_engine *engine)
{
    return engine == NULL ? LT_REFUSAL_BAD_POINTER : lucernetick_open(engine);
}

int64_t lt_feed(lt_engine *engine, uint64_t session, const uint8_t *bytes, size_t length)
{
    static const uint8_t none[1];
    if (engine == NULL || !are_bytes(bytes, length))
        return LT_REFUSAL_BAD_POINTER;
    return lucernetick_feed(engine, &engine->refusals, session, length == 0 ? none : bytes, length);
}

int64_t lt_turn(lt_engine *engine, uint64_t session, uint32_t moment)
{
    return engine == NULL ? LT_REFUSAL_BAD_POINTER
                          : lucernetick_turn(engine, &engine->refusals, session, moment);
}

int64_t lt_settle(lt_engine *engine, uint64_t session, uint32_t moment, uint64_t most, bool *moved)
{
    bool told = false;
    int64_t answer = LT_REFUSAL_BAD_POINTER;
    if (engine != NULL)
        answer = lucernetick_settle(engine, &engine->refusals, session, moment, most, &told);
    if (moved != NULL)
        *moved = told;
    return answer;
}

int64_t lt_run_all(lt_engine *engine)
{
    return engine == NULL ? LT_REFUSAL_BAD_POINTER : (int64_t)lucernetick_run_all(engine);
}

int64_t lt_wants_bytes(const lt_engine *engine, uint64_t session)
{
    return engine == NULL ? LT_REFUSAL_BAD_POINTER
                          : lucernetick_wants_bytes(engine, &engine->refusals, session);
}

int64_t lt_close(lt_engine *engine, uint64_t session)
{
    return engine == NULL ? LT_REFUSAL_BAD_POINTER : lucernetick_close(engine, session);
}

int64_t lt_output(const lt_engine *engine, uint64_t session, uint8_t *room, size_t length)
{
    uint8_t none[1];
    if (engine == NULL || !are_bytes(room, length))
        return LT_REFUSAL_BAD_POINTER;
    return lucernetick_output(engine, &engine->refusals, session, length == 0 ? none : room,
                              length);
}

int64_t lt_sent(lt_engine *engine, uint64_t session, size_t count)
{
    return engine == NULL ? LT_REFUSAL_BAD_POINTER
                          : lucernetick_sent(engine, &engine->refusals, session, count);
}

/* The next `length` bytes at `*at`, which advances past them. */
static lt_bytes next_bytes(const uint8_t **at, uint64_t length)
{
    lt_bytes bytes = {*at, (size_t)length};
    *at += bytes.length;
    return bytes;
}

static lt_call call_of(const struct told *told, const uint8_t *bytes)
{
    lt_call call = {
        .number = told->number,
        .session = told->session,
        .moment = told->moment,
        .kind = told->asked.kind,
        .handle = told->asked.handle,
        .offset = told->asked.offset,
        .length = told->asked.length,
        .flags = told->asked.flags,
        .answer = told->answered.kind,
        .attributes = told->asked.attributes,
        .status = told->answered.status,
        .names = (uint32_t)told->answered.names,
        .answer_handle = told->answered.handle,
        .answer_attributes = told->answered.attributes,
    };
    call.path = next_bytes(&bytes, told->path);
    call.new_path = next_bytes(&bytes, told->new_path);
    call.written = next_bytes(&bytes, told->written);
    call.answer_bytes = next_bytes(&bytes, told->answer);
    return call;
}

/* Grows the buffer to at least `length` bytes. Returns whether memory sufficed. */
static bool make_room(uint8_t **room, size_t *capacity, size_t length)
{
    if (length <= *capacity)
        return true;
    uint8_t *more = realloc(*room, length);
    if (more == NULL)
        return false;
    *room = more;
    *capacity = length;
    return true;
}

int64_t lt_calls(lt_engine *engine, uint64_t at, lt_call *call)
{
    struct told told;
    if (engine == NULL || call == NULL)
        return LT_REFUSAL_BAD_POINTER;
    if (!make_room(&engine->room, &engine->capacity, 1))
        return LT_REFUSAL_OUT_OF_MEMORY;
    int64_t count = lucernetick_call(engine, at, &told, engine->room, engine->capacity);
    if (count < 0 || at >= (uint64_t)count)
        return count;
    uint64_t length = told.path + told.new_path + told.written + told.answer;
    if (length > engine->capacity) {
        if (!make_room(&engine->room, &engine->capacity, (size_t)length))
            return LT_REFUSAL_OUT_OF_MEMORY;
        count = lucernetick_call(engine, at, &told, engine->room, engine->capacity);
        if (count < 0)
            return count;
    }
    *call = call_of(&told, engine->room);
    return count;
}

/* Whether these bytes are valid. */
static int are_there(lt_bytes bytes)
{
    return are_bytes(bytes.at, bytes.length);
}

/* A pointer to the bytes. The crate requires one even for none. */
static const uint8_t *place_of(lt_bytes bytes)
{
    static const uint8_t none[1];
    return bytes.length == 0 ? none : bytes.at;
}

int64_t lt_refuse(lt_engine *engine, const lt_rule *rule)
{
    if (engine == NULL || rule == NULL
        || (rule->path.at != NULL && rule->path.length > PTRDIFF_MAX))
        return LT_REFUSAL_BAD_POINTER;
    lt_bytes path = rule->path.at == NULL ? (lt_bytes){NULL, 0} : rule->path;
    struct rule given = {
        .session = rule->session,
        .pass = rule->pass,
        .refuse = rule->refuse,
        .kind = rule->kind,
        .status = rule->status,
        .has_path = rule->path.at != NULL,
    };
    return lucernetick_refuse(&engine->refusals, &given, place_of(path), path.length);
}

int64_t lt_refused(const lt_engine *engine, uint64_t number)
{
    return engine == NULL ? LT_REFUSAL_BAD_POINTER : lucernetick_refused(&engine->refusals, number);
}

/* Stores the place at which a function stopped, and returns its result. */
static int64_t stopped_at(int64_t answer, lt_place at, lt_place *place)
{
    if (place != NULL)
        *place = at;
    return answer;
}

int64_t lt_make_directory(lt_engine *engine, lt_bytes path, uint32_t moment, lt_place *place)
{
    lt_place at = {0};
    int64_t answer = LT_REFUSAL_BAD_POINTER;
    if (engine != NULL && are_there(path))
        answer = lucernetick_make_directory(engine, place_of(path), path.length, moment, &at);
    return stopped_at(answer, at, place);
}

int64_t lt_write_file(lt_engine *engine, lt_bytes path, lt_bytes contents, uint32_t moment,
                      lt_place *place)
{
    lt_place at = {0};
    int64_t answer = LT_REFUSAL_BAD_POINTER;
    if (engine != NULL && are_there(path) && are_there(contents))
        answer = lucernetick_write_file(engine, place_of(path), path.length, place_of(contents),
                                        contents.length, moment, &at);
    return stopped_at(answer, at, place);
}

int64_t lt_link(lt_engine *engine, lt_bytes path, lt_bytes new_path, uint32_t moment,
                lt_place *place)
{
    lt_place at = {0};
    int64_t answer = LT_REFUSAL_BAD_POINTER;
    if (engine != NULL && are_there(path) && are_there(new_path))
        answer = lucernetick_link(engine, place_of(path), path.length, place_of(new_path),
                                  new_path.length, moment, &at);
    return stopped_at(answer, at, place);
}

int64_t lt_tree_of(const lt_engine *engine, lt_tree **tree)
{
    if (tree != NULL)
        *tree = NULL;
    if (engine == NULL || tree == NULL)
        return LT_REFUSAL_BAD_POINTER;
    lt_tree *taken = malloc(sizeof *taken);
    if (taken == NULL)
        return LT_REFUSAL_OUT_OF_MEMORY;
    *taken = (lt_tree){.at = NULL};
    int64_t answer = lucernetick_tree(engine, taken);
    if (answer < 0)
        free(taken);
    else
        *tree = taken;
    return answer;
}

int64_t lt_tree_leaf(lt_tree *tree, uint64_t at, lt_leaf *leaf)
{
    struct leaf told;
    if (tree == NULL || leaf == NULL)
        return LT_REFUSAL_BAD_POINTER;
    if (!make_room(&tree->room, &tree->capacity, 1))
        return LT_REFUSAL_OUT_OF_MEMORY;
    int64_t count = lucernetick_tree_leaf(tree, at, &told, tree->room, tree->capacity);
    if (count < 0 || at >= (uint64_t)count)
        return count;
    if (told.path > tree->capacity) {
        if (!make_room(&tree->room, &tree->capacity, (size_t)told.path))
            return LT_REFUSAL_OUT_OF_MEMORY;
        count = lucernetick_tree_leaf(tree, at, &told, tree->room, tree->capacity);
        if (count < 0)
            return count;
    }
    *leaf = (lt_leaf){{tree->room, (size_t)told.path}, told.attributes, told.label};
    return count;
}

/* Copies the path of a leaf into `room`, followed by the contents of a small file. Returns the
 * number of bytes copied: 0 if they do not fit, or if there is no such leaf. */
static int64_t tell_leaf(const lt_tree *tree, uint64_t at, lt_leaf *leaf, uint8_t *room,
                         size_t length)
{
    struct leaf told;
    int64_t count = lucernetick_tree_leaf(tree, at, &told, room, length);
    if (count < 0)
        return count;
    if (at >= (uint64_t)count || told.path > length)
        return 0;
    uint64_t size = told.attributes.size <= FEW ? told.attributes.size : 0;
    if (size > length - told.path)
        return 0;
    int64_t read =
        size == 0 ? 0 : lucernetick_tree_read(tree, at, 0, room + told.path, (size_t)size);
    if (read < 0)
        return read;
    *leaf = (lt_leaf){{room, (size_t)told.path}, told.attributes, told.label};
    return (int64_t)(told.path + size);
}

int64_t lt_tree_leaves(const lt_tree *tree, uint64_t at, lt_leaf *leaves, size_t most,
                       uint8_t *room, size_t length)
{
    size_t count = 0;
    if (tree == NULL || leaves == NULL || room == NULL || length > PTRDIFF_MAX)
        return LT_REFUSAL_BAD_POINTER;
    while (count < most) {
        int64_t used = tell_leaf(tree, at + count, leaves + count, room, length);
        if (used < 0)
            return used;
        if (used == 0)
            break;
        room += used;
        length -= (size_t)used;
        count++;
    }
    return (int64_t)count;
}

int64_t lt_tree_read(const lt_tree *tree, uint64_t at, uint64_t offset, uint8_t *room,
                     size_t length)
{
    uint8_t none[1];
    if (tree == NULL || !are_bytes(room, length))
        return LT_REFUSAL_BAD_POINTER;
    return lucernetick_tree_read(tree, at, offset, length == 0 ? none : room, length);
}

int64_t lt_tree_gap(const lt_tree *tree, uint64_t at, uint64_t offset)
{
    return tree == NULL ? LT_REFUSAL_BAD_POINTER : lucernetick_tree_gap(tree, at, offset);
}

void lt_tree_free(lt_tree *tree)
{
    if (tree == NULL)
        return;
    lucernetick_tree_free(tree);
    free(tree->room);
    free(tree);
}
