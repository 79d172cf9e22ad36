/* Makes a tree by the functions of lucernetick.h, takes it twice, and prints what came of each call
 * and what the tree has. What is refused for want of memory is told, and called again: for
 * tests/stress/allocation_failures. */
#include "lucernetick.h"

#include <inttypes.h>
#include <stdio.h>
#include <string.h>

enum { MOMENT = 100, LARGE = 200000, SESSIONS = 256, LEAVES = 10, DIRECTORY = 040000 };

static uint8_t large[LARGE], room[LARGE + 1];

static lt_bytes text(const char *bytes)
{
    return (lt_bytes){(const uint8_t *)bytes, strlen(bytes)};
}

/* Whether a call was refused for want of memory. */
static bool is_refused(const char *name, int64_t answer)
{
    if (answer == LT_REFUSAL_OUT_OF_MEMORY)
        printf("refused %s\n", name);
    return answer == LT_REFUSAL_OUT_OF_MEMORY;
}

static void tell(const char *name, int64_t answer)
{
    printf("%s: %" PRId64 "\n", name, answer);
}

static lt_engine *begin(void)
{
    lt_engine *engine = lt_new();
    if (engine == NULL)
        printf("refused new\n");
    return engine == NULL ? lt_new() : engine;
}

static void make_directory(lt_engine *engine, const char *path)
{
    int64_t answer;
    do
        answer = lt_make_directory(engine, text(path), MOMENT, NULL);
    while (is_refused("directory", answer));
    tell("directory", answer);
}

static void write_file(lt_engine *engine, const char *path, lt_bytes contents)
{
    int64_t answer;
    do
        answer = lt_write_file(engine, text(path), contents, MOMENT, NULL);
    while (is_refused("file", answer));
    tell("file", answer);
}

static void make_link(lt_engine *engine, const char *path, const char *new_path)
{
    int64_t answer;
    do
        answer = lt_link(engine, text(path), text(new_path), MOMENT, NULL);
    while (is_refused("link", answer));
    tell("link", answer);
}

/* Reads what a leaf has, and answers how many bytes that is. */
static size_t read_leaf(const lt_tree *tree, uint64_t at)
{
    int64_t length;
    do
        length = lt_tree_read(tree, at, 0, room, sizeof room);
    while (is_refused("read", length));
    return (size_t)length;
}

/* A file's contents, or that they are the large ones. */
static void print_contents(size_t length)
{
    if (length == LARGE && memcmp(room, large, LARGE) == 0)
        printf("large\n");
    else
        printf("%.*s\n", (int)length, (const char *)room);
}

/* A leaf, of a file with the first place that has its label: labels differ where a call was made
 * again. */
static void print_leaf(const lt_tree *tree, uint64_t at, const lt_leaf *leaf)
{
    static uint64_t labels[LEAVES];
    const lt_attributes *told = &leaf->attributes;
    size_t length = read_leaf(tree, at);
    uint64_t first = 0;
    labels[at] = leaf->label;
    while (labels[first] != leaf->label)
        first++;
    printf("%.*s ", (int)leaf->path.length, (const char *)leaf->path.at);
    if ((told->permissions & DIRECTORY) != 0) {
        printf("directory\n");
        return;
    }
    printf("%" PRIu32 " %" PRIu32 " %" PRIu64 " ", told->atime, told->mtime, first);
    print_contents(length);
}

static void print_tree(lt_tree *tree)
{
    lt_leaf leaf;
    int64_t count = 1;
    for (int64_t at = 0; at < count && at < LEAVES; at++) {
        do
            count = lt_tree_leaf(tree, (uint64_t)at, &leaf);
        while (is_refused("leaf", count));
        print_leaf(tree, (uint64_t)at, &leaf);
    }
    tell("leaves", count);
}

static void take(const lt_engine *engine)
{
    lt_tree *tree;
    int64_t answer;
    do
        answer = lt_tree_of(engine, &tree);
    while (is_refused("tree", answer));
    print_tree(tree);
    lt_tree_free(tree);
}

/* Opens as many sessions as may be: those of the calls before have left. */
static void open_sessions(lt_engine *engine)
{
    int count = 0;
    for (int i = 0; i <= SESSIONS; i++) {
        int64_t answer = lt_open(engine);
        if (is_refused("session", answer))
            answer = lt_open(engine);
        count += answer > 0;
    }
    tell("sessions", count);
}

int main(void)
{
    for (size_t at = 0; at < LARGE; at++)
        large[at] = (uint8_t)(at % 251);
    lt_engine *engine = begin();
    make_directory(engine, "/d//e");
    write_file(engine, "/d/f", text("contents"));
    write_file(engine, "/large", (lt_bytes){large, LARGE});
    write_file(engine, "/like", text("contents"));
    make_link(engine, "/d/f", "/e/g");
    make_link(engine, "/large", "/m");
    make_link(engine, "/like", "/e/h");
    take(engine);
    take(engine);
    open_sessions(engine);
    lt_free(engine);
    return 0;
}
