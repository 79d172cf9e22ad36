/* What a tree of COUNT small files takes by the calls of lucernetick.h, in directories of 1000: to
 * be taken, to be told with all bytes of its files, and to be freed. Prints the processor time of
 * each in milliseconds, the least of five. */
#include "lucernetick.h"

#include <stdio.h>
#include <stdlib.h>
#include <string.h>
#include <time.h>

enum { MOMENT = 100, EACH = 1000, ROOM = 64, ROUNDS = 5 };

static void stop(const char *why)
{
    fprintf(stderr, "tree: %s\n", why);
    exit(1);
}

static double now(void)
{
    struct timespec time;
    clock_gettime(CLOCK_PROCESS_CPUTIME_ID, &time);
    return (double)time.tv_sec * 1e3 + (double)time.tv_nsec / 1e6;
}

/* The path of a file, which is its contents too. */
static lt_bytes path_of(int64_t number, char *room)
{
    int length = snprintf(room, ROOM, "/d%lld/f%lld", (long long)number / EACH,
                          (long long)number % EACH);
    return (lt_bytes){(const uint8_t *)room, (size_t)length};
}

/* Tells all leaves, and reads what each has: how many files there are whose contents are their
 * paths. */
static int64_t told(lt_tree *tree)
{
    uint8_t room[ROOM];
    lt_leaf leaf;
    int64_t files = 0, count = 1;
    for (int64_t at = 0; at < count; at++) {
        count = lt_tree_leaf(tree, (uint64_t)at, &leaf);
        int64_t length = lt_tree_read(tree, (uint64_t)at, 0, room, sizeof room);
        files += length > 0 && (size_t)length == leaf.path.length &&
                 memcmp(room, leaf.path.at, (size_t)length) == 0;
    }
    return files;
}

static double least(double one, double other)
{
    return one < other ? one : other;
}

int main(int count, char **words)
{
    char room[ROOM];
    int64_t files = count > 1 ? atoll(words[1]) : 100000;
    double take = 1e9, tell = 1e9, drop = 1e9;
    lt_engine *engine = lt_new();
    for (int64_t number = 0; number < files; number++)
        if (lt_write_file(engine, path_of(number, room), path_of(number, room), MOMENT, NULL) != 0)
            stop("a file isn't written");
    for (int round = 0; round < ROUNDS; round++) {
        lt_tree *tree;
        double begin = now();
        if (lt_tree_of(engine, &tree) != 0)
            stop("no tree");
        double taken = now();
        if (told(tree) != files)
            stop("other files");
        double all = now();
        lt_tree_free(tree);
        take = least(take, taken - begin);
        tell = least(tell, all - taken);
        drop = least(drop, now() - all);
    }
    printf("%lld files: %.0f ms to take, %.0f to tell with their bytes, %.0f to free, "
           "%.0f in all\n",
           (long long)files, take, tell, drop, take + tell + drop);
    lt_free(engine);
    return 0;
}
