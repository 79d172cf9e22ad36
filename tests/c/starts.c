/* Starts a program once for each number, and compares what it writes:
 *
 *     starts LAST EXPECTED WORD.. [-- INPUT]
 *
 * In the words, `%` stands for the number, from 1 to LAST. Standard input has the bytes of the file
 * INPUT, or else as many bytes as the number. Standard output must be the bytes of the file
 * EXPECTED, standard error nothing, and the status 0, each time within a minute. */
#define _GNU_SOURCE
#include <errno.h>
#include <fcntl.h>
#include <spawn.h>
#include <stdint.h>
#include <stdio.h>
#include <stdlib.h>
#include <string.h>
#include <sys/mman.h>
#include <sys/wait.h>
#include <unistd.h>

extern char **environ;

enum { MOST_WORDS = 16, ROOM = 4096, SECONDS = 60 };

static void stop(const char *why, long number)
{
    fprintf(stderr, "starts: %s, at %ld: %s\n", why, number, strerror(errno));
    exit(1);
}

/* A file in memory. */
static int room_for(const char *name)
{
    int file = memfd_create(name, 0);
    if (file < 0)
        stop(name, 0);
    return file;
}

/* The program's words, with the number in its place. */
static void fill_words(char **to, char **words, long number)
{
    static char text[24];
    snprintf(text, sizeof text, "%ld", number);
    for (; *words && strcmp(*words, "--") != 0; words++)
        *to++ = strcmp(*words, "%") == 0 ? text : *words;
    *to = NULL;
}

/* Runs the program, whose streams are these files. */
static int run(char **words, const int streams[3], long number)
{
    posix_spawn_file_actions_t actions;
    pid_t process;
    int status;
    posix_spawn_file_actions_init(&actions);
    for (int i = 0; i < 3; i++)
        posix_spawn_file_actions_adddup2(&actions, streams[i], i);
    if (posix_spawn(&process, words[0], &actions, NULL, words, environ) != 0)
        stop("no process", number);
    posix_spawn_file_actions_destroy(&actions);
    if (waitpid(process, &status, 0) < 0)
        stop("no status", number);
    return status;
}

static void set_to_front(int file, off_t length, long number)
{
    if (ftruncate(file, length) != 0 || lseek(file, 0, SEEK_SET) != 0)
        stop("a file in memory", number);
}

int main(int count, char **words)
{
    char *filled[MOST_WORDS], wanted[ROOM], got[ROOM];
    char *input = count > 2 && strcmp(words[count - 2], "--") == 0 ? words[count - 1] : NULL;
    if (count < 4 || count > MOST_WORDS)
        return 2;
    int expected = open(words[2], O_RDONLY);
    ssize_t length = expected < 0 ? -1 : read(expected, wanted, ROOM);
    int streams[3] = {input ? open(input, O_RDONLY) : room_for("input"), room_for("output"),
                      room_for("errors")};
    if (length < 0 || streams[0] < 0)
        stop("a file", 0);
    for (long number = 1; number <= atol(words[1]); number++) {
        if (input)
            lseek(streams[0], 0, SEEK_SET);
        else
            set_to_front(streams[0], number, number);
        set_to_front(streams[1], 0, number);
        set_to_front(streams[2], 0, number);
        fill_words(filled, words + 3, number);
        alarm(SECONDS);
        if (run(filled, streams, number) != 0)
            stop("another status", number);
        if (lseek(streams[2], 0, SEEK_END) != 0)
            stop("something is told", number);
        if (pread(streams[1], got, ROOM, 0) != length || memcmp(got, wanted, (size_t)length) != 0)
            stop("another output", number);
    }
    return 0;
}
