/* The program of the archive runs with glibc 2.28 and later. What `sftpd` calls of newer versions is
 * here, or is the version that older ones have too. It has one malloc arena: with one for each
 * thread, memory that a session frees would not be used by others. */
#include <cpuid.h>
#include <malloc.h>
#include <pthread.h>
#include <stdlib.h>
#include <sys/syscall.h>
#include <unistd.h>

#define HERE __attribute__((visibility("hidden")))
#define FIRST(name) __asm__(".symver first_" #name ", " #name "@GLIBC_2.2.5")

typedef void part(int, char **, char **);
extern part *__init_array_start[], *__init_array_end[];

/* Before 2.34 glibc leaves constructors to the program. */
static void construct(int count, char **words, char **environment) {
    if (!getenv("MALLOC_ARENA_MAX"))
        mallopt(M_ARENA_MAX, 1);
    for (part **each = __init_array_start; each < __init_array_end; each++)
        (*each)(count, words, environment);
}

FIRST(__libc_start_main);
int first___libc_start_main(int (*)(int, char **, char **), int, char **, part *, void *, void *, void *);
HERE int __libc_start_main(int (*main)(int, char **, char **), int count, char **words, part *begin,
                           void *end, void *unload, void *stack) {
    (void)begin;
    return first___libc_start_main(main, count, words, construct, end, unload, stack);
}

FIRST(pthread_create);
int first_pthread_create(pthread_t *, const pthread_attr_t *, void *(*)(void *), void *);
HERE int pthread_create(pthread_t *thread, const pthread_attr_t *how, void *(*run)(void *),
                        void *with) {
    return first_pthread_create(thread, how, run, with);
}

FIRST(pthread_join);
int first_pthread_join(pthread_t, void **);
HERE int pthread_join(pthread_t thread, void **result) {
    return first_pthread_join(thread, result);
}

FIRST(pthread_detach);
int first_pthread_detach(pthread_t);
HERE int pthread_detach(pthread_t thread) {
    return first_pthread_detach(thread);
}

FIRST(pthread_attr_setguardsize);
int first_pthread_attr_setguardsize(pthread_attr_t *, size_t);
HERE int pthread_attr_setguardsize(pthread_attr_t *how, size_t size) {
    return first_pthread_attr_setguardsize(how, size);
}

/* Since 2.30. */
HERE long getdents64(int descriptor, void *buffer, unsigned long size) {
    return syscall(SYS_getdents64, descriptor, buffer, size);
}

struct leaf {
    unsigned cpuid[4], active[4];
};

/* Since 2.33. Its leaf 0 is the processor's 1, and its leaf 2 is 0x80000001. */
HERE const struct leaf *__x86_get_cpuid_feature_leaf(unsigned number) {
    static struct leaf leaves[3];
    unsigned *found = leaves[number % 3].active;
    if (number == 0 || number == 2)
        __get_cpuid(number == 0 ? 1 : 0x80000001, found, found + 1, found + 2, found + 3);
    return &leaves[number % 3];
}
