/* Counts growths of the program that it is preloaded to, and refuses some: calls of malloc or
 * realloc that the program's own code makes, not those of the C library. Which are refused, what
 * came of it, and what the program holds stands in the file that the environment's GROWTHS names;
 * who runs the program reads and writes it meanwhile. */
#define _GNU_SOURCE
#include <fcntl.h>
#include <link.h>
#include <malloc.h>
#include <stddef.h>
#include <stdint.h>
#include <stdlib.h>
#include <sys/mman.h>
#include <unistd.h>

/* The file, in numbers of 8 bytes. */
struct growths {
    int64_t left;    /* how many growths go by before the first that is refused: falls with each */
    int64_t count;   /* how many are refused from then on, one after the other */
    int64_t seen;    /* how many growths there were */
    int64_t refused; /* how many were refused */
    int64_t held;    /* how many blocks the program holds */
    int64_t bytes;   /* how many bytes these have */
};

void *__libc_malloc(size_t size);
void *__libc_realloc(void *block, size_t size);
void __libc_free(void *block);

static struct growths *growths;
static uintptr_t first, last;

/* Where the program's code and data lie: it is the first of the objects. */
static int find_program(struct dl_phdr_info *object, size_t size, void *unused)
{
    (void)size;
    (void)unused;
    first = UINTPTR_MAX;
    for (int i = 0; i < object->dlpi_phnum; i++) {
        const ElfW(Phdr) *part = &object->dlpi_phdr[i];
        uintptr_t at = object->dlpi_addr + part->p_vaddr;
        if (part->p_type != PT_LOAD)
            continue;
        first = at < first ? at : first;
        last = at + part->p_memsz > last ? at + part->p_memsz : last;
    }
    return 1;
}

__attribute__((constructor)) static void begin(void)
{
    const char *path = getenv("GROWTHS");
    int file = path == NULL ? -1 : open(path, O_RDWR | O_CLOEXEC);
    if (file < 0)
        return;
    void *room = mmap(NULL, sizeof *growths, PROT_READ | PROT_WRITE, MAP_SHARED, file, 0);
    close(file);
    dl_iterate_phdr(find_program, NULL);
    if (room != MAP_FAILED)
        growths = room;
}

static int is_counted(const void *caller)
{
    return growths != NULL && (uintptr_t)caller >= first && (uintptr_t)caller < last;
}

static void add(int64_t *number, int64_t count)
{
    __atomic_add_fetch(number, count, __ATOMIC_SEQ_CST);
}

/* Counts a growth. Whether it is refused. */
static int is_refused(void)
{
    add(&growths->seen, 1);
    int64_t left = __atomic_fetch_sub(&growths->left, 1, __ATOMIC_SEQ_CST);
    if (left > 0 || left + __atomic_load_n(&growths->count, __ATOMIC_SEQ_CST) <= 0)
        return 0;
    add(&growths->refused, 1);
    return 1;
}

void *malloc(size_t size)
{
    if (!is_counted(__builtin_return_address(0)))
        return __libc_malloc(size);
    void *block = is_refused() ? NULL : __libc_malloc(size);
    add(&growths->held, block != NULL);
    add(&growths->bytes, malloc_usable_size(block));
    return block;
}

void *realloc(void *block, size_t size)
{
    if (!is_counted(__builtin_return_address(0)))
        return __libc_realloc(block, size);
    int64_t before = malloc_usable_size(block);
    void *moved = is_refused() ? NULL : __libc_realloc(block, size);
    add(&growths->held, block == NULL && moved != NULL);
    if (moved != NULL)
        add(&growths->bytes, (int64_t)malloc_usable_size(moved) - before);
    return moved;
}

void free(void *block)
{
    if (is_counted(__builtin_return_address(0))) {
        add(&growths->held, -(block != NULL));
        add(&growths->bytes, -(int64_t)malloc_usable_size(block));
    }
    __libc_free(block);
}
