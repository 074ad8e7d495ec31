/* Refuses one allocation of the program that it is loaded into, and tells how many there were.

   LD_PRELOAD names this library, REFUSE_GROWTH the number of the allocation that is refused, counted from 1 on (0: none is),
   and REFUSE_GROWTH_TOLD a file of 16 bytes that takes two numbers: how many allocations there were, and how many were refused.
   That file is memory of this process, so that it has the numbers however the program ends. What is allocated before the library
   is set up, while programs are loaded, is the system's and not counted. */
#include <errno.h>
#include <fcntl.h>
#include <stdint.h>
#include <stdlib.h>
#include <sys/mman.h>
#include <unistd.h>

/* The C library's own, under the names that it gives to those who take the plain ones. */
void *__libc_malloc(size_t size);
void *__libc_calloc(size_t count, size_t size);
void *__libc_realloc(void *old, size_t size);
void *__libc_memalign(size_t alignment, size_t size);

struct told {
    uint64_t allocations;
    uint64_t refused;
};

static struct told *told;
static uint64_t number;

__attribute__((constructor)) static void set_up(void) {
    const char *name = getenv("REFUSE_GROWTH_TOLD"), *text = getenv("REFUSE_GROWTH");
    int file = name && text ? open(name, O_RDWR | O_CLOEXEC) : -1;
    if (file < 0)
        return;
    number = strtoull(text, 0, 10);
    void *room = mmap(0, sizeof *told, PROT_READ | PROT_WRITE, MAP_SHARED, file, 0);
    close(file);
    if (room != MAP_FAILED)
        told = room;
}

/* Counts an allocation, and says whether it is the one that is refused. */
static int is_refused(void) {
    if (!told || __atomic_add_fetch(&told->allocations, 1, __ATOMIC_RELAXED) != number)
        return 0;
    told->refused++;
    errno = ENOMEM;
    return 1;
}

void *malloc(size_t size) { return is_refused() ? 0 : __libc_malloc(size); }

void *calloc(size_t count, size_t size) { return is_refused() ? 0 : __libc_calloc(count, size); }

/* To no bytes it gives memory back, which is never refused. */
void *realloc(void *old, size_t size) { return (size || !old) && is_refused() ? 0 : __libc_realloc(old, size); }

void *reallocarray(void *old, size_t count, size_t size) {
    size_t whole;
    if (!__builtin_mul_overflow(count, size, &whole))
        return realloc(old, whole);
    errno = ENOMEM;
    return 0;
}

void *memalign(size_t alignment, size_t size) { return is_refused() ? 0 : __libc_memalign(alignment, size); }

void *aligned_alloc(size_t alignment, size_t size) { return memalign(alignment, size); }

int posix_memalign(void **into, size_t alignment, size_t size) {
    if (alignment % sizeof(void *) || !alignment || alignment & (alignment - 1))
        return EINVAL;
    void *made = memalign(alignment, size);
    if (!made)
        return ENOMEM;
    *into = made;
    return 0;
}
