/* Refuses one allocation of a program, from outside: a library that is loaded before the program's own (LD_PRELOAD).

   REFUSE_AT=N      the Nth allocation is refused, counted from 1 over all threads; without it none
   REFUSE_BEHIND=1  and all behind it
   REFUSE_COUNT=F   the count of allocations stands in the file F, in eight bytes of the machine's order, however the program ends

   Counted are the calls of malloc, calloc, realloc, posix_memalign, aligned_alloc and memalign, those of the C library itself
   included. It needs glibc. */
#include <errno.h>
#include <fcntl.h>
#include <stdatomic.h>
#include <stddef.h>
#include <stdlib.h>
#include <sys/mman.h>
#include <unistd.h>

/* glibc's own names of what stands below. */
extern void *__libc_malloc(size_t size);
extern void *__libc_calloc(size_t count, size_t size);
extern void *__libc_realloc(void *old, size_t size);
extern void *__libc_memalign(size_t alignment, size_t size);

static atomic_ulong own_count;
static atomic_ulong *allocations = &own_count;
static unsigned long refused_at;
static int is_for_ever;

/* The count in a file, which outlives the program. */
static atomic_ulong *count_in(const char *path)
{
    int file = open(path, O_RDWR | O_CREAT | O_TRUNC | O_CLOEXEC, 0600);
    if (file < 0 || ftruncate(file, sizeof own_count))
        _exit(125);
    void *place = mmap(NULL, sizeof own_count, PROT_READ | PROT_WRITE, MAP_SHARED, file, 0);
    if (place == MAP_FAILED)
        _exit(125);
    close(file);
    return place;
}

/* Runs before the program does. What the loader allocated before isn't counted. */
__attribute__((constructor)) static void begin(void)
{
    const char *at = getenv("REFUSE_AT");
    const char *path = getenv("REFUSE_COUNT");
    refused_at = at ? strtoul(at, NULL, 10) : 0;
    is_for_ever = refused_at && getenv("REFUSE_BEHIND") != NULL;
    if (path)
        allocations = count_in(path);
    atomic_store(allocations, 0);
}

/* Counts an allocation. Is it the one that is refused? */
static int is_refused(void)
{
    unsigned long number = atomic_fetch_add(allocations, 1) + 1;
    int is = number == refused_at || (is_for_ever && number > refused_at);
    if (is)
        errno = ENOMEM;
    return is;
}

void *malloc(size_t size)
{
    return is_refused() ? NULL : __libc_malloc(size);
}

void *calloc(size_t count, size_t size)
{
    return is_refused() ? NULL : __libc_calloc(count, size);
}

void *realloc(void *old, size_t size)
{
    return is_refused() ? NULL : __libc_realloc(old, size);
}

void *memalign(size_t alignment, size_t size)
{
    return is_refused() ? NULL : __libc_memalign(alignment, size);
}

void *aligned_alloc(size_t alignment, size_t size)
{
    return memalign(alignment, size);
}

int posix_memalign(void **place, size_t alignment, size_t size)
{
    void *block = memalign(alignment, size);
    if (!block)
        return ENOMEM;
    *place = block;
    return 0;
}
