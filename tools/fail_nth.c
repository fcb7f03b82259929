/* Makes the standard streams of a program slow, and has one fail, from outside: a library that is loaded before the program's own
   (LD_PRELOAD).

   FAIL_READ=N    reads of standard input give at most 5 bytes a call, and fail from the Nth call on, counted from 1
   FAIL_WRITE=N   writes to standard output take at most 7 bytes a call, and fail from the Nth call on

   It stands in for the calls `read` and `write` of the C library. Other files, standard error among them, are read and written as ever. */
#include <errno.h>
#include <stdatomic.h>
#include <stddef.h>
#include <stdlib.h>
#include <sys/syscall.h>
#include <sys/types.h>
#include <unistd.h>

/* A stream that moves so many bytes a call at most, and fails from a call on: 0 where it is left as it is. */
struct stream {
    unsigned long fails_at;
    size_t most;
    atomic_ulong calls;
};

static struct stream input = {0, 5, 0};
static struct stream output = {0, 7, 0};

/* Runs before the program does. */
__attribute__((constructor)) static void begin(void)
{
    const char *reads = getenv("FAIL_READ");
    const char *writes = getenv("FAIL_WRITE");
    input.fails_at = reads ? strtoul(reads, NULL, 10) : 0;
    output.fails_at = writes ? strtoul(writes, NULL, 10) : 0;
}

/* Counts a call, and makes its size smaller. Does the call fail? */
static int fails(struct stream *stream, size_t *size)
{
    if (!stream->fails_at)
        return 0;
    if (*size > stream->most)
        *size = stream->most;
    if (atomic_fetch_add(&stream->calls, 1) + 1 < stream->fails_at)
        return 0;
    errno = EIO;
    return 1;
}

ssize_t read(int file, void *place, size_t size)
{
    return file == STDIN_FILENO && fails(&input, &size) ? -1 : syscall(SYS_read, file, place, size);
}

ssize_t write(int file, const void *place, size_t size)
{
    return file == STDOUT_FILENO && fails(&output, &size) ? -1 : syscall(SYS_write, file, place, size);
}
