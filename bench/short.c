// A C library whose reads and writes move a few bytes at a time, as the system may, and of which every third is interrupted
// before it moves any. `bench/short.py` loads it before the program.
#define _GNU_SOURCE
#include <errno.h>
#include <sys/syscall.h>
#include <sys/types.h>
#include <unistd.h>

static unsigned calls;

static size_t part(size_t count)
{
    return count > 100 ? 100 : (count + 1) / 2;
}

static int is_interrupted(void)
{
    errno = EINTR;
    return ++calls % 3 == 0;
}

ssize_t pread(int file, void *into, size_t count, off_t at)
{
    return is_interrupted() ? -1 : syscall(SYS_pread64, file, into, part(count), at);
}

ssize_t pwrite(int file, const void *from, size_t count, off_t at)
{
    return is_interrupted() ? -1 : syscall(SYS_pwrite64, file, from, part(count), at);
}

ssize_t read(int file, void *into, size_t count)
{
    return is_interrupted() ? -1 : syscall(SYS_read, file, into, part(count));
}

ssize_t write(int file, const void *from, size_t count)
{
    return is_interrupted() ? -1 : syscall(SYS_write, file, from, part(count));
}

ssize_t pread64(int file, void *into, size_t count, off_t at) __attribute__((alias("pread")));
ssize_t pwrite64(int file, const void *from, size_t count, off_t at) __attribute__((alias("pwrite")));
