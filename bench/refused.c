// A C library that refuses memory: REFUSED is the number of the first allocation that is refused, from 1 on, and COUNT how many are, one
// after another. Where TOLD is set the file of that number is told at the end how many allocations there were. Those of the system's
// loader, before this library begins, aren't counted. `bench/refused.py` loads it before the program.
#include <errno.h>
#include <stddef.h>
#include <stdio.h>
#include <stdlib.h>
#include <unistd.h>

void *__libc_malloc(size_t size);
void *__libc_realloc(void *place, size_t size);

static unsigned long calls, first, count;
static int has_begun, told;

static unsigned long number_in(const char *name, unsigned long other)
{
    const char *text = getenv(name);
    return text ? strtoul(text, NULL, 10) : other;
}

__attribute__((constructor)) static void begin(void)
{
    first = number_in("REFUSED", 0);
    count = number_in("COUNT", 1);
    told = number_in("TOLD", 0);
    has_begun = 1;
}

__attribute__((destructor)) static void end(void)
{
    char text[24];
    int length = snprintf(text, sizeof text, "%lu", calls);
    if (told && write(told, text, length) != length)
        abort();
}

static int is_refused(void)
{
    if (!has_begun)
        return 0;
    calls++;
    errno = ENOMEM;
    return first && calls >= first && calls - first < count;
}

void *malloc(size_t size)
{
    return is_refused() ? NULL : __libc_malloc(size);
}

void *realloc(void *place, size_t size)
{
    return is_refused() ? NULL : __libc_realloc(place, size);
}
