/* Refuses allocations of a program that is linked with the C library: the one with the number REFUSE_AT, counted from 1, or with
   REFUSE_FROM that one and all behind it. At the program's end the count of allocations is written to the file REFUSE_COUNT. */
#define _GNU_SOURCE
#include <errno.h>
#include <fcntl.h>
#include <stdio.h>
#include <stdlib.h>
#include <unistd.h>

extern void *__libc_malloc(size_t size);
extern void *__libc_calloc(size_t count, size_t size);
extern void *__libc_realloc(void *old, size_t size);
extern void *__libc_memalign(size_t align, size_t size);

static unsigned long calls, at, from;
static const char *report;

static unsigned long number_of(const char *name)
{
    const char *text = getenv(name);
    return text ? strtoul(text, NULL, 10) : 0;
}

__attribute__((constructor)) static void begin(void)
{
    at = number_of("REFUSE_AT");
    from = number_of("REFUSE_FROM");
    report = getenv("REFUSE_COUNT");
    calls = 0;
}

__attribute__((destructor)) static void end(void)
{
    char text[32];
    int length = snprintf(text, sizeof text, "%lu\n", calls);
    int file = report ? open(report, O_WRONLY | O_CREAT | O_TRUNC, 0600) : -1;
    if (file >= 0 && (write(file, text, length) != length || close(file) != 0))
        _exit(99);
}

static int is_refused(void)
{
    calls++;
    if (calls != at && (from == 0 || calls < from))
        return 0;
    errno = ENOMEM;
    return 1;
}

void *malloc(size_t size) { return is_refused() ? NULL : __libc_malloc(size); }
void *calloc(size_t count, size_t size) { return is_refused() ? NULL : __libc_calloc(count, size); }
void *realloc(void *old, size_t size) { return is_refused() ? NULL : __libc_realloc(old, size); }
void *aligned_alloc(size_t align, size_t size) { return is_refused() ? NULL : __libc_memalign(align, size); }
void *memalign(size_t align, size_t size) { return is_refused() ? NULL : __libc_memalign(align, size); }

int posix_memalign(void **made, size_t align, size_t size)
{
    void *found = is_refused() ? NULL : __libc_memalign(align, size);
    if (!found)
        return ENOMEM;
    *made = found;
    return 0;
}
