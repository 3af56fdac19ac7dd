/* Refuses allocations of a program by their number. It is loaded before the C library (LD_PRELOAD), whose malloc, calloc and
   realloc it wraps; the first allocation after it was loaded is number 1.

   REFUSE_FIRST, REFUSE_LAST   the numbers that are refused; none where REFUSE_FIRST is 0
   REFUSE_COUNTS               a file of 16 bytes, into which it counts: allocations asked for, and those refused */
#define _GNU_SOURCE
#include <dlfcn.h>
#include <errno.h>
#include <fcntl.h>
#include <stdlib.h>
#include <sys/mman.h>
#include <unistd.h>

struct counts {
    unsigned long asked, refused;
};

static struct counts unseen;
static struct counts *counts = &unseen;
static unsigned long first, last;

static unsigned long number(const char *name)
{
    const char *text = getenv(name);
    return text ? strtoul(text, NULL, 10) : 0;
}

__attribute__((constructor)) static void begin(void)
{
    const char *path = getenv("REFUSE_COUNTS");
    int file = path ? open(path, O_RDWR) : -1;
    if (file < 0)
        return;
    /* Shared with the file, so that the counts are there however the program ends. */
    void *mapped = mmap(NULL, sizeof unseen, PROT_READ | PROT_WRITE, MAP_SHARED, file, 0);
    close(file);
    if (mapped == MAP_FAILED)
        return;
    first = number("REFUSE_FIRST");
    last = number("REFUSE_LAST");
    counts = mapped;
}

/* Counts an allocation, and tells whether it is refused. */
static int is_refused(void)
{
    unsigned long at = ++counts->asked;
    if (at < first || at > last)
        return 0;
    counts->refused++;
    errno = ENOMEM;
    return 1;
}

void *malloc(size_t size)
{
    static void *(*next)(size_t);
    if (!next)
        next = (void *(*)(size_t))dlsym(RTLD_NEXT, "malloc");
    return is_refused() ? NULL : next(size);
}

void *calloc(size_t count, size_t size)
{
    static void *(*next)(size_t, size_t);
    if (!next)
        next = (void *(*)(size_t, size_t))dlsym(RTLD_NEXT, "calloc");
    return is_refused() ? NULL : next(count, size);
}

void *realloc(void *old, size_t size)
{
    static void *(*next)(void *, size_t);
    if (!next)
        next = (void *(*)(void *, size_t))dlsym(RTLD_NEXT, "realloc");
    return is_refused() ? NULL : next(old, size);
}
