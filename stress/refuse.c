/* Counts the allocations of a program, and refuses one of them; it is loaded before the program by LD_PRELOAD.

   Where the variable REFUSE_AFTER is set, only those are counted that come while the program has written so many lines
   on standard output; else all. That whose number, from 1, is REFUSE is refused. When the program ends, the file of the
   number REFUSE_REPORT gets the count as a line. stress/refusals builds this and uses it. */
#define _GNU_SOURCE
#include <errno.h>
#include <stdatomic.h>
#include <stdio.h>
#include <stdlib.h>
#include <sys/syscall.h>
#include <unistd.h>

extern void *__libc_malloc(size_t size);
extern void *__libc_realloc(void *block, size_t size);

static atomic_ulong allocations;
static atomic_ulong lines;

static unsigned long number_of(const char *name) {
    const char *text = getenv(name);
    return text ? strtoul(text, NULL, 10) : 0;
}

/* Whether the allocation that is asked for now is refused. */
static int is_refused(void) {
    if (getenv("REFUSE_AFTER") && lines != number_of("REFUSE_AFTER"))
        return 0;
    return ++allocations == number_of("REFUSE");
}

void *malloc(size_t size) {
    if (is_refused()) {
        errno = ENOMEM;
        return NULL;
    }
    return __libc_malloc(size);
}

void *realloc(void *block, size_t size) {
    if (is_refused()) {
        errno = ENOMEM;
        return NULL;
    }
    return __libc_realloc(block, size);
}

ssize_t write(int file, const void *bytes, size_t count) {
    long written = syscall(SYS_write, file, bytes, count);
    for (long place = 0; file == STDOUT_FILENO && place < written; ++place)
        lines += ((const char *)bytes)[place] == '\n';
    return written;
}

void _exit(int status) {
    char line[32];
    int length = snprintf(line, sizeof line, "%lu\n", (unsigned long)allocations);
    syscall(SYS_write, number_of("REFUSE_REPORT"), line, (size_t)length);
    syscall(SYS_exit_group, status);
    __builtin_unreachable();
}
