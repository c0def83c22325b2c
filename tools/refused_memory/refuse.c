// Refuses allocations of a program; loaded with LD_PRELOAD. The environment selects which ones:
//   REFUSE_AT=N      the Nth alone, counted from 1
//   REFUSE_FROM=N    the Nth and all later ones
//   REFUSE_EVERY=N   every Nth
//   REFUSE_SIZE=N    all of at least N bytes
//   REFUSE_COUNT=F   refuses nothing, and writes the number of allocations to the file F at the end
// An allocation is a call of malloc, calloc, realloc to a larger size, aligned_alloc or posix_memalign.
#define _GNU_SOURCE
#include <errno.h>
#include <fcntl.h>
#include <malloc.h>
#include <stdatomic.h>
#include <stddef.h>
#include <stdio.h>
#include <stdlib.h>
#include <string.h>
#include <sys/syscall.h>
#include <unistd.h>

static atomic_ulong calls;
static unsigned long at, from, every, size;
static const char *count_file;
static atomic_int is_ready;

extern void *__libc_malloc(size_t);
extern void *__libc_calloc(size_t, size_t);
extern void *__libc_realloc(void *, size_t);
extern void *__libc_memalign(size_t, size_t);

static unsigned long number(const char *name) {
    const char *text = getenv(name);
    return text ? strtoul(text, NULL, 10) : 0;
}

__attribute__((constructor)) static void begin(void) {
    at = number("REFUSE_AT");
    from = number("REFUSE_FROM");
    every = number("REFUSE_EVERY");
    size = number("REFUSE_SIZE");
    count_file = getenv("REFUSE_COUNT");
    is_ready = 1;
}

static void tell_count(void) {
    if (!count_file) return;
    char text[32];
    int length = snprintf(text, sizeof text, "%lu\n", (unsigned long)calls);
    int file = open(count_file, O_WRONLY | O_CREAT | O_TRUNC, 0644);
    if (file >= 0) {
        if (write(file, text, length) != length) syscall(SYS_exit_group, 99);
        close(file);
    }
}

// The program ends with `_exit`, which runs no destructors.
void _exit(int status) {
    tell_count();
    for (;;) syscall(SYS_exit_group, status);
}

static int is_refused(size_t bytes) {
    if (!is_ready) return 0;
    unsigned long n = atomic_fetch_add(&calls, 1) + 1;
    return (at && n == at) || (from && n >= from) || (every && n % every == 0) || (size && bytes >= size);
}

static void *refusal(void) {
    errno = ENOMEM;
    return NULL;
}

void *malloc(size_t bytes) { return is_refused(bytes) ? refusal() : __libc_malloc(bytes); }

void *calloc(size_t count, size_t bytes) { return is_refused(count * bytes) ? refusal() : __libc_calloc(count, bytes); }

void *realloc(void *old, size_t bytes) {
    if (old && bytes <= malloc_usable_size(old)) return __libc_realloc(old, bytes);
    return is_refused(bytes) ? refusal() : __libc_realloc(old, bytes);
}

void *aligned_alloc(size_t alignment, size_t bytes) { return is_refused(bytes) ? refusal() : __libc_memalign(alignment, bytes); }

void *memalign(size_t alignment, size_t bytes) { return is_refused(bytes) ? refusal() : __libc_memalign(alignment, bytes); }

int posix_memalign(void **place, size_t alignment, size_t bytes) {
    if (is_refused(bytes)) return ENOMEM;
    void *memory = __libc_memalign(alignment, bytes);
    if (!memory) return ENOMEM;
    *place = memory;
    return 0;
}
