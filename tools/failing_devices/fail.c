// Makes reads and writes of a program fail; loaded with LD_PRELOAD. The environment selects which ones:
//   FAIL_READ=N, FAIL_WRITE=N   the Nth, counted from 1
//   FAIL_HOW=error              it fails with EIO
//            interrupted        it fails with EINTR
//            short              it moves one byte
//            nothing            it moves none: a read reports the end
//   FAIL_FROM=1                 all later ones too
//   FAIL_PIECE=N                each moves at most N bytes
//   FAIL_COUNT=F                writes to the file F at the end: the numbers of reads and writes, the number of writes after one
//                               that failed, the descriptor of the Nth read, how many bytes of it were read before, and how many
//                               were read from the descriptors 3 and 4
#define _GNU_SOURCE
#include <errno.h>
#include <fcntl.h>
#include <stdatomic.h>
#include <stdio.h>
#include <stdlib.h>
#include <string.h>
#include <sys/syscall.h>
#include <sys/types.h>
#include <unistd.h>

#define FILES 64

static atomic_ulong reads, writes, writes_behind, read_of[FILES], read_before;
static atomic_int has_failed, file_of = -1;
static unsigned long read_at, write_at, piece;
static int is_from;
static const char *how = "error", *count_file;

static unsigned long number(const char *name) {
    const char *text = getenv(name);
    return text ? strtoul(text, NULL, 10) : 0;
}

__attribute__((constructor)) static void begin(void) {
    read_at = number("FAIL_READ");
    write_at = number("FAIL_WRITE");
    piece = number("FAIL_PIECE");
    is_from = number("FAIL_FROM") != 0;
    if (getenv("FAIL_HOW")) how = getenv("FAIL_HOW");
    count_file = getenv("FAIL_COUNT");
}

static int is_meant(unsigned long n, unsigned long at) { return at && (n == at || (is_from && n > at)); }

// How many bytes to move, or -1 with errno if the call fails.
static ssize_t altered(size_t size, int is_hit) {
    if (piece && size > piece) size = piece;
    if (!is_hit) return size;
    if (!strcmp(how, "short")) return size > 1 ? 1 : (ssize_t)size;
    if (!strcmp(how, "nothing")) return 0;
    errno = strcmp(how, "interrupted") ? EIO : EINTR;
    return -1;
}

ssize_t read(int file, void *place, size_t size) {
    unsigned long n = atomic_fetch_add(&reads, 1) + 1;
    if (n == read_at) {
        file_of = file;
        if (file < FILES) read_before = read_of[file];
    }
    ssize_t most = altered(size, is_meant(n, read_at));
    ssize_t got = most > 0 ? syscall(SYS_read, file, place, (size_t)most) : most;
    if (got > 0 && file < FILES) atomic_fetch_add(&read_of[file], got);
    return got;
}

ssize_t write(int file, const void *bytes, size_t size) {
    unsigned long n = atomic_fetch_add(&writes, 1) + 1;
    if (has_failed) atomic_fetch_add(&writes_behind, 1);
    ssize_t most = altered(size, is_meant(n, write_at));
    ssize_t done = most > 0 ? syscall(SYS_write, file, bytes, (size_t)most) : most;
    if (size > 0 && (done == 0 || (done < 0 && errno != EINTR))) has_failed = 1;
    return done;
}

// The program ends with `_exit`, which runs no destructors.
void _exit(int status) {
    if (count_file) {
        char text[200];
        int length = snprintf(text, sizeof text, "%lu %lu %lu %d %lu %lu %lu\n", reads, writes, writes_behind, file_of, read_before,
                              read_of[3], read_of[4]);
        int file = open(count_file, O_WRONLY | O_CREAT | O_TRUNC, 0644);
        if (file < 0 || syscall(SYS_write, file, text, length) != length) syscall(SYS_exit_group, 99);
    }
    for (;;) syscall(SYS_exit_group, status);
}
