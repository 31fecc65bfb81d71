// Stands before the C library in a program that is run with this in LD_PRELOAD, and makes one of its calls fail.
// What fails is said by the environment; a variable that is not set leaves all as it is:
//
//   SHIM_FAIL=N            the Nth request for memory fails, or each one where N is 0
//   SHIM_CALL=1            only the requests between the first two writes to standard output are counted
//   SHIM_READ=N:HOW        the Nth read of standard input goes otherwise, or each one where N is 0
//   SHIM_WRITE=N:HOW       the same of the Nth write to standard output
//   SHIM_PIECE=N           no read and no write moves more than N bytes
//   SHIM_COUNTS=FILE       at the end the file has a line with how many requests, reads and writes were counted and
//                          how many bytes the requests asked for, and then a line for each request with its bytes
//
// HOW is EIO, EINTR or ENOSPC, the number of an error; 0, which moves no byte; or short, which moves one.
#define _GNU_SOURCE
#include <errno.h>
#include <fcntl.h>
#include <stdarg.h>
#include <stdio.h>
#include <stdlib.h>
#include <string.h>
#include <sys/syscall.h>
#include <unistd.h>

// The C library's own, by the names that it keeps for those who stand before it.
extern void *__libc_malloc(size_t);
extern void *__libc_calloc(size_t, size_t);
extern void *__libc_realloc(void *, size_t);
extern void *__libc_memalign(size_t, size_t);

struct fault {
    long at;
    const char *how;
};

// The bytes of the first requests. Past these only the sum is kept.
#define KEPT 4096

static long requests, reads, writes, bytes, piece;
static size_t sizes[KEPT];
static long failing = -1;
static int only_call;
static struct fault read_fault = {-1, ""}, write_fault = {-1, ""};

static long number(const char *name, long otherwise) {
    const char *text = getenv(name);
    return text ? atol(text) : otherwise;
}

static void read_settings(struct fault *fault, const char *name) {
    const char *text = getenv(name);
    const char *colon = text ? strchr(text, ':') : NULL;
    if (colon) {
        fault->at = atol(text);
        fault->how = colon + 1;
    }
}

__attribute__((constructor)) static void begin(void) {
    failing = number("SHIM_FAIL", -1);
    piece = number("SHIM_PIECE", 0);
    only_call = number("SHIM_CALL", 0) == 1;
    read_settings(&read_fault, "SHIM_READ");
    read_settings(&write_fault, "SHIM_WRITE");
    requests = 0;
}

// Writes a text of no more than 100 bytes to the file, by no call that is counted.
static void put(int file, const char *format, ...) {
    char text[100];
    va_list values;
    va_start(values, format);
    int length = vsnprintf(text, sizeof text, format, values);
    va_end(values);
    if (syscall(SYS_write, file, text, length) != length) {
        _exit(99);
    }
}

__attribute__((destructor)) static void end(void) {
    const char *path = getenv("SHIM_COUNTS");
    if (!path) {
        return;
    }
    int file = open(path, O_WRONLY | O_CREAT | O_TRUNC, 0600);
    if (file < 0) {
        _exit(99);
    }
    put(file, "%ld %ld %ld %ld\n", requests, reads, writes, bytes);
    for (long n = 0; n < requests && n < KEPT; n++) {
        put(file, "%zu\n", sizes[n]);
    }
    close(file);
}

// Counts a request for so many bytes of memory, and whether it is one that fails.
static int fails(size_t size) {
    if (only_call && writes != 1) {
        return 0;
    }
    if (requests < KEPT) {
        sizes[requests] = size;
    }
    requests += 1;
    bytes += size;
    if (requests != failing && failing != 0) {
        return 0;
    }
    errno = ENOMEM;
    return 1;
}

void *malloc(size_t size) { return fails(size) ? NULL : __libc_malloc(size); }

void *calloc(size_t count, size_t size) { return fails(count * size) ? NULL : __libc_calloc(count, size); }

// It asks for the whole of the new size.
void *realloc(void *old, size_t size) { return fails(size) ? NULL : __libc_realloc(old, size); }

void *memalign(size_t alignment, size_t size) { return fails(size) ? NULL : __libc_memalign(alignment, size); }

void *aligned_alloc(size_t alignment, size_t size) { return memalign(alignment, size); }

int posix_memalign(void **to, size_t alignment, size_t size) {
    void *made = memalign(alignment, size);
    if (!made) {
        return ENOMEM;
    }
    *to = made;
    return 0;
}

// How many bytes a call may move, or -1 where it fails, with its error set.
static ssize_t allowed(const struct fault *fault, long call, size_t count) {
    if (piece > 0 && count > (size_t)piece) {
        count = piece;
    }
    if (fault->at != call && fault->at != 0) {
        return count;
    }
    if (strcmp(fault->how, "short") == 0) {
        return count < 1 ? count : 1;
    }
    if (strcmp(fault->how, "0") == 0) {
        return 0;
    }
    errno = strcmp(fault->how, "EINTR") == 0 ? EINTR : strcmp(fault->how, "ENOSPC") == 0 ? ENOSPC : EIO;
    return -1;
}

ssize_t read(int file, void *to, size_t count) {
    ssize_t most = count;
    if (file == STDIN_FILENO) {
        reads += 1;
        most = allowed(&read_fault, reads, count);
    }
    return most <= 0 ? most : syscall(SYS_read, file, to, most);
}

ssize_t write(int file, const void *from, size_t count) {
    ssize_t most = count;
    if (file == STDOUT_FILENO) {
        writes += 1;
        most = allowed(&write_fault, writes, count);
    }
    return most <= 0 ? most : syscall(SYS_write, file, from, most);
}

// The name under which the C library has it too.
ssize_t __write(int file, const void *from, size_t count) { return write(file, from, count); }
