/* Loaded before the C library (LD_PRELOAD): counts what a program asks of it, and refuses or shortens one call.
 *   REFUSED=CALL:N    the Nth call of CALL fails: alloc (malloc, realloc, calloc: no memory), open, read, write (an I/O error)
 *   REFUSED=short-CALL:N    the Nth read or write of several bytes moves one
 *   COUNTED=FILE      how many calls of each there were, in this order, where the program ends
 * Reads and writes count where they are of several bytes. */
#define _GNU_SOURCE
#include <dlfcn.h>
#include <errno.h>
#include <fcntl.h>
#include <stdarg.h>
#include <stdio.h>
#include <stdlib.h>
#include <string.h>
#include <sys/syscall.h>
#include <unistd.h>

enum { ALLOC, OPEN, READ, WRITE, CALLS };
static const char *const names[CALLS] = {"alloc", "open", "read", "write"};
static long counts[CALLS], refused_at;
static int refused = -1, is_short, is_ready;

void *__libc_malloc(size_t size);
void *__libc_realloc(void *block, size_t size);
void *__libc_calloc(size_t count, size_t size);

__attribute__((constructor)) static void begin(void) {
    const char *word = getenv("REFUSED");
    is_short = word != NULL && strncmp(word, "short-", 6) == 0;
    if (is_short) word += 6;
    for (int call = 0; word != NULL && call < CALLS; call++) {
        size_t length = strlen(names[call]);
        if (strncmp(word, names[call], length) != 0 || word[length] != ':') continue;
        refused = call;
        refused_at = atol(word + length + 1);
    }
    is_ready = 1;
}

__attribute__((destructor)) static void end(void) {
    const char *name = getenv("COUNTED");
    is_ready = 0;
    if (name == NULL) return;
    char line[100];
    int length = snprintf(line, sizeof line, "%ld %ld %ld %ld\n", counts[ALLOC], counts[OPEN], counts[READ], counts[WRITE]);
    int file = syscall(SYS_openat, AT_FDCWD, name, O_WRONLY | O_CREAT | O_TRUNC, 0600);
    if (file >= 0 && syscall(SYS_write, file, line, length) == length) close(file);
}

/* Whether this call is the one. */
static int is_chosen(int call) { return is_ready && ++counts[call] == refused_at && call == refused; }

static int is_refused(int call, int error) {
    if (!is_chosen(call)) return 0;
    errno = error;
    return 1;
}

void *malloc(size_t size) { return is_refused(ALLOC, ENOMEM) ? NULL : __libc_malloc(size); }
void *realloc(void *block, size_t size) { return is_refused(ALLOC, ENOMEM) ? NULL : __libc_realloc(block, size); }
void *calloc(size_t count, size_t size) { return is_refused(ALLOC, ENOMEM) ? NULL : __libc_calloc(count, size); }

static int opened(int folder, const char *name, int flags, int mode) {
    return is_refused(OPEN, EIO) ? -1 : syscall(SYS_openat, folder, name, flags, mode);
}

static int mode_in(int flags, va_list more) { return flags & (O_CREAT | O_TMPFILE) ? va_arg(more, int) : 0; }

int open(const char *name, int flags, ...) {
    va_list more;
    va_start(more, flags);
    int mode = mode_in(flags, more);
    va_end(more);
    return opened(AT_FDCWD, name, flags, mode);
}

int openat(int folder, const char *name, int flags, ...) {
    va_list more;
    va_start(more, flags);
    int mode = mode_in(flags, more);
    va_end(more);
    return opened(folder, name, flags, mode);
}

int open64(const char *name, int flags, ...) __attribute__((alias("open")));
int openat64(int folder, const char *name, int flags, ...) __attribute__((alias("openat")));

/* How many bytes the call moves, or -1 where it fails. */
static ssize_t moved(int call, long number, int file, void *bytes, size_t count) {
    if (count > 1 && is_chosen(call)) {
        if (!is_short) {
            errno = EIO;
            return -1;
        }
        count = 1;
    }
    return syscall(number, file, bytes, count);
}

ssize_t read(int file, void *bytes, size_t count) { return moved(READ, SYS_read, file, bytes, count); }
ssize_t write(int file, const void *bytes, size_t count) { return moved(WRITE, SYS_write, file, (void *)bytes, count); }
ssize_t __write(int file, const void *bytes, size_t count) { return moved(WRITE, SYS_write, file, (void *)bytes, count); }
