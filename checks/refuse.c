/* Refuses one call of a program: preloaded, it fails the call whose number REFUSE_AT is, of the
 * kind that REFUSE names (memory, open, read, write), as REFUSE_HOW says: with an error number, or
 * `short`, for half of the bytes. It makes the file REFUSE_MARK then, so that who started the
 * program knows that there was such a call. The program ends by _exit, so nothing is done at the
 * end. Calls are counted over all threads. */
#define _GNU_SOURCE
#include <dlfcn.h>
#include <errno.h>
#include <fcntl.h>
#include <stdarg.h>
#include <stdlib.h>
#include <string.h>
#include <sys/syscall.h>
#include <unistd.h>

static void *(*real_malloc)(size_t);
static void *(*real_realloc)(void *, size_t);
static const char *kind = "", *how = "", *mark = "";
static unsigned long at, count;

__attribute__((constructor)) static void begin(void) {
    real_malloc = dlsym(RTLD_NEXT, "malloc");
    real_realloc = dlsym(RTLD_NEXT, "realloc");
    const char *number = getenv("REFUSE_AT");
    how = getenv("REFUSE_HOW") ? getenv("REFUSE_HOW") : "";
    mark = getenv("REFUSE_MARK") ? getenv("REFUSE_MARK") : "";
    kind = getenv("REFUSE") ? getenv("REFUSE") : "";
    at = number ? strtoul(number, NULL, 10) : 0;
}

/* Whether this call of the kind is the one. */
static int is_refused(const char *of) {
    if (strcmp(kind, of) != 0 || __sync_add_and_fetch(&count, 1) != at)
        return 0;
    long file = syscall(SYS_openat, AT_FDCWD, mark, O_CREAT | O_WRONLY, 0600);
    if (file >= 0)
        syscall(SYS_close, file);
    return 1;
}

static int is_short(void) { return strcmp(how, "short") == 0; }

static long failed(void) {
    errno = atoi(how);
    return -1;
}

void *malloc(size_t size) {
    if (!real_malloc)
        real_malloc = dlsym(RTLD_NEXT, "malloc");
    if (is_refused("memory")) {
        errno = ENOMEM;
        return NULL;
    }
    return real_malloc(size);
}

void *realloc(void *held, size_t size) {
    if (!real_realloc)
        real_realloc = dlsym(RTLD_NEXT, "realloc");
    if (is_refused("memory")) {
        errno = ENOMEM;
        return NULL;
    }
    return real_realloc(held, size);
}

int open(const char *path, int flags, ...) {
    va_list more;
    va_start(more, flags);
    int mode = va_arg(more, int);
    va_end(more);
    return is_refused("open") ? failed() : syscall(SYS_openat, AT_FDCWD, path, flags, mode);
}

ssize_t read(int file, void *bytes, size_t size) {
    if (is_refused("read")) {
        if (!is_short())
            return failed();
        size = (size + 1) / 2;
    }
    return syscall(SYS_read, file, bytes, size);
}

ssize_t write(int file, const void *bytes, size_t size) {
    if (is_refused("write")) {
        if (!is_short())
            return failed();
        size = (size + 1) / 2;
    }
    return syscall(SYS_write, file, bytes, size);
}

ssize_t __write(int file, const void *bytes, size_t size) { return write(file, bytes, size); }
