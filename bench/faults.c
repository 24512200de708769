/* Loaded before the C library: lets one call of a kind fail. KIND is alloc, read, write or open, and AT its number, from 1;
   at the end the file COUNT says how many such calls there were. */
#define _GNU_SOURCE
#include <dlfcn.h>
#include <errno.h>
#include <fcntl.h>
#include <stdarg.h>
#include <stddef.h>
#include <stdio.h>
#include <stdlib.h>
#include <string.h>
#include <unistd.h>

void *__libc_malloc(size_t size);
void *__libc_calloc(size_t count, size_t size);
void *__libc_realloc(void *old, size_t size);

static const char *kind = "";
static long seen, at;

static int fails(const char *call, int error) {
    if (strcmp(kind, call) != 0 || ++seen != at) return 0;
    errno = error;
    return 1;
}

void *malloc(size_t size) { return fails("alloc", ENOMEM) ? NULL : __libc_malloc(size); }
void *calloc(size_t count, size_t size) { return fails("alloc", ENOMEM) ? NULL : __libc_calloc(count, size); }
void *realloc(void *old, size_t size) { return fails("alloc", ENOMEM) ? NULL : __libc_realloc(old, size); }

ssize_t read(int fd, void *bytes, size_t size) {
    ssize_t (*next)(int, void *, size_t) = dlsym(RTLD_NEXT, "read");
    return fails("read", EIO) ? -1 : next(fd, bytes, size);
}

ssize_t write(int fd, const void *bytes, size_t size) {
    ssize_t (*next)(int, const void *, size_t) = dlsym(RTLD_NEXT, "write");
    return fails("write", EIO) ? -1 : next(fd, bytes, size);
}

ssize_t __write(int fd, const void *bytes, size_t size) { return write(fd, bytes, size); }

int open(const char *path, int flags, ...) {
    int (*next)(const char *, int, ...) = dlsym(RTLD_NEXT, "open");
    va_list more;
    va_start(more, flags);
    int mode = va_arg(more, int);
    va_end(more);
    return fails("open", EIO) ? -1 : next(path, flags, mode);
}

__attribute__((constructor)) static void begin(void) {
    const char *number = getenv("AT");
    at = number ? atol(number) : 0;
    kind = getenv("KIND") ? getenv("KIND") : "";
    seen = 0;
}

__attribute__((destructor)) static void end(void) {
    const char *path = getenv("COUNT");
    long all = seen;
    kind = "";
    FILE *file = path ? fopen(path, "w") : NULL;
    if (file) {
        fprintf(file, "%ld\n", all);
        fclose(file);
    }
}
