// A library to be loaded before a program: it lets one call fail. FAULT is `KIND N HOW`, and the Nth call of that kind fails:
// `memory` by HOW `refused`, from that call on if HOW is `gone`; `read`, `write` and `sync` of files (not of the standard streams)
// with an error, `io` or `full`, from then on if HOW is `io+` or `full+`, or after half of its bytes if HOW is `short`.
// At the end it writes to the file that FAULT_COUNT names how many calls of each kind there were.
#define _GNU_SOURCE
#include <dlfcn.h>
#include <errno.h>
#include <stdio.h>
#include <stdlib.h>
#include <string.h>
#include <sys/types.h>
#include <unistd.h>

enum { MEMORY, READ, WRITE, SYNC, KINDS };
static const char *const names[KINDS] = {"memory", "read", "write", "sync"};
static unsigned long counts[KINDS], at;
static int kind = KINDS, error, is_short, goes_on, is_ready;

__attribute__((constructor)) static void begin(void) {
    char name[16] = "", how[16] = "";
    const char *fault = getenv("FAULT");
    if (fault && sscanf(fault, "%15s %lu %15s", name, &at, how) == 3) {
        for (int each = 0; each < KINDS; each++)
            if (!strcmp(name, names[each])) kind = each;
        is_short = !strcmp(how, "short");
        error = strncmp(how, "full", 4) ? EIO : ENOSPC;
        goes_on = !strcmp(how, "gone") || strchr(how, '+') != NULL;
    }
    is_ready = 1;
}

__attribute__((destructor)) static void end(void) {
    const char *path = getenv("FAULT_COUNT");
    is_ready = 0;
    FILE *file = path ? fopen(path, "w") : NULL;
    if (!file) return;
    for (int each = 0; each < KINDS; each++) fprintf(file, "%s %lu\n", names[each], counts[each]);
    fclose(file);
}

// Counts a call, and tells whether it has to fail.
static int fails(int of) {
    if (!is_ready) return 0;
    unsigned long count = ++counts[of];
    return of == kind && (goes_on ? count >= at : count == at);
}

void *__libc_malloc(size_t size);
void *__libc_realloc(void *old, size_t size);
void *__libc_calloc(size_t count, size_t size);

void *malloc(size_t size) { return fails(MEMORY) ? NULL : __libc_malloc(size); }
void *realloc(void *old, size_t size) { return fails(MEMORY) ? NULL : __libc_realloc(old, size); }
void *calloc(size_t count, size_t size) { return fails(MEMORY) ? NULL : __libc_calloc(count, size); }

#define REAL(type, name) ((type)dlsym(RTLD_NEXT, name))

ssize_t pread(int fd, void *bytes, size_t length, off_t from) {
    if (fails(READ)) {
        if (!is_short) return errno = error, -1;
        length = (length + 1) / 2;
    }
    return REAL(ssize_t(*)(int, void *, size_t, off_t), "pread")(fd, bytes, length, from);
}
ssize_t pread64(int fd, void *bytes, size_t length, off_t from) { return pread(fd, bytes, length, from); }

ssize_t pwrite(int fd, const void *bytes, size_t length, off_t to) {
    ssize_t (*real)(int, const void *, size_t, off_t) = REAL(ssize_t(*)(int, const void *, size_t, off_t), "pwrite");
    if (fails(WRITE)) {
        // A write that fails may have written a part.
        if (!is_short) return (void)!real(fd, bytes, length / 3, to), errno = error, -1;
        length = (length + 1) / 2;
    }
    return real(fd, bytes, length, to);
}
ssize_t pwrite64(int fd, const void *bytes, size_t length, off_t to) { return pwrite(fd, bytes, length, to); }

int fsync(int fd) { return fails(SYNC) ? (errno = error, -1) : REAL(int (*)(int), "fsync")(fd); }
int fdatasync(int fd) { return fails(SYNC) ? (errno = error, -1) : REAL(int (*)(int), "fdatasync")(fd); }
