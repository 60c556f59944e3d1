// Preloaded into a program, refuses one growth of memory, or fails one read, write or sync: the call of the number in PFX_REFUSE
// (memory:7, file:7), counted from 1, and with a plus behind it (file:7+) each later one too. Where a call was refused, the file
// named by PFX_MET is made.
#define _GNU_SOURCE
#include <dlfcn.h>
#include <errno.h>
#include <fcntl.h>
#include <stdlib.h>
#include <string.h>
#include <sys/syscall.h>
#include <sys/types.h>
#include <unistd.h>

static long met[2];

// Whether a call of this kind, 0 of memory and 1 of a file, is refused.
static int is_refused(int kind) {
    static const char *const names[] = {"memory:", "file:"};
    const char *asked = getenv("PFX_REFUSE");
    size_t length = strlen(names[kind]);
    if (!asked || strncmp(asked, names[kind], length) != 0) return 0;
    char *end;
    long wanted = strtol(asked + length, &end, 10), number = __sync_add_and_fetch(&met[kind], 1);
    if (number != wanted && !(*end == '+' && number > wanted)) return 0;
    const char *path = getenv("PFX_MET");
    int file = path ? (int)syscall(SYS_openat, AT_FDCWD, path, O_CREAT | O_WRONLY, 0600) : -1;
    if (file >= 0) syscall(SYS_close, file);
    errno = kind ? EIO : ENOMEM;
    return 1;
}

#define REAL(name) ((__typeof__(&name))dlsym(RTLD_NEXT, #name))

void *malloc(size_t size) {
    static __typeof__(&malloc) real;
    if (!real) real = REAL(malloc);
    return is_refused(0) ? NULL : real(size);
}

void *realloc(void *old, size_t size) {
    static __typeof__(&realloc) real;
    if (!real) real = REAL(realloc);
    return is_refused(0) ? NULL : real(old, size);
}

ssize_t read(int file, void *to, size_t count) { return is_refused(1) ? -1 : REAL(read)(file, to, count); }

ssize_t pread(int file, void *to, size_t count, off_t at) { return is_refused(1) ? -1 : REAL(pread)(file, to, count, at); }

ssize_t write(int file, const void *from, size_t count) { return is_refused(1) ? -1 : REAL(write)(file, from, count); }

ssize_t __write(int file, const void *from, size_t count) { return is_refused(1) ? -1 : REAL(write)(file, from, count); }

ssize_t pwrite(int file, const void *from, size_t count, off_t at) { return is_refused(1) ? -1 : REAL(pwrite)(file, from, count, at); }

int fsync(int file) { return is_refused(1) ? -1 : REAL(fsync)(file); }

int fdatasync(int file) { return is_refused(1) ? -1 : REAL(fdatasync)(file); }

int ftruncate(int file, off_t length) { return is_refused(1) ? -1 : REAL(ftruncate)(file, length); }
