// Preloaded into a program, ends it before one of its writes and syncs: the one of the number in PFX_CUT (7:kept, 7:lost, 7:torn), counted from 1. By
// `kept` every write before stands, as where the process alone is killed. By `lost` each file is as it was at its last sync, as where the power is cut; by
// `torn` so, but for the first half of the last write. What is written to standard output and error stands. Where it was ended, the file named by PFX_MET is made.
#define _GNU_SOURCE
#include <dlfcn.h>
#include <fcntl.h>
#include <signal.h>
#include <stdlib.h>
#include <string.h>
#include <sys/stat.h>
#include <sys/syscall.h>
#include <sys/types.h>
#include <unistd.h>

#define MOST 4096
#define REAL(name) ((__typeof__(&name))dlsym(RTLD_NEXT, #name))

// Writes that no sync has covered: what stood there before, and how long the file was.
static struct write {
    int file;
    off_t at, length;
    size_t count, old_count;
    char *old, *new;
} made[MOST];
static int count_made;
static long number;

static int is_file(int file) {
    struct stat found;
    return file > 2 && fstat(file, &found) == 0 && S_ISREG(found.st_mode);
}

// Takes back all writes that no sync has covered.
static void take_back(void) {
    for (int i = count_made - 1; i >= 0; i--) {
        struct write *it = &made[i];
        REAL(pwrite)(it->file, it->old, it->old_count, it->at);
        REAL(ftruncate)(it->file, it->length);
    }
}

// Ends the program before this call, if it is its turn.
static void turn(void) {
    const char *asked = getenv("PFX_CUT"), *path = getenv("PFX_MET");
    if (!asked) return;
    char *end;
    if (++number != strtol(asked, &end, 10)) return;
    if (strcmp(end, ":kept") != 0) {
        struct write last = count_made ? made[count_made - 1] : (struct write){0};
        take_back();
        if (strcmp(end, ":torn") == 0 && count_made) REAL(pwrite)(last.file, last.new, (last.count + 1) / 2, last.at);
    }
    int file = path ? (int)syscall(SYS_openat, AT_FDCWD, path, O_CREAT | O_WRONLY, 0600) : -1;
    if (file >= 0) syscall(SYS_close, file);
    raise(SIGKILL);
}

// Notes what a write is about to write over.
static void note(int file, const void *from, size_t count, off_t at) {
    struct stat found;
    if (count_made == MOST || fstat(file, &found) != 0) _exit(99);
    struct write *it = &made[count_made++];
    *it = (struct write){file, at, found.st_size, count, 0, malloc(count), malloc(count)};
    ssize_t old = REAL(pread)(file, it->old, count, at);
    it->old_count = old > 0 ? (size_t)old : 0;
    memcpy(it->new, from, count);
}

// A sync covers the writes of its file.
static void covered(int file) {
    int left = 0;
    for (int i = 0; i < count_made; i++) {
        if (made[i].file != file) made[left++] = made[i];
        else free(made[i].old), free(made[i].new);
    }
    count_made = left;
}

ssize_t write(int file, const void *from, size_t count) {
    if (is_file(file)) turn(), note(file, from, count, lseek(file, 0, SEEK_CUR));
    return REAL(write)(file, from, count);
}

ssize_t pwrite(int file, const void *from, size_t count, off_t at) {
    if (is_file(file)) turn(), note(file, from, count, at);
    return REAL(pwrite)(file, from, count, at);
}

int fsync(int file) {
    if (is_file(file)) turn();
    int answer = REAL(fsync)(file);
    if (answer == 0) covered(file);
    return answer;
}

int fdatasync(int file) {
    if (is_file(file)) turn();
    int answer = REAL(fdatasync)(file);
    if (answer == 0) covered(file);
    return answer;
}
