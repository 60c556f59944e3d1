// The calls of the device that a durable command needs, alone: the bytes behind a gate, a sync, the gate, a sync. The words are the
// file, which is made anew, and how many commands; it prints the nanoseconds that they took.
#define _GNU_SOURCE
#include <fcntl.h>
#include <stdio.h>
#include <stdlib.h>
#include <string.h>
#include <time.h>
#include <unistd.h>

enum { LENGTH = 2097152, FRAME = 278 };

static void need(int well) {
    if (!well) {
        perror("two_syncs");
        exit(1);
    }
}

static long long nanos(void) {
    struct timespec now;
    need(clock_gettime(CLOCK_MONOTONIC, &now) == 0);
    return now.tv_sec * 1000000000LL + now.tv_nsec;
}

int main(int count, char **words) {
    static char zeros[LENGTH], frame[FRAME];
    const char gate = (char)0xC3;
    need(count == 3);
    int file = open(words[1], O_RDWR | O_CREAT | O_TRUNC, 0666);
    need(file >= 0 && write(file, zeros, LENGTH) == LENGTH && fsync(file) == 0);
    memset(frame, 7, FRAME);
    long commands = atol(words[2]);
    long long start = nanos();
    for (long i = 0; i < commands; i++) {
        off_t at = i % (LENGTH / FRAME) * FRAME;
        need(pwrite(file, frame, FRAME - 1, at + 1) == FRAME - 1);
        need(fdatasync(file) == 0);
        need(pwrite(file, &gate, 1, at) == 1);
        need(fdatasync(file) == 0);
    }
    printf("%lld\n", nanos() - start);
    return 0;
}
