// Makes each sync of a program take longer, by so many microseconds (5,000 where SLOW_SYNC doesn't say):
//     cc -shared -fPIC -o slow_sync.so slow_sync.c
//     SLOW_SYNC=2000 LD_PRELOAD=./slow_sync.so ccnode run ..
#define _GNU_SOURCE
#include <stdlib.h>
#include <sys/syscall.h>
#include <time.h>
#include <unistd.h>

static void pause_first(void) {
    const char *number = getenv("SLOW_SYNC");
    long microseconds = number ? atol(number) : 5000;
    struct timespec pause = {microseconds / 1000000, microseconds % 1000000 * 1000};
    nanosleep(&pause, NULL);
}

int fsync(int file) {
    pause_first();
    return (int)syscall(SYS_fsync, file);
}

int fdatasync(int file) {
    pause_first();
    return (int)syscall(SYS_fdatasync, file);
}
