/* Preloaded into a program, it notes when each call on a socket or a file began and ended, and each wait and wake of a thread, in
 * the file HOPS, which is mapped: so a note costs no call, and a killed program leaves all of them. hops.py reads it. */
#define _GNU_SOURCE
#include <dlfcn.h>
#include <fcntl.h>
#include <linux/futex.h>
#include <stdarg.h>
#include <stdatomic.h>
#include <stdlib.h>
#include <sys/mman.h>
#include <sys/socket.h>
#include <sys/syscall.h>
#include <sys/types.h>
#include <sys/uio.h>
#include <time.h>
#include <unistd.h>

enum { MOST = 1 << 20 };

struct note {
    unsigned long began, ended;
    int thread, file;
    long result;
    char name[8];
};

struct notes {
    atomic_ulong count;
    struct note all[MOST];
};

static struct notes *notes;
static _Thread_local int thread;

static unsigned long now(void)
{
    struct timespec time;
    clock_gettime(CLOCK_MONOTONIC, &time);
    return time.tv_sec * 1000000000ul + time.tv_nsec;
}

__attribute__((constructor)) static void begin(void)
{
    const char *path = getenv("HOPS");
    int file = path ? open(path, O_RDWR | O_CREAT | O_TRUNC, 0600) : -1;
    if (file < 0 || ftruncate(file, sizeof *notes))
        return;
    void *mapped = mmap(NULL, sizeof *notes, PROT_READ | PROT_WRITE, MAP_SHARED, file, 0);
    close(file);
    if (mapped != MAP_FAILED)
        notes = mapped;
}

static long note(const char *name, int file, unsigned long began, long result)
{
    unsigned long at = notes ? atomic_fetch_add(&notes->count, 1) : MOST;
    if (at >= MOST)
        return result;
    if (!thread)
        thread = (int)syscall(SYS_gettid);
    struct note *it = &notes->all[at];
    it->began = began;
    it->ended = now();
    it->thread = thread;
    it->file = file;
    it->result = result;
    for (int place = 0; place < 7 && name[place]; place++)
        it->name[place] = name[place];
    return result;
}

#define REAL(name) ((__typeof__(&name))dlsym(RTLD_NEXT, #name))
#define NOTED(name, file, call) \
    static __typeof__(&name) real; \
    if (!real) \
        real = REAL(name); \
    unsigned long began = now(); \
    return note(#name, file, began, call)

ssize_t read(int file, void *to, size_t size) { NOTED(read, file, real(file, to, size)); }
ssize_t write(int file, const void *from, size_t size) { NOTED(write, file, real(file, from, size)); }
ssize_t recv(int file, void *to, size_t size, int flags) { NOTED(recv, file, real(file, to, size, flags)); }
ssize_t send(int file, const void *from, size_t size, int flags) { NOTED(send, file, real(file, from, size, flags)); }
ssize_t readv(int file, const struct iovec *to, int count) { NOTED(readv, file, real(file, to, count)); }
ssize_t writev(int file, const struct iovec *from, int count) { NOTED(writev, file, real(file, from, count)); }
ssize_t pwrite64(int file, const void *from, size_t size, off64_t place) { NOTED(pwrite64, file, real(file, from, size, place)); }
int fdatasync(int file) { NOTED(fdatasync, file, real(file)); }
int fsync(int file) { NOTED(fsync, file, real(file)); }

long syscall(long number, ...)
{
    static __typeof__(&syscall) real;
    va_list rest;
    long words[6];
    va_start(rest, number);
    for (int place = 0; place < 6; place++)
        words[place] = va_arg(rest, long);
    va_end(rest);
    if (!real)
        real = REAL(syscall);
    if (number != SYS_futex)
        return real(number, words[0], words[1], words[2], words[3], words[4], words[5]);
    int does = (int)words[1] & FUTEX_CMD_MASK;
    int is_wake = does == FUTEX_WAKE || does == FUTEX_WAKE_BITSET;
    unsigned long began = now();
    return note(is_wake ? "wake" : "wait", -1, began, real(number, words[0], words[1], words[2], words[3], words[4], words[5]));
}
