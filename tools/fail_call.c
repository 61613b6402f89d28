/* Preloaded into a program, it has the disk call with the number in FAILED_CALL fail, counted from 1 over all threads; or the
 * read or write of several bytes with the number in SHORT_CALL move a single one. It says so on standard error. Disk calls
 * are pread, pwrite, ftruncate, fdatasync and fsync. */
#define _GNU_SOURCE
#include <errno.h>
#include <stdlib.h>
#include <sys/syscall.h>
#include <unistd.h>

static long number_in(const char *name)
{
    const char *number = getenv(name);
    return number ? atol(number) : 0;
}

static void say(const char *said, size_t length)
{
    ssize_t written = write(STDERR_FILENO, said, length);
    (void)written;
}

static int fails(void)
{
    static long calls = 0;
    if (__atomic_add_fetch(&calls, 1, __ATOMIC_SEQ_CST) != number_in("FAILED_CALL"))
        return 0;
    say("a call fails\n", 13);
    errno = EIO;
    return 1;
}

/* How many of these bytes a call moves. */
static size_t moved(size_t count)
{
    static long moves = 0;
    if (count < 2 || __atomic_add_fetch(&moves, 1, __ATOMIC_SEQ_CST) != number_in("SHORT_CALL"))
        return count;
    say("a call is short\n", 16);
    return 1;
}

ssize_t pread(int file, void *bytes, size_t count, off_t place)
{
    return fails() ? -1 : syscall(SYS_pread64, file, bytes, moved(count), place);
}

ssize_t pwrite(int file, const void *bytes, size_t count, off_t place)
{
    return fails() ? -1 : syscall(SYS_pwrite64, file, bytes, moved(count), place);
}

int ftruncate(int file, off_t length)
{
    return fails() ? -1 : (int)syscall(SYS_ftruncate, file, length);
}

int fdatasync(int file)
{
    return fails() ? -1 : (int)syscall(SYS_fdatasync, file);
}

int fsync(int file)
{
    return fails() ? -1 : (int)syscall(SYS_fsync, file);
}
