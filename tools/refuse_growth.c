/* Preloaded into a test, it refuses growths and tells what came of each, in the file that GROWTHS_TOLD names.

   At each growth it makes a copy of the process, in which that growth is refused and no other one; the process itself goes
   on once the copy has ended. So one run refuses each growth once. A process with more than one thread can't be copied
   whole: it says "threads" and goes on. With REFUSED_GROWTH=N it makes no copy, and refuses the growth with that number,
   counted from 1 over all threads. What a copy writes goes to the file that GROWTHS_SAID names. */
#define _GNU_SOURCE
#include <dlfcn.h>
#include <errno.h>
#include <fcntl.h>
#include <signal.h>
#include <stdio.h>
#include <stdlib.h>
#include <string.h>
#include <sys/wait.h>
#include <unistd.h>

enum { SECONDS = 60, SAID = 4096 };

static long growths = 0;
static int is_copy = 0;
static int has_threads = 0;

static void tell(const char *text)
{
    int told = open(getenv("GROWTHS_TOLD"), O_WRONLY | O_APPEND | O_CREAT | O_CLOEXEC, 0600);
    ssize_t written = write(told, text, strlen(text));
    (void)written;
    close(told);
}

/* The field of /proc/self/stat that counts threads is the 18th behind the name, which ends with a bracket. */
static int threads(void)
{
    static char stat[1024];
    int file = open("/proc/self/stat", O_RDONLY | O_CLOEXEC);
    ssize_t length = read(file, stat, sizeof stat - 1);
    close(file);
    stat[length > 0 ? length : 0] = 0;
    const char *at = strrchr(stat, ')');
    for (int field = 0; at && field < 18; field++)
        at = strchr(at + 1, ' ');
    return at ? atoi(at) : 0;
}

/* The copy's line: the growth's number, how the copy ended, as a shell has it, and the end of what it wrote. */
static void tell_end(int status)
{
    static char said[SAID + 1], line[SAID + 64];
    int file = open(getenv("GROWTHS_SAID"), O_RDONLY | O_CLOEXEC);
    off_t length = lseek(file, 0, SEEK_END);
    ssize_t count = pread(file, said, SAID, length > SAID ? length - SAID : 0);
    close(file);
    said[count > 0 ? count : 0] = 0;
    for (char *at = said; *at; at++)
        if (*at == '\n')
            *at = ' ';
    int ended = WIFSIGNALED(status) ? 128 + WTERMSIG(status) : WEXITSTATUS(status);
    snprintf(line, sizeof line, "%ld %d %s\n", growths, ended, said);
    tell(line);
}

/* Whether this process is the copy whose growth is refused. */
static int refused_in_a_copy(void)
{
    pid_t copy = fork();
    if (copy == 0) {
        int said = open(getenv("GROWTHS_SAID"), O_WRONLY | O_CREAT | O_TRUNC, 0600);
        dup2(said, 1);
        dup2(said, 2);
        close(said);
        is_copy = 1;
        alarm(SECONDS);
        return 1;
    }
    int status = 0;
    while (copy > 0 && waitpid(copy, &status, 0) < 0 && errno == EINTR)
        ;
    tell_end(copy > 0 ? status : SIGKILL);
    return 0;
}

static int refuses(void)
{
    const char *number = getenv("REFUSED_GROWTH");
    long growth = __atomic_add_fetch(&growths, 1, __ATOMIC_SEQ_CST);
    if (number) {
        if (growth != atol(number))
            return 0;
        tell("refused\n");
        return 1;
    }
    if (is_copy || has_threads)
        return 0;
    if (threads() > 1) {
        has_threads = 1;
        tell("threads\n");
        return 0;
    }
    return refused_in_a_copy();
}

void *malloc(size_t size)
{
    static void *(*next)(size_t);
    if (!next)
        next = (void *(*)(size_t))dlsym(RTLD_NEXT, "malloc");
    return refuses() ? NULL : next(size);
}

void *realloc(void *block, size_t size)
{
    static void *(*next)(void *, size_t);
    if (!next)
        next = (void *(*)(void *, size_t))dlsym(RTLD_NEXT, "realloc");
    return refuses() ? NULL : next(block, size);
}
