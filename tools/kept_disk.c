/* Preloaded into a node, it keeps what the node's disk would have after a power cut: for each of side-a and side-b a file
 * in the folder KEPT, which gets at each sync that succeeds the pages that were written since the one before. Which pages
 * these are stands in the folder too, since the system knows it still once the program has ended.
 *
 * FAILS=record has one sync fail: the first one after 200 that makes the gate of a record durable, where that lies on an
 * earlier page than the record's end. FAILS=side has the first one fail that arms a side. The pages that it was to write
 * count as written from then on, as on Linux: the program reads them, and the disk hasn't got them. */
#define _GNU_SOURCE
#include <errno.h>
#include <fcntl.h>
#include <stdio.h>
#include <stdlib.h>
#include <string.h>
#include <sys/mman.h>
#include <sys/stat.h>
#include <sys/syscall.h>
#include <unistd.h>

enum { PAGE = 4096, PAGES = 65536, SYNCS_BEFORE = 200, GATE = 0xA5 };

struct side {
    const char *name;
    int kept;
    unsigned char *dirty; /* a byte a page */
};

static struct side sides[] = {{"side-a", -1, NULL}, {"side-b", -1, NULL}};
/* Where the last write put a single gate, else -1. */
static off_t last_gate = -1;

static int open_kept(const char *prefix, const char *name)
{
    char path[PAGE];
    snprintf(path, sizeof path, "%s/%s%s", getenv("KEPT"), prefix, name);
    return (int)syscall(SYS_openat, AT_FDCWD, path, O_RDWR | O_CREAT, 0644);
}

static struct side *side_of(int file)
{
    char link[64], path[PAGE];
    snprintf(link, sizeof link, "/proc/self/fd/%d", file);
    ssize_t length = readlink(link, path, sizeof path - 1);
    path[length > 0 ? length : 0] = 0;
    const char *base = strrchr(path, '/');
    for (struct side *side = sides; base && side < sides + 2; side++) {
        if (strcmp(base + 1, side->name) != 0)
            continue;
        if (!side->dirty) {
            int marks = open_kept("dirty-", side->name);
            side->kept = open_kept("", side->name);
            syscall(SYS_ftruncate, marks, PAGES);
            side->dirty = mmap(NULL, PAGES, PROT_READ | PROT_WRITE, MAP_SHARED, marks, 0);
        }
        return side;
    }
    return NULL;
}

static void mark(struct side *side, off_t from, off_t to)
{
    for (off_t page = from / PAGE; page <= to / PAGE && page < PAGES; page++)
        side->dirty[page] = 1;
}

ssize_t pwrite(int file, const void *bytes, size_t count, off_t place)
{
    ssize_t moved = syscall(SYS_pwrite64, file, bytes, count, place);
    struct side *side = side_of(file);
    if (side && moved > 0) {
        last_gate = count == 1 && *(const unsigned char *)bytes == GATE ? place : -1;
        mark(side, place, place + moved - 1);
    }
    return moved;
}

ssize_t pwrite64(int file, const void *bytes, size_t count, off_t place)
{
    return pwrite(file, bytes, count, place);
}

int ftruncate(int file, off_t length)
{
    int status = (int)syscall(SYS_ftruncate, file, length);
    struct side *side = side_of(file);
    if (side && status == 0)
        mark(side, length, length);
    return status;
}

int ftruncate64(int file, off_t length)
{
    return ftruncate(file, length);
}

/* Whether this sync is the one that fails. */
static int fails(off_t length)
{
    static long syncs;
    static int has_failed;
    const char *what = getenv("FAILS");
    syncs++;
    if (!what || !*what || has_failed || last_gate < 0)
        return 0;
    if (strcmp(what, "side") == 0)
        has_failed = last_gate == 0;
    else
        has_failed = syncs > SYNCS_BEFORE && last_gate > 0 && last_gate / PAGE != (length - 1) / PAGE;
    return has_failed;
}

static int sync_side(int file)
{
    struct side *side = side_of(file);
    if (!side)
        return (int)syscall(SYS_fdatasync, file);
    struct stat found;
    fstat(file, &found);
    int failing = fails(found.st_size);
    last_gate = -1;
    for (off_t page = 0; page < PAGES; page++) {
        char bytes[PAGE];
        if (!side->dirty[page])
            continue;
        side->dirty[page] = 0;
        ssize_t count = failing ? 0 : syscall(SYS_pread64, file, bytes, PAGE, page * PAGE);
        if (count > 0)
            syscall(SYS_pwrite64, side->kept, bytes, count, page * PAGE);
    }
    if (!failing)
        return (int)syscall(SYS_ftruncate, side->kept, found.st_size);
    errno = EIO;
    return -1;
}

int fdatasync(int file)
{
    return sync_side(file);
}

int fsync(int file)
{
    return sync_side(file);
}
