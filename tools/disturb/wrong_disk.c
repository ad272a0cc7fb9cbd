/* Changes calls of the system, as if disk.rt, or the code that reads through it, had the bug that WRONG names,
   or as if the system gave another answer. It is loaded by LD_PRELOAD, before disturb.c, which records the
   changed calls. A run that never comes to a place where the bug would show ends with 125, unless UNMET is set. */
#define _GNU_SOURCE
#include <dlfcn.h>
#include <errno.h>
#include <fcntl.h>
#include <stdio.h>
#include <stdlib.h>
#include <string.h>
#include <sys/stat.h>
#include <unistd.h>

enum { MOST = 1 << 17 };
static int files[MOST];                         /* the descriptors that were opened, in order */
static int count;
static char last[4096];                         /* the path of the last file opened */
static struct { int file; size_t size; off_t offset; } reads[MOST];
static int asked, failed;
static int met;

static int is_wrong(const char *fault)
{
    const char *wrong = getenv("WRONG");
    int is_it = wrong && strcmp(wrong, fault) == 0;
    met |= is_it;
    return is_it;
}

__attribute__((destructor)) static void end(void)
{
    if (getenv("WRONG") && !met && !getenv("UNMET"))
        _exit(125);
}

int open(const char *path, int flags, ...)
{
    int (*next)(const char *, int, ...) = dlsym(RTLD_NEXT, "open");
    if (is_wrong("opened for writing too"))
        flags = (flags & ~O_ACCMODE) | O_RDWR;
    if (is_wrong("created where it is missing"))
        flags |= O_CREAT;
    if (is_wrong("left open for other programs"))
        flags &= ~O_CLOEXEC;
    if (is_wrong("opened twice"))
        next(path, flags, 0600);
    snprintf(last, sizeof last, "%s", path);
    return files[count++ % MOST] = next(path, flags, 0600);
}

int statx(int folder, const char *path, int flags, unsigned mask, struct statx *answer)
{
    int (*next)(int, const char *, int, unsigned, struct statx *) = dlsym(RTLD_NEXT, "statx");
    int status;
    if (*path && is_wrong("no look before opening")) {
        answer->stx_mode = S_IFREG;
        return 0;
    }
    if (*path && is_wrong("a link isn't followed"))
        flags |= AT_SYMLINK_NOFOLLOW;
    if (!*path && is_wrong("a second look by path"))
        status = next(AT_FDCWD, last, 0, mask, answer);
    else if (!*path && is_wrong("no second look"))
        status = 0;
    else
        status = next(folder, path, flags, mask, answer);
    if (status && is_wrong("a look behind the first that can't be opened"))
        next(folder, "w.par2", flags, mask, answer);
    if (is_wrong("a length modulo 2^32"))
        answer->stx_size &= 0xffffffff;
    if ((is_wrong("a length of 0 refused") && !answer->stx_size)
        || (is_wrong("a length above 2^44 refused") && answer->stx_size >> 44)
        || (is_wrong("another kind once it is open") && !*path))
        answer->stx_mode = S_IFDIR;
    if (is_wrong("another length by path") && *path)
        answer->stx_size += 7;
    if (is_wrong("a length of 2^63") && !*path)
        answer->stx_size = 1UL << 63;
    return status;
}

/* Makes a read, and keeps its arguments. */
static ssize_t ask(int file, void *place, size_t size, off_t offset)
{
    ssize_t (*next)(int, void *, size_t, off_t) = dlsym(RTLD_NEXT, "pread");
    if (asked < MOST) {
        reads[asked].file = file;
        reads[asked].size = size;
        reads[asked++].offset = offset;
    }
    return next(file, place, size, offset);
}

ssize_t pread(int file, void *place, size_t size, off_t offset)
{
    ssize_t given, more = 1;
    if (is_wrong("a file's number modulo 256"))
        for (int at = 256; at < count; at++)
            if (files[at] == file) {
                file = files[at % 256];
                break;
            }
    if (is_wrong("opened again to be read"))
        ((int (*)(const char *, int, ...))dlsym(RTLD_NEXT, "open"))(last, O_RDONLY | O_CLOEXEC);
    if (is_wrong("an offset modulo 2^32"))
        offset &= 0xffffffff;
    if (is_wrong("one byte a read") && size > 1)
        size = 1;
    if (is_wrong("a piece of half the size") && size >= 4096)
        size /= 2;
    if (is_wrong("each read made twice"))
        ask(file, place, size, offset);
    if (is_wrong("64 bytes read again") && size > 64)
        ask(file, place, 64, offset);
    if (is_wrong("all reads refused after one") && failed) {
        errno = EIO;
        return -1;
    }
    given = ask(file, place, size, offset);
    failed |= given < 0;
    if (given < 0 && (is_wrong("a failed read tried again")
                      || (errno == EINTR && is_wrong("an interrupted read tried again"))))
        given = ask(file, place, size, offset);
    if (given < 0 && errno == EINTR && is_wrong("an interrupted read taken for an early end"))
        given = 0;
    while (is_wrong("a failed read of a part forgotten") && given > 0 && (size_t)given < size && more > 0) {
        more = ask(file, (char *)place + given, size - given, offset + given);
        given += more > 0 ? more : 0;
    }
    if (given == 0 && is_wrong("zeros past an early end"))
        memset(place, 0, given = size);
    if (given == 0 && is_wrong("stale bytes past an early end"))
        given = size;
    return given;
}

int close(int file)
{
    int (*next)(int) = dlsym(RTLD_NEXT, "close");
    static char place[1 << 20];
    int first = 0, behind = is_wrong("all read again") ? asked : 0;
    for (; first < behind; first++)
        ask(reads[first].file, place, reads[first].size, reads[first].offset);
    asked = MOST;
    return is_wrong("never closed") ? 0 : next(file);
}
