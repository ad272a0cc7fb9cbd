/* Lets parv run with more files than the system allows a process to hold open. It is loaded by LD_PRELOAD. It
   keeps only the name of each file, unless the name ends in .par2 (in letters of either case). It opens the
   file again for each read, and asks for its kind and length by its name. This time, and the memory for the
   names, are part of the measured numbers. If PACKET_FILES_TOO is set, it does so for packet files too.

       gcc -shared -fPIC -O2 -o /tmp/many_open.so tools/bench/many_open.c
       LD_PRELOAD=/tmp/many_open.so parv verify FILES */
#define _GNU_SOURCE
#include <errno.h>
#include <fcntl.h>
#include <stdarg.h>
#include <stdlib.h>
#include <string.h>
#include <strings.h>
#include <sys/stat.h>
#include <sys/syscall.h>
#include <unistd.h>

enum { FIRST = 1 << 30, MOST = 1 << 17 };       /* the first descriptor that it returns, and how many there are */
static char *names[MOST];
static int count;

static int is_packet_file(const char *name)
{
    size_t length = strlen(name);
    return !getenv("PACKET_FILES_TOO") && length >= 5 && strcasecmp(name + length - 5, ".par2") == 0;
}

int open(const char *name, int flags, ...)
{
    va_list rest;
    va_start(rest, flags);
    int mode = flags & O_CREAT ? va_arg(rest, int) : 0;
    va_end(rest);
    int file = syscall(SYS_openat, AT_FDCWD, name, flags, mode);
    if (file < 0 || (flags & O_ACCMODE) != O_RDONLY || is_packet_file(name))
        return file;
    syscall(SYS_close, file);
    if (count == MOST) {
        errno = EMFILE;
        return -1;
    }
    names[count] = strdup(name);
    return names[count] ? FIRST + count++ : -1;
}

int close(int file)
{
    return file < FIRST ? syscall(SYS_close, file) : 0;
}

ssize_t pread(int file, void *to, size_t size, off_t at)
{
    if (file < FIRST)
        return syscall(SYS_pread64, file, to, size, at);
    int again = syscall(SYS_openat, AT_FDCWD, names[file - FIRST], O_RDONLY);
    if (again < 0)
        return -1;
    ssize_t got = syscall(SYS_pread64, again, to, size, at);
    syscall(SYS_close, again);
    return got;
}

int statx(int file, const char *restrict name, int flags, unsigned mask, struct statx *restrict to)
{
    if (file < FIRST)
        return syscall(SYS_statx, file, name, flags, mask, to);
    return syscall(SYS_statx, AT_FDCWD, names[file - FIRST], flags & ~AT_EMPTY_PATH, mask, to);
}
