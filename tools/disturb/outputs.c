/* Records what a run writes. It is loaded by LD_PRELOAD. The file that OUTPUTS names gets a line for each
   write: the descriptor, the number of bytes given, and the number of bytes taken (-1 if the write failed).

   WRONG names a bug that a check must notice:

   first      some text comes before everything else on standard output
   last       some text comes after everything else
   twice      each write is made twice
   half       each write is made in two halves
   elsewhere  each write is also made to descriptor 3
   silent     no write is made, and each one returns as if it had been */
#define _GNU_SOURCE
#include <dlfcn.h>
#include <fcntl.h>
#include <stdio.h>
#include <stdlib.h>
#include <string.h>
#include <sys/syscall.h>
#include <unistd.h>

static int lines = -1;
static const char *wrong = "";

static int is_wrong(const char *name)
{
    return strcmp(wrong, name) == 0;
}

static ssize_t told(int file, const void *place, size_t size)
{
    static ssize_t (*next)(int, const void *, size_t);
    char line[80];
    ssize_t taken;
    if (!next)
        *(void **)&next = dlsym(RTLD_NEXT, "write");
    taken = next(file, place, size);
    if (lines >= 0) {
        int length = snprintf(line, sizeof line, "%d %zu %zd\n", file, size, taken);
        if (syscall(SYS_write, lines, line, length) != length)
            abort();
    }
    return taken;
}

ssize_t write(int file, const void *place, size_t size)
{
    if (file == 1 && is_wrong("silent"))
        return size;
    if (file == 1 && is_wrong("twice"))
        told(file, place, size);
    if (file == 1 && is_wrong("elsewhere"))
        told(3, place, size);
    if (file == 1 && is_wrong("half") && size > 1)
        return told(file, place, size / 2);
    return told(file, place, size);
}

ssize_t __write(int file, const void *place, size_t size)
{
    return write(file, place, size);
}

__attribute__((constructor)) static void start(void)
{
    if (getenv("WRONG"))
        wrong = getenv("WRONG");
    if (getenv("OUTPUTS"))
        lines = syscall(SYS_openat, AT_FDCWD, getenv("OUTPUTS"), O_WRONLY | O_CREAT | O_TRUNC | O_CLOEXEC, 0644);
    if (is_wrong("first"))
        told(1, "result complete\n", 16);
}

__attribute__((destructor)) static void end(void)
{
    if (is_wrong("last"))
        told(1, "result complete\n", 16);
}
