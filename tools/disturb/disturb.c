/* Disturbs a program and records what it does. It is loaded by LD_PRELOAD, and these variables say what to
   disturb. Numbers count from 1.

   REFUSE=N         refuses the allocation number N
   REFUSE_LATER=N   refuses the allocation number N and all later ones
   FAIL_OPEN=N      fails the opening number N
   FAIL_STAT=N      fails the question number N about the kind and length of a file
   FAIL_READ=N      fails the read number N
   CUT_READ=N       ends the file at the read number N
   FAIL_WRITE=N     fails the write number N to standard output
   EMPTY_WRITE=N    takes no byte at the write number N to standard output
   ERROR=N          the error number of an opening, question, read or write that fails (EIO if it isn't set)
   SHORT=N          no read, and no write to standard output or standard error, moves more than N bytes

   When the program ends, the file that REPORT names gets one line of eight numbers: 1 if the disturbance
   happened, or 0 (if an allocation is to be refused, 1 if that happened); the allocations that were not freed;
   the files that were not closed; the number of allocations; the reads after the one that failed or ended, and
   the reads and writes after the write that failed or took nothing; the writes to standard output; the openings
   for more than reading; and the reads.

   The file that CALLS names gets a line for each call on a file, as it is made: `statx PATH FLAGS` or `statx
   NUMBER FLAGS`, `open PATH FLAGS NUMBER`, `pread NUMBER OFFSET SIZE GIVEN` and `close NUMBER`. NUMBER is that
   of the opening, from 1 (0 if it failed). FLAGS are hexadecimal. SIZE is the number of bytes requested, and
   GIVEN the number returned (-1 if the read failed). */
#define _GNU_SOURCE
#include <dlfcn.h>
#include <errno.h>
#include <fcntl.h>
#include <stdarg.h>
#include <stdio.h>
#include <stdlib.h>
#include <sys/stat.h>
#include <sys/syscall.h>
#include <unistd.h>

static long refused, later, unopened, unknown, failing, cut, full, empty, most; /* N of each variable, or 0 */
static int error;                               /* the error number of a failure */
static long allocations, opens, stats, reads, writes, done; /* counts; whether the disturbance happened */
static long live, opened;                       /* allocations not yet freed, files not yet closed */
static long changing;                           /* openings for more than reading */
static long reads_before;                       /* the reads before the write that was disturbed */
static char early[4096];                        /* memory for dlsym, which itself allocates a little */
static int calls = -1;                          /* the file that CALLS names */
static long numbers[1 << 17];                   /* for each descriptor, the number of its opening */

static void *next_of(const char *name)
{
    return dlsym(RTLD_NEXT, name);
}

/* Writes a line about a call to the file of CALLS, without any of the functions that are recorded here. */
__attribute__((format(printf, 1, 2))) static void tell(const char *form, ...)
{
    char line[8192];
    va_list rest;
    int size, error_before = errno;
    if (calls < 0)
        return;
    va_start(rest, form);
    size = vsnprintf(line, sizeof line, form, rest);
    va_end(rest);
    if (size >= (int)sizeof line || syscall(SYS_write, calls, line, size) != size)
        abort();
    errno = error_before;
}

/* Returns the place for the number of a file's opening. */
static long *number_of(int file)
{
    static long none;
    return file >= 0 && file < 1 << 17 ? &numbers[file] : &none;
}

static int is_refused(void)
{
    int is_met = ++allocations == refused || (later && allocations >= later);
    if (is_met) {
        done = 1;
        errno = ENOMEM;
    }
    return is_met;
}

/* Notes that the disturbance happened, unless the disturbance is a refused allocation. */
static void met(void)
{
    done |= !refused && !later;
}

static void *counted(void *place)
{
    live += place != NULL;
    return place;
}

void *malloc(size_t size)
{
    static void *(*next)(size_t);
    if (!next)
        next = next_of("malloc");
    return is_refused() ? NULL : counted(next(size));
}

void *calloc(size_t count, size_t size)
{
    static void *(*next)(size_t, size_t);
    static size_t used;
    static int looking;
    if (!next) {
        if (looking) {
            void *place = early + used;
            used += (count * size + 15) / 16 * 16;
            return used <= sizeof early ? place : NULL;
        }
        looking = 1;
        next = next_of("calloc");
    }
    return is_refused() ? NULL : counted(next(count, size));
}

void *realloc(void *old, size_t size)
{
    static void *(*next)(void *, size_t);
    void *place;
    if (!next)
        next = next_of("realloc");
    if (is_refused())
        return NULL;
    place = next(old, size);
    live += !old && place;
    live -= old && !size && !place; /* freed */
    return place;
}

int posix_memalign(void **place, size_t alignment, size_t size)
{
    static int (*next)(void **, size_t, size_t);
    int status;
    if (!next)
        next = next_of("posix_memalign");
    if (is_refused())
        return ENOMEM;
    status = next(place, alignment, size);
    live += status == 0;
    return status;
}

void *aligned_alloc(size_t alignment, size_t size)
{
    static void *(*next)(size_t, size_t);
    if (!next)
        next = next_of("aligned_alloc");
    return is_refused() ? NULL : counted(next(alignment, size));
}

void free(void *place)
{
    static void (*next)(void *);
    if (!place || ((char *)place >= early && (char *)place < early + sizeof early))
        return;
    if (!next)
        next = next_of("free");
    live--;
    next(place);
}

int open(const char *path, int flags, ...)
{
    static int (*next)(const char *, int, ...);
    va_list rest;
    int mode, file;
    if (!next)
        next = next_of("open");
    va_start(rest, flags);
    mode = flags & (O_CREAT | O_TMPFILE) ? va_arg(rest, int) : 0;
    va_end(rest);
    if (++opens == unopened) {
        met();
        tell("open %s %x 0\n", path, flags);
        errno = error;
        return -1;
    }
    file = next(path, flags, mode);
    opened += file >= 0;
    changing += (flags & (O_ACCMODE | O_CREAT | O_TRUNC)) != O_RDONLY;
    if (file >= 0)
        *number_of(file) = opens;
    tell("open %s %x %ld\n", path, flags, file < 0 ? 0 : opens);
    return file;
}

int statx(int folder, const char *path, int flags, unsigned mask, struct statx *answer)
{
    static int (*next)(int, const char *, int, unsigned, struct statx *);
    if (!next)
        next = next_of("statx");
    if (*path)
        tell("statx %s %x\n", path, flags);
    else
        tell("statx %ld %x\n", *number_of(folder), flags);
    if (++stats == unknown) {
        met();
        errno = error;
        return -1;
    }
    return next(folder, path, flags, mask, answer);
}

int close(int file)
{
    static int (*next)(int);
    int status;
    if (!next)
        next = next_of("close");
    tell("close %ld\n", *number_of(file));
    status = next(file);
    opened -= status == 0;
    return status;
}

/* Makes a read, or disturbs it, and returns what the program gets. */
static ssize_t give(int file, void *place, size_t size, off_t offset)
{
    static ssize_t (*next)(int, void *, size_t, off_t);
    if (!next)
        next = next_of("pread");
    reads++;
    if (most && size > (size_t)most) {
        met();
        size = most;
    }
    if (reads == failing) {
        met();
        errno = error;
        return -1;
    }
    if (reads == cut) {
        met();
        return 0;
    }
    return next(file, place, size, offset);
}

ssize_t pread(int file, void *place, size_t size, off_t offset)
{
    ssize_t given = give(file, place, size, offset);
    tell("pread %ld %lu %zu %zd\n", *number_of(file), (unsigned long)offset, size, given);
    return given;
}

ssize_t write(int file, const void *place, size_t size)
{
    static ssize_t (*next)(int, const void *, size_t);
    if (!next)
        next = next_of("write");
    if (file == 1) {
        writes++;
        if (writes == full) {
            met();
            reads_before = reads;
            errno = error;
            return -1;
        }
        if (writes == empty) {
            met();
            reads_before = reads;
            return 0;
        }
    }
    if ((file == 1 || file == 2) && most && size > (size_t)most) {
        met();
        size = most;
    }
    return next(file, place, size);
}

ssize_t __write(int file, const void *place, size_t size)
{
    return write(file, place, size);
}

static long number_in(const char *name)
{
    const char *text = getenv(name);
    return text ? atol(text) : 0;
}

__attribute__((constructor)) static void start(void)
{
    refused = number_in("REFUSE");
    later = number_in("REFUSE_LATER");
    unopened = number_in("FAIL_OPEN");
    unknown = number_in("FAIL_STAT");
    failing = number_in("FAIL_READ");
    error = getenv("ERROR") ? number_in("ERROR") : EIO;
    cut = number_in("CUT_READ");
    full = number_in("FAIL_WRITE");
    empty = number_in("EMPTY_WRITE");
    most = number_in("SHORT");
    if (getenv("CALLS"))
        calls = syscall(SYS_openat, AT_FDCWD, getenv("CALLS"), O_WRONLY | O_CREAT | O_TRUNC | O_CLOEXEC, 0644);
    allocations = opens = stats = reads = writes = done = live = opened = changing = 0;
}

__attribute__((destructor)) static void end(void)
{
    long left = live, unclosed = opened, changed = changing, taken = allocations;
    long disturbed = failing ? failing : cut;
    long behind = disturbed && reads > disturbed ? reads - disturbed : 0;
    long unwritten = full ? full : empty;
    const char *name = getenv("REPORT");
    FILE *file;
    if (unwritten && writes >= unwritten)
        behind += writes - unwritten + reads - reads_before;
    refused = later = 0;
    calls = -1;
    if (name && (file = fopen(name, "w"))) {
        fprintf(file, "%ld %ld %ld %ld %ld %ld %ld %ld\n", done, left, unclosed, taken, behind, writes,
                changed, reads);
        fclose(file);
    }
}
