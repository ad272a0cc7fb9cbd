/* Runs a program and counts how often it enters each of some functions. It puts a breakpoint at each address.
   At each stop it runs the instruction that was there by itself, and goes on.

   usage: entries COUNTS NAME=ADDRESS[,ADDRESS..].. -- PROGRAM WORD..

   An ADDRESS is hexadecimal, as `nm` shows it for the program, wherever the system loads that. The file COUNTS
   gets a line for each NAME: how often its addresses were entered. The exit status is that of the program, 124
   after ten minutes on the clock, or 125, with a line on standard error, if something else failed. */
#define _GNU_SOURCE
#include <errno.h>
#include <stdio.h>
#include <stdlib.h>
#include <string.h>
#include <sys/personality.h>
#include <sys/ptrace.h>
#include <sys/user.h>
#include <sys/wait.h>
#include <signal.h>
#include <unistd.h>

enum { MOST = 64 };
static struct { unsigned long at; long before; int name; } places[MOST];
static struct { char *text; long count; } names[MOST];
static int place_count, name_count;
static pid_t child;

static void fail(const char *what)
{
    fprintf(stderr, "entries: %s: %s\n", what, strerror(errno));
    if (child > 0)
        kill(child, SIGKILL);
    exit(125);
}

static void late(int number)
{
    (void)number;
    kill(child, SIGKILL);
    _exit(124);
}

static long peek(unsigned long at)
{
    errno = 0;
    long word = ptrace(PTRACE_PEEKTEXT, child, at, 0);
    if (errno)
        fail("a word can't be read");
    return word;
}

static void poke(unsigned long at, long word)
{
    if (ptrace(PTRACE_POKETEXT, child, at, word))
        fail("a word can't be written");
}

/* Returns the word with a breakpoint in its lowest byte. */
static long stopping(long word)
{
    return (word & ~0xffL) | 0xcc;
}

/* Returns where the program is loaded: the least address at which its file is mapped. */
static unsigned long base_of(const char *program)
{
    char path[64], line[4096 + 128], whole[4096];
    unsigned long base = 0, from;
    FILE *maps;
    if (!realpath(program, whole))
        fail(program);
    snprintf(path, sizeof path, "/proc/%d/maps", child);
    if (!(maps = fopen(path, "r")))
        fail(path);
    while (!base && fgets(line, sizeof line, maps))
        if (strstr(line, whole) && sscanf(line, "%lx-", &from) == 1)
            base = from;
    fclose(maps);
    if (!base)
        fail("the program is mapped nowhere");
    return base;
}

static void read_places(char **words, int count)
{
    for (int i = 0; i < count; i++) {
        char *at = strchr(words[i], '=');
        if (!at || name_count == MOST)
            fail(words[i]);
        *at++ = 0;
        names[name_count].text = words[i];
        for (char *one = strtok(at, ","); one; one = strtok(NULL, ",")) {
            if (place_count == MOST)
                fail("too many places");
            places[place_count].at = strtoul(one, NULL, 16);
            places[place_count++].name = name_count;
        }
        name_count++;
    }
}

/* Runs the program on to its next stop, with this signal, and returns how it stopped. */
static int go_on(enum __ptrace_request how, long signal)
{
    int status;
    if (ptrace(how, child, 0, signal) || waitpid(child, &status, 0) != child)
        fail("it doesn't go on");
    return status;
}

/* Counts the address at which the program stopped, if it is one of them, and runs the instruction that was there. */
static int passes_place(int *status)
{
    struct user_regs_struct now;
    if (ptrace(PTRACE_GETREGS, child, 0, &now))
        fail("no registers");
    for (int i = 0; i < place_count; i++) {
        if (now.rip - 1 != places[i].at)
            continue;
        names[places[i].name].count++;
        now.rip--;
        poke(places[i].at, places[i].before);
        if (ptrace(PTRACE_SETREGS, child, 0, &now))
            fail("no registers");
        *status = go_on(PTRACE_SINGLESTEP, 0);
        if (WIFSTOPPED(*status))
            poke(places[i].at, stopping(places[i].before));
        return 1;
    }
    return 0;
}

int main(int count, char **words)
{
    int split = 2, status;
    unsigned long base;
    FILE *counts;
    while (split < count && strcmp(words[split], "--"))
        split++;
    if (split + 1 >= count) {
        errno = EINVAL;
        fail("usage: entries COUNTS NAME=ADDRESS[,ADDRESS..].. -- PROGRAM WORD..");
    }
    read_places(words + 2, split - 2);
    if ((child = fork()) == 0) {
        ptrace(PTRACE_TRACEME, 0, 0, 0);
        execv(words[split + 1], words + split + 1);
        _exit(125);
    }
    signal(SIGALRM, late);
    alarm(600);
    if (child < 0 || waitpid(child, &status, 0) != child || !WIFSTOPPED(status))
        fail(words[split + 1]);
    ptrace(PTRACE_SETOPTIONS, child, 0, PTRACE_O_EXITKILL);
    base = base_of(words[split + 1]);
    for (int i = 0; i < place_count; i++) {
        places[i].at += base;
        places[i].before = peek(places[i].at);
        poke(places[i].at, stopping(places[i].before));
    }
    status = go_on(PTRACE_CONT, 0);
    while (WIFSTOPPED(status)) {
        int signal = WSTOPSIG(status), after;
        if (signal != SIGTRAP) {
            status = go_on(PTRACE_CONT, signal);
            continue;
        }
        after = status;
        if (!passes_place(&after))
            status = go_on(PTRACE_CONT, signal);
        else if (!WIFSTOPPED(after))
            status = after;
        else
            status = go_on(PTRACE_CONT, WSTOPSIG(after) == SIGTRAP ? 0 : WSTOPSIG(after));
    }
    if (!(counts = fopen(words[1], "w")))
        fail(words[1]);
    for (int i = 0; i < name_count; i++)
        fprintf(counts, "%s %ld\n", names[i].text, names[i].count);
    if (fclose(counts))
        fail(words[1]);
    return WIFEXITED(status) ? WEXITSTATUS(status) : 125;
}
