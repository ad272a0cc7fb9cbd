/* Runs programs for a script. It is small, because the peak memory of a process begins with that of the process
   that started it.

   For each request on standard input it runs a program, whose standard input is empty. A request is its length
   in 8 bytes, and then the program and its arguments, each ended by a zero byte. Standard output goes to the
   file `out` and standard error to `err`. The answer on standard output is four numbers of 8 bytes: the status
   as `wait` returns it, the peak memory in KiB, the processor time in microseconds, and 1 if the run was
   stopped after the number of seconds in the argument of this program. */
#define _GNU_SOURCE
#include <fcntl.h>
#include <signal.h>
#include <stdint.h>
#include <stdlib.h>
#include <string.h>
#include <sys/resource.h>
#include <sys/wait.h>
#include <unistd.h>

static volatile pid_t running;
static volatile int64_t stopped;

static void stop(int sign)
{
    (void)sign;
    stopped = 1;
    if (running > 0)
        kill(running, SIGKILL);
}

static int take(void *place, size_t size)
{
    char *at = place;
    while (size > 0) {
        ssize_t got = read(0, at, size);
        if (got <= 0)
            return 0;
        at += got;
        size -= (size_t)got;
    }
    return 1;
}

static void become(char **words)
{
    int in = open("/dev/null", O_RDONLY);
    int out = open("out", O_WRONLY | O_CREAT | O_TRUNC, 0644);
    int err = open("err", O_WRONLY | O_CREAT | O_TRUNC, 0644);
    if (in < 0 || out < 0 || err < 0 || dup2(in, 0) < 0 || dup2(out, 1) < 0 || dup2(err, 2) < 0)
        _exit(126);
    close(in);
    close(out);
    close(err);
    execvp(words[0], words);
    _exit(127);
}

int main(int count, char **arguments)
{
    unsigned seconds = count > 1 ? (unsigned)atoi(arguments[1]) : 20;
    struct sigaction action = {.sa_handler = stop};
    uint64_t size;
    sigaction(SIGALRM, &action, NULL);
    while (take(&size, sizeof size)) {
        char *text = malloc(size + 1), **words = malloc((size + 1) * sizeof *words);
        size_t many = 0;
        if (text == NULL || words == NULL || !take(text, size))
            return 1;
        for (size_t at = 0; at < size; at += strlen(text + at) + 1)
            words[many++] = text + at;
        words[many] = NULL;
        stopped = 0;
        running = fork();
        if (running == 0)
            become(words);
        if (running < 0)
            return 1;
        alarm(seconds);
        int status = 0;
        struct rusage usage;
        while (wait4(running, &status, 0, &usage) < 0)
            ;
        alarm(0);
        running = 0;
        free(words);
        free(text);
        int64_t micros = (usage.ru_utime.tv_sec + usage.ru_stime.tv_sec) * 1000000
            + usage.ru_utime.tv_usec + usage.ru_stime.tv_usec;
        int64_t answer[4] = {status, usage.ru_maxrss, micros, stopped};
        if (write(1, answer, sizeof answer) != sizeof answer)
            return 1;
    }
    return 0;
}
