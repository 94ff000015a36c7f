/* fitskhela-launch PROGRAM [ARGUMENT ..]
 *
 * Executes PROGRAM with the given arguments, followed by `--signal-descriptor N`. N is a descriptor
 * (signalfd(2)) at which the program reads SIGTERM, SIGINT and SIGHUP, which are blocked. SIGPIPE and
 * SIGXFSZ are ignored, so a write to a closed pipe, or past a limit of a file's size, is only an error.
 *
 *     fitskhela-launch sv run server.toml --control /run/fitskhela/control
 *
 * It starts no process: the program has the number that this one had, also as process 1 of a container.
 * If it cannot execute PROGRAM, it writes a line to standard error, and exits with status 127. */
#define _GNU_SOURCE
#include <errno.h>
#include <fcntl.h>
#include <signal.h>
#include <stdio.h>
#include <stdlib.h>
#include <string.h>
#include <sys/signalfd.h>
#include <unistd.h>

enum { CANNOT_LAUNCH = 127 };

static int failed(const char *what)
{
    fprintf(stderr, "fitskhela-launch: %s: %s\n", what, strerror(errno));
    return CANNOT_LAUNCH;
}

int main(int count, char **words)
{
    if (count < 2) {
        fputs("usage: fitskhela-launch PROGRAM [ARGUMENT ..]\n", stderr);
        return CANNOT_LAUNCH;
    }
    sigset_t signals;
    sigemptyset(&signals);
    sigaddset(&signals, SIGTERM);
    sigaddset(&signals, SIGINT);
    sigaddset(&signals, SIGHUP);
    /* Block first: a signal that comes before the descriptor waits, and is read there. */
    if (sigprocmask(SIG_BLOCK, &signals, NULL) != 0)
        return failed("sigprocmask");
    if (signal(SIGPIPE, SIG_IGN) == SIG_ERR || signal(SIGXFSZ, SIG_IGN) == SIG_ERR)
        return failed("signal");
    int descriptor = signalfd(-1, &signals, SFD_NONBLOCK);
    if (descriptor >= 0 && descriptor <= STDERR_FILENO) /* a standard stream is closed */
        descriptor = fcntl(descriptor, F_DUPFD, STDERR_FILENO + 1);
    if (descriptor < 0)
        return failed("signalfd");
    char number[12];
    snprintf(number, sizeof number, "%d", descriptor);
    char **line = calloc((size_t)count + 2, sizeof *line);
    if (line == NULL)
        return failed("calloc");
    memcpy(line, words + 1, ((size_t)count - 1) * sizeof *line);
    line[count - 1] = "--signal-descriptor";
    line[count] = number;
    execvp(line[0], line);
    return failed(line[0]);
}
