#define _DEFAULT_SOURCE /* mkstemp, sigaction */
#include "endings.h"

#include <signal.h>
#include <stdlib.h>
#include <unistd.h>

static char *volatile unfinished;

void keep_finished(void)
{
    unfinished = NULL;
}

void remove_unfinished(void)
{
    if (unfinished)
        unlink(unfinished);
    unfinished = NULL;
}

/* The process ends by the same signal that it was sent. */
static void stop(int number)
{
    remove_unfinished();
    signal(number, SIG_DFL);
    raise(number);
}

/* Whether the signal, left to itself, ends a process that could do something before. */
static int ends_process(int number)
{
    static const int others[] = {SIGCHLD, SIGCONT, SIGURG, SIGWINCH, SIGTSTP, SIGTTIN, SIGTTOU, SIGSTOP, SIGKILL};
    for (size_t i = 0; i < sizeof others / sizeof *others; i++)
        if (others[i] == number)
            return 0;
    return 1;
}

/* What is ignored stays so, as nohup has it, and so does another's handler. */
static void handle_signals(void)
{
    struct sigaction before, stopping = {.sa_handler = stop};
    sigemptyset(&stopping.sa_mask);
    for (int number = 1; number <= SIGRTMAX; number++)
        if (ends_process(number) && !sigaction(number, NULL, &before) && before.sa_handler == SIG_DFL)
            sigaction(number, &stopping, NULL);
}

int make_unfinished(char *pattern)
{
    sigset_t all, before;
    handle_signals();
    atexit(remove_unfinished);
    sigfillset(&all);
    sigprocmask(SIG_SETMASK, &all, &before); /* none comes between the file and its name */
    int file = mkstemp(pattern);
    if (file >= 0)
        unfinished = pattern;
    sigprocmask(SIG_SETMASK, &before, NULL);
    return file;
}
