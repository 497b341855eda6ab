#define _DEFAULT_SOURCE /* clock_gettime, isatty, nanosleep */
#include "progress.h"

#include "print.h"

#include <inttypes.h>
#include <pthread.h>
#include <signal.h>
#include <stdio.h>
#include <string.h>
#include <time.h>
#include <unistd.h>

enum kind { NOTHING, READING, WRITING, CALLING, KINDS };

enum { MIB = 1 << 20, MOST_NAME = 40, MOST_LINE = 80 };

/* What is going on. The thread that shows it reads this too, so it is held by the lock. */
static struct {
    enum kind kind;
    const char *doing;
    char name[MOST_NAME + 1];
    uint64_t bytes, done;
    double began;
} step;

static pthread_mutex_t lock = PTHREAD_MUTEX_INITIALIZER;
static int is_shown;
static double began;
static uint64_t totals[KINDS];

static double seconds(void)
{
    struct timespec now;
    clock_gettime(CLOCK_MONOTONIC, &now);
    return (double)now.tv_sec + (double)now.tv_nsec / 1e9;
}

void begin_work(void)
{
    began = seconds();
}

static void clear_line(void)
{
    if (is_shown)
        fputs("\r\033[K", stderr);
    is_shown = 0;
}

static void show_line(void)
{
    char line[MOST_LINE];
    int length = snprintf(line, sizeof line, "%s %s: ", step.doing, step.name);
    char *end = line + length;
    size_t room = sizeof line - (size_t)length;
    if (step.bytes)
        snprintf(end, room, "%" PRIu64 " %%", step.done < step.bytes ? 100 * step.done / step.bytes : 100);
    else if (step.done)
        snprintf(end, room, "%" PRIu64 " MiB", step.done / MIB);
    else
        snprintf(end, room, "%d s", (int)(seconds() - step.began));
    make_printable(line);
    clear_line();
    fputs(line, stderr);
    is_shown = 1;
}

static void *show_progress(void *unused)
{
    const struct timespec half = {0, 500000000};
    for (;;) {
        nanosleep(&half, NULL);
        pthread_mutex_lock(&lock);
        if (step.kind && seconds() - began >= 1)
            show_line();
        pthread_mutex_unlock(&lock);
    }
    return unused;
}

/* A thread of its own, since the library's call leaves no other; signals stay the main one's. */
static void begin_showing(void)
{
    static int has_begun;
    pthread_t thread;
    sigset_t all, before;
    if (has_begun || !isatty(STDERR_FILENO))
        return;
    has_begun = 1;
    sigfillset(&all);
    pthread_sigmask(SIG_SETMASK, &all, &before);
    if (!pthread_create(&thread, NULL, show_progress, NULL))
        pthread_detach(thread);
    pthread_sigmask(SIG_SETMASK, &before, NULL);
}

static void begin_step(enum kind kind, const char *doing, const char *name, uint64_t bytes)
{
    begin_showing();
    pthread_mutex_lock(&lock);
    step.kind = kind;
    step.doing = doing;
    snprintf(step.name, sizeof step.name, "%s", name);
    step.bytes = bytes;
    step.done = 0;
    step.began = seconds();
    pthread_mutex_unlock(&lock);
}

/* The last part of a path, which is what fits on a line. */
static const char *last_part(const char *path)
{
    const char *slash = strrchr(path, '/');
    return slash && slash[1] ? slash + 1 : path;
}

void begin_reading(const char *name, uint64_t bytes)
{
    begin_step(READING, "reading", last_part(name), bytes);
}

void begin_writing(const char *name, uint64_t bytes)
{
    begin_step(WRITING, "writing", last_part(name), bytes);
}

void begin_call(const char *doing, uint64_t bytes)
{
    char size[MOST_NAME];
    snprintf(size, sizeof size, "%" PRIu64 " MiB", (bytes + MIB / 2) / MIB);
    begin_step(CALLING, doing, size, 0);
}

void count_bytes(uint64_t bytes)
{
    pthread_mutex_lock(&lock);
    step.done += bytes;
    totals[step.kind] += bytes;
    pthread_mutex_unlock(&lock);
}

void end_step(void)
{
    pthread_mutex_lock(&lock);
    step.kind = NOTHING;
    clear_line();
    pthread_mutex_unlock(&lock);
}

void end_work(void)
{
    double spent = seconds() - began;
    if (spent > 1 && isatty(STDERR_FILENO))
        fprintf(stderr, "%.1f s, %" PRIu64 " bytes read, %" PRIu64 " written\n", spent, totals[READING],
                totals[WRITING]);
}
