#define _DEFAULT_SOURCE /* ftruncate, fsync, pwrite */
#include "output.h"

#include "endings.h"
#include "fail.h"
#include "files.h"
#include "print.h"
#include "progress.h"
#include "target.h"
#include "text.h"

#include <errno.h>
#include <fcntl.h>
#include <signal.h>
#include <stdio.h>
#include <string.h>
#include <sys/mman.h>
#include <unistd.h>

static struct target target;

/* The new file, beside the one that it replaces. */
static struct {
    char *path; /* NULL while there is none */
    int file;
    struct bytes pages;
} made;

static void cant_write(void)
{
    fail("%s: can't be written: %s", target.path, strerror(errno));
}

void begin_output(const char *path)
{
    signal(SIGXFSZ, SIG_IGN); /* a file over the size limit is an error like any other */
    if (find_target(&target, path))
        cant_write();
    if (target.standard == STDOUT_FILENO)
        answer_on(stderr);
}

int is_on_standard_error(void)
{
    return target.standard == STDERR_FILENO;
}

static void make_file(void)
{
    const char *name = strrchr(target.file, '/');
    struct text beside = {NULL, 0};
    say(&beside, "%.*s.runnelpin-XXXXXX", name ? (int)(name + 1 - target.file) : 0, target.file);
    made.path = beside.at;
    made.file = make_unfinished(made.path);
    if (made.file < 0)
        fail("%s: can't create a file in its folder: %s", target.path, strerror(errno));
}

static struct sigaction before_losing;

/* A page of the new file can't be had: the disk is full, or broken. The file system tells which when it is asked. */
static void lose_page(int number, siginfo_t *about, void *unused)
{
    uintptr_t at = (uintptr_t)about->si_addr - (uintptr_t)made.pages.at;
    (void)unused;
    if (about->si_code > 0 && at < made.pages.length) {
        if (pwrite(made.file, "", 1, (off_t)at) > 0)
            errno = EIO;
        cant_write();
    }
    sigaction(number, &before_losing, NULL); /* it is another's */
    raise(number);
}

struct bytes output_room(uint64_t length)
{
    struct sigaction losing = {.sa_sigaction = lose_page, .sa_flags = SA_SIGINFO};
    if (!target.file || !length)
        return zeros(length);
    make_file();
    if (ftruncate(made.file, (off_t)length))
        cant_write();
    void *at = mmap(NULL, length, PROT_READ | PROT_WRITE, MAP_SHARED, made.file, 0);
    if (at == MAP_FAILED) /* not every file system has shared pages */
        return zeros(length);
    made.pages = (struct bytes){at, length};
    sigemptyset(&losing.sa_mask);
    sigaction(SIGBUS, &losing, &before_losing);
    return made.pages;
}

static ssize_t skip(int file, size_t length)
{
    return lseek(file, (off_t)length, SEEK_CUR) < 0 ? -1 : (ssize_t)length;
}

/* 0 when all is written; whole pages of zeros are skipped in a new file. */
static int put(int file, struct bytes content, int is_new)
{
    const size_t page = 65536;
    begin_writing(target.path, content.length);
    for (size_t at = 0; at < content.length;) {
        size_t length = content.length - at < page ? content.length - at : page;
        int is_hole = is_new && is_zero(content.at + at, length);
        ssize_t done = is_hole ? skip(file, length) : write_some(file, content.at + at, length);
        if (done < 0)
            return -1;
        at += (size_t)done;
        count_bytes((uint64_t)done);
    }
    return 0;
}

static void write_directly(struct bytes content)
{
    begin_writing(target.path, 0); /* to open a pipe is to wait for its reader */
    int file = target.standard ? target.standard : open(target.path, O_WRONLY);
    if (file < 0 || put(file, content, 0) || (!target.standard && close(file)))
        cant_write();
}

/* The new file takes the target's place once it has reached the disk. */
static void replace_target(uint64_t length)
{
    if (ftruncate(made.file, (off_t)length) || set_rights(made.file, &target) || fsync(made.file) || close(made.file) ||
        rename(made.path, target.file))
        cant_write();
    keep_finished();
}

static void write_file(struct bytes content)
{
    if (!made.path)
        make_file();
    uint64_t in_pages = made.pages.at ? content.length : 0;
    if (in_pages)
        begin_writing(target.path, 0); /* nobody tells how much of them has reached the disk */
    else if (put(made.file, content, 1))
        cant_write();
    replace_target(content.length);
    count_bytes(in_pages);
}

void write_output(struct bytes content)
{
    if (target.file)
        write_file(content);
    else
        write_directly(content);
    end_step();
}

void drop_output(void)
{
    remove_unfinished();
}
