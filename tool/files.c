#define _DEFAULT_SOURCE /* S_ISREG, fcntl */
#include "files.h"

#include "fail.h"
#include "progress.h"

#include <errno.h>
#include <fcntl.h>
#include <poll.h>
#include <string.h>
#include <unistd.h>

const char standard_input[] = "standard input", standard_output[] = "standard output";

enum { CHUNK = 1 << 16, BEGINNING = 1 << 20 };

/* A file that is open to be read. */
struct input {
    const char *path;
    int file;
    uint64_t size; /* what is left to be read of a regular file; 0 where that isn't known */
};

void hold_standard_files(void)
{
    for (int file = STDIN_FILENO; file <= STDERR_FILENO; file++)
        if (fcntl(file, F_GETFD) < 0 && open("/dev/null", file == STDIN_FILENO ? O_WRONLY : O_RDONLY) != file)
            fail("/dev/null: can't be opened: %s", strerror(errno));
}

int is_one_file(const struct stat *one, const struct stat *other)
{
    return one->st_dev == other->st_dev && one->st_ino == other->st_ino;
}

/* After a read or write that failed: whether it can be tried again, once the file is ready where that was amiss. */
static int can_try_again(int file, short event)
{
    struct pollfd ready = {file, event, 0};
    if (errno == EAGAIN) /* a standard file may be set so by others */
        poll(&ready, 1, -1);
    return errno == EINTR || errno == EAGAIN;
}

ssize_t write_some(int file, const uint8_t *at, size_t length)
{
    ssize_t done;
    do
        done = write(file, at, length);
    while (done < 0 && can_try_again(file, POLLOUT));
    return done;
}

static uint64_t lesser(uint64_t one, uint64_t other)
{
    return one < other ? one : other;
}

static void cant_read(const struct input *input)
{
    fail("%s: can't be read: %s", input->path, strerror(errno));
}

static struct input open_input(const char *path)
{
    struct stat about;
    begin_reading(path, 0); /* to open a pipe is to wait for its writer */
    struct input input = {path, path == standard_input ? STDIN_FILENO : open(path, O_RDONLY), 0};
    if (input.file < 0 || fstat(input.file, &about))
        cant_read(&input);
    off_t at = S_ISREG(about.st_mode) ? lseek(input.file, 0, SEEK_CUR) : -1;
    if (at >= 0 && at < about.st_size)
        input.size = (uint64_t)(about.st_size - at);
    begin_reading(path, input.size);
    return input;
}

static void close_input(const struct input *input)
{
    if (input->file != STDIN_FILENO)
        close(input->file);
    end_step();
}

/* Reads up to `length` bytes, 0 at the end of the file. */
static size_t read_some(const struct input *input, uint8_t *at, uint64_t length)
{
    ssize_t got;
    do
        got = read(input->file, at, lesser(length, BEGINNING));
    while (got < 0 && can_try_again(input->file, POLLIN));
    if (got < 0)
        cant_read(input);
    count_bytes((uint64_t)got);
    return (size_t)got;
}

/* Reads to the end, or to one byte over `most`. */
static struct bytes read_all(const struct input *input, uint64_t most)
{
    struct bytes all = {NULL, 0};
    uint64_t room = 0;
    size_t got;
    do {
        if (all.length == room) {
            room = lesser(room ? 2 * room : input->size + CHUNK, most + 1);
            all.at = allocate(all.at, room);
        }
        got = read_some(input, all.at + all.length, room - all.length);
        all.length += got;
    } while (got && all.length <= most);
    return all;
}

/* Reads to the end, or to one byte over `most`, and keeps what the room takes. Zeros are there already. */
static uint64_t keep_in(struct bytes room, const struct input *input, uint64_t most)
{
    static uint8_t chunk[CHUNK];
    uint64_t done = 0;
    size_t got;
    do {
        got = read_some(input, chunk, lesser(most + 1 - done, CHUNK));
        size_t kept = (size_t)lesser(done < room.length ? room.length - done : 0, got);
        if (!is_zero(chunk, kept)) /* a page of zeros stays untouched, so a hole stays one */
            memcpy(room.at + done, chunk, kept);
        done += got;
    } while (got && done <= most);
    return done;
}

struct bytes read_file(const char *path, uint64_t most)
{
    struct input input = open_input(path);
    struct bytes all;
    if (input.size > most) {
        all = zeros(most + 1);
        keep_in(all, &input, lesser(most, BEGINNING - 1));
    } else {
        all = read_all(&input, most);
    }
    close_input(&input);
    return all;
}

uint64_t read_into(struct bytes room, const char *path, uint64_t most)
{
    struct input input = open_input(path);
    uint64_t length = lesser(input.size, most + 1);
    if (!input.size || (room.at && length == room.length))
        length = keep_in(room, &input, most);
    close_input(&input);
    return length;
}
