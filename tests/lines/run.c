#define _GNU_SOURCE
#include "run.h"

#include <errno.h>
#include <fcntl.h>
#include <poll.h>
#include <signal.h>
#include <stdio.h>
#include <stdlib.h>
#include <sys/wait.h>
#include <time.h>
#include <unistd.h>

enum { PATIENCE = 60, PAUSE_MS = 3, CHUNK = 1 << 16, ODD_STEP = 7919 };

char **program;

static double now(void)
{
    struct timespec time;
    clock_gettime(CLOCK_MONOTONIC, &time);
    return (double)time.tv_sec + (double)time.tv_nsec / 1e9;
}

static void need(bool works, const char *what)
{
    if (works)
        return;
    perror(what);
    exit(2);
}

static void make_pipe(int ends[2])
{
    need(pipe2(ends, O_CLOEXEC) == 0, "pipe");
}

static void set_nonblocking(int file)
{
    need(fcntl(file, F_SETFL, O_NONBLOCK) == 0, "fcntl");
}

static pid_t start(int in, int out, int said, bool ignore)
{
    pid_t child = fork();
    need(child >= 0, "fork");
    if (child > 0)
        return child;
    signal(SIGPIPE, ignore ? SIG_IGN : SIG_DFL);
    dup2(in, 0);
    dup2(out, 1);
    dup2(said, 2);
    execv(program[0], program);
    _exit(127);
}

/* Waits for a child; after the deadline it's ended. */
static struct ended finish_child(pid_t child, double began, double deadline)
{
    struct ended ended = {.in_time = true};
    while (waitpid(child, &ended.status, WNOHANG) == 0) {
        if (now() > deadline) {
            kill(child, SIGKILL);
            waitpid(child, &ended.status, 0);
            ended.in_time = false;
            break;
        }
        poll(NULL, 0, 1);
    }
    ended.seconds = now() - began;
    return ended;
}

static int file_of(const struct bytes *in)
{
    FILE *file = tmpfile();
    need(file != NULL, "tmpfile");
    need(in->count == 0 || fwrite(in->at, 1, in->count, file) == in->count, "fwrite");
    need(fflush(file) == 0, "fflush");
    rewind(file);
    int copy = fcntl(fileno(file), F_DUPFD_CLOEXEC, 3);
    need(copy >= 0, "dup");
    fclose(file);
    return copy;
}

/* Moves what is there; closes and forgets the end of a pipe that has ended. */
static void take(struct pollfd *from, struct bytes *to)
{
    static char chunk[CHUNK];
    if (from->fd < 0 || !from->revents)
        return;
    ssize_t count = read(from->fd, chunk, sizeof chunk);
    if (count > 0) {
        put(to, chunk, (size_t)count);
        return;
    }
    close(from->fd);
    from->fd = -1;
}

/* Starts it on `input`, feeds it through `feeding` unless that is -1, and takes what it writes until it ends. */
static struct ended run_on(int input, int feeding, const struct bytes *in, struct feed feed, struct bytes *out,
                           struct bytes *said)
{
    int output[2], error[2];
    clear(out);
    clear(said);
    make_pipe(output);
    make_pipe(error);
    double began = now(), deadline = began + PATIENCE;
    pid_t child = start(input, output[1], error[1], false);
    close(input);
    close(output[1]);
    close(error[1]);

    struct pollfd side[3] = {{output[0], POLLIN, 0}, {error[0], POLLIN, 0}, {feeding, POLLOUT, 0}};
    size_t done = 0, pieces = 0;
    double resume = began;
    while ((side[0].fd >= 0 || side[1].fd >= 0) && now() < deadline) {
        bool resting = now() < resume;
        side[2].fd = feeding >= 0 && !resting ? feeding : -1;
        poll(side, 3, resting ? 1 : 100);
        take(&side[0], out);
        take(&side[1], said);
        if (side[2].fd < 0 || !side[2].revents)
            continue;
        size_t left = in->count - done, piece = 1 + pieces++ * ODD_STEP % feed.most;
        ssize_t put = left ? write(feeding, in->at + done, piece < left ? piece : left) : 0;
        if (put > 0)
            done += (size_t)put;
        if (left == 0 || (put < 0 && errno != EAGAIN)) {
            close(feeding);
            feeding = -1;
        } else if (feed.pauses > 0) {
            feed.pauses--;
            resume = now() + PAUSE_MS / 1e3;
        }
    }
    for (size_t i = 0; i < 2; i++)
        if (side[i].fd >= 0)
            close(side[i].fd);
    if (feeding >= 0)
        close(feeding);
    return finish_child(child, began, deadline);
}

struct ended run(const struct bytes *in, struct feed feed, struct bytes *out, struct bytes *said)
{
    int ends[2] = {-1, -1};
    if (feed.most) {
        make_pipe(ends);
        set_nonblocking(ends[1]);
    } else
        ends[0] = file_of(in);
    return run_on(ends[0], ends[1], in, feed, out, said);
}

struct ended run_dry(const struct bytes *in, struct bytes *out, struct bytes *said)
{
    int ends[2];
    make_pipe(ends);
    set_nonblocking(ends[0]);
    set_nonblocking(ends[1]);
    need(write(ends[1], in->at, in->count) == (ssize_t)in->count, "the pipe has no room");
    struct ended ended = run_on(ends[0], -1, in, (struct feed){0, 0}, out, said);
    close(ends[1]);
    return ended;
}

struct ended run_and_leave(const struct bytes *in, bool ignore)
{
    int input[2], output[2];
    make_pipe(input);
    make_pipe(output);
    double began = now(), deadline = began + PATIENCE;
    int nothing = open("/dev/null", O_WRONLY | O_CLOEXEC);
    need(nothing >= 0, "/dev/null");
    pid_t child = start(input[0], output[1], nothing, ignore);
    close(nothing);
    close(input[0]);
    close(output[1]);
    set_nonblocking(input[1]);

    struct pollfd side[2] = {{output[0], POLLIN, 0}, {input[1], POLLOUT, 0}};
    char byte = 0;
    size_t done = 0;
    while (side[1].fd >= 0 && now() < deadline) {
        poll(side, 2, 100);
        if (side[0].fd >= 0 && side[0].revents && (read(side[0].fd, &byte, 1) <= 0 || byte == '\n')) {
            close(side[0].fd);
            side[0].fd = -1;
        }
        if (!side[1].revents)
            continue;
        ssize_t put = write(input[1], in->at + done, in->count - done);
        if (put > 0)
            done = (done + (size_t)put) % in->count;
        else if (errno != EAGAIN)
            side[1].fd = -1;
    }
    close(input[1]);
    if (side[0].fd >= 0)
        close(side[0].fd);
    return finish_child(child, began, deadline);
}

struct ended run_on_full_device(const struct bytes *in)
{
    int input = file_of(in), full = open("/dev/full", O_WRONLY | O_CLOEXEC);
    int nothing = open("/dev/null", O_WRONLY | O_CLOEXEC);
    need(full >= 0 && nothing >= 0, "/dev/full");
    double began = now();
    pid_t child = start(input, full, nothing, false);
    close(input);
    close(full);
    close(nothing);
    return finish_child(child, began, began + PATIENCE);
}
