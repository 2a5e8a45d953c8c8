/* Preloaded by `.ci/edge`: counts a program's calls on the outside, and lets one or some of them fail.
 *
 * EDGE_FAIL is KIND:NUMBER:ERRNO, the call of that kind (alloc, open, read, write) that fails and its errno; with
 * EDGE_ALL all behind it fail too. EDGE_SHORT is how many bytes each read and write moves at most. EDGE_AGAIN has each
 * open, read and write interrupted when it is first tried. EDGE_ROOM is how many bytes standard output takes
 * before it is full, EDGE_ROOM_FILES each other file. EDGE_TURN is NUMBER:SIZE:PATH: before the read of that number the file gets that size. EDGE_COUNTS is a file,
 * to which the numbers of calls are written at the end, in the order of the kinds. Only calls from the program's start
 * on count. */
#define _GNU_SOURCE
#include <errno.h>
#include <fcntl.h>
#include <stdarg.h>
#include <stdio.h>
#include <stdlib.h>
#include <string.h>
#include <sys/syscall.h>
#include <unistd.h>

extern void *__libc_malloc(size_t);
extern void *__libc_calloc(size_t, size_t);
extern void *__libc_realloc(void *, size_t);

enum kind { ALLOC, OPEN, READ, WRITE, KINDS };
static const char *const names[KINDS] = {"alloc", "open", "read", "write"};
static long calls[KINDS];
static int started, again, interrupted, all_behind, fail_kind = -1, fail_errno;
static long fail_number, most = -1, room = -1, room_files = -1, turn_number, turn_size;
static const char *turned;
static long taken[64];

static long number_of(const char *name) {
    const char *said = getenv(name);
    return said ? strtol(said, NULL, 10) : -1;
}

__attribute__((constructor)) static void start(void) {
    char name[16];
    const char *fail = getenv("EDGE_FAIL");
    if (fail && sscanf(fail, "%15[a-z]:%ld:%d", name, &fail_number, &fail_errno) == 3)
        for (int kind = 0; kind < KINDS; kind++)
            if (!strcmp(name, names[kind]))
                fail_kind = kind;
    const char *turn = getenv("EDGE_TURN");
    int path = 0;
    if (turn && sscanf(turn, "%ld:%ld:%n", &turn_number, &turn_size, &path) == 2 && path)
        turned = turn + path;
    all_behind = getenv("EDGE_ALL") != NULL;
    most = number_of("EDGE_SHORT");
    room = number_of("EDGE_ROOM");
    room_files = number_of("EDGE_ROOM_FILES");
    again = getenv("EDGE_AGAIN") != NULL;
    started = 1;
}

__attribute__((destructor)) static void stop(void) {
    char line[128];
    const char *path = getenv("EDGE_COUNTS");
    started = 0;
    if (!path)
        return;
    int file = syscall(SYS_openat, AT_FDCWD, path, O_WRONLY | O_CREAT | O_TRUNC, 0644);
    int size = snprintf(line, sizeof line, "%ld %ld %ld %ld\n", calls[ALLOC], calls[OPEN], calls[READ], calls[WRITE]);
    if (file < 0 || syscall(SYS_write, file, line, size) != size)
        _exit(99);
}

/* Counts the call, and says whether it fails. */
static int fails(enum kind kind) {
    if (!started)
        return 0;
    if (again && kind != ALLOC && (interrupted = !interrupted)) {
        errno = EINTR;
        return 1;
    }
    calls[kind]++;
    if ((int)kind != fail_kind || calls[kind] < fail_number || (calls[kind] > fail_number && !all_behind))
        return 0;
    errno = fail_errno;
    return 1;
}

void *malloc(size_t size) { return fails(ALLOC) ? NULL : __libc_malloc(size); }

void *calloc(size_t count, size_t size) { return fails(ALLOC) ? NULL : __libc_calloc(count, size); }

void *realloc(void *old, size_t size) { return fails(ALLOC) ? NULL : __libc_realloc(old, size); }

int open(const char *path, int flags, ...) {
    va_list rest;
    va_start(rest, flags);
    int mode = flags & O_CREAT ? va_arg(rest, int) : 0;
    va_end(rest);
    if (fails(OPEN))
        return -1;
    int file = syscall(SYS_openat, AT_FDCWD, path, flags, mode);
    if (file >= 0 && file < 64)
        taken[file] = 0;
    return file;
}

static size_t short_of(size_t size) { return most > 0 && size > (size_t)most ? (size_t)most : size; }

ssize_t read(int file, void *bytes, size_t size) {
    if (fails(READ))
        return -1;
    if (turned && calls[READ] == turn_number && syscall(SYS_truncate, turned, turn_size))
        _exit(98);
    return syscall(SYS_read, file, bytes, short_of(size));
}

ssize_t write(int file, const void *bytes, size_t size) {
    if (fails(WRITE))
        return -1;
    size = short_of(size);
    long most_of = file == 1 ? room : room_files;
    if (most_of >= 0 && file >= 0 && file < 64) {
        if (size && taken[file] >= most_of) {
            errno = ENOSPC;
            return -1;
        }
        if (size > (size_t)(most_of - taken[file]))
            size = most_of - taken[file];
        taken[file] += size;
    }
    return syscall(SYS_write, file, bytes, size);
}

ssize_t __write(int file, const void *bytes, size_t size) { return write(file, bytes, size); }
