// Records what the program that it is loaded into asks of the system for one file, the one that RECORD_FILE names, and what
// it writes on standard output, in order, into the file that RECORD_INTO names. With FORGET at n each n-th sync isn't made.
// A record is a letter, a place and a length in 8 bytes each, and that many bytes: W for a write, T for a new length of the
// file (its place), S for a sync, F for a sync of its folder, A for standard output.
#define _GNU_SOURCE
#include <fcntl.h>
#include <stdarg.h>
#include <stdint.h>
#include <stdlib.h>
#include <string.h>
#include <sys/syscall.h>
#include <unistd.h>

static int into = -1;
static int file = -1;
static int folder = -1;
static long syncs = 0;

static void record(char letter, uint64_t place, const void *bytes, uint64_t length) {
    if (into < 0)
        into = syscall(SYS_openat, AT_FDCWD, getenv("RECORD_INTO"), O_WRONLY | O_CREAT | O_APPEND | O_CLOEXEC, 0644);
    uint64_t numbers[2] = {place, length};
    syscall(SYS_write, into, &letter, 1);
    syscall(SYS_write, into, numbers, sizeof numbers);
    syscall(SYS_write, into, bytes, length);
}

static int is_folder(const char *path) {
    const char *name = getenv("RECORD_FILE"), *end = strrchr(name, '/');
    return end && strlen(path) == (size_t)(end - name) && strncmp(path, name, end - name) == 0;
}

int open(const char *path, int flags, ...) {
    va_list rest;
    va_start(rest, flags);
    int opened = syscall(SYS_openat, AT_FDCWD, path, flags, flags & O_CREAT ? va_arg(rest, int) : 0);
    va_end(rest);
    if (opened == folder)
        folder = -1;
    if (opened >= 0 && is_folder(path))
        folder = opened;
    if (opened >= 0 && strcmp(path, getenv("RECORD_FILE")) == 0) {
        file = opened;
        if (flags & O_TRUNC)
            record('T', 0, "", 0);
    }
    return opened;
}

ssize_t write(int to, const void *bytes, size_t length) {
    uint64_t place = to == file ? syscall(SYS_lseek, to, 0, SEEK_CUR) : 0;
    ssize_t written = syscall(SYS_write, to, bytes, length);
    if (written > 0 && (to == file || to == 1))
        record(to == file ? 'W' : 'A', place, bytes, written);
    return written;
}

ssize_t __write(int to, const void *bytes, size_t length) {
    return write(to, bytes, length);
}

ssize_t pwrite(int to, const void *bytes, size_t length, off_t place) {
    ssize_t written = syscall(SYS_pwrite64, to, bytes, length, place);
    if (written > 0 && to == file)
        record('W', place, bytes, written);
    return written;
}

ssize_t pwrite64(int to, const void *bytes, size_t length, off_t place) {
    return pwrite(to, bytes, length, place);
}

int ftruncate(int of, off_t length) {
    int status = syscall(SYS_ftruncate, of, length);
    if (status == 0 && of == file)
        record('T', length, "", 0);
    return status;
}

static int synced(int call, int of) {
    const char *forget = getenv("FORGET");
    int is_recorded = of >= 0 && (of == file || of == folder);
    if (is_recorded && forget && ++syncs % atol(forget) == 0)
        return 0;
    int status = syscall(call, of);
    if (status == 0 && is_recorded)
        record(of == file ? 'S' : 'F', 0, "", 0);
    return status;
}

int fdatasync(int of) {
    return synced(SYS_fdatasync, of);
}

int fsync(int of) {
    return synced(SYS_fsync, of);
}
