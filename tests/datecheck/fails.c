/* Loaded before the C library: the read and the write that the environment numbers fail, once each, and every other goes through.
   FAIL_READ and FAIL_WRITE count from 1, the reads of standard input and the writes to standard output. A read gives five bytes at most. */
#define _GNU_SOURCE
#include <errno.h>
#include <stdlib.h>
#include <sys/syscall.h>
#include <sys/types.h>
#include <unistd.h>

static int fails(const char *name, int call) {
    const char *number = getenv(name);
    return number != NULL && atoi(number) == call;
}

ssize_t read(int file, void *bytes, size_t length) {
    static int calls = 0;
    if (file == STDIN_FILENO && fails("FAIL_READ", ++calls)) {
        errno = EIO;
        return -1;
    }
    return syscall(SYS_read, file, bytes, length < 5 ? length : 5);
}

ssize_t write(int file, const void *bytes, size_t length) {
    static int calls = 0;
    if (file == STDOUT_FILENO && fails("FAIL_WRITE", ++calls)) {
        errno = ENOSPC;
        return -1;
    }
    return syscall(SYS_write, file, bytes, length);
}
