/* For tests/check-streams, loaded before the C library: of three calls of read or write two are interrupted by a signal that never came, reads
   move at most 5 bytes and writes at most 3. At the end it says on standard error how many there were of each. */
#define _GNU_SOURCE
#include <errno.h>
#include <stdio.h>
#include <string.h>
#include <sys/syscall.h>
#include <unistd.h>

static ssize_t moved(unsigned *calls, long call, int file, const void *bytes, size_t length, size_t most) {
    if ((*calls)++ % 3 < 2) {
        errno = EINTR;
        return -1;
    }
    return syscall(call, file, bytes, length < most ? length : most);
}

static unsigned reads, writes;

ssize_t read(int file, void *bytes, size_t length) { return moved(&reads, SYS_read, file, bytes, length, 5); }

ssize_t write(int file, const void *bytes, size_t length) { return moved(&writes, SYS_write, file, bytes, length, 3); }

__attribute__((destructor)) static void tell(void) {
    char text[64];
    snprintf(text, sizeof text, "%u reads, %u writes\n", reads, writes);
    if (syscall(SYS_write, STDERR_FILENO, text, strlen(text)) < 0) {
        _exit(1);
    }
}
