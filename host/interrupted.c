// Stands before the C library in a program under test: of its reads and writes every second one is interrupted before it moves a byte, and the others
// move at most seven bytes.
#include <errno.h>
#include <sys/syscall.h>
#include <unistd.h>

static int calls;

static int is_interrupted(void) {
    calls += 1;
    if (calls % 2 == 1) {
        errno = EINTR;
        return 1;
    }
    return 0;
}

ssize_t read(int fd, void *bytes, size_t count) {
    return is_interrupted() ? -1 : syscall(SYS_read, fd, bytes, count < 7 ? count : 7);
}

ssize_t write(int fd, const void *bytes, size_t count) {
    return is_interrupted() ? -1 : syscall(SYS_write, fd, bytes, count < 7 ? count : 7);
}
