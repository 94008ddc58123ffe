/* Preloaded into the program: its standard output takes the number of bytes that TAKING gives, and then none, without an error. */

#include <stdlib.h>
#include <sys/syscall.h>
#include <unistd.h>

ssize_t write(int file, const void *bytes, size_t count) {
    static long left = -1;
    if (file == STDOUT_FILENO) {
        const char *room = getenv("TAKING");
        if (left < 0) left = room ? atol(room) : 0;
        if (count > (size_t)left) count = left;
        left -= count;
        if (!count) return 0;
    }
    return syscall(SYS_write, file, bytes, count);
}
