/* A `read` for LD_PRELOAD that moves at most READ_MOST bytes, and whose call number READ_FAILS fails. */
#define _GNU_SOURCE
#include <errno.h>
#include <stdlib.h>
#include <sys/syscall.h>
#include <unistd.h>

ssize_t read(int file, void *buffer, size_t size)
{
    static unsigned long calls;
    size_t most = strtoul(getenv("READ_MOST"), NULL, 10);

    if (++calls == strtoul(getenv("READ_FAILS"), NULL, 10)) {
        errno = EIO;
        return -1;
    }
    return syscall(SYS_read, file, buffer, size < most ? size : most);
}
