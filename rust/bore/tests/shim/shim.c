/* Stands before the C library's read and write of a program (LD_PRELOAD). A call on standard input or output
 * moves one byte at most, and before each one so many calls fail as SHIM_READS or SHIM_WRITES says: in turn one
 * was interrupted and one would have to wait, and of the writes a third takes nothing. sched_yield returns at
 * once. */
#define _GNU_SOURCE
#include <errno.h>
#include <stdlib.h>
#include <sys/syscall.h>
#include <unistd.h>

/* How many calls in a row have failed, and how many are to. */
static unsigned long failed, reads, writes;

static unsigned long set_to(const char *name)
{
    const char *text = getenv(name);
    return text ? strtoul(text, NULL, 10) : 0;
}

__attribute__((constructor)) static void begin(void)
{
    reads = set_to("SHIM_READS");
    writes = set_to("SHIM_WRITES");
}

/* Whether this call fails, with this error. */
static int fails(unsigned long most, int error)
{
    if (failed < most) {
        failed++;
        errno = error;
        return 1;
    }
    failed = 0;
    return 0;
}

ssize_t read(int fd, void *bytes, size_t count)
{
    if (fd == STDIN_FILENO && fails(reads, failed % 2 ? EAGAIN : EINTR)) {
        return -1;
    }
    return syscall(SYS_read, fd, bytes, fd == STDIN_FILENO && count > 1 ? 1 : count);
}

ssize_t write(int fd, const void *bytes, size_t count)
{
    static const int errors[] = {EINTR, 0, EAGAIN};
    const int error = errors[failed % 3];
    if (fd == STDOUT_FILENO && fails(writes, error)) {
        return error ? -1 : 0;
    }
    return syscall(SYS_write, fd, bytes, fd == STDOUT_FILENO && count > 1 ? 1 : count);
}

int sched_yield(void)
{
    return 0;
}
