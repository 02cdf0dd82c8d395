/* Preloaded into a program by tools/programs. Calls of read and write on descriptors 0, 1 and 2 go as planned, and all
   calls of read and write are recorded, and those of close on descriptors 0, 1 and 2.

   STREAMS_0, STREAMS_1 and STREAMS_2 are the plans: a number for each call on that descriptor, with spaces between. A
   positive number is the most octets that the call moves, 0 makes it return 0, and -N makes it fail with errno N. With
   * after the last number the plan begins again; without it later calls are left as they are.

   Each call adds five numbers of 32 bits to the descriptor in STREAMS_CALLS: 0 for read, 1 for write or 2 for close, the
   descriptor, the octets asked, what was returned, and errno if that was below 0, otherwise 0. */

#define _GNU_SOURCE

#include <errno.h>
#include <limits.h>
#include <stdint.h>
#include <stdlib.h>
#include <string.h>
#include <sys/syscall.h>
#include <unistd.h>

enum { PLANS = 3 };

/* What is planned for the next call on a descriptor; LONG_MAX if nothing is. */
static long planned(int fd)
{
    static const char *const names[PLANS] = {"STREAMS_0", "STREAMS_1", "STREAMS_2"};
    static const char *rest[PLANS];
    const char *plan = fd >= 0 && fd < PLANS ? getenv(names[fd]) : NULL;
    char *end;
    long number;

    if (plan == NULL)
        return LONG_MAX;
    if (rest[fd] == NULL || *rest[fd] == '*')
        rest[fd] = plan;
    number = strtol(rest[fd], &end, 10);
    if (end == rest[fd])
        return LONG_MAX;
    rest[fd] = end + strspn(end, " ");
    return number;
}

static void record(int32_t kind, int fd, size_t asked, ssize_t returned, int error)
{
    const int32_t call[] = {kind, fd, (int32_t)asked, (int32_t)returned, error};
    const char *calls = getenv("STREAMS_CALLS");

    if (calls == NULL || syscall(SYS_write, atoi(calls), call, sizeof call) != sizeof call)
        abort();
}

static ssize_t call(int32_t kind, int fd, void *octets, size_t asked)
{
    int error = errno;
    long number = planned(fd);
    ssize_t returned = 0;

    if (number < 0) {
        returned = -1;
        error = (int)-number;
    } else if (number > 0) {
        size_t most = asked < (size_t)number ? asked : (size_t)number;
        returned = syscall(kind == 0 ? SYS_read : SYS_write, fd, octets, most);
        if (returned < 0)
            error = errno;
    }
    record(kind, fd, asked, returned, returned < 0 ? error : 0);
    errno = error;
    return returned;
}

ssize_t read(int fd, void *octets, size_t asked)
{
    return call(0, fd, octets, asked);
}

ssize_t write(int fd, const void *octets, size_t asked)
{
    return call(1, fd, (void *)octets, asked);
}

int close(int fd)
{
    int error = errno;
    int returned = (int)syscall(SYS_close, fd);

    if (returned < 0)
        error = errno;
    if (fd >= 0 && fd < PLANS)
        record(2, fd, 0, returned, returned < 0 ? error : 0);
    errno = error;
    return returned;
}
