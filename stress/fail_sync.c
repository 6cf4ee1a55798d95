/* Lets one sync of a program fail; it is loaded before the program by LD_PRELOAD. That whose number, from 1, is
   FAIL_SYNC syncs nothing and answers EIO. service/test builds this and uses it. */
#define _GNU_SOURCE
#include <errno.h>
#include <stdatomic.h>
#include <stdlib.h>
#include <sys/syscall.h>
#include <unistd.h>

static atomic_ulong syncs;

static int sync_by(long call, int descriptor) {
    const char *number = getenv("FAIL_SYNC");
    if (++syncs == (number ? strtoul(number, NULL, 10) : 0)) {
        errno = EIO;
        return -1;
    }
    return (int)syscall(call, descriptor);
}

int fsync(int descriptor) {
    return sync_by(SYS_fsync, descriptor);
}

int fdatasync(int descriptor) {
    return sync_by(SYS_fdatasync, descriptor);
}
