/* Preloaded before a program, lets each of its syncs take so many microseconds longer as SYNC_MICROS says. */
#define _GNU_SOURCE
#include <stdlib.h>
#include <sys/syscall.h>
#include <unistd.h>

static int synced(long number, int file) {
    const char *micros = getenv("SYNC_MICROS");
    if (micros) usleep(atoi(micros));
    return syscall(number, file);
}

int fsync(int file) { return synced(SYS_fsync, file); }

int fdatasync(int file) { return synced(SYS_fdatasync, file); }
