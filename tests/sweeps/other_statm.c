/* Preloaded before a server, has it open the file that STATM names in place of /proc/self/statm. All other files are
   the system's. */
#define _GNU_SOURCE
#include <fcntl.h>
#include <stdarg.h>
#include <stdlib.h>
#include <string.h>
#include <sys/syscall.h>
#include <unistd.h>

int open(const char *path, int flags, ...) {
    va_list more;
    va_start(more, flags);
    int mode = flags & O_CREAT ? va_arg(more, int) : 0;
    va_end(more);
    const char *other = getenv("STATM");
    if (other && !strcmp(path, "/proc/self/statm")) path = other;
    return syscall(SYS_openat, AT_FDCWD, path, flags, mode);
}
