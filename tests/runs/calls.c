/* Stands in for the C library's read of standard input and write of standard output, so that a test can make them move bytes in parts, be interrupted or fail.
   READS and WRITES say what the calls do, a character a call, the last one for all later calls:
   0 to 9, so many bytes at most; a, all that there are; i, interrupted by a signal; f, a failure. */
#define _GNU_SOURCE
#include <errno.h>
#include <stdlib.h>
#include <sys/syscall.h>
#include <unistd.h>

static ssize_t scripted(long call, const char **script, int fd, void *bytes, size_t count) {
    char step = **script;
    if ((*script)[0] != '\0' && (*script)[1] != '\0')
        ++*script;
    if (step == 'i' || step == 'f') {
        errno = step == 'i' ? EINTR : EIO;
        return -1;
    }
    if (step >= '0' && step <= '9' && count > (size_t)(step - '0'))
        count = (size_t)(step - '0');
    return syscall(call, fd, bytes, count);
}

static const char *script_of(const char *name) {
    const char *script = getenv(name);
    return script != NULL ? script : "a";
}

ssize_t read(int fd, void *bytes, size_t count) {
    static const char *script;
    if (fd != 0)
        return syscall(SYS_read, fd, bytes, count);
    if (script == NULL)
        script = script_of("READS");
    return scripted(SYS_read, &script, fd, bytes, count);
}

ssize_t write(int fd, const void *bytes, size_t count) {
    static const char *script;
    if (fd != 1)
        return syscall(SYS_write, fd, bytes, count);
    if (script == NULL)
        script = script_of("WRITES");
    return scripted(SYS_write, &script, fd, (void *)bytes, count);
}
