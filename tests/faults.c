/* Stands before the C library's read and write, where it is loaded first. READS has a letter for each read of standard input in
   turn, WRITES one for each write to standard output: i is interrupted by a signal, e fails, and a digit moves at most so many bytes. The calls
   behind the last letter do what they are asked. */
#include <errno.h>
#include <stdlib.h>
#include <string.h>
#include <sys/syscall.h>
#include <unistd.h>

static ssize_t call(long number, int fd, const void *bytes, size_t size, const char *faults, size_t *calls)
{
    char fault = '\0';
    if (faults != NULL && *calls < strlen(faults))
        fault = faults[(*calls)++];
    if (fault == 'i' || fault == 'e') {
        errno = fault == 'i' ? EINTR : EIO;
        return -1;
    }
    size_t most = fault == '\0' ? size : (size_t)(fault - '0');
    return syscall(number, fd, bytes, size < most ? size : most);
}

ssize_t read(int fd, void *bytes, size_t size)
{
    static size_t calls;
    return call(SYS_read, fd, bytes, size, fd == STDIN_FILENO ? getenv("READS") : NULL, &calls);
}

ssize_t write(int fd, const void *bytes, size_t size)
{
    static size_t calls;
    return call(SYS_write, fd, bytes, size, fd == STDOUT_FILENO ? getenv("WRITES") : NULL, &calls);
}
