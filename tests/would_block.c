/* Runs a command on a pipe that holds a text and has a writer still, and from which a further read would block: such a read fails.
   Usage: would_block TEXT COMMAND... */
#include <fcntl.h>
#include <string.h>
#include <unistd.h>

int main(int argc, char **argv)
{
    int ends[2];
    if (argc < 3 || pipe(ends) != 0 || fcntl(ends[0], F_SETFL, O_NONBLOCK) != 0)
        return 2;
    if (write(ends[1], argv[1], strlen(argv[1])) < 0 || dup2(ends[0], STDIN_FILENO) < 0)
        return 2;
    execv(argv[2], argv + 2);
    return 2;
}
