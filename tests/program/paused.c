/* paused PROGRAM: runs PROGRAM on a standard input that gives one line and then fails: a pipe that is still open for writing, and
   whose reader does not wait (EAGAIN). */
#define _POSIX_C_SOURCE 200809L
#include <fcntl.h>
#include <stdio.h>
#include <unistd.h>

int main(int argc, char **argv)
{
    int ends[2];
    if (argc == 2 && pipe(ends) == 0 && write(ends[1], "* A\n", 4) == 4 &&
        fcntl(ends[0], F_SETFL, O_NONBLOCK) == 0 && dup2(ends[0], STDIN_FILENO) == STDIN_FILENO)
        execv(argv[1], argv + 1);
    perror("paused");
    return 1;
}
