/*
 * measure COMMAND WORD.. runs a command with this program's own input and output, and then says on standard error how many
 * microseconds it took, how many of processor time it and the system for it worked, and how many kilobytes it had at most. It
 * ends with the command's status.
 */
#include <stdio.h>
#include <stdlib.h>
#include <sys/resource.h>
#include <sys/wait.h>
#include <time.h>
#include <unistd.h>

static long micros_of(struct timeval time)
{
    return time.tv_sec * 1000000 + time.tv_usec;
}

int main(int many, char **words)
{
    struct timespec begin, end;
    struct rusage used;
    int status;
    if (many < 2)
        return 2;
    clock_gettime(CLOCK_MONOTONIC, &begin);
    pid_t child = fork();
    if (child == 0) {
        execvp(words[1], words + 1);
        _exit(127);
    }
    if (child < 0 || wait4(child, &status, 0, &used) != child)
        return 2;
    clock_gettime(CLOCK_MONOTONIC, &end);
    long micros = (end.tv_sec - begin.tv_sec) * 1000000 + (end.tv_nsec - begin.tv_nsec) / 1000;
    fprintf(stderr, "%ld %ld %ld\n", micros, micros_of(used.ru_utime) + micros_of(used.ru_stime), used.ru_maxrss);
    return WIFEXITED(status) ? WEXITSTATUS(status) : 128 + WTERMSIG(status);
}
